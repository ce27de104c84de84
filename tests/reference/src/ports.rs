//! What program `ports` writes: the port log itself.

use crate::lent::Lent;
use crate::numbers::ROM_LENGTH;
use crate::trace::refused;

/// Runs a panel as program `trace` reads it, with room in its log for every record, and gives the bytes
/// of the log; of a refused one "only `refused` and the number".
pub fn ports(input: &[u8]) -> Vec<u8> {
    let Some(lent) = Lent::of_panel(input) else {
        return refused(ROM_LENGTH).into_bytes();
    };
    let (answer, mut log) = lent.with_room().run();
    if answer.refused {
        return refused(answer.number).into_bytes();
    }
    log.truncate(answer.written);
    log
}
