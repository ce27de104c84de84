//! A log told in full: what is carried, the records and the answer.

use reference::log::{records, RECORD, RESET};
use reference::waiting::{grounds, read_on, Carried};

pub fn all(carried: &Carried, log: &[u8]) -> String {
    let answer = read_on(carried, log);
    let grounds: Vec<String> = grounds(carried, log)
        .iter()
        .map(|ground| format!(" {ground:?}"))
        .collect();
    [
        format!("carried\n{}", told_carried(carried)),
        format!("\nlog of {} bytes\n{}", log.len(), told_log(log)),
        format!("\nanswer {}{}\n", answer.number, grounds.concat()),
        told_carried(&answer.carried),
    ]
    .concat()
}

fn told_carried(carried: &Carried) -> String {
    let mut text = String::from("  landing closed cycles longest open start\n");
    for (place, landing) in carried.landings.iter().enumerate() {
        text.push_str(&format!(
            "  {place} {} {} {} {} {}\n",
            landing.closed, landing.cycles, landing.longest, landing.open, landing.start
        ));
    }
    text.push_str(&format!(
        "  lamps {:04b}, last cycle {}\n",
        carried.lamps, carried.last
    ));
    text
}

/// A line for each record, whatever its port, and the bytes behind the last one.
fn told_log(log: &[u8]) -> String {
    let mut text = String::from("  cycle port value\n");
    for record in records(log) {
        let port = match record.port {
            RESET => String::from("R"),
            port @ 2..=8 => char::from(b'A' + port).to_string(),
            port => port.to_string(),
        };
        text.push_str(&format!("  {} {port} {:X}\n", record.cycle, record.value));
    }
    let rest = &log[log.len() / RECORD * RECORD..];
    if !rest.is_empty() {
        text.push_str(&format!("  {} bytes more: {rest:02X?}\n", rest.len()));
    }
    text
}
