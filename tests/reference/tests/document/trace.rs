//! "Program `trace`".

use reference::trace;

use crate::common::*;

fn input(n: u32, rom: &[u8], schedule: &[u8]) -> Vec<u8> {
    [&n.to_be_bytes(), rom, schedule].concat()
}

#[test]
fn the_example_to_the_letter() {
    let rom = rom(&[(0, &[0x1E, 0xA5, 0x93, 0x44, 0x1C])]);
    let expected = "\
cycle port value
0 C 5
0 D A
3 E 3
end 5 3 23
";
    assert_eq!(trace(&input(10, &rom, &[])), expected);
}

#[test]
fn refusals_print_one_line() {
    let rom = rom(&[(0, &[0x1C])]);
    assert_eq!(trace(&[]), "refused 21\n");
    assert_eq!(trace(&[0; 3]), "refused 21\n");
    assert_eq!(trace(&input(10, &rom, &[])[..2_003]), "refused 21\n");
    assert_eq!(trace(&input(10, &rom, &[0; 5])), "refused 11\n");
    assert_eq!(trace(&input(10, &rom, &[0; 40_961])), "refused 12\n");
    assert_eq!(trace(&input(10, &rom, &record(0, 0, 0, 2))), "refused 13\n");
    assert_eq!(trace(&input(10, &rom, &[0; 20])), "refused 14\n");
}

#[test]
fn a_run_without_records() {
    assert_eq!(
        trace(&input(0, &rom(&[]), &[])),
        "cycle port value\nend 0 0 0\n"
    );
    assert_eq!(
        trace(&input(10, &rom(&[]), &record(3, 0, 0, 0))),
        "cycle port value\nend 10 10 0\n"
    );
}

#[test]
fn every_port_has_its_letter() {
    // LDZ 2 to 8, each with an OP.
    let mut code = vec![0x9F];
    for port in 2..=8 {
        code.extend([0x80 + port, 0x0E]);
    }
    let rom = rom(&[(0, &code)]);
    let expected = "\
cycle port value
2 C F
4 D F
6 E F
8 F F
10 G F
12 H F
14 I 7
end 15 15 0
";
    assert_eq!(trace(&input(15, &rom, &[])), expected);
}

#[test]
fn the_log_takes_2_048_records() {
    // OE, JCP 000: a record every three cycles.
    let rom = rom(&[(0, &[0x44, 0xC0])]);
    let text = trace(&input(100_000, &rom, &[]));
    let lines: Vec<&str> = text.lines().collect();
    assert_eq!(lines.len(), 2_050);
    assert_eq!(lines[2_048], "6141 E 0");
    assert_eq!(lines[2_049], "end 6144 4096 3");
}
