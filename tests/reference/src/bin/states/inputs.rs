//! The inputs: each refusal, in stores and images that are sound and damaged, and inputs that are cut.

use crate::answers::End::{self, Mistaken, Refused, Whole};
use reference::asking::{asking, questions, values_from};
use reference::case::{lines, panel as panel_of, record};
use reference::draw::Draw;
use reference::kinds::Kind;
use reference::maker::sample;

pub struct Input {
    pub name: String,
    pub bytes: Vec<u8>,
    pub end: End,
}

fn input(name: &str, bytes: Vec<u8>, end: End) -> Input {
    Input {
        name: String::from(name),
        bytes,
        end,
    }
}

pub const STORING: [Kind<Input>; 3] = [
    ("stored", stored),
    ("refused", not_stored),
    ("mistaken", storing_mistaken),
];

pub const RECALLING: [Kind<Input>; 3] = [
    ("recalled", recalled),
    ("refused", not_recalled),
    ("mistaken", recalling_mistaken),
];

pub const FORWARD: [Kind<Input>; 4] = [
    ("runs", runs),
    ("stops", stops),
    ("refused", not_run),
    ("cut", cut),
];

pub const SHORTENING: [Kind<Input>; 4] = [
    ("stops", halts),
    ("panels", shortened),
    ("finishes", finishes),
    ("refused", not_shortened),
];

const ENTRY: usize = 90;
const FULL: &[u8; 8] = b"full    ";
const LAST: &[u8; 8] = b"lastcall";

/// A name, a store and what is behind it.
pub fn parts(name: &[u8], store: &[u8], rest: &[u8]) -> Vec<u8> {
    [
        name,
        &u32::try_from(store.len())
            .expect("a short store")
            .to_be_bytes(),
        store,
        rest,
    ]
    .concat()
}

/// A panel from the fresh state, n cycles.
pub fn fresh(n: u64, panel: &[u8]) -> Vec<u8> {
    [&[0], &n.to_be_bytes()[..], &[0; 4], panel].concat()
}

/// A panel from an image.
pub fn image(n: u64, image: &[u8], panel: &[u8]) -> Vec<u8> {
    let length = u32::try_from(image.len())
        .expect("a short image")
        .to_be_bytes();
    [&[1], &n.to_be_bytes()[..], &length, image, panel].concat()
}

fn full() -> Vec<u8> {
    sample("full.image")
}

/// The same panel later.
fn later() -> Vec<u8> {
    with(&full(), 80, 200)
}

fn with(bytes: &[u8], at: usize, byte: u8) -> Vec<u8> {
    let mut bytes = bytes.to_vec();
    bytes[at] = byte;
    bytes
}

/// A store of so many entries, these the first.
fn store(entries: usize, kept: &[(&[u8; 8], Vec<u8>)]) -> Vec<u8> {
    let mut bytes: Vec<u8> = kept
        .iter()
        .flat_map(|(name, image)| [&name[..], image].concat())
        .collect();
    bytes.resize(entries * ENTRY, 0);
    bytes
}

/// Names that differ in each entry.
fn filled(entries: usize) -> Vec<u8> {
    let entry = |k: usize| [format!("name{k:04}").as_bytes(), &full()].concat();
    (0..entries).flat_map(entry).collect()
}

/// Stores that are malformed, whatever is asked of them.
fn malformed() -> Vec<(&'static str, Vec<u8>)> {
    let two = store(3, &[(FULL, full()), (LAST, later())]);
    vec![
        ("a store of 89 bytes", vec![0; 89]),
        ("a store of 91 bytes", vec![0; 91]),
        ("a byte is missing", two[..269].to_vec()),
        ("a name twice", store(3, &[(FULL, full()), (FULL, later())])),
        ("a byte behind the zero name", with(&two, 269, 1)),
        (
            "an image behind the zero name",
            with(&[vec![0; 90], two.clone()].concat(), 0, 0),
        ),
        (
            "a latch of 16 in the second image",
            with(&two, 90 + 8 + 23, 16),
        ),
        ("a version 1 in the first image", with(&two, 8 + 4, 1)),
        ("a name before zeros", [&FULL[..], &[0; 82]].concat()),
    ]
}

fn stored() -> Vec<Input> {
    let two = store(2, &[(FULL, full()), (LAST, later())]);
    let stored =
        |name: &str, key: &[u8; 8], before: &[u8]| input(name, parts(key, before, &full()), Whole);
    vec![
        stored("a new store", FULL, &store(16, &[])),
        stored("one entry", FULL, &store(1, &[])),
        stored("a second name", LAST, &store(2, &[(FULL, later())])),
        stored("the first name once more", FULL, &two),
        stored("the last name of a full store once more", LAST, &two),
        stored("a name of FF", &[255; 8], &store(3, &[(FULL, full())])),
        stored(
            "a name of zeros and a 1",
            b"\0\0\0\0\0\0\0\x01",
            &store(3, &[(FULL, full())]),
        ),
        stored(
            "a name that differs in its last byte",
            b"full   .",
            &store(2, &[(FULL, full())]),
        ),
        stored(
            "the last of 700 entries",
            FULL,
            &[filled(699), vec![0; 90]].concat(),
        ),
        stored("700 entries", FULL, &store(700, &[])),
    ]
}

fn not_stored() -> Vec<Input> {
    let full_store = store(1, &[(LAST, full())]);
    let room = store(2, &[]);
    let mut inputs: Vec<Input> = malformed()
        .into_iter()
        .map(|(name, store)| input(name, parts(FULL, &store, &full()), Refused(51)))
        .collect();
    for (name, image) in [
        ("no image", Vec::new()),
        ("an image of version 1", sample("lobby.image")),
        ("an image of 83 bytes", [full(), vec![0]].concat()),
        ("an image of 70,000 bytes", vec![0; 70_000]),
        ("an image with a latch of 16", with(&full(), 23, 16)),
        ("an image that begins otherwise", with(&full(), 0, b'u')),
        ("a panel for an image", sample("rush.panel")),
    ] {
        inputs.push(input(name, parts(FULL, &room, &image), Refused(51)));
    }
    inputs.extend([
        input("a zero name", parts(&[0; 8], &room, &full()), Refused(51)),
        input(
            "a bad image in a full store",
            parts(FULL, &full_store, &[]),
            Refused(51),
        ),
        input(
            "a full store",
            parts(FULL, &full_store, &full()),
            Refused(53),
        ),
        input(
            "a store of no entries",
            parts(FULL, &[], &full()),
            Refused(53),
        ),
        input(
            "700 entries that are used",
            parts(FULL, &filled(700), &full()),
            Refused(53),
        ),
    ]);
    inputs
}

/// Inputs of either program that end before the store does, or have too long a store.
fn mistaken() -> Vec<Input> {
    let whole = parts(FULL, &store(2, &[]), &[]);
    vec![
        input("nothing", Vec::new(), Mistaken),
        input("a name that is cut", whole[..7].to_vec(), Mistaken),
        input("a name alone", whole[..8].to_vec(), Mistaken),
        input("a length that is cut", whole[..11].to_vec(), Mistaken),
        input("no store", whole[..12].to_vec(), Mistaken),
        input(
            "a store that is cut",
            whole[..whole.len() - 1].to_vec(),
            Mistaken,
        ),
        input(
            "701 entries",
            parts(FULL, &store(701, &[]), &full()),
            Mistaken,
        ),
        input(
            "728 entries",
            parts(FULL, &store(728, &[]), &full()),
            Mistaken,
        ),
        input(
            "the longest length",
            [&FULL[..], &[255; 4], &[0; 180]].concat(),
            Mistaken,
        ),
    ]
}

fn storing_mistaken() -> Vec<Input> {
    mistaken()
}

fn recalled() -> Vec<Input> {
    let two = store(3, &[(FULL, full()), (LAST, later())]);
    let recalled =
        |name: &str, key: &[u8], store: &[u8]| input(name, parts(key, store, &[]), Whole);
    vec![
        recalled("the first name", FULL, &two),
        recalled("the second name", LAST, &two),
        recalled("one entry", FULL, &two[..90]),
        recalled("the last of 700 entries", b"name0699", &filled(700)),
    ]
}

fn not_recalled() -> Vec<Input> {
    let two = store(3, &[(FULL, full()), (LAST, later())]);
    let mut inputs: Vec<Input> = malformed()
        .into_iter()
        .map(|(name, store)| input(name, parts(FULL, &store, &[]), Refused(51)))
        .collect();
    inputs.extend([
        input("a zero name", parts(&[0; 8], &two, &[]), Refused(51)),
        input(
            "another name",
            parts(b"full\0\0\0\0", &two, &[]),
            Refused(52),
        ),
        input(
            "a new store",
            parts(FULL, &store(16, &[]), &[]),
            Refused(52),
        ),
        input("a store of no entries", parts(FULL, &[], &[]), Refused(52)),
    ]);
    inputs
}

fn recalling_mistaken() -> Vec<Input> {
    let mut inputs = mistaken();
    let two = store(2, &[(FULL, full())]);
    inputs.push(input(
        "a byte behind the store",
        parts(FULL, &two, &[0]),
        Mistaken,
    ));
    inputs.push(input(
        "70,000 bytes behind the store",
        parts(FULL, &two, &[0; 70_000]),
        Mistaken,
    ));
    inputs
}

/// OE and JCP 000: a record every three cycles.
const OE_LOOP: [u8; 2] = [0x44, 0xC0];

/// The highest cycle number, less so many.
fn near_the_limit(left: u64) -> Vec<u8> {
    let cycle = ((1_u64 << 48) - 1 - left).to_be_bytes();
    let image = full();
    [&image[..75], &cycle[2..], &image[81..]].concat()
}

fn runs() -> Vec<Input> {
    let rush = sample("rush.panel");
    let loop_panel = panel_of(7, &[(0, &OE_LOOP)], &[]);
    vec![
        input(
            "the rush hour up to the full lobby",
            fresh(300, &rush),
            Whole,
        ),
        input(
            "the rush hour from the full lobby on",
            image(600, &full(), &rush),
            Whole,
        ),
        input("the whole rush hour", fresh(900, &rush), Whole),
        input("no cycles from the fresh state", fresh(0, &rush), Whole),
        input("no cycles from an image", image(0, &full(), &rush), Whole),
        input("one cycle, which is owed", image(1, &full(), &rush), Whole),
        input("resets", fresh(700, &sample("reset.panel")), Whole),
        input(
            "an image of another panel",
            image(500, &full(), &sample("blink.panel")),
            Whole,
        ),
        input("1,024 cycles", fresh(1_024, &loop_panel), Whole),
        input("1,025 cycles", fresh(1_025, &loop_panel), Whole),
        input("a log of 266,664 bytes", fresh(100_000, &loop_panel), Whole),
        input(
            "the last five cycles that there are",
            image(5, &near_the_limit(5), &rush),
            Whole,
        ),
        input(
            "an image where none is asked for",
            [&[0; 13], &rush[..]].concat(),
            Whole,
        ),
    ]
}

fn stops() -> Vec<Input> {
    let none = panel_of(7, &[(0, &[0x44, 0x1C])], &[]);
    let above = panel_of(7, &[(0, &[0xA7, 0xCF])], &[]);
    vec![
        input("a code that is no instruction", fresh(2_000, &none), Whole),
        input("a byte above 7CF", fresh(9_000, &above), Whole),
        input(
            "a stop at once",
            image(10, &with(&with(&full(), 17, 0), 6, 1), &none),
            Whole,
        ),
    ]
}

fn not_run() -> Vec<Input> {
    let rush = sample("rush.panel");
    let short = sample("short.panel");
    let records = |given: &[Vec<u8>]| panel_of(7, &[(0, &OE_LOOP)], &given.concat());
    let bad = [record(20, 0, 0, 1), record(20, 0, 0, 1)];
    let mut inputs = vec![
        input("no image bytes", image(5, &[], &rush), Refused(31)),
        input(
            "an image of version 1",
            image(5, &sample("lobby.image"), &rush),
            Refused(31),
        ),
        input(
            "an image of 83 bytes",
            image(5, &[full(), vec![0]].concat(), &rush),
            Refused(31),
        ),
        input(
            "an image of 70,000 bytes",
            image(5, &[0; 70_000], &rush),
            Refused(31),
        ),
        input(
            "an image that begins otherwise",
            image(5, &with(&full(), 0, b'u'), &rush),
            Refused(32),
        ),
        input(
            "an image of version 3",
            image(5, &with(&full(), 4, 3), &rush),
            Refused(33),
        ),
        input(
            "a latch of 16",
            image(5, &with(&full(), 23, 16), &rush),
            Refused(34),
        ),
        input(
            "a latch of 16 and a short panel",
            image(5, &with(&full(), 23, 16), &short),
            Refused(34),
        ),
        input("a short panel", fresh(5, &short), Refused(21)),
        input(
            "a short panel from an image",
            image(5, &full(), &short),
            Refused(21),
        ),
        input("no panel", fresh(5, &[]), Refused(21)),
        input(
            "a panel of 3 bytes",
            image(0, &full(), &rush[..3]),
            Refused(21),
        ),
        input(
            "a cycle that doesn't rise",
            fresh(5, &records(&bad)),
            Refused(14),
        ),
        input(
            "an INT level of 2",
            fresh(5, &sample("level.panel")),
            Refused(13),
        ),
        input(
            "a torn schedule",
            fresh(5, &sample("torn.panel")),
            Refused(11),
        ),
        input(
            "a long schedule",
            fresh(5, &sample("long.panel")),
            Refused(12),
        ),
        input(
            "a schedule that fills the buffer",
            fresh(5, &[&rush[..], &[0; 70_000]].concat()),
            Refused(12),
        ),
        input(
            "a cycle past the limit",
            image(6, &near_the_limit(5), &rush),
            Refused(2),
        ),
        input("the most cycles", fresh(u64::MAX, &rush), Refused(2)),
        input(
            "a cycle past the limit from the fresh state",
            fresh(1 << 48, &rush),
            Refused(2),
        ),
    ];
    inputs.push(input(
        "the most cycles of a damaged schedule",
        fresh(u64::MAX, &records(&bad)),
        Refused(14),
    ));
    inputs.push(input(
        "the most cycles of a short panel",
        fresh(u64::MAX, &short),
        Refused(21),
    ));
    inputs
}

/// Inputs that end before the image does.
fn cut() -> Vec<Input> {
    let whole = image(5, &full(), &sample("rush.panel"));
    let cut = |length: usize| {
        input(
            &format!("{length} bytes"),
            whole[..length].to_vec(),
            Refused(31),
        )
    };
    vec![cut(0), cut(1), cut(8), cut(12), cut(13), cut(94)]
}

/// A panel whose shortest schedule is wanted, as a text or as a panel.
pub fn wanted(panel: &[u8], shortened: u8) -> Vec<u8> {
    [&[shortened], panel].concat()
}

/// A panel that asks port A in cycle 16: 0 goes round, 1 and 3 stop with 23, 2 with 22.
fn asks(values: &[u8]) -> Vec<u8> {
    panel_of(
        60,
        &[(0, &asking([0, 23, 22, 23]))],
        &values_from(0, values),
    )
}

/// TPB 0, JCP 000 and 1C: it halts when bit 0 of A is 1.
const POLL: [u8; 3] = [0x50, 0xC0, 0x1C];

/// Panels that halt.
fn halting() -> Vec<(String, Vec<u8>)> {
    let mut panels = vec![
        (String::from("halt.panel"), sample("halt.panel")),
        (String::from("again.panel"), sample("again.panel")),
    ];
    let mut add = |name: &str, panel: Vec<u8>| panels.push((String::from(name), panel));
    add("no record", panel_of(1, &[(0, &[0x1C])], &[]));
    add(
        "no record, a byte above 7CF",
        panel_of(9_000, &[(0, &[0xA7, 0xCF])], &[]),
    );
    add(
        "no instruction at 7CF",
        panel_of(9, &[(0, &[0xA7, 0xCF]), (0x7CF, &[0x45])], &[]),
    );
    for records in [1, 7, 8, 9, 10, 100] {
        let values: Vec<u8> = (1..=records)
            .map(|k| if k == records { 3 } else { 4 * (k % 4) as u8 })
            .collect();
        let panel = panel_of(300, &[(0, &POLL)], &values_from(0, &values));
        add(&format!("all of {records} records"), panel);
    }
    add("some records", asks(&[0, 2, 1, 0, 3]));
    add("all of some", asks(&[1, 0, 1, 2]));
    add(
        "4,096 records",
        panel_of(
            4_100,
            &[(0, &POLL)],
            &values_from(
                0,
                &[0; 4_095]
                    .map(|_| 4)
                    .iter()
                    .chain(&[1])
                    .copied()
                    .collect::<Vec<u8>>(),
            ),
        ),
    );
    add(
        "400,000 cycles",
        panel_of(400_000, &[(0, &POLL)], &values_from(399_990, &[8, 0, 9])),
    );
    add(
        "a late cycle",
        panel_of(
            70_000,
            &[(0, &POLL)],
            &lines(&[(65_535, 0x25, 0xAF, 0, 0), (65_536, 0x1E, 0x9B, 1, 0)]),
        ),
    );
    add(
        "a last cycle",
        panel_of(
            90,
            &[(0, &POLL)],
            &[record(5, 0xFE, 0xDC, 0), record((1 << 48) - 1, 0, 0, 1)].concat(),
        ),
    );
    add(
        "a reset",
        panel_of(
            90,
            &[(0, &POLL)],
            &lines(&[(5, 0, 0, 1, 1), (20, 0x10, 0, 1, 1), (40, 0x10, 0, 1, 0)]),
        ),
    );
    let mut draw = Draw::new(1_212);
    for k in 0..6 {
        let (mut panel, mut number) = (Vec::new(), 0);
        while number == 0 {
            let records: Vec<u8> = (0..12).map(|_| draw.upto(15)).collect();
            panel = panel_of(
                200,
                &[(0, &questions(&mut draw))],
                &values_from(draw.below(20), &records),
            );
            let answer = crate::answers::shortening(&wanted(&panel, 0));
            number = u8::from(
                answer.end == Whole && !answer.text.windows(9).any(|word| word == b"records 0"),
            );
        }
        panels.push((format!("drawn panel {k}"), panel));
    }
    panels
}

fn halts() -> Vec<Input> {
    let text = |(name, panel): (String, Vec<u8>)| input(&name, wanted(&panel, 0), Whole);
    halting().into_iter().map(text).collect()
}

/// The same, each as a panel, by any byte but 0.
fn shortened() -> Vec<Input> {
    let bytes = [1, 255, 2, 128].into_iter().cycle();
    let panel = |((name, panel), byte): ((String, Vec<u8>), u8)| {
        input(&format!("{name}, shortened"), wanted(&panel, byte), Whole)
    };
    halting().into_iter().zip(bytes).map(panel).collect()
}

fn finishes() -> Vec<Input> {
    let halt = sample("halt.panel");
    vec![
        input("lamp.panel", wanted(&sample("lamp.panel"), 0), Refused(82)),
        input(
            "lamp.panel, shortened",
            wanted(&sample("lamp.panel"), 1),
            Refused(82),
        ),
        input(
            "no cycles",
            wanted(&panel_of(0, &[(0, &[0x1C])], &[]), 0),
            Refused(82),
        ),
        input(
            "the cycle of the stop",
            wanted(&[&4_449_u32.to_be_bytes(), &halt[4..]].concat(), 0),
            Refused(82),
        ),
        input(
            "six of the records of halt.panel",
            wanted(&halt[..2_064], 0),
            Refused(82),
        ),
        input(
            "a beginning that stops",
            wanted(&asks(&[1, 0]), 0),
            Refused(82),
        ),
        input(
            "400,000 cycles that go round",
            wanted(&panel_of(400_000, &[(0, &POLL)], &[]), 1),
            Refused(82),
        ),
    ]
}

fn not_shortened() -> Vec<Input> {
    let halt = sample("halt.panel");
    let mut inputs = Vec::new();
    for (words, byte) in [("", 0), (", shortened", 1)] {
        for (name, panel, number) in [
            ("short.panel", sample("short.panel"), 21),
            ("torn.panel", sample("torn.panel"), 11),
            ("long.panel", sample("long.panel"), 12),
            ("level.panel", sample("level.panel"), 13),
            ("order.panel", sample("order.panel"), 14),
            (
                "400,001 cycles",
                panel_of(400_001, &[(0, &[0x1C])], &[]),
                81,
            ),
            (
                "the most cycles",
                panel_of(u32::MAX, &[(0, &POLL)], &values_from(0, &[1])),
                81,
            ),
            (
                "the most cycles of a torn schedule",
                [&panel_of(u32::MAX, &[], &[])[..], &[0; 9]].concat(),
                11,
            ),
            (
                "a schedule that fills the buffer",
                [&halt[..2_004], &[0; 70_000]].concat(),
                12,
            ),
        ] {
            inputs.push(input(
                &format!("{name}{words}"),
                wanted(&panel, byte),
                Refused(number),
            ));
        }
    }
    for length in [0, 1, 4, 5] {
        let cut = wanted(&halt, 1)[..length].to_vec();
        inputs.push(input(&format!("{length} bytes"), cut, Refused(21)));
    }
    inputs
}
