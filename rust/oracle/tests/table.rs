//! The words of Notes 3 and 5, tried on the sampler over a table and on plans with frame 24.
use oracle::schedule::{CrossSampler, KeySite, ProbePath};
use oracle::{IndexSampler, Row, Table, costs, parse, plan_text, to_text};

/// The operator whose rows are counted, and another.
const PROBED: u8 = 2;
const OTHER: u8 = 9;
/// The class whose bucket is looked at.
const HUB: u16 = 7;

fn node(class: u16, op: u8, children: &[u16]) -> Row {
    let children = children.to_vec();
    Row::Node { class, op, children }
}

fn table(rows: Vec<Row>) -> Table {
    let table = Table { rows, ..Table::default() };
    assert_eq!(Table::parse(table.to_text().as_bytes()).as_ref(), Some(&table));
    table
}

/// The length that is told of a bucket of so many rows, those of the places meant being the operator's; by position and by containing.
fn told(rows: u16, meant: impl Fn(u16) -> bool) -> usize {
    let op = |place| if meant(place) { PROBED } else { OTHER };
    let table = table((0..rows).map(|place| node(1000 + place, op(place), &[3, HUB])).collect());
    let sampler = IndexSampler::new(&table);
    for path in [ProbePath::ChildPos(1), ProbePath::Contains] {
        assert_eq!(sampler.bucket(HUB.into(), path).len(), rows.into());
    }
    let [by_position, by_containing] =
        [ProbePath::ChildPos(1), ProbePath::Contains].map(|path| sampler.probe_len(HUB.into(), path, PROBED));
    assert_eq!(by_position, by_containing);
    by_position
}

/// Up to 256 rows are counted.
#[test]
fn counted_buckets() {
    for rows in [1, 255, 256] {
        assert_eq!(told(rows, |_| true), rows.into());
        assert_eq!(told(rows, |_| false), 0);
        assert_eq!(told(rows, |place| place == rows - 1), 1);
    }
    assert_eq!(told(255, |place| place % 2 == 0), 128);
    assert_eq!(told(256, |place| place % 2 == 0), 128);
    assert_eq!(told(256, |place| place < 100), 100);
}

/// Of 257 rows, j times 257 over 256 is j for every j below 256: the last row is never read. 256 hits are told as 257, 1 as 1, 100 as 25,700 over
/// 256, which is 100, and 255 as 65,535 over 256, which is 255.
#[test]
fn a_bucket_of_257_rows() {
    assert_eq!(told(257, |_| true), 257);
    assert_eq!(told(257, |place| place < 256), 257);
    assert_eq!(told(257, |place| place == 256), 0);
    assert_eq!(told(257, |place| place == 255), 1);
    assert_eq!(told(257, |place| place < 100), 100);
    assert_eq!(told(257, |place| place > 0), 255);
}

/// Of 1,000 rows every read is 125/32 after the last: 0, 3, 7, 11, 15, 19, 23, 27, 31, 35, 39, 42 and so on, the last at 255,000 over 256, which is
/// 996. A hit is 1,000 over 256: 1 is told as 3, 2 as 7, 26 as 101, 128 as 500, 256 as 1,000.
#[test]
fn a_bucket_of_1000_rows() {
    assert_eq!(told(1000, |_| true), 1000);
    assert_eq!(told(1000, |place| place != 1), 1000);
    assert_eq!(told(1000, |place| place == 1 || place == 2), 0);
    assert_eq!(told(1000, |place| place > 996), 0);
    assert_eq!(told(1000, |place| place == 996), 3);
    assert_eq!(told(1000, |place| place == 42), 3);
    assert_eq!(told(1000, |place| place == 41 || place == 43), 0);
    assert_eq!(told(1000, |place| place < 4), 7);
    // j times 1,000 is below 25,600 for j up to 25, below 128,000 for j up to 127.
    assert_eq!(told(1000, |place| place < 100), 101);
    assert_eq!(told(1000, |place| place < 500), 500);
    // 32 reads further the place is 125 further, so of 64 reads half are even.
    assert_eq!(told(1000, |place| place % 2 == 0), 500);
}

/// A row is in a bucket once, whatever its operator, and in order; literals and rows too short are in none.
#[test]
fn buckets() {
    let rows = vec![
        node(1, 1, &[HUB, HUB]),
        node(2, 2, &[HUB]),
        node(HUB, 2, &[]),
        node(3, 3, &[4, HUB, 4]),
        Row::Literal {
            class: HUB,
            op: 2,
            value: HUB.into(),
        },
        node(4, 2, &[4, HUB]),
    ];
    let table = table(rows);
    let sampler = IndexSampler::new(&table);
    let bucket = |path| sampler.bucket(HUB.into(), path);
    assert_eq!(bucket(ProbePath::ChildPos(0)), [0, 1]);
    assert_eq!(bucket(ProbePath::ChildPos(1)), [0, 3, 5]);
    assert_eq!(bucket(ProbePath::ChildPos(2)), []);
    assert_eq!(bucket(ProbePath::Contains), [0, 1, 3, 5]);
    assert_eq!(sampler.probe_len(HUB.into(), ProbePath::ChildPos(1), 2), 1);
    assert_eq!(sampler.probe_len(HUB.into(), ProbePath::Contains, 2), 2);
    assert_eq!(sampler.probe_len(5, ProbePath::Contains, 2), 0);
}

/// Of seven rows, those of the operator are 0, 2, 3, 5 and 6: three of them are taken at 0, 5/3 and 10/3.
#[test]
fn drivers() {
    let ops = [1, 8, 1, 1, 8, 1, 1];
    let table = table((0_u16..).zip(ops).map(|(class, op)| node(class, op, &[])).collect());
    let sampler = IndexSampler::new(&table);
    for (op, k, says) in [
        (1, 3, &[0, 2, 5][..]),
        (1, 5, &[0, 2, 3, 5, 6]),
        (1, 64, &[0, 2, 3, 5, 6]),
        (1, 1, &[0]),
        (1, 0, &[]),
        (8, 64, &[1, 4]),
        (5, 64, &[]),
    ] {
        let mut nodes = Vec::new();
        sampler.driver_sample(0, op, k, &mut nodes);
        assert_eq!(nodes, says);
    }
}

#[test]
fn classes_of_a_site() {
    let literal = Row::Literal { class: 5, op: 1, value: 6 };
    let table = table(vec![node(0xfffe, 1, &[9, 4, 9, 0, 4]), literal]);
    let sampler = IndexSampler::new(&table);
    for (row, site, says) in [
        (0, KeySite::Node, &[0xfffe][..]),
        (0, KeySite::Child(0), &[9]),
        (0, KeySite::Child(3), &[0]),
        (0, KeySite::Child(5), &[]),
        (0, KeySite::Element, &[9, 4, 0]),
        (1, KeySite::Node, &[5]),
        (1, KeySite::Child(0), &[]),
        (1, KeySite::Element, &[]),
    ] {
        let mut classes = Vec::new();
        sampler.key_classes(row, site, &mut classes);
        assert_eq!(classes, says);
    }
}

/// Two atoms share a child; 2 rows of the first's operator, 128 of the second's by frame 10.
const SHARED: &str = "00030000\n010001010001\n010202010001\n100100000002\n100200000080\n200800000000000000000000\n24\n";
/// The first's rows have the children 7 and 8. Class 7 is at position 0 of four rows of the second's operator, class 8 of none.
const FOUR_AND_NONE: &str = "30000501010007\n30000601010008\n30000902010007\n30000a02010007\n30000b02010007\n30000c02010007\n";

/// The draws are 4 and 0, their mean is 2, and the second atom costs 2 of 128.
#[test]
fn a_sample_from_the_table() {
    let query = parse(SHARED.as_bytes()).expect("an accepted text");
    assert_eq!(to_text(&query), SHARED);
    let table = Table::parse(FOUR_AND_NONE.as_bytes()).expect("an accepted text");
    let costs: Vec<(u16, u8, f64)> = costs(&query, Some(&table))
        .iter()
        .map(|cost| (cost.round, cost.atom, f64::from_bits(cost.bits)))
        .collect();
    assert_eq!(costs, [(0, 0, 2.0), (0, 1, 128.0), (1, 1, 2.0)]);
    let says = "3f030000000400010000\n4000000100010000\n41010000\n400201020002000001000100\n4202000001\n";
    assert_eq!(plan_text(SHARED.as_bytes(), Some(FOUR_AND_NONE.as_bytes())).as_deref(), Some(says));
}

/// Frames 32 and 33 change no sample, wherever they stand.
#[test]
fn other_frames_of_a_table() {
    let text = format!("330002\n32000007\n{FOUR_AND_NONE}320f0008\n");
    let plain = plan_text(SHARED.as_bytes(), Some(FOUR_AND_NONE.as_bytes()));
    assert_eq!(plan_text(SHARED.as_bytes(), Some(text.as_bytes())), plain);
}

/// An empty table gives no node; without frame 24 any table is passed over; with it there must be one.
#[test]
fn tables_that_give_nothing() {
    let says = "3f030000000400000000\n4000000100010000\n41010000\n400201020002000001000100\n4202000001\n";
    assert_eq!(plan_text(SHARED.as_bytes(), Some(b"")).as_deref(), Some(says));
    let without = SHARED.replace("24\n", "");
    assert_eq!(plan_text(without.as_bytes(), Some(b"99\n")).as_deref(), Some(says));
    assert_eq!(plan_text(SHARED.as_bytes(), None), None);
}

/// Note 5: rows equal by leaders stand once, and are sampled by leaders.
#[test]
fn rows_stand_by_leaders() {
    let text = "30000101010005\n30000201010006\n3100030200000007\n3100040200000007\n30000101010007\n3400020001\n3400060005\n3400040003\n";
    let table = Table::parse(text.as_bytes()).expect("a table");
    assert_eq!(Table::parse(table.to_text().as_bytes()).as_ref(), Some(&table));
    let literal = Row::Literal { class: 3, op: 2, value: 7 };
    assert_eq!(*table.standing(), [node(1, 1, &[5]), literal, node(1, 1, &[7])]);
    let sampler = IndexSampler::new(&table);
    assert_eq!(sampler.probe_len(5, ProbePath::Contains, 1), 1);
    assert_eq!(sampler.probe_len(6, ProbePath::Contains, 1), 0);
}
