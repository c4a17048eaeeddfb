//! The document's examples, through the wrappers.
use rimdovek_sys::{NO_COST, Planned, Ran, Refusal, SomeMatch, Status, plan, round_costs, run, some_match};

const QUERY: &[u8] = b"00040000\n0100010200010002\n010202010003\n10010000000a\n100200000064\n";
const PLAN: &[u8] = b"3f040000000500000000\n4000000100010000\n41010000\n41020001\n400201020202000000020000\n41030200\n";
const TABLE: &[u8] = b"30000502010007\n300006010200070005\n3000070300\n";
const MATCH: &[u8] = b"500006000700050007\n";
/// What nobody writes.
const LENT: u8 = 0xa5;

fn refusal<T>(number: u8, text: u8, line: u16) -> Result<T, Refusal> {
    Err(Refusal { number, text, line })
}

#[test]
fn worked_plan() {
    let mut out = [LENT; 200];
    let planned = plan(QUERY, None, &mut out).expect("it is planned");
    assert_eq!((planned.written, planned.steps), (PLAN.len(), 5));
    assert_eq!(&out[..PLAN.len()], PLAN);
    assert!(out[PLAN.len()..].iter().all(|byte| *byte == LENT));
}

#[test]
fn refused_query() {
    let mut out = [LENT; 200];
    assert_eq!(plan(b"", None, &mut out), refusal(2, 0, 0));
    assert_eq!(out, [LENT; 200]);
}

#[test]
fn empty_query_fits_21_bytes() {
    let mut out = [LENT; 21];
    let whole = Planned {
        written: 21,
        steps: 0,
        tallied: 0,
        rejected: 0,
    };
    assert_eq!(plan(b"00000000\n", None, &mut out[..20]), refusal(8, 0, 0));
    assert_eq!(out, [LENT; 21]);
    assert_eq!(plan(b"00000000\n", None, &mut out), Ok(whole));
    assert_eq!(&out, b"3f000000000000000000\n");
}

/// Round 0 chooses atom 0 at 10 before atom 1 at 100; then the eager round lowers atom 1, whose node is bound, and no atom is left.
#[test]
fn worked_costs() {
    let mut costs = [0; 3];
    assert_eq!(round_costs(QUERY, None, 0, &mut costs), Ok(Some(0)));
    assert_eq!(costs, [10f64.to_bits(), 100f64.to_bits(), NO_COST]);
    assert_eq!(round_costs(QUERY, None, 1, &mut costs), Ok(None));
    assert_eq!(costs, [NO_COST; 3]);
    assert_eq!(round_costs(QUERY, None, usize::MAX, &mut costs[..1]), Ok(None));
}

/// Without the first atom's child 2 as the second's node, the second is chosen in round 1, at its operator's cardinality times 0.5.
#[test]
fn costs_of_a_bound_child() {
    const APART: &[u8] = b"00040000\n0100010200010002\n010302010002\n10010000000a\n100200000064\n";
    let mut costs = [0; 2];
    assert_eq!(round_costs(APART, None, 0, &mut costs), Ok(Some(0)));
    assert_eq!(costs, [10f64.to_bits(), 100f64.to_bits()]);
    assert_eq!(round_costs(APART, None, 1, &mut costs), Ok(Some(1)));
    assert_eq!(costs, [NO_COST, 50f64.to_bits()]);
    assert_eq!(round_costs(APART, None, 2, &mut costs), Ok(None));
}

#[test]
fn refused_query_has_no_costs() {
    let mut costs = [7; 2];
    assert_eq!(round_costs(b"000", None, 0, &mut costs), refusal(1, 0, 1));
    assert_eq!(costs, [7; 2]);
}

/// Two atoms share a child: 2 rows of the first's operator by frame 10, 128 of the second's; one sample of all rows, without resamples.
const SHARED: &[u8] = b"00030000\n010001010001\n010202010001\n100100000002\n100200000080\n200800000000000000000000\n24\n";
/// The first's rows have the children 7 and 8, at position 0 of four rows of the second's operator and of none.
const FOUR_AND_NONE: &[u8] = b"30000501010007\n30000601010008\n30000902010007\n30000a02010007\n30000b02010007\n30000c02010007\n";

/// The draws 4 and 0 have the mean 2, so the second atom costs 2; from an empty table nothing is drawn, and it costs half of 128.
#[test]
fn samples_from_a_table() {
    for (table, tallied, cost) in [(FOUR_AND_NONE, 1, 2.0_f64), (b"", 0, 64.0)] {
        let (mut out, mut costs) = ([LENT; 200], [0; 2]);
        let planned = plan(SHARED, Some(table), &mut out).expect("it is planned");
        assert_eq!((planned.steps, planned.tallied, planned.rejected), (4, tallied, 0));
        assert_eq!(round_costs(SHARED, Some(table), 1, &mut costs), Ok(Some(1)));
        assert_eq!(costs, [NO_COST, cost.to_bits()]);
    }
}

#[test]
fn frame_24_wants_a_table() {
    let (mut out, mut costs) = ([LENT; 200], [7; 2]);
    assert_eq!(plan(SHARED, None, &mut out), refusal(13, 0, 7));
    assert_eq!(round_costs(SHARED, None, 0, &mut costs), refusal(13, 0, 7));
    assert_eq!((out, costs), ([LENT; 200], [7; 2]));
}

/// A table that frame 24 asks for is read before the plan's room is looked at; one that nothing asks for is not read.
#[test]
fn refused_table_of_a_plan() {
    let (mut out, mut costs) = ([LENT; 200], [7; 2]);
    let too_long = vec![b'0'; 65_537];
    for (table, number, line) in [(&b"99\n"[..], 2, 1), (&too_long, 4, 0)] {
        assert_eq!(plan(SHARED, Some(table), &mut out[..0]), refusal(number, 2, line));
        assert_eq!(round_costs(SHARED, Some(table), 0, &mut costs), refusal(number, 2, line));
        assert_eq!(plan(QUERY, Some(table), &mut [0; 200]), plan(QUERY, None, &mut [0; 200]));
    }
    assert_eq!((out, costs), ([LENT; 200], [7; 2]));
}

/// The run with an allowance: its status, tries, and whether it has the match.
fn ran(allowance: u64, status: Status, tries: u64, found: bool) {
    let mut out = [LENT; 64];
    let written = if found { MATCH.len() } else { 0 };
    let says = Ran {
        status,
        written,
        tries,
        matches: found.into(),
    };
    assert_eq!(run(PLAN, TABLE, allowance, None, &mut out), Ok(says));
    assert_eq!(&out[..written], &MATCH[..written]);
    assert!(out[written..].iter().all(|byte| *byte == LENT));
}

#[test]
fn worked_run() {
    ran(6, Status::Done, 6, true);
    ran(5, Status::Spent, 5, true);
    ran(2, Status::Spent, 2, false);
}

#[test]
fn no_room_for_the_match() {
    let mut out = [LENT; 18];
    let answer = run(PLAN, TABLE, 6, None, &mut out).expect("it runs");
    assert_eq!((answer.status, answer.written, answer.matches), (Status::Full, 0, 0));
    assert_eq!(out, [LENT; 18]);
}

#[test]
fn refused_texts_of_a_run() {
    let mut out = [LENT; 64];
    assert_eq!(run(b"", TABLE, 6, None, &mut out), refusal(2, 1, 0));
    assert_eq!(some_match(b"", TABLE, 6, None, &mut out), refusal(2, 1, 0));
    assert_eq!(run(PLAN, b"3g\n", 6, None, &mut out).unwrap_err().text, 2);
    assert_eq!(out, [LENT; 64]);
}

#[test]
fn worked_some_match() {
    let mut out = [LENT; 419];
    assert_eq!(some_match(PLAN, TABLE, 2, None, &mut out), Ok(SomeMatch::Spent));
    assert_eq!(some_match(PLAN, b"", 6, None, &mut out), Ok(SomeMatch::None));
    assert_eq!(out, [LENT; 419]);
    assert_eq!(some_match(PLAN, TABLE, 6, None, &mut out), Ok(SomeMatch::Match));
    assert_eq!(&out[..MATCH.len()], MATCH);
    assert_eq!(some_match(PLAN, TABLE, 6, None, &mut []), Ok(SomeMatch::Match));
}

/// Three old rows and two new ones: each match that uses a new row is found under one atom.
#[test]
fn matches_of_new_rows() {
    const ROWS: &[u8] = b"30000502010007\n300006010200070005\n30000c01020007000b\n330003\n3000090102000a0005\n30000b02010008\n";
    for (atom, tries, line) in [(0, 7, b"500009000a00050007\n"), (1, 7, b"50000c0007000b0008\n")] {
        let mut out = [LENT; 64];
        let answer = run(PLAN, ROWS, u64::MAX, Some(atom), &mut out).expect("it runs");
        assert_eq!((answer.status, answer.tries, answer.matches), (Status::Done, tries, 1));
        assert_eq!(&out[..line.len()], line);
        assert_eq!(some_match(PLAN, ROWS, u64::MAX, Some(atom), &mut out), Ok(SomeMatch::Match));
    }
    let mut out = [LENT; 64];
    assert_eq!(run(PLAN, ROWS, u64::MAX, None, &mut out).expect("it runs").matches, 3);
    assert_eq!(run(PLAN, ROWS, u64::MAX, Some(2), &mut out), refusal(12, 1, 0));
    assert_eq!(some_match(PLAN, ROWS, u64::MAX, Some(256), &mut out), refusal(12, 1, 0));
}

/// A plan of a Join and as many more lines as fit into a text of so many bytes.
fn long_plan(size: usize, line: &str) -> String {
    let first = "4000000100010000\n";
    let more = (size - 21 - first.len()) / line.len();
    format!("3f010000{:04x}00000000\n{first}{}", more + 1, line.repeat(more))
}

/// Joins that name their own target, and checks: both texts as long as any, and the longest that runs on the caller's stack of 2 MB.
#[test]
fn longest_plans() {
    for size in [20 << 10, 65_536] {
        for line in ["400000020001000002000000\n", "430000\n"] {
            let plan = long_plan(size, line);
            let mut out = [LENT; 64];
            let answer = run(plan.as_bytes(), b"3000050100\n", u64::MAX, None, &mut out).expect("it runs");
            assert_eq!((answer.status, answer.matches), (Status::Done, 1));
            assert_eq!(&out[..7], b"500005\n");
            assert_eq!(
                some_match(plan.as_bytes(), b"3000050100\n", u64::MAX, None, &mut out),
                Ok(SomeMatch::Match)
            );
        }
    }
}
