//! The document's words on the planner, tried on the Rust.
use oracle::{costs, parse, plan_text, to_text};

fn plan(text: &str) -> String {
    let query = parse(text.as_bytes()).expect("an accepted text");
    assert_eq!(parse(to_text(&query).as_bytes()), Some(query));
    plan_text(text.as_bytes(), None).expect("an accepted text")
}

const WORKED: &str = "00040000\n0100010200010002\n010202010003\n10010000000a\n100200000064\n";

#[test]
fn worked_example() {
    let says = "3f040000000500000000\n4000000100010000\n41010000\n41020001\n400201020202000000020000\n41030200\n";
    assert_eq!(plan(WORKED), says);
}

#[test]
fn costs_of_the_worked_example() {
    let query = parse(WORKED.as_bytes()).expect("an accepted text");
    let costs: Vec<(u16, u8, f64)> = costs(&query, None)
        .iter()
        .map(|cost| (cost.round, cost.atom, f64::from_bits(cost.bits)))
        .collect();
    assert_eq!(costs, [(0, 0, 10.0), (0, 1, 100.0)]);
}

#[test]
fn empty_query() {
    assert_eq!(plan("00000000\n"), "3f000000000000000000\n");
}

#[test]
fn a_tie_keeps_the_lowest_atom() {
    let says = "3f020000000200000000\n4000000100010000\n4001010100010000\n";
    assert_eq!(plan("00020000\n01000100\n01010100\n10010000000a\n"), says);
}

/// Three keys of fan-out 3 over 4, 8 over 4, and 3 over 0: 0.75, 1 and 0.5 of 16.
#[test]
fn selectivities() {
    for (fan_out, full, cost) in [(3.0, 4, 12.0), (8.0, 4, 16.0), (3.0, 0, 8.0)] {
        let fan_out = f64::to_bits(fan_out);
        let text = format!("00010100\n01000101{}\n1001{full:08x}\n110000000010\n130100{fan_out:016x}\n", "0100");
        let query = parse(text.as_bytes()).expect("an accepted text");
        assert_eq!(costs(&query, None)[0].bits, f64::to_bits(cost));
    }
}

#[test]
fn no_cardinality_is_two_to_the_64() {
    let query = parse(b"00010000\n01000100\n").expect("an accepted text");
    assert_eq!(f64::from_bits(costs(&query, None)[0].bits), 18446744073709551616.0);
}

/// Eq as atom 0 and a Plain as atom 1 in one eager round leave y without emitter, so nothing is tallied; the other way round it has one.
#[test]
fn emitters_go_by_atom_number() {
    let sheets = "1001000003e8\n204000003ff0000000000000\n2200050100010007\n23000700000100000003\n";
    let first = format!("00040100\n040001\n010201010000\n050200\n010301010001\n2101010005\n{sheets}");
    let second = format!("00040100\n010201010000\n040001\n050200\n010301010001\n2100010005\n{sheets}");
    assert!(plan(&first).starts_with("3f040100000600000000\n"));
    assert!(plan(&second).starts_with("3f040100000600010000\n"));
}

#[test]
fn a_node_that_is_its_own_child() {
    assert_eq!(
        plan("00010000\n010001010000\n"),
        "3f010000000200000000\n4000000100010000\n4200000000\n"
    );
}

#[test]
fn never_lowered() {
    assert_eq!(
        plan("00030000\n040001\n06070100\n06080102\n060900\n"),
        "3f030000000100000000\n4c09\n"
    );
}
