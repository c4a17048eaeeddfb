//! Queries and the Rust's plans as files that the program `replay` inside the gate replays: a case a line, 03 and the text's bytes as
//! hexadecimal; its answer is the plan.
use oracle::generate::generate;
use oracle::{line, plan_text};
use std::fs;
use std::path::Path;

/// Generated texts longer than this are left out, so that the files stay of moderate size.
const LONGEST: usize = 1_600;

/// The document's example, the empty query, a tie, an Eq that leaves a variable without emitter and the same with the Eq after the Plain,
/// self-reference, never-lowered atoms.
const FIXED: [&str; 7] = [
    "00040000\n0100010200010002\n010202010003\n10010000000a\n100200000064\n",
    "00000000\n",
    "00020000\n01000100\n01010100\n10010000000a\n",
    "00040100\n040001\n010201010000\n050200\n010301010001\n1001000003e8\n204000003ff0000000000000\n2101010005\n2200050100010007\n23000700000100000003\n",
    "00040100\n010201010000\n040001\n050200\n010301010001\n1001000003e8\n204000003ff0000000000000\n2100010005\n2200050100010007\n23000700000100000003\n",
    "00010000\n010001010000\n",
    "00030000\n040001\n06070100\n06080102\n060900\n",
];

pub fn write(n: usize, dir: &str) -> Result<(), String> {
    let (mut input, mut output) = (String::new(), String::new());
    let texts = fixed()
        .into_iter()
        .chain((0..).map(|seed| generate(seed).text).filter(|text| text.len() <= LONGEST));
    for text in texts.take(n) {
        input += "03";
        input += &line(&text);
        output += &plan_text(&text, None).ok_or("a vector's text does not read")?;
    }
    let folder = Path::new(dir);
    let put = |name: &str, text: &str| fs::write(folder.join(name), text).map_err(|e| format!("{dir}/{name}: {e}"));
    fs::create_dir_all(folder).map_err(|e| format!("{dir}: {e}"))?;
    put("plans.in", &input)?;
    put("plans.out", &output)?;
    println!("{n:>13}  cases, {} and {} bytes", input.len(), output.len());
    Ok(())
}

fn fixed() -> Vec<Vec<u8>> {
    FIXED
        .iter()
        .map(|text| text.bytes().filter(|byte| *byte != b' ').collect())
        .collect()
}
