//! The accepted cases of a file of cases against the Rust: one object a line, texts in base64, the table null where none is handed in.
use oracle::{Table, parse, plan_text, to_text};
use std::fs;

pub fn compare(file: &str) -> Result<(), String> {
    let text = fs::read_to_string(file).map_err(|e| format!("{file}: {e}"))?;
    let (mut accepted, mut refused) = (0, 0);
    for (number, line) in text.lines().enumerate() {
        let line = line.replace(' ', "");
        match after(&line, "\"answer\":[\"ok\",\"") {
            Some(plan) => {
                case(number, &line, plan)?;
                accepted += 1;
            }
            None => refused += 1,
        }
    }
    println!("{accepted:>13}  accepted cases\n{refused:>13}  refused cases, not looked at\nno differences");
    Ok(())
}

fn case(number: usize, line: &str, plan: &str) -> Result<(), String> {
    let text = after(line, "\"query\":\"").and_then(decode).ok_or("a case without a query")?;
    let told = |message: &str| format!("difference: case {number}: {message}\n{}", String::from_utf8_lossy(&text));
    let query = parse(&text).ok_or_else(|| told("the query does not read"))?;
    if parse(to_text(&query).as_bytes()).as_ref() != Some(&query) {
        return Err(told("the query's own text reads otherwise"));
    }
    let table = after(line, "\"table\":\"").and_then(decode);
    if query.from_table && !reads_back(table.as_deref()) {
        return Err(told("the table does not read, or its own text reads otherwise"));
    }
    let says = decode(plan).ok_or("a case's plan is no base64")?;
    let answer = plan_text(&text, table.as_deref()).ok_or_else(|| told("the texts do not read"))?;
    if answer.as_bytes() != says {
        return Err(told(&format!(
            "the Rust plans\n{answer}and the case says\n{}for",
            String::from_utf8_lossy(&says)
        )));
    }
    Ok(())
}

fn reads_back(table: Option<&[u8]>) -> bool {
    let table = table.and_then(Table::parse);
    table.is_some_and(|table| Table::parse(table.to_text().as_bytes()) == Some(table))
}

/// The string that follows the mark, up to its quote.
fn after<'a>(line: &'a str, mark: &str) -> Option<&'a str> {
    let (_, rest) = line.split_once(mark)?;
    rest.split_once('"').map(|(word, _)| word)
}

fn decode(word: &str) -> Option<Vec<u8>> {
    let digits = word.trim_end_matches('=');
    let (mut bytes, mut held, mut bits) = (Vec::new(), 0_u32, 0);
    for digit in digits.bytes() {
        held = (held << 6) | value(digit)?;
        bits += 6;
        if bits >= 8 {
            bits -= 8;
            bytes.push((held >> bits) as u8);
            held &= (1 << bits) - 1;
        }
    }
    Some(bytes)
}

fn value(digit: u8) -> Option<u32> {
    let value = match digit {
        b'A'..=b'Z' => digit - b'A',
        b'a'..=b'z' => digit - b'a' + 26,
        b'0'..=b'9' => digit - b'0' + 52,
        b'+' => 62,
        b'/' => 63,
        _ => return None,
    };
    Some(value.into())
}
