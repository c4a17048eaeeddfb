//! A query's text, and a table's: frames in any order, either letter case, within the limit.
use crate::query::{Query, frames, line};
use crate::random::Random;
use crate::table::{Row, Table};

/// The most bytes of a text.
pub const LONGEST: usize = 65_536;

/// Takes lengths and classes away until the text is within the limit.
pub fn fit(query: &mut Query) {
    let mut size = size(query);
    while size > LONGEST {
        if query.lengths.pop_last().is_some() {
            size -= 21;
        } else {
            let (_, classes) = query.classes.pop_last().expect("all else is within the limit");
            size -= 13 + 4 * classes.len();
        }
    }
}

/// Adds frames 22 of unused nodes until the text is as long as can be: so many lines that the rest divides by 4.
pub fn fill(r: &mut Random, query: &mut Query) {
    let room = LONGEST - size(query);
    let mut lines = room / 100;
    while lines % 4 != room % 4 {
        lines += 1;
    }
    if lines * 13 > room {
        return;
    }
    let mut items = (room - lines * 13) / 4;
    let mut node = 0;
    while lines > 0 {
        let n = items.div_ceil(lines).min(32);
        while query.classes.contains_key(&(node, 0, 0)) {
            node += 1;
        }
        query
            .classes
            .insert((node, 0, 0), (0..n).map(|_| (r.next() as u16).min(0xfffe)).collect());
        items -= n;
        lines -= 1;
    }
}

fn size(query: &Query) -> usize {
    frames(query).iter().map(|frame| 2 * frame.len() + 1).sum()
}

/// The bytes of the rows' lines.
pub fn table_size(rows: &[Row]) -> usize {
    rows.iter().map(|row| 2 * row.frame().len() + 1).sum()
}

pub fn text(r: &mut Random, query: &Query) -> Vec<u8> {
    let mut frames = frames(query);
    if r.chance(60) {
        mix(r, &mut frames[1..]);
    }
    lines(r, &frames)
}

/// The rows in their order, the other frames anywhere.
pub fn table_text(r: &mut Random, table: &Table) -> Vec<u8> {
    let mut frames: Vec<Vec<u8>> = table.rows.iter().map(Row::frame).collect();
    for other in table.other_frames() {
        frames.insert(r.below(frames.len() + 1), other);
    }
    lines(r, &frames)
}

fn lines(r: &mut Random, frames: &[Vec<u8>]) -> Vec<u8> {
    let letters = r.pick(&[0, 0, 50, 100]);
    let mut text: Vec<u8> = frames.iter().flat_map(|frame| line(frame).into_bytes()).collect();
    for byte in &mut text {
        if r.chance(letters) {
            byte.make_ascii_uppercase();
        }
    }
    text
}

/// Any order that leaves the atoms in theirs.
fn mix(r: &mut Random, frames: &mut [Vec<u8>]) {
    let mut atoms: Vec<Vec<u8>> = frames.iter().filter(|frame| frame[0] < 0x10).cloned().collect();
    atoms.reverse();
    r.shuffle(frames);
    for frame in frames.iter_mut().filter(|frame| frame[0] < 0x10) {
        *frame = atoms.pop().expect("as many atoms as before");
    }
}
