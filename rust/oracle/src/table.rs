//! A table as the document's frames give it, and its text.
use crate::parse::{Fields, each_frame};
use crate::query::{count, join, line, words};
use std::borrow::Cow;
use std::collections::{BTreeMap, HashSet};

#[derive(Clone, Debug, PartialEq, Eq, Hash)]
pub enum Row {
    /// Frame 30.
    Node { class: u16, op: u8, children: Vec<u16> },
    /// Frame 31.
    Literal { class: u16, op: u8, value: u32 },
}

#[derive(Clone, Debug, Default, PartialEq, Eq)]
pub struct Table {
    /// Frames 30 and 31, numbered from 0.
    pub rows: Vec<Row>,
    /// Frame 32, by global.
    pub globals: BTreeMap<u8, u16>,
    /// Frame 33: the rows from this number on are new.
    pub new_rows: Option<u16>,
    /// Frame 34: the leader of a class.
    pub leaders: BTreeMap<u16, u16>,
}

impl Row {
    pub fn class(&self) -> u16 {
        match self {
            Row::Node { class, .. } | Row::Literal { class, .. } => *class,
        }
    }

    pub fn op(&self) -> u8 {
        match self {
            Row::Node { op, .. } | Row::Literal { op, .. } => *op,
        }
    }

    /// A literal has none.
    pub fn children(&self) -> &[u16] {
        match self {
            Row::Node { children, .. } => children,
            Row::Literal { .. } => &[],
        }
    }

    /// The row with other classes.
    fn mapped(&self, to: impl Fn(u16) -> u16) -> Row {
        match self {
            Row::Node { class, op, children } => Row::Node {
                class: to(*class),
                op: *op,
                children: children.iter().map(|class| to(*class)).collect(),
            },
            Row::Literal { class, op, value } => Row::Literal {
                class: to(*class),
                op: *op,
                value: *value,
            },
        }
    }

    pub(crate) fn frame(&self) -> Vec<u8> {
        match self {
            Row::Node { class, op, children } => join(&[&[0x30], &class.to_be_bytes(), &[*op, count(children)], &words(children)]),
            Row::Literal { class, op, value } => join(&[&[0x31], &class.to_be_bytes(), &[*op], &value.to_be_bytes()]),
        }
    }
}

impl Table {
    /// The table of an accepted text; none where a line is no frame.
    pub fn parse(text: &[u8]) -> Option<Table> {
        let mut table = Table::default();
        each_frame(text, |kind, fields| frame(&mut table, kind, fields))?;
        Some(table)
    }

    /// The rows that stand, by leaders: of those that are equal the first. Without frames 34 all of them.
    pub fn standing(&self) -> Cow<'_, [Row]> {
        if self.leaders.is_empty() {
            return Cow::Borrowed(&self.rows);
        }
        let leader = |class| self.leaders.get(&class).copied().unwrap_or(class);
        let mut seen = HashSet::new();
        let led = self.rows.iter().map(|row| row.mapped(leader));
        led.filter(|row| seen.insert(row.clone())).collect::<Vec<Row>>().into()
    }

    /// The table's text: rows, globals, the first new row, leaders.
    pub fn to_text(&self) -> String {
        let rows = self.rows.iter().map(Row::frame);
        rows.chain(self.other_frames()).map(|frame| line(&frame)).collect()
    }

    /// Frames 32 to 34.
    pub(crate) fn other_frames(&self) -> Vec<Vec<u8>> {
        let globals = self
            .globals
            .iter()
            .map(|(global, class)| join(&[&[0x32, *global], &class.to_be_bytes()]));
        let new_rows = self.new_rows.map(|row| join(&[&[0x33], &row.to_be_bytes()]));
        let leaders = self
            .leaders
            .iter()
            .map(|(class, leader)| join(&[&[0x34], &class.to_be_bytes(), &leader.to_be_bytes()]));
        globals.chain(new_rows).chain(leaders).collect()
    }
}

fn frame(table: &mut Table, kind: u8, f: &mut Fields) -> Option<()> {
    match kind {
        0x30 => {
            let (class, op, children) = (f.word()?, f.byte()?, f.list(Fields::word)?);
            table.rows.push(Row::Node { class, op, children });
        }
        0x31 => {
            let (class, op, value) = (f.word()?, f.byte()?, f.long()?);
            table.rows.push(Row::Literal { class, op, value });
        }
        0x32 => drop(table.globals.insert(f.byte()?, f.word()?)),
        0x33 => table.new_rows = Some(f.word()?),
        0x34 => drop(table.leaders.insert(f.word()?, f.word()?)),
        _ => return None,
    }
    Some(())
}
