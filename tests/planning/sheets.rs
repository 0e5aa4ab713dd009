//! Sheets: cells by the places of their ends, records by their kinds and the cells they name; and the text of a sheet.

use crate::floats::{Range, Width};

pub const KINDS: [&str; 3] = ["sum", "diff", "neg"];

/// What a sheet may have: records of each kind, and one that names a cell twice.
pub const PARTS: [&str; 4] = ["sum", "diff", "neg", "repeated"];

#[derive(Clone)]
pub struct Record {
    pub kind: &'static str,
    pub cells: Vec<usize>,
}

#[derive(Clone, Default)]
pub struct Sheet {
    pub cells: Vec<Range>,
    pub records: Vec<Record>,
}

/// Whether each interval of a box lies in that of an outer one.
pub fn inside(cells: &[Range], outer: &[Range]) -> bool {
    cells.len() == outer.len() && cells.iter().zip(outer).all(|(c, o)| o.low <= c.low && c.high <= o.high)
}

impl Sheet {
    /// Adds a cell, and gives its number.
    pub fn cell(&mut self, range: Range) -> usize {
        self.cells.push(range);
        self.cells.len() - 1
    }

    /// Adds a record.
    pub fn record(&mut self, kind: &'static str, cells: &[usize]) {
        self.records.push(Record { kind, cells: cells.to_vec() });
    }

    /// Whether it has such a part.
    pub fn has(&self, part: &str) -> bool {
        let repeats = |cells: &[usize]| (1..cells.len()).any(|i| cells[..i].contains(&cells[i]));
        self.records.iter().any(|record| record.kind == part || part == "repeated" && repeats(&record.cells))
    }

    pub fn text<W: Width>(&self, limit: u32) -> String {
        let digits = W::BITS as usize / 4;
        let mut text = format!("sheet\t{}\t{limit}\n", W::BITS);
        for cell in &self.cells {
            let (low, high) = (W::pattern(cell.low), W::pattern(cell.high));
            text += &format!("cell\t{low:0digits$X}\t{high:0digits$X}\n");
        }
        for record in &self.records {
            let cells: String = record.cells.iter().map(|cell| format!("\t{cell}")).collect();
            text += &format!("{}{cells}\n", record.kind);
        }
        text
    }
}
