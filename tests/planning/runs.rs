//! A run of the program on a sheet: the text it got, and its listing taken apart.

use crate::floats::{Range, Width};
use crate::sheets::{Sheet, inside};

#[derive(Clone, Copy, PartialEq, Eq)]
pub enum Ending {
    Settled,
    Stopped,
    None,
}

pub struct Run {
    pub text: String,
    pub listing: String,
    pub limit: u32,
    pub start: Vec<Range>,
    pub ending: Ending,
    /// How many passes were made; a pass that failed is one of them.
    pub pass: u32,
    /// The box that is listed; no cells after `none`.
    pub cells: Vec<Range>,
}

/// The pass that a first line tells, from 1 to the highest limit.
fn pass(field: &str) -> Option<u32> {
    field.parse::<u16>().ok().filter(|pass| *pass != 0).map(u32::from)
}

/// The interval that a line lists, if it is the line of cell i.
fn interval<W: Width>(i: usize, line: &str) -> Option<Range> {
    let (low, high) = line.strip_prefix(&format!("cell\t{i}\t"))?.split_once('\t')?;
    let place = |field: &str| W::place(u64::from_str_radix(field, 16).ok()?);
    Some(Range { low: place(low)?, high: place(high)? })
}

impl Run {
    /// The run that has this listing, if it is one of a box or of a failure.
    pub fn read<W: Width>(sheet: &Sheet, limit: u32, text: &str, listing: &str) -> Option<Run> {
        let mut lines = listing.lines();
        let first: Vec<&str> = lines.next()?.split('\t').collect();
        let (ending, made) = match first[..] {
            ["settled", made] => (Ending::Settled, made),
            ["stopped", made] => (Ending::Stopped, made),
            ["none", made, _] => (Ending::None, made),
            _ => return None,
        };
        let cells = lines.enumerate().map(|(i, line)| interval::<W>(i, line)).collect::<Option<Vec<Range>>>()?;
        let (text, listing, start) = (text.to_string(), listing.to_string(), sheet.cells.clone());
        Some(Run { text, listing, limit, start, ending, pass: pass(made)?, cells })
    }

    /// The lines of the cells.
    pub fn lines(&self) -> &str {
        self.listing.split_once('\n').map_or("", |(_, lines)| lines)
    }

    /// Whether the passes go with the limit, the start and the box. A stopped sheet has made all that it may. Each pass moves an
    /// end inward, but for the last one of a sheet that settles.
    pub fn possible(&self) -> bool {
        let same = self.cells == self.start;
        match self.ending {
            Ending::Settled => self.pass <= self.limit && inside(&self.cells, &self.start) && same == (self.pass == 1),
            Ending::Stopped => self.pass == self.limit && inside(&self.cells, &self.start) && !same,
            Ending::None => self.pass <= self.limit && self.cells.is_empty(),
        }
    }
}
