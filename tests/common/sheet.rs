//! From sheet text to its listing, written from the requirement alone: the reading, the run and the printed lines.

use crate::floats::{Binary32, Binary64, Range, Width};
use crate::records::{Record, narrow_record};

/// A refusal: its number and line.
type Refusal = (u32, usize);

struct Sheet {
    width: u32,
    limit: u32,
    cells: Vec<Range>,
    records: Vec<Record>,
}

/// A decimal numeral of 1 to 5 digits, with no leading zero but in `0`.
fn numeral(field: &[u8]) -> Option<u32> {
    let digits = field.iter().all(u8::is_ascii_digit);
    let good = digits && (1..=5).contains(&field.len()) && (field[0] != b'0' || field.len() == 1);
    good.then(|| field.iter().fold(0, |n, d| 10 * n + (d - b'0') as u32))
}

/// A pattern in hexadecimal capitals, as many digits as the width has.
fn pattern(field: &[u8], width: u32) -> Option<u64> {
    let good = field.len() == (width / 4) as usize && field.iter().all(|d| matches!(d, b'0'..=b'9' | b'A'..=b'F'));
    let value = |d: &u8| if *d <= b'9' { d - b'0' } else { d - b'A' + 10 };
    good.then(|| field.iter().fold(0, |n, d| n << 4 | value(d) as u64))
}

fn place(pattern: u64, width: u32) -> Option<i64> {
    if width == 32 { Binary32::place(pattern) } else { Binary64::place(pattern) }
}

/// The first line: 4, then 1, then 7.
fn head(fields: &[&[u8]]) -> Result<Sheet, u32> {
    let [b"sheet", width, limit] = fields else { return Err(4) };
    let (width, limit) = (numeral(width).ok_or(4u32)?, numeral(limit).ok_or(4u32)?);
    if width != 32 && width != 64 {
        return Err(1);
    }
    if limit == 0 || limit > 65_535 {
        return Err(7);
    }
    Ok(Sheet { width, limit, cells: vec![], records: vec![] })
}

impl Sheet {
    /// A cell: 2, 3, 10.
    fn add_cell(&mut self, low: u64, high: u64) -> Result<(), u32> {
        let low = place(low, self.width).ok_or(2u32)?;
        let high = place(high, self.width).ok_or(2u32)?;
        if low > high {
            return Err(3);
        }
        if self.cells.len() == 64 {
            return Err(10);
        }
        self.cells.push(Range { low, high });
        Ok(())
    }

    /// A record of any kind: 5, 10.
    fn add_record(&mut self, record: Record) -> Result<(), u32> {
        if record.cells().iter().any(|c| *c >= self.cells.len()) {
            return Err(5);
        }
        if self.records.len() == 128 {
            return Err(10);
        }
        self.records.push(record);
        Ok(())
    }

    /// A line after the first: 4, then the order of adding.
    fn add(&mut self, fields: &[&[u8]]) -> Result<(), u32> {
        let cell = |f: &[u8]| numeral(f).map(|n| n as usize).ok_or(4u32);
        match fields {
            [b"cell", low, high] => {
                let low = pattern(low, self.width).ok_or(4u32)?;
                let high = pattern(high, self.width).ok_or(4u32)?;
                self.add_cell(low, high)
            }
            [b"sum", x, a, b] => self.add_record(Record::Sum([cell(x)?, cell(a)?, cell(b)?])),
            [b"diff", x, a, b] => self.add_record(Record::Diff([cell(x)?, cell(a)?, cell(b)?])),
            [b"neg", x, y] => self.add_record(Record::Neg([cell(x)?, cell(y)?])),
            _ => Err(4),
        }
    }
}

/// The whole text: 8, then line by line. A last line without its line feed is malformed.
fn read(text: &[u8]) -> Result<Sheet, Refusal> {
    if text.len() > 8192 {
        return Err((8, 0));
    }
    let mut lines: Vec<&[u8]> = text.split(|b| *b == b'\n').collect();
    let unended = lines.pop().unwrap_or(b"");
    let mut sheet = None;
    for (i, line) in lines.iter().enumerate() {
        let fields: Vec<&[u8]> = line.split(|b| *b == b'\t').collect();
        let added = match &mut sheet {
            None => head(&fields).map(|s| sheet = Some(s)),
            Some(s) => s.add(&fields),
        };
        added.map_err(|number| (number, i + 1))?;
    }
    if !unended.is_empty() {
        return Err((4, lines.len() + 1));
    }
    sheet.ok_or((4, 1))
}

enum Outcome {
    Settled(u32),
    Stopped(u32),
    NoSolution(u32, usize),
}

/// The run, as the requirement writes it out.
fn run<W: Width>(sheet: &mut Sheet) -> Outcome {
    let mut pass = 1;
    loop {
        let before = sheet.cells.clone();
        for (i, record) in sheet.records.iter().enumerate() {
            if narrow_record::<W>(&mut sheet.cells, *record).is_none() {
                return Outcome::NoSolution(pass, i);
            }
        }
        if sheet.cells == before {
            return Outcome::Settled(pass);
        }
        if pass == sheet.limit {
            return Outcome::Stopped(pass);
        }
        pass += 1;
    }
}

fn cell_lines<W: Width>(cells: &[Range]) -> String {
    let digits = W::BITS as usize / 4;
    let line = |(i, c): (usize, &Range)| {
        let (low, high) = (W::pattern(c.low), W::pattern(c.high));
        format!("cell\t{i}\t{low:0digits$X}\t{high:0digits$X}\n")
    };
    cells.iter().enumerate().map(line).collect()
}

fn listing_of<W: Width>(mut sheet: Sheet) -> String {
    match run::<W>(&mut sheet) {
        Outcome::Settled(p) => format!("settled\t{p}\n{}", cell_lines::<W>(&sheet.cells)),
        Outcome::Stopped(p) => format!("stopped\t{p}\n{}", cell_lines::<W>(&sheet.cells)),
        Outcome::NoSolution(p, i) => format!("none\t{p}\t{i}\n"),
    }
}

/// What the program prints for a text.
pub fn listing(text: &[u8]) -> String {
    match read(text) {
        Err((number, line)) => format!("refused\t{number}\t{line}\n"),
        Ok(sheet) if sheet.width == 32 => listing_of::<Binary32>(sheet),
        Ok(sheet) => listing_of::<Binary64>(sheet),
    }
}
