//! The examples of docs/FORMAT.md: sheets and refused texts with the listings it states, and numbers with their patterns.

use crate::texts::Case;

const NAME: &str = "docs/FORMAT.md";
const DOCUMENT: &str = include_str!("../../docs/FORMAT.md");

fn printing(text: String, printed: String) -> Case {
    Case { name: NAME.to_string(), text: text.into_bytes(), printed: Some(printed), pause: 0 }
}

/// Each block that is a sheet, with the block after it as its listing; both as they stand.
fn sheets() -> Vec<Case> {
    let blocks: Vec<&str> = DOCUMENT.split("```\n").skip(1).step_by(2).collect();
    let pairs = blocks.iter().zip(&blocks[1..]).filter(|(text, _)| text.starts_with("sheet\t"));
    pairs.map(|(text, listing)| printing(text.to_string(), listing.to_string())).collect()
}

/// A table's text: quoted parts, each as often as the words before it say.
fn table_text(cell: &str) -> String {
    let parts: Vec<&str> = cell.split('`').collect();
    let times = |words: &str| words.split_whitespace().find_map(|w| w.replace(',', "").parse().ok()).unwrap_or(1);
    let quoted = |part: &str| part.replace('→', "\t").replace('⏎', "\n").replace('␍', "\r").replace('◌', "\u{FEFF}");
    parts.chunks_exact(2).map(|pair| quoted(pair[1]).repeat(times(pair[0]))).collect()
}

/// The columns of each row of a table.
fn rows() -> impl Iterator<Item = Vec<&'static str>> {
    DOCUMENT.lines().map(|line| line.split('|').collect())
}

/// Each row whose last column is a reply: the column before it is the text.
fn refusals() -> Vec<Case> {
    let replies = rows().filter(|row| row.len() == 6 && row[4].starts_with(" `refused "));
    let reply = |row: &str| row.replace('`', "").trim().replace(' ', "\t") + "\n";
    replies.map(|row| printing(table_text(row[3]), reply(row[4]))).collect()
}

/// The rows that give a number's pattern at both widths: how many there are, and how many are wrong.
pub fn patterns() -> (usize, usize) {
    let quoted = |cell: &str| cell.trim().strip_prefix('`')?.strip_suffix('`').map(str::to_string);
    let (mut count, mut wrong) = (0, 0);
    for row in rows().filter(|row| row.len() == 5) {
        let [Some(number), Some(narrow), Some(wide)] = [row[1], row[2], row[3]].map(quoted) else { continue };
        let (Ok(f), Ok(d)) = (number.parse::<f32>(), number.parse::<f64>()) else { continue };
        count += 1;
        wrong += (format!("{:08X}", f.to_bits()) != narrow || format!("{:016X}", d.to_bits()) != wide) as usize;
    }
    assert!(count >= 7, "listing: only {count} patterns in {NAME}");
    (count, wrong)
}

/// All of them: at least eight sheets and twenty-three refusals.
pub fn examples() -> Vec<Case> {
    let (sheets, refusals) = (sheets(), refusals());
    assert!(sheets.len() >= 8, "listing: only {} sheets in {NAME}", sheets.len());
    assert!(refusals.len() >= 23, "listing: only {} refusals in {NAME}", refusals.len());
    [sheets, refusals].concat()
}
