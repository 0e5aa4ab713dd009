//! Texts for the listing test. Spaces stand for tabs, as in the requirement.

use crate::coincidences;
use crate::words::Words;
use std::collections::BTreeMap;

/// A text and what it is.
#[derive(Clone)]
pub struct Case {
    pub name: String,
    pub text: Vec<u8>,
    /// What the requirement says is printed, where it does.
    pub printed: Option<String>,
    /// How many bytes come before a pause; 0 for none.
    pub pause: usize,
}

fn tabs(text: &str) -> Vec<u8> {
    text.replace(' ', "\t").into_bytes()
}

fn bytes(name: &str, text: Vec<u8>) -> Case {
    Case { name: name.to_string(), text, printed: None, pause: 0 }
}

fn case(name: &str, text: &str) -> Case {
    bytes(name, tabs(text))
}

pub fn printing(name: &str, text: &str, printed: &str) -> Case {
    Case { printed: Some(printed.replace(' ', "\t")), ..case(name, text) }
}

const CELLS: &str = "cell C630000000000000 C330000000000000
cell 3FF0000000000000 4630000000000000
cell 3FE0000000000000 3FF8000000000000
sum 0 1 2
";

const NARROWED: &str = "cell 0 C33FFFFFFFFFFFFF C330000000000000
cell 1 4330000000000001 4340000000000000
cell 2 3FF0000000000000 3FF0000000000000
";

const TWO_SUMS: &str = "cell 0000000000000000 000000000000000A
cell 0000000000000001 0000000000000001
cell 0000000000000000 000000000000000A
cell 0000000000000000 0000000000000000
sum 0 1 2
sum 2 3 0
";

const STOPPED: &str = "stopped 5
cell 0 0000000000000005 0000000000000005
cell 1 0000000000000001 0000000000000001
cell 2 0000000000000005 0000000000000005
cell 3 0000000000000000 0000000000000000
";

/// The requirement's own listings.
fn required() -> Vec<Case> {
    vec![
        printing("the listing", &format!("sheet 64 10\n{CELLS}"), &format!("settled 2\n{NARROWED}")),
        printing("limit 1", &format!("sheet 64 1\n{CELLS}"), &format!("stopped 1\n{NARROWED}")),
        printing("two sums, limit 5", &format!("sheet 64 5\n{TWO_SUMS}"), STOPPED),
        printing("two sums, limit 6", &format!("sheet 64 6\n{TWO_SUMS}"), "none 6 0\n"),
        printing("the head alone", "sheet 32 1\n", "settled 1\n"),
        printing("a cell alone", "sheet 32 1\ncell 80000000 80000000\n", "settled 1\ncell 0 00000000 00000000\n"),
        printing("empty", "", "refused 4 1\n"),
    ]
}

/// Diffs: three of the requirement's narrowings with the interval of a mirrored, and one of few digits.
fn diffs() -> Vec<Case> {
    let cells = CELLS.replace("3FF0000000000000 4630000000000000", "C630000000000000 BFF0000000000000").replace("sum", "diff");
    let narrowed = NARROWED.replace("4330000000000001 4340000000000000", "C340000000000000 C330000000000001");
    vec![
        printing("the listing as a diff", &format!("sheet 64 10\n{cells}"), &format!("settled 2\n{narrowed}")),
        printing(
            "a diff that rounds to 1",
            "sheet 32 9\ncell FF7FFFFF 7F7FFFFF\ncell BF800000 BF800000\ncell 3F800000 3F800000\ndiff 0 1 2\n",
            "settled 2\ncell 0 B3000000 33800000\ncell 1 BF800000 BF800000\ncell 2 3F800000 3F800000\n",
        ),
        printing(
            "an odd diff of even numbers",
            "sheet 64 9\ncell 4340000000000000 4350000000000000\ncell 4340000000000000 4350000000000000\n\
             cell 3FF0000000000000 3FF0000000000000\ndiff 0 1 2\n",
            "none 1 0\n",
        ),
        printing(
            "1 to 2, less 1, is 0.25 to 0.5",
            "sheet 32 9\ncell 3F800000 40000000\ncell 3F800000 3F800000\ncell 3E800000 3F000000\ndiff 0 1 2\n",
            "settled 2\ncell 0 3FA00000 3FC00000\ncell 1 3F800000 3F800000\ncell 2 3E800000 3F000000\n",
        ),
    ]
}

/// Cells, the two that are mirrors, and the listing: both are narrowed; the same after a cell that is not named; they share zero
/// alone; both are zero, and no end moves; they share nothing.
const NEGS: [(&str, [u32; 2], &str); 5] = [
    (
        "cell 3F800000 40400000\ncell C0000000 BF000000\n",
        [0, 1],
        "settled 2\ncell 0 3F800000 40000000\ncell 1 C0000000 BF800000\n",
    ),
    (
        "cell 80000000 3F800000\ncell 3F800000 40400000\ncell C0000000 BF000000\n",
        [1, 2],
        "settled 2\ncell 0 00000000 3F800000\ncell 1 3F800000 40000000\ncell 2 C0000000 BF800000\n",
    ),
    (
        "cell 80000000 3F800000\ncell 00000000 3F800000\n",
        [0, 1],
        "settled 2\ncell 0 00000000 00000000\ncell 1 00000000 00000000\n",
    ),
    (
        "cell 80000000 80000000\ncell 00000000 00000000\n",
        [0, 1],
        "settled 1\ncell 0 00000000 00000000\ncell 1 00000000 00000000\n",
    ),
    ("cell 3F800000 40000000\ncell 3F800000 40000000\n", [0, 1], "none 1 0\n"),
];

/// Each with its two cells named in either order.
fn negs() -> Vec<Case> {
    let orders = |(cells, [x, y], printed): (&str, [u32; 2], &str)| {
        let named = |line: String| printing(&line, &format!("sheet 32 9\n{cells}{line}\n"), printed);
        [named(format!("neg {x} {y}")), named(format!("neg {y} {x}"))]
    };
    NEGS.into_iter().flat_map(orders).collect()
}

/// Cell 2 is to be the mirror of cell 0, and of the float after it.
const COUNTING: &str = "cell 0000000000000000 000000000000000A
cell 0000000000000001 0000000000000001
cell 800000000000000A 8000000000000000
cell 0000000000000000 000000000000000A
cell 0000000000000000 0000000000000000
sum 0 1 3
diff 4 2 3
neg 0 2
";

const COUNTED: &str = "stopped 6
cell 0 0000000000000006 0000000000000007
cell 1 0000000000000001 0000000000000001
cell 2 8000000000000007 8000000000000006
cell 3 0000000000000006 0000000000000007
cell 4 0000000000000000 0000000000000000
";

/// Each record settles the one before it, which takes a pass: 1 + 2 = 3, 3 - 1 = 2, and the mirror of that is -2.
const BACKWARDS: &str = "sheet 32 9
cell 3F800000 3F800000
cell 00000000 40800000
cell 00000000 40800000
cell C0800000 40800000
cell 40000000 40000000
neg 2 3
diff 1 0 2
sum 0 4 1
";

const SETTLED: &str = "settled 4
cell 0 3F800000 3F800000
cell 1 40400000 40400000
cell 2 40000000 40000000
cell 3 C0000000 C0000000
cell 4 40000000 40000000
";

/// A true record of each kind: 1 + 2 = 3, 3 - 2 = 1, and -1 is the mirror of 1.
const TRUE: &str = "sheet 32 9
cell 3F800000 3F800000
cell 40000000 40000000
cell 40400000 40400000
cell BF800000 BF800000
sum 0 1 2
diff 2 1 0
neg 0 3
";

/// Sheets with records of all kinds; in the last three record 3 is false.
fn mixtures() -> Vec<Case> {
    let mut cases = vec![
        printing("counting, limit 6", &format!("sheet 64 6\n{COUNTING}"), COUNTED),
        printing("counting, limit 7", &format!("sheet 64 7\n{COUNTING}"), "none 7 2\n"),
        printing("backwards", BACKWARDS, SETTLED),
    ];
    cases.extend(["sum 2 1 0", "diff 0 1 2", "neg 0 1"].map(|line| printing(line, &format!("{TRUE}{line}\n"), "none 1 3\n")));
    cases
}

/// Texts with their listings.
pub fn examples() -> Vec<Case> {
    [required(), diffs(), negs(), mixtures(), coincidences::examples()].concat()
}

/// The same but the empty one, each in two parts: cut in the head, in the middle and before the last line feed.
pub fn parted() -> Vec<Case> {
    let cut = |case: Case| {
        let last = case.text.len() - 1;
        [3, last / 2, last].map(|pause| Case { pause: pause.min(last), ..case.clone() })
    };
    examples().into_iter().filter(|case| !case.text.is_empty()).flat_map(cut).collect()
}

/// First lines, each with its refusal.
const HEADS: [(&str, u32); 22] = [
    ("sheet 16 1", 1),
    ("sheet 0 0", 1),
    ("sheet 99999 99999", 1),
    ("sheet 64 0", 7),
    ("sheet 32 65536", 7),
    ("sheet 32 99999", 7),
    ("sheet 032 1", 4),
    ("sheet 64 00", 4),
    ("sheet 64 100000", 4),
    ("sheet 64", 4),
    ("sheet 64 1 1", 4),
    ("sheet 64 ", 4),
    ("sheet  64 1", 4),
    (" sheet 64 1", 4),
    ("Sheet 64 1", 4),
    ("sheet +64 1", 4),
    ("sheet 64 1\r", 4),
    ("cell 00000000 00000000", 4),
    ("sum 0 1 2", 4),
    ("diff 0 1 2", 4),
    ("neg 0 1", 4),
    ("", 4),
];

/// Lines after a head of width 32 and three cells, each with its refusal.
const LATER: [(&str, u32); 49] = [
    ("cell 7F800000 00000000", 2),
    ("cell 00000000 FFFFFFFF", 2),
    ("cell 00000001 80000001", 3),
    ("cell 3F800000 3F7FFFFF", 3),
    ("cell 3f800000 3F800000", 4),
    ("cell 3F80000 3F800000", 4),
    ("cell 03F800000 3F800000", 4),
    ("cell 3FF0000000000000 3FF0000000000000", 4),
    ("cell 7F800000", 4),
    ("cell 00000000 00000000 00000000", 4),
    ("cell 00000000 00000000 ", 4),
    ("cell 0000000G 00000000", 4),
    ("cells 00000000 00000000", 4),
    ("sum 0 1 3", 5),
    ("sum 3 3 3", 5),
    ("sum 0 0 99999", 5),
    ("sum 0 1 02", 4),
    ("sum 0 1 100000", 4),
    ("sum 0 1", 4),
    ("sum 0 1 2 2", 4),
    ("sum 0 1 -2", 4),
    ("sum 0 1 2 ", 4),
    ("diff 0 1 3", 5),
    ("diff 3 3 3", 5),
    ("diff 0 0 99999", 5),
    ("diff 0 1 02", 4),
    ("diff 0 1", 4),
    ("diff 9 9", 4),
    ("diff 0 1 2 2", 4),
    ("diff 0 1 2 ", 4),
    ("dif 0 1 2", 4),
    ("difference 0 1 2", 4),
    ("Diff 0 1 2", 4),
    ("neg 0 3", 5),
    ("neg 3 0", 5),
    ("neg 99999 99999", 5),
    ("neg 0 01", 4),
    ("neg 0 100000", 4),
    ("neg 0", 4),
    ("neg 0 1 2", 4),
    ("neg 0 1 0", 4),
    ("neg 9 9 9", 4),
    ("neg 0 -1", 4),
    ("neg 0 1 ", 4),
    ("ne 0 1", 4),
    ("negs 0 1", 4),
    ("Neg 0 1", 4),
    ("sheet 32 1", 4),
    ("", 4),
];

/// Lines after 128 records over three cells, each with its refusal.
const NEXT: [(&str, u32); 9] = [
    ("sum 0 1 2", 10),
    ("sum 3 3 3", 5),
    ("sum 0 1 1", 10),
    ("diff 0 1 2", 10),
    ("diff 3 3 3", 5),
    ("diff 0 1 1", 10),
    ("neg 0 1", 10),
    ("neg 3 3", 5),
    ("neg 1 1", 10),
];

/// The places of records: 128 of each kind, and of all kinds together, each alone and with a record more.
fn places(start: &str) -> Vec<Case> {
    let lines =
        ["sum 0 1 2\n", "diff 0 1 2\n", "neg 0 1\n", "neg 2 1\n", "sum 0 0 1\n", "diff 0 1 0\n", "neg 2 2\n", "sum 1 1 1\n"];
    let mut full: Vec<String> = lines[..3].iter().map(|line| format!("{start}{}", line.repeat(128))).collect();
    full.push(format!("{start}{}", lines.concat().repeat(16)));
    let zeros: String = (0..3).map(|i| format!("cell {i} 00000000 00000000\n")).collect();
    let mut cases = vec![];
    for text in &full {
        cases.push(printing("128 records", text, &format!("settled 1\n{zeros}")));
        for (line, number) in NEXT {
            let name = format!("128 records, then {line}");
            cases.push(printing(&name, &format!("{text}{line}\n"), &format!("refused {number} 133\n")));
        }
    }
    cases
}

/// Each refusal at each kind of line, with the number and line that the requirement gives.
pub fn refusals() -> Vec<Case> {
    let zero = "cell 00000000 00000000\n";
    let start = format!("sheet 32 3\n{}", zero.repeat(3));
    let mut cases = vec![];
    for (line, number) in HEADS {
        cases.push(printing(line, &format!("{line}\n{zero}"), &format!("refused {number} 1\n")));
    }
    for (line, number) in LATER {
        cases.push(printing(line, &format!("{start}{line}\nsum 9 9 9\n"), &format!("refused {number} 5\n")));
    }
    let cells = format!("sheet 32 3\n{}", zero.repeat(64));
    cases.push(case("64 cells", &cells));
    cases.push(printing("a 65th cell", &format!("{cells}{zero}"), "refused 10 66\n"));
    cases.push(printing("a 65th cell, not finite", &format!("{cells}cell 00000000 7F800000\n"), "refused 2 66\n"));
    cases.push(printing("a 65th cell, out of order", &format!("{cells}cell 00000001 00000000\n"), "refused 3 66\n"));
    cases.extend(places(&start));
    cases.push(printing("a neg of one cell and none", &format!("sheet 32 3\n{zero}neg 0 9\n"), "refused 5 3\n"));
    cases.push(printing("a neg without cells", "sheet 32 3\nneg 0 0\n", "refused 5 2\n"));
    cases.push(printing("the last line not ended", start.trim_end(), "refused 4 4\n"));
    cases
}

/// The longest listing, 2,692 bytes: 64 cells of width 64, two of which count upward by the smallest float for 65,535 passes.
fn longest() -> Case {
    let cell = |i: usize, low: &str| match i {
        0 | 2 => format!("{low} 3FF0000000000000"),
        1 => "0000000000000001 0000000000000001".to_string(),
        _ => "0000000000000000 0000000000000000".to_string(),
    };
    let given: String = (0..64).map(|i| format!("cell {}\n", cell(i, "0000000000000000"))).collect();
    let printed: String = (0..64).map(|i| format!("cell {i} {}\n", cell(i, "000000000000FFFF"))).collect();
    let text = format!("sheet 64 65535\n{given}sum 0 1 2\nsum 2 3 0\n");
    printing("the longest listing", &text, &format!("stopped 65535\n{printed}"))
}

/// Texts of 8,192 and 8,193 bytes, whose first bad line is known, and the longest listing.
pub fn sizes() -> Vec<Case> {
    let zero = "cell 00000000 00000000\n";
    let full = format!("sheet 32 3\n{}", zero.repeat(64));
    let long = format!("{full}{}", zero.repeat(300));
    let bad = format!("sheet 32 3\n{}", "x".repeat(9000));
    let size = |name: &str, text: &str, n: usize, printed: &str| printing(name, &text[..n], printed);
    vec![
        size("8,192 bytes, a 65th cell", &long, 8192, "refused 10 66\n"),
        size("8,193 bytes", &long, 8193, "refused 8 0\n"),
        size("8,192 bytes, one long line", &bad, 8192, "refused 4 2\n"),
        size("8,193 bytes, malformed", &bad, 8193, "refused 8 0\n"),
        size("a text without a head", &"\n".repeat(8192), 8192, "refused 4 1\n"),
        size("9,000 bytes", &bad, 9000, "refused 8 0\n"),
        longest(),
    ]
}

/// A valid text with each byte changed, removed or doubled, and cut off before it.
pub fn damaged() -> Vec<Case> {
    let wide = tabs(&format!("sheet 64 10\n{CELLS}"));
    let narrow =
        tabs("sheet 32 7\ncell FF7FFFFF 7F7FFFFF\ncell 3F800000 40000000\ncell 3F800000 3F800000\nsum 0 1 2\nsum 2 0 1\n");
    let kinds = tabs(
        "sheet 32 7\ncell 3F800000 40000000\ncell 3F800000 3F800000\ncell 3E800000 3F000000\ncell C0000000 BF000000\n\
         diff 0 1 2\nneg 0 3\n",
    );
    let mut cases = vec![];
    let mut add = |name: String, text: Vec<u8>| cases.push(bytes(&name, text));
    for base in [wide, narrow, kinds] {
        for i in 0..base.len() {
            let (before, after) = (&base[..i], &base[i + 1..]);
            add(format!("cut off at {i}"), before.to_vec());
            add(format!("byte {i} removed"), [before, after].concat());
            add(format!("byte {i} doubled"), [before, &[base[i], base[i]], after].concat());
            for byte in [b'\t', b'\n', b' ', b'0', b'1', b'9', b'B', b'c', 0, 0xFF, base[i] ^ 1] {
                add(format!("byte {i} made {byte:02X}"), [before, &[byte], after].concat());
            }
        }
    }
    cases
}

fn pattern(words: &mut Words, width: u32) -> (i64, String) {
    let top: i64 = if width == 32 { 0x7F7F_FFFF } else { 0x7FEF_FFFF_FFFF_FFFF };
    let fraction = if width == 32 { 23 } else { 52 };
    let one = if width == 32 { 0x3F80_0000 } else { 0x3FF0_0000_0000_0000 };
    let size = match words.below(4) {
        0 => words.between(0, 12),
        1 => words.between(0, top),
        2 => one + (words.between(-8, 60) << fraction) + words.between(-2, 2),
        _ => one + words.between(0, 12),
    };
    let negative = words.coin();
    let bits = if negative { size as u64 | 1 << (width - 1) } else { size as u64 };
    let digits = width as usize / 4;
    (if negative { -size } else { size }, format!("{bits:0digits$X}"))
}

const KINDS: [&str; 3] = ["sum", "diff", "neg"];

fn random_text(words: &mut Words) -> String {
    let width = words.pick(&[32, 64]);
    let mut text = format!("sheet {width} {}\n", words.between(1, 12));
    let cells = words.between(3, 7);
    for _ in 0..cells {
        let mut ends = [pattern(words, width), pattern(words, width)];
        ends.sort();
        text += &format!("cell {} {}\n", ends[0].1, ends[1].1);
    }
    for _ in 0..words.between(0, 6) {
        let [x, a, b] = [0; 3].map(|_| words.between(0, cells - 1));
        text += &match words.pick(&KINDS) {
            "neg" => format!("neg {x} {a}\n"),
            kind => format!("{kind} {x} {a} {b}\n"),
        };
    }
    text
}

/// A record's kind with its cells numbered anew as they come, so that it tells which of them are the same; none for other lines.
fn shape(line: &str) -> Option<String> {
    let fields: Vec<&str> = line.split(' ').collect();
    let (kind, named) = fields.split_first()?;
    let anew = |cell: &&str| format!(" {}", named.iter().position(|other| other == cell).unwrap());
    KINDS.contains(kind).then(|| format!("{kind}{}", named.iter().map(anew).collect::<String>()))
}

/// Well-formed sheets of small and large numbers, of either width, with records of every shape: five of a sum, as many of a diff,
/// two of a neg.
pub fn random(count: usize) -> Vec<Case> {
    let mut words = Words(0x2545_F491_4F6C_DD1D);
    let texts: Vec<String> = (0..count).map(|_| random_text(&mut words)).collect();
    let mut shapes: BTreeMap<String, usize> = BTreeMap::new();
    texts.iter().flat_map(|text| text.lines().filter_map(shape)).for_each(|shape| *shapes.entry(shape).or_default() += 1);
    println!("random sheets: records {shapes:?}");
    assert_eq!(shapes.len(), 12, "listing: a shape of record never occurs");
    texts.iter().enumerate().map(|(i, text)| case(&format!("random sheet {i}"), text)).collect()
}

/// Any bytes, or bytes that sheets have, after a head or not; now and then more than 8,192.
pub fn garbage(count: usize) -> Vec<Case> {
    let mut words = Words(0xD1B5_4A32_D192_ED03);
    let mut text = |i: usize| {
        let head: &[u8] = if words.coin() { b"sheet\t32\t9\n" } else { b"" };
        let (any, length) = (words.coin(), words.pick(&[0, 1, 7, 40, 300, 8180, 8192, 8193, 20_000]));
        let mut byte = || if any { words.next() as u8 } else { words.pick(b"\t\n0123489ABFcdefghilmnstu") };
        let text = head.iter().copied().chain((0..length).map(|_| byte())).collect();
        bytes(&format!("random bytes {i}"), text)
    };
    (0..count).map(&mut text).collect()
}
