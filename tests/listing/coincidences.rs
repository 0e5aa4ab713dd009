//! Sheets whose records name a cell more than once, with their listings. Spaces stand for tabs, as in the requirement.

use crate::texts::{Case, printing};

/// From -1 to 4, from -2 to 3 and from -8 to 1/2.
const CELLS: [&str; 3] = ["BF800000 40800000", "C0000000 40400000", "C1000000 3F000000"];

/// A record over these cells, and what it leaves of those that it narrows: halves and doubles, what 4 and 3 absorb, zero.
const RECORDS: [(&str, &[(usize, &str)]); 11] = [
    ("sum 0 0 1", &[(0, "BF800000 3FC00000")]),
    ("sum 0 1 0", &[(1, "B4000000 34800000")]),
    ("sum 2 1 1", &[(2, "B4000000 34000000")]),
    ("sum 1 1 1", &[(1, "00000000 00000000")]),
    ("diff 0 0 1", &[(1, "00000000 00000000")]),
    ("diff 0 1 0", &[(1, "B4800000 34000000")]),
    ("diff 2 1 1", &[(1, "C0000000 3E800000"), (2, "C0800000 3F000000")]),
    ("diff 2 2 2", &[(2, "00000000 00000000")]),
    ("neg 0 0", &[(0, "00000000 00000000")]),
    ("neg 1 1", &[(1, "00000000 00000000")]),
    ("neg 2 2", &[(2, "00000000 00000000")]),
];

fn records() -> Vec<Case> {
    let given: String = CELLS.map(|cell| format!("cell {cell}\n")).concat();
    let listed = |(line, left): (&str, &[(usize, &str)])| {
        let mut cells = CELLS;
        left.iter().for_each(|(i, cell)| cells[*i] = cell);
        let printed: String = cells.iter().enumerate().map(|(i, cell)| format!("cell {i} {cell}\n")).collect();
        printing(line, &format!("sheet 32 9\n{given}{line}\n"), &format!("settled 2\n{printed}"))
    };
    RECORDS.into_iter().map(listed).collect()
}

/// One cell from 1 to 2.
fn without_zero() -> Vec<Case> {
    let lines = ["sum 0 0 0", "diff 0 0 0", "neg 0 0"];
    lines.map(|line| printing(line, &format!("sheet 32 9\ncell 3F800000 40000000\n{line}\n"), "none 1 0\n")).to_vec()
}

/// Cell 0, which the third number of a neg does not name, keeps its ends.
fn beside_cell_0() -> Vec<Case> {
    vec![printing(
        "a neg of one cell beside cell 0",
        "sheet 32 9\ncell 3F800000 40000000\ncell BF800000 3F800000\nneg 1 1\n",
        "settled 2\ncell 0 3F800000 40000000\ncell 1 00000000 00000000\n",
    )]
}

/// x + x = b, and as a diff: odd b below 2^-125 have no half, those above it have.
fn doubles() -> Vec<Case> {
    let sheet = |x: &str, b: &str, line: &str| format!("sheet 32 9\ncell {x}\ncell {b}\n{line}\n");
    let any = "FF7FFFFF 7F7FFFFF";
    vec![
        printing(
            "b from odd to odd",
            &sheet("80000009 00000009", "80000007 00000005", "sum 0 0 1"),
            "settled 2\ncell 0 80000003 00000002\ncell 1 80000006 00000004\n",
        ),
        printing("an odd b", &sheet("00000000 0000000A", "00000007 00000007", "sum 0 0 1"), "none 1 0\n"),
        printing("an odd b, as a diff", &sheet("00000000 0000000A", "00000007 00000007", "diff 1 0 0"), "none 1 0\n"),
        printing("the last odd b without a half", &sheet(any, "00FFFFFF 00FFFFFF", "sum 0 0 1"), "none 1 0\n"),
        printing(
            "the first odd b with a half",
            &sheet(any, "01000001 01000001", "sum 0 0 1"),
            "settled 2\ncell 0 00800001 00800001\ncell 1 01000001 01000001\n",
        ),
        printing(
            "the largest b",
            &sheet(any, any, "sum 0 0 1"),
            "settled 2\ncell 0 FEFFFFFF 7EFFFFFF\ncell 1 FF7FFFFF 7F7FFFFF\n",
        ),
    ]
}

/// A stage at rest, x + a = x: an even x keeps its place up to half the step to its neighbour, an odd x below that.
fn at_rest() -> Vec<Case> {
    let sheet = |x: &str, a: &str| format!("sheet 64 9\ncell {x}\ncell {a}\nsum 0 1 0\n");
    let settled = |x: &str, a: &str| format!("settled 2\ncell 0 {x}\ncell 1 {a}\n");
    let case = |name: &str, [x, a]: [&str; 2], after: [&str; 2]| printing(name, &sheet(x, a), &settled(after[0], after[1]));
    let (ones, one) = ("3FF0000000000000 3FF0000000000004", "3FF0000000000000 3FF0000000000000");
    let largest = "7FEFFFFFFFFFFFFF 7FEFFFFFFFFFFFFF";
    vec![
        case("a from 0 up", [ones, "0000000000000000 3FF0000000000000"], [ones, "0000000000000000 3CA0000000000000"]),
        case(
            "a from a tie up",
            ["3FF0000000000001 3FF0000000000005", "3CA0000000000000 3FF0000000000000"],
            ["3FF0000000000002 3FF0000000000004", "3CA0000000000000 3CA0000000000000"],
        ),
        case("a from 0 down, below 1", [one, "BFF0000000000000 0000000000000000"], [one, "BC90000000000000 0000000000000000"]),
        case("the largest float", [largest, "0000000000000000 7FEFFFFFFFFFFFFF"], [largest, "0000000000000000 7C8FFFFFFFFFFFFF"]),
        case(
            "the ends of a from two x",
            ["0040000000000000 0040000000000001", "8000000000000008 0000000000000008"],
            ["0040000000000000 0040000000000001", "8000000000000003 0000000000000004"],
        ),
        printing(
            "a tie at an odd x",
            &sheet("3FF0000000000001 3FF0000000000001", "3CA0000000000000 3CA0000000000000"),
            "none 1 0\n",
        ),
    ]
}

/// Cell 1 is the double of cell 0, and cell 2 leaves it at rest.
const TOGETHER: &str = "sheet 64 9
cell 3FF0000000000000 4000000000000000
cell 0000000000000000 4020000000000000
cell 0000000000000000 3FF0000000000000
";

const LEFT: &str = "cell 0 3FF0000000000000 4000000000000000
cell 1 4000000000000000 4010000000000000
cell 2 0000000000000000 3CC0000000000000
";

/// Two coincidences in one sheet. Where the doubling comes last, what it leaves of cell 1 takes a pass more.
fn together() -> Vec<Case> {
    let case = |lines: &str, passes: u32| printing(lines, &format!("{TOGETHER}{lines}"), &format!("settled {passes}\n{LEFT}"));
    vec![case("sum 0 0 1\nsum 1 2 1\n", 2), case("sum 1 2 1\nsum 0 0 1\n", 3)]
}

pub fn examples() -> Vec<Case> {
    [records(), without_zero(), beside_cell_0(), doubles(), at_rest(), together()].concat()
}
