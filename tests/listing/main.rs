//! The program `narrow` against an independent reference: what it writes for each text, byte for byte.
//!
//! Usage: listing PROGRAM. Prints how many texts of each kind were compared and how they ended; status 1 at any difference.

#[path = "../common/floats.rs"]
mod floats;
#[path = "../common/narrowing.rs"]
mod narrowing;
#[path = "../common/program.rs"]
mod program;
#[path = "../common/ranges.rs"]
mod ranges;
#[path = "../common/records.rs"]
mod records;
#[path = "../common/repeated.rs"]
mod repeated;
#[path = "../common/sheet.rs"]
mod sheet;
#[path = "../common/words.rs"]
mod words;

mod coincidences;
mod documented;
mod texts;

use program::run;
use std::collections::BTreeMap;
use texts::Case;

/// Compares a kind of texts: the program with the reference, and both with the requirement where it gives the listing.
fn compare(program: &str, kind: &str, cases: Vec<Case>) -> usize {
    let mut endings: BTreeMap<String, usize> = BTreeMap::new();
    let mut differences = 0;
    for case in &cases {
        let expected = sheet::listing(&case.text);
        let (first, rest) = case.text.split_at(case.pause);
        let got = if case.pause == 0 { run(program, &[rest]) } else { run(program, &[first, rest]) };
        let stated = case.printed.as_ref().unwrap_or(&expected);
        if got != expected || stated != &expected {
            differences += 1;
            let text = String::from_utf8_lossy(&case.text[..case.text.len().min(400)]).into_owned();
            eprintln!(
                "listing: {kind}, {}: text {text:?}\n program   {got:?}\n reference {expected:?}\n stated    {stated:?}",
                case.name
            );
        }
        let words: Vec<&str> = got.split(['\t', '\n']).collect();
        let ending = if words[0] == "refused" { words[..2].join(" ") } else { words[0].to_string() };
        *endings.entry(ending).or_default() += 1;
    }
    println!("{kind}: {} texts, {differences} differed; {endings:?}", cases.len());
    differences
}

fn main() {
    let program = std::env::args().nth(1).expect("usage: listing PROGRAM");
    let differences = compare(&program, "examples", texts::examples())
        + compare(&program, "documents", documented::examples())
        + compare(&program, "in two parts", texts::parted())
        + compare(&program, "refusals", texts::refusals())
        + compare(&program, "sizes", texts::sizes())
        + compare(&program, "damaged", texts::damaged())
        + compare(&program, "random sheets", texts::random(1500))
        + compare(&program, "random bytes", texts::garbage(500));
    let (patterns, wrong) = documented::patterns();
    println!("patterns of the documents: {patterns} numbers, {wrong} wrong");
    if differences + wrong != 0 {
        eprintln!("listing: {} differed", differences + wrong);
        std::process::exit(1);
    }
}
