//! The program `narrow` where reading or writing fails, at a terminal, and with an argument: what it prints on standard output and
//! on standard error.
//!
//! Usage: program PROGRAM. Status 1 at any difference.

mod terminal;

use std::fs::File;
use std::io::Write;
use std::os::fd::OwnedFd;
use std::os::unix::net::UnixStream;
use std::process::{Child, Command, Stdio};
use std::thread::sleep;
use std::time::Duration;

const CELL: &str = "sheet\t64\t10\ncell\t0000000000000000\t4000000000000000\n";
const LISTING: &str = "settled\t1\ncell\t0\t0000000000000000\t4000000000000000\n";

/// The program started on some input and output, with standard error kept.
fn start(program: &str, arguments: &[&str], input: Stdio, output: Stdio) -> Child {
    let mut command = Command::new(program);
    command.args(arguments).stdin(input).stdout(output).stderr(Stdio::piped());
    command.spawn().unwrap_or_else(|e| panic!("program: cannot start {program}: {e}"))
}

/// What the program wrote on standard output and on standard error. It has ten seconds.
fn written(mut child: Child) -> (String, String) {
    for _ in 0..1000 {
        if child.try_wait().expect("program: no status").is_some() {
            let output = child.wait_with_output().expect("program: no output");
            let text = |bytes: Vec<u8>| String::from_utf8_lossy(&bytes).into_owned();
            return (text(output.stdout), text(output.stderr));
        }
        sleep(Duration::from_millis(10));
    }
    child.kill().expect("program: cannot be stopped");
    ("still waiting for input".into(), String::new())
}

/// An end of a connection that has given the text and then has nothing, but is not at its end: a read there fails.
fn interrupted(text: &str) -> (UnixStream, Stdio) {
    let (mut ours, theirs) = UnixStream::pair().expect("program: no connection");
    ours.write_all(text.as_bytes()).expect("program: no input");
    theirs.set_nonblocking(true).expect("program: not to be unblocked");
    (ours, OwnedFd::from(theirs).into())
}

fn piped(program: &str, arguments: &[&str], text: &str) -> (String, String) {
    let mut child = start(program, arguments, Stdio::piped(), Stdio::piped());
    // The program may not read at all: a closed pipe is no fault.
    let _ = child.stdin.take().unwrap().write_all(text.as_bytes());
    written(child)
}

fn main() {
    let program = std::env::args().nth(1).expect("usage: program PROGRAM");
    let mut wrong = 0;
    let mut calls = 0;
    let mut expect = |what: &str, (output, error): (String, String), listing: &str, told: &str| {
        calls += 1;
        if (output.as_str(), error.as_str()) != (listing, told) {
            wrong += 1;
            println!("program: {what}: printed {output:?}, told {error:?}; expected {listing:?}, {told:?}");
        }
    };
    let open = |path: &str| File::open(path).unwrap_or_else(|e| panic!("program: cannot open {path}: {e}"));
    let full = File::create("/dev/full").expect("program: no /dev/full");

    expect("a whole text", piped(&program, &[], CELL), LISTING, "");
    let (connection, input) = interrupted(CELL);
    let got = written(start(&program, &[], input, Stdio::piped()));
    expect("a read that fails after a whole text", got, "", "narrow: standard input: Resource temporarily unavailable\n");
    drop(connection);
    let got = written(start(&program, &[], open("/").into(), Stdio::piped()));
    expect("a folder as input", got, "", "narrow: standard input: Is a directory\n");
    let got = written(start(&program, &[], open("/dev/null").into(), full.into()));
    expect("a full disk", got, "", "narrow: standard output: No space left on device\n");
    expect("an argument", piped(&program, &["sheet.txt"], CELL), "", "usage: narrow <sheet\n");
    let (terminal, input) = terminal::typed(&[CELL, terminal::END].concat());
    let got = written(start(&program, &[], input, Stdio::piped()));
    expect("a terminal, ended once", got, LISTING, "");
    drop(terminal);

    println!("program: {calls} runs, {wrong} not as expected");
    std::process::exit((wrong != 0).into());
}
