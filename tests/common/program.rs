//! The program under test, run on a text.

use std::io::Write;
use std::process::{Command, Stdio};
use std::thread::sleep;
use std::time::Duration;

/// What the program writes for a text that comes in parts, with a pause after each but the last.
pub fn run(program: &str, parts: &[&[u8]]) -> String {
    let mut child = Command::new(program)
        .stdin(Stdio::piped())
        .stdout(Stdio::piped())
        .spawn()
        .unwrap_or_else(|e| panic!("cannot start {program}: {e}"));
    let mut input = child.stdin.take().unwrap();
    for (i, part) in parts.iter().enumerate() {
        if i != 0 {
            sleep(Duration::from_millis(20));
        }
        // The program may stop reading early: a closed pipe is no fault.
        let _ = input.write_all(part);
    }
    drop(input);
    let output = child.wait_with_output().unwrap_or_else(|e| panic!("no output of {program}: {e}"));
    assert!(output.status.success(), "{program} ended with {}", output.status);
    String::from_utf8_lossy(&output.stdout).into_owned()
}
