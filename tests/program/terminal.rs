//! A terminal with something typed at it.

use std::ffi::{CStr, c_char, c_int};
use std::fs::{File, OpenOptions};
use std::io::Write;
use std::os::fd::{AsRawFd, FromRawFd};
use std::os::unix::fs::OpenOptionsExt;
use std::process::Stdio;

unsafe extern "C" {
    fn posix_openpt(flags: c_int) -> c_int;
    fn grantpt(terminal: c_int) -> c_int;
    fn unlockpt(terminal: c_int) -> c_int;
    fn ptsname(terminal: c_int) -> *const c_char;
}

/// To read and write, and not to become this process's own terminal (Linux).
const READ_WRITE: c_int = 0o2;
const NOT_OWN: c_int = 0o400;

/// What a person types to end the input, at the start of a line.
pub const END: &str = "\x04";

/// The side of a terminal at which the text was typed, to be kept open, and the side that a program reads.
pub fn typed(text: &str) -> (File, Stdio) {
    // Each call gets the descriptor of an open terminal, and the name is copied before another call.
    let (mut keyboard, name) = unsafe {
        let terminal = posix_openpt(READ_WRITE | NOT_OWN);
        assert!(terminal >= 0, "program: no terminal");
        let keyboard = File::from_raw_fd(terminal);
        assert!(grantpt(keyboard.as_raw_fd()) == 0 && unlockpt(keyboard.as_raw_fd()) == 0, "program: no terminal");
        (keyboard, CStr::from_ptr(ptsname(terminal)).to_str().expect("program: a terminal's name").to_owned())
    };
    let screen = OpenOptions::new().read(true).write(true).custom_flags(NOT_OWN).open(name).expect("program: no terminal");
    keyboard.write_all(text.as_bytes()).expect("program: nothing typed");
    (keyboard, screen.into())
}
