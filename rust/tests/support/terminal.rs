//! A terminal for the command, by the C library that every program is linked with.

use std::ffi::{c_char, c_int, CStr};
use std::fs::{File, OpenOptions};
use std::os::fd::{AsRawFd, FromRawFd};

extern "C" {
    fn posix_openpt(flags: c_int) -> c_int;
    fn grantpt(file: c_int) -> c_int;
    fn unlockpt(file: c_int) -> c_int;
    fn ptsname_r(file: c_int, buffer: *mut c_char, length: usize) -> c_int;
}

/// Both ends of a new terminal: the one to read what is shown, and the one that a program is given.
pub fn open() -> (File, File) {
    const READ_AND_WRITE: c_int = 2;
    let mut name = [0u8; 64];
    // SAFETY: the file number is checked before it is owned, and the name has as many bytes as is said.
    let screen = unsafe {
        let number = posix_openpt(READ_AND_WRITE);
        assert!(number >= 0, "no terminal to be had");
        let screen = File::from_raw_fd(number);
        assert_eq!(grantpt(screen.as_raw_fd()), 0);
        assert_eq!(unlockpt(screen.as_raw_fd()), 0);
        let found = ptsname_r(screen.as_raw_fd(), name.as_mut_ptr().cast(), name.len());
        assert_eq!(found, 0);
        screen
    };
    let name = CStr::from_bytes_until_nul(&name).expect("a name");
    let name = name.to_str().expect("a plain name");
    let program = OpenOptions::new().read(true).write(true).open(name);
    (screen, program.expect("the terminal"))
}
