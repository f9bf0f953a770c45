//! What std has no way for: signals, access lists, a terminal's width, and
//! whether standard output was open at the start. The numbers are those of Linux
//! on x86-64 and Arm.

use std::ffi::{c_char, c_int, c_ulong, CStr};
use std::fs::File;
use std::io::{self, Write};
use std::mem::ManuallyDrop;
use std::os::fd::{AsRawFd, FromRawFd};
use std::process::exit;
use std::ptr;
use std::sync::atomic::{AtomicBool, Ordering};

const STANDARD_OUTPUT: c_int = 1;

const GET_FLAGS: c_int = 3;
const ACCESS: c_int = 3;
const READ_ONLY: c_int = 0;

const GET_WINDOW: c_ulong = 0x5413;

const BROKEN_PIPE: c_int = 13;
const FILE_SIZE: c_int = 25;
const BY_DEFAULT: usize = 0;
const IGNORED: usize = 1;
const SET_MASK: c_int = 2;

/// The attribute in which a file has its access list, POSIX 1003.1e.
const ACCESS_LIST: &CStr = c"system.posix_acl_access";
const LONGEST_ATTRIBUTE: usize = 65_536;
const NO_ATTRIBUTE: i32 = 61;
const NOT_SUPPORTED: i32 = 95;

/// `sigset_t`: 1024 bits.
#[repr(C)]
struct Signals([u64; 16]);

impl Signals {
    const NONE: Signals = Signals([0; 16]);
    const ALL: Signals = Signals([u64::MAX; 16]);
}

/// `struct winsize`: rows, columns, and both in points.
#[repr(C)]
struct Window([u16; 4]);

extern "C" {
    fn fcntl(descriptor: c_int, command: c_int, ...) -> c_int;
    fn fgetxattr(file: c_int, name: *const c_char, value: *mut u8, size: usize) -> isize;
    fn fremovexattr(file: c_int, name: *const c_char) -> c_int;
    fn fsetxattr(
        file: c_int,
        name: *const c_char,
        value: *const u8,
        size: usize,
        how: c_int,
    ) -> c_int;
    fn ioctl(descriptor: c_int, request: c_ulong, ...) -> c_int;
    fn pthread_sigmask(how: c_int, new: *const Signals, old: *mut Signals) -> c_int;
    fn raise(signal: c_int) -> c_int;
    fn signal(signal: c_int, handler: usize) -> usize;
}

static OUTPUT_IS_SHUT: AtomicBool = AtomicBool::new(false);

/// Before `main`, std puts /dev/null in the place of a closed standard output,
/// and all that is written is lost in silence; so this looks before std does.
#[used]
#[link_section = ".init_array"]
static LOOK_AT_OUTPUT: extern "C" fn() = look_at_output;

extern "C" fn look_at_output() {
    // SAFETY: asking for flags changes nothing, whatever the descriptor is.
    let flags = unsafe { fcntl(STANDARD_OUTPUT, GET_FLAGS) };
    let is_shut = flags < 0 || flags & ACCESS == READ_ONLY;
    OUTPUT_IS_SHUT.store(is_shut, Ordering::Relaxed);
}

/// Standard output that tells of every failure: std's own takes a descriptor
/// that cannot be written to for one that has taken everything.
pub struct Output;

impl Output {
    pub fn expect_open() -> io::Result<()> {
        match OUTPUT_IS_SHUT.load(Ordering::Relaxed) {
            true => Err(io::Error::other("is not open for writing")),
            false => Ok(()),
        }
    }
}

impl Write for Output {
    fn write(&mut self, bytes: &[u8]) -> io::Result<usize> {
        Output::expect_open()?;
        // SAFETY: the descriptor was open at the start, nothing closes it, and
        // this file does not either.
        let file = ManuallyDrop::new(unsafe { File::from_raw_fd(STANDARD_OUTPUT) });
        (&*file).write(bytes)
    }

    fn flush(&mut self) -> io::Result<()> {
        Ok(())
    }
}

/// How wide the terminal is that standard output leads to, if it leads to one.
pub fn terminal_width() -> Option<usize> {
    let mut window = Window([0; 4]);
    // SAFETY: the place has the size of `struct winsize` and outlives the call.
    let asked = unsafe { ioctl(STANDARD_OUTPUT, GET_WINDOW, ptr::from_mut(&mut window)) };
    let Window([_, columns, ..]) = window;
    (asked == 0 && columns > 0).then_some(columns.into())
}

/// Ends as programs do whose reader has gone: by SIGPIPE, which std ignores.
pub fn end_by_broken_pipe() -> ! {
    // SAFETY: the default stands again for a signal that nothing handles.
    unsafe {
        signal(BROKEN_PIPE, BY_DEFAULT);
        raise(BROKEN_PIPE);
    }
    // Only if the signal is blocked: what a shell calls the same end.
    exit(128 + BROKEN_PIPE)
}

/// A file that grows over its limit is then an error that can be told of.
pub fn ignore_size_signal() {
    // SAFETY: nothing handles this signal.
    unsafe { signal(FILE_SIZE, IGNORED) };
}

/// While this lives every signal waits that can.
pub struct Calm {
    before: Signals,
}

impl Calm {
    pub fn begin() -> Calm {
        let mut before = Signals::NONE;
        // SAFETY: both sets have the size of `sigset_t` and outlive the call.
        unsafe { pthread_sigmask(SET_MASK, &Signals::ALL, &mut before) };
        Calm { before }
    }
}

impl Drop for Calm {
    fn drop(&mut self) {
        // SAFETY: the set is the one that the system handed out.
        unsafe { pthread_sigmask(SET_MASK, &self.before, ptr::null_mut()) };
    }
}

/// Gives a file the access list of another, or takes its own if that has none:
/// a new file may have one from its folder.
pub fn copy_access_list(from: &File, to: &File) -> io::Result<()> {
    match access_list(from)? {
        Some(list) => set_access_list(to, &list),
        None => remove_access_list(to),
    }
}

fn access_list(file: &File) -> io::Result<Option<Vec<u8>>> {
    let mut list = vec![0; LONGEST_ATTRIBUTE];
    let (file, name) = (file.as_raw_fd(), ACCESS_LIST.as_ptr());
    // SAFETY: the name ends with 0, and no more than the list's size is written.
    let size = unsafe { fgetxattr(file, name, list.as_mut_ptr(), list.len()) };
    match usize::try_from(size) {
        Ok(size) => {
            list.truncate(size);
            Ok(Some(list))
        }
        Err(_) => expect_no_list().map(|()| None),
    }
}

fn set_access_list(file: &File, list: &[u8]) -> io::Result<()> {
    let (file, name) = (file.as_raw_fd(), ACCESS_LIST.as_ptr());
    // SAFETY: the name ends with 0, and no more than the list is read.
    match unsafe { fsetxattr(file, name, list.as_ptr(), list.len(), 0) } {
        0 => Ok(()),
        _ => Err(io::Error::last_os_error()),
    }
}

fn remove_access_list(file: &File) -> io::Result<()> {
    // SAFETY: the name ends with 0.
    match unsafe { fremovexattr(file.as_raw_fd(), ACCESS_LIST.as_ptr()) } {
        0 => Ok(()),
        _ => expect_no_list(),
    }
}

/// The last error is one only if it does not say that there is no list.
fn expect_no_list() -> io::Result<()> {
    let error = io::Error::last_os_error();
    match error.raw_os_error() {
        Some(NO_ATTRIBUTE | NOT_SUPPORTED) => Ok(()),
        _ => Err(error),
    }
}

#[cfg(test)]
mod tests {
    use super::*;

    fn mask() -> [u64; 16] {
        let mut now = Signals::NONE;
        // SAFETY: with no new set the mask is only read.
        unsafe { pthread_sigmask(SET_MASK, ptr::null(), &mut now) };
        now.0
    }

    #[test]
    fn signals_wait_while_it_is_calm() {
        let bit = |signal: c_int| 1_u64 << (signal - 1);
        let before = mask();
        assert_eq!(before[0] & bit(BROKEN_PIPE), 0);
        let calm = Calm::begin();
        assert_ne!(mask()[0] & bit(BROKEN_PIPE), 0);
        // SAFETY: the signal is ignored, by std, and waits besides.
        unsafe { raise(BROKEN_PIPE) };
        drop(calm);
        assert_eq!(mask(), before);
    }

    #[test]
    fn an_open_output_is_open() {
        look_at_output();
        assert!(Output::expect_open().is_ok());
        assert_eq!(Output.write(b"").unwrap(), 0);
    }
}
