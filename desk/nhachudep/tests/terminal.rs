//! Tables on a terminal: columns that it has no room for stand below.

mod common;

use std::ffi::{c_char, c_int, c_ulong, CStr};
use std::fs::{self, File};
use std::io::Read;
use std::os::fd::AsRawFd;
use std::os::unix::fs::OpenOptionsExt;

use common::{examples, Folder};

const NOT_CONTROLLING: c_int = 0o400;
const SET_WINDOW: c_ulong = 0x5414;

extern "C" {
    fn ioctl(descriptor: c_int, request: c_ulong, ...) -> c_int;
    fn ptsname_r(descriptor: c_int, name: *mut c_char, size: usize) -> c_int;
    fn unlockpt(descriptor: c_int) -> c_int;
}

fn open(name: &str) -> File {
    let mut options = File::options();
    options.custom_flags(NOT_CONTROLLING).read(true).write(true);
    options.open(name).unwrap()
}

/// A terminal of so many columns: what it shows is read at the first end.
fn terminal(columns: u16) -> (File, File) {
    let seen = open("/dev/ptmx");
    let end = seen.as_raw_fd();
    let (window, mut name) = ([24, columns, 0, 0], [0; 64]);
    // SAFETY: the descriptor is open, the window has the size of `struct
    // winsize`, and no more than the name's size is written.
    let is_set = unsafe {
        unlockpt(end) == 0
            && ioctl(end, SET_WINDOW, window.as_ptr()) == 0
            && ptsname_r(end, name.as_mut_ptr().cast(), name.len()) == 0
    };
    assert!(is_set);
    let name = CStr::from_bytes_until_nul(&name).unwrap();
    (seen, open(name.to_str().unwrap()))
}

/// What the tool shows of the example's links, without colours.
fn links_on(columns: u16) -> String {
    let folder = Folder::new(&format!("terminal-{columns}"));
    let file = fs::read(examples().join("arranged.x10")).unwrap();
    folder.put("a.x10", file);
    let (mut seen, terminal) = terminal(columns);
    let mut tool = folder
        .tool(&["show", "a.x10", "225"])
        .env("NO_COLOR", "1")
        .stdout(terminal)
        .spawn()
        .unwrap();
    let mut shown = Vec::new();
    // When the tool has ended nothing is left to read, which is an error here.
    let _ = seen.read_to_end(&mut shown);
    assert!(tool.wait().unwrap().success());
    String::from_utf8(shown).unwrap().replace("\r\n", "\n")
}

#[test]
fn a_table_that_fits_stands_in_one_piece() {
    assert_eq!(
        links_on(89),
        "\
REC_UEB (225), section 5
record  BASIS_VERSION  BEREICH_NR  ONR_TYP_NR  ORT_NR  UEB_ZIEL_TYP  UEB_ZIEL  UEB_LAENGE
     1             42           1           1     117             2         1        4200
"
    );
}

#[test]
fn columns_without_room_stand_below() {
    let two = "\
REC_UEB (225), section 5
record  BASIS_VERSION  BEREICH_NR  ONR_TYP_NR  ORT_NR  UEB_ZIEL_TYP  UEB_ZIEL
     1             42           1           1     117             2         1

record  UEB_LAENGE
     1        4200
";
    assert_eq!(links_on(88), two);
    assert_eq!(links_on(80), two);
    let narrow = links_on(40);
    assert!(narrow.lines().all(|line| line.len() <= 40), "{narrow}");
}
