//! Files that are replaced: none is lost, to nobody, with all its rights.

mod common;

use std::ffi::{c_char, c_int, CStr, CString};
use std::fs;
use std::os::unix::ffi::OsStrExt;
use std::os::unix::fs::{chown, MetadataExt, PermissionsExt};
use std::os::unix::process::CommandExt;
use std::path::Path;
use std::process::{Child, Command, Stdio};

use common::meanwhile::{meanwhile, watched};
use common::{Folder, Run, SMALL};

/// The small file, with the comment that its form does not have.
fn loose() -> String {
    SMALL.replace("ver;", "com; Beiwerk\nver;")
}

fn put_with_mode(folder: &Folder, name: &str, mode: u32) {
    folder.put(name, loose());
    fs::set_permissions(folder.path(name), fs::Permissions::from_mode(mode)).unwrap();
}

fn run(command: &mut Command) -> Run {
    Run::of(command.output().unwrap())
}

/// A file with this many texts to fill.
fn with_empty_texts(count: usize) -> String {
    let days: String = (1..=count)
        .map(|day| format!("rec; 7; {day}; \"\"\n"))
        .collect();
    let table = format!(
        "tbl; MENGE_TAGESART\n\
         atr; BASIS_VERSION; TAGESART_NR; TAGESART_TEXT\n\
         frm; num[9.0]; num[3.0]; char[40]\n\
         {days}end; {count}\neof; 2\n"
    );
    SMALL.replace("eof; 1\n", &table)
}

#[test]
fn forty_fills_at_once_all_stay() {
    const FILLS: usize = 40;
    let folder = Folder::new("forty");
    folder.put("a.x10", with_empty_texts(FILLS));
    let fill = |record: usize| -> Child {
        let (record, text) = (record.to_string(), format!("day {record}"));
        let arguments = ["fill", "a.x10", "2", &record, "3", &text, "--in-place"];
        let mut command = folder.tool(&arguments);
        command.stdout(Stdio::piped()).stderr(Stdio::piped());
        command.spawn().unwrap()
    };
    let runs: Vec<Child> = (1..=FILLS).map(fill).collect();
    for run in runs {
        Run::of(run.wait_with_output().unwrap()).expect(0, "", "");
    }
    let whole = (1..=FILLS).fold(with_empty_texts(FILLS), |file, day| {
        let empty = format!("rec; 7; {day}; \"\"\n");
        let filled = format!("com; \"SUGGESTED 3\"\nrec; 7; {day}; \"day {day}\"\n");
        file.replace(&empty, &filled)
    });
    assert_eq!(String::from_utf8(folder.get("a.x10")).unwrap(), whole);
    assert_eq!(folder.names(), ["a.x10"]);
}

/// Programs that know nothing of the lock are not written over either.
#[test]
fn a_file_that_has_changed_since_it_was_read_stays() {
    let told = "nhachudep: a.x10: changed by another program since it was read; \
                nothing is written\n";
    for (name, line, left) in [
        ("changed", "printf later >> a.x10", loose() + "later"),
        ("replaced", "cp a.x10 b; mv b a.x10", loose()),
        ("rights", "chmod 600 a.x10", loose()),
    ] {
        let folder = Folder::new(&format!("in-place-{name}"));
        put_with_mode(&folder, "a.x10", 0o644);
        let arguments = ["write", "a.x10", "--in-place"];
        run(&mut meanwhile(&folder, &arguments, line)).expect(2, "", told);
        assert_eq!(folder.get("a.x10"), left.as_bytes());
        assert_eq!(folder.names(), ["a.x10", "log"]);
    }
}

#[test]
fn a_file_that_has_gone_does_not_come_back() {
    let folder = Folder::new("in-place-gone");
    folder.put("a.x10", loose());
    let arguments = ["write", "a.x10", "--in-place"];
    let run = run(&mut meanwhile(&folder, &arguments, "rm a.x10"));
    assert_eq!((run.code, run.text()), (2, ""));
    assert!(run.err.starts_with("nhachudep: a.x10: "), "{}", run.err);
    assert_eq!(folder.names(), ["log"]);
}

/// For its owner alone until it has its rights; on the disk before it is
/// renamed; and then the name on the disk.
#[test]
fn rights_come_before_the_name_and_the_folder_is_synced() {
    let folder = Folder::new("in-place-order");
    put_with_mode(&folder, "a.x10", 0o664);
    let mut command = watched(&folder, &["write", "a.x10", "--in-place"]);
    run(&mut command).expect(0, "", "");
    assert_eq!(folder.get("a.x10"), SMALL.as_bytes());
    let steps = String::from_utf8(folder.get("log")).unwrap();
    let steps: Vec<&str> = steps.lines().collect();
    assert_eq!(
        steps[..3],
        ["fchmod file 600", "fsync file 664", "rename file 664"]
    );
    assert!(steps[3].starts_with("fsync folder ") && steps.len() == 4);
}

#[test]
fn a_new_file_is_synced_with_its_folder() {
    let folder = Folder::new("in-place-new");
    folder.put("a.x10", loose());
    let mut command = watched(&folder, &["write", "a.x10", "-o", "b.x10"]);
    run(&mut command).expect(0, "", "");
    let steps = String::from_utf8(folder.get("log")).unwrap();
    let steps: Vec<&str> = steps.lines().map(|step| &step[..step.len() - 4]).collect();
    assert_eq!(steps, ["fsync file", "rename file", "fsync folder"]);
}

#[test]
fn a_read_only_file_stays() {
    let folder = Folder::new("in-place-read-only");
    put_with_mode(&folder, "a.x10", 0o444);
    folder.put("b.x10", SMALL);
    let told = "nhachudep: a.x10: is read-only; nothing is written\n";
    for arguments in [
        &["write", "a.x10", "--in-place"][..],
        &["fill", "a.x10", "1", "2", "2", "Sommer", "--in-place"],
        &["strip", "b.x10", "-o", "a.x10"],
    ] {
        folder.run(arguments).expect(2, "", told);
    }
    assert_eq!(folder.get("a.x10"), loose().as_bytes());
    assert_eq!(folder.names(), ["a.x10", "b.x10"]);
}

/// Only who may give files away can try these two.
fn give_away(folder: &Folder, name: &str) -> bool {
    chown(folder.path(name), Some(12_345), Some(23_456)).is_ok()
}

#[test]
fn owner_and_group_stay() {
    let folder = Folder::new("in-place-owner");
    put_with_mode(&folder, "a.x10", 0o640);
    folder.put("b.x10", loose());
    if !give_away(&folder, "a.x10") {
        return;
    }
    for arguments in [
        &["write", "a.x10", "--in-place"][..],
        &["strip", "b.x10", "-o", "a.x10"],
    ] {
        let _ = fs::remove_file(folder.path("log"));
        run(&mut watched(&folder, arguments)).expect(0, "", "");
        let found = fs::metadata(folder.path("a.x10")).unwrap();
        let rights = (found.uid(), found.gid(), found.mode() & 0o7777);
        assert_eq!(rights, (12_345, 23_456, 0o640));
        let steps = folder.get("log");
        assert!(steps.starts_with(b"fchown file 600\nfchmod file 600\nfsync file 640\n"));
    }
}

extern "C" {
    fn getxattr(path: *const c_char, name: *const c_char, value: *mut u8, size: usize) -> isize;
    fn prctl(option: c_int, ...) -> c_int;
    fn setxattr(
        path: *const c_char,
        name: *const c_char,
        value: *const u8,
        size: usize,
        how: c_int,
    ) -> c_int;
}

/// The attribute that has a file's access list, and the one with which a
/// folder gives one to its new files.
const OF_A_FILE: &CStr = c"system.posix_acl_access";
const FOR_NEW_FILES: &CStr = c"system.posix_acl_default";

/// An access list of version 2 that lets one more user read.
fn access_list() -> Vec<u8> {
    const NOBODY: u32 = u32::MAX;
    let entries: [(u16, u16, u32); 5] = [
        (0x01, 6, NOBODY),
        (0x02, 4, 12_345),
        (0x04, 4, NOBODY),
        (0x10, 4, NOBODY),
        (0x20, 0, NOBODY),
    ];
    let mut list = 2_u32.to_le_bytes().to_vec();
    for (tag, rights, user) in entries {
        list.extend(tag.to_le_bytes());
        list.extend(rights.to_le_bytes());
        list.extend(user.to_le_bytes());
    }
    list
}

fn set_attribute(path: &Path, name: &CStr, value: &[u8]) -> bool {
    let path = CString::new(path.as_os_str().as_bytes()).unwrap();
    let (size, value) = (value.len(), value.as_ptr());
    // SAFETY: both names end with 0, and the size is the value's.
    unsafe { setxattr(path.as_ptr(), name.as_ptr(), value, size, 0) == 0 }
}

fn attribute(path: &Path, name: &CStr) -> Vec<u8> {
    let path = CString::new(path.as_os_str().as_bytes()).unwrap();
    let mut value = vec![0; 1024];
    // SAFETY: both names end with 0, and no more than the size is written.
    let size = unsafe {
        getxattr(
            path.as_ptr(),
            name.as_ptr(),
            value.as_mut_ptr(),
            value.len(),
        )
    };
    value.truncate(usize::try_from(size).unwrap_or(0));
    value
}

/// Where the file system has access lists, a file keeps its own, and gets none
/// from its folder.
#[test]
fn access_lists_stay() {
    let folder = Folder::new("in-place-access-list");
    put_with_mode(&folder, "a.x10", 0o640);
    let path = folder.path("a.x10");
    if !set_attribute(&folder.path(""), FOR_NEW_FILES, &access_list()) {
        return;
    }
    folder
        .run(&["write", "a.x10", "--in-place"])
        .expect(0, "", "");
    assert_eq!(attribute(&path, OF_A_FILE), b"");
    assert!(set_attribute(&path, OF_A_FILE, &access_list()));
    let mode = fs::metadata(&path).unwrap().mode();
    folder
        .run(&["strip", "a.x10", "--in-place"])
        .expect(0, "", "");
    assert_eq!(attribute(&path, OF_A_FILE), access_list());
    assert_eq!(fs::metadata(&path).unwrap().mode(), mode);
}

/// The tool as a user who may write the file and not give it away.
fn without_giving_away(command: &mut Command) -> &mut Command {
    const DROP_CAPABILITY: c_int = 24;
    const CHOWN: c_int = 0;
    // SAFETY: the call takes numbers alone.
    let drop = || match unsafe { prctl(DROP_CAPABILITY, CHOWN) } {
        0 => Ok(()),
        _ => Err(std::io::Error::last_os_error()),
    };
    // SAFETY: between fork and exec only this one call is made.
    unsafe { command.pre_exec(drop) }
}

#[test]
fn a_file_that_cannot_be_given_to_its_owner_stays() {
    let folder = Folder::new("in-place-foreign");
    folder.put("a.x10", loose());
    if !give_away(&folder, "a.x10") {
        return;
    }
    let mut command = folder.tool(&["write", "a.x10", "--in-place"]);
    let Ok(output) = without_giving_away(&mut command).output() else {
        return;
    };
    Run::of(output).expect(
        2,
        "",
        "nhachudep: a.x10: belongs to user 12345 and group 23456, and a new file cannot be given \
         to them (Operation not permitted (os error 1)); nothing is written\n",
    );
    assert_eq!(folder.get("a.x10"), loose().as_bytes());
    assert_eq!(folder.names(), ["a.x10"]);
}
