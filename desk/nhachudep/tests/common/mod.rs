//! The tool as a user runs it.
#![allow(dead_code)]

pub mod meanwhile;

use std::fs;
use std::io::Write;
use std::path::{Path, PathBuf};
use std::process::{Command, Output, Stdio};

pub const SMALL: &str = "\
mod; DD.MM.YYYY; HH:MM:SS; free
src; \"Desk\"; \"01.02.2024\"; \"06:00:00\"
chs; \"ISO8859-1\"
ver; \"1\"
ifv; \"1.0\"
tbl; MENGE_BASIS_VERSIONEN
atr; BASIS_VERSION; BASIS_VERSION_TEXT
frm; num[9.0]; char[40]
com; \"SUGGESTED 2\"
rec; 7; \"Winter\"
rec; 8; \"\"
end; 2
eof; 1
";

/// What is told of `examples/damaged.x10`.
pub const DAMAGED: &str = "\
damaged.x10: section 1, line 4: 11 not a text
     9 | rec; 7; 1; \"School day
       |            ^^^^^^^^^^^
       = its quotes do not pair: one is missing or too many
       = TAGESART_TEXT stands here, a text of up to 40 bytes
";

/// What a run put out, and its exit code.
pub struct Run {
    pub code: i32,
    pub out: Vec<u8>,
    pub err: String,
}

impl Run {
    pub fn of(output: Output) -> Run {
        Run {
            code: output.status.code().unwrap(),
            out: output.stdout,
            err: String::from_utf8(output.stderr).unwrap(),
        }
    }

    pub fn text(&self) -> &str {
        std::str::from_utf8(&self.out).unwrap()
    }

    pub fn expect(self, code: i32, out: &str, err: &str) {
        assert_eq!(self.text(), out, "standard output; {}", self.err);
        assert_eq!(self.err, err, "standard error");
        assert_eq!(self.code, code, "exit code");
    }
}

fn tool(folder: &Path) -> Command {
    let mut command = Command::new(env!("CARGO_BIN_EXE_nhachudep"));
    command.current_dir(folder);
    command
}

/// A folder of its own for one test.
pub struct Folder(PathBuf);

impl Folder {
    pub fn new(name: &str) -> Folder {
        let path = Path::new(env!("CARGO_TARGET_TMPDIR")).join(name);
        let _ = fs::remove_dir_all(&path);
        fs::create_dir_all(&path).unwrap();
        Folder(path)
    }

    pub fn path(&self, name: &str) -> PathBuf {
        self.0.join(name)
    }

    pub fn put(&self, name: &str, bytes: impl AsRef<[u8]>) {
        fs::write(self.path(name), bytes).unwrap();
    }

    pub fn get(&self, name: &str) -> Vec<u8> {
        fs::read(self.path(name)).unwrap()
    }

    /// Names of what lies in the folder.
    pub fn names(&self) -> Vec<String> {
        let entries = fs::read_dir(&self.0).unwrap();
        let mut names: Vec<String> = entries
            .map(|entry| entry.unwrap().file_name().into_string().unwrap())
            .collect();
        names.sort();
        names
    }

    pub fn run(&self, arguments: &[&str]) -> Run {
        run_in(&self.0, arguments)
    }

    /// The tool, about to run here.
    pub fn tool(&self, arguments: &[&str]) -> Command {
        let mut command = tool(&self.0);
        command.args(arguments);
        command
    }

    pub fn fed(&self, arguments: &[&str], input: &[u8]) -> Run {
        let mut child = tool(&self.0)
            .args(arguments)
            .stdin(Stdio::piped())
            .stdout(Stdio::piped())
            .stderr(Stdio::piped())
            .spawn()
            .unwrap();
        // Misuse is told of before any input is read.
        let _ = child.stdin.take().unwrap().write_all(input);
        Run::of(child.wait_with_output().unwrap())
    }
}

pub fn run_in(folder: &Path, arguments: &[&str]) -> Run {
    Run::of(tool(folder).args(arguments).output().unwrap())
}

fn project() -> PathBuf {
    Path::new(env!("CARGO_MANIFEST_DIR")).join("../..")
}

pub fn examples() -> PathBuf {
    project().join("examples")
}

pub fn cases() -> PathBuf {
    project().join("crates/cases")
}
