//! The tool with something happening while it writes a file.

use std::path::{Path, PathBuf};
use std::process::Command;
use std::sync::OnceLock;

use super::{tool, Folder};

/// What is loaded into the tool, compiled once.
fn library() -> &'static Path {
    static LIBRARY: OnceLock<PathBuf> = OnceLock::new();
    LIBRARY.get_or_init(|| {
        let here = Path::new(env!("CARGO_MANIFEST_DIR"));
        let out = Path::new(env!("CARGO_TARGET_TMPDIR"));
        let out = out.join(concat!(env!("CARGO_CRATE_NAME"), "-meanwhile.so"));
        let status = Command::new("cc")
            .args([
                "-std=c11", "-Wall", "-Wextra", "-Werror", "-shared", "-fPIC",
            ])
            .arg(here.join("tests/common/meanwhile.c"))
            .arg("-o")
            .arg(&out)
            .status();
        assert!(status.expect("a C compiler").success());
        out
    })
}

/// The tool, with a line of shell that runs when its new file is written and
/// not yet renamed; `$PPID` is the tool.
pub fn meanwhile(folder: &Folder, arguments: &[&str], line: &str) -> Command {
    let mut command = watched(folder, arguments);
    command.env("MEANWHILE_RUN", line);
    command
}

/// The tool, noting in `log` what it does to files.
pub fn watched(folder: &Folder, arguments: &[&str]) -> Command {
    let mut command = tool(&folder.0);
    command
        .args(arguments)
        .env("LD_PRELOAD", library())
        .env("MEANWHILE_LOG", folder.path("log"));
    command
}
