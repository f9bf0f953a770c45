//! Finds the proved archive, or has it proved and built, and links it.

use std::env;
use std::fs;
use std::path::{Path, PathBuf};
use std::process::{exit, Command, Stdio};

/// A prebuilt archive, for a machine on which nothing can be proved.
const GIVEN: &str = "VDV_ARCHIVE";

/// What of a crate is proved; `rt` writes beside it, to out/.
const PARTS: [&str; 3] = ["src", "specs", "proofs"];

fn main() {
    println!("cargo:rerun-if-env-changed={GIVEN}");
    println!("cargo:rerun-if-changed=build.rs");
    let archive = match env::var(GIVEN) {
        Ok(path) => given(&path),
        Err(_) => proved(&Path::new(&wanted("CARGO_MANIFEST_DIR")).join("../..")),
    };
    println!("cargo:rerun-if-changed={}", archive.display());
    // `rt ci` empties crates/*/out, so what is linked is a copy.
    let out = PathBuf::from(wanted("OUT_DIR"));
    if let Err(error) = fs::copy(&archive, out.join("libvdv.a")) {
        refuse(&format!("{}: {error}", archive.display()));
    }
    println!("cargo:rustc-link-search=native={}", out.display());
    println!("cargo:rustc-link-lib=static=vdv");
}

fn wanted(name: &str) -> String {
    env::var(name).unwrap_or_else(|_| refuse(&format!("cargo does not say {name}")))
}

fn refuse(why: &str) -> ! {
    eprintln!("vdv: {why}");
    exit(1)
}

fn given(path: &str) -> PathBuf {
    let archive = PathBuf::from(path);
    if !archive.is_file() {
        refuse(&format!("{GIVEN} names {path}, and there is no such file"));
    }
    archive
}

/// The archive under crates/vdv/out, proved and built from the sources as they are.
fn proved(root: &Path) -> PathBuf {
    let prove = root.join("desk/vdv/prove");
    for source in [root.join("crates.txt"), prove.clone()] {
        println!("cargo:rerun-if-changed={}", source.display());
    }
    for part in parts(&root.join("crates")) {
        println!("cargo:rerun-if-changed={}", part.display());
    }
    let run = Command::new(&prove)
        .arg(machine())
        .stderr(Stdio::inherit())
        .output();
    match run {
        Ok(output) if output.status.success() => {
            PathBuf::from(String::from_utf8_lossy(&output.stdout).trim_end())
        }
        Ok(_) => refuse("there is no proved archive to link"),
        Err(error) => refuse(&format!("{}: {error}", prove.display())),
    }
}

/// The folders of the crates' sources, as many as are there.
fn parts(crates: &Path) -> Vec<PathBuf> {
    let names = match fs::read_dir(crates) {
        Ok(names) => names,
        Err(error) => refuse(&format!("{}: {error}", crates.display())),
    };
    let folders = names.flatten().map(|name| name.path());
    let parts = folders.flat_map(|folder| PARTS.map(|part| folder.join(part)));
    parts.filter(|part| part.is_dir()).collect()
}

/// The machines that the kit builds archives for.
fn machine() -> String {
    let names = ["CARGO_CFG_TARGET_ARCH", "CARGO_CFG_TARGET_OS"];
    let [machine, system] = names.map(wanted);
    match (machine.as_str(), system.as_str()) {
        ("x86_64" | "aarch64", "linux") => machine,
        _ => refuse(&format!(
            "the library is proved and built for Linux on x86-64 and on Arm (aarch64), not for \
             {system} on {machine}; name an archive for it in {GIVEN}"
        )),
    }
}
