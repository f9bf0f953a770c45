//! `prove`, in a small repository and with the `rt` of `tests/stub`: when is
//! something proved, and what is told. The repository lies outside this one, in
//! which `rt ci` suffers no second `crates.txt`.

use std::fs;
use std::os::unix::fs::symlink;
use std::path::{Path, PathBuf};
use std::process::{Command, Output};

struct Repository(PathBuf);

impl Repository {
    fn new(name: &str) -> Repository {
        let name = format!("vdv-prove-{name}-{}", std::process::id());
        let root = std::env::temp_dir().join(name);
        for folder in ["crates/page/src", "crates/vdv/src", "desk/vdv"] {
            fs::create_dir_all(root.join(folder)).unwrap();
        }
        let repository = Repository(root);
        repository.put("crates.txt", "page:\nvdv staticlib: page\n");
        repository.put("crates/page/src/lib.rt", "fine\n");
        repository.put("crates/vdv/src/lib.rt", "");
        let scripts = Path::new(env!("CARGO_MANIFEST_DIR"));
        let link = repository.0.join("desk/vdv/prove");
        symlink(scripts.join("prove"), link).unwrap();
        repository
    }

    fn put(&self, path: &str, content: &str) {
        fs::write(self.0.join(path), content).unwrap();
    }

    fn prove(&self, machine: &str) -> Output {
        let stub = concat!(env!("CARGO_MANIFEST_DIR"), "/tests/stub");
        let path = format!("{stub}:{}", std::env::var("PATH").unwrap());
        let prove = self.0.join("desk/vdv/prove");
        let mut run = Command::new(prove);
        run.arg(machine).env("PATH", path).env("RT_JOBS", "2");
        run.output().unwrap()
    }

    /// What the archive of a run that must succeed was built from.
    fn proved(&self) -> String {
        self.proved_for(KIT)
    }

    fn proved_for(&self, machine: &str) -> String {
        let output = self.prove(machine);
        assert!(output.status.success(), "{output:?}");
        let path = String::from_utf8(output.stdout).unwrap();
        fs::read_to_string(path.trim_end()).unwrap()
    }

    /// What `rt` has been asked for since this was last asked.
    fn asked(&self) -> String {
        let calls = self.0.join("calls");
        let asked = fs::read_to_string(&calls).unwrap_or_default();
        let _ = fs::remove_file(calls);
        asked
    }
}

impl Drop for Repository {
    fn drop(&mut self) {
        let _ = fs::remove_dir_all(&self.0);
    }
}

const KIT: &str = "x86_64";
const BOTH: &str = "all check --jobs 2\nlib\n";

#[test]
fn only_what_has_changed_is_proved_again() {
    let repository = Repository::new("again");
    assert_eq!(repository.proved(), "fine\n");
    assert_eq!(repository.asked(), BOTH);
    assert_eq!(repository.proved(), "fine\n");
    assert_eq!(repository.asked(), "");
    repository.put("crates/page/src/more.rt", "better\n");
    assert_eq!(repository.proved(), "fine\nbetter\n");
    assert_eq!(repository.asked(), BOTH);
    fs::remove_file(repository.0.join("crates/page/src/more.rt")).unwrap();
    assert_eq!(repository.proved(), "fine\n");
    assert_eq!(repository.asked(), BOTH);
    fs::remove_dir_all(repository.0.join("crates/vdv/out")).unwrap();
    assert_eq!(repository.proved(), "fine\n");
    assert_eq!(repository.asked(), BOTH);
}

#[test]
fn what_rt_writes_beside_the_sources_is_no_change() {
    let repository = Repository::new("beside");
    repository.proved();
    repository.asked();
    fs::create_dir_all(repository.0.join("crates/page/out/rlib")).unwrap();
    repository.put("crates/page/out/rlib/stamp", "of these sources\n");
    repository.proved();
    assert_eq!(repository.asked(), "");
}

#[test]
fn each_machine_has_an_archive_of_its_own() {
    let repository = Repository::new("machines");
    repository.proved();
    repository.asked();
    let arm = "all check --jobs 2\nlib --target aarch64-unknown-linux-gnu\n";
    for asked in [arm, ""] {
        assert_eq!(repository.proved_for("aarch64"), "fine\n");
        assert_eq!(repository.asked(), asked);
    }
    repository.proved();
    assert_eq!(repository.asked(), "");
}

#[test]
fn what_changes_meanwhile_is_proved_the_next_time() {
    let repository = Repository::new("meanwhile");
    repository.put("meddles", "");
    repository.proved();
    repository.asked();
    assert_eq!(repository.proved(), "fine\nmore\n");
    assert_eq!(repository.asked(), BOTH);
    repository.proved();
    assert_eq!(repository.asked(), "");
}

#[test]
fn what_is_proved_is_told() {
    let told = String::from_utf8(Repository::new("told").prove(KIT).stderr).unwrap();
    assert!(told.contains("vdv: page proved (1 of 2)\n"), "{told}");
    assert!(!told.contains("looked at"), "{told}");
}

#[test]
fn what_is_not_proved_is_not_built() {
    let repository = Repository::new("wrong");
    repository.proved();
    repository.asked();
    repository.put("crates/page/src/lib.rt", "wrong\n");
    for _ in 0..2 {
        let output = repository.prove(KIT);
        assert_eq!(output.status.code(), Some(1));
        assert!(output.stdout.is_empty());
        let told = String::from_utf8(output.stderr).unwrap();
        assert!(told.contains("fn page::one: looked at\n"), "{told}");
        assert!(told.contains("vdv: page NOT PROVED\n"), "{told}");
        assert!(told.ends_with("vdv: `rt lib` built no archive\n"), "{told}");
        assert_eq!(repository.asked(), BOTH);
    }
}
