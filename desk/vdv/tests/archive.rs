//! What the archive needs of whoever links it.

use std::collections::BTreeSet;
use std::path::Path;
use std::process::Command;

/// Found by `nm`, which every C compiler here comes with.
#[test]
fn it_needs_two_functions_of_c() {
    let archive = Path::new(env!("OUT_DIR")).join("libvdv.a");
    let output = Command::new("nm").arg("-u").arg(archive).output().unwrap();
    assert!(output.status.success(), "{output:?}");
    let said = String::from_utf8(output.stdout).unwrap();
    let needed = said
        .lines()
        .filter_map(|line| line.trim().strip_prefix("U "));
    assert_eq!(
        needed.collect::<BTreeSet<_>>(),
        BTreeSet::from(["memcpy", "memset"])
    );
}
