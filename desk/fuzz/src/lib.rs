//! The same comparison as `compare`, over files that libFuzzer thinks up: every
//! call of the chosen library against the independent reader, and demand 3.

use std::process::abort;

use compare::locality::{hold, replace_lines};
use compare::{compare_file, Difference, Pair, Tally};
use samples::Random;

/// libFuzzer calls this with each file; 0 says that it may keep it.
///
/// # Safety
/// `file` points to `length` bytes that nobody writes to during the call.
#[no_mangle]
pub unsafe extern "C" fn LLVMFuzzerTestOneInput(file: *const u8, length: usize) -> i32 {
    let file = match length {
        0 => &[],
        // SAFETY: libFuzzer lends so many bytes.
        _ => unsafe { std::slice::from_raw_parts(file, length) },
    };
    if let Err(difference) = compare(file) {
        eprintln!("{difference}");
        abort();
    }
    0
}

fn compare(file: &[u8]) -> Result<(), Difference> {
    let pair = Pair {
        subject: compare::chosen(),
        baseline: compare::baseline(),
    };
    let mut random = Random::new(drawn_from(file));
    compare_file(pair, &mut Tally::default(), &mut random, file)?;
    match replace_lines(pair.subject, &mut random, file) {
        Some(replaced) => hold(pair.subject, file, &replaced).map(|_| ()),
        None => Ok(()),
    }
}

/// What else is drawn follows from the file alone, so that it fails again.
fn drawn_from(file: &[u8]) -> u64 {
    file.iter().fold(0xcbf2_9ce4_8422_2325, |sum, byte| {
        (sum ^ u64::from(*byte)).wrapping_mul(0x0100_0000_01b3)
    })
}
