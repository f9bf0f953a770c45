//! Where two implementations part, or one breaks a law.

use std::fmt::{self, Debug, Display, Formatter};

#[derive(Clone, Debug, PartialEq, Eq)]
pub struct Difference {
    pub call: String,
    pub subject: String,
    pub baseline: String,
}

impl Display for Difference {
    fn fmt(&self, out: &mut Formatter<'_>) -> fmt::Result {
        writeln!(out, "{}", self.call)?;
        writeln!(out, "  subject:  {}", self.subject)?;
        write!(out, "  baseline: {}", self.baseline)
    }
}

/// The one answer of both, or what they said instead.
pub fn same<T: PartialEq + Debug>(
    call: &dyn Display,
    subject: T,
    baseline: T,
) -> Result<T, Difference> {
    if subject == baseline {
        return Ok(subject);
    }
    Err(Difference {
        call: call.to_string(),
        subject: format!("{subject:?}"),
        baseline: format!("{baseline:?}"),
    })
}

/// A law that the subject's answers alone must meet.
pub fn law(holds: bool, words: &dyn Display) -> Result<(), Difference> {
    if holds {
        return Ok(());
    }
    Err(Difference {
        call: words.to_string(),
        subject: "breaks this".to_owned(),
        baseline: "is not asked".to_owned(),
    })
}
