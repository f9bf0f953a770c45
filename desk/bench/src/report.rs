//! One line a measurement, in a Markdown table.

use std::time::Duration;

use crate::calls::Call;
use crate::load::Size;
use crate::measure::Measured;

/// Remembers the last size of a call, to say how the time has grown.
pub struct Report {
    last: Option<(Call, Measured)>,
    /// Whether the same records in document 01's order are measured too.
    is_arranged: bool,
}

impl Report {
    pub fn new(is_arranged: bool) -> Report {
        Report {
            last: None,
            is_arranged,
        }
    }

    pub fn print_heading(&self, unit: &str, subject: &str, baseline: &str) {
        let (names, lines) = match self.is_arranged {
            true => (
                format!(" {subject} by document 01's order | {baseline} by it |"),
                "---:|---:|",
            ),
            false => (String::new(), ""),
        };
        println!(
            "| call    | {unit} | {subject} MB/s | {baseline} MB/s | ratio | growth of {subject} | of {baseline} \
             | stack of {subject} | of {baseline} |{names}\n\
             |---|---:|---:|---:|---:|---:|---:|---:|---:|{lines}"
        );
    }

    /// The ratio is the subject's time by the baseline's; growth is the time
    /// by that of half the size, 2 where time grows with the bytes; `plain` is
    /// what the same records took in document 01's order.
    pub fn print(&mut self, call: Call, size: Size, measured: Measured, plain: Option<Measured>) {
        let before = self.last.filter(|(last, _)| *last == call);
        let (subject, baseline) = (measured.subject, measured.baseline);
        let growth = before.map(|(_, last)| {
            [
                by(subject.time, last.subject.time),
                by(baseline.time, last.baseline.time),
            ]
        });
        let [of_subject, of_baseline] = match growth {
            Some(growth) => growth.map(|factor| format!("{factor:.2}")),
            None => ["", ""].map(str::to_owned),
        };
        let by_plain = plain.map_or(String::new(), |plain| {
            let of_subject = by(subject.time, plain.subject.time);
            let of_baseline = by(baseline.time, plain.baseline.time);
            format!(" {of_subject:.2} | {of_baseline:.2} |")
        });
        println!(
            "| {:7} | {:3} | {:.2} | {:.2} | {:.2} | {of_subject} | {of_baseline} | {} | {} |{by_plain}",
            call.name(),
            size.units(),
            speed(size.total(), subject.time),
            speed(size.total(), baseline.time),
            by(subject.time, baseline.time),
            subject.stack,
            baseline.stack,
        );
        self.last = Some((call, measured));
    }
}

/// Millions of bytes a second.
fn speed(bytes: usize, time: Duration) -> f64 {
    bytes as f64 / 1e6 / time.as_secs_f64().max(1e-9)
}

fn by(one: Duration, other: Duration) -> f64 {
    one.as_secs_f64() / other.as_secs_f64().max(1e-9)
}

#[cfg(test)]
mod tests {
    use super::*;

    #[test]
    fn speeds_and_ratios() {
        assert_eq!(speed(2_000_000, Duration::from_millis(100)), 20.0);
        assert_eq!(by(Duration::from_secs(3), Duration::from_secs(2)), 1.5);
    }
}
