//! Two pieces of work timed by turns.

use std::time::{Duration, Instant};

/// So long is one timing at the least; shorter work is repeated.
const LEAST: Duration = Duration::from_millis(2);

/// Work that is done again and again, and how many items it does each time.
pub struct Work<'a> {
    run: Box<dyn FnMut() + 'a>,
    items: usize,
}

impl<'a> Work<'a> {
    pub fn new(items: usize, run: impl FnMut() + 'a) -> Self {
        Work { run: Box::new(run), items }
    }

    /// How often the work is repeated for one timing.
    fn repeats(&mut self) -> u32 {
        (self.run)();
        let start = Instant::now();
        (self.run)();
        (LEAST.as_nanos() / start.elapsed().as_nanos().max(1)) as u32 + 1
    }

    /// Nanoseconds an item.
    fn time(&mut self, repeats: u32) -> f64 {
        let start = Instant::now();
        for _ in 0..repeats {
            (self.run)();
        }
        start.elapsed().as_nanos() as f64 / f64::from(repeats) / self.items as f64
    }
}

pub struct Race<'a> {
    pub name: String,
    pub against: &'static str,
    /// The ratio to stay within; none where the row only explains another.
    pub goal: Option<f64>,
    pub ours: Work<'a>,
    pub other: Work<'a>,
}

impl Race<'_> {
    /// The row of the table: both medians, and our time as a ratio of the other's, with its quartiles.
    pub fn row(mut self, runs: usize) -> String {
        let repeats = (self.ours.repeats(), self.other.repeats());
        let times: Vec<(f64, f64)> = (0..runs).map(|_| (self.ours.time(repeats.0), self.other.time(repeats.1))).collect();
        let ours = quartiles(times.iter().map(|t| t.0));
        let other = quartiles(times.iter().map(|t| t.1));
        let ratio = quartiles(times.iter().map(|t| t.0 / t.1));
        format!(
            "| {} | {} | {} | {} | {} | {} | {} |",
            self.name,
            self.against,
            spread(ours, shown_time),
            spread(other, shown_time),
            spread(ratio, |r| format!("{r:.4}")),
            self.goal.map_or("none".into(), |goal| goal.to_string()),
            self.goal.map_or("", |goal| if ratio[1] <= goal { "met" } else { "missed" }),
        )
    }
}

/// The lower quartile, the median and the upper quartile.
fn quartiles(values: impl Iterator<Item = f64>) -> [f64; 3] {
    let mut sorted: Vec<f64> = values.collect();
    sorted.sort_by(f64::total_cmp);
    [1, 2, 3].map(|quarter| sorted[quarter * (sorted.len() - 1) / 4])
}

fn spread([lower, median, upper]: [f64; 3], shown: impl Fn(f64) -> String) -> String {
    format!("{} ({} to {})", shown(median), shown(lower), shown(upper))
}

fn shown_time(nanoseconds: f64) -> String {
    match nanoseconds {
        n if n < 0.1 => format!("{n:.6} ns"),
        n if n < 1e3 => format!("{n:.3} ns"),
        n if n < 1e6 => format!("{:.2} us", n / 1e3),
        n => format!("{:.2} ms", n / 1e6),
    }
}
