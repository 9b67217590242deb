//! Counts the samples that lie inside a wedge of planned load, as the program `minutes` does, in an input of any length.
//!
//! Standard input: the wedge, six coordinates of a triangle, then a sample a line, second of day and Mbit/s; all parted by tabs. It writes
//! `inside`, how many samples the wedge contains, and how many there were; or `refused` and the number, if the wedge is refused; or `bad line`, the
//! number of the first line that is no such line, and which field, counted from 1: 0, if it has another number of fields or more than 128 bytes; or
//! `too long` past 4,294,967,295 samples. The status is 1 if there is no count; a read that fails is said on standard error, and nothing is counted then.

mod samples;

use samples::{Trouble, read_samples, read_wedge};
use std::{
    io::{self, BufRead, Write},
    process::ExitCode,
};

/// How many samples the wedge contains, and how many there are.
fn count(input: &mut impl BufRead) -> Result<(u32, u32), Trouble> {
    let wedge = read_wedge(input)?;
    let (mut inside, mut all) = (0, 0);
    for sample in read_samples(input) {
        inside += u32::from(wedge.contains(sample?)?);
        all += 1;
    }
    Ok((inside, all))
}

fn main() -> ExitCode {
    let (line, status) = match count(&mut io::stdin().lock()) {
        Ok((inside, all)) => (format!("inside\t{inside}\t{all}"), ExitCode::SUCCESS),
        Err(trouble @ Trouble::Unread(_)) => {
            eprintln!("{trouble}");
            return ExitCode::FAILURE;
        }
        Err(trouble) => (trouble.to_string(), ExitCode::FAILURE),
    };
    match writeln!(io::stdout(), "{line}") {
        Ok(()) => status,
        Err(error) => {
            eprintln!("standard output: {error}");
            ExitCode::FAILURE
        }
    }
}
