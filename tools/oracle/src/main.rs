//! Reads lines of docs/REPLAY.md and answers each with what the Rust says: `none` where it has no such question, `panic` where it panics.
//! With `--amended` it answers only within -8,192 to 8,191, as 01 (docs/RULES.md) says where 01 names a difference (see differences.rs),
//! and lists on standard error how often each changed an answer. With `--sizes` it lists the frames that it was compiled for.

mod differences;
mod figures;
mod frames;
mod question;

use figures::Figures;
use frames::Frames;
use question::Question;
use std::{
    env,
    io::{self, BufRead, BufReader, BufWriter, Write},
    panic::{self, AssertUnwindSafe},
    process::ExitCode,
};

fn main() -> ExitCode {
    let words: Vec<String> = env::args().skip(1).collect();
    let words: Vec<&str> = words.iter().map(String::as_str).collect();
    let done = match words[..] {
        [] => answer_lines(false),
        ["--amended"] => answer_lines(true),
        ["--sizes"] => list_sizes(),
        _ => Err(io::Error::other("usage: oracle [--amended | --sizes]")),
    };
    match done {
        Ok(()) => ExitCode::SUCCESS,
        Err(error) => {
            eprintln!("{error}");
            ExitCode::from(2)
        }
    }
}

fn answer_lines(amended: bool) -> io::Result<()> {
    panic::set_hook(Box::new(|_| ()));
    let mut input = BufReader::with_capacity(1 << 16, io::stdin().lock());
    let mut output = BufWriter::with_capacity(1 << 16, io::stdout().lock());
    let mut figures = Figures::new(amended);
    let mut frames = Frames::default();
    let mut line = Vec::new();
    while input.read_until(b'\n', &mut line)? > 0 {
        let asked = AssertUnwindSafe(|| match Question::parse(line.strip_suffix(b"\n").unwrap_or(&line)) {
            Some(question) => figures.answer(&question).or_else(|| frames.answer(&question, &figures)),
            None => frames.forget(),
        });
        let answer = panic::catch_unwind(asked).unwrap_or_else(|_| Some("panic".into()));
        writeln!(output, "{}", answer.as_deref().unwrap_or("none"))?;
        line.clear();
    }
    if amended {
        figures.amendments().for_each(|(name, count)| eprintln!("{name}\t{count}"));
    }
    output.flush()
}

fn list_sizes() -> io::Result<()> {
    let mut output = io::stdout().lock();
    for (width, height) in frames::SIZES {
        writeln!(output, "{width}\t{height}")?;
    }
    Ok(())
}
