//! How a run goes on or ends if reads and writes are short, are interrupted or fail, and if the input ends after any byte;
//! and the status of each outcome.

use crate::tables::rows;
use std::io::ErrorKind::{self, Interrupted, Other};
use std::io::{self, Read, Write};
use std::sync::LazyLock;
use wgsl_types_proved::programs::{run, status, RunError};

/// More bytes than a test reads or writes.
const WHOLE: usize = 1 << 20;

/// A line of every command, a blank one and one that can't be read, each with what is printed for it.
static LINES: LazyLock<Vec<[String; 2]>> = LazyLock::new(|| rows("tables/run.tsv"));

/// After how many calls one fails, and how.
type Fault = Option<(usize, ErrorKind)>;

/// Fails the call if it is the one.
fn count(fault: &mut Fault) -> io::Result<()> {
    match fault.take() {
        Some((0, kind)) => return Err(kind.into()),
        later => *fault = later.map(|(after, kind)| (after - 1, kind)),
    }
    Ok(())
}

/// Gives its bytes, a few per read.
struct Source<'a> {
    rest: &'a [u8],
    most: usize,
    fault: Fault,
}

impl Read for Source<'_> {
    fn read(&mut self, buffer: &mut [u8]) -> io::Result<usize> {
        count(&mut self.fault)?;
        let most = self.most.min(buffer.len());
        self.rest.read(&mut buffer[..most])
    }
}

/// Keeps what is written to it, a few bytes per write.
struct Target {
    taken: Vec<u8>,
    most: usize,
    fault: Fault,
    /// How many bytes had been written when it was last flushed.
    flushed: usize,
    /// The flush that fails.
    stuck: Fault,
}

impl Target {
    fn new(most: usize) -> Target {
        Target { taken: Vec::new(), most, fault: None, flushed: 0, stuck: None }
    }
}

impl Write for Target {
    fn write(&mut self, buffer: &[u8]) -> io::Result<usize> {
        count(&mut self.fault)?;
        self.taken.write(&buffer[..self.most.min(buffer.len())])
    }

    fn flush(&mut self) -> io::Result<()> {
        count(&mut self.stuck)?;
        self.flushed = self.taken.len();
        Ok(())
    }
}

fn input() -> String {
    LINES.iter().map(|[line, _]| line.as_str()).collect()
}

/// What is printed for the first lines.
fn answers(lines: usize) -> String {
    LINES.iter().take(lines).map(|[_, answer]| answer.as_str()).collect()
}

fn lines_in(input: &[u8]) -> usize {
    input.iter().filter(|byte| **byte == b'\n').count()
}

/// Runs, and compares the outcome and what was written.
fn expect(mut source: Source, mut target: Target, outcome: Result<bool, RunError>, output: &str) {
    assert_eq!(run(&mut source, &mut target), outcome);
    assert_eq!(target.taken, output.as_bytes());
    assert_eq!(target.flushed, output.len());
}

fn source(text: &str, most: usize, fault: Fault) -> Source<'_> {
    Source { rest: text.as_bytes(), most, fault }
}

/// Each read fails in a run of its own, which writes what was answered before. A run makes no more reads than that.
fn expect_reads(most_read: usize, most_written: usize, reads: usize) {
    let input = input();
    for before in 0..reads {
        let read = &input.as_bytes()[..before.saturating_mul(most_read).min(input.len())];
        let answered = answers(lines_in(read));
        let target = Target::new(most_written);
        let source = source(&input, most_read, Some((before, Other)));
        expect(source, target, Err(RunError::Read), &answered);
    }
    let all = answers(LINES.len());
    let source = source(&input, most_read, Some((reads, Other)));
    expect(source, Target::new(most_written), Ok(false), &all);
}

#[test]
fn a_run_ends_at_the_read_that_fails() {
    for most_written in [1, 3, WHOLE] {
        expect_reads(1, most_written, input().len() + 1);
        expect_reads(100, most_written, 4);
        expect_reads(WHOLE, most_written, 2);
    }
}

#[test]
fn an_interrupted_read_changes_nothing() {
    let input = input();
    for before in 0..input.len() {
        let source = source(&input, 1, Some((before, Interrupted)));
        expect(source, Target::new(1), Ok(false), &answers(LINES.len()));
    }
}

/// Each write fails in a run of its own, which wrote a beginning of the answers. A run makes no more writes than that.
fn expect_writes(most_read: usize, most_written: usize, writes: usize) {
    let (input, answers) = (input(), answers(LINES.len()));
    for before in 0..writes {
        let mut target = Target { fault: Some((before, Other)), ..Target::new(most_written) };
        let outcome = run(&mut source(&input, most_read, None), &mut target);
        assert_eq!(outcome, Err(RunError::Write));
        assert!(answers.as_bytes().starts_with(&target.taken));
        assert!(most_written > 1 || target.taken.len() == before);
    }
    let target = Target { fault: Some((writes, Other)), ..Target::new(most_written) };
    expect(source(&input, most_read, None), target, Ok(false), &answers);
}

#[test]
fn a_run_ends_at_the_write_that_fails() {
    let bytes = answers(LINES.len()).len();
    expect_writes(1, 1, bytes);
    expect_writes(WHOLE, 1, bytes);
    expect_writes(1, WHOLE, 12);
    expect_writes(WHOLE, WHOLE, 1);
}

#[test]
fn an_interrupted_write_changes_nothing() {
    let (input, answers) = (input(), answers(LINES.len()));
    for before in 0..answers.len() {
        let target = Target { fault: Some((before, Interrupted)), ..Target::new(1) };
        expect(source(&input, WHOLE, None), target, Ok(false), &answers);
    }
}

#[test]
fn a_run_ends_at_the_flush_that_fails() {
    let input = input();
    let mut target = Target { stuck: Some((0, Other)), ..Target::new(WHOLE) };
    let outcome = run(&mut source(&input, WHOLE, None), &mut target);
    assert_eq!(outcome, Err(RunError::Write));
    assert_eq!(target.taken, answers(LINES.len()).as_bytes());
}

#[test]
fn a_writer_that_takes_nothing_ends_every_run() {
    for most_read in [1, 100, WHOLE] {
        expect(source(&input(), most_read, None), Target::new(0), Err(RunError::Write), "");
    }
    expect(source(" \n\n", WHOLE, None), Target::new(0), Ok(true), "");
}

/// Each line that ended is answered, and so is the one that didn't end.
fn expect_part(part: &str, most_read: usize) {
    let mut target = Target::new(1);
    let outcome = run(&mut source(part, most_read, None), &mut target);
    let printed = String::from_utf8(target.taken).expect("answers are text");
    let last = printed.strip_prefix(&answers(lines_in(part.as_bytes()))).expect("answers in order");
    assert_eq!(last.is_empty(), part.ends_with('\n'), "{part:?}");
    assert_eq!(outcome, Ok(!printed.contains("bad line")), "{part:?}");
}

#[test]
fn input_may_end_after_each_byte() {
    let input = input();
    for len in 1..=input.len() {
        expect_part(&input[..len], 1);
        expect_part(&input[..len], WHOLE);
    }
}

#[test]
fn each_outcome_has_its_status() {
    assert_eq!([true, false].map(|is_read| status(&Ok(is_read))), [0, 2]);
    let errors = [RunError::Read, RunError::Write, RunError::Memory];
    assert_eq!(errors.map(|error| status(&Err(error))), [1, 1, 3]);
}
