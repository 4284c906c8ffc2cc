//! The programs of the service, each as a function from its whole input to
//! all that it prints.

use crate::reader::{Refusal, BLOCK, LONGEST_BUNDLE};
use crate::service;
use std::io::{self, Read, Write};

/// A program that reads standard input to its end and then prints.
pub struct Program {
    pub name: &'static str,
    /// The length of the longest input that isn't refused.
    pub longest_input: usize,
    /// Where a bundle starts in the input, and where the name of the role that
    /// is asked for stands, if they do.
    pub bundle_at: Option<usize>,
    pub name_at: Option<usize>,
    pub prints: fn(&[u8]) -> Vec<u8>,
}

pub const ASK: Program = Program {
    name: "ask",
    longest_input: 3 + LONGEST_BUNDLE,
    bundle_at: Some(3),
    name_at: Some(2),
    prints: |input| format!("{}\n", service::ask(input)).into_bytes(),
};

pub const ASK_WITH_SHEET: Program = Program {
    name: "ask_with_sheet",
    longest_input: 3 + BLOCK + LONGEST_BUNDLE,
    bundle_at: Some(3 + BLOCK),
    name_at: Some(2),
    prints: |input| format!("{}\n", service::ask_with_sheet(input)).into_bytes(),
};

impl Program {
    /// Answers standard input. It reads no more than it takes to see that the
    /// input is too long, so that input without end is answered too.
    pub fn answer_input(&self) -> io::Result<()> {
        let most = self.longest_input as u64 + 1;
        let mut input = Vec::new();
        io::stdin().take(most).read_to_end(&mut input)?;
        io::stdout().write_all(&(self.prints)(&input))
    }
}

/// What a program prints: its output, or the one line of a refusal.
pub fn printed(answer: Result<Vec<u8>, Refusal>) -> Vec<u8> {
    answer.unwrap_or_else(|refusal| {
        format!("REFUSED {} {}\n", refusal.number, refusal.place).into_bytes()
    })
}

/// The refusal that an output says, or nothing where it is no refusal.
pub fn refusal_in(output: &[u8]) -> Option<Refusal> {
    let line = std::str::from_utf8(output).ok()?;
    let (number, place) = line.strip_prefix("REFUSED ")?.trim_end().split_once(' ')?;
    Some(Refusal::new(number.parse().ok()?, place.parse().ok()?))
}
