//! The two programs for the desk: a bundle from lines, and lines from a
//! bundle.
//!
//! What can be wrong with E, R and the marks is refused 3, and 3 goes before
//! 14. So it is asked first, by writing the bundle without any record. Where
//! there are fewer bytes than E, R and 32 marks they are wrong as well.

use crate::program::{printed, Program};
use crate::reader::{read_bundle, Refusal, LONGEST_BUNDLE};
use crate::text::{records_of_text, text_of, LONGEST_TEXT};
use crate::writer::{write, Content, MARKS};

/// The bytes of E, R and the marks.
pub const HEAD: usize = 2 + MARKS;

/// Reads E, R, the marks and a text, and writes the bundle.
pub const BUNDLE_FROM_LINES: Program = Program {
    name: "bundle_from_lines",
    longest_input: HEAD + LONGEST_TEXT,
    bundle_at: None,
    name_at: None,
    prints: |input| printed(bundle_from_lines(input)),
};

/// Reads a bundle, and writes its credentials as lines.
pub const LINES_FROM_BUNDLE: Program = Program {
    name: "lines_from_bundle",
    longest_input: LONGEST_BUNDLE,
    bundle_at: Some(0),
    name_at: None,
    prints: |input| printed(lines_from_bundle(input)),
};

fn bundle_from_lines(input: &[u8]) -> Result<Vec<u8>, Refusal> {
    let (head, text) = input
        .split_first_chunk::<HEAD>()
        .ok_or(Refusal::new(3, 0))?;
    let [entities, names, marks @ ..] = *head;
    let mut content = Content {
        entities,
        names,
        marks: marks.to_vec(),
        records: Vec::new(),
    };
    let mut bundle = vec![0; LONGEST_BUNDLE];
    write(&content, &mut bundle)?;
    content.records = records_of_text(entities, names, text)?;
    let length = write(&content, &mut bundle)?;
    bundle.truncate(length);
    Ok(bundle)
}

fn lines_from_bundle(input: &[u8]) -> Result<Vec<u8>, Refusal> {
    Ok(text_of(&read_bundle(input)?.credentials))
}
