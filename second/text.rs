//! Credentials as lines of text.
//!
//! There is one definition, the line of a credential, and it goes one way:
//! from the credential to the text. A line is right exactly if it is the line
//! of some valid record. So the reader takes no line apart. It picks the
//! numbers out of a line, since a credential is made of nothing else, and how
//! many there are tells the form: 3, 4, 5, or 6 and 8. Then it writes the line
//! of the record that they make, and compares every byte.
//!
//! Refusals of the reader, in this order: 3; 14 at the first wrong line among
//! the first 240; 12; 13. Of the writer: 1, 3, 61 to 65, 12, 13. A refused
//! call writes nothing.

use crate::mistake::mistake;
use crate::reader::{read_record, Body, Credential, Refusal, Role, RECORD};
use crate::shape::{contained_record, intersection_record, linked_record, member_record, Record};
use crate::writer::{put, read_list, refuse_count, refuse_list, sizes_right, MOST_RECORDS};

const LONGEST_LINE: usize = "e32.r32 <- e32.r32 & e32.r32 & e32.r32\n".len();
pub const LONGEST_TEXT: usize = LONGEST_LINE * MOST_RECORDS;

/// The line of a credential, with its newline.
pub fn line_of(credential: &Credential) -> String {
    let head = credential.head;
    let body = match &credential.body {
        Body::Member(member) => format!("e{member}"),
        Body::Contained(role) => role_in_words(role),
        Body::Linked { first, second } => format!("e{}.r{first}.r{second}", head.entity),
        Body::Intersection(parts) => {
            let parts: Vec<String> = parts.iter().map(role_in_words).collect();
            parts.join(" & ")
        }
    };
    format!("{} <- {body}\n", role_in_words(&head))
}

fn role_in_words(role: &Role) -> String {
    format!("e{}.r{}", role.entity, role.name)
}

/// Reads a text and puts its records one after the other to the start of a
/// buffer; gives their length in bytes.
pub fn read_lines(
    entities: u8,
    names: u8,
    text: &[u8],
    buffer: &mut [u8],
) -> Result<usize, Refusal> {
    put(&records_of_text(entities, names, text)?, buffer)
}

/// Puts the lines of a list of records to the start of a buffer; gives their
/// length in bytes.
pub fn write_lines(
    entities: u8,
    names: u8,
    records: &[u8],
    buffer: &mut [u8],
) -> Result<usize, Refusal> {
    put(&text_of_records(entities, names, records)?, buffer)
}

/// The records of a text; refuses 3, 14, 12.
pub fn records_of_text(entities: u8, names: u8, text: &[u8]) -> Result<Vec<u8>, Refusal> {
    refuse_sizes(entities, names)?;
    let mut lines = text.split_inclusive(|byte| *byte == b'\n');
    let mut records = Vec::new();
    for (number, line) in (1..=MOST_RECORDS).zip(lines.by_ref()) {
        let record = record_of_line(entities, names, line).ok_or(Refusal::new(14, number))?;
        records.extend(record);
    }
    let more = lines.next().is_some();
    refuse_count(records.len() / RECORD + usize::from(more))?;
    Ok(records)
}

/// The lines of a list of records; refuses 1, 3, 61 to 65, 12.
pub fn text_of_records(entities: u8, names: u8, records: &[u8]) -> Result<Vec<u8>, Refusal> {
    refuse_list(records)?;
    refuse_sizes(entities, names)?;
    Ok(text_of(&read_list(entities, names, records)?))
}

pub fn text_of(credentials: &[Credential]) -> Vec<u8> {
    let lines: String = credentials.iter().map(line_of).collect();
    lines.into_bytes()
}

fn refuse_sizes(entities: u8, names: u8) -> Result<(), Refusal> {
    let right = sizes_right(entities, names);
    right.then_some(()).ok_or(Refusal::new(3, 0))
}

/// The valid record whose line this is, or nothing where it is the line of
/// none.
fn record_of_line(entities: u8, names: u8, line: &[u8]) -> Option<Record> {
    let record = record_of_numbers(&numbers_in(line)?)?;
    let valid = mistake(entities, names, &record).is_none();
    let same = line_of(&read_record(&record)).as_bytes() == line;
    (valid && same).then_some(record)
}

/// The one record that could have a line with these numbers. A linked body's
/// entity isn't part of it: it is the issuer.
fn record_of_numbers(numbers: &[u8]) -> Option<Record> {
    let [entity, name, body @ ..] = numbers else {
        return None;
    };
    let head = Role::new(*entity, *name);
    match body {
        [member] => Some(member_record(head, *member)),
        [entity, name] => Some(contained_record(head, Role::new(*entity, *name))),
        [_, first, second] => Some(linked_record(head, *first, *second)),
        [_, _, _, _] | [_, _, _, _, _, _] => {
            let pairs = body.chunks(2);
            let parts: Vec<Role> = pairs.map(|pair| Role::new(pair[0], pair[1])).collect();
            Some(intersection_record(head, &parts))
        }
        _ => None,
    }
}

/// The numbers that stand in a line, or nothing where one is above 255 and so
/// out of every range.
fn numbers_in(line: &[u8]) -> Option<Vec<u8>> {
    let runs = line.split(|byte| !byte.is_ascii_digit());
    let digits = runs.filter(|run| !run.is_empty());
    digits
        .map(|run| std::str::from_utf8(run).ok()?.parse().ok())
        .collect()
}
