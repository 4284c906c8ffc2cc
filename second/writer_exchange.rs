//! The files that cases of the writer and their answers travel in.
//!
//! They look as those of `exchange.rs`: one byte kind, one byte group, three
//! bytes more, four numbers of four bytes, low byte first, and then what the
//! case hands over. The lent buffer is part of the case, with all that stands
//! in it before the call.
//!
//!   kind  three bytes  four numbers                              then
//!   2     E, R, 0      bytes of buffer, marks, records; 0        buffer, marks, records
//!   3     0, 0, 0      bytes of buffer, record; length, two      buffer, record
//!                      numbers, the low one first
//!   4     E, R, 0      bytes of buffer, marks, records; count    buffer, marks, records
//!   5     D, A, r      bytes of buffer, record; length; bytes    buffer, record, slip
//!                      of the slip
//!
//! 2 writes a bundle. 3 appends a record to the bundle of the given length. 4
//! is a chain: it writes a bundle with the first `count` records, and appends
//! the others one by one until all are there or one is refused. 5 has a slip
//! checked, appends a record, and has the slip checked again, over the longer
//! bundle if it was appended.
//!
//! An answer: eight bytes with the result, low byte first, of a chain with the
//! last result; for 5 the three results in turn; then the buffer, whole.

use crate::exchange::{read_bytes, Head};
use crate::reader::RECORD;
use crate::service::{check, Question};
use crate::writer::{append, packed, write, Content};
use std::io::{self, Read, Write};

#[derive(Clone, Debug, PartialEq, Eq)]
pub enum Call {
    Write(Content),
    Append(Addition),
    Chain(Content, usize),
    Slip(Question, Addition, Vec<u8>),
}

/// A record for the bundle of this length.
#[derive(Clone, Debug, PartialEq, Eq)]
pub struct Addition {
    pub length: u64,
    pub record: Vec<u8>,
}

#[derive(Clone, Debug, PartialEq, Eq)]
pub struct WriterCase {
    pub group: u8,
    pub buffer: Vec<u8>,
    pub call: Call,
}

impl WriterCase {
    pub fn new(buffer: Vec<u8>, call: Call) -> WriterCase {
        let group = 0;
        WriterCase {
            group,
            buffer,
            call,
        }
    }

    /// How many results a call brings back.
    pub fn results(&self) -> usize {
        if matches!(self.call, Call::Slip(..)) {
            3
        } else {
            1
        }
    }

    pub fn write(&self, file: &mut impl Write) -> io::Result<()> {
        let (kind, letters, [first, second, third], handed) = match &self.call {
            Call::Write(content) => list_parts(2, content, 0),
            Call::Append(addition) => {
                let Addition { length, record } = addition;
                let numbers = [record.len() as u32, *length as u32, (*length >> 32) as u32];
                (3, [0; 3], numbers, vec![&record[..]])
            }
            Call::Chain(content, first) => list_parts(4, content, *first),
            Call::Slip(asked, addition, slip) => {
                let Addition { length, record } = addition;
                let letters = [asked.member, asked.entity, asked.name];
                let numbers = [record.len() as u32, *length as u32, slip.len() as u32];
                (5, letters, numbers, vec![&record[..], slip])
            }
        };
        let head = Head {
            kind,
            group: self.group,
            letters,
            numbers: [self.buffer.len() as u32, first, second, third],
        };
        head.write(file)?;
        file.write_all(&self.buffer)?;
        handed.iter().try_for_each(|bytes| file.write_all(bytes))
    }

    /// The next case of a file, or nothing at its end.
    pub fn read(file: &mut impl Read) -> io::Result<Option<WriterCase>> {
        let Some(head) = Head::read(file)? else {
            return Ok(None);
        };
        let lengths = head.lengths();
        let buffer = read_bytes(file, lengths[0])?;
        let handed = read_bytes(file, lengths[1])?;
        let call = match head.kind {
            2 => Call::Write(read_list(file, &head, handed)?),
            3 => Call::Append(Addition {
                length: u64::from(head.numbers[2]) | u64::from(head.numbers[3]) << 32,
                record: handed,
            }),
            4 => Call::Chain(read_list(file, &head, handed)?, lengths[3]),
            _ => {
                let [member, entity, name] = head.letters;
                let length = u64::from(head.numbers[2]);
                let record = handed;
                let slip = read_bytes(file, lengths[3])?;
                let question = Question::about((entity, name, member));
                Call::Slip(question, Addition { length, record }, slip)
            }
        };
        Ok(Some(WriterCase {
            group: head.group,
            buffer,
            call,
        }))
    }
}

type Parts<'a> = (u8, [u8; 3], [u32; 3], Vec<&'a [u8]>);

/// The parts of a case that hands over a list of records.
fn list_parts(kind: u8, content: &Content, first: usize) -> Parts<'_> {
    let letters = [content.entities, content.names, 0];
    let lengths = [content.marks.len(), content.records.len(), first];
    let numbers = lengths.map(|length| length as u32);
    (
        kind,
        letters,
        numbers,
        vec![&content.marks, &content.records],
    )
}

/// Reads the records of a case that hands over a list.
fn read_list(file: &mut impl Read, head: &Head, marks: Vec<u8>) -> io::Result<Content> {
    Ok(Content {
        entities: head.letters[0],
        names: head.letters[1],
        marks,
        records: read_bytes(file, head.lengths()[2])?,
    })
}

/// What a program brought back for a case: its results, and the buffer after
/// the last call.
#[derive(Clone, Debug, PartialEq, Eq)]
pub struct WriterCame {
    pub results: Vec<u64>,
    pub buffer: Vec<u8>,
}

impl WriterCame {
    pub fn write(&self, file: &mut impl Write) -> io::Result<()> {
        for result in &self.results {
            file.write_all(&result.to_le_bytes())?;
        }
        file.write_all(&self.buffer)
    }

    /// Reads an answer of so many results and so many bytes of buffer.
    pub fn read(file: &mut impl Read, results: usize, buffer: usize) -> io::Result<WriterCame> {
        let mut packed = vec![0; results];
        for result in &mut packed {
            let mut bytes = [0; 8];
            file.read_exact(&mut bytes)?;
            *result = u64::from_le_bytes(bytes);
        }
        Ok(WriterCame {
            results: packed,
            buffer: read_bytes(file, buffer)?,
        })
    }
}

/// What this program itself brings back for a case.
pub fn own_writer_answer(case: &WriterCase) -> WriterCame {
    let mut buffer = case.buffer.clone();
    let results = match &case.call {
        Call::Write(content) => vec![packed(write(content, &mut buffer))],
        Call::Append(Addition { length, record }) => {
            vec![packed(append(&mut buffer, *length, record))]
        }
        Call::Chain(content, first) => vec![chain(content, *first, &mut buffer)],
        Call::Slip(question, Addition { length, record }, slip) => {
            let length = *length as usize;
            let before = check(&buffer[..length], *question, slip);
            let appended = append(&mut buffer, length as u64, record);
            let after = check(&buffer[..appended.unwrap_or(length)], *question, slip);
            vec![before.packed(), packed(appended), after.packed()]
        }
    };
    WriterCame { results, buffer }
}

/// The last result of a chain, and the buffer after it. Nothing is appended
/// here: a chain has to come out as one write of the records that are there.
/// So each step is written whole, into the buffer as it was at first.
fn chain(content: &Content, first: usize, buffer: &mut Vec<u8>) -> u64 {
    let lent = buffer.clone();
    let all = content.records.len() / RECORD;
    let mut result = 0;
    for count in first..=all {
        let mut held = content.clone();
        held.records.truncate(count * RECORD);
        let mut next = lent.clone();
        let written = write(&held, &mut next);
        result = packed(written);
        if written.is_err() {
            break;
        }
        *buffer = next;
    }
    result
}
