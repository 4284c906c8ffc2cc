//! Text lines in comparison: the files that their cases travel in, and when an
//! answer is right.
//!
//! They look as those of the writer in `writer_exchange.rs`; the lent buffer is
//! part of the case, with all that stands in it before the call.
//!
//!   kind  three bytes  four numbers                           then
//!   6     E, R, 0      bytes of buffer, text; 0, 0            buffer, text
//!   7     E, R, 0      bytes of buffer, records; 0, 0         buffer, records
//!
//! 6 reads a text into records, 7 writes records as a text. An answer: eight
//! bytes with the result, low byte first, then the buffer, whole.

use crate::comparison::{hex, Exchange};
use crate::edition::shown_for;
use crate::exchange::{read_bytes, Head};
use crate::groups::Group;
use crate::text::{read_lines, write_lines};
use crate::text_draw::TEXT_GROUPS;
use crate::writer::{packed, unpacked};
use crate::writer_exchange::WriterCame;
use crate::writer_run::{agree_results, written};
use std::io::{self, Read, Write};

const READ: u8 = 6;
const WRITE: u8 = 7;

/// The call hands over a text to be read, or records to be written.
pub struct TextCase {
    group: u8,
    kind: u8,
    pub entities: u8,
    pub names: u8,
    pub handed: Vec<u8>,
    buffer: Vec<u8>,
}

impl TextCase {
    pub fn read_text((entities, names): (u8, u8), text: Vec<u8>, buffer: Vec<u8>) -> TextCase {
        TextCase {
            group: 0,
            kind: READ,
            entities,
            names,
            handed: text,
            buffer,
        }
    }

    pub fn write_text((entities, names): (u8, u8), records: Vec<u8>, buffer: Vec<u8>) -> TextCase {
        TextCase {
            kind: WRITE,
            ..TextCase::read_text((entities, names), records, buffer)
        }
    }
}

/// The highest name that stands in a right text, 0 where there is no line.
fn highest_name(text: &[u8]) -> u8 {
    let text = String::from_utf8_lossy(text);
    let behind = text.split(".r").skip(1);
    let digits = behind.filter_map(|rest| rest.split(|one: char| !one.is_ascii_digit()).next());
    let names = digits.filter_map(|name| name.parse().ok());
    names.max().unwrap_or(0)
}

impl Exchange for TextCase {
    type Came = WriterCame;
    const GROUPS: &'static [Group<TextCase>] = &TEXT_GROUPS;

    fn group(&self) -> u8 {
        self.group
    }

    fn set_group(&mut self, group: u8) {
        self.group = group;
    }

    fn size(&self) -> usize {
        self.handed.len() + self.buffer.len()
    }

    fn write(&self, file: &mut impl Write) -> io::Result<()> {
        let head = Head {
            kind: self.kind,
            group: self.group,
            letters: [self.entities, self.names, 0],
            numbers: [self.buffer.len() as u32, self.handed.len() as u32, 0, 0],
        };
        head.write(file)?;
        file.write_all(&self.buffer)?;
        file.write_all(&self.handed)
    }

    fn read(file: &mut impl Read) -> io::Result<Option<TextCase>> {
        let Some(head) = Head::read(file)? else {
            return Ok(None);
        };
        let [buffer, handed, _, _] = head.lengths();
        Ok(Some(TextCase {
            group: head.group,
            kind: head.kind,
            entities: head.letters[0],
            names: head.letters[1],
            buffer: read_bytes(file, buffer)?,
            handed: read_bytes(file, handed)?,
        }))
    }

    fn write_answer(came: &WriterCame, file: &mut impl Write) -> io::Result<()> {
        came.write(file)
    }

    fn read_answer(&self, file: &mut impl Read) -> io::Result<WriterCame> {
        WriterCame::read(file, 1, self.buffer.len())
    }

    fn own_answer(&self) -> WriterCame {
        let call = match self.kind {
            READ => read_lines,
            _ => write_lines,
        };
        let mut buffer = self.buffer.clone();
        let result = call(self.entities, self.names, &self.handed, &mut buffer);
        WriterCame {
            results: vec![packed(result)],
            buffer,
        }
    }

    fn agree(&self, expected: &WriterCame, came: &WriterCame) -> Result<(), String> {
        agree_results(expected, came)
    }

    fn outcome(&self, expected: &WriterCame) -> (String, usize) {
        let call = if self.kind == READ { "read" } else { "write" };
        let (words, place) = written(expected.results[0]);
        (format!("{call} {words}"), place)
    }

    /// Of a call that is not refused, whether its text has a name above 16.
    fn also(&self, expected: &WriterCame) -> Vec<String> {
        let text = match (self.kind, unpacked(expected.results[0])) {
            (_, Err(_)) => &[],
            (READ, Ok(_)) => &self.handed[..],
            (_, Ok(length)) => &expected.buffer[..length],
        };
        let (outcome, _) = self.outcome(expected);
        shown_for(&outcome, highest_name(text))
            .into_iter()
            .collect()
    }

    fn describe(&self) -> String {
        let handed = match self.kind {
            READ => format!("read the text {}", self.handed.escape_ascii()),
            _ => format!("write the records {}", hex(&self.handed)),
        };
        let sizes = format!("E {}, R {}", self.entities, self.names);
        let buffer = hex(&self.buffer);
        let bytes = self.buffer.len();
        format!("{sizes}, {handed}\nbuffer of {bytes} bytes: {buffer}")
    }
}
