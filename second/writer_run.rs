//! The comparison of the writer with the program under test.
//!
//! For every case this program works out its own answer and holds it against
//! the one that came: every result, and every byte of the buffer, whether
//! written or not. Nothing is left open.

use crate::comparison::{agree_items, hex, Exchange};
use crate::edition::shown_by;
use crate::groups::Group;
use crate::reader::Refusal;
use crate::service::Answer;
use crate::writer::{unpacked, Content};
use crate::writer_draw::WRITER_GROUPS;
use crate::writer_exchange::{own_writer_answer, Addition, Call, WriterCame, WriterCase};
use std::io::{self, Read, Write};

impl Exchange for WriterCase {
    type Came = WriterCame;
    const GROUPS: &'static [Group<WriterCase>] = &WRITER_GROUPS;

    fn group(&self) -> u8 {
        self.group
    }

    fn set_group(&mut self, group: u8) {
        self.group = group;
    }

    fn size(&self) -> usize {
        let handed = match &self.call {
            Call::Write(content) | Call::Chain(content, _) => content.records.len(),
            Call::Append(addition) => addition.record.len(),
            Call::Slip(_, addition, slip) => addition.record.len() + slip.len(),
        };
        self.buffer.len() + handed
    }

    fn write(&self, file: &mut impl Write) -> io::Result<()> {
        WriterCase::write(self, file)
    }

    fn read(file: &mut impl Read) -> io::Result<Option<WriterCase>> {
        WriterCase::read(file)
    }

    fn write_answer(came: &WriterCame, file: &mut impl Write) -> io::Result<()> {
        came.write(file)
    }

    fn read_answer(&self, file: &mut impl Read) -> io::Result<WriterCame> {
        WriterCame::read(file, self.results(), self.buffer.len())
    }

    fn own_answer(&self) -> WriterCame {
        own_writer_answer(self)
    }

    fn agree(&self, expected: &WriterCame, came: &WriterCame) -> Result<(), String> {
        agree_results(expected, came)
    }

    /// What the call gave, the calls apart from each other.
    fn outcome(&self, expected: &WriterCame) -> (String, usize) {
        let results = &expected.results;
        let kind = match &self.call {
            Call::Write(_) => "write",
            Call::Append(_) => "append",
            Call::Chain(..) => "chain",
            Call::Slip(..) => {
                let before = checked(results[0]);
                let after = checked(results[2]);
                let (appended, place) = written(results[1]);
                return (format!("slip {before}, {appended}, then {after}"), place);
            }
        };
        let (words, place) = written(results[0]);
        (format!("{kind} {words}"), place)
    }

    /// What the bundle shows that is written, or whose block 0 an append
    /// refuses.
    fn also(&self, expected: &WriterCame) -> Vec<String> {
        let (kind, result) = match &self.call {
            Call::Write(_) => ("write", expected.results[0]),
            Call::Append(_) => ("append", expected.results[0]),
            Call::Chain(..) => ("chain", expected.results[0]),
            Call::Slip(..) => ("slip", expected.results[1]),
        };
        let bundle = match (&self.call, unpacked(result)) {
            (_, Ok(length)) => expected.buffer.get(..length),
            (Call::Append(held), Err(Refusal { number: 3, .. })) => {
                self.buffer.get(..held.length as usize)
            }
            _ => None,
        };
        let shown = bundle.and_then(shown_by);
        shown
            .map(|words| format!("{kind} {words}"))
            .into_iter()
            .collect()
    }

    fn describe(&self) -> String {
        let call = match &self.call {
            Call::Write(content) => format!("write, {}", in_words(content)),
            Call::Append(addition) => append_in_words(addition),
            Call::Chain(content, first) => {
                format!("chain from {first} records, {}", in_words(content))
            }
            Call::Slip(asked, addition, slip) => format!(
                "is {} in {}.{}? slip: {}\n{}",
                asked.member,
                asked.entity,
                asked.name,
                hex(slip),
                append_in_words(addition)
            ),
        };
        let bytes = self.buffer.len();
        format!("{call}\nbuffer of {bytes} bytes: {}", hex(&self.buffer))
    }
}

fn in_words(content: &Content) -> String {
    format!(
        "E {}, R {}, marks: {}\nrecords: {}",
        content.entities,
        content.names,
        hex(&content.marks),
        hex(&content.records)
    )
}

fn append_in_words(addition: &Addition) -> String {
    format!(
        "append to a bundle of {} bytes, record: {}",
        addition.length,
        hex(&addition.record)
    )
}

fn checked(result: u64) -> String {
    match Answer::unpacked(result).number {
        0 => "accepted".to_string(),
        number => format!("refused {number}"),
    }
}

/// The result of a write or an append in words, and the place of a refusal.
pub fn written(result: u64) -> (String, usize) {
    match unpacked(result) {
        Ok(_) => ("written".to_string(), 0),
        Err(refusal) => (format!("refused {:2}", refusal.number), refusal.place),
    }
}

/// Says nothing when the answer that came is right, else what is wrong.
pub fn agree_results(expected: &WriterCame, came: &WriterCame) -> Result<(), String> {
    if expected.results != came.results {
        let words = |results: &[u64]| -> Vec<String> {
            let all = results.iter();
            all.map(|result| format!("{result:#018x}")).collect()
        };
        let wanted = words(&expected.results).join(" ");
        let got = words(&came.results).join(" ");
        return Err(format!("expected {wanted}\ncame     {got}"));
    }
    agree_items("buffer byte", &expected.buffer, &came.buffer)
}
