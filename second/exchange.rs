//! The files that cases and answers travel in.
//!
//! A case: one byte kind, one byte group, D, A, r; then four numbers of four
//! bytes, low byte first: the length of the bundle in bytes, of the sure table
//! in words, of the possible table in words, of the slip buffer or the slip in
//! bytes; then the bundle, and for a check the slip.
//!
//! An answer: eight bytes with the packed result, low byte first; for a search
//! also the sure table, the possible table and the slip buffer, whole.
//! Before a search the tables are filled with one word and the buffer with one
//! byte, so that memory which must stay can be told from memory written.

use crate::comparison::first_byte;
use crate::membership::Table;
use crate::reader::MOST_NAMES;
use crate::service::{check, search, Lent, Outcome, Question, TABLE_WORDS};
use std::io::{self, Read, Write};

/// What every case of a library function starts with: one byte kind, one byte
/// group, three bytes more, and four numbers of four bytes, low byte first.
pub struct Head {
    pub kind: u8,
    pub group: u8,
    pub letters: [u8; 3],
    pub numbers: [u32; 4],
}

impl Head {
    pub fn write(&self, file: &mut impl Write) -> io::Result<()> {
        file.write_all(&[self.kind, self.group])?;
        file.write_all(&self.letters)?;
        let mut numbers = self.numbers.iter();
        numbers.try_for_each(|number| file.write_all(&number.to_le_bytes()))
    }

    /// The head of the next case of a file, or nothing at its end.
    pub fn read(file: &mut impl Read) -> io::Result<Option<Head>> {
        let Some(kind) = first_byte(file)? else {
            return Ok(None);
        };
        let letters = read_bytes(file, 4)?;
        let mut numbers = [0; 4];
        for number in &mut numbers {
            *number = read_number(file)? as u32;
        }
        Ok(Some(Head {
            kind,
            group: letters[0],
            letters: [letters[1], letters[2], letters[3]],
            numbers,
        }))
    }

    /// The four numbers as lengths.
    pub fn lengths(&self) -> [usize; 4] {
        self.numbers.map(|number| number as usize)
    }
}

pub const FILL_WORD: u32 = 0xA5A5_A5A5;
pub const FILL_BYTE: u8 = 0x5A;

#[derive(Clone, Debug, PartialEq, Eq)]
pub enum Task {
    Search(Lent),
    Check(Vec<u8>),
}

#[derive(Clone, Debug, PartialEq, Eq)]
pub struct Case {
    pub group: u8,
    pub question: Question,
    pub bundle: Vec<u8>,
    pub task: Task,
}

impl Case {
    pub fn search(question: Question, bundle: Vec<u8>, lent: Lent) -> Case {
        Case {
            group: 0,
            question,
            bundle,
            task: Task::Search(lent),
        }
    }

    pub fn check(question: Question, bundle: Vec<u8>, slip: Vec<u8>) -> Case {
        Case {
            group: 0,
            question,
            bundle,
            task: Task::Check(slip),
        }
    }

    /// The slip of a check, and nothing for a search.
    pub fn slip(&self) -> &[u8] {
        match &self.task {
            Task::Search(_) => &[],
            Task::Check(slip) => slip,
        }
    }

    pub fn write(&self, file: &mut impl Write) -> io::Result<()> {
        let (kind, lent) = match &self.task {
            Task::Search(lent) => (0, *lent),
            Task::Check(slip) => (
                1,
                Lent {
                    sure_words: 0,
                    possible_words: 0,
                    slip_bytes: slip.len(),
                },
            ),
        };
        let asked = self.question;
        let lengths = [lent.sure_words, lent.possible_words, lent.slip_bytes];
        let [sure, possible, slip] = lengths.map(|length| length as u32);
        let head = Head {
            kind,
            group: self.group,
            letters: [asked.member, asked.entity, asked.name],
            numbers: [self.bundle.len() as u32, sure, possible, slip],
        };
        head.write(file)?;
        file.write_all(&self.bundle)?;
        file.write_all(self.slip())
    }

    /// The next case of a file, or nothing at its end.
    pub fn read(file: &mut impl Read) -> io::Result<Option<Case>> {
        let Some(head) = Head::read(file)? else {
            return Ok(None);
        };
        let [bundle_bytes, sure_words, possible_words, slip_bytes] = head.lengths();
        let [member, entity, name] = head.letters;
        let bundle = read_bytes(file, bundle_bytes)?;
        let task = match head.kind {
            0 => Task::Search(Lent {
                sure_words,
                possible_words,
                slip_bytes,
            }),
            _ => Task::Check(read_bytes(file, slip_bytes)?),
        };
        Ok(Some(Case {
            group: head.group,
            question: Question::about((entity, name, member)),
            bundle,
            task,
        }))
    }
}

/// What a program brought back for a case. A check leaves the memory empty.
#[derive(Clone, Debug, Default, PartialEq, Eq)]
pub struct Came {
    pub packed: u64,
    pub sure: Vec<u32>,
    pub possible: Vec<u32>,
    pub slip: Vec<u8>,
}

impl Came {
    pub fn write(&self, file: &mut impl Write) -> io::Result<()> {
        file.write_all(&self.packed.to_le_bytes())?;
        for word in self.sure.iter().chain(&self.possible) {
            file.write_all(&word.to_le_bytes())?;
        }
        file.write_all(&self.slip)
    }

    /// Reads the answer to a case; its length follows from the case.
    pub fn read(file: &mut impl Read, case: &Case) -> io::Result<Came> {
        let mut packed = [0; 8];
        file.read_exact(&mut packed)?;
        let mut came = Came {
            packed: u64::from_le_bytes(packed),
            ..Came::default()
        };
        if let Task::Search(lent) = &case.task {
            came.sure = read_words(file, lent.sure_words)?;
            came.possible = read_words(file, lent.possible_words)?;
            came.slip = read_bytes(file, lent.slip_bytes)?;
        }
        Ok(came)
    }
}

pub fn read_number(file: &mut impl Read) -> io::Result<usize> {
    let mut bytes = [0; 4];
    file.read_exact(&mut bytes)?;
    Ok(u32::from_le_bytes(bytes) as usize)
}

pub fn read_bytes(file: &mut impl Read, count: usize) -> io::Result<Vec<u8>> {
    let mut bytes = vec![0; count];
    file.read_exact(&mut bytes)?;
    Ok(bytes)
}

fn read_words(file: &mut impl Read, count: usize) -> io::Result<Vec<u32>> {
    let bytes = read_bytes(file, 4 * count)?;
    let words = bytes.chunks_exact(4);
    Ok(words
        .map(|word| u32::from_le_bytes([word[0], word[1], word[2], word[3]]))
        .collect())
}

/// A lent table after the call: as filled after a refusal, else with the
/// table in its first 1,024 words, 32 for the names of each entity, whatever
/// the edition of the bundle.
pub fn lent_table(table: Option<&Table>, words: usize) -> Vec<u32> {
    let mut lent = vec![FILL_WORD; words];
    if let Some(facts) = table {
        lent[..TABLE_WORDS].fill(0);
        for (entity, name, member) in facts {
            let before = usize::from(MOST_NAMES) * (usize::from(*entity) - 1);
            lent[before + usize::from(*name) - 1] |= 1 << (member - 1);
        }
    }
    lent
}

/// What comes back of a search: its answer, and lent memory after it.
pub fn came_of(outcome: &Outcome, lent: Lent) -> Came {
    let sure = outcome.tables.as_ref().map(|tables| &tables.0);
    let possible = outcome.tables.as_ref().map(|tables| &tables.1);
    let mut slip = vec![FILL_BYTE; lent.slip_bytes];
    slip[..outcome.slip.len()].copy_from_slice(&outcome.slip);
    Came {
        packed: outcome.answer.packed(),
        sure: lent_table(sure, lent.sure_words),
        possible: lent_table(possible, lent.possible_words),
        slip,
    }
}

/// What this program itself brings back for a case.
pub fn own_answer(case: &Case) -> Came {
    match &case.task {
        Task::Search(lent) => came_of(&search(&case.bundle, case.question, *lent), *lent),
        Task::Check(slip) => Came {
            packed: check(&case.bundle, case.question, slip).packed(),
            ..Came::default()
        },
    }
}
