//! The search and the checker as whole functions.
//!
//! Each takes everything a caller hands over, and gives everything that comes
//! back: the answer and what happens to lent memory. Refusals are asked for in
//! the order of the table of refusals: the reader's own, 1 to 5 and 61 to 65,
//! with a sheet 15, then 7 and what follows.
//!
//! A search with a sheet and one without differ in the open roles alone, which
//! stand beside the bundle once both are read.

use crate::holders::read_both;
use crate::membership::{possible_with, sure_walk, Fact, Table};
use crate::open_roles::{absent_roles, open_roles};
use crate::reader::{read_bundle, Bundle, Refusal, Role, BLOCK};
use crate::slip::{check_slip, write_slip, LINE, LONGEST_SLIP};
use std::collections::BTreeSet;

pub const TABLE_WORDS: usize = 1_024;
pub const YES: u8 = 1;
pub const NO: u8 = 2;
pub const UNSURE: u8 = 3;

/// Is `member` in the role `name` of `entity`?
#[derive(Clone, Copy, Debug, PartialEq, Eq)]
pub struct Question {
    pub member: u8,
    pub entity: u8,
    pub name: u8,
}

impl Question {
    pub fn about(fact: Fact) -> Question {
        let (entity, name, member) = fact;
        Question {
            member,
            entity,
            name,
        }
    }

    pub fn fact(&self) -> Fact {
        (self.entity, self.name, self.member)
    }
}

/// The lengths of the lent tables in words and of the slip buffer in bytes.
#[derive(Clone, Copy, Debug, PartialEq, Eq)]
pub struct Lent {
    pub sure_words: usize,
    pub possible_words: usize,
    pub slip_bytes: usize,
}

impl Lent {
    /// Just as much as the search asks for.
    pub fn enough() -> Lent {
        Lent {
            sure_words: TABLE_WORDS,
            possible_words: TABLE_WORDS,
            slip_bytes: LONGEST_SLIP,
        }
    }
}

#[derive(Clone, Copy, Debug, Default, PartialEq, Eq)]
pub struct Answer {
    pub number: u8,
    pub place: u16,
    pub verdict: u8,
    pub rounds: u16,
    pub lines: u16,
}

impl Answer {
    pub fn refused(refusal: Refusal) -> Answer {
        Answer {
            number: refusal.number,
            place: refusal.place as u16,
            ..Answer::default()
        }
    }

    pub fn packed(&self) -> u64 {
        u64::from(self.number) << 56
            | u64::from(self.place) << 40
            | u64::from(self.verdict) << 32
            | u64::from(self.rounds) << 16
            | u64::from(self.lines)
    }

    pub fn unpacked(packed: u64) -> Answer {
        Answer {
            number: (packed >> 56) as u8,
            place: (packed >> 40) as u16,
            verdict: (packed >> 32) as u8,
            rounds: (packed >> 16) as u16,
            lines: packed as u16,
        }
    }
}

/// What a search leaves behind. A refusal leaves no tables, and only YES
/// leaves a slip.
pub struct Outcome {
    pub answer: Answer,
    pub tables: Option<(Table, Table)>,
    pub slip: Vec<u8>,
}

impl Outcome {
    fn refused(refusal: Refusal) -> Outcome {
        Outcome {
            answer: Answer::refused(refusal),
            tables: None,
            slip: Vec::new(),
        }
    }
}

/// A bundle and the roles that are open in it.
type Opened = (Bundle, BTreeSet<Role>);

fn read_alone(bytes: &[u8]) -> Result<Opened, Refusal> {
    let bundle = read_bundle(bytes)?;
    let open = absent_roles(&bundle);
    Ok((bundle, open))
}

fn read_with_sheet(bytes: &[u8], sheet: &[u8]) -> Result<Opened, Refusal> {
    let (bundle, sheet) = read_both(bytes, sheet)?;
    let open = open_roles(&bundle, &sheet);
    Ok((bundle, open))
}

pub fn search(bytes: &[u8], question: Question, lent: Lent) -> Outcome {
    search_in(read_alone(bytes), question, lent)
}

pub fn search_with_sheet(bytes: &[u8], sheet: &[u8], question: Question, lent: Lent) -> Outcome {
    search_in(read_with_sheet(bytes, sheet), question, lent)
}

fn search_in(read: Result<Opened, Refusal>, question: Question, lent: Lent) -> Outcome {
    let accepted = read.and_then(|(bundle, open)| {
        refuse_question(&bundle, question)?;
        refuse_lent(lent)?;
        Ok(answer_question(&bundle, &open, question.fact()))
    });
    accepted.unwrap_or_else(Outcome::refused)
}

/// The two tables without a question. No slip is asked for, so that only the
/// tables can be too short.
pub fn tables_with_sheet(bytes: &[u8], sheet: &[u8], lent: Lent) -> Outcome {
    let accepted = read_with_sheet(bytes, sheet).and_then(|(bundle, open)| {
        refuse_lent(Lent {
            slip_bytes: LONGEST_SLIP,
            ..lent
        })?;
        let walk = sure_walk(&bundle);
        let possible = possible_with(&bundle, &open);
        Ok(Outcome {
            answer: Answer {
                rounds: walk.rounds as u16,
                ..Answer::default()
            },
            tables: Some((walk.table, possible)),
            slip: Vec::new(),
        })
    });
    accepted.unwrap_or_else(Outcome::refused)
}

pub fn check(bytes: &[u8], question: Question, slip: &[u8]) -> Answer {
    let accepted = read_bundle(bytes).and_then(|bundle| {
        refuse_question(&bundle, question)?;
        check_slip(&bundle, question.fact(), slip)
    });
    match accepted {
        Ok(stated) => Answer {
            lines: stated.len() as u16,
            ..Answer::default()
        },
        Err(refusal) => Answer::refused(refusal),
    }
}

fn refuse_question(bundle: &Bundle, question: Question) -> Result<(), Refusal> {
    let entities = 1..=bundle.entities;
    let names = 1..=bundle.names;
    let right = entities.contains(&question.member)
        && entities.contains(&question.entity)
        && names.contains(&question.name);
    right.then_some(()).ok_or(Refusal::new(7, 0))
}

fn refuse_lent(lent: Lent) -> Result<(), Refusal> {
    let right = lent.sure_words >= TABLE_WORDS
        && lent.possible_words >= TABLE_WORDS
        && lent.slip_bytes >= LONGEST_SLIP;
    right.then_some(()).ok_or(Refusal::new(8, 0))
}

fn answer_question(bundle: &Bundle, open: &BTreeSet<Role>, asked: Fact) -> Outcome {
    let walk = sure_walk(bundle);
    let possible = possible_with(bundle, open);
    let mut slip = Vec::new();
    let verdict = if walk.table.contains(&asked) {
        slip = write_slip(&walk, asked);
        YES
    } else if possible.contains(&asked) {
        UNSURE
    } else {
        NO
    };
    let answer = Answer {
        verdict,
        rounds: walk.rounds as u16,
        lines: (slip.len() / LINE) as u16,
        ..Answer::default()
    };
    Outcome {
        answer,
        tables: Some((walk.table, possible)),
        slip,
    }
}

/// The line that the program `ask` prints for its whole input.
pub fn ask(input: &[u8]) -> String {
    let (question, bundle) = asked_in(input);
    in_words(search(bundle, question, Lent::enough()).answer)
}

/// The line that the program `ask_with_sheet` prints: the sheet stands behind
/// the question, and where it is cut the bundle is empty.
pub fn ask_with_sheet(input: &[u8]) -> String {
    let (question, rest) = asked_in(input);
    let (sheet, bundle) = rest.split_at_checked(BLOCK).unwrap_or((rest, &[]));
    in_words(search_with_sheet(bundle, sheet, question, Lent::enough()).answer)
}

/// The question that an input starts with, and what follows it; nothing where
/// it has fewer bytes than a question.
fn asked_in(input: &[u8]) -> (Question, &[u8]) {
    let (fact, rest) = match input {
        [member, entity, name, rest @ ..] => ((*entity, *name, *member), rest),
        _ => ((0, 0, 0), &[][..]),
    };
    (Question::about(fact), rest)
}

fn in_words(answer: Answer) -> String {
    match answer.verdict {
        YES => format!("YES {}", answer.rounds),
        NO => format!("NO {}", answer.rounds),
        UNSURE => format!("UNSURE {}", answer.rounds),
        _ => format!("REFUSED {} {}", answer.number, answer.place),
    }
}
