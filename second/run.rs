//! The comparison of searches and checks.
//!
//! For every case this program works out its own answer and holds it against
//! the one that came, word by word and byte by byte. The lines of a slip are
//! the one thing left open: there a slip counts as right when this program's
//! checker accepts it and it states no fact twice.

use crate::comparison::{agree_items, hex, Exchange};
use crate::draw::GROUPS;
use crate::edition::{shown_by, shown_for};
use crate::exchange::{own_answer, Came, Case, Task, FILL_BYTE};
use crate::groups::Group;
use crate::reader::read_bundle;
use crate::service::{Answer, YES};
use crate::slip::{check_slip, LINE};
use std::collections::BTreeSet;
use std::io::{self, Read, Write};

impl Exchange for Case {
    type Came = Came;
    const GROUPS: &'static [Group<Case>] = &GROUPS;

    fn group(&self) -> u8 {
        self.group
    }

    fn set_group(&mut self, group: u8) {
        self.group = group;
    }

    fn size(&self) -> usize {
        self.bundle.len() + self.slip().len()
    }

    fn write(&self, file: &mut impl Write) -> io::Result<()> {
        Case::write(self, file)
    }

    fn read(file: &mut impl Read) -> io::Result<Option<Case>> {
        Case::read(file)
    }

    fn write_answer(came: &Came, file: &mut impl Write) -> io::Result<()> {
        came.write(file)
    }

    fn read_answer(&self, file: &mut impl Read) -> io::Result<Came> {
        Came::read(file, self)
    }

    fn own_answer(&self) -> Came {
        own_answer(self)
    }

    fn agree(&self, expected: &Came, came: &Came) -> Result<(), String> {
        agree(self, expected, came)
    }

    /// Of a refusal its number, otherwise the verdict.
    fn outcome(&self, expected: &Came) -> (String, usize) {
        let answer = Answer::unpacked(expected.packed);
        let words = match (answer.number, answer.verdict) {
            (0, 0) => "accepted".to_string(),
            (0, verdict) => ["YES", "NO", "UNSURE"][usize::from(verdict) - 1].to_string(),
            (number, _) => format!("refused {number:2}"),
        };
        (words, usize::from(answer.place))
    }

    fn also(&self, expected: &Came) -> Vec<String> {
        let answered = Answer::unpacked(expected.packed).number == 0;
        let (outcome, _) = self.outcome(expected);
        let name = shown_for(&outcome, self.question.name).filter(|_| answered);
        shown_by(&self.bundle).into_iter().chain(name).collect()
    }

    fn describe(&self) -> String {
        let call = match &self.task {
            Task::Search(lent) => format!(
                "search, lent {} sure words, {} possible words, {} slip bytes",
                lent.sure_words, lent.possible_words, lent.slip_bytes
            ),
            Task::Check(slip) => format!("check, slip of {} bytes", slip.len()),
        };
        let asked = self.question;
        let question = format!("is {} in {}.{}?", asked.member, asked.entity, asked.name);
        let bundle = hex(&self.bundle);
        let slip = hex(self.slip());
        format!("{call}\n{question}\nbundle: {bundle}\nslip: {slip}")
    }
}

/// Says nothing when the answer that came is right, else what is wrong.
pub fn agree(case: &Case, expected: &Came, came: &Came) -> Result<(), String> {
    let wanted = Answer::unpacked(expected.packed);
    let got = Answer::unpacked(came.packed);
    let said_yes = matches!(case.task, Task::Search(_)) && wanted.verdict == YES;
    let lines = if said_yes { got.lines } else { wanted.lines };
    if got != (Answer { lines, ..wanted }) {
        return Err(format!("expected {wanted:?}\ncame     {got:?}"));
    }
    agree_items("sure word", &expected.sure, &came.sure)?;
    agree_items("possible word", &expected.possible, &came.possible)?;
    if said_yes {
        agree_slip(case, got.lines, &came.slip)
    } else {
        agree_items("slip byte", &expected.slip, &came.slip)
    }
}

/// Judges a slip that came with YES.
fn agree_slip(case: &Case, lines: u16, buffer: &[u8]) -> Result<(), String> {
    let length = usize::from(lines) * LINE;
    if length > buffer.len() {
        return Err(format!("came {lines} lines, more than the buffer holds"));
    }
    let (slip, rest) = buffer.split_at(length);
    let bundle = read_bundle(&case.bundle).map_err(|refusal| format!("{refusal:?}"))?;
    let stated = check_slip(&bundle, case.question.fact(), slip).map_err(|refusal| {
        format!(
            "the slip that came is refused {} at {}: {}",
            refusal.number,
            refusal.place,
            hex(slip)
        )
    })?;
    let different: BTreeSet<_> = stated.iter().collect();
    if different.len() != stated.len() {
        return Err(format!("the slip states a fact twice: {}", hex(slip)));
    }
    match rest.iter().position(|byte| *byte != FILL_BYTE) {
        Some(place) => Err(format!("slip byte {} is written", length + place)),
        None => Ok(()),
    }
}
