//! Searches and tables with a sheet in comparison: the files that their cases
//! travel in, and when an answer is right.
//!
//! A case is laid out as a search of `exchange.rs`, with kind 9 for a search
//! and 10 for tables, which have no question (three zeros) and no slip buffer;
//! behind the bundle stand the length of the sheet in four bytes, low byte
//! first, and the sheet. An answer is that of a search, for tables with a slip
//! buffer of no bytes, and it is judged as that of a search.

use crate::comparison::{hex, Exchange};
use crate::edition::{shown_by, shown_for};
use crate::exchange::{came_of, lent_table, read_bytes, read_number, Came, Case, Head};
use crate::groups::Group;
use crate::membership::possible_table;
use crate::reader::read_bundle;
use crate::run::agree;
use crate::service::{search_with_sheet, tables_with_sheet, Answer, Lent, Outcome, Question};
use crate::service::{NO, UNSURE, YES};
use crate::with_sheet_draw::SHEET_GROUPS;
use std::io::{self, Read, Write};

const SEARCH: u8 = 9;
const TABLES: u8 = 10;

pub struct SheetCase {
    kind: u8,
    pub case: Case,
    lent: Lent,
    pub sheet: Vec<u8>,
}

impl SheetCase {
    fn new(kind: u8, question: Question, bundle: Vec<u8>, sheet: Vec<u8>, lent: Lent) -> SheetCase {
        SheetCase {
            kind,
            case: Case::search(question, bundle, lent),
            lent,
            sheet,
        }
    }

    pub fn search(question: Question, bundle: Vec<u8>, sheet: Vec<u8>, lent: Lent) -> SheetCase {
        SheetCase::new(SEARCH, question, bundle, sheet, lent)
    }

    pub fn tables(bundle: Vec<u8>, sheet: Vec<u8>, lent: Lent) -> SheetCase {
        let slip_bytes = 0;
        let lent = Lent { slip_bytes, ..lent };
        SheetCase::new(TABLES, Question::about((0, 0, 0)), bundle, sheet, lent)
    }

    fn own_outcome(&self) -> Outcome {
        let bundle = &self.case.bundle;
        match self.kind {
            SEARCH => search_with_sheet(bundle, &self.sheet, self.case.question, self.lent),
            _ => tables_with_sheet(bundle, &self.sheet, self.lent),
        }
    }

    /// Whether a table has the fact that a search asks for.
    fn asks_for_one_of(&self, words: &[u32]) -> bool {
        let asked = lent_table(Some(&[self.case.question.fact()].into()), words.len());
        asked
            .iter()
            .zip(words)
            .any(|(asked, word)| asked & word != 0)
    }

    /// The possible table as it comes without the sheet.
    fn without_sheet(&self) -> Vec<u32> {
        let bundle = read_bundle(&self.case.bundle).expect("the case is not refused");
        lent_table(Some(&possible_table(&bundle)), self.lent.possible_words)
    }
}

impl Exchange for SheetCase {
    type Came = Came;
    const GROUPS: &'static [Group<SheetCase>] = &SHEET_GROUPS;

    fn group(&self) -> u8 {
        self.case.group
    }

    fn set_group(&mut self, group: u8) {
        self.case.group = group;
    }

    fn size(&self) -> usize {
        self.case.bundle.len() + self.sheet.len()
    }

    fn write(&self, file: &mut impl Write) -> io::Result<()> {
        let Case {
            group,
            question,
            bundle,
            ..
        } = &self.case;
        let lent = self.lent;
        let lengths = [lent.sure_words, lent.possible_words, lent.slip_bytes];
        let [sure, possible, slip] = lengths.map(|length| length as u32);
        let head = Head {
            kind: self.kind,
            group: *group,
            letters: [question.member, question.entity, question.name],
            numbers: [bundle.len() as u32, sure, possible, slip],
        };
        head.write(file)?;
        file.write_all(bundle)?;
        file.write_all(&(self.sheet.len() as u32).to_le_bytes())?;
        file.write_all(&self.sheet)
    }

    fn read(file: &mut impl Read) -> io::Result<Option<SheetCase>> {
        let Some(head) = Head::read(file)? else {
            return Ok(None);
        };
        let [bundle_bytes, sure_words, possible_words, slip_bytes] = head.lengths();
        let [member, entity, name] = head.letters;
        let lent = Lent {
            sure_words,
            possible_words,
            slip_bytes,
        };
        let bundle = read_bytes(file, bundle_bytes)?;
        let sheet_bytes = read_number(file)?;
        let sheet = read_bytes(file, sheet_bytes)?;
        let question = Question::about((entity, name, member));
        let mut case = SheetCase::new(head.kind, question, bundle, sheet, lent);
        case.set_group(head.group);
        Ok(Some(case))
    }

    fn write_answer(came: &Came, file: &mut impl Write) -> io::Result<()> {
        came.write(file)
    }

    fn read_answer(&self, file: &mut impl Read) -> io::Result<Came> {
        Came::read(file, &self.case)
    }

    fn own_answer(&self) -> Came {
        came_of(&self.own_outcome(), self.lent)
    }

    fn agree(&self, expected: &Came, came: &Came) -> Result<(), String> {
        agree(&self.case, expected, came)
    }

    /// Of a refusal its number, otherwise what the call gave and whether that
    /// is so by the sheet; the place is the number of members which are
    /// possible with the sheet only.
    fn outcome(&self, expected: &Came) -> (String, usize) {
        let call = if self.kind == SEARCH {
            "search"
        } else {
            "tables"
        };
        let answer = Answer::unpacked(expected.packed);
        if answer.number != 0 {
            let words = format!("{call} refused {:2}", answer.number);
            return (words, usize::from(answer.place));
        }
        let without = self.without_sheet();
        let pairs = expected.possible.iter().zip(&without);
        let more: u32 = pairs
            .map(|(with, without)| (with & !without).count_ones())
            .sum();
        let words = match answer.verdict {
            YES => "YES",
            NO => "NO",
            UNSURE if !self.asks_for_one_of(&without) => "UNSURE by the sheet",
            UNSURE => "UNSURE",
            _ if more > 0 => "with more members",
            _ => "as without the sheet",
        };
        (format!("{call} {words}"), more as usize)
    }

    fn also(&self, expected: &Came) -> Vec<String> {
        let answered = Answer::unpacked(expected.packed).number == 0;
        let (outcome, _) = self.outcome(expected);
        let name = shown_for(&outcome, self.case.question.name).filter(|_| answered);
        shown_by(&self.case.bundle)
            .into_iter()
            .chain(name)
            .collect()
    }

    fn describe(&self) -> String {
        let call = if self.kind == SEARCH {
            "search"
        } else {
            "tables"
        };
        let case = self.case.describe();
        format!("{call} with the sheet {}\n{case}", hex(&self.sheet))
    }
}
