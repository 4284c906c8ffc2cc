//! Cases for searches and tables with a sheet, group by group: shelves absent
//! and names that nobody's own shelf completes, and then what is wrong with
//! the bundle, the sheet, the question or lent memory.
//!
//! Of three turns two are searches, and one asks for the tables.

use crate::draw::{self, any_question, enough_lent, spoil_question};
use crate::groups::{group, Group};
use crate::house::{self, house};
use crate::membership::{possible_table, possible_with, sure_walk, Fact};
use crate::open_roles::open_roles;
use crate::random::Random;
use crate::reader::{read_bundle, MOST_NAMES};
use crate::service::{Lent, Question};
use crate::shape::{self, Draft};
use crate::sheet::read_sheet;
use crate::sheet_draw::{change_sheet, damage_sheet, sheet_of, some_codes, some_sheet};
use crate::with_sheet_exchange::SheetCase;
use std::ops::Range;

pub const SHEET_GROUPS: [Group<SheetCase>; 10] = [
    group("one-shelf-absent", 10, one_shelf_absent),
    group("some-shelves-absent", 6, some_shelves_absent),
    group("valid-bundles", 4, valid_bundles),
    group("no-shelf-absent", 2, no_shelf_absent),
    group("small-house", 4, small_house),
    group("wrong-sheets", 6, wrong_sheets),
    group("changed-sheets", 2, changed_sheets),
    group("damaged-bundles", 14, damaged_bundles),
    group("lent-lengths", 3, lent_lengths),
    group("several-faults", 6, several_faults),
];

/// The places of the groups in which nothing is wrong.
pub const RIGHT: Range<usize> = 0..5;

/// What the turn asks for: a search, or the tables.
fn call(turn: usize, question: Question, bundle: Vec<u8>, sheet: Vec<u8>, lent: Lent) -> SheetCase {
    match turn % 3 {
        2 => SheetCase::tables(bundle, sheet, lent),
        _ => SheetCase::search(question, bundle, sheet, lent),
    }
}

/// Codes that are half of the time 3 to 6 but for one name, so that what is
/// open is not everything.
fn telling_codes(random: &mut Random, names: u8) -> Vec<u8> {
    if random.once_in(2) {
        return some_codes(random, names);
    }
    let mut codes: Vec<u8> = (0..names).map(|_| random.pick(&[3, 4, 5, 6])).collect();
    codes[random.below(usize::from(names))] = random.number(2);
    codes
}

/// A question about a fact that is sure, possible without the sheet, possible
/// with it only, or drawn by lot.
fn telling_question(random: &mut Random, draft: &Draft, sheet: &[u8]) -> Question {
    let bundle = read_bundle(&draft.bytes()).expect("the shapes draw valid bundles");
    let sheet = read_sheet(bundle.names, sheet).expect("the codes are right");
    let sure = sure_walk(&bundle).table;
    let possible = possible_table(&bundle);
    let facts: Vec<Fact> = match random.below(4) {
        0 => sure.into_iter().collect(),
        1 => possible.difference(&sure).copied().collect(),
        2 => {
            let with_sheet = possible_with(&bundle, &open_roles(&bundle, &sheet));
            with_sheet.difference(&possible).copied().collect()
        }
        _ => Vec::new(),
    };
    if facts.is_empty() {
        any_question(random, draft)
    } else {
        Question::about(random.pick(&facts))
    }
}

/// A call over a valid bundle with a right sheet.
fn valid_call(random: &mut Random, turn: usize, draft: &Draft, codes: &[u8]) -> SheetCase {
    let sheet = sheet_of(codes);
    let question = telling_question(random, draft, &sheet);
    let lent = enough_lent(random);
    call(turn, question, draft.bytes(), sheet, lent)
}

fn some_draft(random: &mut Random, turn: usize) -> Draft {
    let mut draft = match turn / 3 % 6 {
        0 => shape::sized(random, 30),
        1 => shape::intersections(random),
        2 => shape::grown(random),
        3 => shape::dense_links(random, 8, 3, 40),
        4 => shape::busy(random),
        _ => shape::small(random),
    };
    shape::spread_names(random, &mut draft);
    draft
}

fn one_shelf_absent(random: &mut Random, turn: usize) -> SheetCase {
    let mut draft = some_draft(random, turn);
    draft.absent = vec![random.number(draft.entities)];
    let codes = telling_codes(random, draft.names);
    valid_call(random, turn, &draft, &codes)
}

fn some_shelves_absent(random: &mut Random, turn: usize) -> SheetCase {
    let mut draft = some_draft(random, turn);
    shape::mark_absent(random, &mut draft);
    let codes = telling_codes(random, draft.names);
    valid_call(random, turn, &draft, &codes)
}

/// The bundles of the search, with a question drawn by lot.
fn valid_bundles(random: &mut Random, turn: usize) -> SheetCase {
    let bundle = draw::drawn_from(random, draw::VALID_BUNDLES).bundle;
    let codes = telling_codes(random, bundle[2]);
    let question = any_question(random, &Draft::new(bundle[1], bundle[2]));
    let lent = enough_lent(random);
    call(turn, question, bundle, sheet_of(&codes), lent)
}

fn no_shelf_absent(random: &mut Random, turn: usize) -> SheetCase {
    let draft = some_draft(random, turn);
    let codes = some_codes(random, draft.names);
    valid_call(random, turn, &draft, &codes)
}

/// The small house with one shelf absent and one name of code 1 or 2; once in
/// a few times that of the students, where Tomas is asked for.
fn small_house(random: &mut Random, turn: usize) -> SheetCase {
    let mut codes = [3; 6];
    if turn % 4 == 0 {
        codes[3] = 2 - (turn / 4 % 2) as u8;
        let question = Question::about((house::ARCHIVE, 1, house::TOMAS));
        let bundle = house(&[house::TOMAS]).bytes();
        return SheetCase::search(question, bundle, sheet_of(&codes), Lent::enough());
    }
    codes[random.below(6)] = random.number(6);
    let absent = random.number(6);
    valid_call(random, turn, &house(&[absent]), &codes)
}

/// A draft with absent shelves and with so many names as the codes.
fn draft_over(random: &mut Random, codes: &[u8]) -> Draft {
    let mut draft = Draft::new(random.number(32), codes.len() as u8);
    shape::add_records(random, &mut draft, 20, &[1, 1, 2, 3, 4]);
    shape::mark_absent(random, &mut draft);
    draft
}

fn wrong_sheets(random: &mut Random, turn: usize) -> SheetCase {
    let names = random.pick(&[1, 2, 6, 15, 16, 17, MOST_NAMES - 1, MOST_NAMES]);
    let codes = some_codes(random, names);
    let draft = draft_over(random, &codes);
    let sheet = damage_sheet(random, turn, &codes);
    let question = any_question(random, &draft);
    let lent = enough_lent(random);
    call(turn / 6, question, draft.bytes(), sheet, lent)
}

fn changed_sheets(random: &mut Random, turn: usize) -> SheetCase {
    let names = random.number(MOST_NAMES);
    let codes = some_codes(random, names);
    let draft = draft_over(random, &codes);
    let sheet = change_sheet(random, &codes);
    let question = any_question(random, &draft);
    let lent = enough_lent(random);
    call(turn, question, draft.bytes(), sheet, lent)
}

/// Damaged bundles, half of them with a sheet that would fit, the others with
/// a wrong one.
fn damaged_bundles(random: &mut Random, turn: usize) -> SheetCase {
    let bundle = draw::drawn_from(random, draw::DAMAGED_BUNDLES).bundle;
    let names = bundle.get(2).copied().unwrap_or(1).clamp(1, MOST_NAMES);
    let sheet = match turn / 3 % 2 {
        0 => some_sheet(random, names),
        _ => damage_sheet(random, turn / 6, &vec![2; usize::from(names)]),
    };
    let lot = (random.number(3), 1, random.number(3));
    let lent = enough_lent(random);
    call(turn, Question::about(lot), bundle, sheet, lent)
}

/// Every pairing of telling lengths in turn.
fn lent_lengths(random: &mut Random, turn: usize) -> SheetCase {
    const WORDS: [usize; 6] = [1_024, 1_023, 0, 1_025, 512, 1_200];
    const BYTES: [usize; 3] = [61_440, 61_439, 0];
    let mut case = one_shelf_absent(random, 3);
    let lent = Lent {
        sure_words: WORDS[turn / 3 % 6],
        possible_words: WORDS[turn / 18 % 6],
        slip_bytes: BYTES[turn / 6 % 3],
    };
    let bundle = std::mem::take(&mut case.case.bundle);
    call(turn, case.case.question, bundle, case.sheet, lent)
}

/// A bundle, a sheet, a question and lent memory, each of them wrong or not,
/// to show which is found first.
fn several_faults(random: &mut Random, turn: usize) -> SheetCase {
    let names = random.number(MOST_NAMES);
    let codes = some_codes(random, names);
    let draft = draft_over(random, &codes);
    let mut question = any_question(random, &draft);
    let mut bundle = draft.bytes();
    let mut sheet = sheet_of(&codes);
    let mut lent = Lent::enough();
    if random.once_in(4) {
        bundle = draw::drawn_from(random, draw::DAMAGED_BUNDLES).bundle;
    }
    if random.once_in(2) {
        sheet = damage_sheet(random, turn, &codes);
    }
    if random.once_in(2) {
        spoil_question(turn, &draft, &mut question);
    }
    if random.once_in(2) {
        lent.sure_words = random.pick(&[0, 512, 1_023]);
    }
    call(turn, question, bundle, sheet, lent)
}
