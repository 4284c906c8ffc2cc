//! Inputs for the lists, group by group: those of the search asked in another
//! way, lists that are empty or as long as can be, short questions, inputs in
//! which a few bytes are changed, and bytes drawn by lot.
//!
//! Turns take the two programs one after the other.

use crate::draw::{any_question, drawn_from, DAMAGED_BUNDLES, VALID_BUNDLES};
use crate::groups::{group, Group};
use crate::lists::{MEMBERS, ROLES};
use crate::program::Program;
use crate::program_exchange::{ProgramCase, ProgramSet};
use crate::random::Random;
use crate::reader::{
    Role, BLOCK, LONGEST_BUNDLE, MOST_CREDENTIALS, MOST_ENTITIES, MOST_NAMES, RECORDS_IN_BLOCK,
};
use crate::service::Question;
use crate::shape::{self, contained_record, member_record, seal_all, Draft};

/// The two programs that print lists.
pub struct Lists;

type ListCase = ProgramCase<Lists>;

impl ProgramSet for Lists {
    const PROGRAMS: &'static [Program] = &[MEMBERS, ROLES];
    const GROUPS: &'static [Group<ListCase>] = &[
        group("valid-bundles", 12, valid_bundles),
        group("damaged-bundles", 18, damaged_bundles),
        group("full-lists", 2, full_lists),
        group("empty-lists", 2, empty_lists),
        group("short-questions", 2, short_questions),
        group("questions-drawn-by-lot", 2, questions_drawn_by_lot),
        group("changed-bytes", 4, changed_bytes),
        group("random-bytes", 2, random_bytes),
    ];

    /// Which kinds of lines a list has, and how many lines.
    fn outcome(list: &[u8]) -> (String, usize) {
        let text = String::from_utf8_lossy(list);
        let has = |mark| text.lines().any(|line| line.ends_with(mark));
        let words = match (has("SURE"), has("MAYBE")) {
            (true, true) => "sure and maybe",
            (true, false) => "sure",
            (false, true) => "maybe",
            (false, false) => "nothing",
        };
        (format!("listed {words}"), text.lines().count() - 1)
    }
}

/// The input with which the turn's program is asked: for the members of the
/// question's role, or for the roles of its member.
fn asked(turn: usize, question: Question, bundle: &[u8]) -> ListCase {
    let program = turn % 2;
    let mut input = match program {
        0 => vec![question.entity, question.name],
        _ => vec![question.member],
    };
    input.extend(bundle);
    ProgramCase::new(program, input)
}

/// A question and a bundle of the search's cases.
fn valid_bundles(random: &mut Random, turn: usize) -> ListCase {
    let case = drawn_from(random, VALID_BUNDLES);
    asked(turn, case.question, &case.bundle)
}

fn damaged_bundles(random: &mut Random, turn: usize) -> ListCase {
    let case = drawn_from(random, DAMAGED_BUNDLES);
    asked(turn, case.question, &case.bundle)
}

/// Everyone is in the first role, and as many roles as there is room for
/// contain it; with every shelf absent everyone may be in every role. The
/// names have any numbers.
fn full_lists(random: &mut Random, turn: usize) -> ListCase {
    let names = random.pick(&[16, 17, MOST_NAMES]);
    let mut draft = Draft::new(MOST_ENTITIES, names);
    let first = Role::new(1, 1);
    let everyone = 1..=MOST_ENTITIES;
    draft.records = everyone
        .map(|member| member_record(first, member))
        .collect();
    for number in 1..=MOST_CREDENTIALS - MOST_ENTITIES {
        let role = Role::new(number / names + 1, number % names + 1);
        draft.records.push(contained_record(role, first));
    }
    shape::spread_names(random, &mut draft);
    match turn / 2 % 3 {
        0 => {}
        1 => draft.absent = (1..=MOST_ENTITIES).collect(),
        _ => shape::mark_absent(random, &mut draft),
    }
    let question = any_question(random, &draft);
    asked(turn, question, &draft.bytes())
}

/// No credential gives anything: there is none, or each rests on others.
fn empty_lists(random: &mut Random, turn: usize) -> ListCase {
    let mut draft = shape::sized(random, 0);
    if turn / 2 % 2 == 0 {
        let count = random.between(1, 2 * RECORDS_IN_BLOCK);
        shape::add_records(random, &mut draft, count, &[2, 3, 4]);
    }
    let question = any_question(random, &draft);
    asked(turn, question, &draft.bytes())
}

/// Fewer bytes than a question has, or a question and nothing behind it.
fn short_questions(random: &mut Random, turn: usize) -> ListCase {
    let input = (0..turn / 2 % 3).map(|_| random.pick(&[0, 1, 6, 255]));
    ProgramCase::new(turn % 2, input.collect())
}

/// Numbers drawn by lot, often out of range, before a valid bundle.
fn questions_drawn_by_lot(random: &mut Random, turn: usize) -> ListCase {
    let mut draft = shape::small(random);
    shape::spread_names(random, &mut draft);
    let highest = random.pick(&[8, 8, 34, 256]);
    let mut number = || random.below(highest) as u8;
    let question = Question::about((number(), number(), number()));
    asked(turn, question, &draft.bytes())
}

/// A valid input in which a byte or two are changed, dropped or added. Where
/// the length stays the checks are mostly made right again.
fn changed_bytes(random: &mut Random, turn: usize) -> ListCase {
    let mut draft = shape::small(random);
    shape::mark_absent(random, &mut draft);
    shape::spread_names(random, &mut draft);
    let question = any_question(random, &draft);
    let mut bundle = draft.bytes();
    for _ in 0..random.between(1, 2) {
        change_byte(random, &mut bundle);
    }
    if !random.once_in(4) && bundle.len() % BLOCK == 0 {
        seal_all(&mut bundle);
    }
    asked(turn, question, &bundle)
}

/// Half of the changes are made where block 0 says something, or a record.
fn change_byte(random: &mut Random, bundle: &mut Vec<u8>) {
    let anywhere = random.below(bundle.len());
    let telling = random.pick(&[0, BLOCK]) + random.below(40);
    let place = random.pick(&[anywhere, telling.min(bundle.len() - 1)]);
    match random.below(8) {
        0 => {
            bundle.remove(place);
        }
        1 => bundle.insert(place, random.byte()),
        2 => bundle[place] ^= 1 << random.below(8),
        3 => bundle[place] = random.byte(),
        _ => bundle[place] = random.below(4) as u8,
    }
}

/// Bytes drawn by lot, few enough or too many for a bundle. Once in a few
/// times they stand in whole blocks with right checks, behind a block 0 that
/// is right too.
fn random_bytes(random: &mut Random, turn: usize) -> ListCase {
    let anywhere = random.below(2 * LONGEST_BUNDLE);
    let blocks = random.between(1, 8) * BLOCK;
    let length = random.pick(&[anywhere, blocks, blocks + 1, blocks + 2]);
    let mut input: Vec<u8> = (0..length).map(|_| random.byte()).collect();
    if random.once_in(2) {
        let mut bundle = shape::sized(random, 240).bytes();
        bundle[BLOCK..].fill_with(|| random.byte());
        seal_all(&mut bundle);
        input = [&[1, 1][turn % 2..], &bundle].concat();
    }
    ProgramCase::new(turn % 2, input)
}
