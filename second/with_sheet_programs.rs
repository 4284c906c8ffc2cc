//! Inputs for the program that answers a question with a sheet, group by
//! group: a question, a sheet and a bundle as one run of bytes.

use crate::groups::{draw_case, group, Group};
use crate::house::{self, house};
use crate::program::{Program, ASK_WITH_SHEET};
use crate::program_exchange::{ProgramCase, ProgramSet};
use crate::random::Random;
use crate::reader::{BLOCK, LONGEST_BUNDLE};
use crate::shape;
use crate::sheet_draw::sheet_of;
use crate::with_sheet_draw::{RIGHT, SHEET_GROUPS};
use crate::with_sheet_exchange::SheetCase;
use std::ops::Range;

/// The one program that asks with a sheet.
pub struct Asking;

type AskingCase = ProgramCase<Asking>;

impl ProgramSet for Asking {
    const PROGRAMS: &'static [Program] = &[ASK_WITH_SHEET];
    const GROUPS: &'static [Group<AskingCase>] = &[
        group("right", 10, right),
        group("wrong", 12, wrong),
        group("cut-inputs", 2, cut_inputs),
        group("random-bytes", 1, random_bytes),
    ];

    /// The verdict, and the rounds.
    fn outcome(printed: &[u8]) -> (String, usize) {
        let text = String::from_utf8_lossy(printed);
        let (verdict, rounds) = text.trim_end().split_once(' ').unwrap_or_default();
        (verdict.to_string(), rounds.parse().unwrap_or(0))
    }
}

/// The input that asks what a case asks, and for 1 in 1.1 where the case asks for
/// the tables.
fn reading(case: &SheetCase) -> AskingCase {
    let question = match case.case.question.fact() {
        (0, 0, 0) => [1, 1, 1],
        (entity, name, member) => [member, entity, name],
    };
    let input = [&question, &case.sheet[..], &case.case.bundle].concat();
    ProgramCase::new(0, input)
}

/// A case with a sheet from some groups.
fn of_the_search(random: &mut Random, turn: usize, groups: Range<usize>) -> AskingCase {
    let (_, case) = draw_case(&SHEET_GROUPS[groups], random.next(), turn);
    reading(&case)
}

fn right(random: &mut Random, turn: usize) -> AskingCase {
    of_the_search(random, turn, RIGHT)
}

fn wrong(random: &mut Random, turn: usize) -> AskingCase {
    of_the_search(random, turn, RIGHT.end..SHEET_GROUPS.len())
}

/// A right input that ends in the question, in the sheet or in the bundle, or
/// goes on behind it.
fn cut_inputs(random: &mut Random, turn: usize) -> AskingCase {
    let mut input = vec![house::NINA, house::ARCHIVE, house::SIGNER];
    input.extend(sheet_of(&house::CODES));
    input.extend(house(&[house::TOMAS]).bytes());
    let whole = input.len();
    let lengths = [
        0,
        2,
        3,
        BLOCK + 2,
        BLOCK + 3,
        BLOCK + 4,
        whole - 1,
        whole,
        whole + 1,
        whole + BLOCK,
        BLOCK + LONGEST_BUNDLE + 4,
        random.below(whole),
    ];
    input.resize(lengths[turn % lengths.len()], 0);
    ProgramCase::new(0, input)
}

fn random_bytes(random: &mut Random, turn: usize) -> AskingCase {
    let blocks = random.between(1, 9) * BLOCK;
    let mut input: Vec<u8> = (0..blocks).map(|_| random.byte()).collect();
    if turn % 2 == 0 {
        shape::seal_all(&mut input);
    }
    input.splice(0..0, [1, 1, 1]);
    ProgramCase::new(0, input)
}
