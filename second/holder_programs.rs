//! Inputs for the program that prints the holders of every record, group by
//! group: a sheet and a bundle as one run of bytes, right, wrong in either
//! part, cut, lengthened, and drawn by lot.

use crate::groups::{draw_case, group, Group};
use crate::holder_draw::{DAMAGED_BUNDLES, HOLDER_GROUPS, RIGHT, WRONG_SHEETS};
use crate::holders::HOLDERS;
use crate::house;
use crate::program::Program;
use crate::program_exchange::{ProgramCase, ProgramSet};
use crate::random::Random;
use crate::reader::{BLOCK, LONGEST_BUNDLE, MOST_NAMES};
use crate::shape;
use crate::sheet_draw::{sheet_of, some_sheet};
use std::ops::Range;

/// The one program that prints holders.
pub struct Holding;

type HoldingCase = ProgramCase<Holding>;

impl ProgramSet for Holding {
    const PROGRAMS: &'static [Program] = &[HOLDERS];
    const GROUPS: &'static [Group<HoldingCase>] = &[
        group("right", 16, right),
        group("full-bundles", 2, full_bundles),
        group("bundles-without-records", 1, bundles_without_records),
        group("wrong-sheets", 8, wrong_sheets),
        group("damaged-bundles", 10, damaged_bundles),
        group("cut-inputs", 3, cut_inputs),
        group("random-bytes", 2, random_bytes),
    ];

    /// Which kinds of lines there are, and how many.
    fn outcome(printed: &[u8]) -> (String, usize) {
        let text = String::from_utf8_lossy(printed);
        let has = |word| text.lines().any(|line| line.contains(word));
        let words = match (has("WELL"), has("ILL")) {
            (true, true) => "well and ill",
            (true, false) => "well",
            (false, true) => "ill",
            (false, false) => "nothing",
        };
        (format!("listed {words}"), text.lines().count() - 1)
    }
}

fn reading(sheet: &[u8], bundle: &[u8]) -> HoldingCase {
    ProgramCase::new(0, [sheet, bundle].concat())
}

/// A sheet and a bundle from some groups of the cases for one record.
fn of_one_record(random: &mut Random, turn: usize, groups: Range<usize>) -> HoldingCase {
    let (_, case) = draw_case(&HOLDER_GROUPS[groups], random.next(), turn);
    reading(&case.sheet, &case.bundle)
}

fn right(random: &mut Random, turn: usize) -> HoldingCase {
    of_one_record(random, turn, RIGHT)
}

fn wrong_sheets(random: &mut Random, turn: usize) -> HoldingCase {
    of_one_record(random, turn, WRONG_SHEETS)
}

fn damaged_bundles(random: &mut Random, turn: usize) -> HoldingCase {
    of_one_record(random, turn, DAMAGED_BUNDLES)
}

/// Bundles with a telling number of records, often as many as there can be.
fn full_bundles(random: &mut Random, turn: usize) -> HoldingCase {
    let count = match turn % 2 {
        0 => 240,
        _ => shape::telling_count(random, turn / 2),
    };
    let draft = shape::sized(random, count);
    reading(&some_sheet(random, draft.names), &draft.bytes())
}

fn bundles_without_records(random: &mut Random, _turn: usize) -> HoldingCase {
    let names = random.number(MOST_NAMES);
    let mut draft = shape::sized(random, 0);
    draft.names = names;
    reading(&some_sheet(random, names), &draft.bytes())
}

/// A right input that ends in the sheet, at its end or in the bundle, or goes
/// on behind the bundle.
fn cut_inputs(random: &mut Random, turn: usize) -> HoldingCase {
    let mut input = sheet_of(&house::CODES);
    input.extend(house::house(&[]).bytes());
    let whole = input.len();
    let lengths = [
        0,
        1,
        BLOCK - 1,
        BLOCK,
        BLOCK + 1,
        2 * BLOCK,
        whole - 1,
        whole,
        whole + 1,
        whole + BLOCK,
        BLOCK + LONGEST_BUNDLE,
        BLOCK + LONGEST_BUNDLE + 1,
        random.below(whole),
    ];
    input.resize(lengths[turn % lengths.len()], 0);
    ProgramCase::new(0, input)
}

fn random_bytes(random: &mut Random, turn: usize) -> HoldingCase {
    let anywhere = random.below(2 * LONGEST_BUNDLE);
    let blocks = random.between(1, 9) * BLOCK;
    let length = random.pick(&[anywhere, blocks]);
    let mut input: Vec<u8> = (0..length).map(|_| random.byte()).collect();
    if turn % 2 == 0 && length % BLOCK == 0 {
        shape::seal_all(&mut input);
    }
    ProgramCase::new(0, input)
}
