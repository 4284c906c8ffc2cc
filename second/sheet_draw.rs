//! Sheets, drawn: right ones with several mixtures of codes, and damaged ones.
//!
//! As in `damage.rs`, whether a damaged sheet is refused is not decided here.

use crate::random::Random;
use crate::reader::{BLOCK, CHECK_MODULUS, CHECK_PLACE, MOST_NAMES};
use crate::shape::seal;
use crate::sheet::{SHEET_MARK, SHEET_MARK_PLACE, SHEET_NAMES_PLACE, TYPES};

pub const MOST_CODES: u8 = TYPES.len() as u8;

/// The sheet with these codes, that of name 1 first.
pub fn sheet_of(codes: &[u8]) -> Vec<u8> {
    let mut sheet = codes.to_vec();
    sheet.resize(BLOCK, 0);
    sheet[SHEET_MARK_PLACE] = SHEET_MARK;
    sheet[SHEET_NAMES_PLACE] = codes.len() as u8;
    seal(&mut sheet, 0);
    sheet
}

/// Codes for so many names: from all six, from the well typed ones, from two
/// of them, or one for every name.
pub fn some_codes(random: &mut Random, names: u8) -> Vec<u8> {
    let two = [0; 2].map(|_| random.number(MOST_CODES));
    let choices = random.pick(&[
        &[1, 2, 3, 4, 5, 6][..],
        &[2, 3, 4, 5, 6],
        &[2, 4, 6],
        &[3, 5],
        &[5, 6],
        &two,
        &two[..1],
    ]);
    (0..names).map(|_| random.pick(choices)).collect()
}

/// The right sheet for so many names, with codes drawn by lot.
pub fn some_sheet(random: &mut Random, names: u8) -> Vec<u8> {
    sheet_of(&some_codes(random, names))
}

/// A sheet that breaks a rule, by the turn.
pub fn damage_sheet(random: &mut Random, turn: usize, codes: &[u8]) -> Vec<u8> {
    let way = turn / 6;
    match turn % 6 {
        0 => of_another_length(way, codes),
        1 => with_a_wrong_check(random, way, codes),
        2 => for_other_names(random, way, codes),
        _ => with_a_wrong_byte(random, turn / 6 * 3 + turn % 6 - 3, codes),
    }
}

fn of_another_length(way: usize, codes: &[u8]) -> Vec<u8> {
    const LENGTHS: [usize; 11] = [0, 1, 16, 32, 508, 510, 511, 513, 514, 1_024, 4_096];
    let mut sheet = sheet_of(codes);
    sheet.resize(LENGTHS[way % LENGTHS.len()], 0);
    sheet
}

fn with_a_wrong_check(random: &mut Random, way: usize, codes: &[u8]) -> Vec<u8> {
    let mut sheet = sheet_of(codes);
    match way % 7 {
        0 => sheet[CHECK_PLACE] ^= 1 << random.below(8),
        1 => sheet[CHECK_PLACE + 1] ^= 1 << random.below(8),
        2 => sheet.swap(CHECK_PLACE, CHECK_PLACE + 1),
        3 => sheet.fill(0),
        4 => sheet[CHECK_PLACE..].fill(0),
        5 => sheet[random.below(codes.len())] ^= 3,
        _ => {
            let check = u16::from_le_bytes([sheet[CHECK_PLACE], sheet[CHECK_PLACE + 1]]);
            let check = u64::from(check) + CHECK_MODULUS;
            sheet[CHECK_PLACE..].copy_from_slice(&(check as u16).to_le_bytes());
        }
    }
    sheet
}

/// A right sheet, but for fewer names or for more than the codes are for.
fn for_other_names(random: &mut Random, way: usize, codes: &[u8]) -> Vec<u8> {
    let mut codes = codes.to_vec();
    let others = usize::from(MOST_NAMES) + 1;
    let count = match way % 4 {
        0 => codes.len() - 1,
        1 => codes.len() + 1,
        _ => random.below(others),
    };
    codes.resize_with(count, || random.number(MOST_CODES));
    sheet_of(&codes)
}

/// A sheet with one wrong byte, and mostly the check that fits it.
fn with_a_wrong_byte(random: &mut Random, way: usize, codes: &[u8]) -> Vec<u8> {
    let names = codes.len();
    let some_name = random.below(names);
    let past_names = random.between(names, SHEET_MARK_PLACE - 1);
    let ways = [
        (0, 0),
        (0, 7),
        (names - 1, 0),
        (names - 1, 7),
        (some_name, 0),
        (some_name, 7),
        (some_name, 255),
        (some_name, 8 + random.below(248) as u8),
        (names, 1),
        (names, random.number(MOST_CODES)),
        (past_names, random.number(255)),
        (SHEET_MARK_PLACE - 1, 1),
        (SHEET_MARK_PLACE, 0),
        (SHEET_MARK_PLACE, SHEET_MARK - 1),
        (SHEET_MARK_PLACE, SHEET_MARK + 1),
        (SHEET_MARK_PLACE, random.byte()),
        (SHEET_NAMES_PLACE, 0),
        (SHEET_NAMES_PLACE, names as u8 - 1),
        (SHEET_NAMES_PLACE, names as u8 + 1),
        (SHEET_NAMES_PLACE, random.byte()),
    ];
    let (place, value) = ways[way % ways.len()];
    let mut sheet = sheet_of(codes);
    sheet[place] = value;
    if !random.once_in(8) {
        seal(&mut sheet, 0);
    }
    sheet
}

/// A right sheet in which a byte or two are changed by lot, mostly where it
/// says something. The check is mostly made right again.
pub fn change_sheet(random: &mut Random, codes: &[u8]) -> Vec<u8> {
    let mut sheet = sheet_of(codes);
    for _ in 0..random.between(1, 2) {
        let anywhere = random.below(BLOCK);
        let name = random.below(codes.len() + 1);
        let place = random.pick(&[anywhere, name, SHEET_MARK_PLACE, SHEET_NAMES_PLACE]);
        let [code, any] = [random.below(8) as u8, random.byte()];
        sheet[place] = random.pick(&[code, any]);
    }
    if !random.once_in(4) {
        seal(&mut sheet, 0);
    }
    sheet
}

/// A block of bytes drawn by lot, with a right check.
pub fn random_sheet(random: &mut Random) -> Vec<u8> {
    let mut sheet: Vec<u8> = (0..BLOCK).map(|_| random.byte()).collect();
    seal(&mut sheet, 0);
    sheet
}
