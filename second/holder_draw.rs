//! Cases for the holders of a record, group by group: right sheets over valid
//! bundles, and then what is wrong with the sheet, the bundle or the record's
//! number, one or several of them.

use crate::draw;
use crate::groups::{group, Group};
use crate::holder_exchange::HolderCase;
use crate::house;
use crate::random::Random;
use crate::reader::{read_record, Role, BLOCK, MOST_ENTITIES, MOST_NAMES};
use crate::shape::{
    self, contained_record, intersection_record, linked_record, member_record, random_record,
    Draft, Record,
};
use crate::sheet::read_sheet;
use crate::sheet_draw::{
    change_sheet, damage_sheet, random_sheet, sheet_of, some_codes, some_sheet, MOST_CODES,
};
use crate::storage::structurally_well_typed;
use std::ops::Range;

pub const HOLDER_GROUPS: [Group<HolderCase>; 11] = [
    group("every-code-on-every-form", 10, every_code_on_every_form),
    group("valid-bundles", 6, valid_bundles),
    group("well-typed-bundles", 6, well_typed_bundles),
    group("one-code-changed", 6, one_code_changed),
    group("small-house", 2, small_house),
    group("wrong-sheets", 12, wrong_sheets),
    group("changed-sheets", 4, changed_sheets),
    group("random-sheets", 1, random_sheets),
    group("damaged-bundles", 12, damaged_bundles),
    group("records-out-of-range", 3, records_out_of_range),
    group("several-faults", 4, several_faults),
];

/// The places of the groups in which nothing is wrong, of those with a wrong
/// sheet, and of those with a damaged bundle.
pub const RIGHT: Range<usize> = 0..5;
pub const WRONG_SHEETS: Range<usize> = 5..8;
pub const DAMAGED_BUNDLES: Range<usize> = 8..9;

/// A case over a draft, for one of its records where it has any.
fn about_some_record(random: &mut Random, draft: &Draft, sheet: Vec<u8>) -> HolderCase {
    let records = draft.records.len().max(1);
    let record = random.between(1, records) as u8;
    HolderCase::new(draft.bytes(), sheet, record)
}

/// A draft over so many names, with a few records of every form.
fn mixed(random: &mut Random, names: u8) -> Draft {
    let mut draft = Draft::new(random.number(MOST_ENTITIES), names);
    let count = random.between(1, 60);
    shape::add_records(random, &mut draft, count, &[1, 2, 3, 4]);
    draft
}

/// The six codes stand on up to 32 names in an order drawn by lot. The turn
/// says the form, the code of the head and two codes of the body; it goes
/// through the 216 choices in steps of 37, so that few turns are well spread.
/// A third part has any code.
fn every_code_on_every_form(random: &mut Random, turn: usize) -> HolderCase {
    let count = random.pick(&[MOST_CODES, 16, 17, MOST_NAMES]);
    let mut codes: Vec<u8> = (0..count).map(|name| name % MOST_CODES + 1).collect();
    random.shuffle(&mut codes);
    let mut draft = Draft::new(random.number(MOST_ENTITIES), count);
    let choice = turn / 5 * 37 % 216;
    let turns = [choice, choice / 6, choice / 36, random.below(6)];
    let names = turns.map(|turn| {
        let with_code = (1..=count).zip(&codes);
        let with_code = with_code.filter(|(_, code)| usize::from(**code) == turn % 6 + 1);
        random.pick(&with_code.map(|(name, _)| name).collect::<Vec<u8>>())
    });
    let asked = record_over(random, &draft, turn % 5, names);
    let others = random.below(3);
    shape::add_records(random, &mut draft, others, &[1, 2, 3, 4]);
    let place = random.below(others + 1);
    draft.records.insert(place, asked);
    HolderCase::new(draft.bytes(), sheet_of(&codes), place as u8 + 1)
}

/// A record with these names: 0 to 2 are the forms 1 to 3, 3 and 4 are
/// intersections with two and three parts.
fn record_over(random: &mut Random, draft: &Draft, shape: usize, names: [u8; 4]) -> Record {
    let roles = names.map(|name| Role::new(random.number(draft.entities), name));
    let [head, first, second, _] = roles;
    match shape {
        0 => member_record(head, first.entity),
        1 => contained_record(head, first),
        2 => linked_record(head, first.name, second.name),
        3 => intersection_record(head, &roles[1..3]),
        _ => intersection_record(head, &roles[1..]),
    }
}

fn valid_bundles(random: &mut Random, _turn: usize) -> HolderCase {
    let bundle = draw::drawn_from(random, draw::VALID_BUNDLES).bundle;
    let sheet = some_sheet(random, bundle[2]);
    let records = usize::from(bundle[3]).max(1);
    let record = random.between(1, records) as u8;
    HolderCase::new(bundle, sheet, record)
}

/// A draft whose records are drawn again until they are well typed, as far as
/// that comes within a few draws.
fn well_typed(random: &mut Random, codes: &[u8]) -> Draft {
    let names = codes.len() as u8;
    let sheet = read_sheet(names, &sheet_of(codes)).expect("the codes are right");
    let mut draft = Draft::new(random.number(MOST_ENTITIES), names);
    for _ in 0..random.between(1, 50) {
        let form = random.number(4);
        let mut draws = (0..40).map(|_| random_record(random, &draft, form));
        let found = draws.find(|record| structurally_well_typed(&sheet, &read_record(record)));
        draft.records.extend(found);
    }
    draft
}

fn well_typed_bundles(random: &mut Random, _turn: usize) -> HolderCase {
    let names = random.number(MOST_NAMES);
    let codes = some_codes(random, names);
    let draft = well_typed(random, &codes);
    about_some_record(random, &draft, sheet_of(&codes))
}

/// Well typed records, under a sheet in which one name has another code.
fn one_code_changed(random: &mut Random, turn: usize) -> HolderCase {
    let most = random.pick(&[6, 6, MOST_NAMES]);
    let names = random.number(most);
    let mut codes = some_codes(random, names);
    let draft = well_typed(random, &codes);
    codes[random.below(usize::from(names))] = turn as u8 % MOST_CODES + 1;
    about_some_record(random, &draft, sheet_of(&codes))
}

/// The small house under the assignment that makes all its records well typed,
/// and with the code of one name changed.
fn small_house(random: &mut Random, turn: usize) -> HolderCase {
    let mut codes = house::CODES;
    codes[turn / 6 % 6] = turn as u8 % MOST_CODES + 1;
    about_some_record(random, &house::house(&[]), sheet_of(&codes))
}

fn wrong_sheets(random: &mut Random, turn: usize) -> HolderCase {
    let names = random.pick(&[1, 2, 6, 15, 16, 17, MOST_NAMES - 1, MOST_NAMES]);
    let draft = mixed(random, names);
    let codes = some_codes(random, names);
    let sheet = damage_sheet(random, turn, &codes);
    about_some_record(random, &draft, sheet)
}

fn changed_sheets(random: &mut Random, _turn: usize) -> HolderCase {
    let names = random.number(MOST_NAMES);
    let draft = mixed(random, names);
    let codes = some_codes(random, names);
    let sheet = change_sheet(random, &codes);
    about_some_record(random, &draft, sheet)
}

/// Bytes drawn by lot, or a block of the bundle itself.
fn random_sheets(random: &mut Random, turn: usize) -> HolderCase {
    let names = random.number(MOST_NAMES);
    let draft = mixed(random, names);
    let sheet = match turn % 3 {
        0 => draft.bytes()[..BLOCK].to_vec(),
        1 => draft.bytes()[BLOCK..2 * BLOCK].to_vec(),
        _ => random_sheet(random),
    };
    about_some_record(random, &draft, sheet)
}

/// Damaged bundles, with the sheet that would fit.
fn damaged_bundles(random: &mut Random, _turn: usize) -> HolderCase {
    let bundle = draw::drawn_from(random, draw::DAMAGED_BUNDLES).bundle;
    let names = bundle.get(2).copied().unwrap_or(1);
    let sheet = some_sheet(random, names.clamp(1, MOST_NAMES));
    HolderCase::new(bundle, sheet, random.number(40))
}

fn records_out_of_range(random: &mut Random, turn: usize) -> HolderCase {
    let names = random.number(MOST_NAMES);
    let draft = mixed(random, names);
    let sheet = some_sheet(random, names);
    let mut case = about_some_record(random, &draft, sheet);
    let records = draft.records.len() as u8;
    case.record = [0, records + 1, records, 255, records + 2][turn % 5];
    case
}

/// A damaged bundle, a wrong sheet and a record out of range, each of them or
/// not, to show which is found first.
fn several_faults(random: &mut Random, turn: usize) -> HolderCase {
    let mut case = match turn % 2 {
        0 => wrong_sheets(random, turn / 2),
        _ => records_out_of_range(random, turn / 2),
    };
    if random.once_in(2) {
        case.bundle = damaged_bundles(random, turn).bundle;
    }
    if random.once_in(2) {
        case.record = random.pick(&[0, 1, 255]);
    }
    case
}
