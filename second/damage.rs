//! Damaged bundles: one function for each of the refusals 1 to 5, one for the
//! edition, and two for wrong records, with one mistake or with several.
//!
//! A function gets a turn number and goes through its list of damages by it,
//! so that enough turns try every one. Whether the outcome is refused at all
//! is not decided here: the reader says what is expected of each case.

use crate::edition::{edition_of, NAMES_OF_EDITION_1};
use crate::house::one;
use crate::mistake::{
    BYTE_NOT_ZERO, ENTITY_OUT_OF_RANGE, LAYOUTS, NAME_OUT_OF_RANGE, NUMBER_OF_PARTS, UNKNOWN_FORM,
};
use crate::random::Random;
use crate::reader::{
    record_start, BLOCK, BLOCK_NUMBER_PLACE, CHECK_MODULUS, CHECK_PLACE, LONGEST_BUNDLE,
    MOST_ENTITIES, MOST_NAMES, RECORD, RECORDS_END, RECORDS_IN_BLOCK, RECORD_COUNT_PLACE,
};
use crate::shape::{
    random_intersection, random_record, random_role, record_block, seal, seal_all, sized, Draft,
    Record,
};

/// Gives damaged blocks right checks, so that the damage itself has to be
/// found. Once in a few times the checks are left as they were.
fn seal_mostly(random: &mut Random, bytes: &mut [u8]) {
    if !random.once_in(6) {
        seal_all(bytes);
    }
}

/// A bundle of another length.
pub fn damage_length(random: &mut Random, turn: usize, draft: &Draft) -> Vec<u8> {
    let mut bytes = draft.bytes();
    let whole = bytes.len();
    let lengths = [
        0,
        1,
        511,
        513,
        LONGEST_BUNDLE + BLOCK,
        LONGEST_BUNDLE - 1,
        LONGEST_BUNDLE + 1,
        whole - 1,
        whole + 1,
        whole + BLOCK / 2,
        1_023,
        8 * LONGEST_BUNDLE,
        65_536,
    ];
    match lengths.get(turn % (lengths.len() + 1)) {
        Some(length) => {
            bytes.resize(*length, 0);
            seal_all(&mut bytes);
            bytes
        }
        None => eight_blocks(random),
    }
}

/// A bundle that would be right if 241 and more records were allowed.
fn eight_blocks(random: &mut Random) -> Vec<u8> {
    let mut draft = sized(random, 240);
    for _ in 0..random.between(1, 15) {
        let new_record = random_record(random, &draft, 1);
        draft.records.push(new_record);
    }
    draft.bytes()
}

/// A bundle with wrong checks in the blocks that the turn names.
pub fn damage_check(random: &mut Random, turn: usize, draft: &Draft) -> Vec<u8> {
    if random.once_in(12) {
        return check_not_reduced();
    }
    let mut bytes = draft.bytes();
    for block in chosen_blocks(turn, bytes.len() / BLOCK) {
        damage_block(random, &mut bytes, block * BLOCK);
    }
    bytes
}

/// Of so many blocks, those that the turn names: one alone in every other
/// turn, and in the others each choice of at least one of them, few and many
/// mixed.
fn chosen_blocks(turn: usize, blocks: usize) -> Vec<usize> {
    let choice = match turn % 2 {
        0 => 1 << (turn / 2 % blocks),
        _ => turn / 2 * 37 % ((1 << blocks) - 1) + 1,
    };
    (0..blocks)
        .filter(|block| choice >> block & 1 == 1)
        .collect()
}

/// Makes the check of the block that starts here differ, in one of six ways.
fn damage_block(random: &mut Random, bytes: &mut [u8], start: usize) {
    let low = start + CHECK_PLACE;
    match random.below(6) {
        0 => bytes[low] ^= 1 << random.below(8),
        1 => bytes[low + 1] ^= 1 << random.below(8),
        2 => change_byte(random, bytes, start),
        3 => bytes.swap(low, low + 1),
        4 => bytes[start..start + BLOCK].fill(0),
        _ => bytes[low..low + 2].fill(0),
    }
}

/// Changes one byte before the check of the block that starts here.
fn change_byte(random: &mut Random, bytes: &mut [u8], start: usize) {
    let place = start + random.below(CHECK_PLACE);
    bytes[place] = bytes[place].wrapping_add(random.number(255));
}

/// A block whose check is right but for one modulus too many.
fn check_not_reduced() -> Vec<u8> {
    let mut bytes = one(&[]).bytes();
    let check = u64::from(bytes[CHECK_PLACE]) + CHECK_MODULUS;
    bytes[CHECK_PLACE..].copy_from_slice(&(check as u16).to_le_bytes());
    bytes
}

/// A bundle whose block 0 breaks its layout in one byte.
pub fn damage_first_block(random: &mut Random, turn: usize, draft: &Draft) -> Vec<u8> {
    let mut bytes = draft.bytes();
    let ways = first_block_ways(random, draft);
    let (place, value) = ways[turn % ways.len()];
    bytes[place] = value;
    seal_mostly(random, &mut bytes);
    bytes
}

/// Places and values that break the layout of block 0.
fn first_block_ways(random: &mut Random, draft: &Draft) -> Vec<(usize, u8)> {
    let Draft {
        entities, names, ..
    } = *draft;
    let last_mark = 3 + usize::from(entities);
    let some_mark = 3 + usize::from(random.number(entities));
    let mut ways = vec![
        (1, entities - 1),
        (1, entities + 1),
        (last_mark, 0),
        (last_mark, 3),
        (last_mark + 1, 1),
        (last_mark + 1, 2),
        (some_mark, 0),
        (some_mark, 3),
        (some_mark, 255),
    ];
    ways.extend([(0, 0), (0, other_edition(names)), (0, 3), (0, 255)]);
    ways.extend([(1, 0), (1, 33), (1, 255)]);
    ways.extend([(2, 0), (2, names_across(random, names)), (2, 33), (2, 255)]);
    ways.extend([(3, 241), (3, 242), (3, 255)]);
    ways.extend([4, 35, 36, 37, 38, 300, 508, 509].map(|place| (place, 3)));
    if entities < MOST_ENTITIES {
        ways.push((random.between(last_mark + 1, 35), 1));
    }
    ways.push((random.between(36, 509), random.number(255)));
    ways
}

/// The edition that so many names don't have.
fn other_edition(names: u8) -> u8 {
    3 - edition_of(names)
}

/// A number of names, at times the nearest, whose edition is the other one.
fn names_across(random: &mut Random, names: u8) -> u8 {
    let few = random.number(NAMES_OF_EDITION_1);
    let many = NAMES_OF_EDITION_1 + random.number(MOST_NAMES - NAMES_OF_EDITION_1);
    match edition_of(names) {
        1 => random.pick(&[NAMES_OF_EDITION_1 + 1, MOST_NAMES, many]),
        _ => random.pick(&[NAMES_OF_EDITION_1, 1, few]),
    }
}

/// A bundle with another edition than its number of names has, with another
/// number of names than its edition allows, or with both, so that they fit
/// again.
pub fn damage_edition(random: &mut Random, turn: usize, draft: &Draft) -> Vec<u8> {
    let mut bytes = draft.bytes();
    let other = other_edition(draft.names);
    let across = names_across(random, draft.names);
    match turn % 8 {
        0..=2 => bytes[0] = other,
        3 | 4 => bytes[2] = across,
        5 => bytes[..3].copy_from_slice(&[other, draft.entities, across]),
        6 => bytes[0] = random.pick(&[0, 3, 255]),
        _ => bytes[0] = random.byte(),
    }
    seal_mostly(random, &mut bytes);
    bytes
}

/// A bundle whose number of blocks doesn't fit its number of records.
pub fn damage_number_of_blocks(random: &mut Random, turn: usize, draft: &Draft) -> Vec<u8> {
    let mut bytes = draft.bytes();
    let blocks = bytes.len() / BLOCK;
    match turn % 7 {
        0 => bytes.truncate(BLOCK * (blocks - 1).max(1)),
        1 => bytes.truncate(BLOCK),
        2 => bytes.extend(record_block(blocks, &[])),
        3 => bytes.extend_from_within((blocks - 1) * BLOCK..),
        4 => bytes[3] = 0,
        5 => bytes[3] = (RECORDS_IN_BLOCK * (blocks - 1) + 1).min(240) as u8,
        _ => bytes[3] = random.number(240),
    }
    seal_mostly(random, &mut bytes);
    bytes
}

/// A bundle with a wrong byte after the records of a record block.
pub fn damage_block_end(random: &mut Random, turn: usize, draft: &Draft) -> Vec<u8> {
    let mut bytes = draft.bytes();
    let record_blocks = bytes.len() / BLOCK - 1;
    if record_blocks == 0 {
        return bytes;
    }
    let number = 1 + turn % record_blocks;
    let start = number * BLOCK;
    match turn / 3 % 6 {
        0 => bytes[start + random.between(RECORDS_END, 507)] = random.number(255),
        1 => bytes[start + random.pick(&[RECORDS_END, 481, 506, 507])] = 1,
        2 => {
            let value = random.pick(&[0, number as u8 + 1, number as u8 - 1, 255]);
            bytes[start + BLOCK_NUMBER_PLACE] = value;
        }
        3 => {
            let count = bytes[start + RECORD_COUNT_PLACE];
            let value = random.pick(&[0, count - 1, count + 1, 39, 40, 41, 255]);
            bytes[start + RECORD_COUNT_PLACE] = value;
        }
        4 => fill_unused_place(random, &mut bytes, draft.records.len()),
        _ => change_count_or_order(random, &mut bytes),
    }
    if random.once_in(4) {
        let other = random.between(1, record_blocks) * BLOCK;
        bytes[other + random.between(RECORDS_END, RECORD_COUNT_PLACE)] ^= 1;
    }
    seal_mostly(random, &mut bytes);
    bytes
}

/// Writes into an unused record place of the last block, if it has one.
fn fill_unused_place(random: &mut Random, bytes: &mut [u8], records: usize) {
    let used = record_start(records) + RECORD;
    let last_start = bytes.len() - BLOCK;
    let end = last_start + RECORDS_END;
    if used < end {
        let somewhere = random.between(used, end - 1);
        let place = random.pick(&[used, end - 1, somewhere]);
        bytes[place] = random.number(4);
    }
}

/// Says one record more or less in block 0, or exchanges two record blocks.
fn change_count_or_order(random: &mut Random, bytes: &mut [u8]) {
    let blocks = bytes.len() / BLOCK;
    match random.below(3) {
        0 => bytes[3] -= 1,
        1 => bytes[3] += u8::from(bytes[3] < 240),
        _ => {
            let (before, last) = bytes.split_at_mut((blocks - 1) * BLOCK);
            let other = random.below(blocks - 1).max(1) * BLOCK;
            if other + BLOCK <= before.len() {
                before[other..other + BLOCK].swap_with_slice(last);
            }
        }
    }
}

/// A way to spoil a record: one byte of a right record changed, an
/// intersection with a number of parts that isn't allowed, or all zeros.
#[derive(Clone, Copy)]
enum Way {
    Byte {
        layout: usize,
        place: usize,
        value: u8,
    },
    Parts(usize),
    Zeros,
}

/// Every way tried. Only the form of another record may leave it right.
fn record_ways(entities: u8, names: u8) -> Vec<Way> {
    let mut ways = vec![Way::Parts(0), Way::Parts(1), Way::Parts(4), Way::Zeros];
    for (layout, (form, bytes)) in LAYOUTS.iter().enumerate() {
        let mut add = |place: usize, values: &[u8]| {
            ways.extend(values.iter().map(|value| Way::Byte {
                layout,
                place,
                value: *value,
            }));
        };
        for (place, holds) in bytes.chars().enumerate() {
            match holds {
                'f' => add(place, &[0, 5, form % 4 + 1]),
                'e' => add(place, &[0, entities + 1]),
                'n' => add(place, &[0, names + 1]),
                'c' => add(place, &[0, 1, 4, if layout == 3 { 3 } else { 2 }]),
                _ => add(place, &[1]),
            }
        }
    }
    ways
}

/// A bundle with a wrong record: first, in the middle, or last. Once in a few
/// times another record somewhere is wrong too.
pub fn damage_record(random: &mut Random, turn: usize, draft: &Draft) -> Vec<u8> {
    let mut damaged = draft.clone();
    let ways = record_ways(draft.entities, draft.names);
    let count = draft.records.len();
    let number = match turn / ways.len() % 3 {
        0 => 1,
        1 => count.div_ceil(2),
        _ => count,
    };
    spoil_record(random, &mut damaged, number, ways[turn % ways.len()]);
    if random.once_in(4) {
        let other = random.between(1, count);
        let way = random.pick(&ways);
        spoil_record(random, &mut damaged, other, way);
    }
    let mut bytes = damaged.bytes();
    if random.once_in(8) {
        let sound = draft.bytes();
        restore_check(&mut bytes, &sound, number);
    }
    bytes
}

/// Puts a new record in this place and spoils it.
fn spoil_record(random: &mut Random, draft: &mut Draft, number: usize, way: Way) {
    let head = random_role(random, draft);
    draft.records[number - 1] = match way {
        Way::Byte {
            layout,
            place,
            value,
        } => {
            let mut record = record_in_layout(random, draft, layout);
            let too_high = value > 5 && random.once_in(4);
            record[place] = if too_high { 255 } else { value };
            record
        }
        Way::Parts(count) => random_intersection(random, draft, head, count),
        Way::Zeros => [0; RECORD],
    };
}

/// A right record in the layout of this place in the list of layouts.
fn record_in_layout(random: &mut Random, draft: &Draft, layout: usize) -> Record {
    let head = random_role(random, draft);
    match LAYOUTS[layout].0 {
        4 => random_intersection(random, draft, head, layout - 1),
        form => random_record(random, draft, form),
    }
}

/// The five mistakes that a record can have.
pub const MISTAKES: [u8; 5] = [
    UNKNOWN_FORM,
    NUMBER_OF_PARTS,
    ENTITY_OUT_OF_RANGE,
    NAME_OUT_OF_RANGE,
    BYTE_NOT_ZERO,
];

/// How many choices of at least one of the five mistakes there are.
pub const CHOICES_OF_MISTAKES: usize = 31;

/// The mistakes of a choice: those whose bit is set in 1 plus the choice.
pub fn chosen_mistakes(choice: usize) -> Vec<u8> {
    let bits = choice % CHOICES_OF_MISTAKES + 1;
    let mistakes = MISTAKES.iter().enumerate();
    mistakes
        .filter(|(bit, _)| bits >> bit & 1 == 1)
        .map(|(_, number)| *number)
        .collect()
}

/// A record with all of these mistakes, drawn by lot: a right record, and for
/// each mistake a byte in which it can be made. A number of parts can only be
/// wrong in an intersection.
pub fn mistaken_record(random: &mut Random, draft: &Draft, mistakes: &[u8]) -> Record {
    let parts_wrong = mistakes.contains(&NUMBER_OF_PARTS);
    let layout = random.between(if parts_wrong { 3 } else { 0 }, 4);
    let mut record = record_in_layout(random, draft, layout);
    for number in mistakes {
        let (holds, values) = match *number {
            UNKNOWN_FORM => ('f', [0, 5, 6, 255]),
            NUMBER_OF_PARTS => ('c', [0, 1, 4, 255]),
            ENTITY_OUT_OF_RANGE => ('e', [0, draft.entities + 1, 128, 255]),
            NAME_OUT_OF_RANGE => ('n', [0, draft.names + 1, 128, 255]),
            _ => ('z', [1, 2, 128, 255]),
        };
        let places: Vec<usize> = LAYOUTS[layout]
            .1
            .match_indices(holds)
            .map(|(place, _)| place)
            .collect();
        record[random.pick(&places)] = random.pick(&values);
    }
    record
}

/// A bundle with a record that has the mistakes of the turn: first, last of a
/// block, first of the next, last of all or anywhere. Half of the time another
/// record, lower or higher, has mistakes of its own.
pub fn damage_records(random: &mut Random, turn: usize, draft: &Draft) -> Vec<u8> {
    let mut damaged = draft.clone();
    let count = draft.records.len();
    let anywhere = random.between(1, count);
    let places = [1, 40, 41, count, anywhere];
    let number = places[turn / CHOICES_OF_MISTAKES % places.len()].min(count);
    damaged.records[number - 1] = mistaken_record(random, draft, &chosen_mistakes(turn));
    if random.once_in(2) {
        let other = random.between(1, count);
        let choice = random.below(CHOICES_OF_MISTAKES);
        if other != number {
            damaged.records[other - 1] = mistaken_record(random, draft, &chosen_mistakes(choice));
        }
    }
    damaged.bytes()
}

/// Leaves the check of a record's block as it was before the damage.
fn restore_check(bytes: &mut [u8], sound: &[u8], number: usize) {
    let block = record_start(number) / BLOCK;
    let check = block * BLOCK + CHECK_PLACE;
    bytes[check..check + 2].copy_from_slice(&sound[check..check + 2]);
}

/// Any one of the damages above.
pub fn damage_somehow(random: &mut Random, draft: &Draft) -> Vec<u8> {
    let turn = random.below(10_000);
    match random.below(8) {
        0 => damage_length(random, turn, draft),
        1 => damage_check(random, turn, draft),
        2 => damage_first_block(random, turn, draft),
        3 => damage_number_of_blocks(random, turn, draft),
        4 => damage_block_end(random, turn, draft),
        5 => damage_record(random, turn, draft),
        6 => damage_edition(random, turn, draft),
        _ => damage_records(random, turn, draft),
    }
}

/// Two or three bytes wrong in different blocks, checks right or partly so.
pub fn damage_often(random: &mut Random, draft: &Draft) -> Vec<u8> {
    let mut bytes = draft.bytes();
    for _ in 0..random.between(2, 3) {
        let place = random.below(bytes.len());
        bytes[place] = random.byte();
    }
    match random.below(4) {
        0 => {}
        1 => seal(&mut bytes, 0),
        _ => seal_all(&mut bytes),
    }
    bytes
}
