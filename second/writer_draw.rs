//! Cases for the writer, group by group. Turns go through the telling numbers
//! of records, lengths of buffers and ways to be wrong.

use crate::damage::{self, chosen_mistakes, mistaken_record, MISTAKES};
use crate::exchange::FILL_BYTE;
use crate::forge::{self, Ground};
use crate::groups::{group, Group};
use crate::membership::fact;
use crate::random::Random;
use crate::reader::{read_record, Body, BLOCK, LONGEST_BUNDLE, MOST_ENTITIES, RECORD};
use crate::service::Question;
use crate::shape::{self, Draft, Record};
use crate::slip::{bytes_of, Line};
use crate::writer::{length_with, Content};
use crate::writer_exchange::{Addition, Call, WriterCase};
use std::ops::Range;

pub const WRITER_GROUPS: [Group<WriterCase>; 18] = [
    group("written-lists", 6, written_lists),
    group("buffers-too-short", 4, buffers_too_short),
    group("lists-too-long", 3, lists_too_long),
    group("lists-not-in-twelves", 2, lists_not_in_twelves),
    group("wrong-sizes", 2, wrong_sizes),
    group("wrong-marks", 3, wrong_marks),
    group("wrong-records-in-lists", 8, wrong_records_in_lists),
    group("very-long-lists", 1, very_long_lists),
    group("several-faults-of-a-list", 4, several_faults_of_a_list),
    group("appended-records", 8, appended_records),
    group("appends-without-room", 4, appends_without_room),
    group("appends-to-240", 3, appends_to_240),
    group("lengths-and-cut-records", 4, lengths_and_cut_records),
    group("appends-to-damaged-bundles", 12, appends_to_damaged_bundles),
    group("wrong-records-appended", 6, wrong_records_appended),
    group("chains", 3, chains),
    group("slips-around-appends", 5, slips_around_appends),
    group("slips-by-the-new-record", 2, slips_by_the_new_record),
];

/// The places of the groups that write a list.
pub const LISTS: Range<usize> = 0..9;

/// Numbers of records that fit, around the places where a block fills up.
pub const FITTING: [usize; 9] = [0, 1, 39, 40, 41, 80, 200, 239, 240];

/// Numbers of records in a list that is to be refused, too many among them.
const ANY_COUNT: [usize; 10] = [1, 39, 40, 41, 80, 239, 240, 241, 250, 300];

/// A draft with so many records, also with more than a bundle can hold.
pub fn draft_with(random: &mut Random, count: usize) -> Draft {
    let mut draft = shape::sized(random, count);
    while draft.records.len() < count {
        let form = random.number(4);
        let more = shape::random_record(random, &draft, form);
        draft.records.push(more);
    }
    shape::mark_absent(random, &mut draft);
    draft
}

/// What a draft says, as the writer takes it.
pub fn content_of(draft: &Draft) -> Content {
    let mark_of = |entity: u8| match entity {
        _ if entity > draft.entities => 0,
        _ if draft.absent.contains(&entity) => 2,
        _ => 1,
    };
    Content {
        entities: draft.entities,
        names: draft.names,
        marks: (1..=MOST_ENTITIES).map(mark_of).collect(),
        records: draft.records.concat(),
    }
}

/// So many bytes that stand in a buffer before a call: one byte throughout,
/// bytes drawn by lot, or the blocks of some other bundle.
pub fn pattern(random: &mut Random, length: usize) -> Vec<u8> {
    match random.below(6) {
        0 => vec![0; length],
        1 => vec![255; length],
        2 => (0..length).map(|_| random.byte()).collect(),
        3 => {
            let other = shape::sized(random, 240).bytes();
            other.into_iter().cycle().take(length).collect()
        }
        _ => vec![FILL_BYTE; length],
    }
}

/// Lengths of a buffer in which a bundle of this length fits.
fn roomy(random: &mut Random, turn: usize, needed: usize) -> usize {
    let anywhere = random.between(needed, needed + 600);
    let lengths = [
        needed,
        needed,
        needed + 1,
        needed + BLOCK - 1,
        needed + BLOCK,
        LONGEST_BUNDLE.max(needed),
        2 * LONGEST_BUNDLE,
        anywhere,
    ];
    lengths[turn % lengths.len()]
}

/// Lengths of a buffer in which it doesn't fit.
fn cramped(random: &mut Random, turn: usize, needed: usize) -> usize {
    let anywhere = random.below(needed);
    let lengths = [
        needed - 1,
        needed - BLOCK,
        needed - BLOCK + 1,
        0,
        511,
        anywhere,
    ];
    lengths[turn % lengths.len()]
}

/// A buffer in which the bundle of a draft stands, and behind it a pattern.
fn buffer_with(random: &mut Random, bundle: &[u8], length: usize) -> Vec<u8> {
    let mut buffer = pattern(random, length.max(bundle.len()));
    buffer[..bundle.len()].copy_from_slice(bundle);
    buffer
}

/// A case that writes a list to a buffer of this length.
fn write_case(random: &mut Random, content: Content, length: usize) -> WriterCase {
    let buffer = pattern(random, length);
    WriterCase::new(buffer, Call::Write(content))
}

/// A case that appends to a bundle in a buffer of this length.
fn append_case(random: &mut Random, bundle: &[u8], length: usize, record: &[u8]) -> WriterCase {
    let buffer = buffer_with(random, bundle, length);
    let addition = Addition {
        length: bundle.len() as u64,
        record: record.to_vec(),
    };
    WriterCase::new(buffer, Call::Append(addition))
}

fn right_record(random: &mut Random, draft: &Draft) -> Record {
    let form = random.number(4);
    shape::random_record(random, draft, form)
}

/// A record with one of the five mistakes or with several, by the turn.
fn wrong_record(random: &mut Random, turn: usize, draft: &Draft) -> Record {
    let mistakes = match turn % 2 {
        0 => vec![MISTAKES[turn / 2 % MISTAKES.len()]],
        _ => chosen_mistakes(turn / 2),
    };
    mistaken_record(random, draft, &mistakes)
}

fn written_lists(random: &mut Random, turn: usize) -> WriterCase {
    let count = match turn % 3 {
        0 => random.below(241),
        _ => FITTING[turn / 3 % FITTING.len()],
    };
    let draft = draft_with(random, count);
    let length = roomy(random, turn / 2, length_with(count));
    write_case(random, content_of(&draft), length)
}

fn buffers_too_short(random: &mut Random, turn: usize) -> WriterCase {
    let count = FITTING[turn % FITTING.len()];
    let draft = draft_with(random, count);
    let length = cramped(random, turn / 2, length_with(count));
    write_case(random, content_of(&draft), length)
}

/// Lists that are right but for their length, in buffers short and long.
fn lists_too_long(random: &mut Random, turn: usize) -> WriterCase {
    let counts = [241, 300, 280, 242, random.between(241, 600)];
    let count = counts[turn % counts.len()];
    let draft = draft_with(random, count);
    let length = random.pick(&[0, 511, LONGEST_BUNDLE, 4_096, 2 * LONGEST_BUNDLE]);
    write_case(random, content_of(&draft), length)
}

fn lists_not_in_twelves(random: &mut Random, turn: usize) -> WriterCase {
    let count = random.pick(&ANY_COUNT);
    let draft = draft_with(random, count);
    let mut content = content_of(&draft);
    cut_list(random, turn, &mut content);
    if random.once_in(3) {
        content.entities = random.pick(&[0, 33]);
    }
    let length = random.pick(&[0, BLOCK, LONGEST_BUNDLE]);
    write_case(random, content, length)
}

/// Takes some bytes from the end of a list, or adds some.
fn cut_list(random: &mut Random, turn: usize, content: &mut Content) {
    let whole = content.records.len();
    let more = random.between(1, RECORD - 1);
    let lengths = [
        whole - 1,
        whole + 1,
        whole - 11,
        whole + 11,
        whole + more,
        more,
    ];
    content.records.resize(lengths[turn % lengths.len()], 1);
}

fn wrong_sizes(random: &mut Random, turn: usize) -> WriterCase {
    let count = random.pick(&ANY_COUNT);
    let draft = draft_with(random, count);
    let mut content = content_of(&draft);
    spoil_sizes(random, turn, &mut content);
    let length = random.pick(&[0, BLOCK, LONGEST_BUNDLE]);
    write_case(random, content, length)
}

/// Puts E or R out of range, or out of step with the marks.
pub fn spoil_sizes(random: &mut Random, turn: usize, content: &mut Content) {
    match turn % 9 {
        0 => content.entities = 0,
        1 => content.entities = 33,
        2 => content.entities = 255,
        3 => content.names = 0,
        4 => content.names = 33,
        5 => content.names = 255,
        6 => content.entities += 1,
        7 => content.entities -= 1,
        _ => {
            content.entities = random.pick(&[0, 33]);
            content.names = random.pick(&[0, 33]);
        }
    }
}

fn wrong_marks(random: &mut Random, turn: usize) -> WriterCase {
    let count = random.pick(&ANY_COUNT);
    let draft = draft_with(random, count);
    let mut content = content_of(&draft);
    spoil_marks(random, turn, &mut content);
    let length = random.pick(&[0, BLOCK, LONGEST_BUNDLE]);
    write_case(random, content, length)
}

/// Changes a mark, or the number of marks.
pub fn spoil_marks(random: &mut Random, turn: usize, content: &mut Content) {
    let last = usize::from(content.entities) - 1;
    let some = random.below(last + 1);
    let above = random.between(last, 31);
    match turn % 13 {
        0 => content.marks[0] = 0,
        1 => content.marks[0] = 3,
        2 => content.marks[last] = 0,
        3 => content.marks[last] = 255,
        4 => content.marks[some] = random.pick(&[0, 3, 128, 255]),
        5 => content.marks[(last + 1).min(31)] = 3,
        6 => content.marks[above] = 255,
        7 => content.marks[31] = 4,
        8 => content.marks.clear(),
        9 => content.marks.truncate(31),
        10 => content.marks.push(0),
        11 => content.marks.extend([1; 32]),
        _ => content.marks.truncate(random.below(32)),
    }
}

/// Lists with wrong records at telling places, also past the 240th.
fn wrong_records_in_lists(random: &mut Random, turn: usize) -> WriterCase {
    let count = ANY_COUNT[turn % ANY_COUNT.len()];
    let mut draft = draft_with(random, count);
    let anywhere = random.between(1, count);
    let places = [1, 40, 41, 240, 241, count, anywhere];
    let place = places[turn / 3 % places.len()].min(count);
    draft.records[place - 1] = wrong_record(random, turn, &draft);
    if random.once_in(3) {
        let other = random.between(1, count);
        let choice = random.below(1_000);
        if other != place {
            draft.records[other - 1] = wrong_record(random, choice, &draft);
        }
    }
    let length = random.pick(&[0, BLOCK, LONGEST_BUNDLE, LONGEST_BUNDLE, 4_096]);
    write_case(random, content_of(&draft), length)
}

/// Lists of many more records than fit, with a wrong one far down or none.
/// Few of them are so long that a place needs more than two bytes.
fn very_long_lists(random: &mut Random, turn: usize) -> WriterCase {
    let count = match turn % 8 {
        3 => random.pick(&[65_537, 70_000]),
        _ => random.between(500, 4_000),
    };
    let mut draft = draft_with(random, count);
    let place = match turn % 8 {
        3 => random.between(65_535, count),
        _ => random.between(1, count),
    };
    if turn % 8 != 7 {
        draft.records[place - 1] = wrong_record(random, turn, &draft);
    }
    write_case(random, content_of(&draft), LONGEST_BUNDLE)
}

/// More than one thing wrong with a list, to show which is found first.
fn several_faults_of_a_list(random: &mut Random, turn: usize) -> WriterCase {
    let count = random.pick(&[40, 41, 240, 241, 300]);
    let mut draft = draft_with(random, count);
    let faults = turn % 31 + 1;
    if faults & 4 != 0 {
        let place = random.between(1, count);
        let choice = random.below(1_000);
        draft.records[place - 1] = wrong_record(random, choice, &draft);
    }
    let mut content = content_of(&draft);
    let way = random.below(1_000);
    if faults & 1 != 0 {
        cut_list(random, way, &mut content);
    }
    if faults & 2 != 0 {
        spoil_marks(random, way, &mut content);
    }
    if faults & 8 != 0 {
        spoil_sizes(random, way, &mut content);
    }
    let short = faults & 16 != 0;
    let length = if short { 3 * BLOCK / 2 } else { LONGEST_BUNDLE };
    write_case(random, content, length)
}

/// Numbers of records from which an append leads into a block, to its end, or
/// into the next block.
const BEFORE_APPEND: [usize; 10] = [0, 1, 38, 39, 40, 41, 79, 80, 200, 239];

fn appended_records(random: &mut Random, turn: usize) -> WriterCase {
    let count = match turn % 3 {
        0 => random.below(240),
        _ => BEFORE_APPEND[turn / 3 % BEFORE_APPEND.len()],
    };
    let draft = draft_with(random, count);
    let record = right_record(random, &draft);
    let length = roomy(random, turn / 2, length_with(count + 1));
    append_case(random, &draft.bytes(), length, &record)
}

/// A new block is needed, and the buffer has no room for it.
fn appends_without_room(random: &mut Random, turn: usize) -> WriterCase {
    let count = turn % 6 * 40;
    let draft = draft_with(random, count);
    let held = length_with(count);
    let anywhere = random.below(BLOCK);
    let more = random.pick(&[0, 1, BLOCK - 1, BLOCK - 1, anywhere]);
    let record = match turn % 5 {
        4 => wrong_record(random, turn / 5, &draft),
        _ => right_record(random, &draft),
    };
    append_case(random, &draft.bytes(), held + more, &record)
}

/// No record can be added to 240; a wrong one is refused for what it is.
fn appends_to_240(random: &mut Random, turn: usize) -> WriterCase {
    let draft = draft_with(random, 240);
    let record = match turn % 2 {
        0 => wrong_record(random, turn / 2, &draft),
        _ => right_record(random, &draft),
    };
    let length = random.pick(&[
        LONGEST_BUNDLE,
        LONGEST_BUNDLE + 1,
        4_096,
        2 * LONGEST_BUNDLE,
    ]);
    append_case(random, &draft.bytes(), length, &record)
}

/// Lengths that no bundle has or that lie beyond the buffer, and records that
/// haven't twelve bytes.
fn lengths_and_cut_records(random: &mut Random, turn: usize) -> WriterCase {
    let count = random.pick(&BEFORE_APPEND);
    let draft = draft_with(random, count);
    let held = length_with(count) as u64;
    let mut record = right_record(random, &draft).to_vec();
    let room = random.pick(&[held as usize, LONGEST_BUNDLE, 2 * LONGEST_BUNDLE]);
    let room_bytes = room as u64;
    let mut case = append_case(random, &draft.bytes(), room, &record);
    let lengths = [
        0,
        1,
        511,
        513,
        held - 1,
        held + 1,
        held + 256,
        3_585,
        4_096,
        room_bytes + 1,
        room_bytes + 512,
        1 << 32 | held,
        u64::MAX,
        1 << 63 | held,
    ];
    let cut_lengths = [0, 1, 11, 13, 24, 268];
    let mut length = held;
    match turn % 3 {
        0 => record.resize(cut_lengths[turn / 3 % cut_lengths.len()], 0),
        _ => length = lengths[turn * 2 / 3 % lengths.len()],
    }
    if turn % 11 == 0 {
        case.buffer[510] ^= 1;
    }
    case.call = Call::Append(Addition { length, record });
    case
}

/// Bundles with each of the reader's own refusals, the record right or wrong.
fn appends_to_damaged_bundles(random: &mut Random, turn: usize) -> WriterCase {
    let count = match turn % 4 {
        0 => 240,
        1 => random.between(1, 12),
        _ => random.between(1, 240),
    };
    let draft = draft_with(random, count);
    let way = turn / 9;
    let bytes = match turn % 9 {
        0 => damage::damage_length(random, way, &draft),
        1 => damage::damage_check(random, way, &draft),
        2 => damage::damage_first_block(random, way, &draft),
        3 => damage::damage_number_of_blocks(random, way, &draft),
        4 => damage::damage_block_end(random, way, &draft),
        5 => damage::damage_record(random, way, &draft),
        6 => damage::damage_records(random, way, &draft),
        7 => damage::damage_edition(random, way, &draft),
        _ => damage::damage_often(random, &draft),
    };
    let record = match random.below(3) {
        0 => wrong_record(random, turn, &draft),
        _ => right_record(random, &draft),
    };
    let more = random.pick(&[0, 1, BLOCK, 2 * BLOCK]);
    append_case(random, &bytes, bytes.len() + more, &record)
}

fn wrong_records_appended(random: &mut Random, turn: usize) -> WriterCase {
    let count = match turn % 3 {
        0 => random.below(240),
        _ => BEFORE_APPEND[turn / 3 % BEFORE_APPEND.len()],
    };
    let draft = draft_with(random, count);
    let record = wrong_record(random, turn, &draft);
    let more = random.pick(&[0, 0, BLOCK - 1, BLOCK, 2 * BLOCK]);
    append_case(random, &draft.bytes(), length_with(count) + more, &record)
}

/// Chains of appends: all 240 from the empty bundle, shorter ones from a
/// bundle that has some records, and such as end with a refusal.
fn chains(random: &mut Random, turn: usize) -> WriterCase {
    let count = match turn % 6 {
        0 => 240,
        1 => 241,
        2 => random.between(1, 90),
        _ => random.between(1, 240),
    };
    let mut draft = draft_with(random, count);
    let mut length = roomy(random, turn, length_with(count.min(240)));
    match turn % 6 {
        3 => {
            let place = random.between(1, count);
            draft.records[place - 1] = wrong_record(random, turn / 6, &draft);
        }
        4 => length = cramped(random, turn / 6, length_with(count)),
        _ => {}
    }
    let first = match turn % 6 {
        0..=2 => 0,
        _ => random.below(count),
    };
    let buffer = pattern(random, length);
    WriterCase::new(buffer, Call::Chain(content_of(&draft), first))
}

/// A slip that is checked before and after an append.
fn slip_case(
    random: &mut Random,
    ground: &Ground,
    question: Question,
    record: Record,
    slip: Vec<u8>,
) -> WriterCase {
    let needed = length_with((ground.draft.records.len() + 1).min(240));
    let length = random.pick(&[ground.bytes.len(), needed, needed + 1, 2 * LONGEST_BUNDLE]);
    let buffer = buffer_with(random, &ground.bytes, length);
    let addition = Addition {
        length: ground.bytes.len() as u64,
        record: record.to_vec(),
    };
    WriterCase::new(buffer, Call::Slip(question, addition, slip))
}

/// Slips that are right before an append, and have to be so after it, and
/// slips that are wrong. Once in a few times the append is refused.
fn slips_around_appends(random: &mut Random, turn: usize) -> WriterCase {
    let ground = Ground::draw(random);
    let slip = match turn % 5 {
        3 => {
            let lines = ground.lines(random);
            forge::change_premises(random, turn / 5, lines)
        }
        4 => {
            let whole = ground.slip(random);
            forge::cut(random, turn / 5, whole)
        }
        _ => ground.slip(random),
    };
    let record = match random.below(5) {
        0 => wrong_record(random, turn, &ground.draft),
        _ => right_record(random, &ground.draft),
    };
    slip_case(random, &ground, Question::about(ground.goal), record, slip)
}

/// A slip whose one line rests on the record that is appended: wrong before,
/// as there is no such credential, and right after.
fn slips_by_the_new_record(random: &mut Random, _turn: usize) -> WriterCase {
    let ground = Ground::draw(random);
    let record = shape::random_record(random, &ground.draft, 1);
    let credential = read_record(&record);
    let Body::Member(member) = credential.body else {
        unreachable!("a record of form 1 names a member");
    };
    let line = Line {
        member,
        credential: (ground.draft.records.len() + 1) as u8,
        premises: [0; 3],
    };
    let question = Question::about(fact(credential.head, member));
    slip_case(random, &ground, question, record, bytes_of(&[line]))
}
