//! Cases for text lines, group by group: texts that are right, flawed in a
//! line, changed in a few bytes, put together from pieces or drawn by lot, and
//! lists of records as the writer of bundles gets them.

use crate::groups::{draw_case, group, Group};
use crate::random::Random;
use crate::reader::{MOST_ENTITIES, MOST_NAMES, RECORD};
use crate::shape::{self, Draft};
use crate::text::{records_of_text, text_of_records};
use crate::text_exchange::TextCase;
use crate::text_flaws::{flawed_line, right_line, FLAWS};
use crate::writer_draw::{draft_with, pattern, FITTING, LISTS, WRITER_GROUPS};
use crate::writer_exchange::Call;
use std::ops::Range;

pub const TEXT_GROUPS: [Group<TextCase>; 13] = [
    group("right-texts", 8, right_texts),
    group("texts-without-room", 4, texts_without_room),
    group("texts-too-long", 4, texts_too_long),
    group("flawed-lines", 16, flawed_lines),
    group("several-flaws", 6, several_flaws),
    group("other-sizes", 4, other_sizes),
    group("wrong-sizes", 2, wrong_sizes),
    group("changed-texts", 12, changed_texts),
    group("texts-of-pieces", 6, texts_of_pieces),
    group("random-texts", 3, random_texts),
    group("right-lists", 8, right_lists),
    group("lists-without-room", 4, lists_without_room),
    group("lists-of-the-writer", 16, lists_of_the_writer),
];

/// The places of the groups that read a text.
pub const READS: Range<usize> = 0..10;

/// So many right lines, each by itself, and the draft they are drawn over.
fn lines_over(random: &mut Random, count: usize) -> (Draft, Vec<Vec<u8>>) {
    let mut draft = shape::sized(random, 0);
    if random.once_in(3) {
        draft.entities = random.pick(&[1, 9, 10, 31, MOST_ENTITIES]);
        draft.names = random.pick(&[1, 9, 10, 16, 17, MOST_NAMES]);
    }
    let mut line = || right_line(random, &draft).into_bytes();
    let lines = (0..count).map(|_| line()).collect();
    (draft, lines)
}

/// A number of lines that fit: one of the telling ones, or any.
fn fitting_count(random: &mut Random, turn: usize) -> usize {
    match turn % 3 {
        0 => random.below(241),
        _ => FITTING[turn / 3 % FITTING.len()],
    }
}

fn sizes(draft: &Draft) -> (u8, u8) {
    (draft.entities, draft.names)
}

/// The length of a buffer in which so many bytes fit.
fn roomy(random: &mut Random, turn: usize, needed: usize) -> usize {
    let more = random.below(600);
    needed + [0, 0, 1, RECORD - 1, RECORD, more][turn % 6]
}

/// The length of a buffer in which they don't, unless there are none.
fn cramped(random: &mut Random, turn: usize, needed: usize) -> usize {
    let anywhere = random.below(needed.max(1));
    let less = [1, 1, RECORD - 1, RECORD, RECORD + 1, needed];
    match turn % 7 {
        6 => anywhere,
        way => needed.saturating_sub(less[way]),
    }
}

/// A case that reads a text. Where the text is right its buffer is long
/// enough, otherwise of any length.
fn read_case(random: &mut Random, sizes: (u8, u8), text: Vec<u8>) -> TextCase {
    let length = match records_of_text(sizes.0, sizes.1, &text) {
        Ok(records) => {
            let turn = random.below(6);
            roomy(random, turn, records.len())
        }
        Err(_) => random.pick(&[0, 1, RECORD, 500, 240 * RECORD, 241 * RECORD]),
    };
    let buffer = pattern(random, length);
    TextCase::read_text(sizes, text, buffer)
}

fn right_texts(random: &mut Random, turn: usize) -> TextCase {
    let count = fitting_count(random, turn);
    let (draft, lines) = lines_over(random, count);
    let length = roomy(random, turn / 2, count * RECORD);
    let buffer = pattern(random, length);
    TextCase::read_text(sizes(&draft), lines.concat(), buffer)
}

fn texts_without_room(random: &mut Random, turn: usize) -> TextCase {
    let count = fitting_count(random, turn).max(1);
    let (draft, lines) = lines_over(random, count);
    let length = cramped(random, turn / 2, count * RECORD);
    let buffer = pattern(random, length);
    TextCase::read_text(sizes(&draft), lines.concat(), buffer)
}

/// Something stands behind 240 lines, whatever it is. Once in a few times one
/// of the 240 is wrong.
fn texts_too_long(random: &mut Random, turn: usize) -> TextCase {
    let (draft, mut lines) = lines_over(random, 240);
    if turn % 5 == 4 {
        let place = random.pick(&[1, 2, 239, 240]);
        lines[place - 1] = flawed_line(random, turn / 5, &draft);
    }
    let more = random.between(1, 300);
    let mut line = || right_line(random, &draft).into_bytes();
    let rest = match turn % 8 {
        0 => line(),
        1 => (0..more).flat_map(|_| line()).collect(),
        2 => b"\n".to_vec(),
        3 => b"e".to_vec(),
        4 => b"\0".to_vec(),
        5 => flawed_line(random, turn / 8, &draft),
        6 => line().split_last().map_or(Vec::new(), |cut| cut.1.to_vec()),
        _ => (0..more).map(|_| random.byte()).collect(),
    };
    lines.push(rest);
    read_case(random, sizes(&draft), lines.concat())
}

/// Each flaw at telling lines in turn, which may be the last of the text.
fn flawed_lines(random: &mut Random, turn: usize) -> TextCase {
    let anywhere = random.between(1, 240);
    let place = [1, 2, 240, 40, anywhere, 241][turn / FLAWS % 6];
    let count = random.pick(&[place, place, place + 1, 240, 241]).max(place);
    let (draft, mut lines) = lines_over(random, count);
    lines[place - 1] = flawed_line(random, turn, &draft);
    read_case(random, sizes(&draft), lines.concat())
}

/// More than one thing wrong, to show which is found first.
fn several_flaws(random: &mut Random, turn: usize) -> TextCase {
    let count = random.pick(&[2, 40, 239, 240, 241, 300]);
    let (draft, mut lines) = lines_over(random, count);
    for _ in 0..turn % 4 {
        let place = random.between(1, count);
        let flaw = random.below(FLAWS);
        lines[place - 1] = flawed_line(random, flaw, &draft);
    }
    let (mut entities, mut names) = sizes(&draft);
    match turn / 4 % 6 {
        0 => entities = random.pick(&[0, MOST_ENTITIES + 1]),
        1 => names = random.pick(&[0, MOST_NAMES + 1]),
        _ => {}
    }
    let length = random.pick(&[0, RECORD, 240 * RECORD - 1, 240 * RECORD]);
    let buffer = pattern(random, length);
    TextCase::read_text((entities, names), lines.concat(), buffer)
}

/// Right lines, read with fewer entities or names, or with more.
fn other_sizes(random: &mut Random, turn: usize) -> TextCase {
    let count = random.pick(&[1, 2, 5, 40, 240]);
    let (draft, lines) = lines_over(random, count);
    let (mut entities, mut names) = sizes(&draft);
    match turn % 4 {
        0 => entities = (entities - 1).max(1),
        1 => names = (names - 1).max(1),
        2 => entities = random.pick(&[1, 9, 10, 11, MOST_ENTITIES]),
        _ => names = random.pick(&[1, 9, 10, 11, 16, 17, 31, MOST_NAMES]),
    }
    read_case(random, (entities, names), lines.concat())
}

/// E or R out of range, the text right, wrong or empty.
fn wrong_sizes(random: &mut Random, turn: usize) -> TextCase {
    let count = random.pick(&[0, 1, 240, 241]);
    let (draft, lines) = lines_over(random, count);
    let wrong_entities = random.pick(&[0, MOST_ENTITIES + 1, 255]);
    let wrong_names = random.pick(&[0, MOST_NAMES + 1, 255]);
    let sizes = match turn % 3 {
        0 => (wrong_entities, draft.names),
        1 => (draft.entities, wrong_names),
        _ => (wrong_entities, wrong_names),
    };
    read_case(random, sizes, lines.concat())
}

/// A right text in which a few bytes are changed.
fn changed_texts(random: &mut Random, turn: usize) -> TextCase {
    let count = match turn % 2 {
        0 => random.between(1, 6),
        _ => fitting_count(random, turn).max(1),
    };
    let (draft, lines) = lines_over(random, count);
    let mut text = lines.concat();
    for _ in 0..random.pick(&[1, 1, 1, 2, 3]) {
        change_text(random, &mut text);
    }
    read_case(random, sizes(&draft), text)
}

/// Changes, drops, doubles, exchanges or adds a byte somewhere.
fn change_text(random: &mut Random, text: &mut Vec<u8>) {
    let last = text.len() - 1;
    let place = random.between(0, last);
    match random.below(7) {
        0 => {
            text.remove(place);
        }
        1 => text.insert(place, random.byte()),
        2 => text.insert(place, text[place]),
        3 => text.swap(place, (place + 1).min(last)),
        4 => text[place] ^= 1 << random.below(8),
        5 => text[place] = random.pick(b"0123456789er.<-& \n"),
        _ => text.truncate(place.max(1)),
    }
}

const PIECES: [&str; 24] = [
    "e",
    "r",
    ".",
    " <- ",
    " & ",
    "\n",
    "e1",
    ".r1",
    "e1.r1",
    "e1.r1 <- ",
    "e2.r1 <- ",
    "e1\n",
    "e1.r1\n",
    "e1.r1.r1\n",
    " & e1.r1",
    " & e1.r1\n",
    "1",
    "2",
    "10",
    "0",
    " ",
    "<-",
    "&",
    "e1.r1 <- e1\n",
];

/// Pieces of lines in any order, behind some right lines or none.
fn texts_of_pieces(random: &mut Random, _turn: usize) -> TextCase {
    let before = random.pick(&[0, 0, 1, 2, 239]);
    let (draft, mut lines) = lines_over(random, before);
    for _ in 0..random.between(1, 12) {
        lines.push(random.pick(&PIECES).into());
    }
    read_case(random, sizes(&draft), lines.concat())
}

/// Bytes drawn by lot, of those that lines are made of or of all.
fn random_texts(random: &mut Random, turn: usize) -> TextCase {
    let length = random.pick(&[1, 12, 40, 600, 10_000]);
    let of_lines = turn % 2 == 0;
    let mut byte = || match of_lines {
        true => random.pick(b"er.<-& 0123456789\n"),
        false => random.byte(),
    };
    let text = (0..length).map(|_| byte()).collect();
    let entities = random.number(MOST_ENTITIES);
    let names = random.number(MOST_NAMES);
    read_case(random, (entities, names), text)
}

/// A case that writes a list, in a buffer that is chosen for its text.
fn write_case(
    random: &mut Random,
    turn: usize,
    (sizes, records): ((u8, u8), Vec<u8>),
    room: fn(&mut Random, usize, usize) -> usize,
) -> TextCase {
    let length = match text_of_records(sizes.0, sizes.1, &records) {
        Ok(text) => room(random, turn, text.len()),
        Err(_) => random.pick(&[0, 40, 10_000]),
    };
    let buffer = pattern(random, length);
    TextCase::write_text(sizes, records, buffer)
}

/// A right list of records.
fn right_list(random: &mut Random, turn: usize) -> ((u8, u8), Vec<u8>) {
    let count = fitting_count(random, turn);
    let draft = draft_with(random, count);
    (sizes(&draft), draft.records.concat())
}

fn right_lists(random: &mut Random, turn: usize) -> TextCase {
    let list = right_list(random, turn);
    write_case(random, turn / 2, list, roomy)
}

fn lists_without_room(random: &mut Random, turn: usize) -> TextCase {
    let list = right_list(random, turn);
    write_case(random, turn / 2, list, cramped)
}

/// Lists that the writer of bundles gets, most of them wrong.
fn lists_of_the_writer(random: &mut Random, turn: usize) -> TextCase {
    let (_, case) = draw_case(&WRITER_GROUPS[LISTS], random.next(), turn);
    let Call::Write(content) = case.call else {
        unreachable!("these groups write lists");
    };
    let sizes = (content.entities, content.names);
    let room = if random.once_in(4) { cramped } else { roomy };
    write_case(random, turn, (sizes, content.records), room)
}
