//! Lines that are wrong: each way in which a line of text can fail to be the
//! line of a valid record.
//!
//! A flaw is made in a right line, at a place drawn by lot. Whether a line is
//! wrong in the end is not decided here: the reader says what is expected.

use crate::random::Random;
use crate::reader::{read_record, Role};
use crate::shape::{random_intersection, random_record, random_role, Draft};
use crate::text::line_of;
use std::ops::Range;

/// A right line over the draft's entities and names, of any form.
pub fn right_line(random: &mut Random, draft: &Draft) -> String {
    let form = random.number(4);
    line_of(&read_record(&random_record(random, draft, form)))
}

/// A right line with an intersection of so many parts, which is right only
/// with two or three.
fn line_of_parts(random: &mut Random, draft: &Draft, count: usize) -> String {
    let head = random_role(random, draft);
    line_of(&read_record(&random_intersection(
        random, draft, head, count,
    )))
}

/// Pieces of a line, and what stands for them in a wrong one.
const EXCHANGES: [(&str, &str); 36] = [
    ("\n", ""),
    ("\n", "\r\n"),
    ("\n", "\r"),
    ("\n", " \n"),
    ("\n", "\n\n"),
    ("\n", ".\n"),
    ("\n", ";\n"),
    ("\n", "\0\n"),
    (" ", ""),
    (" ", "  "),
    (" ", "\t"),
    (" ", "_"),
    (" <- ", "<-"),
    (" <- ", " <-"),
    (" <- ", "<- "),
    (" <- ", " < - "),
    (" <- ", " -> "),
    (" <- ", " & "),
    (" <- ", " <-- "),
    (" <- ", " \u{2190} "),
    (" <- ", " <- <- "),
    (" & ", " <- "),
    (" & ", "&"),
    (" & ", " &"),
    (" & ", " && "),
    (" & ", " & & "),
    (" & ", " \u{2229} "),
    ("e", ""),
    ("e", "E"),
    ("e", "r"),
    ("r", ""),
    ("r", "R"),
    ("r", "e"),
    (".", ""),
    (".", ".."),
    (".", ","),
];

/// What may stand in a number's place: a leading zero, zero, a sign, other
/// ways to write numbers, and numbers that are too large or that would be the
/// same after an overflow.
const NUMBER_WAYS: usize = 16;

fn spoiled_number(random: &mut Random, way: usize, draft: &Draft, digits: &str) -> String {
    let number: u128 = digits.parse().unwrap_or(1);
    match way % NUMBER_WAYS {
        0 => format!("0{number}"),
        1 => format!("{}{number}", "0".repeat(random.between(2, 400))),
        2 => "0".to_string(),
        3 => "00".to_string(),
        4 => String::new(),
        5 => format!("+{number}"),
        6 => format!("-{number}"),
        7 => format!("{number}."),
        8 => format!("0x{number:x}"),
        9 => format!("{}", draft.entities + 1),
        10 => format!("{}", draft.names + 1),
        11 => format!("{}", random.pick(&[17, 32, 33, 99, 100, 255, 256])),
        12 => format!("{}", number + (1 << random.pick(&[8, 16, 31, 32, 63, 64]))),
        13 => format!("{number}{}", "0".repeat(random.between(1, 400))),
        14 => (0..random.between(3, 400))
            .map(|_| random.pick(&['1', '7', '9', '0']))
            .collect(),
        _ => format!("{number} "),
    }
}

/// Flaws that are no exchange of a piece or a number.
const OTHER_WAYS: usize = 14;

fn other_flaw(random: &mut Random, way: usize, draft: &Draft) -> Vec<u8> {
    let line = right_line(random, draft);
    let another = right_line(random, draft);
    let (bare, (head, body)) = (line.trim_end(), halves(&line));
    let part = halves(&another).0;
    let flawed = match way % OTHER_WAYS {
        0 => "\n".to_string(),
        1 => format!(" {line}"),
        2 => format!("{head} <- \n"),
        3 => format!(" <- {body}\n"),
        4 => format!("{head}\n"),
        5 => line_of_parts(random, draft, 1).replace('\n', " & \n"),
        6 => format!("{head} <- {part} & {part} & {part} & {part}\n"),
        7 => format!("{head} <- {part} & {part}.r1\n"),
        8 => format!("{head} <- {part} & e1\n"),
        9 => format!("{head} <- {part}.r1.r1\n"),
        10 => format!("{bare} {another}"),
        11 => format!("e1 <- {body}\n"),
        12 => linked_elsewhere(random, draft),
        _ => return any_byte(random, line.into_bytes()),
    };
    flawed.into_bytes()
}

/// The head and the body of a right line.
fn halves(line: &str) -> (&str, &str) {
    line.trim_end()
        .split_once(" <- ")
        .expect("a right line has an arrow")
}

/// A linked body of another issuer, where there is another.
fn linked_elsewhere(random: &mut Random, draft: &Draft) -> String {
    let head = random_role(random, draft);
    let other = head.entity % draft.entities + 1;
    let (first, second) = (random.number(draft.names), random.number(draft.names));
    let Role { entity, name } = head;
    format!("e{entity}.r{name} <- e{other}.r{first}.r{second}\n")
}

/// Any byte at all in place of another one, or between two.
fn any_byte(random: &mut Random, mut line: Vec<u8>) -> Vec<u8> {
    let place = random.below(line.len());
    match random.below(2) {
        0 => line[place] = random.byte(),
        _ => line.insert(place, random.byte()),
    }
    line
}

pub const FLAWS: usize = EXCHANGES.len() + NUMBER_WAYS + OTHER_WAYS;

/// A line with the flaw of the turn.
pub fn flawed_line(random: &mut Random, turn: usize, draft: &Draft) -> Vec<u8> {
    let way = turn % FLAWS;
    if let Some((piece, other)) = EXCHANGES.get(way) {
        let count = random.between(2, 3);
        let line = match *piece {
            " & " => line_of_parts(random, draft, count),
            _ => right_line(random, draft),
        };
        let places = line.match_indices(piece).map(|(place, _)| place);
        let place = random.pick(&places.collect::<Vec<_>>());
        return exchanged(&line, place..place + piece.len(), other);
    }
    let way = way - EXCHANGES.len();
    if way >= NUMBER_WAYS {
        return other_flaw(random, way - NUMBER_WAYS, draft);
    }
    let line = right_line(random, draft);
    let number = random.pick(&numbers_of(&line));
    let other = spoiled_number(random, way, draft, &line[number.0..number.1]);
    exchanged(&line, number.0..number.1, &other)
}

fn exchanged(line: &str, piece: Range<usize>, other: &str) -> Vec<u8> {
    [&line[..piece.start], other, &line[piece.end..]]
        .concat()
        .into_bytes()
}

/// From where to where the numbers of a line stand.
fn numbers_of(line: &str) -> Vec<(usize, usize)> {
    let is_digit = |place: &usize| line.as_bytes()[*place].is_ascii_digit();
    let starts = (1..line.len()).filter(|place| is_digit(place) && !is_digit(&(place - 1)));
    starts
        .map(|start| {
            let length = (start..line.len()).take_while(is_digit).count();
            (start, start + length)
        })
        .collect()
}
