//! Inputs for the desk's two programs, group by group: the texts of the line
//! reader with marks before them, wrong marks, heads that are cut, and the
//! bundles of the search.

use crate::desk::{BUNDLE_FROM_LINES, HEAD, LINES_FROM_BUNDLE};
use crate::draw::{drawn_from, DAMAGED_BUNDLES, VALID_BUNDLES};
use crate::groups::{draw_case, group, Group};
use crate::program::Program;
use crate::program_exchange::{ProgramCase, ProgramSet};
use crate::random::Random;
use crate::reader::{read_record, ABSENT, BLOCK, MOST_ENTITIES, PRESENT, RECORD};
use crate::text::text_of;
use crate::text_draw::{READS, TEXT_GROUPS};
use crate::text_flaws::{flawed_line, FLAWS};
use crate::writer::{Content, MARKS};
use crate::writer_draw::{content_of, draft_with, spoil_marks, spoil_sizes, FITTING};

/// The two programs for the desk.
pub struct Desk;

type DeskCase = ProgramCase<Desk>;

const FROM_LINES: usize = 0;
const FROM_BUNDLE: usize = 1;

impl ProgramSet for Desk {
    const PROGRAMS: &'static [Program] = &[BUNDLE_FROM_LINES, LINES_FROM_BUNDLE];
    const GROUPS: &'static [Group<DeskCase>] = &[
        group("right-contents", 6, right_contents),
        group("texts", 14, texts),
        group("wrong-heads", 5, wrong_heads),
        group("wrong-heads-and-lines", 3, wrong_heads_and_lines),
        group("short-heads", 2, short_heads),
        group("valid-bundles", 6, valid_bundles),
        group("damaged-bundles", 12, damaged_bundles),
        group("random-bytes", 2, random_bytes),
    ];

    fn outcome(written: &[u8]) -> (String, usize) {
        ("written".to_string(), written.len())
    }
}

/// The input from which a bundle is made: E, R, the marks, and a text.
fn from_lines(content: &Content, text: &[u8]) -> DeskCase {
    let sizes = [content.entities, content.names];
    let input = [&sizes, &content.marks[..], text].concat();
    ProgramCase::new(FROM_LINES, input)
}

/// The lines of a list of right records, each by itself.
fn lines_of(content: &Content) -> Vec<Vec<u8>> {
    let records = content.records.chunks(RECORD);
    records
        .map(|record| text_of(&[read_record(record)]))
        .collect()
}

/// What a bundle can be written from, with a telling number of records.
fn some_content(random: &mut Random, turn: usize) -> Content {
    let count = match turn % 3 {
        0 => random.below(241),
        _ => FITTING[turn / 3 % FITTING.len()],
    };
    content_of(&draft_with(random, count))
}

fn right_contents(random: &mut Random, turn: usize) -> DeskCase {
    let content = some_content(random, turn);
    from_lines(&content, &lines_of(&content).concat())
}

/// The texts that the line reader gets, behind marks that fit.
fn texts(random: &mut Random, turn: usize) -> DeskCase {
    let (_, case) = draw_case(&TEXT_GROUPS[READS], random.next(), turn);
    let mark_of = |entity: u8| match entity {
        _ if entity > case.entities => 0,
        _ => random.pick(&[PRESENT, ABSENT]),
    };
    let content = Content {
        entities: case.entities,
        names: case.names,
        marks: (1..=MOST_ENTITIES).map(mark_of).collect(),
        records: Vec::new(),
    };
    from_lines(&content, &case.handed)
}

/// Puts E, R or the marks wrong. Where there are fewer marks or more of them,
/// what is meant for text is taken for marks, or the other way round.
fn spoil_head(random: &mut Random, turn: usize, content: &mut Content) {
    match turn % 3 {
        0 => spoil_sizes(random, turn / 3, content),
        _ => spoil_marks(random, turn / 3, content),
    }
}

fn wrong_heads(random: &mut Random, turn: usize) -> DeskCase {
    let mut content = some_content(random, turn);
    let lines = lines_of(&content);
    spoil_head(random, turn, &mut content);
    from_lines(&content, &lines.concat())
}

/// A wrong head, or a right one, before a wrong line or too many lines.
fn wrong_heads_and_lines(random: &mut Random, turn: usize) -> DeskCase {
    let count = random.pick(&[1, 40, 240, 241]);
    let draft = draft_with(random, count);
    let mut content = content_of(&draft);
    let mut lines = lines_of(&content);
    if turn % 2 == 0 {
        let place = random.below(count);
        let flaw = random.below(FLAWS);
        lines[place] = flawed_line(random, flaw, &draft);
    }
    if turn % 3 != 0 {
        spoil_head(random, turn, &mut content);
    }
    from_lines(&content, &lines.concat())
}

/// Fewer bytes than E, R and the marks have.
fn short_heads(random: &mut Random, turn: usize) -> DeskCase {
    let mut input = vec![0; HEAD];
    input[0] = random.pick(&[1, 6, MARKS as u8]);
    input[1] = random.number(6);
    let entities = usize::from(input[0]);
    input[2..2 + entities].fill(PRESENT);
    input.truncate([0, 1, 2, 3, HEAD - 1, turn % HEAD][turn % 6]);
    ProgramCase::new(FROM_LINES, input)
}

fn valid_bundles(random: &mut Random, _turn: usize) -> DeskCase {
    ProgramCase::new(FROM_BUNDLE, drawn_from(random, VALID_BUNDLES).bundle)
}

fn damaged_bundles(random: &mut Random, _turn: usize) -> DeskCase {
    ProgramCase::new(FROM_BUNDLE, drawn_from(random, DAMAGED_BUNDLES).bundle)
}

fn random_bytes(random: &mut Random, turn: usize) -> DeskCase {
    let blocks = random.between(1, 8) * BLOCK;
    let length = random.pick(&[blocks, blocks, blocks + 1, 40]);
    let input = (0..length).map(|_| random.byte()).collect();
    ProgramCase::new(turn % 2, input)
}
