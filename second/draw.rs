//! Cases for the search and the checker, group by group.

use crate::damage;
use crate::exchange::{Case, Task};
use crate::forge::{self, Ground};
use crate::groups::{draw_case, group, Group};
use crate::house;
use crate::membership::{fact, possible_table, sure_walk, Fact};
use crate::random::Random;
use crate::reader::{read_bundle, Bundle, MOST_NAMES};
use crate::service::{Lent, Question};
use crate::shape::{self, Draft};
use crate::slip::{bytes_of, lines_of, Line};
use std::ops::Range;

pub const GROUPS: [Group<Case>; 37] = [
    group("small-bundles", 4, small_bundles),
    group("grown-bundles", 4, grown_bundles),
    group("every-number-of-records", 4, every_number_of_records),
    group("one-form-alone", 2, one_form_alone),
    group("chains", 1, chains),
    group("dense-links", 2, dense_links),
    group("intersections", 2, intersections),
    group("repeated-records", 2, repeated_records),
    group("long-walks", 1, long_walks),
    group("absent-shelves", 4, absent_shelves),
    group("small-house", 2, small_house),
    group("bad-lengths", 2, bad_lengths),
    group("wrong-checks", 6, wrong_checks),
    group("first-block", 3, first_block),
    group("editions", 6, editions),
    group("number-of-blocks", 2, number_of_blocks),
    group("block-ends", 3, block_ends),
    group("wrong-records", 19, wrong_records),
    group("several-mistakes", 9, several_mistakes),
    group("questions-out-of-range", 2, questions_out_of_range),
    group("lent-lengths", 6, lent_lengths),
    group("several-faults", 3, several_faults),
    group("right-slips", 3, right_slips),
    group("cut-slips", 2, cut_slips),
    group("lengthened-slips", 2, lengthened_slips),
    group("exchanged-lines", 2, exchanged_lines),
    group("changed-bytes", 3, changed_bytes),
    group("changed-premises", 4, changed_premises),
    group("wandering-slips", 3, wandering_slips),
    group("near-misses", 3, near_misses),
    group("circles", 2, circles),
    group("made-up-slips", 2, made_up_slips),
    group("slips-for-another-question", 2, slips_for_another_question),
    group("slip-lengths", 2, slip_lengths),
    group("longest-slips", 1, longest_slips),
    group("slips-on-damaged-bundles", 2, slips_on_damaged_bundles),
    group("slips-of-the-house", 1, slips_of_the_house),
];

/// The places of the groups over valid bundles, and of those over damaged ones
/// or with a question or memory that is refused.
pub const VALID_BUNDLES: Range<usize> = 0..11;
pub const DAMAGED_BUNDLES: Range<usize> = 11..22;

/// A case from some of the groups, drawn from all over them.
pub fn drawn_from(random: &mut Random, groups: Range<usize>) -> Case {
    let number = random.below(100_000);
    draw_case(&GROUPS[groups], random.next(), number).1
}

/// Lent memory that is long enough, at times longer than needed.
pub fn enough_lent(random: &mut Random) -> Lent {
    let mut lent = Lent::enough();
    if random.once_in(4) {
        lent.sure_words = random.pick(&[1_024, 1_025, 1_200]);
        lent.possible_words = random.pick(&[1_024, 1_025, 1_200]);
        lent.slip_bytes = random.pick(&[61_440, 61_441, 61_500]);
    }
    lent
}

/// A question about a fact that is sure, only possible, or drawn by lot, so
/// that the three verdicts all come up.
fn telling_question(random: &mut Random, bundle: &Bundle) -> Question {
    let lot = (
        random.number(bundle.entities),
        random.number(bundle.names),
        random.number(bundle.entities),
    );
    let sure = sure_walk(bundle).table;
    let facts: Vec<Fact> = match random.below(3) {
        0 => sure.into_iter().collect(),
        1 => {
            let possible = possible_table(bundle);
            possible.difference(&sure).copied().collect()
        }
        _ => Vec::new(),
    };
    let asked = if facts.is_empty() {
        lot
    } else {
        random.pick(&facts)
    };
    Question::about(asked)
}

pub fn any_question(random: &mut Random, draft: &Draft) -> Question {
    let role = shape::random_role(random, draft);
    Question::about((role.entity, role.name, random.number(draft.entities)))
}

/// A search over a valid bundle, in which the names may have other numbers.
fn valid_search(random: &mut Random, mut draft: Draft) -> Case {
    shape::spread_names(random, &mut draft);
    let bytes = draft.bytes();
    let bundle = read_bundle(&bytes).expect("the shapes draw valid bundles");
    let question = telling_question(random, &bundle);
    let lent = enough_lent(random);
    Case::search(question, bytes, lent)
}

/// A search, once in a few times a check, over a damaged bundle.
fn damaged_case(random: &mut Random, draft: &Draft, bytes: Vec<u8>) -> Case {
    let question = any_question(random, draft);
    either_case(random, question, bytes)
}

fn either_case(random: &mut Random, question: Question, bytes: Vec<u8>) -> Case {
    if random.once_in(4) {
        return Case::check(question, bytes, house::house_slip());
    }
    let lent = enough_lent(random);
    Case::search(question, bytes, lent)
}

/// A draft to be damaged, with at least one record.
fn sound_draft(random: &mut Random) -> Draft {
    let turn = random.below(1_000);
    let count = match random.below(3) {
        0 => random.between(1, 12),
        _ => shape::telling_count(random, turn).max(1),
    };
    let mut draft = shape::sized(random, count);
    shape::mark_absent(random, &mut draft);
    draft
}

fn small_bundles(random: &mut Random, _turn: usize) -> Case {
    let mut draft = shape::small(random);
    shape::mark_absent(random, &mut draft);
    valid_search(random, draft)
}

fn grown_bundles(random: &mut Random, turn: usize) -> Case {
    let mut draft = shape::grown(random);
    if turn % 3 == 0 {
        shape::mark_absent(random, &mut draft);
    }
    valid_search(random, draft)
}

fn every_number_of_records(random: &mut Random, turn: usize) -> Case {
    let count = shape::telling_count(random, turn);
    let mut draft = shape::sized(random, count);
    if random.once_in(2) {
        shape::mark_absent(random, &mut draft);
    }
    valid_search(random, draft)
}

fn one_form_alone(random: &mut Random, turn: usize) -> Case {
    let mut draft = shape::one_form(random, (turn % 4) as u8 + 1);
    if random.once_in(2) {
        shape::mark_absent(random, &mut draft);
    }
    valid_search(random, draft)
}

fn chains(random: &mut Random, _turn: usize) -> Case {
    let mut draft = shape::chain(random);
    if random.once_in(2) {
        shape::mark_absent(random, &mut draft);
    }
    valid_search(random, draft)
}

fn dense_links(random: &mut Random, turn: usize) -> Case {
    let mut draft = match turn % 4 {
        0 => shape::dense_links(random, 32, 2, 240),
        1 => shape::dense_links(random, 32, 3, 240),
        2 => shape::dense_links(random, 16, 4, 150),
        _ => {
            let count = random.between(10, 60);
            shape::dense_links(random, 8, 3, count)
        }
    };
    if random.once_in(2) {
        shape::mark_absent(random, &mut draft);
    }
    valid_search(random, draft)
}

fn intersections(random: &mut Random, _turn: usize) -> Case {
    let mut draft = shape::intersections(random);
    if random.once_in(2) {
        shape::mark_absent(random, &mut draft);
    }
    valid_search(random, draft)
}

fn repeated_records(random: &mut Random, _turn: usize) -> Case {
    let mut draft = shape::repeated_records(random);
    if random.once_in(3) {
        shape::mark_absent(random, &mut draft);
    }
    valid_search(random, draft)
}

/// Long walks. The very longest comes only once in many turns, and then the
/// question is the fact that comes in last.
fn long_walks(random: &mut Random, turn: usize) -> Case {
    if turn % 10 == 5 {
        let (draft, last) = match turn / 10 % 2 {
            0 => (house::longest_walk(), (1, 2, 32)),
            _ => (house::widest_walk(), (1, 31, 32)),
        };
        return Case::search(Question::about(last), draft.bytes(), Lent::enough());
    }
    let mut draft = shape::some_long_walk(random);
    if random.once_in(6) {
        shape::mark_absent(random, &mut draft);
    }
    valid_search(random, draft)
}

fn absent_shelves(random: &mut Random, turn: usize) -> Case {
    let mut draft = match turn % 5 {
        0 => shape::sized(random, 0),
        1 => shape::sized(random, 30),
        2 => shape::intersections(random),
        3 => shape::grown(random),
        _ => shape::small(random),
    };
    shape::mark_absent(random, &mut draft);
    if turn % 16 == 0 {
        draft = house::all_absent(random.pick(&[16, 17, MOST_NAMES]));
    }
    valid_search(random, draft)
}

fn small_house(random: &mut Random, turn: usize) -> Case {
    let absent = random.pick(&[
        &[][..],
        &[house::GUILD],
        &[house::UPLAND],
        &[house::UPLAND, house::GUILD],
        &[house::ARCHIVE],
        &[house::BOARD, house::GUILD],
    ]);
    let draft = match turn % 6 {
        0 => house::house_without_5(absent),
        1 => house::self_contained(),
        2 => house::one(if absent.is_empty() { &[] } else { &[1] }),
        _ => house::house(absent),
    };
    if turn % 3 == 0 {
        let person = random.pick(&[house::NINA, house::TOMAS]);
        return Case::search(
            house::signer_question(person),
            draft.bytes(),
            Lent::enough(),
        );
    }
    valid_search(random, draft)
}

fn bad_lengths(random: &mut Random, turn: usize) -> Case {
    let draft = sound_draft(random);
    let bytes = damage::damage_length(random, turn, &draft);
    damaged_case(random, &draft, bytes)
}

fn wrong_checks(random: &mut Random, turn: usize) -> Case {
    let mut draft = sound_draft(random);
    if turn % 2 == 0 {
        draft = shape::sized(random, 240);
    }
    let bytes = damage::damage_check(random, turn / 2, &draft);
    damaged_case(random, &draft, bytes)
}

fn first_block(random: &mut Random, turn: usize) -> Case {
    let draft = sound_draft(random);
    let bytes = damage::damage_first_block(random, turn, &draft);
    damaged_case(random, &draft, bytes)
}

/// Editions that don't fit the number of names, and some that do.
fn editions(random: &mut Random, turn: usize) -> Case {
    let draft = sound_draft(random);
    let bytes = damage::damage_edition(random, turn, &draft);
    damaged_case(random, &draft, bytes)
}

fn number_of_blocks(random: &mut Random, turn: usize) -> Case {
    let draft = sound_draft(random);
    let bytes = damage::damage_number_of_blocks(random, turn, &draft);
    damaged_case(random, &draft, bytes)
}

fn block_ends(random: &mut Random, turn: usize) -> Case {
    let draft = sound_draft(random);
    let bytes = damage::damage_block_end(random, turn, &draft);
    damaged_case(random, &draft, bytes)
}

fn wrong_records(random: &mut Random, turn: usize) -> Case {
    let draft = sound_draft(random);
    let bytes = damage::damage_record(random, turn, &draft);
    damaged_case(random, &draft, bytes)
}

/// Records with every choice of the five mistakes, half of them in bundles
/// with as many records as there can be.
fn several_mistakes(random: &mut Random, turn: usize) -> Case {
    let mut draft = sound_draft(random);
    if turn % 2 == 0 {
        draft = shape::sized(random, 240);
    }
    let bytes = damage::damage_records(random, turn, &draft);
    damaged_case(random, &draft, bytes)
}

fn questions_out_of_range(random: &mut Random, turn: usize) -> Case {
    let draft = sound_draft(random);
    let mut question = any_question(random, &draft);
    spoil_question(turn, &draft, &mut question);
    either_case(random, question, draft.bytes())
}

/// Puts one of the three numbers of a question out of range.
pub fn spoil_question(turn: usize, draft: &Draft, question: &mut Question) {
    let (place, highest) = match turn % 3 {
        0 => (&mut question.member, draft.entities),
        1 => (&mut question.entity, draft.entities),
        _ => (&mut question.name, draft.names),
    };
    *place = match turn / 3 % 4 {
        0 => 0,
        1 => highest + 1,
        2 => highest,
        _ => 255,
    };
}

/// Every pairing of telling lengths in turn.
fn lent_lengths(random: &mut Random, turn: usize) -> Case {
    const WORDS: [usize; 6] = [0, 512, 1_023, 1_024, 1_025, 1_200];
    const BYTES: [usize; 4] = [0, 61_439, 61_440, 61_500];
    let mut draft = shape::small(random);
    shape::mark_absent(random, &mut draft);
    let mut case = valid_search(random, draft);
    let lent = Lent {
        sure_words: WORDS[turn % 6],
        possible_words: WORDS[turn / 6 % 6],
        slip_bytes: BYTES[turn / 36 % 4],
    };
    case.task = Task::Search(lent);
    case
}

/// More than one thing wrong at once, to show which is found first.
fn several_faults(random: &mut Random, turn: usize) -> Case {
    let draft = sound_draft(random);
    let bytes = match turn % 3 {
        0 => draft.bytes(),
        1 => damage::damage_often(random, &draft),
        _ => damage::damage_somehow(random, &draft),
    };
    let mut question = any_question(random, &draft);
    if random.once_in(2) {
        let way = random.below(12);
        spoil_question(way, &draft, &mut question);
    }
    if random.once_in(3) {
        let slip = random.pick(&[&[][..], &[0; 7], &[0; 8], &[0; 61_448]]);
        return Case::check(question, bytes, slip.to_vec());
    }
    let lent = Lent {
        sure_words: random.pick(&[0, 1_023, 1_024]),
        possible_words: random.pick(&[1_023, 1_024]),
        slip_bytes: random.pick(&[0, 61_439, 61_440]),
    };
    Case::search(question, bytes, lent)
}

/// A check of a slip against the ground it was made from.
fn ground_check(ground: &Ground, slip: Vec<u8>) -> Case {
    Case::check(Question::about(ground.goal), ground.bytes.clone(), slip)
}

fn right_slips(random: &mut Random, _turn: usize) -> Case {
    let ground = Ground::draw(random);
    let slip = ground.slip(random);
    ground_check(&ground, slip)
}

fn cut_slips(random: &mut Random, turn: usize) -> Case {
    let ground = Ground::draw(random);
    let slip = ground.slip(random);
    let slip = forge::cut(random, turn, slip);
    ground_check(&ground, slip)
}

fn lengthened_slips(random: &mut Random, turn: usize) -> Case {
    let ground = Ground::draw(random);
    let slip = ground.slip(random);
    let slip = forge::lengthen(random, turn, &ground.bundle, slip);
    ground_check(&ground, slip)
}

fn exchanged_lines(random: &mut Random, _turn: usize) -> Case {
    let ground = Ground::draw(random);
    let lines = ground.lines(random);
    let slip = forge::exchange(random, lines);
    ground_check(&ground, slip)
}

fn changed_bytes(random: &mut Random, _turn: usize) -> Case {
    let ground = Ground::draw(random);
    let slip = ground.slip(random);
    let slip = forge::change_bytes(random, slip);
    ground_check(&ground, slip)
}

fn changed_premises(random: &mut Random, turn: usize) -> Case {
    let ground = Ground::draw(random);
    let lines = ground.lines(random);
    let slip = forge::change_premises(random, turn, lines);
    ground_check(&ground, slip)
}

/// Slips in no planned order, half of them with one line spoiled.
fn wandering_slips(random: &mut Random, turn: usize) -> Case {
    let ground = Ground::draw(random);
    let lines = forge::wander(random, &ground.bundle);
    let mut case = last_line_check(&ground, &lines);
    if turn % 2 == 0 {
        case.task = Task::Check(forge::change_premises(random, turn / 2, lines));
    }
    case
}

/// A check of lines for the fact that the last of them claims.
fn last_line_check(ground: &Ground, lines: &[Line]) -> Case {
    let last = lines[lines.len() - 1];
    let head = ground.bundle.credentials[usize::from(last.credential) - 1].head;
    let mut case = ground_check(ground, bytes_of(lines));
    case.question = Question::about(fact(head, last.member));
    case
}

/// Slips whose last line is wrong in a single number. Not every ground has
/// the line that the turn asks for, so several are tried.
fn near_misses(random: &mut Random, turn: usize) -> Case {
    loop {
        let mut draft = shape::busy(random);
        shape::spread_names(random, &mut draft);
        let ground = Ground::with_member(random, draft);
        if let Some(lines) = forge::near_miss(random, turn, &ground) {
            return last_line_check(&ground, &lines);
        }
    }
}

/// Slips with premises on their own lines or on later ones.
fn circles(random: &mut Random, turn: usize) -> Case {
    if turn % 6 == 5 {
        let ground = Ground::draw(random);
        let lines = forge::backwards(ground.lines(random));
        return last_line_check(&ground, &lines);
    }
    let (draft, lines) = forge::circle(random, turn % 6);
    let ground = Ground::of(random, draft);
    last_line_check(&ground, &lines)
}

/// Made-up slips, half of them for a fact that doesn't hold.
fn made_up_slips(random: &mut Random, turn: usize) -> Case {
    let ground = Ground::draw(random);
    let slip = forge::made_up(random, &ground.bundle);
    let mut case = ground_check(&ground, slip);
    if turn % 2 == 0 {
        case.question = any_question(random, &ground.draft);
    }
    case
}

fn slips_for_another_question(random: &mut Random, turn: usize) -> Case {
    let ground = Ground::draw(random);
    let slip = ground.slip(random);
    let mut case = ground_check(&ground, slip);
    match turn % 4 {
        0 => case.question = any_question(random, &ground.draft),
        1 => case.question.member = random.number(ground.draft.entities),
        2 => case.question = telling_question(random, &ground.bundle),
        _ => spoil_question(turn / 4, &ground.draft, &mut case.question),
    }
    case
}

fn slip_lengths(random: &mut Random, turn: usize) -> Case {
    let ground = Ground::draw(random);
    let lines = ground.lines(random);
    let slip = forge::set_length(random, turn, lines);
    ground_check(&ground, slip)
}

fn longest_slips(random: &mut Random, turn: usize) -> Case {
    if turn % 20 == 15 {
        let ground = forge::longest_ground(random);
        let slip = ground.slip(random);
        return ground_check(&ground, slip);
    }
    let ground = Ground::draw(random);
    let lines = ground.lines(random);
    let slip = forge::longest(random, turn, lines);
    ground_check(&ground, slip)
}

fn slips_on_damaged_bundles(random: &mut Random, _turn: usize) -> Case {
    let ground = Ground::draw(random);
    let slip = ground.slip(random);
    let mut case = ground_check(&ground, slip);
    case.bundle = damage::damage_somehow(random, &ground.draft);
    case
}

/// The slip of the small house, right and with the premises of its lines
/// changed, over each of the house's variants.
fn slips_of_the_house(random: &mut Random, turn: usize) -> Case {
    let draft = match turn % 4 {
        3 => house::house_without_5(&[house::GUILD]),
        2 => house::house(&[house::GUILD]),
        _ => house::house(&[]),
    };
    let slip = match turn / 4 % 4 {
        0 => house::house_slip(),
        1 => forge::cut(random, 0, house::house_slip()),
        2 => forge::change_bytes(random, house::house_slip()),
        _ => forge::change_premises(random, turn, lines_of(&house::house_slip())),
    };
    Case::check(house::signer_question(house::NINA), draft.bytes(), slip)
}
