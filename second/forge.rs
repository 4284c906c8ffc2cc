//! Slips to be checked: right ones, and right ones spoiled in many ways.
//!
//! Every slip starts from ground: a valid bundle, what holds in it, and a
//! fact that the slip is about.

use crate::house::{house, longest_walk, widest_walk};
use crate::membership::{sure_walk, Fact, Walk};
use crate::random::Random;
use crate::reader::{read_bundle, Body, Bundle, Role};
use crate::shape::{
    chain, contained_record, dense_links, grown, intersection_record, intersections, linked_record,
    mark_absent, member_record, random_role, repeated_records, small, some_long_walk, spread_names,
    Draft, Record,
};
use crate::slip::{
    bytes_of, check_lines, line_fact, lines_of, write_every_fact, write_slip, Line, LINE,
    MOST_LINES,
};

pub struct Ground {
    pub draft: Draft,
    pub bytes: Vec<u8>,
    pub bundle: Bundle,
    pub walk: Walk,
    pub goal: Fact,
}

impl Ground {
    /// The ground that a draft gives. Without a credential of form 1 nothing
    /// holds in it, and its goal is a fact that doesn't hold.
    pub fn of(random: &mut Random, draft: Draft) -> Ground {
        let bytes = draft.bytes();
        let bundle = read_bundle(&bytes).expect("the shapes draw valid bundles");
        let walk = sure_walk(&bundle);
        let goal = draw_goal(random, &walk).unwrap_or((1, 1, 1));
        Ground {
            draft,
            bytes,
            bundle,
            walk,
            goal,
        }
    }

    /// Ground in one of the shapes, always with something to state.
    pub fn draw(random: &mut Random) -> Ground {
        let mut draft = match random.below(10) {
            0 | 1 => small(random),
            2 => chain(random),
            3 => intersections(random),
            4 => repeated_records(random),
            5 => dense_links(random, 6, 3, 40),
            6 => some_long_walk(random),
            7 | 8 => grown(random),
            _ => house(&[]),
        };
        mark_absent(random, &mut draft);
        spread_names(random, &mut draft);
        Ground::with_member(random, draft)
    }

    /// The ground that a draft gives when a named member has been added.
    pub fn with_member(random: &mut Random, mut draft: Draft) -> Ground {
        let first = member_record(random_role(random, &draft), random.number(draft.entities));
        match draft.records.first_mut() {
            Some(record) if random.once_in(3) => *record = first,
            _ => {
                draft.records.truncate(239);
                draft.records.push(first);
            }
        }
        Ground::of(random, draft)
    }

    /// A right slip for the goal, with the needed lines or with all.
    pub fn slip(&self, random: &mut Random) -> Vec<u8> {
        if random.once_in(3) {
            write_every_fact(&self.walk, self.goal)
        } else {
            write_slip(&self.walk, self.goal)
        }
    }

    pub fn lines(&self, random: &mut Random) -> Vec<Line> {
        lines_of(&self.slip(random))
    }
}

/// A fact of the walk, half of the time one of the last round.
fn draw_goal(random: &mut Random, walk: &Walk) -> Option<Fact> {
    let late = random.once_in(2);
    let bound = if late { walk.rounds } else { 0 };
    let reasons = walk.reasons.iter();
    let facts: Vec<Fact> = reasons
        .filter(|(_, reason)| reason.round >= bound)
        .map(|(stated, _)| *stated)
        .collect();
    (!facts.is_empty()).then(|| random.pick(&facts))
}

/// A slip with lines or bytes taken away.
pub fn cut(random: &mut Random, turn: usize, mut slip: Vec<u8>) -> Vec<u8> {
    let lines = slip.len() / LINE;
    let whole = random.below(lines) * LINE;
    match turn % 6 {
        0 => slip.truncate(slip.len() - LINE),
        1 => drop(slip.drain(..LINE)),
        2 => drop(slip.drain(whole..whole + LINE)),
        3 => slip.truncate(slip.len() - random.between(1, LINE - 1)),
        4 => slip.truncate(whole),
        _ => slip.clear(),
    }
    slip
}

/// A slip with something added: lines that stay right, or that don't.
pub fn lengthen(random: &mut Random, turn: usize, bundle: &Bundle, slip: Vec<u8>) -> Vec<u8> {
    let mut lines = lines_of(&slip);
    let last = lines[lines.len() - 1];
    match turn % 6 {
        0 => lines.push(last),
        1 => lines.push(random.pick(&lines)),
        2 => lines.insert(0, last),
        3 => {
            let line = made_up_line(random, bundle, lines.len());
            lines.push(line);
        }
        4 => lines.push(Line::from_bytes(&[0; LINE])),
        _ => {
            let mut longer = slip;
            let added = random.between(1, LINE - 1);
            longer.resize(longer.len() + added, 0);
            return longer;
        }
    }
    bytes_of(&lines)
}

/// A slip with two lines exchanged; their premises stay as they are.
pub fn exchange(random: &mut Random, mut lines: Vec<Line>) -> Vec<u8> {
    let one = random.below(lines.len());
    let other = match random.below(3) {
        0 => lines.len() - 1,
        1 => (one + 1) % lines.len(),
        _ => random.below(lines.len()),
    };
    lines.swap(one, other);
    bytes_of(&lines)
}

/// A slip with one byte, seldom two, changed.
pub fn change_bytes(random: &mut Random, mut slip: Vec<u8>) -> Vec<u8> {
    let changes = if random.once_in(5) { 2 } else { 1 };
    for _ in 0..changes {
        let place = random.below(slip.len());
        let old = slip[place];
        slip[place] = match random.below(5) {
            0 => 0,
            1 => old.wrapping_add(1),
            2 => old.wrapping_sub(1),
            3 => old ^ 0x80,
            _ => random.byte(),
        };
    }
    slip
}

/// A slip with the premises of one line changed.
pub fn change_premises(random: &mut Random, turn: usize, mut lines: Vec<Line>) -> Vec<u8> {
    let count = lines.len();
    let index = line_with_premises(random, &lines);
    let own = index as u16 + 1;
    let premises = &mut lines[index].premises;
    let used = premises.iter().filter(|premise| **premise != 0).count();
    let place = random.below(used.max(1));
    match turn % 12 {
        0 => premises[place] = 0,
        1 => premises[place] = own,
        2 => premises[place] = own + 1,
        3 => premises[place] = random.between(index, count) as u16,
        4 => premises[place] = random.between(1, count) as u16,
        5 => premises[place] = random.below(index + 1) as u16,
        6 => premises[place] = random.pick(&[count as u16 + 1, 7_680, 7_681, 65_535]),
        7 => premises.swap(0, 1),
        8 => premises.swap(random.below(3), 2),
        9 => premises[used.min(2)] = random.between(1, count) as u16,
        10 => premises[place] = premises[place].wrapping_add(256),
        _ => premises[2] = premises[0],
    }
    bytes_of(&lines)
}

/// The place of a line, if possible of one that names a premise.
fn line_with_premises(random: &mut Random, lines: &[Line]) -> usize {
    let named: Vec<usize> = (0..lines.len())
        .filter(|index| lines[*index].premises[0] != 0)
        .collect();
    if named.is_empty() || random.once_in(5) {
        return random.below(lines.len());
    }
    random.pick(&named)
}

/// A slip of lines drawn by lot, that look like lines nevertheless.
pub fn made_up(random: &mut Random, bundle: &Bundle) -> Vec<u8> {
    let count = random.between(1, 6);
    let lines = 0..count;
    let lines: Vec<Line> = lines
        .map(|index| made_up_line(random, bundle, index))
        .collect();
    bytes_of(&lines)
}

fn made_up_line(random: &mut Random, bundle: &Bundle, before: usize) -> Line {
    let credentials = bundle.credentials.len();
    let mut premises = [0; 3];
    for premise in premises.iter_mut().take(random.below(4)) {
        *premise = random.below(before + 1) as u16;
    }
    let mut line = Line {
        member: random.number(bundle.entities),
        credential: random.between(0, credentials + 1).min(255) as u8,
        premises,
    };
    if random.once_in(10) {
        line.member = random.pick(&[0, bundle.entities + 1, 255]);
    }
    if random.once_in(10) {
        line.credential = random.pick(&[0, 241, 255]);
    }
    line
}

/// Right lines in no planned order: now and then one that isn't needed, or
/// that states again what an earlier line states. The bundle needs a
/// credential of form 1.
pub fn wander(random: &mut Random, bundle: &Bundle) -> Vec<Line> {
    let mut lines = Vec::new();
    let mut stated = Vec::new();
    let tries = random.between(10, 200);
    while lines.is_empty() || random.below(tries) != 0 {
        let number = random.between(1, bundle.credentials.len());
        let Some(line) = line_by(random, bundle, number, &stated) else {
            continue;
        };
        stated.extend(line_fact(bundle, &stated, &line));
        lines.push(line);
    }
    lines.truncate(MOST_LINES);
    lines
}

/// A right line by the credential of this number, resting on stated facts.
fn line_by(random: &mut Random, bundle: &Bundle, number: usize, stated: &[Fact]) -> Option<Line> {
    let credential = &bundle.credentials[number - 1];
    let mut premises = [0; 3];
    let member = match &credential.body {
        Body::Member(member) => *member,
        Body::Contained(role) => {
            let (line, member) = stated_member(random, stated, *role, None)?;
            premises[0] = line;
            member
        }
        Body::Linked { first, second } => {
            let role = Role::new(credential.head.entity, *first);
            let (line, middle) = stated_member(random, stated, role, None)?;
            premises[0] = line;
            let (line, member) = stated_member(random, stated, Role::new(middle, *second), None)?;
            premises[1] = line;
            member
        }
        Body::Intersection(parts) => {
            let (_, member) = stated_member(random, stated, parts[0], None)?;
            for (place, part) in parts.iter().enumerate() {
                premises[place] = stated_member(random, stated, *part, Some(member))?.0;
            }
            member
        }
    };
    Some(Line {
        member,
        credential: number as u8,
        premises,
    })
}

/// One of the lines that state some member, or this member, in a role.
fn stated_member(
    random: &mut Random,
    stated: &[Fact],
    role: Role,
    wanted: Option<u8>,
) -> Option<(u16, u8)> {
    let fitting: Vec<(u16, u8)> = (1..)
        .zip(stated)
        .filter(|(_, (entity, name, member))| {
            Role::new(*entity, *name) == role && wanted.is_none_or(|one| one == *member)
        })
        .map(|(line, stated)| (line, stated.2))
        .collect();
    (!fitting.is_empty()).then(|| random.pick(&fitting))
}

/// Every premise that a line can have, as the number of the line's premises,
/// whether the line is a link's, and the premise's place.
const PREMISES: [(usize, bool, usize); 8] = [
    (1, false, 0),
    (2, true, 0),
    (2, true, 1),
    (2, false, 0),
    (2, false, 1),
    (3, false, 0),
    (3, false, 1),
    (3, false, 2),
];

/// A slip that states every fact rightly and then has one line too many. That
/// line is wrong in a single number: one premise states the entity, the name
/// or the member otherwise than it should. Gives nothing where the ground has
/// no such line. The turn says which premise and which number.
pub fn near_miss(random: &mut Random, turn: usize, ground: &Ground) -> Option<Vec<Line>> {
    let (used, link, place) = PREMISES[turn % PREMISES.len()];
    let wrong_number = turn / PREMISES.len() % 3;
    let mut lines = lines_of(&write_every_fact(&ground.walk, ground.goal));
    let stated = check_lines(&ground.bundle, &lines).ok()?;
    let number = random.between(1, ground.bundle.credentials.len());
    let body = &ground.bundle.credentials[number - 1].body;
    let mut line = line_by(random, &ground.bundle, number, &stated)?;
    let named = line.premises.iter().filter(|premise| **premise != 0);
    if named.count() != used || matches!(body, Body::Linked { .. }) != link {
        return None;
    }
    let right = stated[usize::from(line.premises[place]) - 1];
    let wrong: Vec<u16> = (1..)
        .zip(&stated)
        .filter(|(_, other)| differs_only_in(right, **other, wrong_number))
        .map(|(premise, _)| premise)
        .collect();
    if wrong.is_empty() {
        return None;
    }
    line.premises[place] = random.pick(&wrong);
    lines.push(line);
    Some(lines)
}

/// Whether two facts differ in the entity (0), the name (1) or the member (2)
/// and agree otherwise.
fn differs_only_in(one: Fact, other: Fact, number: usize) -> bool {
    let differs = [one.0 != other.0, one.1 != other.1, one.2 != other.2];
    (0..3).all(|place| differs[place] == (place == number))
}

/// A bundle and lines that lean on themselves: every line would be right if a
/// premise could name its own line or a later one.
pub fn circle(random: &mut Random, turn: usize) -> (Draft, Vec<Line>) {
    let mut draft = Draft::new(random.between(2, 6) as u8, random.between(2, 32) as u8);
    let role = random_role(random, &draft);
    let other = Role::new(random.number(draft.entities), role.name % draft.names + 1);
    let member = random.number(draft.entities);
    let line = |credential, premises| Line {
        member,
        credential,
        premises,
    };
    let (records, lines) = match turn % 5 {
        0 => (vec![contained_record(role, role)], vec![line(1, [1, 0, 0])]),
        1 => (
            vec![contained_record(role, other), contained_record(other, role)],
            vec![line(1, [2, 0, 0]), line(2, [1, 0, 0])],
        ),
        2 => (
            vec![
                member_record(other, member),
                intersection_record(role, &[other, role]),
            ],
            vec![line(1, [0, 0, 0]), line(2, [1, 2, 0])],
        ),
        3 => (
            vec![
                member_record(other, member),
                intersection_record(role, &[other, other, role]),
            ],
            vec![line(1, [0, 0, 0]), line(2, [1, 1, 2])],
        ),
        _ => link_circle(role, other.name, member),
    };
    draft.records = records;
    (draft, lines)
}

/// A link whose head is the very role that its members are taken through.
fn link_circle(role: Role, second: u8, member: u8) -> (Vec<Record>, Vec<Line>) {
    let own = Role::new(member, second);
    let records = vec![
        member_record(own, member),
        linked_record(role, role.name, second),
    ];
    let line = |credential, premises| Line {
        member,
        credential,
        premises,
    };
    (records, vec![line(1, [0, 0, 0]), line(2, [2, 1, 0])])
}

/// A right slip turned around, so that each premise is on a later line.
pub fn backwards(mut lines: Vec<Line>) -> Vec<Line> {
    let after_last = lines.len() as u16 + 1;
    lines.reverse();
    for premise in lines.iter_mut().flat_map(|line| line.premises.iter_mut()) {
        if *premise != 0 {
            *premise = after_last - *premise;
        }
    }
    lines
}

/// A slip of one of the telling lengths; its lines are right as far as whole
/// lines go.
pub fn set_length(random: &mut Random, turn: usize, lines: Vec<Line>) -> Vec<u8> {
    const LENGTHS: [usize; 14] = [
        0, 1, 4, 7, 9, 15, 61_433, 61_439, 61_440, 61_441, 61_447, 61_448, 65_528, 122_880,
    ];
    let length = LENGTHS[turn % LENGTHS.len()];
    let mut slip = bytes_of(&repeat_lines(random, lines, length.div_ceil(LINE)));
    slip.truncate(length);
    slip
}

/// So many right lines: lines already there are stated again and again, and
/// the goal stays on the last line.
fn repeat_lines(random: &mut Random, mut lines: Vec<Line>, count: usize) -> Vec<Line> {
    let goal = lines[lines.len() - 1];
    while lines.len() + 1 < count {
        lines.push(random.pick(&lines));
    }
    if lines.len() < count {
        lines.push(goal);
    }
    lines
}

/// A slip of the greatest length: right, or with one thing wrong.
pub fn longest(random: &mut Random, turn: usize, lines: Vec<Line>) -> Vec<u8> {
    let mut lines = repeat_lines(random, lines, MOST_LINES);
    let last = lines.len() - 1;
    match turn % 5 {
        0 => {}
        1 => lines[last].member ^= 1,
        2 => lines[last] = lines[0],
        3 => lines[random.between(256, last)].credential = 0,
        _ => rest_on_late_lines(random, &mut lines),
    }
    bytes_of(&lines)
}

/// Lets premises name the latest lines that state the same, so that both
/// bytes of a premise count.
fn rest_on_late_lines(random: &mut Random, lines: &mut [Line]) {
    for index in (lines.len() / 2..lines.len()).step_by(7) {
        for place in 0..3 {
            let premise = lines[index].premises[place];
            if premise != 0 {
                let wanted = lines[usize::from(premise) - 1];
                let earlier = lines[..index].iter();
                let latest = earlier.rev().position(|line| *line == wanted);
                let distance = latest.unwrap_or(index - usize::from(premise));
                lines[index].premises[place] = (index - distance) as u16;
            }
        }
    }
    if random.once_in(3) {
        let index = lines.len() - 1;
        lines[index].premises[0] = lines[index].premises[0].wrapping_add(1);
    }
}

/// The ground of the longest walk; its slips have several thousand lines.
pub fn longest_ground(random: &mut Random) -> Ground {
    let draft = random.pick(&[longest_walk, widest_walk])();
    Ground::of(random, draft)
}
