//! The slip: its lines, its checker and its writer.
//!
//! The checker knows nothing of tables. It goes through the lines once and
//! keeps what they have stated so far. The writer takes the reasons that the
//! walk noted, keeps those the question needs, and puts them in the order of
//! their rounds, so that every premise stands on an earlier line and no fact
//! is stated twice.

use crate::membership::{fact, Fact, Walk};
use crate::reader::{Body, Bundle, Refusal, Role};
use std::collections::{BTreeMap, BTreeSet};

pub const LINE: usize = 8;
pub const MOST_LINES: usize = 7_680;
pub const LONGEST_SLIP: usize = LINE * MOST_LINES;

/// One line: `member` is in the head of the credential of this number, by
/// the lines that the premises name; premise 0 stands for none.
#[derive(Clone, Copy, Debug, PartialEq, Eq)]
pub struct Line {
    pub member: u8,
    pub credential: u8,
    pub premises: [u16; 3],
}

impl Line {
    pub fn from_bytes(bytes: &[u8]) -> Line {
        let premise = |place: usize| u16::from_le_bytes([bytes[place], bytes[place + 1]]);
        Line {
            member: bytes[0],
            credential: bytes[1],
            premises: [premise(2), premise(4), premise(6)],
        }
    }

    pub fn bytes(&self) -> [u8; LINE] {
        let mut bytes = [0; LINE];
        bytes[0] = self.member;
        bytes[1] = self.credential;
        for (index, premise) in self.premises.iter().enumerate() {
            let place = 2 + 2 * index;
            bytes[place..place + 2].copy_from_slice(&premise.to_le_bytes());
        }
        bytes
    }
}

/// The lines of a slip whose length is right.
pub fn lines_of(slip: &[u8]) -> Vec<Line> {
    slip.chunks_exact(LINE).map(Line::from_bytes).collect()
}

pub fn bytes_of(lines: &[Line]) -> Vec<u8> {
    lines.iter().flat_map(Line::bytes).collect()
}

/// Checks a slip for a question's fact; gives the facts its lines state, or
/// the refusal among 9, 10 and 11.
pub fn check_slip(bundle: &Bundle, question: Fact, slip: &[u8]) -> Result<Vec<Fact>, Refusal> {
    if slip.is_empty() || slip.len() > LONGEST_SLIP || slip.len() % LINE != 0 {
        return Err(Refusal::new(9, 0));
    }
    let stated = check_lines(bundle, &lines_of(slip))?;
    if stated.last() != Some(&question) {
        return Err(Refusal::new(11, 0));
    }
    Ok(stated)
}

/// The facts that lines state, or refusal 10 at the first broken line.
pub fn check_lines(bundle: &Bundle, lines: &[Line]) -> Result<Vec<Fact>, Refusal> {
    let mut stated = Vec::new();
    for (index, line) in lines.iter().enumerate() {
        let new_fact = line_fact(bundle, &stated, line).ok_or(Refusal::new(10, index + 1))?;
        stated.push(new_fact);
    }
    Ok(stated)
}

/// The fact that a line states, or nothing when the line breaks a rule.
/// `stated` holds what the earlier lines state.
pub fn line_fact(bundle: &Bundle, stated: &[Fact], line: &Line) -> Option<Fact> {
    let index = usize::from(line.credential).checked_sub(1)?;
    let credential = bundle.credentials.get(index)?;
    let used = match &credential.body {
        Body::Member(member) => {
            require(line.member == *member)?;
            0
        }
        Body::Contained(role) => {
            require_member(stated, line, 0, *role)?;
            1
        }
        Body::Linked { first, second } => {
            let (entity, name, middle) = premise_fact(stated, line.premises[0])?;
            require((entity, name) == (credential.head.entity, *first))?;
            require_member(stated, line, 1, Role::new(middle, *second))?;
            2
        }
        Body::Intersection(parts) => {
            for (place, part) in parts.iter().enumerate() {
                require_member(stated, line, place, *part)?;
            }
            parts.len()
        }
    };
    require(line.premises[used..].iter().all(|premise| *premise == 0))?;
    Some(fact(credential.head, line.member))
}

fn require(condition: bool) -> Option<()> {
    condition.then_some(())
}

/// Demands that the premise at this place states the line's member in a role.
fn require_member(stated: &[Fact], line: &Line, place: usize, role: Role) -> Option<()> {
    let premise = premise_fact(stated, line.premises[place])?;
    require(premise == fact(role, line.member))
}

/// The fact of an earlier line; nothing for 0, the line itself or a later one.
fn premise_fact(stated: &[Fact], premise: u16) -> Option<Fact> {
    let index = usize::from(premise).checked_sub(1)?;
    stated.get(index).copied()
}

/// A slip for a fact of the walk, with the needed lines only.
pub fn write_slip(walk: &Walk, goal: Fact) -> Vec<u8> {
    let mut needed = BTreeSet::new();
    let mut waiting = vec![goal];
    while let Some(next) = waiting.pop() {
        let reason = &walk.reasons[&next];
        if needed.insert((reason.round, next)) {
            waiting.extend(&reason.premises);
        }
    }
    bytes_of(&write_lines(walk, &needed))
}

/// A slip that states every fact of the walk, and the goal on its last line.
pub fn write_every_fact(walk: &Walk, goal: Fact) -> Vec<u8> {
    let reasons = walk.reasons.iter();
    let all = reasons.map(|(stated, reason)| (reason.round, *stated));
    let ordered: BTreeSet<(usize, Fact)> = all.collect();
    let mut lines = write_lines(walk, &ordered);
    if let Some(place) = ordered.iter().position(|(_, stated)| *stated == goal) {
        if place + 1 < lines.len() {
            lines.push(lines[place]);
        }
    }
    bytes_of(&lines)
}

/// One line for each fact. The facts are ordered by round, so the premises
/// of each have their line numbers before it.
fn write_lines(walk: &Walk, ordered: &BTreeSet<(usize, Fact)>) -> Vec<Line> {
    let mut numbers: BTreeMap<Fact, u16> = BTreeMap::new();
    let mut lines = Vec::new();
    for (_, stated) in ordered {
        let reason = &walk.reasons[stated];
        let mut premises = [0; 3];
        for (place, premise) in reason.premises.iter().enumerate() {
            premises[place] = numbers[premise];
        }
        lines.push(Line {
            member: stated.2,
            credential: reason.credential as u8,
            premises,
        });
        numbers.insert(*stated, lines.len() as u16);
    }
    lines
}
