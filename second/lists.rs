//! The lists for the keepers: all members of a role, all roles of an entity.
//!
//! The possible facts stand in the order of entity, role name, member, which
//! is the order of either list. So a list is a choice of the possible facts,
//! each with a word for whether it is sure too, and its last line counts.

use crate::membership::{possible_table, sure_walk, Fact};
use crate::program::{printed, Program};
use crate::reader::{read_bundle, Bundle, Refusal, LONGEST_BUNDLE};

/// Reads A, r and a bundle, and lists the members of A.r.
pub const MEMBERS: Program = Program {
    name: "members",
    longest_input: 2 + LONGEST_BUNDLE,
    bundle_at: Some(2),
    name_at: Some(1),
    prints: |input| printed(members(input)),
};

/// Reads D and a bundle, and lists the roles of D.
pub const ROLES: Program = Program {
    name: "roles",
    longest_input: 1 + LONGEST_BUNDLE,
    bundle_at: Some(1),
    name_at: None,
    prints: |input| printed(roles(input)),
};

fn members(input: &[u8]) -> Result<Vec<u8>, Refusal> {
    let ([entity, name], bundle) = question_and_bundle(input)?;
    refuse_unless((1..=bundle.entities).contains(&entity) && (1..=bundle.names).contains(&name))?;
    let asked = |stated: &Fact| (stated.0, stated.1) == (entity, name);
    Ok(list(&bundle, asked, |(_, _, member)| member.to_string()))
}

fn roles(input: &[u8]) -> Result<Vec<u8>, Refusal> {
    let ([member], bundle) = question_and_bundle(input)?;
    refuse_unless((1..=bundle.entities).contains(&member))?;
    let asked = |stated: &Fact| stated.2 == member;
    Ok(list(&bundle, asked, |(entity, name, _)| {
        format!("{entity} {name}")
    }))
}

/// The bytes of the question, and the bundle behind them. With fewer bytes
/// than a question has the bundle is empty.
fn question_and_bundle<const N: usize>(input: &[u8]) -> Result<([u8; N], Bundle), Refusal> {
    let (question, bytes) = match input.split_first_chunk() {
        Some((question, bytes)) => (*question, bytes),
        None => ([0; N], &[][..]),
    };
    Ok((question, read_bundle(bytes)?))
}

fn refuse_unless(in_range: bool) -> Result<(), Refusal> {
    in_range.then_some(()).ok_or(Refusal::new(7, 0))
}

/// The text of a list: a line for each possible fact that is asked for, and
/// the counts.
fn list(bundle: &Bundle, asked: impl Fn(&Fact) -> bool, shown: fn(&Fact) -> String) -> Vec<u8> {
    let sure = sure_walk(bundle).table;
    let possible = possible_table(bundle);
    let (mut text, mut sures, mut maybes) = (String::new(), 0, 0);
    for stated in possible.iter().filter(|stated| asked(stated)) {
        let (mark, count) = match sure.contains(stated) {
            true => ("SURE", &mut sures),
            false => ("MAYBE", &mut maybes),
        };
        *count += 1;
        text += &format!("{} {mark}\n", shown(stated));
    }
    text += &format!("END {sures} {maybes}\n");
    text.into_bytes()
}
