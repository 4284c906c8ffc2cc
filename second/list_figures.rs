//! What the specification says of the lists, tried on this program's own: the
//! lists of the small house, refusals and their order, short questions, and
//! every line against what `ask` says of the same fact.

use crate::figures::Tally;
use crate::house::{
    all_absent, house, one, self_contained, ARCHIVE, GUILD, NINA, SIGNER, TOMAS, UPLAND,
};
use crate::lists::{MEMBERS, ROLES};
use crate::program::Program;
use crate::random::Random;
use crate::service::ask;
use crate::shape::{self, Draft};

pub fn try_lists(tally: &mut Tally) {
    try_house_lists(tally);
    try_edges(tally);
    try_refusals(tally);
    for seed in 0..60 {
        let mut random = Random::new(seed);
        let mut draft = shape::small(&mut random);
        shape::mark_absent(&mut random, &mut draft);
        try_members(tally, &draft);
        try_roles(tally, &draft);
    }
}

/// What a program prints for a question and a bundle.
fn prints(program: Program, question: &[u8], bundle: &[u8]) -> String {
    let output = (program.prints)(&[question, bundle].concat());
    String::from_utf8(output).expect("a list is text")
}

/// The lists are written by hand from the six credentials.
fn try_house_lists(tally: &mut Tally) {
    let all_present = house(&[]).bytes();
    let guild_absent = house(&[GUILD]).bytes();
    let both_absent = house(&[UPLAND, GUILD]).bytes();
    let signers = [
        (&all_present, "4 SURE\nEND 1 0\n"),
        (&guild_absent, "4 SURE\nEND 1 0\n"),
        (
            &both_absent,
            "1 MAYBE\n2 MAYBE\n3 MAYBE\n4 SURE\n5 MAYBE\n6 MAYBE\nEND 1 5\n",
        ),
    ];
    for (bundle, expected) in signers {
        let came = prints(MEMBERS, &[ARCHIVE, SIGNER], bundle);
        tally.expect("signers", expected, &came);
    }
    let held = [
        (
            NINA,
            &all_present,
            "1 1 SURE\n1 6 SURE\n3 4 SURE\n5 5 SURE\nEND 4 0\n",
        ),
        (
            NINA,
            &guild_absent,
            "1 1 SURE\n1 6 SURE\n3 4 SURE\n5 1 MAYBE\n5 2 MAYBE\n5 3 MAYBE\n5 4 MAYBE\n\
             5 5 SURE\n5 6 MAYBE\nEND 4 5\n",
        ),
        (
            NINA,
            &both_absent,
            "1 1 SURE\n1 6 SURE\n3 1 MAYBE\n3 2 MAYBE\n3 3 MAYBE\n3 4 SURE\n3 5 MAYBE\n\
             3 6 MAYBE\n5 1 MAYBE\n5 2 MAYBE\n5 3 MAYBE\n5 4 MAYBE\n5 5 SURE\n5 6 MAYBE\n\
             END 4 10\n",
        ),
        (TOMAS, &all_present, "END 0 0\n"),
        (
            TOMAS,
            &guild_absent,
            "5 1 MAYBE\n5 2 MAYBE\n5 3 MAYBE\n5 4 MAYBE\n5 5 MAYBE\n5 6 MAYBE\nEND 0 6\n",
        ),
        (
            TOMAS,
            &both_absent,
            "1 1 MAYBE\n1 6 MAYBE\n3 1 MAYBE\n3 2 MAYBE\n3 3 MAYBE\n3 4 MAYBE\n3 5 MAYBE\n\
             3 6 MAYBE\n5 1 MAYBE\n5 2 MAYBE\n5 3 MAYBE\n5 4 MAYBE\n5 5 MAYBE\n5 6 MAYBE\n\
             END 0 14\n",
        ),
    ];
    for (person, bundle, expected) in held {
        let came = prints(ROLES, &[person], bundle);
        tally.expect("roles held", expected, &came);
    }
}

/// The shortest lists and the longest.
fn try_edges(tally: &mut Tally) {
    let ones = [
        (one(&[]), "END 0 0\n", "END 0 0\n"),
        (self_contained(), "END 0 0\n", "END 0 0\n"),
        (one(&[1]), "1 MAYBE\nEND 0 1\n", "1 1 MAYBE\nEND 0 1\n"),
    ];
    for (draft, members, roles) in ones {
        let bundle = draft.bytes();
        tally.expect("one role", members, &prints(MEMBERS, &[1, 1], &bundle));
        tally.expect("one person", roles, &prints(ROLES, &[1], &bundle));
    }
    let longest = [
        (16, 512, "END 0 512", "2 1 MAYBE"),
        (17, 544, "END 0 544", "1 17 MAYBE"),
        (32, 1_024, "END 0 1024", "1 17 MAYBE"),
    ];
    for (names, roles, count, role_17) in longest {
        let bundle = all_absent(names).bytes();
        let everyone = prints(MEMBERS, &[32, names], &bundle);
        let everywhere = prints(ROLES, &[32], &bundle);
        tally.expect("lines for everyone", 33, everyone.lines().count());
        tally.expect("last person", Some("32 MAYBE"), everyone.lines().nth(31));
        tally.expect("count", Some("END 0 32"), everyone.lines().last());
        tally.expect(
            "lines for every role",
            roles + 1,
            everywhere.lines().count(),
        );
        tally.expect("17th role", Some(role_17), everywhere.lines().nth(16));
        tally.expect("count", Some(count), everywhere.lines().last());
    }
}

fn try_refusals(tally: &mut Tally) {
    let house = house(&[]).bytes();
    let mut wrong = house.clone();
    wrong[510] ^= 1;
    let refused: [(Program, &[u8], &[u8], &str); 16] = [
        (MEMBERS, &[], &[], "REFUSED 1 0\n"),
        (MEMBERS, &[1], &[], "REFUSED 1 0\n"),
        (MEMBERS, &[1, 6], &[], "REFUSED 1 0\n"),
        (MEMBERS, &[0, 0], &house[1..], "REFUSED 1 0\n"),
        (MEMBERS, &[0, 0], &wrong, "REFUSED 2 1\n"),
        (MEMBERS, &[0, 6], &house, "REFUSED 7 0\n"),
        (MEMBERS, &[7, 6], &house, "REFUSED 7 0\n"),
        (MEMBERS, &[1, 0], &house, "REFUSED 7 0\n"),
        (MEMBERS, &[1, 7], &house, "REFUSED 7 0\n"),
        (ROLES, &[], &[], "REFUSED 1 0\n"),
        (ROLES, &[4], &[], "REFUSED 1 0\n"),
        (ROLES, &[], &house, "REFUSED 1 0\n"),
        (ROLES, &[0], &wrong, "REFUSED 2 1\n"),
        (ROLES, &[0], &house, "REFUSED 7 0\n"),
        (ROLES, &[7], &house, "REFUSED 7 0\n"),
        (ROLES, &[255], &house, "REFUSED 7 0\n"),
    ];
    for (program, question, bundle, expected) in refused {
        let what = format!("{} of {question:?}", program.name);
        tally.expect(&what, expected, &prints(program, question, bundle));
    }
}

/// The mark that a list must have for a fact, from what `ask` says, or
/// nothing where there must be no line.
fn mark_of(bundle: &[u8], member: u8, entity: u8, name: u8) -> Option<&'static str> {
    let said = ask(&[&[member, entity, name], bundle].concat());
    match said.split_once(' ')?.0 {
        "YES" => Some("SURE"),
        "UNSURE" => Some("MAYBE"),
        _ => None,
    }
}

/// The list whose lines are these, with its last line.
fn with_counts(lines: Vec<String>) -> String {
    let count = |mark| lines.iter().filter(|line| line.ends_with(mark)).count();
    let (sures, maybes) = (count(" SURE"), count(" MAYBE"));
    let lines: String = lines.iter().map(|line| format!("{line}\n")).collect();
    format!("{lines}END {sures} {maybes}\n")
}

fn try_members(tally: &mut Tally, draft: &Draft) {
    let bundle = draft.bytes();
    let (entity, name) = (draft.entities, draft.names);
    let people = 1..=draft.entities;
    let lines = people.filter_map(|member| {
        let mark = mark_of(&bundle, member, entity, name)?;
        Some(format!("{member} {mark}"))
    });
    let expected = with_counts(lines.collect());
    tally.expect(
        "members, one by one",
        expected,
        prints(MEMBERS, &[entity, name], &bundle),
    );
}

fn try_roles(tally: &mut Tally, draft: &Draft) {
    let bundle = draft.bytes();
    let member = draft.entities;
    let mut lines = Vec::new();
    for entity in 1..=draft.entities {
        lines.extend((1..=draft.names).filter_map(|name| {
            let mark = mark_of(&bundle, member, entity, name)?;
            Some(format!("{entity} {name} {mark}"))
        }));
    }
    let expected = with_counts(lines);
    tally.expect(
        "roles, one by one",
        expected,
        prints(ROLES, &[member], &bundle),
    );
}
