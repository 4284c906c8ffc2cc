//! The bundles with names: the small house, its variants, and the bundles at
//! the edges of what the format allows.

use crate::edition::NAMES_OF_EDITION_1;
use crate::random::Random;
use crate::reader::{Role, MOST_CREDENTIALS, MOST_ENTITIES, MOST_NAMES};
use crate::service::Question;
use crate::shape::{
    add_records, chain_records, contained_record, dense_links, intersection_record, linked_record,
    long_walk, member_record, seal, walk_records, Draft, Record,
};
use crate::slip::{bytes_of, Line};
use std::fs;
use std::io;
use std::path::Path;

pub const ARCHIVE: u8 = 1;
pub const BOARD: u8 = 2;
pub const UPLAND: u8 = 3;
pub const NINA: u8 = 4;
pub const GUILD: u8 = 5;
pub const TOMAS: u8 = 6;

const READER: u8 = 1;
const COLLEGE: u8 = 2;
const ACCREDITED: u8 = 3;
const STUDENT: u8 = 4;
const MEMBER: u8 = 5;
pub const SIGNER: u8 = 6;

/// The codes of the six names under which every record of the house is well
/// typed: reader, college and signer are kept by their issuers, and the cards
/// accredited, student and member by those they name.
pub const CODES: [u8; 6] = [3, 3, 2, 2, 2, 3];

/// Is this person in the Archive's signer role?
pub fn signer_question(person: u8) -> Question {
    Question::about((ARCHIVE, SIGNER, person))
}

fn house_records() -> Vec<Record> {
    let accredited = Role::new(BOARD, ACCREDITED);
    let reader = Role::new(ARCHIVE, READER);
    let member = Role::new(GUILD, MEMBER);
    vec![
        contained_record(Role::new(ARCHIVE, COLLEGE), accredited),
        member_record(accredited, UPLAND),
        linked_record(reader, COLLEGE, STUDENT),
        member_record(Role::new(UPLAND, STUDENT), NINA),
        member_record(member, NINA),
        intersection_record(Role::new(ARCHIVE, SIGNER), &[reader, member]),
    ]
}

/// The small house, with these shelves absent.
pub fn house(absent: &[u8]) -> Draft {
    let mut draft = Draft::new(6, 6);
    draft.absent = absent.to_vec();
    draft.records = house_records();
    draft
}

/// The small house without its fifth record.
pub fn house_without_5(absent: &[u8]) -> Draft {
    let mut draft = house(absent);
    draft.records.remove(4);
    draft
}

/// One entity, one name and no records.
pub fn one(absent: &[u8]) -> Draft {
    let mut draft = Draft::new(1, 1);
    draft.absent = absent.to_vec();
    draft
}

/// One role that contains itself.
pub fn self_contained() -> Draft {
    let mut draft = one(&[]);
    let role = Role::new(1, 1);
    draft.records.push(contained_record(role, role));
    draft
}

/// As many records as a bundle can hold, of every form.
pub fn full() -> Draft {
    let mut draft = Draft::new(12, 6);
    draft.absent = vec![TOMAS];
    let count = usize::from(MOST_CREDENTIALS);
    add_records(&mut Random::new(240), &mut draft, count, &[1, 1, 2, 3, 4]);
    draft
}

/// The full bundle with 241 written as the number of its records.
pub fn over() -> Vec<u8> {
    let mut bytes = full().bytes();
    bytes[3] = MOST_CREDENTIALS + 1;
    seal(&mut bytes, 0);
    bytes
}

/// The most entities, so many names, every shelf absent and no records.
pub fn all_absent(names: u8) -> Draft {
    let mut draft = Draft::new(MOST_ENTITIES, names);
    draft.absent = (1..=MOST_ENTITIES).collect();
    draft
}

/// One member and 239 roles over so many names, each containing the one
/// before.
pub fn longest_chain(names: u8) -> Draft {
    let mut draft = Draft::new(MOST_ENTITIES, names);
    let numbers = 0..MOST_CREDENTIALS;
    let roles: Vec<Role> = numbers
        .map(|number| Role::new(number / names + 1, number % names + 1))
        .collect();
    draft.records.push(member_record(roles[0], MOST_ENTITIES));
    draft.records.extend(chain_records(&roles));
    draft
}

/// The long walk with the most people and 240 records over the names of
/// edition 1: one starts the walk, one is the link, 31 name the next person,
/// and 207 form the chain.
///
/// None is longer by more than a round. Each of p people is named by a record
/// of form 1, and all of these give in round 1. So at most 240 - p roles get
/// members later, one of p in each round: 1 + 32 * 208 rounds with 32 people.
pub fn longest_walk() -> Draft {
    long_walk(MOST_ENTITIES, NAMES_OF_EDITION_1, 207)
}

/// The same walk over 32 names: its 208 roles have the names 1, 6, 11, 16, 21,
/// 26 and 31 of the entities in turn, and the next person stands in name 32.
/// The chain ends in 1.31, as the link needs a role of the first entity.
pub fn widest_walk() -> Draft {
    let mut draft = Draft::new(MOST_ENTITIES, MOST_NAMES);
    let numbers = 0..208;
    let mut roles: Vec<Role> = numbers
        .map(|number| Role::new(number % MOST_ENTITIES + 1, number / MOST_ENTITIES * 5 + 1))
        .collect();
    let end = roles.remove(192);
    roles.push(end);
    draft.records = walk_records(MOST_ENTITIES, MOST_NAMES, &roles);
    draft
}

pub fn densest_links() -> Draft {
    let count = usize::from(MOST_CREDENTIALS);
    dense_links(&mut Random::new(32), MOST_ENTITIES, 4, count)
}

/// The slip for Nina as a signer.
pub fn house_slip() -> Vec<u8> {
    let line = |member, credential, premises| Line {
        member,
        credential,
        premises,
    };
    bytes_of(&[
        line(UPLAND, 2, [0, 0, 0]),
        line(NINA, 4, [0, 0, 0]),
        line(NINA, 5, [0, 0, 0]),
        line(UPLAND, 1, [1, 0, 0]),
        line(NINA, 3, [4, 2, 0]),
        line(NINA, 6, [5, 3, 0]),
    ])
}

/// Every named file with its bytes.
fn files() -> Vec<(&'static str, Vec<u8>)> {
    vec![
        ("house.bundle", house(&[]).bytes()),
        ("guild-absent.bundle", house(&[GUILD]).bytes()),
        ("upland-absent.bundle", house(&[UPLAND]).bytes()),
        ("both-absent.bundle", house(&[UPLAND, GUILD]).bytes()),
        ("without-5.bundle", house_without_5(&[]).bytes()),
        (
            "without-5-guild-absent.bundle",
            house_without_5(&[GUILD]).bytes(),
        ),
        ("one.bundle", one(&[]).bytes()),
        ("one-absent.bundle", one(&[1]).bytes()),
        ("self.bundle", self_contained().bytes()),
        ("full.bundle", full().bytes()),
        ("over.bundle", over()),
        ("all-absent.bundle", all_absent(16).bytes()),
        ("all-absent-32.bundle", all_absent(32).bytes()),
        ("chain.bundle", longest_chain(16).bytes()),
        ("chain-32.bundle", longest_chain(32).bytes()),
        ("long-walk.bundle", longest_walk().bytes()),
        ("long-walk-32.bundle", widest_walk().bytes()),
        ("dense-links.bundle", densest_links().bytes()),
        ("house.slip", house_slip()),
    ]
}

/// Writes the named files into a directory.
pub fn write_files(directory: &str) -> io::Result<()> {
    fs::create_dir_all(directory)?;
    for (name, bytes) in files() {
        fs::write(Path::new(directory).join(name), bytes)?;
    }
    Ok(())
}
