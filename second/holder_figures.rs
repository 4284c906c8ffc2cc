//! What the documents say of storage types, tried on this program's own: the
//! small house under several assignments, the sheet's rules and the order of
//! refusals, and what leaving out credentials does to the sure members.

use crate::figures::Tally;
use crate::holders::{holders, packed, HOLDERS};
use crate::house::{house, one, CODES};
use crate::membership::{walk_by_definition, Table};
use crate::random::Random;
use crate::reader::{read_bundle, Body, Credential, Role};
use crate::shape::{self, Draft};
use crate::sheet::{read_sheet, IssuerTraces, Sheet};
use crate::sheet_draw::{damage_sheet, sheet_of, some_codes};
use crate::storage::{structurally_well_typed, who_stores};

pub fn try_holders(tally: &mut Tally) {
    try_house(tally);
    try_results(tally);
    try_wrong_sheets(tally);
    try_short_inputs(tally);
    try_intersection_left_out(tally);
    for seed in 0..300 {
        try_left_out(tally, seed);
    }
}

/// The assignments of names to codes are those that document 000 goes through
/// behind its example 5, with the names of the small house: reader for
/// preferred, college for university, signer for spdiscount. The lines are
/// written by hand.
const ASSIGNMENTS: [([u8; 6], &str); 10] = [
    (
        CODES,
        "1 WELL 1,2 WELL 3,3 WELL 1,4 WELL 4,5 WELL 4,6 WELL 1,END 6 0",
    ),
    (
        [3, 2, 3, 2, 2, 3],
        "1 ILL,2 WELL 2,3 WELL 1,4 WELL 4,5 WELL 4,6 WELL 1,END 5 1",
    ),
    (
        [3, 3, 2, 3, 2, 3],
        "1 WELL 1,2 WELL 3,3 ILL,4 WELL 3,5 WELL 4,6 WELL 1,END 5 1",
    ),
    (
        [3, 3, 2, 5, 2, 3],
        "1 WELL 1,2 WELL 3,3 ILL,4 WELL 3,5 WELL 4,6 WELL 1,END 5 1",
    ),
    (
        [3, 5, 5, 3, 2, 3],
        "1 WELL 1,2 WELL 2,3 WELL 1,4 WELL 3,5 WELL 4,6 WELL 1,END 6 0",
    ),
    (
        [2; 6],
        "1 WELL 2,2 WELL 3,3 WELL 1,4 WELL 4,5 WELL 4,6 WELL 1 5,END 6 0",
    ),
    (
        [6; 6],
        "1 WELL 1 2,2 WELL 2 3,3 WELL 1,4 WELL 3 4,5 WELL 4 5,6 WELL 1 5,END 6 0",
    ),
    (
        [5; 6],
        "1 WELL 1,2 WELL 2,3 WELL 1,4 WELL 3,5 WELL 5,6 WELL 1,END 6 0",
    ),
    (
        [3; 6],
        "1 WELL 1,2 WELL 2,3 ILL,4 WELL 3,5 WELL 5,6 WELL 1,END 5 1",
    ),
    ([1; 6], "1 ILL,2 ILL,3 ILL,4 ILL,5 ILL,6 ILL,END 0 6"),
];

fn printed(sheet: &[u8], bundle: &[u8]) -> String {
    let output = (HOLDERS.prints)(&[sheet, bundle].concat());
    String::from_utf8(output).expect("the program prints text")
}

fn try_house(tally: &mut Tally) {
    let bundle = house(&[]).bytes();
    for (codes, lines) in ASSIGNMENTS {
        let expected: String = lines.split(',').map(|line| format!("{line}\n")).collect();
        let what = format!("the house under {codes:?}");
        tally.expect(&what, expected, printed(&sheet_of(&codes), &bundle));
    }
    let none = printed(&sheet_of(&[1]), &one(&[]).bytes());
    tally.expect("no records", "END 0 0\n".to_string(), none);
}

fn try_results(tally: &mut Tally) {
    let bundle = house(&[]).bytes();
    let wrong = vec![0; bundle.len()];
    let [right, all_six] = [CODES, [6; 6]].map(|codes| sheet_of(&codes));
    let result = |bundle: &[u8], sheet: &[u8], record| packed(&holders(bundle, sheet, record));
    tally.expect("record 4", 0x1_0000_0008, result(&bundle, &right, 4));
    tally.expect("record 6", 0x1_0000_0011, result(&bundle, &all_six, 6));
    tally.expect("ill", 0, result(&bundle, &sheet_of(&[1; 6]), 6));
    tally.expect("record 0", 7 << 56, result(&bundle, &right, 0));
    tally.expect("record 7", 7 << 56, result(&bundle, &right, 7));
    tally.expect("record 255", 7 << 56, result(&bundle, &right, 255));
    tally.expect("15 before 7", 15 << 56, result(&bundle, &wrong, 0));
    tally.expect("1 before 15", 1 << 56, result(&[], &wrong, 0));
    tally.expect("2 before 15", 2, result(&wrong, &wrong, 0) >> 56);
}

/// Every damaged sheet is refused, save where the damage changes nothing.
fn try_wrong_sheets(tally: &mut Tally) {
    let mut random = Random::new(106);
    for turn in 0..240 {
        let sheet = damage_sheet(&mut random, turn, &CODES);
        let refused = read_sheet(6, &sheet).err().map(|refusal| refusal.number);
        let expected = (sheet[..] != sheet_of(&CODES)[..]).then_some(15);
        let same_names = sheet.get(509) == Some(&6) && sheet.len() == 512;
        if turn % 6 != 2 || !same_names {
            tally.expect(&format!("wrong sheet {turn}"), expected, refused);
        }
    }
    let names = read_sheet(5, &sheet_of(&CODES)).err();
    tally.expect("another R", Some(15), names.map(|refusal| refusal.number));
}

fn try_short_inputs(tally: &mut Tally) {
    let sheet = sheet_of(&CODES);
    let bundle = house(&[]).bytes();
    for length in [0, 1, 511, 512, 513] {
        let cut = [&sheet[..], &bundle].concat()[..length].to_vec();
        tally.expect("cut", "REFUSED 1 0\n", &printed(&cut, &[]));
    }
    tally.expect("15", "REFUSED 15 0\n", &printed(&[0; 512], &bundle));
}

fn issuer_traces_all(sheet: &Sheet, role: Role) -> bool {
    sheet.type_of(role.name).0 == IssuerTraces::All
}

/// The sure members of the issuer-traces-all roles.
fn traced_members(sheet: &Sheet, credentials: &[Credential]) -> Table {
    let mut table = walk_by_definition(credentials).0;
    table.retain(|(entity, name, _)| issuer_traces_all(sheet, Role::new(*entity, *name)));
    table
}

/// The same after every credential is left out whose head is not
/// issuer-traces-all.
fn members_left(sheet: &Sheet, credentials: &[Credential]) -> Table {
    let mut left = credentials.to_vec();
    left.retain(|credential| issuer_traces_all(sheet, credential.head));
    traced_members(sheet, &left)
}

/// Without intersections, and where all credentials are structurally well
/// typed, nothing is lost. Every one of them has somebody to store it.
fn try_left_out(tally: &mut Tally, seed: u64) {
    let mut random = Random::new(seed);
    let mut draft = Draft::new(random.number(5), random.number(4));
    shape::add_records(&mut random, &mut draft, 60, &[1, 2, 2, 3, 3, 3]);
    let codes = some_codes(&mut random, draft.names);
    let sheet = read_sheet(draft.names, &sheet_of(&codes)).expect("the codes are right");
    let mut credentials = read_bundle(&draft.bytes())
        .expect("the shapes draw valid bundles")
        .credentials;
    credentials.retain(|credential| structurally_well_typed(&sheet, credential));
    let stored = |credential| who_stores(&sheet, credential).is_some_and(|by| !by.is_empty());
    tally.expect("stored by somebody", true, credentials.iter().all(stored));
    let before = traced_members(&sheet, &credentials);
    tally.expect("members left", before, members_left(&sheet, &credentials));
}

/// With an intersection something can be lost: 1.3 is issuer-traces-all by its
/// part 1.1 alone, and the members of its other part are left out.
fn try_intersection_left_out(tally: &mut Tally) {
    let [first, second, head] = [1, 2, 3].map(|name| Role::new(1, name));
    let credential = |head, body| Credential { head, body };
    let credentials = [
        credential(first, Body::Member(1)),
        credential(second, Body::Member(1)),
        credential(head, Body::Intersection(vec![first, second])),
    ];
    let sheet = read_sheet(3, &sheet_of(&[5, 2, 5])).expect("the codes are right");
    let well = |credential| structurally_well_typed(&sheet, credential);
    tally.expect("well typed", true, credentials.iter().all(well));
    let before = traced_members(&sheet, &credentials);
    let after = members_left(&sheet, &credentials);
    tally.expect("before", [(1, 1, 1), (1, 3, 1)].into(), before);
    tally.expect("after", [(1, 1, 1)].into(), after);
}
