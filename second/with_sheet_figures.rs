//! What the specification says of open roles, tried on this program's own: the
//! case of the small house, what a sheet never changes, and the possible
//! members against completions.

use crate::figures::Tally;
use crate::house::{house, ARCHIVE, CODES, NINA, SIGNER, TOMAS, UPLAND};
use crate::membership::{possible_table, possible_with, walk_by_definition, Table};
use crate::open_roles::{absent_roles, open_roles};
use crate::random::Random;
use crate::reader::{read_bundle, Body, Bundle, Credential, Role};
use crate::service::{
    ask, ask_with_sheet, search, search_with_sheet, tables_with_sheet, Lent, Question, UNSURE, YES,
};
use crate::shape::{self, Draft};
use crate::sheet::read_sheet;
use crate::sheet_draw::{sheet_of, some_codes};
use std::collections::BTreeSet;

pub fn try_with_sheet(tally: &mut Tally) {
    try_house(tally);
    try_refusals(tally);
    for seed in 0..150 {
        try_open_roles(tally, seed);
        try_same(tally, seed);
    }
}

fn asked(question: [u8; 3], codes: &[u8], bundle: &[u8]) -> String {
    ask_with_sheet(&[&question, &sheet_of(codes)[..], bundle].concat())
}

/// Name 4 is student, and name 1 reader.
fn try_house(tally: &mut Tally) {
    let tomas_absent = house(&[TOMAS]).bytes();
    let reader = [TOMAS, ARCHIVE, 1];
    let alone = ask(&[&reader, &tomas_absent[..]].concat());
    tally.expect("without a sheet", "NO 4", &alone);
    let expected = [
        ([3, 3, 3, 1, 3, 3], "UNSURE 4"),
        ([3, 3, 3, 2, 3, 3], "UNSURE 4"),
        ([3, 3, 3, 3, 3, 3], "NO 4"),
        ([4, 4, 4, 4, 4, 4], "NO 4"),
        ([5, 5, 5, 5, 5, 5], "NO 4"),
        ([6, 6, 6, 6, 6, 6], "NO 4"),
        ([3, 3, 3, 3, 2, 3], "NO 4"),
        ([2, 3, 3, 3, 3, 3], "UNSURE 4"),
        ([3, 1, 3, 3, 3, 3], "UNSURE 4"),
    ];
    for (codes, line) in expected {
        let what = format!("Tomas a reader under {codes:?}");
        tally.expect(&what, line, &asked(reader, &codes, &tomas_absent));
        let present = asked(reader, &codes, &house(&[]).bytes());
        tally.expect("all present", "NO 4", &present);
    }
    let nina = asked([NINA, ARCHIVE, SIGNER], &[1; 6], &tomas_absent);
    tally.expect("Nina a signer", "YES 4", &nina);
    let upland = house(&[UPLAND]).bytes();
    tally.expect(
        "Upland absent",
        "UNSURE 4",
        &asked(reader, &[3; 6], &upland),
    );
}

fn try_refusals(tally: &mut Tally) {
    let bundle = house(&[]).bytes();
    let sheet = sheet_of(&CODES);
    let nobody = Question::about((7, 1, 1));
    let short = Lent {
        sure_words: 1_023,
        ..Lent::enough()
    };
    let number = |bundle: &[u8], sheet: &[u8], question, lent| {
        let outcome = search_with_sheet(bundle, sheet, question, lent);
        (outcome.answer.number, outcome.tables.is_none())
    };
    let some = Question::about((1, 1, 1));
    tally.expect("1", (1, true), number(&[], &[], nobody, short));
    tally.expect("15", (15, true), number(&bundle, &[], nobody, short));
    tally.expect("7", (7, true), number(&bundle, &sheet, nobody, short));
    tally.expect("8", (8, true), number(&bundle, &sheet, some, short));
    let tables = |bundle: &[u8], sheet: &[u8]| tables_with_sheet(bundle, sheet, short);
    tally.expect("1", 1, tables(&[], &[]).answer.number);
    tally.expect("15", 15, tables(&bundle, &[]).answer.number);
    tally.expect("8", 8, tables(&bundle, &sheet).answer.number);
    let input = [&[1, 1, 1][..], &sheet, &bundle].concat();
    for length in [0, 2, 3, 514, 515] {
        let line = ask_with_sheet(&input[..length]);
        tally.expect("cut", "REFUSED 1 0", &line);
    }
}

/// A small bundle with shelves absent, and codes for its names.
fn drawn(seed: u64) -> (Random, Draft, Vec<u8>) {
    let mut random = Random::new(seed);
    let mut draft = shape::small(&mut random);
    shape::mark_absent(&mut random, &mut draft);
    let codes = some_codes(&mut random, draft.names);
    (random, draft, codes)
}

/// Every member that a completion could name in an open role, named.
fn largest_completion(bundle: &Bundle, open: &BTreeSet<Role>) -> Vec<Credential> {
    let names = |head: &Role| {
        let head = *head;
        let members = 1..=bundle.entities;
        members.map(move |member| Credential {
            head,
            body: Body::Member(member),
        })
    };
    open.iter().flat_map(names).collect()
}

/// The possible members are those under the largest completion, and those of
/// a completion drawn by lot are among them.
fn try_open_roles(tally: &mut Tally, seed: u64) {
    let (mut random, draft, codes) = drawn(seed);
    let bundle = read_bundle(&draft.bytes()).expect("the shapes draw valid bundles");
    let sheet = read_sheet(bundle.names, &sheet_of(&codes)).expect("the codes are right");
    let open = open_roles(&bundle, &sheet);
    let possible = possible_with(&bundle, &open);
    let mut completed = bundle.credentials.clone();
    completed.extend(largest_completion(&bundle, &open));
    tally.expect("possible", &walk_by_definition(&completed).0, &possible);

    let mut longer = draft.clone();
    for _ in 0..200 {
        let form = random.number(4);
        let record = shape::random_record(&mut random, &draft, form);
        if open.contains(&Role::new(record[1], record[2])) {
            longer.records.push(record);
        }
    }
    longer.records.truncate(240);
    let longer = read_bundle(&longer.bytes()).expect("a longer bundle is valid");
    let table = walk_by_definition(&longer.credentials).0;
    tally.expect(
        "beyond the possible",
        0,
        table.difference(&possible).count(),
    );

    let alone = absent_roles(&bundle);
    tally.expect("open without a sheet", true, alone.is_subset(&open));
    if bundle.absent.is_empty() || codes.iter().all(|code| *code > 2) {
        tally.expect("nothing more is open", alone, open);
    }
}

/// With and without a sheet the sure table, the rounds and YES are the same,
/// and UNSURE stays.
fn try_same(tally: &mut Tally, seed: u64) {
    let (mut random, draft, codes) = drawn(seed);
    let bundle = draft.bytes();
    let sheet = sheet_of(&codes);
    let role = shape::random_role(&mut random, &draft);
    for member in 1..=draft.entities {
        let question = Question::about((role.entity, role.name, member));
        let alone = search(&bundle, question, Lent::enough());
        let with = search_with_sheet(&bundle, &sheet, question, Lent::enough());
        let verdicts = [alone.answer.verdict, with.answer.verdict];
        let stays = verdicts[0] == verdicts[1] || verdicts[1] == UNSURE;
        tally.expect(
            "the verdict",
            true,
            stays && (verdicts[0] == YES) == (verdicts[1] == YES),
        );
        tally.expect("rounds", alone.answer.rounds, with.answer.rounds);
        tally.expect("the slip", &alone.slip, &with.slip);
        let sure = |tables: Option<(Table, Table)>| tables.map(|tables| tables.0);
        let tables = tables_with_sheet(&bundle, &sheet, Lent::enough());
        tally.expect("rounds", with.answer.rounds, tables.answer.rounds);
        tally.expect("tables", &with.tables, &tables.tables);
        tally.expect("sure", sure(alone.tables), sure(with.tables));
    }
    let bundle = read_bundle(&bundle).expect("the shapes draw valid bundles");
    let possible = possible_table(&bundle);
    let alone = possible_with(&bundle, &absent_roles(&bundle));
    tally.expect("the same words", possible, alone);
}
