//! The figures that the specification itself states, and the two ways of
//! working out membership held against each other.

use crate::damage::{chosen_mistakes, mistaken_record};
use crate::desk_figures::try_desk;
use crate::edition_figures::try_editions;
use crate::forge::{self, Ground};
use crate::holder_figures::try_holders;
use crate::house::{
    full, house, house_slip, house_without_5, longest_chain, longest_walk, one, over,
    self_contained, signer_question, widest_walk, GUILD, NINA, TOMAS, UPLAND,
};
use crate::list_figures::try_lists;
use crate::membership::{possible_table, sure_walk, walk_by_definition, Table};
use crate::mistake::mistake;
use crate::random::Random;
use crate::reader::{
    block_check, read_bundle, Body, Bundle, Credential, Refusal, Role, BLOCK, RECORD,
};
use crate::service::{ask, check, Answer, Question};
use crate::shape::{self, Draft};
use crate::slip::{bytes_of, check_slip, lines_of, write_slip, LINE};
use crate::text_figures::try_text;
use crate::with_sheet_figures::try_with_sheet;
use crate::writer_figures::try_writer;

/// Counts what was asked and tells what came out otherwise.
pub struct Tally {
    asked: usize,
    wrong: usize,
}

impl Tally {
    pub fn expect<T: PartialEq + std::fmt::Debug>(&mut self, what: &str, expected: T, came: T) {
        self.asked += 1;
        if expected != came {
            self.wrong += 1;
            let [expected, came] = [shown(expected), shown(came)];
            println!("wrong: {what}: expected {expected}, came {came}");
        }
    }
}

/// A value in words, cut where it is long.
fn shown(value: impl std::fmt::Debug) -> String {
    format!("{value:?}").chars().take(400).collect()
}

/// Tries everything; true when all figures come out as stated.
pub fn try_figures() -> bool {
    let mut tally = Tally { asked: 0, wrong: 0 };
    try_answers(&mut tally);
    try_checks(&mut tally);
    try_damaged_blocks(&mut tally);
    try_house_slip(&mut tally);
    try_walks(&mut tally);
    try_mistakes(&mut tally);
    try_first_mistakes(&mut tally);
    try_writer(&mut tally);
    try_lists(&mut tally);
    try_text(&mut tally);
    try_desk(&mut tally);
    try_holders(&mut tally);
    try_with_sheet(&mut tally);
    try_editions(&mut tally);
    for seed in 0..400 {
        try_mistaken_records(&mut tally, seed);
        try_membership(&mut tally, seed);
        try_slips(&mut tally, seed);
    }
    println!("figures: {} tried, {} wrong", tally.asked, tally.wrong);
    tally.wrong == 0
}

fn ask_about(question: Question, bytes: &[u8]) -> String {
    let mut input = vec![question.member, question.entity, question.name];
    input.extend(bytes);
    ask(&input)
}

fn try_answers(tally: &mut Tally) {
    let signers = [
        ("P1", house(&[]), NINA, "YES 4"),
        ("P2", house(&[]), TOMAS, "NO 4"),
        ("P3", house(&[GUILD]), TOMAS, "NO 4"),
        ("P4", house(&[UPLAND]), TOMAS, "NO 4"),
        ("P5", house(&[UPLAND, GUILD]), TOMAS, "UNSURE 4"),
        ("P6", house_without_5(&[]), NINA, "NO 3"),
        ("P7", house_without_5(&[GUILD]), NINA, "UNSURE 3"),
    ];
    for (name, draft, person, expected) in signers {
        let came = ask_about(signer_question(person), &draft.bytes());
        tally.expect(name, expected.to_string(), came);
    }
    let ones = [
        ("P8", one(&[]).bytes(), "NO 0"),
        ("P9", one(&[1]).bytes(), "UNSURE 0"),
        ("P10", self_contained().bytes(), "NO 0"),
        ("241 records", over(), "REFUSED 3 0"),
        ("an empty bundle", Vec::new(), "REFUSED 1 0"),
        ("a block of zeros", vec![0; BLOCK], "REFUSED 2 1"),
    ];
    for (name, bytes, expected) in ones {
        let came = ask_about(Question::about((1, 1, 1)), &bytes);
        tally.expect(name, expected.to_string(), came);
    }
    tally.expect("two bytes", "REFUSED 1 0".to_string(), ask(&[1, 1]));
}

fn try_checks(tally: &mut Tally) {
    let bytes = house(&[]).bytes();
    tally.expect("P11", 101, block_check(&bytes[..BLOCK]));
    tally.expect("P12", 6_884, block_check(&bytes[BLOCK..]));
    tally.expect("P12 bytes", &[228, 26][..], &bytes[2 * BLOCK - 2..]);
    tally.expect("check of P8", 12, block_check(&one(&[]).bytes()));
}

/// What the reader says of seven blocks of which some are damaged.
fn try_damaged_blocks(tally: &mut Tally) {
    let right = full().bytes();
    let refused = |blocks: &[usize]| {
        let mut bytes = right.clone();
        for number in blocks {
            bytes[number * BLOCK + 7] ^= 1;
        }
        let refusal = read_bundle(&bytes).err();
        refusal.map(|refusal| (refusal.number, refusal.place))
    };
    let places: [(&[usize], usize); 14] = [
        (&[0], 1),
        (&[1], 2),
        (&[2], 4),
        (&[3], 8),
        (&[4], 16),
        (&[5], 32),
        (&[6], 64),
        (&[0, 1], 3),
        (&[1, 3], 10),
        (&[0, 6], 65),
        (&[5, 6], 96),
        (&[0, 2, 4, 6], 85),
        (&[1, 2, 3, 4, 5, 6], 126),
        (&[0, 1, 2, 3, 4, 5, 6], 127),
    ];
    tally.expect("no block is damaged", None, refused(&[]));
    for (blocks, place) in places {
        let what = format!("damaged blocks {blocks:?}");
        tally.expect(&what, Some((2, place)), refused(blocks));
    }
}

fn try_house_slip(tally: &mut Tally) {
    let bytes = house(&[]).bytes();
    let nina = signer_question(NINA);
    let outcome = |slip: &[u8]| {
        let answer = check(&bytes, nina, slip);
        (answer.number, answer.place, answer.lines)
    };
    let slip = house_slip();
    tally.expect("the slip for P1", (0, 0, 6), outcome(&slip));
    let mut lines = lines_of(&slip);
    lines[5].premises = [3, 5, 0];
    tally.expect("premises exchanged", (10, 6, 0), outcome(&bytes_of(&lines)));
    tally.expect("without its last line", (11, 0, 0), outcome(&slip[..40]));
    let mut lines = lines_of(&slip);
    lines[3].premises = [4, 0, 0];
    tally.expect("its own premise", (10, 4, 0), outcome(&bytes_of(&lines)));
    tally.expect("an empty slip", (9, 0, 0), outcome(&[]));
    let tomas = check(&bytes, signer_question(TOMAS), &slip);
    tally.expect("another question", 11, tomas.number);
    let nobody = check(&bytes, signer_question(7), &slip);
    tally.expect("question out of range", 7, nobody.number);
    let packed = Answer::unpacked(tomas.packed());
    tally.expect("packed and unpacked", tomas, packed);
}

fn try_walks(tally: &mut Tally) {
    for names in [16, 32] {
        let chain = read_draft(&longest_chain(names));
        tally.expect("rounds of the chain", 240, sure_walk(&chain).rounds);
    }
    for (draft, goal) in [(longest_walk(), (1, 2, 32)), (widest_walk(), (1, 31, 32))] {
        let bundle = read_draft(&draft);
        let walk = sure_walk(&bundle);
        tally.expect("rounds of the long walk", 32 * 208, walk.rounds);
        let slip = write_slip(&walk, goal);
        let stated = check_slip(&bundle, goal, &slip).map(|facts| facts.len());
        tally.expect("lines of the long walk", Ok(32 * 208 + 31), stated);
    }
}

/// Records over 6 entities and 4 names, trailing zeros left off, and what is
/// wrong with each. The numbers are written by hand from the rules.
const RECORDS_AND_MISTAKES: [(&[u8], Option<u8>); 44] = [
    (&[1, 6, 4, 6], None),
    (&[2, 6, 4, 6, 4], None),
    (&[3, 6, 4, 4, 4], None),
    (&[4, 6, 4, 2, 6, 4, 6, 4], None),
    (&[4, 6, 4, 3, 6, 4, 6, 4, 6, 4], None),
    (&[], Some(61)),
    (&[5, 1, 1, 1], Some(61)),
    (&[255, 1, 1, 2, 1, 1, 1, 1], Some(61)),
    (&[0, 7, 5, 9, 7, 5, 7, 5, 7, 5, 1, 1], Some(61)),
    (&[255; 12], Some(61)),
    (&[4, 1, 1], Some(62)),
    (&[4, 1, 1, 1, 1, 1], Some(62)),
    (&[4, 1, 1, 4, 1, 1, 1, 1, 1, 1, 1, 1], Some(62)),
    (&[4, 0, 0, 255, 0, 0, 0, 0, 0, 0, 1, 1], Some(62)),
    (&[4], Some(62)),
    (&[1], Some(63)),
    (&[1, 0, 1, 1], Some(63)),
    (&[1, 7, 1, 1], Some(63)),
    (&[1, 1, 1, 0], Some(63)),
    (&[1, 1, 1, 7], Some(63)),
    (&[2, 1, 1, 7, 1], Some(63)),
    (&[3, 7, 1, 1, 1], Some(63)),
    (&[4, 1, 1, 2, 7, 1, 1, 1], Some(63)),
    (&[4, 1, 1, 2, 1, 1, 0, 1], Some(63)),
    (&[4, 1, 1, 3, 1, 1, 1, 1, 7, 1], Some(63)),
    (&[4, 1, 1, 3, 1, 1, 1, 1], Some(63)),
    (&[2, 1, 0, 7, 0, 1], Some(63)),
    (&[4, 1, 5, 2, 1, 1, 7, 1, 0, 0, 0, 9], Some(63)),
    (&[1, 1, 0, 1], Some(64)),
    (&[1, 1, 5, 1], Some(64)),
    (&[2, 1, 1, 6, 0], Some(64)),
    (&[2, 1, 1, 6, 5], Some(64)),
    (&[3, 1, 1, 5, 1], Some(64)),
    (&[3, 1, 1, 6, 1], Some(64)),
    (&[3, 1, 1, 1, 0], Some(64)),
    (&[4, 1, 1, 2, 1, 1, 1, 5], Some(64)),
    (&[4, 1, 1, 3, 6, 1, 6, 1, 6, 6], Some(64)),
    (&[1, 1, 5, 1, 1], Some(64)),
    (&[1, 1, 1, 1, 1], Some(65)),
    (&[2, 1, 1, 1, 1, 0, 0, 0, 0, 0, 0, 255], Some(65)),
    (&[3, 1, 1, 1, 1, 1], Some(65)),
    (&[4, 1, 1, 2, 1, 1, 1, 1, 1, 1], Some(65)),
    (&[4, 1, 1, 2, 1, 1, 1, 1, 0, 1], Some(65)),
    (&[4, 1, 1, 3, 1, 1, 1, 1, 1, 1, 1], Some(65)),
];

fn try_mistakes(tally: &mut Tally) {
    for (used, expected) in RECORDS_AND_MISTAKES {
        let mut record = used.to_vec();
        record.resize(RECORD, 0);
        tally.expect(
            &format!("record {used:?}"),
            expected,
            mistake(6, 4, &record),
        );
    }
    let largest = [4, 255, 255, 3, 255, 255, 255, 255, 255, 255, 0, 0];
    tally.expect("no number is too high", None, mistake(255, 255, &largest));
    tally.expect("the highest entity", Some(63), mistake(254, 255, &largest));
    tally.expect("the highest name", Some(64), mistake(255, 254, &largest));
    tally.expect("without entities", Some(63), mistake(0, 255, &largest));
}

/// Of several wrong records the lowest counts, whatever is wrong with it.
fn try_first_mistakes(tally: &mut Tally) {
    let mut draft = full();
    let outcome = |draft: &Draft| read_bundle(&draft.bytes()).err();
    for (number, place, byte) in [(65, 240, 11), (61, 200, 0), (65, 41, 11), (61, 40, 0)] {
        draft.records[place - 1][byte] = 5;
        tally.expect(
            "a lower record",
            Some(Refusal::new(number, place)),
            outcome(&draft),
        );
    }
    draft.records[0] = [4, 1, 7, 2, 1, 1, 1, 1, 1, 0, 0, 0];
    tally.expect("record 1", Some(Refusal::new(64, 1)), outcome(&draft));
}

/// A record that is made with some mistakes has the lowest of them.
fn try_mistaken_records(tally: &mut Tally, seed: u64) {
    let mut random = Random::new(seed);
    let draft = shape::sized(&mut random, 0);
    let mistakes = chosen_mistakes(seed as usize);
    let record = mistaken_record(&mut random, &draft, &mistakes);
    let came = mistake(draft.entities, draft.names, &record);
    tally.expect("a mistaken record", Some(mistakes[0]), came);
}

fn read_draft(draft: &Draft) -> Bundle {
    read_bundle(&draft.bytes()).expect("the shapes draw valid bundles")
}

/// Both ways of working out membership, on one small bundle.
fn try_membership(tally: &mut Tally, seed: u64) {
    let mut random = Random::new(seed);
    let mut draft = match seed % 5 {
        0 => shape::some_long_walk(&mut random),
        1 => shape::intersections(&mut random),
        2 => shape::dense_links(&mut random, 6, 3, 30),
        3 => shape::repeated_records(&mut random),
        _ => shape::small(&mut random),
    };
    shape::mark_absent(&mut random, &mut draft);
    let bundle = read_draft(&draft);
    let walk = sure_walk(&bundle);
    let defined = walk_by_definition(&bundle.credentials);
    tally.expect(
        "sure table",
        (&defined.0, defined.1),
        (&walk.table, walk.rounds),
    );
    let possible = possible_table(&bundle);
    let mut completed = bundle.credentials.clone();
    completed.extend(largest_completion(&bundle));
    let granted = walk_by_definition(&completed).0;
    tally.expect("possible table", &granted, &possible);
    try_completion(tally, &mut random, &draft, &possible);
}

/// Every member that an absent entity could name, named.
fn largest_completion(bundle: &Bundle) -> Vec<Credential> {
    let mut credentials = Vec::new();
    for entity in &bundle.absent {
        for name in 1..=bundle.names {
            credentials.extend((1..=bundle.entities).map(|member| Credential {
                head: Role::new(*entity, name),
                body: Body::Member(member),
            }));
        }
    }
    credentials
}

/// A completion drawn by lot never leads beyond the possible members.
fn try_completion(tally: &mut Tally, random: &mut Random, draft: &Draft, possible: &Table) {
    let mut completed = draft.clone();
    if !draft.absent.is_empty() {
        for _ in 0..10 {
            let form = random.number(4);
            let mut record = shape::random_record(random, draft, form);
            record[1] = random.pick(&draft.absent);
            completed.records.push(record);
        }
    }
    completed.records.truncate(240);
    let table = walk_by_definition(&read_draft(&completed).credentials).0;
    let beyond = table.difference(possible).count();
    tally.expect("members beyond the possible ones", 0, beyond);
}

/// The writer's slips are right for every fact, and no slip that is accepted
/// states a fact that doesn't hold.
fn try_slips(tally: &mut Tally, seed: u64) {
    let mut random = Random::new(seed);
    let ground = Ground::draw(&mut random);
    for goal in ground.walk.table.iter().take(20) {
        let slip = write_slip(&ground.walk, *goal);
        let stated = check_slip(&ground.bundle, *goal, &slip).unwrap_or_default();
        let different: Table = stated.iter().copied().collect();
        tally.expect("lines of a slip", slip.len() / LINE, different.len());
    }
    for turn in 0..20 {
        let lines = match turn % 2 {
            0 => ground.lines(&mut random),
            _ => forge::wander(&mut random, &ground.bundle),
        };
        let slip = forge::change_premises(&mut random, turn, lines);
        let stated = check_slip(&ground.bundle, ground.goal, &slip).unwrap_or_default();
        let facts: Table = stated.into_iter().collect();
        tally.expect("no false fact", true, facts.is_subset(&ground.walk.table));
    }
}
