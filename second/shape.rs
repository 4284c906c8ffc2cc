//! Valid bundles: a draft, its bytes, and the shapes that drafts are drawn in.
//!
//! A draft holds what a bundle says and is turned into blocks by `bytes`.
//! The shapes differ in what they make likely: many rounds, many links, many
//! equal records, wide intersections, or bundles of one form alone.

use crate::edition::edition_of;
use crate::membership::{fact, Fact};
use crate::mistake::layout_of;
use crate::random::Random;
use crate::reader::{
    block_check, Role, ABSENT, BLOCK, BLOCK_NUMBER_PLACE, CHECK_PLACE, MOST_CREDENTIALS,
    MOST_ENTITIES, MOST_NAMES, PRESENT, RECORD, RECORDS_IN_BLOCK, RECORD_COUNT_PLACE,
};

pub type Record = [u8; RECORD];

/// What a bundle says, before it is laid out in blocks.
#[derive(Clone)]
pub struct Draft {
    pub entities: u8,
    pub names: u8,
    pub absent: Vec<u8>,
    pub records: Vec<Record>,
}

impl Draft {
    pub fn new(entities: u8, names: u8) -> Draft {
        Draft {
            entities,
            names,
            absent: Vec::new(),
            records: Vec::new(),
        }
    }

    /// The blocks of the bundle, each with its check.
    pub fn bytes(&self) -> Vec<u8> {
        let mut bytes = vec![0; BLOCK];
        let count = self.records.len() as u8;
        let edition = edition_of(self.names);
        bytes[..4].copy_from_slice(&[edition, self.entities, self.names, count]);
        for entity in 1..=self.entities {
            let absent = self.absent.contains(&entity);
            bytes[3 + usize::from(entity)] = if absent { ABSENT } else { PRESENT };
        }
        for (index, records) in self.records.chunks(RECORDS_IN_BLOCK).enumerate() {
            bytes.extend(record_block(index + 1, records));
        }
        seal_all(&mut bytes);
        bytes
    }

    fn room(&self) -> usize {
        usize::from(MOST_CREDENTIALS) - self.records.len()
    }
}

/// A record block without its check.
pub fn record_block(number: usize, records: &[Record]) -> Vec<u8> {
    let mut block = records.concat();
    block.resize(BLOCK, 0);
    block[BLOCK_NUMBER_PLACE] = number as u8;
    block[RECORD_COUNT_PLACE] = records.len() as u8;
    block
}

/// Gives one block of a bundle its right check.
pub fn seal(bytes: &mut [u8], number: usize) {
    let block = &mut bytes[number * BLOCK..(number + 1) * BLOCK];
    let check = block_check(block);
    block[CHECK_PLACE..].copy_from_slice(&check.to_le_bytes());
}

pub fn seal_all(bytes: &mut [u8]) {
    for number in 0..bytes.len() / BLOCK {
        seal(bytes, number);
    }
}

fn record(used: &[u8]) -> Record {
    let mut record = [0; RECORD];
    record[..used.len()].copy_from_slice(used);
    record
}

pub fn member_record(head: Role, member: u8) -> Record {
    record(&[1, head.entity, head.name, member])
}

pub fn contained_record(head: Role, role: Role) -> Record {
    record(&[2, head.entity, head.name, role.entity, role.name])
}

pub fn linked_record(head: Role, first: u8, second: u8) -> Record {
    record(&[3, head.entity, head.name, first, second])
}

pub fn intersection_record(head: Role, parts: &[Role]) -> Record {
    let mut used = vec![4, head.entity, head.name, parts.len() as u8];
    used.extend(parts.iter().flat_map(|part| [part.entity, part.name]));
    record(&used)
}

pub fn random_role(random: &mut Random, draft: &Draft) -> Role {
    Role::new(random.number(draft.entities), random.number(draft.names))
}

/// A right record of the given form, drawn by lot.
pub fn random_record(random: &mut Random, draft: &Draft, form: u8) -> Record {
    let head = random_role(random, draft);
    match form {
        1 => member_record(head, random.number(draft.entities)),
        2 => contained_record(head, random_role(random, draft)),
        3 => linked_record(head, random.number(draft.names), random.number(draft.names)),
        _ => {
            let count = random.between(2, 3);
            random_intersection(random, draft, head, count)
        }
    }
}

pub fn random_intersection(random: &mut Random, draft: &Draft, head: Role, count: usize) -> Record {
    let parts: Vec<Role> = (0..count).map(|_| random_role(random, draft)).collect();
    intersection_record(head, &parts)
}

/// Adds records, as far as there is room, with forms drawn from a list in
/// which a form that stands twice comes twice as often.
pub fn add_records(random: &mut Random, draft: &mut Draft, count: usize, forms: &[u8]) {
    for _ in 0..count.min(draft.room()) {
        let form = random.pick(forms);
        let new_record = random_record(random, draft, form);
        draft.records.push(new_record);
    }
}

/// Marks shelves absent: none, one, some, all but one, or all.
pub fn mark_absent(random: &mut Random, draft: &mut Draft) {
    let way = random.below(6);
    let chosen = random.number(draft.entities);
    draft.absent = (1..=draft.entities)
        .filter(|entity| match way {
            0 => false,
            1 => *entity == chosen,
            2 => random.once_in(2),
            3 => random.once_in(5),
            4 => *entity != chosen,
            _ => true,
        })
        .collect();
}

/// Gives the names of a draft other numbers, among up to 32, half of the time.
/// So credentials meet one another as often as before, in bundles of either
/// edition. A draft of 32 names has its names exchanged.
pub fn spread_names(random: &mut Random, draft: &mut Draft) {
    if random.once_in(2) {
        return;
    }
    let anywhere = random.between(usize::from(draft.names), usize::from(MOST_NAMES)) as u8;
    let telling = random.pick(&[16, 17, MOST_NAMES, MOST_NAMES, anywhere, anywhere]);
    draft.names = telling.max(draft.names);
    let mut numbers: Vec<u8> = (1..=draft.names).collect();
    random.shuffle(&mut numbers);
    for record in &mut draft.records {
        let layout = layout_of(record).expect("the shapes draw right records");
        for (place, _) in layout.match_indices('n') {
            record[place] = numbers[usize::from(record[place]) - 1];
        }
    }
}

/// Few entities and names, so that the credentials meet one another often.
pub fn small(random: &mut Random) -> Draft {
    let mut draft = Draft::new(random.number(6), random.number(5));
    let roles = usize::from(draft.entities) * usize::from(draft.names);
    let count = random.below(2 * roles + 5);
    add_records(random, &mut draft, count, &[1, 1, 2, 3, 4]);
    draft
}

/// A bundle with exactly so many records.
pub fn sized(random: &mut Random, count: usize) -> Draft {
    let mut draft = Draft::new(random.number(MOST_ENTITIES), random.number(MOST_NAMES));
    match random.below(6) {
        0 => draft = Draft::new(MOST_ENTITIES, MOST_NAMES),
        1 | 2 => draft = Draft::new(random.number(12), random.number(4)),
        _ => {}
    }
    let forms = random.pick(&[&[1, 1, 2, 3, 4][..], &[1, 2, 2, 2, 4], &[1, 1, 1, 4, 3, 2]]);
    add_records(random, &mut draft, count, forms);
    draft
}

/// Numbers of records around every place where a block fills up.
pub fn telling_count(random: &mut Random, turn: usize) -> usize {
    const COUNTS: [usize; 21] = [
        0, 1, 2, 39, 40, 41, 79, 80, 81, 119, 120, 121, 159, 160, 161, 199, 200, 201, 238, 239, 240,
    ];
    if turn % 2 == 0 {
        COUNTS[turn / 2 % COUNTS.len()]
    } else {
        random.between(0, usize::from(MOST_CREDENTIALS))
    }
}

/// One form alone, with a few named members to start from.
pub fn one_form(random: &mut Random, form: u8) -> Draft {
    let mut draft = Draft::new(random.number(12), random.number(6));
    let started = random.below(8);
    add_records(random, &mut draft, started, &[1]);
    let count = random.below(60);
    add_records(random, &mut draft, count, &[form]);
    draft
}

/// A few of the draft's roles in an order drawn by lot, none of them twice.
fn different_roles(random: &mut Random, draft: &Draft, count: usize) -> Vec<Role> {
    let mut roles = Vec::new();
    for entity in 1..=draft.entities {
        roles.extend((1..=draft.names).map(|name| Role::new(entity, name)));
    }
    random.shuffle(&mut roles);
    roles.truncate(count);
    roles
}

/// A chain of roles, each containing the one before. The records stand in
/// the chain's order, against it, or shuffled.
pub fn chain(random: &mut Random) -> Draft {
    let mut draft = Draft::new(random.between(2, 32) as u8, random.number(MOST_NAMES));
    let length = random.between(1, 100);
    let roles = different_roles(random, &draft, length);
    draft.records = chain_records(&roles);
    draft
        .records
        .insert(0, member_record(roles[0], random.number(draft.entities)));
    match random.below(3) {
        0 => {}
        1 => draft.records.reverse(),
        _ => random.shuffle(&mut draft.records),
    }
    draft
}

pub fn chain_records(roles: &[Role]) -> Vec<Record> {
    let pairs = roles.windows(2);
    pairs
        .map(|pair| contained_record(pair[1], pair[0]))
        .collect()
}

/// Links everywhere: nearly every role feeds nearly every other.
pub fn dense_links(random: &mut Random, entities: u8, names: u8, count: usize) -> Draft {
    let mut draft = Draft::new(entities, names);
    add_records(random, &mut draft, count / 3, &[1]);
    add_records(random, &mut draft, count - count / 3, &[3, 3, 3, 2]);
    random.shuffle(&mut draft.records);
    draft
}

/// A bundle in which every credential gives something: each new body is made
/// of facts known to hold, often of the latest one, so that rounds add up.
pub fn grown(random: &mut Random) -> Draft {
    let mut draft = Draft::new(random.between(2, 32) as u8, random.between(2, 32) as u8);
    let count = random.between(5, 200);
    let mut known = Vec::new();
    while draft.records.len() < count {
        let (new_record, given) = grow(random, &draft, &known);
        draft.records.push(new_record);
        known.push(given);
    }
    if random.once_in(2) {
        random.shuffle(&mut draft.records);
    }
    draft
}

/// A credential that gives something when the known facts hold, and a fact
/// that it gives.
fn grow(random: &mut Random, draft: &Draft, known: &[Fact]) -> (Record, Fact) {
    let head = random_role(random, draft);
    let member = random.number(draft.entities);
    let Some(latest) = known.last() else {
        return grow_member(head, member);
    };
    let earlier = random.pick(known);
    let base = random.pick(&[*latest, *latest, earlier]);
    match random.below(6) {
        0 => grow_member(head, member),
        1 | 2 => grow_link(head, base, known),
        3 => grow_intersection(random, head, base, known),
        _ => {
            let role = Role::new(base.0, base.1);
            (contained_record(head, role), fact(head, base.2))
        }
    }
}

fn grow_member(head: Role, member: u8) -> (Record, Fact) {
    (member_record(head, member), fact(head, member))
}

/// A link over a role that holds the entity of the base fact. Where no such
/// role is known yet, the head becomes one.
fn grow_link(head: Role, base: Fact, known: &[Fact]) -> (Record, Fact) {
    match known.iter().rev().find(|stated| stated.2 == base.0) {
        Some((issuer, first, _)) => {
            let head = Role::new(*issuer, head.name);
            (linked_record(head, *first, base.1), fact(head, base.2))
        }
        None => grow_member(head, base.0),
    }
}

/// An intersection of roles that all hold the member of the base fact.
fn grow_intersection(
    random: &mut Random,
    head: Role,
    base: Fact,
    known: &[Fact],
) -> (Record, Fact) {
    let same_member = known.iter().filter(|stated| stated.2 == base.2);
    let roles: Vec<Role> = same_member
        .map(|stated| Role::new(stated.0, stated.1))
        .collect();
    let mut parts = vec![Role::new(base.0, base.1)];
    for _ in 0..random.between(1, 2) {
        parts.push(random.pick(&roles));
    }
    (intersection_record(head, &parts), fact(head, base.2))
}

/// Few roles with many members each, and credentials of every form.
pub fn busy(random: &mut Random) -> Draft {
    let mut draft = Draft::new(random.between(3, 6) as u8, random.between(2, 4) as u8);
    let count = random.between(40, 80);
    add_records(random, &mut draft, count, &[1, 1, 1, 2, 3, 4, 4]);
    draft
}

/// Many named members in few roles, and intersections over those roles, some
/// with the same part twice.
pub fn intersections(random: &mut Random) -> Draft {
    let mut draft = Draft::new(random.between(2, 12) as u8, random.number(4));
    let started = random.between(5, 60);
    add_records(random, &mut draft, started, &[1]);
    let count = random.between(1, 40);
    add_records(random, &mut draft, count, &[4, 4, 4, 2]);
    let part = random_role(random, &draft);
    let head = random_role(random, &draft);
    draft.records.push(intersection_record(head, &[part, part]));
    draft
}

/// A few records, each standing many times.
pub fn repeated_records(random: &mut Random) -> Draft {
    let mut draft = small(random);
    add_records(random, &mut draft, 3, &[1, 2]);
    for _ in 0..random.between(1, 215) {
        let again = random.pick(&draft.records);
        draft.records.push(again);
    }
    draft.records.truncate(usize::from(MOST_CREDENTIALS));
    random.shuffle(&mut draft.records);
    draft
}

/// A chain that person 1 enters first, and everyone else only when the person
/// before has come to its end: X.next names the person after X, and the start
/// of the chain holds everyone in `end.next`.
///
/// With p people and c chain records, person k enters at round
/// 1 + (k - 1)(c + 1), and the last one ends the walk p(c + 1) rounds in.
pub fn long_walk(people: u8, names: u8, chain_count: usize) -> Draft {
    let mut draft = Draft::new(people, names);
    let next = names;
    let mut roles: Vec<Role> = Vec::new();
    for entity in 1..=people {
        roles.extend((1..names).map(|name| Role::new(entity, name)));
    }
    let start = roles.remove(0);
    let end = roles.remove(0);
    roles.truncate(chain_count - 1);
    roles.insert(0, start);
    roles.push(end);
    draft.records = walk_records(people, next, &roles);
    draft
}

/// The records of a walk along these roles, of which the first and the last
/// are of one entity.
pub fn walk_records(people: u8, next: u8, roles: &[Role]) -> Vec<Record> {
    let start = roles[0];
    let end = roles[roles.len() - 1];
    let mut records = vec![
        member_record(start, 1),
        linked_record(start, end.name, next),
    ];
    let everyone_else = 1..people;
    let names_next = |person| member_record(Role::new(person, next), person + 1);
    records.extend(everyone_else.map(names_next));
    records.extend(chain_records(roles));
    records
}

/// A long walk of modest length; sometimes with its records shuffled.
pub fn some_long_walk(random: &mut Random) -> Draft {
    let people = random.between(2, 8) as u8;
    let names = random.between(4, 12) as u8;
    let most = usize::from(people) * (usize::from(names) - 1) - 1;
    let mut draft = long_walk(people, names, random.between(1, most.min(30)));
    if random.once_in(2) {
        random.shuffle(&mut draft.records);
    }
    draft
}
