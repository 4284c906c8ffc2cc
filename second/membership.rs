//! Membership as sets of facts.
//!
//! A fact is an entity, a role name and a member; a table is a set of facts.
//! The first half follows the definition word for word and is slow. The second
//! half, `walk`, gives the same tables and the same number of rounds while
//! looking only at what is fresh. Both are kept so that each can be held
//! against the other.
//!
//! Why the fresh facts are enough: what a credential gives can only grow when
//! its table grows. So a fact that table n+1 has and table n lacks rests on at
//! least one fact that table n has and table n-1 lacks.

use crate::open_roles::absent_roles;
use crate::reader::{Body, Bundle, Credential, Role};
use std::collections::{BTreeMap, BTreeSet};

/// Entity, role name, member.
pub type Fact = (u8, u8, u8);
pub type Table = BTreeSet<Fact>;

pub fn fact(role: Role, member: u8) -> Fact {
    (role.entity, role.name, member)
}

/// The members that a table has for a role.
pub fn members(table: &Table, role: Role) -> impl Iterator<Item = u8> + '_ {
    let range = fact(role, 0)..=fact(role, u8::MAX);
    table.range(range).map(|stated| stated.2)
}

/// What one use of a credential gives from a table.
pub fn gives(credential: &Credential, table: &Table) -> Table {
    let head = credential.head;
    let mut given = Table::new();
    match &credential.body {
        Body::Member(member) => {
            given.insert(fact(head, *member));
        }
        Body::Contained(role) => {
            given.extend(members(table, *role).map(|member| fact(head, member)));
        }
        Body::Linked { first, second } => {
            for middle in members(table, Role::new(head.entity, *first)) {
                let linked = members(table, Role::new(middle, *second));
                given.extend(linked.map(|member| fact(head, member)));
            }
        }
        Body::Intersection(parts) => {
            for member in members(table, parts[0]) {
                if parts
                    .iter()
                    .all(|part| table.contains(&fact(*part, member)))
                {
                    given.insert(fact(head, member));
                }
            }
        }
    }
    given
}

/// Table n+1 from table n.
pub fn next_table(credentials: &[Credential], table: &Table) -> Table {
    let mut next = Table::new();
    for credential in credentials {
        next.append(&mut gives(credential, table));
    }
    next
}

/// The last table and the number of rounds, straight from the definition.
pub fn walk_by_definition(credentials: &[Credential]) -> (Table, usize) {
    let mut table = Table::new();
    let mut rounds = 0;
    loop {
        let next = next_table(credentials, &table);
        if next == table {
            return (table, rounds);
        }
        table = next;
        rounds += 1;
    }
}

/// How a fact first came in: the first round whose table has it, the number
/// of a credential that gives it, and the facts which that use rests on.
#[derive(Clone, Debug)]
pub struct Reason {
    pub round: usize,
    pub credential: usize,
    pub premises: Vec<Fact>,
}

/// The last table, the number of rounds, and how each fact came in.
pub struct Walk {
    pub table: Table,
    pub rounds: usize,
    pub reasons: BTreeMap<Fact, Reason>,
}

/// Membership with no completion added.
pub fn sure_walk(bundle: &Bundle) -> Walk {
    walk(&bundle.credentials, &Table::new())
}

/// Membership under at least one completion by absent entities.
pub fn possible_table(bundle: &Bundle) -> Table {
    possible_with(bundle, &absent_roles(bundle))
}

/// Membership under at least one completion by credentials whose heads are
/// open: everyone is granted to every open role, since a completion may name
/// just these members.
pub fn possible_with(bundle: &Bundle, open: &BTreeSet<Role>) -> Table {
    let mut granted = Table::new();
    for role in open {
        granted.extend((1..=bundle.entities).map(|member| fact(*role, member)));
    }
    walk(&bundle.credentials, &granted).table
}

/// Starts with the granted facts and with what forms 1 give, then goes on
/// round by round until nothing is fresh.
fn walk(credentials: &[Credential], granted: &Table) -> Walk {
    let mut walk = Walk {
        table: Table::new(),
        rounds: 0,
        reasons: named_members(credentials),
    };
    let mut fresh: Table = walk.reasons.keys().copied().collect();
    fresh.extend(granted);
    while !fresh.is_empty() {
        walk.rounds += 1;
        walk.table.extend(&fresh);
        let reasons = fresh_reasons(credentials, &walk.table, &fresh, walk.rounds + 1);
        fresh = reasons.keys().copied().collect();
        walk.reasons.extend(reasons);
    }
    walk
}

/// The facts of table 1: the credentials of form 1 need no table.
fn named_members(credentials: &[Credential]) -> BTreeMap<Fact, Reason> {
    let mut reasons = BTreeMap::new();
    for (index, credential) in credentials.iter().enumerate() {
        if let Body::Member(member) = credential.body {
            let reason = Reason {
                round: 1,
                credential: index + 1,
                premises: Vec::new(),
            };
            reasons
                .entry(fact(credential.head, member))
                .or_insert(reason);
        }
    }
    reasons
}

/// The facts that the next table has and this table lacks, with reasons. The
/// fresh facts are those that this table has and the one before it lacks.
fn fresh_reasons(
    credentials: &[Credential],
    table: &Table,
    fresh: &Table,
    round: usize,
) -> BTreeMap<Fact, Reason> {
    let mut reasons = BTreeMap::new();
    for (index, credential) in credentials.iter().enumerate() {
        for_each_fresh_use(credential, table, fresh, |member, premises| {
            let given = fact(credential.head, member);
            if !table.contains(&given) {
                reasons.entry(given).or_insert_with(|| Reason {
                    round,
                    credential: index + 1,
                    premises: premises.to_vec(),
                });
            }
        });
    }
    reasons
}

/// Hands on every member that a credential gives from a table by at least one
/// fresh fact, together with the facts used.
fn for_each_fresh_use(
    credential: &Credential,
    table: &Table,
    fresh: &Table,
    mut give: impl FnMut(u8, &[Fact]),
) {
    match &credential.body {
        Body::Member(_) => {}
        Body::Contained(role) => {
            for member in members(fresh, *role) {
                give(member, &[fact(*role, member)]);
            }
        }
        Body::Linked { first, second } => {
            let role = Role::new(credential.head.entity, *first);
            linked_members(fresh, table, role, *second, &mut give);
            linked_members(table, fresh, role, *second, &mut give);
        }
        Body::Intersection(parts) => {
            for member in parts.iter().flat_map(|part| members(fresh, *part)) {
                let premises: Vec<Fact> = parts.iter().map(|part| fact(*part, member)).collect();
                if premises.iter().all(|premise| table.contains(premise)) {
                    give(member, &premises);
                }
            }
        }
    }
}

/// Hands on the members of X.second in one table, for every member X that
/// the other table has for `role`.
fn linked_members(
    middles: &Table,
    ends: &Table,
    role: Role,
    second: u8,
    give: &mut impl FnMut(u8, &[Fact]),
) {
    for middle in members(middles, role) {
        let end = Role::new(middle, second);
        for member in members(ends, end) {
            give(member, &[fact(role, middle), fact(end, member)]);
        }
    }
}
