//! Storage types: what role names and bodies are, which credentials are
//! structurally well typed, and who must store them.
//!
//! What a name or a body is stands in a set of words. It may be both
//! issuer-traces-all and subject-traces-all, it may be weakly well typed, and
//! where no word applies it is ill typed. So well typed is any set but the
//! empty one, and strongly well typed is one with a word of the first two.

use crate::reader::{Body, Credential};
use crate::sheet::{IssuerTraces, Sheet, StorageType, SubjectTraces};
use std::collections::BTreeSet;

#[derive(Clone, Copy, Debug, PartialEq, Eq, PartialOrd, Ord)]
pub enum Word {
    IssuerTracesAll,
    SubjectTracesAll,
    WeaklyWellTyped,
}

pub type Words = BTreeSet<Word>;

/// The words of a strongly well typed name or body.
const STRONG: [Word; 2] = [Word::IssuerTracesAll, Word::SubjectTracesAll];

fn well_typed(words: &Words) -> bool {
    !words.is_empty()
}

fn strong(words: &Words) -> Words {
    words.intersection(&STRONG.into()).copied().collect()
}

/// The one word of what is weakly well typed where that holds, else ill typed.
fn weakly_if(holds: bool) -> Words {
    holds.then_some(Word::WeaklyWellTyped).into_iter().collect()
}

/// What a role name is.
pub fn words_of_name((issuer, subject): StorageType) -> Words {
    let mut words = Words::new();
    if issuer == IssuerTraces::All {
        words.insert(Word::IssuerTracesAll);
    }
    if subject == SubjectTraces::All {
        words.insert(Word::SubjectTracesAll);
    }
    if (issuer, subject) == (IssuerTraces::Def, SubjectTraces::None) {
        words.insert(Word::WeaklyWellTyped);
    }
    words
}

/// What a body is. An entity is both of the strong words, and a role is what
/// its name is.
pub fn words_of_body(sheet: &Sheet, body: &Body) -> Words {
    let words_of = |name: u8| words_of_name(sheet.type_of(name));
    match body {
        Body::Member(_) => STRONG.into(),
        Body::Contained(role) => words_of(role.name),
        Body::Linked { first, second } => linked(&words_of(*first), &words_of(*second)),
        Body::Intersection(parts) => {
            intersected(parts.iter().map(|part| words_of(part.name)).collect())
        }
    }
}

/// A linked role has the strong words that both of its names have. Where there
/// is none it is weakly well typed if the first name can be traced from the
/// issuer and the second is well typed, or the second can be traced from the
/// subject and the first is well typed.
fn linked(first: &Words, second: &Words) -> Words {
    let both: Words = first.intersection(second).copied().collect();
    let both = strong(&both);
    if well_typed(&both) {
        return both;
    }
    let from_the_issuer = first.contains(&Word::IssuerTracesAll) && well_typed(second);
    let from_the_subject = second.contains(&Word::SubjectTracesAll) && well_typed(first);
    weakly_if(from_the_issuer || from_the_subject)
}

/// An intersection whose parts are all well typed has the strong words that
/// any of them has, and is weakly well typed where none has one.
fn intersected(parts: Vec<Words>) -> Words {
    if !parts.iter().all(well_typed) {
        return Words::new();
    }
    let any: Words = parts.iter().flat_map(strong).collect();
    if well_typed(&any) {
        any
    } else {
        weakly_if(true)
    }
}

/// The three conditions: head and body are well typed, and the body has the
/// strong words that the head has.
pub fn structurally_well_typed(sheet: &Sheet, credential: &Credential) -> bool {
    let head = words_of_name(sheet.type_of(credential.head.name));
    let body = words_of_body(sheet, &credential.body);
    well_typed(&head) && well_typed(&body) && strong(&head).is_subset(&body)
}

/// The entities that a body rests on: the base of the expression.
fn subjects(credential: &Credential) -> BTreeSet<u8> {
    match &credential.body {
        Body::Member(entity) => [*entity].into(),
        Body::Contained(role) => [role.entity].into(),
        Body::Linked { .. } => [credential.head.entity].into(),
        Body::Intersection(parts) => parts.iter().map(|part| part.entity).collect(),
    }
}

/// Who must store a structurally well typed credential, by the two storage
/// requirements; nothing for any other credential.
pub fn who_stores(sheet: &Sheet, credential: &Credential) -> Option<BTreeSet<u8>> {
    if !structurally_well_typed(sheet, credential) {
        return None;
    }
    let (issuer, subject) = sheet.type_of(credential.head.name);
    let mut shelves = BTreeSet::new();
    if issuer != IssuerTraces::None {
        shelves.insert(credential.head.entity);
    }
    if subject == SubjectTraces::All {
        shelves.extend(subjects(credential));
    }
    Some(shelves)
}
