//! The open roles of a bundle: those for which a completion may add
//! credentials.
//!
//! Without a sheet they are the roles of absent entities. With a sheet there
//! are more: the credentials of a name that its issuer does not store are
//! anywhere, so that every shelf would have to be there to say that all of
//! them are held.

use crate::reader::{Bundle, Role};
use crate::sheet::{IssuerTraces, Sheet};
use std::collections::BTreeSet;

/// The roles of absent entities.
pub fn absent_roles(bundle: &Bundle) -> BTreeSet<Role> {
    let mut roles = all_roles(bundle);
    roles.retain(|role| bundle.absent.contains(&role.entity));
    roles
}

/// The roles of absent entities, and where any shelf at all is absent those
/// whose name is issuer-traces-none, which is what the codes 1 and 2 say.
pub fn open_roles(bundle: &Bundle, sheet: &Sheet) -> BTreeSet<Role> {
    let mut open = absent_roles(bundle);
    if !bundle.absent.is_empty() {
        let mut anywhere = all_roles(bundle);
        anywhere.retain(|role| sheet.type_of(role.name).0 == IssuerTraces::None);
        open.append(&mut anywhere);
    }
    open
}

fn all_roles(bundle: &Bundle) -> BTreeSet<Role> {
    let mut roles = BTreeSet::new();
    for entity in 1..=bundle.entities {
        roles.extend((1..=bundle.names).map(|name| Role::new(entity, name)));
    }
    roles
}
