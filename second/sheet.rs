//! The sheet: the storage type of each role name.
//!
//! A sheet is one more block with the usual check. `read_sheet` gives the type
//! of every name of a bundle, or refusal 15 at place 0: whatever is wrong with
//! a sheet is the same refusal, so there is no order to keep among its rules.

use crate::reader::{all_zero, block_check, Refusal, BLOCK, CHECK_PLACE};

pub const SHEET_MARK_PLACE: usize = 508;
pub const SHEET_MARK: u8 = 100;
pub const SHEET_NAMES_PLACE: usize = 509;

/// What a name promises on the issuer's side.
#[derive(Clone, Copy, Debug, PartialEq, Eq)]
pub enum IssuerTraces {
    None,
    Def,
    All,
}

/// What a name promises on the subject's side.
#[derive(Clone, Copy, Debug, PartialEq, Eq)]
pub enum SubjectTraces {
    None,
    All,
}

/// The two types of a role name, the issuer's side first.
pub type StorageType = (IssuerTraces, SubjectTraces);

/// The types in the order of their codes; the first has code 1.
pub const TYPES: [StorageType; 6] = [
    (IssuerTraces::None, SubjectTraces::None),
    (IssuerTraces::None, SubjectTraces::All),
    (IssuerTraces::Def, SubjectTraces::None),
    (IssuerTraces::Def, SubjectTraces::All),
    (IssuerTraces::All, SubjectTraces::None),
    (IssuerTraces::All, SubjectTraces::All),
];

/// A sheet that breaks no rule: the types of the names, that of name 1 first.
#[derive(Clone, Debug)]
pub struct Sheet {
    types: Vec<StorageType>,
}

impl Sheet {
    /// The type of a name that the bundle has.
    pub fn type_of(&self, name: u8) -> StorageType {
        self.types[usize::from(name) - 1]
    }
}

/// Reads the sheet for a bundle with so many names.
pub fn read_sheet(names: u8, bytes: &[u8]) -> Result<Sheet, Refusal> {
    types_in(names, bytes)
        .map(|types| Sheet { types })
        .ok_or(Refusal::new(15, 0))
}

/// The types that a sheet gives to so many names, or nothing where its length,
/// its check, its layout, a code or its number of names is wrong.
fn types_in(names: u8, bytes: &[u8]) -> Option<Vec<StorageType>> {
    if bytes.len() != BLOCK || bytes[CHECK_PLACE..] != block_check(bytes).to_le_bytes() {
        return None;
    }
    let (codes, rest) = bytes[..SHEET_MARK_PLACE].split_at(usize::from(names));
    let ends = [bytes[SHEET_MARK_PLACE], bytes[SHEET_NAMES_PLACE]];
    if !all_zero(rest) || ends != [SHEET_MARK, names] {
        return None;
    }
    codes.iter().map(|code| type_of_code(*code)).collect()
}

fn type_of_code(code: u8) -> Option<StorageType> {
    let place = usize::from(code).checked_sub(1)?;
    TYPES.get(place).copied()
}
