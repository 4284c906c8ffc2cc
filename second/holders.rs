//! Which shelves must hold a record, asked for one record or for all of them.
//!
//! The refusals are the bundle's own, then 15 for the sheet, then 7 for a
//! record that the bundle does not have.

use crate::program::{printed, Program};
use crate::reader::{read_bundle, Bundle, Refusal, BLOCK, LONGEST_BUNDLE};
use crate::sheet::{read_sheet, Sheet};
use crate::storage::who_stores;
use std::collections::BTreeSet;

/// The shelves that must hold a record that is structurally well typed, and
/// nothing for any other record.
pub type Holders = Option<BTreeSet<u8>>;

/// Reads a sheet and a bundle, and prints what is to be said of each record.
pub const HOLDERS: Program = Program {
    name: "holders",
    longest_input: BLOCK + LONGEST_BUNDLE,
    bundle_at: Some(BLOCK),
    name_at: None,
    prints: |input| printed(holders_of_all(input)),
};

/// Reads a bundle and its sheet, the bundle first.
pub fn read_both(bundle: &[u8], sheet: &[u8]) -> Result<(Bundle, Sheet), Refusal> {
    let bundle = read_bundle(bundle)?;
    let sheet = read_sheet(bundle.names, sheet)?;
    Ok((bundle, sheet))
}

/// The holders of the record of this number.
pub fn holders(bundle: &[u8], sheet: &[u8], record: u8) -> Result<Holders, Refusal> {
    let (bundle, sheet) = read_both(bundle, sheet)?;
    let place = usize::from(record).checked_sub(1);
    let credential = place.and_then(|place| bundle.credentials.get(place));
    let credential = credential.ok_or(Refusal::new(7, 0))?;
    Ok(who_stores(&sheet, credential))
}

/// The result as one number: of a refusal its number from bit 56 and its place
/// from bit 40; else bit 32 where the record is well typed, and the shelves.
pub fn packed(result: &Result<Holders, Refusal>) -> u64 {
    match result {
        Err(refusal) => u64::from(refusal.number) << 56 | (refusal.place as u64) << 40,
        Ok(None) => 0,
        Ok(Some(shelves)) => {
            let bits = shelves.iter().map(|shelf| 1 << (shelf - 1));
            bits.fold(1 << 32, |all, bit: u64| all | bit)
        }
    }
}

/// A line for each record, and the counts. Where the input is too short for a
/// sheet the bundle is empty.
fn holders_of_all(input: &[u8]) -> Result<Vec<u8>, Refusal> {
    let (sheet, bundle) = input.split_at_checked(BLOCK).unwrap_or((input, &[]));
    let (bundle, sheet) = read_both(bundle, sheet)?;
    let all = bundle.credentials.iter();
    let all: Vec<Holders> = all.map(|held| who_stores(&sheet, held)).collect();
    let lines = all.iter().enumerate();
    let lines: String = lines
        .map(|(place, holders)| format!("{} {}\n", place + 1, in_words(holders)))
        .collect();
    let well = all.iter().flatten().count();
    Ok(format!("{lines}END {well} {}\n", all.len() - well).into_bytes())
}

fn in_words(holders: &Holders) -> String {
    match holders {
        Some(shelves) => {
            let shelves: Vec<String> = shelves.iter().map(u8::to_string).collect();
            format!("WELL {}", shelves.join(" "))
        }
        None => "ILL".to_string(),
    }
}
