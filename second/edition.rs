//! The edition of a bundle, which is its byte 0: 1 with up to 16 names, 2 with
//! 17 to 32. It follows from the number of names, so that each content has one
//! encoding. The reader demands it and the writer writes it, both from here.
//!
//! Below that stands what a case shows of editions and of names above 16, in
//! words, so that a comparison can count it.

use crate::reader::{read_bundle, Bundle};
use crate::shape::seal;

/// The most names of a bundle of edition 1.
pub const NAMES_OF_EDITION_1: u8 = 16;

/// The one edition of a bundle with so many names.
pub fn edition_of(names: u8) -> u8 {
    match names {
        0..=NAMES_OF_EDITION_1 => 1,
        _ => 2,
    }
}

/// What the bytes of a bundle show: the edition that is read, or the one that
/// is refused because it doesn't fit the number of names.
pub fn shown_by(bytes: &[u8]) -> Option<String> {
    match read_bundle(bytes) {
        Ok(Bundle { names, .. }) => Some(format!("edition {}", edition_of(names))),
        Err(refusal) if refusal.number == 3 => unfitting(bytes),
        Err(_) => None,
    }
}

/// The edition that is all that is wrong with a block 0.
fn unfitting(bytes: &[u8]) -> Option<String> {
    let mut fitting = bytes.to_vec();
    fitting[0] = edition_of(bytes[2]);
    seal(&mut fitting, 0);
    let words = match bytes[0] {
        1 => "edition 1 for 17 names or more",
        2 => "edition 2 for 16 names or fewer",
        _ => "an edition that there is not",
    };
    let wrong_otherwise = read_bundle(&fitting).is_err_and(|refusal| refusal.number == 3);
    (!wrong_otherwise).then(|| words.to_string())
}

/// An outcome for a name that only a bundle of edition 2 has.
pub fn shown_for(outcome: &str, name: u8) -> Option<String> {
    (name > NAMES_OF_EDITION_1).then(|| format!("{outcome} for a name above 16"))
}
