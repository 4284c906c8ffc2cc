//! What can be wrong with a record: the refusals 61 to 65.
//!
//! The rule stands for itself, for any numbers of entities and names and any
//! twelve bytes. Byte 0 says what the other bytes hold; where it says an
//! intersection, byte 3 says how many pairs follow. Two points settle
//! themselves, as of several mistakes in a record the lowest number is given:
//!
//! - In an unknown form no byte holds anything that could be judged. 61 is
//!   the lowest number, so the other bytes don't matter.
//! - With a number of parts that isn't 2 or 3 it is open how many pairs
//!   follow. The form is known then, so 62 is the lowest number that can
//!   apply, and the other bytes don't matter either.
//!
//! Otherwise every byte holds one thing and can be wrong in one way only.

pub const UNKNOWN_FORM: u8 = 61;
pub const NUMBER_OF_PARTS: u8 = 62;
pub const ENTITY_OUT_OF_RANGE: u8 = 63;
pub const NAME_OUT_OF_RANGE: u8 = 64;
pub const BYTE_NOT_ZERO: u8 = 65;

/// The layouts of records: the form, and what each of the twelve bytes holds.
/// `f` is the form, `e` an entity, `n` a role name, `c` the number of parts,
/// `z` zero. An intersection has a layout for two parts and one for three.
pub const LAYOUTS: [(u8, &str); 5] = [
    (1, "fenezzzzzzzz"),
    (2, "fenenzzzzzzz"),
    (3, "fennnzzzzzzz"),
    (4, "fencenenzzzz"),
    (4, "fencenenenzz"),
];

/// The lowest of the numbers 61 to 65 that apply to a record, or nothing when
/// the record is right.
pub fn mistake(entities: u8, names: u8, record: &[u8]) -> Option<u8> {
    let layout = match layout_of(record) {
        Ok(layout) => layout,
        Err(number) => return Some(number),
    };
    let bytes = layout.chars().zip(record);
    bytes
        .filter_map(|(holds, byte)| wrong_byte(entities, names, holds, *byte))
        .min()
}

/// What the bytes of a record hold, or the mistake that leaves it open.
pub fn layout_of(record: &[u8]) -> Result<&'static str, u8> {
    let place = match (record[0], record[3]) {
        (1, _) => 0,
        (2, _) => 1,
        (3, _) => 2,
        (4, 2) => 3,
        (4, 3) => 4,
        (4, _) => return Err(NUMBER_OF_PARTS),
        _ => return Err(UNKNOWN_FORM),
    };
    Ok(LAYOUTS[place].1)
}

/// What is wrong with one byte, by what it holds. The form and the number of
/// parts have been judged before.
fn wrong_byte(entities: u8, names: u8, holds: char, byte: u8) -> Option<u8> {
    let (right, number) = match holds {
        'e' => ((1..=entities).contains(&byte), ENTITY_OUT_OF_RANGE),
        'n' => ((1..=names).contains(&byte), NAME_OUT_OF_RANGE),
        'z' => (byte == 0, BYTE_NOT_ZERO),
        _ => return None,
    };
    (!right).then_some(number)
}
