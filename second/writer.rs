//! The writer of bundles: a whole bundle from what it says, and one record
//! more for a bundle that stands in its buffer.
//!
//! Both go through the meaning. What is handed over is read into a `Bundle`,
//! as the reader gives it, and the bundle's bytes are laid out from that alone,
//! each by its place. An append therefore lays out every block anew and relies
//! on equal content having equal bytes; that only block 0 and one record block
//! change is something to be seen by comparing.
//!
//! Each refusal has its own small function. They are asked in the order 1 to
//! 5, 61 to 65, 12, 13, and a refused call writes nothing.

use crate::edition::edition_of;
use crate::mistake::mistake;
use crate::reader::{
    block_check, read_bundle, read_marks, read_record, Body, Bundle, Credential, Refusal, Role,
    ABSENT, BLOCK, BLOCK_NUMBER_PLACE, CHECK_PLACE, MOST_CREDENTIALS, MOST_ENTITIES, MOST_NAMES,
    PRESENT, RECORD, RECORDS_END, RECORDS_IN_BLOCK, RECORD_COUNT_PLACE,
};

pub const MARKS: usize = MOST_ENTITIES as usize;
pub const MOST_RECORDS: usize = MOST_CREDENTIALS as usize;

/// What a bundle is written from, right or wrong.
#[derive(Clone, Debug, PartialEq, Eq)]
pub struct Content {
    pub entities: u8,
    pub names: u8,
    pub marks: Vec<u8>,
    pub records: Vec<u8>,
}

/// Writes a bundle to the start of a buffer and gives its length in bytes.
pub fn write(content: &Content, buffer: &mut [u8]) -> Result<usize, Refusal> {
    let bundle = read_content(content)?;
    put(&bytes_of_bundle(&bundle), buffer)
}

/// Adds a record to the bundle that stands in the first `length` bytes of a
/// buffer, and gives the length of the bundle that stands there then.
pub fn append(buffer: &mut [u8], length: u64, record: &[u8]) -> Result<usize, Refusal> {
    let held = held_bytes(buffer, length, record)?;
    let mut bundle = read_bundle(held)?;
    let place = bundle.credentials.len() + 1;
    refuse_record(bundle.entities, bundle.names, record, place)?;
    refuse_count(place)?;
    bundle.credentials.push(read_record(record));
    put(&bytes_of_bundle(&bundle), buffer)
}

/// The result of either function as one number: the length, or the number of
/// the refusal above bit 56 and its place below.
pub fn packed(written: Result<usize, Refusal>) -> u64 {
    match written {
        Ok(length) => length as u64,
        Err(refusal) => u64::from(refusal.number) << 56 | refusal.place as u64,
    }
}

/// The number and the place of a refusal that a result holds, or the length.
pub fn unpacked(packed: u64) -> Result<usize, Refusal> {
    let low = (packed & ((1 << 56) - 1)) as usize;
    match (packed >> 56) as u8 {
        0 => Ok(low),
        number => Err(Refusal::new(number, low)),
    }
}

/// The length of a bundle with so many records.
pub fn length_with(records: usize) -> usize {
    BLOCK * (1 + records.div_ceil(RECORDS_IN_BLOCK))
}

/// Reads what a bundle is to be written from; refuses 1, 3, 61 to 65, 12.
fn read_content(content: &Content) -> Result<Bundle, Refusal> {
    let Content {
        entities, names, ..
    } = *content;
    refuse_list(&content.records)?;
    let absent = read_first(content).ok_or(Refusal::new(3, 0))?;
    let credentials = read_list(entities, names, &content.records)?;
    Ok(Bundle {
        entities,
        names,
        absent,
        credentials,
    })
}

/// Reads a list of whole records; refuses 61 to 65, 12.
pub fn read_list(entities: u8, names: u8, records: &[u8]) -> Result<Vec<Credential>, Refusal> {
    let records = records.chunks(RECORD);
    for (place, record) in (1..).zip(records.clone()) {
        refuse_record(entities, names, record, place)?;
    }
    refuse_count(records.len())?;
    Ok(records.map(read_record).collect())
}

/// The absent shelves, or nothing when a number or a mark is wrong.
fn read_first(content: &Content) -> Option<std::collections::BTreeSet<u8>> {
    let Content {
        entities, names, ..
    } = *content;
    if !sizes_right(entities, names) || content.marks.len() != MARKS {
        return None;
    }
    read_marks(&content.marks, entities)
}

pub fn sizes_right(entities: u8, names: u8) -> bool {
    (1..=MOST_ENTITIES).contains(&entities) && (1..=MOST_NAMES).contains(&names)
}

pub fn refuse_list(records: &[u8]) -> Result<(), Refusal> {
    let whole = records.len() % RECORD == 0;
    whole.then_some(()).ok_or(Refusal::new(1, 0))
}

/// The bytes that a bundle is said to stand in. What else the reader refuses
/// by its length it refuses itself.
fn held_bytes<'a>(buffer: &'a [u8], length: u64, record: &[u8]) -> Result<&'a [u8], Refusal> {
    if length > buffer.len() as u64 || record.len() != RECORD {
        return Err(Refusal::new(1, 0));
    }
    Ok(&buffer[..length as usize])
}

fn refuse_record(entities: u8, names: u8, record: &[u8], place: usize) -> Result<(), Refusal> {
    match mistake(entities, names, record) {
        Some(number) => Err(Refusal::new(number, place)),
        None => Ok(()),
    }
}

pub fn refuse_count(records: usize) -> Result<(), Refusal> {
    let room = records <= MOST_RECORDS;
    room.then_some(()).ok_or(Refusal::new(12, MOST_RECORDS + 1))
}

/// Writes bytes to the start of a buffer, or refuses 13.
pub fn put(bytes: &[u8], buffer: &mut [u8]) -> Result<usize, Refusal> {
    if buffer.len() < bytes.len() {
        return Err(Refusal::new(13, 0));
    }
    buffer[..bytes.len()].copy_from_slice(bytes);
    Ok(bytes.len())
}

/// The bytes of a bundle, laid out from what it says.
pub fn bytes_of_bundle(bundle: &Bundle) -> Vec<u8> {
    let records: Vec<Vec<u8>> = bundle.credentials.iter().map(record_of).collect();
    let mut bytes = first_block(bundle);
    for (number, records) in (1..).zip(records.chunks(RECORDS_IN_BLOCK)) {
        bytes.extend(with_check(|place| record_byte(number, records, place)));
    }
    bytes
}

/// A block whose bytes before the check are given by their places.
fn with_check(byte_at: impl Fn(usize) -> u8) -> Vec<u8> {
    let mut block: Vec<u8> = (0..CHECK_PLACE).map(byte_at).collect();
    let check = block_check(&block);
    block.extend(check.to_le_bytes());
    block
}

fn first_block(bundle: &Bundle) -> Vec<u8> {
    let mark_of = |entity: u8| match entity {
        _ if entity > bundle.entities => 0,
        _ if bundle.absent.contains(&entity) => ABSENT,
        _ => PRESENT,
    };
    with_check(|place| match place {
        0 => edition_of(bundle.names),
        1 => bundle.entities,
        2 => bundle.names,
        3 => bundle.credentials.len() as u8,
        4..=35 => mark_of(place as u8 - 3),
        _ => 0,
    })
}

/// The byte at a place of the record block of this number.
fn record_byte(number: u8, records: &[Vec<u8>], place: usize) -> u8 {
    match place {
        0..RECORDS_END => {
            let record = records.get(place / RECORD);
            let byte = record.and_then(|used| used.get(place % RECORD));
            byte.copied().unwrap_or(0)
        }
        BLOCK_NUMBER_PLACE => number,
        RECORD_COUNT_PLACE => records.len() as u8,
        _ => 0,
    }
}

/// The bytes of a record, trailing zeros left off.
fn record_of(credential: &Credential) -> Vec<u8> {
    let pair = |role: &Role| [role.entity, role.name];
    let (form, body) = match &credential.body {
        Body::Member(member) => (1, vec![*member]),
        Body::Contained(role) => (2, pair(role).to_vec()),
        Body::Linked { first, second } => (3, vec![*first, *second]),
        Body::Intersection(parts) => {
            let mut body = vec![parts.len() as u8];
            body.extend(parts.iter().flat_map(pair));
            (4, body)
        }
    };
    let mut record = vec![form];
    record.extend(pair(&credential.head));
    record.extend(body);
    record
}
