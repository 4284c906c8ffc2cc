//! The reader of bundles.
//!
//! It turns the bytes of a bundle into a list of credentials, or says which
//! of the refusals 1 to 5 and 61 to 65 applies and at what place. Each of 1 to
//! 5 has its own small function; what can be wrong with a record is one rule,
//! in `mistake.rs`. `read_bundle` asks them in this order, and the first that
//! applies is the answer.

use crate::edition::edition_of;
use crate::mistake::mistake;
use std::collections::BTreeSet;

pub const BLOCK: usize = 512;
pub const CHECK_PLACE: usize = 510;
pub const CHECK_MODULUS: u64 = 65_521;
pub const RECORD: usize = 12;
pub const RECORDS_IN_BLOCK: usize = 40;
pub const RECORDS_END: usize = RECORD * RECORDS_IN_BLOCK;
pub const BLOCK_NUMBER_PLACE: usize = 508;
pub const RECORD_COUNT_PLACE: usize = 509;
pub const LONGEST_BUNDLE: usize = 3_584;
pub const MOST_ENTITIES: u8 = 32;
pub const MOST_NAMES: u8 = 32;
pub const MOST_CREDENTIALS: u8 = 240;
pub const PRESENT: u8 = 1;
pub const ABSENT: u8 = 2;

/// Why an input is not answered: the number of the rule and the place.
#[derive(Clone, Copy, Debug, PartialEq, Eq)]
pub struct Refusal {
    pub number: u8,
    pub place: usize,
}

impl Refusal {
    pub fn new(number: u8, place: usize) -> Refusal {
        Refusal { number, place }
    }
}

/// The role `name` of an entity.
#[derive(Clone, Copy, Debug, PartialEq, Eq, PartialOrd, Ord)]
pub struct Role {
    pub entity: u8,
    pub name: u8,
}

impl Role {
    pub fn new(entity: u8, name: u8) -> Role {
        Role { entity, name }
    }
}

/// What a credential says about its head, one case for each form.
#[derive(Clone, Debug)]
pub enum Body {
    Member(u8),
    Contained(Role),
    Linked { first: u8, second: u8 },
    Intersection(Vec<Role>),
}

/// A credential. Its issuer is the entity of its head.
#[derive(Clone, Debug)]
pub struct Credential {
    pub head: Role,
    pub body: Body,
}

/// A bundle that breaks no rule.
#[derive(Clone, Debug)]
pub struct Bundle {
    pub entities: u8,
    pub names: u8,
    pub absent: BTreeSet<u8>,
    pub credentials: Vec<Credential>,
}

/// What block 0 says.
struct Heading {
    entities: u8,
    names: u8,
    credentials: usize,
    absent: BTreeSet<u8>,
}

impl Heading {
    /// The number of records that record block `block` (from 1) must hold.
    fn records_of_block(&self, block: usize) -> usize {
        let before = (block - 1) * RECORDS_IN_BLOCK;
        (self.credentials - before).min(RECORDS_IN_BLOCK)
    }
}

/// Reads a bundle, or gives the first refusal that applies, of 1 to 5 and
/// then 61 to 65.
pub fn read_bundle(bytes: &[u8]) -> Result<Bundle, Refusal> {
    refuse_length(bytes)?;
    refuse_checks(bytes)?;
    let heading = read_first_block(&bytes[..BLOCK]).ok_or(Refusal::new(3, 0))?;
    refuse_number_of_blocks(bytes, &heading)?;
    refuse_block_ends(bytes, &heading)?;
    let credentials = read_records(bytes, &heading)?;
    Ok(Bundle {
        entities: heading.entities,
        names: heading.names,
        absent: heading.absent,
        credentials,
    })
}

/// The check that a block ought to carry.
pub fn block_check(block: &[u8]) -> u16 {
    let mut sum = 1u64;
    for (place, byte) in block[..CHECK_PLACE].iter().enumerate() {
        sum += (place as u64 + 1) * u64::from(*byte);
    }
    (sum % CHECK_MODULUS) as u16
}

fn refuse_length(bytes: &[u8]) -> Result<(), Refusal> {
    let length = bytes.len();
    if length == 0 || length > LONGEST_BUNDLE || length % BLOCK != 0 {
        return Err(Refusal::new(1, 0));
    }
    Ok(())
}

fn refuse_checks(bytes: &[u8]) -> Result<(), Refusal> {
    let damaged = damaged_blocks(bytes);
    if damaged.is_empty() {
        return Ok(());
    }
    Err(Refusal::new(2, place_of_blocks(&damaged)))
}

/// The numbers, from 0, of the blocks that don't carry the check they ought to.
fn damaged_blocks(bytes: &[u8]) -> BTreeSet<usize> {
    let blocks = bytes.chunks(BLOCK).enumerate();
    let differing = blocks.filter(|(_, block)| {
        let carried = u16::from_le_bytes([block[CHECK_PLACE], block[CHECK_PLACE + 1]]);
        carried != block_check(block)
    });
    differing.map(|(number, _)| number).collect()
}

/// The one number that names a set of blocks: block 0 counts 1, and every
/// block twice as much as the one before it.
fn place_of_blocks(blocks: &BTreeSet<usize>) -> usize {
    blocks.iter().map(|number| 2usize.pow(*number as u32)).sum()
}

/// Reads block 0, or gives nothing when its layout is broken.
fn read_first_block(block: &[u8]) -> Option<Heading> {
    let [edition, entities, names, credentials] = [block[0], block[1], block[2], block[3]];
    let sizes_right = (1..=MOST_ENTITIES).contains(&entities)
        && (1..=MOST_NAMES).contains(&names)
        && edition == edition_of(names)
        && credentials <= MOST_CREDENTIALS;
    if !sizes_right || !all_zero(&block[36..CHECK_PLACE]) {
        return None;
    }
    Some(Heading {
        entities,
        names,
        credentials: usize::from(credentials),
        absent: read_marks(&block[4..36], entities)?,
    })
}

/// Reads the marks of the 32 shelves and gives the absent ones.
pub fn read_marks(marks: &[u8], entities: u8) -> Option<BTreeSet<u8>> {
    let mut absent = BTreeSet::new();
    for (entity, mark) in (1..=MOST_ENTITIES).zip(marks) {
        match *mark {
            PRESENT if entity <= entities => {}
            ABSENT if entity <= entities => {
                absent.insert(entity);
            }
            0 if entity > entities => {}
            _ => return None,
        }
    }
    Some(absent)
}

fn refuse_number_of_blocks(bytes: &[u8], heading: &Heading) -> Result<(), Refusal> {
    let needed = 1 + heading.credentials.div_ceil(RECORDS_IN_BLOCK);
    if bytes.len() / BLOCK != needed {
        return Err(Refusal::new(4, 0));
    }
    Ok(())
}

fn refuse_block_ends(bytes: &[u8], heading: &Heading) -> Result<(), Refusal> {
    for (number, block) in bytes.chunks(BLOCK).enumerate().skip(1) {
        let records = heading.records_of_block(number);
        let empty_after_records = all_zero(&block[records * RECORD..BLOCK_NUMBER_PLACE]);
        let numbered = usize::from(block[BLOCK_NUMBER_PLACE]) == number
            && usize::from(block[RECORD_COUNT_PLACE]) == records;
        if !empty_after_records || !numbered {
            return Err(Refusal::new(5, number));
        }
    }
    Ok(())
}

/// Reads the records, or says what is wrong with the lowest wrong one.
fn read_records(bytes: &[u8], heading: &Heading) -> Result<Vec<Credential>, Refusal> {
    let mut credentials = Vec::new();
    for number in 1..=heading.credentials {
        let start = record_start(number);
        let record = &bytes[start..start + RECORD];
        if let Some(wrong) = mistake(heading.entities, heading.names, record) {
            return Err(Refusal::new(wrong, number));
        }
        credentials.push(read_record(record));
    }
    Ok(credentials)
}

/// Where the record of this number (from 1) starts in a bundle.
pub fn record_start(number: usize) -> usize {
    let block = 1 + (number - 1) / RECORDS_IN_BLOCK;
    let place = (number - 1) % RECORDS_IN_BLOCK;
    block * BLOCK + place * RECORD
}

/// Reads one record in which nothing is wrong.
pub fn read_record(record: &[u8]) -> Credential {
    let body = match record[0] {
        1 => Body::Member(record[3]),
        2 => Body::Contained(Role::new(record[3], record[4])),
        3 => Body::Linked {
            first: record[3],
            second: record[4],
        },
        _ => {
            let pairs = record[4..].chunks(2).take(usize::from(record[3]));
            Body::Intersection(pairs.map(|pair| Role::new(pair[0], pair[1])).collect())
        }
    };
    Credential {
        head: Role::new(record[1], record[2]),
        body,
    }
}

pub fn all_zero(bytes: &[u8]) -> bool {
    bytes.iter().all(|byte| *byte == 0)
}
