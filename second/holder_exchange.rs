//! The holders of a record in comparison: the files that its cases travel in,
//! and when an answer is right.
//!
//! A case is laid out as those of `exchange.rs`: kind 8, the group, the
//! record's number and two zeros; four numbers, of which two are the bytes of
//! the bundle and of the sheet, and two are 0; then the bundle and the sheet.
//! An answer is eight bytes with the result, low byte first.

use crate::comparison::{hex, Exchange};
use crate::edition::shown_by;
use crate::exchange::{read_bytes, Head};
use crate::groups::Group;
use crate::holder_draw::HOLDER_GROUPS;
use crate::holders::{holders, packed};
use crate::reader::record_start;
use std::io::{self, Read, Write};

const HOLDERS: u8 = 8;

pub struct HolderCase {
    group: u8,
    pub bundle: Vec<u8>,
    pub sheet: Vec<u8>,
    pub record: u8,
}

impl HolderCase {
    pub fn new(bundle: Vec<u8>, sheet: Vec<u8>, record: u8) -> HolderCase {
        HolderCase {
            group: 0,
            bundle,
            sheet,
            record,
        }
    }
}

impl Exchange for HolderCase {
    type Came = u64;
    const GROUPS: &'static [Group<HolderCase>] = &HOLDER_GROUPS;

    fn group(&self) -> u8 {
        self.group
    }

    fn set_group(&mut self, group: u8) {
        self.group = group;
    }

    fn size(&self) -> usize {
        self.bundle.len() + self.sheet.len()
    }

    fn write(&self, file: &mut impl Write) -> io::Result<()> {
        let head = Head {
            kind: HOLDERS,
            group: self.group,
            letters: [self.record, 0, 0],
            numbers: [self.bundle.len() as u32, self.sheet.len() as u32, 0, 0],
        };
        head.write(file)?;
        file.write_all(&self.bundle)?;
        file.write_all(&self.sheet)
    }

    fn read(file: &mut impl Read) -> io::Result<Option<HolderCase>> {
        let Some(head) = Head::read(file)? else {
            return Ok(None);
        };
        let [bundle, sheet, _, _] = head.lengths();
        Ok(Some(HolderCase {
            group: head.group,
            bundle: read_bytes(file, bundle)?,
            sheet: read_bytes(file, sheet)?,
            record: head.letters[0],
        }))
    }

    fn write_answer(came: &u64, file: &mut impl Write) -> io::Result<()> {
        file.write_all(&came.to_le_bytes())
    }

    fn read_answer(&self, file: &mut impl Read) -> io::Result<u64> {
        let mut bytes = [0; 8];
        file.read_exact(&mut bytes)?;
        Ok(u64::from_le_bytes(bytes))
    }

    fn own_answer(&self) -> u64 {
        packed(&holders(&self.bundle, &self.sheet, self.record))
    }

    fn agree(&self, expected: &u64, came: &u64) -> Result<(), String> {
        if expected == came {
            return Ok(());
        }
        Err(format!("expected {expected:#018x}\ncame     {came:#018x}"))
    }

    /// Of a refusal its number, otherwise the record's form and whether it is
    /// well typed; the place is then the set of shelves.
    fn outcome(&self, expected: &u64) -> (String, usize) {
        let number = expected >> 56;
        if number != 0 {
            let place = expected >> 40 & 0xFFFF;
            return (format!("refused {number:2}"), place as usize);
        }
        let form = self.bundle[record_start(usize::from(self.record))];
        let typed = ["ill", "well"][usize::from(expected >> 32 & 1 == 1)];
        (format!("form {form} {typed}"), *expected as u32 as usize)
    }

    fn also(&self, _expected: &u64) -> Vec<String> {
        shown_by(&self.bundle).into_iter().collect()
    }

    fn describe(&self) -> String {
        let bundle = hex(&self.bundle);
        let sheet = hex(&self.sheet);
        format!(
            "holders of record {}\nsheet: {sheet}\nbundle: {bundle}",
            self.record
        )
    }
}
