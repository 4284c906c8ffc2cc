//! What the specification says of text lines, tried on this program's own: the
//! example lines both ways, every flaw that it names, the order of refusals,
//! and that reading and writing undo each other.

use crate::exchange::FILL_BYTE;
use crate::figures::Tally;
use crate::house::house;
use crate::random::Random;
use crate::reader::{Refusal, RECORD};
use crate::text::{read_lines, write_lines, LONGEST_TEXT};
use crate::writer_draw::draft_with;

pub fn try_text(tally: &mut Tally) {
    try_examples(tally);
    try_house_text(tally);
    try_flaws(tally);
    try_edges(tally);
    try_order(tally);
    for seed in 0..40 {
        try_there_and_back(tally, seed);
    }
}

/// What a call gives: the bytes at the start of a buffer that is long enough,
/// or the refusal.
type Given = Result<Vec<u8>, Refusal>;

fn given(call: impl Fn(&mut [u8]) -> Result<usize, Refusal>) -> Given {
    let mut buffer = vec![FILL_BYTE; LONGEST_TEXT];
    let length = call(&mut buffer)?;
    buffer.truncate(length);
    Ok(buffer)
}

fn read(entities: u8, names: u8, text: &str) -> Given {
    given(|buffer| read_lines(entities, names, text.as_bytes(), buffer))
}

fn written(entities: u8, names: u8, records: &[u8]) -> Given {
    given(|buffer| write_lines(entities, names, records, buffer))
}

fn refused(number: u8, place: usize) -> Given {
    Err(Refusal::new(number, place))
}

/// The lines of the specification, and the records that it says they are.
const EXAMPLES: [(&str, &[u8]); 7] = [
    ("e2.r3 <- e3\n", &[1, 2, 3, 3]),
    ("e1.r2 <- e2.r3\n", &[2, 1, 2, 2, 3]),
    ("e1.r1 <- e1.r2.r4\n", &[3, 1, 1, 2, 4]),
    ("e1.r6 <- e1.r1 & e5.r5\n", &[4, 1, 6, 2, 1, 1, 5, 5]),
    (
        "e1.r6 <- e1.r1 & e5.r5 & e2.r2\n",
        &[4, 1, 6, 3, 1, 1, 5, 5, 2, 2],
    ),
    ("e6.r6 <- e6\n", &[1, 6, 6, 6]),
    ("e6.r6 <- e6.r6.r6\n", &[3, 6, 6, 6, 6]),
];

fn try_examples(tally: &mut Tally) {
    for (line, used) in EXAMPLES {
        let mut record = used.to_vec();
        record.resize(RECORD, 0);
        tally.expect(line, Ok(line.as_bytes().to_vec()), written(6, 6, &record));
        tally.expect(line, Ok(record), read(6, 6, line));
    }
}

/// The six credentials of the small house.
pub const HOUSE_TEXT: &str = "e1.r2 <- e2.r3\ne2.r3 <- e3\ne1.r1 <- e1.r2.r4\ne3.r4 <- e4\n\
    e5.r5 <- e4\ne1.r6 <- e1.r1 & e5.r5\n";

fn try_house_text(tally: &mut Tally) {
    let records = house(&[]).records.concat();
    tally.expect(
        "the house as text",
        Ok(HOUSE_TEXT.as_bytes().to_vec()),
        written(6, 6, &records),
    );
    tally.expect("the house from text", Ok(records), read(6, 6, HOUSE_TEXT));
}

/// Wrong lines over 9 entities and 9 names.
const WRONG: [&str; 60] = [
    "\n",
    " \n",
    "e1.r1 <- e1",
    "e1.r1 <- e1\r\n",
    "e1.r1 <- e1 \n",
    " e1.r1 <- e1\n",
    "e1.r1\t<- e1\n",
    "e1.r1  <- e1\n",
    "e1.r1 <-  e1\n",
    "e1.r1 <-e1\n",
    "e1.r1<- e1\n",
    "e1.r1 < - e1\n",
    "e1.r1 -> e1\n",
    "e1.r1 & e1\n",
    "e1.r1 <- e1 <- e1\n",
    "e1.r1 <- <- e1\n",
    "e01.r1 <- e1\n",
    "e1.r01 <- e1\n",
    "e1.r1 <- e01\n",
    "e1.r1 <- e0\n",
    "e0.r1 <- e1\n",
    "e1.r0 <- e1\n",
    "e1.r1 <- e10\n",
    "e1.r10 <- e1\n",
    "e1.r1 <- e257\n",
    "e1.r1 <- e65537\n",
    "e1.r1 <- e4294967297\n",
    "e1.r1 <- e18446744073709551617\n",
    "e1.r1 <- e340282366920938463463374607431768211457\n",
    "e1.r1 <- e-1\n",
    "e1.r1 <- e+1\n",
    "e1.r1 <- e\n",
    "e1.r1 <- 1\n",
    "e1.r1 <- r1\n",
    "e1.r1 <- E1\n",
    "e1.r1 <- e1.\n",
    "e1.r1 <- e1.1\n",
    "e1.r1 <- e1.e1\n",
    "e1.r1 <- e1..r1\n",
    "e1.r1 <- e1,r1\n",
    "e1.r1 <- e2.r1.r1\n",
    "e1.r1 <- e1.r1.r1.r1\n",
    "e1.r1 <- e1.r1 &\n",
    "e1.r1 <- e1.r1 & \n",
    "e1.r1 <- & e1.r1\n",
    "e1.r1 <- e1.r1& e1.r1\n",
    "e1.r1 <- e1.r1 &e1.r1\n",
    "e1.r1 <- e1.r1  & e1.r1\n",
    "e1.r1 <- e1.r1 && e1.r1\n",
    "e1.r1 <- e1.r1 e1.r1\n",
    "e1.r1 <- e1.r1 <- e1.r1\n",
    "e1.r1 <- e1.r1 & e1\n",
    "e1.r1 <- e1 & e1\n",
    "e1.r1 <- e1 & e1 & e1\n",
    "e1.r1 <- e1.r1 & e1.r1.r1\n",
    "e1.r1 <- e1.r1 & e1.r1 & e1.r1 & e1.r1\n",
    "e1 <- e1\n",
    "e1.r1\n",
    "e1.r1 <- \n",
    "e1.r1.r1 <- e1\n",
];

/// Each is refused where it stands first, second, and last of 240.
fn try_flaws(tally: &mut Tally) {
    let right = "e9.r9 <- e9\n";
    for wrong in WRONG {
        for place in [1, 2, 240] {
            let before = right.repeat(place - 1);
            let text = format!("{before}{wrong}");
            tally.expect(wrong, refused(14, place), read(9, 9, &text));
            let text = format!("{before}{wrong}{right}");
            tally.expect(wrong, refused(14, place), read(9, 9, &text));
        }
    }
}

fn try_edges(tally: &mut Tally) {
    tally.expect("no text", Ok(Vec::new()), read(1, 1, ""));
    tally.expect("no records", Ok(Vec::new()), written(1, 1, &[]));
    let longest = "e32.r32 <- e32.r32 & e32.r32 & e32.r32\n";
    let record = [4, 32, 32, 3, 32, 32, 32, 32, 32, 32, 0, 0];
    let text = longest.repeat(240);
    let records = record.repeat(240);
    tally.expect("bytes of the longest text", 9_360, text.len());
    tally.expect("longest text", Ok(records.clone()), read(32, 32, &text));
    tally.expect(
        "as text",
        Ok(text.clone().into_bytes()),
        written(32, 32, &records),
    );
    for (entities, names) in [(31, 32), (32, 31), (32, 16), (9, 9)] {
        let came = read(entities, names, &text);
        tally.expect("out of range", refused(14, 1), came);
    }
    for (count, expected) in [(9, true), (10, true), (32, true), (8, false)] {
        let came = read(count, 1, "e9.r1 <- e9\n").is_ok();
        tally.expect("nine of these", expected, came);
    }
    for (name, names, expected) in [(16, 16, true), (17, 16, false), (17, 17, true)] {
        let line = format!("e1.r{name} <- e1.r{name}.r{name}\n");
        tally.expect(&line, expected, read(1, names, &line).is_ok());
    }
    for (name, expected) in [
        (17, true),
        (31, true),
        (32, true),
        (33, false),
        (320, false),
    ] {
        let line = format!("e1.r1 <- e1.r1 & e1.r{name}\n");
        tally.expect(&line, expected, read(1, 32, &line).is_ok());
    }
    tally.expect("ten of nine", refused(14, 1), read(9, 1, "e10.r1 <- e1\n"));
    tally.expect("ten of ten", true, read(10, 1, "e10.r1 <- e1\n").is_ok());
}

/// All that can be wrong, put right step by step; nothing is written.
fn try_order(tally: &mut Tally) {
    let right = "e1.r1 <- e1\n".repeat(240);
    let wrong = format!("{right}x").replacen("e1.r1 <- e1", "e1.r1 <- e2", 1);
    let mut expect_read = |what: &str, entities, text: &str, length, number, place| {
        let mut buffer = vec![FILL_BYTE; length];
        let came = read_lines(entities, 1, text.as_bytes(), &mut buffer);
        tally.expect(what, Err(Refusal::new(number, place)), came);
        tally.expect(what, vec![FILL_BYTE; length], buffer);
    };
    expect_read("3 goes first", 0, &wrong, 0, 3, 0);
    expect_read("then 14", 1, &wrong, 0, 14, 1);
    expect_read("then 12", 1, &format!("{right}x"), 0, 12, 241);
    expect_read("then 13", 1, &right, 2_879, 13, 0);
    let record = [1, 1, 1, 1, 0, 0, 0, 0, 0, 0, 0, 0];
    let mut records = record.repeat(241);
    records[240 * RECORD] = 9;
    records.push(0);
    let mut expect_written = |what: &str, names, records: &[u8], length, number, place| {
        let mut buffer = vec![FILL_BYTE; length];
        let came = write_lines(1, names, records, &mut buffer);
        tally.expect(what, Err(Refusal::new(number, place)), came);
        tally.expect(what, vec![FILL_BYTE; length], buffer);
    };
    expect_written("1 goes first", 0, &records, 0, 1, 0);
    records.pop();
    expect_written("then 3", 33, &records, 0, 3, 0);
    expect_written("then 61", 1, &records, 0, 61, 241);
    records[240 * RECORD] = 1;
    expect_written("then 12", 1, &records, 0, 12, 241);
    records.truncate(240 * RECORD);
    expect_written("then 13", 1, &records, 2_879, 13, 0);
}

/// Reading what was written gives the records back, and writing that the text.
fn try_there_and_back(tally: &mut Tally, seed: u64) {
    let mut random = Random::new(seed);
    let count = random.below(241);
    let draft = draft_with(&mut random, count);
    let (entities, names) = (draft.entities, draft.names);
    let records = draft.records.concat();
    let text = written(entities, names, &records).unwrap_or_default();
    let lines = String::from_utf8(text.clone()).unwrap_or_default();
    tally.expect("lines", count, lines.lines().count());
    tally.expect("read back", Ok(records), read(entities, names, &lines));
}
