//! What the specification says of the writer, tried on this program's own:
//! the small house by its bytes, every refusal with its place and the order of
//! the refusals, what an append leaves alone, and a chain of appends that
//! comes out as one write.

use crate::exchange::FILL_BYTE;
use crate::figures::Tally;
use crate::forge::Ground;
use crate::house::{full, house, GUILD};
use crate::random::Random;
use crate::reader::{read_bundle, Refusal, BLOCK, LONGEST_BUNDLE, RECORD};
use crate::service::{check, Question};
use crate::shape::{random_record, seal, seal_all, Draft, Record};
use crate::writer::{append, bytes_of_bundle, length_with, packed, unpacked, write, Content};
use crate::writer_draw::{content_of, draft_with};

const COUNTS: [usize; 9] = [0, 1, 39, 40, 41, 80, 160, 239, 240];

pub fn try_writer(tally: &mut Tally) {
    try_house(tally);
    try_results(tally);
    try_refused_lists(tally);
    try_order_of_list_faults(tally);
    try_refused_appends(tally);
    for (seed, count) in (0..).zip(COUNTS) {
        let mut random = Random::new(seed);
        let draft = draft_with(&mut random, count);
        try_write(tally, &draft);
        if count < 240 {
            try_append(tally, &mut random, &draft);
        }
    }
    try_chain(tally);
    for seed in 0..60 {
        try_slip(tally, seed);
    }
}

fn buffer_of(length: usize) -> Vec<u8> {
    vec![FILL_BYTE; length]
}

fn refused(number: u8, place: usize) -> Result<usize, Refusal> {
    Err(Refusal::new(number, place))
}

/// The small house, from the numbers that the specification states.
fn try_house(tally: &mut Tally) {
    let mut content = content_of(&house(&[]));
    tally.expect("marks of the house", 6, content.marks.iter().sum());
    let mut buffer = buffer_of(1_100);
    tally.expect("the house", Ok(1_024), write(&content, &mut buffer));
    tally.expect("its bytes", &house(&[]).bytes()[..], &buffer[..1_024]);
    tally.expect("P11", &[101, 0][..], &buffer[510..512]);
    tally.expect("P12", &[228, 26][..], &buffer[1_022..1_024]);
    tally.expect("bytes past it", &buffer_of(76)[..], &buffer[1_024..]);
    content.marks[usize::from(GUILD) - 1] = 2;
    write(&content, &mut buffer).expect("the house can be written");
    tally.expect(
        "guild absent",
        &house(&[GUILD]).bytes()[..],
        &buffer[..1_024],
    );
}

/// A result is packed as it is unpacked.
fn try_results(tally: &mut Tally) {
    tally.expect("a length", 3_584, packed(Ok(3_584)));
    tally.expect("a refusal", 12 << 56 | 241, packed(refused(12, 241)));
    for result in [Ok(512), refused(13, 0), refused(65, 70_000)] {
        tally.expect("packed and unpacked", result, unpacked(packed(result)));
    }
}

/// One thing wrong with a list at a time.
fn try_refused_lists(tally: &mut Tally) {
    type Spoil = fn(&mut Content);
    let ways: [(&str, Spoil, usize, u8, usize); 22] = [
        (
            "11 bytes more",
            |content| content.records.extend([0; 11]),
            1_024,
            1,
            0,
        ),
        (
            "a byte less",
            |content| content.records.truncate(71),
            1_024,
            1,
            0,
        ),
        ("E is 0", |content| content.entities = 0, 1_024, 3, 0),
        ("E is 33", |content| content.entities = 33, 1_024, 3, 0),
        (
            "E is one more than the marks say",
            |content| content.entities = 7,
            1_024,
            3,
            0,
        ),
        ("E is one less", |content| content.entities = 5, 1_024, 3, 0),
        ("R is 0", |content| content.names = 0, 1_024, 3, 0),
        ("R is 33", |content| content.names = 33, 1_024, 3, 0),
        ("mark 0", |content| content.marks[5] = 0, 1_024, 3, 0),
        ("mark 3", |content| content.marks[0] = 3, 1_024, 3, 0),
        (
            "a mark above E",
            |content| content.marks[31] = 1,
            1_024,
            3,
            0,
        ),
        (
            "31 marks",
            |content| content.marks.truncate(31),
            1_024,
            3,
            0,
        ),
        ("33 marks", |content| content.marks.push(0), 1_024, 3, 0),
        ("no marks", |content| content.marks.clear(), 1_024, 3, 0),
        ("form 0", |content| content.records[0] = 0, 1_024, 61, 1),
        ("one part", |content| content.records[63] = 1, 1_024, 62, 6),
        (
            "entity 7 of 6",
            |content| content.records[13] = 7,
            1_024,
            63,
            2,
        ),
        ("name 0", |content| content.records[38] = 0, 1_024, 64, 4),
        ("byte 11", |content| content.records[59] = 1, 1_024, 65, 5),
        ("a byte short", |_| {}, 1_023, 13, 0),
        ("no buffer", |_| {}, 0, 13, 0),
        ("R is 5", |content| content.names = 5, 0, 64, 6),
    ];
    for (what, spoil, length, number, place) in ways {
        let mut content = content_of(&house(&[]));
        spoil(&mut content);
        expect_refused(tally, what, &content, length, refused(number, place));
    }
}

/// A refused write gives this refusal and leaves the buffer as it was.
fn expect_refused(
    tally: &mut Tally,
    what: &str,
    content: &Content,
    length: usize,
    expected: Result<usize, Refusal>,
) {
    let mut buffer = buffer_of(length);
    tally.expect(what, expected, write(content, &mut buffer));
    tally.expect(what, buffer_of(length), buffer);
}

/// All that can be wrong with a list, put right step by step.
fn try_order_of_list_faults(tally: &mut Tally) {
    let mut draft = draft_with(&mut Random::new(300), 300);
    let right = draft.records[299];
    draft.records[299] = [255; RECORD];
    let mut content = content_of(&draft);
    let entities = content.entities;
    content.entities = 0;
    content.records.push(0);
    let mut expect = |what: &str, content: &Content, length: usize, number, place| {
        expect_refused(tally, what, content, length, refused(number, place));
    };
    expect("1 goes first", &content, 0, 1, 0);
    content.records.pop();
    expect("then 3", &content, 0, 3, 0);
    content.entities = entities;
    expect("then 61 far down", &content, 0, 61, 300);
    content.records[299 * RECORD..].copy_from_slice(&right);
    expect("then 12", &content, 0, 12, 241);
    content.records.truncate(241 * RECORD);
    expect("12 for one too many", &content, LONGEST_BUNDLE, 12, 241);
    content.records.truncate(240 * RECORD);
    expect("then 13", &content, LONGEST_BUNDLE - 1, 13, 0);
    let mut buffer = buffer_of(LONGEST_BUNDLE);
    let written = write(&content, &mut buffer);
    tally.expect("then it is written", Ok(LONGEST_BUNDLE), written);
}

/// A right bundle of each number of records, laid out in two ways, and what
/// reading it back gives.
fn try_write(tally: &mut Tally, draft: &Draft) {
    let bytes = draft.bytes();
    let mut buffer = buffer_of(LONGEST_BUNDLE + 1);
    let written = write(&content_of(draft), &mut buffer);
    tally.expect("length", Ok(bytes.len()), written);
    tally.expect("written bytes", &bytes[..], &buffer[..bytes.len()]);
    let stays = buffer[bytes.len()..].iter().all(|byte| *byte == FILL_BYTE);
    tally.expect("bytes past the bundle stay", true, stays);
    let back = read_bundle(&bytes).expect("what is written can be read");
    tally.expect("read back and laid out", &bytes, &bytes_of_bundle(&back));
}

/// An append gives the bundle with one record more, and changes block 0 and
/// one record block alone.
fn try_append(tally: &mut Tally, random: &mut Random, draft: &Draft) {
    let before = draft.bytes();
    let mut longer = draft.clone();
    let form = random.number(4);
    let record = random_record(random, draft, form);
    longer.records.push(record);
    let after = longer.bytes();
    let mut buffer = before.clone();
    buffer.resize(after.len() + 9, FILL_BYTE);
    let appended = append(&mut buffer, before.len() as u64, &record);
    tally.expect("length after an append", Ok(after.len()), appended);
    tally.expect("bytes after an append", &after[..], &buffer[..after.len()]);
    tally.expect("bytes past it", &buffer_of(9)[..], &buffer[after.len()..]);
    let concerned = length_with(longer.records.len()) / BLOCK - 1;
    let blocks = before.chunks(BLOCK).zip(buffer.chunks(BLOCK)).enumerate();
    for (number, (old, new)) in blocks {
        let may_change = number == 0 || number == concerned;
        tally.expect("a block of its own", true, may_change || old == new);
    }
}

/// Appends that are refused, and leave the buffer as it was.
fn try_refused_appends(tally: &mut Tally) {
    let right = house(&[]).records[0];
    let wrong: Record = [5; RECORD];
    let bytes = house(&[]).bytes();
    let mut expect = |what: &str, bytes: &[u8], length: u64, record: &[u8], number, place| {
        let mut buffer = bytes.to_vec();
        let appended = append(&mut buffer, length, record);
        tally.expect(what, refused(number, place), appended);
        tally.expect(what, bytes, &buffer[..]);
    };
    expect("beyond the buffer", &bytes, 1_536, &right, 1, 0);
    expect("far beyond", &bytes, 1 << 32 | 1_024, &right, 1, 0);
    expect("length 0", &bytes, 0, &right, 1, 0);
    expect("length 1,023", &bytes, 1_023, &right, 1, 0);
    expect("11 bytes", &bytes, 1_024, &right[..11], 1, 0);
    expect("24 bytes", &bytes, 1_024, &[right, right].concat(), 1, 0);
    expect("one block of two", &bytes, 512, &right, 4, 0);
    expect("a wrong record", &bytes, 1_024, &wrong, 61, 7);
    let mut damaged = bytes.clone();
    damaged[BLOCK + 479] = 1;
    expect("a wrong check", &damaged, 1_024, &wrong, 2, 2);
    seal(&mut damaged, 1);
    expect("a wrong place", &damaged, 1_024, &wrong, 5, 1);
    damaged[BLOCK + 479] = 0;
    damaged[BLOCK + 71] = 1;
    seal(&mut damaged, 1);
    expect("a wrong record held", &damaged, 1_024, &wrong, 65, 6);
    damaged[0] = 2;
    seal_all(&mut damaged);
    expect("a wrong block 0", &damaged, 1_024, &wrong, 3, 0);
    let mut all = full().bytes();
    expect("a wrong 241st", &all, 3_584, &wrong, 61, 241);
    expect("a 241st", &all, 3_584, &right, 12, 241);
    all.resize(4_096, FILL_BYTE);
    expect("a 241st with room", &all, 3_584, &right, 12, 241);
    let block = draft_with(&mut Random::new(40), 40);
    let mut filled = block.bytes();
    expect("no room", &filled, 1_024, &block.records[0], 13, 0);
    filled.resize(1_535, FILL_BYTE);
    expect("a byte short", &filled, 1_024, &block.records[0], 13, 0);
    expect("a wrong one", &filled, 1_024, &wrong, 61, 41);
}

/// 240 appends from the empty bundle come out as one write.
fn try_chain(tally: &mut Tally) {
    let draft = full();
    let mut empty = content_of(&draft);
    empty.records.clear();
    let mut buffer = buffer_of(LONGEST_BUNDLE + 7);
    let mut length = write(&empty, &mut buffer).expect("an empty bundle can be written");
    for (index, record) in draft.records.iter().enumerate() {
        length = append(&mut buffer, length as u64, record).unwrap_or(0);
        tally.expect("length in the chain", length_with(index + 1), length);
    }
    tally.expect("a chain", &draft.bytes()[..], &buffer[..LONGEST_BUNDLE]);
    tally.expect(
        "bytes past it",
        &buffer_of(7)[..],
        &buffer[LONGEST_BUNDLE..],
    );
}

/// A slip that is right before an append is right after it.
fn try_slip(tally: &mut Tally, seed: u64) {
    let mut random = Random::new(seed);
    let ground = Ground::draw(&mut random);
    if ground.draft.records.len() == 240 {
        return;
    }
    let question = Question::about(ground.goal);
    let slip = ground.slip(&mut random);
    let form = random.number(4);
    let record = random_record(&mut random, &ground.draft, form);
    let before = check(&ground.bytes, question, &slip);
    let mut buffer = ground.bytes.clone();
    buffer.resize(LONGEST_BUNDLE, FILL_BYTE);
    let length = append(&mut buffer, ground.bytes.len() as u64, &record).unwrap_or(0);
    let after = check(&buffer[..length], question, &slip);
    tally.expect("a slip before an append", 0, before.number);
    tally.expect("the same slip after it", before, after);
}
