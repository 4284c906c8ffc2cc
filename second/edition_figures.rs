//! What the specification says of editions and of names above 16, tried on
//! this program's own: which edition is read and written with how many names,
//! where the words of a table stand, and how many there have to be.

use crate::exchange::{own_answer, Case, FILL_WORD};
use crate::figures::Tally;
use crate::reader::{read_bundle, Role};
use crate::service::{ask, ask_with_sheet, Answer, Lent, Question};
use crate::shape::{member_record, seal, Draft};
use crate::sheet_draw::sheet_of;
use crate::writer::{append, write};
use crate::writer_draw::content_of;

pub fn try_editions(tally: &mut Tally) {
    try_reading(tally);
    try_writing(tally);
    try_words(tally);
    try_lent_words(tally);
    try_questions(tally);
}

/// A bundle with so many names and another byte 0.
fn with_edition(names: u8, edition: u8) -> Vec<u8> {
    let mut bytes = Draft::new(1, names).bytes();
    bytes[0] = edition;
    seal(&mut bytes, 0);
    bytes
}

fn try_reading(tally: &mut Tally) {
    let rows = [(1, 1), (15, 1), (16, 1), (17, 2), (18, 2), (31, 2), (32, 2)];
    for (names, fitting) in rows {
        for edition in [0, 1, 2, 3, 16, 17, 32, 128, 255] {
            let refusal = read_bundle(&with_edition(names, edition)).err();
            let expected = (edition != fitting).then_some((3, 0));
            let came = refusal.map(|refusal| (refusal.number, refusal.place));
            tally.expect(&format!("R {names}, edition {edition}"), expected, came);
        }
    }
    for (names, edition) in [(0, 1), (0, 2), (33, 1), (33, 2), (33, 3), (255, 2)] {
        let refused = read_bundle(&with_edition(names, edition)).is_err();
        tally.expect(&format!("R {names}, edition {edition}"), true, refused);
    }
}

/// What is written begins with the one edition, also after an append, and is
/// read.
fn try_writing(tally: &mut Tally) {
    for names in 0..=255 {
        let content = content_of(&Draft::new(2, names));
        let mut buffer = vec![0; 1_024];
        let written = write(&content, &mut buffer);
        let record = member_record(Role::new(2, names), 2);
        let appended = append(&mut buffer, 512, &record);
        let (length, edition) = match names {
            1..=16 => (Some(1_024), 1),
            17..=32 => (Some(1_024), 2),
            _ => (None, 0),
        };
        let what = format!("{names} names");
        tally.expect(&what, length.map(|_| 512), written.ok());
        tally.expect(&what, length, appended.ok());
        tally.expect(&what, edition, buffer[0]);
        tally.expect(&what, length.is_some(), read_bundle(&buffer).is_ok());
    }
}

/// A fact stands in the same word whatever the edition; the numbers are worked
/// out by hand.
fn try_words(tally: &mut Tally) {
    let rows = [
        (16, (1, 1), 0),
        (32, (1, 1), 0),
        (16, (1, 16), 15),
        (17, (1, 17), 16),
        (32, (1, 32), 31),
        (16, (2, 1), 32),
        (32, (2, 1), 32),
        (16, (32, 16), 1_007),
        (17, (32, 17), 1_008),
        (32, (32, 32), 1_023),
    ];
    for (names, (entity, name), place) in rows {
        let mut draft = Draft::new(32, names);
        draft.records = vec![member_record(Role::new(entity, name), 32)];
        let lent = Lent {
            sure_words: 1_025,
            ..Lent::enough()
        };
        let question = Question::about((entity, name, 32));
        let came = own_answer(&Case::search(question, draft.bytes(), lent));
        let words: Vec<usize> = (0..1_024).filter(|word| came.sure[*word] != 0).collect();
        let what = format!("word of {entity}.{name} of {names}");
        tally.expect(&what, vec![place], words);
        tally.expect(&what, 1 << 31, came.sure[place]);
        tally.expect("word 1,024 stays", FILL_WORD, came.sure[1_024]);
    }
}

fn try_lent_words(tally: &mut Tally) {
    let rows = [(1_024, 1_024, 0), (1_023, 1_024, 8), (1_024, 1_023, 8)];
    for names in [1, 16, 17, 32] {
        for (sure_words, possible_words, number) in rows {
            let lent = Lent {
                sure_words,
                possible_words,
                ..Lent::enough()
            };
            let question = Question::about((1, 1, 1));
            let case = Case::search(question, Draft::new(1, names).bytes(), lent);
            let answer = Answer::unpacked(own_answer(&case).packed);
            tally.expect("a table too short", number, answer.number);
        }
    }
}

/// The last name of each of two bundles, with one shelf of two absent.
fn try_questions(tally: &mut Tally) {
    for names in [17, 32] {
        let mut draft = Draft::new(2, names);
        draft.absent = vec![2];
        draft.records = vec![member_record(Role::new(1, names), 1)];
        let bundle = draft.bytes();
        let mut codes = vec![3; usize::from(names)];
        codes[usize::from(names) - 1] = 2;
        let sheet = sheet_of(&codes);
        let rows = [
            ([1, 1, names], "YES 1", "YES 1"),
            ([2, 1, names], "NO 1", "UNSURE 1"),
            ([2, 1, names - 1], "NO 1", "NO 1"),
            ([1, 2, names], "UNSURE 1", "UNSURE 1"),
            ([1, 1, names + 1], "REFUSED 7 0", "REFUSED 7 0"),
        ];
        for (question, alone, with_sheet) in rows {
            let what = format!("{question:?} of {names}");
            let came = ask(&[&question, &bundle[..]].concat());
            tally.expect(&what, alone, &came);
            let came = ask_with_sheet(&[&question, &sheet[..], &bundle].concat());
            tally.expect(&what, with_sheet, &came);
        }
    }
}
