//! What the specification says of the desk's two programs, tried on this
//! program's own: the small house from its lines and back, refusals and their
//! order.

use crate::desk::{BUNDLE_FROM_LINES, HEAD, LINES_FROM_BUNDLE};
use crate::figures::Tally;
use crate::house::{house, one, GUILD};
use crate::program::refusal_in;
use crate::random::Random;
use crate::reader::{Refusal, ABSENT, PRESENT};
use crate::text_figures::HOUSE_TEXT;
use crate::writer_draw::draft_with;

pub fn try_desk(tally: &mut Tally) {
    try_house_at_the_desk(tally);
    try_refusals(tally);
    for seed in 0..20 {
        try_there_and_back(tally, seed);
    }
}

/// E, R, and marks for E shelves, all present.
fn head_of(entities: u8, names: u8) -> Vec<u8> {
    let mut head = vec![entities, names];
    head.resize(2 + usize::from(entities), PRESENT);
    head.resize(HEAD, 0);
    head
}

fn bundle_from(head: &[u8], text: &str) -> Vec<u8> {
    (BUNDLE_FROM_LINES.prints)(&[head, text.as_bytes()].concat())
}

fn lines_from(bundle: &[u8]) -> Vec<u8> {
    (LINES_FROM_BUNDLE.prints)(bundle)
}

fn try_house_at_the_desk(tally: &mut Tally) {
    let mut head = head_of(6, 6);
    let bundle = house(&[]).bytes();
    tally.expect("the house", &bundle, &bundle_from(&head, HOUSE_TEXT));
    tally.expect("its lines", HOUSE_TEXT.as_bytes(), &lines_from(&bundle));
    head[1 + usize::from(GUILD)] = ABSENT;
    let bundle = house(&[GUILD]).bytes();
    tally.expect("guild absent", &bundle, &bundle_from(&head, HOUSE_TEXT));
    tally.expect("its lines", HOUSE_TEXT.as_bytes(), &lines_from(&bundle));
    let bundle = one(&[]).bytes();
    tally.expect("no lines", &bundle, &bundle_from(&head_of(1, 1), ""));
    tally.expect("no records", Vec::new(), lines_from(&bundle));
}

fn try_refusals(tally: &mut Tally) {
    let head = head_of(6, 6);
    let mut wrong_mark = head.clone();
    wrong_mark[2] = 3;
    let right = "e1.r1 <- e1\n";
    let refused = [
        ("no input", &head[..0], "", 3, 0),
        ("no marks", &head[..2], "", 3, 0),
        ("31 marks", &head[..HEAD - 1], "", 3, 0),
        ("E is 0", &head_of(0, 1), right, 3, 0),
        ("R is 33", &head_of(1, 33), right, 3, 0),
        ("a wrong mark and a wrong line", &wrong_mark, "e1", 3, 0),
        ("no last newline", &head, HOUSE_TEXT.trim_end(), 14, 6),
        ("241 lines", &head, &right.repeat(241), 12, 241),
    ];
    for (what, head, text, number, place) in refused {
        let came = bundle_from(head, text);
        tally.expect(what, Some(Refusal::new(number, place)), refusal_in(&came));
    }
    let line = b"REFUSED 3 0\n";
    tally.expect("a refusal", &line[..], &bundle_from(&[], ""));
    tally.expect("no bundle", &b"REFUSED 1 0\n"[..], &lines_from(line));
}

/// The lines of a bundle make the same bundle again.
fn try_there_and_back(tally: &mut Tally, seed: u64) {
    let mut random = Random::new(seed);
    let count = random.below(241);
    let draft = draft_with(&mut random, count);
    let bundle = draft.bytes();
    let input = [&bundle[1..3], &bundle[4..36], &lines_from(&bundle)].concat();
    let came = (BUNDLE_FROM_LINES.prints)(&input);
    tally.expect("made from its own lines", bundle, came);
}
