//! The comparison with the answers of the program under test, for every kind
//! of case.
//!
//! A kind of case says what it is drawn from, how a case and an answer travel
//! in a file, what this program itself answers, and when an answer that came
//! is right. From that the four commands follow: draw cases, compare answers
//! with this program's own, write its own answers, count what is expected.

use crate::groups::{draw_case, Group};
use std::collections::{BTreeMap, BTreeSet};
use std::fs::File;
use std::io::{self, BufReader, BufWriter, Read, Write};

/// A case: what is handed to the program under test. `Came` is what comes
/// back.
pub trait Exchange: Sized + 'static {
    type Came;

    /// The groups that cases are drawn from; the group byte of a case is the
    /// place in this list.
    const GROUPS: &'static [Group<Self>];

    fn group(&self) -> u8;
    fn set_group(&mut self, group: u8);

    /// The number of bytes that the case hands over.
    fn size(&self) -> usize;

    fn write(&self, file: &mut impl Write) -> io::Result<()>;

    /// The next case of a file, or nothing at its end.
    fn read(file: &mut impl Read) -> io::Result<Option<Self>>;

    fn write_answer(came: &Self::Came, file: &mut impl Write) -> io::Result<()>;
    fn read_answer(&self, file: &mut impl Read) -> io::Result<Self::Came>;

    /// What this program itself brings back.
    fn own_answer(&self) -> Self::Came;

    /// Says nothing when the answer that came is right, else what is wrong.
    fn agree(&self, expected: &Self::Came, came: &Self::Came) -> Result<(), String>;

    /// The expected outcome in words, and its place.
    fn outcome(&self, expected: &Self::Came) -> (String, usize);

    /// What the case shows besides, in words: editions, and names above 16.
    fn also(&self, expected: &Self::Came) -> Vec<String>;

    /// The case in words: the call first, then what is handed over.
    fn describe(&self) -> String;

    fn group_name(&self) -> &'static str {
        Self::GROUPS[usize::from(self.group())].name
    }
}

/// The first byte of the next case in a file, or nothing at its end.
pub fn first_byte(file: &mut impl Read) -> io::Result<Option<u8>> {
    let mut first = Vec::new();
    file.take(1).read_to_end(&mut first)?;
    Ok(first.first().copied())
}

/// A case on which the two programs differ, and in what.
struct Disagreement<C> {
    number: usize,
    case: C,
    difference: String,
}

/// How often each outcome was expected, and at how many places, and how often
/// the cases show what they show besides.
#[derive(Default)]
struct Outcomes {
    seen: BTreeMap<String, (usize, BTreeSet<usize>)>,
    also: BTreeMap<String, usize>,
}

impl Outcomes {
    fn note<C: Exchange>(&mut self, case: &C, expected: &C::Came) {
        let (outcome, place) = case.outcome(expected);
        let (count, places) = self.seen.entry(outcome).or_default();
        *count += 1;
        places.insert(place);
        for words in case.also(expected) {
            *self.also.entry(words).or_default() += 1;
        }
    }

    fn print(&self) {
        for (outcome, (count, places)) in &self.seen {
            let different = places.len();
            println!("outcome: {outcome}: {count} cases, different places: {different}");
        }
        for (words, count) in &self.also {
            println!("also: {words}: {count} cases");
        }
    }
}

/// Writes so many cases to a file.
pub fn draw<C: Exchange>(seed: u64, count: usize, path: &str) -> io::Result<()> {
    let mut file = BufWriter::new(File::create(path)?);
    for number in 0..count {
        let (group, mut case) = draw_case(C::GROUPS, seed, number);
        case.set_group(group as u8);
        case.write(&mut file)?;
    }
    file.flush()
}

/// Compares a file of cases with a file of answers; true when all agree.
pub fn compare<C: Exchange>(cases_path: &str, answers_path: &str) -> io::Result<bool> {
    let mut cases = BufReader::new(File::open(cases_path)?);
    let mut answers = BufReader::new(File::open(answers_path)?);
    let mut counts = vec![0; C::GROUPS.len()];
    let mut outcomes = Outcomes::default();
    let mut disagreements: Vec<Disagreement<C>> = Vec::new();
    let mut number = 0;
    while let Some(case) = C::read(&mut cases)? {
        let Ok(came) = case.read_answer(&mut answers) else {
            println!("disagree: the file of answers ends in the answer to case {number}");
            return Ok(false);
        };
        counts[usize::from(case.group())] += 1;
        let expected = case.own_answer();
        outcomes.note(&case, &expected);
        if let Err(difference) = case.agree(&expected, &came) {
            disagreements.push(Disagreement {
                number,
                case,
                difference,
            });
        }
        number += 1;
    }
    if answers.bytes().next().is_some() {
        println!("disagree: the file of answers goes on after the last case");
        return Ok(false);
    }
    let all_agree = disagreements.is_empty();
    report(&counts, &outcomes, disagreements);
    Ok(all_agree)
}

/// Prints the smallest case on which the programs differ, or what agreed.
fn report<C: Exchange>(counts: &[usize], outcomes: &Outcomes, disagreements: Vec<Disagreement<C>>) {
    let count = disagreements.len();
    let sized = |found: &Disagreement<C>| found.case.size();
    if let Some(found) = disagreements.into_iter().min_by_key(sized) {
        println!("disagree: {count} cases; the smallest is");
        let group = found.case.group_name();
        println!("case {} of the file, group {}", found.number, group);
        println!("{}", found.difference);
        println!("{}", found.case.describe());
        return;
    }
    for (group, count) in C::GROUPS.iter().zip(counts) {
        println!("agree: {} {}", group.name, count);
    }
    outcomes.print();
}

/// Answers a file of cases with this program's own answers.
pub fn answer<C: Exchange>(cases_path: &str, answers_path: &str) -> io::Result<()> {
    answer_by(cases_path, answers_path, |case: &C| Ok(case.own_answer()))
}

/// Answers a file of cases with what a function brings back for each.
pub fn answer_by<C: Exchange>(
    cases_path: &str,
    answers_path: &str,
    answer: impl Fn(&C) -> io::Result<C::Came>,
) -> io::Result<()> {
    let mut cases = BufReader::new(File::open(cases_path)?);
    let mut answers = BufWriter::new(File::create(answers_path)?);
    while let Some(case) = C::read(&mut cases)? {
        C::write_answer(&answer(&case)?, &mut answers)?;
    }
    answers.flush()
}

/// Prints how often each outcome is expected, group by group.
pub fn survey<C: Exchange>(cases_path: &str) -> io::Result<()> {
    let mut cases = BufReader::new(File::open(cases_path)?);
    let mut counts: BTreeMap<(u8, String), usize> = BTreeMap::new();
    while let Some(case) = C::read(&mut cases)? {
        let (outcome, _) = case.outcome(&case.own_answer());
        *counts.entry((case.group(), outcome)).or_default() += 1;
    }
    for ((group, outcome), count) in counts {
        let name = C::GROUPS[usize::from(group)].name;
        println!("{name}: {outcome} {count}");
    }
    Ok(())
}

pub fn hex(bytes: &[u8]) -> String {
    bytes.iter().map(|byte| format!("{byte:02x}")).collect()
}

/// Compares two runs of words or bytes.
pub fn agree_items<T>(what: &str, expected: &[T], came: &[T]) -> Result<(), String>
where
    T: PartialEq + std::fmt::LowerHex,
{
    if expected == came {
        return Ok(());
    }
    let mut pairs = expected.iter().zip(came).enumerate();
    match pairs.find(|(_, (wanted, got))| wanted != got) {
        Some((place, (wanted, got))) => Err(format!(
            "{what} {place}: expected {wanted:#x}, came {got:#x}"
        )),
        None => Err(format!(
            "{what}s: expected {}, came {}",
            expected.len(),
            came.len()
        )),
    }
}
