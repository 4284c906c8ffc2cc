//! Programs that are compared by what they print: the files that their inputs
//! and outputs travel in, and how the program under test is started.
//!
//! A case: one byte program, one byte group, four bytes with the length of the
//! input, low byte first; then the input. The byte is the program's place in
//! the set of programs that are compared together.
//!
//! An answer: one byte status, 0 where the program ended well and 1 otherwise,
//! four bytes with the length of what it printed, and that, byte for byte.

use crate::comparison::{agree_items, first_byte, hex, Exchange};
use crate::edition::{shown_by, shown_for};
use crate::exchange::{read_bytes, read_number};
use crate::groups::Group;
use crate::program::{refusal_in, Program};
use std::fs::File;
use std::io::{self, BufReader, BufWriter, ErrorKind, Read, Write};
use std::marker::PhantomData;
use std::process::{Command, Stdio};
use std::thread;

/// Programs that are compared together, and the cases drawn for them.
pub trait ProgramSet: Sized + Sync + 'static {
    const PROGRAMS: &'static [Program];
    const GROUPS: &'static [Group<ProgramCase<Self>>];

    /// What an output that is no refusal says, in words, and its size in what
    /// it is made of.
    fn outcome(output: &[u8]) -> (String, usize);
}

/// An input of one of the programs.
pub struct ProgramCase<S> {
    group: u8,
    program: u8,
    input: Vec<u8>,
    set: PhantomData<S>,
}

/// What a program printed, and whether it ended well.
#[derive(Clone, Debug, PartialEq, Eq)]
pub struct Printed {
    status: u8,
    output: Vec<u8>,
}

impl<S: ProgramSet> ProgramCase<S> {
    /// An input of the program at this place of the set.
    pub fn new(program: usize, input: Vec<u8>) -> ProgramCase<S> {
        ProgramCase {
            group: 0,
            program: program as u8,
            input,
            set: PhantomData,
        }
    }

    fn program(&self) -> &'static Program {
        &S::PROGRAMS[usize::from(self.program)]
    }

    /// Starts the program under test by a command whose last word is its
    /// name. It may print before it has read everything, and stop reading
    /// where it has seen enough.
    fn start(&self, command: &[&str]) -> io::Result<Printed> {
        let mut child = Command::new(command[0])
            .args(&command[1..])
            .arg(self.program().name)
            .stdin(Stdio::piped())
            .stdout(Stdio::piped())
            .spawn()?;
        let mut stdin = child.stdin.take().expect("its standard input is a pipe");
        let came = thread::scope(|scope| {
            let writing = scope.spawn(move || stdin.write_all(&self.input));
            let came = child.wait_with_output()?;
            match writing.join().expect("writing does not panic") {
                Err(error) if error.kind() != ErrorKind::BrokenPipe => Err(error),
                _ => Ok(came),
            }
        })?;
        Ok(Printed {
            status: u8::from(!came.status.success()),
            output: came.stdout,
        })
    }
}

/// Answers a file of cases with what the programs under test print. Each case
/// is a process of its own, and as many run at a time as there are processors.
pub fn run<S: ProgramSet>(
    cases_path: &str,
    answers_path: &str,
    command: &[&str],
) -> io::Result<()> {
    let mut file = BufReader::new(File::open(cases_path)?);
    let mut cases = Vec::new();
    while let Some(case) = ProgramCase::<S>::read(&mut file)? {
        cases.push(case);
    }
    let share = cases.len().div_ceil(thread::available_parallelism()?.get());
    let answers: io::Result<Vec<Vec<Printed>>> = thread::scope(|scope| {
        let shares = cases.chunks(share.max(1)).map(|share| {
            let start_all = move || share.iter().map(|case| case.start(command)).collect();
            scope.spawn(start_all)
        });
        let running: Vec<_> = shares.collect();
        let ended = running.into_iter().map(|worker| worker.join());
        ended.map(|came| came.expect("no worker panics")).collect()
    });
    let mut file = BufWriter::new(File::create(answers_path)?);
    for came in answers?.concat() {
        ProgramCase::<S>::write_answer(&came, &mut file)?;
    }
    file.flush()
}

fn write_with_length(bytes: &[u8], file: &mut impl Write) -> io::Result<()> {
    file.write_all(&(bytes.len() as u32).to_le_bytes())?;
    file.write_all(bytes)
}

fn read_with_length(file: &mut impl Read) -> io::Result<Vec<u8>> {
    let length = read_number(file)?;
    read_bytes(file, length)
}

impl<S: ProgramSet> Exchange for ProgramCase<S> {
    type Came = Printed;
    const GROUPS: &'static [Group<ProgramCase<S>>] = S::GROUPS;

    fn group(&self) -> u8 {
        self.group
    }

    fn set_group(&mut self, group: u8) {
        self.group = group;
    }

    fn size(&self) -> usize {
        self.input.len()
    }

    fn write(&self, file: &mut impl Write) -> io::Result<()> {
        file.write_all(&[self.program, self.group])?;
        write_with_length(&self.input, file)
    }

    fn read(file: &mut impl Read) -> io::Result<Option<ProgramCase<S>>> {
        let Some(program) = first_byte(file)? else {
            return Ok(None);
        };
        let group = read_bytes(file, 1)?[0];
        let mut case = ProgramCase::new(usize::from(program), read_with_length(file)?);
        case.set_group(group);
        Ok(Some(case))
    }

    fn write_answer(came: &Printed, file: &mut impl Write) -> io::Result<()> {
        file.write_all(&[came.status])?;
        write_with_length(&came.output, file)
    }

    fn read_answer(&self, file: &mut impl Read) -> io::Result<Printed> {
        let status = read_bytes(file, 1)?[0];
        let output = read_with_length(file)?;
        Ok(Printed { status, output })
    }

    fn own_answer(&self) -> Printed {
        Printed {
            status: 0,
            output: (self.program().prints)(&self.input),
        }
    }

    fn agree(&self, expected: &Printed, came: &Printed) -> Result<(), String> {
        let differ = |what| {
            let [wanted, got] = [expected, came].map(|printed| printed.output.escape_ascii());
            format!("{what}\nexpected {wanted}\ncame     {got}")
        };
        if expected.status != came.status {
            return Err(differ("the program did not end well".to_string()));
        }
        agree_items("printed byte", &expected.output, &came.output).map_err(differ)
    }

    /// The program, and of a refusal its number, otherwise what the set says.
    fn outcome(&self, expected: &Printed) -> (String, usize) {
        let name = self.program().name;
        let (words, place) = match refusal_in(&expected.output) {
            Some(refusal) => (format!("refused {:2}", refusal.number), refusal.place),
            None => S::outcome(&expected.output),
        };
        (format!("{name} {words}"), place)
    }

    /// The bundle is that of the input, or else the one that is printed.
    fn also(&self, expected: &Printed) -> Vec<String> {
        let Program {
            name,
            bundle_at,
            name_at,
            ..
        } = self.program();
        let bundle = match bundle_at {
            Some(start) => self.input.get(*start..).unwrap_or(&[]),
            None => &expected.output,
        };
        let edition = shown_by(bundle).map(|words| format!("{name} {words}"));
        let asked = name_at.filter(|_| refusal_in(&expected.output).is_none());
        let (outcome, _) = self.outcome(expected);
        let named = asked.and_then(|place| shown_for(&outcome, self.input[place]));
        edition.into_iter().chain(named).collect()
    }

    fn describe(&self) -> String {
        let bytes = self.input.len();
        let name = self.program().name;
        format!("{name}, input of {bytes} bytes: {}", hex(&self.input))
    }
}
