//! A second program for the same specification, written from it alone.
//!
//! It shares no code and no way of thinking with the program under test: where
//! that one keeps tables of words, this one keeps sets of facts. Its purpose is
//! to agree or disagree with it on many inputs, valid and damaged.
//!
//! Commands, each of the first four with the kind of cases behind it:
//! `draw` for searches and checks, `draw-writes` for the writer, `draw-lines`
//! for text lines, `draw-holders` for the holders of a record, `draw-sheets`
//! for searches and tables with a sheet, `draw-lists` for the programs that
//! print lists, `draw-desk` for the desk's two programs, `draw-holding` for the
//! program that prints the holders of all records, and `draw-asking` for the
//! one that asks with a sheet.
//!   draw SEED COUNT FILE     write that many cases to a file
//!   compare CASES ANSWERS    compare answers with this program's own
//!   answer CASES ANSWERS     write this program's own answers
//!   survey CASES             count the expected outcomes of each group
//!   run-lists CASES ANSWERS COMMAND, and so for the kinds behind it
//!                            write the answers of the programs under test,
//!                            each started by the command and its name
//!   ask, members, roles, bundle_from_lines, lines_from_bundle, holders,
//!   ask_with_sheet
//!                            answer standard input as that program does
//!   house DIRECTORY          write the named bundles as files
//!   figures                  try the figures of the specification

mod comparison;
mod damage;
mod desk;
mod desk_draw;
mod desk_figures;
mod draw;
mod edition;
mod edition_figures;
mod exchange;
mod figures;
mod forge;
mod groups;
mod holder_draw;
mod holder_exchange;
mod holder_figures;
mod holder_programs;
mod holders;
mod house;
mod list_draw;
mod list_figures;
mod lists;
mod membership;
mod mistake;
mod open_roles;
mod program;
mod program_exchange;
mod random;
mod reader;
mod run;
mod service;
mod shape;
mod sheet;
mod sheet_draw;
mod slip;
mod storage;
mod text;
mod text_draw;
mod text_exchange;
mod text_figures;
mod text_flaws;
mod with_sheet_draw;
mod with_sheet_exchange;
mod with_sheet_figures;
mod with_sheet_programs;
mod writer;
mod writer_draw;
mod writer_exchange;
mod writer_figures;
mod writer_run;

use comparison::Exchange;
use desk::{BUNDLE_FROM_LINES, LINES_FROM_BUNDLE};
use desk_draw::Desk;
use exchange::Case;
use holder_exchange::HolderCase;
use holder_programs::Holding;
use holders::HOLDERS;
use list_draw::Lists;
use lists::{MEMBERS, ROLES};
use program::{Program, ASK, ASK_WITH_SHEET};
use program_exchange::{ProgramCase, ProgramSet};
use std::env;
use std::io;
use std::process::ExitCode;
use text_exchange::TextCase;
use with_sheet_exchange::SheetCase;
use with_sheet_programs::Asking;
use writer_exchange::WriterCase;

const USAGE: &str = "usage: second draw[-KIND] SEED COUNT FILE | compare[-KIND] CASES ANSWERS | \
    answer[-KIND] CASES ANSWERS | survey[-KIND] CASES | run-KIND CASES ANSWERS COMMAND... | \
    PROGRAM | house DIRECTORY | figures; KIND is writes, lines, holders, sheets, lists, desk, \
    holding or asking, for run only the last four; PROGRAM is ask, members, roles, \
    bundle_from_lines, lines_from_bundle, holders or ask_with_sheet";

/// The programs that this one can stand for.
const PROGRAMS: [Program; 7] = [
    ASK,
    MEMBERS,
    ROLES,
    BUNDLE_FROM_LINES,
    LINES_FROM_BUNDLE,
    HOLDERS,
    ASK_WITH_SHEET,
];

fn main() -> ExitCode {
    let words: Vec<String> = env::args().skip(1).collect();
    let words: Vec<&str> = words.iter().map(String::as_str).collect();
    match obey(&words) {
        Ok(true) => ExitCode::SUCCESS,
        Ok(false) => ExitCode::FAILURE,
        Err(error) => {
            eprintln!("second: {error}");
            ExitCode::FAILURE
        }
    }
}

/// Does what a command says; false when something came out wrong.
fn obey(words: &[&str]) -> io::Result<bool> {
    let [command, rest @ ..] = words else {
        return Err(io::Error::other(USAGE));
    };
    let program = PROGRAMS.iter().find(|program| program.name == *command);
    match (program, *command, rest) {
        (Some(program), _, []) => program.answer_input()?,
        (_, "house", [directory]) => house::write_files(directory)?,
        (_, "figures", []) => return Ok(figures::try_figures()),
        _ => return obey_with_kind(command, rest),
    }
    Ok(true)
}

/// Does what a command says whose kind of cases stands behind it.
fn obey_with_kind(command: &str, words: &[&str]) -> io::Result<bool> {
    match command.split_once('-') {
        None => obey_with_cases::<Case>(command, words),
        Some((command, "writes")) => obey_with_cases::<WriterCase>(command, words),
        Some((command, "lines")) => obey_with_cases::<TextCase>(command, words),
        Some((command, "holders")) => obey_with_cases::<HolderCase>(command, words),
        Some((command, "sheets")) => obey_with_cases::<SheetCase>(command, words),
        Some((command, "lists")) => obey_with_programs::<Lists>(command, words),
        Some((command, "desk")) => obey_with_programs::<Desk>(command, words),
        Some((command, "holding")) => obey_with_programs::<Holding>(command, words),
        Some((command, "asking")) => obey_with_programs::<Asking>(command, words),
        _ => Err(io::Error::other(USAGE)),
    }
}

/// Does what a command says with inputs of a set of programs.
fn obey_with_programs<S: ProgramSet>(command: &str, words: &[&str]) -> io::Result<bool> {
    match (command, words) {
        ("run", [cases, answers, command @ ..]) if !command.is_empty() => {
            program_exchange::run::<S>(cases, answers, command)?;
            Ok(true)
        }
        _ => obey_with_cases::<ProgramCase<S>>(command, words),
    }
}

/// Does what a command says with cases of one kind.
fn obey_with_cases<C: Exchange>(command: &str, words: &[&str]) -> io::Result<bool> {
    match (command, words) {
        ("draw", [seed, count, file]) => {
            comparison::draw::<C>(number(seed)?, number(count)?, file)?
        }
        ("compare", [cases, answers]) => return comparison::compare::<C>(cases, answers),
        ("answer", [cases, answers]) => comparison::answer::<C>(cases, answers)?,
        ("survey", [cases]) => comparison::survey::<C>(cases)?,
        _ => return Err(io::Error::other(USAGE)),
    }
    Ok(true)
}

/// A number that stands on the command line.
fn number<T>(word: &str) -> io::Result<T>
where
    T: std::str::FromStr<Err = std::num::ParseIntError>,
{
    word.parse().map_err(io::Error::other)
}
