//! Counts the instructions that a program executes: target/tests/steps PROGRAM [ARGS...]
//!
//! The program is traced and stops after every instruction (Linux on x86-64), about a hundred thousand times a second. It reads
//! this program's standard input, and what it writes is let go. The count is printed. An instruction that repeats counts once for
//! each time. The program lies at the same addresses in every run, so the count is the same too.

use std::ffi::{c_int, c_long, c_ulong, c_void};
use std::io::Error;
use std::os::unix::process::CommandExt;
use std::process::{exit, Command, Stdio};
use std::ptr::null_mut;

extern "C" {
    fn ptrace(request: c_long, pid: c_int, address: *mut c_void, data: *mut c_void) -> c_long;
    fn waitpid(pid: c_int, status: *mut c_int, options: c_int) -> c_int;
    fn personality(persona: c_ulong) -> c_int;
}

const TRACE_ME: c_long = 0;
const SINGLE_STEP: c_long = 9;
const SAME_ADDRESSES: c_ulong = 0x0004_0000;
const TRAP: c_int = 5;

fn main() {
    let words: Vec<String> = std::env::args().skip(1).collect();
    let Some((program, arguments)) = words.split_first() else {
        stop("usage: target/tests/steps PROGRAM [ARGS...]");
    };
    match executed(Command::new(program).args(arguments)) {
        Ok(count) => println!("{count}"),
        Err(error) => stop(&format!("{program}: {error}")),
    }
}

fn stop(why: &str) -> ! {
    eprintln!("steps: {why}");
    exit(1)
}

/// How many instructions a program executes until it ends, which must be well.
fn executed(command: &mut Command) -> Result<u64, Error> {
    let pid = start_traced(command)?;
    let mut count = 0;
    loop {
        let mut status = 0;
        worked(unsafe { waitpid(pid, &mut status, 0) }.into())?;
        match (status & 0x7f, status >> 8 & 0xff) {
            (0, 0) => return Ok(count),
            (0, code) => return Err(Error::other(format!("it ended with status {code}"))),
            (0x7f, TRAP) => worked(unsafe { ptrace(SINGLE_STEP, pid, null_mut(), null_mut()) })?,
            _ => return Err(Error::other(format!("a signal stopped it: {status:#x}"))),
        }
        count += 1;
    }
}

/// Starts a program, which stops before its first instruction.
fn start_traced(command: &mut Command) -> Result<c_int, Error> {
    let trace = || {
        worked(unsafe { personality(SAME_ADDRESSES) }.into())?;
        worked(unsafe { ptrace(TRACE_ME, 0, null_mut(), null_mut()) })
    };
    let child = unsafe { command.stdout(Stdio::null()).pre_exec(trace) }.spawn()?;
    Ok(child.id() as c_int)
}

/// A call of the C library has failed where it gives a number below 0.
fn worked(result: c_long) -> Result<(), Error> {
    if result < 0 {
        return Err(Error::last_os_error());
    }
    Ok(())
}
