//! The comparison side of the library: what is expected of every call, from the Rust crate `aig`
//! and from document 01. See README.md.

mod calls;
mod case;
mod compare;
mod construct;
mod damaged;
mod exhaust;
mod frames;
mod graph;
mod patterns;
mod program;
mod refuse;
mod rng;
mod rooms;
mod sample;
mod shapes;
mod shrink;
mod solve;
mod tables;
mod times;
mod wellformed;

use calls::Call;
use program::Program;
use solve::Solver;
use std::ffi::OsString;
use std::io;
use std::path::{Path, PathBuf};
use std::process::ExitCode;

/// CALLS are numbers with a comma between them, or `all`.
const USAGE: &str = "oracle compare COUNT SEED CALLS FOLDER PROGRAM [ARGUMENT]...
oracle exhaust EVERY FOLDER PROGRAM [ARGUMENT]...
oracle frames COUNT SEED FOLDER PROGRAM [ARGUMENT]...
oracle solve COUNT SEED SOLVER FOLDER PROGRAM [ARGUMENT]...
oracle sample write CALLS FOLDER
oracle sample check CALLS FOLDER
oracle times CALL";

fn main() -> ExitCode {
    let arguments: Vec<OsString> = std::env::args_os().skip(1).collect();
    match run(&arguments) {
        Some(Ok(true)) => ExitCode::SUCCESS,
        Some(Ok(false)) => ExitCode::FAILURE,
        Some(Err(error)) => {
            eprintln!("{error}");
            ExitCode::from(2)
        }
        None => {
            eprintln!("{USAGE}");
            ExitCode::from(2)
        }
    }
}

/// Did it go well? None where the arguments are not understood.
fn run(arguments: &[OsString]) -> Option<io::Result<bool>> {
    let words: Vec<&str> = arguments
        .iter()
        .map(|word| word.to_str().unwrap_or(""))
        .collect();
    match words.as_slice() {
        ["compare", count, seed, calls, _, _, ..] => {
            let program = program(&arguments[4..]);
            let (count, seed) = (count.parse().ok()?, seed.parse().ok()?);
            Some(chosen(calls).and_then(|c| compare::compare(&program, count, seed, &c)))
        }
        ["exhaust", every, _, _, ..] => {
            let every = every.parse().ok().filter(|&every| every > 0)?;
            Some(exhaust::exhaust(&program(&arguments[2..]), every))
        }
        ["frames", count, seed, _, _, ..] => {
            let program = program(&arguments[3..]);
            let (count, seed) = (count.parse().ok()?, seed.parse().ok()?);
            Some(frames::frames(&program, count, seed))
        }
        ["solve", count, seed, _, folder, _, ..] => {
            let solver = Solver {
                program: arguments[3].clone(),
                folder: PathBuf::from(folder),
            };
            let (count, seed) = (count.parse().ok()?, seed.parse().ok()?);
            Some(solve::solve(
                &program(&arguments[4..]),
                &solver,
                count,
                seed,
            ))
        }
        ["sample", what, calls, folder] => {
            let folder = Path::new(folder);
            match *what {
                "write" => Some(chosen(calls).and_then(|c| sample::write(folder, &c))),
                "check" => Some(chosen(calls).and_then(|c| sample::check(folder, &c))),
                _ => None,
            }
        }
        ["times", call] => Some(times::times(call, io::stdin().lock())),
        _ => None,
    }
}

/// The folder, then the program and its arguments.
fn program(arguments: &[OsString]) -> Program {
    Program {
        command: arguments[1..].to_vec(),
        folder: PathBuf::from(&arguments[0]),
    }
}

fn chosen(calls: &str) -> io::Result<Vec<&'static Call>> {
    calls::chosen(calls).map_err(io::Error::other)
}
