//! Replays a script of cases (`oracle/FORMAT.md`) through the crate, and writes what each call
//! answers and leaves. `oracle/compare` makes the cases and knows what is expected.
//!
//! There is no `main` of Rust's: std's start reads `/proc/self/maps`, where the emulator of the
//! Rattle kit (QEMU 8.2) breaks down.
#![no_main]

mod build;
mod calls;
mod script;

use script::{Numbers, Outcome};
use std::io::{self, BufWriter, Read, Write};

#[no_mangle]
pub extern "C" fn main() -> i32 {
    match replay() {
        Ok(()) => 0,
        Err(error) => {
            eprintln!("replay: {error}");
            1
        }
    }
}

fn replay() -> io::Result<()> {
    let mut text = String::new();
    io::stdin().read_to_string(&mut text)?;
    let mut numbers = Numbers::of(&text);
    let mut out = BufWriter::new(io::stdout());
    while let Some(call) = numbers.next().filter(|&call| call != 0) {
        let replayed = numbers.case(call).and_then(|mut case| {
            let outcome = calls::made(&mut case)?;
            Some((case, outcome))
        });
        let Some((case, outcome)) = replayed else {
            writeln!(out, "unreadable")?;
            break;
        };
        write(&mut out, &case, &outcome)?;
    }
    out.flush()
}

fn write(out: &mut impl Write, case: &script::Case, outcome: &Outcome) -> io::Result<()> {
    let head = [case.call].into_iter().chain(outcome.answer());
    let results = outcome.results.iter().copied();
    write_line(out, head.chain([results.len() as u64]).chain(results))?;
    for &slot in &case.order {
        let words = &case.slots[slot];
        let head = [slot as u64, words.len() as u64];
        write_line(out, head.into_iter().chain(words.iter().map(|&w| w.into())))?;
    }
    Ok(())
}

fn write_line(out: &mut impl Write, numbers: impl Iterator<Item = u64>) -> io::Result<()> {
    for (index, number) in numbers.enumerate() {
        let blank = if index == 0 { "" } else { " " };
        write!(out, "{blank}{number}")?;
    }
    writeln!(out)
}
