//! Runs the program that is compared.

use std::ffi::OsString;
use std::fs::{self, File};
use std::io;
use std::path::PathBuf;
use std::process::{Command, ExitStatus, Stdio};

pub struct Program {
    /// The program and its arguments.
    pub command: Vec<OsString>,
    /// Where the scripts and what is written for them stand.
    pub folder: PathBuf,
}

/// What a run left.
pub struct Run {
    pub lines: Vec<String>,
    pub ended: ExitStatus,
}

impl Program {
    /// Standard input and output are the files NAME.in and NAME.out: neither side waits for the
    /// other, and they can be read afterwards.
    pub fn run(&self, name: &str, script: &str) -> io::Result<Run> {
        let file = |end: &str| self.folder.join(format!("{name}.{end}"));
        let (input, output) = (file("in"), file("out"));
        fs::write(&input, script)?;
        let ended = Command::new(&self.command[0])
            .args(&self.command[1..])
            .stdin(File::open(&input)?)
            .stdout(File::create(&output)?)
            .stderr(Stdio::inherit())
            .status()?;
        let wrote = fs::read(&output)?;
        let lines = String::from_utf8_lossy(&wrote)
            .lines()
            .map(str::to_owned)
            .collect();
        Ok(Run { lines, ended })
    }
}
