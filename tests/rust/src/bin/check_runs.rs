//! Gives every run file of a folder to a program and compares what it prints
//! with the `.out` file beside it.
//!
//! Usage: `check-runs DIR PROGRAM [ARGUMENT..]`

use std::ffi::OsString;
use std::fs::{self, File};
use std::path::{Path, PathBuf};
use std::process::{Command, ExitCode, Stdio};
use std::{env, io};

fn main() -> ExitCode {
    let arguments: Vec<_> = env::args_os().skip(1).collect();
    let checked = match &arguments[..] {
        [folder, program @ ..] if !program.is_empty() => check(Path::new(folder), program),
        _ => {
            eprintln!("usage: check-runs DIR PROGRAM [ARGUMENT..]");
            return ExitCode::from(2);
        }
    };
    match checked {
        Ok((0, _)) => {
            eprintln!("no run files there");
            ExitCode::FAILURE
        }
        Ok((_, 0)) => ExitCode::SUCCESS,
        Ok(_) => ExitCode::FAILURE,
        Err(error) => {
            eprintln!("{error}");
            ExitCode::FAILURE
        }
    }
}

/// Checks all run files; answers how many there are and how many differ. The
/// program's name comes with its arguments, so that an emulator may go first.
fn check(folder: &Path, program: &[OsString]) -> io::Result<(usize, usize)> {
    let mut runs: Vec<PathBuf> =
        fs::read_dir(folder)?.map(|entry| Ok(entry?.path())).collect::<io::Result<_>>()?;
    runs.retain(|path| path.extension().map_or(false, |extension| extension == "run"));
    runs.sort();
    let mut differ = 0;
    for run in &runs {
        let expected = fs::read(run.with_extension("out"))?;
        let printed = Command::new(&program[0])
            .args(&program[1..])
            .stdin(File::open(run)?)
            .stderr(Stdio::inherit())
            .output()?
            .stdout;
        if printed != expected {
            differ += 1;
            println!("{} differs at {}", run.display(), first_difference(&printed, &expected));
        }
    }
    println!("checked {} run files, {differ} differ", runs.len());
    Ok((runs.len(), differ))
}

/// The first line that is not the same, as printed and as expected.
fn first_difference(printed: &[u8], expected: &[u8]) -> String {
    let mut printed = printed.split(|&octet| octet == b'\n');
    let mut expected = expected.split(|&octet| octet == b'\n');
    let show = |line: Option<&[u8]>| String::from_utf8_lossy(line.unwrap_or_default()).into_owned();
    for number in 1.. {
        let (have, want) = (printed.next(), expected.next());
        if have != want {
            return format!("line {number}: `{}`, expected `{}`", show(have), show(want));
        }
        if have.is_none() {
            break;
        }
    }
    "no line".to_string()
}
