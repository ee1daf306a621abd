//! Writes the run files, and beside each the output that the reference gives.
//!
//! Usage: `make-runs DIR`

use std::path::Path;
use std::process::ExitCode;
use std::{env, fs};

use itzahuemo_reference::{cases, reference::runfile::aosread};

fn main() -> ExitCode {
    match env::args().nth(1) {
        Some(folder) => write_all(Path::new(&folder)),
        None => {
            eprintln!("usage: make-runs DIR");
            ExitCode::from(2)
        }
    }
}

fn write_all(folder: &Path) -> ExitCode {
    let cases = cases::all();
    for case in &cases {
        let run = folder.join(format!("{}.run", case.name));
        let out = folder.join(format!("{}.out", case.name));
        if let Err(error) =
            fs::write(run, &case.octets).and_then(|()| fs::write(out, aosread(&case.octets)))
        {
            eprintln!("{}: {error}", case.name);
            return ExitCode::FAILURE;
        }
    }
    println!("{} runs written", cases.len());
    ExitCode::SUCCESS
}
