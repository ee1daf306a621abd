//! The run files of tests/runs.

use std::collections::BTreeSet;
use std::fs;
use std::path::PathBuf;

use itzahuemo_reference::cases;
use itzahuemo_reference::reference::runfile::aosread;

fn folder() -> PathBuf {
    PathBuf::from(env!("CARGO_MANIFEST_DIR")).join("../runs")
}

/// Each file is the one its case makes, and its output is what the reference says.
#[test]
fn files_are_those_of_the_cases() {
    let mut names = BTreeSet::new();
    for case in cases::all() {
        let run = fs::read(folder().join(format!("{}.run", case.name))).expect(&case.name);
        let out =
            fs::read_to_string(folder().join(format!("{}.out", case.name))).expect(&case.name);
        assert_eq!(run, case.octets, "{}", case.name);
        assert_eq!(out, aosread(&run), "{}", case.name);
        assert!(names.insert(case.name), "two cases have one name");
    }
    let of_a_case =
        |path: &PathBuf| path.extension().map_or(false, |is| is == "run" || is == "out");
    let files = fs::read_dir(folder()).unwrap().map(|entry| entry.unwrap().path());
    assert_eq!(files.filter(of_a_case).count(), 2 * names.len(), "a file that no case makes");
}

/// Together the outputs have every kind of line, every damage, every reason, every
/// refusal a frame of a run file can meet, and both verdicts.
#[test]
fn outputs_have_every_kind_of_line() {
    let outputs: Vec<String> = cases::all().iter().map(|case| aosread(&case.octets)).collect();
    let lines: BTreeSet<&str> = outputs.iter().flat_map(|output| output.lines()).collect();
    for start in ["setup ", "frame ", "space ", "encap ", "idle ", "refused ", "pass", "fault "] {
        assert!(lines.iter().any(|line| line.starts_with(start)), "{start}");
    }
    // Each damage is named, and nothing else is.
    let damages = lines.iter().filter(|line| line.starts_with("damaged"));
    assert!(damages.eq(&["damaged 1", "damaged 2", "damaged 3", "damaged 4"]));
    for refusal in 4..=7 {
        assert!(lines.contains(&*format!("refused {refusal}")));
    }
    for reason in 0..=3 {
        assert!(lines.iter().any(|line| line.ends_with(&format!("reason {reason}"))));
    }
    for number in 0..=3 {
        assert!(lines.contains(&*format!("bad record {number}")));
    }
    for line in &lines {
        let refused = line.strip_prefix("refused ").map(|number| number.parse::<u8>().unwrap());
        assert!(refused.map_or(true, |number| (4..=7).contains(&number)));
    }
    for output in &outputs {
        assert!(output.ends_with('\n') && !output.contains("\n\n"));
    }
}

/// A run past the judge's last frame. It takes a minute unless optimised.
#[test]
#[ignore = "reads 170 million octets"]
fn a_frame_past_the_last_is_a_bad_record() {
    let most = 1 << 24;
    let mut input = vec![0x01, 0x00, 0x00, 0x00, 0x01, 0x00, 0x00, 0x07];
    let frame = |count: u32| {
        let [_, a, b, c] = count.to_be_bytes();
        [0x02, 0x40, 0x00, a, b, c, 0x00, 0x07, 0xFE, 0x55]
    };
    for count in 0..most {
        input.extend(frame(count));
    }
    input.push(0x03);
    assert!(aosread(&input).ends_with("\nframe 16777215 lost 0 dropped 0 reason 0\npass\n"));
    input.pop();
    input.extend(frame(0));
    input.push(0x03);
    let output = aosread(&input);
    assert!(output.ends_with("\nframe 16777215 lost 0 dropped 0 reason 0\nbad record 16777217\n"));
}
