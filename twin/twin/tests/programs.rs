//! The three programs, from outside.
#![forbid(unsafe_code)]
#![deny(warnings)]

use std::io::Write;
use std::path::PathBuf;
use std::process::{Command, Stdio};

const RUN: &str = env!("CARGO_BIN_EXE_twin-run");
const PROBE: &str = env!("CARGO_BIN_EXE_twin-probe");
const GEN: &str = env!("CARGO_BIN_EXE_twin-gen");

/// What the program prints for this input; it must end well.
fn output(program: &str, arguments: &[&str], input: &[u8]) -> Vec<u8> {
    let mut child = Command::new(program)
        .args(arguments)
        .stdin(Stdio::piped())
        .stdout(Stdio::piped())
        .spawn()
        .expect("the program starts");
    child
        .stdin
        .take()
        .expect("an input")
        .write_all(input)
        .expect("the input is taken");
    let output = child.wait_with_output().expect("the program ends");
    assert!(output.status.success());
    output.stdout
}

/// A right pop on a fresh strip: EMPTY at its second look.
fn empty_pop() -> Vec<u8> {
    let mut file = b"PDO\x01\x00\x01\x02\x00\x01\x00".to_vec();
    file.extend([0, 0, 1, 0, 0, 0, 0, 0]);
    for hint in [2, 0, 0] {
        file.extend([1, 0, 0, 0, hint, 0, 0, 0]);
    }
    file
}

#[test]
fn twin_run_lists_refuses_and_errs() {
    let listing =
        "strip 2 1 parties 1\n0 0 0 0 -\n1 0 0 0 -\n2 0 0 0 -\n3 0 19 0 2\ncells 0.0 0.0 1.0 1.0\n";
    assert_eq!(output(RUN, &[], &empty_pop()), listing.as_bytes());
    let wrong = output(RUN, &["--fault", "empty-at-second-look"], &empty_pop());
    assert_eq!(
        wrong,
        listing.replace("3 0 19 0 2", "3 0 19 0 3").as_bytes()
    );
    assert_eq!(output(RUN, &[], b"PDO"), b"refused 1\n");
    assert_eq!(output(RUN, &[], &vec![0; 100_000]), b"refused 2\n");
}

#[test]
fn an_unknown_fault_is_an_error() {
    let status = Command::new(RUN)
        .args(["--fault", "nonsense"])
        .stdin(Stdio::null())
        .stderr(Stdio::null())
        .status()
        .expect("the program starts");
    assert_eq!(status.code(), Some(2));
}

#[test]
fn twin_probe_answers_line_by_line() {
    let answers = output(PROBE, &[], b"lay 0 7 7 7\n\nfind left 0 1 1\n");
    assert_eq!(answers, b"0 0 1 1\n?\n0 0\n");
    let wrong = output(PROBE, &["--fault", "reserved-is-order"], b"measure 0 2 1\n");
    assert_eq!(wrong, b"0 0 1 0\n");
}

fn generated(directory: &str, kind: &str) -> Vec<(PathBuf, Vec<u8>)> {
    let directory = PathBuf::from(env!("CARGO_TARGET_TMPDIR")).join(directory);
    output(
        GEN,
        &[kind, "5", "7", directory.to_str().expect("a name")],
        b"",
    );
    let files = std::fs::read_dir(&directory).expect("a directory");
    let mut files: Vec<(PathBuf, Vec<u8>)> = files
        .map(|file| file.expect("a file").path())
        .map(|path| (path.clone(), std::fs::read(&path).expect("a file")))
        .collect();
    files.sort();
    files
}

/// The same seed writes the same bytes.
#[test]
fn twin_gen_repeats_itself() {
    for (kind, count) in [
        ("sensible", 7),
        ("contended", 7),
        ("wild", 7),
        ("damaged", 7),
        ("probe-strips", 1),
        ("probe-tables", 1),
    ] {
        let one = generated(&format!("one-{}", kind), kind);
        let two = generated(&format!("two-{}", kind), kind);
        assert_eq!(one.len(), count);
        for (a, b) in one.iter().zip(&two) {
            assert_eq!((a.0.file_name(), &a.1), (b.0.file_name(), &b.1));
        }
    }
}
