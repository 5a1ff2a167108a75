//! The comparison run on this program itself, as it is and with a planted bug.
#![cfg(unix)]

use std::fs;
use std::os::unix::fs::PermissionsExt;
use std::process::{Command, Output};
use std::sync::Mutex;

const COMPARE: &str = env!("CARGO_BIN_EXE_compare");

/// Held while a script is written and run: no other may start a process while the script is open.
static SCRIPT: Mutex<()> = Mutex::new(());

/// The comparison with a program that prints what this one prints, changed by a shell filter.
fn compared(name: &str, filter: &str) -> Output {
    let _alone = SCRIPT.lock();
    let folder = env!("CARGO_TARGET_TMPDIR");
    let script = format!("{folder}/{name}");
    fs::write(&script, format!("#!/bin/sh\n\"{COMPARE}\" --as-partsheet{filter}\n"))
        .expect("the script can be written");
    fs::set_permissions(&script, fs::Permissions::from_mode(0o755)).expect("the script can be made to run");
    let mut compare = Command::new(COMPARE);
    compare.args([&script, "--texts", "400", "--seed", "3"]).env("TMPDIR", folder);
    compare.output().expect("the comparison runs")
}

#[test]
fn the_program_is_like_itself() {
    let output = compared("as-it-is", "");
    let printed = String::from_utf8_lossy(&output.stdout);
    assert!(output.status.success(), "{printed}{}", String::from_utf8_lossy(&output.stderr));
    assert!(printed.ends_with("compared 400 texts: all alike\n"), "{printed}");
}

#[test]
fn a_wrong_number_is_found() {
    let output = compared("wrong-number", " | sed s/refusal=5/refusal=6/");
    let report = String::from_utf8_lossy(&output.stderr);
    assert_eq!(output.status.code(), Some(1));
    assert!(report.contains("seed 3") && report.contains("refusal=5") && report.contains("refusal=6"), "{report}");
}

#[test]
fn a_wrong_exit_status_is_found() {
    let output = compared("wrong-status", "; exit 3");
    assert_eq!(output.status.code(), Some(1));
    assert!(String::from_utf8_lossy(&output.stderr).contains("Status(3)"));
}
