//! The program compare: what it counts, which arguments it takes, and that no program makes it wait
//! for ever or is left running.

use std::ffi::OsStr;
use std::fs;
use std::os::unix::ffi::OsStrExt;
use std::os::unix::fs::PermissionsExt;
use std::os::unix::process::ExitStatusExt;
use std::path::{Path, PathBuf};
use std::process::{Command, Output, Stdio};
use std::sync::LazyLock;
use std::thread;
use std::time::{Duration, Instant};

const COMPARE: &str = env!("CARGO_BIN_EXE_compare");
const MODEL: &str = env!("CARGO_BIN_EXE_model");
const TEMPORARY: &str = env!("CARGO_TARGET_TMPDIR");

/// A program that does what the variable `STAND_IN` says. There is only the one, written before any
/// process starts: a file that a process just forked still holds open for writing cannot be run.
static STAND_IN: LazyLock<PathBuf> = LazyLock::new(|| {
    let path = Path::new(TEMPORARY).join("stand-in");
    let draft = path.with_extension(std::process::id().to_string());
    fs::write(&draft, "#!/bin/sh\neval \"$STAND_IN\"\n").unwrap();
    fs::set_permissions(&draft, fs::Permissions::from_mode(0o755)).unwrap();
    fs::rename(&draft, &path).unwrap();
    path
});

/// `compare` with these arguments, and its processes marked by the name of a test.
fn compare(test: &str, arguments: &[&OsStr]) -> Command {
    LazyLock::force(&STAND_IN);
    let mut command = Command::new(COMPARE);
    command.args(arguments).env("TMPDIR", TEMPORARY).env("COMPARE_TEST", mark(test));
    command.stdin(Stdio::null()).stdout(Stdio::piped()).stderr(Stdio::piped());
    command
}

/// `compare` on 50 scripts, with a stand-in that runs a line of shell.
fn with_stand_in(test: &str, line: &str, patience: &str) -> Command {
    let mut command = compare(test, &[STAND_IN.as_os_str()]);
    command.args(["--count", "50", "--patience", patience]).env("STAND_IN", line).env("MODEL", MODEL);
    command
}

fn lines(output: &Output) -> Vec<&str> {
    assert!(output.stderr.is_empty(), "{output:?}");
    std::str::from_utf8(&output.stdout).unwrap().lines().collect()
}

fn mark(test: &str) -> String {
    format!("{test}-{}", std::process::id())
}

/// The processes that a test's `compare` started and that have not ended, without the one given.
fn running(test: &str, except: u32) -> Vec<u32> {
    let mark = format!("COMPARE_TEST={}", mark(test));
    let marked = |process: &u32| {
        let variables = fs::read(format!("/proc/{process}/environ")).unwrap_or_default();
        variables.split(|&byte| byte == 0).any(|variable| variable == mark.as_bytes())
    };
    let names = fs::read_dir("/proc").unwrap().map(|entry| entry.unwrap().file_name());
    let processes = names.filter_map(|name| name.to_str()?.parse().ok());
    processes.filter(|&process| process != except).filter(marked).collect()
}

/// Waits until a condition holds; some things come about a little later.
fn soon(condition: impl Fn() -> bool) -> bool {
    let start = Instant::now();
    while start.elapsed() < Duration::from_secs(5) {
        if condition() {
            return true;
        }
        thread::sleep(Duration::from_millis(10));
    }
    false
}

#[test]
fn the_model_is_counted_apart() {
    // Of each 22 seeds, 0, 3, 5, 10, 12 and 15 are those of short spans, and from 1000 on there are the 13
    // numbers.
    for (count, model) in [("5", 2), ("20", 6), ("1000", 286)] {
        let output =
            compare("apart", &[MODEL.as_ref(), "--count".as_ref(), count.as_ref()]).output().unwrap();
        let lines = lines(&output);
        assert_eq!(lines.len(), 3, "{lines:?}");
        assert_eq!(lines[0], format!("the model's checks on itself: {model} passed, 0 failed"));
        assert!(lines[1].starts_with(&format!("{count} scripts (")), "{lines:?}");
        assert_eq!(lines[2], format!("{count} passed, 0 failed"));
        assert_eq!(output.status.code(), Some(0));
    }
}

/// A program that writes the header and nothing else gets no point for what the model does.
#[test]
fn a_wrong_program_passes_nothing() {
    let output = with_stand_in("wrong", "cat >/dev/null; printf 'APL\\000\\001'", "20").output().unwrap();
    let lines = lines(&output);
    let [.., model, _, last] = lines[..] else { panic!("{lines:?}") };
    assert_eq!((model, last), ("the model's checks on itself: 15 passed, 0 failed", "0 passed, 50 failed"));
    assert_eq!(output.status.code(), Some(1));
}

#[test]
fn a_program_that_fails_on_a_header_gets_no_script() {
    let check = |output: Output, reason: &str| {
        let line = format!("no script was run, for the program fails on a header alone: {reason}");
        assert_eq!(lines(&output), [&line, "0 passed, 1 failed"]);
        assert_eq!(output.status.code(), Some(1));
    };
    let missing = Path::new(TEMPORARY).join("missing");
    let reason = format!("cannot start {}: No such file or directory (os error 2)", missing.display());
    check(compare("header", &[missing.as_os_str()]).output().unwrap(), &reason);
    let at_once = [
        ("true", r#"its log starts "" and is not "APL\x00\x01""#),
        ("cat", r#"its log starts "APS\x00\x01" and is not "APL\x00\x01""#),
        ("$MODEL; echo more", r#"its log starts "APL\x00\x01more\n" and is not "APL\x00\x01""#),
        ("$MODEL; yes", r#"its log starts "APL\x00\x01y\ny\ny\ny\ny\ny" and is not "APL\x00\x01""#),
        ("$MODEL; kill -SEGV $$", "the program died: signal: 11 (SIGSEGV)"),
    ];
    // A wrapper that waits, one that has ended while its child holds the output, and one that has
    // closed the output.
    let late = [
        ("sleep 60; true", "no end of the log after 1s"),
        ("$MODEL; sleep 60 & exit", "no end of the log after 1s"),
        ("$MODEL; exec >/dev/null; sleep 60; true", "no end of the program after 1s"),
    ];
    for (line, reason) in at_once {
        check(with_stand_in("header", line, "20").output().unwrap(), reason);
    }
    for (line, reason) in late {
        check(with_stand_in("header", line, "1").output().unwrap(), reason);
    }
    assert!(soon(|| running("header", 0).is_empty()));
}

/// A process that left the group may run on, but nothing waits for it.
#[test]
fn a_process_that_left_the_group() {
    let start = Instant::now();
    let output = with_stand_in("left", "setsid sleep 8", "1").output().unwrap();
    assert_eq!(lines(&output)[1], "0 passed, 1 failed");
    assert!(start.elapsed() < Duration::from_secs(7));
}

#[test]
fn three_scripts_without_an_end_are_enough() {
    let line = "input=$(od -An -v -tx1); if [ \"$input\" = ' 41 50 53 00 01' ]; \
                then printf 'APL\\000\\001'; else sleep 60; true; fi";
    let output = with_stand_in("three", line, "1").output().unwrap();
    let lines = lines(&output);
    let [.., given_up, model, scripts, last] = lines[..] else { panic!("{lines:?}") };
    assert_eq!(given_up, "given up: 3 scripts in a row had no end after 1s");
    assert_eq!(model, "the model's checks on itself: 1 passed, 0 failed");
    assert!(scripts.starts_with("3 scripts ("), "{scripts}");
    assert_eq!(last, "0 passed, 3 failed");
    assert_eq!(output.status.code(), Some(1));
    assert!(soon(|| running("three", 0).is_empty()));
}

#[test]
fn no_process_is_left_behind() {
    let output = with_stand_in("behind", "sleep 60 >/dev/null & exec $MODEL", "20").output().unwrap();
    assert_eq!(lines(&output).last(), Some(&"50 passed, 0 failed"));
    assert!(soon(|| running("behind", 0).is_empty()));
}

/// A group of its own gets no signal of a terminal's or of `timeout`.
#[test]
fn a_signal_ends_the_program_too() {
    let mut child = with_stand_in("signal", "trap '' TERM; sleep 60; true", "20").spawn().unwrap();
    // The shell and its sleep.
    assert!(soon(|| running("signal", child.id()).len() == 2));
    let kill = format!("kill -TERM {}", child.id());
    assert!(Command::new("sh").args(["-c", &kill]).status().unwrap().success());
    assert_eq!(child.wait().unwrap().signal(), Some(15));
    assert!(soon(|| running("signal", 0).is_empty()));
}

#[test]
fn wrong_arguments() {
    let table: [&[&str]; 18] = [
        &[],
        &["--count"],
        &["--count", "5"],
        &["--bogus"],
        &[MODEL, MODEL],
        &[MODEL, ""],
        &[MODEL, "5"],
        &[MODEL, "--bogus", "5"],
        &[MODEL, "--count"],
        &[MODEL, "--count", "0"],
        &[MODEL, "--count", "-1"],
        &[MODEL, "--count", "five"],
        &[MODEL, "--count", "5", MODEL],
        &[MODEL, "--count", "5", "--count", "5"],
        &[MODEL, "--first"],
        &[MODEL, "--first", "18446744073709551616"],
        &[MODEL, "--first", "18446744073709551615", "--count", "2"],
        &[MODEL, "--patience", "0"],
    ];
    let check = |arguments: &[&OsStr]| {
        let output = compare("wrong arguments", arguments).output().unwrap();
        assert_eq!(output.status.code(), Some(2), "{arguments:?}");
        assert!(output.stdout.is_empty() && output.stderr.starts_with(b"usage: compare "), "{arguments:?}");
    };
    for arguments in table {
        check(&arguments.iter().map(OsStr::new).collect::<Vec<_>>());
    }
    check(&[MODEL.as_ref(), OsStr::from_bytes(b"\xFF")]);
}

#[test]
fn the_last_seed() {
    let arguments = [MODEL, "--first", "18446744073709551615", "--count", "1"].map(OsStr::new);
    let output = compare("last", &arguments).output().unwrap();
    assert_eq!(lines(&output).last(), Some(&"1 passed, 0 failed"));
}
