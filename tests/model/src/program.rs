//! Runs another program on a script, and lets it neither wait for ever nor leave a process behind.
//!
//! The program may be a shell's wrapper, whose processes outlive it and hold its output. So it gets a
//! process group of its own, and the whole group is killed when it is done with.

use std::ffi::{c_int, OsStr};
use std::fmt;
use std::io::{self, ErrorKind, Read, Write};
use std::os::unix::process::CommandExt;
use std::process::{ChildStdin, Command, ExitStatus, Stdio};
use std::sync::atomic::{AtomicI32, Ordering};
use std::sync::mpsc;
use std::thread;
use std::time::{Duration, Instant};

use crate::random::Random;
use crate::script::ENTRY_LENGTH;

/// Why a program has no log.
#[derive(Debug)]
pub enum Failure {
    NotStarted(String),
    /// What had not ended when the time was over, and the time.
    Late(&'static str, Duration),
    Died(ExitStatus),
    Other(io::Error),
}

impl fmt::Display for Failure {
    fn fmt(&self, f: &mut fmt::Formatter) -> fmt::Result {
        match self {
            Failure::NotStarted(reason) => f.write_str(reason),
            Failure::Late(what, patience) => write!(f, "no end of the {what} after {patience:?}"),
            Failure::Died(status) => write!(f, "the program died: {status}"),
            Failure::Other(error) => error.fmt(f),
        }
    }
}

/// Runs the program on the script of a seed. Of the log, at most one record more than expected is
/// taken. Exit statuses are not laid down, but death by a signal is an error.
pub fn log(
    program: &OsStr,
    seed: u64,
    script: &[u8],
    expected: usize,
    patience: Duration,
) -> Result<Vec<u8>, Failure> {
    let start = Instant::now();
    let mut child = Command::new(program)
        .stdin(Stdio::piped())
        .stdout(Stdio::piped())
        .stderr(Stdio::null())
        .process_group(0)
        .spawn()
        .map_err(|error| Failure::NotStarted(format!("cannot start {}: {error}", program.display())))?;
    let process = child.id();
    GROUP.store(process as i32, Ordering::SeqCst);

    let stdin = child.stdin.take().expect("stdin is piped");
    let stdout = child.stdout.take().expect("stdout is piped");
    // Writing beside reading, so that neither side waits for the other with a full pipe. Nothing
    // waits for these two threads: a process that left the group may hold the pipes' other ends.
    let script = script.to_vec();
    thread::spawn(move || feed(stdin, seed, &script));
    let (sender, logs) = mpsc::channel();
    thread::spawn(move || {
        let mut log = Vec::new();
        let result = stdout.take((expected + ENTRY_LENGTH) as u64).read_to_end(&mut log);
        let _ = sender.send(result.map(|_| log));
    });
    let (sender, ends) = mpsc::channel();
    let end = thread::spawn(move || {
        wait_for_end(process);
        let _ = sender.send(());
    });

    let log = logs.recv_timeout(patience);
    // A log that is too long is judged whatever the program does next.
    let too_long = matches!(&log, Ok(Ok(log)) if log.len() > expected);
    let ended =
        log.is_ok() && !too_long && ends.recv_timeout(patience.saturating_sub(start.elapsed())).is_ok();

    // The program's number is its group's, and belongs to nobody else until `wait` has taken its
    // status.
    kill_group();
    let _ = child.kill();
    let _ = end.join();
    GROUP.store(0, Ordering::SeqCst);
    let status = child.wait().map_err(Failure::Other)?;

    match log {
        Err(_) => Err(Failure::Late("log", patience)),
        Ok(Err(error)) => Err(Failure::Other(error)),
        Ok(Ok(log)) if too_long => Ok(log),
        Ok(Ok(_)) if !ended => Err(Failure::Late("program", patience)),
        Ok(Ok(_)) if status.code().is_none() => Err(Failure::Died(status)),
        Ok(Ok(log)) => Ok(log),
    }
}

/// Writes the script, for every third seed in odd chunks with pauses between, so that the program's
/// reads are short. A program may close its input early, as for a bad header.
fn feed(mut stdin: ChildStdin, seed: u64, script: &[u8]) {
    let mut random = Random::new(!seed);
    let mut rest = script;
    if seed % 3 == 1 {
        for _ in 0..4 {
            let length =
                random.pick(&[1, 2, 4, 5, 6, 15, 16, 17, 33, 4090, 4095, 4096, 4097]).min(rest.len());
            let (chunk, behind) = rest.split_at(length);
            if write(&mut stdin, chunk) {
                thread::sleep(Duration::from_micros(150));
            }
            rest = behind;
        }
    }
    write(&mut stdin, rest);
}

fn write(stdin: &mut ChildStdin, bytes: &[u8]) -> bool {
    match stdin.write_all(bytes) {
        Ok(()) => true,
        Err(error) if error.kind() == ErrorKind::BrokenPipe => false,
        Err(error) => panic!("the program's input cannot be written: {error}"),
    }
}

// What std does not have of libc, with Linux's numbers.

extern "C" {
    fn kill(process: c_int, signal: c_int) -> c_int;
    fn raise(signal: c_int) -> c_int;
    fn signal(signal: c_int, handler: *const ()) -> *const ();
    fn waitid(kind: c_int, process: u32, information: *mut [u64; 16], options: c_int) -> c_int;
}

const SIGHUP: c_int = 1;
const SIGINT: c_int = 2;
const SIGKILL: c_int = 9;
const SIGTERM: c_int = 15;
const SIG_DFL: usize = 0;
const SIG_IGN: usize = 1;
const P_PID: c_int = 1;
const WEXITED: c_int = 4;
const WNOWAIT: c_int = 0x0100_0000;

/// The group that is running, or 0.
static GROUP: AtomicI32 = AtomicI32::new(0);

fn kill_group() {
    let group = GROUP.load(Ordering::SeqCst);
    // 0 and -1 would be this process's own group and every process.
    if group > 1 {
        // SAFETY: it takes two numbers.
        unsafe { kill(-group, SIGKILL) };
    }
}

/// Waits until a child of this process has ended, and leaves its status for `wait`.
fn wait_for_end(process: u32) {
    // The size of siginfo_t.
    let mut information = [0; 16];
    // SAFETY: it writes one siginfo_t.
    while unsafe { waitid(P_PID, process, &mut information, WEXITED | WNOWAIT) } == -1
        && io::Error::last_os_error().kind() == ErrorKind::Interrupted
    {}
}

/// From now on a signal that ends this process ends the running group too. In a group of its own, it
/// gets no Ctrl-C from the terminal.
pub fn die_together() {
    for number in [SIGHUP, SIGINT, SIGTERM] {
        // SAFETY: the handler calls nothing that a handler may not call.
        unsafe {
            // As nohup wants it.
            if signal(number, die as *const ()).addr() == SIG_IGN {
                signal(number, std::ptr::without_provenance(SIG_IGN));
            }
        }
    }
}

extern "C" fn die(number: c_int) {
    kill_group();
    // SAFETY: both may be called in a handler. The signal comes anew when the handler has ended.
    unsafe {
        signal(number, std::ptr::without_provenance(SIG_DFL));
        raise(number);
    }
}
