//! Runs the programs that the gate builds, which take their standard input in pieces.

use std::ffi::OsStr;
use std::fs;
use std::io::Write;
use std::os::fd::OwnedFd;
use std::os::unix::net::UnixDatagram;
use std::path::{Path, PathBuf};
use std::process::{Child, Command, Output, Stdio};
use std::sync::mpsc;
use std::thread;
use std::time::{Duration, Instant};

/// Longer than anything takes that does not hang.
const LONG: Duration = Duration::from_secs(20);

/// Where the program lies.
pub fn path(name: &str) -> PathBuf {
    let folder = Path::new(env!("CARGO_MANIFEST_DIR")).join("../target/bin");
    folder.join(name)
}

/// Starts it with that standard input; what it prints goes to pipes.
pub fn start(name: &str, words: &[&OsStr], input: impl Into<Stdio>) -> Child {
    let mut command = Command::new(path(name));
    command.args(words).stdin(input);
    command.stdout(Stdio::piped()).stderr(Stdio::piped());
    command
        .spawn()
        .expect("'make judge judge_log' builds the program")
}

/// Its standard input is a pipe with the pieces. Calls `before` with the process's id before each.
pub fn piped(
    name: &str,
    words: &[&OsStr],
    pieces: &[&[u8]],
    before: impl FnMut(u32) + Send,
) -> Output {
    let mut child = start(name, words, Stdio::piped());
    let mut pipe = child.stdin.take().expect("a pipe");
    let send = move |piece: &[u8]| pipe.write_all(piece).is_ok();
    run(child, pieces, before, send)
}

/// As `piped`, but each of its reads gets one piece, if there is room for it. None may be empty:
/// that ends the input. A process that is stopped in a read and goes on finds the read interrupted.
pub fn read_by_read(
    name: &str,
    words: &[&OsStr],
    pieces: &[&[u8]],
    before: impl FnMut(u32) + Send,
) -> Output {
    let (ours, theirs) = UnixDatagram::pair().expect("two sockets");
    theirs.set_read_timeout(Some(LONG)).expect("a timeout");
    let child = start(name, words, OwnedFd::from(theirs));
    let send = move |piece: &[u8]| ours.send(piece).is_ok();
    let pieces = [pieces, &[&[]]].concat();
    run(child, &pieces, before, send)
}

/// Each of its reads gets a quarter of the bytes, and the next one fails.
pub fn read_until_it_fails(name: &str, bytes: &[u8]) -> Output {
    let (ours, theirs) = UnixDatagram::pair().expect("two sockets");
    // A read that finds nothing fails, then.
    theirs.set_nonblocking(true).expect("a flag");
    for piece in bytes.chunks(bytes.len().div_ceil(4)) {
        ours.send(piece).expect("it is sent");
    }
    ended(start(name, &[], OwnedFd::from(theirs)))
}

/// Waits for a process to end, but not for ever.
pub fn ended(child: Child) -> Output {
    let id = child.id();
    let (sender, receiver) = mpsc::channel();
    thread::spawn(move || sender.send(child.wait_with_output()));
    let Ok(output) = receiver.recv_timeout(LONG) else {
        signal(id, "KILL");
        panic!("it hangs");
    };
    output.expect("it ends")
}

/// Sends the pieces while what the process prints is read. It need not take them all.
fn run(
    child: Child,
    pieces: &[&[u8]],
    mut before: impl FnMut(u32) + Send,
    mut send: impl FnMut(&[u8]) -> bool + Send,
) -> Output {
    let id = child.id();
    thread::scope(|scope| {
        scope.spawn(move || {
            pieces.iter().all(|piece| {
                before(id);
                send(piece)
            })
        });
        child.wait_with_output().expect("it ends")
    })
}

/// Stops a process that waits for its input, and lets it go on.
pub fn interrupt(id: u32) {
    wait_for(id, 'S');
    signal(id, "STOP");
    wait_for(id, 'T');
    signal(id, "CONT");
}

fn signal(id: u32, name: &str) {
    let line = format!("kill -{name} {id}");
    let status = Command::new("sh").args(["-c", &line]).status();
    assert!(status.expect("a shell").success());
}

/// Waits until a process is in that state.
fn wait_for(id: u32, state: char) {
    let start = Instant::now();
    let found = || {
        let line = fs::read_to_string(format!("/proc/{id}/stat")).expect("a process");
        // Behind the program's name, which stands in brackets.
        let (_, behind) = line.rsplit_once(") ").expect("a name");
        behind.starts_with(state)
    };
    while !found() {
        assert!(start.elapsed() < LONG, "not {state}");
        thread::sleep(Duration::from_millis(1));
    }
}
