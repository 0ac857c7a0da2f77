//! Runs a program whose standard input is a capture in a file, and shows on standard error how far it has read:
//! progress PROGRAM [WORDS..] < capture
//!
//! The system tells which of the file's bytes the program has read (proc(5), fdinfo). How many packets these are is
//! counted by a reading of the file of its own. The program is not changed, and nothing of what it writes passes here.
//! Status and signals are the program's.

#[path = "../report-json/capture.rs"]
mod capture;

use capture::Packets;
use std::ffi::{OsStr, OsString};
use std::fs;
use std::io::{self, Write};
use std::os::unix::process::{CommandExt, ExitStatusExt};
use std::process::{exit, Child, Command, ExitStatus};
use std::sync::mpsc;
use std::thread;
use std::time::{Duration, Instant};

/// When the line is shown first, and how often it is written again.
const FIRST: Duration = Duration::from_millis(1500);
const AGAIN: Duration = Duration::from_millis(500);

/// Calls of the C library, which std stands on: signal(2), raise(3), prctl(2).
mod system {
    pub const SIGINT: i32 = 2;
    pub const SIGQUIT: i32 = 3;
    pub const SIGPIPE: i32 = 13;
    pub const SIGTERM: i32 = 15;
    pub const DEFAULT: usize = 0;
    pub const IGNORE: usize = 1;
    pub const SET_DEATH_SIGNAL: i32 = 1;
    extern "C" {
        pub fn signal(signal: i32, handler: usize) -> usize;
        pub fn raise(signal: i32) -> i32;
        pub fn prctl(option: i32, value: u64) -> i32;
    }
}

/// Where a process stands in its standard input.
fn place_of(process: u32) -> Option<u64> {
    let told = fs::read_to_string(format!("/proc/{process}/fdinfo/0")).ok()?;
    told.lines().find_map(|line| line.strip_prefix("pos:"))?.trim().parse().ok()
}

struct Progress {
    packets: Packets,
    /// How many packets end at or before the place.
    read: u64,
    is_more: bool,
    size: u64,
    began: Instant,
    is_shown: bool,
}

impl Progress {
    fn new() -> Option<Self> {
        let path = "/proc/self/fd/0";
        let size = fs::metadata(path).ok()?.len();
        let packets = Packets::open_for(path, 0).ok()?;
        let began = Instant::now();
        Some(Progress { packets, read: 0, is_more: true, size, began, is_shown: false })
    }

    fn show(&mut self, place: u64) {
        while self.is_more && self.packets.place <= place {
            self.read = self.packets.count;
            self.is_more = self.packets.next().unwrap_or(false);
        }
        let (seconds, megabyte) = (self.began.elapsed().as_secs_f64(), 1e6);
        let (done, all) = (place as f64 / megabyte, self.size as f64 / megabyte);
        let part = place.saturating_mul(100) / self.size.max(1);
        let pace = self.read as f64 / seconds;
        let bytes = format!("{done:.1} of {all:.1} MB, {part} of 100");
        let line = format!("flowdir: {} packets read, {bytes}; {pace:.0} packets a second, {seconds:.0} s", self.read);
        self.is_shown = true;
        // (a terminal that is gone is no fault of the work)
        let _ = write!(io::stderr(), "\r{line}\x1b[K");
    }

    fn clear(&self) {
        if self.is_shown {
            let _ = write!(io::stderr(), "\r\x1b[K");
        }
    }
}

/// Ends as the program has ended.
fn end_as(status: ExitStatus) -> ! {
    if let Some(signal) = status.signal() {
        unsafe {
            system::signal(signal, system::DEFAULT);
            system::raise(signal);
        }
        exit(128 + signal);
    }
    exit(status.code().unwrap_or(1))
}

/// Starts the program. A key that interrupts goes to it, and this one then ends as it has ended. If this one is ended
/// from elsewhere, so is the program.
fn start(program: &OsStr, words: impl Iterator<Item = OsString>) -> io::Result<Child> {
    let [interrupt, quit] = [system::SIGINT, system::SIGQUIT].map(|it| unsafe { system::signal(it, system::IGNORE) });
    let mut command = Command::new(program);
    command.args(words);
    unsafe {
        command.pre_exec(move || {
            system::signal(system::SIGINT, interrupt);
            system::signal(system::SIGQUIT, quit);
            system::signal(system::SIGPIPE, system::DEFAULT);
            system::prctl(system::SET_DEATH_SIGNAL, system::SIGTERM as u64);
            Ok(())
        });
    }
    command.spawn()
}

fn main() {
    let mut words = std::env::args_os().skip(1);
    let program = words.next().unwrap_or_default();
    let mut progress = Progress::new();
    let mut child = match start(&program, words) {
        Ok(child) => child,
        Err(why) => {
            eprintln!("progress: {}: {why}", program.to_string_lossy());
            exit(127);
        }
    };
    let process = child.id();
    let (ended, end) = mpsc::channel();
    thread::spawn(move || ended.send(child.wait()));
    let mut pause = FIRST;
    loop {
        match end.recv_timeout(pause) {
            Ok(Ok(status)) => {
                progress.iter().for_each(Progress::clear);
                end_as(status);
            }
            Err(mpsc::RecvTimeoutError::Timeout) => {
                if let (Some(progress), Some(place)) = (&mut progress, place_of(process)) {
                    progress.show(place);
                }
                pause = AGAIN;
            }
            _ => exit(1),
        }
    }
}
