//! What the tool asks of the system itself. All its unsafe code stands in this file. Linux alone.
use std::ffi::c_int;
use std::fs::File;
use std::io::{self, ErrorKind};
use std::mem::ManuallyDrop;
use std::os::fd::FromRawFd;
use std::sync::atomic::{AtomicBool, AtomicI32, Ordering};

unsafe extern "C" {
    fn fcntl(file: c_int, command: c_int, ...) -> c_int;
    fn socket(family: c_int, kind: c_int, protocol: c_int) -> c_int;
    fn umask(mask: u32) -> u32;
    fn signal(number: c_int, action: usize) -> usize;
    fn raise(number: c_int) -> c_int;
}

/// Whether standard input and standard output were closed when the tool was started.
static CLOSED: [AtomicBool; 2] = [AtomicBool::new(false), AtomicBool::new(false)];

/// The question for a file's marks, which only an open one has; a socket inside this machine, of the kind that is connected.
const MARKS: c_int = 1;
const LOCAL: c_int = 1;
const STREAM: c_int = 1;

/// The system calls this before the standard library begins.
#[used]
#[unsafe(link_section = ".init_array")]
static EARLY: extern "C" fn() = early;

/// Notes which standard files are closed. The standard library would open the null device in their place, which takes all and
/// gives nothing: what is lost would seem to be well. A socket that leads nowhere takes their place, so that `/dev/stdin` and
/// `/dev/stdout` fail too.
extern "C" fn early() {
    for (file, closed) in (0..).zip(&CLOSED) {
        // SAFETY: the first asks for the marks of a file by its number alone. The second makes a new file with the lowest
        // number that is free, and that is this one.
        unsafe {
            if fcntl(file, MARKS) < 0 {
                closed.store(true, Ordering::Relaxed);
                socket(LOCAL, STREAM, 0);
            }
        }
    }
}

/// The numbers of standard input and standard output.
pub const INPUT: usize = 0;
pub const OUTPUT: usize = 1;

/// A standard file by its number. Unlike the standard library's own it hides no error.
pub fn standard(number: usize) -> io::Result<ManuallyDrop<File>> {
    match CLOSED[number].load(Ordering::Relaxed) {
        true => Err(io::Error::other("it is closed")),
        // SAFETY: the file is open as long as the tool runs, because nothing closes it; neither does this.
        false => Ok(ManuallyDrop::new(unsafe { File::from_raw_fd(number as c_int) })),
    }
}

/// The rights that a new file has: all may read and write it but those whom the process's mask keeps out.
pub fn default_mode() -> u32 {
    // SAFETY: it takes a number and gives the old one. It can only be asked by being set, and is set back at once.
    let mask = unsafe {
        let mask = umask(0o077);
        umask(mask);
        mask
    };
    0o666 & !mask
}

/// The signals by which a program is asked to end, with their names.
const SIGNALS: [(c_int, &str); 3] = [(1, "HUP"), (2, "INT"), (15, "TERM")];

/// What a signal does: end the program, or nothing.
const ENDS: usize = 0;
const NOTHING: usize = 1;

/// The signal that came while signals were held back; 0 for none.
static CAME: AtomicI32 = AtomicI32::new(0);

/// Notes a signal. A store to an atomic number may happen in the middle of anything.
extern "C" fn note(number: c_int) {
    CAME.store(number, Ordering::Relaxed);
}

/// As long as this lives, a signal that would end the tool is only noted, so that nothing is left half done. Whoever holds
/// signals back asks [`check_signals`] where it can stop.
pub struct SignalGuard([usize; SIGNALS.len()]);

impl SignalGuard {
    pub fn new() -> SignalGuard {
        SignalGuard(SIGNALS.map(|(number, _)| {
            // SAFETY: `note` may be called at any moment. A signal that was ignored stays so.
            let before = unsafe { signal(number, note as *const () as usize) };
            if before == NOTHING {
                unsafe { signal(number, NOTHING) };
                let _ = CAME.compare_exchange(number, 0, Ordering::Relaxed, Ordering::Relaxed);
            }
            before
        }))
    }
}

impl Drop for SignalGuard {
    fn drop(&mut self) {
        for ((number, _), before) in SIGNALS.into_iter().zip(self.0) {
            // SAFETY: it is what the signal did before.
            unsafe { signal(number, before) };
        }
    }
}

/// Fails with [`ErrorKind::Interrupted`] where a signal was noted. The standard library gives that kind for no write or flush.
pub fn check_signals() -> io::Result<()> {
    let number = CAME.load(Ordering::Relaxed);
    match SIGNALS.iter().find(|(each, _)| *each == number) {
        Some((_, name)) => Err(io::Error::new(ErrorKind::Interrupted, format!("the signal {name} came"))),
        None => Ok(()),
    }
}

/// Ends the tool by the signal that was noted, if one was: whoever started it is to see that.
pub fn raise_deferred_signal() {
    let number = CAME.load(Ordering::Relaxed);
    if number != 0 {
        // SAFETY: nothing is left to be done, and the signal's own action ends the process.
        unsafe {
            signal(number, ENDS);
            raise(number);
        }
    }
}
