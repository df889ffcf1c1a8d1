//! What the standard library lacks of Linux: signals, naming a file that has no name, and which of
//! the standard files were closed when the program was started. Everything unsafe is here.
//!
//! The program has one thread, so a mask of signals holds for all of it. What a handler reads or
//! writes is atomic.

#![deny(clippy::undocumented_unsafe_blocks)]

use std::ffi::{c_char, c_int, CString};
use std::fs::File;
use std::io;
use std::os::fd::AsRawFd;
use std::os::unix::ffi::OsStrExt;
use std::path::{Path, PathBuf};
use std::ptr;
use std::sync::atomic::{AtomicBool, AtomicPtr, Ordering};

extern "C" {
    fn fcntl(fd: c_int, command: c_int, ...) -> c_int;
    fn linkat(
        from_folder: c_int,
        from: *const c_char,
        to_folder: c_int,
        to: *const c_char,
        flags: c_int,
    ) -> c_int;
    fn pthread_sigmask(how: c_int, set: *const Set, old: *mut Set) -> c_int;
    fn raise(number: c_int) -> c_int;
    fn sigaddset(set: *mut Set, number: c_int) -> c_int;
    fn sigemptyset(set: *mut Set) -> c_int;
    fn siginterrupt(number: c_int, flag: c_int) -> c_int;
    fn signal(number: c_int, handler: usize) -> usize;
    fn unlink(path: *const c_char) -> c_int;
}

/// A set of signals: 1,024 bits, for glibc and for musl.
#[repr(C)]
struct Set([u64; 16]);

const HUP: c_int = 1;
const INT: c_int = 2;
const QUIT: c_int = 3;
const TERM: c_int = 15;
const XFSZ: c_int = 25;
/// The signals by which people end a program.
const ENDING: [c_int; 4] = [HUP, INT, QUIT, TERM];

const DEFAULT: usize = 0;
const IGNORED: usize = 1;

const BLOCK: c_int = 0;
const SET_MASK: c_int = 2;

const GET_FLAGS: c_int = 1;
const HERE: c_int = -100;
const FOLLOW: c_int = 0x400;

/// The flag of a file without a name, opened by its folder. The flag of a folder is in it, which
/// another machine has elsewhere.
#[cfg(any(target_arch = "aarch64", target_arch = "arm"))]
pub const UNNAMED: i32 = 0o20_040_000;
#[cfg(not(any(target_arch = "aarch64", target_arch = "arm")))]
pub const UNNAMED: i32 = 0o20_200_000;

// STANDARD FILES

/// Input, output and errors: whether each was closed at the start.
static CLOSED: [AtomicBool; 3] = [
    AtomicBool::new(false),
    AtomicBool::new(false),
    AtomicBool::new(false),
];

/// Run before `main`, and so before the standard library opens /dev/null in the place of a closed
/// file: later nothing tells the two apart.
#[used]
#[link_section = ".init_array"]
static AT_START: extern "C" fn() = note_closed;

extern "C" fn note_closed() {
    for (fd, closed) in CLOSED.iter().enumerate() {
        // SAFETY: the call takes any number for a file, and writes nothing.
        let flags = unsafe { fcntl(fd as c_int, GET_FLAGS) };
        closed.store(flags == -1, Ordering::SeqCst);
    }
}

/// Whether a standard file was closed when the program was started.
pub fn was_closed(file: &impl AsRawFd) -> bool {
    let closed = CLOSED.get(file.as_raw_fd() as usize);
    closed.is_some_and(|closed| closed.load(Ordering::SeqCst))
}

// A FILE WITHOUT A NAME

/// The path under which Linux has an open file.
pub fn path_of(file: &File) -> PathBuf {
    PathBuf::from(format!("/proc/self/fd/{}", file.as_raw_fd()))
}

/// Gives an open file a name, which must be free.
pub fn name(file: &File, path: &Path) -> io::Result<()> {
    let (from, to) = (text(&path_of(file))?, text(path)?);
    // SAFETY: both are texts that end in 0 and live until the call returns; it only reads them.
    let done = unsafe { linkat(HERE, from.as_ptr(), HERE, to.as_ptr(), FOLLOW) };
    if done == 0 {
        Ok(())
    } else {
        Err(io::Error::last_os_error())
    }
}

fn text(path: &Path) -> io::Result<CString> {
    Ok(CString::new(path.as_os_str().as_bytes())?)
}

// SIGNALS

/// The file to be removed if a signal ends the program: a text that ends in 0 and is never freed;
/// null if there is none.
static BESIDE: AtomicPtr<c_char> = AtomicPtr::new(ptr::null_mut());

/// Whether a signal has asked for the end.
static ASKED: AtomicBool = AtomicBool::new(false);

/// From now on a signal that ends the program first removes the file of `remove_at_end`. A file
/// that becomes too large is an error of writing, and ends nothing.
pub fn remove_before_the_end() {
    on_signals(remove_and_end);
    // SAFETY: the number is a signal's, and to ignore it is a handler that the system knows.
    unsafe { signal(XFSZ, IGNORED) };
}

/// From now on the first signal that would end the program only makes `asked` true, and interrupts
/// a call of the system that waits; the second one ends it.
pub fn ask_for_the_end() {
    on_signals(note_asked);
}

/// Whether a signal has come since `ask_for_the_end`.
pub fn asked() -> bool {
    ASKED.load(Ordering::SeqCst)
}

/// A signal that was ignored at the start stays so: nohup and a shell's background rely on it.
fn on_signals(handler: extern "C" fn(c_int)) {
    for number in ENDING {
        // SAFETY: the numbers are signals', and the handlers below call only what a handler may
        // call: unlink, signal, raise, and atomic numbers.
        unsafe {
            if signal(number, handler as usize) == IGNORED {
                signal(number, IGNORED);
            }
            siginterrupt(number, 1);
        }
    }
}

extern "C" fn remove_and_end(number: c_int) {
    let path = BESIDE.load(Ordering::SeqCst);
    // SAFETY: the path is null or a text that ends in 0 and is never freed. The raised signal waits
    // until this handler returns, and then ends the program as if there had been no handler.
    unsafe {
        if !path.is_null() {
            unlink(path);
        }
        signal(number, DEFAULT);
        raise(number);
    }
}

extern "C" fn note_asked(number: c_int) {
    ASKED.store(true, Ordering::SeqCst);
    // SAFETY: the number is that of the signal that came.
    unsafe { signal(number, DEFAULT) };
}

/// Names the file that a signal removes, or none.
pub fn remove_at_end(path: Option<&Path>) {
    let path = path.and_then(|path| text(path).ok());
    let path = path.map_or(ptr::null_mut(), CString::into_raw);
    BESIDE.store(path, Ordering::SeqCst);
}

/// Does something that no signal of people breaks off: one that comes meanwhile waits.
pub fn undisturbed<T>(work: impl FnOnce() -> T) -> T {
    let mut all = Set([0; 16]);
    let mut before = Set([0; 16]);
    // SAFETY: all three functions are given sets of the size that the system's have, aligned, and
    // none overlaps another; the numbers are signals'.
    unsafe {
        sigemptyset(&mut all);
        for number in ENDING {
            sigaddset(&mut all, number);
        }
        pthread_sigmask(BLOCK, &all, &mut before);
    }
    let done = work();
    // SAFETY: the set is the one that the call above wrote, and a null pointer asks for none.
    unsafe { pthread_sigmask(SET_MASK, &before, ptr::null_mut()) };
    done
}
