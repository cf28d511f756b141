//! What the standard library has no calls for: terminals, waiting, signals and pseudo-terminals, by way of the C library and the kernel
//! of x86-64 Linux. The only unsafe code of the command.

use std::ffi::{c_char, c_int, c_ulong, CStr};
use std::fs::File;
use std::io;
use std::os::fd::{AsRawFd, BorrowedFd, FromRawFd, OwnedFd};
use std::sync::atomic::{AtomicBool, AtomicI32, Ordering};

/// The kernel's `struct termios2`, which takes any speed as a number.
#[repr(C)]
#[derive(Clone, Copy, Debug, Default, PartialEq, Eq)]
pub struct Termios {
    pub input: u32,
    pub output: u32,
    pub control: u32,
    pub local: u32,
    pub line: u8,
    pub keys: [u8; 19],
    pub input_speed: u32,
    pub output_speed: u32,
}

#[repr(C)]
struct PollFd {
    fd: c_int,
    events: i16,
    found: i16,
}

extern "C" {
    fn ioctl(fd: c_int, request: c_ulong, ...) -> c_int;
    fn fcntl(fd: c_int, command: c_int, ...) -> c_int;
    fn tcgetpgrp(fd: c_int) -> c_int;
    fn poll(fds: *mut PollFd, count: c_ulong, milliseconds: c_int) -> c_int;
    fn pipe2(fds: *mut c_int, flags: c_int) -> c_int;
    fn signal(number: c_int, handler: usize) -> usize;
    fn write(fd: c_int, bytes: *const u8, length: usize) -> isize;
    fn posix_openpt(flags: c_int) -> c_int;
    fn grantpt(fd: c_int) -> c_int;
    fn unlockpt(fd: c_int) -> c_int;
    fn ptsname_r(fd: c_int, name: *mut c_char, length: usize) -> c_int;
}

const TCGETS2: c_ulong = 0x802C_542A;
const TCSETSW2: c_ulong = 0x402C_542C;
const TCSETSF2: c_ulong = 0x402C_542D;
const F_GETFD: c_int = 1;
const F_GETFL: c_int = 3;
const F_SETFL: c_int = 4;
const O_RDWR: c_int = 2;
const O_CLOEXEC: c_int = 0o2_000_000;
pub const O_NOCTTY: c_int = 0o400;
pub const O_NONBLOCK: c_int = 0o4000;
const POLLIN: i16 = 1;
const SIGHUP: c_int = 1;
const SIGINT: c_int = 2;
const SIGTERM: c_int = 15;
const SIG_DFL: usize = 0;
const SIG_IGN: usize = 1;

fn checked(answer: c_int) -> io::Result<c_int> {
    if answer < 0 {
        return Err(io::Error::last_os_error());
    }
    Ok(answer)
}

pub fn settings(fd: BorrowedFd) -> io::Result<Termios> {
    let mut termios = Termios::default();
    checked(unsafe { ioctl(fd.as_raw_fd(), TCGETS2, &mut termios as *mut Termios) })?;
    Ok(termios)
}

/// Sets a terminal, and drops what was received before under the old settings.
pub fn set_and_drop(fd: BorrowedFd, termios: &Termios) -> io::Result<()> {
    checked(unsafe { ioctl(fd.as_raw_fd(), TCSETSF2, termios as *const Termios) })?;
    Ok(())
}

/// Sets a terminal once all is sent that was written before.
pub fn set(fd: BorrowedFd, termios: &Termios) -> io::Result<()> {
    checked(unsafe { ioctl(fd.as_raw_fd(), TCSETSW2, termios as *const Termios) })?;
    Ok(())
}

/// Whether this is the terminal that the user types at.
pub fn is_own_terminal(fd: BorrowedFd) -> bool {
    unsafe { tcgetpgrp(fd.as_raw_fd()) >= 0 }
}

pub fn set_blocking(fd: BorrowedFd, blocking: bool) -> io::Result<()> {
    let flags = checked(unsafe { fcntl(fd.as_raw_fd(), F_GETFL) })?;
    let wanted = if blocking {
        flags & !O_NONBLOCK
    } else {
        flags | O_NONBLOCK
    };
    checked(unsafe { fcntl(fd.as_raw_fd(), F_SETFL, wanted) })?;
    Ok(())
}

/// What `wait` found. All are false when the time ran out.
#[derive(Clone, Copy, Debug, Default)]
pub struct Ready {
    /// there is something to read, or an end or an error to be told by a read
    pub input: bool,
    pub stopped: bool,
    /// nobody reads what is written to the output
    pub output_ended: bool,
}

/// Waits for an input, for the signal pipe, or for the end of whoever reads the output. `None` waits without an end.
pub fn wait(
    input: Option<BorrowedFd>,
    stop: BorrowedFd,
    output: Option<BorrowedFd>,
    milliseconds: Option<u32>,
) -> io::Result<Ready> {
    // poll passes over a negative descriptor
    let number = |fd: Option<BorrowedFd>| fd.map_or(-1, |fd| fd.as_raw_fd());
    let entry = |fd, events| PollFd {
        fd,
        events,
        found: 0,
    };
    let mut fds = [
        entry(number(input), POLLIN),
        entry(stop.as_raw_fd(), POLLIN),
        entry(number(output), 0),
    ];
    let time = milliseconds.map_or(-1, |time| time.min(i32::MAX as u32) as c_int);
    match checked(unsafe { poll(fds.as_mut_ptr(), 3, time) }) {
        Ok(_) => Ok(Ready {
            input: fds[0].found != 0,
            stopped: fds[1].found != 0,
            output_ended: fds[2].found != 0,
        }),
        // the handler has written to the signal pipe, which the next call finds
        Err(error) if error.kind() == io::ErrorKind::Interrupted => Ok(Ready::default()),
        Err(error) => Err(error),
    }
}

static SIGNAL_PIPE: AtomicI32 = AtomicI32::new(-1);

/// The first signal is told through the pipe; a second one ends the command where it stands.
extern "C" fn on_signal(number: c_int) {
    unsafe {
        write(SIGNAL_PIPE.load(Ordering::Relaxed), [1].as_ptr(), 1);
        signal(number, SIG_DFL);
    }
}

/// Catches Ctrl-C, termination and hangup: the pipe that is returned becomes readable.
pub fn catch_signals() -> io::Result<OwnedFd> {
    let mut ends = [-1; 2];
    checked(unsafe { pipe2(ends.as_mut_ptr(), O_CLOEXEC | O_NONBLOCK) })?;
    SIGNAL_PIPE.store(ends[1], Ordering::Relaxed);
    let handler = on_signal as extern "C" fn(c_int) as usize;
    unsafe {
        signal(SIGINT, handler);
        signal(SIGTERM, handler);
        // nohup has it ignored, and it stays so
        if signal(SIGHUP, handler) == SIG_IGN {
            signal(SIGHUP, SIG_IGN);
        }
        Ok(OwnedFd::from_raw_fd(ends[0]))
    }
}

/// A new pseudo-terminal: the end that the command writes to, and the name of the other one.
pub fn open_pty() -> io::Result<(File, String)> {
    let master =
        unsafe { File::from_raw_fd(checked(posix_openpt(O_RDWR | O_NOCTTY | O_CLOEXEC))?) };
    let mut name = [0; 128];
    let fd = master.as_raw_fd();
    checked(unsafe { grantpt(fd) })?;
    checked(unsafe { unlockpt(fd) })?;
    match unsafe { ptsname_r(fd, name.as_mut_ptr(), name.len()) } {
        0 => {}
        number => return Err(io::Error::from_raw_os_error(number)),
    }
    let name = unsafe { CStr::from_ptr(name.as_ptr()) };
    Ok((master, name.to_string_lossy().into_owned()))
}

static CLOSED_AT_START: [AtomicBool; 2] = [AtomicBool::new(false), AtomicBool::new(false)];

/// Rust opens /dev/null in place of a closed standard input or output, so that what is lost would look written. This runs before it.
extern "C" fn note_closed() {
    for (fd, closed) in CLOSED_AT_START.iter().enumerate() {
        closed.store(
            unsafe { fcntl(fd as c_int, F_GETFD) } < 0,
            Ordering::Relaxed,
        );
    }
}

#[used]
#[link_section = ".init_array"]
static BEFORE_MAIN: extern "C" fn() = note_closed;

pub fn input_was_closed() -> bool {
    CLOSED_AT_START[0].load(Ordering::Relaxed)
}

pub fn output_was_closed() -> bool {
    CLOSED_AT_START[1].load(Ordering::Relaxed)
}
