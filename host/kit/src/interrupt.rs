//! Ctrl-C (SIGINT) and SIGTERM as a mark that programs look at, and a wait for a file that they end. The standard library has
//! no signals, and no wait that one could end without fail.

use std::io::{Error, ErrorKind, Result};
use std::os::unix::io::AsRawFd;
use std::ptr;
use std::sync::atomic::{AtomicBool, Ordering};
use std::time::Duration;

const SIGINT: i32 = 2;
const SIGTERM: i32 = 15;
const SIG_BLOCK: i32 = 0;
const POLLIN: i16 = 1;

static STOPPED: AtomicBool = AtomicBool::new(false);

/// A set of signals, as large as the C libraries of Linux have it; all zero is the empty set.
#[repr(C)]
struct Signals([u64; 16]);

/// What is waited for at a file, and what happened there.
#[repr(C)]
struct Watched {
    file: i32,
    events: i16,
    happened: i16,
}

#[repr(C)]
struct Time {
    seconds: i64,
    nanoseconds: i64,
}

extern "C" {
    fn signal(number: i32, handler: extern "C" fn(i32)) -> usize;
    fn sigaddset(set: *mut Signals, number: i32) -> i32;
    fn sigdelset(set: *mut Signals, number: i32) -> i32;
    fn sigprocmask(how: i32, set: *const Signals, before: *mut Signals) -> i32;
    fn ppoll(files: *mut Watched, count: u64, limit: *const Time, blocked: *const Signals) -> i32;
}

extern "C" fn stop(_: i32) {
    STOPPED.store(true, Ordering::Relaxed);
}

/// From now on either signal only leaves its mark, and comes only while `wait` waits: so none comes between a look at the mark
/// and the wait, which would then sleep on.
pub fn watch() {
    let mut both = Signals([0; 16]);
    // SAFETY: these are C's own, what they are lent lives here, and the handler only stores an atomic, which one may at any time.
    unsafe {
        for number in [SIGINT, SIGTERM] {
            sigaddset(&mut both, number);
            signal(number, stop);
        }
        sigprocmask(SIG_BLOCK, &both, ptr::null_mut());
    }
}

/// Whether one of them has come.
pub fn stopped() -> bool {
    STOPPED.load(Ordering::Relaxed)
}

/// Waits until the file has something to read or one of the signals comes, and no longer than the limit; without one, for ever.
pub fn wait(file: &impl AsRawFd, limit: Option<Duration>) -> Result<()> {
    let mut watched = Watched { file: file.as_raw_fd(), events: POLLIN, happened: 0 };
    let limit = limit.map(|limit| Time {
        seconds: i64::try_from(limit.as_secs()).unwrap_or(i64::MAX),
        nanoseconds: limit.subsec_nanos().into(),
    });
    let limit = limit.as_ref().map_or(ptr::null(), |limit| limit as *const Time);
    let mut blocked = Signals([0; 16]);
    // SAFETY: these are C's own, and what they are lent lives here until they return.
    let ready = unsafe {
        sigprocmask(SIG_BLOCK, ptr::null(), &mut blocked);
        sigdelset(&mut blocked, SIGINT);
        sigdelset(&mut blocked, SIGTERM);
        ppoll(&mut watched, 1, limit, &blocked)
    };
    let why = Error::last_os_error();
    if ready < 0 && why.kind() != ErrorKind::Interrupted {
        return Err(why);
    }
    Ok(())
}

#[cfg(test)]
mod tests {
    use super::*;
    use std::io::Write;
    use std::os::unix::net::UnixStream;

    #[test]
    fn a_wait_ends_with_something_to_read_or_with_its_limit() {
        let (mut one, other) = UnixStream::pair().unwrap();
        assert!(wait(&other, Some(Duration::ZERO)).is_ok());
        one.write_all(&[1]).unwrap();
        assert!(wait(&other, None).is_ok());
        assert!(wait(&other, Some(Duration::MAX)).is_ok());
    }
}
