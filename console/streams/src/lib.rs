//! Whether the standard streams were open when the program began.
//!
//! Rust opens `/dev/null` in the place of a closed stream before `main` begins, so a report that is
//! printed there vanishes without an error; only what runs earlier can tell.

use std::ffi::c_int;
use std::sync::atomic::{AtomicBool, Ordering};

static STDIN_CLOSED: AtomicBool = AtomicBool::new(false);
static STDOUT_CLOSED: AtomicBool = AtomicBool::new(false);

/// Whether standard input was closed when the program began.
pub fn stdin_was_closed() -> bool {
    STDIN_CLOSED.load(Ordering::Relaxed)
}

/// Whether standard output was closed when the program began.
pub fn stdout_was_closed() -> bool {
    STDOUT_CLOSED.load(Ordering::Relaxed)
}

/// C's question about an open file that asks for its flags.
const F_GETFD: c_int = 1;

extern "C" {
    fn fcntl(file: c_int, question: c_int, ...) -> c_int;
}

extern "C" fn look() {
    // SAFETY: with this question `fcntl` takes no further argument and touches no memory.
    let closed = |file| unsafe { fcntl(file, F_GETFD) } == -1;
    STDIN_CLOSED.store(closed(0), Ordering::Relaxed);
    STDOUT_CLOSED.store(closed(1), Ordering::Relaxed);
}

// The C library calls each function of this section before `main`, and so before Rust begins.
#[cfg(target_os = "linux")]
#[used]
#[link_section = ".init_array"]
static LOOK: extern "C" fn() = look;
