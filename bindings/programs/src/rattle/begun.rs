//! Whether the standard output was closed as the program began. Before `main` Rust's std opens `/dev/null` in its
//! place, and what is written there counts as written. So it is looked at before that, by what the system calls first.
#![allow(unsafe_code)]
use core::sync::atomic::{AtomicBool, Ordering};

static IS_CLOSED: AtomicBool = AtomicBool::new(false);

unsafe extern "C" {
    fn fcntl(descriptor: i32, command: i32, ...) -> i32;
}

const STDOUT: i32 = 1;
const F_GETFD: i32 = 1;

extern "C" fn look() {
    // SAFETY: F_GETFD takes no argument, and only returns the flags of a descriptor, or -1 if it isn't open.
    IS_CLOSED.store(unsafe { fcntl(STDOUT, F_GETFD) } == -1, Ordering::Relaxed);
}

// SAFETY: the section is a list of such functions, which are called one after the other before `main`.
#[used]
#[cfg_attr(target_vendor = "apple", unsafe(link_section = "__DATA,__mod_init_func"))]
#[cfg_attr(not(target_vendor = "apple"), unsafe(link_section = ".init_array"))]
static LOOK: extern "C" fn() = look;

pub(super) fn is_stdout_closed() -> bool {
    IS_CLOSED.load(Ordering::Relaxed)
}
