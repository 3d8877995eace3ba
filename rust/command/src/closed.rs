//! Whether standard input or output was closed before the program began. Rust's start puts `/dev/null` in the place of a closed one: reading that gives
//! nothing, and writing to it loses everything without an error. So the program asks before that.

use std::sync::atomic::{AtomicBool, Ordering};

static INPUT: AtomicBool = AtomicBool::new(false);
static OUTPUT: AtomicBool = AtomicBool::new(false);

/// Returns whether there was no standard input to read.
pub fn input_is_closed() -> bool {
    INPUT.load(Ordering::Relaxed)
}

/// Returns whether what is written to standard output would be lost.
pub fn output_is_closed() -> bool {
    OUTPUT.load(Ordering::Relaxed)
}

#[cfg(target_os = "linux")]
mod before_the_start {
    use super::{Ordering, INPUT, OUTPUT};

    extern "C" {
        fn fcntl(file: i32, command: i32, ...) -> i32;
    }

    /// Asks for the flags of a file, which an open one has.
    const F_GETFD: i32 = 1;

    extern "C" fn look() {
        for (file, closed) in [(0, &INPUT), (1, &OUTPUT)] {
            // SAFETY: F_GETFD only asks the system about a number, open or not, and takes no pointer.
            let flags = unsafe { fcntl(file, F_GETFD) };
            closed.store(flags < 0, Ordering::Relaxed);
        }
    }

    /// What stands in this section is called before `main`.
    #[used]
    #[link_section = ".init_array"]
    static LOOK: extern "C" fn() = look;
}
