//! Temporary files are removed where a signal ends the program.

use std::ffi::{c_char, CString};
use std::os::unix::ffi::OsStrExt;
use std::path::Path;
use std::ptr::null_mut;
use std::sync::atomic::{AtomicBool, AtomicPtr, AtomicUsize, Ordering};
use std::sync::{Mutex, Once, PoisonError};

/// The names of the temporary files that there may be. No more files than this are written at once; a further one would only not be watched.
static FILES: [AtomicPtr<c_char>; 256] = [const { AtomicPtr::new(null_mut()) }; 256];
/// The same names, which are never freed: a signal may be reading one.
static NAMES: Mutex<Vec<CString>> = Mutex::new(Vec::new());
/// How many threads are creating a file.
static CREATING: AtomicUsize = AtomicUsize::new(0);
/// Whether a signal is ending the program.
static ENDING: AtomicBool = AtomicBool::new(false);

/// The place of a watched file.
pub struct Watched(Option<usize>);

/// Has a file removed where a signal ends the program. It need not exist yet.
pub fn watch(path: &Path) -> Watched {
    static PREPARED: Once = Once::new();
    PREPARED.call_once(system::prepare);
    let Ok(name) = CString::new(path.as_os_str().as_bytes()) else {
        return Watched(None);
    };
    // the letters stay where they are when the name itself moves
    let letters = name.as_ptr().cast_mut();
    let mut names = NAMES.lock().unwrap_or_else(PoisonError::into_inner);
    names.push(name);
    let free = |place: &AtomicPtr<c_char>| {
        let taken = place.compare_exchange(null_mut(), letters, Ordering::SeqCst, Ordering::SeqCst);
        taken.is_ok()
    };
    Watched(FILES.iter().position(free))
}

/// Creates a watched file. The signal's action waits for this, and nothing is created any more once it has begun.
pub fn creating<T>(create: impl FnOnce() -> T) -> T {
    CREATING.fetch_add(1, Ordering::SeqCst);
    if ENDING.load(Ordering::SeqCst) {
        CREATING.fetch_sub(1, Ordering::SeqCst);
        loop {
            std::thread::park();
        }
    }
    let created = create();
    CREATING.fetch_sub(1, Ordering::SeqCst);
    created
}

impl Drop for Watched {
    fn drop(&mut self) {
        if let Some(place) = self.0 {
            FILES[place].store(null_mut(), Ordering::SeqCst);
        }
    }
}

#[cfg(target_os = "linux")]
mod system {
    use super::{c_char, Ordering, CREATING, ENDING, FILES};
    use std::ffi::c_void;
    use std::ptr::null_mut;

    extern "C" {
        fn signal(number: i32, action: usize) -> usize;
        fn raise(number: i32) -> i32;
        fn unlink(name: *const c_char) -> i32;
        fn poll(files: *mut c_void, count: u64, milliseconds: i32) -> i32;
    }

    const DEFAULT: usize = 0;
    const IGNORED: usize = 1;
    const FAILED: usize = usize::MAX;
    /// HUP, INT, QUIT, USR1, USR2, ALRM, TERM and XCPU.
    const ENDS: [i32; 8] = [1, 2, 3, 10, 12, 14, 15, 24];
    /// How many milliseconds are waited for files that are being created.
    const MOST_WAITS: usize = 200;
    /// XFSZ: a file would exceed its limit. Ignored, it is an error of the write.
    const FILE_LIMIT: i32 = 25;

    /// Sets what is done at each signal. A signal that is ignored, as under `nohup`, stays so.
    pub fn prepare() {
        let action = end as extern "C" fn(i32) as usize;
        for number in ENDS {
            // SAFETY: `end` takes a signal's number and calls only what may be called in a handler.
            let before = unsafe { signal(number, action) };
            if before == IGNORED || before == FAILED {
                // SAFETY: ignoring a signal needs nothing of the program.
                unsafe { signal(number, IGNORED) };
            }
        }
        // SAFETY: as above.
        unsafe { signal(FILE_LIMIT, IGNORED) };
    }

    /// Removes the files, and ends the program as the signal would have.
    extern "C" fn end(number: i32) {
        ENDING.store(true, Ordering::SeqCst);
        // a thread that this very action has interrupted does not go on, so there is an end to the wait
        for _ in 0..MOST_WAITS {
            if CREATING.load(Ordering::SeqCst) == 0 {
                break;
            }
            // SAFETY: with no files `poll` only waits, and it may be called in a handler.
            unsafe { poll(null_mut(), 0, 1) };
        }
        for file in &FILES {
            let name = file.load(Ordering::SeqCst);
            if !name.is_null() {
                // SAFETY: the name is a C string that is never freed.
                unsafe { unlink(name) };
            }
        }
        // SAFETY: both may be called in a handler; the signal comes again once this returns, with its default action.
        unsafe {
            signal(number, DEFAULT);
            raise(number);
        }
    }
}

#[cfg(not(target_os = "linux"))]
mod system {
    /// Elsewhere signals have other numbers; a temporary file is then left where one ends the program.
    pub fn prepare() {}
}
