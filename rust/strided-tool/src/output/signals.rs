//! Signals: one that ends the run takes its unfinished file along.

use std::fs;
use std::io;
use std::path::PathBuf;
use std::process;
use std::sync::{Mutex, MutexGuard, PoisonError};
use std::thread;

use signal_hook::consts::{SIGHUP, SIGINT, SIGQUIT, SIGTERM, SIGXFSZ};
use signal_hook::iterator::Signals;
use signal_hook::{flag, low_level};

/// The exit status where a signal should have ended the run and has not.
const NOT_ENDED: i32 = 2;

static UNFINISHED: Mutex<Option<PathBuf>> = Mutex::new(None);

/// The file that goes where the run is ended. Whoever makes, renames or removes it holds this meanwhile.
pub fn unfinished() -> MutexGuard<'static, Option<PathBuf>> {
    UNFINISHED.lock().unwrap_or_else(PoisonError::into_inner)
}

/// Waits for signals from here on, beside the work.
pub fn watch() -> io::Result<()> {
    // So that a write past the limit on a file's size fails, as on a full disk.
    flag::register(SIGXFSZ, Default::default())?;
    let ignored = ignored();
    let ending = [SIGHUP, SIGINT, SIGQUIT, SIGTERM];
    let mut signals = Signals::new(ending.iter().filter(|signal| !is_in(ignored, **signal)))?;
    thread::Builder::new().spawn(move || {
        if let Some(signal) = signals.forever().next() {
            end_by(signal);
        }
    })?;
    Ok(())
}

/// Removes the unfinished file and ends as the signal would have. The guard is kept, so that no rename comes after.
fn end_by(signal: i32) {
    let mut unfinished = unfinished();
    if let Some(path) = unfinished.take() {
        let _ = fs::remove_file(path);
    }
    let _ = low_level::emulate_default_handler(signal);
    process::exit(NOT_ENDED);
}

/// The signals that the run was started to ignore, as under nohup: they stay ignored. A bit for each.
fn ignored() -> u64 {
    let status = fs::read_to_string("/proc/self/status").unwrap_or_default();
    let bits = status.lines().find_map(|line| line.strip_prefix("SigIgn:"));
    bits.and_then(|bits| u64::from_str_radix(bits.trim(), 16).ok())
        .unwrap_or(0)
}

fn is_in(set: u64, signal: i32) -> bool {
    let place = u32::try_from(signal.saturating_sub(1)).unwrap_or(u32::MAX);
    set.checked_shr(place).is_some_and(|rest| rest & 1 == 1)
}

#[cfg(test)]
mod tests {
    use super::*;

    #[test]
    fn signals_in_a_set() {
        let set = 0x4001;
        assert!(is_in(set, SIGHUP) && is_in(set, SIGTERM));
        assert!(!is_in(set, SIGINT) && !is_in(set, 0) && !is_in(set, 99));
    }
}
