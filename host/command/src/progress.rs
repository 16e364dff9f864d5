//! A line on the terminal that says how far a long run is.

use std::io::{self, IsTerminal, Write};
use std::sync::{Arc, Condvar, Mutex, MutexGuard, PoisonError};
use std::thread::{self, JoinHandle};
use std::time::{Duration, Instant};

/// A shorter run needs no progress.
const SILENT: Duration = Duration::from_secs(1);
/// Of a terminal of 80 columns.
const WIDTH: usize = 79;
const CLEAR: &str = "\r\x1b[K";

#[derive(Default)]
struct State {
    line: String,
    /// The line is due: the run has taken long enough.
    due: bool,
    done: bool,
}

type Shared = Arc<(Mutex<State>, Condvar)>;

/// Shows nothing if standard error is no terminal.
pub struct Progress {
    shared: Shared,
    thread: Option<JoinHandle<()>>,
}

fn locked(shared: &Shared) -> MutexGuard<'_, State> {
    shared.0.lock().unwrap_or_else(PoisonError::into_inner)
}

fn show(text: &str) {
    // Without it the run goes on as well.
    let _ = io::stderr().write_all(text.as_bytes());
}

impl Progress {
    pub fn start() -> Progress {
        let shared = Shared::default();
        let thread = io::stderr().is_terminal().then(|| {
            let shared = shared.clone();
            thread::spawn(move || wait(&shared))
        });
        Progress { shared, thread }
    }

    /// What the run is at.
    pub fn at(&self, line: &str) {
        let mut state = locked(&self.shared);
        state.line = line.chars().take(WIDTH).collect();
        if state.due {
            show(&format!("{CLEAR}{}", state.line));
        }
    }

    /// A message that stays, in front of the line.
    pub fn say(&self, message: &[u8]) {
        let state = locked(&self.shared);
        if state.due {
            show(CLEAR);
        }
        let _ = io::stderr().write_all(message);
        if state.due {
            show(&state.line);
        }
    }
}

/// Shows the line as soon as it is due, also in the middle of a save that takes long.
fn wait(shared: &Shared) {
    let start = Instant::now();
    let mut state = locked(shared);
    while !state.done {
        let left = SILENT.saturating_sub(start.elapsed());
        if left.is_zero() {
            state.due = true;
            show(&state.line);
            return;
        }
        let waited = shared.1.wait_timeout(state, left);
        state = waited.unwrap_or_else(PoisonError::into_inner).0;
    }
}

impl Drop for Progress {
    fn drop(&mut self) {
        locked(&self.shared).done = true;
        self.shared.1.notify_all();
        if let Some(thread) = self.thread.take() {
            let _ = thread.join();
        }
        if locked(&self.shared).due {
            show(CLEAR);
        }
    }
}
