//! The hook for outputs of upstream's that aren't returned.

use regalloc2_judge::Rejection;
use std::fmt;
use std::sync::RwLock;
use upstream::Algorithm;

/// The reason why an output of upstream's isn't returned.
#[derive(Clone, Debug)]
#[non_exhaustive]
pub enum Cause {
    /// The judge rejects it.
    Rejected(Rejection),
    /// Upstream panicked, and there is no output.
    Panicked,
}

impl fmt::Display for Cause {
    fn fmt(&self, f: &mut fmt::Formatter<'_>) -> fmt::Result {
        match self {
            Cause::Rejected(rejection) => rejection.fmt(f),
            Cause::Panicked => f.write_str("upstream panicked"),
        }
    }
}

/// A function that logs, or aborts. It gets the algorithm and the reason before the proved allocator is called.
pub type Hook = fn(Algorithm, &Cause);

static HOOK: RwLock<Option<Hook>> = RwLock::new(None);

/// Sets the hook for all threads, and replaces any other.
pub fn on_rejection(hook: Hook) {
    *HOOK.write().unwrap_or_else(|poisoned| poisoned.into_inner()) = Some(hook);
}

/// Calls the hook, if any.
pub(crate) fn report(algorithm: Algorithm, cause: &Cause) {
    let hook = *HOOK.read().unwrap_or_else(|poisoned| poisoned.into_inner());
    if let Some(hook) = hook {
        hook(algorithm, cause);
    }
}
