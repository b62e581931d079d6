#![doc = include_str!("../README.md")]
#![deny(missing_docs)]
#![forbid(unsafe_code)]

pub use upstream::*;

mod hook;
mod library;
mod select;

/// The items that upstream lacks: the judge, and the hook for outputs that it rejects.
pub mod judged {
    pub use crate::hook::{Cause, Hook, on_rejection};
    pub use regalloc2_judge::{
        Fault, Judge, MoveFault, OperandFault, OrderFault, Rejection, SlotFault, Unjudged, assert_faithful, judge,
    };
}

use select::{Choice, Proved};

/// Memory that allocations share, and the last output, as in upstream's `Ctx`.
#[derive(Default)]
pub struct Ctx {
    upstream: upstream::Ctx,
    /// Whether upstream panicked while it used its context, which is replaced then.
    broken: bool,
    proved: Proved,
}

/// Allocates registers. The output is the proved allocator's, or the proved checker accepted it.
///
/// # Errors
///
/// Upstream's errors; `SSA` if no output is accepted, with the operand at fault if it is known.
pub fn run<F: Function>(func: &F, env: &MachineEnv, options: &RegallocOptions) -> Result<Output, RegAllocError> {
    let mut proved = Proved::default();
    let asked = || select::tried(|| upstream::run(func, env, options));
    Ok(match proved.choose(func, env, options.algorithm, asked)? {
        Choice::Upstream(output) => output,
        Choice::Own => proved.into_output(),
    })
}

/// Allocates registers as [`run`] does, and lends the output that the context keeps.
///
/// # Errors
///
/// Those of [`run`].
pub fn run_with_ctx<'a, F: Function>(
    func: &F,
    env: &MachineEnv,
    options: &RegallocOptions,
    ctx: &'a mut Ctx,
) -> Result<&'a Output, RegAllocError> {
    let Ctx { upstream: inner, broken, proved } = ctx;
    let asked = move || {
        if std::mem::replace(broken, true) {
            *inner = upstream::Ctx::default();
        }
        let asked = select::tried(move || upstream::run_with_ctx(func, env, options, inner))?;
        *broken = false;
        Some(asked)
    };
    Ok(match proved.choose(func, env, options.algorithm, asked)? {
        Choice::Upstream(output) => output,
        Choice::Own => proved.output(),
    })
}
