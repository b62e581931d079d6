//! Selects the output that is returned.

use crate::hook::{Cause, report};
use crate::library::{Library, Refusal};
use regalloc2_judge::{Fault, Judge};
use std::borrow::Borrow;
use std::panic::{AssertUnwindSafe, catch_unwind};
use upstream::{Algorithm, Function, Inst, MachineEnv, Operand, Output, RegAllocError, VReg};

/// The proved side: its memory, and the last output of the proved allocator.
#[derive(Default)]
pub(crate) struct Proved {
    library: Library,
    judge: Judge,
    output: Output,
}

/// The output that is returned.
pub(crate) enum Choice<O> {
    /// Upstream's.
    Upstream(O),
    /// The output in [`Proved`].
    Own,
}

/// Returns the result of a call of upstream's, or `None` if it panics.
pub(crate) fn tried<O>(call: impl FnOnce() -> Result<O, RegAllocError>) -> Option<Result<O, RegAllocError>> {
    catch_unwind(AssertUnwindSafe(call)).ok()
}

/// The result of upstream's call and the judge's.
enum Asked<O> {
    Accepted(O),
    /// Upstream's own error.
    Refused(RegAllocError),
    /// Upstream panicked, or the judge rejects the output.
    Failed(Cause),
}

impl Proved {
    pub(crate) fn output(&self) -> &Output {
        &self.output
    }

    pub(crate) fn into_output(self) -> Output {
        self.output
    }

    /// Selects an output: the proved allocator's first for `Fastalloc`, upstream's first for `Ion`.
    pub(crate) fn choose<F: Function, O: Borrow<Output>>(
        &mut self,
        f: &F,
        env: &MachineEnv,
        algorithm: Algorithm,
        upstream: impl FnOnce() -> Option<Result<O, RegAllocError>>,
    ) -> Result<Choice<O>, RegAllocError> {
        match algorithm {
            Algorithm::Fastalloc => self.own_first(f, env, algorithm, upstream),
            _ => self.own_last(f, env, algorithm, upstream),
        }
    }

    fn own_first<F: Function, O: Borrow<Output>>(
        &mut self,
        f: &F,
        env: &MachineEnv,
        algorithm: Algorithm,
        upstream: impl FnOnce() -> Option<Result<O, RegAllocError>>,
    ) -> Result<Choice<O>, RegAllocError> {
        let refusal = match self.library.allocate(f, env, &mut self.output) {
            Ok(()) => return Ok(Choice::Own),
            Err(refusal) => refusal,
        };
        if has_limit(f) || !self.judge.can_judge(f, env) {
            return Err(error_of(refusal, None));
        }
        match self.asked(f, env, upstream) {
            Asked::Accepted(output) => Ok(Choice::Upstream(output)),
            Asked::Refused(error) => Err(error),
            Asked::Failed(cause) => {
                report(algorithm, &cause);
                Err(error_of(refusal, Some(&cause)))
            }
        }
    }

    fn own_last<F: Function, O: Borrow<Output>>(
        &mut self,
        f: &F,
        env: &MachineEnv,
        algorithm: Algorithm,
        upstream: impl FnOnce() -> Option<Result<O, RegAllocError>>,
    ) -> Result<Choice<O>, RegAllocError> {
        let cause = match self.asked(f, env, upstream) {
            Asked::Accepted(output) => return Ok(Choice::Upstream(output)),
            Asked::Refused(error) => return Err(error),
            Asked::Failed(cause) => cause,
        };
        report(algorithm, &cause);
        match self.library.allocate(f, env, &mut self.output) {
            Ok(()) => Ok(Choice::Own),
            Err(refusal) => Err(error_of(refusal, Some(&cause))),
        }
    }

    /// Calls upstream, and judges its output.
    fn asked<F: Function, O: Borrow<Output>>(
        &mut self,
        f: &F,
        env: &MachineEnv,
        upstream: impl FnOnce() -> Option<Result<O, RegAllocError>>,
    ) -> Asked<O> {
        match upstream() {
            None => Asked::Failed(Cause::Panicked),
            Some(Err(error)) => Asked::Refused(error),
            Some(Ok(output)) => match self.judge.judge(f, env, output.borrow()) {
                Ok(()) => Asked::Accepted(output),
                Err(rejection) => Asked::Failed(Cause::Rejected(rejection)),
            },
        }
    }
}

/// Whether an operand is under `Limit`. Upstream's fast allocator panics over it.
fn has_limit(f: &impl Function) -> bool {
    // `Operand::constraint` panics for a number that is no encoding
    let is_limit = |op: &Operand| op.bits() >> 40 & 0b111 == 0b001;
    (0..f.num_insts()).any(|inst| f.inst_operands(Inst::new(inst)).iter().any(is_limit))
}

/// Returns the error if no output is accepted: the proved allocator's if upstream has it, else the operand at fault,
/// or the instruction whose form isn't supported.
fn error_of(refusal: Refusal, cause: Option<&Cause>) -> RegAllocError {
    let inst = match refusal {
        Refusal::Of(error) => return error,
        Refusal::Form(inst) => inst,
    };
    if let Some(Cause::Rejected(rejection)) = cause
        && let Some(Fault::Operand { inst, op, .. }) = rejection.faults().first()
    {
        return RegAllocError::SSA(op.vreg(), *inst);
    }
    RegAllocError::SSA(VReg::invalid(), inst)
}
