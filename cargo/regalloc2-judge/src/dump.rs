//! Functions and outputs as JSON, for the programs `ra2` and `ra2_text`.

use regalloc2::{Block, Edit, Function, Inst, MachineEnv, Output, PRegSet, RegClass, VReg};
use std::fmt::Debug;
use std::path::{Path, PathBuf};
use std::sync::atomic::{AtomicUsize, Ordering};
use std::{env, fs, io, process};

/// The variable that names the folder of the files of rejected outputs.
pub const FOLDER: &str = "REGALLOC2_DUMP";

/// Returns an array of a function, with its machine, and an output, as `ra2 replay` reads it.
///
/// Debug labels and locations are left out. The function's blocks aren't empty.
pub fn json(f: &impl Function, env: &MachineEnv, output: &Output) -> String {
    format!("[{},\n{}]\n", function(f, env), output_json(output))
}

/// Writes a rejected output, with its function, to a new file in the folder that [`FOLDER`] names, if any, and its name to standard error.
pub(crate) fn keep(f: &impl Function, env: &MachineEnv, output: &Output) {
    let Some(folder) = env::var_os(FOLDER) else { return };
    match write(Path::new(&folder), &json(f, env, output)) {
        Ok(path) => eprintln!("regalloc2-judge: the rejected output is in {}", path.display()),
        Err(error) => eprintln!("regalloc2-judge: {FOLDER}: {error}"),
    }
}

/// Writes a new file, with the number of the process and of the file in its name.
fn write(folder: &Path, text: &str) -> io::Result<PathBuf> {
    static FILES: AtomicUsize = AtomicUsize::new(0);
    let number = FILES.fetch_add(1, Ordering::Relaxed);
    let path = folder.join(format!("rejected-{}-{number}.json", process::id()));
    fs::create_dir_all(folder)?;
    fs::write(&path, text)?;
    Ok(path)
}

fn indexes(set: PRegSet) -> Vec<usize> {
    set.into_iter().map(|reg| reg.index()).collect()
}

fn bits(vregs: &[VReg]) -> Vec<usize> {
    vregs.iter().map(|vreg| vreg.bits()).collect()
}

fn machine(env: &MachineEnv) -> String {
    let scratch: Vec<String> =
        env.scratch_by_class.iter().map(|reg| reg.map_or("null".into(), |reg| reg.index().to_string())).collect();
    let slots: Vec<usize> = env.fixed_stack_slots.iter().map(|reg| reg.index()).collect();
    format!(
        r#"{{"preferred_regs_by_class": {:?}, "non_preferred_regs_by_class": {:?}, "scratch_by_class": [{}], "fixed_stack_slots": {slots:?}}}"#,
        env.preferred_regs_by_class.map(indexes),
        env.non_preferred_regs_by_class.map(indexes),
        scratch.join(", "),
    )
}

fn inst(f: &impl Function, inst: Inst) -> String {
    let name = match (f.is_ret(inst), f.is_branch(inst)) {
        (true, _) => "Ret",
        (_, true) => "Branch",
        _ => "Op",
    };
    let operands: Vec<u64> = f.inst_operands(inst).iter().map(|operand| operand.bits()).collect();
    format!(r#"{{"op": "{name}", "operands": {operands:?}, "clobbers": {:?}}}"#, indexes(f.inst_clobbers(inst)))
}

fn each_block<T: Debug>(f: &impl Function, item: impl Fn(Block) -> T) -> String {
    format!("{:?}", (0..f.num_blocks()).map(|b| item(Block::new(b))).collect::<Vec<T>>())
}

/// Returns a function with its machine, without debug labels. Its blocks aren't empty.
fn function(f: &impl Function, env: &MachineEnv) -> String {
    let insts: Vec<String> = (0..f.num_insts()).map(|k| inst(f, Inst::new(k))).collect();
    let numbers = |blocks: &[Block]| -> Vec<usize> { blocks.iter().map(|b| b.index()).collect() };
    let arguments = |b: Block| -> Vec<Vec<usize>> {
        let last = f.block_insns(b).last();
        let of_edge = |k| if f.is_branch(last) { bits(f.branch_blockparams(b, last, k)) } else { vec![] };
        (0..f.block_succs(b).len()).map(of_edge).collect()
    };
    let range = |b: Block| [f.block_insns(b).first().index(), f.block_insns(b).last().index() + 1];
    let sizes = [RegClass::Int, RegClass::Float, RegClass::Vector].map(|class| f.spillslot_size(class));
    let mut text = format!(
        r#"{{"machine_env": {}, "entry_block": {}, "insts": [{}]"#,
        machine(env),
        f.entry_block().index(),
        insts.join(", ")
    );
    for (name, list) in [
        ("blocks", each_block(f, range)),
        ("block_preds", each_block(f, |b| numbers(f.block_preds(b)))),
        ("block_succs", each_block(f, |b| numbers(f.block_succs(b)))),
        ("block_params_in", each_block(f, |b| bits(f.block_params(b)))),
        ("block_params_out", each_block(f, arguments)),
        ("num_vregs", f.num_vregs().to_string()),
        ("debug_value_labels", "[]".to_string()),
        ("spillslot_size", format!("{sizes:?}")),
        ("multi_spillslot_named_by_last_slot", f.multi_spillslot_named_by_last_slot().to_string()),
        ("allow_multiple_vreg_defs", f.allow_multiple_vreg_defs().to_string()),
    ] {
        text += &format!(r#", "{name}": {list}"#);
    }
    text + "}"
}

/// Returns an output, without debug locations.
fn output_json(output: &Output) -> String {
    let edits: Vec<[u32; 3]> =
        output.edits.iter().map(|(point, Edit::Move { from, to })| [point.to_index(), from.bits(), to.bits()]).collect();
    let places: Vec<u32> = output.allocs.iter().map(|place| place.bits()).collect();
    format!(
        r#"{{"num_spillslots": {}, "edits": {edits:?}, "allocs": {places:?}, "inst_alloc_offsets": {:?}, "debug_locations": []}}"#,
        output.num_spillslots, output.inst_alloc_offsets
    )
}
