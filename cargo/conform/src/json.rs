//! Functions from JSON, as docs/INPUT.md has it. `regalloc2_judge::dump` writes them.

use crate::functions::{Code, Kind, Line, Part};
use regalloc2::{Block, Inst, InstRange, MachineEnv, Operand, PReg, PRegSet, VReg};

/// A value of JSON, of the kinds that a stored function has.
enum Value<'a> {
    Number(u64),
    Word(&'a str),
    List(Vec<Value<'a>>),
    Object(Vec<(&'a str, Value<'a>)>),
}

impl<'a> Value<'a> {
    fn number(&self) -> u64 {
        match self {
            Value::Number(number) => *number,
            _ => panic!("no number"),
        }
    }

    fn list(&self) -> &[Value<'a>] {
        match self {
            Value::List(list) => list,
            _ => panic!("no list"),
        }
    }

    fn of(&self, name: &str) -> &Value<'a> {
        match self {
            Value::Object(members) => &members.iter().find(|(key, _)| *key == name).expect("a member").1,
            _ => panic!("no object"),
        }
    }

    fn each<T>(&self, item: impl Fn(&Value<'a>) -> T) -> Vec<T> {
        self.list().iter().map(item).collect()
    }
}

/// Takes a value off the front of a text, whose texts have no escapes.
fn value<'a>(text: &mut &'a str) -> Value<'a> {
    *text = text.trim_start_matches([' ', '\n', ',', ':']);
    if let Some(rest) = text.strip_prefix('[') {
        *text = rest;
        let mut list = Vec::new();
        while !closes(text, ']') {
            list.push(value(text));
        }
        return Value::List(list);
    }
    if let Some(rest) = text.strip_prefix('{') {
        *text = rest;
        let mut members = Vec::new();
        while !closes(text, '}') {
            let Value::Word(name) = value(text) else { panic!("no name") };
            members.push((name, value(text)));
        }
        return Value::Object(members);
    }
    let (word, rest) = match text.strip_prefix('"') {
        Some(rest) => rest.split_once('"').expect("a text's end"),
        None => text.split_at(text.find([',', ']', '}', '\n', ' ']).unwrap_or(text.len())),
    };
    *text = rest;
    word.parse().map_or(Value::Word(word), Value::Number)
}

fn closes(text: &mut &str, end: char) -> bool {
    *text = text.trim_start_matches([' ', '\n', ',']);
    let rest = text.strip_prefix(end);
    *text = rest.unwrap_or(text);
    rest.is_some()
}

fn three<T: Copy>(list: Vec<T>) -> [T; 3] {
    [list[0], list[1], list[2]]
}

/// The function and the machine of a text, whose slots are of one unit and two, as `bench/shapes.py` writes them.
///
/// # Panics
///
/// If the text is another.
pub fn read(text: &str) -> (Code, MachineEnv) {
    let f = value(&mut &*text);
    let number = |it: &Value| it.number() as usize;
    let regs = |it: &Value| it.list().iter().map(|reg| PReg::from_index(number(reg))).collect::<PRegSet>();
    let vregs = |it: &Value| it.each(|vreg| VReg::from_bits(vreg.number() as u32));
    let blocks = |it: &Value| it.each(|block| Block::new(number(block)));
    let lines = f.of("insts").each(|it| {
        let kind = match it.of("op") {
            Value::Word("Ret") => Kind::Ret,
            Value::Word("Branch") => Kind::Branch,
            _ => Kind::Op,
        };
        let operands = it.of("operands").each(|bits| Operand::from_bits(bits.number()));
        Line { kind, operands, clobbers: regs(it.of("clobbers")) }
    });
    let mut code = Code::of(vec![Part { lines, ..Part::default() }], number(f.of("num_vregs")));
    code.ranges = f.of("blocks").each(|it| InstRange::new(Inst::new(number(&it.list()[0])), Inst::new(number(&it.list()[1]))));
    code.succs = f.of("block_succs").each(blocks);
    code.preds = f.of("block_preds").each(blocks);
    code.params = f.of("block_params_in").each(vregs);
    code.arguments = f.of("block_params_out").each(|it| it.each(vregs));
    let inst = |it: &Value| Inst::new(number(it));
    code.labels = f.of("debug_value_labels").each(|it| {
        let it = it.list();
        (VReg::from_bits(it[0].number() as u32), inst(&it[1]), inst(&it[2]), it[3].number() as u32)
    });
    let env = f.of("machine_env");
    let machine = MachineEnv {
        preferred_regs_by_class: three(env.of("preferred_regs_by_class").each(regs)),
        non_preferred_regs_by_class: three(env.of("non_preferred_regs_by_class").each(regs)),
        scratch_by_class: three(env.of("scratch_by_class").each(|it| match it {
            Value::Number(index) => Some(PReg::from_index(*index as usize)),
            _ => None,
        })),
        fixed_stack_slots: env.of("fixed_stack_slots").each(|reg| PReg::from_index(number(reg))),
    };
    (code, machine)
}
