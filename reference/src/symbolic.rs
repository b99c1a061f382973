//! Symbolic mode.
//!
//! A path is a small machine: a stack of steps still to do and a stack of values. A fork copies the
//! path; the copy waits until the path that went on has wholly ended.

use crate::script::{kind, Refusal, Script};
use crate::sum::{Sum, Symbol};
use crate::truth::{Condition, TruthId, Truths};
use crate::typed;
use crate::types::{content_of, reference_to, TRUTH, WORD};
use std::rc::Rc;

/// "a `sym` needs a 65th path" is refused.
const MAX_PATHS: u32 = 64;

/// How a reference's symbol came to the path.
#[derive(Clone, Copy)]
enum Origin {
    /// A `ref` of this path made it.
    Ref,
    /// It "stood for a variable when the path began".
    Variable,
    /// A `get` or a typed block made it.
    Other,
}

/// A reference is always a symbol.
#[derive(Clone, Copy)]
struct Reference {
    symbol: Symbol,
    /// The code of the reference's own type.
    code: u32,
    origin: Origin,
}

impl Reference {
    /// "two different `ref` symbols of this path", and by request U1 a `ref` symbol and "each
    /// symbol that stood for a variable when the path began".
    fn is_certainly_different(&self, other: &Reference) -> bool {
        match (self.origin, other.origin) {
            (Origin::Ref, Origin::Ref) => self.symbol != other.symbol,
            (Origin::Ref, Origin::Variable) | (Origin::Variable, Origin::Ref) => true,
            _ => false,
        }
    }
}

/// A typed symbolic value.
#[derive(Clone)]
enum Value {
    Word(Rc<Sum>),
    Truth(TruthId),
    Reference(Reference),
}

impl Value {
    /// The code of the value's type.
    fn code(&self) -> u32 {
        match self {
            Value::Word(_) => WORD,
            Value::Truth(_) => TRUTH,
            Value::Reference(reference) => reference.code,
        }
    }
}

/// One line of the log.
#[derive(Clone)]
struct Write {
    through: Reference,
    value: Value,
}

impl Write {
    /// Whether the value has the type that the reference refers to.
    fn has_right_type(&self) -> bool {
        content_of(self.through.code) == Some(self.value.code())
    }
}

/// What a path has still to do, each with the node it belongs to.
#[derive(Clone, Copy)]
enum Step {
    /// Evaluate a node and leave its value.
    Enter(u32),
    /// All operands of the node have left their values: apply the node's own rule.
    Apply(u32),
    /// The condition of this `if` has left its value.
    Choose(u32),
    /// The first operand of a `let` has left its value: bind it.
    Bind,
    /// The second operand of a `let` is done: forget the binding.
    Unbind,
}

/// A path: environment, condition, log, and where it stands.
#[derive(Clone)]
struct Path {
    environment: Vec<Value>,
    condition: Condition,
    log: Vec<Write>,
    truths: Truths,
    next_symbol: Symbol,
    steps: Vec<Step>,
    values: Vec<Value>,
}

/// The type of a `sym` node met in typed mode, under the types of the environment.
///
/// "Paths run in order, each wholly before the next." 11 is "given before it is followed": after the
/// 64th path has passed its own end.
pub(crate) fn block_type(script: &Script, sym: u32, types: &[u32]) -> Result<u32, Refusal> {
    let mut waiting = Vec::new();
    let start = Path::start(script.node(sym).operands[0], types);
    let first = type_at_end(start, script, sym, &mut waiting)?;
    let mut ended = 1;
    while let Some(path) = waiting.pop() {
        if ended == MAX_PATHS {
            return Err(Refusal::at(11, sym));
        }
        if type_at_end(path, script, sym, &mut waiting)? != first {
            return Err(Refusal::at(10, sym));
        }
        ended += 1;
    }
    Ok(first)
}

/// Follows a path to its end and gives its type: "at its end a path needs a consistent log".
fn type_at_end(
    mut path: Path,
    script: &Script,
    sym: u32,
    waiting: &mut Vec<Path>,
) -> Result<u32, Refusal> {
    while let Some(step) = path.steps.pop() {
        path.take(step, script, waiting)?;
    }
    if !path.log_is_consistent() {
        return Err(Refusal::at(9, sym));
    }
    Ok(path.pop().code())
}

impl Path {
    /// "At `sym` in typed mode each variable is a fresh symbol of its type."
    fn start(node: u32, types: &[u32]) -> Path {
        let mut path = Path {
            environment: Vec::with_capacity(types.len()),
            condition: Condition::at_first(),
            log: Vec::new(),
            truths: Truths::default(),
            next_symbol: 0,
            steps: vec![Step::Enter(node)],
            values: Vec::new(),
        };
        for code in types {
            let variable = path.fresh(*code, Origin::Variable);
            path.environment.push(variable);
        }
        path
    }

    fn fresh_symbol(&mut self) -> Symbol {
        self.next_symbol += 1;
        self.next_symbol - 1
    }

    /// A fresh symbol of a type; the origin is that of a reference.
    fn fresh(&mut self, code: u32, origin: Origin) -> Value {
        let symbol = self.fresh_symbol();
        match code {
            WORD => Value::Word(Rc::new(Sum::symbol(symbol))),
            TRUTH => Value::Truth(self.truths.symbol(symbol)),
            _ => Value::Reference(Reference {
                symbol,
                code,
                origin,
            }),
        }
    }

    /// Takes the newest value. Every step leaves the values that the later ones take.
    fn pop(&mut self) -> Value {
        self.values.pop().expect("an operand leaves its value")
    }

    fn take(
        &mut self,
        step: Step,
        script: &Script,
        waiting: &mut Vec<Path>,
    ) -> Result<(), Refusal> {
        match step {
            Step::Enter(number) => self.enter(number, script),
            Step::Apply(number) => {
                let value = self.apply(number, script.node(number).kind)?;
                self.values.push(value);
                Ok(())
            }
            Step::Choose(number) => self.choose(number, script, waiting),
            Step::Bind => {
                let value = self.pop();
                self.environment.push(value);
                Ok(())
            }
            Step::Unbind => {
                self.environment.pop();
                Ok(())
            }
        }
    }

    /// Leaves the value of a node without operands to evaluate, or plans the node's steps; the plan
    /// is pushed last step first.
    fn enter(&mut self, number: u32, script: &Script) -> Result<(), Refusal> {
        let node = script.node(number);
        let [a, b, _] = node.operands;
        match node.kind {
            kind::INT => self.values.push(Value::Word(Rc::new(Sum::constant(a)))),
            kind::TRUE | kind::FALSE => {
                let truth = self.truths.constant(node.kind == kind::TRUE);
                self.values.push(Value::Truth(truth));
            }
            kind::VAR => {
                let value = self.environment.get(a as usize).cloned();
                self.values.push(value.ok_or(Refusal::at(7, number))?);
            }
            kind::IF => self.steps.extend([Step::Choose(number), Step::Enter(a)]),
            kind::LET => {
                let plan = [Step::Unbind, Step::Enter(b), Step::Bind, Step::Enter(a)];
                self.steps.extend(plan);
            }
            kind::TYPED => {
                let value = self.typed_block(number, a, script)?;
                self.values.push(value);
            }
            // "`sym` in symbolic mode is its operand."
            kind::SYM => self.steps.push(Step::Enter(a)),
            _ => {
                self.steps.push(Step::Apply(number));
                let operands = node.children().iter().rev();
                self.steps.extend(operands.map(|child| Step::Enter(*child)));
            }
        }
        Ok(())
    }

    /// The value of a node whose operands have left their values.
    fn apply(&mut self, number: u32, kind: u32) -> Result<Value, Refusal> {
        let last = self.pop();
        match kind {
            kind::NOT => self.not(last),
            kind::REF => return self.make_cell(number, last),
            kind::GET => return self.get(number, last),
            kind::ADD => add(self.pop(), last),
            kind::EQ => self.equal(last),
            kind::AND => self.and(last),
            _ => self.set(last),
        }
        .ok_or(Refusal::at(6, number))
    }

    fn not(&mut self, operand: Value) -> Option<Value> {
        match operand {
            Value::Truth(a) => Some(Value::Truth(self.truths.not(a))),
            _ => None,
        }
    }

    fn and(&mut self, right: Value) -> Option<Value> {
        match (self.pop(), right) {
            (Value::Truth(a), Value::Truth(b)) => Some(Value::Truth(self.truths.and(a, b))),
            _ => None,
        }
    }

    fn equal(&mut self, right: Value) -> Option<Value> {
        let truth = match (self.pop(), right) {
            (Value::Word(a), Value::Word(b)) => self.truths.equal_words(&a, &b),
            (Value::Truth(a), Value::Truth(b)) => self.truths.equal_truths(a, b),
            (Value::Reference(a), Value::Reference(b)) if a.code == b.code => {
                self.equal_references(a, b)
            }
            _ => return None,
        };
        Some(Value::Truth(truth))
    }

    /// "the same symbol is true", two that are certainly different are "false, else the unordered
    /// pair is an atom".
    fn equal_references(&mut self, a: Reference, b: Reference) -> TruthId {
        if a.symbol == b.symbol {
            self.truths.constant(true)
        } else if a.is_certainly_different(&b) {
            self.truths.constant(false)
        } else {
            self.truths.same_references(a.symbol, b.symbol)
        }
    }

    /// "`ref` makes a fresh symbol and logs its value."
    fn make_cell(&mut self, number: u32, value: Value) -> Result<Value, Refusal> {
        let code = reference_to(value.code()).ok_or(Refusal::at(8, number))?;
        let through = Reference {
            symbol: self.fresh_symbol(),
            code,
            origin: Origin::Ref,
        };
        self.log.push(Write { through, value });
        Ok(Value::Reference(through))
    }

    /// "`get` needs a reference"; what it finds in the log is the answer. By request U2 "where it
    /// finds none, the log must be consistent", and the answer is a fresh symbol.
    fn get(&mut self, number: u32, operand: Value) -> Result<Value, Refusal> {
        let Value::Reference(reference) = operand else {
            return Err(Refusal::at(6, number));
        };
        if let Some(value) = self.found(&reference) {
            return Ok(value.clone());
        }
        if !self.log_is_consistent() {
            return Err(Refusal::at(9, number));
        }
        Ok(self.fresh(reference.code - 2, Origin::Other))
    }

    /// "Seen from the newest, writes through certainly different" symbols "are passed over; if the
    /// next one is through the same symbol its value is the answer", with "the value's own type".
    fn found(&self, reference: &Reference) -> Option<&Value> {
        let mut newest_first = self.log.iter().rev();
        let next = newest_first.find(|write| !write.through.is_certainly_different(reference))?;
        (next.through.symbol == reference.symbol).then_some(&next.value)
    }

    /// "`set` needs a reference and logs any value, of any type; its own value is the stored one".
    fn set(&mut self, value: Value) -> Option<Value> {
        let Value::Reference(through) = self.pop() else {
            return None;
        };
        self.log.push(Write {
            through,
            value: value.clone(),
        });
        Some(value)
    }

    /// "The log is consistent if each write of a wrong type is followed by a write of the right type
    /// through the same symbol."
    fn log_is_consistent(&self) -> bool {
        self.log.iter().enumerate().all(|(index, write)| {
            write.has_right_type()
                || self.log[index + 1..].iter().any(|later| {
                    later.through.symbol == write.through.symbol && later.has_right_type()
                })
        })
    }

    /// A typed block: its operand by the typed rules "with the types of the environment", then the
    /// look at the log; "after it the log is empty and the value a fresh symbol".
    fn typed_block(
        &mut self,
        number: u32,
        operand: u32,
        script: &Script,
    ) -> Result<Value, Refusal> {
        let mut types = self.environment.iter().map(Value::code).collect();
        let code = typed::type_of(script, operand, &mut types)?;
        if !self.log_is_consistent() {
            return Err(Refusal::at(9, number));
        }
        self.log.clear();
        Ok(self.fresh(code, Origin::Other))
    }

    /// "An `if` is tested right after its condition, 6 first", then 12. The true branch goes on, the
    /// false one waits if both are possible.
    fn choose(
        &mut self,
        number: u32,
        script: &Script,
        waiting: &mut Vec<Path>,
    ) -> Result<(), Refusal> {
        let Value::Truth(part) = self.pop() else {
            return Err(Refusal::at(6, number));
        };
        let (when_true, when_false) = self
            .condition
            .split(&self.truths, part)
            .ok_or(Refusal::at(12, number))?;
        let [_, true_branch, false_branch] = script.node(number).operands;
        if !when_true.is_satisfiable() {
            self.branch(when_false, false_branch);
            return Ok(());
        }
        if when_false.is_satisfiable() {
            let mut other = self.clone();
            other.branch(when_false, false_branch);
            waiting.push(other);
        }
        self.branch(when_true, true_branch);
        Ok(())
    }

    fn branch(&mut self, condition: Condition, node: u32) {
        self.condition = condition;
        self.steps.push(Step::Enter(node));
    }
}

/// The sum of two words.
fn add(left: Value, right: Value) -> Option<Value> {
    match (left, right) {
        (Value::Word(a), Value::Word(b)) => Some(Value::Word(Rc::new(a.plus(&b)))),
        _ => None,
    }
}
