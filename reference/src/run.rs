//! Evaluation.

use crate::script::{kind, Refusal, Script};

/// "An entry value or cell is 5 bytes: its kind, then 32 bits, low byte first."
const CELL: usize = 5;
/// "35 more than 64 used cells or fewer than 192 lent".
const MAX_USED: u32 = 64;
/// See [`MAX_USED`].
const MIN_LENT: usize = 192;

/// What a run comes to.
#[derive(Clone, Copy, PartialEq, Eq, Debug)]
pub enum Outcome {
    /// The root's value.
    Value {
        /// 0 word, 1 truth, 2 location.
        kind: u8,
        /// The value's 32 bits.
        bits: u32,
        /// The used count after the run.
        used: u32,
    },
    /// The error state.
    Error {
        /// The node that gave it.
        node: u32,
        /// The used count then.
        used: u32,
    },
}

/// A value of the evaluation.
#[derive(Clone, Copy, PartialEq, Eq)]
enum Value {
    Word(u32),
    Truth(bool),
    Location(u32),
}

impl Value {
    /// The kind's number and the 32 bits.
    fn parts(self) -> (u8, u32) {
        match self {
            Value::Word(bits) => (0, bits),
            Value::Truth(truth) => (1, u32::from(truth)),
            Value::Location(bits) => (2, bits),
        }
    }

    /// The value in 5 bytes; none if the kind is above 2 or a truth above 1.
    fn from_bytes(bytes: &[u8]) -> Option<Value> {
        let [kind, low @ ..] = <[u8; CELL]>::try_from(bytes).ok()?;
        let bits = u32::from_le_bytes(low);
        match (kind, bits) {
            (0, _) => Some(Value::Word(bits)),
            (1, 0 | 1) => Some(Value::Truth(bits == 1)),
            (2, _) => Some(Value::Location(bits)),
            _ => None,
        }
    }

    /// The value as 5 bytes.
    fn to_bytes(self) -> [u8; CELL] {
        let (kind, bits) = self.parts();
        let [a, b, c, d] = bits.to_le_bytes();
        [kind, a, b, c, d]
    }
}

/// Runs a script on entry values and lent cells, of which the first `used` are in use.
///
/// Refusals: 35, then 34; they change nothing. A script that did not come from [`crate::read`] gets
/// the table's own refusals before. A run changes used cells and adds cells only; after the error
/// state the cells are as they were then.
pub fn run(
    script: &Script,
    values: &[u8],
    cells: &mut [u8],
    used: u32,
) -> Result<Outcome, Refusal> {
    script.test()?;
    run_tested(script, values, cells, used)
}

/// The same of a script that passes the table's tests, as every script from [`crate::read`] does.
pub(crate) fn run_tested(
    script: &Script,
    values: &[u8],
    cells: &mut [u8],
    used: u32,
) -> Result<Outcome, Refusal> {
    if used > MAX_USED || cells.len() / CELL < MIN_LENT {
        return Err(Refusal::nowhere(35));
    }
    let environment = read_values(script, values, cells, used).ok_or(Refusal::nowhere(34))?;
    let mut machine = Machine {
        script,
        environment,
        cells,
        used,
    };
    let result = machine.evaluate(script.root());
    let used = machine.used;
    Ok(match result {
        Ok(value) => {
            let (kind, bits) = value.parts();
            Outcome::Value { kind, bits, used }
        }
        Err(node) => Outcome::Error { node, used },
    })
}

/// The entry values, unless 34 holds of them or of the cells. "Bytes not a multiple of 5" is taken
/// of both byte slices.
fn read_values(script: &Script, values: &[u8], cells: &[u8], used: u32) -> Option<Vec<Value>> {
    if values.len() != script.entries.len() * CELL || !cells.len().is_multiple_of(CELL) {
        return None;
    }
    let sound = |bytes: &[u8]| match Value::from_bytes(bytes)? {
        Value::Location(location) if location >= used => None,
        value => Some(value),
    };
    let used_cells = &cells[..used as usize * CELL];
    if used_cells.chunks(CELL).any(|cell| sound(cell).is_none()) {
        return None;
    }
    values.chunks(CELL).map(sound).collect()
}

/// The state of a run.
struct Machine<'a> {
    script: &'a Script,
    environment: Vec<Value>,
    cells: &'a mut [u8],
    used: u32,
}

impl Machine<'_> {
    /// The value of a node, or the number of the node that gave the error state. "Operands left to
    /// right; `and` evaluates both."
    fn evaluate(&mut self, number: u32) -> Result<Value, u32> {
        let node = self.script.node(number);
        let [a, b, c] = node.operands;
        match node.kind {
            kind::INT => Ok(Value::Word(a)),
            kind::TRUE => Ok(Value::Truth(true)),
            kind::FALSE => Ok(Value::Truth(false)),
            kind::VAR => self.environment.get(a as usize).copied().ok_or(number),
            kind::ADD => match (self.evaluate(a)?, self.evaluate(b)?) {
                (Value::Word(left), Value::Word(right)) => {
                    Ok(Value::Word(left.wrapping_add(right)))
                }
                _ => Err(number),
            },
            kind::EQ => equal(self.evaluate(a)?, self.evaluate(b)?).ok_or(number),
            kind::NOT => match self.evaluate(a)? {
                Value::Truth(truth) => Ok(Value::Truth(!truth)),
                _ => Err(number),
            },
            kind::AND => match (self.evaluate(a)?, self.evaluate(b)?) {
                (Value::Truth(left), Value::Truth(right)) => Ok(Value::Truth(left && right)),
                _ => Err(number),
            },
            kind::IF => match self.evaluate(a)? {
                Value::Truth(true) => self.evaluate(b),
                Value::Truth(false) => self.evaluate(c),
                _ => Err(number),
            },
            kind::LET => {
                let bound = self.evaluate(a)?;
                self.environment.push(bound);
                let body = self.evaluate(b)?;
                self.environment.pop();
                Ok(body)
            }
            kind::REF => {
                let value = self.evaluate(a)?;
                let location = self.used;
                self.used += 1;
                self.store(Value::Location(location), value).ok_or(number)?;
                Ok(Value::Location(location))
            }
            kind::GET => {
                let location = self.evaluate(a)?;
                let cell = self.cell(location).ok_or(number)?;
                Value::from_bytes(cell).ok_or(number)
            }
            kind::SET => {
                let location = self.evaluate(a)?;
                let value = self.evaluate(b)?;
                self.store(location, value).ok_or(number)
            }
            // "Blocks have no effect."
            _ => self.evaluate(a),
        }
    }

    /// The bytes of the cell that a value names, if it is a location among the used cells. The lent
    /// cells hold the 64 that may be used before the run and one for each `ref`.
    fn cell(&mut self, value: Value) -> Option<&mut [u8]> {
        match value {
            Value::Location(location) if location < self.used => {
                let start = location as usize * CELL;
                self.cells.get_mut(start..start + CELL)
            }
            _ => None,
        }
    }

    /// Stores a value and gives it back.
    fn store(&mut self, location: Value, value: Value) -> Option<Value> {
        self.cell(location)?.copy_from_slice(&value.to_bytes());
        Some(value)
    }
}

/// "`eq` compares two values of one kind (word, truth, location)."
fn equal(left: Value, right: Value) -> Option<Value> {
    let one_kind = left.parts().0 == right.parts().0;
    one_kind.then_some(Value::Truth(left == right))
}
