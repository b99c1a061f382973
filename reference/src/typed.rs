//! Typed mode.

use crate::script::{kind, Refusal, Script};
use crate::symbolic;
use crate::types::{content_of, reference_to, TRUTH, WORD};

/// The type of a node under the types of its environment. Operands come before their node, from
/// left to right; the environment is handed back as it was, unless there is a refusal.
pub(crate) fn type_of(script: &Script, number: u32, types: &mut Vec<u32>) -> Result<u32, Refusal> {
    let node = script.node(number);
    let [a, b, c] = node.operands;
    let mut operand = |operand: u32| type_of(script, operand, types);
    let wrong_type = Err(Refusal::at(6, number));
    match node.kind {
        kind::INT => Ok(WORD),
        kind::TRUE | kind::FALSE => Ok(TRUTH),
        kind::VAR => types.get(a as usize).copied().ok_or(Refusal::at(7, number)),
        kind::ADD => match (operand(a)?, operand(b)?) {
            (WORD, WORD) => Ok(WORD),
            _ => wrong_type,
        },
        kind::EQ => match (operand(a)?, operand(b)?) {
            (left, right) if left == right => Ok(TRUTH),
            _ => wrong_type,
        },
        kind::NOT => match operand(a)? {
            TRUTH => Ok(TRUTH),
            _ => wrong_type,
        },
        kind::AND => match (operand(a)?, operand(b)?) {
            (TRUTH, TRUTH) => Ok(TRUTH),
            _ => wrong_type,
        },
        // "Here the 6 of an `if` comes after all three operands."
        kind::IF => match (operand(a)?, operand(b)?, operand(c)?) {
            (TRUTH, left, right) if left == right => Ok(left),
            _ => wrong_type,
        },
        kind::LET => {
            let bound = operand(a)?;
            types.push(bound);
            let body = type_of(script, b, types)?;
            types.pop();
            Ok(body)
        }
        kind::REF => reference_to(operand(a)?).ok_or(Refusal::at(8, number)),
        kind::GET => content_of(operand(a)?).ok_or(Refusal::at(6, number)),
        kind::SET => match (operand(a)?, operand(b)?) {
            (reference, value) if content_of(reference) == Some(value) => Ok(value),
            _ => wrong_type,
        },
        kind::TYPED => operand(a),
        _ => symbolic::block_type(script, number, types),
    }
}
