//! Script text: reading and writing.

use crate::script::{largest_operand, Node, Refusal, Script, MAX_ENTRIES, MAX_NODES, WORDS};
use crate::types::{code_of_name, type_name};

/// "A text has at most 8,192 bytes."
const MAX_TEXT: usize = 8192;
/// The word of an entry line.
const ENTRY: &str = "entry";

/// What one line says.
enum Line {
    Entry(u32),
    Node(Node),
}

/// Reads a script text: 31, "then in text 1, 2, 4 line by line in that order, then 3, 5 (lowest
/// node), 13 (lowest node)".
pub fn read(text: &[u8]) -> Result<Script, Refusal> {
    if text.len() > MAX_TEXT {
        return Err(Refusal::nowhere(31));
    }
    let mut script = Script {
        entries: Vec::new(),
        nodes: Vec::new(),
    };
    let lines = text.split_inclusive(|byte| *byte == b'\n');
    for (number, line) in lines.enumerate() {
        take_line(&mut script, line).map_err(|refused| Refusal::at(refused, number as u32))?;
    }
    script.test_tree()?;
    Ok(script)
}

/// Adds one line, its LF included, to the script, or gives the number of its refusal: 1, then 2,
/// then 4.
fn take_line(script: &mut Script, line: &[u8]) -> Result<(), u8> {
    match parse_line(line).ok_or(1)? {
        Line::Entry(code) => {
            if !script.nodes.is_empty() {
                return Err(1);
            }
            if script.entries.len() == MAX_ENTRIES {
                return Err(2);
            }
            script.entries.push(code);
        }
        Line::Node(node) => {
            if script.nodes.len() == MAX_NODES {
                return Err(2);
            }
            if !node.has_earlier_children(script.nodes.len()) {
                return Err(4);
            }
            script.nodes.push(node);
        }
    }
    Ok(())
}

/// Parses one line by its form and its numbers' ranges. "Lines end in LF, the last one too."
fn parse_line(line: &[u8]) -> Option<Line> {
    let line = line.strip_suffix(b"\n")?;
    let mut fields = line.split(|byte| *byte == b'\t');
    let word = fields.next()?;
    let parsed = if word == ENTRY.as_bytes() {
        Line::Entry(code_of_name(fields.next()?)?)
    } else {
        Line::Node(parse_node(word, &mut fields)?)
    };
    fields.next().is_none().then_some(parsed)
}

/// Parses a node line's word and takes as many further fields as the word has operands.
fn parse_node<'a>(word: &[u8], fields: &mut impl Iterator<Item = &'a [u8]>) -> Option<Node> {
    let kind = WORDS.iter().position(|row| row.name.as_bytes() == word)?;
    let largest = largest_operand(kind as u32);
    let mut operands = [0; 3];
    for operand in operands.iter_mut().take(WORDS[kind].operands) {
        *operand = parse_number(fields.next()?).filter(|number| *number <= largest)?;
    }
    Some(Node {
        kind: kind as u32,
        operands,
    })
}

/// "Numbers are decimal without leading zeros; 0 is one digit." None above 32 bits too.
fn parse_number(field: &[u8]) -> Option<u32> {
    if field.is_empty() || (field[0] == b'0' && field.len() > 1) {
        return None;
    }
    field.iter().try_fold(0u32, |number, byte| {
        let digit = byte.is_ascii_digit().then(|| u32::from(byte - b'0'))?;
        number.checked_mul(10)?.checked_add(digit)
    })
}

/// Writes a script's one spelling. A record whose kind has no word, which [`read`] never gives, is
/// left out.
pub fn write(script: &Script) -> Vec<u8> {
    let mut text = String::new();
    for code in &script.entries {
        text.push_str(&format!("{ENTRY}\t{}\n", type_name(*code)));
    }
    for node in &script.nodes {
        let Some(word) = WORDS.get(node.kind as usize) else {
            continue;
        };
        text.push_str(word.name);
        for operand in &node.operands[..word.operands] {
            text.push_str(&format!("\t{operand}"));
        }
        text.push('\n');
    }
    text.into_bytes()
}
