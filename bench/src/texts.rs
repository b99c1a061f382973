//! The verified reader, writer and test 5 by themselves, from `libtiming.a`, beside the reference's
//! reader and writer. Test 5: each node but the last is used exactly once.

use reference::Script;
use std::hint::black_box;

/// Whether `libtiming.a` was there when this was built.
pub const LINKED: bool = cfg!(timing);

#[cfg(timing)]
extern "C" {
    fn timing_read(
        text: *const u8,
        text_len: usize,
        table: *mut u32,
        table_len: usize,
        entries: *mut u32,
        entries_len: usize,
    ) -> u64;
    fn timing_uses(table: *const u32, table_len: usize, nodes: usize) -> u64;
    fn timing_write(
        table: *const u32,
        table_len: usize,
        nodes: usize,
        entries: *const u32,
        entries_len: usize,
        entry_count: usize,
        out: *mut u8,
        out_len: usize,
    ) -> u64;
}

/// How many numbers a node has in a table.
const WIDTH: usize = 4;

/// The script of a text that can be read.
fn script(text: &[u8]) -> Script {
    reference::read(text).expect("a text that can be read")
}

/// A script's nodes, four numbers each.
fn flat(script: &Script) -> Vec<u32> {
    let nodes = script.nodes.iter();
    nodes
        .flat_map(|node| [&[node.kind], &node.operands[..]].concat())
        .collect()
}

/// What is lent to the reader, and may be lent again for the next text.
pub struct Room {
    table: [u32; 512],
    entries: [u32; 16],
}

impl Default for Room {
    fn default() -> Room {
        Room {
            table: [0; 512],
            entries: [0; 16],
        }
    }
}

impl Room {
    /// How many nodes the library reads in a text.
    pub fn read_by_library(&mut self, text: &[u8]) -> u64 {
        let text = black_box(text);
        let (table, entries) = (&mut self.table, &mut self.entries);
        #[cfg(timing)]
        // SAFETY: pointers and lengths of live slices, each lent alone.
        return unsafe {
            timing_read(
                text.as_ptr(),
                text.len(),
                table.as_mut_ptr(),
                table.len(),
                entries.as_mut_ptr(),
                entries.len(),
            )
        };
        #[cfg(not(timing))]
        unreachable!("not linked: {text:?}, {table:?}, {entries:?}")
    }
}

/// How many nodes the reference reads in a text.
pub fn read_by_reference(text: &[u8]) -> u64 {
    let script = reference::read(black_box(text));
    black_box(&script)
        .as_ref()
        .map_or(0, |script| script.nodes.len() as u64)
}

/// A table of nodes, of which all are lent.
pub struct Nodes {
    table: Vec<u32>,
}

impl Nodes {
    /// The nodes of a text that can be read.
    pub fn new(text: &[u8]) -> Nodes {
        Nodes {
            table: flat(&script(text)),
        }
    }

    /// The lowest node but the last that the library finds not used exactly once, plus 1; 0 for none.
    pub fn uses_by_library(&self) -> u64 {
        let table = black_box(&self.table[..]);
        let nodes = table.len() / WIDTH;
        #[cfg(timing)]
        // SAFETY: pointer and length of a live slice.
        return unsafe { timing_uses(table.as_ptr(), table.len(), nodes) };
        #[cfg(not(timing))]
        unreachable!("not linked: {table:?}, {nodes}")
    }
}

/// A script in the form that each writer takes it in, and what is lent for it.
pub struct Lent {
    script: Script,
    table: [u32; 512],
    entries: [u32; 16],
    out: [u8; 8192],
}

impl Lent {
    /// The forms of a text that can be read.
    pub fn new(text: &[u8]) -> Lent {
        let script = script(text);
        let mut lent = Lent {
            table: [0; 512],
            entries: [0; 16],
            out: [0; 8192],
            script,
        };
        let table = flat(&lent.script);
        lent.table[..table.len()].copy_from_slice(&table);
        lent.entries[..lent.script.entries.len()].copy_from_slice(&lent.script.entries);
        lent
    }

    /// The length of the text that the library writes.
    pub fn write_by_library(&mut self) -> u64 {
        let (table, entries) = (black_box(&self.table), &self.entries);
        let (nodes, count) = (self.script.nodes.len(), self.script.entries.len());
        let out = &mut self.out;
        #[cfg(timing)]
        // SAFETY: pointers and lengths of live slices; `out` is lent alone.
        return unsafe {
            timing_write(
                table.as_ptr(),
                table.len(),
                nodes,
                entries.as_ptr(),
                entries.len(),
                count,
                out.as_mut_ptr(),
                out.len(),
            )
        };
        #[cfg(not(timing))]
        unreachable!("not linked: {table:?}, {nodes}, {entries:?}, {count}, {out:?}")
    }

    /// The length of the text that the reference writes.
    pub fn write_by_reference(&mut self) -> u64 {
        black_box(reference::write(black_box(&self.script))).len() as u64
    }
}

#[cfg(all(test, timing))]
mod tests {
    use super::*;
    use crate::short::short_scripts;
    use conformance::random::Random;
    use conformance::spelling::spelled;
    use conformance::tree::{NOT, WORDS};
    use reference::Refusal;

    #[test]
    fn what_is_written_is_what_was_read() {
        let text = spelled("b i", "(sym (if v0 (add v1 4294967295) 2))").text;
        let (mut room, mut lent) = (Room::default(), Lent::new(&text));
        assert_eq!(room.read_by_library(&text), 7);
        assert_eq!(room.table[..28], lent.table[..28]);
        assert_eq!(lent.write_by_library(), text.len() as u64);
        assert_eq!(lent.out[..text.len()], text);
    }

    #[test]
    fn right_scripts_pass_test_5() {
        let alone = spelled("", "true").text;
        for text in [alone].into_iter().chain(short_scripts()) {
            assert_eq!(Nodes::new(&text).uses_by_library(), 0, "{text:?}");
        }
    }

    #[test]
    fn the_lowest_wrong_node_is_found() {
        let text = spelled("i", "(add v0 (add v0 1))").text;
        let changed = |node: usize, place: usize, number: u32| {
            let mut nodes = Nodes::new(&text);
            nodes.table[WIDTH * node + place] = number;
            nodes.uses_by_library()
        };
        assert_eq!(changed(4, 1, 3), 1, "0 is not used, 3 is used twice");
        assert_eq!(changed(4, 2, 0), 1, "0 is used twice in one node");
        assert_eq!(changed(3, 2, 1), 2, "1 is used twice, 2 is not");
        assert_eq!(changed(4, 2, 2), 3, "2 is used in two nodes, 3 is not");
        assert_eq!(changed(4, 0, NOT), 4, "3 is not used");
    }

    /// Each operand of each short script names some other node.
    #[test]
    fn test_5_is_that_of_the_reference() {
        let mut random = Random::new(5, 5);
        for text in short_scripts() {
            let right = script(&text);
            for (node, row) in right.nodes.iter().enumerate() {
                for place in 0..WORDS[row.kind as usize].1 {
                    let mut wrong = right.clone();
                    wrong.nodes[node].operands[place] = random.below(node) as u32;
                    let expected = match reference::check(&wrong) {
                        Err(Refusal {
                            number: 5,
                            place: Some(lowest),
                        }) => u64::from(lowest) + 1,
                        _ => 0,
                    };
                    let table = flat(&wrong);
                    assert_eq!(Nodes { table }.uses_by_library(), expected, "{wrong:?}");
                }
            }
        }
    }
}
