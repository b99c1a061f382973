//! Random scripts: no input makes a call panic, writing undoes reading, and an accepted script runs
//! without the error state to a value of its type (demand 3, on samples).

use reference::{check, check_line, read, run, write, Node, Outcome, Script};

/// A small generator of pseudo-random numbers (xorshift).
struct Random(u64);

impl Random {
    fn below(&mut self, bound: u32) -> u32 {
        self.0 ^= self.0 << 13;
        self.0 ^= self.0 >> 7;
        self.0 ^= self.0 << 17;
        ((self.0 >> 32) % u64::from(bound)) as u32
    }
}

/// Makes mostly well-typed trees.
struct Maker<'a> {
    random: &'a mut Random,
    nodes: Vec<Node>,
}

impl Maker<'_> {
    fn push(&mut self, kind: u32, operands: [u32; 3]) -> u32 {
        self.nodes.push(Node { kind, operands });
        self.nodes.len() as u32 - 1
    }

    fn leaf(&mut self, code: u32, types: &[u32]) -> u32 {
        let fitting: Vec<usize> = (0..types.len()).filter(|k| types[*k] == code).collect();
        if !fitting.is_empty() && self.random.below(4) != 0 {
            let chosen = fitting[self.random.below(fitting.len() as u32) as usize];
            return self.push(3, [chosen as u32, 0, 0]);
        }
        match code {
            0 => {
                let number = self.random.below(3);
                self.push(0, [number, 0, 0])
            }
            1 => {
                let kind = 1 + self.random.below(2);
                self.push(kind, [0; 3])
            }
            _ => {
                let content = self.leaf(code - 2, types);
                self.push(10, [content, 0, 0])
            }
        }
    }

    /// A tree that is meant to have this type, of at most this depth.
    fn tree(&mut self, code: u32, types: &mut Vec<u32>, depth: u32) -> u32 {
        let code = match self.random.below(40) {
            0 => self.random.below(4),
            _ => code,
        };
        if depth == 0 {
            return self.leaf(code, types);
        }
        let depth = depth - 1;
        match self.random.below(12) {
            0 | 1 => {
                let bound = self.random.below(5);
                let a = self.tree(bound, types, depth);
                types.push(bound);
                let b = self.tree(code, types, depth);
                types.pop();
                self.push(9, [a, b, 0])
            }
            2 | 3 => {
                let a = self.tree(1, types, depth);
                let b = self.tree(code, types, depth);
                let c = self.tree(code, types, depth);
                self.push(8, [a, b, c])
            }
            4 => {
                let a = self.tree(code, types, depth);
                self.push(13, [a, 0, 0])
            }
            5 => {
                let a = self.tree(code, types, depth);
                self.push(14, [a, 0, 0])
            }
            6 if code < 6 => {
                let a = self.tree(code + 2, types, depth);
                self.push(11, [a, 0, 0])
            }
            7 | 8 if code < 6 => {
                let target = match self.random.below(3) {
                    0 => 2 + self.random.below(4),
                    _ => code + 2,
                };
                let a = self.tree(target, types, depth);
                let b = self.tree(code, types, depth);
                self.push(12, [a, b, 0])
            }
            _ => self.operation(code, types, depth),
        }
    }

    fn operation(&mut self, code: u32, types: &mut Vec<u32>, depth: u32) -> u32 {
        match (code, self.random.below(3)) {
            (0, _) => {
                let a = self.tree(0, types, depth);
                let b = self.tree(0, types, depth);
                self.push(4, [a, b, 0])
            }
            (1, 0) => {
                let a = self.tree(1, types, depth);
                self.push(6, [a, 0, 0])
            }
            (1, 1) => {
                let a = self.tree(1, types, depth);
                let b = self.tree(1, types, depth);
                self.push(7, [a, b, 0])
            }
            (1, _) => {
                let side = self.random.below(4);
                let a = self.tree(side, types, depth);
                let b = self.tree(side, types, depth);
                self.push(5, [a, b, 0])
            }
            _ => {
                let a = self.tree(code - 2, types, depth);
                self.push(10, [a, 0, 0])
            }
        }
    }
}

/// The cells that every sample run starts with, of the types i, b, ri, rb, i, ri.
const CELLS: [[u8; 5]; 6] = [
    [0, 1, 0, 0, 0],
    [1, 0, 0, 0, 0],
    [2, 0, 0, 0, 0],
    [2, 1, 0, 0, 0],
    [0, 2, 0, 0, 0],
    [2, 4, 0, 0, 0],
];

/// An entry value that has the type under the cells' types.
fn entry_value(random: &mut Random, code: u32) -> [u8; 5] {
    let bits = match code {
        0 => random.below(3),
        1 => random.below(2),
        2 => [0, 4][random.below(2) as usize],
        3 => 1,
        4 => [2, 5][random.below(2) as usize],
        _ => 3,
    };
    [code.min(2) as u8, bits as u8, 0, 0, 0]
}

/// Whether a value has the type, its cells followed.
fn fits(kind: u8, bits: u32, code: u32, cells: &[u8], used: u32) -> bool {
    match code {
        0 | 1 => u32::from(kind) == code,
        _ => {
            kind == 2 && bits < used && {
                let cell = &cells[bits as usize * 5..bits as usize * 5 + 5];
                let bits = u32::from_le_bytes([cell[1], cell[2], cell[3], cell[4]]);
                fits(cell[0], bits, code - 2, cells, used)
            }
        }
    }
}

#[test]
fn accepted_scripts_run_well() {
    let mut random = Random(0x9E37_79B9_7F4A_7C15);
    let mut accepted = [0; 2];
    let mut refused = [0; 40];
    for _ in 0..20_000 {
        let entries: Vec<u32> = (0..random.below(5)).map(|_| random.below(6)).collect();
        let (root, depth) = (random.below(4), 1 + random.below(5));
        let mut maker = Maker {
            random: &mut random,
            nodes: Vec::new(),
        };
        let block = maker.tree(root, &mut entries.clone(), depth);
        maker.push(14, [block, 0, 0]);
        let nodes = maker.nodes;
        if nodes.len() > 128 {
            continue;
        }
        let script = Script { entries, nodes };
        assert_eq!(read(&write(&script)).ok(), check_shape(&script));
        match check(&script) {
            Ok(code) => {
                let mixed = script.nodes.iter().any(|node| node.kind == 8);
                accepted[usize::from(mixed)] += 1;
                run_accepted(&mut random, &script, code);
            }
            Err(refusal) => refused[refusal.number as usize] += 1,
        }
    }
    assert!(accepted[0] > 500 && accepted[1] > 500, "{accepted:?}");
    for number in [6, 9, 10] {
        assert!(refused[number] > 20, "{number}: {refused:?}");
    }
}

/// Five steps that make references or put them in cells, four that store words, then an `if` with
/// branches of two types on a word that is read back.
fn reading_back(random: &mut Random) -> Script {
    let entries = vec![2, 2, 4, 4];
    let mut types = entries.clone();
    let mut maker = Maker {
        random,
        nodes: Vec::new(),
    };
    let mut bound = Vec::new();
    for step in 0..9 {
        let (kind, code) = match step {
            0..5 => [(10, 0), (10, 2), (11, 2), (12, 2), (13, 2)][maker.random.below(5) as usize],
            _ => (12, 0),
        };
        let first = match kind {
            11 | 12 => maker.leaf(code + 2, &types),
            _ => maker.leaf(code, &types),
        };
        let second = match kind {
            12 => maker.leaf(code, &types),
            _ => 0,
        };
        bound.push(maker.push(kind, [first, second, 0]));
        types.push(if kind == 10 { code + 2 } else { code });
    }
    let cell = maker.leaf(2, &types);
    let word = maker.push(11, [cell, 0, 0]);
    let other = maker.leaf(0, &types);
    let condition = maker.push(5, [word, other, 0]);
    maker.asking(entries, bound, condition)
}

/// Checks 40,000 scripts and runs those that are accepted; the others have one of these refusals.
/// Gives how many are accepted.
fn try_many(seed: u64, make: fn(&mut Random) -> Script, numbers: &[u8]) -> u32 {
    let mut random = Random(seed);
    let mut accepted = 0;
    for _ in 0..40_000 {
        let script = make(&mut random);
        match check(&script) {
            Ok(code) => {
                accepted += 1;
                run_accepted(&mut random, &script, code);
            }
            Err(refusal) => assert!(numbers.contains(&refusal.number), "{refusal:?}"),
        }
    }
    accepted
}

#[test]
fn words_read_back_are_known_rightly() {
    let known = try_many(0x0F1E_2D3C_4B5A_6978, reading_back, &[10]);
    assert!((15_000..30_000).contains(&known), "{known}");
}

impl Maker<'_> {
    /// The script that binds these nodes in turn in a symbolic block, and ends with an `if` on a
    /// condition, with branches of two types.
    fn asking(mut self, entries: Vec<u32>, bound: Vec<u32>, condition: u32) -> Script {
        let one = self.push(0, [1, 0, 0]);
        let truth = self.push(1, [0; 3]);
        let mut body = self.push(8, [condition, one, truth]);
        for first in bound.into_iter().rev() {
            body = self.push(9, [first, body, 0]);
        }
        self.push(14, [body, 0, 0]);
        let nodes = self.nodes;
        Script { entries, nodes }
    }

    /// A step that stores a leaf of a type through a variable.
    fn store(&mut self, cell: usize, code: u32, types: &[u32]) -> (u32, u32) {
        let through = self.push(3, [cell as u32, 0, 0]);
        let value = self.leaf(code, types);
        (self.push(12, [through, value, 0]), code)
    }

    /// One round with a scratch cell, as the steps' nodes and types: a value of another type goes
    /// in, something may be stored elsewhere, the cell is read, what it gave may be used, and a
    /// value of its own type goes back.
    fn round(&mut self, types: &[u32]) -> Vec<(u32, u32)> {
        let cells: Vec<usize> = (0..types.len()).filter(|k| types[*k] >= 2).collect();
        let cell = cells[self.random.below(cells.len() as u32) as usize];
        let own = types[cell] - 2;
        let other = (own + 1 + self.random.below(3)) % 4;
        let mut types = types.to_vec();
        let mut steps = vec![self.store(cell, other, &types)];
        types.push(other);
        if self.random.below(2) == 0 {
            let elsewhere = cells[self.random.below(cells.len() as u32) as usize];
            steps.push(self.store(elsewhere, types[elsewhere] - 2, &types));
            types.push(types[elsewhere] - 2);
        }
        let through = self.push(3, [cell as u32, 0, 0]);
        steps.push((self.push(11, [through, 0, 0]), other));
        types.push(other);
        let used = self.random.below(4);
        steps.push((self.tree(used, &mut types, 1), used));
        types.push(used);
        steps.push(self.store(cell, own, &types));
        steps
    }
}

/// Two new cells, then three rounds, then an `if` with branches of two types on a truth that may
/// have come from a cell.
fn scratch_cells(random: &mut Random) -> Script {
    let entries = vec![2, 2, 3, 4];
    let mut types = entries.clone();
    let mut maker = Maker {
        random,
        nodes: Vec::new(),
    };
    let mut bound = Vec::new();
    for code in [0, 2] {
        let content = maker.leaf(code, &types);
        bound.push(maker.push(10, [content, 0, 0]));
        types.push(code + 2);
    }
    for _ in 0..3 {
        for (node, code) in maker.round(&types) {
            bound.push(node);
            types.push(code);
        }
    }
    let condition = maker.leaf(1, &types);
    maker.asking(entries, bound, condition)
}

#[test]
fn scratch_cells_end_with_their_types() {
    let accepted = try_many(0x1122_3344_5566_7788, scratch_cells, &[6, 9, 10]);
    assert!((10_000..20_000).contains(&accepted), "{accepted}");
}

/// The script itself, unless it has too many `sym` around one.
fn check_shape(script: &Script) -> Option<Script> {
    match check(script) {
        Err(refusal) if refusal.number < 6 || refusal.number == 13 => None,
        _ => Some(script.clone()),
    }
}

fn run_accepted(random: &mut Random, script: &Script, code: u32) {
    for _ in 0..4 {
        let values: Vec<u8> = script
            .entries
            .iter()
            .flat_map(|code| entry_value(random, *code))
            .collect();
        let mut cells = CELLS.concat();
        cells.resize(960, 0xEE);
        let outcome = run(script, &values, &mut cells, 6).expect("within the limits");
        let Outcome::Value { kind, bits, used } = outcome else {
            panic!(
                "{outcome:?} of\n{}",
                String::from_utf8_lossy(&write(script))
            );
        };
        assert!(fits(kind, bits, code, &cells, used));
        for (cell, code) in [0, 1, 2, 3, 0, 2].into_iter().enumerate() {
            assert!(fits(2, cell as u32, code + 2, &cells, used));
        }
        assert!(cells[used as usize * 5..].iter().all(|byte| *byte == 0xEE));
    }
}

#[test]
fn spoiled_texts_do_not_panic() {
    let mut random = Random(0x1234_5678_9ABC_DEF1);
    let sound = b"entry\tb\nentry\tri\nvar\t0\nvar\t1\nget\t1\nint\t12\nif\t0\t2\t3\nvar\t1\nint\t7\nset\t5\t6\nlet\t4\t7\ntyped\t8\nsym\t9\n";
    let bytes = b"\n\t019irbsymtrue\r\xFF ";
    for _ in 0..50_000 {
        let mut text = sound.to_vec();
        for _ in 0..1 + random.below(3) {
            let place = random.below(text.len() as u32) as usize;
            let byte = bytes[random.below(bytes.len() as u32) as usize];
            match random.below(3) {
                0 => text[place] = byte,
                1 => text.insert(place, byte),
                _ => drop(text.remove(place)),
            }
        }
        let line = check_line(&text);
        assert!(line.ends_with('\n') && !line.is_empty());
        if let Ok(script) = read(&text) {
            assert_eq!(write(&script), text);
            let mut cells = vec![0; 960];
            run(&script, &[1, 1, 0, 0, 0, 2, 0, 0, 0, 0], &mut cells, 1).ok();
        }
    }
}
