//! What goes wrong in a block about scratch cells, so that it is refused.

use super::log::Value;
use super::looks::Mark;
use super::Block;
use crate::known::Origin;
use crate::maker::OPEN;
use crate::parts::Part;
use crate::tree::{choice, int, one, two, var, Tree};
use crate::tree::{ADD, EQ, GET, NOT, SET, SYM, TYPED};

/// How a block goes wrong.
#[derive(Clone, Copy)]
pub enum Fault {
    /// 6: what was read is used as another type than its own.
    Misused,
    /// 9 at a `get` that finds nothing.
    OtherCell,
    /// 9 at a `get`, since the write is behind a possible alias.
    Alias,
    /// 10, since a right write is behind a possible alias.
    RightBehindAlias,
    /// 9 at a typed block.
    TooEarly,
    /// 9 at the end: nothing is put back.
    Left,
    /// 9 at the end: it is put back through another reference.
    OtherWay,
    /// 9 at the end: it is put back on one branch only.
    OneBranch,
    /// 9 at the end: what was read is put back.
    OwnValue,
    /// 10: another path ends with another type.
    PathType,
}

/// The faults, each with its weight.
pub const FAULTS: [(usize, Fault); 10] = [
    (3, Fault::Misused),
    (3, Fault::OtherCell),
    (2, Fault::Alias),
    (2, Fault::RightBehindAlias),
    (2, Fault::TooEarly),
    (1, Fault::Left),
    (1, Fault::OtherWay),
    (1, Fault::OneBranch),
    (1, Fault::OwnValue),
    (2, Fault::PathType),
];

impl Block<'_> {
    /// Goes wrong as is planned, or leaves something wrong in a cell if that cannot be done.
    pub fn go_wrong(&mut self) {
        let Some(fault) = self.frame.fault.take() else {
            return;
        };
        if self.over {
            return;
        }
        if self.log.consistent() {
            self.put_in();
        }
        let done = match fault {
            Fault::Misused => self.misuse(),
            Fault::OtherCell => self.look_elsewhere(),
            Fault::Alias => self.look_past_alias(),
            Fault::RightBehindAlias => self.ask_past_alias(),
            Fault::TooEarly => self.too_early(),
            Fault::Left => None,
            Fault::OtherWay => self.other_way(),
            Fault::OneBranch => self.one_branch(),
            Fault::OwnValue => self.own_value(),
            Fault::PathType => self.path_type(),
        };
        if done.is_none() {
            self.leave();
        }
    }

    /// Uses what is read as its cell's type, or as a reference.
    fn misuse(&mut self) -> Option<()> {
        let look = self.look().filter(|&look| self.is_strange(look))?;
        self.mark_look(look);
        let read = one(GET, var(look.reference));
        let cell = self.cell(look.reference);
        let used = match (self.random.below(4), cell) {
            (1, _) if look.value.code < 2 => one(GET, read),
            (2, _) if look.value.code < 2 => two(SET, read, int(1)),
            (3, 0) => two(ADD, int(1), read),
            (3, 1) if self.random.chance(50) => one(NOT, read),
            (3, 1) => choice(read, int(1), int(2)),
            _ => two(EQ, read, self.leaf(cell)),
        };
        self.bind_other(used, OPEN);
        self.over = true;
        Some(())
    }

    /// Looks through a reference for which nothing is found.
    fn look_elsewhere(&mut self) -> Option<()> {
        let mut cells = self.references();
        cells.retain(|cell| self.log.seen(cell.1).is_none());
        let (reference, _) = self.some(&cells)?;
        self.mark(Mark::NothingFound, true);
        self.refused_look(reference);
        Some(())
    }

    /// A look that is refused with 9.
    fn refused_look(&mut self, reference: usize) {
        self.bind_fresh(one(GET, var(reference)), self.cell(reference), Origin::Read);
        self.over = true;
    }

    /// Two variables that may be one cell; the first fulfils the test.
    fn aliases(&mut self, test: impl Fn(&Self, usize) -> bool) -> Option<(usize, usize)> {
        let mut pairs = Vec::new();
        for (a, first) in self.references() {
            for (b, second) in self.references() {
                if self.log.may_be_one(first, second) && test(self, a) {
                    pairs.push((a, b));
                }
            }
        }
        self.some(&pairs)
    }

    fn some<T: Copy>(&mut self, items: &[T]) -> Option<T> {
        (!items.is_empty()).then(|| self.random.pick(items))
    }

    /// Stores through a possible alias, right or wrong, and looks at what was stored before.
    fn look_past_alias(&mut self) -> Option<()> {
        let found = |block: &Self, reference: usize| {
            let symbol = block.variables[reference].symbol;
            symbol.is_some_and(|symbol| block.log.seen(symbol).is_some())
        };
        let (reference, alias) = self.aliases(found)?;
        if self.random.chance(40) {
            self.store_wrong(alias);
        } else {
            self.store_right(alias);
        }
        if self.log.consistent() {
            let other = self.new_cell(0);
            self.store_wrong(other);
        }
        self.mark(Mark::FurtherBack, true);
        self.refused_look(reference);
        Some(())
    }

    /// With a consistent log, asks for what was stored before a possible alias was.
    fn ask_past_alias(&mut self) -> Option<()> {
        let (reference, alias) = self.aliases(|_, _| true)?;
        self.put_back();
        let value = self.right(self.cell(reference));
        self.store(reference, value.content.tree(), value);
        self.store_right(alias);
        let equal = two(EQ, value.content.tree(), one(GET, var(reference)));
        self.mark(Mark::FurtherBack, true);
        self.choose_wrong(equal, true);
        Some(())
    }

    /// An `if` whose other branch is taken, too, and ends with another type.
    fn choose_wrong(&mut self, condition: Tree, value: bool) {
        let other = if self.want == 0 { 1 } else { 0 };
        let other = self.ending(other);
        self.parts.add(Part::Choose(condition, value, other));
        self.over = true;
    }

    /// A typed block while something wrong is in a cell.
    fn too_early(&mut self) -> Option<()> {
        let (reference, _) = self.random.pick(&self.references());
        let inside = match self.random.below(3) {
            0 => var(reference),
            1 if self.frame.syms < 4 => one(
                SYM,
                two(SET, var(reference), self.leaf(self.cell(reference))),
            ),
            _ => int(1),
        };
        self.bind_other(one(TYPED, inside), OPEN);
        self.over = true;
        Some(())
    }

    /// A cell with something wrong in it, which is left so.
    fn leave(&mut self) -> usize {
        let wrong = self.wrong_cells();
        let reference = self.random.pick(&wrong);
        self.left = self.variables[reference].symbol;
        reference
    }

    fn other_way(&mut self) -> Option<()> {
        let reference = self.leave();
        let mut same = self.of_type(self.variables[reference].code);
        same.retain(|&other| self.variables[other].symbol != self.left);
        let other = self.some(&same)?;
        self.store_right(other);
        Some(())
    }

    fn one_branch(&mut self) -> Option<()> {
        let free = self.free.clone();
        let test = self.some(&free)?;
        let reference = self.leave();
        let right = two(SET, var(reference), self.leaf(self.cell(reference)));
        let fork = match self.random.chance(50) {
            true => choice(var(test), right, int(0)),
            false => choice(var(test), int(0), right),
        };
        self.bind_other(fork, OPEN);
        Some(())
    }

    fn own_value(&mut self) -> Option<()> {
        let look = self.look().filter(|&look| self.is_strange(look))?;
        let Value { symbol, .. } = self.variables[look.reference];
        self.left = symbol;
        self.mark_look(look);
        self.mark(Mark::OwnCell, true);
        self.mark(Mark::CellType, true);
        self.store(look.reference, one(GET, var(look.reference)), look.value);
        Some(())
    }

    fn path_type(&mut self) -> Option<()> {
        let free = self.free.clone();
        let test = self.some(&free)?;
        let value = self.random.chance(50);
        self.choose_wrong(var(test), value);
        Some(())
    }
}
