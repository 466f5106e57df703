//! Mending in the twin: a plan that is not well-behaved becomes one that is and joins the same tables. A table is known here by the
//! index of its byte in the plan, so that the first named is the lowest, and a plan inside the plan is a stretch of indices.

use crate::twin::Table;

/// A plan has at most 31 bytes; so an index of 5 bits is always within.
pub type Code = [u8; 32];

const FF: u8 = 255;
const LEFT: usize = 0;
const RIGHT: usize = 1;

/// The plan that begins at an index.
#[derive(Clone, Copy, Default)]
struct Part {
    /// Where it ends and, of a join, where its right plan begins.
    end: usize,
    right: usize,
    attributes: u32,
    /// Of a join, the join attributes, and as bits the tables that hold them.
    key: u32,
    holders: u32,
    /// Of a table.
    rows: u32,
}

/// The cheapest root of a plan, and its cost. The root 0 means that it was not sought yet: a plan with joins has an FF there.
#[derive(Clone, Copy, Default)]
struct Best {
    root: usize,
    cost: u32,
}

struct Mending<'a> {
    code: &'a [u8],
    tables: &'a [Table; 16],
    /// As bits, all tables of the plan.
    named: u32,
    parts: [Part; 32],
    /// By join and side, the roots that were sought.
    best: [[Best; 2]; 32],
}

/// The bits below an index.
fn below(index: usize) -> u32 {
    (1 << (index & 31)) - 1
}

impl<'a> Mending<'a> {
    fn new(code: &'a [u8], tables: &'a [Table; 16]) -> Mending<'a> {
        Mending { code, tables, named: 0, parts: [Part::default(); 32], best: [[Best::default(); 2]; 32] }
    }

    /// Notes the plans that begin at each index, from the last one down.
    fn note_parts(&mut self) {
        for (at, &b) in self.code.iter().enumerate().take(31).rev() {
            self.parts[at] = if b == FF { self.join(at) } else { self.table(at, &self.tables[b as usize & 15]) };
        }
    }

    fn table(&mut self, at: usize, table: &Table) -> Part {
        self.named |= 1 << at;
        Part { end: at + 1, attributes: table.mask, rows: table.rows as u32, ..Part::default() }
    }

    fn join(&self, at: usize) -> Part {
        let left = &self.parts[at + 1];
        let right = &self.parts[left.end & 31];
        let key = left.attributes & right.attributes;
        let mut part =
            Part { end: right.end, right: left.end, attributes: left.attributes | right.attributes, key, ..Part::default() };
        let mut rest = self.named & below(right.end);
        while rest != 0 {
            let table = rest.trailing_zeros() as usize;
            part.holders |= u32::from(self.parts[table].attributes & key == key) << table;
            rest &= rest - 1;
        }
        part
    }

    /// Where the plan on a side of a join begins, and as bits its tables that hold the join attributes.
    fn side(&self, at: usize, side: usize) -> (usize, u32) {
        let part = &self.parts[at & 31];
        match side {
            LEFT => (at + 1, part.holders & below(part.right)),
            _ => (part.right, part.holders & !below(part.right)),
        }
    }

    /// The first FF whose join has a side where no table holds the join attributes: answer 9.
    fn unheld(&self) -> Option<usize> {
        let unheld = |at| self.code[at] == FF && (self.side(at, LEFT).1 == 0 || self.side(at, RIGHT).1 == 0);
        (0..self.code.len()).find(|&at| unheld(at))
    }

    /// The penalty of the tree of the plan at an index, for a root in it.
    fn cost_for(&mut self, at: usize, root: usize) -> u32 {
        if at == root {
            return 0;
        }
        let right = self.parts[at & 31].right;
        if root < right {
            self.best_root(at, RIGHT).cost + self.cost_for(at + 1, root)
        } else {
            self.best_root(at, LEFT).cost + self.cost_for(right, root)
        }
    }

    /// The root of a side of a join, for a root on the other side. It depends on the join and the side alone, so it is sought once.
    fn best_root(&mut self, at: usize, side: usize) -> Best {
        let known = self.best[at & 31][side];
        if known.root != 0 {
            return known;
        }
        let (start, holders) = self.side(at, side);
        let best = self.cheapest(start, holders, side == LEFT);
        self.best[at & 31][side] = best;
        best
    }

    /// The cheapest of some tables as root of the plan at an index, the first of equals. On a left side its row count is added.
    fn cheapest(&mut self, at: usize, mut roots: u32, on_left: bool) -> Best {
        let mut best = Best { root: 0, cost: u32::MAX };
        while roots != 0 {
            let root = roots.trailing_zeros() as usize;
            roots &= roots - 1;
            let added = if on_left { self.parts[root].rows } else { 0 };
            let cost = self.cost_for(at, root) + added;
            if cost < best.cost {
                best = Best { root, cost };
            }
        }
        best
    }

    fn size(&self, at: usize) -> usize {
        self.parts[at & 31].end - at
    }

    /// Writes the plan of the tree of the plan at an index for a root, from a place on. It has as many bytes as that plan.
    fn spell(&self, at: usize, root: usize, out: &mut Code, from: usize) {
        if at == root {
            out[from] = self.code[at];
            return;
        }
        let Part { right, key, .. } = self.parts[at & 31];
        let (near, far, side) = if root < right { (at + 1, right, RIGHT) } else { (right, at + 1, LEFT) };
        self.spell(near, root, out, from);
        let place = self.make_room(out, from, from + self.size(near), key, self.size(far));
        self.spell(far, self.best[at & 31][side].root, out, place);
    }

    /// Makes room for a tree of some size in the tree spelled from `from` to `end`, where it is the last child of the first table
    /// that holds the key. That one is the topmost: the tables that hold an attribute are connected in the tree.
    fn make_room(&self, out: &mut Code, from: usize, end: usize, key: u32, size: usize) -> usize {
        let holds = |b: u8| b != FF && self.tables[b as usize & 15].mask & key == key;
        let holder = (from..end).find(|&i| holds(out[i])).unwrap_or(from);
        let start = (from..holder).rev().find(|&i| out[i] != FF).map_or(from, |i| i + 1);
        let behind = plan_end(out, start);
        out.copy_within(behind..end, behind + 1 + size);
        out.copy_within(start..behind, start + 1);
        out[start] = FF;
        behind + 1
    }
}

/// Where the plan that begins at an index ends.
fn plan_end(code: &Code, start: usize) -> usize {
    let mut open = 1;
    let mut at = start;
    while open != 0 {
        open = if code[at] == FF { open + 1 } else { open - 1 };
        at += 1;
    }
    at
}

/// The mended plan, in as many bytes as the plan has; or the index of the FF that answer 9 names.
#[inline(never)]
pub fn mend(code: &[u8], tables: &[Table; 16]) -> Result<Code, usize> {
    let mut m = Mending::new(code, tables);
    m.note_parts();
    if let Some(at) = m.unheld() {
        return Err(at);
    }
    let root = m.cheapest(0, m.named, false).root;
    let mut out = [0; 32];
    m.spell(0, root, &mut out, 0);
    Ok(out)
}

#[cfg(test)]
mod tests {
    use super::*;
    use crate::plans::{left_deep, Plan};
    use crate::{inputs, model, small};

    const SEEDS: u64 = 3000;

    /// Tables from masks and row counts.
    fn shapes(tables: &[(u32, usize)]) -> [Table; 16] {
        std::array::from_fn(|t| tables.get(t).map_or(Table::default(), |&(mask, rows)| Table::shape(mask, rows)))
    }

    /// The mended plan's bytes and its penalty, or the detail of answer 9.
    fn mended(tables: &[Table; 16], code: &[u8]) -> Result<(Vec<u8>, u32), usize> {
        let mended = mend(code, tables)?[..code.len()].to_vec();
        let mut m = Mending::new(code, tables);
        m.note_parts();
        let penalty = m.cheapest(0, m.named, false).cost;
        Ok((mended, penalty))
    }

    /// A small file's tables without their columns, and its plan.
    fn small_plan(k: usize, seed: u64) -> ([Table; 16], Plan) {
        let (tables, plan) = small::tables_and_plan(k, seed);
        (without_columns(&tables), plan)
    }

    fn without_columns(tables: &[inputs::Table]) -> [Table; 16] {
        shapes(&tables.iter().map(|t| (t.mask(), t.rows())).collect::<Vec<_>>())
    }

    #[test]
    fn sample_plans() {
        let sample = shapes(&[(3, 4), (6, 4), (12, 3)]);
        assert_eq!(mended(&sample, &[FF, 0, FF, 1, 2]), Ok((vec![FF, 0, FF, 1, 2], 0)));
        assert_eq!(mended(&sample, &[FF, 0, FF, 2, 1]), Ok((vec![FF, 0, FF, 1, 2], 3)));
        assert_eq!(mended(&sample, &[FF, FF, 0, 1, 2]), Ok((vec![FF, 0, FF, 1, 2], 0)));
        let other_rows = shapes(&[(3, 3), (6, 8), (12, 6)]);
        assert_eq!(mended(&other_rows, &[FF, 0, FF, 2, 1]), Ok((vec![FF, 2, FF, 1, 0], 3)));
    }

    #[test]
    fn larger_plans() {
        let five = shapes(&[(8, 0), (5, 1), (2, 2), (2, 2), (13, 0)]);
        let code = mended(&five, &[FF, 3, FF, FF, 0, FF, 1, 4, 2]).unwrap().0;
        assert_eq!(code, [FF, 3, FF, 2, FF, 0, FF, 4, 1]);
        let six = shapes(&[(73760, 9), (21037056, 5), (524288, 9), (34078720, 9), (65600, 9), (33554432, 5)]);
        let expected = vec![FF, 0, FF, 4, FF, 1, FF, 5, FF, 3, 2];
        assert_eq!(mended(&six, &[FF, 0, FF, 4, FF, FF, 5, FF, 2, 3, 1]), Ok((expected, 14)));
    }

    #[test]
    fn side_without_holder() {
        assert_eq!(mended(&shapes(&[(1, 1), (2, 1), (3, 1)]), &[FF, FF, 0, 1, 2]), Err(0));
        assert_eq!(mended(&shapes(&[(1, 1), (2, 1), (3, 1), (1, 1)]), &[FF, 3, FF, FF, 0, 1, 2]), Err(2));
    }

    #[test]
    fn single_table() {
        assert_eq!(mended(&shapes(&[(1, 7)]), &[0]), Ok((vec![0], 0)));
    }

    #[test]
    fn as_the_model() {
        for seed in 0..SEEDS {
            let (tables, plan) = small_plan(1 + seed as usize % 10, seed);
            assert_eq!(mended(&tables, &plan.code()), model::mend(&tables, &plan), "{plan:?}");
        }
        for seed in 0..SEEDS / 100 {
            let (tables, plan) = small_plan(16, seed);
            assert_eq!(mended(&tables, &plan.code()), model::mend(&tables, &plan), "{plan:?}");
        }
    }

    #[test]
    fn least_of_all_selections() {
        for seed in 0..SEEDS {
            let (tables, plan) = small_plan(1 + seed as usize % 6, seed);
            if let Ok((_, penalty)) = mended(&tables, &plan.code()) {
                assert_eq!(penalty, model::least_penalty(&tables, &plan), "{plan:?}");
            }
        }
    }

    #[test]
    fn well_behaved_and_stays() {
        let (mut as_they_are, mut others, mut refused) = (0, 0, 0);
        for seed in 0..SEEDS {
            let (tables, plan) = small_plan(1 + seed as usize % 16, seed);
            let Ok((code, _)) = mended(&tables, &plan.code()) else {
                assert!(!model::well_behaved(&tables, &plan));
                refused += 1;
                continue;
            };
            let followed = Plan::spelled(&mut code.iter().copied());
            assert!(model::well_behaved(&tables, &followed), "{plan:?}");
            assert_eq!(followed == plan, model::well_behaved(&tables, &plan), "{plan:?}");
            *(if followed == plan { &mut as_they_are } else { &mut others }) += 1;
        }
        assert!([as_they_are, others, refused].iter().all(|&n| n > SEEDS / 20), "{as_they_are} {others} {refused}");
    }

    /// The search for roots once more, with its calls counted.
    struct Counted<'a> {
        m: Mending<'a>,
        cost_for: usize,
        best_root: usize,
    }

    impl Counted<'_> {
        fn cost_for(&mut self, at: usize, root: usize) -> u32 {
            self.cost_for += 1;
            if at == root {
                return 0;
            }
            let right = self.m.parts[at].right;
            let (near, side) = if root < right { (at + 1, RIGHT) } else { (right, LEFT) };
            self.best_root(at, side) + self.cost_for(near, root)
        }

        fn best_root(&mut self, at: usize, side: usize) -> u32 {
            self.best_root += 1;
            let known = self.m.best[at][side];
            if known.root == 0 {
                let (start, holders) = self.m.side(at, side);
                (0..31).filter(|root| holders >> root & 1 == 1).for_each(|root| _ = self.cost_for(start, root));
                self.m.best_root(at, side);
            }
            self.m.best[at][side].cost
        }
    }

    /// How often cost_for and best_root are called for a plan.
    fn calls(tables: &[Table; 16], code: &[u8]) -> (usize, usize) {
        let mut m = Mending::new(code, tables);
        m.note_parts();
        let named = m.named;
        let mut c = Counted { m, cost_for: 0, best_root: 0 };
        (0..31).filter(|root| named >> root & 1 == 1).for_each(|root| _ = c.cost_for(0, root));
        (c.cost_for, c.best_root)
    }

    /// A table at depth d is tried as root of d + 1 plans, so a plan as deep as can be, where all tables can be roots, has the most
    /// calls.
    #[test]
    fn few_calls() {
        let most = calls(&shapes(&[(3, 1); 16]), &left_deep(16).code());
        assert_eq!(most, (951, 800));
        let worst = inputs::all().iter().find(|c| c.shape == "equal masks of 16, worst to mend").unwrap().first();
        assert_eq!(calls(&without_columns(&worst.tables), &worst.given().code()), (949, 799));
        for seed in 0..SEEDS {
            let (tables, plan) = small_plan(16, seed);
            if mend(&plan.code(), &tables).is_ok() {
                let (cost_for, best_root) = calls(&tables, &plan.code());
                assert!(cost_for <= most.0 && best_root <= most.1, "{plan:?}");
            }
        }
    }
}
