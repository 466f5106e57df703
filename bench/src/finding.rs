//! Finding in the twin: a plan for tables whose file has none. Tables are bits, so that those under which one can be hung come from
//! one intersection. A table that cannot be hung is tried again only once it shares less than before.

use crate::mending::Code;
use crate::twin::Table;

const FF: u8 = 255;

struct Finding<'a> {
    tables: &'a [Table; 16],
    /// As bits, the tables that remain, and those of them that were not tried yet with what they share now.
    rest: u32,
    untried: u32,
    /// By attribute, as bits, all tables that have it.
    having: [u32; 32],
    /// By table, as bits, those that hang under it.
    children: [u32; 16],
}

/// The lowest of some bits.
fn lowest(bits: u32) -> usize {
    bits.trailing_zeros() as usize & 31
}

impl<'a> Finding<'a> {
    fn new(tables: &'a [Table; 16], count: usize) -> Finding<'a> {
        let all = (1 << count) - 1;
        let mut f = Finding { tables, rest: all, untried: all, having: [0; 32], children: [0; 16] };
        for (t, table) in tables.iter().enumerate().take(count) {
            let mut attributes = table.mask;
            while attributes != 0 {
                f.having[lowest(attributes)] |= 1 << t;
                attributes &= attributes - 1;
            }
        }
        f
    }

    /// As bits, the tables under which a table can be hung.
    fn parents(&self, t: usize) -> u32 {
        let others = self.rest & !(1 << t);
        let mut parents = others;
        let mut attributes = self.tables[t & 15].mask;
        while attributes != 0 {
            let sharing = self.having[lowest(attributes)] & others;
            if sharing != 0 {
                parents &= sharing;
            }
            attributes &= attributes - 1;
        }
        parents
    }

    /// Hangs a table. One that is left alone with an attribute is tried again.
    fn hang(&mut self, t: usize, parent: usize) {
        self.children[parent & 15] |= 1 << t;
        self.rest &= !(1 << t);
        let mut attributes = self.tables[t & 15].mask;
        while attributes != 0 {
            let left = self.having[lowest(attributes)] & self.rest;
            if left & left.wrapping_sub(1) == 0 {
                self.untried |= left;
            }
            attributes &= attributes - 1;
        }
    }

    /// Hangs tables until none can be hung, always the lowest one that can be.
    fn hang_all(&mut self) {
        while self.untried != 0 {
            let t = lowest(self.untried);
            self.untried &= self.untried - 1;
            let parents = self.parents(t);
            if parents != 0 {
                self.hang(t, lowest(parents));
            }
        }
    }

    /// Writes the plan of a table and what hangs under it from a place on; where it ends. The bytes are FF before.
    fn spell(&self, t: usize, out: &mut Code, from: usize) -> usize {
        let mut children = self.children[t & 15];
        let place = from + children.count_ones() as usize;
        out[place & 31] = t as u8;
        let mut end = place + 1;
        while children != 0 {
            end = self.spell(lowest(children), out, end);
            children &= children - 1;
        }
        end
    }
}

/// The plan that is found for one or more tables, in one byte less than twice their number; or the table that answer 14 names.
#[inline(never)]
pub fn find(tables: &[Table; 16], count: usize) -> Result<Code, usize> {
    let mut f = Finding::new(tables, count);
    f.hang_all();
    let first = lowest(f.rest);
    if f.rest & (f.rest - 1) != 0 {
        return Err(first);
    }
    let mut out = [FF; 32];
    f.spell(first, &mut out, 0);
    Ok(out)
}

#[cfg(test)]
mod tests {
    use super::*;
    use crate::mending::mend;
    use crate::plans::Plan;
    use crate::{inputs, model, small};

    const SEEDS: u64 = 10_000;

    /// Tables from masks, without rows.
    fn shapes(masks: &[u32]) -> [Table; 16] {
        std::array::from_fn(|t| masks.get(t).map_or(Table::default(), |&mask| Table::shape(mask, 0)))
    }

    /// The found plan's bytes, or the detail of answer 14.
    fn found(masks: &[u32]) -> Result<Vec<u8>, usize> {
        Ok(find(&shapes(masks), masks.len())?[..2 * masks.len() - 1].to_vec())
    }

    fn masks(tables: &[inputs::Table]) -> Vec<u32> {
        tables.iter().map(inputs::Table::mask).collect()
    }

    /// The masks of a small file.
    fn small_masks(seed: u64) -> Vec<u32> {
        masks(&small::tables_alone(1 + seed as usize % 16, seed))
    }

    /// The plan of tables that hang one under the other, from a root down to 0.
    fn downwards(root: u8) -> Vec<u8> {
        [(1..=root).rev().flat_map(|t| [FF, t]).collect(), vec![0]].concat()
    }

    #[test]
    fn few_tables() {
        assert_eq!(found(&[3, 6, 12]), Ok(vec![FF, 2, FF, 1, 0]));
        assert_eq!(found(&[1, 2, 3]), Ok(vec![FF, FF, 2, 0, 1]));
        assert_eq!(found(&[1, 1, 1]), Ok(vec![FF, 2, FF, 1, 0]));
        assert_eq!(found(&[1, 2, 4, 8]), Ok(vec![FF, 3, FF, 2, FF, 1, 0]));
        assert_eq!(found(&[5]), Ok(vec![0]));
        assert_eq!(found(&[1, 2]), Ok(vec![FF, 1, 0]));
    }

    #[test]
    fn none_can_be_hung() {
        assert_eq!(found(&[3, 5, 6]), Err(0));
        assert_eq!(found(&[1, 9, 3, 6, 5]), Err(2));
        assert_eq!(found(&[8, 3, 5, 6]), Err(1));
    }

    #[test]
    fn sixteen_tables() {
        let chain: Vec<u32> = (0..16).map(|t| 3 << t).collect();
        assert_eq!(found(&chain), Ok(downwards(15)));
        assert_eq!(found(&[7; 16]), Ok(downwards(15)));
        assert_eq!(found(&(0..16).map(|t| 1 << t).collect::<Vec<_>>()), Ok(downwards(15)));
        let ring: Vec<u32> = (0..15).map(|t| 3 << t).chain([1 << 15 | 1]).collect();
        assert_eq!(found(&ring), Err(0));
        // The middle table goes under the last one when the others hang under it.
        let star: Vec<u32> = [255].into_iter().chain((0..15).map(|t| 1 << (t % 8) | 256 << t)).collect();
        let expected = [vec![FF, 15], vec![FF; 14], (0..15).collect()].concat();
        assert_eq!(found(&star), Ok(expected));
    }

    #[test]
    fn as_the_model() {
        for seed in 0..SEEDS {
            let masks = small_masks(seed);
            assert_eq!(found(&masks), model::find(&shapes(&masks), masks.len()), "{masks:?}");
        }
    }

    #[test]
    fn well_behaved_and_stays() {
        let (mut plans, mut refused) = (0, [0; 16]);
        for seed in 0..SEEDS {
            let masks = small_masks(seed);
            match found(&masks) {
                Ok(code) => {
                    let plan = Plan::spelled(&mut code.iter().copied());
                    assert_eq!(plan.code(), code);
                    assert!(model::well_behaved(&shapes(&masks), &plan), "{masks:?}");
                    assert_eq!(mend(&code, &shapes(&masks)).map(|m| m[..code.len()].to_vec()), Ok(code), "{masks:?}");
                    plans += 1;
                }
                Err(t) => refused[t] += 1,
            }
        }
        assert!(plans > SEEDS / 4 && refused.iter().sum::<u64>() > SEEDS / 4, "{plans} {refused:?}");
        assert!(refused[1..4].iter().all(|&n| n > 50), "{refused:?}");
    }

    /// How often a table is tried if each time those that remain are tried from the lowest on, up to the one that is hung.
    fn tries(masks: &[u32]) -> usize {
        let hung: Vec<usize> = model::hung(&shapes(masks), masks.len()).0.into_iter().map(|h| h.0).collect();
        hung.iter().enumerate().map(|(i, &t)| 1 + t - hung[..i].iter().filter(|&&before| before < t).count()).sum()
    }

    /// Where a plan is found two of those that remain can be hung, so that never all but the highest are tried in vain.
    #[test]
    fn worst_to_find() {
        let worst = inputs::without_plan().into_iter().find(|c| c.shape.contains("worst to find")).unwrap().first();
        assert_eq!(tries(&masks(&worst.tables)), 120);
        for seed in 0..SEEDS {
            let masks = masks(&small::tables_alone(16, seed));
            assert!(found(&masks).is_err() || tries(&masks) <= 120, "{masks:?}");
        }
    }
}
