//! Small files with any plans: well-behaved ones, ones that can be mended, and ones that cannot. Tables for files without a plan:
//! those for which one is found, and those for which none is. Files with very many results: totals past 32 bits, and past 64.

use crate::inputs::{table, Random, Table, NOT_RECORDED};
use crate::plans::{join, Plan};

/// The attributes of tables. Each table but the first has some or all of those of an earlier one, which is its parent.
fn masks(r: &mut Random, k: usize) -> (Vec<u32>, Vec<usize>) {
    let (mut masks, mut parents) = (vec![1], vec![0]);
    let mut used = 1;
    for t in 1..k {
        let parent = r.below(t);
        let all: u32 = masks[parent];
        let shared = if r.below(3) == 0 { all } else { all & r.next() as u32 };
        let own = r.below(3).min(32 - used).min(8 - shared.count_ones() as usize);
        let mask = shared | (((1u64 << own) - 1) << used) as u32;
        used += own;
        masks.push(if mask == 0 { all } else { mask });
        parents.push(parent);
    }
    (masks, parents)
}

/// A plan of tables, in rising number, that their parents connect: they are cut in two at some table, and each part again. At each
/// join both sides have a table that holds the join attributes.
fn plan(r: &mut Random, tables: &[usize], parents: &[usize]) -> Plan {
    if let [one] = tables {
        return Plan::Table(*one);
    }
    let mut part = vec![tables[1 + r.below(tables.len() - 1)]];
    for &t in tables {
        if t > part[0] && part.contains(&parents[t]) {
            part.push(t);
        }
    }
    let rest: Vec<usize> = tables.iter().copied().filter(|t| !part.contains(t)).collect();
    let (part, rest) = (plan(r, &part, parents), plan(r, &rest, parents));
    if r.below(2) == 0 {
        join(part, rest)
    } else {
        join(rest, part)
    }
}

/// A column of few values, so that rows find partners.
fn column(r: &mut Random, rows: usize) -> Vec<u32> {
    r.column(rows, |r, _| if r.below(16) == 0 { NOT_RECORDED } else { r.below(2) as u32 })
}

/// How the rows of a table are drawn: their number, and a column of so many values.
type Draw = (fn(&mut Random) -> usize, fn(&mut Random, usize) -> Vec<u32>);

/// Up to 5 rows.
const FEW: Draw = (|r| r.below(6), column);

/// Tables with these attributes.
fn tables(r: &mut Random, masks: &[u32], (rows, column): Draw) -> Vec<Table> {
    let attributes = |mask: u32| (0..32).filter(move |a| mask >> a & 1 == 1);
    let table_of = |&mask: &u32| {
        let rows = rows(r);
        table(attributes(mask).map(|a| (a, column(r, rows))).collect())
    };
    masks.iter().map(table_of).collect()
}

/// Tables of up to 5 rows and a plan. In every second file two tables have changed places, so that some of these plans cannot be
/// mended.
pub fn tables_and_plan(k: usize, seed: u64) -> (Vec<Table>, Plan) {
    let mut r = Random(seed);
    let (mut masks, parents) = masks(&mut r, k);
    let plan = plan(&mut r, &(0..k).collect::<Vec<_>>(), &parents);
    if r.below(2) == 0 {
        masks.swap(r.below(k), r.below(k));
    }
    (tables(&mut r, &masks, FEW), plan)
}

/// Tables of up to 5 rows for a file without a plan: such as have a well-behaved one, in any order; the same with some attributes
/// more; and such as have any of few attributes.
pub fn tables_alone(k: usize, seed: u64) -> Vec<Table> {
    let mut r = Random(seed);
    let mut masks = masks(&mut r, k).0;
    (1..k).rev().for_each(|t| masks.swap(t, r.below(t + 1)));
    let few = 3 + r.below(8);
    match r.below(3) {
        0 => (0..1 + k / 2).for_each(|_| widen(&mut r, &mut masks)),
        1 => masks.iter_mut().for_each(|m| *m = 1 << r.below(few) | 1 << r.below(few)),
        _ => (),
    }
    tables(&mut r, &masks, FEW)
}

/// A table gets the last attribute of another one, if it has not all that it can have.
fn widen(r: &mut Random, masks: &mut [u32]) {
    let (t, other) = (r.below(masks.len()), masks[r.below(masks.len())]);
    if masks[t].count_ones() < 8 {
        masks[t] |= 1 << other.ilog2();
    }
}

/// A column in which most values are equal, so that rows find most rows of other tables.
fn even_column(r: &mut Random, rows: usize) -> Vec<u32> {
    r.column(rows, |r, _| if r.below(16) == 0 { [1, 2, NOT_RECORDED][r.below(3)] } else { 0 })
}

/// Up to 40 rows. 16 such tables can have 40 to the 16th power results, more than fit 64 bits.
const MANY: Draw = (|r| 1 + r.below(40), even_column);

/// Tables with very many results, and a plan. In every second file all tables have one attribute alone, the same, so that the results
/// can be counted from the values.
pub fn many_results(k: usize, seed: u64) -> (Vec<Table>, Plan) {
    let mut r = Random(seed);
    let (mut masks, parents) = masks(&mut r, k);
    let plan = plan(&mut r, &(0..k).collect::<Vec<_>>(), &parents);
    if r.below(2) == 0 {
        masks.fill(1);
    }
    (tables(&mut r, &masks, MANY), plan)
}

/// How many results tables have whose one attribute is the same: for each value the product of its repeats. Nothing for other tables.
pub fn counted(tables: &[Table]) -> Option<u128> {
    if tables.iter().any(|t| t.attributes.len() != 1 || t.attributes != tables[0].attributes) {
        return None;
    }
    let repeats = |t: &Table, value: u32| t.columns[0].iter().filter(|&&v| v == value).count() as u128;
    let mut values: Vec<u32> = tables[0].columns[0].iter().copied().filter(|&v| v != NOT_RECORDED).collect();
    values.sort();
    values.dedup();
    Some(values.into_iter().map(|v| tables.iter().map(|t| repeats(t, v)).product::<u128>()).sum())
}

/// 16 tables of one attribute with so many results less than 2 to the 64th power, 1 to 16. The values are 0 to 15. The first table has
/// 15 rows of each, but as many of 0 as are asked for. Table t has 16 rows of a value from t on, and one of a value below, so that a
/// row of value v in the first table has 16 to the vth power results.
pub fn short_of_64_bits(less: usize) -> Vec<Table> {
    let repeats = |t: usize, v: usize| match (t, v) {
        (0, 0) => 16 - less,
        (0, _) => 15,
        (t, v) if v < t => 1,
        _ => 16,
    };
    let values = |t: usize| (0..16).flat_map(|v| vec![v as u32; repeats(t, v)]).collect();
    (0..16).map(|t| table(vec![(0, values(t))])).collect()
}

#[cfg(test)]
mod tests {
    use super::*;

    #[test]
    fn counts() {
        let of = |attribute: u32, values: &[u32]| table(vec![(attribute, values.to_vec())]);
        assert_eq!(counted(&[of(3, &[1, 2, 2, NOT_RECORDED]), of(3, &[2, 1, 2, 1, NOT_RECORDED])]), Some(6));
        assert_eq!(counted(&[of(3, &[1]), of(4, &[1])]), None);
        let sixteen: Vec<Table> = (0..16).map(|_| of(0, &[5; 16])).collect();
        assert_eq!(counted(&sixteen), Some(1 << 64));
        assert_eq!([1, 2, 16].map(|less| counted(&short_of_64_bits(less))), [1, 2, 16].map(|less| Some((1 << 64) - less)));
    }

    /// Some of the files that are drawn have totals past 32 bits, and some past 64.
    #[test]
    fn past_both_limits() {
        let counts: Vec<u128> = (0..500).filter_map(|seed| counted(&many_results(16, seed).0)).collect();
        let past = |bits: u32| counts.iter().filter(|&&n| n >> bits != 0).count();
        assert!(counts.len() > 200 && past(64) > 50 && past(32) - past(64) > 50, "{} {} {}", counts.len(), past(32), past(64));
    }
}
