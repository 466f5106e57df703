//! The files of the bench, made from fixed seeds: tables, a plan, and the bytes of document 01.

use std::iter::repeat_n;
use std::rc::Rc;

use crate::plans::{join, left_deep, right_deep, Plan, Plan::Table as Leaf};

/// What stands for a reading that was never taken. It matches nothing, not even itself.
pub const NOT_RECORDED: u32 = u32::MAX;

/// The scratch needed has so many words for each row of the file, beside those of the joins.
pub const ROW_WORDS: usize = 10;

/// Columns by attribute, attributes rising; and where rows have copies, how many each of them has.
#[derive(Clone)]
pub struct Table {
    pub attributes: Vec<u32>,
    pub columns: Vec<Vec<u32>>,
    copies: Option<Vec<u32>>,
}

impl Table {
    pub fn rows(&self) -> usize {
        self.columns[0].len()
    }

    pub fn mask(&self) -> u32 {
        self.attributes.iter().fold(0, |m, a| m | 1 << a)
    }

    /// How many rows it has once they are written out.
    fn written_rows(&self) -> u64 {
        self.copies.as_ref().map_or(self.rows() as u64, |copies| copies.iter().map(|&c| u64::from(c)).sum())
    }

    /// The same table with so many copies of each row.
    pub fn with_copies(self, copies: Vec<u32>) -> Table {
        Table { copies: Some(copies), ..self }
    }

    /// The same table without copies: each row stands as often as it had copies, one behind the other.
    fn written_out(&self) -> Table {
        let Some(copies) = &self.copies else { return self.clone() };
        let repeated = |column: &Vec<u32>| column.iter().zip(copies).flat_map(|(&v, &c)| repeat_n(v, c as usize)).collect();
        Table { columns: self.columns.iter().map(repeated).collect(), copies: None, ..self.clone() }
    }
}

pub fn table(columns: Vec<(u32, Vec<u32>)>) -> Table {
    let (attributes, columns): (Vec<u32>, Vec<Vec<u32>>) = columns.into_iter().unzip();
    assert!(attributes.windows(2).all(|a| a[0] < a[1]));
    Table { attributes, columns, copies: None }
}

/// The bytes of a file, with a plan's bytes or none.
pub fn bytes(tables: &[Table], code: &[u8]) -> Vec<u8> {
    let mut file = Vec::new();
    for t in tables {
        file.extend(if t.copies.is_some() { b"TC" } else { b"TB" });
        file.extend(t.mask().to_le_bytes());
        file.extend((t.rows() as u32).to_le_bytes());
        for column in t.copies.iter().chain(&t.columns) {
            assert_eq!(column.len(), t.rows());
            file.extend(column.iter().flat_map(|v| v.to_le_bytes()));
        }
    }
    file.extend(b"PL");
    file.push(code.len() as u8);
    file.extend(code);
    file
}

/// How many choices of one row of each table there are, and of one copy of that row.
pub fn choices(tables: &[Table]) -> u64 {
    tables.iter().fold(1, |n, t| n.saturating_mul(t.written_rows()))
}

pub struct Input {
    pub tables: Vec<Table>,
    /// The plan in the file, where it has one, and the one that is followed: another one if the file's is not well-behaved.
    pub plan: Option<Plan>,
    pub followed: Plan,
    pub file: Vec<u8>,
    pub scratch_words: usize,
    pub width: usize,
}

impl Input {
    pub fn new(tables: Vec<Table>, plan: Plan) -> Input {
        let followed = plan.mended(&tables).expect("a plan that can be mended");
        Input::following(followed, tables, Some(plan))
    }

    pub fn without_plan(tables: Vec<Table>) -> Input {
        let followed = Plan::found(&tables).expect("tables for which a plan is found");
        Input::following(followed, tables, None)
    }

    fn following(followed: Plan, tables: Vec<Table>, plan: Option<Plan>) -> Input {
        let file = bytes(&tables, &plan.as_ref().map_or(Vec::new(), Plan::code));
        let all_rows: usize = tables.iter().map(Table::rows).sum();
        let scratch_words = ROW_WORDS * all_rows + followed.left_rows(&tables);
        let width = tables.iter().fold(0, |m, t| m | t.mask()).count_ones() as usize;
        Input { tables, plan, followed, file, scratch_words, width }
    }

    /// The same tables in a file whose plan is the one that is followed, where the file's is another one.
    pub fn partner(&self) -> Option<Input> {
        (self.plan.as_ref() != Some(&self.followed)).then(|| Input::new(self.tables.clone(), self.followed.clone()))
    }

    /// The same tables with their rows written out, in a file whose plan is the one that is followed.
    pub fn written_out(&self) -> Input {
        Input::new(self.tables.iter().map(Table::written_out).collect(), self.followed.clone())
    }

    /// The plan in the file, or the one that is followed where it has none.
    pub fn given(&self) -> &Plan {
        self.plan.as_ref().unwrap_or(&self.followed)
    }
}

/// SplitMix64.
pub struct Random(pub u64);

impl Random {
    pub fn next(&mut self) -> u64 {
        self.0 = self.0.wrapping_add(0x9e37_79b9_7f4a_7c15);
        let mut z = self.0;
        z = (z ^ (z >> 30)).wrapping_mul(0xbf58_476d_1ce4_e5b9);
        z = (z ^ (z >> 27)).wrapping_mul(0x94d0_49bb_1331_11eb);
        z ^ (z >> 31)
    }

    pub fn below(&mut self, n: usize) -> usize {
        (self.next() % n as u64) as usize
    }

    pub fn column(&mut self, rows: usize, mut value: impl FnMut(&mut Random, usize) -> u32) -> Vec<u32> {
        (0..rows).map(|y| value(self, y)).collect()
    }

    /// Values below `domain`.
    fn dense(&mut self, rows: usize, domain: usize) -> Vec<u32> {
        self.column(rows, |r, _| r.below(domain) as u32)
    }

    fn any(&mut self, rows: usize) -> Vec<u32> {
        self.column(rows, |r, _| r.next() as u32)
    }

    /// Each of 0 .. n once, shuffled.
    fn permutation(&mut self, n: usize) -> Vec<u32> {
        let mut p: Vec<u32> = (0..n as u32).collect();
        for i in (1..n).rev() {
            p.swap(i, self.below(i + 1));
        }
        p
    }

    /// Values of 32 bits, each once.
    fn distinct(&mut self, n: usize) -> Vec<u32> {
        let salt = self.next() as u32;
        // Multiplying by an odd number permutes the words.
        self.permutation(n).into_iter().map(|v| (v ^ salt).wrapping_mul(0x9e37_79b1)).collect()
    }
}

/// Document 01's sample file.
fn sample() -> Input {
    let frames = table(vec![(0, vec![10, 11, 12, 13]), (1, vec![1, 2, 2, 4])]);
    let exposures = table(vec![(1, vec![1, 2, 2, 3]), (2, vec![7, 8, 9, 7])]);
    let readings = table(vec![(2, vec![7, 7, 9]), (3, vec![29510, 29510, 29530])]);
    Input::new(vec![frames, exposures, readings], right_deep(3))
}

/// The sample file, its tables with the two plans of document 01 that are not well-behaved, a file of five tables with such a plan,
/// and the sample's tables without a plan.
pub fn samples() -> [Input; 5] {
    let five = vec![
        table(vec![(3, vec![1, 2])]),
        table(vec![(0, vec![5]), (2, vec![7])]),
        table(vec![(1, vec![6, 6])]),
        table(vec![(1, vec![6, 4])]),
        table(vec![(0, vec![5]), (2, vec![7]), (3, vec![2])]),
    ];
    let other = |code: &[u8]| Input::new(sample().tables, Plan::spelled(&mut code.iter().copied()));
    let plan = Plan::spelled(&mut [255, 3, 255, 255, 0, 255, 1, 4, 2].into_iter());
    let no_plan = Input::without_plan(sample().tables);
    [sample(), other(&[255, 0, 255, 2, 1]), other(&[255, 255, 0, 1, 2]), Input::new(five, plan), no_plan]
}

/// Table i has attributes i and i + 1; a row finds one partner on average in the next table, often none or several.
fn chain(k: usize, n: usize, seed: u64) -> Input {
    let mut r = Random(seed);
    let tables = (0..k as u32).map(|i| table(vec![(i, r.dense(n, n)), (i + 1, r.dense(n, n))])).collect();
    Input::new(tables, right_deep(k))
}

/// A chain in which each row has one partner in the next table.
fn one_partner(k: usize, n: usize, seed: u64) -> Input {
    let mut r = Random(seed);
    let tables = (0..k as u32).map(|i| table(vec![(i, r.permutation(n)), (i + 1, r.permutation(n))])).collect();
    Input::new(tables, right_deep(k))
}

/// A chain of 2 with few rows in the first table, which have one partner each.
fn few_before(few: usize, n: usize, seed: u64) -> Input {
    let mut r = Random(seed);
    let keys = r.permutation(n)[..few].to_vec();
    let first = table(vec![(0, r.permutation(few)), (1, keys)]);
    let second = table(vec![(1, r.permutation(n)), (2, r.permutation(n))]);
    Input::new(vec![first, second], right_deep(2))
}

/// The same file with as much scratch as the proved programs lend for any file.
fn longer_scratch(input: Input) -> Input {
    Input { scratch_words: 16_384, ..input }
}

/// A table of up to 8 keys, each found once in each of its dimensions; keys are any words.
fn star(k: usize, n: usize, seed: u64) -> Input {
    let mut r = Random(seed);
    let keys = (k - 1).min(8);
    let ids: Vec<Vec<u32>> = (0..keys).map(|_| r.distinct(n)).collect();
    let fact = (0..keys).map(|a| (a as u32, r.column(n, |r, _| ids[a][r.below(n)]))).collect();
    let mut tables = vec![table(fact)];
    for j in 0..k - 1 {
        let order = r.permutation(n);
        let key = order.iter().map(|&i| ids[j % keys][i as usize]).collect();
        tables.push(table(vec![((j % keys) as u32, key), ((keys + j) as u32, r.any(n))]));
    }
    Input::new(tables, left_deep(k))
}

/// Dimensions that have dimensions; keys are 0 .. n. The first of the outer ones has each of its keys twice.
fn snowflake(k: usize, n: usize, seed: u64) -> Input {
    let mut r = Random(seed);
    let inner = (k + 1) / 3;
    let outer = k - 1 - inner;
    let fact = (0..inner).map(|a| (a as u32, r.dense(n, n))).collect();
    let mut tables = vec![table(fact)];
    for d in 0..inner {
        let mut columns = vec![(d as u32, r.permutation(n))];
        for s in (d..outer).step_by(inner) {
            let domain = if s == 0 { n / 2 } else { n };
            columns.push(((inner + s) as u32, r.dense(n, domain)));
        }
        tables.push(table(columns));
    }
    for s in 0..outer {
        let mut key = r.permutation(n);
        if s == 0 {
            key.iter_mut().for_each(|v| *v /= 2);
        }
        tables.push(table(vec![((inner + s) as u32, key), ((inner + outer + s) as u32, r.any(n))]));
    }
    let plan = (0..inner).fold(Leaf(0), |left, d| {
        let right = (d..outer).step_by(inner).fold(Leaf(1 + d), |l, s| join(l, Leaf(1 + inner + s)));
        join(left, right)
    });
    Input::new(tables, plan)
}

/// A chain in which 7 of 8 rows find nothing at each join, with n / 64 rows a table that go all the way.
fn dangling_chain(k: usize, n: usize, seed: u64) -> Input {
    let mut r = Random(seed);
    let whole = n / 64;
    let key = |r: &mut Random| r.column(n, |r, y| if y < whole { y as u32 } else { (n + r.below(8 * n)) as u32 });
    let tables = (0..k as u32).map(|i| table(vec![(i, key(&mut r)), (i + 1, key(&mut r))])).collect();
    Input::new(tables, right_deep(k))
}

/// A star in which every second row finds nothing at each dimension.
fn dangling_star(k: usize, n: usize, seed: u64) -> Input {
    let mut r = Random(seed);
    let keys = k - 1;
    let mut tables = vec![table((0..keys).map(|a| (a as u32, r.dense(n, 2 * n))).collect())];
    for j in 0..keys {
        tables.push(table(vec![(j as u32, r.permutation(n)), ((keys + j) as u32, r.any(n))]));
    }
    Input::new(tables, left_deep(k))
}

/// The right plan's join has a million results (512 rows: a quarter of one), of which one row of the first table uses few.
fn poor_chain(n: usize, seed: u64) -> Input {
    let mut r = Random(seed);
    let groups = (n * n / 1_048_576).max(1);
    let first = r.column(n, |_, y| if y == n / 2 { 0 } else { (n + y) as u32 });
    let tables = vec![
        table(vec![(0, r.any(n)), (1, first)]),
        table(vec![(1, r.permutation(n)), (2, r.column(n, |_, y| (y % groups) as u32))]),
        table(vec![(2, r.column(n, |_, y| (y % groups) as u32)), (3, r.any(n))]),
    ];
    Input::new(tables, right_deep(3))
}

/// Two dimensions with 16 rows a key come before the one that all rows but one fail at.
fn poor_star(n: usize, seed: u64) -> Input {
    let mut r = Random(seed);
    let keys = n / 16;
    let last = r.column(n, |_, y| if y == n / 2 { 0 } else { (n + y) as u32 });
    let mut tables = vec![table(vec![(0, r.dense(n, keys)), (1, r.dense(n, keys)), (2, last)])];
    for j in 0..2u32 {
        tables.push(table(vec![(j, r.column(n, |_, y| (y % keys) as u32)), (3 + j, r.any(n))]));
    }
    tables.push(table(vec![(2, r.permutation(n)), (5, r.any(n))]));
    Input::new(tables, left_deep(4))
}

/// A chain whose keys are those that multiplying by 0x9e3779b1, a common hash, puts into one place: the products are 0 .. n.
fn against_hash(k: usize, n: usize, seed: u64) -> Input {
    let mut r = Random(seed);
    // The inverse of that number: each step doubles the bits that are right.
    let inverse = (0..5).fold(1u32, |x, _| x.wrapping_mul(2u32.wrapping_sub(x.wrapping_mul(0x9e37_79b1))));
    let key = |r: &mut Random| r.column(n, |r, _| (r.below(n) as u32).wrapping_mul(inverse));
    let tables = (0..k as u32).map(|i| table(vec![(i, key(&mut r)), (i + 1, key(&mut r))])).collect();
    Input::new(tables, right_deep(k))
}

/// A chain whose keys are multiples of 2^20: in the search tree no two of them part in the first 20 bits.
fn low_bits_equal(k: usize, n: usize, seed: u64) -> Input {
    let mut r = Random(seed);
    let key = |r: &mut Random| r.column(n, |r, _| (r.below(n) as u32) << 20);
    let tables = (0..k as u32).map(|i| table(vec![(i, key(&mut r)), (i + 1, key(&mut r))])).collect();
    Input::new(tables, right_deep(k))
}

/// Keys of two attributes, any words.
fn pairs(n: usize, seed: u64) -> Input {
    let mut r = Random(seed);
    let left: Vec<u32> = r.distinct(n);
    let right: Vec<u32> = r.distinct(n);
    let mut tables = Vec::new();
    for i in 0..3u32 {
        let one = r.permutation(n);
        let two = r.permutation(n);
        let pick = |p: &[u32], v: &[u32]| p.iter().map(|&y| v[y as usize]).collect::<Vec<u32>>();
        tables.push(table(vec![
            (2 * i, pick(&one, &left)),
            (2 * i + 1, pick(&one, &right)),
            (2 * i + 2, pick(&two, &left)),
            (2 * i + 3, pick(&two, &right)),
        ]));
    }
    Input::new(tables, right_deep(3))
}

/// Two tables whose common key has `a` attributes, all but the last of one value, as a scan's number is.
fn shared_leading(a: u32, n: usize, seed: u64) -> Input {
    let mut r = Random(seed);
    let mut side = || {
        let mut columns: Vec<(u32, Vec<u32>)> = (0..a - 1).map(|i| (i, vec![77; n])).collect();
        columns.push((a - 1, r.permutation(n)));
        table(columns)
    };
    let tables = vec![side(), side()];
    Input::new(tables, left_deep(2))
}

/// Many results, 64 for each row: at 4,096 rows three quarters of the longest output.
fn fan_out(n: usize, seed: u64) -> Input {
    let mut r = Random(seed);
    let keys = n / 64;
    let tables = vec![
        table(vec![(0, r.any(n)), (1, r.dense(n, keys))]),
        table(vec![(1, r.column(n, |_, y| (y % keys) as u32)), (2, r.any(n))]),
    ];
    Input::new(tables, left_deep(2))
}

/// A star in which each row of the middle table finds as many rows as `each` in each of the other ones.
fn fan_out_star(k: usize, each: usize, n: usize, seed: u64) -> Input {
    let mut r = Random(seed);
    let (others, keys) = (k as u32 - 1, n / each);
    let mut tables = vec![table((0..others).map(|a| (a, r.dense(n, keys))).collect())];
    for a in 0..others {
        tables.push(table(vec![(a, r.column(n, |_, y| (y % keys) as u32)), (others + a, r.any(n))]));
    }
    Input::new(tables, left_deep(k))
}

/// A chain in which the rows of the last result are the last ones of long lists. The last row of a table finds all rows of the next
/// one but its first, and every other row finds the first alone.
fn long_lists(k: usize, n: usize) -> Input {
    let found = (0..n).map(|y| u32::from(y > 0)).collect::<Vec<_>>();
    let finds = (0..n).map(|y| u32::from(y + 1 == n)).collect::<Vec<_>>();
    let tables = (0..k as u32).map(|i| table(vec![(i, found.clone()), (i + 1, finds.clone())])).collect();
    Input::new(tables, right_deep(k))
}

/// A star with one row in each table but the middle one, which all rows of that one find.
fn long_spine(k: usize, n: usize, seed: u64) -> Input {
    let mut r = Random(seed);
    let keys = (k as u32 - 1).min(8);
    let mut tables = vec![table((0..keys).map(|a| (a, vec![a; n])).collect())];
    for j in 0..k as u32 - 1 {
        tables.push(table(vec![(j % keys, vec![j % keys]), (keys + j, r.any(1))]));
    }
    Input::new(tables, left_deep(k))
}

/// The same tables and plan, with one value in 16 not recorded: keys, and values that one table alone has.
fn partly_recorded(input: Input, seed: u64) -> Input {
    let mut r = Random(!seed);
    let mut tables = input.tables;
    for value in tables.iter_mut().flat_map(|t| &mut t.columns).flatten() {
        if r.below(16) == 0 {
            *value = NOT_RECORDED;
        }
    }
    Input::new(tables, input.followed)
}

/// The chain with a left-deep plan: from some table on, at each join the next one at either end.
fn left_deep_chain(k: usize, n: usize, seed: u64) -> Input {
    let mut r = Random(!seed);
    let first = r.below(k);
    let (mut low, mut high) = (first, first + 1);
    let mut plan = Leaf(first);
    while high - low < k {
        if high == k || low > 0 && r.below(2) == 0 {
            low -= 1;
            plan = join(plan, Leaf(low));
        } else {
            plan = join(plan, Leaf(high));
            high += 1;
        }
    }
    Input::new(chain(k, n, seed).tables, plan)
}

/// The same tables, with the sides of about every second join exchanged. They are others for each seed, but never leave the plan
/// well-behaved.
fn sides_exchanged(input: Input, seed: u64) -> Input {
    let mut r = Random(!seed);
    loop {
        let plan = input.followed.exchanged(&mut || r.below(2) == 0);
        if plan.mended(&input.tables).as_ref() != Some(&plan) {
            return Input::new(input.tables, plan);
        }
    }
}

/// The star with the sides of every join exchanged: the middle table, which every join needs, lies right at all of them.
fn mirrored_star(k: usize, n: usize, seed: u64) -> Input {
    let Input { tables, followed, .. } = star(k, n, seed);
    Input::new(tables, followed.exchanged(&mut || true))
}

/// 15 tables of the same two attributes and one that shares the second, each row with one partner in each. The one is named last.
fn equal_masks(n: usize, seed: u64) -> Input {
    let mut r = Random(seed);
    let mut tables: Vec<Table> = (0..15)
        .map(|_| {
            let key = r.permutation(n);
            table(vec![(0, key.iter().map(|v| v / 2).collect()), (1, key)])
        })
        .collect();
    tables.push(table(vec![(1, r.permutation(n)), (2, r.any(n))]));
    Input::new(tables, left_deep(16))
}

/// The same tables with the worst plan to mend that was found. The sides are as deep as they can be, all tables of a side can be
/// its root but for one table at one join, and this join alone breaks the rule.
fn worst_to_mend(n: usize, seed: u64) -> Input {
    Input::new(equal_masks(n, seed).tables, join(join(Leaf(15), left_deep(14)), Leaf(14)))
}

/// The chain with its first table as the last one, so that as many tables as can be are tried before one is hung: of those that remain
/// the two highest can be.
fn worst_to_find(k: usize, n: usize, seed: u64) -> Input {
    let mut tables = chain(k, n, seed).tables;
    tables.rotate_left(1);
    Input::without_plan(tables)
}

/// Tables that share nothing: every row finds every row.
fn nothing_shared(k: usize, n: usize, seed: u64) -> Input {
    let mut r = Random(seed);
    Input::without_plan((0..k as u32).map(|i| table(vec![(i, r.any(n))])).collect())
}

/// Frames and one reading of 900 copies, all of one key. Frames are table 0, the reading is table 1; the plan names them in this order.
fn one_reading([first, second]: [usize; 2], n: usize, seed: u64) -> Input {
    let mut r = Random(seed);
    let frames = table(vec![(0, vec![77; n]), (1, r.any(n))]);
    let reading = table(vec![(0, vec![77]), (2, r.any(1))]).with_copies(vec![900]);
    Input::new(vec![frames, reading], join(Leaf(first), Leaf(second)))
}

/// Frames with a key of their own each, and for each of them one reading of 8 copies.
fn own_readings(n: usize, seed: u64) -> Input {
    let mut r = Random(seed);
    let frames = table(vec![(0, r.permutation(n)), (1, r.any(n))]);
    let readings = table(vec![(0, r.permutation(n)), (2, r.any(n))]).with_copies(vec![8; n]);
    Input::new(vec![frames, readings], left_deep(2))
}

/// The chain with 4 copies of each row in every second table: the 2nd, the 4th and so on.
fn copied_chain(k: usize, n: usize, seed: u64) -> Input {
    let Input { tables, followed, .. } = chain(k, n, seed);
    let copied = |(i, t): (usize, Table)| if i % 2 == 1 { t.with_copies(vec![4; n]) } else { t };
    Input::new(tables.into_iter().enumerate().map(copied).collect(), followed)
}

/// A shape with a number of rows, in each table or as the shape says, and the files of it: one for each seed.
pub struct Case {
    pub shape: String,
    pub rows: usize,
    make: Rc<dyn Fn(u64) -> Input>,
}

impl Case {
    pub fn name(&self) -> String {
        format!("{} x {}", self.shape, self.rows)
    }

    pub fn first(&self) -> Input {
        (self.make)(1)
    }

    /// As many files as have 4,096 rows a table together, but at most 64. Run in turn, they leave a machine's caches and its
    /// prediction of branches as much to forget at few rows as at many.
    pub fn files(&self) -> Vec<Input> {
        (1..=(4096 / self.rows.max(1)).min(64) as u64).map(|seed| (self.make)(seed)).collect()
    }

    /// The same tables in files whose plans are the ones that are followed, where these are mended or found.
    pub fn partner(&self) -> Option<Case> {
        let first = self.first();
        first.partner()?;
        let how = if first.plan.is_some() { "mended" } else { "found" };
        let make = self.make.clone();
        let partner = move |seed| make(seed).partner().expect("a plan that is mended or found");
        Some(case(&format!("{}, {how}", self.shape), self.rows, partner))
    }
}

type Shape = fn(usize, usize, u64) -> Input;

/// Each shape, and its tables with plans that are not well-behaved.
const SHAPES: [(&str, Shape, &str, Shape); 3] = [
    ("chain", chain, "left-deep", left_deep_chain),
    ("star", star, "sides exchanged", |k, n, seed| sides_exchanged(star(k, n, seed), seed)),
    ("snowflake", snowflake, "sides exchanged", |k, n, seed| sides_exchanged(snowflake(k, n, seed), seed)),
];

fn case(shape: &str, rows: usize, make: impl Fn(u64) -> Input + 'static) -> Case {
    Case { shape: shape.into(), rows, make: Rc::new(make) }
}

/// The shapes by their numbers of tables. Plans that are not well-behaved stand behind those that are.
fn shapes() -> Vec<Case> {
    let mut all = Vec::new();
    for (name, shape, how, ill_behaved) in SHAPES {
        for k in [5, 9, 16] {
            for n in [64, 512, 4096] {
                all.push(case(&format!("{name} of {k}"), n, move |seed| shape(k, n, seed)));
                if n == 64 || (k, n) == (16, 512) {
                    all.push(case(&format!("{name} of {k}, {how}"), n, move |seed| ill_behaved(k, n, seed)));
                }
                if (name, k, n) == ("star", 16, 64) {
                    all.push(case("star of 16, all sides exchanged", n, move |seed| mirrored_star(k, n, seed)));
                }
            }
        }
    }
    all.push(case("equal masks of 16", 64, |seed| equal_masks(64, seed)));
    all.push(case("equal masks of 16, worst to mend", 64, |seed| worst_to_mend(64, seed)));
    all
}

pub fn all() -> Vec<Case> {
    let mut all = vec![case("sample", 4, |_| sample())];
    all.extend(shapes());
    let others: [(&str, fn(usize, u64) -> Input); 12] = [
        ("dangling chain of 9", |n, seed| dangling_chain(9, n, seed)),
        ("dangling star of 9", |n, seed| dangling_star(9, n, seed)),
        ("poor chain of 3", poor_chain),
        ("poor star of 4", poor_star),
        ("fan-out of 2", fan_out),
        ("keys of 2, chain of 3", pairs),
        ("keys against a hash, chain of 5", |n, seed| against_hash(5, n, seed)),
        ("keys of 20 zero bits, chain of 5", |n, seed| low_bits_equal(5, n, seed)),
        ("keys of 2, 1 shared", |n, seed| shared_leading(2, n, seed)),
        ("keys of 8, 7 shared", |n, seed| shared_leading(8, n, seed)),
        ("not recorded, snowflake of 9", |n, seed| partly_recorded(snowflake(9, n, seed), seed)),
        ("not recorded, keys of 2", |n, seed| partly_recorded(pairs(n, seed), seed)),
    ];
    for (name, shape) in others {
        for n in [512, 4096] {
            all.push(case(name, n, move |seed| shape(n, seed)));
        }
    }
    all
}

/// Files without a plan: the shapes, and tables that are hung in other ways.
pub fn without_plan() -> Vec<Case> {
    let mut all = Vec::new();
    for (name, shape, ..) in SHAPES {
        for (k, n) in [(5, 64), (9, 64), (16, 64), (16, 512)] {
            all.push(case(&format!("{name} of {k}, no plan"), n, move |seed| Input::without_plan(shape(k, n, seed).tables)));
        }
    }
    all.push(case("equal masks of 16, no plan", 64, |seed| Input::without_plan(equal_masks(64, seed).tables)));
    all.push(case("chain of 16, worst to find, no plan", 64, |seed| worst_to_find(16, 64, seed)));
    all.push(case("nothing shared by 16, no plan", 1, |seed| nothing_shared(16, 1, seed)));
    all
}

/// Files of growing size that have few choices of rows, shape after shape.
pub fn few_choices() -> Vec<Case> {
    let mut all = Vec::new();
    let mut add = |shape: &str, sizes: &[usize], make: fn(usize, u64) -> Input| {
        all.extend(sizes.iter().map(|&n| case(shape, n, move |seed| make(n, seed))));
    };
    add("one table", &[0, 1, 4096], |n, seed| one_partner(1, n, seed));
    add("one partner, chain of 2", &[0, 1, 2, 3, 4, 8, 32, 1024], |n, seed| one_partner(2, n, seed));
    add("one partner, chain of 3", &[1, 2, 4, 101], |n, seed| one_partner(3, n, seed));
    add("one partner, chain of 16", &[1, 2], |n, seed| one_partner(16, n, seed));
    add("few rows before 4096", &[0, 1, 2, 3, 4], |n, seed| few_before(n, 4096, seed));
    add("scratch of 16384, chain of 2", &[1, 4, 8, 12, 16], |n, seed| longer_scratch(one_partner(2, n, seed)));
    all
}

/// Files whose results are reached by their numbers, shape after shape.
pub fn by_number() -> Vec<Case> {
    let mut all = Vec::new();
    let mut add = |shape: &str, sizes: &[usize], make: fn(usize, u64) -> Input| {
        all.extend(sizes.iter().map(|&n| case(shape, n, move |seed| make(n, seed))));
    };
    add("star of 5", &[64, 512, 4096], |n, seed| star(5, n, seed));
    add("star of 16", &[4096], |n, seed| star(16, n, seed));
    add("fan-out of 2", &[512, 4096], fan_out);
    add("one table", &[4096], |n, seed| one_partner(1, n, seed));
    add("nothing shared by 2", &[16, 64, 128, 256, 512], |n, seed| Input::new(nothing_shared(2, n, seed).tables, left_deep(2)));
    add("long lists, chain of 9", &[4096], |n, _| long_lists(9, n));
    add("long spine, star of 16", &[4096], |n, seed| long_spine(16, n, seed));
    add("fan-out star of 3", &[4096], |n, seed| fan_out_star(3, 16, n, seed));
    add("fan-out star of 4", &[4096], |n, seed| fan_out_star(4, 64, n, seed));
    // More results than a word can count.
    add("fan-out star of 5", &[4096], |n, seed| fan_out_star(5, 64, n, seed));
    add("nothing shared by 5", &[4096], |n, seed| Input::new(nothing_shared(5, n, seed).tables, left_deep(5)));
    all
}

/// Files whose rows have copies, shape after shape.
pub fn with_copies() -> Vec<Case> {
    let mut all = Vec::new();
    let mut add = |shape: &str, sizes: &[usize], make: fn(usize, u64) -> Input| {
        all.extend(sizes.iter().map(|&n| case(shape, n, move |seed| make(n, seed))));
    };
    add("frames, then one reading of 900 copies", &[1, 200], |n, seed| one_reading([0, 1], n, seed));
    add("one reading of 900 copies, then frames", &[1, 200], |n, seed| one_reading([1, 0], n, seed));
    add("frames, a reading of 8 copies for each", &[512], own_readings);
    add("chain of 5, 4 copies in the 2nd and 4th", &[64], |n, seed| copied_chain(5, n, seed));
    all
}
