//! Mending and finding once more from the words of the requests, plainly and slowly: every tree that is asked about is built. The
//! tests hold `mending` and `finding` to it.

use crate::plans::Plan;
use crate::twin::Table;

struct Tree {
    table: usize,
    children: Vec<Tree>,
}

impl Tree {
    /// Hangs a tree last under the topmost table that holds some attributes: one of the least depth.
    fn hang(&mut self, tables: &[Table; 16], key: u32, hung: Tree) {
        let mut level = vec![self];
        loop {
            assert!(!level.is_empty());
            if let Some(i) = level.iter().position(|t| holds(tables, t.table, key)) {
                return level.swap_remove(i).children.push(hung);
            }
            level = level.into_iter().flat_map(|t| &mut t.children).collect();
        }
    }

    /// A table joins its children's plans in turn.
    fn code(&self) -> Vec<u8> {
        let own = [vec![255; self.children.len()], vec![self.table as u8]].concat();
        self.children.iter().fold(own, |code, child| [code, child.code()].concat())
    }
}

fn holds(tables: &[Table; 16], table: usize, key: u32) -> bool {
    tables[table].mask & key == key
}

fn join_attributes(tables: &[Table; 16], left: &Plan, right: &Plan) -> u32 {
    let all = |plan: &Plan| plan.order().iter().fold(0, |m, &t| m | tables[t].mask);
    all(left) & all(right)
}

/// The tables of a plan that hold some attributes, the first named first.
fn holders(tables: &[Table; 16], plan: &Plan, key: u32) -> Vec<usize> {
    plan.order().into_iter().filter(|&t| holds(tables, t, key)).collect()
}

/// The tree of a plan for a root, and its penalty.
fn tree(tables: &[Table; 16], plan: &Plan, root: usize) -> (Tree, u32) {
    let Plan::Join(left, right) = plan else { return (Tree { table: root, children: Vec::new() }, 0) };
    let key = join_attributes(tables, left, right);
    let root_left = left.order().contains(&root);
    let (near, far) = if root_left { (left, right) } else { (right, left) };
    let added = |root: usize| if root_left { 0 } else { tables[root].rows as u32 };
    let choices = holders(tables, far, key).into_iter().map(|b| {
        let (hung, penalty) = tree(tables, far, b);
        (hung, penalty + added(b))
    });
    let (hung, more) = first_least(choices);
    let (mut tree, penalty) = tree(tables, near, root);
    tree.hang(tables, key, hung);
    (tree, penalty + more)
}

/// The first of those with the least penalty.
fn first_least(choices: impl Iterator<Item = (Tree, u32)>) -> (Tree, u32) {
    choices.reduce(|best, next| if next.1 < best.1 { next } else { best }).expect("a table that holds the join attributes")
}

/// The first FF whose join has a side where no table holds the join attributes.
fn unheld(tables: &[Table; 16], plan: &Plan, at: usize) -> Option<usize> {
    let Plan::Join(left, right) = plan else { return None };
    let key = join_attributes(tables, left, right);
    if [left, right].iter().any(|side| holders(tables, side, key).is_empty()) {
        return Some(at);
    }
    unheld(tables, left, at + 1).or_else(|| unheld(tables, right, at + 1 + left.code().len()))
}

/// The bytes of the mended plan and its penalty, or the detail of answer 9.
pub fn mend(tables: &[Table; 16], plan: &Plan) -> Result<(Vec<u8>, u32), usize> {
    if let Some(at) = unheld(tables, plan, 0) {
        return Err(at);
    }
    let (tree, penalty) = first_least(plan.order().into_iter().map(|root| tree(tables, plan, root)));
    Ok((tree.code(), penalty))
}

/// The penalties of all selections of roots for a root of the plan.
fn penalties(tables: &[Table; 16], plan: &Plan, root: usize) -> Vec<u32> {
    let Plan::Join(left, right) = plan else { return vec![0] };
    let key = join_attributes(tables, left, right);
    let root_left = left.order().contains(&root);
    let (near, far) = if root_left { (left, right) } else { (right, left) };
    let mut all = Vec::new();
    for b in holders(tables, far, key) {
        let added = if root_left { 0 } else { tables[b].rows as u32 };
        for more in penalties(tables, far, b) {
            all.extend(penalties(tables, near, root).iter().map(|p| p + more + added));
        }
    }
    all
}

/// The least penalty over all selections of roots.
pub fn least_penalty(tables: &[Table; 16], plan: &Plan) -> u32 {
    plan.order().iter().flat_map(|&root| penalties(tables, plan, root)).min().expect("a selection")
}

/// The table under which one of those that remain can be hung.
fn hangs_under(tables: &[Table; 16], rest: &[usize], t: usize) -> Option<usize> {
    let others: Vec<usize> = rest.iter().copied().filter(|&u| u != t).collect();
    let shared = others.iter().fold(0, |m, &u| m | tables[u].mask) & tables[t].mask;
    others.into_iter().find(|&u| holds(tables, u, shared))
}

/// The tables that are hung, in turn, each with the one under which it hangs; and those that remain.
pub fn hung(tables: &[Table; 16], count: usize) -> (Vec<(usize, usize)>, Vec<usize>) {
    let (mut hung, mut rest) = (Vec::new(), (0..count).collect::<Vec<_>>());
    while let Some(next) = rest.iter().find_map(|&t| Some((t, hangs_under(tables, &rest, t)?))) {
        hung.push(next);
        rest.retain(|&t| t != next.0);
    }
    (hung, rest)
}

/// The tree of a table and what hangs under it, children in rising number.
fn tree_of_hung(hung: &[(usize, usize)], table: usize) -> Tree {
    let mut children: Vec<usize> = hung.iter().filter(|h| h.1 == table).map(|h| h.0).collect();
    children.sort();
    Tree { table, children: children.into_iter().map(|t| tree_of_hung(hung, t)).collect() }
}

/// The bytes of the plan that is found, or the detail of answer 14.
pub fn find(tables: &[Table; 16], count: usize) -> Result<Vec<u8>, usize> {
    match hung(tables, count) {
        (hung, rest) if rest.len() == 1 => Ok(tree_of_hung(&hung, rest[0]).code()),
        (_, rest) => Err(rest[0]),
    }
}

/// Whether at every join both leftmost tables hold the join attributes.
pub fn well_behaved(tables: &[Table; 16], plan: &Plan) -> bool {
    let Plan::Join(left, right) = plan else { return true };
    let key = join_attributes(tables, left, right);
    let sides = [left, right];
    sides.iter().all(|side| holds(tables, side.order()[0], key) && well_behaved(tables, side))
}
