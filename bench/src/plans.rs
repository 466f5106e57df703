//! A plan as a tree: its bytes, and what is followed in its place where it is not well-behaved, or where there is none.

use crate::inputs::Table;
use crate::{finding, mending, twin};

#[derive(Clone, PartialEq, Debug)]
pub enum Plan {
    Table(usize),
    Join(Box<Plan>, Box<Plan>),
}

use Plan::Table as Leaf;

pub fn join(left: Plan, right: Plan) -> Plan {
    Plan::Join(Box::new(left), Box::new(right))
}

pub fn right_deep(tables: usize) -> Plan {
    (0..tables - 1).rev().fold(Leaf(tables - 1), |right, t| join(Leaf(t), right))
}

pub fn left_deep(tables: usize) -> Plan {
    (1..tables).fold(Leaf(0), |left, t| join(left, Leaf(t)))
}

/// Tables as a plan knows them, without their columns.
fn shapes(tables: &[Table]) -> [twin::Table; 16] {
    std::array::from_fn(|t| tables.get(t).map_or(twin::Table::default(), |t| twin::Table::shape(t.mask(), t.rows())))
}

impl Plan {
    /// The plan that bytes spell. Bytes behind it are left alone.
    pub fn spelled(code: &mut impl Iterator<Item = u8>) -> Plan {
        match code.next().expect("the byte of a plan") {
            255 => {
                let left = Plan::spelled(code);
                join(left, Plan::spelled(code))
            }
            t => Leaf(t as usize),
        }
    }

    pub fn code(&self) -> Vec<u8> {
        match self {
            Leaf(t) => vec![*t as u8],
            Plan::Join(l, r) => [vec![255], l.code(), r.code()].concat(),
        }
    }

    /// The tables in plan order.
    pub fn order(&self) -> Vec<usize> {
        match self {
            Leaf(t) => vec![*t],
            Plan::Join(l, r) => [l.order(), r.order()].concat(),
        }
    }

    /// The rows of the left plan's leftmost table, summed over joins.
    pub fn left_rows(&self, tables: &[Table]) -> usize {
        match self {
            Leaf(_) => 0,
            Plan::Join(l, r) => tables[l.order()[0]].rows() + l.left_rows(tables) + r.left_rows(tables),
        }
    }

    /// The plan that is followed: the mended one, which is the same if the plan is well-behaved. Nothing where answer 9 is due.
    pub fn mended(&self, tables: &[Table]) -> Option<Plan> {
        let code = mending::mend(&self.code(), &shapes(tables)).ok()?;
        Some(Plan::spelled(&mut code.into_iter()))
    }

    /// The plan that is found for tables without one. Nothing where answer 14 is due.
    pub fn found(tables: &[Table]) -> Option<Plan> {
        let code = finding::find(&shapes(tables), tables.len()).ok()?;
        Some(Plan::spelled(&mut code.into_iter()))
    }

    /// The plan with the sides of some joins exchanged.
    pub fn exchanged(&self, exchange: &mut impl FnMut() -> bool) -> Plan {
        let Plan::Join(l, r) = self else { return self.clone() };
        let (left, right) = (l.exchanged(exchange), r.exchanged(exchange));
        if exchange() {
            join(right, left)
        } else {
            join(left, right)
        }
    }
}
