//! SQLite in memory, through its C library. The tables are loaded and the statement is prepared before the time is taken; a run
//! steps through all rows that it is asked for and reads every value. A value that was not recorded is NULL there, which matches
//! nothing.

use std::ffi::{c_char, c_int, c_void, CStr, CString};
use std::ptr::null_mut;

use crate::inputs::{Input, NOT_RECORDED};

#[repr(C)]
struct Database(c_void);

#[repr(C)]
struct Statement(c_void);

extern "C" {
    fn sqlite3_open(name: *const c_char, database: *mut *mut Database) -> c_int;
    fn sqlite3_close(database: *mut Database) -> c_int;
    fn sqlite3_errmsg(database: *mut Database) -> *const c_char;
    fn sqlite3_libversion() -> *const c_char;
    fn sqlite3_prepare_v2(
        database: *mut Database,
        sql: *const c_char,
        length: c_int,
        statement: *mut *mut Statement,
        tail: *mut *const c_char,
    ) -> c_int;
    fn sqlite3_bind_int64(statement: *mut Statement, index: c_int, value: i64) -> c_int;
    fn sqlite3_bind_null(statement: *mut Statement, index: c_int) -> c_int;
    fn sqlite3_step(statement: *mut Statement) -> c_int;
    fn sqlite3_reset(statement: *mut Statement) -> c_int;
    fn sqlite3_column_int64(statement: *mut Statement, index: c_int) -> i64;
    fn sqlite3_column_type(statement: *mut Statement, index: c_int) -> c_int;
    fn sqlite3_finalize(statement: *mut Statement) -> c_int;
}

const ROW: c_int = 100;
const DONE: c_int = 101;
const NULL: c_int = 5;

pub fn version() -> String {
    unsafe { CStr::from_ptr(sqlite3_libversion()) }.to_string_lossy().into_owned()
}

#[derive(Clone, Copy, PartialEq)]
pub enum Order {
    /// CROSS JOIN keeps SQLite to the order of tables of the plan that is followed.
    Forced,
    Free,
}

/// How results are asked for from a number on. The order of tables is forced.
#[derive(Clone, Copy, PartialEq)]
pub enum Paging {
    /// In the order in which SQLite comes upon them, which it does not promise.
    AsTheyCome,
    /// In the library's order: by the row numbers of the tables, in plan order.
    Ordered,
    /// The same, with an index of each table's join attributes, made before the time is taken.
    Indexed,
}

/// A loaded database and its prepared join.
pub struct Query {
    database: *mut Database,
    statement: *mut Statement,
    width: usize,
}

unsafe fn prepare(database: *mut Database, sql: &str) -> *mut Statement {
    let text = CString::new(sql).unwrap();
    let mut statement = null_mut();
    let code = sqlite3_prepare_v2(database, text.as_ptr(), -1, &mut statement, null_mut());
    assert_eq!(code, 0, "{sql}: {:?}", CStr::from_ptr(sqlite3_errmsg(database)));
    statement
}

unsafe fn execute(database: *mut Database, sql: &str) {
    let statement = prepare(database, sql);
    assert_eq!(sqlite3_step(statement), DONE);
    sqlite3_finalize(statement);
}

/// The attributes by which each table but the first, in plan order, is joined to those before it; and for each the place of the
/// first table that has it.
fn join_attributes(input: &Input, order: &[usize]) -> Vec<Vec<(u32, usize)>> {
    let shared = |i: usize| {
        let attributes = input.tables[order[i]].attributes.iter();
        attributes.filter_map(|&a| first_with(input, order, a).filter(|&f| f < i).map(|f| (a, f))).collect()
    };
    (1..order.len()).map(shared).collect()
}

/// The place in plan order of the first table that has an attribute.
fn first_with(input: &Input, order: &[usize], attribute: u32) -> Option<usize> {
    order.iter().position(|&t| input.tables[t].attributes.contains(&attribute))
}

fn select(input: &Input, order: Order) -> String {
    let tables = input.followed.order();
    let value = |a: u32| first_with(input, &tables, a).map(|i| format!("t{}.a{a}", tables[i]));
    let mut sql = format!("SELECT {} FROM t{}", (0..32).filter_map(value).collect::<Vec<_>>().join(", "), tables[0]);
    for (t, shared) in tables[1..].iter().zip(join_attributes(input, &tables)) {
        let equal: Vec<String> = shared.iter().map(|&(a, f)| format!("t{}.a{a} = t{t}.a{a}", tables[f])).collect();
        sql += if order == Order::Forced { " CROSS JOIN " } else { " JOIN " };
        sql += &format!("t{t}");
        if !equal.is_empty() {
            sql += &format!(" ON {}", equal.join(" AND "));
        }
    }
    sql
}

/// The same results, as many as are bound first, from the number on that is bound second.
fn select_page(input: &Input, paging: Paging) -> String {
    let rows: Vec<String> = input.followed.order().iter().map(|t| format!("t{t}.rowid")).collect();
    let order = if paging == Paging::AsTheyCome { String::new() } else { format!(" ORDER BY {}", rows.join(", ")) };
    format!("{}{order} LIMIT ? OFFSET ?", select(input, Order::Forced))
}

/// A database in memory that has the tables of a file.
unsafe fn load(input: &Input) -> *mut Database {
    let mut database = null_mut();
    assert_eq!(sqlite3_open(c":memory:".as_ptr(), &mut database), 0);
    execute(database, "BEGIN");
    for (t, table) in input.tables.iter().enumerate() {
        let names: Vec<String> = table.attributes.iter().map(|a| format!("a{a} INTEGER")).collect();
        execute(database, &format!("CREATE TABLE t{t}({})", names.join(", ")));
        let marks = vec!["?"; names.len()].join(", ");
        let insert = prepare(database, &format!("INSERT INTO t{t} VALUES({marks})"));
        for y in 0..table.rows() {
            for (c, column) in table.columns.iter().enumerate() {
                let code = match column[y] {
                    NOT_RECORDED => sqlite3_bind_null(insert, c as c_int + 1),
                    v => sqlite3_bind_int64(insert, c as c_int + 1, v as i64),
                };
                assert_eq!(code, 0);
            }
            assert_eq!(sqlite3_step(insert), DONE);
            sqlite3_reset(insert);
        }
        sqlite3_finalize(insert);
    }
    execute(database, "COMMIT");
    database
}

/// Indexes of the join attributes of the tables.
unsafe fn make_indexes(database: *mut Database, input: &Input) {
    let tables = input.followed.order();
    for (t, shared) in tables[1..].iter().zip(join_attributes(input, &tables)) {
        let names: Vec<String> = shared.iter().map(|(a, _)| format!("a{a}")).collect();
        if !names.is_empty() {
            execute(database, &format!("CREATE INDEX i{t} ON t{t}({})", names.join(", ")));
        }
    }
}

impl Query {
    pub fn new(input: &Input, order: Order) -> Query {
        unsafe { Query::prepared(load(input), &select(input, order), input.width) }
    }

    /// A query of results from a number on, for `page`.
    pub fn of_pages(input: &Input, paging: Paging) -> Query {
        unsafe {
            let database = load(input);
            if paging == Paging::Indexed {
                make_indexes(database, input);
            }
            Query::prepared(database, &select_page(input, paging), input.width)
        }
    }

    unsafe fn prepared(database: *mut Database, sql: &str, width: usize) -> Query {
        Query { database, statement: prepare(database, sql), width }
    }

    /// The values of at most `count` results from number n on.
    pub fn page(&mut self, n: u64, count: u64) -> Vec<u32> {
        for (i, value) in [(1, count), (2, n)] {
            assert_eq!(unsafe { sqlite3_bind_int64(self.statement, i, value as i64) }, 0);
        }
        self.run()
    }

    /// The results' values, one row behind the other, in SQLite's order.
    pub fn run(&mut self) -> Vec<u32> {
        let mut values = Vec::new();
        unsafe {
            while sqlite3_step(self.statement) == ROW {
                // SQLite reads NULL as 0.
                values.extend((0..self.width as c_int).map(|c| match sqlite3_column_int64(self.statement, c) {
                    0 if sqlite3_column_type(self.statement, c) == NULL => NOT_RECORDED,
                    v => v as u32,
                }));
            }
            assert_eq!(sqlite3_reset(self.statement), 0);
        }
        values
    }
}

impl Drop for Query {
    fn drop(&mut self) {
        unsafe {
            sqlite3_finalize(self.statement);
            sqlite3_close(self.database);
        }
    }
}
