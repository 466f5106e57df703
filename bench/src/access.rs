//! Results by number: whether the library's two functions for them agree with the join and undo each other; and what a result by its
//! number costs beside the join with and without writing, and beside SQLite's OFFSET.

use std::cell::RefCell;
use std::fmt::Debug;
use std::hint::black_box;

use crate::inputs::{Case, Input, Random, Table, NOT_RECORDED};
use crate::library::{self, Answer, NumberAnswer, ResultAnswer};
use crate::sqlite::{Paging, Query};
use crate::{check_alone, per_file, print_heads, print_row, ratio, slow, times, twin, Buffers, Column, OUTPUT_WORDS};

/// So many results, or more, are counted as so many, and are not numbered.
pub const HOLD_LIMIT: u64 = u64::MAX;

/// The results of a page.
const PAGE: u64 = 40;

/// What the buffers hold before a call that is checked.
const BEFORE: u32 = 7;

/// Of a file so many results are checked that the library goes through that many rows, and at least `FEWEST`.
const GROUPED_ROWS: usize = 160_000;
const FEWEST: usize = 3;

/// How many results SQLite is made to pass over at most.
const MOST_PASSED: u64 = 10_000_000;

/// Whether the join groups the rows before it gives this answer.
pub fn grouped(answer: &Answer) -> bool {
    matches!(answer.number, 0 | 11)
}

/// The number of results, by the answer of a join that grouped the rows.
pub fn total(answer: &Answer) -> u64 {
    answer.rows.max(answer.detail)
}

/// A file and buffers for it. Every call must leave them as it has to.
struct Reader<'a> {
    name: &'a dyn Debug,
    file: &'a [u8],
    scratch: Vec<u32>,
    row: Vec<u32>,
    width: usize,
}

impl<'a> Reader<'a> {
    /// A row buffer has one word more than the values of a row. Their number is asked for.
    fn new(name: &'a dyn Debug, file: &'a [u8], scratch_words: usize) -> Reader<'a> {
        let mut reader = Reader { name, file, scratch: vec![BEFORE; scratch_words], row: Vec::new(), width: 0 };
        let answer = reader.result(u64::MAX);
        assert_eq!(answer, ResultAnswer::refused(18, answer.detail), "{name:?}");
        reader.width = answer.detail as usize;
        reader.row = vec![BEFORE; reader.width + 1];
        reader
    }

    fn result(&mut self, n: u64) -> ResultAnswer {
        self.scratch.fill(BEFORE);
        self.row.fill(BEFORE);
        let answer = library::result_at(self.file, &mut self.scratch, n, &mut self.row);
        let written = if answer.number == 0 { self.width } else { 0 };
        assert!(self.row[written..].iter().all(|&w| w == BEFORE), "{:?}: row buffer of result {n}", self.name);
        assert!(self.scratch.iter().all(|&w| w == 0), "{:?}: scratch of result {n}", self.name);
        answer
    }

    fn number(&mut self, rows: &[u32]) -> NumberAnswer {
        self.scratch.fill(BEFORE);
        let answer = library::number_of(self.file, &mut self.scratch, rows);
        assert!(self.scratch.iter().all(|&w| w == 0), "{:?}: scratch of rows {rows:?}", self.name);
        answer
    }

    /// The row numbers of a result. The way back from them must give its number.
    fn there_and_back(&mut self, n: u64, tables: usize) -> [u32; 16] {
        let answer = self.result(n);
        assert_eq!((answer.number, answer.detail), (0, 0), "{:?}: result {n}", self.name);
        assert!(answer.rows[tables..].iter().all(|&y| y == 0), "{:?}: rows of result {n}", self.name);
        let expected = NumberAnswer { number: 0, detail: 0, n };
        assert_eq!(self.number(&answer.rows[..tables]), expected, "{:?}: way back from result {n}", self.name);
        answer.rows
    }

    /// The first number that no result has must be refused, and before that a row buffer that is too short.
    fn check_numbers_refused(&mut self, total: u64) {
        assert_eq!(self.result(total), ResultAnswer::refused(16, total), "{:?}: result {total}", self.name);
        let mut short = vec![BEFORE; self.width - 1];
        let answer = library::result_at(self.file, &mut self.scratch, total, &mut short);
        assert_eq!(answer, ResultAnswer::refused(18, self.width as u64), "{:?}: short row buffer", self.name);
        assert!(short.iter().all(|&w| w == BEFORE), "{:?}: short row buffer", self.name);
    }
}

/// What the join refuses before it groups, by 1 to 10 and 14, both functions must refuse with the same answer, and leave the buffers as
/// they were.
fn check_refused(name: &dyn Debug, file: &[u8], scratch_words: usize, answer: &Answer) {
    let (mut scratch, mut row) = (vec![BEFORE; scratch_words], [BEFORE; 32]);
    let result = library::result_at(file, &mut scratch, 0, &mut row);
    assert_eq!(result, ResultAnswer::refused(answer.number, answer.detail), "{name:?}: refusal of result 0");
    let number = library::number_of(file, &mut scratch, &[0]);
    assert_eq!(number, NumberAnswer::refused(answer.number, answer.detail), "{name:?}: refusal of row numbers");
    assert!(scratch.iter().chain(&row).all(|&w| w == BEFORE), "{name:?}: buffers after a refusal");
}

/// Where the total is held, both functions must say so, also where other things are wrong.
fn check_held(name: &dyn Debug, file: &[u8], scratch_words: usize) {
    let mut scratch = vec![BEFORE; scratch_words];
    let answer = library::result_at(file, &mut scratch, 0, &mut []);
    assert_eq!(answer, ResultAnswer::refused(11, HOLD_LIMIT), "{name:?}: total that is held");
    assert_eq!(
        library::number_of(file, &mut scratch, &[]),
        NumberAnswer::refused(11, HOLD_LIMIT),
        "{name:?}: total that is held"
    );
    assert!(scratch.iter().all(|&w| w == 0), "{name:?}: scratch where the total is held");
}

/// For bytes of which nothing is known but what the join says and leaves in the output, with that many words of scratch: both functions
/// must refuse what it refuses, and give each of its rows.
pub fn check_bytes(file: &[u8], tables: usize, scratch_words: usize, (answer, output): (&Answer, &[u32])) {
    if !grouped(answer) {
        return check_refused(&file, file, scratch_words, answer);
    }
    if total(answer) >= HOLD_LIMIT {
        return check_held(&file, file, scratch_words);
    }
    let mut reader = Reader::new(&file, file, scratch_words);
    for n in 0..answer.rows {
        reader.there_and_back(n, tables);
        let w = reader.width;
        assert_eq!(reader.row[..w], output[n as usize * w..][..w], "{file:?}: values of result {n}");
    }
    reader.check_numbers_refused(total(answer));
}

/// The values of the result with these rows, attributes rising; or nothing where they are the rows of no result.
fn values(tables: &[Table], rows: &[u32]) -> Option<Vec<u32>> {
    let mut values = [None; 32];
    for (table, &y) in tables.iter().zip(rows) {
        for (&a, column) in table.attributes.iter().zip(&table.columns) {
            let value = *column.get(y as usize)?;
            if values[a as usize].is_some_and(|v| v != value || v == NOT_RECORDED) {
                return None;
            }
            values[a as usize] = Some(value);
        }
    }
    Some(values.into_iter().flatten().collect())
}

/// Numbers below a total, rising: all of them, or so many with the first and the last.
fn numbers(total: u64, most: usize) -> Vec<u64> {
    if total <= most as u64 {
        return (0..total).collect();
    }
    let mut r = Random(total);
    let mut some: Vec<u64> = (2..most).map(|_| r.next() % total).chain([0, total - 1]).collect();
    some.sort();
    some.dedup();
    some
}

/// How many results of a file are checked, where it has more.
fn most_checked(input: &Input) -> usize {
    (GROUPED_ROWS / input.tables.iter().map(Table::rows).sum::<usize>().max(1)).max(FEWEST)
}

/// The two functions must give the results of the join, whose answer and output are given, and undo each other: on all results or on
/// `most` of them. The row numbers must be those of rows that agree, and rise with the numbers in plan order; so if all results are
/// checked, no row number can be another one. How many results were checked.
fn check_results(reader: &mut Reader, input: &Input, most: usize, (answer, output): (&Answer, &[u32])) -> usize {
    let name = reader.name;
    assert_eq!(reader.width, input.width, "{name:?}: values of a row");
    let order = input.followed.order();
    let mut before = Vec::new();
    let numbers = numbers(total(answer), most);
    for (i, &n) in numbers.iter().enumerate() {
        let rows = reader.there_and_back(n, order.len());
        let row = &reader.row[..input.width];
        assert_eq!(values(&input.tables, &rows).as_deref(), Some(row), "{name:?}: rows of result {n}");
        if answer.number == 0 {
            assert_eq!(row, &output[n as usize * input.width..][..input.width], "{name:?}: values of result {n}");
        }
        let placed: Vec<u32> = order.iter().map(|&t| rows[t]).collect();
        assert!(before < placed, "{name:?}: order of result {n}");
        before = placed;
        if i % 4 == 0 {
            check_rows(reader, input, changed(&rows[..order.len()], input, n));
        }
    }
    reader.check_numbers_refused(total(answer));
    numbers.len()
}

/// On a small file, on all results or on `most` of them. How many results were checked.
pub fn check_small(file: &[u8], input: &Input, most: usize, joined: (&Answer, &[u32])) -> usize {
    if total(joined.0) >= HOLD_LIMIT {
        check_held(&file, file, input.scratch_words);
        return 0;
    }
    let mut reader = Reader::new(&file, file, input.scratch_words);
    let checked = check_results(&mut reader, input, most, joined);
    check_row_lists(&mut reader, input);
    checked
}

/// In words, how many results of small files were checked.
pub fn agreed(reached: &[usize]) -> String {
    let files = reached.iter().filter(|&&results| results > 0).count();
    format!("  {} results of {files} of these agree by number, there and back", reached.iter().sum::<usize>())
}

/// On any file, on so many results as that does not take long. And a word of scratch less than is needed must be refused.
pub fn check(name: &str, input: &Input, joined: (&Answer, &[u32])) {
    check_results(&mut Reader::new(&name, &input.file, input.scratch_words), input, most_checked(input), joined);
    let words = input.scratch_words.saturating_sub(1);
    let answer = library::join(&input.file, &mut vec![BEFORE; words], &mut []);
    if !grouped(&answer) {
        check_refused(&name, &input.file, words, &answer);
    }
}

/// The rows of a result with another one in one table, or none that the table has.
fn changed(rows: &[u32], input: &Input, seed: u64) -> Vec<u32> {
    let mut r = Random(!seed);
    let mut rows = rows.to_vec();
    let t = r.below(rows.len());
    rows[t] = r.below(input.tables[t].rows() + 1) as u32;
    rows
}

/// The way back from any rows: refused if they do not agree; else it must be undone.
fn check_rows(reader: &mut Reader, input: &Input, rows: Vec<u32>) {
    let answer = reader.number(&rows);
    if values(&input.tables, &rows).is_none() {
        assert_eq!(answer, NumberAnswer::refused(17, 0), "{:?}: rows {rows:?}", reader.name);
    } else {
        assert_eq!(reader.there_and_back(answer.n, rows.len())[..rows.len()], rows, "{:?}: rows {rows:?}", reader.name);
    }
}

/// A list of rows that is not one for each table must be refused; rows by chance, and the highest word.
fn check_row_lists(reader: &mut Reader, input: &Input) {
    let k = input.tables.len();
    for count in [k - 1, k + 1] {
        assert_eq!(reader.number(&[0; 17][..count]), NumberAnswer::refused(17, 0), "{:?}: {count} rows", reader.name);
    }
    let mut r = Random(input.file.len() as u64);
    check_rows(reader, input, input.tables.iter().map(|t| r.below(t.rows().max(1)) as u32).collect());
    check_rows(reader, input, vec![u32::MAX; k]);
}

/// Where a result stands among all of them, of which there are one or more.
type Place = (&'static str, fn(u64) -> u64);

const PLACES: [Place; 3] = [("first", |_| 0), ("middle", |total| total / 2), ("last", |total| total - 1)];

/// The ways to ask SQLite for results.
const PAGINGS: [Paging; 3] = [Paging::AsTheyCome, Paging::Ordered, Paging::Indexed];

/// What is measured: the join with an output and without one; at a place one result, the way back from its rows, and a page of results;
/// and by SQLite as many results from a place on, in one of its ways.
#[derive(Clone, Copy, PartialEq)]
enum Work {
    Grouping,
    Join,
    Result(usize),
    Number(usize),
    Page(usize),
    Sqlite(usize, usize, u64),
}

/// All that is measured at a place, in the order of the columns.
fn at_place(place: usize) -> [Work; 8] {
    let [one, _, indexed_one] = [0, 1, 2].map(|paging| Work::Sqlite(paging, place, 1));
    let [page, ordered, indexed] = [0, 1, 2].map(|paging| Work::Sqlite(paging, place, PAGE));
    [Work::Result(place), Work::Number(place), Work::Page(place), one, indexed_one, page, ordered, indexed]
}

/// Files of one case, each with its number of results and, by place, the rows of a result; buffers; and databases, by SQLite's ways.
struct Files {
    inputs: Vec<Input>,
    totals: Vec<u64>,
    rows: Vec<[[u32; 16]; 3]>,
    buffers: RefCell<Buffers>,
    databases: Vec<Vec<RefCell<Query>>>,
}

impl Files {
    fn new(inputs: Vec<Input>) -> Files {
        let mut b = Buffers::new(&inputs[0]);
        let totals: Vec<u64> = inputs.iter().map(|f| library::join(&f.file, &mut b.scratch, &mut []).detail).collect();
        let mut rows_of = |(f, &total): (&Input, &u64)| {
            PLACES.map(|(_, place)| library::result_at(&f.file, &mut b.scratch, place(total), &mut b.output).rows)
        };
        let rows = inputs.iter().zip(&totals).map(&mut rows_of).collect();
        let of_paging = |paging| inputs.iter().map(|f| RefCell::new(Query::of_pages(f, paging))).collect();
        let databases = PAGINGS.into_iter().map(of_paging).collect();
        Files { inputs, totals, rows, buffers: RefCell::new(b), databases }
    }

    /// Whether the results fit the longest output.
    fn fit(&self) -> bool {
        let words = |(f, total): (&Input, &u64)| total.saturating_mul(f.width as u64);
        self.inputs.iter().zip(&self.totals).map(words).all(|n| n <= OUTPUT_WORDS as u64)
    }

    /// The first of so many results from a place on, or of the last ones where there are not so many: all pages are equally long.
    fn from(&self, file: usize, place: usize, count: u64) -> u64 {
        let total = self.totals[file];
        PLACES[place].1(total).min(total.saturating_sub(count))
    }

    /// Whether this is done at all: the join only where the results fit, and SQLite only where it need not pass over too many. To put
    /// results into order it goes through all of them, if it has no index.
    fn is_done(&self, work: Work) -> bool {
        let passed = |file: usize| match work {
            Work::Sqlite(paging, ..) if PAGINGS[paging] == Paging::Ordered => self.totals[file],
            Work::Sqlite(_, place, count) => self.from(file, place, count),
            _ => 0,
        };
        (work != Work::Join || self.fit()) && (0..self.inputs.len()).all(|file| passed(file) <= MOST_PASSED)
    }

    fn run(&self, work: Work) {
        (0..self.inputs.len()).for_each(|file| self.run_file(work, file));
    }

    fn run_file(&self, work: Work, file: usize) {
        match work {
            Work::Grouping => self.join(file, 0),
            Work::Join => self.join(file, OUTPUT_WORDS),
            Work::Result(place) => self.result(file, place),
            Work::Number(place) => self.number(file, place),
            Work::Page(place) => drop(black_box(self.page(file, place))),
            Work::Sqlite(paging, place, count) => drop(black_box(self.sqlite(paging, file, place, count))),
        }
    }

    /// The join with an output of so many words.
    fn join(&self, file: usize, words: usize) {
        let Buffers { scratch, output } = &mut *self.buffers.borrow_mut();
        black_box(library::join(&self.inputs[file].file, scratch, &mut output[..words]));
    }

    fn result(&self, file: usize, place: usize) {
        let Buffers { scratch, output } = &mut *self.buffers.borrow_mut();
        let f = &self.inputs[file];
        black_box(library::result_at(&f.file, scratch, self.from(file, place, 1), &mut output[..f.width]));
    }

    fn number(&self, file: usize, place: usize) {
        let f = &self.inputs[file];
        let rows = &self.rows[file][place][..f.tables.len()];
        black_box(library::number_of(&f.file, &mut self.buffers.borrow_mut().scratch, rows));
    }

    /// The values of a page, by a call for each result.
    fn page(&self, file: usize, place: usize) -> Vec<u32> {
        let b = &mut *self.buffers.borrow_mut();
        let f = &self.inputs[file];
        let mut values = vec![0; PAGE.min(self.totals[file]) as usize * f.width];
        for (n, row) in (self.from(file, place, PAGE)..).zip(values.chunks_exact_mut(f.width)) {
            black_box(library::result_at(&f.file, &mut b.scratch, n, row));
        }
        values
    }

    fn sqlite(&self, paging: usize, file: usize, place: usize, count: u64) -> Vec<u32> {
        self.databases[paging][file].borrow_mut().page(self.from(file, place, count), count)
    }

    /// SQLite must give the pages that the library gives, where it is told their order.
    fn check_pages(&self, name: &str, place: usize) {
        for file in 0..self.inputs.len() {
            let page = self.page(file, place);
            for (paging, _) in PAGINGS.iter().enumerate().filter(|(_, p)| **p != Paging::AsTheyCome) {
                let same = || page == self.sqlite(paging, file, place, PAGE);
                assert!(!self.is_done(Work::Sqlite(paging, place, PAGE)) || same(), "{name}: {} page by SQLite", PLACES[place].0);
            }
        }
    }

    /// What is done, with its time for one file in microseconds. All take turns.
    fn times(&self) -> Times {
        let all = [Work::Grouping, Work::Join].into_iter().chain((0..PLACES.len()).flat_map(at_place));
        let done: Vec<Work> = all.filter(|&work| self.is_done(work)).collect();
        let mut runs: Vec<_> = done.iter().map(|&work| move || self.run(work)).collect();
        let mut contestants: Vec<&mut dyn FnMut()> = runs.iter_mut().map(|run| run as &mut dyn FnMut()).collect();
        let times = times(&mut contestants).into_iter().map(|t| per_file(t, &self.inputs));
        Times(done.iter().copied().zip(times).collect())
    }
}

/// All must agree on a file. Where its results fit no output, the twin must say so too, and results by number must agree with each other.
fn check_file(name: &str, input: &Input) {
    let mut b = Buffers::new(input);
    let answer = library::join(&input.file, &mut b.scratch, &mut b.output);
    if answer.number == 11 {
        assert_eq!(answer, twin::twin_join(&input.file, &mut b.scratch, &mut b.output), "{name}: answers");
        check(name, input, (&answer, &[]));
    } else {
        check_alone(name, input);
    }
}

/// Without times, on the first file of each case: all must agree, unless they were compared before, and where that does not take long
/// on the page in the middle.
pub fn check_all(cases: &[Case], compared: &[String]) {
    for case in cases {
        let (name, input) = (case.name(), case.first());
        if !compared.contains(&name) {
            check_file(&name, &input);
            println!("{name}: all agree");
        }
        if case.rows < 4096 {
            Files::new(vec![input]).check_pages(&name, 1);
            println!("{name}: all agree on a page");
        }
    }
}

/// The calls of a case whose instructions are counted: the join, the join without an output, and by place a result and the way back.
pub const CALLS: usize = 2 + 2 * PLACES.len();

/// Makes these calls.
pub fn once(case: &Case) {
    let input = case.first();
    let mut b = Buffers::new(&input);
    println!("{}", case.name());
    black_box(library::join(&input.file, &mut b.scratch, &mut b.output));
    let total = library::join(&input.file, &mut b.scratch, &mut []).detail;
    for (_, place) in PLACES {
        let rows = library::result_at(&input.file, &mut b.scratch, place(total), &mut b.output).rows;
        black_box(library::number_of(&input.file, &mut b.scratch, &rows[..input.tables.len()]));
    }
}

/// What was done with a case, and its times in microseconds.
struct Times(Vec<(Work, f64)>);

impl Times {
    fn of(&self, work: Work) -> Option<f64> {
        self.0.iter().find(|(w, _)| *w == work).map(|(_, time)| *time)
    }

    /// A time as a ratio to another.
    fn ratio(&self, work: Work, to: Work) -> Option<f64> {
        Some(self.of(work)? / self.of(to)?)
    }
}

const TIME_COLUMNS: [Column; 13] = [
    ("file x rows in each table", 29),
    ("results", 19),
    ("place", 6),
    ("grouping, us", 12),
    ("join", 5),
    ("result", 6),
    ("back", 5),
    ("page", 5),
    ("SQLite 1", 8),
    ("indexed 1", 9),
    ("SQLite page", 11),
    ("ordered", 7),
    ("indexed", 7),
];

const COUNT_COLUMNS: [Column; 11] = [
    ("file x rows in each table", 29),
    ("grouping", 9),
    ("join", 5),
    ("first", 9),
    ("middle", 7),
    ("last", 7),
    ("/ grouping", 10),
    ("back, first", 11),
    ("middle", 7),
    ("last", 7),
    ("/ grouping", 10),
];

/// What results by number cost, on a series of files.
pub fn table(cases: &[Case], counts: Option<&[[u64; CALLS]]>) {
    println!("\nResults by number: one result, the way back from its rows, and a page of {PAGE} results by as many calls.");
    println!("Grouping is the time of the join without an output, which is refused by 11. The others are ratios to it.");
    println!("The join is missing where the results fit no output. SQLite by LIMIT and OFFSET, with the order of tables forced:");
    println!(
        "one result; one ordered by row numbers, with indexes that were made before; a page; an ordered one; one with indexes."
    );
    println!("It is not asked where it would have to pass over more than {MOST_PASSED} results.\n");
    print_heads(&TIME_COLUMNS);
    let times: Vec<Times> = cases.iter().map(print_times).collect();
    let shapes: Vec<(&Case, &Times)> = cases.iter().zip(&times).collect();
    shapes.chunk_by(|a, b| a.0.shape == b.0.shape).filter(|sizes| sizes.len() > 1).for_each(print_turns);
    if let Some(counts) = counts {
        println!(
            "\nInstructions of the join without an output, and of the join as a ratio to them; of the first result, what the"
        );
        println!("middle and the last one take more, and the last one's as a ratio to grouping; the same of the way back.\n");
        print_heads(&COUNT_COLUMNS);
        cases.iter().zip(counts).for_each(|(case, c)| print_counts(case, c));
    }
}

/// Prints the rows of a case, one for each place.
fn print_times(case: &Case) -> Times {
    let files = Files::new(case.files());
    files.inputs.iter().for_each(|f| check_file(&case.name(), f));
    (0..PLACES.len()).for_each(|place| files.check_pages(&case.name(), place));
    let times = files.times();
    let grouping = times.of(Work::Grouping).expect("a time without writing");
    for (place, (name, _)) in PLACES.iter().enumerate() {
        let mut cells = vec![case.name(), files.totals[0].to_string(), name.to_string(), format!("{grouping:.1}")];
        let works = [Work::Join].into_iter().chain(at_place(place));
        let cell = |x: f64| if x < 0.1 { format!("{x:.3}") } else { ratio(x) };
        cells.extend(works.map(|work| times.ratio(work, Work::Grouping).map_or("-".into(), cell)));
        print_row(&TIME_COLUMNS, &cells);
    }
    times
}

/// Prints from which size on a page by so many calls takes less time than the others, in files of one shape. Those that take less at
/// the largest size are left out.
fn print_turns(shape: &[(&Case, &Times)]) {
    println!();
    let sizes: Vec<usize> = shape.iter().map(|(case, _)| case.rows).collect();
    for (place, (name, _)) in PLACES.iter().enumerate() {
        let [.., page, ordered, indexed] = at_place(place);
        let turn = |(other, work): (&str, Work)| {
            let ratios: Option<Vec<f64>> = shape.iter().map(|(_, times)| times.ratio(work, Work::Page(place))).collect();
            let ratios = ratios.filter(|r| r[r.len() - 1] > 1.0)?;
            Some(format!("less time than {other} {}", slow::turn(&sizes, &ratios)))
        };
        let others = [("the join", Work::Join), ("SQLite", page), ("SQLite ordered", ordered), ("SQLite indexed", indexed)];
        let turns: Vec<String> = others.into_iter().filter_map(turn).collect();
        let none = format!("at x {} more time than all of the others", sizes[sizes.len() - 1]);
        println!("{}, {name}: a page takes {}", shape[0].0.shape, if turns.is_empty() { none } else { turns.join(", ") });
    }
}

fn print_counts(case: &Case, counts: &[u64; CALLS]) {
    let [join, grouping, ..] = *counts;
    // By place, a result and the way back stand one behind the other.
    let of = |first: usize| {
        let [a, b, c] = [0, 2, 4].map(|i| counts[first + i]);
        let more = |n: u64| format!("{:+}", n as i64 - a as i64);
        [a.to_string(), more(b), more(c), format!("{:.3}", c as f64 / grouping as f64)]
    };
    let mut cells = vec![case.name(), grouping.to_string(), ratio(join as f64 / grouping as f64)];
    cells.extend(of(2));
    cells.extend(of(3));
    print_row(&COUNT_COLUMNS, &cells);
}

#[cfg(test)]
mod tests {
    use super::*;
    use crate::inputs::{self, table as of_columns};
    use crate::plans::{join, left_deep, Plan};
    use crate::small;

    fn joined(input: &Input) -> (Answer, Vec<u32>) {
        let mut b = Buffers::new(input);
        (library::join(&input.file, &mut b.scratch, &mut b.output), b.output)
    }

    /// Document 01's sample: the third result has rows 1, 2 and 2.
    #[test]
    fn the_sample() {
        let input = &inputs::samples()[0];
        let mut reader = Reader::new(&"sample", &input.file, input.scratch_words);
        assert_eq!(reader.there_and_back(2, 3)[..3], [1, 2, 2]);
        assert_eq!(reader.row, [11, 2, 9, 29530, BEFORE]);
        let (answer, output) = joined(input);
        assert_eq!(check_small(&input.file, input, 4, (&answer, &output)), 4);
    }

    /// 4,096 rows six times, with nothing shared, are more results than are numbered.
    #[test]
    fn too_many_results() {
        let input = Input::without_plan((0..6).map(|a| of_columns(vec![(a, vec![0; 4096])])).collect());
        let (answer, output) = joined(&input);
        assert_eq!((answer.number, answer.detail), (11, HOLD_LIMIT));
        assert_eq!(check_small(&input.file, &input, 4, (&answer, &output)), 0);
    }

    /// One result less than the limit is numbered; the limit itself is not.
    #[test]
    fn at_the_limit() {
        for (less, checked) in [(1, 0), (2, 4)] {
            let input = Input::new(small::short_of_64_bits(less), left_deep(16));
            let (answer, output) = joined(&input);
            assert_eq!((answer.number, answer.detail), (11, HOLD_LIMIT - (less as u64 - 1)));
            assert_eq!(check_small(&input.file, &input, 4, (&answer, &output)), checked);
        }
    }

    /// A value that differs from the join's is noticed.
    #[test]
    #[should_panic(expected = "values of result 3")]
    fn another_value() {
        let input = &inputs::samples()[0];
        let (answer, mut output) = joined(input);
        output[13] += 1;
        check_small(&input.file, input, 4, (&answer, &output));
    }

    /// Results in the order of another plan are noticed.
    #[test]
    #[should_panic(expected = "order of result")]
    fn another_order() {
        let tables = || vec![of_columns(vec![(0, vec![1, 2])]), of_columns(vec![(1, vec![3, 4])])];
        let [one, two] = [[0, 1], [1, 0]].map(|t| Input::new(tables(), join(Plan::Table(t[0]), Plan::Table(t[1]))));
        let (answer, output) = joined(&one);
        let other = Input { followed: two.followed, ..one };
        check_small(&other.file, &other, 4, (&answer, &output));
    }

    #[test]
    fn rows_that_agree() {
        let tables = [
            of_columns(vec![(0, vec![5, 6]), (2, vec![1, NOT_RECORDED])]),
            of_columns(vec![(1, vec![8, NOT_RECORDED]), (2, vec![1, NOT_RECORDED])]),
        ];
        assert_eq!(values(&tables, &[0, 0]), Some(vec![5, 8, 1]));
        // They differ; they are not recorded; there is no such row.
        assert_eq!([[0, 1], [1, 1], [0, 2]].map(|rows| values(&tables, &rows)), [None, None, None]);
        assert_eq!(values(&tables[1..], &[1]), Some(vec![NOT_RECORDED; 2]));
    }

    #[test]
    fn some_numbers() {
        assert_eq!(numbers(3, 3), [0, 1, 2]);
        assert_eq!(numbers(0, 3), []);
        let some = numbers(1 << 30, 20);
        assert!(some.windows(2).all(|n| n[0] < n[1]));
        assert_eq!((some.len(), some[0], some[19]), (20, 0, (1 << 30) - 1));
    }

    /// The chain of long lists: the last result is made of last rows, which the way back has to seek through all lists.
    #[test]
    fn last_rows() {
        let input = inputs::by_number().into_iter().find(|c| c.shape.contains("long lists")).unwrap().first();
        let files = Files::new(vec![input]);
        assert_eq!(files.totals, [4095 + 7 * 4094 + 4095]);
        assert_eq!(files.rows[0][2][..9], [4095; 9]);
        assert_eq!([1, PAGE].map(|count| files.from(0, 2, count)), [36847, 36808]);
    }
}
