//! The bench: the proved join beside an unproved twin, a HashMap join, SQLite and the library's slow engine, on the same files in
//! one run. Where the bench says library, it means the join, pigrozd_join.
//!
//!     bench [NAME]              the tables: times as ratios, growth, instructions; what mending a plan and finding one cost; from
//!                               which size on the join costs less than the slow engine; what results by number cost; what
//!                               rows with copies cost beside the same rows written out; of the files whose names have NAME in
//!                               them
//!     bench --quick [NAME]      the tables without instructions
//!     bench --check [NAME]      no times: whether all give the same results
//!     bench --once [NAME]       each file once by the library, the twin and the slow engine, for callgrind; then those with mended
//!                               plans, those without plans, those with found ones, and those of few choices
//!     bench --numbered [NAME]   each file whose results are reached by number once, for callgrind
//!     bench --copies [NAME]     each file whose rows have copies once, and then once with its rows written out, for callgrind
//!     bench --files FOLDER      writes the files

mod access;
mod copies;
mod finding;
mod hashmap;
mod inputs;
mod library;
mod mending;
#[cfg(test)]
mod model;
mod plans;
mod slow;
mod small;
mod sqlite;
mod twin;

use std::hint::black_box;
use std::process::{Command, Stdio};
use std::time::{Duration, Instant};

use access::HOLD_LIMIT;
use inputs::{choices, Case, Input, Table};
use library::{Answer, SlowAnswer};
use plans::Plan;
use sqlite::{Order, Query};

/// The longest output that document 01 uses.
const OUTPUT_WORDS: usize = 1_048_576;

/// How many small files are tried, with any plans and without.
const SMALL_FILES: u64 = 20_000;

/// The most choices of a small file that the slow engine is tried on, but for those that it refuses.
const SMALL_CHOICES: u64 = 100_000;

/// The most results of a small file that are reached by number.
const SMALL_RESULTS: usize = 32;

/// The words of scratch for a small file: too few for some.
const SMALL_SCRATCH: usize = 600;

/// How many files with very many results are tried, and the words of scratch for one: enough for all.
const MANY_FILES: u64 = 2_000;
const MANY_SCRATCH: usize = 32_000;

/// Instructions for one file: of the library, the twin and the slow engine.
type Counts = [u64; 3];

/// The functions whose instructions are counted. No two of these patterns begin alike: callgrind 3.19 loses one of two such.
const CONTESTANTS: [&str; 3] = ["pigrozd_join", "twin_join", "*_slow_join"];
const BY_NUMBER: [&str; 3] = ["pigrozd_join", "*_result_at", "?igrozd_number_of"];
const JOIN_ALONE: [&str; 1] = ["pigrozd_join"];

/// Buffers for one file. They are lent as the run before left them: the join zeroes its scratch itself, what it needs before and all
/// of it after.
struct Buffers {
    scratch: Vec<u32>,
    output: Vec<u32>,
}

impl Buffers {
    fn new(input: &Input) -> Buffers {
        Buffers { scratch: vec![0; input.scratch_words], output: vec![0; OUTPUT_WORDS] }
    }
}

/// The number of rows, and a sum over them that does not see their order.
fn summary(values: &[u32], width: usize) -> (usize, u64) {
    let row = |r: &[u32]| {
        r.iter().fold(0xcbf2_9ce4_8422_2325u64, |h, &v| (h ^ v as u64).wrapping_mul(0x9e37_79b9_7f4a_7c15).rotate_left(29))
    };
    (values.len() / width, values.chunks_exact(width).fold(0, |s, r| s.wrapping_add(row(r))))
}

/// The results' values. Panics where two contestants give different ones; the twin must agree with the library in every word and
/// count, the slow engine in the answer and every word of the output, and results by number in row numbers and values.
fn check(name: &str, input: &Input, queries: [&mut Query; 2]) -> Vec<u32> {
    let (mut one, mut two) = (Buffers::new(input), Buffers::new(input));
    one.scratch.fill(5);
    two.scratch.fill(6);
    let answer = library::join(&input.file, &mut one.scratch, &mut one.output);
    assert_eq!(answer.number, 0, "{name}: {answer:?}");
    assert_eq!(answer, twin::twin_join(&input.file, &mut two.scratch, &mut two.output), "{name}: answers");
    assert!(one.output == two.output, "{name}: outputs");
    assert!(one.scratch.iter().chain(&two.scratch).all(|&w| w == 0), "{name}: scratch");
    if let Some(partner) = input.partner() {
        check_partner(name, &partner, &answer, &one.output);
    }
    slow::check(name, &input.file, choices(&input.tables), (&answer, &one.output), &mut vec![0; OUTPUT_WORDS]);
    access::check(name, input, (&answer, &one.output));
    let values = one.output[..answer.rows as usize * input.width].to_vec();
    let expected = summary(&values, input.width);
    assert_eq!(expected, summary(&hashmap::join(&input.file, input.given()), input.width), "{name}: HashMap");
    for query in queries {
        assert_eq!(expected, summary(&query.run(), input.width), "{name}: SQLite");
    }
    check_short(name, input, values.len(), [one, two]);
    values
}

/// With a word of scratch less the twin must answer as the library does; with a word of output less than the results have, the slow
/// engine too. Both outputs hold the results before.
fn check_short(name: &str, input: &Input, words: usize, [mut one, mut two]: [Buffers; 2]) {
    if let Some(scratch) = one.scratch.get_mut(1..) {
        assert_eq!(library::join(&input.file, scratch, &mut one.output), twin::twin_join(&input.file, scratch, &mut one.output));
    }
    let short = &mut one.output[..words.saturating_sub(1)];
    let other = &mut two.output[..short.len()];
    let answer = library::join(&input.file, &mut two.scratch, short);
    assert_eq!(answer, twin::twin_join(&input.file, &mut two.scratch, other));
    slow::check(name, &input.file, choices(&input.tables), (&answer, short), other);
}

/// A file whose plan is mended or found must give what the file with that plan gives, in every word and count.
fn check_partner(name: &str, partner: &Input, answer: &Answer, output: &[u32]) {
    let mut b = Buffers::new(partner);
    assert_eq!(
        *answer,
        library::join(&partner.file, &mut b.scratch, &mut b.output),
        "{name}: answer of the plan that is followed"
    );
    assert!(output == b.output, "{name}: output of the plan that is followed");
}

/// What no join can do without: each byte of the file read once, each word of the results written once.
fn limit(file: &[u8], values: &[u32], output: &mut [u32]) -> u32 {
    output[..values.len()].copy_from_slice(values);
    file.chunks_exact(4).fold(0, |s, w| s ^ u32::from_le_bytes(w.try_into().unwrap()))
}

/// The twin, the slow engine and the functions for results by number must refuse what the library refuses, with the same answer: every
/// cut of a file, and every value of every byte. The file is so short that it never has too many choices. The twin knows no copies, so
/// the mark of a table with copies is left out.
fn check_damaged(sample: &Input) {
    let file = &sample.file;
    let agree = |bytes: &[u8]| {
        let (mut s, mut o) = ([7; 118], [7; 16]);
        let (mut t, mut p, mut q) = (s, o, o);
        let answer = library::join(bytes, &mut s, &mut o);
        assert_eq!((answer, s, o), (twin::twin_join(bytes, &mut t, &mut p), t, p), "{bytes:?}");
        slow::check(bytes, bytes, 0, (&answer, &o), &mut q);
        access::check_bytes(bytes, sample.tables.len(), s.len(), (&answer, &o));
    };
    for end in 0..file.len() {
        agree(&file[..end]);
        for value in 0..=255 {
            let mut bytes = file.to_vec();
            bytes[end] = value;
            if file[end] != b'B' || value != b'C' {
                agree(&bytes);
            }
        }
    }
}

/// The twin and the slow engine must do with any plan what the library does: small files of up to 16 tables, with buffers that are too
/// short for some.
fn check_plans() {
    let (mut mended, mut refused, mut small) = (0, 0, Vec::new());
    for seed in 0..SMALL_FILES {
        let (tables, plan) = small::tables_and_plan(1 + seed as usize % 16, seed);
        mended += u64::from(plan.mended(&tables).is_some_and(|m| m != plan));
        small.push(check_small(tables, Some(plan), SMALL_SCRATCH));
        refused += u64::from(small[seed as usize].answer.number == 9);
    }
    println!("{SMALL_FILES} small files: library and twin agree; {mended} plans mended, {refused} refused by answer 9");
    print_agreed(&small);
}

/// The twin and the slow engine must find the plan that the library finds for small files without one, and join by it, or refuse as
/// the library does.
fn check_found() {
    let tables = |seed| small::tables_alone(1 + seed as usize % 16, seed);
    let small: Vec<Small> = (0..SMALL_FILES).map(|seed| check_small(tables(seed), None, SMALL_SCRATCH)).collect();
    let refused = small.iter().filter(|s| s.answer.number == 14).count();
    let found = small.len() - refused;
    println!(
        "{SMALL_FILES} small files without a plan: library and twin agree; {found} plans found, {refused} refused by answer 14"
    );
    print_agreed(&small);
}

/// The twin must count as the library does where totals pass 32 bits, up to the limit and at it.
fn check_many() {
    let drawn = (0..MANY_FILES).map(|seed| small::many_results(8 + seed as usize % 9, seed));
    let short = (1..=16).map(|less| (small::short_of_64_bits(less), plans::left_deep(16)));
    let small: Vec<Small> = drawn.chain(short).map(|(tables, plan)| check_counted(tables, plan)).collect();
    let reaching = |n: u64| small.iter().filter(|s| access::total(&s.answer) >= n).count();
    println!(
        "{} files with very many results: library and twin agree; {} have {} or more, {} of them {HOLD_LIMIT} or more",
        small.len(),
        reaching(1 << 32),
        1u64 << 32,
        reaching(HOLD_LIMIT)
    );
    print_agreed(&small);
}

/// Where results can be counted from the values, library and twin must give this number, or the limit if that is less.
fn check_counted(tables: Vec<Table>, plan: Plan) -> Small {
    let count = small::counted(&tables);
    let small = check_small(tables, Some(plan), MANY_SCRATCH);
    assert!(access::grouped(&small.answer), "{:?}", small.answer);
    let total = u128::from(access::total(&small.answer));
    assert!(count.is_none_or(|n| total == n.min(HOLD_LIMIT.into())), "{:?} for {count:?} results", small.answer);
    small
}

/// What was compared of a small file: the answer of library and twin, the slow engine's where it was tried, and how many results were
/// reached by number.
struct Small {
    answer: Answer,
    slow: Option<SlowAnswer>,
    reached: usize,
}

fn print_agreed(small: &[Small]) {
    println!("{}", slow::agreed(&small.iter().filter_map(|s| s.slow).collect::<Vec<_>>()));
    println!("{}", access::agreed(&small.iter().map(|s| s.reached).collect::<Vec<_>>()));
}

/// Library and twin must agree in the answer and in the buffers, the slow engine and results by number with both.
fn check_small(tables: Vec<Table>, plan: Option<Plan>, scratch_words: usize) -> Small {
    let file = inputs::bytes(&tables, &plan.as_ref().map_or(Vec::new(), Plan::code));
    let (mut s, mut o) = (vec![7; scratch_words], [7; 2000]);
    let (mut t, mut p, mut q) = (s.clone(), o, o);
    let answer = library::join(&file, &mut s, &mut o);
    assert_eq!((answer, &s, o), (twin::twin_join(&file, &mut t, &mut p), &t, p), "{file:?}");
    let count = choices(&tables);
    let tried = count <= SMALL_CHOICES || slow::too_many(count);
    let slow = if tried { slow::check(&file, &file, count, (&answer, &o), &mut q) } else { None };
    let reached = if access::grouped(&answer) {
        let input = plan.map_or_else(|| Input::without_plan(tables.clone()), |plan| Input::new(tables.clone(), plan));
        access::check_small(&file, &input, SMALL_RESULTS, (&answer, &o))
    } else {
        access::check_bytes(&file, tables.len(), s.len(), (&answer, &o));
        0
    };
    Small { answer, slow, reached }
}

/// A file's results' values, by `check` with databases of its own.
fn check_alone(name: &str, input: &Input) -> Vec<u32> {
    let mut queries = [Query::new(input, Order::Forced), Query::new(input, Order::Free)];
    let [forced, free] = &mut queries;
    check(name, input, [forced, free])
}

fn check_all<'a>(cases: impl Iterator<Item = &'a Case>) {
    for case in cases {
        let input = case.first();
        let results = check_alone(&case.name(), &input).len() / input.width;
        if case.shape == "sample" {
            inputs::samples().iter().for_each(check_damaged);
            check_plans();
            check_found();
            check_many();
        }
        let mut b = Buffers::new(&input);
        let a = library::join(&input.file, &mut b.scratch, &mut b.output);
        println!(
            "{}: all agree{}; {results} results, entries {}, lookups {}, comparisons {}, visits {}",
            case.name(),
            if slow::too_many(choices(&input.tables)) { " (slow engine: 15)" } else { "" },
            a.entries,
            a.lookups,
            a.comparisons,
            a.visits
        );
    }
}

/// The time of one run: as many as fill a millisecond, or one.
fn batch(run: &mut dyn FnMut()) -> Duration {
    let mut times = 1;
    loop {
        let start = Instant::now();
        for _ in 0..times {
            run();
        }
        let elapsed = start.elapsed();
        if elapsed >= Duration::from_millis(1) {
            return elapsed / times;
        }
        times *= 2;
    }
}

/// The least time of each contestant, all of them taking turns, so that what else the machine does meets all alike. Each has at
/// least three turns, and more while it has used less than 0.3 seconds.
fn times(contestants: &mut [&mut dyn FnMut()]) -> Vec<Duration> {
    let mut least = vec![Duration::MAX; contestants.len()];
    let mut used = vec![Duration::ZERO; contestants.len()];
    for turn in 0..40 {
        for (i, run) in contestants.iter_mut().enumerate() {
            if turn < 3 || used[i] < Duration::from_millis(300) {
                let start = Instant::now();
                least[i] = batch(*run).min(least[i]);
                used[i] += start.elapsed();
            }
        }
    }
    least
}

/// Instructions of calls that the bench makes with this mode and name, in `N` for each of `count` files, by callgrind; or nothing where
/// there is no valgrind.
fn instructions<const N: usize>(functions: &[&str], mode: &str, name: &str, count: usize) -> Option<Vec<[u64; N]>> {
    let folder = std::env::temp_dir().join(format!("bench-callgrind-{}", std::process::id()));
    std::fs::create_dir_all(&folder).unwrap();
    let mut command = Command::new("valgrind");
    // Else memset and memcpy use string instructions, which callgrind counts once a byte.
    command.env("GLIBC_TUNABLES", "glibc.cpu.x86_rep_stosb_threshold=2000000000:glibc.cpu.x86_rep_movsb_threshold=2000000000");
    command.arg("--tool=callgrind");
    for function in functions {
        command.arg(format!("--toggle-collect={function}")).arg(format!("--dump-after={function}"));
    }
    command.arg(format!("--callgrind-out-file={}", folder.join("out").display()));
    command.arg(std::env::current_exe().unwrap()).args([mode, name]).stdout(Stdio::null()).stderr(Stdio::null());
    let ran = command.status().is_ok_and(|s| s.success());
    // One dump a call, numbered from 1.
    let totals: Vec<u64> = (1..=N * count)
        .map_while(|i| std::fs::read_to_string(folder.join(format!("out.{i}"))).ok())
        .filter_map(|text| text.lines().find_map(|l| l.strip_prefix("totals: ").and_then(|n| n.trim().parse().ok())))
        .collect();
    let _ = std::fs::remove_dir_all(&folder);
    let counted = ran && totals.len() == N * count && totals.iter().all(|&n| n > 0);
    counted.then(|| totals.chunks_exact(N).map(|c| c.try_into().unwrap()).collect())
}

fn once(case: &Case) {
    let input = case.first();
    let mut b = Buffers::new(&input);
    println!("{}", case.name());
    black_box(library::join(&input.file, &mut b.scratch, &mut b.output));
    black_box(twin::twin_join(&input.file, &mut b.scratch, &mut b.output));
    black_box(library::slow_join(&input.file, &mut b.output));
}

fn ratio(x: f64) -> String {
    match x {
        x if x < 10.0 => format!("{x:.2}"),
        x if x < 100.0 => format!("{x:.1}"),
        x => format!("{x:.0}"),
    }
}

/// A column's head and its width.
type Column = (&'static str, usize);

const COLUMNS: [Column; 12] = [
    ("file x rows in each table", 39),
    ("results", 7),
    ("library, us", 11),
    ("twin", 5),
    ("HashMap", 7),
    ("SQLite forced", 13),
    ("SQLite free", 11),
    ("slow engine", 11),
    ("limit", 5),
    ("growth", 9),
    ("instructions", 12),
    ("/ twin", 7),
];

const MENDING_COLUMNS: [Column; 8] = cost_columns("plan that is mended x rows in each table", "mending, us");

const FINDING_COLUMNS: [Column; 8] = cost_columns("file without a plan x rows in each table", "finding, us");

/// The columns of a table of what a plan costs that is not followed as it was sent.
const fn cost_columns(files: &'static str, cost: &'static str) -> [Column; 8] {
    [(files, 40), ("join, us", 8), (cost, 11), ("/ join", 6), ("twin, us", 8), ("instructions", 12), ("/ join", 6), ("twin", 6)]
}

fn print_row(columns: &[Column], cells: &[String]) {
    let mut line = format!("| {:<w$} |", cells[0], w = columns[0].1);
    for (cell, (_, w)) in cells.iter().zip(columns).skip(1) {
        line += &format!(" {cell:>w$} |");
    }
    println!("{line}");
}

fn print_heads(columns: &[Column]) {
    print_row(columns, &columns.iter().map(|c| c.0.to_string()).collect::<Vec<_>>());
    let line = |(i, c): (usize, &Column)| if i == 0 { "-".repeat(c.1) } else { "-".repeat(c.1 - 1) + ":" };
    print_row(columns, &columns.iter().enumerate().map(line).collect::<Vec<_>>());
}

/// The results of a case's first file, and the times for one file in microseconds: of the library, the twin, the HashMap join,
/// SQLite forced and free, the limit, and the slow engine unless there are too many choices. All must agree first.
fn measure(case: &Case) -> (usize, Vec<f64>) {
    let files = case.files();
    let mut forced: Vec<Query> = files.iter().map(|f| Query::new(f, Order::Forced)).collect();
    let mut free: Vec<Query> = files.iter().map(|f| Query::new(f, Order::Free)).collect();
    let queries = forced.iter_mut().zip(&mut free);
    let results: Vec<Vec<u32>> = files.iter().zip(queries).map(|(f, (q, r))| check(&case.name(), f, [q, r])).collect();
    let (mut one, mut two) = (Buffers::new(&files[0]), Buffers::new(&files[0]));
    let mut output = vec![0; OUTPUT_WORDS];
    let mut slow_output = vec![0; OUTPUT_WORDS];
    let mut contestants: [&mut dyn FnMut(); 7] = [
        &mut || files.iter().for_each(|f| _ = black_box(library::join(&f.file, &mut one.scratch, &mut one.output))),
        &mut || files.iter().for_each(|f| _ = black_box(twin::twin_join(&f.file, &mut two.scratch, &mut two.output))),
        &mut || files.iter().for_each(|f| _ = black_box(hashmap::join(&f.file, f.given()))),
        &mut || forced.iter_mut().for_each(|q| _ = black_box(q.run())),
        &mut || free.iter_mut().for_each(|q| _ = black_box(q.run())),
        &mut || files.iter().zip(&results).for_each(|(f, v)| _ = black_box(limit(&f.file, v, black_box(&mut output)))),
        &mut || files.iter().for_each(|f| _ = black_box(library::slow_join(&f.file, &mut slow_output))),
    ];
    let count = if slow::too_many(choices(&files[0].tables)) { 6 } else { 7 };
    let t = times(&mut contestants[..count]);
    (results[0].len() / files[0].width, t.iter().map(|&d| per_file(d, &files)).collect())
}

/// The time for one of some files in microseconds.
fn per_file(time: Duration, files: &[Input]) -> f64 {
    time.as_secs_f64() * 1e6 / files.len() as f64
}

/// By how much a case grew per doubling of rows, from the case of that shape before it: the library's time, its instructions.
fn growth(cases: &[Case], times: &[f64], counts: Option<&[Counts]>, i: usize) -> String {
    let Some(before) = cases[..i].iter().rposition(|c| c.shape == cases[i].shape) else { return String::new() };
    let doublings = (cases[i].rows as f64 / cases[before].rows as f64).log2();
    let per = |x: f64| ratio(x.powf(1.0 / doublings));
    let more = counts.map_or("-".into(), |c| per(c[i][0] as f64 / c[before][0] as f64));
    format!("{} {more}", per(times[i] / times[before]))
}

fn table(cases: &[Case], counts: Option<&[Counts]>) {
    println!(
        "Times of the others are ratios to the library's. SQLite {}, tables loaded, statement prepared before.",
        sqlite::version()
    );
    println!("Slow engine: its time and its instructions as ratios; 15 where a file has too many choices of rows for it.");
    println!("Limit: each byte of the file read once, each word of the results written once.");
    println!("Growth per doubling of rows, from the file of that shape before it: the library's time, its instructions.");
    println!("Instructions of the library by callgrind, and their ratio to the twin's.\n");
    print_heads(&COLUMNS);
    let mut library_times = Vec::new();
    for (i, case) in cases.iter().enumerate() {
        let (results, t) = measure(case);
        library_times.push(t[0]);
        let mut cells = vec![case.name(), results.to_string(), format!("{:.1}", t[0])];
        cells.extend(t[1..5].iter().map(|other| ratio(other / t[0])));
        cells.push(slow::cell(t.get(6).map(|slow| slow / t[0]), counts.map(|c| &c[i])));
        cells.push(format!("{:.3}", t[5] / t[0]));
        cells.push(growth(cases, &library_times, counts, i));
        cells.push(counts.map_or("-".into(), |c| c[i][0].to_string()));
        cells.push(counts.map_or("-".into(), |c| ratio(c[i][0] as f64 / c[i][1] as f64)));
        print_row(&COLUMNS, &cells);
    }
}

type Join = fn(&[u8], &mut [u32], &mut [u32]) -> Answer;

/// The times for one file in microseconds, of joins with their files that take turns. Each file has its least time of many turns,
/// since small differences are asked for.
fn file_times(contestants: &[(Join, &[Input])]) -> Vec<f64> {
    let mut b = Buffers::new(&contestants[0].1[0]);
    let mut least: Vec<Vec<Duration>> = contestants.iter().map(|c| vec![Duration::MAX; c.1.len()]).collect();
    for _ in 0..100 {
        for ((join, files), least) in contestants.iter().zip(&mut least) {
            for (file, least) in files.iter().zip(least) {
                let start = Instant::now();
                black_box(join(&file.file, &mut b.scratch, &mut b.output));
                *least = start.elapsed().min(*least);
            }
        }
    }
    least.iter().map(|l| l.iter().sum::<Duration>().as_secs_f64() * 1e6 / l.len() as f64).collect()
}

/// What mending costs, for cases with their partners.
fn mending_table(run: &Run, counts: Option<&[Counts]>) {
    println!("\nMending: what a file takes more than the file with the mended plan in it, which is joined in the same way.");
    println!("Join is the library's for the latter; the twin's mending stands behind the library's.\n");
    print_heads(&MENDING_COLUMNS);
    run.mended.iter().for_each(|pair| print_cost(&MENDING_COLUMNS, run, pair, counts));
}

/// What finding costs, for cases with their partners. All must agree first.
fn finding_table(run: &Run, counts: Option<&[Counts]>) {
    println!("\nFinding: what a file without a plan takes more than the file with the found plan in it, which is joined in the same way.");
    println!("Join is the library's for the latter; the twin's finding stands behind the library's.\n");
    print_heads(&FINDING_COLUMNS);
    for pair in &run.found {
        let case = &run.cases[pair[0]];
        case.files().iter().for_each(|f| _ = check_alone(&case.name(), f));
        print_cost(&FINDING_COLUMNS, run, pair, counts);
    }
}

/// The row of a case and its partner: what the first takes more than the second.
fn print_cost(columns: &[Column], run: &Run, &[i, p]: &[usize; 2], counts: Option<&[Counts]>) {
    let (files, partners) = (run.cases[i].files(), run.cases[p].files());
    let [library, twin]: [Join; 2] = [library::join, twin::twin_join];
    let t = file_times(&[(library, &files), (library, &partners), (twin, &files), (twin, &partners)]);
    let mut cells = vec![run.cases[i].name(), format!("{:.1}", t[1]), format!("{:.1}", t[0] - t[1])];
    cells.extend([format!("{:.3}", (t[0] - t[1]) / t[1]), format!("{:.1}", t[2] - t[3])]);
    cells.extend(counts.map_or(["-"; 3].map(String::from), |c| cost_counts(c[i], c[p])));
    print_row(columns, &cells);
}

/// What the library takes more in instructions, its ratio to those of the join, and what the twin does.
fn cost_counts(with: Counts, without: Counts) -> [String; 3] {
    let more = |i: usize| with[i] as i64 - without[i] as i64;
    [more(0).to_string(), format!("{:.3}", more(0) as f64 / without[0] as f64), more(1).to_string()]
}

/// The cases of a run, in the order in which instructions are counted: those of the first table, the partners of such as are mended,
/// those without a plan, their partners, and those of few choices.
struct Run {
    cases: Vec<Case>,
    /// How many stand in the first table.
    shown: usize,
    /// By their places, cases with their partners.
    mended: Vec<[usize; 2]>,
    found: Vec<[usize; 2]>,
    /// From where on they have few choices.
    few: usize,
    /// The cases whose results are reached by number. Their instructions are counted apart.
    numbered: Vec<Case>,
    /// The cases whose rows have copies. Their instructions are counted apart too.
    copies: Vec<Case>,
}

impl Run {
    /// The cases whose names have a name in them.
    fn new(name: &str) -> Run {
        let of_name = |cases: Vec<Case>| cases.into_iter().filter(|c| c.name().contains(name)).collect::<Vec<_>>();
        let mut cases = of_name(inputs::all());
        let shown = cases.len();
        let mended = add_partners(&mut cases, 0);
        let from = cases.len();
        cases.extend(of_name(inputs::without_plan()));
        let found = add_partners(&mut cases, from);
        let few = cases.len();
        cases.extend(of_name(inputs::few_choices()));
        let [numbered, copies] = [inputs::by_number(), inputs::with_copies()].map(of_name);
        Run { cases, shown, mended, found, few, numbered, copies }
    }

    /// All cases that are no partners.
    fn own(&self) -> impl Iterator<Item = &Case> {
        let without_plan = self.found.iter().map(|pair| &self.cases[pair[0]]);
        self.cases[..self.shown].iter().chain(without_plan).chain(&self.cases[self.few..])
    }

    /// Prints the tables, with the instructions of all cases but those that are counted apart, of results by number, and of the cases
    /// whose rows have copies.
    fn print(
        &self,
        counts: Option<Vec<Counts>>,
        numbered: Option<Vec<[u64; access::CALLS]>>,
        copies: Option<Vec<[u64; copies::CALLS]>>,
    ) {
        let counts = counts.as_deref();
        if self.shown > 0 {
            table(&self.cases[..self.shown], counts);
        }
        if !self.mended.is_empty() {
            mending_table(self, counts);
        }
        if !self.found.is_empty() {
            finding_table(self, counts);
        }
        if self.few < self.cases.len() {
            slow::table(&self.cases[self.few..], counts.map(|c| &c[self.few..]));
        }
        if !self.numbered.is_empty() {
            access::table(&self.numbered, numbered.as_deref());
        }
        if !self.copies.is_empty() {
            copies::table(&self.copies, copies.as_deref());
        }
    }
}

/// Puts the partners of the cases from a place on behind all cases. Cases with their partners, by their places.
fn add_partners(cases: &mut Vec<Case>, from: usize) -> Vec<[usize; 2]> {
    let mut pairs = Vec::new();
    for i in from..cases.len() {
        if let Some(partner) = cases[i].partner() {
            pairs.push([i, cases.len()]);
            cases.push(partner);
        }
    }
    pairs
}

fn main() {
    let arguments: Vec<String> = std::env::args().skip(1).collect();
    let (mode, name) = match arguments.iter().map(String::as_str).collect::<Vec<_>>()[..] {
        [mode @ ("--quick" | "--check" | "--once" | "--numbered" | "--copies")] => (mode, ""),
        [mode @ ("--quick" | "--check" | "--once" | "--numbered" | "--copies" | "--files"), name] => (mode, name),
        [] => ("", ""),
        [name] if !name.starts_with('-') => ("", name),
        _ => {
            eprintln!("usage: bench [--quick | --check | --once | --numbered | --copies] [NAME] | bench --files FOLDER");
            std::process::exit(2);
        }
    };
    if mode == "--files" {
        let run = Run::new("");
        for case in run.own().chain(&run.numbered).chain(&run.copies) {
            let file = case.name().replace(',', "").replace(' ', "-");
            std::fs::write(std::path::Path::new(name).join(file), &case.first().file).unwrap();
        }
        return;
    }
    let run = Run::new(name);
    match mode {
        "--check" => {
            check_all(run.own());
            access::check_all(&run.numbered, &run.own().map(Case::name).collect::<Vec<_>>());
            copies::check_all(&run.copies);
        }
        "--once" => run.cases.iter().for_each(once),
        "--numbered" => run.numbered.iter().for_each(access::once),
        "--copies" => run.copies.iter().for_each(copies::once),
        "--quick" => run.print(None, None, None),
        _ => run.print(
            instructions(&CONTESTANTS, "--once", name, run.cases.len()),
            instructions(&BY_NUMBER, "--numbered", name, run.numbered.len()),
            instructions(&JOIN_ALONE, "--copies", name, run.copies.len()),
        ),
    }
}
