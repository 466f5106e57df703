//! The slow engine beside the join: whether they agree, and from which size on the join costs less.

use std::fmt::Debug;
use std::hint::black_box;

use crate::inputs::{choices, Case};
use crate::library::{self, Answer, SlowAnswer};
use crate::{check_alone, per_file, print_heads, print_row, ratio, times, Buffers, Column, Counts, OUTPUT_WORDS};

/// The most choices that the slow engine goes through. To a file with more it says 15.
const MOST_CHOICES: u64 = 1_048_576;

pub fn too_many(choices: u64) -> bool {
    choices > MOST_CHOICES
}

/// The slow engine must say what the join says, and leave the output as the join does; or, where a file that is not refused before
/// has too many choices, say 15. `own` is an output as the join's was before. Nothing is compared, and there is no answer, where the
/// join says 10 and there are not too many choices.
pub fn check(
    name: impl Debug,
    file: &[u8],
    choices: u64,
    (answer, joined): (&Answer, &[u32]),
    own: &mut [u32],
) -> Option<SlowAnswer> {
    match answer.number {
        0 | 10 | 11 if too_many(choices) => Some(check_too_many(name, file)),
        10 => None,
        _ => {
            let slow = library::slow_join(file, own);
            assert_eq!(slow, answer.without_counts(), "{name:?}: slow engine's answer");
            assert!(own == joined, "{name:?}: slow engine's output");
            Some(slow)
        }
    }
}

/// To a file with too many choices the slow engine must say 15 and leave the output as it was.
fn check_too_many(name: impl Debug, file: &[u8]) -> SlowAnswer {
    let mut output = [7; 16];
    let slow = library::slow_join(file, &mut output);
    assert_eq!((slow, output), (Answer::refused(15, 0).without_counts(), [7; 16]), "{name:?}: slow engine, too many choices");
    slow
}

/// On how many files the slow engine agrees with the join, and how many have too many choices, in words.
pub fn agreed(answers: &[SlowAnswer]) -> String {
    let too_many = answers.iter().filter(|a| a.number == 15).count();
    format!("  the slow engine agrees on {} of these; {too_many} refused by answer 15", answers.len() - too_many)
}

/// A cell of the first table: the slow engine's time and its instructions as ratios to the library's, or 15 where there is no time.
pub fn cell(time: Option<f64>, counts: Option<&Counts>) -> String {
    let instructions = counts.map_or("-".into(), |c| ratio(per_join(c)));
    time.map_or("15".into(), |t| format!("{} {instructions}", ratio(t)))
}

/// The slow engine's instructions as a ratio to the join's.
fn per_join(counts: &Counts) -> f64 {
    counts[2] as f64 / counts[0] as f64
}

const COLUMNS: [Column; 7] = [
    ("file x rows in each table", 33),
    ("choices", 7),
    ("join, us", 8),
    ("slow engine", 11),
    ("instructions", 12),
    ("slow engine", 11),
    ("/ join", 6),
];

/// A file of the series, and what the slow engine takes there as ratios to the join's.
struct Cost<'a> {
    case: &'a Case,
    time: f64,
    instructions: Option<f64>,
}

/// The join and the slow engine beside one another on a series of files, and where the join becomes the cheaper one.
pub fn table(cases: &[Case], counts: Option<&[Counts]>) {
    println!("\nSlow engine: the join and the slow engine on files of growing size that have few choices of rows.");
    println!("The slow engine's time is a ratio to the join's. The join is lent exactly the scratch that it needs, as above,");
    println!("or 16,384 words, as by the proved programs. Few rows before 4096: two tables, and 4,096 rows in the second.\n");
    print_heads(&COLUMNS);
    let costs: Vec<Cost> = cases.iter().enumerate().map(|(i, case)| print_cost(case, counts.map(|c| &c[i]))).collect();
    println!();
    costs.chunk_by(|a, b| a.case.shape == b.case.shape).for_each(print_turn);
}

/// Prints the row of a case.
fn print_cost<'a>(case: &'a Case, counts: Option<&Counts>) -> Cost<'a> {
    let [join, slow] = measure(case);
    let mut cells = vec![case.name(), choices(&case.first().tables).to_string(), format!("{join:.2}"), ratio(slow / join)];
    cells.extend(counts.map_or(["-"; 3].map(String::from), |c| [c[0].to_string(), c[2].to_string(), ratio(per_join(c))]));
    print_row(&COLUMNS, &cells);
    Cost { case, time: slow / join, instructions: counts.map(per_join) }
}

/// The times for one file in microseconds, of the join and of the slow engine. All must agree first.
fn measure(case: &Case) -> [f64; 2] {
    let files = case.files();
    files.iter().for_each(|f| _ = check_alone(&case.name(), f));
    let mut b = Buffers::new(&files[0]);
    let mut output = vec![0; OUTPUT_WORDS];
    let t = times(&mut [
        &mut || files.iter().for_each(|f| _ = black_box(library::join(&f.file, &mut b.scratch, &mut b.output))),
        &mut || files.iter().for_each(|f| _ = black_box(library::slow_join(&f.file, &mut output))),
    ]);
    [per_file(t[0], &files), per_file(t[1], &files)]
}

/// Prints where the join becomes the cheaper one, in files of one shape.
fn print_turn(costs: &[Cost]) {
    let sizes: Vec<usize> = costs.iter().map(|c| c.case.rows).collect();
    let times: Vec<f64> = costs.iter().map(|c| c.time).collect();
    let instructions: Option<Vec<f64>> = costs.iter().map(|c| c.instructions).collect();
    let fewer = instructions.map_or(String::new(), |i| format!(", fewer instructions {}", turn(&sizes, &i)));
    println!("{}: the join takes less time {}{fewer}", costs[0].case.shape, turn(&sizes, &times));
}

/// In words, the first size from which on one is the cheaper one at all sizes that were tried: the other's ratio to it is over 1.
pub fn turn(sizes: &[usize], ratios: &[f64]) -> String {
    let Some(last) = ratios.iter().rposition(|&r| r <= 1.0) else { return "at all of these sizes".into() };
    sizes.get(last + 1).map_or("at none from which it stays so".into(), |n| format!("from x {n} on"))
}

#[cfg(test)]
mod tests {
    use super::*;
    use crate::inputs::table as of_columns;

    /// A table of no rows leaves no choice, however many rows the others have.
    #[test]
    fn no_rows_no_choices() {
        let rows = |n| of_columns(vec![(0, vec![0; n])]);
        let mut tables: Vec<_> = (0..15).map(|_| rows(4096)).collect();
        assert!(too_many(choices(&tables)));
        tables.push(rows(0));
        assert_eq!(choices(&tables), 0);
        assert_eq!([choices(&[rows(1024), rows(1024)]), choices(&[rows(1025), rows(1024)])].map(too_many), [false, true]);
    }

    /// A size counts only if the join is the cheaper one at all larger ones too.
    #[test]
    fn where_it_turns() {
        assert_eq!(turn(&[0, 1], &[2.0, 3.0]), "at all of these sizes");
        assert_eq!(turn(&[0, 1, 4], &[0.5, 1.0, 2.0]), "from x 4 on");
        assert_eq!(turn(&[0, 1, 4, 8, 32], &[0.5, 1.5, 0.9, 1.1, 2.0]), "from x 8 on");
        assert_eq!(turn(&[0, 1], &[2.0, 0.5]), "at none from which it stays so");
    }
}
