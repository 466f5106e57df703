//! Copies: whether a file whose rows have copies gives what the same file with its rows written out gives; and what the join costs on
//! either of them.

use std::hint::black_box;

use crate::inputs::{Case, Input};
use crate::library::{self, Answer};
use crate::{per_file, print_heads, print_row, ratio, times, Buffers, Column};

/// The answers to a file with copies and to the same file written out. Panics where one is not 0, or where they differ in the number
/// of results, in a word of the output or in the visits. Entries, lookups and comparisons are others, since they count rows.
fn check(name: &str, [counted, written]: [&Input; 2]) -> [Answer; 2] {
    let (answer, output) = joined(&format!("{name}, with copies"), counted);
    let (expected, expected_output) = joined(&format!("{name}, written out"), written);
    assert_eq!(answer.rows, expected.rows, "{name}: results with copies and written out");
    assert!(output == expected_output, "{name}: outputs with copies and written out");
    assert_eq!(answer.visits, expected.visits, "{name}: visits with copies and written out");
    [answer, expected]
}

/// The answer, which must be 0, and the output. The join must need all the scratch that it is lent, and leave zeros there.
fn joined(name: &str, input: &Input) -> (Answer, Vec<u32>) {
    let mut b = Buffers::new(input);
    b.scratch.fill(5);
    let answer = library::join(&input.file, &mut b.scratch, &mut b.output);
    assert_eq!(answer.number, 0, "{name}: {answer:?}");
    assert!(b.scratch.iter().all(|&w| w == 0), "{name}: scratch");
    let short = library::join(&input.file, &mut b.scratch[1..], &mut []);
    assert_eq!(short, Answer::refused(10, input.scratch_words), "{name}: words of scratch");
    (answer, b.output)
}

/// Without times, on the first file of each case. Counts that differ are printed with copies and written out.
pub fn check_all(cases: &[Case]) {
    for case in cases {
        let input = case.first();
        let [a, b] = check(&case.name(), [&input, &input.written_out()]);
        println!(
            "{}: agrees with rows written out; {} results, visits {}; entries {} and {}, lookups {} and {}, comparisons {} and {}",
            case.name(),
            a.rows,
            a.visits,
            a.entries,
            b.entries,
            a.lookups,
            b.lookups,
            a.comparisons,
            b.comparisons
        );
    }
}

/// The calls of a case whose instructions are counted: the join with copies, and written out.
pub const CALLS: usize = 2;

/// Makes these calls.
pub fn once(case: &Case) {
    let input = case.first();
    println!("{}", case.name());
    for file in [&input, &input.written_out()] {
        let mut b = Buffers::new(file);
        black_box(library::join(&file.file, &mut b.scratch, &mut b.output));
    }
}

const COLUMNS: [Column; 10] = [
    ("file x frames, or rows in each table", 44),
    ("results", 7),
    ("bytes", 5),
    ("written out", 11),
    ("scratch", 7),
    ("written out", 11),
    ("copies, us", 10),
    ("written out", 11),
    ("instructions", 12),
    ("written out", 11),
];

/// What the join costs on files whose rows have copies, and on the same files with their rows written out.
pub fn table(cases: &[Case], counts: Option<&[[u64; CALLS]]>) {
    println!("\nCopies: the join on a file whose rows have copies, and on the same file with its rows written out.");
    println!("Bytes of the file and words of scratch with copies, and behind them those written out. Times and instructions");
    println!("are those with copies, and written out ratios to these. Either file gives the same results.\n");
    print_heads(&COLUMNS);
    cases.iter().enumerate().for_each(|(i, case)| print_cost(case, counts.map(|c| &c[i])));
}

/// Prints the row of a case. Both files must agree first.
fn print_cost(case: &Case, counts: Option<&[u64; CALLS]>) {
    let counted = case.files();
    let written: Vec<Input> = counted.iter().map(Input::written_out).collect();
    let answers: Vec<[Answer; 2]> = counted.iter().zip(&written).map(|(c, w)| check(&case.name(), [c, w])).collect();
    let [copies, rows] = measure([&counted, &written]);
    let mut cells = vec![case.name(), answers[0][0].rows.to_string()];
    let files = [&counted[0], &written[0]];
    cells.extend(files.map(|f| f.file.len().to_string()));
    cells.extend(files.map(|f| f.scratch_words.to_string()));
    cells.extend([format!("{copies:.1}"), ratio(rows / copies)]);
    cells.extend(counts.map_or(["-"; 2].map(String::from), |c| [c[0].to_string(), ratio(c[1] as f64 / c[0] as f64)]));
    print_row(&COLUMNS, &cells);
}

/// The times for one file in microseconds, with copies and written out.
fn measure([counted, written]: [&[Input]; 2]) -> [f64; 2] {
    let (mut one, mut two) = (Buffers::new(&counted[0]), Buffers::new(&written[0]));
    let t = times(&mut [
        &mut || counted.iter().for_each(|f| _ = black_box(library::join(&f.file, &mut one.scratch, &mut one.output))),
        &mut || written.iter().for_each(|f| _ = black_box(library::join(&f.file, &mut two.scratch, &mut two.output))),
    ]);
    [per_file(t[0], counted), per_file(t[1], written)]
}

#[cfg(test)]
mod tests {
    use super::*;
    use crate::inputs::{choices, samples, table as of_columns, with_copies};

    /// The sample of copies, 12.20 of docs/SPECIFICATION.md: the sample file with its two equal readings sent as one row.
    fn sample() -> Input {
        let Input { mut tables, followed, .. } = samples().into_iter().next().unwrap();
        tables[2] = of_columns(vec![(2, vec![7, 9]), (3, vec![29510, 29530])]).with_copies(vec![2, 1]);
        Input::new(tables, followed)
    }

    #[test]
    fn the_sample() {
        let (counted, written) = (sample(), sample().written_out());
        let words = [12, 2, 2, 1, 7, 9, 29510, 29530].map(u32::to_le_bytes).concat();
        assert_eq!(counted.file[84..], [b"TC", &words[..], b"PL\x05\xff\x00\xff\x01\x02"].concat());
        assert!(written.file == samples()[0].file);
        assert_eq!([choices(&counted.tables), choices(&written.tables)], [48, 48]);
        let [answer, _] = check("sample", [&counted, &written]);
        assert_eq!([answer.entries, answer.lookups, answer.comparisons, answer.visits], [5, 8, 17, 10]);
    }

    /// Each case has the results that its name says, and those of the chain 16 times.
    #[test]
    fn as_many_results() {
        let cases = with_copies();
        let results = |input: &Input| joined("case", input).0.rows;
        let chain = cases[5].first();
        let once = Input::new(chain.tables.iter().map(|t| t.clone().with_copies(vec![1; 64])).collect(), chain.followed.clone());
        let all: Vec<u64> = cases.iter().map(|c| results(&c.first())).collect();
        assert_eq!(all, [900, 180_000, 900, 180_000, 4096, 16 * results(&once)]);
    }

    /// A copy too many is noticed.
    #[test]
    #[should_panic(expected = "sample: results")]
    fn another_copy() {
        let mut other = sample();
        other.tables[2] = other.tables[2].clone().with_copies(vec![2, 2]);
        check("sample", [&sample(), &other.written_out()]);
    }

    /// A value that differs is noticed.
    #[test]
    #[should_panic(expected = "sample: outputs")]
    fn another_value() {
        let mut other = sample();
        other.tables[2].columns[1][0] += 1;
        check("sample", [&sample(), &other.written_out()]);
    }

    /// Copies that are out of range are told with the answer.
    #[test]
    #[should_panic(expected = "sample, with copies: Answer { number: 19")]
    fn no_copies() {
        let Input { mut tables, followed, .. } = sample();
        tables[2] = tables[2].clone().with_copies(vec![2, 0]);
        check("sample", [&Input::new(tables, followed), &sample().written_out()]);
    }
}
