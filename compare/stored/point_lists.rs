//! Point lists for the program `survey`, with what it has to print: tests/survey.cases, which tests/survey.sh goes through, and
//! the text of the sample.
//!
//! Which marks a text has, or its first bad line, is told by the reading of request d. The sheet, the library and the text are
//! gemlab's own; 12, which document 01 adds, is told where the library has more than 1,024 rows or the text more marks.

use crate::numbers::number;
use crate::point_list::{read, Mark};
use crate::random::Random;
use gemlab::util::GridSearch;
use std::fmt::Write;

const SAMPLE: &str = include_str!("../../examples/marks.csv");

/// The most marks and rows that the program holds.
const MOST: usize = 1024;

/// The sheet of the extremes, with every setting left out, and the marks in it.
fn library(marks: &[Mark]) -> Result<GridSearch, u64> {
    let on = |i: usize| marks.iter().map(move |mark| mark.at[i]);
    let low = [0, 1, 2].map(|i| on(i).fold(f64::INFINITY, f64::min));
    let high = [0, 1, 2].map(|i| on(i).fold(f64::NEG_INFINITY, f64::max));
    let mut library = GridSearch::new(&low, &high, None, None, None).map_err(number)?;
    for mark in marks {
        library.insert(mark.id as usize, &mark.at).map_err(number)?;
        if library.rows().len() > MOST {
            return Err(12);
        }
    }
    Ok(library)
}

/// The lines that are printed.
fn printed(text: &str) -> Vec<String> {
    let marks = match read(text.as_bytes()) {
        Err(line) => return vec![format!("refused 27 {line}")],
        Ok(marks) if marks.len() > MOST => return vec!["refused 12".to_string()],
        Ok(marks) => marks,
    };
    match library(&marks) {
        Ok(library) => library.to_string().lines().map(str::to_string).collect(),
        Err(number) => vec![format!("refused {number}")],
    }
}

/// What the program prints of the sample.
pub fn sample() -> Vec<u8> {
    let mut out = String::new();
    printed(SAMPLE).iter().for_each(|line| writeln!(out, "{line}").unwrap());
    out.into_bytes()
}

/// A line of a text: `<` where it ends in LF, `<r` in CR LF, `<n` in nothing.
fn write_text(out: &mut String, text: &str) {
    for line in text.split_inclusive('\n') {
        let (mark, line) = match line.strip_suffix('\n') {
            None => ("<n", line),
            Some(inner) => match inner.strip_suffix('\r') {
                Some(inner) => ("<r", inner),
                None => ("<", inner),
            },
        };
        writeln!(out, "{mark} {line}").unwrap();
    }
}

fn case(out: &mut String, name: &str, text: &str) {
    writeln!(out, "case {name}").unwrap();
    write_text(out, text);
    printed(text).iter().for_each(|line| writeln!(out, "> {line}").unwrap());
}

/// So many millimetres as surveyors may write them: with three decimals, or without the zeros at the end.
fn coordinate(random: &mut Random, millimetres: i64) -> String {
    let size = millimetres.unsigned_abs();
    let mut text = format!("{}{}.{:03}", if millimetres < 0 { "-" } else { "" }, size / 1000, size % 1000);
    if random.below(2) == 0 {
        text = text.trim_end_matches('0').trim_end_matches('.').to_string();
    }
    text
}

fn line(random: &mut Random, id: u64, at: [i64; 3]) -> String {
    let [x, y, z] = at.map(|millimetres| coordinate(random, millimetres));
    let description = *random.pick(&["", "post", "stud 4", "anchor; seal ~", "12345678901234567890123456789012"]);
    let end = *random.pick(&["\n", "\n", "\r\n"]);
    format!("{id},{x},{y},{z},{description}{end}")
}

/// Marks anywhere in a box, in millimetres; some numbers come twice.
fn anywhere(random: &mut Random, count: u64, low: [i64; 3], high: [i64; 3]) -> String {
    let mut text = String::new();
    for _ in 0..count {
        let at = [0, 1, 2].map(|i| low[i] + random.below((high[i] - low[i] + 1) as u64) as i64);
        let id = if random.below(4) == 0 { random.next() } else { random.below(count) };
        text += &line(random, id, at);
    }
    text
}

/// Containers with a side of a metre from -0.01 on, and marks beside their borders, on some axes.
fn beside_borders(random: &mut Random, count: u64) -> String {
    let mut text = line(random, 1, [0; 3]) + &line(random, 2, [99_980; 3]);
    for id in 3..3 + count {
        let at = [0, 1, 2].map(|_| {
            let border = 1000 * (1 + random.below(98) as i64) - 10;
            border + *random.pick(&[0, 0, 1, -1, 400, 700])
        });
        text += &line(random, id, at);
    }
    text
}

pub fn text() -> Vec<u8> {
    let mut out = String::from(
        "# Standard input of the program `survey`, and what it prints: made by compare/stored (docs/STORED.md).\n\
         # A line of input: < where it ends in LF, <r in CR LF, <n in nothing.\n",
    );
    let random = &mut Random::new(0x5057_e755);
    case(&mut out, "the sample", SAMPLE);
    case(&mut out, "no bytes", "");
    case(&mut out, "one mark", "7,1,2,3,\n");
    case(&mut out, "a bad line", "7,1,2,3,\n8,1,2,3\n9,1,2,+3,\n");
    case(&mut out, "marks at one height", "7,1,2,3,\n8,2,3,3,\n");
    case(&mut out, "a sheet too small for its tolerance", "1,0,0,0,\n2,0.001,0.001,0.001,\n");
    case(&mut out, "minus zero and the limits", "1,-0,-0.000,-1048576,\n2,1048576.000,0.001,1048576,");
    for (name, count, low, high) in [
        ("two marks", 2, [0; 3], [1000; 3]),
        ("a yard", 30, [0; 3], [20_000, 15_000, 4_000]),
        ("a basin", 60, [-400_000, 20_000, -5_000], [800_000, 900_000, 40_000]),
        ("the whole range", 60, [-1_048_576_000; 3], [1_048_576_000; 3]),
        ("a flat one", 40, [0; 3], [500_000, 400_000, 3]),
        ("a long one", 40, [0; 3], [900_000, 7, 2_000]),
        ("a few millimetres", 25, [5_000; 3], [5_030; 3]),
    ] {
        let text = anywhere(random, count, low, high);
        case(&mut out, name, &text);
    }
    for count in [1, 20, 110] {
        let text = beside_borders(random, count);
        case(&mut out, &format!("{count} marks beside borders"), &text);
    }
    let without_end = anywhere(random, 12, [0; 3], [9_000; 3]);
    case(&mut out, "no last end", without_end.trim_end());
    out.into_bytes()
}
