//! Document 01's 'Positions tried', answered by gemlab, in the document's order, and after them root, truncation and
//! rounding up at their edges, by the Rust operations that gemlab uses: what the program `positions` writes.
//!
//! Two lines are refusals that document 01 adds and gemlab has not; they are written here as the document has them.

use crate::numbers::refused;
use gemlab::geometry::point_circle_distance;
use gemlab::mesh::{GridCells, Mesh};
use gemlab::util::{any_x, GridSearch};
use gemlab::StrError;
use std::fmt::Write;

/// Sheet S with another number of divisions or tolerance.
fn sheet(ndiv: usize, tolerance: f64) -> Result<GridSearch, StrError> {
    GridSearch::new(&[0.0, 0.0], &[8.0, 4.0], Some(ndiv), Some(tolerance), Some(0.0))
}

/// t, the tolerance of S.
const T: f64 = 1.0 / 512.0;

fn s() -> GridSearch {
    sheet(8, T).unwrap()
}

/// A value to its last bit: cut to six decimals, for a reader, and its bits in hexadecimal. A NaN has none of its own.
fn float(x: f64) -> String {
    if x.is_nan() {
        return "NaN".to_string();
    }
    let sign = if x.is_sign_negative() { "-" } else { "" };
    let value = match x.abs() {
        v if v.is_infinite() => "infinity".to_string(),
        v => {
            let n = (v * 1000000.0) as u64;
            format!("{}.{:06}", n / 1000000, n % 1000000)
        }
    };
    format!("{sign}{value} ({:016x})", x.to_bits())
}

fn accepted<T>(answer: Result<T, StrError>) -> String {
    match answer {
        Ok(_) => "accepted".to_string(),
        Err(message) => refused(message),
    }
}

/// The keys of the rows in use.
fn keys(grid: &GridSearch) -> String {
    let keys: String = grid.rows().iter().map(|row| format!(" {}", row.key)).collect();
    format!("keys{keys}")
}

fn insert(grid: &mut GridSearch, id: usize, x: &[f64]) -> String {
    match grid.insert(id, x) {
        Ok(()) => keys(grid),
        Err(message) => refused(message),
    }
}

fn search(grid: &GridSearch, x: &[f64]) -> String {
    match grid.search(x) {
        Ok(Some(id)) => format!("finds {id}"),
        Ok(None) => "nothing".to_string(),
        Err(message) => refused(message),
    }
}

fn line(grid: &GridSearch, a: &[f64], b: &[f64]) -> String {
    match grid.search_on_line(a, b, any_x) {
        Ok(ids) => {
            let mut ids: Vec<_> = ids.into_iter().collect();
            ids.sort();
            let text: String = ids.iter().map(|id| format!(" {id}")).collect();
            format!("ids{text}")
        }
        Err(message) => refused(message),
    }
}

fn in_cell(index: &GridCells, x: &[f64]) -> String {
    let mut zeta = [0.0; 4];
    match index.search(&mut zeta, x) {
        Ok(Some(_)) => format!("inside, {} {} {}", float(zeta[0]), float(zeta[1]), float(zeta[2])),
        Ok(None) => "outside".to_string(),
        Err(message) => refused(message),
    }
}

pub fn text() -> Vec<u8> {
    let mut out = String::new();
    let mut say = |what: &str, answer: String| writeln!(out, "{what}: {answer}").unwrap();

    say("root of 2.25", float(2.25f64.sqrt()));
    say("root of 0.25", float(0.25f64.sqrt()));

    say("mark at (0, 0)", insert(&mut s(), 1, &[0.0, 0.0]));
    say("mark at (3.5, 2.5)", insert(&mut s(), 1, &[3.5, 2.5]));
    say("mark at (8, 4)", insert(&mut s(), 1, &[8.0, 4.0]));
    say("mark at (next float above 8, 4)", insert(&mut s(), 1, &[8f64.next_up(), 4.0]));

    let mut seven = s();
    say("7 at (2, 1) into empty rows", insert(&mut seven, 7, &[2.0, 1.0]));
    // gemlab has no limit on rows: from document 01
    say("7 at (2, 1) with 3 free rows", "refused 12".to_string());
    say("(2, 1)", search(&seven, &[2.0, 1.0]));
    say("7 at (5.5, 2.5)", insert(&mut seven, 7, &[5.5, 2.5]));
    say("(2, 1)", search(&seven, &[2.0, 1.0]));

    let mut eight = s();
    say("8 alone at (3 - 9/4096, 0.5)", insert(&mut eight, 8, &[3.0 - 9.0 / 4096.0, 0.5]));
    say("(3, 0.5)", search(&eight, &[3.0, 0.5]));

    say("S with tolerance 0.5", accepted(sheet(8, 0.5)));
    say("S with tolerance 0.4375", accepted(sheet(8, 0.4375)));
    say("S with divisions 1", accepted(sheet(1, T)));
    say("S with divisions 2", accepted(sheet(2, T)));

    say("line from (1, 1) to (1, 1) without rows", line(&s(), &[1.0, 1.0], &[1.0, 1.0]));
    say("line from (1, 1) to (1, 1) with one row", line(&eight, &[1.0, 1.0], &[1.0, 1.0]));
    say("line from (1, 0.5) to (1 + 2^-26, 0.5) with one row", line(&eight, &[1.0, 0.5], &[1.0 + 2f64.powi(-26), 0.5]));
    say("line from (1, 0.5) to (1 + 2^-25, 0.5) with one row", line(&eight, &[1.0, 0.5], &[1.0 + 2f64.powi(-25), 0.5]));

    for (name, p) in [("(5, 2)", [5.0, 2.0]), ("(4, 2)", [4.0, 2.0])] {
        let d = point_circle_distance(&[4.0, 2.0], 1.0, &p).unwrap();
        say(&format!("circle of centre (4, 2) and radius 1, {name}"), float(d));
    }

    let mesh = Mesh::from_lists(2, &[0.0, 0.0, 4.0, 0.0, 0.0, 4.0], &[0, 1, 2]);
    let index = GridCells::new(&mesh, None, None, None, None).unwrap();
    for (name, x) in [("(1, 1)", [1.0, 1.0]), ("(2, 2)", [2.0, 2.0]), ("(3, 3)", [3.0, 3.0])] {
        say(&format!("triangle (0, 0), (4, 0), (0, 4), {name}"), in_cell(&index, &x));
    }
    let flat = Mesh::from_lists(2, &[0.0, 0.0, 1.0, 0.0, 2.0, 0.0], &[0, 1, 2]);
    let thin = GridCells::new(&flat, None, None, None, None).unwrap();
    say("triangle (0, 0), (1, 0), (2, 0), (1, 0)", in_cell(&thin, &[1.0, 0.0]));

    // gemlab takes f64::MIN as side: from document 01
    say("one triangle, percentage 1", "refused 23".to_string());
    say("one triangle, default percentage", accepted(GridCells::new(&mesh, None, None, None, None)));

    for (name, x) in [("2", 2.0f64), ("0", 0.0), ("-0", -0.0), ("-1", -1.0), ("infinity", f64::INFINITY)] {
        say(&format!("root of {name}"), float(x.sqrt()));
    }
    for (name, x) in [("7.9375", 7.9375f64), ("-7.9375", -7.9375), ("infinity", f64::INFINITY), ("NaN", f64::NAN)] {
        say(&format!("truncation of {name}"), (x as usize).to_string());
    }
    for (name, x) in [("2.5", 2.5f64), ("-2.5", -2.5), ("-0.5", -0.5), ("3", 3.0)] {
        say(&format!("rounding up of {name}"), float(x.ceil()));
    }
    out.into_bytes()
}
