//! The job of examples/survey.c done by gemlab, with the text that it has to write.

use crate::numbers::refused;
use gemlab::geometry::*;
use gemlab::mesh::{GridCells, Mesh};
use gemlab::util::{any_x, GridSearch};
use gemlab::StrError;
use std::collections::HashSet;
use std::fmt::Write;

/// C's `%.Ng` of a value that is finite.
fn general(x: f64, digits: usize) -> String {
    let text = format!("{:.*e}", digits - 1, x);
    let (mantissa, exponent) = text.split_once('e').unwrap();
    let exponent: i32 = exponent.parse().unwrap();
    if x != 0.0 && (exponent < -4 || exponent >= digits as i32) {
        let mantissa =
            if mantissa.contains('.') { mantissa.trim_end_matches('0').trim_end_matches('.') } else { mantissa };
        return format!("{mantissa}e{}{:02}", if exponent < 0 { '-' } else { '+' }, exponent.abs());
    }
    let decimals = (digits as i32 - 1 - exponent) as usize;
    let text = format!("{x:.decimals$}");
    if text.contains('.') {
        text.trim_end_matches('0').trim_end_matches('.').to_string()
    } else {
        text
    }
}

fn listed(ids: Result<HashSet<usize>, StrError>) -> String {
    match ids {
        Err(message) => format!(" {}", refused(message)),
        Ok(ids) => {
            let mut ids: Vec<_> = ids.into_iter().collect();
            ids.sort();
            ids.iter().map(|id| format!(" {id}")).collect()
        }
    }
}

fn distances(out: &mut String) {
    let (a, b, p) = ([0.0, 0.0], [4.0, 0.0], [1.0, 2.0]);
    let (low, high, q) = ([0.0, 0.0, 0.0], [0.0, 0.0, 4.0], [3.0, 4.0, 1.0]);
    for (name, d) in [
        ("from the first post", point_point_distance(&a, &p)),
        ("from the line", point_line_distance(&a, &b, &p)),
        ("from the circle", point_circle_distance(&a, 3.0, &p)),
        ("from the cylinder", point_cylinder_distance(&low, &high, 2.0, &q)),
    ] {
        writeln!(out, "{name}: {}", general(d.unwrap(), 17)).unwrap();
    }
    writeln!(out, "a line of one point: {}", refused(point_line_distance(&a, &a, &p).unwrap_err())).unwrap();
}

fn basin(out: &mut String) {
    let mesh = Mesh::from_lists(2, &[0.0, 0.0, 4.0, 0.0, 4.0, 4.0, 0.0, 4.0], &[0, 1, 2, 0, 2, 3]);
    let index = GridCells::new(&mesh, None, None, None, None).unwrap();
    let fields = index.fields();
    writeln!(out, "containers: {} x {}, rows: {}", fields.ndiv[0], fields.ndiv[1], fields.rows.len()).unwrap();
    for x in [[3.0, 1.0], [1.0, 3.0], [4.005, 2.0]] {
        let mut zeta = [0.0; 4];
        write!(out, "probe ({}, {}): ", general(x[0], 6), general(x[1], 6)).unwrap();
        match index.search(&mut zeta, &x) {
            Err(message) => writeln!(out, "{}", refused(message)),
            Ok(None) => writeln!(out, "nothing"),
            Ok(Some(cell)) => {
                let [z0, z1, z2, _] = zeta.map(|z| general(z, 6));
                writeln!(out, "cell {cell}, coordinates {z0} {z1} {z2}")
            }
        }
        .unwrap();
    }
}

pub fn text() -> Vec<u8> {
    let mut out = String::new();
    let mut sheet = GridSearch::new(&[0.0, 0.0], &[8.0, 4.0], Some(8), None, None).unwrap();
    let fields = sheet.fields();
    writeln!(out, "divisions: {} x {}, side {}", fields.ndiv[0], fields.ndiv[1], general(fields.side_length, 17))
        .unwrap();

    for (id, x) in [(3, [3.5, 2.5]), (7, [2.00005, 0.5]), (11, [6.0, 1.0]), (12, [6.0, 3.0]), (usize::MAX, [6.0, 3.5])]
    {
        sheet.insert(id, &x).unwrap();
    }
    writeln!(out, "rows: {}", sheet.rows().len()).unwrap();

    for x in [[3.5, 2.5], [2.0, 0.5], [5.0, 1.0], [9.0, 1.0]] {
        write!(out, "({}, {}): ", general(x[0], 6), general(x[1], 6)).unwrap();
        match sheet.search(&x) {
            Err(message) => writeln!(out, "{}", refused(message)),
            Ok(None) => writeln!(out, "nothing"),
            Ok(Some(id)) => writeln!(out, "post {id}"),
        }
        .unwrap();
    }

    let (a, b, center) = ([6.0, 0.0], [6.0, 4.0], [6.0, 2.0]);
    for (name, ids) in [
        ("on the line", sheet.search_on_line(&a, &b, any_x)),
        ("on the line, from 2 to 3", sheet.search_on_line(&a, &b, |x| x[1] >= 2.0 && x[1] <= 3.0)),
        ("on the circle", sheet.search_on_circle(&center, 1.0, any_x)),
        ("on a plane in 2D", sheet.search_on_plane_xy(1.0, any_x)),
    ] {
        writeln!(out, "{name}:{}", listed(ids)).unwrap();
    }

    distances(&mut out);
    basin(&mut out);
    out.into_bytes()
}
