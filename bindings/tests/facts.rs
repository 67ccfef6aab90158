//! What the header says besides the meaning of each call: names, how long lists have to be, threads and stack.

use hrbotaj::survey::{self, Mark, POINT_BYTES};
use hrbotaj::{CellIndex, Check, Filter, Library, LookUp, Mesh, Place, Refusal, Sheet, ROWS, STACK, STACK_LISTING};
use std::thread;

/// The names that the header defines as numbers, without `GEMLAB_`.
fn header() -> Vec<(String, u64)> {
    let text = std::fs::read_to_string(concat!(env!("CARGO_MANIFEST_DIR"), "/../include/gemlab.h")).unwrap();
    let lines = text.lines().filter_map(|line| line.strip_prefix("#define GEMLAB_"));
    lines
        .filter_map(|line| {
            let mut words = line.split_whitespace();
            Some((words.next()?.to_string(), words.next()?.parse().ok()?))
        })
        .collect()
}

#[test]
fn names_are_the_headers() {
    let header = header();
    let number = |name: &str| header.iter().find(|(of, _)| of == name).map(|(_, n)| *n);
    for n in 1..=29 {
        let name = Refusal(n).name().unwrap();
        assert_eq!(number(name), Some(n), "{name}");
    }
    assert_eq!((Refusal(0).name(), Refusal(30).name()), (None, None));
    assert_eq!((Refusal::OUTSIDE, Refusal::NO_ROW, Refusal::MALFORMED), (Refusal(11), Refusal(26), Refusal(27)));
    assert_eq!(number("STACK"), Some(STACK as u64));
    assert_eq!(number("STACK_LISTING"), Some(STACK_LISTING as u64));
    assert_eq!(number("POINT_BYTES"), Some(POINT_BYTES as u64));
}

/// A sheet whose side is within rounding of twice the tolerance, and the place of a mark whose halo reaches over three
/// containers on each axis.
fn tight(ndim: usize) -> (Sheet, Vec<f64>) {
    let u = 1000f64.next_up() - 1000.0;
    let (low, high) = (vec![1000.0; ndim], vec![1008.0 - 4.0 * u; ndim]);
    let sheet = Sheet::new(&low, &high, Some(8), Some(0.5 - 0.45 * u), Some(0.0)).unwrap();
    (sheet, vec![1001.5 - u; ndim])
}

#[test]
fn a_mark_takes_up_to_five_or_nine_rows() {
    for (ndim, most) in [(2, 5), (3, 9)] {
        let (sheet, x) = tight(ndim);
        let mut library = Library::with_marks(&sheet, 1);
        assert_eq!(library.keys.len(), most);
        library.insert(&sheet, 7, &x).unwrap();
        assert_eq!(library.used, most as u64);
        // the corners of three by three containers, and the middle
        let expected: Vec<u64> = match ndim {
            2 => vec![0, 2, 9, 16, 18],
            _ => vec![0, 2, 16, 18, 73, 128, 130, 144, 146],
        };
        assert_eq!(library.keys, expected);
        assert_eq!(library.search(&sheet, &x), Ok(Some(7)));
        let mut short = Library::with_space(most - 1);
        assert_eq!(short.insert(&sheet, 7, &x), Err(Refusal::FULL));
    }
    let (sheet, _) = tight(2);
    assert_eq!(Library::with_marks(&sheet, usize::MAX).keys.len(), ROWS);
}

#[test]
fn a_mark_that_is_struck_off_frees_its_rows() {
    for ndim in [2, 3] {
        let (sheet, x) = tight(ndim);
        let mut library = Library::with_marks(&sheet, 1);
        let empty = library.clone();
        library.insert(&sheet, 7, &x).unwrap();
        let rows = library.used;
        let full = library.clone();
        assert_eq!(library.insert(&sheet, 8, &x), Err(Refusal::FULL));
        assert_eq!(library.strike(&sheet, 7), Ok(rows));
        assert_eq!(library, empty);
        assert_eq!(library.strike(&sheet, 7), Err(Refusal::NO_ROW));
        library.insert(&sheet, 7, &x).unwrap();
        assert_eq!(library, full);
    }
}

#[test]
fn the_rows_of_other_marks_close_up() {
    let sheet = Sheet::new(&[0.0, 0.0], &[8.0, 4.0], Some(8), None, Some(0.0)).unwrap();
    let mut library = Library::with_space(12);
    // whatever stands past the rows in use becomes 0, to the end of the lists
    library.keys.fill(u64::MAX);
    library.ids.fill(5);
    library.xs.fill(-1.5);
    library.ys.fill(f64::NAN);
    library.zs.fill(-0.0);
    let marks = [(7, [0.5, 0.5]), (9, [2.0, 1.0]), (7, [3.5, 1.5]), (9, [5.5, 2.5]), (7, [7.5, 3.5])];
    for (id, x) in marks {
        library.insert(&sheet, id, &x).unwrap();
    }
    let mut others = Library::with_space(12);
    for (id, x) in marks.into_iter().filter(|(id, _)| *id != 9) {
        others.insert(&sheet, id, &x).unwrap();
    }
    assert_eq!(library.strike(&sheet, 9), Ok(5));
    assert_eq!(library, others);
    assert!(library.zs.iter().all(|z| z.is_sign_positive()));
    assert_eq!(library.search(&sheet, &[2.0, 1.0]), Ok(None));
    assert_eq!(library.search(&sheet, &[3.5, 1.5]), Ok(Some(7)));
}

/// A sheet and a library of three marks: two in one container, and one where containers meet. Past its rows stands what no
/// row may hold.
fn three_marks(ndim: usize) -> (Sheet, Library) {
    let sheet = Sheet::new(&vec![0.0; ndim], &vec![8.0; ndim], Some(8), None, Some(0.0)).unwrap();
    let mut library = Library::with_space(32);
    library.keys.fill(u64::MAX);
    library.xs.fill(f64::NAN);
    for (id, x) in [(9, 0.5), (4, 0.5), (7, 2.0)] {
        library.insert(&sheet, id, &vec![x; ndim]).unwrap();
    }
    (sheet, library)
}

/// What a check tells. Every other call has to refuse the library with 13 where a row is told, and only there.
fn told(sheet: &Sheet, library: &Library) -> Check {
    let told = library.check(sheet).unwrap();
    let refusal = told.bad.map(|_| Refusal::DAMAGED);
    let ndim = sheet.ndim() as usize;
    let (origin, x) = (vec![0.0; ndim], vec![3.5; ndim]);
    assert_eq!(library.search(sheet, &x).err(), refusal);
    assert_eq!(library.list(sheet, Place::Line { a: &origin, b: &x }, Filter::Everything).err(), refusal);
    let mut own = library.clone();
    assert_eq!(own.insert(sheet, 9, &x).err(), refusal);
    assert_eq!(own.strike(sheet, 9).err(), refusal);
    told
}

#[test]
fn a_sound_library_has_no_bad_row() {
    for ndim in [2, 3] {
        let (sheet, mut library) = three_marks(ndim);
        let rows = library.used;
        for used in 0..=rows {
            library.used = used;
            assert_eq!(told(&sheet, &library), Check { bad: None, visited: used });
        }
        // entries that are just good
        let last = rows as usize - 1;
        library.keys[last] = sheet.ndiv().iter().product::<u64>() - 1;
        library.ids[last] = u64::MAX;
        library.xs[last] = 1048576.0;
        library.ys[last] = -1048576.0;
        library.zs[last] = if ndim == 2 { 0.0 } else { -0.0 };
        assert_eq!(told(&sheet, &library), Check { bad: None, visited: rows });
    }
    let (sheet, _) = three_marks(2);
    assert_eq!(Library::default().check(&sheet), Ok(Check { bad: None, visited: 0 }));
}

/// Makes a row bad.
type Way = fn(&Sheet, &mut Library, usize);

/// The ways in which a row is bad by itself, and by the row before it.
fn ways(ndim: usize, row: usize) -> Vec<Way> {
    let mut ways: Vec<Way> = vec![
        |s, l, i| l.keys[i] = s.ndiv().iter().product(),
        |_, l, i| l.xs[i] = f64::NAN,
        |_, l, i| l.ys[i] = f64::NEG_INFINITY,
        |_, l, i| l.zs[i] = 1048576f64.next_up(),
    ];
    if ndim == 2 {
        ways.push(|_, l, i| l.zs[i] = -0.0);
    }
    if row > 0 {
        // the same key and id, and the two exchanged
        ways.push(|_, l, i| (l.keys[i], l.ids[i]) = (l.keys[i - 1], l.ids[i - 1]));
        ways.push(|_, l, i| {
            l.keys.swap(i - 1, i);
            l.ids.swap(i - 1, i);
        });
    }
    ways
}

#[test]
fn the_lowest_bad_row_is_told() {
    for ndim in [2, 3] {
        let (sheet, good) = three_marks(ndim);
        for row in 0..good.used as usize {
            let expected = Check { bad: Some(row as u64), visited: row as u64 + 1 };
            for make_bad in ways(ndim, row) {
                let mut library = good.clone();
                make_bad(&sheet, &mut library, row);
                assert_eq!(told(&sheet, &library), expected);
                // past the rows in use it is not looked at
                library.used = row as u64;
                assert_eq!(told(&sheet, &library), Check { bad: None, visited: row as u64 });
                // a row further on is bad too, in whatever way; it goes first, since it may take this row's place
                for later in row + 1..good.used as usize {
                    for make_later_bad in ways(ndim, later) {
                        let mut library = good.clone();
                        make_later_bad(&sheet, &mut library, later);
                        make_bad(&sheet, &mut library, row);
                        assert_eq!(told(&sheet, &library), expected);
                    }
                }
            }
        }
    }
}

#[test]
fn the_nearer_mark_is_found() {
    for ndim in [2, 3] {
        let sheet = Sheet::new(&vec![0.0; ndim], &vec![8.0; ndim], Some(8), None, Some(0.0)).unwrap();
        let at = |x: f64, y: f64| [vec![x, y], vec![0.5; ndim - 2]].concat();
        let found = |marks: [(u64, [f64; 2]); 2], pole: [f64; 2]| {
            let mut library = Library::with_marks(&sheet, 2);
            for (id, [x, y]) in marks {
                library.insert(&sheet, id, &at(x, y)).unwrap();
            }
            library.search(&sheet, &at(pole[0], pole[1])).unwrap()
        };
        // two seal anchors 0.1 mm apart
        let anchors = [(4, [3.5, 2.5]), (9, [3.5001, 2.5])];
        assert_eq!(found(anchors, [3.5, 2.5]), Some(4));
        assert_eq!(found(anchors, [3.5001, 2.5]), Some(9));
        // equally near: on both sides, and where one square is a unit larger and the roots are equal
        let (off, unit) = (1.0 / 16384.0, 1.0 / 1099511627776.0);
        let square: f64 = off * off + unit * unit;
        assert!(square > off * off && square.sqrt() == off);
        let (left, right, above) = ([3.5 - off, 2.5], [3.5 + off, 2.5], [3.5 + off, 2.5 + unit]);
        for (a, b) in [(left, right), (right, left), (right, above), (above, right)] {
            assert_eq!(found([(4, a), (9, b)], [3.5, 2.5]), Some(4));
        }
    }
}

#[test]
fn a_cell_takes_up_to_four_or_eight_rows() {
    // two cells of one size, the second across the edges of containers on every axis
    for (ndim, most) in [(2, 4), (3, 8)] {
        let cell = |from: f64| -> Vec<f64> {
            let corner = |k: usize, axis: usize| if k == axis + 1 { from + 1.0 } else { from };
            (0..=ndim).flat_map(|k| (0..ndim).map(move |axis| corner(k, axis))).collect()
        };
        let coords = [cell(0.0), cell(0.5)].concat();
        let corners: Vec<u32> = (0..2 * (ndim as u32 + 1)).collect();
        let mesh = Mesh { ndim: ndim as u64, coords: &coords, corners: &corners };
        let index = CellIndex::new(&mesh, None, None, None, None).unwrap();
        let rows = |cell: u64| index.cells[..index.numbers[4] as usize].iter().filter(|c| **c == cell).count();
        assert_eq!((rows(1), index.keys.len()), (most, 2 * most));
    }
}

/// Marks whose coordinates are whole millimetres, at both ends and between.
fn point_list(count: usize) -> Vec<Mark> {
    let coordinate = |k: usize| (k as i64 * 999_983 % 2_097_152_001 - 1_048_576_000) as f64 / 1000.0;
    let mark = |k: usize| Mark {
        id: (k as u64).wrapping_mul(0x9e37_79b9_7f4a_7c15),
        at: [0, 1, 2].map(|i| coordinate(3 * k + i)),
    };
    (0..count).map(mark).collect()
}

#[test]
fn a_point_list_is_written_and_read() {
    // the longest line
    let widest = Mark { id: u64::MAX, at: [-1048576.0; 3] };
    let text = survey::export(&[widest]).unwrap();
    assert_eq!(text, b"18446744073709551615,-1048576.000,-1048576.000,-1048576.000,\n");
    assert_eq!(text.len(), POINT_BYTES);
    assert_eq!(survey::import(&text), Ok(vec![widest]));
    for marks in [point_list(1), point_list(7), point_list(ROWS), vec![widest; ROWS]] {
        let text = survey::export(&marks).unwrap();
        assert_eq!(survey::import(&text).as_ref(), Ok(&marks));
        // descriptions and other ends change nothing, and the last line may have no end
        let described = String::from_utf8(text).unwrap().replace(",\n", ",post, \r\n").replace("post, ", "a post");
        assert_eq!(survey::import(described.trim_end().as_bytes()), Ok(marks));
    }
    assert_eq!(survey::export(&[]), Ok(vec![]));
    // minus on zero is dropped
    let at = survey::import(b"1,-0,-0.0,-0.000,").unwrap()[0].at;
    assert!(at.iter().all(|x| x.to_bits() == 0));
}

#[test]
fn a_coordinate_is_the_float_nearest_to_its_decimal() {
    for mark in point_list(1000) {
        let decimal = mark.at.map(|x| format!("{x:.3}"));
        let text = format!("{},{},\n", mark.id, decimal.join(","));
        assert_eq!(survey::export(&[mark]), Ok(text.clone().into_bytes()));
        assert_eq!(survey::import(text.as_bytes()).unwrap()[0].at, decimal.map(|x| x.parse().unwrap()));
    }
}

/// A library of one mark in so many containers, every row on the circle of radius 1000 about the origin.
fn full(rows: usize) -> (Sheet, Library) {
    let sheet = Sheet::new(&[0.0, 0.0], &[8.0, 8.0], Some(256), None, Some(0.0)).unwrap();
    let mut library = Library::with_space(rows);
    for i in 0..rows {
        library.keys[i] = i as u64;
        library.ids[i] = i as u64 % 5;
        library.xs[i] = 1000.0;
    }
    library.used = rows as u64;
    (sheet, library)
}

#[test]
fn calls_run_in_threads_with_little_stack() {
    let (sheet, library) = full(ROWS);
    let marks = point_list(ROWS);
    let circle = Place::Circle { center: &[0.0, 0.0], radius: 1000.0 };
    // what a thread has for itself
    let besides = 32768;
    thread::scope(|scope| {
        for _ in 0..4 {
            let all = || assert_eq!(library.list(&sheet, circle, Filter::Everything).unwrap(), [0, 1, 2, 3, 4]);
            thread::Builder::new().stack_size(STACK_LISTING + besides).spawn_scoped(scope, all).unwrap();
            let one = || {
                let mut own = library.clone();
                own.used -= 5;
                assert_eq!(own.insert(&sheet, 9, &[4.0, 4.0]), Ok(()));
                assert_eq!(own.search(&sheet, &[4.0, 4.0]), Ok(Some(9)));
                assert_eq!(own.check(&sheet), Ok(Check { bad: None, visited: own.used }));
                own.build_directory(&sheet).unwrap();
                assert_eq!(own.search(&sheet, &[4.0, 4.0]), Ok(Some(9)));
                assert_eq!(own.strike(&sheet, 9), Ok(4));
                assert_eq!(own.insert(&sheet, 9, &[4.0, 4.0]), Ok(()));
                // the middle one of 65,531 containers
                assert_eq!(own.look_up(&sheet, 32765), Ok(LookUp { place: Some(32765), reads: 1 }));
                own.directory = None;
                assert_eq!(own.strike(&sheet, 9), Ok(4));
                assert_eq!(library.check(&sheet), Ok(Check { bad: None, visited: ROWS as u64 }));
                assert_eq!(library.search(&sheet, &[4.0, 4.0]), Ok(None));
                let text = survey::export(&marks).unwrap();
                assert!(survey::import(&text).as_ref() == Ok(&marks));
            };
            thread::Builder::new().stack_size(STACK + besides).spawn_scoped(scope, one).unwrap();
        }
    });
}
