//! Files for the program `catalogue`, with what it has to print: tests/catalogue.cases, which tests/catalogue.sh goes through.
//!
//! Where a library is accepted, the text is that of gemlab's own `Display`. Refusals are gemlab's where it refuses, and
//! else those that document 01 adds: 3, 6, 12 and 13.

use crate::numbers::number;
use crate::random::Random;
use gemlab::util::GridSearch;
use std::fmt::Write;

/// A record of a file.
type Record = (u64, [f64; 3]);

/// Records and how often their bytes double, one after the other; then bytes that are no whole record.
#[derive(Clone)]
struct Bytes {
    parts: Vec<(Vec<u8>, u32)>,
}

fn bytes(records: &[Record]) -> Bytes {
    let mut out = Vec::new();
    for (id, x) in records {
        out.extend(id.to_le_bytes());
        x.iter().for_each(|x| out.extend(x.to_bits().to_le_bytes()));
    }
    Bytes { parts: vec![(out, 0)] }
}

impl Bytes {
    /// These bytes 2^n times.
    fn doubled(mut self, n: u32) -> Bytes {
        self.parts[0].1 = n;
        self
    }

    fn then(mut self, next: Bytes) -> Bytes {
        self.parts.extend(next.parts);
        self
    }

    /// With n bytes more.
    fn over(self, n: usize) -> Bytes {
        self.then(Bytes { parts: vec![(vec![0x2a; n], 0)] })
    }

    /// Without the last byte.
    fn short(mut self) -> Bytes {
        self.parts.last_mut().unwrap().0.pop();
        self
    }

    fn all(&self) -> Vec<u8> {
        self.parts.iter().flat_map(|(bytes, n)| bytes.repeat(1 << n)).collect()
    }
}

/// What is at a file's place.
#[derive(Clone)]
enum File {
    Missing,
    Folder,
    Holds(Bytes),
}

use File::*;

fn is_coordinate(x: &f64) -> bool {
    x.is_finite() && x.abs() <= 1048576.0
}

fn word(bytes: &[u8], at: usize) -> u64 {
    u64::from_le_bytes(bytes[at..at + 8].try_into().unwrap())
}

fn floats(bytes: &[u8], at: usize, n: usize) -> Vec<f64> {
    (0..n).map(|i| f64::from_bits(word(bytes, at + 8 * (i + 1)))).collect()
}

/// The sheet, with its dimension.
fn sheet(file: &File) -> Result<(GridSearch, usize), u64> {
    let Holds(file) = file else {
        return Err(13);
    };
    let bytes = file.all();
    if bytes.len() != 64 {
        return Err(13);
    }
    let ndim = match word(&bytes, 0) {
        2 => 2,
        3 => 3,
        _ => return Err(1),
    };
    let (low, high) = (floats(&bytes, 0, ndim), floats(&bytes, 32, ndim));
    if !low.iter().chain(&high).all(is_coordinate) {
        return Err(3);
    }
    let ndiv = word(&bytes, 32);
    if ndiv > 1024 {
        return Err(6);
    }
    let sheet = GridSearch::new(&low, &high, Some(ndiv as usize), None, None).map_err(number)?;
    Ok((sheet, ndim))
}

fn library(sheet_bin: &File, marks_bin: &File) -> Result<GridSearch, u64> {
    let (mut library, ndim) = sheet(sheet_bin)?;
    let Holds(file) = marks_bin else {
        return Err(13);
    };
    let bytes = file.all();
    for at in (0..bytes.len() / 32).map(|i| 32 * i) {
        let x = floats(&bytes, at, ndim);
        if !x.iter().all(is_coordinate) {
            return Err(3);
        }
        library.insert(word(&bytes, at) as usize, &x).map_err(number)?;
        if library.rows().len() > 1024 {
            return Err(12);
        }
    }
    if bytes.len() % 32 == 0 {
        Ok(library)
    } else {
        Err(13)
    }
}

fn write_file(out: &mut String, name: &str, file: &File) {
    match file {
        Missing => {}
        Folder => writeln!(out, "{name} folder").unwrap(),
        Holds(bytes) => {
            for (bytes, n) in &bytes.parts {
                let hex: String = bytes.iter().map(|byte| format!("{byte:02x}")).collect();
                writeln!(out, "{name} {n} {hex}").unwrap();
            }
        }
    }
}

fn case(out: &mut String, name: &str, sheet: File, marks: File) {
    writeln!(out, "case {name}").unwrap();
    write_file(out, "sheet", &sheet);
    write_file(out, "marks", &marks);
    match library(&sheet, &marks) {
        Ok(library) => library.to_string().lines().for_each(|line| writeln!(out, "> {line}").unwrap()),
        Err(number) => writeln!(out, "> refused {number}").unwrap(),
    }
}

const NAN: f64 = f64::NAN;
const INF: f64 = f64::INFINITY;

/// Document 01's sample.
const SHEET: [Record; 2] = [(2, [0.0, 0.0, 0.0]), (8, [8.0, 4.0, 0.0])];
const MARKS: [Record; 2] = [(3, [3.5, 2.5, 0.0]), (7, [2.00005, 0.5, 0.0])];

/// The sample with another dimension and low corner, or other divisions and high corner.
fn corners(low: Record, high: Record) -> File {
    Holds(bytes(&[low, high]))
}

fn sheets(out: &mut String) {
    let marks = || Holds(bytes(&MARKS));
    let [low, high] = SHEET;
    let three = [low, high, high];
    case(out, "no sheet", Missing, marks());
    case(out, "a folder for a sheet", Folder, marks());
    case(out, "an empty sheet", Holds(bytes(&[])), marks());
    case(out, "a sheet of one record", Holds(bytes(&[low])), marks());
    case(out, "a sheet of three records", Holds(bytes(&three)), marks());
    case(out, "a sheet and a byte", Holds(bytes(&SHEET).over(1)), marks());
    case(out, "a sheet short of a byte", Holds(bytes(&SHEET).short()), marks());
    for ndim in [0, 1, 4, (1 << 32) + 2, u64::MAX] {
        case(out, &format!("dimension {ndim}"), corners((ndim, low.1), high), marks());
    }
    for x in [NAN, INF, -INF, 1048576.5, -2e6] {
        case(out, &format!("low corner {x}"), corners((2, [0.0, x, 0.0]), high), marks());
        case(out, &format!("high corner {x}"), corners(low, (8, [x, 4.0, 0.0])), marks());
    }
    case(out, "NaN on the third axis in 3D", corners((3, [0.0, 0.0, NAN]), (8, [8.0, 4.0, 4.0])), marks());
    case(out, "third floats of a sheet in 2D", corners((2, [0.0, 0.0, NAN]), (8, [8.0, 4.0, -INF])), marks());
    for ndiv in [0, 1, 2, 1024, 1025, u64::MAX] {
        case(out, &format!("divisions {ndiv}"), corners(low, (ndiv, high.1)), marks());
    }
    case(out, "no extent", corners(low, (8, [8.0, 0.0, 0.0])), marks());
    case(out, "no extent on the third axis", corners((3, low.1), (8, [8.0, 4.0, 0.0])), marks());
    case(out, "corners swapped", corners((2, high.1), (8, low.1)), marks());
    case(out, "side too small", corners(low, (1000, [0.1, 0.1, 0.0])), marks());
    // the first fault decides
    case(out, "dimension before the rest", corners((4, [NAN, 0.0, 0.0]), (0, high.1)), marks());
    case(out, "floats before divisions", corners(low, (0, [8.0, NAN, 0.0])), marks());
    case(out, "divisions before extent", corners(low, (1025, low.1)), marks());
    case(out, "the sheet before the marks", corners(low, (1, high.1)), Missing);
    case(out, "the sheet before a mark", corners(low, (0, high.1)), Holds(bytes(&[(1, [9.0, 9.0, 0.0])])));
    case(out, "nothing at all", Missing, Missing);
}

fn marks(out: &mut String) {
    let s = || Holds(bytes(&SHEET));
    let outside = (9, [8.5, 1.0, 0.0]);
    let broken = (9, [NAN, 1.0, 0.0]);
    case(out, "no marks", s(), Missing);
    case(out, "a folder for marks", s(), Folder);
    case(out, "empty marks", s(), Holds(bytes(&[])));
    case(out, "one byte of marks", s(), Holds(bytes(&[]).over(1)));
    case(out, "marks and a byte", s(), Holds(bytes(&MARKS).over(1)));
    case(out, "marks short of a byte", s(), Holds(bytes(&MARKS).short()));
    case(out, "marks and half a record", s(), Holds(bytes(&MARKS).over(16)));
    case(out, "a mark outside", s(), Holds(bytes(&[MARKS[0], outside])));
    for x in [NAN, INF, -INF, 1048576.5] {
        case(out, &format!("a mark at {x}"), s(), Holds(bytes(&[MARKS[0], (9, [1.0, x, 0.0])])));
    }
    case(out, "outside before NaN", s(), Holds(bytes(&[outside, broken])));
    case(out, "NaN before outside", s(), Holds(bytes(&[broken, outside])));
    case(out, "a mark before bytes left over", s(), Holds(bytes(&[MARKS[0], outside]).over(1)));
    case(out, "a mark in the bytes left over", s(), Holds(bytes(&[MARKS[0], outside]).short()));
    case(out, "third floats of marks in 2D", s(), Holds(bytes(&[(3, [3.5, 2.5, NAN]), (7, [2.00005, 0.5, INF])])));
    case(out, "the highest id and id 0", s(), Holds(bytes(&[(u64::MAX, [1.5, 1.5, 0.0]), (0, [1.5, 1.5, 0.0])])));
    case(out, "a mark that moves", s(), Holds(bytes(&[MARKS[0], (3, [6.5, 0.5, 0.0]), (3, [3.5, 2.5, 0.0])])));
    case(out, "both corners", s(), Holds(bytes(&[(1, [0.0, 0.0, 0.0]), (2, [8.0, 4.0, 0.0])])));
    case(out, "the border's corners", s(), Holds(bytes(&[(1, [-0.01, -0.01, 0.0]), (2, [8.01, 4.01, 0.0])])));
}

fn rows(out: &mut String) {
    let cube = || corners((3, [-2.0, -2.0, -2.0]), (4, [2.0, 2.0, 2.0]));
    let inside: [Record; 3] = [(5, [-1.5, 0.5, 1.5]), (4, [0.0, 0.0, 1.5]), (6, [0.0, 0.0, 0.0])];
    case(out, "three axes", cube(), Holds(bytes(&inside)));
    case(out, "NaN on the third axis of a mark", cube(), Holds(bytes(&[(5, [0.5, 0.5, NAN])])));
    // in the middle a mark has eight rows
    let full: Vec<Record> = (0..128).map(|id| (id * 7 % 128, [0.0; 3])).collect();
    let next = |mark: Record| Holds(bytes(&full).then(bytes(&[mark])));
    case(out, "1,024 rows", cube(), Holds(bytes(&full)));
    case(out, "rows past 1,024", cube(), next((128, [0.0; 3])));
    case(out, "one row past 1,024", cube(), next((128, [1.5; 3])));
    case(out, "a mark again in a full library", cube(), next((77, [5e-5; 3])));
    case(out, "a mark outside a full library", cube(), next((128, [2.5; 3])));
    case(out, "bytes left over past a full library", cube(), Holds(bytes(&full).over(31)));
}

fn parts(out: &mut String) {
    let s = || Holds(bytes(&SHEET));
    let many = |n: u32| bytes(&MARKS).doubled(n);
    let last = || bytes(&[(8, [0.5, 0.5, 0.0])]);
    let outside = || bytes(&[(9, [8.5, 1.0, 0.0])]);
    // a part is 2,048 records
    case(out, "one part", s(), Holds(many(10)));
    case(out, "one part and a record", s(), Holds(many(10).then(last())));
    case(out, "one part and a byte", s(), Holds(many(10).over(1)));
    let but_two = (0..9).fold(many(9), |all, n| all.then(many(n)));
    case(out, "one part short of a byte", s(), Holds(but_two.then(bytes(&MARKS).short())));
    case(out, "four parts", s(), Holds(many(12)));
    case(out, "four parts and a record", s(), Holds(many(12).then(last())));
    case(out, "four parts and a byte", s(), Holds(many(12).over(1)));
    case(out, "four parts and a mark outside", s(), Holds(many(12).then(outside())));
    case(out, "a mark outside and four parts", s(), Holds(outside().then(many(12)).over(1)));
    case(out, "records across parts", s(), Holds(last().then(many(12)).then(bytes(&[(3, [6.5, 0.5, 0.0])]))));
}

/// Any sheets and marks, many of them beside borders of containers, where a mark has several rows.
fn any(out: &mut String) {
    let mut r = Random::new(1);
    for i in 1..=24 {
        let ndim = 2 + r.below(2) as usize;
        let (mut low, mut high) = ([NAN; 3], [NAN; 3]);
        for axis in 0..ndim {
            low[axis] = r.between(-1000.0, 1000.0);
            high[axis] = low[axis] + r.between(0.5, 50.0);
        }
        let records = [(ndim as u64, low), (2 + r.below(40), high)];
        let file = Holds(bytes(&records));
        let fields = sheet(&file).ok().unwrap().0.fields();
        let most = 1 + r.below(u64::MAX / 2) * (i % 2);
        let mut marks = Vec::new();
        for _ in 0..r.below(40) {
            let mut x = [NAN; 3];
            for axis in 0..ndim {
                let border = fields.xmin[axis] + fields.side_length * r.below(fields.ndiv[axis] as u64 + 1) as f64;
                x[axis] = match r.below(3) {
                    0 => r.between(low[axis], high[axis]),
                    _ => (border + r.between(-2e-4, 2e-4)).clamp(low[axis], high[axis]),
                };
            }
            marks.push((r.below(8).wrapping_mul(most), x));
        }
        if i % 8 == 0 {
            marks.push((1, high.map(|x| x + 100.0)));
        }
        case(out, &format!("any {i}"), file, Holds(bytes(&marks)));
    }
}

pub fn text() -> Vec<u8> {
    let mut out = String::from(
        "# Files of the program `catalogue`, and what it prints: made by compare/stored (docs/STORED.md).\n\
         # A line of a file: how often the bytes double, and the bytes.\n",
    );
    case(&mut out, "document 01's sample", Holds(bytes(&SHEET)), Holds(bytes(&MARKS)));
    sheets(&mut out);
    marks(&mut out);
    rows(&mut out);
    parts(&mut out);
    any(&mut out);
    out.into_bytes()
}
