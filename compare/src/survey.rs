//! Request d of document 02, the point lists of surveyors, beside a reading of the request; gemlab reads and writes no such text. Every
//! rule is tried at its edge, good lines with any one byte changed, short texts exhaustively and millions of texts at random; exports
//! of coordinates over the whole range and of floats beside them. Everything lent is compared after each call, with what stands beside it.

use crate::c::{gemlab_survey_export, gemlab_survey_import};
use crate::near::{down, special, up};
use crate::point_list::{lines, metres, millimetres, read, written, Mark, MARK_BYTES, MOST};
use crate::random::Random;
use crate::rows::{LIMIT, MOST_ROWS};
use crate::tally::{Kinds, Tally};
use crate::timing::{burst, in_turn, long_in_turn};
use std::cell::RefCell;
use std::ffi::{c_char, c_int, c_ulonglong};

/// Texts of random lines, and exports of one random mark.
const TEXTS: usize = 2_000_000;
const EXPORTS: usize = 1_000_000;

/// What is lent to a call, in each list between an entry before it and one behind it, which are not lent: a text, the lists of numbers and
/// of coordinates, these by their bits; and the results, the second of which is `used`, the fourth `line` or `length`.
#[derive(Debug, Default, PartialEq)]
struct Lent {
    text: Vec<u8>,
    lists: [Vec<u64>; 4],
    results: [u64; 5],
}

/// The part of a list that is lent.
fn inside<T>(list: &[T]) -> &[T] {
    &list[1..list.len() - 1]
}

fn inside_mut<T>(list: &mut [T]) -> &mut [T] {
    let last = list.len() - 1;
    &mut list[1..last]
}

impl Lent {
    fn copy_from(&mut self, other: &Lent) {
        self.text.clone_from(&other.text);
        for (list, other) in self.lists.iter_mut().zip(&other.lists) {
            list.clone_from(other);
        }
        self.results = other.results;
    }

    /// A text between bytes with which it would be another.
    fn set_text(&mut self, text: &[u8], r: &mut Random) {
        self.text.clear();
        self.text.push(*r.pick(b"0,.-\r\n\0"));
        self.text.extend(text);
        self.text.push(*r.pick(b"0,.-\r\n\0"));
    }

    /// Lists of these lengths and results, which hold anything.
    fn set_lists(&mut self, lengths: [usize; 4], r: &mut Random) {
        for (list, length) in self.lists.iter_mut().zip(lengths) {
            list.resize(length + 2, 0);
            list.fill_with(|| r.next());
        }
        self.results = std::array::from_fn(|_| r.next());
    }

    /// Into the front of the lists.
    fn set_marks(&mut self, marks: &[Mark]) {
        let [ids, xs, ys, zs] = self.lists.each_mut().map(|list| inside_mut(list));
        for (i, mark) in marks.iter().enumerate() {
            ids[i] = mark.id;
            [xs[i], ys[i], zs[i]] = mark.at.map(f64::to_bits);
        }
    }

    fn marks(&self, count: usize) -> Vec<Mark> {
        let [ids, xs, ys, zs] = self.lists.each_ref().map(|list| inside(list));
        (0..count).map(|i| Mark { id: ids[i], at: [xs[i], ys[i], zs[i]].map(f64::from_bits) }).collect()
    }

    fn import(&mut self) -> u64 {
        let text = inside(&self.text);
        let [ids, xs, ys, zs] = self.lists.each_mut().map(|list| inside_mut(list));
        let [_, used, _, line, _] = &mut self.results;
        // SAFETY: each pointer is a vector's or a field's, which is aligned and not null, with the length of what follows there; the
        // written ones are apart. Floats are lent as their bits, which have their size and alignment.
        unsafe {
            gemlab_survey_import(
                text.as_ptr(),
                text.len(),
                ids.as_mut_ptr(),
                ids.len(),
                xs.as_mut_ptr().cast(),
                xs.len(),
                ys.as_mut_ptr().cast(),
                ys.len(),
                zs.as_mut_ptr().cast(),
                zs.len(),
                used,
                line,
            )
        }
    }

    fn export(&mut self) -> u64 {
        let text = inside_mut(&mut self.text);
        let [ids, xs, ys, zs] = self.lists.each_ref().map(|list| inside(list));
        let [_, used, _, length, _] = &mut self.results;
        // SAFETY: as above.
        unsafe {
            gemlab_survey_export(
                ids.as_ptr(),
                ids.len(),
                xs.as_ptr().cast(),
                xs.len(),
                ys.as_ptr().cast(),
                ys.len(),
                zs.as_ptr().cast(),
                zs.len(),
                *used,
                text.as_mut_ptr(),
                text.len(),
                length,
            )
        }
    }

    /// What turns the lists away: 24, or 13 for their lengths.
    fn fault(&self) -> Option<u64> {
        let lengths = self.lists.each_ref().map(|list| inside(list).len());
        if lengths.iter().any(|length| *length > MOST_ROWS) {
            return Some(24);
        }
        lengths.iter().any(|length| *length != lengths[0]).then_some(13)
    }

    /// How many marks the lists hold, where their lengths are equal.
    fn room(&self) -> usize {
        inside(&self.lists[0]).len()
    }

    /// Makes what is lent what it has to be after an import, and gives the number that is due.
    fn imported(&mut self) -> u64 {
        if let Some(number) = self.fault() {
            return number;
        }
        match read(inside(&self.text)) {
            Err(line) => {
                self.results[3] = line;
                27
            }
            Ok(marks) if marks.len() > self.room() => 12,
            Ok(marks) => {
                self.set_marks(&marks);
                self.results[1] = marks.len() as u64;
                0
            }
        }
    }

    /// The same of an export.
    fn exported(&mut self) -> u64 {
        if let Some(number) = self.fault() {
            return number;
        }
        let used = self.results[1];
        if used > self.room() as u64 {
            return 13;
        }
        match written(&self.marks(used as usize)) {
            None => 28,
            Some(text) if text.len() > inside(&self.text).len() => 14,
            Some(text) => {
                self.text[1..=text.len()].copy_from_slice(&text);
                self.results[3] = text.len() as u64;
                0
            }
        }
    }
}

/// A text to be told, or where it is long its start and its length.
fn shown(text: &[u8]) -> String {
    match text.get(..200) {
        None => format!("'{}'", text.escape_ascii()),
        Some(start) => format!("'{}'.. of {} bytes", start.escape_ascii(), text.len()),
    }
}

/// Lists of one length.
fn even(length: usize) -> [usize; 4] {
    [length; 4]
}

/// The calls that were made, by what is due of them, and room for what is lent and for what it has to be after a call.
struct Met {
    imports: Kinds,
    exports: Kinds,
    lent: Lent,
    due: Lent,
    r: Random,
}

impl Met {
    fn new(seed: u64) -> Self {
        let (imports, exports) = (Kinds::default(), Kinds::default());
        Met { imports, exports, lent: Lent::default(), due: Lent::default(), r: Random::new(seed) }
    }

    /// An import of a text into lists of these lengths, beside what is due of it: the number.
    fn import(&mut self, text: &[u8], lengths: [usize; 4], t: &mut Tally) -> u64 {
        let Met { lent, due, r, .. } = self;
        lent.set_text(text, r);
        lent.set_lists(lengths, r);
        due.copy_from(lent);
        let (number, wanted) = (lent.import(), due.imported());
        t.number("import", number, wanted, || format!("{} into {lengths:?}", shown(text)));
        t.check(lent == due, || {
            let results = (lent.results, due.results);
            format!("import of {} into {lengths:?} gave {number}: lent memory is not as due, {results:x?}", shown(text))
        });
        if wanted != 13 && wanted != 24 {
            self.count_import(text, wanted);
        }
        wanted
    }

    /// The same where the number is known.
    fn imports_as(&mut self, known: u64, text: &[u8], lengths: [usize; 4], t: &mut Tally) {
        let wanted = self.import(text, lengths, t);
        t.equal(wanted, known, || format!("the reading of {} into {lengths:?}", shown(text)));
    }

    fn count_import(&mut self, text: &[u8], wanted: u64) {
        let (room, told, lines) = (self.due.room(), self.due.results[3], lines(text).len());
        let taken = wanted == 0;
        let bad = wanted == 27;
        let cr_lf = text.windows(2).filter(|two| two == b"\r\n").count();
        let lf = text.iter().filter(|byte| **byte == b'\n').count() - cr_lf;
        let any = |is: &dyn Fn(&Mark) -> bool| taken && lines < 1000 && self.due.marks(lines).iter().any(is);
        self.imports.count(&[
            ("one line taken", taken && lines == 1, 200_000),
            ("several lines taken", taken && lines > 1, 200_000),
            ("65,536 lines taken", taken && lines == MOST_ROWS, 3),
            ("taken with no last end", taken && !text.ends_with(b"\n"), 200_000),
            ("taken with CR LF alone", taken && cr_lf > 0 && lf == 0, 100_000),
            ("taken with both ends", taken && cr_lf > 0 && lf > 0, 50_000),
            ("taken into lists just long enough", taken && lines == room, 100_000),
            ("taken with number 2^64 - 1", any(&|mark| mark.id == u64::MAX), 10_000),
            ("taken with a coordinate of 1,048,576", any(&|mark| mark.at.contains(&LIMIT)), 2_000),
            ("taken with a coordinate of -1,048,576", any(&|mark| mark.at.contains(&-LIMIT)), 2_000),
            ("line 1 told", bad && told == 1, 1_000_000),
            ("a middle line told", bad && 1 < told && told < lines as u64, 100_000),
            ("the last line told", bad && 1 < told && told == lines as u64, 100_000),
            ("a line past 65,536 told", bad && told > MOST_ROWS as u64, 3),
            ("told with more lines than entries", bad && lines > room, 20_000),
            ("12 by one line", wanted == 12 && lines == room + 1, 20_000),
            ("12 by several lines", wanted == 12 && lines > room + 1, 20_000),
        ]);
    }

    /// The same where it is known what the text holds: marks by their numbers and millimetres, or a malformed line.
    fn known(&mut self, text: &[u8], known: &Result<Vec<(u64, [i64; 3])>, u64>, t: &mut Tally) {
        let known = known.as_ref().map_err(|line| *line);
        let known = known.map(|marks| marks.iter().map(|(id, at)| Mark { id: *id, at: at.map(metres) }).collect());
        t.equal(read(text), known, || format!("the reading of {}", shown(text)));
        self.import(text, even(5), t);
    }

    /// One line in which the field has to be malformed, or to have this meaning.
    fn field(&mut self, at: usize, field: &[u8], meaning: Option<i64>, t: &mut Tally) {
        let mut fields: [&[u8]; 5] = [b"7", b"1", b"2", b"3", b"post"];
        fields[at] = field;
        let mut mark = (7, [1000, 2000, 3000]);
        match (meaning, at) {
            (Some(id), 0) => mark.0 = id as u64,
            (Some(millimetres), 1..=3) => mark.1[at - 1] = millimetres,
            _ => {}
        }
        let line = fields.join(&b',');
        self.known(&line, &meaning.map(|_| vec![mark]).ok_or(1), t);
        // with the others it is line 2
        let text = [b"1,2,3,4,\n", line.as_slice(), b"\r\n5,6,7,8,9"].concat();
        let others = |mark| vec![(1, [2000, 3000, 4000]), mark, (5, [6000, 7000, 8000])];
        self.known(&text, &meaning.map(|_| others(mark)).ok_or(2), t);
    }

    /// An export of what stands in the lists, beside what is due of it: the number.
    fn export_lent(&mut self, used: u64, room: usize, t: &mut Tally) -> u64 {
        let Met { lent, due, r, .. } = self;
        lent.text.resize(room + 2, 0);
        lent.text.fill_with(|| r.next() as u8);
        lent.results = std::array::from_fn(|_| r.next());
        lent.results[1] = used;
        due.copy_from(lent);
        let (number, wanted) = (lent.export(), due.exported());
        let start = || lent.marks(lent.lists.iter().map(|list| list.len() - 2).min().unwrap().min(3));
        t.number("export", number, wanted, || format!("{used} of {:?}.. into {room} bytes", start()));
        t.check(lent == due, || {
            let texts = (shown(&lent.text), shown(&due.text));
            let results = (lent.results, due.results);
            format!("export of {used} of {:?}.. gave {number}: {texts:?}, {results:x?}", start())
        });
        if wanted != 13 && wanted != 24 {
            self.count_export(used as usize, room, wanted);
        }
        wanted
    }

    /// An export of marks with so much room, from lists with so many entries more, which hold anything.
    fn export(&mut self, marks: &[Mark], more: usize, room: usize, t: &mut Tally) -> u64 {
        self.lent.set_lists(even(marks.len() + more), &mut self.r);
        self.lent.set_marks(marks);
        self.export_lent(marks.len() as u64, room, t)
    }

    /// The same where the number is known.
    fn exports_as(&mut self, known: u64, marks: &[Mark], more: usize, room: usize, t: &mut Tally) {
        let wanted = self.export(marks, more, room, t);
        t.equal(wanted, known, || format!("the reading of {} marks into {room} bytes", marks.len()));
    }

    fn count_export(&mut self, used: usize, room: usize, wanted: u64) {
        let taken = wanted == 0;
        let is_short = room < used * 21;
        let length = self.due.results[3] as usize;
        let few = if used < 1000 { self.due.marks(used) } else { Vec::new() };
        let mut axes = [0; 3];
        if wanted == 28 {
            for mark in &few {
                for (axis, x) in axes.iter_mut().zip(mark.at) {
                    *axis += millimetres(x).is_none() as usize;
                }
            }
        }
        let any = |is: &dyn Fn(f64) -> bool| few.iter().any(|mark| mark.at.iter().any(|x| is(*x)));
        self.exports.count(&[
            ("no mark written", taken && used == 0, 50),
            ("one mark written", taken && used == 1, 300_000),
            ("several marks written", taken && used > 1, 1_000),
            ("65,536 marks written", taken && used == MOST_ROWS, 10),
            ("a buffer just long enough", taken && used > 0 && length == room, 100_000),
            ("a buffer too short", wanted == 14, 100_000),
            ("28 by x alone", wanted == 28 && axes == [1, 0, 0], 100_000),
            ("28 by y alone", wanted == 28 && axes == [0, 1, 0], 100_000),
            ("28 by z alone", wanted == 28 && axes == [0, 0, 1], 100_000),
            ("28 with a buffer too short too", wanted == 28 && is_short, 100_000),
            ("28 by -0", wanted == 28 && any(&|x| x.to_bits() == (-0.0f64).to_bits()), 50),
            ("28 by a NaN", wanted == 28 && any(&f64::is_nan), 100),
            ("28 by a float in range", wanted == 28 && any(&|x| x.abs() < LIMIT && millimetres(x).is_none()), 500_000),
        ]);
    }
}

/// The lines of the request.
fn examples(met: &mut Met, t: &mut Tally) {
    let mark = |id, at| Ok(vec![(id, at)]);
    met.known(b"7,1.5,-0.5,0,post", &mark(7, [1500, -500, 0]), t);
    met.known(b"7,1.500,-0.500,0.000,\n", &mark(7, [1500, -500, 0]), t);
    met.known(b"7,1.5,-0.5,-0.000,post\r\n", &mark(7, [1500, -500, 0]), t);
    met.known(b"1,2,3,4,\r\n5,6,7,8,\n", &Ok(vec![(1, [2000, 3000, 4000]), (5, [6000, 7000, 8000])]), t);
    // one line, and two of which the second is malformed
    for text in [
        "",
        "\n",
        "\r\n",
        "\r",
        "1,2,3,4,\r",
        "1,2,3,4,\r\r\n",
        "1,2,3,4\n",
        "1,2,3,4,5,\n",
        "1,2,3,4,5,6\n",
        "1;2;3;4;",
    ] {
        met.known(text.as_bytes(), &Err(1), t);
        met.known(&[b"\n", text.as_bytes()].concat(), &Err(1), t);
        if !text.is_empty() {
            met.known(&[b"1,2,3,4,\n", text.as_bytes()].concat(), &Err(2), t);
            met.known(&[b"1,2,3,4,\r\n5,6,7,8,\n", text.as_bytes()].concat(), &Err(3), t);
        }
    }
    met.known(b"1,2,3,4,\r5,6,7,8,\n", &Err(1), t);
    // an export of no mark is the empty text, which an import refuses
    met.exports_as(0, &[], 2, 0, t);
    t.equal(met.lent.results[3], 0, || "the length of no mark".to_string());
    met.exports_as(0, &[Mark { id: 7, at: [1.5, -0.5, 0.0] }], 0, 100, t);
    let length = met.lent.results[3] as usize;
    t.equal(&inside(&met.lent.text)[..length], b"7,1.500,-0.500,0.000,\n", || "7 at (1.5,-0.5,0)".to_string());
    met.exports_as(28, &[Mark { id: 7, at: [1.5, -0.0, 0.0] }], 0, 100, t);
}

/// Each rule of a number, a coordinate and a description at its edge.
fn fields(met: &mut Met, t: &mut Tally) {
    for (millimetres, fields) in [
        (0, "0 -0 -0.0 -0.000 0000000 -0000000.000"),
        (5000, "5 05 0000005 5.0 5.000"),
        (500, "0.5 0.50 0.500 00.5"),
        (50, "0.05 0.050"),
        (5, "0.005"),
        (-1, "-0.001"),
        (-1001, "-1.001"),
        (123456789, "123456.789 0123456.789"),
        (-123456789, "-123456.789"),
        (1000000000, "1000000"),
        (1048575999, "1048575.999"),
        (1048576000, "1048576 1048576.0 1048576.00 1048576.000"),
        (-1048575999, "-1048575.999"),
        (-1048576000, "-1048576 -1048576.0 -1048576.000"),
    ] {
        for (field, at) in fields.split(' ').flat_map(|field| (1..=3).map(move |at| (field, at))) {
            met.field(at, field.as_bytes(), Some(millimetres), t);
        }
    }
    let malformed = "00000000 -00000000 00000005 00000000.5 0.5000 0.0005 1048576.001 1048576.01 1048576.1 1048577 \
        -1048576.001 -1048577 9999999 9999999.999 10000000 01048576 4294967 4294968.296 - . -. 5. .5 -.5 -5. --1 -+1 +1 1e3 1.2.3 \
        1.-2 1- 0x1 nan inf 1,5";
    for (field, at) in
        malformed.split(' ').chain(["", " ", " 1", "1 ", "1. 5"]).flat_map(|field| (1..=3).map(move |at| (field, at)))
    {
        met.field(at, field.as_bytes(), None, t);
    }
    for (number, fields) in [
        (0, "0 00000000000000000000"),
        (7, "7 007 00000000000000000007"),
        (9999999999999999999, "9999999999999999999 09999999999999999999"),
        (i64::MAX as u64, "9223372036854775807"),
        (1 << 63, "9223372036854775808"),
        (u64::MAX - 6, "18446744073709551609"),
        (u64::MAX, "18446744073709551615"),
    ] {
        for field in fields.split(' ') {
            met.field(0, field.as_bytes(), Some(number as i64), t);
        }
    }
    let malformed =
        "000000000000000000000 000000000000000000007 018446744073709551615 18446744073709551616 18446744073709551617 \
        18446744073709551620 20000000000000000000 99999999999999999999 100000000000000000000 -1 -0 +1 1.0 1. 1e3 0x1";
    for field in malformed.split(' ').chain(["", " ", " 1", "1 "]) {
        met.field(0, field.as_bytes(), None, t);
    }
    // beside each multiple of 2^64 that has 20 digits, and beside powers of ten
    let (two_64, ten) = (1u128 << 64, 10u128);
    for middle in (1..6).map(|k| k * two_64).chain((0..=20).map(|k| ten.pow(k))) {
        for number in middle.saturating_sub(20)..middle + 20 {
            let text = number.to_string();
            let meaning = u64::try_from(number).ok().filter(|_| text.len() <= 20);
            met.field(0, text.as_bytes(), meaning.map(|id| id as i64), t);
        }
    }
    // so many digits, decimals and bytes, also where a small count of them would start again
    let many = (0..=40).chain(250..=300).chain(65_530..=65_580);
    for count in many {
        let zeros = vec![b'0'; count];
        met.field(0, &zeros, (1..=20).contains(&count).then_some(0), t);
        met.field(1, &zeros, (1..=7).contains(&count).then_some(0), t);
        met.field(2, &[b"-", zeros.as_slice()].concat(), (1..=7).contains(&count).then_some(0), t);
        met.field(3, &[b"1.", zeros.as_slice()].concat(), (1..=3).contains(&count).then_some(1000), t);
        met.field(4, &vec![b' '; count], (count <= 32).then_some(0), t);
    }
    // each byte before, within and behind each field; an LF makes two lines of one
    for byte in (0..=255).filter(|byte| *byte != b'\n') {
        for (before, behind) in [("", ""), ("1", ""), ("", "1"), ("1", "1")] {
            let field = [before.as_bytes(), &[byte], behind.as_bytes()].concat();
            let whole = std::str::from_utf8(&field).ok().filter(|_| byte.is_ascii_digit());
            let number: Option<i64> = whole.map(|text| text.parse().unwrap());
            met.field(0, &field, number, t);
            // but for digits, a minus in front, and a point between
            let meaning = match (before, byte, behind) {
                ("", b'-', "1") => Some(-1000),
                ("1", b'.', "1") => Some(1100),
                _ => number.map(|metres| 1000 * metres),
            };
            for at in 1..=3 {
                met.field(at, &field, meaning, t);
            }
        }
        let is_good = (32..=126).contains(&byte) && byte != b',';
        for at in [0, 15, 31] {
            let mut description = [b'x'; 32];
            description[at] = byte;
            // a CR in the last place can belong to the line's end
            if (byte, at) == (b'\r', 31) {
                met.import(&[b"1,2,3,4,", description.as_slice(), b"\n"].concat(), even(5), t);
            } else {
                met.field(4, &description, is_good.then_some(0), t);
            }
        }
    }
    // so many commas
    for commas in 0..=12 {
        let line = vec!["1"; commas + 1].join(",");
        let marks = || vec![(1, [1000; 3])];
        met.known(line.as_bytes(), &(commas == 4).then(marks).ok_or(1), t);
    }
}

/// Each byte of good texts taken out, and each of the 256 in its place and before it.
fn one_byte(met: &mut Met, t: &mut Tally) {
    const GOOD: [&[u8]; 5] = [
        b"7,1.5,-0.25,1048576,a b\r\n12,0,0.125,-3,\n3,-1,2.000,3,~ ~",
        b"0,0,0,0,\n0,0,0,0,\n",
        b"18446744073709551615,-1048576.000,1048575.999,-0.001,12345678901234567890123456789012\r\n",
        b"00000000000000000001,0000001.1,-0000001.12,0000001.123,\r\n1,1,1,1,",
        b"9,9,9,9,\r\n9,9,9,9,\r\n9,9,9,9,\r\n",
    ];
    for good in GOOD {
        t.check(read(good).is_ok(), || format!("the reading of {}", shown(good)));
        for at in 0..=good.len() {
            let (front, back) = good.split_at(at);
            met.import(front, even(4), t);
            if let [_, rest @ ..] = back {
                met.import(&[front, rest].concat(), even(3), t);
            }
            for byte in 0..=255 {
                met.import(&[front, &[byte], back].concat(), even(3), t);
                if let [_, rest @ ..] = back {
                    met.import(&[front, &[byte], rest].concat(), even(3), t);
                }
            }
        }
    }
}

/// Every text of up to so many of these bytes.
fn every(bytes: &[u8], most: usize, mut work: impl FnMut(&[u8])) {
    let mut text = Vec::new();
    for length in 0..=most {
        for mut k in 0..bytes.len().pow(length as u32) {
            text.clear();
            for _ in 0..length {
                text.push(bytes[k % bytes.len()]);
                k /= bytes.len();
            }
            work(&text);
        }
    }
}

/// Every text of up to ten bytes that are 0, a comma, a CR or an LF; and as a field every text of up to five bytes.
fn short_texts(met: &mut Met, t: &mut Tally) {
    every(b"0,\r\n", 10, |text| {
        met.import(text, even(1), t);
    });
    every(b"-.019,+e \r\n", 5, |field| {
        met.import(&[field, b",1,2,3,\n"].concat(), even(2), t);
        met.import(&[b"7,", field, b",2,3,\r\n"].concat(), even(2), t);
        met.import(&[b"7,1,", field, b",3,"].concat(), even(2), t);
        met.import(&[b"7,1,2,", field, b",post"].concat(), even(2), t);
        met.import(&[b"7,1,2,3,", field].concat(), even(2), t);
    });
}

/// Up to six lines of which each by itself or none is malformed, into lists of up to seven entries.
fn rooms(met: &mut Met, t: &mut Tally) {
    for (count, end) in (1..=6).flat_map(|count| ["\n", "\r\n", ""].map(|end| (count, end))) {
        for bad in 0..=count {
            let line =
                |k| if k == bad { format!("{k},0.0005,0,0,") } else { format!("{k},{k}.5,-{k}.25,{k}.125,post {k}") };
            let text = (1..=count).map(line).collect::<Vec<_>>().join("\r\n") + end;
            for room in 0..=7 {
                let known = match (bad, room < count) {
                    (0, false) => 0,
                    (0, true) => 12,
                    _ => 27,
                };
                met.imports_as(known, text.as_bytes(), even(room), t);
            }
        }
    }
    for room in 0..=2 {
        met.imports_as(27, b"", even(room), t);
    }
}

/// Lists of lengths that differ, and above 65,536: 24 on each by itself, then 13, then what the text says.
fn lengths(met: &mut Met, t: &mut Tally) {
    const LENGTHS: [usize; 4] = [1, 2, MOST_ROWS, MOST_ROWS + 1];
    let fault = |lengths: [usize; 4]| {
        let is_too_long = lengths.iter().any(|length| *length > MOST_ROWS);
        let differ = lengths.iter().any(|length| *length != lengths[0]);
        match (is_too_long, differ) {
            (true, _) => 24,
            (false, true) => 13,
            (false, false) => 0,
        }
    };
    let marks = [Mark { id: 1, at: [2.0, 3.0, 4.0] }; 3];
    for k in 0..256 {
        let lengths: [usize; 4] = std::array::from_fn(|list| LENGTHS[k >> (2 * list) & 3]);
        let fault = fault(lengths);
        for (text, otherwise) in [("1,2,3,4,\n5,6,7,8,\n9,0,1,2,\n", 12), ("", 27), ("1,2,3,4,\n5,6,7,8,\n\n", 27)] {
            let known = match fault {
                0 if otherwise == 12 && lengths[0] > 2 => 0,
                0 => otherwise,
                _ => fault,
            };
            met.imports_as(known, text.as_bytes(), lengths, t);
        }
        let least = *lengths.iter().min().unwrap();
        let (more, high) = (MOST_ROWS as u64 + 1, 1 << 32);
        for (used, room) in
            [(least as u64, 0), (1, 100), (0, 0), (more - 1, 0), (more, 100), (high, 0), (high + 1, 100), (u64::MAX, 0)]
        {
            met.lent.set_lists(lengths, &mut met.r);
            met.lent.set_marks(&marks[..least.min(3)]);
            let number = met.export_lent(used, room, t);
            let known = match fault {
                0 if used > least as u64 => 13,
                0 => number,
                _ => fault,
            };
            t.equal(number, known, || format!("the reading of {used} marks of {lengths:?}"));
        }
    }
    // one list by one entry shorter or longer, or with none
    for (length, list) in [1, 2, 9, 64, 65].iter().flat_map(|length| (0..4).map(move |list| (*length, list))) {
        for other in [0, length - 1, length + 1] {
            let mut lengths = even(length);
            lengths[list] = other;
            met.imports_as(13, b"1,2,3,4,", lengths, t);
            met.lent.set_lists(lengths, &mut met.r);
            let wanted = met.export_lent(0, 9, t);
            t.equal(wanted, 13, || format!("the reading for lists of {lengths:?}"));
        }
    }
}

/// Random fields, lines and texts, most of them good.
struct Writer {
    r: Random,
    text: Vec<u8>,
}

impl Writer {
    fn some_digits(&mut self, count: u64) {
        for _ in 0..count {
            let digit = *self.r.pick(b"00123456789");
            self.text.push(digit);
        }
    }

    fn number(&mut self) {
        match self.r.below(5) {
            0 => {
                let number = u64::MAX - self.r.below(3);
                self.text.extend(number.to_string().bytes());
            }
            1 => {
                let number = self.r.next();
                self.text.extend(number.to_string().bytes());
            }
            2 => {
                let count = 1 + self.r.below(20);
                self.some_digits(count);
            }
            _ => {
                let number = self.r.below(100_000);
                self.text.extend(number.to_string().bytes());
            }
        }
    }

    fn coordinate(&mut self) {
        if self.r.below(3) == 0 {
            self.text.push(b'-');
        }
        match self.r.below(12) {
            0 => self.text.extend(b"1048576"),
            1 => {
                let metres = self.r.below(1_048_576);
                self.text.extend(format!("{metres:07}").bytes());
            }
            n => {
                let count = 1 + n % 6;
                self.some_digits(count);
            }
        }
        match self.r.below(8) {
            0 => self.text.extend(b".000"),
            n if n < 5 => {
                self.text.push(b'.');
                let count = 1 + self.r.below(3);
                self.some_digits(count);
            }
            _ => {}
        }
    }

    fn description(&mut self) {
        let count = match self.r.below(4) {
            0 => *self.r.pick(&[31, 32]),
            1 => self.r.below(33),
            _ => 0,
        };
        for _ in 0..count {
            let byte = 32 + self.r.below(95) as u8;
            self.text.push(if byte == b',' { b' ' } else { byte });
        }
    }

    /// One byte changed, put in, taken out, or exchanged with the next, anywhere from a place on.
    fn spoil(&mut self, from: usize) {
        let byte = match self.r.below(4) {
            0 => self.r.next() as u8,
            _ => *self.r.pick(b"0123456789,,..--+e \r\n\t\0\x1f\x7f\x80\xff~"),
        };
        let at = from + self.r.below((self.text.len() - from) as u64) as usize;
        match self.r.below(4) {
            0 => self.text[at] = byte,
            1 => self.text.insert(at, byte),
            2 => {
                self.text.remove(at);
            }
            _ if at + 1 < self.text.len() => self.text.swap(at, at + 1),
            _ => self.text.push(byte),
        }
    }

    /// A line without its end, one in so many spoilt by one or two bytes.
    fn line(&mut self, one_in: u64) {
        let from = self.text.len();
        self.number();
        for _ in 0..3 {
            self.text.push(b',');
            self.coordinate();
        }
        self.text.push(b',');
        self.description();
        if self.r.below(one_in) == 0 {
            self.spoil(from);
            if self.r.below(4) == 0 && self.text.len() > from {
                self.spoil(from);
            }
        }
    }

    /// So many lines, with ends of one kind or of both, the last maybe without one.
    fn lines(&mut self, count: u64, one_in: u64) {
        self.text.clear();
        let ends = self.r.below(3);
        for k in 0..count {
            self.line(one_in);
            let is_last = k + 1 == count;
            if is_last && self.r.below(3) == 0 {
                break;
            }
            let cr_lf = ends == 0 || (ends == 1 && self.r.below(2) == 0);
            self.text.extend(if cr_lf { b"\r\n".as_slice() } else { b"\n" });
        }
    }
}

/// Texts of up to four lines, and of up to 300 with few of them malformed, into lists that are just long enough, longer and shorter.
fn random_texts(met: &mut Met, t: &mut Tally) {
    let mut w = Writer { r: Random::new(91), text: Vec::new() };
    for k in 0..TEXTS + TEXTS / 100 {
        let (count, one_in) = if k < TEXTS { (1 + w.r.below(4), 3) } else { (1 + w.r.below(300), 150) };
        w.lines(count, one_in);
        let room = match w.r.below(6) {
            0 => w.r.below(count),
            1 => count - 1,
            2 => count + w.r.below(4),
            _ => count,
        };
        met.import(&w.text, even(room as usize), t);
    }
}

/// Marks that can be exported.
fn random_marks(count: usize, r: &mut Random) -> Vec<Mark> {
    let mut coordinate = || {
        let most = *r.pick(&[2, 1_500, 1_000_000, MOST as u64 + 1]);
        let millimetres = r.below(most) as i64;
        metres(if r.below(2) == 0 { millimetres } else { -millimetres })
    };
    let mut marks: Vec<Mark> = (0..count).map(|_| Mark { id: 0, at: std::array::from_fn(|_| coordinate()) }).collect();
    for mark in &mut marks {
        mark.id = match r.below(4) {
            0 => r.next(),
            1 => *r.pick(&[0, 9, 10, u64::MAX, u64::MAX - 1, 1 << 63]),
            _ => r.below(100_000),
        };
    }
    marks
}

impl Met {
    /// The export of marks into a buffer just long enough and into one that is a byte short, and the import of the text: the same marks in
    /// the same order, also from lists that are longer, and 12 for those that are one entry short.
    fn round_trip(&mut self, marks: &[Mark], t: &mut Tally) {
        let count = marks.len();
        let Some(text) = written(marks) else { return t.check(false, || format!("no text of {count} marks")) };
        let more = (self.r.below(3) as usize).min(MOST_ROWS - count);
        let done = self.export(marks, more, text.len(), t);
        let short = self.export(marks, more, text.len() - 1, t);
        t.equal((done, short), (0, 14), || format!("the reading for {count} marks, {}", shown(&text)));
        let done = self.import(&text, even(count + more), t);
        t.check(done == 0 && self.lent.marks(count) == marks, || {
            format!("an export of {count} marks imported: {}", shown(&text))
        });
        self.imports_as(12, &text, even(count - 1), t);
    }
}

/// Numbers of millimetres: all in ranges about 0, powers of two and ten, the ends, and anywhere; and by a step from end to end.
fn millimetres_to_try(r: &mut Random) -> Vec<i64> {
    const WIDE: i64 = 1_200;
    const STEP: usize = 1_009;
    let powers = (0..=20).map(|k| 1000 << k).chain((0..=9).map(|k| 10i64.pow(k)));
    let anywhere: Vec<i64> = (0..20).map(|_| r.below(MOST as u64) as i64).collect();
    let middles = powers.chain(anywhere).chain([0, MOST]);
    let ranges = middles.flat_map(|n| [n, -n]).flat_map(|n| n - WIDE..=n + WIDE);
    ranges.chain((-MOST..=MOST).step_by(STEP)).filter(|n| n.abs() <= MOST).collect()
}

/// Every one of these as a coordinate can be exported, and what is imported again is the same; the floats beside it and others near it
/// are refused where they are no such coordinate.
fn coordinates(met: &mut Met, t: &mut Tally) {
    let mut r = Random::new(92);
    let all = millimetres_to_try(&mut r);
    for (k, part) in all.chunks(3 * MOST_ROWS).enumerate() {
        let at = |three: &[i64]| std::array::from_fn(|i| metres(*three.get(i).unwrap_or(&0)));
        let mut marks: Vec<Mark> = part.chunks(3).map(|three| Mark { id: 0, at: at(three) }).collect();
        marks.iter_mut().for_each(|mark| mark.id = [r.below(100), r.next()][k % 2]);
        met.round_trip(&marks, t);
    }
    for (k, n) in all.iter().enumerate().filter(|(k, _)| k % 3 == 0) {
        let (x, n) = (metres(*n), *n as f64);
        t.equal(millimetres(x), Some(n as i64), || format!("the reading of {x:e}"));
        let near = [up(x), down(x), n * 0.001, (n + 0.5) / 1000.0, f64::from(x as f32), x + 1e-9];
        let other = near[if k % 2 == 0 { 2 + k / 2 % 4 } else { k / 2 % 2 }];
        let mut mark = Mark { id: n as u64, at: [x, x, x] };
        mark.at[k / 3 % 3] = other;
        let room = [0, MARK_BYTES][k / 9 % 2];
        met.export(&[mark], k % 2, room, t);
    }
}

/// Floats of every kind in each place of each of several marks: 28 comes before 14, and what is not in use does not matter.
fn refused_floats(met: &mut Met, t: &mut Tally) {
    let mut r = Random::new(93);
    let mut floats = special();
    floats.extend([
        LIMIT,
        up(LIMIT),
        down(LIMIT),
        1048576.001,
        1048575.9995,
        0.1 + 0.2,
        0.3,
        1e-3,
        5e-4,
        4.9e-4,
        1e18,
        1e300,
    ]);
    floats.extend([metres(MOST + 1), metres(2 * MOST), metres(i64::MAX), f64::from_bits(0x7ff0_0000_0000_0001)]);
    for x in floats.iter().flat_map(|x| [*x, -*x]) {
        let good = random_marks(4, &mut r);
        let length = written(&good).unwrap().len();
        for (place, axis) in (0..4).flat_map(|place| (0..3).map(move |axis| (place, axis))) {
            let mut marks = good.clone();
            marks[place].at[axis] = x;
            met.export(&marks, 1, 4 * MARK_BYTES, t);
            met.export(&marks, 0, length - 1, t);
            met.export(&marks, 2, 0, t);
            // in front of it all are good
            met.lent.set_lists(even(4), &mut met.r);
            met.lent.set_marks(&marks);
            let numbers = (met.export_lent(place as u64, length, t), met.export_lent(5, length, t));
            t.equal(numbers, (0, 13), || format!("{place} marks before {x:e}, and 5 marks of 4"));
        }
    }
    for _ in 0..EXPORTS {
        let mut mark = random_marks(1, &mut r)[0];
        let axis = r.below(3) as usize;
        match r.below(6) {
            0 => mark.at[axis] = r.pattern(),
            1 => mark.at[axis] = r.between(-LIMIT, LIMIT),
            2 => mark.at[axis] = up(mark.at[axis]),
            _ => {}
        }
        let length = written(&[mark]).map_or(40, |text| text.len());
        let room = *r.pick(&[0, length - 1, length, length, length + 1, 2 * MARK_BYTES]);
        met.export(&[mark], r.below(3) as usize, room, t);
    }
}

/// Numbers of every length; buffers of every length up to a few bytes more than the text of up to five marks; and round trips.
fn buffers(met: &mut Met, t: &mut Tally) {
    let mut r = Random::new(94);
    for power in (0..20).map(|k| 10u64.pow(k)).chain((0..64).map(|k| 1 << k)) {
        let marks = [power - 1, power, power + 1].map(|id| Mark { id, at: [0.0, 1.0, -1.0] });
        met.round_trip(&marks, t);
    }
    for count in 0..=5 {
        for _ in 0..40 {
            let marks = random_marks(count, &mut r);
            let length = written(&marks).unwrap().len();
            for room in 0..=length + 3 {
                met.export(&marks, count % 2, room, t);
            }
        }
    }
    for _ in 0..4_000 {
        let count = 1 + r.below(40) as usize;
        let marks = random_marks(count, &mut r);
        met.round_trip(&marks, t);
    }
}

/// Lists and texts of the largest size, and texts of more lines than any list has entries.
fn large(met: &mut Met, t: &mut Tally) {
    let mut r = Random::new(95);
    let widest = Mark { id: u64::MAX, at: [-LIMIT; 3] };
    met.round_trip(&[widest; MOST_ROWS], t);
    t.equal(met.lent.text.len(), MOST_ROWS * MARK_BYTES + 2, || "the longest text".to_string());
    let marks = random_marks(MOST_ROWS, &mut r);
    met.round_trip(&marks, t);
    for bad in [0, MOST_ROWS / 2, MOST_ROWS - 1] {
        let mut marks = marks.clone();
        marks[bad].at[bad % 3] = -0.0;
        met.exports_as(28, &marks, 0, MOST_ROWS * MARK_BYTES, t);
    }
    let text = written(&marks).unwrap();
    let more = [text.as_slice(), b"1,2,3,4,\n5,6,7,8,"].concat();
    met.imports_as(12, &more, even(MOST_ROWS), t);
    for (behind, line) in [(b",".as_slice(), 2), (b"\r", 2), (b"\n\n", 3), (b"\n,", 3)] {
        met.imports_as(27, &[&more, behind].concat(), even(MOST_ROWS), t);
        t.equal(met.lent.results[3], MOST_ROWS as u64 + line, || format!("the line of 65,538 with {}", shown(behind)));
    }
    met.imports_as(27, &[&more, text.as_slice(), b"\n"].concat(), even(2), t);
    // lines of a megabyte, or as many
    for byte in *b"0, -.\r\n" {
        let many = vec![byte; 1 << 20];
        met.imports_as(27, &many, even(1), t);
        met.imports_as(27, &[b"1,2,3,4,", many.as_slice()].concat(), even(1), t);
    }
}

pub fn compare(t: &mut Tally) {
    let mut met = Met::new(90);
    examples(&mut met, t);
    fields(&mut met, t);
    rooms(&mut met, t);
    buffers(&mut met, t);
    one_byte(&mut met, t);
    lengths(&mut met, t);
    large(&mut met, t);
    refused_floats(&mut met, t);
    coordinates(&mut met, t);
    random_texts(&mut met, t);
    short_texts(&mut met, t);
    t.occur(met.imports);
    t.occur(met.exports);
    t.met("import", &[0, 12, 13, 24, 27]);
    t.met("export", &[0, 13, 14, 24, 28]);
}

extern "C" {
    fn strtoull(text: *const c_char, end: *mut *mut c_char, base: c_int) -> c_ulonglong;
    fn strtod(text: *const c_char, end: *mut *mut c_char) -> f64;
    fn snprintf(text: *mut c_char, room: usize, format: *const c_char, ...) -> c_int;
}

/// A list of marks as a program has it that calls C's library.
struct Plain {
    text: Vec<u8>,
    ids: Vec<u64>,
    at: [Vec<f64>; 3],
}

impl Plain {
    /// The marks of a text that ends in a zero byte, by `strtoull` and `strtod`; descriptions are gone over. How many they are.
    fn import(&mut self) -> usize {
        let end = self.text.len() - 1;
        let mut count = 0;
        let mut from = 0;
        while from < end {
            let mut at = self.text[from..].as_ptr().cast_mut().cast();
            // SAFETY: the text ends in a zero byte, and each number in it in a comma; `at` stays within it.
            unsafe {
                self.ids[count] = strtoull(at, &mut at, 10);
                for list in &mut self.at {
                    list[count] = strtod(at.add(1), &mut at);
                }
                from = at.offset_from(self.text.as_ptr().cast()) as usize;
            }
            from += self.text[from..end].iter().position(|byte| *byte == b'\n').map_or(end - from, |at| at + 1);
            count += 1;
        }
        count
    }

    /// The text of the marks, by `snprintf`: its length.
    fn export(&mut self) -> usize {
        let mut length = 0;
        for (i, id) in self.ids.iter().enumerate() {
            let rest = &mut self.text[length..];
            let [x, y, z] = self.at.each_ref().map(|list| list[i]);
            // SAFETY: at most so many bytes are written there, and the format takes a number of 64 bits and three floats.
            length += unsafe {
                let format = c"%llu,%.3f,%.3f,%.3f,\n";
                snprintf(rest.as_mut_ptr().cast(), rest.len(), format.as_ptr(), *id, x, y, z)
            } as usize;
        }
        length
    }
}

/// The same marks and their text, as they are lent here and as a plain program has them.
fn side_by_side(marks: &[Mark]) -> (RefCell<Lent>, RefCell<Plain>) {
    let text = written(marks).unwrap();
    let mut r = Random::new(96);
    let mut lent = Lent::default();
    lent.set_text(&text, &mut r);
    lent.set_lists(even(marks.len()), &mut r);
    assert_eq!(lent.import(), 0);
    let zeros = vec![0.0; marks.len()];
    let at = [zeros.clone(), zeros.clone(), zeros];
    let mut plain = Plain { text: [text.as_slice(), b"\0"].concat(), ids: vec![0; marks.len()], at };
    assert_eq!((lent.results[1] as usize, plain.import()), (marks.len(), marks.len()));
    assert_eq!(plain.ids, inside(&lent.lists[0]));
    for (floats, bits) in plain.at.iter().zip(&lent.lists[1..]) {
        assert!(floats.iter().map(|x| x.to_bits()).eq(inside(bits).iter().copied()));
    }
    assert_eq!((lent.export(), plain.export()), (0, text.len()));
    assert_eq!(
        (inside(&lent.text), plain.text.as_slice()),
        (text.as_slice(), [&text, b"\0".as_slice()].concat().as_slice())
    );
    (RefCell::new(lent), RefCell::new(plain))
}

/// Nanoseconds a line in both directions, beside `strtoull`, `strtod` and `snprintf`: in lists of 64 marks, 1,024 of them in turn, and in
/// one of 65,536.
pub fn measure() {
    const FEW: usize = 64;
    println!("bench survey, in nanoseconds a line");
    println!("   marks                         import  strtod  export  snprintf");
    for (name, ids, most) in
        [("up to 1 km, short numbers", 100_000, 1_000_000), ("anywhere, any number", u64::MAX, MOST)]
    {
        let mut r = Random::new(97);
        let mut mark = |_| {
            let mut coordinate = |_| metres(r.below(2 * most as u64 + 1) as i64 - most);
            let at = std::array::from_fn(&mut coordinate);
            Mark { id: r.below(ids), at }
        };
        let marks: Vec<Mark> = (0..MOST_ROWS).map(&mut mark).collect();
        let few: Vec<_> = marks.chunks(FEW).map(side_by_side).collect();
        let all = side_by_side(&marks);
        let at = |k: usize| &few[k % few.len()];
        let times = in_turn([
            &burst(|k| at(k).0.borrow_mut().import()),
            &burst(|k| at(k).1.borrow_mut().import() as u64),
            &burst(|k| at(k).0.borrow_mut().export()),
            &burst(|k| at(k).1.borrow_mut().export() as u64),
        ]);
        let whole = long_in_turn([
            &burst(|_| all.0.borrow_mut().import()),
            &burst(|_| all.1.borrow_mut().import() as u64),
            &burst(|_| all.0.borrow_mut().export()),
            &burst(|_| all.1.borrow_mut().export() as u64),
        ]);
        for (count, times) in [(FEW, times), (MOST_ROWS, whole)] {
            let [import, strtod, export, snprintf] = times.map(|time| time / count as f64);
            println!("{count:6}  {name:<26} {import:7.1}  {strtod:6.1}  {export:6.1}  {snprintf:8.1}");
        }
    }
}
