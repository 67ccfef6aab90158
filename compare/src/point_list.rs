//! Request d of document 02, the point lists of surveyors: a reading of the request, apart from the library.

use std::ops::RangeInclusive;

/// The most millimetres that a coordinate has.
pub const MOST: i64 = 1_048_576_000;

/// The most bytes that an exported mark takes: its number, three coordinates, four commas and the line's end.
pub const MARK_BYTES: usize = 20 + 3 * 12 + 4 + 1;

/// A mark of a point list.
#[derive(Clone, Copy, Debug)]
pub struct Mark {
    pub id: u64,
    pub at: [f64; 3],
}

/// Bit for bit.
impl PartialEq for Mark {
    fn eq(&self, other: &Mark) -> bool {
        (self.id, self.at.map(f64::to_bits)) == (other.id, other.at.map(f64::to_bits))
    }
}

/// What so many millimetres are as a coordinate.
pub fn metres(millimetres: i64) -> f64 {
    millimetres as f64 / 1000.0
}

/// A text's lines without their ends.
pub fn lines(text: &[u8]) -> Vec<&[u8]> {
    fn without_end(line: &[u8]) -> &[u8] {
        match line {
            [inner @ .., b'\r', b'\n'] | [inner @ .., b'\n'] => inner,
            whole => whole,
        }
    }
    match text {
        [] => vec![text],
        _ => text.split_inclusive(|byte| *byte == b'\n').map(without_end).collect(),
    }
}

/// A field of digits alone, and so many of them.
fn digits(field: &[u8], count: RangeInclusive<usize>) -> Option<u128> {
    let are_digits = count.contains(&field.len()) && field.iter().all(u8::is_ascii_digit);
    are_digits.then(|| field.iter().fold(0, |number, digit| 10 * number + u128::from(digit - b'0')))
}

fn number(field: &[u8]) -> Option<u64> {
    u64::try_from(digits(field, 1..=20)?).ok()
}

fn coordinate(field: &[u8]) -> Option<f64> {
    let (sign, size) = match field {
        [b'-', size @ ..] => (-1, size),
        size => (1, size),
    };
    let mut parts = size.splitn(2, |byte| *byte == b'.');
    let mut millimetres = 1000 * digits(parts.next()?, 1..=7)? as i64;
    if let Some(decimals) = parts.next() {
        millimetres += digits(decimals, 1..=3)? as i64 * [100, 10, 1][decimals.len() - 1];
    }
    (millimetres <= MOST).then(|| metres(sign * millimetres))
}

fn mark(line: &[u8]) -> Option<Mark> {
    let fields: Vec<&[u8]> = line.split(|byte| *byte == b',').collect();
    let [id, x, y, z, description] = fields[..] else { return None };
    let is_description = description.len() <= 32 && description.iter().all(|byte| (32..=126).contains(byte));
    let mark = Mark { id: number(id)?, at: [coordinate(x)?, coordinate(y)?, coordinate(z)?] };
    is_description.then_some(mark)
}

/// The marks of a text, or its first malformed line, counted from 1.
pub fn read(text: &[u8]) -> Result<Vec<Mark>, u64> {
    lines(text).into_iter().zip(1..).map(|(line, number)| mark(line).ok_or(number)).collect()
}

/// The millimetres that a coordinate is, bit for bit. Coordinates ascend with their millimetres, so that halving finds them.
pub fn millimetres(x: f64) -> Option<i64> {
    let (mut low, mut high) = (-MOST, MOST);
    while low < high {
        let middle = (low + high).div_euclid(2);
        if metres(middle) < x {
            low = middle + 1;
        } else {
            high = middle;
        }
    }
    (metres(low).to_bits() == x.to_bits()).then_some(low)
}

/// A mark's line, where each of its coordinates can be written.
fn write(mark: &Mark, text: &mut Vec<u8>) -> Option<()> {
    text.extend(mark.id.to_string().bytes());
    for x in mark.at {
        let millimetres = millimetres(x)?;
        let minus = if millimetres < 0 { "-" } else { "" };
        let size = millimetres.abs();
        text.extend(format!(",{minus}{}.{:03}", size / 1000, size % 1000).bytes());
    }
    text.extend(b",\n");
    Some(())
}

/// The text of marks, where they have one.
pub fn written(marks: &[Mark]) -> Option<Vec<u8>> {
    let mut text = Vec::with_capacity(marks.len() * MARK_BYTES);
    marks.iter().try_for_each(|mark| write(mark, &mut text))?;
    Some(text)
}
