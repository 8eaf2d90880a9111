//! Lines, fields and numbers. Jobs and sheets have the same lines; sheets and maps have plain numbers, and in a job one can
//! be followed by a power of ten.

pub const LF: u8 = 10;
pub const TAB: u8 = 9;

/// A line: the word it opens with, the fields behind it, and whether an LF ends it.
pub struct Line<'a> {
    pub word: &'a [u8],
    pub fields: Vec<&'a [u8]>,
    pub ended: bool,
}

/// The lines of a text. Bytes behind the last LF are a line too, one that is not ended.
pub fn lines(text: &[u8]) -> impl Iterator<Item = Line<'_>> {
    text.split_inclusive(|&b| b == LF).map(line)
}

fn line(bytes: &[u8]) -> Line<'_> {
    let stripped = bytes.strip_suffix(&[LF]);
    let mut parts = stripped.unwrap_or(bytes).split(|&b| b == TAB);
    Line { word: parts.next().unwrap_or_default(), fields: parts.collect(), ended: stripped.is_some() }
}

/// A number is 1 to 3 decimal digits without a leading zero; "0" is right.
pub fn number(field: &[u8]) -> Option<usize> {
    let right = match field {
        [only] => only.is_ascii_digit(),
        [first, rest @ ..] => {
            first.is_ascii_digit() && *first != b'0' && rest.len() <= 2 && rest.iter().all(u8::is_ascii_digit)
        }
        [] => false,
    };
    right.then(|| field.iter().fold(0, |n, b| 10 * n + usize::from(b - b'0')))
}

/// All fields as numbers, if every one of them is a number.
pub fn numbers(fields: &[&[u8]]) -> Option<Vec<usize>> {
    fields.iter().map(|field| number(field)).collect()
}

/// A number of a job. Behind a plain one may stand `e` or `E`, an optional `+`, and one digit: the value is that number
/// times ten to this power.
pub fn scaled(field: &[u8]) -> Option<usize> {
    let Some(at) = field.iter().position(|b| b"eE".contains(b)) else { return number(field) };
    let (digits, power) = (&field[..at], &field[at + 1..]);
    match power.strip_prefix(b"+").unwrap_or(power) {
        [power] if power.is_ascii_digit() => Some(number(digits)? * 10_usize.pow(u32::from(power - b'0'))),
        _ => None,
    }
}

/// All fields as numbers of a job, if every one of them is one.
pub fn scaled_numbers(fields: &[&[u8]]) -> Option<Vec<usize>> {
    fields.iter().map(|field| scaled(field)).collect()
}

/// Writes a line.
pub fn write(out: &mut Vec<u8>, word: &str, numbers: &[usize]) {
    out.extend(word.bytes());
    for n in numbers {
        out.push(TAB);
        out.extend(n.to_string().bytes());
    }
    out.push(LF);
}
