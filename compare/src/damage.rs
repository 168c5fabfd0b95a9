//! Faults of a file, made in its bytes; and periods and serials of which some are no fault.

use crate::reference::reading::word;

/// A fault; the credential's faults are made in the credential at a place.
#[derive(Clone, Copy, Debug)]
pub enum Fault {
    None,
    /// Cut to under six bytes.
    Cut(usize),
    /// One of the three sizes.
    Size(usize, Value),
    /// Longer or shorter by some bytes.
    Length(isize),
    Kind(u8),
    /// Issuer, name, b, s, c or t at its limit, whether it is used or not.
    Limit(usize),
    /// A byte of the statement.
    Byte(usize, u8),
    Period(Bounds),
    Serial(Number),
}

#[derive(Clone, Copy, Debug)]
pub enum Value {
    Is(u16),
    More,
    Less,
    Plus(u16),
}

/// What becomes of from and to. The last minute is 4,294,967,294; 4,294,967,295 is beyond it.
#[derive(Clone, Copy, Debug)]
pub enum Bounds {
    /// From is to: one minute.
    Same,
    /// From is the minute after to.
    Next,
    Reversed,
    FromBeyond,
    ToBeyond,
    BothBeyond,
    ToLast,
    BothLast,
}

/// What becomes of a serial. Some are no fault.
#[derive(Clone, Copy, Debug)]
pub enum Number {
    Zero,
    /// That of the credential before it.
    Before,
    /// That of the credential after it, which is then at fault.
    After,
    First,
    /// The first one's with the highest bit changed, so that the other 31 are the same.
    NearFirst,
}

pub fn all() -> Vec<Fault> {
    use Fault::*;
    let mut all = vec![None];
    all.extend([0, 1, 5].map(Cut));
    for size in 0..2 {
        all.extend([Value::Is(0), Value::Is(33), Value::Is(32), Value::Plus(256), Value::Less].map(|value| Size(size, value)));
    }
    all.extend([Value::Is(257), Value::Is(u16::MAX), Value::Plus(256), Value::More, Value::Less].map(|value| Size(2, value)));
    all.extend([1, -1, 8, -8, 20, -20].map(Length));
    all.extend([6, 7, 255].map(Kind));
    all.extend((1..7).map(Limit));
    all.extend((1..8).flat_map(|byte| [Byte(byte, 1), Byte(byte, 255)]));
    all.extend([Bounds::Same, Bounds::Next, Bounds::Reversed].map(Period));
    all.extend([Bounds::FromBeyond, Bounds::ToBeyond, Bounds::BothBeyond, Bounds::ToLast, Bounds::BothLast].map(Period));
    all.extend([Number::Zero, Number::Before, Number::After, Number::First, Number::NearFirst].map(Serial));
    all
}

/// Makes a fault in a file that had `count` credentials.
pub fn make(fault: Fault, bytes: &mut Vec<u8>, count: usize, place: usize) {
    make_in(fault, bytes, 12, count, place)
}

/// The same in an old file, which has no serials.
pub fn make_old(fault: Fault, bytes: &mut Vec<u8>, count: usize, place: usize) {
    make_in(fault, bytes, 8, count, place)
}

/// The same in a file whose statements have so many bytes.
fn make_in(fault: Fault, bytes: &mut Vec<u8>, width: usize, count: usize, place: usize) {
    let (statement, period) = (6 + width * place, 6 + width * count + 8 * place);
    let size = |bytes: &[u8], at: usize| u16::from_le_bytes([bytes[2 * at], bytes[2 * at + 1]]);
    let has = |end: usize| place < count && end <= bytes.len();
    match fault {
        Fault::None => {}
        Fault::Cut(length) => bytes.truncate(length),
        Fault::Length(by) => bytes.resize((bytes.len() as isize + by).max(0) as usize, 0),
        Fault::Size(at, value) if bytes.len() >= 6 => {
            let own = size(bytes, at);
            let new = match value {
                Value::Is(value) => value,
                Value::More => own.wrapping_add(1),
                Value::Less => own.wrapping_sub(1),
                Value::Plus(value) => own.wrapping_add(value),
            };
            bytes[2 * at..2 * at + 2].copy_from_slice(&new.to_le_bytes());
        }
        Fault::Kind(kind) if has(statement + width) => bytes[statement] = kind,
        Fault::Limit(byte) if has(statement + width) => bytes[statement + byte] = size(bytes, [0, 1, 0, 1, 0, 1][byte - 1]) as u8,
        Fault::Byte(byte, value) if has(statement + width) => bytes[statement + byte] = value,
        Fault::Period(bounds) if has(period + 8) => {
            let (from, to) = (word(&bytes[period..], 0), word(&bytes[period..], 1));
            let (beyond, last) = (u32::MAX, u32::MAX - 1);
            let (from, to) = match bounds {
                Bounds::Same => (to, to),
                Bounds::Next => (to.wrapping_add(1), to),
                Bounds::Reversed => (to, from),
                Bounds::FromBeyond => (beyond, to),
                Bounds::ToBeyond => (from, beyond),
                Bounds::BothBeyond => (beyond, beyond),
                Bounds::ToLast => (from, last),
                Bounds::BothLast => (last, last),
            };
            bytes[period..period + 8].copy_from_slice(&[from.to_le_bytes(), to.to_le_bytes()].concat());
        }
        Fault::Serial(number) if width == 12 && has(6 + 12 * count) => {
            let serial = |place: usize| word(&bytes[6 + 12 * place + 8..], 0);
            let new = match number {
                Number::Zero => 0,
                Number::Before => serial(place.saturating_sub(1)),
                Number::After => serial((place + 1).min(count - 1)),
                Number::First => serial(0),
                Number::NearFirst => serial(0) ^ 1 << 31,
            };
            bytes[statement + 8..statement + 12].copy_from_slice(&new.to_le_bytes());
        }
        _ => {}
    }
}
