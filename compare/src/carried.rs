//! What is compared of a file brought forward and back: both calls, the way there and back, and the memberships by the old reading.

use crate::explore::completed;
use crate::input::{hex, Back, Ends, Forward, Input};
use crate::judge::{Compared, Comparison, Failure};
use crate::random::Random;
use crate::reference::ends::BYTES;
use crate::reference::known::Known;
use crate::reference::old::OLD;
use crate::reference::withdrawals::NONE;
use crate::reference::MOST;

/// How many credentials the head gives; 0 without a head, 256 for more.
pub fn said(bytes: &[u8]) -> usize {
    match bytes {
        [_, _, _, _, low, high, ..] => (*low as usize + 256 * *high as usize).min(256),
        _ => 0,
    }
}

/// The length of the old file of so many credentials as the head gives, and that of the new one.
pub fn old_length(bytes: &[u8]) -> usize {
    6 + 16 * said(bytes)
}

pub fn new_length(bytes: &[u8]) -> usize {
    6 + 20 * said(bytes)
}

/// A file's old form: serials dropped, each `to` plus one, which may wrap. Of a file of a wrong length, what is there.
pub fn old_form(file: &[u8]) -> Vec<u8> {
    let (head, rest) = file.split_at(file.len().min(6));
    let (statements, periods) = rest.split_at(rest.len().min(12 * said(file)));
    let mut old = head.to_vec();
    statements.chunks(12).for_each(|statement| old.extend(&statement[..statement.len().min(8)]));
    for period in periods.chunks(8) {
        match *period {
            [a, b, c, d, e, f, g, h] => {
                old.extend([a, b, c, d]);
                old.extend(u32::from_le_bytes([e, f, g, h]).wrapping_add(1).to_le_bytes());
            }
            _ => old.extend(period),
        }
    }
    old
}

/// A length that the output list must not have.
fn other_length(random: &mut Random, right: usize, input: usize) -> usize {
    let mut all = vec![0, right - 1, right + 1, input, 5126, right - 6, right + random.within(2, 3000), random.below(right)];
    all.retain(|&length| length != right);
    random.choose(&all)
}

/// Forward into a list of the right length; where that passes, the way back gives the same bytes. The new file, if there is one.
pub fn there_and_back(c: &mut Comparison, random: &mut Random, old: &[u8]) -> Compared<Option<Vec<u8>>> {
    let there = Forward { file: old, length: new_length(old), fill: random.next() };
    let new = c.forward(there.clone())?;
    if let Some(file) = &new {
        let again = c.back(Back { file, length: old.len(), fill: random.next() })?;
        if again.as_deref() != Some(old) {
            return Err(c.failure(&Input::Forward(there), "the way back does not give the old file again".into()));
        }
    }
    Ok(new)
}

/// The other way round; the old file, if there is one.
pub fn back_and_there(c: &mut Comparison, random: &mut Random, file: &[u8]) -> Compared<Option<Vec<u8>>> {
    let back = Back { file, length: old_length(file), fill: random.next() };
    let old = c.back(back.clone())?;
    if let Some(old) = &old {
        let again = c.forward(Forward { file: old, length: file.len(), fill: random.next() })?;
        if again.as_deref() != Some(file) {
            return Err(c.failure(&Input::Back(back), "the way forward does not give the file again".into()));
        }
    }
    Ok(old)
}

/// The same memberships at the same minutes: the table that completing writes for the new file, and its ends, are those that the
/// second implementation finds in the old file by the old reading.
fn same_memberships(c: &mut Comparison, random: &mut Random, old: &[u8], file: &[u8]) -> Compared<()> {
    let known = &Known::new(OLD, old, NONE);
    let fits = known.table().map_or(MOST, |table| table.len());
    let length = random.choose(&[fits, fits.saturating_sub(1), fits + 1, MOST]).clamp(1, MOST);
    let told = |Failure(what)| Failure(format!("{what}\nwhere the file is that of the old file {}", hex(old)));
    c.complete(known, completed(file, length, random.next())).map_err(told)?;
    c.ends(known, Ends { source: file.into(), length: BYTES, fill: random.next() }).map_err(told)
}

/// A file brought back, and its old form brought forward, with the way there and back of each; once in so many times the same memberships;
/// once in three times so many each: back and forward into lists of another length, and the file's own bytes taken for an old file.
/// The random numbers stay as they are.
pub fn carried(c: &mut Comparison, random: &Random, file: &[u8], times: usize) -> Compared<()> {
    let random = &mut random.clone();
    let old = old_form(file);
    let new = match back_and_there(c, random, file)? {
        Some(back) if back == old => Some(file.to_vec()),
        _ => there_and_back(c, random, &old)?,
    };
    if let Some(new) = new.filter(|_| random.once_in(times)) {
        same_memberships(c, random, &old, &new)?;
    }
    if random.once_in(3 * times) {
        c.back(Back { file, length: other_length(random, old_length(file), file.len()), fill: random.next() })?;
    }
    if random.once_in(3 * times) {
        let length = other_length(random, new_length(&old), old.len());
        c.forward(Forward { file: &old, length, fill: random.next() })?;
    }
    if random.once_in(3 * times) {
        there_and_back(c, random, file)?;
    }
    Ok(())
}

/// A file, as its kind counts it, brought forward and back; what the second implementation knows of it.
pub fn opened(c: &mut Comparison, random: &Random, file: &[u8]) -> Compared<Known> {
    carried(c, random, file, 1)?;
    Ok(c.known(file))
}

/// An old file, as its kind counts it: forward and back, forward into a list of another length, and the same memberships.
pub fn carried_old(c: &mut Comparison, random: &mut Random, old: &[u8]) -> Compared<()> {
    c.counted();
    if let Some(file) = there_and_back(c, random, old)? {
        same_memberships(c, random, old, &file)?;
    }
    let length = other_length(random, new_length(old), old.len());
    c.forward(Forward { file: old, length, fill: random.next() }).map(|_| ())
}

/// A file, as its kind counts it: back and forward, and back into a list of another length.
pub fn carried_back(c: &mut Comparison, random: &mut Random, file: &[u8]) -> Compared<()> {
    c.counted();
    back_and_there(c, random, file)?;
    let length = other_length(random, old_length(file), file.len());
    c.back(Back { file, length, fill: random.next() }).map(|_| ())
}
