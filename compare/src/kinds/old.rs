//! Old files going forward, and new files going back whose serials are right but at some places.

use super::faults::{dense_of, plain};
use crate::carried::*;
use crate::damage::{self, Fault};
use crate::extremes::with_ends;
use crate::files::*;
use crate::input::{Back, Forward};
use crate::judge::{Compared, Comparison};
use crate::random::Random;
use crate::serials;

pub fn old(c: &mut Comparison, random: &mut Random, count: usize) -> Compared<()> {
    for _ in 0..count {
        bounds(c, random)?;
        powers(c, random)?;
        kinds(c, random)?;
        ends(c, random)?;
        for credentials in [0, 1, 2, 3, 255, 256] {
            let draft = if credentials < 255 { dense_of(random, credentials) } else { plain(random, credentials as u32) };
            lists(c, random, &draft)?;
            lengths(c, random, &draft)?;
            strange(c, random, &draft)?;
        }
        faults(c, random)?;
    }
    Ok(())
}

/// Every from and to among the first three and the last two numbers, for two credentials, as an old file and as a new one.
fn bounds(c: &mut Comparison, random: &mut Random) -> Compared<()> {
    let values = [0, 1, 2, u32::MAX - 1, u32::MAX];
    let all: Vec<Period> = values.into_iter().flat_map(|from| values.map(|to| (from, to))).collect();
    for (one, other) in all.iter().flat_map(|&one| all.iter().map(move |&other| (one, other))) {
        let mut draft = Draft::new(1, 2);
        draft.fact(0, 0, one);
        draft.include(1, 0, other);
        carried_old(c, random, &draft.without_serials())?;
        carried_back(c, random, &draft.bytes())?;
    }
    Ok(())
}

/// `to` at, before and after each power of two, after the first minute or after `from`, for one of two credentials: every borrow and every carry.
fn powers(c: &mut Comparison, random: &mut Random) -> Compared<()> {
    for to in (0..32).flat_map(|shift| [(1u32 << shift) - 1, 1 << shift, (1 << shift) + 1]) {
        for from in [0, to.saturating_sub(1), to] {
            let mut draft = Draft::new(1, 2);
            draft.fact(0, 0, (3, 9));
            draft.credentials.insert(random.below(2), ([1, 0, 1, 0, 0, 0, 0, 0], (from, to)));
            carried_old(c, random, &draft.without_serials())?;
            carried_back(c, random, &draft.bytes())?;
        }
    }
    Ok(())
}

/// Every kind up to 8 and some above, with every b, s, c, t up to the limit and byte 7 zero or not, before or after a right credential.
fn kinds(c: &mut Comparison, random: &mut Random) -> Compared<()> {
    for kind in (0..9).chain([16, 32, 128, 254, 255]) {
        for parts in 0..3 * 3 * 3 * 3 * 2 {
            let part = |divisor: u8, limit: u8| parts / divisor % limit;
            let statement = [kind, random.below(2) as u8, random.below(2) as u8, part(1, 3), part(3, 3), part(9, 3), part(27, 3), part(81, 2)];
            let mut draft = Draft::new(2, 2);
            draft.fact(0, 1, (3, 9));
            let place = random.below(2);
            draft.credentials.insert(place, (statement, (random.below(4) as u32, 4)));
            carried_old(c, random, &draft.without_serials())?;
        }
    }
    Ok(())
}

/// 63 to 66 ends: as they come; touching; each `from` right after another's `to`; minutes that stand alone.
fn ends(c: &mut Comparison, random: &mut Random) -> Compared<()> {
    for count in [63, 64, 65, 66] {
        for _ in 0..6 {
            let draft = with_ends(random, count);
            let file = draft.bytes();
            carried_old(c, random, &old_form(&file))?;
            // Over 64 ends, with serials that 19 or 17 refuses.
            carried_back(c, random, &file)?;
            for serials in [serials::some(random, draft.credentials.len()), vec![7; draft.credentials.len()]] {
                carried_back(c, random, &draft.bytes_with(&serials))?;
            }
        }
        for gap in [1, 2, 3, 1000, u32::MAX / (count as u32 - 1)] {
            let end = |i: usize| i as u32 * gap;
            let touching: Vec<Period> = (1..count).map(|i| (end(i - 1), end(i))).collect();
            let apart: Vec<Period> = (0..count / 2).map(|i| (end(2 * i), end(2 * i + 1))).collect();
            let following: Vec<Period> = (0..count as u32 / 2).map(|i| (3 * i, 3 * i + 2)).collect();
            let alone: Vec<Period> = (0..count as u32 / 2).map(|i| (3 * i, 3 * i + 1)).collect();
            let last: Vec<Period> = touching.iter().map(|&(from, to)| (u32::MAX - to, u32::MAX - from)).collect();
            for mut periods in [touching, apart, following, alone, last] {
                random.shuffle(&mut periods);
                let mut draft = Draft::new(4, 2);
                periods.into_iter().for_each(|period| draft.fact(random.below(2) as u32, random.below(4) as u32, period));
                carried_old(c, random, &draft.without_serials())?;
                // Its `to` values as they are, so that the ends are others.
                carried_back(c, random, &draft.bytes())?;
            }
        }
    }
    Ok(())
}

/// Output lists of every length near the right one and near those of other layouts.
fn lists(c: &mut Comparison, random: &mut Random, draft: &Draft) -> Compared<()> {
    let (file, count) = (draft.bytes(), draft.credentials.len());
    let old = old_form(&file);
    c.counted();
    let mut lengths: Vec<usize> = (0..50).chain([5125, 5126, 5127, 5146, 4102, 6000, 65_542, 100_000]).collect();
    for width in [8, 12, 16, 20, 24] {
        let near = (6 + width * count).saturating_sub(22);
        lengths.extend(near..near + 45);
    }
    for length in lengths {
        c.forward(Forward { file: &old, length, fill: random.next() })?;
        c.back(Back { file: &file, length, fill: random.next() })?;
    }
    Ok(())
}

/// Files longer and shorter by some bytes, by whole credentials, and of the length that another layout has.
fn lengths(c: &mut Comparison, random: &mut Random, draft: &Draft) -> Compared<()> {
    let (file, count) = (draft.bytes(), draft.credentials.len() as isize);
    let old = old_form(&file);
    for by in [-40, -32, -20, -16, -12, -8, -4, -1, 0, 1, 4, 8, 12, 16, 20, 32, 40, 4 * count, -4 * count, -8 * count, -16 * count] {
        let resized = |bytes: &[u8]| {
            let mut bytes = bytes.to_vec();
            bytes.resize((bytes.len() as isize + by).max(0) as usize, 0);
            bytes
        };
        carried_old(c, random, &resized(&old))?;
        carried_back(c, random, &resized(&file))?;
    }
    // Each layout given to the other call.
    carried_old(c, random, &file)?;
    carried_back(c, random, &old)
}

/// Serials that are right but at one place or two: alike in the low 8, 16, 24 or 31 bits, exchanged, moved along, another's, zero.
/// Each in a list of the right length and in another; at every position, and in files of which 8 refuses some.
fn strange(c: &mut Comparison, random: &mut Random, draft: &Draft) -> Compared<()> {
    let right = serials::ascending(draft.credentials.len());
    for place in 0..right.len() {
        let other = random.below(right.len());
        let own = right[place];
        let mut all: Vec<Vec<u32>> = Vec::new();
        let mut with = |changes: &[(usize, u32)]| {
            let mut serials = right.clone();
            changes.iter().for_each(|&(place, serial)| serials[place] = serial);
            all.push(serials);
        };
        for serial in [own + 256, own + 65_536, own ^ 1 << 24, own ^ 1 << 31, own + right.len() as u32, own.swap_bytes()] {
            with(&[(place, serial)]);
        }
        // 17 too: another's, the position, the next, zero.
        for serial in [right[other], own - 1, own + 1, 0] {
            with(&[(place, serial)]);
        }
        with(&[(place, right[other]), (other, own)]);
        with(&[(place, own + 65_536), (other, right[other] + 65_536)]);
        with(&[(place, own + 256), (other, right[other] + 512)]);
        with(&[(place, u32::MAX), (right.len() - 1, u32::MAX - 1)]);
        for serials in all {
            carried_back(c, random, &draft.bytes_with(&serials))?;
        }
    }
    for serials in serials::ORDERS.iter().map(|order| order(random, right.len())).collect::<Vec<_>>() {
        carried_back(c, random, &draft.bytes_with(&serials))?;
    }
    Ok(())
}

/// Every two faults of an old file, of five credentials, of 64 ends and of 65.
fn faults(c: &mut Comparison, random: &mut Random) -> Compared<()> {
    let faults: Vec<Fault> = damage::all().into_iter().filter(|fault| !matches!(fault, Fault::Serial(_))).collect();
    for draft in [dense_of(random, 5), with_ends(random, 64), with_ends(random, 65)] {
        let right = old_form(&draft.bytes());
        let credentials = draft.credentials.len();
        for one in &faults {
            for other in &faults {
                let mut old = right.clone();
                damage::make_old(*one, &mut old, credentials, random.below(credentials));
                damage::make_old(*other, &mut old, credentials, random.below(credentials));
                carried_old(c, random, &old)?;
            }
        }
    }
    Ok(())
}
