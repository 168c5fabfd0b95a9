//! Document 01 as first written, before document 02's requests: a file whose statements have 8 bytes and no serial, and whose
//! periods do not cover `to`. The old files of request Three are these.

use super::reading::{credential, sizes, with_ends, File};
use super::{refuse, Refusal, Rules, RIGHT};

/// The rules by which an old file is read: other bytes, another 7, another meaning of `to`, other ends. The rest has stayed.
pub const OLD: Rules = Rules { reads: old_credentials, refuses, covers, end, ..RIGHT };

fn refuses(from: u32, to: u32) -> bool {
    from >= to
}

fn covers(from: u32, to: u32, minute: u32) -> bool {
    from <= minute && minute < to
}

fn end(to: u32) -> u32 {
    to
}

/// The old file that the bytes are, or the first of the refusals 1 to 8.
pub fn read_old(rules: &Rules, bytes: &[u8]) -> Result<File, Refusal> {
    with_ends(rules, old_credentials(rules, bytes)?)
}

/// The credentials of an old file, without its ends, or the first of the refusals 1 to 7.
pub fn old_credentials(rules: &Rules, bytes: &[u8]) -> Result<File, Refusal> {
    let (entities, names, count) = sizes(bytes)?;
    if bytes.len() != 6 + 16 * count {
        return refuse(3);
    }
    let mut file = File { entities, names, credentials: Vec::new(), ends: Vec::new() };
    for place in 0..count {
        let statement = &bytes[6 + 8 * place..][..8];
        let period = &bytes[6 + 8 * count + 8 * place..][..8];
        match credential(rules, statement, 0, period, entities, names) {
            Err(number) => return Err(Refusal { number, place: place as u32 }),
            Ok(credential) => file.credentials.push(credential),
        }
    }
    Ok(file)
}
