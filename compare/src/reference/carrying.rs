//! Document 02, request Three: an old file brought forward, and a file brought back. The credentials are read, changed and
//! written again; no byte is taken over from the input.

use super::reading::{read, Body, Credential, File};
use super::{refuse, Refusal, Rules};

/// N and the new file's bytes, in a list of this length; or the refusal, which leaves the list as it was.
pub fn forward(rules: &Rules, old: &[u8], length: usize) -> Result<(u64, Vec<u8>), Refusal> {
    let mut file = (rules.reads_old)(old)?;
    for (position, credential) in file.credentials.iter_mut().enumerate() {
        credential.serial = (rules.numbers)(position);
        (credential.from, credential.to) = (rules.lowers)(credential.from, credential.to);
    }
    let bytes = new_bytes(&file);
    if bytes.len() != length {
        return refuse(18);
    }
    Ok((file.credentials.len() as u64, bytes))
}

/// N and the old file's bytes; or the refusal, likewise.
pub fn back(rules: &Rules, new: &[u8], length: usize) -> Result<(u64, Vec<u8>), Refusal> {
    let mut file = read(rules, new)?;
    if 6 + 16 * file.credentials.len() != length {
        return refuse(18);
    }
    let serials: Vec<u32> = file.credentials.iter().map(|credential| credential.serial).collect();
    if let Some(place) = (0..serials.len()).find(|&position| (rules.strange)(position, serials[position])) {
        return Err(Refusal { number: 19, place: place as u32 });
    }
    for credential in &mut file.credentials {
        (credential.from, credential.to) = (rules.raises)(credential.from, credential.to);
    }
    Ok((file.credentials.len() as u64, old_bytes(&file)))
}

/// Sizes, then for each credential statement and serial, then the periods.
pub fn new_bytes(file: &File) -> Vec<u8> {
    let statements = file.credentials.iter().flat_map(|credential| [&statement(credential)[..], &credential.serial.to_le_bytes()].concat());
    sizes(file).into_iter().chain(statements).chain(periods(file)).collect()
}

/// Sizes, statements, periods.
pub fn old_bytes(file: &File) -> Vec<u8> {
    sizes(file).into_iter().chain(file.credentials.iter().flat_map(statement)).chain(periods(file)).collect()
}

fn sizes(file: &File) -> Vec<u8> {
    [file.entities as u16, file.names as u16, file.credentials.len() as u16].into_iter().flat_map(u16::to_le_bytes).collect()
}

fn statement(credential: &Credential) -> [u8; 8] {
    let (kind, [b, s, c, t]) = match credential.body {
        Body::Entity(entity) => (0, [entity, 0, 0, 0]),
        Body::Role(of) => (1, [of / 32, of % 32, 0, 0]),
        Body::Linked(of, name) => (2, [of / 32, of % 32, 0, name]),
        Body::Pair(kind, of, with) => (kind as u32, [of / 32, of % 32, with / 32, with % 32]),
    };
    [kind, credential.head / 32, credential.head % 32, b, s, c, t, 0].map(|part| part as u8)
}

fn periods(file: &File) -> Vec<u8> {
    file.credentials.iter().flat_map(|credential| [credential.from, credential.to]).flat_map(u32::to_le_bytes).collect()
}
