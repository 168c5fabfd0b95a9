//! Document 01, "The credentials file", with document 02's requests One and Two: bytes to credentials, or the first of the refusals
//! 1 to 7 and 17; then 8.

use super::{refuse, role, Refusal, Rules};
use std::collections::BTreeSet;

#[derive(Clone, Copy, PartialEq, Eq, Debug)]
pub enum Body {
    /// b
    Entity(u32),
    /// b.s
    Role(u32),
    /// b.s.t
    Linked(u32, u32),
    /// kind 3, 4 or 5 over b.s and c.t
    Pair(u8, u32, u32),
}

#[derive(Clone, Copy, PartialEq, Eq, Debug)]
pub struct Credential {
    /// 0 in an old file, which has none.
    pub serial: u32,
    pub head: u32,
    pub body: Body,
    /// As the file has them: both minutes are covered; in an old file, `to` is not.
    pub from: u32,
    pub to: u32,
    /// The minute from which a list withdraws it, if one does.
    pub withdrawn: Option<u32>,
}

#[derive(Clone, PartialEq, Eq, Debug)]
pub struct File {
    pub entities: u32,
    pub names: u32,
    pub credentials: Vec<Credential>,
    /// The distinct from values and `to` values plus one, ascending, of what is left of the periods; in an old file, the from and to values.
    pub ends: Vec<u32>,
}

/// The file without a withdrawal list, or the first of the refusals 1 to 8 and 17.
pub fn read(rules: &Rules, bytes: &[u8]) -> Result<File, Refusal> {
    with_ends(rules, (rules.reads)(rules, bytes)?)
}

/// The file without its ends, or the first of the refusals 1 to 7 and 17.
pub fn credentials(rules: &Rules, bytes: &[u8]) -> Result<File, Refusal> {
    let (entities, names, count) = sizes(bytes)?;
    if bytes.len() != 6 + 20 * count {
        return refuse(3);
    }
    let mut file = File { entities, names, credentials: Vec::new(), ends: Vec::new() };
    let mut serials = Vec::new();
    for place in 0..count {
        let statement = &bytes[6 + 12 * place..][..12];
        let period = &bytes[6 + 12 * count + 8 * place..][..8];
        let refused = |number| Err(Refusal { number, place: place as u32 });
        match credential(rules, &statement[..8], word(statement, 2), period, entities, names) {
            Err(number) => return refused(number),
            Ok(credential) if (rules.taken)(&serials, credential.serial) => return refused(17),
            Ok(credential) => {
                serials.push(credential.serial);
                file.credentials.push(credential);
            }
        }
    }
    Ok(file)
}

/// E, R and N, or 1 or 2.
pub fn sizes(bytes: &[u8]) -> Result<(u32, u32, usize), Refusal> {
    if bytes.len() < 6 {
        return refuse(1);
    }
    let size = |at: usize| bytes[at] as usize + 256 * bytes[at + 1] as usize;
    let (entities, names, count) = (size(0), size(2), size(4));
    if entities < 1 || entities > 32 || names < 1 || names > 32 || count > 256 {
        return refuse(2);
    }
    Ok((entities as u32, names as u32, count))
}

/// The file with its ends, or 8.
pub fn with_ends(rules: &Rules, mut file: File) -> Result<File, Refusal> {
    let ends: BTreeSet<u32> = file.credentials.iter().flat_map(|credential| ends(rules, credential)).collect();
    file.ends = ends.into_iter().collect();
    if file.ends.len() > rules.most_ends {
        return refuse(8);
    }
    Ok(file)
}

/// A credential's two ends, or none if all its minutes are withdrawn.
pub fn ends(rules: &Rules, credential: &Credential) -> Vec<u32> {
    let (from, end) = (credential.from, (rules.end)(credential.to));
    match credential.withdrawn {
        None => vec![from, end],
        Some(minute) => (rules.left)(from, end, minute),
    }
}

/// Which of b, s, c, t a kind uses.
pub fn uses(kind: u8) -> [bool; 4] {
    match kind {
        0 => [true, false, false, false],
        1 => [true, true, false, false],
        2 => [true, true, false, true],
        _ => [true, true, true, true],
    }
}

/// One credential of a statement of 8 bytes, a serial and a period, or the number of its first refusal of 4 to 7.
pub fn credential(rules: &Rules, statement: &[u8], serial: u32, period: &[u8], entities: u32, names: u32) -> Result<Credential, u32> {
    let kind = statement[0];
    if kind > 5 {
        return Err(4);
    }
    let [issuer, name, b, s, c, t] = [1, 2, 3, 4, 5, 6].map(|at| statement[at] as u32);
    let used = uses(kind);
    let parts = [(used[0], b, entities), (used[1], s, names), (used[2], c, entities), (used[3], t, names)];
    if issuer >= entities || name >= names || parts.iter().any(|&(used, part, limit)| used && part >= limit) {
        return Err(5);
    }
    if parts.iter().any(|&(used, part, _)| !used && part != 0) || statement[7] != 0 {
        return Err(6);
    }
    let (from, to) = (word(period, 0), word(period, 1));
    if (rules.refuses)(from, to) {
        return Err(7);
    }
    let body = match kind {
        0 => Body::Entity(b),
        1 => Body::Role(role(b, s)),
        2 => Body::Linked(role(b, s), t),
        _ => Body::Pair(kind, role(b, s), role(c, t)),
    };
    Ok(Credential { serial, head: role(issuer, name), body, from, to, withdrawn: None })
}

/// The 32-bit number at a position counted in numbers, lowest byte first.
pub fn word(bytes: &[u8], position: usize) -> u32 {
    (0..4).map(|i| (bytes[4 * position + i] as u32) << (8 * i)).sum()
}
