//! Document 02, request Four: a withdrawal list, and the file that five of the calls read with it. A credential keeps its period
//! as the file has it, and beside it the minute from which it is withdrawn.

use super::reading::{with_ends, word, File};
use super::{refuse, Refusal, Rules};

#[derive(Clone, Copy, PartialEq, Eq, Debug)]
pub struct Withdrawal {
    pub serial: u32,
    pub minute: u32,
}

/// The list of count 0.
pub const NONE: &[u8] = &[0, 0];

/// The file with what the list withdraws: the refusals of the credentials, then 20, 21 and 8.
pub fn read_withdrawn(rules: &Rules, bytes: &[u8], list: &[u8]) -> Result<File, Refusal> {
    let mut file = (rules.reads)(rules, bytes)?;
    let list = (rules.lists)(list)?;
    if (rules.misnames)(&file, &list) {
        return refuse(21);
    }
    (rules.withdraws)(&mut file, &list);
    with_ends(rules, file)
}

/// The withdrawals that the bytes are: a count of two bytes, so many serials, as many minutes; or 20.
pub fn withdrawals(bytes: &[u8]) -> Result<Vec<Withdrawal>, Refusal> {
    let &[low, high, ref rest @ ..] = bytes else { return refuse(20) };
    let count = low as usize + 256 * high as usize;
    if count > 256 || rest.len() != 8 * count {
        return refuse(20);
    }
    let (serials, minutes) = rest.split_at(4 * count);
    Ok((0..count).map(|i| Withdrawal { serial: word(serials, i), minute: word(minutes, i) }).collect())
}

/// Whether 21 refuses the list: a serial twice in it, or on no credential.
pub fn misnames(file: &File, list: &[Withdrawal]) -> bool {
    let named = |serial: u32| list.iter().filter(|withdrawal| withdrawal.serial == serial).count();
    let known = |serial: u32| file.credentials.iter().any(|credential| credential.serial == serial);
    list.iter().any(|withdrawal| named(withdrawal.serial) > 1 || !known(withdrawal.serial))
}

/// Each credential whose serial is in the list is withdrawn from the minute that stands there for it.
pub fn withdraw(file: &mut File, list: &[Withdrawal]) {
    for credential in &mut file.credentials {
        credential.withdrawn = list.iter().find(|withdrawal| withdrawal.serial == credential.serial).map(|withdrawal| withdrawal.minute);
    }
}
