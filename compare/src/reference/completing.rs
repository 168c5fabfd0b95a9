//! Document 01, "Completing the table": each span's memberships at its first minute, put together.

use super::meaning::{members, Members};
use super::reading::File;
use super::{Membership, Rules, MOST};
use std::collections::BTreeMap;

/// Memberships ascending by role, then by set, each with its spans.
pub type Table = BTreeMap<Membership, u64>;

/// The table, or none if it has more than 1,024 memberships.
pub fn table(rules: &Rules, file: &File) -> Option<Table> {
    let ends = &file.ends;
    let mut table = Table::new();
    for span in 0..ends.len().saturating_sub(1) {
        match members(rules, file, ends[span]) {
            Members::TooMany => return None,
            Members::Levels(levels) => {
                for &membership in levels.keys() {
                    *table.entry(membership).or_insert(0) |= 1 << span;
                }
            }
        }
        if table.len() > MOST {
            return None;
        }
    }
    Some(table)
}

/// The bytes of the three lists of length L that hold a table of at most L memberships.
pub fn written(table: &Table, length: usize) -> [Vec<u8>; 3] {
    let mut roles: Vec<u8> = table.keys().flat_map(|&(role, _)| role.to_le_bytes()).collect();
    let mut sets: Vec<u8> = table.keys().flat_map(|&(_, set)| set.to_le_bytes()).collect();
    let mut spans: Vec<u8> = table.values().flat_map(|&spans| spans.to_le_bytes()).collect();
    roles.resize(4 * length, 0);
    sets.resize(4 * length, 0);
    spans.resize(8 * length, 0);
    [roles, sets, spans]
}
