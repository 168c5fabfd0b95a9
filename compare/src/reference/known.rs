//! The calls on one file with its withdrawal list: document 01's table of refusals from top to bottom, then the answer.
//! A minute's memberships and the table are computed once for a file with its list and kept.

use super::checking::{check, Step};
use super::completing::{table, written, Table};
use super::ends::{intervals, listed, whole_list};
use super::meaning::{members, Members};
use super::reading::{ends, word, Credential, File};
use super::withdrawals::NONE;
use super::{refuse, Membership, Refusal, Rules, MOST};
use std::cell::{OnceCell, RefCell};
use std::collections::{BTreeMap, BTreeSet};
use std::rc::Rc;

pub struct Known {
    pub rules: Rules,
    pub read: Result<File, Refusal>,
    effect: OnceCell<Effect>,
    minutes: RefCell<BTreeMap<u32, Rc<Members>>>,
    table: OnceCell<Option<Table>>,
}

/// What a withdrawal list does to a file.
#[derive(Clone, Copy, PartialEq, Eq, Debug)]
pub enum Effect {
    None,
    Nothing,
    Cuts,
    Empties,
    EmptiesAll,
    Fewer,
    TooMany,
    Refused,
    Unread,
}

impl Effect {
    pub const ALL: [(Effect, &'static str); 9] = [
        (Effect::None, "count 0"),
        (Effect::Nothing, "change no period"),
        (Effect::Cuts, "cut"),
        (Effect::Empties, "empty some out"),
        (Effect::EmptiesAll, "empty all out"),
        (Effect::Fewer, "leave 64 ends or fewer of more"),
        (Effect::TooMany, "leave over 64 ends"),
        (Effect::Refused, "refused"),
        (Effect::Unread, "with a refused file"),
    ];
}

/// A question of querying and checking.
#[derive(Clone, Copy, PartialEq, Eq, Debug)]
pub struct Question {
    pub role: u32,
    pub set: u32,
    pub minute: u32,
}

impl Question {
    pub fn membership(self) -> Membership {
        (self.role, self.set)
    }
}

/// What becomes of the lent lists.
#[derive(Clone, PartialEq, Eq, Debug)]
pub enum After<T> {
    Unchanged,
    Zero,
    Holds(T),
}

/// The length of the lent lists in entries, or 9. Lengths and widths are in bytes.
pub fn entries(lengths: &[usize], widths: &[usize]) -> Result<usize, Refusal> {
    let length = lengths[0] / widths[0];
    let right = lengths.iter().zip(widths).all(|(&bytes, &width)| bytes == width * length);
    if !right || length < 1 || length > MOST {
        return refuse(9);
    }
    Ok(length)
}

/// The first steps of four lists.
pub fn steps(lists: &[&[u8]; 4], count: usize) -> Vec<Step> {
    let step = |i| {
        let [credential, first, second, set] = lists.map(|list| word(list, i));
        Step { credential, first, second, set }
    };
    (0..count).map(step).collect()
}

/// Of an accepted file with a list that is not of count 0.
fn effect(rules: &Rules, file: &File) -> Effect {
    let uncut = |c: &Credential| [c.from, (rules.end)(c.to)];
    let emptied = file.credentials.iter().filter(|c| ends(rules, c).is_empty()).count();
    if file.credentials.iter().flat_map(uncut).collect::<BTreeSet<u32>>().len() > rules.most_ends {
        Effect::Fewer
    } else if emptied == file.credentials.len() {
        Effect::EmptiesAll
    } else if emptied > 0 {
        Effect::Empties
    } else if file.credentials.iter().any(|c| ends(rules, c) != uncut(c)) {
        Effect::Cuts
    } else {
        Effect::Nothing
    }
}

impl Known {
    pub fn new(rules: Rules, bytes: &[u8], list: &[u8]) -> Known {
        let read = (rules.reads_withdrawn)(&rules, bytes, list);
        let effect = if list == NONE { Effect::None.into() } else { OnceCell::new() };
        Known { rules, read, effect, minutes: Default::default(), table: OnceCell::new() }
    }

    /// What the list does.
    pub fn effect(&self) -> Effect {
        *self.effect.get_or_init(|| match &self.read {
            Ok(file) => effect(&self.rules, file),
            Err(Refusal { number: 8, .. }) => Effect::TooMany,
            Err(Refusal { number: 20 | 21, .. }) => Effect::Refused,
            Err(_) => Effect::Unread,
        })
    }

    pub fn table(&self) -> Option<&Table> {
        let file = self.read.as_ref().ok()?;
        self.table.get_or_init(|| table(&self.rules, file)).as_ref()
    }

    /// The memberships of an accepted file at a minute.
    pub fn members(&self, minute: u32) -> Rc<Members> {
        let file = self.read.as_ref().expect("an accepted file");
        let mut minutes = self.minutes.borrow_mut();
        minutes.entry(minute).or_insert_with(|| Rc::new(members(&self.rules, file, minute))).clone()
    }

    /// The reply and the lists after it.
    pub fn complete(&self, lengths: [usize; 3]) -> (u64, After<[Vec<u8>; 3]>) {
        let length = match self.read.as_ref().map_err(|r| *r).and_then(|_| entries(&lengths, &[4, 4, 8])) {
            Ok(length) => length,
            Err(refusal) => return (refusal.reply(), After::Unchanged),
        };
        match self.table() {
            Some(table) if table.len() <= length => (table.len() as u64, After::Holds(written(table, length))),
            _ => (Refusal { number: 10, place: 0 }.reply(), After::Zero),
        }
    }

    /// Count and list, or the refusal, which leaves the list as it was.
    pub fn ends(&self, length: usize) -> Result<(u64, Vec<u8>), Refusal> {
        let ends = &self.read.as_ref().map_err(|r| *r)?.ends;
        whole_list(length)?;
        Ok((ends.len() as u64, listed(ends.iter().copied())))
    }

    /// The same of the intervals of a span number.
    pub fn intervals(&self, spans: u64, length: usize) -> Result<(u64, Vec<u8>), Refusal> {
        let ends = &self.read.as_ref().map_err(|r| *r)?.ends;
        whole_list(length)?;
        let intervals = intervals(ends, spans)?;
        Ok((intervals.len() as u64, listed(intervals.into_iter().flat_map(|(from, to)| [from, to]))))
    }

    fn question(&self, q: Question, lengths: [usize; 4]) -> Result<(&File, usize), Refusal> {
        let file = self.read.as_ref().map_err(|r| *r)?;
        let length = entries(&lengths, &[4; 4])?;
        let beyond = (0..32).any(|entity| entity >= file.entities && q.set >> entity & 1 == 1);
        if q.role / 32 >= file.entities || q.role % 32 >= file.names || q.set == 0 || beyond {
            return refuse(11);
        }
        if q.minute == 4_294_967_295 {
            return refuse(12);
        }
        Ok((file, length))
    }

    /// The refusal with the lists after it, or the least level of a proof.
    pub fn query(&self, q: Question, lengths: [usize; 4]) -> Result<usize, (Refusal, After<()>)> {
        let (_, length) = self.question(q, lengths).map_err(|refusal| (refusal, After::Unchanged))?;
        let search = |number| Err((Refusal { number, place: 0 }, After::Zero));
        match &*self.members(q.minute) {
            Members::Levels(levels) if levels.len() <= length => match levels.get(&q.membership()) {
                Some(&level) => Ok(level),
                None => search(13),
            },
            _ => search(10),
        }
    }

    /// The reply. `lists` gives the first entries of the four lists, as many as it is asked for.
    pub fn check(&self, q: Question, lengths: [usize; 4], count: u64, lists: impl Fn(usize) -> Vec<Step>) -> u64 {
        let checked = || {
            let (file, length) = self.question(q, lengths)?;
            if count < 1 || count > length as u64 {
                return refuse(14);
            }
            check(&self.rules, file, q.membership(), q.minute, &lists(count as usize))
        };
        checked().map_or_else(|refusal| refusal.reply(), |level| level as u64)
    }
}
