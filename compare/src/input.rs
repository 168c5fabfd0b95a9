//! One input of one call, and its text form, by which it can be repeated.

use crate::calls::Call;
use crate::reference::checking::Step;
use crate::reference::known::Question;
use crate::reference::withdrawals::NONE;
use std::fmt;

/// The bytes of a file and of a withdrawal list.
#[derive(Clone, Copy, Debug)]
pub struct Source<'a> {
    pub file: &'a [u8],
    pub withdrawals: &'a [u8],
}

/// A file alone is given with the list of count 0.
impl<'a> From<&'a [u8]> for Source<'a> {
    fn from(file: &'a [u8]) -> Source<'a> {
        Source { file, withdrawals: NONE }
    }
}

impl<'a> From<&'a Vec<u8>> for Source<'a> {
    fn from(file: &'a Vec<u8>) -> Source<'a> {
        file.as_slice().into()
    }
}

/// `fill` decides the garbage in the lists, the guard bytes and where the slices lie.
#[derive(Clone, Debug)]
pub struct Complete<'a> {
    pub source: Source<'a>,
    pub lengths: [usize; 3],
    pub fill: u64,
}

#[derive(Clone, Debug)]
pub struct Query<'a> {
    pub source: Source<'a>,
    pub question: Question,
    pub lengths: [usize; 4],
    pub fill: u64,
}

/// The lists may be longer than the bytes given for them; what follows these is garbage, or unreadable if `hidden`.
#[derive(Clone, Debug)]
pub struct Check<'a> {
    pub source: Source<'a>,
    pub question: Question,
    pub lists: [Vec<u8>; 4],
    pub lengths: [usize; 4],
    pub count: u64,
    pub hidden: bool,
    pub fill: u64,
}

#[derive(Clone, Debug)]
pub struct Ends<'a> {
    pub source: Source<'a>,
    pub length: usize,
    pub fill: u64,
}

#[derive(Clone, Debug)]
pub struct Intervals<'a> {
    pub source: Source<'a>,
    pub spans: u64,
    pub length: usize,
    pub fill: u64,
}

/// The file is an old one.
#[derive(Clone, Debug)]
pub struct Forward<'a> {
    pub file: &'a [u8],
    pub length: usize,
    pub fill: u64,
}

#[derive(Clone, Debug)]
pub struct Back<'a> {
    pub file: &'a [u8],
    pub length: usize,
    pub fill: u64,
}

#[derive(Clone, Debug)]
pub enum Input<'a> {
    Complete(Complete<'a>),
    Query(Query<'a>),
    Check(Check<'a>),
    Ends(Ends<'a>),
    Intervals(Intervals<'a>),
    Forward(Forward<'a>),
    Back(Back<'a>),
}

impl Input<'_> {
    pub fn call(&self) -> Call {
        match self {
            Input::Complete(_) => Call::Complete,
            Input::Query(_) => Call::Query,
            Input::Check(_) => Call::Check,
            Input::Ends(_) => Call::Ends,
            Input::Intervals(_) => Call::Intervals,
            Input::Forward(_) => Call::Forward,
            Input::Back(_) => Call::Back,
        }
    }

    /// Bringing forward and back take no withdrawal list; the list of count 0 stands for it.
    pub fn source(&self) -> Source<'_> {
        match self {
            Input::Complete(i) => i.source,
            Input::Query(i) => i.source,
            Input::Check(i) => i.source,
            Input::Ends(i) => i.source,
            Input::Intervals(i) => i.source,
            Input::Forward(i) => i.file.into(),
            Input::Back(i) => i.file.into(),
        }
    }
}

/// The four lists' bytes of some steps.
pub fn words(steps: &[Step]) -> [Vec<u8>; 4] {
    let list = |word: fn(&Step) -> u32| steps.iter().flat_map(|step| word(step).to_le_bytes()).collect();
    [list(|s| s.credential), list(|s| s.first), list(|s| s.second), list(|s| s.set)]
}

pub fn hex(bytes: &[u8]) -> String {
    bytes.iter().map(|byte| format!("{byte:02x}")).collect()
}

fn list(lengths: &[usize]) -> String {
    lengths.iter().map(usize::to_string).collect::<Vec<_>>().join(",")
}

impl fmt::Display for Source<'_> {
    fn fmt(&self, f: &mut fmt::Formatter) -> fmt::Result {
        write!(f, "file={} withdrawals={}", hex(self.file), hex(self.withdrawals))
    }
}

impl fmt::Display for Input<'_> {
    fn fmt(&self, f: &mut fmt::Formatter) -> fmt::Result {
        let question = |q: &Question| format!("role={} set={} minute={}", q.role, q.set, q.minute);
        match self {
            Input::Complete(i) => write!(f, "complete {} lengths={} fill={}", i.source, list(&i.lengths), i.fill),
            Input::Query(i) => write!(f, "query {} {} lengths={} fill={}", i.source, question(&i.question), list(&i.lengths), i.fill),
            Input::Check(i) => {
                write!(f, "check {} {} lengths={}", i.source, question(&i.question), list(&i.lengths))?;
                let lists = i.lists.iter().map(|bytes| hex(bytes)).collect::<Vec<_>>().join(",");
                write!(f, " lists={lists} count={} hidden={} fill={}", i.count, i.hidden, i.fill)
            }
            Input::Ends(i) => write!(f, "ends {} lengths={} fill={}", i.source, i.length, i.fill),
            Input::Intervals(i) => write!(f, "intervals {} spans={} lengths={} fill={}", i.source, i.spans, i.length, i.fill),
            Input::Forward(i) => write!(f, "forward file={} lengths={} fill={}", hex(i.file), i.length, i.fill),
            Input::Back(i) => write!(f, "back file={} lengths={} fill={}", hex(i.file), i.length, i.fill),
        }
    }
}

fn bytes(text: &str) -> Option<Vec<u8>> {
    (0..text.len()).step_by(2).map(|at| u8::from_str_radix(text.get(at..at + 2)?, 16).ok()).collect()
}

fn numbers<const N: usize>(text: &str) -> Option<[usize; N]> {
    text.split(',').map(|n| n.parse().ok()).collect::<Option<Vec<_>>>()?.try_into().ok()
}

/// An input as its words; the bytes of the file and of the withdrawal list apart, since an input borrows them.
pub struct Words<'a>(pub &'a [String]);

impl Words<'_> {
    fn value(&self, name: &str) -> Option<&str> {
        self.0.iter().find_map(|word| word.strip_prefix(name)?.strip_prefix('='))
    }

    pub fn file(&self) -> Option<Vec<u8>> {
        bytes(self.value("file")?)
    }

    /// Of count 0 where none is named.
    pub fn withdrawals(&self) -> Option<Vec<u8>> {
        self.value("withdrawals").map_or(Some(NONE.to_vec()), bytes)
    }

    pub fn input<'f>(&self, source: Source<'f>) -> Option<Input<'f>> {
        let number = |name| self.value(name)?.parse().ok();
        let question = || Some(Question { role: number("role")?, set: number("set")?, minute: number("minute")? });
        let fill = self.value("fill")?.parse().ok()?;
        let lengths = self.value("lengths")?;
        let file = source.file;
        Some(match self.0.first()?.as_str() {
            "complete" => Input::Complete(Complete { source, lengths: numbers(lengths)?, fill }),
            "query" => Input::Query(Query { source, question: question()?, lengths: numbers(lengths)?, fill }),
            "check" => Input::Check(Check {
                source,
                question: question()?,
                lengths: numbers(lengths)?,
                lists: self.value("lists")?.split(',').map(bytes).collect::<Option<Vec<_>>>()?.try_into().ok()?,
                count: self.value("count")?.parse().ok()?,
                hidden: self.value("hidden")?.parse().ok()?,
                fill,
            }),
            "ends" => Input::Ends(Ends { source, length: lengths.parse().ok()?, fill }),
            "intervals" => Input::Intervals(Intervals { source, spans: self.value("spans")?.parse().ok()?, length: lengths.parse().ok()?, fill }),
            "forward" => Input::Forward(Forward { file, length: lengths.parse().ok()?, fill }),
            "back" => Input::Back(Back { file, length: lengths.parse().ok()?, fill }),
            _ => return None,
        })
    }
}
