//! Holds the library's C interface against a second implementation. See README.md.

mod calls;
mod carried;
mod cases;
mod damage;
mod explore;
mod extremes;
mod files;
mod input;
mod judge;
mod kinds;
mod lent;
mod proofs;
mod random;
mod reference;
mod serials;
mod watch;
mod withdrawals;
mod withdrawn_cases;
mod wrong;

use calls::{Call, Calls, Library, Second};
use input::Source;
use judge::{known, Compared, Comparison, Counts, Failure};
use kinds::{Kind, KINDS};
use random::Random;
use reference::known::Effect;
use reference::RIGHT;
use std::process::exit;
use std::time::Instant;

const USAGE: &str = "\
compare [--seed N] [--percent N] [--only KIND,KIND..] [--count KIND=N].. [--partial | --second | --wrong VARIANT]
compare --self-test [--seed N] [--percent N]
compare [--partial | --second | --wrong VARIANT] --replay INPUT
compare --list

Holds the library against the second implementation; with --second the second implementation against itself, with
--wrong a wrong variant of it. All calls must be in the library, unless --partial is given. --percent multiplies
all counts. --self-test tries every wrong variant. --replay takes an input as a failure prints it. --list names kinds
and variants.";

struct Options {
    seed: u64,
    percent: usize,
    only: Vec<String>,
    counts: Vec<(String, usize)>,
    subject: Box<dyn Calls>,
    /// Whether entries past the step count may be made unreadable.
    hides: bool,
    library: bool,
    /// Whether a library without some of the calls will do.
    partial: bool,
}

impl Options {
    fn new() -> Options {
        let (only, counts) = (Vec::new(), Vec::new());
        Options { seed: 1, percent: 100, only, counts, subject: Box::new(Library), hides: true, library: true, partial: false }
    }

    fn count(&self, kind: &Kind) -> usize {
        let told = self.counts.iter().rev().find(|(name, _)| name == kind.name).map(|&(_, count)| count);
        let count = told.unwrap_or_else(|| (kind.count * self.percent).div_ceil(100));
        if kind.exhaustive {
            count.min(1000)
        } else {
            count
        }
    }

    fn whole(&self) -> bool {
        self.only.is_empty() && self.counts.is_empty() && self.percent >= 100
    }
}

fn usage(what: &str) -> ! {
    eprintln!("{what}\n{USAGE}");
    exit(2)
}

fn main() {
    let arguments: Vec<String> = std::env::args().skip(1).collect();
    let mut options = Options::new();
    let mut self_test = false;
    let mut words = arguments.iter();
    while let Some(word) = words.next() {
        let mut value = || words.next().cloned().unwrap_or_else(|| usage(&format!("{word} needs a value")));
        match word.as_str() {
            "--seed" => options.seed = parsed(&value()),
            "--percent" => options.percent = parsed(&value()),
            "--only" => options.only = value().split(',').map(kind_name).collect(),
            "--count" => {
                let value = value();
                let Some((kind, count)) = value.split_once('=') else { usage("--count needs KIND=N") };
                options.counts.push((kind_name(kind), parsed(count)));
            }
            "--partial" => options.partial = true,
            "--second" => (options.subject, options.library) = (Box::new(Second { rules: RIGHT }), false),
            "--wrong" => {
                (options.subject, options.library, options.hides) = (Box::new(variant(&value())), false, false);
            }
            "--self-test" => self_test = true,
            "--replay" => return replay(&options, words.as_slice()),
            "--list" => return list(),
            _ => usage(&format!("unknown argument {word}")),
        }
    }
    watch::start();
    if self_test {
        return run_self_test(&options);
    }
    run(&options)
}

fn parsed<T: std::str::FromStr>(text: &str) -> T {
    text.parse().unwrap_or_else(|_| usage(&format!("not a number: {text}")))
}

fn kind_name(name: &str) -> String {
    match KINDS.iter().any(|kind| kind.name == name) {
        true => name.into(),
        false => usage(&format!("unknown kind {name}")),
    }
}

fn variant(name: &str) -> wrong::Wrong {
    wrong::all().into_iter().find(|wrong| wrong.name == name).unwrap_or_else(|| usage(&format!("unknown variant {name}")))
}

fn list() {
    KINDS.iter().for_each(|kind| println!("kind     {:26} {}", kind.name, kind.what));
    wrong::all().iter().for_each(|wrong| println!("variant  {:26} {}", wrong.name, wrong.what));
}

/// Which calls the library lacks.
fn announce(options: &Options) {
    if !options.library {
        return;
    }
    let lacking: Vec<Call> = Call::ALL.into_iter().filter(|&call| !Library.has(call)).collect();
    for call in &lacking {
        println!("{} is not in the library: not compared", call.name());
    }
    if lacking.len() == Call::ALL.len() || !lacking.is_empty() && !options.partial {
        eprintln!("no library with all calls: build it, or name the archive in RTT_LIBRARY and build again");
        exit(2);
    }
}

fn replay(options: &Options, words: &[String]) {
    announce(options);
    let words = input::Words(words);
    let (Some(file), Some(withdrawals)) = (words.file(), words.withdrawals()) else { usage("no input") };
    let source = Source { file: &file, withdrawals: &withdrawals };
    let Some(input) = words.input(source) else { usage("not an input") };
    watch::start();
    let mut comparison = Comparison::new(&*options.subject, options.hides);
    comparison.kind = "replay";
    match comparison.input(&known(source), input) {
        Ok(()) => println!("no difference"),
        Err(Failure(what)) => {
            println!("FAILED: {what}");
            exit(1)
        }
    }
}

/// The inputs of one kind; they depend on the seed and the kind only.
fn compare(c: &mut Comparison, options: &Options, kind: &Kind) -> Compared<()> {
    let mut random = Random(options.seed);
    kind.name.bytes().for_each(|byte| random = Random(random.next() ^ byte as u64));
    c.kind = kind.name;
    (kind.run)(c, &mut random, options.count(kind))
}

fn run(options: &Options) {
    announce(options);
    let mut comparison = Comparison::new(&*options.subject, options.hides);
    let start = Instant::now();
    for kind in KINDS.iter().filter(|kind| options.only.is_empty() || options.only.iter().any(|name| name == kind.name)) {
        let started = Instant::now();
        if let Err(Failure(what)) = compare(&mut comparison, options, kind) {
            println!("FAILED: {what}");
            exit(1);
        }
        let [files, calls @ ..] = comparison.counts.kinds.get(kind.name).copied().unwrap_or_default();
        row(kind.name, files, calls);
        println!(" {:6.1} s", started.elapsed().as_secs_f64());
    }
    summary(&comparison.counts);
    if options.whole() {
        covered(&*options.subject, &comparison.counts);
    }
    println!("no difference, seed {}, {:.1} s", options.seed, start.elapsed().as_secs_f64());
}

fn row(name: &str, files: u64, [completed, queried, checked, ends, intervals, forward, back]: [u64; 7]) {
    print!("{name:11} {files:7} files {completed:7} completed {queried:9} queried {checked:8} checked {ends:7} ends {intervals:7} intervals");
    print!(" {forward:7} forward {back:7} back");
}

fn summary(counts: &Counts) {
    let total = |column: usize| counts.kinds.values().map(|row| row[column]).sum::<u64>();
    row("all", total(0), [1, 2, 3, 4, 5, 6, 7].map(total));
    println!();
    for call in Call::ALL.into_iter().filter(|call| counts.replies.keys().any(|(name, _)| *name == call.name())) {
        let replies = counts.replies.iter().filter(|((name, _), _)| *name == call.name());
        let replies: Vec<String> = replies.map(|((_, number), count)| format!("{number}: {count}")).collect();
        println!("{} replies by refusal number, 0 for success: {}", call.name(), replies.join(", "));
    }
    for call in Call::ALL.into_iter().filter(|&call| counts.effects[call as usize] != [0; Effect::ALL.len()]) {
        let effects = Effect::ALL.map(|(effect, what)| format!("{what}: {}", counts.effects[call as usize][effect as usize]));
        println!("{} withdrawal lists by what they are or do: {}", call.name(), effects.join(", "));
    }
    if counts.longest > 0 {
        println!("longest proof {} steps, greatest least level {}", counts.longest, counts.deepest);
        let [none, some] = counts.reached;
        println!("level equal to the number of memberships at the minute: {none} queries without withdrawals, {some} with some");
    }
}

/// A whole run meets every refusal of every call, gives each that takes one withdrawal lists of every effect, and has levels that reach the number of
/// memberships, with withdrawals and without, or its inputs are not what they should be.
fn covered(subject: &dyn Calls, counts: &Counts) {
    for call in Call::ALL.into_iter().filter(|&call| subject.has(call)) {
        let last: &[u32] = match call {
            Call::Complete => &[17, 20, 21, 9, 10],
            Call::Query => &[17, 20, 21, 9, 10, 11, 12, 13],
            Call::Check => &[17, 20, 21, 9, 11, 12, 14, 15, 16],
            Call::Ends => &[17, 20, 21, 9],
            Call::Intervals => &[17, 20, 21, 9, 11],
            Call::Forward => &[18],
            Call::Back => &[17, 18, 19],
        };
        for number in (0..9).chain(last.iter().copied()) {
            if !counts.replies.contains_key(&(call.name(), number)) {
                println!("FAILED: no input made {} reply with {number}", call.name());
                exit(1);
            }
        }
        if call == Call::Query && counts.reached.contains(&0) {
            println!("FAILED: no input had a level equal to the number of memberships, with withdrawals or without");
            exit(1);
        }
        let takes_list = !matches!(call, Call::Forward | Call::Back);
        for (effect, what) in Effect::ALL.into_iter().filter(|_| takes_list) {
            if counts.effects[call as usize][effect as usize] == 0 {
                println!("FAILED: no input gave {} a withdrawal list: {what}", call.name());
                exit(1);
            }
        }
    }
}

/// Every wrong variant must be told from the right one; the right one must not. What is wrong about withdrawal lists is tried first on the
/// cases and the kinds that are about them, and the rest on the others.
fn run_self_test(options: &Options) {
    let right = Second { rules: RIGHT };
    let mut missed = 0;
    let variants = wrong::all();
    let subjects = variants.iter().map(|wrong| (wrong.name, wrong.what, wrong.withdraws, wrong as &dyn Calls));
    for (name, what, withdraws, subject) in subjects.chain([("", "the second implementation itself", false, &right as &dyn Calls)]) {
        let mut comparison = Comparison::new(subject, false);
        let (first, then): (Vec<&Kind>, Vec<&Kind>) = KINDS.iter().partition(|kind| kind.tried_first(withdraws));
        let mut kinds = first.into_iter().chain(then);
        let caught = kinds.find_map(|kind| compare(&mut comparison, options, kind).err().map(|Failure(what)| (kind.name, what)));
        let calls: u64 = comparison.counts.kinds.values().flat_map(|row| &row[1..]).sum();
        let verdict = match &caught {
            Some((kind, _)) => format!("caught in {kind} after {calls} calls"),
            None => format!("no difference in {calls} calls"),
        };
        println!("{:26} {verdict}: {what}", name);
        if caught.is_none() != name.is_empty() {
            missed += 1;
            caught.iter().for_each(|(_, what)| println!("{what}"));
        }
    }
    match missed {
        0 => println!("{} wrong variants, all caught", variants.len()),
        _ => {
            println!("FAILED: {missed} not as expected");
            exit(1)
        }
    }
}
