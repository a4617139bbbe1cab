//! Reads random texts under many types by both crates, and compares values, faults, their places, and texts written.
//! `compare SEED TEXTS [EXAMPLES]`: so many texts, and how many examples of each kind of difference are shown.

use panelhemp_yaml_compare::random::Random;
use panelhemp_yaml_compare::{each_type, seen::Seen, texts, types, values};
use serde::de::DeserializeOwned;
use serde::{Deserialize, Serialize};
use std::collections::BTreeMap;
use std::fmt::Debug;
use std::panic::{catch_unwind, AssertUnwindSafe};

// A reading: the value as debug text, or the fault and its place.
type Read = Result<String, (String, Option<(usize, usize, usize)>)>;

#[derive(Default)]
struct Tally {
    // by type: same value, same fault, refused otherwise, different
    counts: BTreeMap<&'static str, [u64; 4]>,
    written: u64,
    // kinds of differences: how many, and examples
    kinds: BTreeMap<String, (u64, Vec<String>)>,
    examples: usize,
}

impl Tally {
    fn kind(&mut self, kind: String, example: impl FnOnce() -> String) {
        let entry = self.kinds.entry(kind).or_default();
        entry.0 += 1;
        if entry.1.len() < self.examples {
            entry.1.push(example());
        }
    }

    fn add(&mut self, name: &'static str, text: &[u8], ours: Read, theirs: Option<Read>) {
        let counts = self.counts.entry(name).or_default();
        let Some(theirs) = theirs else {
            return self.kind("the original panics".to_owned(), || shown(name, text, &ours, &ours));
        };
        let kind = match (&ours, &theirs) {
            (Ok(a), Ok(b)) if a == b => {
                counts[0] += 1;
                return;
            }
            (Err(a), Err(b)) if a == b => {
                counts[1] += 1;
                return;
            }
            (Err(a), Err(b)) if a.0 == b.0 => {
                counts[2] += 1;
                format!("place: {} {:?} {:?}", plain(&a.0), a.1.is_some(), b.1.is_some())
            }
            (Err(a), Err(b)) => {
                counts[2] += 1;
                format!("fault: {} | {}", plain(&a.0), plain(&b.0))
            }
            (Ok(_), Ok(_)) => {
                counts[3] += 1;
                "value".to_owned()
            }
            (Ok(_), Err(b)) => {
                counts[3] += 1;
                format!("only ours reads: {}", plain(&b.0))
            }
            (Err(a), Ok(_)) => {
                counts[3] += 1;
                format!("only the original reads: {}", plain(&a.0))
            }
        };
        let known = known(text, &ours, &theirs).or_else(|| repeats_an_anchor(text));
        let kind = known.map_or(kind, |known| format!("KNOWN {known}"));
        self.kind(kind, || shown(name, text, &ours, &theirs));
    }
}

// The differences that docs/DIFFERENCES.md lists, as far as they can be told by looking at a reading.
fn known(text: &[u8], ours: &Read, theirs: &Read) -> Option<&'static str> {
    let Ok(text) = std::str::from_utf8(text) else {
        return Some("bytes that are no UTF-8 are told before all else");
    };
    if text.contains('\u{feff}') {
        return Some("U+FEFF takes no column at the head, and is stepped over at the head of a line");
    }
    let is_ascii = text.is_ascii();
    match (ours, theirs) {
        (Ok(a), Ok(b)) if known_text(a, b).is_some() => known_text(a, b),
        (Ok(_), Ok(b)) if b.starts_with("expected ") => Some("the start of a mapping of one pair is never lost"),
        (Ok(a), Ok(b)) if !is_ascii && a.replace("Borrowed(", "Str(") == b.replace("Borrowed(", "Str(") => {
            Some("texts behind a character past ASCII are lent too")
        }
        (_, Err(b)) if !is_ascii && b.0.contains("expected a borrowed string") => {
            Some("texts behind a character past ASCII are lent too")
        }
        (Err(a), Err(b)) => {
            let place = |place: Option<(usize, usize, usize)>| place.map(|(line, column, _)| (line, column));
            let is_same_place = if is_ascii { a.1 == b.1 } else { place(a.1) == place(b.1) };
            if !is_same_place {
                return None;
            }
            if a.0 == b.0 {
                return Some("the index counts bytes, not characters");
            }
            (a.0 == b.0.replace("hexdecimal", "hexadecimal")).then_some("hexadecimal is spelled so")
        }
        _ => None,
    }
}

// The original takes another node for an alias where an anchor's name stands twice.
fn repeats_an_anchor(text: &[u8]) -> Option<&'static str> {
    let text = std::str::from_utf8(text).ok()?;
    let mut names: Vec<&str> =
        text.split('&').skip(1).map(|rest| rest.split([' ', '\n', ',', ']', '}']).next().unwrap_or("")).collect();
    names.sort_unstable();
    let repeats = names.windows(2).any(|pair| pair[0] == pair[1]);
    (repeats && text.contains('*')).then_some("an alias reads the last node of its anchor, where names repeat")
}

// The same of a text that was written.
fn known_text(ours: &str, theirs: &str) -> Option<&'static str> {
    if theirs.contains("\\U000") {
        return Some("a character past U+FFFF stands as it is");
    }
    if theirs.contains(['\u{2028}', '\u{2029}']) {
        return Some("U+2028 and U+2029 are escaped");
    }
    let is_past_range = |word: &str| word.parse::<f64>().map_or(false, |float| !float.is_finite());
    let is_quoted =
        |(a, b): (&str, &str)| a == b || a.replace('\'', "") == b.replace('\'', "") && a.split('\'').any(is_past_range);
    if ours.lines().count() == theirs.lines().count() && ours.lines().zip(theirs.lines()).all(is_quoted) {
        return Some("float text beyond the range is quoted");
    }
    None
}

fn shown(name: &str, text: &[u8], ours: &Read, theirs: &Read) -> String {
    format!("{name} {:?}\n      ours     {ours:?}\n      original {theirs:?}", String::from_utf8_lossy(text))
}

// A message without its names, numbers and places.
fn plain(message: &str) -> String {
    let message = message.rsplit_once(": invalid").map_or(message.to_owned(), |(_, rest)| format!("invalid{rest}"));
    let mut out = String::new();
    let mut quote = None;
    for c in message.chars() {
        match (quote, c) {
            (Some(q), c) if q == c => quote = None,
            (Some(_), _) => {}
            (None, '`' | '"') => {
                quote = Some(c);
                out.push('_');
            }
            (None, c) if c.is_ascii_digit() => {
                if !out.ends_with('0') {
                    out.push('0');
                }
            }
            (None, c) => out.push(c),
        }
    }
    out
}

fn quietly<T>(f: impl FnOnce() -> T) -> Option<T> {
    catch_unwind(AssertUnwindSafe(f)).ok()
}

macro_rules! side {
    ($read:ident, $crate_name:ident) => {
        fn $read<T: Debug>(value: $crate_name::Result<T>) -> (Read, Option<T>) {
            match value {
                Ok(value) => (Ok(format!("{value:?}")), Some(value)),
                Err(fault) => {
                    let place = fault.location().map(|l| (l.line(), l.column(), l.index()));
                    (Err((fault.to_string(), place)), None)
                }
            }
        }
    };
}
side!(ours_of, panelhemp_yaml);
side!(theirs_of, serde_yaml);

fn write<T: Serialize>(tally: &mut Tally, name: &'static str, value: &T, pool: &mut Vec<String>, random: &mut Random) {
    let ours = panelhemp_yaml::to_string(value).map_err(|fault| fault.to_string());
    let theirs = quietly(|| serde_yaml::to_string(value).map_err(|fault| fault.to_string()));
    tally.written += 1;
    if Some(&ours) != theirs.as_ref() {
        let kind = match (&ours, &theirs) {
            (Ok(ours), Some(Ok(theirs))) => known_text(ours, theirs).map(|known| format!("KNOWN written: {known}")),
            _ => None,
        };
        let kind = kind.unwrap_or_else(|| format!("written {name}"));
        tally.kind(kind, || format!("{name}\n      ours     {ours:?}\n      original {theirs:?}"));
    }
    if let (Ok(text), 0) = (ours, random.below(50)) {
        let at = random.below(400);
        match pool.get_mut(texts::SEEDS.len() + at) {
            _ if text.len() > 2000 => {}
            Some(place) => *place = text,
            None => pool.push(text),
        }
    }
}

fn read<T>(tally: &mut Tally, name: &'static str, text: &[u8], pool: &mut Vec<String>, random: &mut Random)
where
    T: DeserializeOwned + Serialize + Debug,
{
    let (ours, theirs) = match (random.below(16), std::str::from_utf8(text)) {
        (0, _) => (
            ours_of(panelhemp_yaml::from_reader::<_, T>(text)),
            quietly(|| theirs_of(serde_yaml::from_reader::<_, T>(text))),
        ),
        (2.., Ok(text)) => {
            (ours_of(panelhemp_yaml::from_str::<T>(text)), quietly(|| theirs_of(serde_yaml::from_str::<T>(text))))
        }
        _ => (ours_of(panelhemp_yaml::from_slice::<T>(text)), quietly(|| theirs_of(serde_yaml::from_slice::<T>(text)))),
    };
    if let (Some(value), Some((_, Some(_)))) = (&ours.1, &theirs) {
        write(tally, name, value, pool, random);
    }
    tally.add(name, text, ours.0, theirs.map(|theirs| theirs.0));
}

fn lent(tally: &mut Tally, text: &str) {
    let ours = ours_of(panelhemp_yaml::from_str::<types::Lent>(text)).0;
    let theirs = quietly(|| theirs_of(serde_yaml::from_str::<types::Lent>(text)).0);
    tally.add("lent", text.as_bytes(), ours, theirs);
}

// Documents in turn, until the first that is refused.
macro_rules! documents {
    ($crate_name:ident, $of:ident, $text:expr) => {{
        let mut all = Vec::new();
        for document in $crate_name::Deserializer::from_slice($text).take(9) {
            let (read, _) = $of(Seen::deserialize(document));
            let is_refused = read.is_err();
            all.push(read);
            if is_refused {
                break;
            }
        }
        all
    }};
}

fn documents(tally: &mut Tally, text: &[u8]) {
    let ours = documents!(panelhemp_yaml, ours_of, text);
    let theirs = quietly(|| documents!(serde_yaml, theirs_of, text)).unwrap_or_default();
    for n in 0..ours.len().max(theirs.len()) {
        let missing = || Err(("no document".to_owned(), None));
        let one = |all: &[Read]| all.get(n).cloned().unwrap_or_else(missing);
        tally.add("documents", text, one(&ours), Some(one(&theirs)));
    }
}

// Values of the two crates' own type: whether they are read, and how they are written.
fn crates_values(tally: &mut Tally, text: &[u8]) {
    let ours = panelhemp_yaml::from_slice::<panelhemp_yaml::Value>(text);
    let Some(theirs) = quietly(|| serde_yaml::from_slice::<serde_yaml::Value>(text)) else { return };
    let place = |fault: &panelhemp_yaml::Error| fault.location().map(|l| (l.line(), l.column(), l.index()));
    let a = match &ours {
        Ok(value) => Ok(panelhemp_yaml::to_string(value).unwrap_or_else(|fault| fault.to_string())),
        Err(fault) => Err((fault.to_string(), place(fault))),
    };
    let place = |fault: &serde_yaml::Error| fault.location().map(|l| (l.line(), l.column(), l.index()));
    let b = match &theirs {
        Ok(value) => {
            let Some(text) = quietly(|| serde_yaml::to_string(value)) else { return };
            Ok(text.unwrap_or_else(|fault| fault.to_string()))
        }
        Err(fault) => Err((fault.to_string(), place(fault))),
    };
    tally.add("value", text, a, Some(b));
}

// A random value: how it is written, and whether it reads back.
fn made(tally: &mut Tally, random: &mut Random) {
    let value = values::value(random, 4);
    write(tally, "made", &value, &mut Vec::new(), random);
    let text = panelhemp_yaml::to_string(&value).expect("it has neither bytes nor variants");
    let back = panelhemp_yaml::from_str::<Seen>(&text).map(values::read_back);
    let value = values::read_back(value);
    if back.as_ref().ok() != Some(&value) {
        tally.kind("does not read back".to_owned(), || format!("{value:?}\n      {text:?}\n      {back:?}"));
    }
}

fn main() {
    std::panic::set_hook(Box::new(|_| {}));
    let number =
        |n: usize, default: u64| std::env::args().nth(n).map_or(default, |word| word.parse().expect("a number"));
    let (seed, count) = (number(1, 1), number(2, 1000));
    let mut random = Random::of(seed);
    let mut tally = Tally { examples: number(3, 1) as usize, ..Tally::default() };
    let mut pool: Vec<String> = texts::SEEDS.iter().map(|text| (*text).to_owned()).collect();
    for round in 0..count {
        let text = match texts::SEEDS.get(round as usize) {
            Some(text) => text.as_bytes().to_vec(),
            None => texts::text(&mut random, &pool),
        };
        macro_rules! all {
            ($($name:literal $kind:ty),*) => {$(
                read::<$kind>(&mut tally, $name, &text, &mut pool, &mut random);
            )*};
        }
        each_type!(all);
        if let Ok(text) = std::str::from_utf8(&text) {
            lent(&mut tally, text);
        }
        documents(&mut tally, &text);
        crates_values(&mut tally, &text);
        made(&mut tally, &mut random);
    }
    let mut sums = [0; 4];
    println!("type: same value, same fault, refused otherwise, one reads or values differ");
    for (name, counts) in &tally.counts {
        println!("{name}: {counts:?}");
        for n in 0..4 {
            sums[n] += counts[n];
        }
    }
    println!("all: {sums:?} of {} readings; {} texts written", sums.iter().sum::<u64>(), tally.written);
    let mut kinds: Vec<_> = tally.kinds.iter().collect();
    kinds.sort_by_key(|kind| std::cmp::Reverse(kind.1 .0));
    for (kind, (count, examples)) in kinds {
        println!("{count}: {kind}");
        for example in examples {
            println!("    {example}");
        }
    }
}
