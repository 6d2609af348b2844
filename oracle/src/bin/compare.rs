//! Compares this library's calls with the Rust's, through the exported functions.
//!
//!     compare N CHUNK..        each chunk, and N damaged copies of it
//!     compare limits           trees at the limits and beyond them, at both widths
//!     compare exhaustive       all chunks of at most three bytes; at both widths the sample with each byte replaced by each other, and
//!                              strings of all sizes around the end of the data
//!
//! measure, then store with what it answered, which is undump: the refusal or the whole tree with sources filled in, the width, the bytes
//! read (the shortest prefix that the Rust accepts), that space beyond the used part and all space on a refusal is untouched, exact space,
//! one word and one byte too little, none.
//! store with other numbers, under another name, into enough space, exact space and none: src/measured.rs says by what it is refused; it
//! writes nothing. Chunks of at most three bytes get one such call each. With bytes behind it a chunk is measured and stored the same.
//! source_at: the source of every function of a chunk that is not large, and its refusals.
//! Every answer and store is held to src/lundump.rs too, and a chunk of width 4 to that alone. A chunk that is refused by 6 to 9 lies outside
//! the domain of comparison with the Rust. Both are counted apart.

use std::panic::{AssertUnwindSafe, catch_unwind};

use oracle::archive::{self, Undumped};
use oracle::lundump::{self, Loaded, narrow};
use oracle::made::{Function, Store, Text, chunk_of, listed, nested, nils, placed, stored, tree};
use oracle::measured::{Counted, Need, expected_measure, expected_store, others, right};
use oracle::random::Random;
use oracle::stored::MOST;
use oracle::vm::proto::{Proto, ProtoRef};
use oracle::vm::undump::undump;
use oracle::vm::value::Val;

const NAME: &str = "=n";

/// No UTF-8.
const BAD: &[u8] = b"n\xff";

fn ours(chunk: &[u8], words: &mut [u32], text: &mut [u8]) -> Undumped {
    archive::undump(chunk, NAME.as_bytes(), words, text)
}

/// A walk over a store, each string where the one before ended.
struct Walk<'a> {
    words: &'a [u32],
    text: &'a [u8],
    at: usize,
    to: usize,
}

impl<'a> Walk<'a> {
    fn word(&mut self) -> u32 {
        self.at += 1;
        self.words[self.at - 1]
    }

    fn string(&mut self) -> &'a [u8] {
        let (place, len) = (self.word() as usize, self.word() as usize);
        assert_eq!(place, self.to);
        self.to += len;
        &self.text[place..self.to]
    }

    fn list(&mut self, len: usize) {
        assert_eq!(self.word() as usize, len);
    }

    fn constant(&mut self, p: &Proto, i: usize, next: &mut usize) {
        if let Some((at, bytes)) = p.string_pool.get(*next) {
            if *at as usize == i {
                *next += 1;
                assert_eq!(self.word(), 4);
                assert_eq!(self.string(), &bytes[..]);
                return;
            }
        }
        let words = match p.constants[i] {
            Val::Nil => [0, 0, 0],
            Val::Bool(b) => [1, u32::from(b), 0],
            Val::Num(n) => [3, (n.to_bits() >> 32) as u32, n.to_bits() as u32],
            _ => panic!("a constant of another kind"),
        };
        assert_eq!([self.word(), self.word(), self.word()], words);
    }

    /// source_at finds this source for the function at a place, and no function one place on. Each call looks at the whole store.
    fn source(&self, place: usize, source: &[u8]) {
        if self.words.len() > 2000 {
            return;
        }
        let r = archive::source_at(self.words, self.text, NAME.as_bytes(), place);
        assert_eq!(r.refusal, 0);
        let from = if r.in_text == 1 { self.text } else { NAME.as_bytes() };
        assert_eq!(&from[r.start..r.end], source);
        assert_eq!(archive::source_at(self.words, self.text, NAME.as_bytes(), place + 1).refusal, 12);
        assert_eq!(archive::source_at(self.words, self.text, b"\xff", place).refusal, 1);
        assert_eq!(archive::source_at(&self.words[1..], self.text, NAME.as_bytes(), place).refusal, 10);
    }

    /// The function that stands here is p, outer being the source that an inherited one stands for.
    fn function(&mut self, p: &Proto, outer: &str) {
        let place = self.at;
        let source = match self.word() {
            1 => self.string(),
            own => {
                assert_eq!([own, self.word(), self.word()], [0, 0, 0]);
                outer.as_bytes()
            }
        };
        assert_eq!(source, p.source.as_bytes());
        self.source(place, source);
        assert_eq!([self.word(), self.word()], [p.line_defined, p.last_line_defined]);
        assert_eq!(self.word().to_be_bytes(), [p.num_upvalues, p.num_params, p.is_vararg, p.max_stack_size]);
        self.list(p.code.len());
        for &word in &p.code {
            assert_eq!(self.word(), word);
        }
        self.list(p.constants.len());
        let mut next = 0;
        for i in 0..p.constants.len() {
            self.constant(p, i, &mut next);
        }
        self.list(p.protos.len());
        for child in &p.protos {
            self.function(child, &p.source);
        }
        self.list(p.line_info.len());
        for &line in &p.line_info {
            assert_eq!(self.word(), line);
        }
        self.list(p.local_vars.len());
        for v in &p.local_vars {
            assert_eq!(self.string(), v.name.as_bytes());
            assert_eq!([self.word(), self.word()], [v.start_pc, v.end_pc]);
        }
        self.list(p.upvalue_names.len());
        for name in &p.upvalue_names {
            assert_eq!(self.string(), name.as_bytes());
        }
    }
}

/// What src/lundump.rs counts in a chunk, or its refusal.
type Read = Result<Counted, u8>;

#[derive(Default)]
struct Counts {
    chunks: u64,
    outside: u64,
    panics: u64,
    differ: u64,
    refusals: [u64; 10],
    /// Of chunks of width 4 alone.
    narrow: [u64; 10],
    /// Calls of store with other numbers, and how many were refused by 15.
    others: [u64; 2],
    /// Chunks with bytes behind them.
    behind: u64,
}

impl Counts {
    fn refused(&mut self, chunk: &[u8], number: usize) {
        self.refusals[number] += 1;
        self.narrow[number] += u64::from(narrow(chunk));
    }

    /// Whether store with these numbers answers as it must.
    fn store(&mut self, chunk: &[u8], counted: Read, name: &[u8], need: Need, words: &mut [u32], text: &mut [u8]) -> bool {
        let lent = [words.len(), text.len()];
        let r = archive::store(chunk, name, need, words, text);
        self.others[0] += u64::from(need != right(counted));
        self.others[1] += u64::from(r.refusal == 15);
        r.numbers() == expected_store(name, counted, need, lent)
    }
}

/// What no call has written.
const WORD: u32 = 0xA5A5_A5A5;
const BYTE: u8 = 0x5A;

fn clear(words: &mut [u32], text: &mut [u8]) {
    words.fill(WORD);
    text.fill(BYTE);
}

fn untouched(words: &[u32], text: &[u8]) -> bool {
    words.iter().all(|w| *w == WORD) && text.iter().all(|b| *b == BYTE)
}

/// A chunk, and what src/lundump.rs finds in it.
struct Case<'a> {
    chunk: &'a [u8],
    loaded: Result<(Loaded, Store), u8>,
}

impl Case<'_> {
    fn new(chunk: &[u8]) -> Case<'_> {
        let loaded = lundump::undump(chunk, NAME).map(|l| {
            let store = stored(&l, NAME);
            (l, store)
        });
        Case { chunk, loaded }
    }

    fn counted(&self) -> Read {
        self.loaded.as_ref().map(|(l, store)| Counted::of(l, store)).map_err(|n| *n)
    }

    /// Whether these bytes, which have the case's tree, are measured as they must be under a name.
    fn measured(&self, chunk: &[u8], name: &[u8]) -> bool {
        archive::measure(chunk, name).numbers() == expected_measure(name, self.counted())
    }

    /// Whether undump of these bytes, which have the case's tree, answers and leaves what it must in this space.
    fn undumps(&self, chunk: &[u8], words: &mut [u32], text: &mut [u8]) -> bool {
        clear(words, text);
        let r = ours(chunk, words, text);
        let lent = [words.len(), text.len()];
        if r.numbers() != expected_store(NAME.as_bytes(), self.counted(), right(self.counted()), lent) {
            return false;
        }
        let (words, words_beyond) = words.split_at(r.words);
        let (text, text_beyond) = text.split_at(r.text);
        let stored = match &self.loaded {
            Ok((_, store)) if r.refusal == 0 => store.words == words && store.text == text,
            _ => words.is_empty() && text.is_empty(),
        };
        stored && untouched(words_beyond, text_beyond)
    }

    /// Whether exact space, one too little of each, and none give what they must.
    fn tight(&self, words: &mut [u32], text: &mut [u8]) -> bool {
        let Ok(Counted { words: w, text: t, .. }) = self.counted() else { return true };
        let mut lent = vec![[w, t], [w - 1, t], [0, t], [0, 0]];
        if t > 0 {
            lent.extend([[w, t - 1], [w - 1, t - 1], [w, 0]]);
        }
        lent.iter().all(|[w, t]| self.undumps(self.chunk, &mut words[..*w], &mut text[..*t]))
    }

    /// Whether store with other numbers is refused as it must be, and writes nothing: of a long chunk each into one of the spaces, in turn.
    fn others(&self, words: &mut [u32], text: &mut [u8], counts: &mut Counts) -> bool {
        clear(words, text);
        let (chunk, counted, name) = (self.chunk, self.counted(), NAME.as_bytes());
        if chunk.len() <= 3 {
            return counts.store(chunk, counted, name, [1, 2, 3], words, text) && untouched(words, text);
        }
        let others = others(counted);
        let mut lent = vec![[words.len(), text.len()], [0, 0]];
        lent.extend(counted.map(|c| [c.words, c.text]));
        let step = if chunk.len() < 1 << 20 { 1 } else { lent.len() };
        let refused = lent.iter().enumerate().all(|(i, [w, t])| {
            let (words, text) = (&mut words[..*w], &mut text[..*t]);
            others.iter().skip(i % step).step_by(step).all(|need| counts.store(chunk, counted, name, *need, words, text))
        });
        refused && self.badly_named(BAD, words, text, counts)
    }

    /// Whether a name that is refused is refused before all else, this space being untouched.
    fn badly_named(&self, name: &[u8], words: &mut [u32], text: &mut [u8], counts: &mut Counts) -> bool {
        let counted = self.counted();
        let mut needs = others(counted);
        needs.truncate(2);
        needs.push(right(counted));
        self.measured(self.chunk, name)
            && needs.iter().all(|need| counts.store(self.chunk, counted, name, *need, words, text))
            && untouched(words, text)
    }

    /// Whether all is the same with bytes behind, and other numbers where they are counted as read.
    fn behind(&self, words: &mut [u32], text: &mut [u8], counts: &mut Counts) -> bool {
        let Ok(c) = self.counted() else { return true };
        counts.behind += 1;
        let tails = [&[0][..], &[0xFF, 1, 2], &self.chunk[..c.read.min(9999)]];
        let longer = [self.chunk, tails[counts.behind as usize % 3]].concat();
        let same = self.measured(&longer, NAME.as_bytes()) && self.undumps(&longer, words, text);
        let [w, t, _] = right(Ok(c));
        clear(words, text);
        same && counts.store(&longer, Ok(c), NAME.as_bytes(), [w, t, longer.len()], words, text) && untouched(words, text)
    }
}

/// The refusal that the Rust's message stands for.
fn refusal(message: &str) -> usize {
    match () {
        () if message.contains("truncated") => 2,
        () if message.contains("not a precompiled") => 3,
        () if message.contains("incompatible") => 4,
        () if message.contains("bad constant") => 5,
        () => 99,
    }
}

/// Whether the words and the text hold this tree.
fn holds(words: &[u32], text: &[u8], p: &Proto) -> bool {
    catch_unwind(AssertUnwindSafe(|| {
        let mut walk = Walk { words, text, at: 0, to: 0 };
        walk.function(p, NAME);
        assert_eq!([walk.at, walk.to], [words.len(), text.len()]);
    }))
    .is_ok()
}

fn same(case: &Case, words: &mut [u32], text: &mut [u8], counts: &mut Counts) -> bool {
    let Case { chunk, loaded } = case;
    if !case.measured(chunk, NAME.as_bytes()) || !case.undumps(chunk, words, text) {
        return false;
    }
    let lent = [words.len(), text.len()];
    let [refusal, _, n, m, read] = expected_store(NAME.as_bytes(), case.counted(), right(case.counted()), lent);
    counts.refused(chunk, refusal);
    let agrees = match (loaded, narrow(chunk)) {
        _ if refusal >= 6 => {
            counts.outside += 1;
            true
        }
        (Ok((l, _)), true) => holds(&words[..n], &text[..m], &l.root),
        (Err(_), true) => true,
        (_, false) => match catch_unwind(|| undump(chunk, NAME)) {
            Err(_) => {
                counts.panics += 1;
                refusal == 2
            }
            Ok(Err(e)) => self::refusal(&format!("{e:?}")) == refusal,
            Ok(Ok(p)) => {
                refusal == 0
                    && holds(&words[..n], &text[..m], &p)
                    && undump(&chunk[..read], NAME).is_ok()
                    && undump(&chunk[..read - 1], NAME).is_err()
            }
        },
    };
    agrees && case.tight(words, text) && case.others(words, text, counts) && case.behind(words, text, counts)
}

/// With more words and text bytes lent than so many, and than the tree takes.
fn compare_lent(chunk: &[u8], most: usize, counts: &mut Counts) -> Read {
    counts.chunks += 1;
    let case = Case::new(chunk);
    let [w, t] = case.counted().map_or([0, 0], |c| [c.words, c.text]);
    let (mut words, mut text) = (vec![0; most.max(w) + 1], vec![0; most.max(t) + 1]);
    if !catch_unwind(AssertUnwindSafe(|| same(&case, &mut words, &mut text, counts))).is_ok_and(|same| same) {
        counts.differ += 1;
        eprintln!("differs: {} bytes: {:02x?}", chunk.len(), &chunk[..chunk.len().min(9999)]);
    }
    case.counted()
}

fn compare(chunk: &[u8], counts: &mut Counts) {
    _ = compare_lent(chunk, 3 * chunk.len() + 63, counts);
}

/// All chunks of at most three bytes; at both widths the sample cut at each place, and with each of its bytes replaced by each other, and
/// strings of many sizes.
fn exhaustive(counts: &mut Counts) {
    compare(&[], counts);
    for a in 0..=255 {
        compare(&[a], counts);
        for b in 0..=255 {
            compare(&[a, b], counts);
            (0..=255).for_each(|c| compare(&[a, b, c], counts));
        }
    }
    let sample = Function::sample();
    assert_eq!(sample.chunk(), include_bytes!("../../sample.luac"));
    for width in [8, 4] {
        let sample = sample.wide(width);
        for i in 0..sample.len() {
            compare(&sample[..i], counts);
            for b in 0..=255 {
                let mut chunk = sample.clone();
                chunk[i] = b;
                compare(&chunk, counts);
            }
        }
        sizes(width, counts);
    }
}

/// A string in each place with each size from 0 to some more than there are bytes, and some that are much greater.
fn sizes(width: usize, counts: &mut Counts) {
    let most = u64::MAX >> (64 - 8 * width);
    for place in 0..4 {
        let chunk = |size| placed(place, &Text(size, b"abcd\0".to_vec())).wide(width);
        let near = 0..=chunk(0).len() as u64 + 2;
        let far = [1 << 16, 1 << 24, i32::MAX as u64, 1 << 31, u32::MAX as u64 - 1, u32::MAX as u64, most / 2, most / 2 + 1, most - 100];
        near.chain(far).chain(most - 30..=most).for_each(|size| compare(&chunk(size), counts));
    }
}

/// A chunk with a tree at a limit or above, with more words and text bytes lent than the limits.
fn large(chunk: &[u8], words: usize, text: usize, counts: &mut Counts) {
    let found = compare_lent(chunk, MOST, counts);
    assert!(found.is_ok_and(|c| [c.words, c.text] == [words, text]));
}

/// Each list as long as it can be and one longer, functions nested as deep as they can be and one deeper; as many words and text bytes
/// as there can be, and more of each; a chunk name as long as it can be, and one byte longer.
fn limits(counts: &mut Counts) {
    for width in [8, 4] {
        for list in 0..6 {
            for n in [65_534, 65_535, 65_536] {
                compare(&chunk_of(&listed(list, n), false, width), counts);
            }
        }
        for depth in [1, 2, 199, 200, 201, 202] {
            compare(&nested(depth, Function::empty(Text::of(b"@i"))).wide(width), counts);
        }
        for more in [0, 1] {
            large(&chunk_of(&Proto::new(&"x".repeat(MOST + more)), false, width), 12, MOST + more, counts);
            let child = ProtoRef::new(Proto { code: vec![1; 65_535], ..Proto::new("") });
            let mut p = Proto { protos: vec![child; 255], code: vec![2; 60_000], ..Proto::new("") };
            p.line_info = vec![3; MOST - tree(&p).words.len() + more];
            large(&chunk_of(&p, false, width), MOST + more, 0, counts);
        }
        // A byte that is repaired takes three text bytes, and a nil of one byte three words.
        let repaired = |more: &[u8]| Text::of(&[&[0xFF; MOST / 3], more].concat());
        for (more, bytes) in [(&b""[..], 0), (b"a", 1), (b"ab", 2), (b"\xff", 3)] {
            large(&Function::empty(repaired(more)).wide(width), 12, MOST - 1 + bytes, counts);
        }
        let children = vec![nils(65_535); 85];
        let most = Function { children, ..nils(21_586) };
        for (code, words) in [(0, MOST - 1), (1, MOST), (2, MOST + 1), (3, MOST + 2)] {
            large(&Function { code: vec![9; code], ..most.clone() }.wide(width), words, 0, counts);
        }
        let both = Function { source: repaired(b"\xff"), code: vec![9; 1000], ..most };
        large(&both.wide(width), MOST + 999, MOST + 2, counts);
    }
    names(counts);
}

/// The longest chunk name, and one byte more.
fn names(counts: &mut Counts) {
    let (mut words, mut text) = (vec![0; 14], vec![0; 2]);
    let name = vec![b'n'; MOST + 1];
    for chunk in [Function::sample().chunk(), Function::empty(Text::none()).wide(4)] {
        let case = Case::new(&chunk);
        let (longest, counted) = (&name[1..], case.counted());
        clear(&mut words, &mut text);
        let mut same = case.badly_named(&name, &mut words, &mut text, counts) && case.measured(&chunk, longest);
        same &= others(counted).iter().all(|need| counts.store(&chunk, counted, longest, *need, &mut words, &mut text));
        same &= untouched(&words, &text) && counts.store(&chunk, counted, longest, right(counted), &mut words, &mut text);
        same &= case.loaded.is_ok_and(|(_, store)| words.starts_with(&store.words) && text.starts_with(&store.text));
        counts.chunks += 1;
        counts.differ += u64::from(!same);
    }
}

fn main() {
    let args: Vec<String> = std::env::args().skip(1).collect();
    std::panic::set_hook(Box::new(|_| {}));
    let (mut counts, mut random) = (Counts::default(), Random(7));
    let copies: usize = match &args[0][..] {
        "exhaustive" => {
            exhaustive(&mut counts);
            0
        }
        "limits" => {
            limits(&mut counts);
            0
        }
        n => n.parse().expect("compare N CHUNK.. | compare limits | compare exhaustive"),
    };
    for path in &args[1..] {
        let chunk = std::fs::read(path).unwrap();
        compare(&chunk, &mut counts);
        for _ in 0..copies {
            compare(&random.damaged(&chunk), &mut counts);
        }
    }
    let Counts { chunks, outside, panics, differ, refusals, narrow, others: [others, fifteen], behind } = counts;
    println!("{chunks} chunks, {differ} differ; {outside} outside the domain, {panics} where the Rust panics; by refusal {refusals:?}");
    println!("{} of them at width 4; by refusal {narrow:?}", narrow.iter().sum::<u64>());
    println!("{others} calls of store with other numbers, {fifteen} of them refused by 15; {behind} chunks with bytes behind");
    assert_eq!(differ, 0);
}
