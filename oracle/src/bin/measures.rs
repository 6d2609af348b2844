//! Writes cases for the program `test_store`, and the lines that it must write for them.
//!
//!     measures cases > FILE      the cases of the gate
//!     measures expected > FILE   their lines
//!     measures kinds             how many cases there are of each kind, and their bytes
//!     measures compare           through the archive: the same cases, and what measure answers of their chunks
//!
//! The form of a case stands in crates/test_store/src/main.rt. The output is the same at each run.
//! What stands in a chunk is given by src/made.rs, at width 4 by src/lundump.rs; what store answers of it, given any three numbers, by
//! src/measured.rs.

use std::collections::BTreeMap;
use std::io::{self, Write};
use std::rc::Rc;

use oracle::made::{Constant, Found, Function, LUAC, Text, converted, found, nested, nils, unhex};
use oracle::measured::{ABOVE, Counted, Need, Numbers, expected_store, others, right, store_line};
use oracle::stored::MOST;

/// The most bytes of a chunk, the most words and text bytes that test_store lends, and the most bytes of cases.
const CHUNK: usize = 5_700_000;
const ROOM: usize = 4096;
const CASES: usize = 40_000;

/// A chunk name, and two that are no UTF-8.
const NAME: &[u8] = b"=n";
const BAD: [&[u8]; 2] = [b"\xFF", b"\xE2\x82"];

// ---------------------------------------------------------------------------
// Chunks
// ---------------------------------------------------------------------------

/// Bytes, so many times.
type Run<'a> = (u32, &'a [u8]);

/// A chunk as few bytes: what repeats, with the period that saves most, and between that what does not.
fn runs(chunk: &[u8]) -> Vec<Run<'_>> {
    let single = |from: usize, to: usize| chunk[from..to].chunks(255).map(|part| (1, part));
    let mut runs = Vec::new();
    let (mut from, mut at) = (0, 0);
    while at < chunk.len() {
        let rest = &chunk[at..];
        let times = |n: usize| rest.chunks_exact(n).take_while(|part| **part == rest[..n]).count();
        let saved = |n: usize| n * times(n) - n;
        let n = (1..=rest.len().min(64)).rev().max_by_key(|n| saved(*n)).unwrap();
        if saved(n) < 12 {
            at += 1;
            continue;
        }
        runs.extend(single(from, at));
        runs.push((times(n) as u32, &rest[..n]));
        at += n * times(n);
        from = at;
    }
    runs.extend(single(from, at));
    runs
}

/// A chunk, the runs that make it as they stand in a case, and what stands in it.
struct Made {
    chunk: Vec<u8>,
    runs: Vec<u8>,
    found: Result<Found, u8>,
}

impl Made {
    fn new(chunk: &[u8]) -> Rc<Made> {
        assert!(chunk.len() <= CHUNK);
        let runs = runs(chunk);
        assert_eq!(runs.iter().flat_map(|(times, part)| part.repeat(*times as usize)).collect::<Vec<u8>>(), chunk);
        let mut bytes = u16::try_from(runs.len()).unwrap().to_le_bytes().to_vec();
        for (times, part) in runs {
            bytes.extend(times.to_le_bytes());
            bytes.push(part.len() as u8);
            bytes.extend(part);
        }
        Rc::new(Made { chunk: chunk.to_vec(), runs: bytes, found: found(chunk, NAME) })
    }

    fn counted(&self) -> Result<Counted, u8> {
        self.found.as_ref().map(Counted::found).map_err(|n| *n)
    }
}

// ---------------------------------------------------------------------------
// Cases
// ---------------------------------------------------------------------------

struct Case {
    kind: &'static str,
    made: Rc<Made>,
    name: Vec<u8>,
    need: Need,
    lent: [usize; 2],
}

impl Case {
    fn bytes(&self) -> Vec<u8> {
        assert!(self.lent.iter().all(|n| *n <= ROOM));
        let mut v = self.made.runs.clone();
        v.push(u8::try_from(self.name.len()).unwrap());
        v.extend(&self.name);
        self.need.iter().for_each(|n| v.extend((*n as u64).to_le_bytes()));
        self.lent.iter().for_each(|n| v.extend((*n as u16).to_le_bytes()));
        v
    }

    fn answer(&self) -> Numbers {
        expected_store(&self.name, self.made.counted(), self.need, self.lent)
    }

    fn line(&self) -> String {
        store_line(self.answer(), self.made.found.as_ref().ok().map(|f| &f.store), self.lent)
    }
}

#[derive(Default)]
struct Cases(Vec<Case>);

impl Cases {
    /// A case that is refused by this number, or not.
    fn case(&mut self, kind: &'static str, made: &Rc<Made>, name: &[u8], need: Need, lent: [usize; 2], refusal: usize) {
        let case = Case { kind, made: made.clone(), name: name.to_vec(), need, lent };
        assert_eq!(case.answer()[0], refusal, "{kind} {need:?} {lent:?}");
        self.0.push(case);
    }

    /// With the right numbers: exact space; one too little of each; none; and more.
    fn spaces(&mut self, kind: &'static str, made: &Rc<Made>) {
        let need @ [w, t, _] = right(made.counted());
        for (lent, refusal) in [([w, t], 0), ([w - 1, t], 8), ([w, t - 1], 9), ([w - 1, t - 1], 8), ([0, 0], 8), ([w + 3, t + 2], 0)] {
            self.case(kind, made, NAME, need, lent, refusal);
        }
    }

    /// A chunk that is refused: with its right numbers, which are 0, and with others.
    fn refused(&mut self, kind: &'static str, chunk: &[u8], refusal: usize, needs: &[Need]) {
        let made = Made::new(chunk);
        assert_eq!(right(made.counted()), [0; 3]);
        for (i, need) in needs.iter().enumerate() {
            self.case(kind, &made, b"", *need, [[2, 3], [0, 0], [20, 4]][i % 3], refusal);
        }
    }
}

/// Three functions, with constants of each kind and strings to repair.
fn several() -> Function {
    let leaf = Function { source: Text::none(), locals: vec![(Text::of(b"\xFFv"), 0, 1)], ..Function::sample() };
    Function {
        constants: vec![
            Constant::Nil,
            Constant::Bool(1),
            Constant::Num(1.5f64.to_bits()),
            Constant::Str(Text::of(b"k")),
            Constant::Str(Text::of(b"\xFF\0")),
        ],
        children: vec![leaf, Function::empty(Text::of(b"@\xF0\x9F"))],
        upvalues: vec![Text::of(b"\xED\xA0\x80"), Text::none()],
        ..Function::empty(Text::of(b"\xC3"))
    }
}

fn gate() -> Cases {
    let mut c = Cases::default();
    let samples = [8, 4].map(|width| Made::new(&Function::sample().wide(width)));
    for (width, sample) in [8, 4].into_iter().zip(&samples) {
        let need @ [w, t, r] = right(sample.counted());
        c.spaces("right numbers", sample);
        for (i, other) in others(sample.counted()).into_iter().enumerate() {
            if width == 8 || i % 2 == 0 {
                c.case("other numbers", sample, NAME, other, [w + 3, t + 2], 15);
            }
            if i % 3 == 0 {
                c.case("other numbers, no space", sample, b"", other, [0, 0], 15);
            }
        }
        for (other, lent) in [[w + 1, t, r], [w, t + 1, r], [w, t, r + 1]].into_iter().zip([[w, t], [w - 1, t], [w, t - 1]]) {
            c.case("other numbers, tight", sample, NAME, other, lent, 15);
        }
        // What the same tree reads at the other width.
        c.case("other width", sample, NAME, [w, t, 67 + 63 - r], [w, t], 15);
        for name in BAD {
            for other in [need, [w + 1, t, r], [usize::MAX; 3]] {
                c.case("chunk name", sample, name, other, [w, t], 1);
            }
        }
        behind(&mut c, sample);
    }
    trees(&mut c);
    refusals(&mut c, &samples);
    text_limit(&mut c);
    words_limit(&mut c);
    c
}

/// Bytes behind the chunk.
fn behind(c: &mut Cases, sample: &Made) {
    let [w, t, r] = right(sample.counted());
    for tail in [&[0][..], b"\x1bLua", &sample.chunk] {
        let longer = Made::new(&[&sample.chunk, tail].concat());
        c.case("bytes behind", &longer, NAME, [w, t, r], [w, t], 0);
        c.case("bytes behind", &longer, NAME, [w, t, r + tail.len()], [w, t], 15);
    }
}

/// Trees of several functions, and one without text.
fn trees(c: &mut Cases) {
    let made = [8, 4].map(|width| Made::new(&several().wide(width)));
    made.iter().for_each(|made| c.spaces("several functions", made));
    let [w, t, r] = right(made[0].counted());
    for other in [[w + 1, t, r], [w, t - 1, r], [w, t, r - 1], [w - 1, t + 1, r]] {
        c.case("several functions", &made[0], NAME, other, [w, t], 15);
    }
    let made = Made::new(&unhex(LUAC));
    let need @ [w, t, r] = right(made.counted());
    c.case("luac", &made, NAME, need, [w, t], 0);
    let made = Made::new(&converted(&unhex(LUAC)));
    c.case("luac", &made, NAME, [w, t, r], [w, t], 15);
    let made = Made::new(&Function::empty(Text::none()).wide(4));
    let need @ [w, t, r] = right(made.counted());
    assert_eq!([w, t], [12, 0]);
    c.case("no text", &made, NAME, need, [w, 0], 0);
    c.case("no text", &made, NAME, need, [w - 1, 0], 8);
    for t in [1, usize::MAX, 1 << 32] {
        c.case("no text", &made, NAME, [w, t, r], [w, 1], 15);
    }
    let made = Made::new(&nested(200, Function::empty(Text::none())).chunk());
    let need @ [w, t, r] = right(made.counted());
    c.case("200 nested", &made, b"", need, [w, t], 0);
    c.case("200 nested", &made, b"", [w - 12, t, r], [1, 1], 15);
}

/// Chunks refused by 2 to 7, whatever the numbers: cuts of the sample, and others.
fn refusals(c: &mut Cases, samples: &[Rc<Made>; 2]) {
    let sample = &samples[0].chunk;
    for (width, made) in [8, 4].into_iter().zip(samples) {
        let (chunk, need) = (&made.chunk, right(made.counted()));
        let (few, many) = ([need, [0; 3]], [[0; 3], need, [1, 0, 0], [0, 0, 12], [usize::MAX; 3]]);
        for n in 0..chunk.len() {
            // At width 4 the first bytes are the same, but for their width.
            if width == 8 || n > 8 && n % 3 == 0 {
                c.refused("sample cut", &chunk[..n], 2, if n % 6 == 3 { &few } else { &few[..1] });
            }
        }
        for (at, byte, refusal) in [(3, b'b', 3), (4, 0x52, 4), (8, 5, 4)] {
            let mut wrong = chunk.clone();
            wrong[at] = byte;
            c.refused("header", &wrong, refusal, &many[..if width == 8 { 3 } else { 2 }]);
        }
        c.refused("constant", &Function::with_constants(&[Constant::Nil, Constant::Tag(2)]).wide(width), 5, &many);
        let mut f = Function::sample();
        f.counts[5] = Some(65_536);
        c.refused("count", &f.wide(width), 6, &many);
        let each = if width == 8 { 44 } else { 40 };
        let deep = nested(201, Function::empty(Text::none())).wide(width);
        assert_eq!(deep.len(), 12 + 201 * each);
        c.refused("201 nested", &deep, 7, &[[0; 3], [201 * 12, 0, deep.len()], [200 * 12, 0, deep.len() - each], [usize::MAX; 3]]);
    }
    c.refused("empty", &[], 2, &[[0; 3], [12, 0, 0]]);
    // A bad chunk under a bad name.
    let made = Made::new(&sample[..20]);
    c.case("chunk name", &made, BAD[0], [0; 3], [2, 2], 1);
    c.case("chunk name", &made, BAD[1], [1; 3], [2, 2], 1);
}

/// Text at the limit, of a source whose bytes are repaired to three each.
fn text_limit(c: &mut Cases) {
    for width in [8, 4] {
        let made = |behind: &[u8]| {
            let bytes = [&[0xFF; MOST / 3], behind].concat();
            Made::new(&Function { bytes: [0; 4], ..Function::empty(Text::of(&bytes)) }.wide(width))
        };
        // What follows the bytes FF, and how many text bytes there are; how many store is told, the words lent, and its refusal.
        for (behind, text, cases) in [
            (&b"\xFF"[..], MOST + 2, &[(ABOVE, 12, 9), (MOST + 2, 12, 15), (MOST, 12, 15), (ABOVE, 11, 8), (MOST + 2, 0, 15)][..]),
            (b"ab", ABOVE, &[(ABOVE, 12, 9), (MOST, 12, 15), (MOST + 2, 12, 15)]),
            (b"a", MOST, &[(MOST, 12, 9), (ABOVE, 12, 15), (MOST, 11, 8), (0, 12, 15)]),
            (b"", MOST - 1, &[(MOST - 1, 12, 9), (MOST, 12, 15)]),
        ] {
            let made = made(behind);
            let counted = made.counted().unwrap();
            assert_eq!([counted.words, counted.text], [12, text]);
            for (told, lent, refusal) in cases {
                c.case("text at the limit", &made, b"", [12, *told, counted.read], [*lent, 5], *refusal);
            }
        }
    }
}

/// Words at the limit, of children with as many constants nil as they can have, which take three words each. Both above it would take
/// a longer chunk than the program has room for.
fn words_limit(c: &mut Cases) {
    let root = |children, constants, code| Function { children: vec![nils(65_535); children], code: vec![9; code], ..nils(constants) };
    let (above, source) = (16_909_074, Text::of(b"@s"));
    // A tree, and how many words there are; how many store is told, and its refusal.
    for (f, width, words, cases) in [
        (root(86, 0, 0), 8, above, &[(ABOVE, 8), (above, 15)][..]),
        (Function { source, ..root(86, 0, 0) }, 4, above, &[(ABOVE, 8)]),
        (root(85, 21_586, 2), 4, ABOVE, &[(ABOVE, 8), (MOST, 15)]),
        (root(85, 21_586, 1), 8, MOST, &[(MOST, 8), (ABOVE, 15)]),
        (root(85, 0, 0), 8, 16_712_457, &[(16_712_457, 8), (ABOVE, 15)]),
    ] {
        let made = Made::new(&f.wide(width));
        let counted = made.counted().unwrap();
        assert_eq!(counted.words, words);
        for (told, refusal) in cases {
            c.case("words at the limit", &made, b"", [*told, counted.text, counted.read], [9, 0], *refusal);
        }
    }
}

// ---------------------------------------------------------------------------
// Through the archive
// ---------------------------------------------------------------------------

#[cfg(feature = "chunk")]
mod archive {
    use oracle::archive::{measure, store};
    use oracle::measured::{expected_measure, left_line};

    use super::*;

    /// What stands in a case from here on: numbers low byte first, and bytes.
    struct Bytes<'a>(&'a [u8]);

    impl<'a> Bytes<'a> {
        fn part(&mut self, n: usize) -> &'a [u8] {
            let (part, rest) = self.0.split_at(n);
            self.0 = rest;
            part
        }

        fn number(&mut self, n: usize) -> usize {
            self.part(n).iter().rev().fold(0, |v, b| v << 8 | *b as usize)
        }
    }

    /// The chunk and the name that the bytes of a case have, and the line of what store answers and leaves.
    fn stored(case: &[u8]) -> (Vec<u8>, Vec<u8>, String) {
        let mut b = Bytes(case);
        let mut chunk = Vec::new();
        for _ in 0..b.number(2) {
            let (times, n) = (b.number(4), b.number(1));
            chunk.extend(b.part(n).repeat(times));
        }
        let n = b.number(1);
        let name = b.part(n);
        let need = [(); 3].map(|()| b.number(8));
        let (mut words, mut text) = (vec![7; b.number(2)], vec![7; b.number(2)]);
        assert!(b.0.is_empty());
        let line = left_line(store(&chunk, name, need, &mut words, &mut text).numbers(), &words, &text);
        (chunk, name.to_vec(), line)
    }

    pub fn compare(cases: &Cases) {
        let mut differ = 0;
        for case in &cases.0 {
            let (chunk, name, line) = stored(&case.bytes());
            let measured = measure(&chunk, &name).numbers();
            if line != case.line() || measured != expected_measure(&name, case.made.counted()) {
                differ += 1;
                eprintln!("{} differs: {:?} {:?}: {measured:?}, {line}", case.kind, case.need, case.lent);
            }
        }
        println!("{} calls of store, {differ} differ", cases.0.len());
        assert_eq!(differ, 0);
    }
}

fn main() -> io::Result<()> {
    let (cases, mut out) = (gate(), io::stdout());
    match std::env::args().nth(1).as_deref() {
        Some("cases") => {
            let bytes: Vec<u8> = cases.0.iter().flat_map(Case::bytes).collect();
            assert!(bytes.len() <= CASES, "{} bytes", bytes.len());
            out.write_all(&bytes)
        }
        Some("expected") => cases.0.iter().try_for_each(|c| out.write_all(c.line().as_bytes())),
        Some("kinds") => {
            let mut kinds = BTreeMap::new();
            for c in &cases.0 {
                let (n, bytes, refusals) = kinds.entry(c.kind).or_insert((0, 0, BTreeMap::new()));
                *n += 1;
                *bytes += c.bytes().len();
                *refusals.entry(c.answer()[0]).or_insert(0) += 1;
            }
            kinds.iter().try_for_each(|(kind, (n, bytes, by))| writeln!(out, "{n:5} cases {bytes:6} bytes  {kind}, by refusal {by:?}"))
        }
        #[cfg(feature = "chunk")]
        Some("compare") => {
            archive::compare(&cases);
            Ok(())
        }
        _ => {
            eprintln!("measures cases | measures expected | measures kinds | measures compare, with the feature chunk");
            std::process::exit(2)
        }
    }
}
