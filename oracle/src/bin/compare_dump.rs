//! Compares this library's dump with the Rust's, through the exported function.
//!
//!     compare_dump N CHUNK..   each chunk, those of N damaged copies of it that store takes, N damaged copies of its store
//!     compare_dump limits      trees at the limits and one beyond them
//!
//! Each store is dumped under three names, stripped and not, at both widths, into no space, one byte too few, exactly enough and some more:
//! the answer, the bytes, and that what lies beyond them, or all of it on a refusal, is untouched. The Rust dumps the tree that its undump
//! reads from the chunk, and for a damaged store the tree that src/stored.rs finds in it; at width 4 src/lundump.rs reads, and src/ldump.rs
//! dumps, which at width 8 must write what the Rust does. What was dumped is read back too, by measure and store.

use oracle::archive::{self, Written};
use oracle::lundump::narrow;
use oracle::made::{Constant, Function, Store, Text, chunk_of, listed, nested, root, stripped, tree};
use oracle::random::Random;
use oracle::stored::{MOST, tree_of};
use oracle::vm::proto::{Proto, ProtoRef};
use oracle::vm::value::Val;

/// What no call has written.
const BYTE: u8 = 0x5A;

/// How a store is dumped: the name, whether stripped, and the width.
#[derive(Debug, Clone, Copy)]
struct How<'a>(&'a [u8], bool, usize);

#[derive(Default)]
struct Counts {
    stores: u64,
    /// Chunks whose dump has their bytes.
    equal: u64,
    calls: u64,
    /// Calls at width 4.
    narrow: u64,
    differ: u64,
    refusals: [u64; 12],
}

impl Counts {
    /// One dump with so many bytes lent: these bytes, or this refusal.
    fn call(&mut self, store: &Store, how: How, lent: usize, bytes: Result<&[u8], u32>) {
        let mut out = vec![BYTE; lent];
        let How(name, strip, width) = how;
        let answer = archive::dump(&store.words, &store.text, name, strip, width, &mut out);
        let bytes = bytes.and_then(|b| if b.len() <= lent { Ok(b) } else { Err(11) });
        let (refusal, bytes) = bytes.map_or_else(|n| (n, &[][..]), |b| (0, b));
        let beyond = out.get(bytes.len()..).is_some_and(|rest| rest.iter().all(|b| *b == BYTE));
        let same = answer == Written { refusal, len: bytes.len() } && beyond && out.starts_with(bytes);
        self.calls += 1;
        self.narrow += u64::from(width == 4);
        self.refusals[refusal as usize] += 1;
        if !same {
            self.differ += 1;
            let (w, t) = (store.words.len(), store.text.len());
            eprintln!("differs: {w} words, {t} text bytes, {how:02x?}, {lent} lent: {answer:?}, not {refusal}");
            if w + t < 500 {
                eprintln!("  {:x?} {:02x?}", store.words, store.text);
            }
        }
    }

    /// All calls for a store under a name; p is the tree that it holds, if any.
    fn named(&mut self, store: &Store, name: &[u8], p: Option<&Proto>, room: usize) {
        for (strip, width) in [(false, 8), (true, 8), (false, 4), (true, 4)] {
            let how = How(name, strip, width);
            match p {
                None => {
                    self.call(store, how, 0, Err(10));
                    self.call(store, how, room, Err(10));
                }
                Some(p) => {
                    let bytes = chunk_of(p, strip, width);
                    for lent in [0, bytes.len() - 1, bytes.len(), bytes.len() + room] {
                        self.call(store, how, lent, Ok(&bytes));
                    }
                    self.back(p, &bytes, strip, width);
                }
            }
        }
    }

    /// A store; tree answers what it holds under a name.
    fn store(&mut self, store: &Store, tree: impl Fn(&str) -> Option<ProtoRef>, room: usize) {
        self.stores += 1;
        for name in ["=n", "", "@a.lua"] {
            self.named(store, name.as_bytes(), tree(name).as_deref(), room);
        }
        for width in [8, 4] {
            self.call(store, How(&[0x41, 0xFF], false, width), room, Err(1));
        }
    }

    /// Reads a dump back, with bytes behind it, under another name: the same bytes read, the width, and the same tree.
    fn back(&mut self, p: &Proto, bytes: &[u8], strip: bool, width: usize) {
        let behind = [bytes, &[0x1B, 7, 7]].concat();
        let (mut words, mut text) = (vec![0; 3 * bytes.len()], vec![0; bytes.len()]);
        let u = archive::undump(&behind, b"@other", &mut words, &mut text);
        let p = renamed(&if strip { stripped(p) } else { p.clone() }, "@other");
        let same = [u.refusal as usize, u.width as usize, u.read] == [0, width, bytes.len()]
            && tree_of(&words[..u.words], &text[..u.text], "@other").is_some_and(|q| tree(&q) == tree(&p));
        if !same {
            self.differ += 1;
            eprintln!("read back differs: {} bytes, {u:?}", bytes.len());
        }
    }
}

/// The tree as it is read back: an empty source at the root, and below it where it is elided, is the name.
fn renamed(p: &Proto, name: &str) -> Proto {
    if !p.source.is_empty() {
        return p.clone();
    }
    let protos = p.protos.iter().map(|c| ProtoRef::new(renamed(c, name))).collect();
    Proto { source: name.to_string(), protos, ..p.clone() }
}

/// The store of a chunk, by this library.
fn store_of(chunk: &[u8]) -> Option<Store> {
    archive::load(chunk, b"=n").ok().map(|(words, text)| Store { words, text })
}

/// A chunk, where store takes it.
fn chunk(chunk: &[u8], counts: &mut Counts, room: usize) -> Option<Store> {
    let store = store_of(chunk)?;
    for name in ["=n", ""] {
        let p = tree_of(&store.words, &store.text, name).unwrap();
        assert_eq!(tree(&p), tree(&root(chunk, name)));
    }
    counts.store(&store, |name| Some(root(chunk, name)), room);
    Some(store)
}

/// A store with a word or a text byte changed, one more or one less of them.
fn damaged_store(store: &Store, r: &mut Random) -> Store {
    let mut s = Store { words: store.words.clone(), text: store.text.clone() };
    let i = r.below(s.words.len());
    match r.below(8) {
        0 => s.words[i] = r.next() as u32,
        1 => s.words[i] ^= 1 << r.below(32),
        2 => s.words[i] = r.of(&[0, 1, 2, 3, 4, 5, 65_535, 65_536, u32::MAX]),
        3 => s.words[i] = s.words[i].wrapping_add(r.of(&[1, u32::MAX])),
        4 if !s.text.is_empty() => {
            let i = r.below(s.text.len());
            s.text[i] = r.of(&[0, 0x80, 0xC2, 0xFF, 0x41]);
        }
        5 => s.words.insert(i, r.of(&[0, 1, 7])),
        6 => drop(s.words.remove(i)),
        _ => match r.below(4) {
            0 => s.words.truncate(i),
            1 => drop(s.text.pop()),
            2 => s.text.push(0x41),
            _ => s.words.push(0),
        },
    }
    s
}

fn found(store: &Store, counts: &mut Counts, room: usize) {
    counts.store(store, |name| tree_of(&store.words, &store.text, name).map(ProtoRef::new), room);
}

fn limits(counts: &mut Counts) {
    for list in 0..6 {
        for n in [65_534, 65_535, 65_536] {
            found(&tree(&listed(list, n)), counts, 9);
        }
    }
    let inner = Function { lines: vec![1], ..Function::empty(Text::of(b"@i")) };
    for (depth, width) in [(199, 8), (200, 8), (200, 4)] {
        chunk(&nested(depth, inner.clone()).wide(width), counts, 3).unwrap();
    }
    for depth in [200, 201] {
        let p = (1..depth).fold(Proto::new("@d"), |p, _| Proto { protos: vec![ProtoRef::new(p)], ..Proto::new("@d") });
        found(&tree(&p), counts, 3);
    }
    // 16,777,216 text bytes, in a source, a constant, a name; and one more.
    for more in [0, 1] {
        let long = "x".repeat(MOST + more);
        found(&tree(&Proto::new(&long)), counts, 1);
        let mut p = Proto::new("");
        p.upvalue_names = vec![long.clone()];
        found(&tree(&p), counts, 1);
        let mut p = Proto::new("");
        p.constants = vec![Val::Nil];
        p.string_pool = vec![(0, long.clone().into_bytes())];
        found(&tree(&p), counts, 1);
    }
    // 16,777,216 words, and one more.
    let child = ProtoRef::new(Proto { code: vec![1; 65_535], ..Proto::new("@w") });
    let mut p = Proto { protos: vec![child; 255], ..Proto::new("@w") };
    let words = tree(&p).words.len();
    for more in [0, 1] {
        p.code = vec![2; 60_000];
        p.line_info = vec![3; MOST - words - 60_000 + more];
        let store = tree(&p);
        assert_eq!(store.words.len(), MOST + more);
        found(&store, counts, 2);
    }
    // The longest name, and one byte more.
    let none = store_of(&Function::empty(Text::none()).chunk()).unwrap();
    for (len, bytes) in [(MOST, true), (MOST + 1, false)] {
        let name = "n".repeat(len);
        let p = tree_of(&none.words, &none.text, &name).unwrap();
        for width in [8, 4] {
            let (all, how) = (chunk_of(&p, false, width), How(name.as_bytes(), false, width));
            counts.call(&none, how, all.len(), if bytes { Ok(&all) } else { Err(1) });
            counts.call(&none, how, all.len() - 1, if bytes { Ok(&all) } else { Err(1) });
        }
    }
    sources(counts);
    strings(counts);
}

/// Sources inherited, empty, the same as around, and others, at three levels.
fn sources(counts: &mut Counts) {
    let kinds = [Text::none(), Text::of(b""), Text::of(b"@a.lua"), Text::of(b"=n"), Text::of(b"=nn")];
    for a in &kinds {
        for b in &kinds {
            for c in &kinds {
                let leaves: Vec<Function> = kinds.iter().map(|k| Function::empty(k.clone())).collect();
                let two = Function::with_children(b.clone(), &leaves);
                let f = Function::with_children(a.clone(), &[two, Function::empty(c.clone())]);
                chunk(&f.chunk(), counts, 1).unwrap();
            }
        }
    }
}

/// 65,535 strings, which the Rust searches one by one; strings of 0 to 300 bytes.
fn strings(counts: &mut Counts) {
    let many: Vec<Constant> = (0..65_535).map(|i| Constant::Str(Text::of(format!("{i}").as_bytes()))).collect();
    for width in [8, 4] {
        let bytes = Function::with_constants(&many).wide(width);
        let store = store_of(&bytes).unwrap();
        assert_eq!(chunk_of(&root(&bytes, "=n"), false, width), bytes);
        for lent in [bytes.len() - 1, bytes.len(), bytes.len() + 4] {
            counts.call(&store, How(b"=n", false, width), lent, Ok(&bytes));
        }
    }
    for n in 0..300 {
        let s = Text::of(&vec![b'a' + (n % 26) as u8; n]);
        let f = Function {
            locals: vec![(s.clone(), 1, 2); 2],
            upvalues: vec![s.clone(); 2],
            constants: vec![Constant::Str(s.clone()), Constant::Nil, Constant::Str(s.clone())],
            ..Function::empty(s)
        };
        chunk(&f.chunk(), counts, 1).unwrap();
    }
}

fn main() {
    let args: Vec<String> = std::env::args().skip(1).collect();
    let (mut counts, mut r) = (Counts::default(), Random(11));
    std::panic::set_hook(Box::new(|info| eprintln!("{info}")));
    if args[0] == "limits" {
        limits(&mut counts);
    } else {
        let copies: usize = args[0].parse().expect("compare_dump N CHUNK.. | compare_dump limits");
        for path in &args[1..] {
            let bytes = std::fs::read(path).unwrap();
            let store = chunk(&bytes, &mut counts, 16).unwrap();
            let width = if narrow(&bytes) { 4 } else { 8 };
            counts.equal += u64::from(chunk_of(&root(&bytes, "=n"), false, width) == bytes);
            for _ in 0..copies {
                chunk(&r.damaged(&bytes), &mut counts, 1 + r.below(40));
                found(&damaged_store(&store, &mut r), &mut counts, 1 + r.below(40));
            }
        }
    }
    let Counts { stores, equal, calls, narrow, differ, refusals } = counts;
    println!("{stores} stores, {calls} calls, {narrow} of them at width 4, {differ} differ; by refusal {refusals:?}; {equal} chunks are their own dump");
    assert_eq!(differ, 0);
}
