//! Writes cases for the program `test_source_at`, and the lines that it must write for them.
//!
//!     stores cases > FILE      the cases
//!     stores expected > FILE   their lines
//!
//! The form of a case stands in crates/test_source_at/src/main.rt. The Rust has no stores: the layout, the check and the search for
//! a source are written here from the scope, over plain vectors.

use oracle::made::store_case;
use std::fmt::Write as _;
use std::io::{self, Write};

/// A function: its source (none where inherited), code, constants, functions inside, lines, locals and upvalue names.
#[derive(Clone, Default)]
struct Function {
    source: Option<Vec<u8>>,
    code: Vec<u32>,
    constants: Vec<Constant>,
    functions: Vec<Function>,
    lines: Vec<u32>,
    locals: Vec<Vec<u8>>,
    upvalues: Vec<Vec<u8>>,
}

#[derive(Clone)]
enum Constant {
    Nil,
    Bool(bool),
    Num(u32, u32),
    Str(Vec<u8>),
}

#[derive(Clone, Default)]
struct Store {
    words: Vec<u32>,
    text: Vec<u8>,
}

impl Store {
    fn string(&mut self, s: &[u8]) {
        self.words.extend([self.text.len() as u32, s.len() as u32]);
        self.text.extend(s);
    }

    fn function(&mut self, f: &Function) {
        match &f.source {
            None => self.words.extend([0, 0, 0]),
            Some(s) => {
                self.words.push(1);
                self.string(s);
            }
        }
        self.words.extend([3, 4, 0x0102_0304]);
        self.words.push(f.code.len() as u32);
        self.words.extend(&f.code);
        self.words.push(f.constants.len() as u32);
        for k in &f.constants {
            match k {
                Constant::Nil => self.words.extend([0, 0, 0]),
                Constant::Bool(b) => self.words.extend([1, u32::from(*b), 0]),
                Constant::Num(high, low) => self.words.extend([3, *high, *low]),
                Constant::Str(s) => {
                    self.words.push(4);
                    self.string(s);
                }
            }
        }
        self.words.push(f.functions.len() as u32);
        for g in &f.functions {
            self.function(g);
        }
        self.words.push(f.lines.len() as u32);
        self.words.extend(&f.lines);
        self.words.push(f.locals.len() as u32);
        for v in &f.locals {
            self.string(v);
            self.words.extend([5, 6]);
        }
        self.words.push(f.upvalues.len() as u32);
        for u in &f.upvalues {
            self.string(u);
        }
    }

    fn of(f: &Function) -> Store {
        let mut s = Store::default();
        s.function(f);
        s
    }
}

/// A walk over a store that checks it, and notes where functions begin and where their sources stand.
struct Walk<'a> {
    store: &'a Store,
    at: usize,
    to: usize,
    functions: Vec<(usize, Span)>,
}

/// In the text or in the chunk name, from, to.
type Span = (bool, usize, usize);

impl Walk<'_> {
    fn word(&mut self) -> Option<u32> {
        let w = *self.store.words.get(self.at)?;
        self.at += 1;
        Some(w)
    }

    fn count(&mut self) -> Option<u32> {
        self.word().filter(|n| *n <= 65535)
    }

    fn string(&mut self, utf8: bool) -> Option<Span> {
        let place = self.word()? as usize;
        let len = self.word()? as usize;
        if place != self.to || self.store.text.len() - self.to < len {
            return None;
        }
        self.to += len;
        if utf8 && std::str::from_utf8(&self.store.text[place..self.to]).is_err() {
            return None;
        }
        Some((true, place, self.to))
    }

    fn function(&mut self, around: Span, allowance: u32) -> Option<()> {
        if allowance == 0 {
            return None;
        }
        let begins = self.at;
        let source = match self.word()? {
            0 => {
                if self.word()? != 0 || self.word()? != 0 {
                    return None;
                }
                around
            }
            1 => self.string(true)?,
            _ => return None,
        };
        self.functions.push((begins, source));
        for _ in 0..3 {
            self.word()?;
        }
        for _ in 0..self.count()? {
            self.word()?;
        }
        for _ in 0..self.count()? {
            match self.word()? {
                0 if self.word()? == 0 && self.word()? == 0 => {}
                1 if self.word()? <= 1 && self.word()? == 0 => {}
                3 => {
                    self.word()?;
                    self.word()?;
                }
                4 => {
                    self.string(false)?;
                }
                _ => return None,
            }
        }
        for _ in 0..self.count()? {
            self.function(source, allowance - 1)?;
        }
        for _ in 0..self.count()? {
            self.word()?;
        }
        for _ in 0..self.count()? {
            self.string(true)?;
            self.word()?;
            self.word()?;
        }
        for _ in 0..self.count()? {
            self.string(true)?;
        }
        Some(())
    }
}

/// The line that the program writes.
fn line(store: &Store, name: &[u8], place: usize) -> String {
    let refused = |n: u32| format!("{n} 0 0 0 :\n");
    if std::str::from_utf8(name).is_err() {
        return refused(1);
    }
    let mut w = Walk { store, at: 0, to: 0, functions: Vec::new() };
    if w.function((false, 0, name.len()), 200).is_none() || w.at != store.words.len() || w.to != store.text.len() {
        return refused(10);
    }
    let Some((_, (in_text, start, end))) = w.functions.iter().find(|f| f.0 == place) else {
        return refused(12);
    };
    let mut s = format!("0 {} {start} {end} :", u32::from(*in_text));
    for b in if *in_text { &store.text[*start..*end] } else { name } {
        write!(s, " {b:02x}").unwrap();
    }
    s + "\n"
}

/// The cases and their lines, and the store that they are about.
#[derive(Default)]
struct Cases {
    bytes: Vec<u8>,
    lines: String,
    store: Store,
}

impl Cases {
    fn store(&mut self, store: Store) {
        self.bytes.extend(store_case(&store.words, &store.text));
        self.store = store;
    }

    fn word(&mut self, at: usize, w: u32) {
        let mut s = self.store.clone();
        s.words[at] = w;
        self.bytes.push(b'W');
        self.bytes.extend((at as u16).to_le_bytes());
        self.bytes.extend(w.to_le_bytes());
        self.lines += &line(&s, b"", 0);
    }

    fn text(&mut self, at: usize, b: u8) {
        let mut s = self.store.clone();
        s.text[at] = b;
        self.bytes.push(b'T');
        self.bytes.extend((at as u16).to_le_bytes());
        self.bytes.push(b);
        self.lines += &line(&s, b"", 0);
    }

    fn lent(&mut self, words: usize, text: usize) {
        let mut s = self.store.clone();
        s.words.resize(words, 0);
        s.text.resize(text, 0);
        self.bytes.push(b'N');
        self.bytes.extend((words as u32).to_le_bytes());
        self.bytes.extend((text as u16).to_le_bytes());
        self.lines += &line(&s, b"", 0);
    }

    fn question(&mut self, place: usize, name: &[u8]) {
        self.bytes.push(b'Q');
        self.bytes.extend((place as u32).to_le_bytes());
        self.bytes.push(name.len() as u8);
        self.bytes.extend(name);
        self.lines += &line(&self.store, name, place);
    }

    /// Each word changed to what may break it, each text byte, each length; and each place asked.
    fn broken(&mut self) {
        let words = self.store.words.clone();
        for (i, w) in words.iter().enumerate() {
            let mut to = vec![w.wrapping_add(1), w.wrapping_sub(1), 0, 1, 2, 3, 4, 65536, u32::MAX];
            to.sort_unstable();
            to.dedup();
            for v in to {
                if v != *w {
                    self.word(i, v);
                }
            }
        }
        let text = self.store.text.clone();
        for (i, b) in text.iter().enumerate() {
            for v in [0, 0x41, 0x80, 0xc3, 0xff] {
                if v != *b {
                    self.text(i, v);
                }
            }
        }
        let (n, m) = (words.len(), text.len());
        for i in 0..=n + 1 {
            self.lent(i, m);
        }
        for i in 0..=m + 1 {
            self.lent(n, i);
        }
        for place in 0..=n {
            self.question(place, b"@n");
        }
    }
}

fn own(s: &[u8]) -> Option<Vec<u8>> {
    Some(s.to_vec())
}

/// The scope's sample.
fn sample() -> Store {
    Store { words: vec![1, 0, 2, 0, 0, 0x0202, 1, 0x0080_001e, 0, 0, 1, 1, 0, 0], text: b"@a".to_vec() }
}

/// Three levels: sources inherited once and twice, an own empty one under one that is not, an own one with one inside.
fn tree(source: Option<Vec<u8>>) -> Function {
    let inner = Function { constants: vec![Constant::Num(1, 2)], ..Function::default() };
    Function {
        source,
        code: vec![7, 8],
        constants: vec![Constant::Nil, Constant::Bool(true), Constant::Str(b"k\xff".to_vec())],
        functions: vec![
            Function { functions: vec![inner.clone()], locals: vec!["\u{e9}".into(), Vec::new()], ..Function::default() },
            Function { source: own(b""), upvalues: vec![b"u".to_vec()], ..Function::default() },
            Function { source: own(b"@d"), functions: vec![inner], lines: vec![9], ..Function::default() },
        ],
        lines: vec![1, 2],
        ..Function::default()
    }
}

/// So many functions, each inside the one before it.
fn nested(n: usize) -> Function {
    (1..n).fold(Function::default(), |f, _| Function { functions: vec![f], ..Function::default() })
}

fn cases() -> Cases {
    let mut c = Cases::default();
    c.store(sample());
    c.broken();
    for name in [&b""[..], b"@n", b"\xff", b"\xe2\x82", "\u{20ac}".as_bytes()] {
        c.question(0, name);
        c.question(1, name);
    }
    c.store(Store::of(&tree(own(b"@r"))));
    c.broken();
    c.store(Store::of(&tree(None)));
    for place in 0..=c.store.words.len() {
        c.question(place, b"@n");
    }
    c.question(0, b"");
    c.word(0, 1);
    c.question(0, b"\xff");
    for n in [200, 201] {
        c.store(Store::of(&nested(n)));
        c.question(0, b"@n");
        c.question(12 * 199 - 3 * 199, b"@n");
    }
    for n in [65535, 65536] {
        let many = vec![0; n];
        c.store(Store::of(&Function { code: many.clone(), ..Function::default() }));
        c.question(0, b"@n");
        c.store(Store::of(&Function { lines: many, ..Function::default() }));
        c.question(0, b"@n");
    }
    c.store(Store::default());
    c.question(0, b"@n");
    c
}

fn main() -> io::Result<()> {
    let c = cases();
    assert!(c.bytes.len() <= 65536, "{} bytes", c.bytes.len());
    match std::env::args().nth(1).as_deref() {
        Some("cases") => io::stdout().write_all(&c.bytes),
        Some("expected") => io::stdout().write_all(c.lines.as_bytes()),
        _ => {
            eprintln!("stores cases|expected: {} cases, {} bytes", c.lines.lines().count(), c.bytes.len());
            Ok(())
        }
    }
}
