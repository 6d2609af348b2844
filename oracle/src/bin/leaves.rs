//! Writes records for the program `test_leaves`: UTF-8 validity and repair as std gives them, instruction fields and opcode
//! attributes as rilua's instructions.rs gives them.
//!
//!     leaves gate > FILE      the records that the gate replays
//!     leaves many DIR         some two million more, in files of at most 65,536 bytes
//!
//! The form of a record stands in crates/test_leaves/src/main.rt. The output is the same at each run.

use std::fs::File;
use std::io::{Result, Write};
use std::path::PathBuf;

use oracle::random::Random;
use oracle::vm::instructions::{Instruction, NUM_OPCODES, OpArgMask, OpCode, OpMode};

/// Where records go: standard output, or files of at most `MOST` bytes in a folder.
enum Out {
    One(Vec<u8>),
    Files { dir: PathBuf, buf: Vec<u8>, files: usize },
}

const MOST: usize = 65_536;

impl Out {
    fn put(&mut self, record: &[u8]) -> Result<()> {
        match self {
            Out::One(buf) => buf.extend_from_slice(record),
            Out::Files { dir, buf, files } => {
                if MOST < buf.len() + record.len() {
                    File::create(dir.join(format!("{files:05}")))?.write_all(buf)?;
                    buf.clear();
                    *files += 1;
                }
                buf.extend_from_slice(record);
            }
        }
        Ok(())
    }

    fn end(self) -> Result<()> {
        match self {
            Out::One(buf) => {
                assert!(buf.len() <= MOST);
                std::io::stdout().write_all(&buf)
            }
            Out::Files { dir, buf, files } => File::create(dir.join(format!("{files:05}")))?.write_all(&buf),
        }
    }

    /// An R record.
    fn repair(&mut self, input: &[u8]) -> Result<()> {
        let output = String::from_utf8_lossy(input);
        let mut record = vec![b'R'];
        record.extend(u16::try_from(input.len()).unwrap().to_le_bytes());
        record.extend(input);
        record.push(u8::from(std::str::from_utf8(input).is_ok()));
        record.extend(u16::try_from(output.len()).unwrap().to_le_bytes());
        record.extend(output.as_bytes());
        self.put(&record)
    }

    /// An I record.
    fn instruction(&mut self, word: u32) -> Result<()> {
        let i = Instruction::from_raw(word);
        let mut record = vec![b'I'];
        for x in [word, i.opcode() as u32, i.a(), i.b(), i.c(), i.bx(), i.sbx() as u32] {
            record.extend(x.to_le_bytes());
        }
        self.put(&record)
    }

    /// An O record.
    fn opcode(&mut self, n: u8) -> Result<()> {
        let op = OpCode::from_u8(n).unwrap();
        let arg = |a| match a {
            OpArgMask::N => 0,
            OpArgMask::U => 1,
            OpArgMask::R => 2,
            OpArgMask::K => 3,
        };
        let mode = match op.mode() {
            OpMode::IABC => 0,
            OpMode::IABx => 1,
            OpMode::IAsBx => 2,
        };
        let mut record = vec![b'O', n];
        record.extend(format!("{:<9}", op.name()).as_bytes());
        record.extend([mode, arg(op.b_mode()), arg(op.c_mode()), u8::from(op.is_test_mode()), u8::from(op.sets_register_a())]);
        self.put(&record)
    }
}

/// The ends of every range of table 3-7 of the Unicode Standard, and their neighbours.
const EDGES: [u8; 25] = [
    0x00, 0x41, 0x7F, 0x80, 0x8F, 0x90, 0x9F, 0xA0, 0xBF, 0xC0, 0xC1, 0xC2, 0xDF, 0xE0, 0xE1, 0xEC,
    0xED, 0xEE, 0xEF, 0xF0, 0xF1, 0xF3, 0xF4, 0xF5, 0xFF,
];

/// Well-formed sequences: the first and last of each row of the table.
const WELL: [&[u8]; 18] = [
    &[0x00],
    &[0x7F],
    &[0xC2, 0x80],
    &[0xDF, 0xBF],
    &[0xE0, 0xA0, 0x80],
    &[0xE0, 0xBF, 0xBF],
    &[0xE1, 0x80, 0x80],
    &[0xEC, 0xBF, 0xBF],
    &[0xED, 0x80, 0x80],
    &[0xED, 0x9F, 0xBF],
    &[0xEE, 0x80, 0x80],
    &[0xEF, 0xBF, 0xBF],
    &[0xF0, 0x90, 0x80, 0x80],
    &[0xF0, 0xBF, 0xBF, 0xBF],
    &[0xF1, 0x80, 0x80, 0x80],
    &[0xF3, 0xBF, 0xBF, 0xBF],
    &[0xF4, 0x80, 0x80, 0x80],
    &[0xF4, 0x8F, 0xBF, 0xBF],
];

/// Ill-formed parts for the runs of ASCII.
const ILL: [&[u8]; 12] = [
    &[0xFF],
    &[0x80],
    &[0xC2],
    &[0xC1, 0x80],
    &[0xE2, 0x82],
    &[0xE0, 0x9F, 0x80],
    &[0xED, 0xA0, 0x80],
    &[0xF0, 0x9F, 0x98],
    &[0xF0, 0x8F, 0x80, 0x80],
    &[0xF4, 0x90, 0x80, 0x80],
    &[0xF5, 0x80, 0x80, 0x80],
    &[0xE2, 0x82, 0xC2, 0xF4, 0x8F, 0xBF],
];

/// `n` ASCII bytes with `part` after the first `at` of them.
fn run(n: usize, at: usize, part: &[u8]) -> Vec<u8> {
    let mut v: Vec<u8> = (0..n).map(|i| b'a' + (i % 26) as u8).collect();
    v.splice(at..at, part.iter().copied());
    v
}

/// A random input of `n` bytes, or a little more: any bytes; edges; or good text with one byte changed.
fn random(r: &mut Random, n: usize) -> Vec<u8> {
    match r.below(4) {
        0 => (0..n).map(|_| r.byte()).collect(),
        1 => (0..n).map(|_| r.of(&EDGES)).collect(),
        kind => {
            let mut v = Vec::new();
            while v.len() < n {
                if r.below(3) == 0 {
                    v.push(b' ' + r.below(95) as u8);
                } else {
                    v.extend_from_slice(r.of(&WELL));
                }
            }
            if kind == 2 && !v.is_empty() {
                let i = r.below(v.len());
                v[i] = if r.below(2) == 0 { r.byte() } else { r.of(&EDGES) };
            }
            if kind == 3 && r.below(2) == 0 {
                v.truncate(n);
            }
            v
        }
    }
}

fn few(f: &mut Out) -> Result<()> {
    f.repair(&[])?;
    for a in 0..=255 {
        f.repair(&[a])?;
    }
    for a in EDGES {
        for b in EDGES {
            f.repair(&[a, b])?;
        }
    }
    for a in [0xE0, 0xE1, 0xEC, 0xED, 0xEE, 0xEF] {
        for b in [0x7F, 0x80, 0x9F, 0xA0, 0xBF, 0xC0] {
            for c in [0x41, 0x80, 0xBF, 0xC0, 0xE0] {
                f.repair(&[a, b, c])?;
            }
        }
    }
    for a in [0xF0, 0xF1, 0xF3, 0xF4, 0xF5] {
        for b in [0x7F, 0x80, 0x8F, 0x90, 0xBF, 0xC0] {
            for [c, d] in [[0x80, 0x80], [0xBF, 0xBF], [0x80, 0x41], [0x41, 0x80], [0x80, 0xC0], [0xC2, 0x80], [0x80, 0xF0]] {
                f.repair(&[a, b, c, d])?;
            }
        }
    }
    // Each good sequence cut short: at the end, before ASCII, before a lead byte, before a good one.
    for w in WELL {
        for n in 1..=w.len() {
            for tail in [&[][..], b"A", &[0xC2], &[0xF4, 0x80], &[0xE2, 0x82, 0xAC]] {
                f.repair(&[&w[..n], tail].concat())?;
            }
        }
    }
    for n in 0..=40 {
        let mut places = vec![0, n / 2, n];
        if n <= 17 || n == 40 {
            places = (0..=n).collect();
        }
        places.dedup();
        for (i, at) in places.into_iter().enumerate() {
            f.repair(&run(n, at, ILL[(n + i) % ILL.len()]))?;
        }
        f.repair(&run(n, n, &[]))?;
    }
    let mut r = Random(1);
    for n in 0..60 {
        f.repair(&random(&mut r, n + 1))?;
    }
    Ok(())
}

fn many(f: &mut Out) -> Result<()> {
    let mut r = Random(2);
    f.repair(&[])?;
    for a in 0..=255 {
        f.repair(&[a])?;
    }
    for a in 0..=255 {
        for b in 0..=255 {
            f.repair(&[a, b])?;
        }
    }
    for a in 0x7F..=0xFF {
        for b in 0..=255 {
            for c in EDGES {
                f.repair(&[a, b, c])?;
            }
        }
    }
    for a in [0xC2, 0xE2, 0xEF, 0xF0, 0xF1, 0xF2, 0xF3, 0xF4, 0xF5, 0xFF] {
        for b in 0..=255 {
            for c in EDGES {
                for d in [0x41, 0x7F, 0x80, 0xBF, 0xC0, 0xF0] {
                    f.repair(&[a, b, c, d])?;
                }
            }
        }
    }
    for n in 0..=40 {
        for at in 0..=n {
            for part in ILL {
                f.repair(&run(n, at, part))?;
            }
        }
    }
    for _ in 0..200_000 {
        let [a, b, c] = [r.byte(), r.byte(), r.byte()];
        f.repair(&[a, b, c])?;
    }
    for _ in 0..300_000 {
        let [a, b, c, d] = [0x80 | r.byte(), r.byte(), r.byte(), r.byte()];
        f.repair(&[a, b, c, d])?;
    }
    for _ in 0..250_000 {
        let n = r.below(40);
        f.repair(&random(&mut r, n))?;
    }
    Ok(())
}

/// `n` words: limits of each field, the scope's cases, random ones.
fn words(n: usize) -> Vec<u32> {
    let mut v = Vec::new();
    for op in 0..64 {
        v.push(op); // all fields 0
        v.push(op | !0x3F); // all fields at their highest
    }
    // Each field alone at its limits, under a few opcodes and one that is none.
    for op in [0, 1, 3, 22, 28, 30, 36, 37, 38, 63] {
        for (shift, limits) in [
            (6, &[1, 127, 128, 254, 255][..]),
            (14, &[1, 254, 255, 256, 257, 510, 511]),
            (23, &[1, 254, 255, 256, 257, 510, 511]),
            (14, &[131_070, 131_071, 131_072, 262_142, 262_143]),
        ] {
            for x in limits {
                v.push(op | (x << shift));
            }
        }
    }
    // The words of the scope's cases.
    v.extend([0x0080_001E, 0x0180_0043, 0x0000_0040, 0, 1, 0x7FFF_FFFF, 0x8000_0000, u32::MAX]);
    let mut r = Random(3);
    while v.len() < n {
        v.push(r.next() as u32);
    }
    v
}

fn main() -> Result<()> {
    let mut args = std::env::args().skip(1);
    let what = args.next().unwrap_or_default();
    let mut out = match (what.as_str(), args.next()) {
        ("gate", None) => Out::One(Vec::new()),
        ("many", Some(dir)) => Out::Files { dir: dir.into(), buf: Vec::new(), files: 0 },
        _ => panic!("leaves gate | leaves many DIR"),
    };
    if what == "gate" {
        few(&mut out)?;
    } else {
        many(&mut out)?;
    }
    for word in words(if what == "gate" { 640 } else { 200_000 }) {
        out.instruction(word)?;
    }
    for n in 0..NUM_OPCODES {
        out.opcode(n as u8)?;
    }
    out.end()
}
