//! bench RUNS PATH..: times this library's calls and the Rust's, in turn, over the same chunks.
//!
//! A path is a chunk, or a folder of chunks that are timed together. Prints the least, the middle and the greatest time of each in
//! ns per chunk byte, and the ratio of the least times. `undump` is measure, then store with what it answered; measure, store and both stand
//! beside the Rust's undump. `undump 4` and `dump 4` are this library's calls on the same programs as chunks of width 4, beside its own at 8,
//! each per byte of its own chunks. `bench dump RUNS PATH..` runs this library's dump alone, for a profiler, `bench measure`, `bench store`
//! and `bench undump` those calls, and `bench plain` and `bench full` its listing.
//! The Rust's dump makes a vector and lets it grow, ours writes to lent memory; trees are dropped outside the time.

use std::hint::black_box;
use std::time::Instant;

use oracle::archive;
use oracle::hexnum;
use oracle::hexnum::listing::list_function;
use oracle::made::converted;
use oracle::measured::Need;
use oracle::requests::count;
use oracle::vm::dump::dump;
use oracle::vm::proto::ProtoRef;
use oracle::vm::undump::undump;

const NAME: &str = "=bench";

/// What can be run alone.
const ALONE: [&str; 6] = ["measure", "store", "undump", "dump", "plain", "full"];

/// A chunk, with space for what the calls leave.
struct Chunk {
    bytes: Vec<u8>,
    /// The same of width 4.
    narrow: Vec<u8>,
    tree: ProtoRef,
    /// The same with numbers that print as 16 digits, to list.
    hex: hexnum::proto::ProtoRef,
    /// What measure answers of it.
    need: Need,
    words: Vec<u32>,
    text: Vec<u8>,
    out: Vec<u8>,
    list: Vec<u8>,
}

impl Chunk {
    fn read(bytes: Vec<u8>) -> Chunk {
        let tree = undump(&bytes, NAME).unwrap();
        let hex = hexnum::undump::undump(&bytes, NAME).unwrap();
        let need = archive::measure(&bytes, NAME.as_bytes()).need();
        let (words, text) = archive::load(&bytes, NAME.as_bytes()).unwrap();
        // an address is longer than the number that stands for it
        let list = vec![0; list_function(&hex, true).len()];
        // room for any chunk of the store
        let out = vec![0; 12 + 5 * words.len() + text.len() + NAME.len()];
        Chunk { out, list, narrow: converted(&bytes), bytes, tree, hex, need, words, text }
    }

    fn measure(&self) -> usize {
        let m = archive::measure(black_box(&self.bytes), NAME.as_bytes());
        assert_eq!(m.refusal, 0);
        m.read
    }

    fn store(&mut self) -> usize {
        let s = archive::store(black_box(&self.bytes), NAME.as_bytes(), self.need, &mut self.words, &mut self.text);
        assert_eq!(s.refusal, 0);
        s.read
    }

    /// Both calls.
    fn undump(&mut self, width: usize) -> usize {
        let chunk = if width == 4 { &self.narrow } else { &self.bytes };
        let u = archive::undump(black_box(chunk), NAME.as_bytes(), &mut self.words, &mut self.text);
        assert_eq!(u.width as usize, width);
        u.read
    }

    /// Into space with room for any chunk of the store, or as long as the chunk.
    fn dump(&mut self, strip: bool, exact: bool, width: usize) -> usize {
        let len = if exact { self.bytes.len() } else { self.out.len() };
        let w = archive::dump(black_box(&self.words), &self.text, NAME.as_bytes(), strip, width, &mut self.out[..len]);
        assert_eq!(w.refusal, 0);
        w.len
    }

    fn list(&mut self, full: bool) -> usize {
        let w = archive::list_function(black_box(&self.words), &self.text, NAME.as_bytes(), full, &mut self.list);
        assert_eq!(w.refusal, 0);
        w.len
    }
}

fn chunks(path: &str) -> Vec<Chunk> {
    let mut files = vec![path.into()];
    if let Ok(dir) = std::fs::read_dir(path) {
        files = dir.map(|f| f.unwrap().path()).collect();
        files.sort();
    }
    files.iter().map(|f| Chunk::read(std::fs::read(f).unwrap())).collect()
}

/// The chunks of a path, their bytes at width 8 and at 4, and how often each time is taken.
struct Bench {
    chunks: Vec<Chunk>,
    bytes: usize,
    narrow: usize,
    runs: usize,
}

impl Bench {
    /// Nanoseconds a byte of f over all chunks, which have so many, small ones several times; what it answers is dropped outside the time.
    fn time<T>(&mut self, bytes: usize, mut f: impl FnMut(&mut Chunk) -> T) -> f64 {
        let times = 1_000_000 / self.bytes + 1;
        let mut answers = Vec::with_capacity(times * self.chunks.len());
        let start = Instant::now();
        for _ in 0..times {
            for chunk in &mut self.chunks {
                answers.push(black_box(f(chunk)));
            }
        }
        start.elapsed().as_nanos() as f64 / (times * bytes) as f64
    }

    /// Ours on chunks of so many bytes and another in turn, after one run each to warm up.
    fn both<T, U>(
        &mut self,
        call: &str,
        bytes: usize,
        mut ours: impl FnMut(&mut Chunk) -> T,
        name: &str,
        mut other: impl FnMut(&mut Chunk) -> U,
    ) {
        let (mut here, mut there) = (Vec::new(), Vec::new());
        for _ in 0..=self.runs {
            here.push(self.time(bytes, &mut ours));
            there.push(self.time(self.bytes, &mut other));
        }
        let ([a, b, c], [d, e, f]) = (sorted(here.split_off(1)), sorted(there.split_off(1)));
        println!("  {call:<11} ours {a:>8.3} {b:>8.3} {c:>8.3}   {name} {d:>9.3} {e:>9.3} {f:>9.3}   ratio {:.2}", a / d);
    }

    /// A call of ours and of the Rust.
    fn rust<T, U>(&mut self, call: &str, ours: impl FnMut(&mut Chunk) -> T, rust: impl FnMut(&mut Chunk) -> U) {
        self.both(call, self.bytes, ours, "the Rust", rust);
    }

    /// A call of ours at width 4 and at 8.
    fn widths(&mut self, call: &str, ours: impl Fn(&mut Chunk, usize) -> usize) {
        self.both(call, self.narrow, |c| ours(c, 4), "width 8 ", |c| ours(c, 8));
    }
}

/// Least, middle and greatest.
fn sorted(mut ns: Vec<f64>) -> [f64; 3] {
    ns.sort_by(f64::total_cmp);
    [ns[0], ns[ns.len() / 2], ns[ns.len() - 1]]
}

fn main() {
    let mut args: Vec<String> = std::env::args().skip(1).collect();
    let alone = args.first().filter(|a| ALONE.contains(&a.as_str())).cloned();
    if alone.is_some() {
        args.remove(0);
    }
    let runs: usize = args.first().and_then(|n| n.parse().ok()).unwrap_or_else(|| panic!("bench [{}] RUNS PATH..", ALONE.join(" | ")));
    for path in &args[1..] {
        let chunks = chunks(path);
        let bytes = chunks.iter().map(|c| c.bytes.len()).sum();
        let narrow = chunks.iter().map(|c| c.narrow.len()).sum();
        let mut b = Bench { chunks, bytes, narrow, runs };
        if let Some(call) = &alone {
            (0..runs).for_each(|_| {
                _ = b.time(bytes, |c| match call.as_str() {
                    "measure" => c.measure(),
                    "store" => c.store(),
                    "undump" => c.undump(8),
                    "dump" => c.dump(false, false, 8),
                    call => c.list(call == "full"),
                })
            });
            continue;
        }
        let functions: usize = b.chunks.iter().map(|c| count(&c.tree)).sum();
        let count = b.chunks.len();
        println!("{path}: {count} chunks, {bytes} bytes, {narrow} at width 4, {functions} functions, {runs} runs, ns a byte");
        let rust = |c: &mut Chunk| undump(black_box(&c.bytes), NAME);
        b.rust("measure", |c| c.measure(), rust);
        b.rust("store", |c| c.store(), rust);
        b.rust("undump", |c| c.undump(8), rust);
        b.widths("undump 4", Chunk::undump);
        for (call, strip, exact) in [("dump", false, false), ("dump strip", true, false), ("dump exact", false, true)] {
            b.rust(call, |c| c.dump(strip, exact, 8), |c| dump(black_box(&c.tree), None, strip).len());
        }
        b.widths("dump 4", |c, width| c.dump(false, false, width));
        for (call, full) in [("list plain", false), ("list full", true)] {
            b.rust(call, |c| c.list(full), |c| list_function(black_box(&c.hex), full).len());
        }
    }
}
