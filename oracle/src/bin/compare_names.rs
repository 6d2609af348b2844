//! compare_names DIR: asks the questions of DIR/N.cases, which names.rs writes, through the exported calls, and compares the answers with
//! DIR/N.expected. The form of a case stands in crates/test_names/src/main.rt. Four bytes around each output must stay as they are.

use std::fmt::Write as _;

use oracle::archive;

/// What no call has written, in the output and around it.
const LENT: u8 = 7;
const GUARD: u8 = 0xA5;

/// As many records as the program has; one before and one behind them must stay as they are.
const RECORDS: usize = 8;

struct Cases<'a> {
    bytes: &'a [u8],
    words: Vec<u32>,
    text: Vec<u8>,
    lines: String,
    questions: u64,
}

impl Cases<'_> {
    /// The next n bytes as a number, low byte first.
    fn number(&mut self, n: usize) -> usize {
        let (front, rest) = self.bytes.split_at(n);
        self.bytes = rest;
        front.iter().rev().fold(0, |v, b| v << 8 | *b as usize)
    }

    fn store(&mut self) {
        self.words.clear();
        for _ in 0..self.number(2) {
            let (times, word) = (self.number(2), self.number(4));
            self.words.extend(vec![word as u32; times]);
        }
        let n = self.number(2);
        let (text, rest) = self.bytes.split_at(n);
        (self.text, self.bytes) = (text.to_vec(), rest);
    }

    fn question(&mut self, letter: u8) {
        self.questions += 1;
        let (len, place) = (self.number(1), self.number(4));
        let mut space = vec![GUARD; len + 8];
        space[4..4 + len].fill(LENT);
        let (words, text) = (std::mem::take(&mut self.words), std::mem::take(&mut self.text));
        let out = &mut space[4..4 + len];
        let mut records = [archive::LocalRecord { place: 7, len: 7, start: 7, end: 7 }; RECORDS + 2];
        let numbers = match letter {
            b'X' => {
                let r = archive::symbexec(&words, &text, place, self.number(8), self.number(4) as u32);
                format!("{} {} ", r.refusal, r.instruction)
            }
            b'K' => {
                let r = archive::kname(&words, &text, place, self.number(4) as u32, out);
                format!("{} {} ", r.refusal, r.len)
            }
            _ => {
                let r = if letter == b'R' {
                    let (number, pc, k) = (self.number(8), self.number(8), self.number(1));
                    archive::get_local_name_in(&mut records[1..1 + k], &words, &text, place, number, pc, out)
                } else if letter == b'L' {
                    archive::get_local_name(&words, &text, place, self.number(8), self.number(8), out)
                } else {
                    archive::getobjname(&words, &text, place, self.number(8), self.number(4) as u32, out)
                };
                format!("{} {} {} ", r.refusal, r.kind, r.len)
            }
        };
        (self.words, self.text) = (words, text);
        assert!(space[..4].iter().chain(&space[4 + len..]).all(|b| *b == GUARD));
        self.lines += &numbers;
        if letter != b'X' {
            self.lines.push(':');
            space[4..4 + len].iter().for_each(|b| write!(self.lines, " {b:02x}").unwrap());
        }
        assert!([records[0], records[RECORDS + 1]].iter().all(|r| [r.place, r.len, r.start, r.end] == [7; 4]));
        if letter == b'R' {
            for r in &records[1..=RECORDS] {
                write!(self.lines, " {:x} {:x} {:x} {:x}", r.place, r.len, r.start, r.end).unwrap();
            }
        }
        self.lines.push('\n');
    }
}

fn main() {
    let (mut questions, mut differ) = (0, 0);
    for file in std::fs::read_dir(std::env::args().nth(1).expect("compare_names DIR")).unwrap() {
        let path = file.unwrap().path();
        if path.extension().is_some_and(|e| e == "cases") {
            let bytes = std::fs::read(&path).unwrap();
            let mut cases = Cases { bytes: &bytes, words: Vec::new(), text: Vec::new(), lines: String::new(), questions: 0 };
            while !cases.bytes.is_empty() {
                match cases.number(1) as u8 {
                    b'S' => cases.store(),
                    letter => cases.question(letter),
                }
            }
            questions += cases.questions;
            let expected = std::fs::read_to_string(path.with_extension("expected")).unwrap();
            for (ours, theirs) in cases.lines.lines().zip(expected.lines()).filter(|(a, b)| a != b) {
                println!("{}: {ours} and not {theirs}", path.display());
                differ += 1;
            }
            differ += cases.lines.lines().count().abs_diff(expected.lines().count());
        }
    }
    println!("{questions} questions, {differ} differ");
    assert_eq!(differ, 0);
}
