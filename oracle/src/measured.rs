//! What measure and store must answer. The Rust has neither call: the limit, 15 and the order of the refusals are written here from the
//! scope. What stands in a chunk, or refuses it by 2 to 7, is what src/lundump.rs finds.

use std::fmt::Write as _;

use crate::lundump::Loaded;
use crate::made::{Found, Store};
use crate::stored::MOST;

/// The numbers of an answer: the refusal, the width, the words, the text bytes and the bytes read.
pub type Numbers = [usize; 5];

/// The last three, as store is given them.
pub type Need = [usize; 3];

/// What measure answers of all words or text bytes above the limit.
pub const ABOVE: usize = MOST + 1;

/// What stands in a chunk: its width, the words and the text bytes of its tree, however many there are, and the bytes read.
#[derive(Debug, Clone, Copy)]
pub struct Counted {
    pub width: usize,
    pub words: usize,
    pub text: usize,
    pub read: usize,
}

impl Counted {
    pub fn of(loaded: &Loaded, store: &Store) -> Counted {
        Counted { width: loaded.width, words: store.words.len(), text: store.text.len(), read: loaded.read }
    }

    pub fn found(f: &Found) -> Counted {
        Counted { width: f.width, words: f.store.words.len(), text: f.store.text.len(), read: f.read }
    }
}

/// Zeros beside the number.
fn refused(number: usize) -> Numbers {
    [number, 0, 0, 0, 0]
}

fn bad(name: &[u8]) -> bool {
    MOST < name.len() || std::str::from_utf8(name).is_err()
}

/// What measure answers: 1; 2 to 7; or the numbers of the tree.
pub fn expected_measure(name: &[u8], chunk: Result<Counted, u8>) -> Numbers {
    match chunk {
        _ if bad(name) => refused(1),
        Err(n) => refused(n.into()),
        Ok(c) => [0, c.width, c.words.min(ABOVE), c.text.min(ABOVE), c.read],
    }
}

/// What store answers, given these numbers and so many words and text bytes lent: 1; 2 to 7; 15; 8; 9; or what measure answers.
pub fn expected_store(name: &[u8], chunk: Result<Counted, u8>, need: Need, lent: [usize; 2]) -> Numbers {
    let measured = expected_measure(name, chunk);
    match chunk {
        _ if measured[0] != 0 => measured,
        _ if need != measured[2..] => refused(15),
        Ok(c) if c.words > lent[0] || c.words > MOST => refused(8),
        Ok(c) if c.text > lent[1] || c.text > MOST => refused(9),
        _ => measured,
    }
}

/// What store is given where it is called right: what measure answers.
pub fn right(chunk: Result<Counted, u8>) -> Need {
    let [_, _, words, text, read] = expected_measure(b"", chunk);
    [words, text, read]
}

/// Other numbers than the right ones, no two alike: each of the three one more, one less, 0, as great as it can be, the same in its low 32
/// bits, and the true count where that is above the limit; two of them or all exchanged; all of them 0, one more, as great as they can be;
/// and two that are wrong by as much.
pub fn others(chunk: Result<Counted, u8>) -> Vec<Need> {
    let right = right(chunk);
    let [w, t, r] = right;
    let truth = chunk.map_or(right, |c| [c.words, c.text, c.read]);
    let mut all = vec![[t, w, r], [w, r, t], [r, t, w], [t, r, w], [r, w, t], [0; 3], [usize::MAX; 3], right.map(|n| n + 1)];
    all.extend([[w + 1, t.wrapping_sub(1), r], [w, t + 1, r.wrapping_sub(1)]]);
    for (i, n) in right.into_iter().enumerate() {
        for other in [n + 1, n.wrapping_sub(1), 0, usize::MAX, n + (1 << 32), truth[i]] {
            let mut need = right;
            need[i] = other;
            all.push(need);
        }
    }
    all.sort_unstable();
    all.dedup();
    all.retain(|need| *need != right);
    all
}

/// As the programs write them: each in decimal, and a blank.
pub fn numbers(answer: Numbers) -> String {
    answer.iter().map(|n| format!("{n} ")).collect()
}

/// The line of the programs for what store answers and leaves of so many words and text bytes lent, in each of which 7 stands before.
pub fn store_line(answer: Numbers, store: Option<&Store>, lent: [usize; 2]) -> String {
    let (mut words, mut text) = (vec![7; lent[0]], vec![7; lent[1]]);
    if answer[0] == 0 {
        let store = store.unwrap();
        words[..store.words.len()].copy_from_slice(&store.words);
        text[..store.text.len()].copy_from_slice(&store.text);
    }
    left_line(answer, &words, &text)
}

/// The same, these words and text bytes being left.
pub fn left_line(answer: Numbers, words: &[u32], text: &[u8]) -> String {
    let mut line = numbers(answer) + ":";
    words.iter().for_each(|w| write!(line, " {w:x}").unwrap());
    line.push_str(" :");
    text.iter().for_each(|b| write!(line, " {b:02x}").unwrap());
    line.push('\n');
    line
}
