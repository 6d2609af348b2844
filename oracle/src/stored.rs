//! The tree that a store holds, as the Rust has it. The Rust has no stores: the check is written here from the scope.

use crate::vm::proto::{LocalVar, Proto, ProtoRef};
use crate::vm::value::Val;

/// The most words, and the most text bytes.
pub const MOST: usize = 16_777_216;

struct Walk<'a> {
    words: &'a [u32],
    text: &'a [u8],
}

impl<'a> Walk<'a> {
    fn word(&mut self) -> Option<u32> {
        let (first, rest) = self.words.split_first()?;
        self.words = rest;
        Some(*first)
    }

    fn list<T>(&mut self, mut item: impl FnMut(&mut Self) -> Option<T>) -> Option<Vec<T>> {
        let n = self.word().filter(|n| *n <= 65_535)?;
        (0..n).map(|_| item(self)).collect()
    }

    /// A string of the text, to is where the one before it ended.
    fn bytes(&mut self, to: &mut usize) -> Option<&'a [u8]> {
        let (place, len) = (self.word()? as usize, self.word()? as usize);
        let bytes = self.text.get(place..place + len).filter(|_| place == *to)?;
        *to += len;
        Some(bytes)
    }

    fn name(&mut self, to: &mut usize) -> Option<String> {
        String::from_utf8(self.bytes(to)?.to_vec()).ok()
    }

    fn constant(&mut self, to: &mut usize) -> Option<(Val, Option<Vec<u8>>)> {
        Some(match self.word()? {
            4 => (Val::Nil, Some(self.bytes(to)?.to_vec())),
            tag => match (tag, self.word()?, self.word()?) {
                (0, 0, 0) => (Val::Nil, None),
                (1, b @ (0 | 1), 0) => (Val::Bool(b == 1), None),
                (3, high, low) => (Val::Num(f64::from_bits(u64::from(high) << 32 | u64::from(low))), None),
                _ => return None,
            },
        })
    }

    fn function(&mut self, to: &mut usize, outer: &str, depth: usize) -> Option<Proto> {
        if 200 < depth {
            return None;
        }
        let source = match self.word()? {
            0 if (self.word()?, self.word()?) == (0, 0) => outer.to_string(),
            1 => self.name(to)?,
            _ => return None,
        };
        let mut p = Proto::new(&source);
        p.line_defined = self.word()?;
        p.last_line_defined = self.word()?;
        [p.num_upvalues, p.num_params, p.is_vararg, p.max_stack_size] = self.word()?.to_be_bytes();
        p.code = self.list(Self::word)?;
        for (i, (k, string)) in self.list(|w| w.constant(to))?.into_iter().enumerate() {
            p.constants.push(k);
            p.string_pool.extend(string.map(|bytes| (i as u32, bytes)));
        }
        p.protos = self.list(|w| Some(ProtoRef::new(w.function(to, &source, depth + 1)?)))?;
        p.line_info = self.list(Self::word)?;
        p.local_vars = self.list(|w| {
            let name = w.name(to)?;
            Some(LocalVar { name, start_pc: w.word()?, end_pc: w.word()? })
        })?;
        p.upvalue_names = self.list(|w| w.name(to))?;
        Some(p)
    }
}

/// None where the store is not well formed. An inherited root source is the name.
pub fn tree_of(words: &[u32], text: &[u8], name: &str) -> Option<Proto> {
    if MOST < words.len() || MOST < text.len() {
        return None;
    }
    let (mut walk, mut to) = (Walk { words, text }, 0);
    let p = walk.function(&mut to, name, 1)?;
    (walk.words.is_empty() && to == text.len()).then_some(p)
}
