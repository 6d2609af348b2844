//! The Rust's listing without the lines that PrintCode of Lua's print.c does not print: those of the words behind a SETLIST with C 0.
//! The text is the Rust's, cut at its line ends: how many each part of a listing has follows from the tree, names with line ends too.

use crate::requests::{Reply, list_hex_numbers, load};
use crate::vm::instructions::{Instruction, OpCode};
use crate::vm::proto::Proto;

/// Which words of the code PrintCode prints a line for.
fn printed(code: &[u32]) -> Vec<bool> {
    let mut line = vec![false; code.len()];
    let mut pc = 0;
    while pc < code.len() {
        line[pc] = true;
        let (opcode, c) = (code[pc] & 0x3F, code[pc] >> 14 & 0x1FF);
        pc += if opcode == OpCode::SetList as u32 && c == 0 { 2 } else { 1 };
    }
    line
}

fn ends(text: &[u8]) -> usize {
    text.iter().filter(|b| **b == b'\n').count()
}

/// Line ends in the comment of an instruction: names of upvalues and of globals stand there as they are.
fn ends_in_comment(p: &Proto, i: Instruction) -> usize {
    match i.opcode() {
        OpCode::GetUpval | OpCode::SetUpval => p.upvalue_names.get(i.b() as usize).map_or(0, |name| ends(name.as_bytes())),
        OpCode::GetGlobal | OpCode::SetGlobal => p.string_pool.iter().find(|s| s.0 == i.bx()).map_or(0, |s| ends(&s.1)),
        _ => 0,
    }
}

/// What is left of the Rust's text, what is kept of it so far, and how many lines were not.
struct Cut<'a> {
    rest: &'a [u8],
    kept: Vec<u8>,
    left_out: u64,
}

impl Cut<'_> {
    /// The text up to the n-th line end.
    fn next(&mut self, n: usize) -> &[u8] {
        let ends = self.rest.iter().enumerate().filter(|(_, b)| **b == b'\n');
        let end = ends.map(|(i, _)| i + 1).take(n).last().unwrap_or(0);
        let (text, rest) = self.rest.split_at(end);
        self.rest = rest;
        text
    }

    fn keep(&mut self, n: usize) {
        let text = self.next(n).to_vec();
        self.kept.extend(text);
    }

    fn function(&mut self, p: &Proto, full: bool) {
        self.keep(2 + ends(p.source.as_bytes()));
        for (i, line) in p.code.iter().zip(printed(&p.code)) {
            let n = 1 + ends_in_comment(p, Instruction::from_raw(*i));
            if line {
                self.keep(n);
            } else {
                self.next(n);
                self.left_out += 1;
            }
        }
        if full {
            let locals: usize = p.local_vars.iter().map(|v| 1 + ends(v.name.as_bytes())).sum();
            let upvalues: usize = p.upvalue_names.iter().map(|u| 1 + ends(u.as_bytes())).sum();
            self.keep(3 + p.constants.len() + locals + upvalues);
        }
        for child in &p.protos {
            self.keep(1);
            self.function(child, full);
        }
    }
}

/// The listing of a chunk, with numbers and addresses as the scope prints them, and how many of the Rust's lines it is without.
pub fn list(chunk: &[u8], name: &str, full: bool) -> (Reply, u64) {
    let reply = list_hex_numbers(chunk, name, full);
    let (Reply::Bytes(text), Ok(tree)) = (&reply, load(chunk, name)) else { return (reply, 0) };
    let mut cut = Cut { rest: text, kept: Vec::new(), left_out: 0 };
    cut.function(&tree.root, full);
    assert!(cut.rest.is_empty(), "{} bytes behind the listing", cut.rest.len());
    (Reply::Bytes(cut.kept), cut.left_out)
}
