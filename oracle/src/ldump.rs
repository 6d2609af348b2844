//! Writes chunks of both widths, string sizes of 4 bytes and of 8. Written after ldump.c, in its order, apart from the Rust, which writes
//! width 8 alone: at 8 the two must agree, and at 4 this is the measure.
//!
//! Where the scope decides against ldump.c it is followed: sources are compared by their bytes, the root's with the empty string, and
//! strip keeps them.

use crate::lundump::header;
use crate::vm::proto::Proto;
use crate::vm::value::Val;

struct DumpState {
    out: Vec<u8>,
    strip: bool,
    width: usize,
}

impl DumpState {
    fn dump_char(&mut self, y: u8) {
        self.out.push(y);
    }

    fn dump_int(&mut self, x: u32) {
        self.out.extend(x.to_le_bytes());
    }

    fn dump_count(&mut self, n: usize) {
        self.dump_int(u32::try_from(n).unwrap());
    }

    fn dump_size(&mut self, n: usize) {
        self.out.extend(size(n as u64, self.width));
    }

    fn dump_string(&mut self, s: Option<&[u8]>) {
        let Some(s) = s else { return self.dump_size(0) };
        self.dump_size(s.len() + 1);
        self.out.extend(s);
        self.dump_char(0);
    }

    fn dump_vector(&mut self, b: &[u32]) {
        self.dump_count(b.len());
        b.iter().for_each(|x| self.dump_int(*x));
    }

    fn dump_constants(&mut self, f: &Proto) {
        self.dump_count(f.constants.len());
        // the strings stand in the order of their constants
        let mut strings = f.string_pool.iter().peekable();
        for (i, k) in f.constants.iter().enumerate() {
            match (k, strings.next_if(|(at, _)| *at as usize == i)) {
                (Val::Nil, None) => self.dump_char(0),
                (Val::Bool(b), None) => self.out.extend([1, u8::from(*b)]),
                (Val::Num(n), None) => {
                    self.dump_char(3);
                    self.out.extend(n.to_le_bytes());
                }
                (Val::Nil, Some((_, s))) => {
                    self.dump_char(4);
                    self.dump_string(Some(s));
                }
                other => panic!("constant {i} is {other:?}"),
            }
        }
        self.dump_count(f.protos.len());
        for child in &f.protos {
            self.dump_function(child, &f.source);
        }
    }

    fn dump_debug(&mut self, f: &Proto) {
        if self.strip {
            return self.out.extend([0; 12]);
        }
        self.dump_vector(&f.line_info);
        self.dump_count(f.local_vars.len());
        for v in &f.local_vars {
            self.dump_string(Some(v.name.as_bytes()));
            self.dump_int(v.start_pc);
            self.dump_int(v.end_pc);
        }
        self.dump_count(f.upvalue_names.len());
        for name in &f.upvalue_names {
            self.dump_string(Some(name.as_bytes()));
        }
    }

    fn dump_function(&mut self, f: &Proto, p: &str) {
        self.dump_string((f.source != p).then_some(f.source.as_bytes()));
        self.dump_int(f.line_defined);
        self.dump_int(f.last_line_defined);
        self.out.extend([f.num_upvalues, f.num_params, f.is_vararg, f.max_stack_size]);
        self.dump_vector(&f.code);
        self.dump_constants(f);
        self.dump_debug(f);
    }
}

/// A size in so many bytes, which must be enough.
pub fn size(n: u64, width: usize) -> Vec<u8> {
    let bytes = n.to_le_bytes();
    assert!(bytes[width..].iter().all(|b| *b == 0));
    bytes[..width].to_vec()
}

/// The chunk of a tree, with sizes of this width.
pub fn dump(f: &Proto, strip: bool, width: usize) -> Vec<u8> {
    let mut d = DumpState { out: header(width).to_vec(), strip, width };
    d.dump_function(f, "");
    d.out
}
