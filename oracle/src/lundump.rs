//! Reads chunks of both widths, string sizes of 4 bytes and of 8. Written after lundump.c, with its names and in its order, apart from the
//! Rust, which reads width 8 alone: at 8 the two must agree, and at 4 this is the measure.
//!
//! Where the scope decides against lundump.c it is followed: refusals 2 to 7; no int but a count is refused; a string of size 0 is empty,
//! a root without source has the chunk name; sources and names are repaired; code is not checked; the bytes read are told.

use crate::vm::proto::{LocalVar, Proto, ProtoRef};
use crate::vm::value::Val;

pub const LUA_SIGNATURE: &[u8; 4] = b"\x1bLua";

/// The most items of a list, and the most functions nested.
const MAX_ITEMS: u32 = 65_535;
const MAX_DEPTH: usize = 200;

/// The header of a chunk of this width.
pub fn header(width: usize) -> [u8; 12] {
    let [e, l, u, a] = *LUA_SIGNATURE;
    [e, l, u, a, 0x51, 0, 1, 4, width as u8, 4, 8, 0]
}

/// Whether a chunk has the header of width 4, so that the Rust refuses it.
pub fn narrow(chunk: &[u8]) -> bool {
    chunk.starts_with(&header(4))
}

/// What stands in a chunk.
pub struct Loaded {
    pub root: Proto,
    /// For each function in preorder, whether its source is its own.
    pub own: Vec<bool>,
    pub width: usize,
    pub read: usize,
    /// The bytes read, with sizes of the other width.
    pub other: Vec<u8>,
}

type Load<T> = Result<T, u8>;

struct LoadState<'a> {
    /// The bytes not yet read.
    z: &'a [u8],
    width: usize,
    own: Vec<bool>,
    other: Vec<u8>,
}

impl<'a> LoadState<'a> {
    fn bytes(&mut self, size: u64) -> Load<&'a [u8]> {
        if (self.z.len() as u64) < size {
            return Err(2);
        }
        let (block, rest) = self.z.split_at(size as usize);
        self.z = rest;
        Ok(block)
    }

    fn load_block(&mut self, size: u64) -> Load<&'a [u8]> {
        let block = self.bytes(size)?;
        self.other.extend(block);
        Ok(block)
    }

    fn load_char(&mut self) -> Load<u8> {
        Ok(self.load_block(1)?[0])
    }

    fn load_int(&mut self) -> Load<u32> {
        Ok(u32::from_le_bytes(self.load_block(4)?.try_into().unwrap()))
    }

    fn load_count(&mut self) -> Load<u32> {
        let n = self.load_int()?;
        if n <= MAX_ITEMS { Ok(n) } else { Err(6) }
    }

    fn load_number(&mut self) -> Load<f64> {
        Ok(f64::from_le_bytes(self.load_block(8)?.try_into().unwrap()))
    }

    fn load_size(&mut self) -> Load<u64> {
        let bytes = self.bytes(self.width as u64)?;
        let size = bytes.iter().rev().fold(0, |n, b| n << 8 | u64::from(*b));
        self.other.extend(&size.to_le_bytes()[..12 - self.width]);
        Ok(size)
    }

    /// None where the size is 0. The last byte is left out, whatever it is.
    fn load_string(&mut self) -> Load<Option<&'a [u8]>> {
        match self.load_size()? {
            0 => Ok(None),
            size => Ok(self.load_block(size)?.split_last().map(|(_, string)| string)),
        }
    }

    fn load_name(&mut self) -> Load<String> {
        Ok(repaired(self.load_string()?.unwrap_or_default()))
    }

    fn load_code(&mut self, f: &mut Proto) -> Load<()> {
        for _ in 0..self.load_count()? {
            f.code.push(self.load_int()?);
        }
        Ok(())
    }

    fn load_constants(&mut self, f: &mut Proto, depth: usize) -> Load<()> {
        for i in 0..self.load_count()? {
            let k = match self.load_char()? {
                0 => Val::Nil,
                1 => Val::Bool(self.load_char()? != 0),
                3 => Val::Num(self.load_number()?),
                4 => {
                    f.string_pool.push((i, self.load_string()?.unwrap_or_default().to_vec()));
                    Val::Nil
                }
                _ => return Err(5),
            };
            f.constants.push(k);
        }
        for _ in 0..self.load_count()? {
            f.protos.push(ProtoRef::new(self.load_function(&f.source, depth + 1)?));
        }
        Ok(())
    }

    fn load_debug(&mut self, f: &mut Proto) -> Load<()> {
        for _ in 0..self.load_count()? {
            f.line_info.push(self.load_int()?);
        }
        for _ in 0..self.load_count()? {
            f.local_vars.push(LocalVar { name: self.load_name()?, start_pc: self.load_int()?, end_pc: self.load_int()? });
        }
        for _ in 0..self.load_count()? {
            f.upvalue_names.push(self.load_name()?);
        }
        Ok(())
    }

    fn load_function(&mut self, p: &str, depth: usize) -> Load<Proto> {
        if MAX_DEPTH < depth {
            return Err(7);
        }
        let source = self.load_string()?;
        self.own.push(source.is_some());
        let mut f = Proto::new(&source.map_or(p.to_string(), repaired));
        f.line_defined = self.load_int()?;
        f.last_line_defined = self.load_int()?;
        f.num_upvalues = self.load_char()?;
        f.num_params = self.load_char()?;
        f.is_vararg = self.load_char()?;
        f.max_stack_size = self.load_char()?;
        self.load_code(&mut f)?;
        self.load_constants(&mut f, depth)?;
        self.load_debug(&mut f)?;
        Ok(f)
    }

    fn load_header(&mut self) -> Load<()> {
        if self.bytes(4)? != LUA_SIGNATURE {
            return Err(3);
        }
        let rest = self.bytes(8)?;
        self.width = [4, 8].into_iter().find(|w| header(*w)[4..] == *rest).ok_or(4)?;
        self.other.extend(header(12 - self.width));
        Ok(())
    }
}

fn repaired(bytes: &[u8]) -> String {
    String::from_utf8_lossy(bytes).into_owned()
}

/// The chunk under this name, or the refusal.
pub fn undump(chunk: &[u8], name: &str) -> Result<Loaded, u8> {
    let mut s = LoadState { z: chunk, width: 0, own: Vec::new(), other: Vec::new() };
    s.load_header()?;
    let root = s.load_function(name, 1)?;
    Ok(Loaded { root, read: chunk.len() - s.z.len(), own: s.own, width: s.width, other: s.other })
}
