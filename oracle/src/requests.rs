//! The oracle's calls. Each runs the unchanged Rust and catches its panics.

use std::cell::RefCell;
use std::collections::{HashMap, HashSet};
use std::fmt::Write as _;
use std::panic::{AssertUnwindSafe, catch_unwind};

use crate::error::LuaError;
use crate::hexnum;
use crate::patch_string_constants;
use crate::vm::debug_info;
use crate::vm::dump::dump;
use crate::vm::instructions::{Instruction, OpCode};
use crate::vm::listing::list_function;
use crate::vm::proto::{Proto, ProtoRef};
use crate::vm::state::Gc;
use crate::vm::undump::undump;
use crate::vm::value::Val;

/// What a request is answered with.
#[derive(Debug, Clone, PartialEq, Eq)]
pub enum Reply {
    /// Bytes: a dump, a listing, a name.
    Bytes(Vec<u8>),
    /// A line of plain text: the canonical tree, a word, a number.
    Text(String),
    /// A kind and a name (getobjname).
    Named(&'static str, Vec<u8>),
    /// No name.
    None,
    /// The Rust's getobjname would never end.
    Endless,
    /// The Rust refused: number in the scope's table (2, 3, 4 or 5; 0 if unknown) and its message.
    Refused(u8, String),
    /// The Rust panicked, with this message.
    Panic(String),
    /// The request itself is wrong (no such function, name not UTF-8).
    Bad(String),
}

thread_local! {
    static LAST_PANIC: RefCell<String> = const { RefCell::new(String::new()) };
}

/// Silences panics and keeps their text for `Reply::Panic`. Call once.
pub fn install_panic_hook() {
    std::panic::set_hook(Box::new(|info| {
        let text = info.to_string();
        LAST_PANIC.with(|p| *p.borrow_mut() = text);
    }));
}

/// Runs `f`, turning a panic into a reply.
fn guarded<T>(f: impl FnOnce() -> T) -> Result<T, Reply> {
    catch_unwind(AssertUnwindSafe(f))
        .map_err(|_| Reply::Panic(LAST_PANIC.with(|p| p.borrow().clone())))
}

fn refused(e: &LuaError, name: &str) -> Reply {
    let message = match e {
        LuaError::Syntax(s) => s.message.clone(),
        other => other.to_string(),
    };
    let reason = message
        .strip_prefix(name)
        .and_then(|m| m.strip_prefix(": "))
        .and_then(|m| m.strip_suffix(" in precompiled chunk"));
    let number = match reason {
        Some("truncated") => 2,
        Some("not a precompiled chunk") => 3,
        Some("incompatible") | Some("incompatible precompiled chunk") => 4,
        Some("bad constant type") => 5,
        _ => 0,
    };
    Reply::Refused(number, message)
}

/// A chunk that was read, as undump gives it.
pub struct Tree {
    pub root: ProtoRef,
    /// The same tree with its pool strings interned as Val::Str, and their arena.
    patched: RefCell<Option<(ProtoRef, Gc)>>,
}

/// undump(chunk, name).
pub fn load(chunk: &[u8], name: &str) -> Result<Tree, Reply> {
    match guarded(|| undump(chunk, name))? {
        Ok(root) => Ok(Tree {
            root,
            patched: RefCell::new(None),
        }),
        Err(e) => Err(refused(&e, name)),
    }
}

/// Bytes that undump reads: the length of the shortest prefix that it accepts. undump does not
/// report its position, but it accepts a prefix exactly when the prefix holds all it reads.
pub fn bytes_read(chunk: &[u8], name: &str) -> Result<usize, Reply> {
    load(chunk, name)?;
    let (mut low, mut high) = (0, chunk.len());
    while low < high {
        let mid = low + (high - low) / 2;
        match load(&chunk[..mid], name) {
            Ok(_) => high = mid,
            Err(Reply::Refused(2, _)) => low = mid + 1,
            Err(other) => return Err(other),
        }
    }
    Ok(low)
}

// ---------------------------------------------------------------------------
// The canonical text of a tree
// ---------------------------------------------------------------------------

pub fn hex(bytes: &[u8]) -> String {
    const DIGITS: &[u8; 16] = b"0123456789abcdef";
    let mut out = String::with_capacity(bytes.len() * 2);
    for &b in bytes {
        out.push(DIGITS[usize::from(b >> 4)] as char);
        out.push(DIGITS[usize::from(b & 15)] as char);
    }
    out
}

fn list<T>(out: &mut String, label: &str, items: &[T], mut each: impl FnMut(&mut String, usize, &T)) {
    let _ = write!(out, " {label}={}[", items.len());
    for (i, item) in items.iter().enumerate() {
        if i > 0 {
            out.push(',');
        }
        each(out, i, item);
    }
    out.push(']');
}

fn write_tree(p: &Proto, out: &mut String) {
    let _ = write!(
        out,
        "F(source={} ld={} lld={} nup={} np={} va={} ms={}",
        hex(p.source.as_bytes()),
        p.line_defined,
        p.last_line_defined,
        p.num_upvalues,
        p.num_params,
        p.is_vararg,
        p.max_stack_size
    );
    // undump puts one pool entry for each string constant, in order of its index.
    let pool: HashMap<u32, &[u8]> = p.string_pool.iter().map(|(i, b)| (*i, b.as_slice())).collect();
    assert_eq!(pool.len(), p.string_pool.len(), "two pool entries for one constant");
    list(out, "code", &p.code, |o, _, w| {
        let _ = write!(o, "{w:08x}");
    });
    list(out, "k", &p.constants, |o, i, v| {
        let pooled = pool.get(&(i as u32));
        match (v, pooled) {
            (Val::Nil, Some(bytes)) => {
                o.push('S');
                o.push_str(&hex(bytes));
            }
            (Val::Nil, None) => o.push('N'),
            (Val::Bool(b), None) => {
                let _ = write!(o, "B{}", u8::from(*b));
            }
            (Val::Num(n), None) => {
                let _ = write!(o, "D{:016x}", n.to_bits());
            }
            other => panic!("constant {i} is {other:?}"),
        }
    });
    list(out, "p", &p.protos, |o, _, c| write_tree(c, o));
    list(out, "li", &p.line_info, |o, _, l| {
        let _ = write!(o, "{l}");
    });
    list(out, "lv", &p.local_vars, |o, _, v| {
        let _ = write!(o, "({},{},{})", hex(v.name.as_bytes()), v.start_pc, v.end_pc);
    });
    list(out, "uv", &p.upvalue_names, |o, _, n| o.push_str(&hex(n.as_bytes())));
    out.push(')');
}

// ---------------------------------------------------------------------------
// Functions by preorder number
// ---------------------------------------------------------------------------

fn nth<'a>(p: &'a ProtoRef, left: &mut usize) -> Option<&'a ProtoRef> {
    *left -= 1;
    if *left == 0 {
        return Some(p);
    }
    p.protos.iter().find_map(|c| nth(c, left))
}

fn pick(root: &ProtoRef, number: usize) -> Result<&ProtoRef, Reply> {
    let mut left = number;
    if number == 0 {
        return Err(Reply::Bad("functions are numbered from 1".into()));
    }
    nth(root, &mut left).ok_or_else(|| Reply::Bad(format!("no function {number}")))
}

/// How many functions the tree holds.
pub fn count(p: &Proto) -> usize {
    1 + p.protos.iter().map(|c| count(c)).sum::<usize>()
}

// ---------------------------------------------------------------------------
// Listings with addresses made into preorder numbers
// ---------------------------------------------------------------------------

fn hex_run(s: &[u8]) -> usize {
    s.iter()
        .take_while(|b| matches!(b, b'0'..=b'9' | b'a'..=b'f'))
        .count()
}

/// Two listings of two live copies of one tree differ exactly where an address stands, for no
/// function of one copy has the address of a function of the other. So a token 0x... that
/// differs is an address, and one that does not is text. Nothing is guessed from its form.
fn normalise(
    one: &[u8],
    other: &[u8],
    of_one: &HashMap<usize, usize>,
    of_other: &HashMap<usize, usize>,
) -> Vec<u8> {
    let mut out = Vec::with_capacity(one.len());
    let (mut i, mut j) = (0, 0);
    while i < one.len() || j < other.len() {
        if one[i..].starts_with(b"0x") && other[j..].starts_with(b"0x") {
            let (a, b) = (hex_run(&one[i + 2..]), hex_run(&other[j + 2..]));
            let (ta, tb) = (&one[i + 2..i + 2 + a], &other[j + 2..j + 2 + b]);
            if ta != tb {
                let value = |t: &[u8]| {
                    usize::from_str_radix(std::str::from_utf8(t).unwrap(), 16).expect("an address")
                };
                let n = of_one[&value(ta)];
                assert_eq!(n, of_other[&value(tb)], "the copies' addresses disagree");
                out.push(b'#');
                out.extend_from_slice(n.to_string().as_bytes());
                i += 2 + a;
                j += 2 + b;
                continue;
            }
        }
        assert_eq!(one.get(i), other.get(j), "the copies' listings differ off an address");
        out.push(one[i]);
        i += 1;
        j += 1;
    }
    out
}

fn addresses(p: &ProtoRef, out: &mut HashMap<usize, usize>) {
    let number = out.len() + 1;
    assert!(out.insert(ProtoRef::as_ptr(p) as usize, number).is_none());
    for c in &p.protos {
        addresses(c, out);
    }
}

fn hex_addresses(p: &hexnum::proto::ProtoRef, out: &mut HashMap<usize, usize>) {
    let number = out.len() + 1;
    assert!(out.insert(hexnum::proto::ProtoRef::as_ptr(p) as usize, number).is_none());
    for c in &p.protos {
        hex_addresses(c, out);
    }
}

/// The listing with the Rust's own numbers (%.14g) and addresses as # and preorder number.
pub fn list_lua_numbers(chunk: &[u8], name: &str, full: bool) -> Reply {
    let run = || -> Result<Reply, Reply> {
        let (a, b) = (load(chunk, name)?, load(chunk, name)?);
        let (ta, tb) = guarded(|| (list_function(&a.root, full), list_function(&b.root, full)))?;
        let (mut ma, mut mb) = (HashMap::new(), HashMap::new());
        addresses(&a.root, &mut ma);
        addresses(&b.root, &mut mb);
        Ok(Reply::Bytes(normalise(ta.as_bytes(), tb.as_bytes(), &ma, &mb)))
    };
    run().unwrap_or_else(|r| r)
}

/// The listing with number constants as 0x and 16 digits and addresses as # and preorder number.
pub fn list_hex_numbers(chunk: &[u8], name: &str, full: bool) -> Reply {
    let run = || -> Result<Reply, Reply> {
        let read = || {
            guarded(|| hexnum::undump::undump(chunk, name))?.map_err(|e| refused(&e, name))
        };
        let (a, b) = (read()?, read()?);
        let (ta, tb) = guarded(|| {
            (
                hexnum::listing::list_function(&a, full),
                hexnum::listing::list_function(&b, full),
            )
        })?;
        let (mut ma, mut mb) = (HashMap::new(), HashMap::new());
        hex_addresses(&a, &mut ma);
        hex_addresses(&b, &mut mb);
        Ok(Reply::Bytes(normalise(ta.as_bytes(), tb.as_bytes(), &ma, &mb)))
    };
    run().unwrap_or_else(|r| r)
}

// ---------------------------------------------------------------------------
// Calls on a tree
// ---------------------------------------------------------------------------

impl Tree {
    pub fn text(&self) -> Reply {
        let mut out = String::new();
        write_tree(&self.root, &mut out);
        Reply::Text(out)
    }

    pub fn dump(&self, strip: bool) -> Reply {
        match guarded(|| dump(&self.root, None, strip)) {
            Ok(bytes) => Reply::Bytes(bytes),
            Err(r) => r,
        }
    }

    pub fn function(&self, number: usize) -> Result<&Proto, Reply> {
        pick(&self.root, number).map(|p| &**p)
    }

    pub fn symbexec(&self, number: usize, lastpc: usize, reg: u32) -> Reply {
        let run = || -> Result<Reply, Reply> {
            let p = self.function(number)?;
            let word = guarded(|| debug_info::symbexec(p, lastpc, reg))?;
            Ok(Reply::Text(format!("{word:08x}")))
        };
        run().unwrap_or_else(|r| r)
    }

    pub fn local_name(&self, number: usize, local: usize, pc: usize) -> Reply {
        let run = || -> Result<Reply, Reply> {
            let p = self.function(number)?;
            Ok(match guarded(|| debug_info::get_local_name(p, local, pc))? {
                Some(name) => Reply::Bytes(name.as_bytes().to_vec()),
                None => Reply::None,
            })
        };
        run().unwrap_or_else(|r| r)
    }

    /// The patched tree, made as Lua::run_proto makes it (lib.rs).
    fn with_patched<T>(&self, f: impl FnOnce(&ProtoRef, &Gc) -> T) -> T {
        let mut slot = self.patched.borrow_mut();
        let (root, gc) = slot.get_or_insert_with(|| {
            let mut gc = Gc::new();
            let mut proto: Proto = (*self.root).clone();
            patch_string_constants(&mut proto, &mut gc);
            (ProtoRef::new(proto), gc)
        });
        f(root, gc)
    }

    pub fn kname(&self, number: usize, c: u32) -> Reply {
        self.with_patched(|root, gc| {
            let run = || -> Result<Reply, Reply> {
                let p = pick(root, number)?;
                let name = guarded(|| debug_info::kname(p, c, &gc.string_arena))?;
                Ok(Reply::Bytes(name.into_bytes()))
            };
            run().unwrap_or_else(|r| r)
        })
    }

    pub fn getobjname(&self, number: usize, pc: usize, reg: u32) -> Reply {
        self.with_patched(|root, gc| {
            let run = || -> Result<Reply, Reply> {
                let p = pick(root, number)?;
                if guarded(|| endless(p, pc, reg))? {
                    return Ok(Reply::Endless);
                }
                Ok(
                    match guarded(|| debug_info::getobjname(p, pc, reg, &gc.string_arena))? {
                        Some((kind, name)) => Reply::Named(kind, name.into_bytes()),
                        None => Reply::None,
                    },
                )
            };
            run().unwrap_or_else(|r| r)
        })
    }
}

/// Whether getobjname would call itself for ever. It calls itself only on a MOVE with B below A
/// that symbexec found for a register without a local name, with the same function and pc; so it
/// never ends exactly when a register comes up twice. Both steps are the unchanged functions.
pub fn endless(p: &Proto, pc: usize, reg: u32) -> bool {
    let mut seen = HashSet::new();
    let mut r = reg;
    while seen.insert(r) {
        if debug_info::get_local_name(p, r.wrapping_add(1) as usize, pc).is_some() {
            return false;
        }
        let i = Instruction::from_raw(debug_info::symbexec(p, pc, r));
        if i.opcode() != OpCode::Move || i.b() >= i.a() {
            return false;
        }
        r = i.b();
    }
    true
}
