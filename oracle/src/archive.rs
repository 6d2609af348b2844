//! This library's exported calls, through its archive.

use crate::measured::{Need, Numbers};

#[repr(C)]
#[derive(Debug, Clone, Copy, PartialEq)]
pub struct Undumped {
    pub refusal: u32,
    pub width: u32,
    pub words: usize,
    pub text: usize,
    pub read: usize,
}

impl Undumped {
    /// As src/measured.rs has them.
    pub fn numbers(self) -> Numbers {
        [self.refusal as usize, self.width as usize, self.words, self.text, self.read]
    }

    /// What store is given of it.
    pub fn need(self) -> Need {
        [self.words, self.text, self.read]
    }
}

#[repr(C)]
#[derive(Debug, Clone, Copy, PartialEq)]
pub struct Written {
    pub refusal: u32,
    pub len: usize,
}

#[repr(C)]
#[derive(Debug, Clone, Copy, PartialEq)]
pub struct SourceAt {
    pub refusal: u32,
    pub in_text: u32,
    pub start: usize,
    pub end: usize,
}

#[repr(C)]
#[derive(Debug, Clone, Copy, PartialEq)]
pub struct SymbExec {
    pub refusal: u32,
    pub instruction: u32,
}

#[repr(C)]
#[derive(Debug, Clone, Copy, PartialEq)]
pub struct Named {
    pub refusal: u32,
    pub kind: u32,
    pub len: usize,
}

#[repr(C)]
#[derive(Debug, Clone, Copy, PartialEq)]
pub struct LocalRecord {
    pub place: u32,
    pub len: u32,
    pub start: u32,
    pub end: u32,
}

unsafe extern "C" {
    fn lua_chunk_symbexec(
        words: *const u32,
        words_len: usize,
        text: *const u8,
        text_len: usize,
        place: usize,
        lastpc: usize,
        reg: u32,
    ) -> SymbExec;
    fn lua_chunk_get_local_name(
        words: *const u32,
        words_len: usize,
        text: *const u8,
        text_len: usize,
        place: usize,
        local_number: usize,
        pc: usize,
        out: *mut u8,
        out_len: usize,
    ) -> Named;
    fn lua_chunk_get_local_name_in(
        records: *mut LocalRecord,
        records_len: usize,
        words: *const u32,
        words_len: usize,
        text: *const u8,
        text_len: usize,
        place: usize,
        local_number: usize,
        pc: usize,
        out: *mut u8,
        out_len: usize,
    ) -> Named;
    fn lua_chunk_kname(
        words: *const u32,
        words_len: usize,
        text: *const u8,
        text_len: usize,
        place: usize,
        c: u32,
        out: *mut u8,
        out_len: usize,
    ) -> Written;
    fn lua_chunk_getobjname(
        words: *const u32,
        words_len: usize,
        text: *const u8,
        text_len: usize,
        place: usize,
        pc: usize,
        stackpos: u32,
        out: *mut u8,
        out_len: usize,
    ) -> Named;
    fn lua_chunk_source_at(
        words: *const u32,
        words_len: usize,
        text: *const u8,
        text_len: usize,
        name: *const u8,
        name_len: usize,
        place: usize,
    ) -> SourceAt;
    fn lua_chunk_measure(chunk: *const u8, chunk_len: usize, name: *const u8, name_len: usize) -> Undumped;

    fn lua_chunk_store(
        chunk: *const u8,
        chunk_len: usize,
        name: *const u8,
        name_len: usize,
        need_words: usize,
        need_text: usize,
        need_read: usize,
        words: *mut u32,
        words_len: usize,
        text: *mut u8,
        text_len: usize,
    ) -> Undumped;

    fn lua_chunk_dump(
        words: *const u32,
        words_len: usize,
        text: *const u8,
        text_len: usize,
        name: *const u8,
        name_len: usize,
        strip: bool,
        size_4: bool,
        out: *mut u8,
        out_len: usize,
    ) -> Written;

    fn lua_chunk_list_function(
        words: *const u32,
        words_len: usize,
        text: *const u8,
        text_len: usize,
        name: *const u8,
        name_len: usize,
        full: bool,
        out: *mut u8,
        out_len: usize,
    ) -> Written;
}

pub fn measure(chunk: &[u8], name: &[u8]) -> Undumped {
    unsafe { lua_chunk_measure(chunk.as_ptr(), chunk.len(), name.as_ptr(), name.len()) }
}

pub fn store(chunk: &[u8], name: &[u8], need: Need, words: &mut [u32], text: &mut [u8]) -> Undumped {
    let [need_words, need_text, need_read] = need;
    unsafe {
        lua_chunk_store(
            chunk.as_ptr(),
            chunk.len(),
            name.as_ptr(),
            name.len(),
            need_words,
            need_text,
            need_read,
            words.as_mut_ptr(),
            words.len(),
            text.as_mut_ptr(),
            text.len(),
        )
    }
}

/// Both calls: measure, then store with what it answered. Where measure is refused, by 1 to 7, store is refused by the same number; else
/// store answers the same, or is refused by 8 or 9.
pub fn undump(chunk: &[u8], name: &[u8], words: &mut [u32], text: &mut [u8]) -> Undumped {
    let m = measure(chunk, name);
    let s = store(chunk, name, m.need(), words, text);
    assert!(m.refusal <= 7 && (s == m || m.refusal == 0 && matches!(s.refusal, 8 | 9)), "{m:?}, then {s:?}");
    s
}

pub fn symbexec(words: &[u32], text: &[u8], place: usize, lastpc: usize, reg: u32) -> SymbExec {
    unsafe { lua_chunk_symbexec(words.as_ptr(), words.len(), text.as_ptr(), text.len(), place, lastpc, reg) }
}

pub fn get_local_name(words: &[u32], text: &[u8], place: usize, number: usize, pc: usize, out: &mut [u8]) -> Named {
    let (o, n) = (out.as_mut_ptr(), out.len());
    unsafe { lua_chunk_get_local_name(words.as_ptr(), words.len(), text.as_ptr(), text.len(), place, number, pc, o, n) }
}

pub fn get_local_name_in(
    records: &mut [LocalRecord],
    words: &[u32],
    text: &[u8],
    place: usize,
    number: usize,
    pc: usize,
    out: &mut [u8],
) -> Named {
    let (o, n) = (out.as_mut_ptr(), out.len());
    let (r, k) = (records.as_mut_ptr(), records.len());
    unsafe { lua_chunk_get_local_name_in(r, k, words.as_ptr(), words.len(), text.as_ptr(), text.len(), place, number, pc, o, n) }
}

pub fn kname(words: &[u32], text: &[u8], place: usize, c: u32, out: &mut [u8]) -> Written {
    let (o, n) = (out.as_mut_ptr(), out.len());
    unsafe { lua_chunk_kname(words.as_ptr(), words.len(), text.as_ptr(), text.len(), place, c, o, n) }
}

pub fn getobjname(words: &[u32], text: &[u8], place: usize, pc: usize, reg: u32, out: &mut [u8]) -> Named {
    let (o, n) = (out.as_mut_ptr(), out.len());
    unsafe { lua_chunk_getobjname(words.as_ptr(), words.len(), text.as_ptr(), text.len(), place, pc, reg, o, n) }
}

pub fn source_at(words: &[u32], text: &[u8], name: &[u8], place: usize) -> SourceAt {
    unsafe {
        lua_chunk_source_at(
            words.as_ptr(),
            words.len(),
            text.as_ptr(),
            text.len(),
            name.as_ptr(),
            name.len(),
            place,
        )
    }
}

/// The width is 4 or 8.
pub fn dump(words: &[u32], text: &[u8], name: &[u8], strip: bool, width: usize, out: &mut [u8]) -> Written {
    unsafe {
        lua_chunk_dump(
            words.as_ptr(),
            words.len(),
            text.as_ptr(),
            text.len(),
            name.as_ptr(),
            name.len(),
            strip,
            width == 4,
            out.as_mut_ptr(),
            out.len(),
        )
    }
}

pub fn list_function(words: &[u32], text: &[u8], name: &[u8], full: bool, out: &mut [u8]) -> Written {
    unsafe {
        lua_chunk_list_function(
            words.as_ptr(),
            words.len(),
            text.as_ptr(),
            text.len(),
            name.as_ptr(),
            name.len(),
            full,
            out.as_mut_ptr(),
            out.len(),
        )
    }
}

/// The store of a chunk, in exactly the space that was measured, or the refusal.
pub fn load(chunk: &[u8], name: &[u8]) -> Result<(Vec<u32>, Vec<u8>), u32> {
    let m = measure(chunk, name);
    let (mut words, mut text) = (vec![0; m.words], vec![0; m.text]);
    let s = store(chunk, name, m.need(), &mut words, &mut text);
    if s.refusal == 0 { Ok((words, text)) } else { Err(s.refusal) }
}
