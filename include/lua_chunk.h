/*
 * lua_chunk.h: Lua 5.1 chunks between bytes, trees and listings.
 *
 * The calls of the proved library Maegriv for C and C++, on Linux x86-64. `bash tools/archive.sh` writes the archive
 * target/staticlib/libchunk.a; link it, nothing else is needed:
 *
 *     cc -Iinclude tool.c target/staticlib/libchunk.a
 *
 * A chunk is what luac writes: bytes. The tree of its functions goes into a store, which is a run of words and a run of text bytes in
 * memory that you lend: lua_chunk_measure answers how much of each it takes, and lua_chunk_store, handed these numbers, stores it. Every
 * other call takes such a store.
 *
 *     uint8_t out[20000];
 *     lua_chunk_Undumped need = lua_chunk_measure(chunk, chunk_len, name, name_len);
 *     if (need.refusal == LUA_CHUNK_OK && need.words <= LUA_CHUNK_MOST && need.text <= LUA_CHUNK_MOST) {
 *         uint32_t *words = malloc(need.words * sizeof *words);    // a tree has 12 words or more
 *         uint8_t *text = malloc(need.text ? need.text : 1);       // it can have no text, and the pointer is not null even so
 *         if (words && text) {
 *             lua_chunk_Undumped tree = lua_chunk_store(chunk, chunk_len, name, name_len, need.words, need.text, need.read,
 *                                                       words, need.words, text, need.text);
 *             if (tree.refusal == LUA_CHUNK_OK) {
 *                 lua_chunk_Written listing = lua_chunk_list_function(words, tree.words, text, tree.text, name, name_len, false,
 *                                                                     out, sizeof out);
 *                 if (listing.refusal == LUA_CHUNK_OK)
 *                     fwrite(out, 1, listing.len, stdout);
 *             }
 *         }
 *         free(words);
 *         free(text);
 *     }
 *
 * examples/servicetool.c is a whole program, for chunks of any size.
 *
 *
 * WHAT HOLDS OF EVERY CALL
 *
 * Answers. `refusal` is 0, or the number of a refusal; then every other number of the answer is 0, and all memory lent is as it was.
 * A call that can be refused for several reasons gives the first in the order that stands with it.
 *
 * Writing. What is written begins at the first element of the memory lent; what stands behind it keeps its contents. What stood there
 * before makes no difference to the answer. Nothing is ended by a zero byte: lengths are in the answer. Bytes written can be zero.
 *
 * Memory. A call allocates nothing, keeps no pointer and no state, and waits for nothing. So calls may run at once in any number of
 * threads, as long as nobody else writes what a call reads, or touches what it writes, before it returns. 256 KB of stack are enough
 * for any call (measured: 144 KB at most, by getobjname over a chain of 254 MOVEs; on a chunk 200 functions deep a listing takes 89 KB,
 * lua_chunk_dump 52, lua_chunk_measure and lua_chunk_store 33).
 *
 * What the caller owes. A run is a pointer and a count of elements, a size in bytes for bytes, and:
 *   - the pointer is not null and is aligned for its type (4 bytes for words and records), also where the count is 0;
 *   - all the elements belong to one object, whose size is at most PTRDIFF_MAX bytes (malloc gives no other);
 *   - what is lent for writing (no const) overlaps nothing else that the same call is lent. Runs that are only read may overlap.
 * Nothing else is asked: every content of every run, and every number, has a defined answer.
 *
 * Time. Every call but lua_chunk_measure and lua_chunk_store first checks the whole store (refusal 10).
 *
 *
 * CHUNKS
 *
 * A chunk has the formats of the machine that its compiler was built for. Read and written are chunks of Lua 5.1 with the low byte first,
 * int and instruction of 4 bytes each, double for numbers, and a size_t of 4 or 8 bytes, which is the width of the chunk: the size of each
 * string in it takes so many bytes. A luac built for 32 bits makes chunks of width 4, one built for 64 bits chunks of width 8.
 * lua_chunk_measure and lua_chunk_store read both and answer which it was; lua_chunk_dump is told which to write.
 *
 * A Lua loads chunks of its own width alone, and refuses the other: "bad header in precompiled chunk", or "incompatible precompiled chunk".
 * So a chunk must have the width of the controller that is to load it; the machine that these calls run on makes no difference. The store
 * does not hold the width: a program has the same store at both. Keep what measure answered, which store repeats, and pass
 * size_4 = tree.width == 4 to dump.
 *
 *
 * CHUNK NAMES
 *
 * A chunk can leave out its root function's source. The chunk name then stands for it: valid UTF-8, at most LUA_CHUNK_MOST bytes, empty
 * too. Lua's custom is @FILE for a file and =TEXT for other things. The store keeps such a source as inherited and does not hold the
 * name, so that each call that needs sources is given one. measure and store only test it; it need not be the same for both.
 *
 *
 * THE STORE
 *
 * A store is handed over at exactly its used length: tree.words words and tree.text bytes, as measure and store answered, and not all
 * the space that was lent. A function is named by its place, the index of its first word; the root's is 0. In order, a function has
 *
 *     source              3 words: 1, place in text, length; or 0, 0, 0 where it is the source around it (for the root, the chunk name)
 *     line_defined        1 word
 *     last_line_defined   1 word
 *     num_upvalues, num_params, is_vararg, max_stack_size     1 word, 8 bits each, the first in the most significant
 *     code                a count, then 1 word for each instruction
 *     constants           a count, then 3 words for each: 0, 0, 0 nil; 1, 0 or 1, 0 a boolean; 3, high half, low half a number, by
 *                         the bits of the double; 4, place in text, length a string
 *     child functions     a count, then the functions, each in this form
 *     lines               a count, then 1 word for each
 *     locals              a count, then 4 words for each: place in text, length, start pc, end pc
 *     upvalue names       a count, then 2 words for each: place in text, length
 *
 * Strings stand in the text in this order, without gap or overlap. A store is well formed where it is exactly this, with sources, local
 * and upvalue names in UTF-8, and within the limits below. What store leaves is well formed; anything else is refused by 10.
 */
#ifndef LUA_CHUNK_H
#define LUA_CHUNK_H

#include <stdbool.h>
#include <stddef.h>
#include <stdint.h>

#ifdef __cplusplus
extern "C" {
#endif

/* The limits: words of a store, text bytes of a store, bytes of a chunk name; items of a list; functions nested, the root being 1. */
#define LUA_CHUNK_MOST 16777216
#define LUA_CHUNK_LIST_MOST 65535
#define LUA_CHUNK_DEPTH_MOST 200

/* Refusals. */
enum lua_chunk_refusal {
    LUA_CHUNK_OK = 0,            /* not refused */
    LUA_CHUNK_BAD_NAME = 1,      /* the chunk name is not UTF-8, or above LUA_CHUNK_MOST bytes */
    LUA_CHUNK_TRUNCATED = 2,     /* the chunk ends too early */
    LUA_CHUNK_NOT_A_CHUNK = 3,   /* the first 4 bytes are not 1B 4C 75 61 */
    LUA_CHUNK_INCOMPATIBLE = 4,  /* the next 8 are neither 51 00 01 04 08 04 08 00 nor 51 00 01 04 04 04 08 00; fewer than 8 are 2 */
    LUA_CHUNK_BAD_CONSTANT = 5,  /* a constant's tag is not 0, 1, 3 or 4 */
    LUA_CHUNK_BAD_COUNT = 6,     /* a list's count is negative or above LUA_CHUNK_LIST_MOST */
    LUA_CHUNK_TOO_DEEP = 7,      /* a function begins that is 201 deep */
    LUA_CHUNK_FEW_WORDS = 8,     /* the tree needs more words than are lent, or than LUA_CHUNK_MOST; or there are fewer records than locals */
    LUA_CHUNK_LITTLE_TEXT = 9,   /* the same for text bytes */
    LUA_CHUNK_BAD_STORE = 10,    /* the store is not well formed */
    LUA_CHUNK_LITTLE_OUTPUT = 11, /* the output is longer than the space lent */
    LUA_CHUNK_NO_FUNCTION = 12,  /* no function begins at this place */
    LUA_CHUNK_BAD_PC = 13,       /* the pc is above the length of the code */
    LUA_CHUNK_BAD_REGISTER = 14, /* the register is above 255 */
    LUA_CHUNK_NOT_MEASURED = 15  /* the numbers handed to store are not those that measure answers of the chunk */
};

/* What a name is of. */
enum lua_chunk_kind {
    LUA_CHUNK_NONE = 0, /* no name is known */
    LUA_CHUNK_LOCAL = 1,
    LUA_CHUNK_GLOBAL = 2,
    LUA_CHUNK_FIELD = 3,
    LUA_CHUNK_UPVALUE = 4,
    LUA_CHUNK_METHOD = 5
};

/* The chunk's width, 4 or 8; the words and the text bytes that a tree takes; and the bytes of the chunk that were read. */
typedef struct lua_chunk_Undumped {
    uint32_t refusal;
    uint32_t width;
    size_t words;
    size_t text;
    size_t read;
} lua_chunk_Undumped;

/* The bytes that were written. */
typedef struct lua_chunk_Written {
    uint32_t refusal;
    size_t len;
} lua_chunk_Written;

/* An instruction. */
typedef struct lua_chunk_SymbExec {
    uint32_t refusal;
    uint32_t instruction;
} lua_chunk_SymbExec;

/* What a name is of, an enum lua_chunk_kind, and how many bytes it has. */
typedef struct lua_chunk_Named {
    uint32_t refusal;
    uint32_t kind;
    size_t len;
} lua_chunk_Named;

/* A local: where its name stands in the text, how many bytes it has, and the pcs from which and before which it is active. */
typedef struct lua_chunk_LocalRecord {
    uint32_t place;
    uint32_t len;
    uint32_t start;
    uint32_t end;
} lua_chunk_LocalRecord;

/* Where a source stands: bytes start to end - 1 of the text where in_text is 1, of the chunk name where it is 0. */
typedef struct lua_chunk_SourceAt {
    uint32_t refusal;
    uint32_t in_text;
    size_t start;
    size_t end;
} lua_chunk_SourceAt;

/*
 * How much space the tree of a chunk takes. The chunk begins at the first byte of chunk and is of width 4 or 8. Answers the width, which
 * lua_chunk_dump needs (see CHUNKS), the words and the text bytes that lua_chunk_store needs, and the bytes read: the header's and the root
 * function's, children included. Bytes behind those are ignored: with and without them the answer is the same. Where chunks stand end to
 * end, the next begins at chunk + read and has a width of its own. Nothing is written.
 *
 * Words or text bytes above LUA_CHUNK_MOST are answered as LUA_CHUNK_MOST + 1 (16,777,217), whatever their number is. No space is enough
 * for such a tree. So compare both with LUA_CHUNK_MOST before you allocate, and do not allocate LUA_CHUNK_MOST + 1.
 *
 * Refused by 1; then 2 to 7, whichever reading meets first; by nothing else.
 *
 * Time. It grows with the number of functions, constants, locals and upvalue names, and with the bytes of sources and of local and upvalue
 * names; not with the number of instructions and lines, nor with the bytes of string constants.
 */
lua_chunk_Undumped lua_chunk_measure(const uint8_t *chunk, size_t chunk_len, const uint8_t *name, size_t name_len);

/*
 * Stores the tree of a chunk in words and text. need_words, need_text and need_read are the words, text and read that lua_chunk_measure
 * answered of this chunk. Answers the same as measure; the store is the first tree.words of words and the first tree.text of text.
 *
 * Sources, local and upvalue names are repaired: each maximal ill-formed part of their UTF-8 becomes EF BF BD. String constants stay as
 * they are.
 *
 * The chunk is measured again, and the three numbers are compared with the answer. Hand them over as measure gave them, not rounded up: it
 * is the space lent, words_len and text_len, that may be more. Any other number, such as one of another chunk or of this chunk before it
 * was changed, is refused by 15; then measure again. A chunk that was changed between the calls and has kept its three numbers is stored
 * as it is now, and nothing is ever written beyond the space lent. During a call it must not change: see Memory. The width is not
 * compared; store answers that of the chunk as it is now.
 *
 * Refused by 1; 2 to 7, as measure is, whatever the three numbers are; 15; 8; 9.
 *
 * Space. What measure answered is enough and no more than enough (proved): with so many words and text bytes lent, both at most
 * LUA_CHUNK_MOST, there is no 8 and no 9; with one less of either there is. A tree above the limits is refused by 8 or 9 whatever is lent.
 *
 * Time. That of measure, then that of writing, which grows with the words and the text bytes of the store too.
 */
lua_chunk_Undumped lua_chunk_store(const uint8_t *chunk, size_t chunk_len, const uint8_t *name, size_t name_len, size_t need_words,
                                   size_t need_text, size_t need_read, uint32_t *words, size_t words_len, uint8_t *text,
                                   size_t text_len);

/*
 * Writes the chunk of a store to out. With strip, lines, locals and upvalue names are left out, and sources kept. A source equal to the
 * one around it is left out, that of the root where it is empty; an inherited root source is written as the name, unless that is empty.
 *
 * With size_4 the chunk has width 4, for a Lua whose size_t has 4 bytes, without it width 8: see CHUNKS. To keep the width that was read,
 * pass tree.width == 4. Do not pass tree.width itself: as a bool, 8 is true as well.
 *
 * Refused by 1, 10, 11.
 *
 * Space. LUA_CHUNK_DUMP_MOST bytes are always enough at both widths (proved), and with that much lent the call is faster: with less, it
 * counts first. At width 4 a chunk is never longer than at 8.
 */
#define LUA_CHUNK_DUMP_MOST(words_len, text_len, name_len) \
    ((size_t)12 + (size_t)5 * (words_len) + (size_t)(text_len) + (size_t)(name_len))

lua_chunk_Written lua_chunk_dump(const uint32_t *words, size_t words_len, const uint8_t *text, size_t text_len, const uint8_t *name,
                                 size_t name_len, bool strip, bool size_4, uint8_t *out, size_t out_len);

/*
 * Writes the listing of all the functions of a store to out, as luac -l does, or with full as luac -l -l does, with # and the function's
 * number in preorder, from 1, for an address, and 0x and 16 digits of its bits for a number constant.
 *
 * A line begins with its instruction's index, which counts words of code from 1 (a pc of the other calls counts them from 0). The word
 * behind a SETLIST with C 0 is its count and no instruction: it stands in SETLIST's comment and has no line, so that the next index is
 * two higher. The number of instructions in a function's header is that of all words of code, counts too, as luac gives it.
 *
 * Refused by 1, 10, 11.
 *
 * Space. After 11, call again with more. There is no useful bound: a constant's text is repeated for each instruction that names it.
 */
lua_chunk_Written lua_chunk_list_function(const uint32_t *words, size_t words_len, const uint8_t *text, size_t text_len,
                                          const uint8_t *name, size_t name_len, bool full, uint8_t *out, size_t out_len);

/*
 * The last instruction before lastpc that wrote register reg of the function at place. Where there is none, the function's last
 * instruction; 0 where it has no code. For register 255 no jump is followed.
 *
 * Refused by 10, 12, 13, 14. A lastpc equal to the length of the code is admitted.
 */
lua_chunk_SymbExec lua_chunk_symbexec(const uint32_t *words, size_t words_len, const uint8_t *text, size_t text_len, size_t place,
                                      size_t lastpc, uint32_t reg);

/*
 * The name of local number local_number, from 1, of those active at pc, in the function at place. Kind LUA_CHUNK_LOCAL and the name's
 * bytes in out, which can be none at all; or LUA_CHUNK_NONE, and nothing is written: number 0, and any above the active locals. The
 * search ends at the first local that starts beyond pc.
 *
 * Refused by 10, 12, 11. Any pc is admitted; its low 32 bits count.
 *
 * Space. text_len bytes are always enough.
 */
lua_chunk_Named lua_chunk_get_local_name(const uint32_t *words, size_t words_len, const uint8_t *text, size_t text_len, size_t place,
                                         size_t local_number, size_t pc, uint8_t *out, size_t out_len);

/*
 * The same, looked up in records, which are filled from the store: one for each local of the function at place, in order. Not refused,
 * whether there is a name or none, the first records are the function's locals, and those behind them keep their contents. The answer and
 * what is left in out are those of lua_chunk_get_local_name (proved).
 *
 *     lua_chunk_LocalRecord records[200];
 *     lua_chunk_Named r = lua_chunk_get_local_name_in(records, 200, words, tree.words, text, tree.text, 0, 1, pc, out, sizeof out);
 *     if (r.refusal == LUA_CHUNK_OK)
 *         fwrite(text + records[0].place, 1, records[0].len, stdout);   // the first local's name, active or not
 *
 * Refused by 10, 12, 8 where there are fewer records than locals, 11. Refused, the records are as they were.
 *
 * Space. LUA_CHUNK_LIST_MOST records are always enough; luac's functions have at most 200 locals at a time, and can have more in all.
 */
lua_chunk_Named lua_chunk_get_local_name_in(lua_chunk_LocalRecord *records, size_t records_len, const uint32_t *words, size_t words_len,
                                            const uint8_t *text, size_t text_len, size_t place, size_t local_number, size_t pc,
                                            uint8_t *out, size_t out_len);

/*
 * The name that operand c (an RK: a register, or with bit 8 the constant of the number without that bit) gives in the function at place,
 * in out: a string constant's bytes, repaired; ? for anything else. Any c is admitted.
 *
 * Refused by 10, 12, 11.
 *
 * Space. 3 * text_len + 1 bytes are always enough.
 */
lua_chunk_Written lua_chunk_kname(const uint32_t *words, size_t words_len, const uint8_t *text, size_t text_len, size_t place, uint32_t c,
                                  uint8_t *out, size_t out_len);

/*
 * What register stackpos of the function at place holds at pc: its kind, and the name's bytes in out; or LUA_CHUNK_NONE, and nothing is
 * written. This is what Lua puts in "attempt to call global 'f'".
 *
 * Refused by 10, 12, 13, 14, 11. A pc equal to the length of the code is admitted.
 *
 * Space. 3 * text_len + 1 bytes are always enough.
 */
lua_chunk_Named lua_chunk_getobjname(const uint32_t *words, size_t words_len, const uint8_t *text, size_t text_len, size_t place,
                                     size_t pc, uint32_t stackpos, uint8_t *out, size_t out_len);

/*
 * Where the source of the function at place stands, an inherited one included: in the text, or in the chunk name.
 *
 * Refused by 1, 10, 12.
 */
lua_chunk_SourceAt lua_chunk_source_at(const uint32_t *words, size_t words_len, const uint8_t *text, size_t text_len,
                                       const uint8_t *name, size_t name_len, size_t place);

#ifdef __cplusplus
}
#endif

#endif
