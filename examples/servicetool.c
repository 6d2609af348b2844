/*
 * servicetool: a small tool over include/lua_chunk.h, for chunks of any size up to the limits.
 *
 *     servicetool list FILE                        the plain listing
 *     servicetool list-full FILE                   the full listing
 *     servicetool width FILE                       how many bytes each string's size takes in the chunk: 4 or 8
 *     servicetool space FILE                       what lua_chunk_measure answers: the words and text bytes that the chunk's tree takes,
 *                                                  how many of the file's bytes were read, and the width
 *     servicetool places FILE                      each function's number in preorder, as listings give it, and its place
 *     servicetool strip [--size N] FILE OUT        the chunk without lines, locals and upvalue names, written to the file OUT
 *     servicetool name FILE FUNCTION PC REGISTER   what the register holds at pc; FUNCTION is the number behind # in a listing, and PC is
 *                                                  one less than the number that a line begins with
 *     servicetool source FILE PLACE                the source of the function at a place
 *
 * Listings and sources take @FILE as the chunk name. strip takes the empty name, so that it writes no source that FILE has not. It writes
 * the width of FILE, or with --size the width N, 4 or 8: a controller loads chunks of its own width alone.
 *
 * space prints a line such as
 *
 *     14 words, 2 text bytes, 67 of 67 bytes read, width 8
 *
 * from which the pool of a controller can be sized: a word is 4 bytes, a text byte 1. Where words or text bytes are above LUA_CHUNK_MOST,
 * "above the limit of 16777216" stands for their number; the other commands refuse such a chunk by 8 or 9.
 *
 * Exit status: 0 done, 1 refused by the library (the number is printed), 2 anything else.
 */
#include "lua_chunk.h"

#include <errno.h>
#include <stdio.h>
#include <stdlib.h>
#include <string.h>

enum { DONE = 0, REFUSED = 1, FAILED = 2 };

/* No output grows beyond this. */
#define OUTPUT_MOST ((size_t)1 << 30)

struct bytes {
    uint8_t *at;
    size_t len;
};

/* The store of a chunk, and the chunk's width, which the store does not hold. */
struct store {
    uint32_t *words;
    size_t words_len;
    uint8_t *text;
    size_t text_len;
    uint32_t width;
};

/* ---- what goes wrong */

static int failed(const char *what, const char *why)
{
    fprintf(stderr, "servicetool: %s: %s\n", what, why);
    return FAILED;
}

static const char *reason(uint32_t refusal)
{
    static const char *const reasons[] = {
        "not refused",
        "the chunk name is not UTF-8, or too long",
        "the chunk ends too early",
        "not a chunk",
        "a chunk of another version or machine",
        "bad constant",
        "bad count",
        "functions nested too deep",
        "more words than the limit",
        "more text than the limit",
        "the store is not well formed",
        "the output is too long",
        "no function begins there",
        "pc above the length of the code",
        "register above 255",
        "the numbers are not those measured",
    };
    return refusal < sizeof reasons / sizeof reasons[0] ? reasons[refusal] : "unknown";
}

static int refused(const char *file, uint32_t refusal)
{
    fprintf(stderr, "servicetool: %s: refused %lu: %s\n", file, (unsigned long)refusal, reason(refusal));
    return REFUSED;
}

/* ---- memory: a pointer that is lent is never null, so at least one element is had */

static void *allocate(size_t count, size_t size)
{
    return count <= SIZE_MAX / 2 / size ? malloc((count ? count : 1) * size) : NULL;
}

static size_t least(size_t a, size_t b)
{
    return a < b ? a : b;
}

/* So many bytes instead of those had; what stood there is lost. */
static bool get_space(struct bytes *b, size_t len)
{
    free(b->at);
    b->at = allocate(len, 1);
    b->len = b->at ? len : 0;
    return b->at != NULL;
}

/* Twice the space after refusal 11, where there is any more to be had. */
static bool grow(struct bytes *out)
{
    return out->len < OUTPUT_MOST && get_space(out, least(2 * out->len, OUTPUT_MOST));
}

/* ---- files */

static bool read_all(FILE *f, struct bytes *chunk)
{
    size_t room = 65536;
    chunk->len = 0;
    chunk->at = allocate(room, 1);
    while (chunk->at) {
        size_t n = fread(chunk->at + chunk->len, 1, room - chunk->len, f);
        chunk->len += n;
        if (chunk->len < room)
            return !ferror(f);
        uint8_t *more = room <= SIZE_MAX / 4 ? realloc(chunk->at, 2 * room) : NULL;
        if (!more)
            return false;
        chunk->at = more;
        room = 2 * room;
    }
    return false;
}

static int read_file(const char *file, struct bytes *chunk)
{
    errno = 0;
    FILE *f = fopen(file, "rb");
    if (!f)
        return failed(file, strerror(errno));
    bool ok = read_all(f, chunk);
    fclose(f);
    return ok ? DONE : failed(file, "cannot be read");
}

static int write_file(const char *file, const uint8_t *at, size_t len)
{
    errno = 0;
    FILE *f = fopen(file, "wb");
    if (!f)
        return failed(file, strerror(errno));
    bool ok = fwrite(at, 1, len, f) == len;
    ok = fclose(f) == 0 && ok;
    return ok ? DONE : failed(file, "cannot be written");
}

static int print(const uint8_t *at, size_t len)
{
    bool ok = fwrite(at, 1, len, stdout) == len;
    ok = fflush(stdout) == 0 && ok;
    return ok ? DONE : failed("output", "cannot be written");
}

/* ---- the store of a chunk */

static const uint8_t no_name = 0;

static int measure(const char *file, struct bytes chunk, lua_chunk_Undumped *need)
{
    *need = lua_chunk_measure(chunk.at, chunk.len, &no_name, 0);
    return need->refusal ? refused(file, need->refusal) : DONE;
}

/* Lends exactly what was measured; and nothing to a tree above the limits, which lua_chunk_store refuses by these numbers in any space. */
static int store(const char *file, struct bytes chunk, lua_chunk_Undumped need, struct store *s)
{
    if (need.words > LUA_CHUNK_MOST)
        return refused(file, LUA_CHUNK_FEW_WORDS);
    if (need.text > LUA_CHUNK_MOST)
        return refused(file, LUA_CHUNK_LITTLE_TEXT);
    s->words = allocate(need.words, sizeof *s->words);
    s->text = allocate(need.text, 1);
    if (!s->words || !s->text)
        return failed(file, "no memory");
    lua_chunk_Undumped tree = lua_chunk_store(chunk.at, chunk.len, &no_name, 0, need.words, need.text, need.read, s->words, need.words,
                                              s->text, need.text);
    s->words_len = tree.words;
    s->text_len = tree.text;
    s->width = tree.width;
    return tree.refusal ? refused(file, tree.refusal) : DONE;
}

/* A walk over the functions of a well-formed store, in preorder: looks for one by its number, or prints all where that is 0. */
struct walk {
    const uint32_t *words;
    size_t wanted;
    size_t number;
    size_t place;
    bool found;
};

/* Walks over the function at a place and those in it, at most 200 deep; returns the place behind. The header says how it is laid out. */
static size_t walk(struct walk *w, size_t at)
{
    w->number++;
    if (w->wanted == 0)
        printf("#%zu %zu\n", w->number, at);
    if (w->wanted == w->number) {
        w->place = at;
        w->found = true;
    }
    at += 6;
    at += 1 + (size_t)w->words[at];
    at += 1 + 3 * (size_t)w->words[at];
    uint32_t children = w->words[at];
    at += 1;
    for (uint32_t i = 0; i < children; i++)
        at = walk(w, at);
    at += 1 + (size_t)w->words[at];
    at += 1 + 4 * (size_t)w->words[at];
    at += 1 + 2 * (size_t)w->words[at];
    return at;
}

/* ---- the commands */

static int list(const char *file, const struct store *s, struct bytes name, bool full)
{
    struct bytes out = {NULL, 0};
    if (!get_space(&out, s->words_len + s->text_len + 64))
        return failed(file, "no memory");
    lua_chunk_Written r;
    do {
        r = lua_chunk_list_function(s->words, s->words_len, s->text, s->text_len, name.at, name.len, full, out.at, out.len);
    } while (r.refusal == LUA_CHUNK_LITTLE_OUTPUT && grow(&out));
    int status = r.refusal ? refused(file, r.refusal) : print(out.at, r.len);
    free(out.at);
    return status;
}

static void print_count(size_t n, const char *what)
{
    if (n <= LUA_CHUNK_MOST)
        printf("%zu %s, ", n, what);
    else
        printf("above the limit of %lu %s, ", (unsigned long)LUA_CHUNK_MOST, what);
}

static int space(lua_chunk_Undumped need, struct bytes chunk)
{
    print_count(need.words, "words");
    print_count(need.text, "text bytes");
    printf("%zu of %zu bytes read, width %lu\n", need.read, chunk.len, (unsigned long)need.width);
    return print(chunk.at, 0);
}

static int width(const struct store *s)
{
    printf("%lu\n", (unsigned long)s->width);
    return print(s->text, 0);
}

static int strip(const char *file, const struct store *s, bool size_4, const char *to)
{
    struct bytes out = {NULL, 0};
    if (!get_space(&out, LUA_CHUNK_DUMP_MOST(s->words_len, s->text_len, 0)))
        return failed(file, "no memory");
    lua_chunk_Written r = lua_chunk_dump(s->words, s->words_len, s->text, s->text_len, &no_name, 0, true, size_4, out.at, out.len);
    int status = r.refusal ? refused(file, r.refusal) : write_file(to, out.at, r.len);
    free(out.at);
    return status;
}

static int places(const struct store *s)
{
    struct walk w = {s->words, 0, 0, 0, false};
    walk(&w, 0);
    return print(s->text, 0);
}

static int name(const char *file, const struct store *s, size_t function, size_t pc, uint32_t reg)
{
    static const char *const kinds[] = {"none", "local ", "global ", "field ", "upvalue ", "method "};
    struct walk w = {s->words, function, 0, 0, false};
    if (function > 0)
        walk(&w, 0);
    if (!w.found)
        return failed(file, "there is no function of this number");
    struct bytes out = {NULL, 0};
    if (!get_space(&out, 4))
        return failed(file, "no memory");
    lua_chunk_Named r;
    do {
        r = lua_chunk_getobjname(s->words, s->words_len, s->text, s->text_len, w.place, pc, reg, out.at, out.len);
    } while (r.refusal == LUA_CHUNK_LITTLE_OUTPUT && grow(&out));
    int status = DONE;
    if (r.refusal) {
        status = refused(file, r.refusal);
    } else {
        fputs(kinds[r.kind], stdout);
        fwrite(out.at, 1, r.len, stdout);
        status = print((const uint8_t *)"\n", 1);
    }
    free(out.at);
    return status;
}

static int source(const char *file, const struct store *s, struct bytes chunk_name, size_t place)
{
    lua_chunk_SourceAt r = lua_chunk_source_at(s->words, s->words_len, s->text, s->text_len, chunk_name.at, chunk_name.len, place);
    if (r.refusal)
        return refused(file, r.refusal);
    fwrite((r.in_text ? s->text : chunk_name.at) + r.start, 1, r.end - r.start, stdout);
    return print((const uint8_t *)"\n", 1);
}

/* ---- the words of the command line */

static int usage(void)
{
    fputs("usage: servicetool list FILE | list-full FILE | width FILE | space FILE | places FILE | strip [--size 4|8] FILE OUT\n"
          "                   | name FILE FUNCTION PC REGISTER | source FILE PLACE\n",
          stderr);
    return FAILED;
}

/* A decimal number, at most so large. */
static bool number(const char *word, size_t most, size_t *n)
{
    size_t so_far = 0;
    const char *c = word;
    for (; *c >= '0' && *c <= '9'; c++) {
        size_t digit = (size_t)(*c - '0');
        if (so_far > (most - digit) / 10)
            return false;
        so_far = 10 * so_far + digit;
    }
    *n = so_far;
    return c != word && *c == '\0';
}

/* The number behind --size: 4 or 8, or 0 where it is neither. */
static uint32_t size(const char *word)
{
    return strcmp(word, "4") == 0 ? 4 : strcmp(word, "8") == 0 ? 8 : 0;
}

/* A command that needs the store. The width to write is 0 where it is that of the chunk. */
static int run(int argc, char **argv, const struct store *s, struct bytes chunk_name, uint32_t to_write)
{
    const char *command = argv[1], *file = argv[2];
    size_t n[3] = {0, 0, 0};
    if (argc == 3 && strcmp(command, "list") == 0)
        return list(file, s, chunk_name, false);
    if (argc == 3 && strcmp(command, "list-full") == 0)
        return list(file, s, chunk_name, true);
    if (argc == 3 && strcmp(command, "width") == 0)
        return width(s);
    if (argc == 3 && strcmp(command, "places") == 0)
        return places(s);
    if (argc == 4 && strcmp(command, "strip") == 0)
        return strip(file, s, (to_write ? to_write : s->width) == 4, argv[3]);
    if (argc == 6 && strcmp(command, "name") == 0 && number(argv[3], SIZE_MAX, &n[0]) && number(argv[4], SIZE_MAX, &n[1])
        && number(argv[5], UINT32_MAX, &n[2]))
        return name(file, s, n[0], n[1], (uint32_t)n[2]);
    if (argc == 4 && strcmp(command, "source") == 0 && number(argv[3], SIZE_MAX, &n[0]))
        return source(file, s, chunk_name, n[0]);
    return usage();
}

static int run_on_store(int argc, char **argv, struct bytes chunk, lua_chunk_Undumped need, uint32_t to_write)
{
    struct bytes chunk_name = {NULL, 0};
    struct store s = {NULL, 0, NULL, 0, 0};
    int status = store(argv[2], chunk, need, &s);
    if (status == DONE && !get_space(&chunk_name, strlen(argv[2]) + 1))
        status = failed(argv[2], "no memory");
    if (status == DONE) {
        chunk_name.at[0] = '@';
        memcpy(chunk_name.at + 1, argv[2], strlen(argv[2]));
        status = run(argc, argv, &s, chunk_name, to_write);
    }
    free(chunk_name.at);
    free(s.words);
    free(s.text);
    return status;
}

int main(int argc, char **argv)
{
    uint32_t to_write = 0;
    /* --size N is taken out of the words */
    if (argc > 2 && strcmp(argv[2], "--size") == 0) {
        to_write = argc > 3 ? size(argv[3]) : 0;
        if (strcmp(argv[1], "strip") != 0 || to_write == 0)
            return usage();
        argv[3] = argv[1];
        argv += 2;
        argc -= 2;
    }
    if (argc < 3)
        return usage();
    struct bytes chunk = {NULL, 0};
    lua_chunk_Undumped need = {0, 0, 0, 0, 0};
    int status = read_file(argv[2], &chunk);
    if (status == DONE)
        status = measure(argv[2], chunk, &need);
    if (status == DONE && argc == 3 && strcmp(argv[1], "space") == 0)
        status = space(need, chunk);
    else if (status == DONE)
        status = run_on_store(argc, argv, chunk, need, to_write);
    free(chunk.at);
    return status;
}
