/* The C interface of the library: sections, steps, sheets and readings of WebAssembly component types, imports,
 * canonicals and instances.
 *
 * Build the library with `tools/staticlib`, which writes target/staticlib/libcabi.a, and link it.
 * Every call takes every input and returns. A refusal changes no buffer and no state.
 * What a call may write (state, body, out, row) must not overlap anything else that is passed to it. */
#ifndef TBAUNARITH_H
#define TBAUNARITH_H

#include <stddef.h>
#include <stdint.h>

#ifdef __cplusplus
extern "C" {
#endif

/* The numbers of a reply, and the value that comes with each. */
enum {
    TB_OK = 0,      /* size added, or bytes taken */
    TB_LIMIT = 1,   /* a limit is passed, or the state does not hold together: 0 */
    TB_KIND = 2,    /* no such kind, or another section's family: 0 */
    TB_ROW = 3,     /* row is empty, or not as long as kind and count need: 0 */
    TB_TAG = 4,     /* a word outside its list: its place */
    TB_RANGE = 5,   /* name ends past the pool: the place of its first word */
    TB_TEXT = 6,    /* name is not UTF-8: the place of its first word; reading: the offset of its first byte; `also` says where it stops */
    TB_TOO_BIG = 7, /* finishing: count and body of the section pass 4,294,967,295 bytes: 0 */
    TB_ROOM = 8,    /* too little room: the bytes or words that the call would add */
    TB_ORDER = 9,   /* step out of turn, or an entry still open: 0 */
    TB_COUNT = 10,  /* entry count is at its largest: 0 */
    TB_CUT = 11,    /* input ends first: input length */
    TB_CODE = 12,   /* a byte that cannot stand there: its offset */
    TB_NUMBER = 13, /* no number of 32 bits in at most five bytes: its offset */
    TB_NEWER = 14,  /* a form above the grade: its offset */
    TB_SHEET = 15   /* wrong version, no row, broken framing: 0 */
};

/* What every call returns. In a reply of tb_sheet a refusal's value is the row, from 0.
 * `also` is the words of an item read; after TB_TEXT, of tb_sheet too, the offset in the name of the first byte at which no UTF-8 can
 * go on, and the name's length if it merely ends early; else 0. */
typedef struct {
    uint32_t number;
    uint32_t also;
    uint64_t value;
} tb_reply;

/* A section's state is five numbers: family (2 core instances, 5 instances, 7 types, 8 canonicals, 10 imports), bytes of the body used, entries,
 * phase (0 closed, 1 opened, 2 headed), and the place where an open function starts (0 when closed).
 * A new section is { family, 0, 0, 0, 0 }. */

/* A whole sheet: its rows' bytes at the front of body, the finished section at the front of out. */
tb_reply tb_sheet(const uint8_t *sheet, size_t sheet_size, uint8_t *body, size_t body_size, uint8_t *out, size_t out_size);

/* The type, or the import, at the front of the input, by a reader of grade 1, 2 or 3. TB_OK: `also` words of the row are filled,
 * and `value` bytes of the input are taken. The row names its strings in the input: a name's two words are its first byte's
 * offset in the input and its length. A row of 16,384 words has room for every item that is read. */
tb_reply tb_read_type(const uint8_t *input, size_t input_size, uint32_t grade, uint32_t *row, size_t row_words);
tb_reply tb_read_import(const uint8_t *input, size_t input_size, uint32_t grade, uint32_t *row, size_t row_words);

/* A row: its bytes go behind the used part of the body, and the section has one entry more. */
tb_reply tb_row(uint64_t state[5], const uint32_t *row, size_t row_words, const uint8_t *pool, size_t pool_size,
                uint8_t *body, size_t body_size);

/* Opens a function type: one entry more, nothing written yet. */
tb_reply tb_open(uint64_t state[5], uint8_t *body, size_t body_size);

/* The function's head: a, which is 0, or 1 for an async function; n; and n of (name start, name length, value type's two words), the
 * parameters. Its words are those of a function's row, without the kind before and the result behind them. */
tb_reply tb_head(uint64_t state[5], const uint32_t *words, size_t words_size, const uint8_t *pool, size_t pool_size,
                 uint8_t *body, size_t body_size);

/* The function's result, a value type's two words or (2,0) for none. It closes the entry. */
tb_reply tb_result(uint64_t state[5], uint32_t tag, uint32_t x, uint8_t *body, size_t body_size);

/* Takes an open function back: used and entries are as before it was opened. */
tb_reply tb_abandon(uint64_t state[5], uint8_t *body, size_t body_size);

/* The finished section at the front of out: id, size, count, body. The state stays. */
tb_reply tb_finish(const uint64_t state[5], const uint8_t *body, size_t body_size, uint8_t *out, size_t out_size);

#ifdef __cplusplus
}
#endif

#endif
