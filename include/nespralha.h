/* The Nespralha engine for C and C++: Check, Translate and Run of document 01, from target/staticlib/libnespralha.a.
 *
 * Every function takes any input: any bytes, any arguments, any limit, slices of any length (a pointer and then a length;
 * a length counts elements). What it answers and what each lent slice holds afterwards is fixed for every case and proved.
 * A pointer is not NULL and aligned for its elements, also where its length is 0; slices that are written overlap no other.
 * A call takes nothing from a heap, and less than 64 KB of stack: that is tried with the texts that recurse deepest, not proved.
 */
#ifndef NESPRALHA_H
#define NESPRALHA_H

#include <stddef.h>
#include <stdint.h>

#ifdef __cplusplus
extern "C" {
#endif

/* The numbers the engine answers with. */
enum nespralha_number {
    NESPRALHA_HALT = 0,      /* accepted; for Run, the machine has stopped */
    NESPRALHA_LONG = 1,      /* text over 16,384 bytes */
    NESPRALHA_LINE = 2,      /* a line's shape is wrong */
    NESPRALHA_COUNT = 3,     /* over 64 functions or 1,024 body symbols */
    NESPRALHA_NAME = 4,      /* a name stands on two lines */
    NESPRALHA_TERM = 5,      /* a field is left over after a body's term */
    NESPRALHA_NEST = 6,      /* a symbol at depth 33 */
    NESPRALHA_ARGS = 7,      /* wrong number of arguments, or a yes/no above 1 */
    NESPRALHA_ROOM = 8,      /* a lent slice is too short */
    NESPRALHA_FUEL = 9,      /* step limit met */
    NESPRALHA_DEEP = 10,     /* a step would make a stack 513 high */
    NESPRALHA_STUCK = 11,    /* the machine has no next step and hasn't stopped */
    NESPRALHA_ZERO = 12,     /* the next step divides by 0 */
    NESPRALHA_UNKNOWN = 13,  /* a field is no known symbol, or an argument the function lacks */
    NESPRALHA_SORT = 14,     /* a known symbol is of another sort than its place takes */
    NESPRALHA_SHORT = 15     /* a body ends early */
};

/* What a caller lends so that no accepted text is refused with ROOM. */
enum {
    NESPRALHA_MOST_HEADS = 64,          /* one head a function */
    NESPRALHA_MOST_CODE_WORDS = 12408,  /* 12 words an instruction, 1,034 instructions at most */
    NESPRALHA_WORK_WORDS = 8192         /* work words of a run */
};

/* One function of an accepted text: argument count, strict count, result sort (n 0, b 1), address of the body's first symbol. */
struct nespralha_head {
    uint32_t args, strict, result, body;
};

/* What Check and Translate answer; functions and instructions are 0 when refused. */
struct nespralha_checked {
    uint32_t number, line, field, functions, instructions;
};

/* What Run answers; value is 0 unless HALT, steps and rewrites are 0 after 1 to 8 and 13 to 15. */
struct nespralha_answer {
    uint32_t number, value, line, field, steps, rewrites;
};

/* On acceptance the first `functions` heads are written, the rest unchanged; on refusal all are unchanged. */
struct nespralha_checked nespralha_check(const uint8_t *text, size_t text_len, struct nespralha_head *heads, size_t heads_len);

/* On acceptance the first 12 * `instructions` code words are written, the rest unchanged; on refusal all are unchanged. */
struct nespralha_checked nespralha_translate(const uint8_t *text, size_t text_len, uint32_t *code, size_t code_len);

/* After 0 and after 9 to 12 the code words are as Translate leaves them, the first 8,192 work words are 0, the others unchanged;
 * after 1 to 8 and 13 to 15 both slices are unchanged. */
struct nespralha_answer nespralha_run(const uint8_t *text, size_t text_len, const uint32_t *args, size_t args_len, uint32_t limit,
                                      uint32_t *code, size_t code_len, uint32_t *work, size_t work_len);

#ifdef __cplusplus
}
#endif

#endif
