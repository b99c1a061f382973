/*
 * Teqharis for C and C++: check a station script before it is used, and run it afterwards.
 *
 * Both calls are proved: each answers what the rules for scripts give, for every input. A script
 * that teqharis_check accepts runs to a value of the type that the check reports, if the host gives
 * it values and cells that fit: each used cell keeps to one type, and each entry value has its
 * entry's type, where a location has its cell's type with one `r` more. docs/SCRIPTS.md says how a
 * script is written.
 *
 * To link: build the library in the project's root with `./build host`, then add
 * target/staticlib/libhost.a to the linker's inputs. It is for x86-64 and needs nothing but the C
 * library.
 *
 * A call keeps no pointer, allocates nothing, has no state and does no input or output. Several
 * threads may call at once on different cells; they may share text and values that nobody changes.
 *
 * Pointers: none may be null, not even with length 0; pass any valid pointer then. Each must point
 * to as many bytes as its length says. The text and the values may not overlap the cells. There is
 * no alignment to keep.
 *
 * Stack: lend a check 64 KiB and a run 32 KiB, beside what a thread takes for itself. The deepest
 * check that was found took 60,879 bytes, the deepest run 31,615. These are measured, by
 * examples/stack_test.c, and not proved. A check's time grows with its paths: docs/PERFORMANCE.md
 * has both.
 */
#ifndef TEQHARIS_H
#define TEQHARIS_H

#include <stddef.h>
#include <stdint.h>

/* Limits of a script. */
#define TEQHARIS_TEXT_MAX 8192u  /* bytes of text */
#define TEQHARIS_ENTRIES_MAX 16u /* entries */
#define TEQHARIS_NODES_MAX 128u  /* nodes */

/* A value or cell is 5 bytes: its kind, then its 32 bits, low byte first. */
#define TEQHARIS_CELL_BYTES 5u
#define TEQHARIS_USED_MAX 64u    /* cells in use at the start of a run, at most */
#define TEQHARIS_CELLS_MIN 192u  /* cells lent to a run, at least: 64 used and one for each node */
#define TEQHARIS_CELLS_BYTES (TEQHARIS_CELLS_MIN * TEQHARIS_CELL_BYTES) /* 960 */

/* Room for the longest type name, 15 letters r and one more, and its end. */
#define TEQHARIS_TYPE_NAME_BYTES 17u

#ifdef __cplusplus
extern "C" {
#endif

/*
 * Checks a script.
 *
 * Takes the script's text. Answers
 *   - accepted, with the script's type, exactly if the rules give it one; or
 *   - refused: 31; else 1, 2 or 4 for the first line that has one; else 3, 5, 13; else whichever of
 *     6 to 12 the rules meet first.
 *
 * No byte that is lent changes.
 */
uint64_t teqharis_check(const uint8_t *text, size_t text_len);

/*
 * Runs a script. It need not have been accepted. The error state is possible if it was not, or if
 * the values and cells do not fit as said above.
 *
 * Takes the script's text, one value of 5 bytes for each entry, in order, the lent cells of 5 bytes
 * each (at least 192: 960 bytes), and how many of them are in use (at most 64, the first ones).
 * Cells behind the used ones may hold anything. Answers
 *   - a value, and how many cells are now in use; or
 *   - the error state: the node at which evaluation cannot go on, and how many cells are in use; or
 *   - refused: 31; else 1, 2 or 4 for the first line that has one; else 3, 5, 13; else 35; else 34.
 *
 * What the lent cells hold afterwards:
 *   - after a value: the used cells as `set` changed them, then those that `ref` added; every byte
 *     behind these is as it was;
 *   - after the error state: the same, as far as the run had come. What was stored stays stored;
 *   - after a refusal: every byte is as it was.
 * Text and values never change.
 */
uint64_t teqharis_run(const uint8_t *text, size_t text_len,
                      const uint8_t *values, size_t values_len,
                      uint8_t *cells, size_t cells_len, uint32_t used);

#ifdef __cplusplus
}
#endif

/*
 * The answer is one number. Its bits:
 *
 *                          0-7      8-15                 16-31                  32-63
 *   answer                 status   number               place                  value
 *   ---------------------  -------  -------------------  ---------------------  ---------------
 *   accepted with a type   0        0                    0                      the type's code
 *   a run's value          0        its kind, 0 to 2     used count             its 32 bits
 *   error state            2        0                    used count             the node
 *   refused                1        the refusal, 1-36    place + 1, 0 for none  0
 *
 * The functions below take it apart. Ask for the status first: each of the others means something
 * for the answers that its comment names, and nothing for the rest.
 */

/* What came of a call. */
enum teqharis_statuses {
    TEQHARIS_DONE = 0,       /* a check: accepted; a run: a value */
    TEQHARIS_REFUSED = 1,    /* the call was turned down, with a number; nothing lent has changed */
    TEQHARIS_ERROR_STATE = 2 /* a run stopped at a node that it cannot evaluate */
};

/* The kinds of values. */
enum teqharis_kinds {
    TEQHARIS_WORD = 0,    /* 32 bits */
    TEQHARIS_TRUTH = 1,   /* 0 false, 1 true */
    TEQHARIS_LOCATION = 2 /* the number of a used cell, from 0 */
};

/*
 * Refusals. The place is a line of the text for 1, 2 and 4, a node for 5 to 13, and there is none
 * for the others. Lines and nodes count from 0; the first node line is node 0.
 */
enum teqharis_refusals {
    /* Caused by the script's writer. */

    /* A line is not of the form, is out of turn, or has a number out of its range. Write one tab
       between fields, LF at every line's end, entries before nodes, no leading zeros. */
    TEQHARIS_BAD_LINE = 1,
    /* There is a 17th entry or a 129th node. Shorten the script, or split it in two. */
    TEQHARIS_TOO_MANY_LINES = 2,
    /* The script has no node. Write at least one. */
    TEQHARIS_NO_NODE = 3,
    /* An operand is not an earlier node. Refer to earlier nodes only. */
    TEQHARIS_BAD_OPERAND = 4,
    /* A node other than the last is not used exactly once. Use it once or remove it; bind it by
       `let` to use its value twice. */
    TEQHARIS_BAD_USE = 5,
    /* A value has the wrong type for this node. Mend the type; or put the part under `sym`, if it
       is right on every path. */
    TEQHARIS_WRONG_TYPE = 6,
    /* No entry and no `let` binds this variable. Count the entries, then the `let`s around it from
       the outside in. */
    TEQHARIS_UNKNOWN_VARIABLE = 7,
    /* The type of this `ref` would have 16 references. Use fewer. */
    TEQHARIS_TOO_MANY_REFERENCES = 8,
    /* At this `get`, at the end of this `typed`, or at a path's end of this `sym`, a cell may hold a
       value of a wrong type. Store one of the right type before, through the same reference; until
       then, look through that reference alone. */
    TEQHARIS_INCONSISTENT = 9,
    /* A path of this `sym` ends with another type than its first one. Give every branch one type. */
    TEQHARIS_PATH_TYPE = 10,
    /* This `sym` needs more than 64 paths. Split the block, or put independent parts in `typed`. */
    TEQHARIS_TOO_MANY_PATHS = 11,
    /* At this `if` the condition has more than 10 different atoms. Split the block, or test less on
       one path. */
    TEQHARIS_TOO_MANY_ATOMS = 12,
    /* This `sym` has four or more `sym` around it. Nest less deeply. */
    TEQHARIS_NESTED_TOO_DEEPLY = 13,

    /* Caused by the station's host. */

    /* The text has more than 8,192 bytes. Pass the script alone, without padding. */
    TEQHARIS_TEXT_TOO_LONG = 31,
    /* A lent table is below 128 nodes or 16 entries. Neither call here lends one or answers this. */
    TEQHARIS_TABLE_TOO_SMALL = 32,
    /* An entry's type code is above 31. No text has such an entry, so neither call answers this. */
    TEQHARIS_BAD_TYPE_CODE = 33,
    /* There are not as many values as entries; or, among values or used cells, a kind is above 2, a
       truth above 1 or a location not below the used count; or the bytes of values or cells are not
       a multiple of 5. Write values and cells with teqharis_put. */
    TEQHARIS_BAD_VALUE = 34,
    /* More than 64 cells are used, or fewer than 192 are lent. Lend 960 bytes; use at most 64. */
    TEQHARIS_BAD_CELLS = 35,
    /* The output is shorter than the text. Neither call here writes a text or answers this. */
    TEQHARIS_OUTPUT_TOO_SHORT = 36
};

/* Of every answer: its status, one of enum teqharis_statuses. */
static inline unsigned teqharis_status(uint64_t answer) {
    return (unsigned)(answer & 0xFFu);
}

/* Of a check: whether it accepted the script. */
static inline int teqharis_is_accepted(uint64_t answer) {
    return teqharis_status(answer) == TEQHARIS_DONE;
}

/* Of a run: whether it ended with a value. */
static inline int teqharis_is_value(uint64_t answer) {
    return teqharis_status(answer) == TEQHARIS_DONE;
}

/* Of every answer: whether the call was refused. */
static inline int teqharis_is_refused(uint64_t answer) {
    return teqharis_status(answer) == TEQHARIS_REFUSED;
}

/* Of a run: whether it ended in the error state. */
static inline int teqharis_is_error_state(uint64_t answer) {
    return teqharis_status(answer) == TEQHARIS_ERROR_STATE;
}

/* Of an accepting check: the type's code, 0 to 31. */
static inline unsigned teqharis_type(uint64_t answer) {
    return (unsigned)(answer >> 32);
}

/* Of a run's value: its kind, one of enum teqharis_kinds. */
static inline unsigned teqharis_value_kind(uint64_t answer) {
    return (unsigned)(answer >> 8 & 0xFFu);
}

/* Of a run's value: its 32 bits. */
static inline uint32_t teqharis_value_bits(uint64_t answer) {
    return (uint32_t)(answer >> 32);
}

/* Of a run's value or error state: how many cells are in use after the run, 0 to 192. */
static inline uint32_t teqharis_used(uint64_t answer) {
    return (uint32_t)(answer >> 16 & 0xFFFFu);
}

/* Of an error state: the node at which the run stopped, 0 to 127. */
static inline unsigned teqharis_error_node(uint64_t answer) {
    return (unsigned)(answer >> 32);
}

/* Of a refusal: its number, one of enum teqharis_refusals. */
static inline unsigned teqharis_refusal_number(uint64_t answer) {
    return (unsigned)(answer >> 8 & 0xFFu);
}

/* Of a refusal: whether it has a place. */
static inline int teqharis_has_place(uint64_t answer) {
    return (answer >> 16 & 0xFFFFu) != 0;
}

/* Of a refusal that has a place: the line or node, from 0. */
static inline unsigned teqharis_place(uint64_t answer) {
    return (unsigned)((answer >> 16 & 0xFFFFu) - 1u);
}

/* Of a refusal that has a place: whether the place is a line of the text, and not a node. */
static inline int teqharis_place_is_line(uint64_t answer) {
    unsigned number = teqharis_refusal_number(answer);
    return number == TEQHARIS_BAD_LINE || number == TEQHARIS_TOO_MANY_LINES ||
           number == TEQHARIS_BAD_OPERAND;
}

/* A refusal's number in words: a constant string, "unknown refusal" for any other number. */
static inline const char *teqharis_refusal_text(unsigned number) {
    switch (number) {
    case TEQHARIS_BAD_LINE: return "the line is malformed, out of turn or has a number out of range";
    case TEQHARIS_TOO_MANY_LINES: return "the script has more than 16 entries or 128 nodes";
    case TEQHARIS_NO_NODE: return "the script has no node";
    case TEQHARIS_BAD_OPERAND: return "an operand is not an earlier node";
    case TEQHARIS_BAD_USE: return "the node is not used exactly once";
    case TEQHARIS_WRONG_TYPE: return "a value has the wrong type for this node";
    case TEQHARIS_UNKNOWN_VARIABLE: return "no entry and no let binds the variable";
    case TEQHARIS_TOO_MANY_REFERENCES: return "the type would have 16 references";
    case TEQHARIS_INCONSISTENT: return "a cell may hold a value of a wrong type here";
    case TEQHARIS_PATH_TYPE: return "a path ends with another type than the first path";
    case TEQHARIS_TOO_MANY_PATHS: return "the symbolic block needs more than 64 paths";
    case TEQHARIS_TOO_MANY_ATOMS: return "the condition has more than 10 different atoms";
    case TEQHARIS_NESTED_TOO_DEEPLY: return "the symbolic block has four or more around it";
    case TEQHARIS_TEXT_TOO_LONG: return "the text has more than 8192 bytes";
    case TEQHARIS_TABLE_TOO_SMALL: return "the lent table is below 128 nodes or 16 entries";
    case TEQHARIS_BAD_TYPE_CODE: return "an entry has a type code above 31";
    case TEQHARIS_BAD_VALUE: return "not one value for each entry, or a value or cell is malformed";
    case TEQHARIS_BAD_CELLS: return "more than 64 cells are used or fewer than 192 are lent";
    case TEQHARIS_OUTPUT_TOO_SHORT: return "the output is shorter than the text";
    default: return "unknown refusal";
    }
}

/* Writes the name of a type, as "rri", or "?" for a code above 31, and gives `out`. */
static inline const char *teqharis_type_name(unsigned code, char out[TEQHARIS_TYPE_NAME_BYTES]) {
    unsigned references = code <= 31u ? code / 2u : 0u;
    unsigned i;
    for (i = 0; i < references; i++) {
        out[i] = 'r';
    }
    out[references] = code > 31u ? '?' : code % 2u == 1u ? 'b' : 'i';
    out[references + 1u] = '\0';
    return out;
}

/* Writes a value or cell: 5 bytes from `at` on. `kind` is one of enum teqharis_kinds; one that does
   not fit a byte is written as 255, so that a run refuses it with 34. */
static inline void teqharis_put(uint8_t *at, unsigned kind, uint32_t bits) {
    at[0] = (uint8_t)(kind <= 0xFFu ? kind : 0xFFu);
    at[1] = (uint8_t)(bits & 0xFFu);
    at[2] = (uint8_t)(bits >> 8 & 0xFFu);
    at[3] = (uint8_t)(bits >> 16 & 0xFFu);
    at[4] = (uint8_t)(bits >> 24);
}

/* The kind of the value or cell at `at`. */
static inline unsigned teqharis_kind_at(const uint8_t *at) {
    return at[0];
}

/* The 32 bits of the value or cell at `at`. */
static inline uint32_t teqharis_bits_at(const uint8_t *at) {
    return (uint32_t)at[1] | (uint32_t)at[2] << 8 | (uint32_t)at[3] << 16 | (uint32_t)at[4] << 24;
}

#endif
