/*
 * Tries the boundary: takes hand-made answers apart with the header's functions, and calls the
 * library at the edges of what it takes. A line for each step; the last line is the count.
 */
#include <inttypes.h>
#include <stdio.h>
#include <string.h>

#include "teqharis.h"

#define UNTOUCHED 0xAA /* what the cells behind the used ones hold before a run */

static unsigned passed;
static unsigned failed;

/* More than is needed, so that 965 bytes can be lent and the bytes behind them watched. */
static uint8_t cells[TEQHARIS_CELLS_BYTES + 40];
static uint8_t before[sizeof cells];
static uint8_t value[TEQHARIS_CELL_BYTES];
static uint8_t text[TEQHARIS_TEXT_MAX + 1];

static void expect(const char *what, uint64_t given, uint64_t expected) {
    if (given == expected) {
        passed++;
        printf("%s: ok\n", what);
    } else {
        failed++;
        printf("%s: 0x%" PRIx64 " given, 0x%" PRIx64 " expected\n", what, given, expected);
    }
}

static void expect_text(const char *what, const char *given, const char *expected) {
    if (strcmp(given, expected) == 0) {
        passed++;
        printf("%s: ok\n", what);
    } else {
        failed++;
        printf("%s: '%s' given, '%s' expected\n", what, given, expected);
    }
}

/* An answer from its four fields. */
static uint64_t answer(unsigned status, unsigned number, unsigned place, uint32_t bits) {
    return (uint64_t)bits << 32 | (uint64_t)place << 16 | (uint64_t)number << 8 | status;
}

static uint64_t refused(unsigned number) {
    return answer(TEQHARIS_REFUSED, number, 0, 0);
}

static uint64_t refused_at(unsigned number, unsigned place) {
    return answer(TEQHARIS_REFUSED, number, place + 1, 0);
}

static void take_answers_apart(void) {
    uint64_t accepted = UINT64_C(0x0000000400000000);
    uint64_t word = UINT64_C(0xfffffffe00c00000);
    uint64_t location = UINT64_C(0x0000003f00400200);
    uint64_t stopped = UINT64_C(0x0000007f00410002);
    uint64_t placed = UINT64_C(0x0000000000040901);
    uint64_t unplaced = UINT64_C(0x0000000000002301);
    uint64_t line = UINT64_C(0x0000000000010101);

    expect("status of an acceptance", teqharis_status(accepted), TEQHARIS_DONE);
    expect("an acceptance is one", (uint64_t)teqharis_is_accepted(accepted), 1);
    expect("an acceptance is no refusal", (uint64_t)teqharis_is_refused(accepted), 0);
    expect("type of an acceptance", teqharis_type(accepted), 4);

    expect("a value is one", (uint64_t)teqharis_is_value(word), 1);
    expect("kind of a word", teqharis_value_kind(word), TEQHARIS_WORD);
    expect("bits of a word", teqharis_value_bits(word), UINT32_C(0xfffffffe));
    expect("used count with a word", teqharis_used(word), 192);
    expect("kind of a location", teqharis_value_kind(location), TEQHARIS_LOCATION);
    expect("bits of a location", teqharis_value_bits(location), 63);
    expect("used count with a location", teqharis_used(location), 64);

    expect("status of an error state", teqharis_status(stopped), TEQHARIS_ERROR_STATE);
    expect("an error state is one", (uint64_t)teqharis_is_error_state(stopped), 1);
    expect("an error state is no value", (uint64_t)teqharis_is_value(stopped), 0);
    expect("an error state is no refusal", (uint64_t)teqharis_is_refused(stopped), 0);
    expect("node of an error state", teqharis_error_node(stopped), 127);
    expect("used count with an error state", teqharis_used(stopped), 65);

    expect("status of a refusal", teqharis_status(placed), TEQHARIS_REFUSED);
    expect("a refusal is one", (uint64_t)teqharis_is_refused(placed), 1);
    expect("a refusal is no acceptance", (uint64_t)teqharis_is_accepted(placed), 0);
    expect("number of a refusal", teqharis_refusal_number(placed), TEQHARIS_INCONSISTENT);
    expect("a refusal with a place has one", (uint64_t)teqharis_has_place(placed), 1);
    expect("place of a refusal", teqharis_place(placed), 3);
    expect("place of 9 is a node", (uint64_t)teqharis_place_is_line(placed), 0);
    expect("number of a refusal without a place", teqharis_refusal_number(unplaced), 35);
    expect("a refusal without a place has none", (uint64_t)teqharis_has_place(unplaced), 0);
    expect("a refusal at line 0 has a place", (uint64_t)teqharis_has_place(line), 1);
    expect("place of a refusal at line 0", teqharis_place(line), 0);
    expect("place of 1 is a line", (uint64_t)teqharis_place_is_line(line), 1);
}

static void name_types_and_refusals(void) {
    char name[TEQHARIS_TYPE_NAME_BYTES];
    unsigned number;
    unsigned known = 0;
    expect_text("name of type 0", teqharis_type_name(0, name), "i");
    expect_text("name of type 1", teqharis_type_name(1, name), "b");
    expect_text("name of type 4", teqharis_type_name(4, name), "rri");
    expect_text("name of type 31", teqharis_type_name(31, name), "rrrrrrrrrrrrrrrb");
    expect_text("name of type 32", teqharis_type_name(32, name), "?");
    for (number = 0; number < 256; number++) {
        known += strcmp(teqharis_refusal_text(number), "unknown refusal") != 0;
    }
    expect("refusals that have a text", known, 19);
    expect_text("text of 3", teqharis_refusal_text(3), "the script has no node");
    expect_text("text of 14", teqharis_refusal_text(14), "unknown refusal");
}

static void put_values(void) {
    static const uint8_t wanted[] = {1, 0x44, 0x33, 0x22, 0x11, 9};
    uint8_t bytes[] = {9, 9, 9, 9, 9, 9};
    teqharis_put(bytes, TEQHARIS_TRUTH, UINT32_C(0x11223344));
    expect("bytes of a value that is put", (uint64_t)memcmp(bytes, wanted, sizeof wanted), 0);
    expect("kind of a value that is put", teqharis_kind_at(bytes), TEQHARIS_TRUTH);
    expect("bits of a value that is put", teqharis_bits_at(bytes), UINT32_C(0x11223344));
    teqharis_put(bytes, TEQHARIS_WORD, UINT32_MAX);
    expect("bits of the highest word", teqharis_bits_at(bytes), UINT32_MAX);
    teqharis_put(bytes, 256, 0);
    expect("a kind that fits no byte stays wrong", teqharis_kind_at(bytes), 255);
}

static uint64_t check(const char *script) {
    return teqharis_check((const uint8_t *)script, strlen(script));
}

/* Cells 0 to used - 1 hold their own numbers, the rest holds what no run may touch. */
static void fill_cells(uint32_t used) {
    uint32_t i;
    memset(cells, UNTOUCHED, sizeof cells);
    for (i = 0; i < used && i < TEQHARIS_CELLS_MIN; i++) {
        teqharis_put(cells + i * TEQHARIS_CELL_BYTES, TEQHARIS_WORD, i);
    }
    memcpy(before, cells, sizeof cells);
}

/* Runs on the cells as they are, and remembers these. */
static uint64_t run(const char *script, size_t values_len, size_t cells_len, uint32_t used) {
    memcpy(before, cells, sizeof cells);
    return teqharis_run((const uint8_t *)script, strlen(script), value, values_len,
                        cells, cells_len, used);
}

/* A run that is to be refused: also no byte of the cells may change. */
static void expect_refused(const char *what, uint64_t given, unsigned number) {
    if (given == refused(number) && memcmp(cells, before, sizeof cells) != 0) {
        failed++;
        printf("%s: refused, but the cells changed\n", what);
        return;
    }
    expect(what, given, refused(number));
}

/* How many bytes from `from` on differ from what they were before the run. */
static uint64_t changed_from(size_t from) {
    uint64_t count = 0;
    for (; from < sizeof cells; from++) {
        count += cells[from] != before[from];
    }
    return count;
}

static void check_extremes(void) {
    uint8_t none = 0;
    memset(text, '\n', sizeof text);
    expect("check of 0 bytes: 3", teqharis_check(&none, 0), refused(3));
    expect("check of 8,192 line feeds: 1 at line 0", teqharis_check(text, 8192), refused_at(1, 0));
    expect("check of 8,193 line feeds: 31", teqharis_check(text, 8193), refused(31));
    expect("check without a last line feed: 1 at line 1", check("int\t1\nref\t0"), refused_at(1, 1));
    expect("check of a NUL: 1 at line 0", teqharis_check(&none, 1), refused_at(1, 0));
    expect("check of a later operand: 4 at line 0", check("not\t0\n"), refused_at(4, 0));
    expect("check of an unknown variable: 7 at node 0", check("var\t0\n"), refused_at(7, 0));
    expect("check of the highest word: accepted with i", check("int\t4294967295\n"), 0);
    expect("check of one more: 1 at line 0", check("int\t4294967296\n"), refused_at(1, 0));
    expect("check of a truth: accepted with b", check("true\n"), UINT64_C(1) << 32);
}

static void run_refusals(void) {
    uint8_t none = 0;
    fill_cells(64);
    memset(text, '\n', sizeof text);
    expect_refused("run of 0 bytes: 3", teqharis_run(&none, 0, &none, 0, cells, 960, 0), 3);
    expect_refused("run of 8,193 bytes: 31",
                   teqharis_run(text, 8193, &none, 0, cells, 960, 0), 31);
    expect_refused("an empty script on 65 used cells: 3 before 35", run("", 0, 960, 65), 3);
    expect_refused("65 used cells: 35", run("true\n", 0, 960, 65), 35);
    expect_refused("4,294,967,295 used cells: 35", run("true\n", 0, 960, UINT32_MAX), 35);
    expect_refused("959 bytes of cells: 35", run("true\n", 0, 959, 0), 35);
    expect_refused("0 bytes of cells: 35", run("true\n", 0, 0, 0), 35);
    expect_refused("961 bytes of cells: 34", run("true\n", 0, 961, 0), 34);
    teqharis_put(value, TEQHARIS_WORD, 7);
    expect_refused("a value too many: 34", run("true\n", 5, 960, 0), 34);
    expect_refused("a value too few: 34", run("entry\ti\nvar\t0\n", 0, 960, 0), 34);
    expect_refused("4 bytes of values: 34", run("entry\ti\nvar\t0\n", 4, 960, 0), 34);
    expect_refused("a value too many on 65 used cells: 35 before 34", run("true\n", 5, 960, 65), 35);
    teqharis_put(value, 3, 0);
    expect_refused("a value of kind 3: 34", run("entry\ti\nvar\t0\n", 5, 960, 64), 34);
    teqharis_put(value, TEQHARIS_TRUTH, 2);
    expect_refused("a truth of 2: 34", run("entry\ti\nvar\t0\n", 5, 960, 64), 34);
    teqharis_put(value, TEQHARIS_LOCATION, 64);
    expect_refused("location 64 with 64 used cells: 34", run("entry\ti\nvar\t0\n", 5, 960, 64), 34);
    teqharis_put(cells + 63 * TEQHARIS_CELL_BYTES, TEQHARIS_LOCATION, 64);
    expect_refused("location 64 in the last used cell: 34", run("true\n", 0, 960, 64), 34);
}

/* A word, and `count` times `ref` over it. */
static const char *nested_refs(unsigned count) {
    static char script[TEQHARIS_TEXT_MAX];
    size_t length = (size_t)sprintf(script, "int\t5\n");
    unsigned i;
    for (i = 0; i < count; i++) {
        length += (size_t)sprintf(script + length, "ref\t%u\n", i);
    }
    return script;
}

static void run_to_the_end(void) {
    const uint8_t *last = cells + 190 * TEQHARIS_CELL_BYTES;

    fill_cells(0);
    expect("no used cell: a value", run("int\t5\n", 0, 960, 0), answer(0, 0, 0, 5));
    expect("no byte changed", changed_from(0), 0);
    expect("965 bytes of cells: a value", run("true\n", 0, 965, 0), answer(0, 1, 0, 1));
    expect("4,294,967,295 plus 1: 0",
           run("int\t4294967295\nint\t1\nadd\t0\t1\n", 0, 960, 0), answer(0, 0, 0, 0));

    fill_cells(64);
    teqharis_put(value, TEQHARIS_LOCATION, 63);
    expect("location 63 with 64 used cells: what cell 63 holds",
           run("entry\tri\nvar\t0\nget\t0\n", 5, 960, 64), answer(0, 0, 64, 63));
    expect("no byte changed", changed_from(0), 0);

    expect("128 nodes, 127 of them ref, on 64 used cells: location 190",
           run(nested_refs(127), 0, 960, 64), answer(0, 2, 191, 190));
    expect("the last cell is a location", teqharis_kind_at(last), TEQHARIS_LOCATION);
    expect("the last cell is location 189", teqharis_bits_at(last), 189);
    expect("no byte behind the 191 cells changed", changed_from(955), 0);
    expect("check of the same: 8 at node 16", check(nested_refs(127)), refused_at(8, 16));
    expect("129 nodes: 2 at line 128", run(nested_refs(128), 0, 960, 0), refused_at(2, 128));
}

static void run_to_the_error_state(void) {
    static const char script[] = "entry\tri\nvar\t0\nint\t9\nset\t0\t1\nnot\t2\n";
    fill_cells(2);
    teqharis_put(value, TEQHARIS_LOCATION, 1);
    expect("not of a word: the error state at node 3", run(script, 5, 960, 2), answer(2, 0, 2, 3));
    expect("what was stored before stays", teqharis_bits_at(cells + TEQHARIS_CELL_BYTES), 9);
    expect("no byte behind the used cells changed", changed_from(10), 0);
    expect("an unbound variable: the error state at node 0",
           run("var\t143\n", 0, 960, 2), answer(2, 0, 2, 0));
}

int main(void) {
    setvbuf(stdout, NULL, _IOLBF, 0); /* so that a crash leaves the lines before it */
    take_answers_apart();
    name_types_and_refusals();
    put_values();
    check_extremes();
    run_refusals();
    run_to_the_end();
    run_to_the_error_state();
    printf("%u passed, %u failed\n", passed, failed);
    return failed == 0 ? 0 : 1;
}
