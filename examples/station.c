/*
 * A small check station: checks a script, runs it, and says in words what came of it.
 *
 *     station [--unchecked] SCRIPT [VALUE...] [cell=VALUE...]
 *
 * SCRIPT is a file. Each VALUE is the value of one entry, in order; each cell=VALUE puts a value in
 * the station's next cell, from cell 0 on. A value is a word (7), a truth (true, false) or the
 * location of a cell (@0). A script that is not accepted is run only under --unchecked.
 *
 * Exit status: 0 a value, 1 refused, 2 the error state, 3 wrong usage or trouble with a file.
 */
#include <inttypes.h>
#include <stdio.h>
#include <string.h>

#include "teqharis.h"

enum { VALUE = 0, REFUSED = 1, ERROR_STATE = 2, TROUBLE = 3 };

/* Values or cells in the library's form, with their count. */
struct values {
    uint8_t bytes[TEQHARIS_CELLS_BYTES];
    uint32_t count;
};

/* A station has these for its whole life: no call of the library allocates. The text has room for
   one byte too many, by which the library sees that a file is too long. */
static uint8_t text[TEQHARIS_TEXT_MAX + 1];
static struct values entries;
static struct values cells;

/* Reads a file into the text, as much of it as there is room for. Gives 0, or -1 on trouble. */
static int read_script(const char *path, size_t *length) {
    FILE *file = fopen(path, "rb");
    int failed;
    if (file == NULL) {
        return -1;
    }
    *length = fread(text, 1, sizeof text, file);
    failed = ferror(file);
    fclose(file);
    return failed ? -1 : 0;
}

/* Reads a decimal number of 32 bits. Gives 0, or -1 if the word is not one. */
static int parse_number(const char *word, uint32_t *number) {
    uint64_t sum = 0;
    if (*word == '\0') {
        return -1;
    }
    for (; *word != '\0'; word++) {
        if (*word < '0' || *word > '9') {
            return -1;
        }
        sum = sum * 10 + (uint64_t)(*word - '0');
        if (sum > UINT32_MAX) {
            return -1;
        }
    }
    *number = (uint32_t)sum;
    return 0;
}

/* Adds the value that a word of the command line names. Gives 0, or -1 if it names none or there is
   no room. */
static int add_value(struct values *list, const char *word) {
    unsigned kind = TEQHARIS_WORD;
    uint32_t bits = 0;
    if (list->count == TEQHARIS_CELLS_MIN) {
        return -1;
    }
    if (strcmp(word, "true") == 0 || strcmp(word, "false") == 0) {
        kind = TEQHARIS_TRUTH;
        bits = word[0] == 't';
    } else if (word[0] == '@') {
        kind = TEQHARIS_LOCATION;
        if (parse_number(word + 1, &bits) != 0) {
            return -1;
        }
    } else if (parse_number(word, &bits) != 0) {
        return -1;
    }
    teqharis_put(list->bytes + list->count * TEQHARIS_CELL_BYTES, kind, bits);
    list->count++;
    return 0;
}

static void print_value(unsigned kind, uint32_t bits) {
    if (kind == TEQHARIS_WORD) {
        printf("word %" PRIu32 "\n", bits);
    } else if (kind == TEQHARIS_TRUTH) {
        printf("%s\n", bits != 0 ? "true" : "false");
    } else {
        printf("location of cell %" PRIu32 "\n", bits);
    }
}

static void print_cells(uint32_t used) {
    uint32_t i;
    for (i = 0; i < used; i++) {
        const uint8_t *cell = cells.bytes + i * TEQHARIS_CELL_BYTES;
        printf("cell %" PRIu32 ": ", i);
        print_value(teqharis_kind_at(cell), teqharis_bits_at(cell));
    }
}

static void print_refusal(uint64_t answer) {
    unsigned number = teqharis_refusal_number(answer);
    printf("refused with %u", number);
    if (teqharis_has_place(answer)) {
        const char *unit = teqharis_place_is_line(answer) ? "line" : "node";
        printf(" at %s %u", unit, teqharis_place(answer));
    }
    printf(": %s\n", teqharis_refusal_text(number));
}

/* Checks the script and says what came of it. Gives whether it is accepted. */
static int check(size_t length) {
    char name[TEQHARIS_TYPE_NAME_BYTES];
    uint64_t answer = teqharis_check(text, length);
    printf("check: ");
    if (teqharis_is_accepted(answer)) {
        printf("accepted with type %s\n", teqharis_type_name(teqharis_type(answer), name));
    } else {
        print_refusal(answer);
    }
    return teqharis_is_accepted(answer);
}

/* Runs the script and says what came of it, with the cells after the run. Gives the exit status. */
static int run(size_t length) {
    uint64_t answer = teqharis_run(text, length,
                                   entries.bytes, entries.count * TEQHARIS_CELL_BYTES,
                                   cells.bytes, sizeof cells.bytes, cells.count);
    printf("run: ");
    if (teqharis_is_refused(answer)) {
        print_refusal(answer);
        return REFUSED;
    }
    if (teqharis_is_error_state(answer)) {
        printf("error state at node %u\n", teqharis_error_node(answer));
    } else {
        print_value(teqharis_value_kind(answer), teqharis_value_bits(answer));
    }
    cells.count = teqharis_used(answer);
    print_cells(cells.count);
    return teqharis_is_error_state(answer) ? ERROR_STATE : VALUE;
}

int main(int argc, char **argv) {
    int unchecked = argc > 1 && strcmp(argv[1], "--unchecked") == 0;
    int first = unchecked ? 2 : 1;
    int status = REFUSED;
    size_t length = 0;
    int i;

    if (argc <= first || strncmp(argv[first], "--", 2) == 0) {
        fprintf(stderr, "usage: station [--unchecked] SCRIPT [VALUE...] [cell=VALUE...]\n");
        return TROUBLE;
    }
    for (i = first + 1; i < argc; i++) {
        int is_cell = strncmp(argv[i], "cell=", 5) == 0;
        if (add_value(is_cell ? &cells : &entries, is_cell ? argv[i] + 5 : argv[i]) != 0) {
            fprintf(stderr, "station: no value, or one too many: %s\n", argv[i]);
            return TROUBLE;
        }
    }
    if (read_script(argv[first], &length) != 0) {
        fprintf(stderr, "station: cannot read %s\n", argv[first]);
        return TROUBLE;
    }
    if (check(length) || unchecked) {
        status = run(length);
    }
    if (fflush(stdout) != 0) {
        fprintf(stderr, "station: cannot write the answer\n");
        return TROUBLE;
    }
    return status;
}
