/*
 * Measures the stack that a call takes, and tries every script in a thread that has exactly as much
 * as the header says: 64 KiB for a check, 32 KiB for a run, beside what the thread itself takes.
 *
 * The scripts have 128 nodes: a bottom, blocks around it, and one kind of link over and over between
 * them, in all ways that the tables below give. A thread's stack is filled with a pattern and then
 * used for all scripts, so what is left of the pattern tells the deepest call. Below the stack lies
 * a page that cannot be written. A line for each step; the last line is the count.
 */
#define _DEFAULT_SOURCE /* for MAP_ANONYMOUS */
#include <pthread.h>
#include <stdio.h>
#include <stdlib.h>
#include <string.h>
#include <sys/mman.h>
#include <unistd.h>

#include "teqharis.h"

#define CHECK_STACK 65536u /* what the header says is to be lent */
#define RUN_STACK 32768u
#define ROOM 131072u   /* lent where the use is measured: more than any call takes */
#define ALIGNMENT 64u  /* of the end of a thread's stack, so that all threads take as much of it */
#define PATTERN 0xA5
#define BLOCKS_MAX 4u
#define SEGMENTS_MAX 8u

/* Every script has these entries; a run gets these values, and two cells that hold words. */
#define ENTRIES "entry\tb\nentry\ti\nentry\tri\nentry\tri\n"

/* The nodes at the bottom, from node 0 on. The last of them is what the rest goes around. */
struct bottom {
    const char *name;
    const char *lines;
};

static const struct bottom bottoms[] = {
    {"true", "true\n"},
    {"var", "var\t0\n"},
    {"if", "var\t0\nvar\t0\nvar\t0\nif\t0\t1\t2\n"},
    {"if on equal words", "var\t1\nint\t1\nadd\t0\t1\nint\t7\neq\t2\t3\nvar\t0\ntrue\nif\t4\t5\t6\n"},
    {"if on equal references", "var\t2\nvar\t3\neq\t0\t1\nvar\t0\ntrue\nif\t2\t3\t4\n"},
    {"if on two truths", "var\t0\nvar\t0\nnot\t1\nand\t0\t2\nvar\t0\ntrue\nif\t3\t4\t5\n"},
    {"if with words", "var\t0\nint\t1\nvar\t1\nif\t0\t1\t2\n"},
    {"eq of words", "var\t1\nint\t1\neq\t0\t1\n"},
    {"eq of references", "var\t2\nvar\t3\neq\t0\t1\n"},
    {"eq of truths", "var\t0\ntrue\neq\t0\t1\n"},
    {"and", "var\t0\nvar\t0\nand\t0\t1\n"},
    {"add", "var\t1\nvar\t1\nadd\t0\t1\n"},
    {"ref", "var\t0\nref\t0\n"},
    {"get", "var\t2\nget\t0\n"},
    {"set", "var\t2\nint\t5\nset\t0\t1\n"},
    {"set, then get", "var\t2\nint\t5\nset\t0\t1\nvar\t2\nget\t3\nlet\t2\t4\n"},
    {"let", "var\t0\nvar\t4\nlet\t0\t1\n"},
};

/* A link: a node around what is below it, with leaves as its other operands. */
struct link {
    const char *name;
    const char *words[2]; /* in turn */
    const char *leaves[2];
    unsigned place; /* of what is below it, among the operands */
};

static const struct link links[] = {
    {"not", {"not", "not"}, {NULL, NULL}, 0},
    {"typed", {"typed", "typed"}, {NULL, NULL}, 0},
    {"ref", {"ref", "ref"}, {NULL, NULL}, 0},
    {"get", {"get", "get"}, {NULL, NULL}, 0},
    {"ref and get in turn", {"ref", "get"}, {NULL, NULL}, 0},
    {"not and typed in turn", {"not", "typed"}, {NULL, NULL}, 0},
    {"add, nested to the left", {"add", "add"}, {"int\t1\n", NULL}, 0},
    {"add, nested to the right", {"add", "add"}, {"var\t1\n", NULL}, 1},
    {"and, nested to the left", {"and", "and"}, {"true\n", NULL}, 0},
    {"and, nested to the right", {"and", "and"}, {"var\t0\n", NULL}, 1},
    {"eq, nested to the left", {"eq", "eq"}, {"true\n", NULL}, 0},
    {"eq, nested to the right", {"eq", "eq"}, {"var\t0\n", NULL}, 1},
    {"set, nested to the right", {"set", "set"}, {"var\t2\n", NULL}, 1},
    {"let, nested to the left", {"let", "let"}, {"true\n", NULL}, 0},
    {"let, nested to the right", {"let", "let"}, {"true\n", NULL}, 1},
    {"if, nested in the condition", {"if", "if"}, {"true\n", "true\n"}, 0},
    {"if, nested in the second", {"if", "if"}, {"true\n", "true\n"}, 1},
    {"if, nested in the third", {"if", "if"}, {"false\n", "true\n"}, 2},
};

#define BOTTOMS (sizeof bottoms / sizeof *bottoms)
#define LINKS (sizeof links / sizeof *links)

/* Which script: the links are shared out over two of the segments, or one, or all. Segments are
   parted by the borders `sym` and `typed` in turn, and counted from the bottom. */
struct shape {
    size_t bottom;
    size_t link;
    unsigned blocks;
    unsigned first;
    unsigned second; /* SEGMENTS_MAX: over all segments */
};

struct script {
    char text[TEQHARIS_TEXT_MAX];
    size_t length;
    unsigned nodes;
    unsigned counts[SEGMENTS_MAX]; /* links in each segment */
    unsigned rest;                 /* nodes that make no link: `typed` at the top */
};

static unsigned passed;
static unsigned failed;

static void expect(const char *what, int holds) {
    passed += holds ? 1u : 0u;
    failed += holds ? 0u : 1u;
    printf("%s: %s\n", what, holds ? "ok" : "failed");
}

static unsigned lines_in(const char *text) {
    unsigned lines = 0;
    for (; *text != '\0'; text++) {
        lines += *text == '\n';
    }
    return lines;
}

static void put_text(struct script *script, const char *text) {
    size_t length = strlen(text);
    memcpy(script->text + script->length, text, length);
    script->length += length;
}

static void put_operand(struct script *script, unsigned node) {
    char digits[] = {'\t', '0', '0', '0', '\0'};
    digits[1] = (char)('0' + node / 100);
    digits[2] = (char)('0' + node / 10 % 10);
    digits[3] = (char)('0' + node % 10);
    put_text(script, "\t");
    put_text(script, node >= 100 ? digits + 1 : node >= 10 ? digits + 2 : digits + 3);
}

/* A node around the last one. */
static void put_around(struct script *script, const char *word) {
    put_text(script, word);
    put_operand(script, script->nodes - 1);
    put_text(script, "\n");
    script->nodes++;
}

static unsigned leaves_of(const struct link *link) {
    return (link->leaves[0] != NULL ? 1u : 0u) + (link->leaves[1] != NULL ? 1u : 0u);
}

/* A link around the last node; `turn` chooses the word. */
static void put_link(struct script *script, const struct link *link, unsigned turn) {
    unsigned below = script->nodes - 1;
    unsigned leaves = leaves_of(link);
    unsigned leaf = script->nodes;
    unsigned i;
    for (i = 0; i < leaves; i++) {
        put_text(script, link->leaves[i]);
    }
    put_text(script, link->words[turn % 2]);
    for (i = 0; i <= leaves; i++) {
        put_operand(script, i == link->place ? below : leaf++);
    }
    put_text(script, "\n");
    script->nodes += leaves + 1;
}

static unsigned segments_of(unsigned blocks) {
    return blocks == 0 ? 1 : 2 * blocks;
}

/* Shares the links that 128 nodes have room for out over the segments. */
static void share_out(struct script *script, const struct shape *shape) {
    unsigned segments = segments_of(shape->blocks);
    unsigned size = leaves_of(&links[shape->link]) + 1;
    unsigned room = TEQHARIS_NODES_MAX - lines_in(bottoms[shape->bottom].lines) - (segments - 1);
    unsigned count = room / size;
    unsigned i;
    memset(script->counts, 0, sizeof script->counts);
    script->rest = room % size;
    if (shape->second < SEGMENTS_MAX) {
        script->counts[shape->first] += count / 2;
        script->counts[shape->second] += count - count / 2;
        return;
    }
    for (i = 0; i < count; i++) {
        script->counts[i % segments]++;
    }
}

static void make(struct script *script, const struct shape *shape) {
    unsigned turn = 0;
    unsigned segment;
    unsigned i;
    share_out(script, shape);
    script->length = 0;
    put_text(script, ENTRIES);
    put_text(script, bottoms[shape->bottom].lines);
    script->nodes = lines_in(bottoms[shape->bottom].lines);
    for (segment = 0; segment < segments_of(shape->blocks); segment++) {
        if (segment > 0) {
            put_around(script, segment % 2 == 1 ? "sym" : "typed");
        }
        for (i = 0; i < script->counts[segment]; i++) {
            put_link(script, &links[shape->link], turn++);
        }
    }
    for (i = 0; i < script->rest; i++) {
        put_around(script, "typed");
    }
}

/* Prints a script from its root down. */
static void print(const struct shape *shape) {
    static struct script script;
    unsigned segment;
    make(&script, shape);
    if (script.rest > 0) {
        printf("%u typed, ", script.rest);
    }
    for (segment = segments_of(shape->blocks); segment-- > 0;) {
        if (script.counts[segment] > 0) {
            printf("%u %s, ", script.counts[segment], links[shape->link].name);
        }
        if (segment > 0) {
            printf("%s, ", segment % 2 == 1 ? "sym" : "typed");
        }
    }
    printf("%s\n", bottoms[shape->bottom].name);
}

/* The next shape: first the second segment changes, then the first, the blocks, link, bottom.
   Answers 0 after the last one. */
static int next(struct shape *shape) {
    unsigned segments = segments_of(shape->blocks);
    if (shape->second < SEGMENTS_MAX) {
        shape->second = shape->second + 1 < segments ? shape->second + 1 : SEGMENTS_MAX;
        if (shape->second < SEGMENTS_MAX || shape->first + 1 == segments) {
            return 1;
        }
        shape->first++;
        shape->second = shape->first;
        return 1;
    }
    shape->first = 0;
    shape->second = 0;
    shape->blocks = (shape->blocks + 1) % (BLOCKS_MAX + 1);
    shape->link = (shape->link + (shape->blocks == 0)) % LINKS;
    shape->bottom += shape->blocks == 0 && shape->link == 0;
    return shape->bottom < BOTTOMS;
}

struct trial;
typedef uint64_t call(struct trial *, const struct script *);

/* A thread's work, and what comes of it. */
struct trial {
    call *call;
    uint8_t *bottom; /* of the stack */
    size_t room;     /* of the stack, below the caller */
    size_t deepest;  /* bytes below the caller */
    struct shape deepest_shape;
    unsigned scripts;
    unsigned done; /* calls that were not refused */
};

static uint64_t call_check(struct trial *trial, const struct script *script) {
    uint8_t here = 0;
    trial->room = (size_t)(&here - trial->bottom);
    return teqharis_check((const uint8_t *)script->text, script->length);
}

static uint64_t call_run(struct trial *trial, const struct script *script) {
    static uint8_t values[4 * TEQHARIS_CELL_BYTES];
    static uint8_t cells[TEQHARIS_CELLS_BYTES];
    uint8_t here = 0;
    trial->room = (size_t)(&here - trial->bottom);
    teqharis_put(values, TEQHARIS_TRUTH, 1);
    teqharis_put(values + 5, TEQHARIS_WORD, 7);
    teqharis_put(values + 10, TEQHARIS_LOCATION, 0);
    teqharis_put(values + 15, TEQHARIS_LOCATION, 1);
    teqharis_put(cells, TEQHARIS_WORD, 1);
    teqharis_put(cells + 5, TEQHARIS_WORD, 2);
    return teqharis_run((const uint8_t *)script->text, script->length, values, sizeof values,
                        cells, sizeof cells, 2);
}

/* Of so many bytes from `bottom` on, how many come before the first one without the pattern. */
static size_t untouched(const uint8_t *bottom, size_t most) {
    size_t i = 0;
    if (bottom[0] == PATTERN && memcmp(bottom, bottom + 1, most - 1) == 0) {
        return most;
    }
    while (bottom[i] == PATTERN) {
        i++;
    }
    return i;
}

/* Calls on every script, and notes which one goes deepest. */
static void *call_all(void *given) {
    static struct script script;
    struct trial *trial = given;
    struct shape shape = {0, 0, 0, 0, 0};
    size_t deepest;
    do {
        make(&script, &shape);
        trial->done += !teqharis_is_refused(trial->call(trial, &script));
        trial->scripts++;
        deepest = trial->room - untouched(trial->bottom, trial->room - trial->deepest);
        if (deepest > trial->deepest) {
            trial->deepest = deepest;
            trial->deepest_shape = shape;
        }
    } while (next(&shape));
    return NULL;
}

static void must(const char *what, int holds) {
    if (!holds) {
        printf("%s: not possible here\n", what);
        exit(1);
    }
}

/* Lends a thread so many bytes of stack, with a page below that cannot be written, and has it call
   on every script. */
static void try_in_thread(struct trial *trial, size_t size) {
    size_t page = (size_t)sysconf(_SC_PAGESIZE);
    size_t whole = page + (size + page - 1) / page * page;
    uint8_t *memory =
        mmap(NULL, whole, PROT_READ | PROT_WRITE, MAP_PRIVATE | MAP_ANONYMOUS, -1, 0);
    pthread_attr_t attributes;
    pthread_t thread;
    must("a stack of our own", memory != MAP_FAILED);
    trial->bottom = memory + page;
    memset(trial->bottom, PATTERN, size);
    must("a page that cannot be written", mprotect(memory, page, PROT_NONE) == 0);
    must("a thread's attributes", pthread_attr_init(&attributes) == 0);
    must("a thread's stack", pthread_attr_setstack(&attributes, trial->bottom, size) == 0);
    must("a thread", pthread_create(&thread, &attributes, call_all, trial) == 0);
    must("a thread's end", pthread_join(thread, NULL) == 0);
    pthread_attr_destroy(&attributes);
    munmap(memory, whole);
}

/* Measures a call with room to spare; then tries all again with just the stack that is to be lent. */
static void try_call(const char *name, call *call, size_t limit) {
    struct trial roomy = {0};
    struct trial exact = {0};
    char what[80];
    size_t size;
    roomy.call = call;
    exact.call = call;
    try_in_thread(&roomy, ROOM);
    printf("%u scripts, of which %s refuses %u\n", roomy.scripts, name, roomy.scripts - roomy.done);
    printf("deepest %s: %lu bytes, by ", name, (unsigned long)roomy.deepest);
    print(&roomy.deepest_shape);
    sprintf(what, "every %s takes at most %lu bytes", name, (unsigned long)limit);
    expect(what, roomy.deepest <= limit);
    if (roomy.deepest > limit) {
        return;
    }
    size = (limit + ROOM - roomy.room) / ALIGNMENT * ALIGNMENT;
    try_in_thread(&exact, size);
    printf("a thread with %lu bytes of stack has %lu below the %s's caller\n", (unsigned long)size,
           (unsigned long)exact.room, name);
    sprintf(what, "every %s in a thread with that stack", name);
    expect(what, exact.scripts == roomy.scripts && exact.done == roomy.done);
    expect("that is no more than is to be lent",
           exact.room <= limit && exact.room + ALIGNMENT > limit);
}

int main(void) {
    setvbuf(stdout, NULL, _IOLBF, 0); /* so that a crash leaves the lines before it */
    try_call("check", call_check, CHECK_STACK);
    try_call("run", call_run, RUN_STACK);
    printf("%u passed, %u failed\n", passed, failed);
    return failed == 0 ? 0 : 1;
}
