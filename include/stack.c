/* Measures the stack that each call uses, its caller's frame included: on a full tree, a small one, one with the longest numbers, one
 * with a level too many and two of AXI3, each whole and cut short, runs and waits on both channels and on one that is neither, bursts
 * and joiners, taken and refused. The call is made on a thread that has painted its stack below the caller's frame, and the lowest byte
 * that has lost its paint says how deep the call went. Prints for each call the most that was used and what the header says, and fails
 * where the first is more.
 *
 *     cc -pthread -Iinclude include/stack.c target/staticlib/librazhikum.a -o stack && ./stack examples
 */
#define _POSIX_C_SOURCE 200809L
#include <pthread.h>
#include <stdio.h>
#include <stdlib.h>
#include <string.h>

#include "razhikum.h"

enum { STACK = 1 << 18, UNPAINTED = 256, PAINT = 0xa5, FILE_ROOM = 1 << 17, NEITHER = RAZHIKUM_WRITE + 1 };

enum call { VERSION, READ_TREE, READ_TRACE, COUNT, REPORT, REWRITE, RUN, WHY, BOUND, SPLIT, JOIN, CALLS };

static const struct {
    const char *name;
    size_t stated;
} calls[CALLS] = {
    {"version", RAZHIKUM_STACK_VERSION}, {"read_tree", RAZHIKUM_STACK_READ_TREE},
    {"read_trace", RAZHIKUM_STACK_READ_TRACE}, {"count", RAZHIKUM_STACK_COUNT},
    {"report", RAZHIKUM_STACK_REPORT}, {"rewrite", RAZHIKUM_STACK_REWRITE},
    {"run", RAZHIKUM_STACK_RUN}, {"why", RAZHIKUM_STACK_WHY},
    {"bound", RAZHIKUM_STACK_BOUND}, {"split", RAZHIKUM_STACK_SPLIT},
    {"join", RAZHIKUM_STACK_JOIN},
};

struct file {
    size_t bytes;
    uint8_t text[FILE_ROOM];
};

static _Alignas(4096) uint8_t stack[STACK];
static struct file tree, trace;
static uint8_t page[RAZHIKUM_PAGE], served[RAZHIKUM_SLOTS];
static uint32_t starts[RAZHIKUM_PIECES], lengths[RAZHIKUM_PIECES];
static size_t most[CALLS];
static enum call chosen;
static volatile uint64_t answered;

static void make_call(void) {
    switch (chosen) {
    case VERSION: answered = razhikum_version(); break;
    case READ_TREE: answered = razhikum_read_tree(tree.text, tree.bytes).line; break;
    case READ_TRACE: answered = razhikum_read_trace(tree.text, tree.bytes, trace.text, trace.bytes).line; break;
    case COUNT: answered = razhikum_count(tree.text, tree.bytes).line; break;
    case REPORT: answered = razhikum_report(tree.text, tree.bytes, page).bytes; break;
    case REWRITE: answered = razhikum_rewrite(tree.text, tree.bytes, page, sizeof page).bytes; break;
    case RUN:
        for (uint8_t c = RAZHIKUM_READ; c <= NEITHER; c++) {
            answered =
                razhikum_run(tree.text, tree.bytes, c, trace.text, trace.bytes, served, sizeof served).slots;
        }
        break;
    case WHY:
        for (uint8_t a = 0; a <= 32; a += 8) {
            for (uint8_t c = RAZHIKUM_READ; c <= NEITHER; c++) {
                answered =
                    razhikum_why(tree.text, tree.bytes, c, trace.text, trace.bytes, a, 1, served, sizeof served).count;
            }
        }
        break;
    case BOUND:
        for (uint8_t a = 0; a <= 32; a++) {
            answered = razhikum_bound(tree.text, tree.bytes, a).sr;
        }
        break;
    case SPLIT:
        /* Accepted, also at the end of a page and with the most beats of AXI3; refused by 15 and by 16. */
        for (uint32_t beats = 0; beats <= 256; beats += 16) {
            answered = razhikum_split(tree.text, tree.bytes, 2048, beats, 16, starts, lengths).pieces;
        }
        break;
    case JOIN: answered = razhikum_join(2, 0, 2).answered + razhikum_join(2, 1, 2).answered; break;
    case CALLS: break;
    }
}

/* Painted and looked at by volatile bytes in this one frame, so that nothing but the call goes below it. */
static void *measured(void *unused) {
    volatile uint8_t *top = (volatile uint8_t *)__builtin_frame_address(0);
    volatile uint8_t *bottom = stack;
    for (volatile uint8_t *p = bottom; p < top - UNPAINTED; p++) {
        *p = PAINT;
    }
    make_call();
    volatile uint8_t *lowest = bottom;
    while (lowest < top - UNPAINTED && *lowest == PAINT) {
        lowest++;
    }
    size_t used = (size_t)(top - lowest);
    if (used > most[chosen]) {
        most[chosen] = used;
    }
    return unused;
}

static void measure_all(void) {
    for (int c = 0; c < CALLS; c++) {
        pthread_attr_t attributes;
        pthread_t thread;
        chosen = (enum call)c;
        if (pthread_attr_init(&attributes) != 0 || pthread_attr_setstack(&attributes, stack, STACK) != 0 ||
            pthread_create(&thread, &attributes, measured, NULL) != 0 || pthread_join(thread, NULL) != 0) {
            fputs("no thread\n", stderr);
            exit(1);
        }
        pthread_attr_destroy(&attributes);
    }
}

static void load(struct file *into, const char *folder, const char *name) {
    char path[4096];
    snprintf(path, sizeof path, "%s/%s", folder, name);
    FILE *from = fopen(path, "rb");
    if (from == NULL) {
        perror(path);
        exit(1);
    }
    into->bytes = fread(into->text, 1, FILE_ROOM, from);
    fclose(from);
}

static void text(struct file *into, const char *bytes) {
    into->bytes = strlen(bytes);
    memcpy(into->text, bytes, into->bytes);
}

/* The tree with the longest numbers: every value is the greatest, but the budget, which is 1, and 29 accelerators on four interconnects
 * beneath each other have the greatest share, so that the response is the greatest, with 19 digits. */
static void greatest(struct file *into) {
    char lines[4096] = "bus\t65535\t255\t255\t255\t255\t4095\t4095\t255\t255\t256\t15\nint\t0\t-\t-\t16\n"
                       "int\t1\t0\t7\t16\nint\t2\t1\t7\t16\nint\t3\t2\t7\t16\n";
    for (int a = 0; a < 29; a++) {
        size_t at = strlen(lines);
        snprintf(lines + at, sizeof lines - at, "acc\t%d\t%d\t%d\t16\t1\t65535\t65535\t4294967295\t4294967295\n", a,
                 a == 28 ? 3 : a / 7, a == 28 ? 7 : a % 7);
    }
    text(into, lines);
}

/* The files whole, and cut after each of so many parts of the tree and of the trace. */
static void measure_cut(size_t parts) {
    size_t tree_bytes = tree.bytes, trace_bytes = trace.bytes;
    for (size_t part = 0; part <= parts; part++) {
        tree.bytes = tree_bytes;
        trace.bytes = trace_bytes * part / parts;
        measure_all();
        tree.bytes = tree_bytes * part / parts;
        trace.bytes = trace_bytes;
        measure_all();
    }
}

int main(int arguments, char **words) {
    if (arguments != 2) {
        fputs("usage: stack EXAMPLES\n", stderr);
        return 1;
    }
    static const char *const pairs[][2] = {
        {"full.tree", "full.trace"},
        {"scanner30.tree", "scanner30-read.trace"},
        {"board100-budget64.tree", "board100-write.trace"},
        {"scanner30.tree", "scanner30-readback-read.trace"},
    };
    for (size_t i = 0; i < sizeof pairs / sizeof pairs[0]; i++) {
        load(&tree, words[1], pairs[i][0]);
        load(&trace, words[1], pairs[i][1]);
        measure_cut(40);
    }
    greatest(&tree);
    measure_cut(40);
    /* The reader counts the levels above the fourth before it refuses the fifth. */
    text(&tree, "bus\t8\t1\t4\t2\t2\t30\t25\t1\t1\t16\nint\t0\t-\t-\t1\nint\t1\t0\t0\t1\nint\t2\t1\t0\t1\n"
                "int\t3\t2\t0\t1\nint\t4\t3\t0\t1\nacc\t0\t3\t1\t4\t2\t10\t5\t1000\t2000\n");
    measure_cut(20);
    text(&tree, "bus\t1\t1\t0\t0\t0\t0\t0\t1\t1\t1\nint\t0\t-\t-\t1\nacc\t0\t0\t0\t1\t1\t0\t0\t0\t1\n");
    text(&trace, "o\t0\t0\t1\n");
    measure_cut(20);
    /* AXI3, with the longest bus line and with a B that is refused. */
    text(&tree, "bus3\t65535\t255\t255\t255\t255\t4095\t4095\t255\t255\t16\t15\nint\t0\t-\t-\t16\n"
                "acc\t0\t0\t0\t16\t1024\t65535\t65535\t4294967295\t4294967295\n");
    measure_cut(20);
    text(&tree, "bus3\t1\t1\t0\t0\t0\t0\t0\t1\t1\t17\nint\t0\t-\t-\t1\nacc\t0\t0\t0\t1\t1\t0\t0\t0\t1\n");
    measure_cut(20);
    int above = 0;
    for (int c = 0; c < CALLS; c++) {
        printf("razhikum_%s\t%zu\t%zu\n", calls[c].name, most[c], calls[c].stated);
        above |= most[c] > calls[c].stated;
    }
    if (above) {
        fputs("a call uses more stack than razhikum.h says\n", stderr);
    }
    return above;
}
