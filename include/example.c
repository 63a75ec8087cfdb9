/* Calls the static library from C: the report of a tree, the bounds of each accelerator, a run on each channel, a wait, the tree
 * written back, a burst cut into pieces whose answers are joined, and refusals.
 *
 *     cc -Iinclude include/example.c target/staticlib/librazhikum.a -o example
 */
#include <inttypes.h>
#include <stdio.h>
#include <string.h>

#include "razhikum.h"

static const char TREE[] =
    "bus\t8\t1\t4\t2\t2\t30\t25\t1\t1\t16\n"
    "int\t0\t-\t-\t1\n"
    "acc\t1\t0\t3\t4\t2\t1\t0\t0\t100\n"
    "acc\t0\t0\t0\t4\t2\t10\t5\t1000\t2000\n";
/* Accelerator 1 only reads: as a trace of reads this is done, as one of writes its request stays held. */
static const char TRACE[] = "o\t0\t0\t2\no\t0\t1\t1\n";

static void show_bounds(const uint8_t *tree, size_t tree_bytes) {
    razhikum_counted count = razhikum_count(tree, tree_bytes);
    for (uint8_t a = 0; a < count.accelerators; a++) {
        razhikum_row row = razhikum_bound(tree, tree_bytes, a);
        printf("accelerator %u: shares %" PRIu64 " and %" PRIu64 ", response %" PRIu64 ", period %" PRIu64 ", %s\n", a,
               row.sr, row.sw, row.response, row.period, row.meets ? "meets" : "late");
    }
}

static void show_run(const uint8_t *tree, size_t tree_bytes, enum razhikum_channel channel) {
    uint8_t served[4];
    razhikum_outcome run =
        razhikum_run(tree, tree_bytes, (uint8_t)channel, (const uint8_t *)TRACE, strlen(TRACE), served, sizeof served);
    puts(channel == RAZHIKUM_READ ? "reads" : "writes");
    for (uint32_t slot = 0; slot < run.slots; slot++) {
        if (served[slot] == RAZHIKUM_IDLE) {
            printf("slot %" PRIu32 ": idle\n", slot);
        } else {
            printf("slot %" PRIu32 ": accelerator %u\n", slot, served[slot]);
        }
    }
    puts(run.kind == RAZHIKUM_DONE ? "done" : run.kind == RAZHIKUM_STOPPED ? "stopped" : "refused");
}

/* Why the second read of accelerator 0 waited. */
static void show_wait(const uint8_t *tree, size_t tree_bytes) {
    uint8_t list[8];
    razhikum_wait wait = razhikum_why(tree, tree_bytes, RAZHIKUM_READ, (const uint8_t *)TRACE, strlen(TRACE), 0, 2, list,
                                      sizeof list);
    for (uint32_t i = 0; i < wait.count && 2 * i + 1 < sizeof list; i++) {
        uint8_t met = list[2 * i + 1];
        printf("slot %" PRIu32 ": waited for accelerator %u", wait.slot + i, list[2 * i]);
        if (met == RAZHIKUM_OWN) {
            puts(", its own");
        } else {
            printf(" at interconnect %u\n", met);
        }
    }
    printf("waited %" PRIu32 " slots\n", wait.count);
}

/* The acc lines by interconnect and port, whatever their order was. */
static void show_text(const uint8_t *tree, size_t tree_bytes) {
    uint8_t text[RAZHIKUM_TREE_TEXT];
    razhikum_page written = razhikum_rewrite(tree, tree_bytes, text, sizeof text);
    fwrite(text, 1, written.bytes, stdout);
}

/* A burst of 40 beats of 4 bytes, cut to the tree's 16 beats, and the answers of its pieces as they come in order. */
static void show_burst(const uint8_t *tree, size_t tree_bytes) {
    uint32_t starts[RAZHIKUM_PIECES], lengths[RAZHIKUM_PIECES];
    razhikum_cut cut = razhikum_split(tree, tree_bytes, 5, 40, 4, starts, lengths);
    razhikum_joined joined = {RAZHIKUM_ACCEPTED, false, cut.pieces, 0};
    for (uint32_t number = 1; number <= cut.pieces; number++) {
        joined = razhikum_join(joined.pieces, joined.answered, number);
        printf("piece %" PRIu32 ": %" PRIu32 " beats at address %" PRIu32 "%s\n", number, lengths[number - 1],
               starts[number - 1], joined.done ? ", the last" : "");
    }
    if (razhikum_join(joined.pieces, joined.answered, cut.pieces).number == RAZHIKUM_BROKEN) {
        puts("no piece is answered twice");
    }
    if (razhikum_split(tree, tree_bytes, 4092, 3, 2, starts, lengths).number == RAZHIKUM_PAGE_CROSSED) {
        puts("3 beats of 2 bytes at address 4092 cross a multiple of 4,096 bytes");
    }
}

int main(void) {
    static uint8_t page[RAZHIKUM_PAGE];
    const uint8_t *tree = (const uint8_t *)TREE;
    size_t tree_bytes = strlen(TREE);
    if (razhikum_version() != RAZHIKUM_VERSION) {
        fputs("razhikum.h and librazhikum.a are of different versions\n", stderr);
        return 1;
    }
    razhikum_page report = razhikum_report(tree, tree_bytes, page);
    fwrite(page, 1, report.bytes, stdout);
    show_bounds(tree, tree_bytes);
    show_run(tree, tree_bytes, RAZHIKUM_READ);
    show_run(tree, tree_bytes, RAZHIKUM_WRITE);
    show_wait(tree, tree_bytes);
    show_text(tree, tree_bytes);
    show_burst(tree, tree_bytes);

    razhikum_reading cut = razhikum_read_tree(tree, tree_bytes - 1);
    if (cut.number == RAZHIKUM_SHAPE) {
        printf("without its last LF the tree is refused by %u at line %" PRIu32 "\n", cut.number, cut.line);
    }
    return 0;
}
