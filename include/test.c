/* Holds header and archive together: the layout of each struct by offsets, the version, every number that a file or a burst can be
 * refused by, runs and waits on both channels and on none, responses with the wait for new windows, bursts and joiners, trees of AXI3, and
 * the values that the archive answers in each field, so that two columns exchanged would be seen. Compiled as C and as C++.
 * include/test.sh builds and runs it.
 */
#include <assert.h>
#include <stdio.h>
#include <stdlib.h>
#include <string.h>

#include "razhikum.h"

/* What the archive uses: fields in the order of the Rattle structs, each at the next multiple of its own size. */
#define FIELD(type, field, at, bytes)                                         \
    static_assert(offsetof(type, field) == (at), #type "." #field " is elsewhere"); \
    static_assert(sizeof(((type *)0)->field) == (bytes), #type "." #field " has another size")

FIELD(razhikum_reading, file, 0, 1);
FIELD(razhikum_reading, number, 1, 1);
FIELD(razhikum_reading, line, 4, 4);
static_assert(sizeof(razhikum_reading) == 8, "razhikum_reading has another size");
FIELD(razhikum_counted, number, 0, 1);
FIELD(razhikum_counted, line, 4, 4);
FIELD(razhikum_counted, accelerators, 8, 1);
static_assert(sizeof(razhikum_counted) == 12, "razhikum_counted has another size");
FIELD(razhikum_page, bytes, 0, 8);
FIELD(razhikum_page, number, 8, 1);
FIELD(razhikum_page, line, 12, 4);
static_assert(sizeof(razhikum_page) == 16, "razhikum_page has another size");
FIELD(razhikum_outcome, kind, 0, 1);
FIELD(razhikum_outcome, number, 1, 1);
FIELD(razhikum_outcome, line, 4, 4);
FIELD(razhikum_outcome, slots, 8, 4);
static_assert(sizeof(razhikum_outcome) == 12, "razhikum_outcome has another size");
FIELD(razhikum_wait, kind, 0, 1);
FIELD(razhikum_wait, number, 1, 1);
FIELD(razhikum_wait, line, 4, 4);
FIELD(razhikum_wait, count, 8, 4);
FIELD(razhikum_wait, slot, 12, 4);
static_assert(sizeof(razhikum_wait) == 16, "razhikum_wait has another size");
FIELD(razhikum_row, number, 0, 1);
FIELD(razhikum_row, line, 4, 4);
FIELD(razhikum_row, level, 8, 1);
FIELD(razhikum_row, meets, 9, 1);
FIELD(razhikum_row, sr, 16, 8);
FIELD(razhikum_row, sw, 24, 8);
FIELD(razhikum_row, yr, 32, 8);
FIELD(razhikum_row, yw, 40, 8);
FIELD(razhikum_row, response, 48, 8);
FIELD(razhikum_row, period, 56, 8);
static_assert(sizeof(razhikum_row) == 64, "razhikum_row has another size");
FIELD(razhikum_cut, number, 0, 1);
FIELD(razhikum_cut, line, 4, 4);
FIELD(razhikum_cut, pieces, 8, 4);
static_assert(sizeof(razhikum_cut) == 12, "razhikum_cut has another size");
FIELD(razhikum_joined, number, 0, 1);
FIELD(razhikum_joined, done, 1, 1);
FIELD(razhikum_joined, pieces, 4, 4);
FIELD(razhikum_joined, answered, 8, 4);
static_assert(sizeof(razhikum_joined) == 12, "razhikum_joined has another size");

static unsigned long compared;

static void same(const char *what, unsigned long long found, unsigned long long expected) {
    compared++;
    if (found != expected) {
        printf("%s: %llu in place of %llu\n", what, found, expected);
        exit(1);
    }
}

/* A file's bytes, from its folder or from a text with spaces for tabs. */
typedef struct {
    size_t bytes;
    uint8_t text[RAZHIKUM_LIMIT + 1];
} file;

static file tree, trace, written;
/* The channel of the runs and waits that come next. */
static uint8_t channel = RAZHIKUM_READ;
static uint8_t page[RAZHIKUM_PAGE], served[RAZHIKUM_SLOTS + 1];
/* The arrays of a burst, with an entry on either side that no call may write. */
static uint32_t starts[RAZHIKUM_PIECES + 2], lengths[RAZHIKUM_PIECES + 2];

static void load(file *into, const char *folder, const char *name) {
    char path[4096];
    snprintf(path, sizeof path, "%s/%s", folder, name);
    FILE *from = fopen(path, "rb");
    if (from == NULL) {
        perror(path);
        exit(1);
    }
    into->bytes = fread(into->text, 1, sizeof into->text, from);
    fclose(from);
}

static void spaced(file *into, const char *text) {
    into->bytes = strlen(text);
    for (size_t i = 0; i < into->bytes; i++) {
        into->text[i] = (uint8_t)(text[i] == ' ' ? '\t' : text[i]);
    }
}

static void is_row(
    unsigned a, unsigned level, unsigned sr, unsigned sw, unsigned yr, unsigned yw, unsigned response, unsigned period) {
    razhikum_row r = razhikum_bound(tree.text, tree.bytes, (uint8_t)a);
    same("row number", r.number, RAZHIKUM_ACCEPTED);
    same("row line", r.line, 0);
    same("level", r.level, level);
    same("sr", r.sr, sr);
    same("sw", r.sw, sw);
    same("yr", r.yr, yr);
    same("yw", r.yw, yw);
    same("response", r.response, response);
    same("period", r.period, period);
    same("meets", r.meets, response <= period);
}

static void is_row_refused(unsigned a, unsigned number, unsigned line) {
    razhikum_row r = razhikum_bound(tree.text, tree.bytes, (uint8_t)a);
    same("row number", r.number, number);
    same("row line", r.line, line);
    same("figures of a refused row", r.level + r.sr + r.sw + r.yr + r.yw + r.response + r.period + r.meets, 0);
}

/* The number at this place of a report's line, which is then behind the tab after it. */
static unsigned long long number_at(const char **at) {
    unsigned long long value = 0;
    while (**at >= '0' && **at <= '9') {
        value = value * 10 + (unsigned long long)(**at - '0');
        (*at)++;
    }
    same("a tab after a number", (unsigned char)**at, '\t');
    (*at)++;
    return value;
}

#define HEAD "acc\tlevel\tsr\tsw\tyr\tyw\tresp\tperiod\tverdict\n"

/* Each line of the report says what the row of the same accelerator says. */
static void rows_are_the_report(void) {
    razhikum_page report = razhikum_report(tree.text, tree.bytes, page);
    same("report's number", report.number, RAZHIKUM_ACCEPTED);
    same("report's line", report.line, 0);
    same("report ends in LF", page[report.bytes - 1], '\n');
    page[report.bytes - 1] = 0;
    razhikum_counted count = razhikum_count(tree.text, tree.bytes);
    same("count's number", count.number, RAZHIKUM_ACCEPTED);
    same("count's line", count.line, 0);
    same("the report's head line", (unsigned long long)strncmp((const char *)page, HEAD, strlen(HEAD)), 0);
    const char *at = (const char *)page + strlen(HEAD);
    for (unsigned a = 0; a < count.accelerators; a++) {
        razhikum_row r = razhikum_bound(tree.text, tree.bytes, (uint8_t)a);
        same("acc", number_at(&at), a);
        same("level", r.level, number_at(&at));
        same("sr", r.sr, number_at(&at));
        same("sw", r.sw, number_at(&at));
        same("yr", r.yr, number_at(&at));
        same("yw", r.yw, number_at(&at));
        same("response", r.response, number_at(&at));
        same("period", r.period, number_at(&at));
        same("verdict", r.meets, *at == 'm');
        at = strchr(at, '\n') + 1;
    }
    same("the report's last line", (unsigned long long)strncmp(at, "all\t", 4), 0);
    is_row_refused(count.accelerators, RAZHIKUM_UNKNOWN, 0);
}

static void is_outcome(size_t room, unsigned kind, unsigned number, unsigned line, unsigned slots) {
    memset(served, 99, sizeof served);
    razhikum_outcome o = razhikum_run(tree.text, tree.bytes, channel, trace.text, trace.bytes, served, room);
    same("kind", o.kind, kind);
    same("number", o.number, number);
    same("line", o.line, line);
    same("slots", o.slots, slots);
    for (size_t i = slots; i < sizeof served; i++) {
        same("a byte past the slots used", served[i], 99);
    }
}

static void is_wait_refused(unsigned a, unsigned long which, size_t room, unsigned kind, unsigned number, unsigned line) {
    memset(served, 99, sizeof served);
    razhikum_wait w = razhikum_why(tree.text, tree.bytes, channel, trace.text, trace.bytes, (uint8_t)a, (uint32_t)which,
                                   served, room);
    same("kind of a refused wait", w.kind, kind);
    same("number of a refused wait", w.number, number);
    same("line of a refused wait", w.line, line);
    same("count and slot of a refused wait", w.count + w.slot, 0);
    for (size_t i = 0; i < sizeof served; i++) {
        same("a byte of a refused wait's buffer", served[i], 99);
    }
}

/* The wait and its list, in a buffer of that length: the oldest slots in whole pairs, and the bytes past them as they were. */
static void is_wait_in(size_t room, unsigned a, unsigned which, unsigned slot, unsigned count, const uint8_t *list) {
    size_t listed = room / 2 < count ? room / 2 : count;
    memset(served, 99, sizeof served);
    razhikum_wait w =
        razhikum_why(tree.text, tree.bytes, channel, trace.text, trace.bytes, (uint8_t)a, which, served, room);
    same("kind of a wait", w.kind, RAZHIKUM_TOLD);
    same("number of a wait", w.number, RAZHIKUM_ACCEPTED);
    same("line of a wait", w.line, 0);
    same("count of a wait", w.count, count);
    same("slot of admission", w.slot, slot);
    for (size_t i = 0; i < 2 * listed; i++) {
        same("a byte of the list", served[i], list[i]);
    }
    for (size_t i = 2 * listed; i < sizeof served; i++) {
        same("a byte past the list", served[i], 99);
    }
}

/* In buffers of every length up to one that the list leaves free bytes of, and in the largest. */
static void is_wait(unsigned a, unsigned which, unsigned slot, unsigned count, const uint8_t *list) {
    for (size_t room = 0; room <= 2 * count + 3; room++) {
        is_wait_in(room, a, which, slot, count, list);
    }
    is_wait_in(RAZHIKUM_SLOTS, a, which, slot, count, list);
}

static void is_text_refused(size_t room, unsigned number, unsigned line) {
    memset(served, 99, sizeof served);
    razhikum_page w = razhikum_rewrite(tree.text, tree.bytes, served, room);
    same("bytes of a refused text", w.bytes, 0);
    same("number of a refused text", w.number, number);
    same("line of a refused text", w.line, line);
    for (size_t i = 0; i < sizeof served; i++) {
        same("a byte of a refused text's buffer", served[i], 99);
    }
}

/* The tree is written back as `written` into a buffer of that length, and the bytes past it are as they were. */
static void is_text_in(size_t room) {
    memset(served, 99, sizeof served);
    razhikum_page w = razhikum_rewrite(tree.text, tree.bytes, served, room);
    same("number of a text", w.number, RAZHIKUM_ACCEPTED);
    same("line of a text", w.line, 0);
    same("bytes of a text", w.bytes, written.bytes);
    for (size_t i = 0; i < written.bytes; i++) {
        same("a byte of a text", served[i], written.text[i]);
    }
    for (size_t i = written.bytes; i < sizeof served; i++) {
        same("a byte past a text", served[i], 99);
    }
}

/* In buffers of its own length, of one byte more and of the greatest lengths; a byte less is too short. */
static void is_text(void) {
    is_text_in(written.bytes);
    is_text_in(written.bytes + 1);
    is_text_in(RAZHIKUM_TREE_TEXT);
    is_text_in(RAZHIKUM_SLOTS);
    is_text_refused(written.bytes - 1, RAZHIKUM_TOO_SHORT, 0);
    is_text_refused(0, RAZHIKUM_TOO_SHORT, 0);
    is_text_refused(RAZHIKUM_SLOTS + 1, RAZHIKUM_RANGE, 0);
}

/* The tree is written back as `written`, and so is the text itself. */
static void is_written(void) {
    is_text();
    tree = written;
    is_text();
}

static void is_trace(unsigned which, unsigned number, unsigned line) {
    razhikum_reading r = razhikum_read_trace(tree.text, tree.bytes, trace.text, trace.bytes);
    same("file", r.file, which);
    same("number", r.number, number);
    same("line", r.line, line);
}

/* A channel that is neither is refused before a tree or a trace of any bytes is read, an accelerator or a number looked at, or the
 * buffer measured. */
static void other_channels_are_refused(void) {
    static const unsigned others[] = {2, 3, 127, 128, 254, 255};
    uint8_t before = channel;
    for (size_t i = 0; i < sizeof others / sizeof others[0]; i++) {
        channel = (uint8_t)others[i];
        is_outcome(8, RAZHIKUM_CALL_REFUSED, RAZHIKUM_RANGE, 0, 0);
        is_outcome(0, RAZHIKUM_CALL_REFUSED, RAZHIKUM_RANGE, 0, 0);
        is_outcome(RAZHIKUM_SLOTS + 1, RAZHIKUM_CALL_REFUSED, RAZHIKUM_RANGE, 0, 0);
        is_wait_refused(0, 1, 8, RAZHIKUM_CALL_REFUSED, RAZHIKUM_RANGE, 0);
        is_wait_refused(255, 0, RAZHIKUM_SLOTS + 1, RAZHIKUM_CALL_REFUSED, RAZHIKUM_RANGE, 0);
    }
    channel = before;
}

/* What no start address and no count of beats of these tests is. */
#define UNWRITTEN 3735928559u

static razhikum_cut split(uint32_t start, uint32_t beats, uint32_t size) {
    for (size_t i = 0; i < RAZHIKUM_PIECES + 2; i++) {
        starts[i] = lengths[i] = UNWRITTEN;
    }
    razhikum_cut cut = razhikum_split(tree.text, tree.bytes, start, beats, size, starts + 1, lengths + 1);
    same("the entries before the arrays", starts[0] == UNWRITTEN && lengths[0] == UNWRITTEN, true);
    same("the entries after the arrays",
         starts[RAZHIKUM_PIECES + 1] == UNWRITTEN && lengths[RAZHIKUM_PIECES + 1] == UNWRITTEN, true);
    return cut;
}

/* Refused, and every entry of both arrays is as it was. */
static void is_cut_refused(uint32_t start, uint32_t beats, uint32_t size, unsigned number, unsigned line) {
    razhikum_cut cut = split(start, beats, size);
    same("number of a refused burst", cut.number, number);
    same("line of a refused burst", cut.line, line);
    same("pieces of a refused burst", cut.pieces, 0);
    for (size_t i = 1; i <= RAZHIKUM_PIECES; i++) {
        same("a start address after a refusal", starts[i], UNWRITTEN);
        same("the beats after a refusal", lengths[i], UNWRITTEN);
    }
}

/* Every call refuses the tree alike, and the report leaves its page as it was. A burst that is refused by 15 or 16 on a sound tree is
 * refused as the tree is. */
static void tree_is_refused(unsigned number, unsigned line) {
    razhikum_reading r = razhikum_read_tree(tree.text, tree.bytes);
    same("file", r.file, RAZHIKUM_FILE_TREE);
    same("number", r.number, number);
    same("line", r.line, line);
    is_trace(RAZHIKUM_FILE_TREE, number, line);
    for (channel = RAZHIKUM_READ; channel <= RAZHIKUM_WRITE; channel++) {
        is_outcome(8, RAZHIKUM_TREE_REFUSED, number, line, 0);
        is_wait_refused(0, 1, 8, RAZHIKUM_TREE_REFUSED, number, line);
    }
    channel = RAZHIKUM_READ;
    other_channels_are_refused();
    is_text_refused(0, number, line);
    is_text_refused(RAZHIKUM_SLOTS + 1, number, line);
    is_row_refused(0, number, line);
    is_cut_refused(0, 16, 4, number, line);
    is_cut_refused(0, 0, 4, number, line);
    is_cut_refused(4092, 3, 2, number, line);
    razhikum_counted count = razhikum_count(tree.text, tree.bytes);
    same("count's number", count.number, number);
    same("count's line", count.line, line);
    same("accelerators of a refused tree", count.accelerators, 0);
    memset(page, 99, sizeof page);
    razhikum_page report = razhikum_report(tree.text, tree.bytes, page);
    same("bytes of a refused report", report.bytes, 0);
    same("report's number", report.number, number);
    same("report's line", report.line, line);
    for (size_t i = 0; i < sizeof page; i++) {
        same("the page of a refused report", page[i], 99);
    }
}

#define BUS "bus 8 1 4 2 2 30 25 1 1 16\n"
/* The same with a return delay. */
#define DELAYED(delay) "bus 8 1 4 2 2 30 25 1 1 16 " delay "\n"
/* The same of AXI3, with this B and what comes after it. */
#define BUS3(end) "bus3 8 1 4 2 2 30 25 1 1 " end "\n"
#define ROOT "int 0 - - 1\n"
#define ACCS "acc 0 0 0 4 2 10 5 1000 2000\nacc 1 0 3 4 2 1 0 0 100\n"

static void refused_trees(void) {
    spaced(&trace, "");
    spaced(&tree, BUS ROOT "acc 0 0 0 4 2 10 5 1000 2000");
    tree_is_refused(RAZHIKUM_SHAPE, 3);
    spaced(&tree, BUS "int 0 - - 17\n");
    tree_is_refused(RAZHIKUM_RANGE, 2);
    spaced(&tree, DELAYED("16") ROOT ACCS);
    tree_is_refused(RAZHIKUM_RANGE, 1);
    spaced(&tree, DELAYED("") ROOT ACCS);
    tree_is_refused(RAZHIKUM_SHAPE, 1);
    spaced(&tree, DELAYED("1 1") ROOT ACCS);
    tree_is_refused(RAZHIKUM_SHAPE, 1);
    spaced(&tree, "bus 8 1 4 2 2 30 25 1 1 257\n" ROOT ACCS);
    tree_is_refused(RAZHIKUM_RANGE, 1);
    spaced(&tree, BUS3("17") ROOT ACCS);
    tree_is_refused(RAZHIKUM_RANGE, 1);
    spaced(&tree, BUS3("256 15") ROOT ACCS);
    tree_is_refused(RAZHIKUM_RANGE, 1);
    spaced(&tree, BUS3("16 16") ROOT ACCS);
    tree_is_refused(RAZHIKUM_RANGE, 1);
    spaced(&tree, BUS3("16 1 1") ROOT ACCS);
    tree_is_refused(RAZHIKUM_SHAPE, 1);
    spaced(&tree, "bus33 8 1 4 2 2 30 25 1 1 16\n" ROOT ACCS);
    tree_is_refused(RAZHIKUM_SHAPE, 1);
    spaced(&tree, "BUS3 8 1 4 2 2 30 25 1 1 16\n" ROOT ACCS);
    tree_is_refused(RAZHIKUM_SHAPE, 1);
    spaced(&tree, BUS BUS3("16") ROOT ACCS);
    tree_is_refused(RAZHIKUM_ORDER, 2);
    spaced(&tree, BUS3("16") BUS ROOT ACCS);
    tree_is_refused(RAZHIKUM_ORDER, 2);
    spaced(&tree, BUS BUS3("17") ROOT ACCS);
    tree_is_refused(RAZHIKUM_RANGE, 2);
    spaced(&tree, BUS ROOT ACCS);
    memset(tree.text + tree.bytes, '\n', sizeof tree.text - tree.bytes);
    tree.bytes = RAZHIKUM_LIMIT + 1;
    tree_is_refused(RAZHIKUM_RANGE, 0);
    spaced(&tree, "");
    tree_is_refused(RAZHIKUM_ORDER, 1);
    spaced(&tree, BUS ROOT ACCS "acc 2 0 3 4 2 1 0 0 100\n");
    tree_is_refused(RAZHIKUM_PORT_TAKEN, 5);
    spaced(&tree, BUS ROOT "int 1 0 0 1\nint 2 1 0 1\nint 3 2 0 1\nint 4 3 0 1\n");
    tree_is_refused(RAZHIKUM_LEVEL, 6);
}

static void traces(void) {
    spaced(&tree, BUS ROOT ACCS);
    spaced(&trace, "o 0 0 2\no 0 1 1\n");
    is_trace(RAZHIKUM_FILE_NONE, RAZHIKUM_ACCEPTED, 0);
    is_outcome(4, RAZHIKUM_DONE, RAZHIKUM_ACCEPTED, 0, 3);
    same("slot 0", served[0], 0);
    same("slot 1", served[1], 1);
    same("slot 2", served[2], 0);
    is_outcome(2, RAZHIKUM_STOPPED, RAZHIKUM_ACCEPTED, 0, 2);
    is_outcome(RAZHIKUM_SLOTS + 1, RAZHIKUM_TRACE_REFUSED, RAZHIKUM_RANGE, 0, 0);
    spaced(&trace, "o 2 1 1\n");
    is_outcome(4, RAZHIKUM_DONE, RAZHIKUM_ACCEPTED, 0, 3);
    same("an idle slot", served[0], RAZHIKUM_IDLE);
    spaced(&trace, "o 5 0 1\no 5 0 1\no 4 0 1\n");
    is_trace(RAZHIKUM_FILE_TRACE, RAZHIKUM_FALLING, 3);
    is_outcome(8, RAZHIKUM_TRACE_REFUSED, RAZHIKUM_FALLING, 3, 0);
    spaced(&trace, "o 5 0 1\no 5 2 1\n");
    is_trace(RAZHIKUM_FILE_TRACE, RAZHIKUM_UNKNOWN, 2);
    is_outcome(8, RAZHIKUM_TRACE_REFUSED, RAZHIKUM_UNKNOWN, 2, 0);
    other_channels_are_refused();
}

/* Three interconnects beneath each other, four accelerators (docs/MODEL.md, M73 and M74). The run serves 0 1 0 2 0 1 0 3, and
 * everything is admitted in slot 0. */
#define NESTED                                                                                      \
    "bus 16 1 4 2 2 30 25 1 1 16\n" ROOT "int 1 0 1 1\nint 2 1 1 1\nacc 0 0 0 4 8 1 1 0 1\n"        \
    "acc 1 1 0 4 8 1 1 0 1\nacc 2 2 0 4 8 1 1 0 1\nacc 3 2 1 4 8 1 1 0 1\n"

static void waits(void) {
    static const uint8_t last[] = {0, 0, 1, 1, 0, 0, 2, 2, 0, 0, 1, 1, 0, 0};
    static const uint8_t second[] = {0, RAZHIKUM_OWN, 1, 0};
    static const uint8_t late[] = {0, RAZHIKUM_OWN};
    spaced(&tree, NESTED);
    spaced(&trace, "o 0 0 4\no 0 1 2\no 0 2 1\no 0 3 1\n");
    is_wait(3, 1, 0, 7, last);
    is_wait(0, 2, 0, 2, second);
    is_wait(0, 1, 0, 0, NULL);
    is_wait_refused(0, 0, 8, RAZHIKUM_CALL_REFUSED, RAZHIKUM_NOT_SERVED, 0);
    is_wait_refused(0, 5, 8, RAZHIKUM_CALL_REFUSED, RAZHIKUM_NOT_SERVED, 0);
    is_wait_refused(0, 4294967295, 8, RAZHIKUM_CALL_REFUSED, RAZHIKUM_NOT_SERVED, 0);
    is_wait_refused(4, 0, 8, RAZHIKUM_CALL_REFUSED, RAZHIKUM_UNKNOWN, 0);
    is_wait_refused(255, 1, 8, RAZHIKUM_CALL_REFUSED, RAZHIKUM_UNKNOWN, 0);
    is_wait_refused(4, 0, RAZHIKUM_SLOTS + 1, RAZHIKUM_TRACE_REFUSED, RAZHIKUM_RANGE, 0);
    spaced(&trace, "o 5 0 2\n");
    is_wait(0, 2, 5, 1, late);
    spaced(&trace, "o 5 0 1\no 4 0 1\n");
    is_wait_refused(4, 0, 8, RAZHIKUM_TRACE_REFUSED, RAZHIKUM_FALLING, 2);
}

static void is_served(unsigned slots, const uint8_t *expected) {
    is_outcome(16, RAZHIKUM_DONE, RAZHIKUM_ACCEPTED, 0, slots);
    for (unsigned i = 0; i < slots; i++) {
        same("a slot of a run", served[i], expected[i]);
    }
}

/* The run serves these and is then idle, in a buffer of every length from theirs on and in the largest: something stays held. */
static void is_stopped(unsigned slots, const uint8_t *expected) {
    for (unsigned room = slots; room <= slots + 5; room++) {
        unsigned length = room == slots + 5 ? RAZHIKUM_SLOTS : room;
        is_outcome(length, RAZHIKUM_STOPPED, RAZHIKUM_ACCEPTED, 0, length);
        for (unsigned i = 0; i < length; i++) {
            same("a slot of a stopped run", served[i], i < slots ? expected[i] : RAZHIKUM_IDLE);
        }
    }
}

/* Four accelerators on one interconnect, g 2: 0 reads and writes, 1 only reads, 2 only writes, 3 neither. */
#define APART                                                                                            \
    BUS "int 0 - - 2\nacc 0 0 0 4 8 10 5 0 2000\nacc 1 0 1 4 8 1 0 0 100\nacc 2 0 2 1 8 0 3 0 1000\n" \
        "acc 3 0 3 4 8 0 0 0 1\n"

static void channels(void) {
    static const uint8_t reads[] = {0, 0, 1, 1}, writes[] = {0, 0, 2};
    static const uint8_t at_root[] = {0, 0, 0, 0}, then_own[] = {0, 0, 0, 0, 1, RAZHIKUM_OWN};
    spaced(&tree, APART);
    is_row(0, 1, 3, 2, 20, 5, 3026, 2000);
    is_row(1, 1, 3, 4, 2, 0, 523, 100);
    is_row(2, 1, 5, 3, 0, 6, 749, 1000);
    is_row(3, 1, 5, 4, 0, 0, 0, 1);
    rows_are_the_report();

    /* 1 is served on the read channel alone. */
    spaced(&trace, "o 0 0 2\no 0 1 2\n");
    channel = RAZHIKUM_READ;
    is_served(4, reads);
    is_wait(1, 1, 0, 2, at_root);
    channel = RAZHIKUM_WRITE;
    is_stopped(2, writes);
    is_wait_refused(1, 1, 8, RAZHIKUM_CALL_REFUSED, RAZHIKUM_NOT_SERVED, 0);
    /* 2 on the write channel alone. */
    spaced(&trace, "o 0 0 2\no 0 2 1\n");
    is_served(3, writes);
    is_wait(2, 1, 0, 2, at_root);
    channel = RAZHIKUM_READ;
    is_stopped(2, reads);
    is_wait_refused(2, 1, 8, RAZHIKUM_CALL_REFUSED, RAZHIKUM_NOT_SERVED, 0);
    /* 3 on neither, though the trace is accepted; the others are served as if it were not there. */
    spaced(&trace, "o 0 0 2\no 0 1 2\no 0 2 1\no 0 3 1\n");
    is_trace(RAZHIKUM_FILE_NONE, RAZHIKUM_ACCEPTED, 0);
    is_stopped(4, reads);
    is_wait(1, 2, 0, 3, then_own);
    channel = RAZHIKUM_WRITE;
    is_stopped(3, writes);
    is_wait(2, 1, 0, 2, at_root);
    /* A line that no slot of the buffer comes to, and an empty buffer. */
    spaced(&trace, "o 9 3 1\n");
    is_stopped(0, NULL);
    channel = RAZHIKUM_READ;
    is_stopped(0, NULL);
    other_channels_are_refused();
}

/* Two accelerators with phi 1 and 4 (docs/MODEL.md, M95): with a return delay of 2 the first offers again in slots 3 and 6. The
 * shares are the same. */
static void returns(void) {
    static const uint8_t late[] = {0, 1, 1, 0, 1, RAZHIKUM_IDLE, 0}, at_once[] = {0, 1, 0, 1, 0, 1};
#define PAIR ROOT "acc 0 0 0 1 8 1 1 0 1\nacc 1 0 1 4 8 1 1 0 1\n"
    spaced(&trace, "o 0 0 3\no 0 1 3\n");
    spaced(&tree, DELAYED("2") PAIR);
    is_served(7, late);
    is_wait(0, 2, 3, 0, NULL);
    is_row(0, 1, 2, 2, 1, 1, 912, 1);
    spaced(&tree, DELAYED("0") PAIR);
    is_served(6, at_once);
    spaced(&tree, BUS PAIR);
    is_served(6, at_once);
    is_row(0, 1, 2, 2, 1, 1, 912, 1);
}

/* The wait for new windows in the response. */
static void windows(void) {
#define EDGES(period) "bus 100 1 4 2 2 30 25 1 1 16\n" ROOT "acc 0 0 0 4 1 10 0 0 " period "\n"
#define NINE(period)                                                                        \
    "bus 16 1 4 2 2 30 25 1 1 16\n" ROOT "int 1 0 1 1\nacc 0 0 0 4 8 1 1 0 1\n"             \
    "acc 1 1 0 4 8 10 5 1000 " period "\nacc 2 1 1 4 8 1 1 0 1\n"
    /* One block with budget 1 in windows of 100 slots: of ten reads one is admitted in each window, and the last is served in slot 900. Its
     * 901 slots of 47 cycles are over 40,000. */
    spaced(&tree, EDGES("40000"));
    is_row(0, 1, 1, 1, 0, 0, 47530, 40000);
    spaced(&trace, "o 0 0 10\n");
    is_outcome(1000, RAZHIKUM_DONE, RAZHIKUM_ACCEPTED, 0, 901);
    for (unsigned slot = 0; slot <= 900; slot++) {
        same("a slot of a job that is held at window edges", served[slot], slot % 100 == 0 ? 0 : RAZHIKUM_IDLE);
    }
    is_wait(0, 10, 900, 0, NULL);
    spaced(&tree, EDGES("47529"));
    is_row(0, 1, 1, 1, 0, 0, 47530, 47529);
    spaced(&tree, EDGES("47530"));
    is_row(0, 1, 1, 1, 0, 0, 47530, 47530);
    /* docs/MODEL.md, M80: two windows for 10 reads with budget 8, one for 5 writes. */
    spaced(&tree, NINE("6112"));
    is_row(1, 2, 4, 4, 30, 15, 6112, 6112);
    spaced(&tree, NINE("6111"));
    is_row(1, 2, 4, 4, 30, 15, 6112, 6111);
    /* As many as the budget, one more, none: 1, 2 and 0 windows of 8 slots. */
    spaced(&tree, BUS ROOT "acc 0 0 0 4 8 8 9 7 1\nacc 1 0 3 4 8 0 0 7 7\n");
    is_row(0, 1, 1, 1, 0, 0, 7 + 8 * 53 + 8 * 47 + 9 * 49 + 2 * 8 * 43, 1);
    is_row(1, 1, 2, 2, 0, 0, 7, 7);
    /* The greatest response: every value is the greatest but the budget, and the share is 113 to the fourth power. */
    char lines[4096] = "bus 65535 255 255 255 255 4095 4095 255 255 256\nint 0 - - 16\nint 1 0 7 16\nint 2 1 7 16\nint 3 2 7 16\n";
    for (int a = 0; a < 29; a++) {
        size_t at = strlen(lines);
        snprintf(lines + at, sizeof lines - at, "acc %d %d %d 16 1 65535 65535 4294967295 4294967295\n", a,
                 a == 28 ? 3 : a / 7, a == 28 ? 7 : a % 7);
    }
    spaced(&tree, lines);
    razhikum_row greatest = razhikum_bound(tree.text, tree.bytes, 28);
    same("the greatest share", greatest.sr, 163047361);
    same("the greatest response", greatest.response, 1491360056307660495u);
    same("the verdict on it", greatest.meets, false);
    rows_are_the_report();
}

/* The tree with the longest text: every field is as long as it can be, all accelerators are on interconnects of two digits, and so
 * are the interconnects that can be. Where it begins with bus3 the name is a byte longer, and B a byte shorter. */
#define LONGEST                                                                                                       \
    "int 0 - - 16\nint 1 0 0 16\nint 2 0 1 16\nint 3 0 2 16\nint 4 0 3 16\nint 5 0 4 16\nint 6 0 5 16\nint 7 0 6 16\n"  \
    "int 8 0 7 16\nint 9 1 0 16\nint 10 1 1 16\nint 11 10 0 16\nint 12 10 1 16\nint 13 10 2 16\nint 14 10 3 16\n"

/* Its acc lines by interconnect and port, or by number. */
static void longest(file *into, const char *bus, bool by_place) {
    char lines[4096];
    snprintf(lines, sizeof lines, "%s" LONGEST, bus);
    for (int line = 0; line < 32; line++) {
        int place = by_place ? 4 + line : 35 - line;
        size_t at = strlen(lines);
        snprintf(lines + at, sizeof lines - at, "acc %d %d %d 16 1024 65535 65535 4294967295 4294967295\n", 35 - place,
                 10 + place / 8, place % 8);
    }
    spaced(into, lines);
}

/* By interconnect, then by port, and not by number; an interconnect or an accelerator on port 7; a return delay of 0 goes. */
#define INTS ROOT "int 1 0 7 16\nint 2 0 0 3\n"
#define AT_0_1 "acc 4 0 1 4 2 1 0 0 100\n"
#define AT_1_0 "acc 2 1 0 16 1024 65535 65535 4294967295 4294967295\n"
#define AT_1_7 "acc 0 1 7 1 1 0 0 0 1\n"
#define AT_2_3 "acc 1 2 3 4 2 10 5 1000 2000\n"
#define AT_2_7 "acc 3 2 7 4 2 10 5 1000 2000\n"

static void texts(const char *folder) {
    spaced(&tree, DELAYED("0") INTS AT_1_7 AT_2_3 AT_1_0 AT_2_7 AT_0_1);
    spaced(&written, BUS INTS AT_0_1 AT_1_0 AT_1_7 AT_2_3 AT_2_7);
    is_written();
    spaced(&tree, BUS INTS AT_2_7 AT_1_7 AT_2_3 AT_1_0 AT_0_1);
    is_written();
    spaced(&tree, DELAYED("15") INTS AT_1_7 AT_2_3 AT_1_0 AT_2_7 AT_0_1);
    spaced(&written, DELAYED("15") INTS AT_0_1 AT_1_0 AT_1_7 AT_2_3 AT_2_7);
    is_written();
    spaced(&tree, BUS3("16 0") INTS AT_1_7 AT_2_3 AT_1_0 AT_2_7 AT_0_1);
    spaced(&written, BUS3("16") INTS AT_0_1 AT_1_0 AT_1_7 AT_2_3 AT_2_7);
    is_written();
    spaced(&tree, BUS3("1 15") INTS AT_2_7 AT_1_7 AT_2_3 AT_1_0 AT_0_1);
    spaced(&written, BUS3("1 15") INTS AT_0_1 AT_1_0 AT_1_7 AT_2_3 AT_2_7);
    is_written();
    static const char *const buses[] = {
        "bus 65535 255 255 255 255 4095 4095 255 255 256 15\n",
        "bus3 65535 255 255 255 255 4095 4095 255 255 16 15\n",
    };
    for (size_t i = 0; i < sizeof buses / sizeof buses[0]; i++) {
        longest(&tree, buses[i], false);
        longest(&written, buses[i], true);
        same("the most bytes of a text", written.bytes, RAZHIKUM_TREE_TEXT);
        is_written();
    }
    load(&tree, folder, "layout.tree");
    load(&written, folder, "layout.written");
    is_written();
    load(&tree, folder, "scanner30.tree");
    is_written();
}

typedef struct {
    uint32_t start;
    uint32_t beats;
} piece;

/* So many pieces: of each the start address and the beats, and 0 in the entries after them. */
static void is_cut(uint32_t start, uint32_t beats, uint32_t size, unsigned pieces, const piece *expected) {
    razhikum_cut cut = split(start, beats, size);
    same("number of a burst", cut.number, RAZHIKUM_ACCEPTED);
    same("line of a burst", cut.line, 0);
    same("pieces of a burst", cut.pieces, pieces);
    for (size_t i = 0; i < RAZHIKUM_PIECES; i++) {
        same("the start address of a piece", starts[i + 1], i < pieces ? expected[i].start : 0);
        same("the beats of a piece", lengths[i + 1], i < pieces ? expected[i].beats : 0);
    }
}

/* One piece, that is the burst itself. */
static void is_whole(uint32_t start, uint32_t beats, uint32_t size) {
    piece itself = {start, beats};
    is_cut(start, beats, size, 1, &itself);
}

/* A tree whose nominal burst length is so many beats. */
static void nominal(unsigned burst) {
    char text[64];
    snprintf(text, sizeof text, "bus 8 1 4 2 2 30 25 1 1 %u\n" ROOT "acc 0 0 0 4 2 1 1 0 1\n", burst);
    spaced(&tree, text);
}

/* 15 for the beats and for the size, also where the burst would cross; 16 is then 0. */
static void refused_bursts(void) {
    static const uint32_t beats[] = {0, 257, 258, 512, 65536, 65537, 16777472, 4294967295};
    static const uint32_t sizes[] = {0,   3,   5,   6,   7,   9,   12,    96,    127,        129,
                                     192, 255, 256, 257, 260, 512, 65536, 65540, 2147483648, 4294967295};
    static const uint32_t at[] = {0, 1, 4095, 4294967295};
    for (size_t k = 0; k < sizeof at / sizeof at[0]; k++) {
        for (size_t i = 0; i < sizeof beats / sizeof beats[0]; i++) {
            is_cut_refused(at[k], beats[i], 1, RAZHIKUM_BURST, 0);
            is_cut_refused(at[k], beats[i], 128, RAZHIKUM_BURST, 0);
            is_cut_refused(at[k], beats[i], 3, RAZHIKUM_BURST, 0);
        }
        for (size_t i = 0; i < sizeof sizes / sizeof sizes[0]; i++) {
            is_cut_refused(at[k], 1, sizes[i], RAZHIKUM_BURST, 0);
            is_cut_refused(at[k], 256, sizes[i], RAZHIKUM_BURST, 0);
        }
    }
    is_cut_refused(4092, 3, 3, RAZHIKUM_BURST, 0);
}

/* For every size: bursts that end on the last byte of a page, of the first, of one in the middle and of the last; with one beat more
 * they cross. */
static void page_ends(void) {
    static const uint32_t last_bytes[] = {4095, 2147487743, 4294967295};
    for (size_t i = 0; i < sizeof last_bytes / sizeof last_bytes[0]; i++) {
        for (uint32_t size = 1; size <= 128; size *= 2) {
            uint32_t most = 4096 / size < 256 ? 4096 / size : 256;
            for (uint32_t beats = 1; beats <= most; beats++) {
                uint32_t first = last_bytes[i] - beats * size + 1;
                is_whole(first, beats, size);
                /* Within the first beat the bytes before the start address are left out, and the end is the same. */
                is_whole(first + size - 1, beats, size);
                if (beats < most) {
                    is_cut_refused(first, beats + 1, size, RAZHIKUM_PAGE_CROSSED, 0);
                    is_cut_refused(first + size - 1, beats + 1, size, RAZHIKUM_PAGE_CROSSED, 0);
                }
            }
        }
    }
}

static void bursts(void) {
    static const piece unaligned[] = {{5, 16}, {68, 16}, {132, 8}};
    static const piece exact[] = {{4096, 16}, {4112, 16}};
    static const piece one_over[] = {{4096, 16}, {4112, 1}};
    static const piece at_the_end[] = {{4294966299, 100}, {4294966696, 100}, {4294967096, 50}};
    static piece single[RAZHIKUM_PIECES], sixteens[16];
    nominal(16);
    is_cut(5, 40, 4, 3, unaligned);
    is_cut(4096, 32, 1, 2, exact);
    is_cut(4096, 17, 1, 2, one_over);
    is_whole(4096, 16, 1);
    is_whole(4090, 3, 2);
    is_whole(4091, 3, 2);
    is_cut_refused(4092, 3, 2, RAZHIKUM_PAGE_CROSSED, 0);
    refused_bursts();
    /* Source document 004: 256 beats cut to the nominal 16. */
    for (uint32_t i = 0; i < 16; i++) {
        sixteens[i].start = 8192 + 64 * i;
        sixteens[i].beats = 16;
    }
    is_cut(8192, 256, 4, 16, sixteens);
    /* The most pieces: an array is full. */
    nominal(1);
    for (uint32_t i = 0; i < RAZHIKUM_PIECES; i++) {
        single[i].start = i == 0 ? 4097 : 4096 + 16 * i;
        single[i].beats = 1;
    }
    is_cut(4097, 256, 16, RAZHIKUM_PIECES, single);
    /* The end of the addresses: rounded down, 4,294,966,296 and 250 beats of 4 bytes are 2^32. */
    nominal(100);
    is_cut(4294966299, 250, 4, 3, at_the_end);
    is_cut_refused(4294966299, 251, 4, RAZHIKUM_PAGE_CROSSED, 0);
    nominal(256);
    is_whole(4294967295, 1, 1);
    is_cut_refused(4294967295, 2, 1, RAZHIKUM_PAGE_CROSSED, 0);
    is_whole(4294967168, 1, 128);
    is_whole(4294967295, 1, 128);
    is_cut_refused(4294967295, 256, 128, RAZHIKUM_PAGE_CROSSED, 0);
    page_ends();
}

/* The same tree of AXI3. */
static void nominal3(unsigned burst) {
    char text[64];
    snprintf(text, sizeof text, "bus3 8 1 4 2 2 30 25 1 1 %u\n" ROOT "acc 0 0 0 4 2 1 1 0 1\n", burst);
    spaced(&tree, text);
}

/* AXI3: bursts of up to 16 beats are cut, to any B, and more are refused by 15, also where they cross. */
static void bursts_of_axi3(void) {
    static const piece sixes[] = {{5, 6}, {28, 6}, {52, 4}}, one_over[] = {{8, 15}, {68, 1}};
    static piece single[16];
    nominal3(16);
    is_whole(5, 16, 4);
    is_whole(4294965248, 16, 128);
    nominal3(6);
    is_cut(5, 16, 4, 3, sixes);
    nominal3(15);
    is_cut(8, 16, 4, 2, one_over);
    nominal3(1);
    for (uint32_t i = 0; i < 16; i++) {
        single[i].start = 4080 + i;
        single[i].beats = 1;
    }
    is_cut(4080, 16, 1, 16, single);
    for (unsigned burst = 1; burst <= 16; burst++) {
        nominal3(burst);
        refused_bursts();
        for (uint32_t beats = 17; beats <= 256; beats++) {
            is_cut_refused(5, beats, 4, RAZHIKUM_BURST, 0);
            is_cut_refused(4090, beats, 1, RAZHIKUM_BURST, 0);
            is_cut_refused(4294967295, beats, 128, RAZHIKUM_BURST, 0);
        }
        is_cut_refused(4081, 16, 1, RAZHIKUM_PAGE_CROSSED, 0);
        is_cut_refused(4294967295, 2, 1, RAZHIKUM_PAGE_CROSSED, 0);
    }
    /* A tree that begins with bus takes 17. */
    nominal(17);
    is_whole(5, 17, 4);
}

/* The name is in no figure: the tree of the report on AXI3. */
static void figures_of_axi3(void) {
    static const uint8_t reads[] = {0, 1, 0};
    spaced(&tree, BUS3("16") ROOT ACCS);
    same("accelerators", razhikum_count(tree.text, tree.bytes).accelerators, 2);
    is_row(0, 1, 2, 1, 10, 0, 5157, 2000);
    is_row(1, 1, 2, 2, 1, 0, 476, 100);
    rows_are_the_report();
    spaced(&trace, "o 0 0 2\no 0 1 1\n");
    is_trace(RAZHIKUM_FILE_NONE, RAZHIKUM_ACCEPTED, 0);
    is_served(3, reads);
    spaced(&trace, "o 0 0 2\nbus3 0 1 1\n");
    is_trace(RAZHIKUM_FILE_TRACE, RAZHIKUM_SHAPE, 2);
}

static void is_joined(uint32_t pieces, uint32_t answered, uint32_t number, bool done) {
    razhikum_joined j = razhikum_join(pieces, answered, number);
    same("number of a taken piece", j.number, RAZHIKUM_ACCEPTED);
    same("done", j.done, done);
    same("pieces of a joiner", j.pieces, pieces);
    same("answered pieces of a joiner", j.answered, number);
}

/* Refused by 11, and the joiner is as it was. */
static void is_join_refused(uint32_t pieces, uint32_t answered, uint32_t number) {
    razhikum_joined j = razhikum_join(pieces, answered, number);
    same("number of a refused piece", j.number, RAZHIKUM_BROKEN);
    same("done by a refused piece", j.done, false);
    same("pieces of a refused joiner", j.pieces, pieces);
    same("answered pieces of a refused joiner", j.answered, answered);
}

static void joiners(void) {
    /* In order, with every other number tried before each; done at the last alone; nothing is taken after it. */
    for (uint32_t pieces = 1; pieces <= RAZHIKUM_PIECES; pieces++) {
        razhikum_joined j = {0, false, pieces, 0};
        for (uint32_t number = 1; number <= pieces; number++) {
            is_join_refused(j.pieces, j.answered, 0);
            is_join_refused(j.pieces, j.answered, number - 1);
            is_join_refused(j.pieces, j.answered, number + 1);
            is_join_refused(j.pieces, j.answered, number + 256);
            is_join_refused(j.pieces, j.answered, 4294967295);
            is_joined(j.pieces, j.answered, number, number == pieces);
            j = razhikum_join(j.pieces, j.answered, number);
        }
        for (uint32_t number = 0; number <= RAZHIKUM_PIECES + 1; number++) {
            is_join_refused(j.pieces, j.answered, number);
        }
    }
    /* Joiners that break their rules, whatever comes next. */
    static const uint32_t broken[][2] = {
        {0, 0},     {0, 1},          {1, 2},   {257, 0},   {257, 256},      {257, 257},
        {256, 257}, {256, 4294967295}, {512, 1}, {65537, 0}, {4294967295, 0}, {4294967295, 4294967294},
        {0, 4294967295}, {4294967295, 4294967295},
    };
    for (size_t i = 0; i < sizeof broken / sizeof broken[0]; i++) {
        is_join_refused(broken[i][0], broken[i][1], 0);
        is_join_refused(broken[i][0], broken[i][1], 1);
        is_join_refused(broken[i][0], broken[i][1], broken[i][1]);
        is_join_refused(broken[i][0], broken[i][1], broken[i][1] + 1);
        is_join_refused(broken[i][0], broken[i][1], 4294967295);
    }
}

/* The figures are those of docs/MODEL.md, M54 to M63, worked out by hand. */
static void examples(const char *folder) {
    spaced(&tree, BUS ROOT ACCS);
    same("accelerators", razhikum_count(tree.text, tree.bytes).accelerators, 2);
    is_row(0, 1, 2, 1, 10, 0, 5157, 2000);
    is_row(1, 1, 2, 2, 1, 0, 476, 100);
    rows_are_the_report();
    load(&tree, folder, "scanner30.tree");
    load(&trace, folder, "scanner30-read.trace");
    same("accelerators", razhikum_count(tree.text, tree.bytes).accelerators, 3);
    is_row(0, 2, 3, 5, 160, 0, 26272, 30000);
    is_row(1, 1, 3, 3, 16, 0, 7692, 20000);
    is_row(2, 2, 15, 1, 0, 0, 7824, 100000);
    rows_are_the_report();
    is_trace(RAZHIKUM_FILE_NONE, RAZHIKUM_ACCEPTED, 0);
    /* The laser's tenth waits for two of the camera's and its own ninth; the camera's 65th is held until the second window. */
    static const uint8_t laser[] = {0, 0, 0, 0, 1, RAZHIKUM_OWN};
    is_wait(1, 10, 128, 3, laser);
    is_wait(0, 65, 128, 0, NULL);
    is_wait_refused(1, 25, 8, RAZHIKUM_CALL_REFUSED, RAZHIKUM_NOT_SERVED, 0);
    is_outcome(RAZHIKUM_SLOTS, RAZHIKUM_DONE, RAZHIKUM_ACCEPTED, 0, 432);
    /* Neither camera nor laser writes, so the map's 24 bursts of a window are served as they come. */
    load(&trace, folder, "scanner30-write.trace");
    channel = RAZHIKUM_WRITE;
    is_outcome(RAZHIKUM_SLOTS, RAZHIKUM_DONE, RAZHIKUM_ACCEPTED, 0, 344);
    static const uint8_t map[] = {2, RAZHIKUM_OWN, 2, RAZHIKUM_OWN, 2, RAZHIKUM_OWN};
    is_wait(2, 4, 0, 3, map);
    channel = RAZHIKUM_READ;
    is_outcome(RAZHIKUM_SLOTS, RAZHIKUM_STOPPED, RAZHIKUM_ACCEPTED, 0, RAZHIKUM_SLOTS);
    same("a slot of the map on the read channel", memchr(served, 2, RAZHIKUM_SLOTS) != NULL, 0);
    /* A map that also reads counts in the read shares of the others, and the trace that asks for its reads is done. */
    load(&trace, folder, "scanner30-readback-read.trace");
    is_outcome(RAZHIKUM_SLOTS, RAZHIKUM_STOPPED, RAZHIKUM_ACCEPTED, 0, RAZHIKUM_SLOTS);
    is_wait_refused(2, 1, 8, RAZHIKUM_CALL_REFUSED, RAZHIKUM_NOT_SERVED, 0);
    load(&tree, folder, "scanner30-readback.tree");
    is_row(0, 2, 15, 5, 1120, 0, 71392, 30000);
    is_row(1, 1, 3, 3, 16, 0, 7692, 20000);
    is_row(2, 2, 15, 1, 336, 0, 31048, 100000);
    rows_are_the_report();
    is_outcome(RAZHIKUM_SLOTS, RAZHIKUM_DONE, RAZHIKUM_ACCEPTED, 0, 432);
    load(&tree, folder, "full.tree");
    load(&trace, folder, "full.trace");
    same("accelerators", razhikum_count(tree.text, tree.bytes).accelerators, 32);
    rows_are_the_report();
    for (channel = RAZHIKUM_READ; channel <= RAZHIKUM_WRITE; channel++) {
        is_outcome(RAZHIKUM_SLOTS, RAZHIKUM_STOPPED, RAZHIKUM_ACCEPTED, 0, RAZHIKUM_SLOTS);
        same("an idle slot of the full tree", memchr(served, RAZHIKUM_IDLE, RAZHIKUM_SLOTS) != NULL, 0);
    }
    channel = RAZHIKUM_READ;
}

int main(int arguments, char **words) {
    if (arguments != 2) {
        fputs("usage: test EXAMPLES\n", stderr);
        return 1;
    }
    same("version of header and archive", razhikum_version(), RAZHIKUM_VERSION);
    examples(words[1]);
    traces();
    waits();
    returns();
    windows();
    channels();
    texts(words[1]);
    bursts();
    bursts_of_axi3();
    figures_of_axi3();
    joiners();
    refused_trees();
    printf("%lu values, no difference\n", compared);
    return 0;
}
