/* The Razhikum planner as a static library, librazhikum.a, for x86-64 under Linux.
 *
 * The rules, and the numbers of refusals, are those of docs/FORMAT.md and docs/MODEL.md. Every function answers every input:
 * none has a condition on the values that it is given. What each answers is proved, refusals included.
 *
 * What a caller owes is only what C owes any function: a pointer is not null, not even with a length of 0, and has as many
 * bytes behind it as its length says; nothing else writes them during the call; and what a call writes (`out`, `starts`, `lengths`)
 * overlaps no other argument.
 * A file is passed as its bytes and their number. A file of more than RAZHIKUM_LIMIT bytes is refused like any other. The bus line of
 * a tree file may have an eleventh field, the return delay, 0 to 15 slots; a tree without it has the delay 0.
 *
 * The first line of a tree file is named bus for a board of AMBA AXI4, whose bursts have at most 256 beats, or bus3 for one of AXI3, whose
 * bursts have at most 16. The fields are the same. The name limits the tree's nominal burst length B, the tenth field, and the beats that
 * razhikum_split takes, and razhikum_rewrite keeps it; no other answer depends on it. A second line of either name is refused by 3.
 *
 * A channel is reads or writes. They travel apart, each on a machine of its own with the same tree and budgets, so a run or a wait is of
 * one channel: the call names it after the tree, and the trace holds the requests of that one. A trace has no mark of its channel. The
 * machine of a channel admits nothing of an accelerator whose job has 0 transactions there. That is no refusal of the trace: such
 * requests stay held to the end, so that a run with one of them is stopped.
 *
 * Any number of threads may call at the same time, also on the same files: the archive has no writable data and no heap. It
 * calls nothing outside but memcpy and memset, and writes nothing but its caller's stack, its answer and `out`, `starts` and
 * `lengths`. Two calls at the same time must not have the same of these.
 *
 * In every answer `number` is the number of a refusal (enum razhikum_refusal), or 0 where nothing is refused, and `line` its
 * line, counted from 1, or 0 where it has none (the size of a file or of a buffer; a channel; 7, 11, 12, 13, 15 and 16 of a call). A
 * refusal leaves every `out`, `starts` and `lengths` as it was.
 */
#ifndef RAZHIKUM_H
#define RAZHIKUM_H

#include <stdbool.h>
#include <stddef.h>
#include <stdint.h>

#ifdef __cplusplus
extern "C" {
#endif

/* The version of this header: 10000 for each first figure, 100 for each second, 1 for each third. 30000 is 3.0.0. */
#define RAZHIKUM_VERSION 30000

/* The version of the archive. Where it is not RAZHIKUM_VERSION, header and archive do not belong together. */
uint32_t razhikum_version(void);

/* The size of the page that razhikum_report writes on. */
#define RAZHIKUM_PAGE 65536

/* The most bytes of a file: a larger one is refused by RAZHIKUM_RANGE, with line 0. */
#define RAZHIKUM_LIMIT 65536

/* The most slots of a run, and the most bytes of a buffer for a run, a wait or the text of a tree: a larger one is refused by
 * RAZHIKUM_RANGE, with line 0. */
#define RAZHIKUM_SLOTS 65536

/* The most bytes of a tree's text as razhikum_rewrite writes it: a buffer of so many bytes is long enough for every tree. */
#define RAZHIKUM_TREE_TEXT 1973

/* The most pieces of a burst, and so the entries of each array that razhikum_split writes. Where the tree file begins with bus3, a burst
 * has at most 16. */
#define RAZHIKUM_PIECES 256

/* The byte of an idle slot. */
#define RAZHIKUM_IDLE 255

/* The second byte of a slot of a wait in which the same accelerator is served. */
#define RAZHIKUM_OWN 255

/* The channel of a run or a wait. Any other value is refused by RAZHIKUM_RANGE before everything else, the tree included: the kind is
 * RAZHIKUM_CALL_REFUSED, and `line` is 0. */
enum razhikum_channel { RAZHIKUM_READ = 0, RAZHIKUM_WRITE = 1 };

/* The number of a refusal (docs/FORMAT.md, F45). A tree file is refused by 1 to 5, a trace file by 1, 2, 6 or 7, a channel that is
 * neither by 2, a bound and a wait by 7 where the tree has no such accelerator, a wait then by 12, the text of a tree by 2 or 13 for its
 * buffer, a burst by 15 or 16, the answer of a piece by 11. 8 to 10 and 14 answer calls of the machine, which are not exported; of a
 * configuration or a state 11 is not answered here, since no file gives one that breaks its rules. */
enum razhikum_refusal {
    RAZHIKUM_ACCEPTED = 0,
    RAZHIKUM_SHAPE = 1,        /* a line of wrong shape: name, count of fields, a malformed number, a missing last LF */
    RAZHIKUM_RANGE = 2,        /* a value, a total, a size or a channel outside its limits; B over 16 on a bus3 line */
    RAZHIKUM_ORDER = 3,        /* a record out of order, misnumbered, on an unknown interconnect, or missing */
    RAZHIKUM_PORT_TAKEN = 4,   /* a port already taken */
    RAZHIKUM_LEVEL = 5,        /* a level above 4 */
    RAZHIKUM_FALLING = 6,      /* a trace slot smaller than in the line before */
    RAZHIKUM_UNKNOWN = 7,      /* no such accelerator */
    RAZHIKUM_OUTSTANDING = 8,  /* phi transactions of the accelerator are outstanding: they wait or are returning */
    RAZHIKUM_BUDGET = 9,       /* the accelerator's budget of this window is used */
    RAZHIKUM_LAST_SLOT = 10,   /* the slot count is at its end */
    RAZHIKUM_BROKEN = 11,      /* the configuration, the state or the joiner breaks its rules, or a piece is answered out of turn */
    RAZHIKUM_NOT_SERVED = 12,  /* the number of a transaction is 0, or the run serves fewer of its accelerator */
    RAZHIKUM_TOO_SHORT = 13,   /* the buffer is shorter than the text */
    RAZHIKUM_NO_JOB = 14,      /* the accelerator's job has 0 transactions on this channel */
    RAZHIKUM_BURST = 15,       /* a burst of 0 or over 256 beats, over 16 where the tree file begins with bus3, or a beat size that is
                                * no power of two from 1 to 128 */
    RAZHIKUM_PAGE_CROSSED = 16 /* a burst that crosses a multiple of 4,096 bytes, or the end of the 32-bit addresses */
};

/* razhikum_reading.file: which file is refused. */
enum razhikum_file { RAZHIKUM_FILE_NONE = 0, RAZHIKUM_FILE_TREE = 1, RAZHIKUM_FILE_TRACE = 2 };

/* razhikum_outcome.kind: how a run ended. RAZHIKUM_TRACE_REFUSED stands for a refused trace and for a buffer that is too large,
 * RAZHIKUM_CALL_REFUSED for a channel that is neither. */
enum razhikum_kind {
    RAZHIKUM_DONE = 0,
    RAZHIKUM_STOPPED = 1,
    RAZHIKUM_TREE_REFUSED = 2,
    RAZHIKUM_TRACE_REFUSED = 3,
    RAZHIKUM_CALL_REFUSED = 4
};

/* razhikum_wait.kind, besides the three last ones of a run: the wait is told. RAZHIKUM_CALL_REFUSED stands here also for an accelerator
 * or a transaction that the call names and is not there, with both files accepted. */
enum razhikum_wait_kind { RAZHIKUM_TOLD = 0 };

/* What a reader answers. */
typedef struct {
    uint8_t file;
    uint8_t number;
    uint32_t line;
} razhikum_reading;

/* How many accelerators a tree has: 0 on a refusal. */
typedef struct {
    uint8_t number;
    uint32_t line;
    uint8_t accelerators;
} razhikum_counted;

/* A report put on a page, or the text of a tree put into a buffer: how many bytes it has, 0 on a refusal. */
typedef struct {
    size_t bytes;
    uint8_t number;
    uint32_t line;
} razhikum_page;

/* How a run ended. `slots` is the number of slots used, 0 on a refusal. They are slots of the run's channel. By kind:
 *
 *     kind                              number          line                                           slots
 *     RAZHIKUM_DONE, RAZHIKUM_STOPPED   0               0                                              as above
 *     RAZHIKUM_TREE_REFUSED             1 to 5          of the tree file, 0 for its size               0
 *     RAZHIKUM_TRACE_REFUSED            1, 2, 6 or 7    of the trace file, 0 for its size or `out`'s   0
 *     RAZHIKUM_CALL_REFUSED             2, channel      0                                              0
 */
typedef struct {
    uint8_t kind;
    uint8_t number;
    uint32_t line;
    uint32_t slots;
} razhikum_outcome;

/* How a transaction waited. `count` is the number of slots from that of its admission up to the one before its service, 0 where it is
 * served in the slot of its admission; `slot` is the slot of its admission, counted from 0, so `slot + count` is the one that
 * serves it. By kind:
 *
 *     kind                      number          line                                           count, slot
 *     RAZHIKUM_TOLD             0               0                                              as above
 *     RAZHIKUM_TREE_REFUSED     1 to 5          of the tree file, 0 for its size               0
 *     RAZHIKUM_TRACE_REFUSED    1, 2, 6 or 7    of the trace file, 0 for its size or `out`'s   0
 *     RAZHIKUM_CALL_REFUSED     2, 7 or 12      0                                              0
 */
typedef struct {
    uint8_t kind;
    uint8_t number;
    uint32_t line;
    uint32_t count;
    uint32_t slot;
} razhikum_wait;

/* The bounds of an accelerator, by the names of the report's columns: its level, whether it meets its period, its share on the read
 * channel (sr) and on the write channel (sw), the interference of its reads (yr) and of its writes (yw) in slots of that channel, its
 * response and its period in clock cycles. On a refusal all of these are 0.
 *
 * A share is a number of slots of its channel: a transaction with none of its own before it is served within so many, counted from its
 * admission. It is the product, over the interconnects on the way to memory, of 1 + D, and D adds up, over the other ports there, the
 * smaller of the granularity and the phi of those accelerators under the port whose job has transactions on this channel. One whose job
 * has 0 there counts 0, since the machine of this channel admits none of it. Its own share is given on both channels all the same.
 *
 * The response is an upper bound on the time of a job: its computing, the time of each of its transactions alone, its interference, and the
 * wait for new windows where its budget is used. For that wait each channel adds ceil(N / budget) windows of P slots, N being the job's
 * transactions there; where N is 0 it adds nothing. What the response does not count is the wait until an earlier answer is home, where the
 * tree has a return delay. */
typedef struct {
    uint8_t number;
    uint32_t line;
    uint8_t level;
    bool meets;
    uint64_t sr;
    uint64_t sw;
    uint64_t yr;
    uint64_t yw;
    uint64_t response;
    uint64_t period;
} razhikum_row;

/* What a burst is cut into: how many pieces, 1 to RAZHIKUM_PIECES, or 0 on a refusal. */
typedef struct {
    uint8_t number;
    uint32_t line;
    uint32_t pieces;
} razhikum_cut;

/* What the answer of a piece does. `number` is 0 where it is taken, else RAZHIKUM_BROKEN. `done` is true where it was that of the last
 * piece, and only there. `pieces` and `answered` are for the next call: how many pieces the burst has, and how many of them are answered
 * now; on a refusal both are as they were passed. */
typedef struct {
    uint8_t number;
    bool done;
    uint32_t pieces;
    uint32_t answered;
} razhikum_joined;

/* The stack that each call needs, in bytes, its caller's frame included: the most that include/stack.c measures, compiled by gcc or
 * clang with or without -O2, rounded up to 1,024 with at least 64 to spare. razhikum_why keeps the bytes of a whole run on its
 * stack. How deep a call goes depends on the levels of the tree, at most 4, and on the digits of a number, and on nothing else of
 * the files; stack.c has trees at that limit. */
enum razhikum_stack {
    RAZHIKUM_STACK_VERSION = 1024,
    RAZHIKUM_STACK_READ_TREE = 18432,
    RAZHIKUM_STACK_READ_TRACE = 18432,
    RAZHIKUM_STACK_COUNT = 18432,
    RAZHIKUM_STACK_REPORT = 22528,
    RAZHIKUM_STACK_REWRITE = 24576,
    RAZHIKUM_STACK_RUN = 18432,
    RAZHIKUM_STACK_WHY = 84992,
    RAZHIKUM_STACK_BOUND = 21504,
    RAZHIKUM_STACK_SPLIT = 23552,
    RAZHIKUM_STACK_JOIN = 1024
};

/* Reads a tree file: accepted, or refused by 1 to 5. */
razhikum_reading razhikum_read_tree(const uint8_t *tree, size_t tree_bytes);

/* Reads a tree file and, on its tree, a trace file: accepted, or which of the two is refused. A tree that is refused comes
 * first. */
razhikum_reading razhikum_read_trace(const uint8_t *tree, size_t tree_bytes, const uint8_t *trace, size_t trace_bytes);

/* How many accelerators a tree file has. They are numbered from 0 on. */
razhikum_counted razhikum_count(const uint8_t *tree, size_t tree_bytes);

/* Puts the report of a tree file at the beginning of `out`, which has RAZHIKUM_PAGE bytes. The bytes past the text keep their
 * contents. A refusal is answered by number and line and leaves the page as it was: `bytes` is 0 then. */
razhikum_page razhikum_report(const uint8_t *tree, size_t tree_bytes, uint8_t *out);

/* Writes the tree of a tree file back: its text, at the beginning of `out`, which is not the file's own buffer. The text is the bus
 * line, with the name that it has in the file, bus or bus3, and without the return delay where that is 0, the int lines by number, and
 * the acc lines by interconnect and then by port, both rising, whatever their order in the file. Read again it gives the same tree, and
 * two files of one tree give the same bytes. It has at most RAZHIKUM_TREE_TEXT bytes. The bytes past it keep their contents, and on a
 * refusal all do: `bytes` is 0 then.
 *
 * Checked in this order: the tree (1 to 5), then with line 0 the size of `out`: 2 where it has more than RAZHIKUM_SLOTS bytes, 13
 * where it is shorter than the text. */
razhikum_page razhikum_rewrite(const uint8_t *tree, size_t tree_bytes, uint8_t *out, size_t out_bytes);

/* Runs a trace on a tree, on one channel (enum razhikum_channel), and writes one byte a slot into `out`: the number of the accelerator
 * served, or RAZHIKUM_IDLE. The bytes past the slots used keep their contents, and on a refusal all do. With a return delay of r a
 * transaction that is served in slot s counts among the phi outstanding ones of its accelerator until slot s + 1 + r starts. A run is
 * done where no line is left, none is held and none waits, though some may still be returning. It is stopped where `out` is full
 * before; so it always is where the trace asks for an accelerator whose job has 0 transactions on the channel.
 *
 * Checked in this order: the channel (2), the tree (1 to 5), the size of `out` (2), the trace (1, 2, 6, 7). */
razhikum_outcome razhikum_run(
    const uint8_t *tree, size_t tree_bytes, uint8_t channel, const uint8_t *trace, size_t trace_bytes, uint8_t *out,
    size_t out_bytes);

/* Lists why a transaction waited: that of this `number`, counted from 1, among those of the accelerator that the run serves. The
 * run is that of razhikum_run on the same channel with a buffer of RAZHIKUM_SLOTS bytes, whatever `out_bytes` is. Each slot from that
 * of the admission up to the one before the service, oldest first, takes two bytes of `out`: the number of the accelerator that was
 * served, then the deepest interconnect that the paths of both accelerators cross, or RAZHIKUM_OWN where it was an earlier transaction
 * of the same accelerator. None of these slots is idle. Pair i, counted from 0, is of slot `slot + i`. The time for which a request was
 * held before its admission is not in the list, nor is its way home after the service.
 *
 * A list of `count` slots has 2 * `count` bytes. Where `out` is shorter, the oldest slots fill it in whole pairs, and `count` still
 * counts all; `out_bytes` may be 0. The bytes past the list keep their contents, and on a refusal all do.
 *
 * Checked in this order: the channel (2), the tree (1 to 5), the size of `out` (2), the trace (1, 2, 6, 7), the accelerator (7), the
 * number of the transaction (12: it is 0, or the run serves fewer; where the job has 0 transactions on the channel it serves none). Each
 * call makes the run anew, and takes about as long as razhikum_run with a buffer of RAZHIKUM_SLOTS bytes. */
razhikum_wait razhikum_why(
    const uint8_t *tree, size_t tree_bytes, uint8_t channel, const uint8_t *trace, size_t trace_bytes, uint8_t accelerator,
    uint32_t number, uint8_t *out, size_t out_bytes);

/* The bounds of an accelerator of a tree file: refused as the tree is, or by 7 where the tree has no such accelerator. They do not
 * depend on the return delay. */
razhikum_row razhikum_bound(const uint8_t *tree, size_t tree_bytes, uint8_t accelerator);

/* Cuts a burst into pieces of B beats, the nominal burst length of the tree file: the last one has what is left, 1 to B. A burst has a
 * start address, `beats` from 1 to 256, or from 1 to 16 where the tree file begins with bus3, and a beat of `size` bytes, a power of two
 * from 1 to 128. Its bytes run from the start address to the start address rounded down to `size`, plus `beats` * `size`, less 1. The
 * first piece keeps the start address; each later one starts at the start address rounded down to `size`, plus the beats before it *
 * `size`. Each beat is in exactly one piece, and no piece crosses a multiple of 4,096 bytes. Each piece is one transaction for phi and for
 * the budget, and a bound on waits is one for a piece: a trace that asks for a burst asks for `pieces` transactions.
 *
 * `starts` and `lengths` have RAZHIKUM_PIECES entries each. Entry i, counted from 0, of `starts` is the start address of piece i + 1, that of
 * `lengths` its beats; the beat size of each piece is `size`. The entries from `pieces` on become 0. A refusal leaves all entries of both as
 * they were.
 *
 * Checked in this order: the tree (1 to 5, with its line), then with line 0 the beats and the size (15), then whether the burst crosses a
 * multiple of 4,096 bytes (16). One that ends on the last byte before such a multiple does not cross it; one whose last byte would be past
 * address 4,294,967,295 does. Any numbers may be passed. */
razhikum_cut razhikum_split(
    const uint8_t *tree, size_t tree_bytes, uint32_t start, uint32_t beats, uint32_t size, uint32_t *starts,
    uint32_t *lengths);

/* Takes the answer of a piece, that of this `number`, counted from 1, of a burst of so many `pieces`, `answered` of which are answered
 * before. The first call has `answered` 0; each later one has what the last reply says. The answers are taken in order, and the reply says
 * done at the last and only there.
 *
 * Refused by 11: a piece out of turn or after the last; `pieces` 0 or more than RAZHIKUM_PIECES, whatever the tree; more `answered` than
 * `pieces`. */
razhikum_joined razhikum_join(uint32_t pieces, uint32_t answered, uint32_t number);

#ifdef __cplusplus
}
#endif

#endif
