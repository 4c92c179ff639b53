/*
 * Any memory: every call is made with lent memory that holds anything, in rooms of right and wrong sizes, and with any numbers.
 *
 *     any ROUNDS SEED
 *
 * It stops where a call answers a number that ambrulicciu.h does not name at it, where a refused call changed a lent byte, or where a
 * served call changed memory that it only reads; and where a burst leaves another byte than the single calls. From 300 rounds on it also fails where a call was never served, or a refusal that the
 * header names never came. Compiled with -DMEASURE it prints how much stack each call took at most instead (host/stack/run). Each room is an allocation of its own, so that a tool which watches memory sees a
 * byte touched outside. The proofs say all this; here the compiled library is tried, back end and header included.
 */
#include "../ambrulicciu.h"
#include <stdio.h>
#include <stdlib.h>
#include <string.h>

static uint64_t seed;

static uint64_t drawn(void) {
    uint64_t z = seed += 0x9e3779b97f4a7c15u;
    z = (z ^ (z >> 30)) * 0xbf58476d1ce4e5b9u;
    z = (z ^ (z >> 27)) * 0x94d049bb133111ebu;
    return z ^ (z >> 31);
}

/* A number: any, small, near the end of its width, or at a bound of the header. */
static uint64_t number(void) {
    static const uint64_t bounds[6] = {4095, 4096, 4097, 4294967295u, (uint64_t)1 << 62, (uint64_t)1 << 63};
    switch (drawn() % 5) {
    case 4: return bounds[drawn() % 6];
    case 0: return drawn();
    case 1: return drawn() % 5;
    case 2: return 0 - drawn() % 5;
    default: return (drawn() % 2 ? 4000000000000000000u : 86400u) + drawn() % 3;
    }
}

/* ---- lent memory */

#define MOST 16
static struct {
    unsigned char *bytes, *before;
    size_t size;
    int read_only;
} lent[MOST];
static int lent_count;

static void put(unsigned char *bytes, size_t size, int manner) {
    uint64_t mask = manner == 0 ? ~(uint64_t)0 : manner == 1 ? 0x0003000300030003u : 0;
    for (size_t i = 0; i < size; i += 8) {
        uint64_t word = drawn() & mask;
        memcpy(bytes + i, &word, size - i < 8 ? size - i : 8);
    }
}

static void *lend(size_t size, int read_only) {
    unsigned char *bytes = malloc(size ? size : 1), *before = malloc(size ? size : 1);
    if (!bytes || !before || lent_count == MOST) {
        fprintf(stderr, "any: no memory\n");
        exit(1);
    }
    put(bytes, size, (int)(drawn() % 3));
    lent[lent_count].bytes = bytes;
    lent[lent_count].before = before;
    lent[lent_count].size = size;
    lent[lent_count++].read_only = read_only;
    return bytes;
}

/* ---- how much stack a call takes: what lies below is painted before it, and looked at after it */

#ifdef MEASURE
#define PAINTED 1000000
#define PAINT 0xa5

static volatile unsigned char *under; /* the stack of the call lies below */

__attribute__((noinline)) static unsigned char paint(void) {
    volatile unsigned char below[PAINTED];
    for (size_t i = 0; i < PAINTED; i++)
        below[i] = PAINT;
    return below[PAINTED / 2];
}

static unsigned char (*volatile painted)(void) = paint;

/* From the lowest painted byte up to the first that was written over. */
static size_t taken(void) {
    volatile unsigned char *at = under - (PAINTED - 4096);
    while (at < under && *at == PAINT)
        at++;
    return (size_t)(under - at);
}
#endif

/* What the memory holds just before the call. */
static void ready(void) {
    for (int i = 0; i < lent_count; i++)
        memcpy(lent[i].before, lent[i].bytes, lent[i].size);
#ifdef MEASURE
    under = __builtin_frame_address(0);
    if (painted() != PAINT)
        exit(1);
#endif
}

static uint64_t served, refused;

/* Which calls were made, and what they answered. */
static struct {
    const char *call, *may;
    uint64_t answered[16];
    size_t stack;
} seen[64];

static void note(const char *call, uint8_t answer, const char *may, size_t stack) {
    int i = 0;
    while (seen[i].call && strcmp(seen[i].call, call) != 0)
        i++;
    seen[i].call = call;
    seen[i].may = may;
    seen[i].answered[answer]++;
    if (seen[i].stack < stack)
        seen[i].stack = stack;
}

/* A refusal is one digit where calls are tried: 10 is a, 14 is e. */
static const char numbers[] = "0123456789abcdef";

/* How many answers that the header names never came. */
static int unseen(void) {
    int count = 0;
    for (int i = 0; seen[i].call; i++) {
        if (!seen[i].answered[0])
            count++, fprintf(stderr, "any: %s was never served\n", seen[i].call);
        for (const char *may = seen[i].may; *may; may++)
            if (!seen[i].answered[strchr(numbers, *may) - numbers])
                count++, fprintf(stderr, "any: %s never answered %d\n", seen[i].call, (int)(strchr(numbers, *may) - numbers));
    }
    return count;
}

/* After a call: `may` has the refusals that it may answer. */
static void done(const char *call, uint8_t answer, const char *may) {
    size_t stack = 0;
#ifdef MEASURE
    stack = taken();
#endif
    if (answer > 15 || (answer && !strchr(may, numbers[answer]))) {
        fprintf(stderr, "any: %s answered %u\n", call, answer);
        exit(1);
    }
    for (int i = 0; i < lent_count; i++) {
        if ((answer || lent[i].read_only) && memcmp(lent[i].bytes, lent[i].before, lent[i].size) != 0) {
            fprintf(stderr, "any: %s answered %u and changed lent memory %d\n", call, answer, i);
            exit(1);
        }
        free(lent[i].bytes);
        free(lent[i].before);
    }
    lent_count = 0;
    note(call, answer, may, stack);
    served += !answer;
    refused += answer != 0;
}

static size_t rows(void) {
    static const size_t other[4] = {0, 1, 4095, 4097};
    return drawn() % 8 ? AMBRULICCIU_ROWS : other[drawn() % 4];
}

/* One or two words become anything. */
static void spoil(uint64_t *words, size_t count) {
    for (uint64_t n = drawn() % 3; n > 0; n--)
        words[drawn() % count] = number();
}

static uint32_t *secret(void) {
    return lend(32, 1);
}

/* A ledger: any words, or one that calls left, spoilt a little. */
static ambrulicciu_ledger *ledger(int read_only) {
    ambrulicciu_ledger *l = lend(sizeof *l, read_only);
    uint32_t words[8] = {1, 2, 3, 4, 5, 6, 7, 8};
    if (drawn() % 8) {
        ambrulicciu_ledger_fresh(l, (uint16_t)drawn(), words);
        spoil(l->word, 80);
    }
    return l;
}

static ambrulicciu_monitor *monitor(int read_only) {
    ambrulicciu_monitor *m = lend(sizeof *m, read_only);
    if (drawn() % 8) {
        ambrulicciu_monitor_fresh(m, (uint16_t)number(), number());
        spoil(m->word, 12);
    }
    return m;
}

/* ---- rooms */

enum { KEYS = 1, SLOTS = 2, PROBES = 4, OFFSETS = 8, LINKS = 16, QUEUE = 32 };

typedef struct {
    ambrulicciu_key *keys;
    ambrulicciu_slot *slots;
    ambrulicciu_probe *probes;
    uint32_t *offsets;
    ambrulicciu_chain *links;
    ambrulicciu_queued *queue;
    size_t key_rows, slot_rows, probe_rows, offset_rows, link_rows, queue_rows;
} rooms;

/* All rooms of a link; `written` says which of them the call may change. */
static rooms lend_rooms(int written) {
    rooms r;
    r.key_rows = rows();
    r.slot_rows = rows();
    r.probe_rows = rows();
    r.offset_rows = rows();
    r.link_rows = rows();
    r.queue_rows = rows();
    r.keys = lend(r.key_rows * sizeof *r.keys, !(written & KEYS));
    r.slots = lend(r.slot_rows * sizeof *r.slots, !(written & SLOTS));
    r.probes = lend(r.probe_rows * sizeof *r.probes, !(written & PROBES));
    r.offsets = lend(r.offset_rows * sizeof *r.offsets, !(written & OFFSETS));
    r.links = lend(r.link_rows * sizeof *r.links, !(written & LINKS));
    r.queue = lend(r.queue_rows * sizeof *r.queue, !(written & QUEUE));
    return r;
}

/* Now and then a monitor whose queue is full. */
static void fill(ambrulicciu_monitor *m, rooms r) {
    if (drawn() % 8 || r.queue_rows != AMBRULICCIU_ROWS)
        return;
    ambrulicciu_monitor_fresh(m, 1, 1);
    for (uint32_t i = 0; i < AMBRULICCIU_ROWS; i++)
        ambrulicciu_monitor_sent(m, r.queue, r.queue_rows, i, i);
}

/* ---- the version */

static void try_version(void) {
    uint32_t *version = lend(4, 0);
    ready();
    done("version", ambrulicciu_version(version), "");
}

/* ---- the ledger */

static void try_fresh(void) {
    ambrulicciu_ledger *l = lend(sizeof *l, 0);
    uint32_t *words = secret();
    ready();
    done("ledger_fresh", ambrulicciu_ledger_fresh(l, (uint16_t)number(), words), "");
}

static void try_sent(void) {
    ambrulicciu_ledger *l = ledger(0);
    rooms r = lend_rooms(PROBES | LINKS);
    ready();
    done("sent", ambrulicciu_sent(l, r.probes, r.probe_rows, r.links, r.link_rows, (uint32_t)number(), (uint32_t)number(), (uint32_t)number(), number(), number()), "54");
}

static void try_accept(void) {
    ambrulicciu_ledger *l = ledger(0);
    rooms r = lend_rooms(KEYS | SLOTS | PROBES | LINKS);
    ambrulicciu_accepted *answer = lend(sizeof *answer, 0);
    ready();
    done("accept", ambrulicciu_accept(l, r.keys, r.key_rows, r.slots, r.slot_rows, r.probes, r.probe_rows, r.links, r.link_rows, (uint32_t)number(),
                                      (uint32_t)number(), number(), (uint32_t)number(), number(), number(), answer), "54");
}

/* ---- a burst: what it leaves is also held against the single calls, on the memory as it was before, byte by byte */

#ifndef MEASURE
/* The copy of lent memory as it was before the call. */
static void *twin(const void *bytes) {
    int i = 0;
    while (lent[i].bytes != bytes)
        i++;
    return lent[i].before;
}

/* The rooms as they were before the call. */
static rooms twins(rooms r) {
    r.keys = twin(r.keys);
    r.slots = twin(r.slots);
    r.probes = twin(r.probes);
    r.links = twin(r.links);
    r.queue = twin(r.queue);
    return r;
}

/* The single calls have been made on the copies: all lent memory is now the same. */
static void same(const char *call) {
    for (int i = 0; i < lent_count; i++)
        if (memcmp(lent[i].bytes, lent[i].before, lent[i].size) != 0) {
            fprintf(stderr, "any: %s and the single calls left other bytes in lent memory %d\n", call, i);
            exit(1);
        }
}
#endif

static size_t entry_count(void) {
    static const size_t lengths[6] = {0, 1, 2, 255, 256, 257};
    return drawn() % 2 ? lengths[drawn() % 6] : drawn() % 258;
}

/* Entries of any words, or of few different keys, so that a list has duplicates. */
static ambrulicciu_entry *lend_entries(size_t count) {
    ambrulicciu_entry *entries = lend(count * sizeof *entries, 1);
    if (drawn() % 4)
        for (size_t i = 0; i < count; i++) {
            entries[i].t3 = drawn() % 4;
            entries[i].sender = (uint32_t)(drawn() % 32);
            entries[i].reflector = (uint32_t)(drawn() % 4);
            entries[i].pending = drawn() % 2 ? number() : 0;
        }
    return entries;
}

/* Now and then the list crosses the last call that can be counted. */
static ambrulicciu_ledger *burst_ledger(void) {
    ambrulicciu_ledger *l = ledger(0);
    if (drawn() % 4 == 0)
        l->word[5] = 4294967295u - drawn() % 260;
    return l;
}

/* A room for as many answers, or now and then for one more or less. */
static size_t answer_count(size_t entries) {
    return drawn() % 8 ? entries : drawn() % 2 ? entries + 1 : entries ? entries - 1 : 1;
}

static void try_accept_burst(void) {
    ambrulicciu_ledger *l = burst_ledger();
    rooms r = lend_rooms(KEYS | SLOTS | PROBES | LINKS);
    size_t count = entry_count(), room = answer_count(count);
    ambrulicciu_entry *e = lend_entries(count);
    ambrulicciu_entry_answer *answers = lend(room * sizeof *answers, 0);
    ready();
    uint8_t number = ambrulicciu_accept_burst(l, r.keys, r.key_rows, r.slots, r.slot_rows, r.probes, r.probe_rows, r.links, r.link_rows, e, count, answers, room);
#ifndef MEASURE
    if (!number) {
        ambrulicciu_ledger *before = twin(l);
        ambrulicciu_entry_answer *row = twin(answers);
        rooms b = twins(r);
        for (size_t i = 0; i < count; i++, row++)
            row->number = ambrulicciu_accept(before, b.keys, b.key_rows, b.slots, b.slot_rows, b.probes, b.probe_rows, b.links, b.link_rows, e[i].sender,
                                             e[i].reflector, e[i].t3, e[i].pending ? 1 : 0, e[i].time, e[i].tag, &row->accepted);
        same("accept_burst");
    }
    if ((number != 0) != (room != count || count > AMBRULICCIU_ENTRIES)) {
        fprintf(stderr, "any: accept_burst of %zu entries and %zu answers returned %u\n", count, room, number);
        exit(1);
    }
#endif
    done("accept_burst", number, "5");
}

static void try_watched_accept_burst(void) {
    ambrulicciu_ledger *l = burst_ledger();
    ambrulicciu_monitor *m = monitor(0);
    rooms r = lend_rooms(KEYS | SLOTS | PROBES | LINKS | QUEUE);
    fill(m, r);
    size_t count = entry_count(), room = answer_count(count);
    ambrulicciu_entry *e = lend_entries(count);
    ambrulicciu_entry_answer *answers = lend(room * sizeof *answers, 0);
    ready();
    uint8_t number = ambrulicciu_watched_accept_burst(l, m, r.keys, r.key_rows, r.slots, r.slot_rows, r.probes, r.probe_rows, r.links, r.link_rows, r.queue,
                                                      r.queue_rows, e, count, answers, room);
#ifndef MEASURE
    if (!number) {
        ambrulicciu_ledger *before = twin(l);
        ambrulicciu_monitor *watch = twin(m);
        ambrulicciu_entry_answer *row = twin(answers);
        rooms b = twins(r);
        for (size_t i = 0; i < count; i++, row++)
            row->number = ambrulicciu_watched_accept(before, watch, b.keys, b.key_rows, b.slots, b.slot_rows, b.probes, b.probe_rows, b.links, b.link_rows,
                                                     b.queue, b.queue_rows, e[i].sender, e[i].reflector, e[i].t3, e[i].pending ? 1 : 0, e[i].time, e[i].tag,
                                                     &row->accepted);
        same("watched_accept_burst");
    }
    if ((number != 0) != (room != count || count > AMBRULICCIU_ENTRIES)) {
        fprintf(stderr, "any: watched_accept_burst of %zu entries and %zu answers returned %u\n", count, room, number);
        exit(1);
    }
#endif
    done("watched_accept_burst", number, "5");
}

/* Half of the time the reply is the one that awaits. */
static void try_observe(void) {
    ambrulicciu_ledger *l = ledger(0);
    rooms r = lend_rooms(SLOTS | OFFSETS | LINKS);
    ambrulicciu_observation *o = lend(sizeof *o, 1);
    ambrulicciu_accepted answer;
    if (drawn() % 2 && !ambrulicciu_accept(l, r.keys, r.key_rows, r.slots, r.slot_rows, r.probes, r.probe_rows, r.links, r.link_rows, o->sender,
                                           o->reflector, o->t3, 1, 0, 0, &answer) && drawn() % 4) {
        o->t4 = 1790000000000000000;
        o->reference = o->t4 / 1000000000;
        o->offset = (int32_t)(drawn() % 86402);
    }
    ready();
    done("observe", ambrulicciu_observe(l, r.keys, r.key_rows, r.slots, r.slot_rows, r.offsets, r.offset_rows, r.links, r.link_rows, o), "5142");
}

static void try_answered(void) {
    ambrulicciu_ledger *l = ledger(1);
    rooms r = lend_rooms(0);
    uint64_t *answer = lend(8, 0);
    ready();
    done("answered", ambrulicciu_answered(l, r.probes, r.probe_rows, r.links, r.link_rows, (uint32_t)number(), answer), "5");
}

static void try_reads(void) {
    ambrulicciu_ledger *l = ledger(1);
    ambrulicciu_figures *figures = lend(sizeof *figures, 0);
    ready();
    done("snapshot", ambrulicciu_snapshot(l, figures), "");
    l = ledger(1);
    uint64_t *answer = lend(8, 0);
    ready();
    done("needs_burst_wait", ambrulicciu_needs_burst_wait(l, answer), "5");
}

/* ---- the monitor, alone and with the ledger */

static void try_watched_sent(void) {
    ambrulicciu_ledger *l = ledger(0);
    ambrulicciu_monitor *m = monitor(0);
    rooms r = lend_rooms(PROBES | LINKS | QUEUE);
    fill(m, r);
    ready();
    done("watched_sent", ambrulicciu_watched_sent(l, m, r.probes, r.probe_rows, r.links, r.link_rows, r.queue, r.queue_rows, (uint32_t)number(),
                                                  (uint32_t)number(), (uint32_t)number(), number(), number()), "5643");
}

static void try_watched_accept(void) {
    ambrulicciu_ledger *l = ledger(0);
    ambrulicciu_monitor *m = monitor(0);
    rooms r = lend_rooms(KEYS | SLOTS | PROBES | LINKS | QUEUE);
    ambrulicciu_accepted *answer = lend(sizeof *answer, 0);
    ready();
    done("watched_accept", ambrulicciu_watched_accept(l, m, r.keys, r.key_rows, r.slots, r.slot_rows, r.probes, r.probe_rows, r.links, r.link_rows, r.queue,
                                                      r.queue_rows, (uint32_t)number(), (uint32_t)number(), number(), (uint32_t)number(), number(), number(),
                                                      answer), "54");
}

static void try_monitor(void) {
    ambrulicciu_monitor *m = lend(sizeof *m, 0);
    ready();
    done("monitor_fresh", ambrulicciu_monitor_fresh(m, (uint16_t)number(), number()), "");
    m = monitor(0);
    rooms r = lend_rooms(QUEUE);
    fill(m, r);
    ready();
    done("monitor_sent", ambrulicciu_monitor_sent(m, r.queue, r.queue_rows, (uint32_t)number(), number()), "5643");
    m = monitor(0);
    r = lend_rooms(QUEUE);
    ready();
    done("monitor_reply", ambrulicciu_monitor_reply(m, r.queue, r.queue_rows, (uint32_t)number()), "54");
    m = monitor(0);
    r = lend_rooms(QUEUE);
    ready();
    done("monitor_advance", ambrulicciu_monitor_advance(m, r.queue, r.queue_rows, number()), "54");
    m = monitor(0);
    ready();
    done("monitor_idle", ambrulicciu_monitor_idle(m), "54");
    m = monitor(1);
    r = lend_rooms(0);
    ambrulicciu_deadline *deadline = lend(sizeof *deadline, 0);
    ready();
    done("monitor_deadline", ambrulicciu_monitor_deadline(m, r.queue, r.queue_rows, deadline), "5");
    m = monitor(1);
    ambrulicciu_session *session = lend(sizeof *session, 0);
    ready();
    done("monitor_summary", ambrulicciu_monitor_summary(m, session), "5");
}

/* ---- estimates, clock quality, quantiles */

static void try_estimates(void) {
    uint16_t *wire = lend(2, 0);
    ready();
    done("estimate_new", ambrulicciu_estimate_new((uint32_t)number(), (uint32_t)number(), (uint8_t)drawn(), (uint8_t)number(), wire), "1");
    wire = lend(2, 0);
    ready();
    done("estimate_unsynchronized", ambrulicciu_estimate_unsynchronized((uint32_t)number(), wire), "");
    ambrulicciu_parts *parts = lend(sizeof *parts, 0);
    ready();
    done("estimate_parts", ambrulicciu_estimate_parts((uint16_t)drawn(), parts), "");
    double *seconds = lend(8, 0);
    ready();
    done("estimate_seconds", ambrulicciu_estimate_seconds((uint16_t)drawn(), seconds), "");
    uint64_t *known = lend(8, 0);
    double *ms = lend(8, 0);
    uint16_t *received = lend(2, 0);
    ready();
    done("estimate_error", ambrulicciu_estimate_error((uint16_t)drawn(), known, ms, received), "");
}

static ambrulicciu_clock_quality *quality(int read_only) {
    ambrulicciu_clock_quality *q = lend(sizeof *q, read_only);
    if (drawn() % 8) {
        ambrulicciu_clock_quality_fresh(q);
        spoil(q->word, sizeof q->word / 8);
    }
    return q;
}

static void try_quality(void) {
    ambrulicciu_clock_quality *q = lend(sizeof *q, 0);
    ready();
    done("clock_quality_fresh", ambrulicciu_clock_quality_fresh(q), "");
    q = quality(0);
    ready();
    done("clock_quality_record", ambrulicciu_clock_quality_record(q, (uint32_t)number(), (uint16_t)drawn(), (uint16_t)drawn()), "4");
    q = quality(1);
    ambrulicciu_quality *shown = lend(sizeof *shown, 0);
    ready();
    done("clock_quality_summary", ambrulicciu_clock_quality_summary(q, shown), "");
}

static size_t quantile_words(void) {
    static const size_t sizes[5] = {0, AMBRULICCIU_QUANTILES_ROOM, AMBRULICCIU_QUANTILES_ROOM, AMBRULICCIU_QUANTILES_SIGNED_ROOM, 11579};
    return sizes[drawn() % 5];
}

static ambrulicciu_quantiles *quantiles(int read_only, uint64_t *room, size_t words) {
    ambrulicciu_quantiles *q = lend(sizeof *q, read_only);
    uint64_t recorded;
    if (drawn() % 8) {
        ambrulicciu_quantiles_fresh(q, words == AMBRULICCIU_QUANTILES_SIGNED_ROOM);
        for (uint64_t n = drawn() % 2 ? drawn() % 20 : 4090 + drawn() % 20; n > 0; n--)
            ambrulicciu_quantiles_record(q, room, words, number(), &recorded);
        spoil(q->word, 4);
        /* a bucket or a total of a histogram, too */
        if (words > 4096 && drawn() % 4 == 0)
            room[4096 + drawn() % (words - 4096)] = number();
    }
    return q;
}

static void try_quantiles(void) {
    ambrulicciu_quantiles *q = lend(sizeof *q, 0);
    ready();
    done("quantiles_fresh", ambrulicciu_quantiles_fresh(q, (uint32_t)number()), "");
    size_t words = quantile_words();
    uint64_t *room = lend(8 * words, 0);
    q = quantiles(0, room, words);
    uint64_t *recorded = lend(8, 0);
    ready();
    done("quantiles_record", ambrulicciu_quantiles_record(q, room, words, number(), recorded), "5");
    words = quantile_words();
    room = lend(8 * words, 1);
    q = quantiles(1, room, words);
    size_t count = drawn() % 7, other = drawn() % 8 ? count : drawn() % 7;
    double *percents = lend(8 * count, 1);
    for (size_t i = 0; i < count && drawn() % 8; i++)
        percents[i] = (double)(drawn() % 1200) / 10 - 10;
    uint64_t *shown = lend(8 * other, 0);
    uint64_t *present = lend(8, 0);
    ready();
    done("quantiles_percentiles", ambrulicciu_quantiles_percentiles(q, room, words, percents, count, shown, other, present), "5");
}

/* ---- bit errors */

static void try_bits(void) {
    static const char digits[] = "0123456789abcdefABCDEFxX0123456789abcdefABCDEF0123456789abcdefg";
    size_t size = drawn() % 40;
    uint8_t *text = lend(size, 1);
    uint64_t kinds = drawn() % 8 ? 10 + drawn() % 6 : sizeof digits - 1;
    for (size_t i = 0; i < size && drawn() % 64; i++)
        text[i] = (uint8_t)digits[drawn() % kinds];
    if (size > 1 && drawn() % 2)
        memcpy(text, "0x", 2);
    size_t room = drawn() % 24;
    uint8_t *bytes = lend(room, 0);
    uint64_t *length = lend(8, 0);
    ready();
    done("parse_pattern", ambrulicciu_parse_pattern(text, size, bytes, room, length), "dc");
    size_t padding = drawn() % 16 ? drawn() % 300 : 65530 + drawn() % 10;
    uint8_t *sent = lend(padding, 1);
    size_t pattern_length = drawn() % 4 ? drawn() % 9 : drawn() % 600;
    uint8_t *pattern = lend(pattern_length, 1);
    ambrulicciu_bit_errors_found *counts = lend(sizeof *counts, 0);
    ready();
    done("bit_errors", ambrulicciu_bit_errors(sent, padding, pattern, pattern_length, counts), "e");
    size_t count = drawn() % 6, wire = drawn() % 64;
    uint64_t told = drawn() % 8 ? drawn() % 20 : number();
    pattern_length %= 5;
    int whole = drawn() % 2; /* a reply as a reflector writes it: the pattern, a count and a burst of 0, the padding */
    if (whole) {
        count = 4;
        told = drawn() % 1500;
        pattern_length = 1 + drawn() % 600;
        wire = pattern_length + 8 + told;
    }
    uint64_t *items = lend(8 * count, 1);
    uint8_t *packet = lend(wire, 1);
    pattern = lend(pattern_length, 1);
    static const uint64_t types[6] = {1, 8, 240, 241, 242, 5};
    for (size_t i = 0; !whole && i < count && drawn() % 16; i++)
        items[i] = (uint64_t)(drawn() % 8 ? 0 : drawn() % 256) << 56 | types[drawn() % 6] << 48 | (drawn() % 2 ? 4 : drawn() % 20) << 32 | drawn() % 70;
    if (whole) {
        memcpy(packet, pattern, pattern_length);
        memset(packet + pattern_length, 0, 8);
        items[0] = 240ull << 48 | (uint64_t)pattern_length << 32;
        items[1] = 241ull << 48 | 4ull << 32 | pattern_length;
        items[2] = 242ull << 48 | 4ull << 32 | (pattern_length + 4);
        items[3] = 1ull << 48 | told << 32 | (pattern_length + 8);
    }
    ambrulicciu_bit_sample *sample = lend(sizeof *sample, 0);
    ready();
    done("bit_observation", ambrulicciu_bit_observation(items, count, packet, wire, pattern, pattern_length, told, (uint32_t)number(), (uint32_t)number(), sample), "e");
    ambrulicciu_bit_summary *summary = lend(sizeof *summary, 0);
    ready();
    done("bit_summary_fresh", ambrulicciu_bit_summary_fresh(summary), "");
    summary = lend(sizeof *summary, 0);
    if (drawn() % 4)
        ambrulicciu_bit_summary_fresh(summary);
    ready();
    done("bit_summary_record", ambrulicciu_bit_summary_record(summary, drawn() % 4 ? drawn() % 524290 : number(), (uint32_t)number(), (uint32_t)number(), (uint32_t)number()), "e4");
    summary = lend(sizeof *summary, 1);
    ambrulicciu_bit_figures *figures = lend(sizeof *figures, 0);
    ready();
    done("bit_summary_show", ambrulicciu_bit_summary_show(summary, figures), "");
}

/* ---- the extension area */

/* Items in a row, most of them whole: types 5 and 7 with their lengths and without, others, flags; the last may be cut. */
static size_t an_area(uint8_t *to, size_t most) {
    size_t at = 0;
    while (at + 4 <= most && drawn() % 5) {
        static const uint8_t types[6] = {5, 7, 5, 7, 1, 8};
        uint8_t type = drawn() % 8 ? types[drawn() % 6] : (uint8_t)drawn();
        size_t length = type == 5 ? 12 : type == 7 ? 16 : drawn() % 20;
        if (drawn() % 24 == 0)
            length = drawn() % 40;
        if (at + 4 + length > most && drawn() % 2)
            break;
        to[at] = (uint8_t)(drawn() % 4 ? 0 : drawn());
        to[at + 1] = type;
        to[at + 2] = (uint8_t)(length / 256);
        to[at + 3] = (uint8_t)length;
        at += 4 + length;
    }
    return at > most ? most : at;
}

static void try_area(void) {
    uint8_t plain[160];
    for (size_t i = 0; i < sizeof plain; i++)
        plain[i] = (uint8_t)drawn();
    size_t size = an_area(plain, sizeof plain);
    if (drawn() % 8 == 0)
        size = drawn() % sizeof plain;
    uint8_t *area = lend(size, 1);
    memcpy(area, plain, size);
    size_t room = drawn() % 12;
    uint64_t *items = lend(8 * room, 0), *count = lend(8, 0);
    ready();
    done("area_read", ambrulicciu_area_read(area, size, items, room, count), "ab");
    area = lend(size, 1);
    memcpy(area, plain, size);
    ambrulicciu_observation *observation = lend(sizeof *observation, 0);
    ready();
    done("area_observation", ambrulicciu_area_observation(area, size, observation), "ab");
    size_t words = drawn() % 5, values = drawn() % 64, bytes = drawn() % 200;
    uint64_t *rows = lend(8 * words, 1);
    for (size_t i = 0; i < words && drawn() % 16; i++) {
        uint64_t type = drawn() % 4 ? 5 + 2 * (drawn() % 2) : drawn() % 256;
        uint64_t length = drawn() % 16 ? (type == 5 ? 12 : type == 7 ? 16 : drawn() % 12) : drawn() % 40;
        rows[i] = AMBRULICCIU_ITEM(drawn(), type, length, drawn() % (values + 1));
    }
    uint8_t *from = lend(values, 1), *to = lend(bytes, 0);
    uint64_t *length = lend(8, 0);
    ready();
    done("area_write", ambrulicciu_area_write(rows, words, from, values, to, bytes, length), "abc");
    size = drawn() % 2 ? 12 : drawn() % 20;
    area = lend(size, 1);
    ambrulicciu_direct_value *direct = lend(sizeof *direct, 0);
    ready();
    done("counters_read", ambrulicciu_counters_read(area, size, direct), "b");
    size = drawn() % 2 ? 16 : drawn() % 20;
    area = lend(size, 1);
    ambrulicciu_follow_value *follow = lend(sizeof *follow, 0);
    ready();
    done("follow_up_read", ambrulicciu_follow_up_read(area, size, follow), "b");
    size = drawn() % 30;
    to = lend(size, 0);
    ready();
    done("counters_write", ambrulicciu_counters_write(to, size, (uint32_t)number(), (uint32_t)number(), (uint32_t)number()), "c");
    size = drawn() % 30;
    to = lend(size, 0);
    ready();
    done("follow_up_write", ambrulicciu_follow_up_write(to, size, (uint32_t)number(), number(), (uint8_t)drawn()), "c");
}

/* ---- spread and both directions */

static void try_spread(void) {
    ambrulicciu_spread *spread = lend(sizeof *spread, 0);
    ready();
    done("spread_fresh", ambrulicciu_spread_fresh(spread), "");
    size_t words = quantile_words();
    uint64_t *room = lend(8 * words, 0), other;
    spread = lend(sizeof *spread, 0);
    if (drawn() % 8) {
        ambrulicciu_spread_fresh(spread);
        for (uint64_t n = drawn() % 2 ? drawn() % 20 : 4090 + drawn() % 20; n > 0; n--)
            ambrulicciu_spread_record(spread, room, words, number(), &other);
        spoil((uint64_t *)spread, 12);
    }
    uint64_t *recorded = lend(8, 0);
    ready();
    done("spread_record", ambrulicciu_spread_record(spread, room, words, number(), recorded), "54");
    spread = lend(sizeof *spread, 1);
    ambrulicciu_delays *shown = lend(sizeof *shown, 0);
    ready();
    done("spread_show", ambrulicciu_spread_show(spread, shown), "");
}

static void try_directions(void) {
    static const size_t sizes[4] = {0, AMBRULICCIU_DIRECTIONS_SLICE - 1, AMBRULICCIU_DIRECTIONS_SLICE, AMBRULICCIU_DIRECTIONS_SLICE + 3};
    ambrulicciu_directions *directions = lend(sizeof *directions, 0);
    ready();
    done("directions_fresh", ambrulicciu_directions_fresh(directions), "");
    size_t words = sizes[drawn() % 4];
    uint64_t *slice = lend(8 * words, 0), other;
    directions = lend(sizeof *directions, 0);
    if (drawn() % 8) {
        ambrulicciu_directions_fresh(directions);
        for (uint64_t n = drawn() % 2 ? drawn() % 20 : 4090 + drawn() % 20; n > 0; n--)
            ambrulicciu_directions_record(directions, slice, words, drawn() % 8 == 0, number(), &other);
        spoil(directions->word, 12);
    }
    uint64_t *recorded = lend(8, 0);
    ready();
    done("directions_record", ambrulicciu_directions_record(directions, slice, words, (uint32_t)number(), number(), recorded), "54");
    directions = lend(sizeof *directions, 1);
    ambrulicciu_delays *shown = lend(sizeof *shown, 0);
    ready();
    done("directions_show", ambrulicciu_directions_show(directions, (uint32_t)number(), shown), "");
}

/* ---- logs and reports */

static size_t bytes_of(size_t right) {
    return drawn() % 4 ? right : drawn() % (2 * right);
}

static void try_writers(void) {
    size_t n = bytes_of(AMBRULICCIU_RECORD);
    uint8_t *bytes = lend(n, 0);
    ready();
    done("log_write_sent", ambrulicciu_log_write_sent(bytes, n, (uint32_t)number(), (uint32_t)number(), (uint32_t)number(), number(), number()), "5");
    bytes = lend(n, 0);
    ready();
    done("log_write_accept", ambrulicciu_log_write_accept(bytes, n, (uint32_t)number(), (uint32_t)number(), number(), (uint32_t)number(), number(), number()), "5");
    bytes = lend(n, 0);
    ambrulicciu_observation *o = lend(sizeof *o, 1);
    ready();
    done("log_write_observe", ambrulicciu_log_write_observe(bytes, n, o), "5");
    bytes = lend(n, 0);
    ready();
    done("log_write_advance", ambrulicciu_log_write_advance(bytes, n, number()), "5");
    bytes = lend(n, 0);
    ready();
    done("log_write_idle", ambrulicciu_log_write_idle(bytes, n), "5");
    n = bytes_of(AMBRULICCIU_TRAILER);
    bytes = lend(n, 0);
    ready();
    done("log_write_trailer", ambrulicciu_log_write_trailer(bytes, n, (uint32_t)(drawn() % 4 ? drawn() % 690 : number()), (uint16_t)number(), (uint16_t)number(), number()), "59");
}

/* What the reply of record i - 1 brought, if that is an accept. */
static ambrulicciu_observation brought(uint32_t i) {
    ambrulicciu_observation o;
    memset(&o, 0, sizeof o);
    o.sender = i - 2;
    o.reflector = i - 1;
    o.t3 = i - 1;
    o.ordinal = o.s_txc = i - 1;
    o.r_rxc = o.r_txc = i;
    o.follow_up_sequence = i - 2;
    o.follow_up_timestamp = drawn() % 2;
    o.flags = (uint32_t)drawn() & 127;
    return o;
}

/* A log of some records by the library's writers, of which a byte may be changed. */
static uint8_t *log_of(size_t *size) {
    uint32_t count = (uint32_t)(drawn() % 6);
    size_t before = drawn() % 40;
    if (drawn() % 6 == 0) {
        *size = drawn() % 2 ? drawn() % 300 : AMBRULICCIU_LOG + drawn() % 4;
        return lend(*size, 1);
    }
    *size = before + AMBRULICCIU_RECORD * count + AMBRULICCIU_TRAILER;
    uint8_t *log = lend(*size, 1), *at = log + before;
    for (uint32_t i = 0; i < count; i++, at += AMBRULICCIU_RECORD) {
        ambrulicciu_observation o = brought(i);
        switch (drawn() % 6) {
        case 0: ambrulicciu_log_write_sent(at, AMBRULICCIU_RECORD, i, i, i, i, number()); break;
        case 1: ambrulicciu_log_write_accept(at, AMBRULICCIU_RECORD, i - 1, i, i, (uint32_t)drawn() % 2, i, i); break;
        case 2: ambrulicciu_log_write_advance(at, AMBRULICCIU_RECORD, number()); break;
        case 3: ambrulicciu_log_write_idle(at, AMBRULICCIU_RECORD); break;
        default: ambrulicciu_log_write_observe(at, AMBRULICCIU_RECORD, &o);
        }
    }
    ambrulicciu_log_write_trailer(at, AMBRULICCIU_TRAILER, count, (uint16_t)number(), (uint16_t)(drawn() % 3), number());
    if (drawn() % 3 == 0)
        log[drawn() % *size] ^= (uint8_t)(1u << drawn() % 8);
    return log;
}

static void try_logs(void) {
    size_t size;
    uint8_t *log = log_of(&size);
    ambrulicciu_settings *settings = lend(sizeof *settings, 0);
    ready();
    done("log_check", ambrulicciu_log_check(log, size, settings), "978");
    log = log_of(&size);
    ambrulicciu_call *call = lend(sizeof *call, 0);
    ready();
    done("log_read", ambrulicciu_log_read(log, size, (uint32_t)(drawn() % 8 ? drawn() % 6 : number()), call), "978");
    log = log_of(&size);
    uint64_t *answer = lend(8, 0);
    ready();
    done("log_first_bad", ambrulicciu_log_first_bad(log, size, answer), "97");
}

/* A log that may have lost its tail, in a room that may be short. */
static void try_trim(void) {
    size_t size;
    uint8_t *log = log_of(&size);
    if (drawn() % 2)
        size = drawn() % (size + 1);
    size_t room = drawn() % 4 ? size + 24 + drawn() % 24 : drawn() % (size + 24);
    uint8_t *bytes = lend(room, 0);
    ambrulicciu_cut *answer = lend(sizeof *answer, 0);
    ready();
    done("log_trim", ambrulicciu_log_trim(log, size, (uint16_t)number(), (uint16_t)number(), number(), bytes, room, answer), "9c");
}

/* Of one that is trimmed: its records are those of the log, it is checked as a log of what was kept, and given back as it is. */
static void try_trimmed(void) {
    static uint8_t log[AMBRULICCIU_LOG], bytes[AMBRULICCIU_LOG], again[AMBRULICCIU_LOG];
    size_t size;
    uint8_t *drawn_log = log_of(&size);
    if (size > AMBRULICCIU_LOG)
        size = AMBRULICCIU_LOG;
    memcpy(log, drawn_log, size);
    free(lent[0].bytes);
    free(lent[0].before);
    lent_count = 0;
    if (drawn() % 2)
        size = drawn() % (size + 1);
    ambrulicciu_cut cut, back;
    ambrulicciu_settings settings;
    uint16_t copies = (uint16_t)number(), threshold = (uint16_t)number();
    uint64_t timeout = number();
    int bad = ambrulicciu_log_trim(log, size, copies, threshold, timeout, bytes, sizeof bytes, &cut);
    size_t length = (size_t)cut.stop + AMBRULICCIU_TRAILER;
    bad = bad || cut.stop != AMBRULICCIU_RECORD * cut.kept || cut.stop > size || memcmp(bytes, log, (size_t)cut.stop) != 0;
    bad = bad || ambrulicciu_log_check(bytes, length, &settings) || settings.count != cut.kept;
    int whole = !bad && size == length && memcmp(bytes, log, size) == 0; /* or settings that happen to be its own */
    bad = bad || (!whole && (cut.stop + cut.dropped != size || settings.copies != copies || settings.threshold != threshold || settings.timeout != timeout));
    bad = bad || ambrulicciu_log_trim(bytes, length, (uint16_t)number(), (uint16_t)number(), number(), again, sizeof again, &back);
    if (bad || back.kept != cut.kept || back.stop != cut.stop || back.dropped || memcmp(again, bytes, length) != 0) {
        fprintf(stderr, "any: log_trim of %u bytes makes no log of what is there\n", (unsigned)size);
        exit(1);
    }
}

/* A record of any call, read and written again: the same bytes. */
static void try_again(void) {
    uint8_t log[AMBRULICCIU_RECORD + AMBRULICCIU_TRAILER], again[AMBRULICCIU_RECORD];
    uint32_t kind = (uint32_t)(drawn() % 5);
    ambrulicciu_observation o;
    ambrulicciu_call c;
    put((unsigned char *)&o, sizeof o, (int)(drawn() % 2));
    put(log, sizeof log, 0);
    uint8_t wrote = kind == AMBRULICCIU_KIND_SENT      ? ambrulicciu_log_write_sent(log, AMBRULICCIU_RECORD, (uint32_t)number(), (uint32_t)number(), (uint32_t)number(), number(), number())
                    : kind == AMBRULICCIU_KIND_ACCEPT  ? ambrulicciu_log_write_accept(log, AMBRULICCIU_RECORD, (uint32_t)number(), (uint32_t)number(), number(),
                                                                                      (uint32_t)drawn() % 2, number(), number())
                    : kind == AMBRULICCIU_KIND_OBSERVE ? ambrulicciu_log_write_observe(log, AMBRULICCIU_RECORD, &o)
                    : kind == AMBRULICCIU_KIND_ADVANCE ? ambrulicciu_log_write_advance(log, AMBRULICCIU_RECORD, number())
                                                       : ambrulicciu_log_write_idle(log, AMBRULICCIU_RECORD);
    wrote += ambrulicciu_log_write_trailer(log + AMBRULICCIU_RECORD, AMBRULICCIU_TRAILER, 1, 1, 1, 1);
    wrote += ambrulicciu_log_read(log, sizeof log, 0, &c);
    wrote += c.kind == AMBRULICCIU_KIND_SENT
                 ? ambrulicciu_log_write_sent(again, sizeof again, c.sent.sequence, c.sent.ordinal, c.train, c.sent.time, c.sent.tag)
             : c.kind == AMBRULICCIU_KIND_ACCEPT
                 ? ambrulicciu_log_write_accept(again, sizeof again, c.accept.sender, c.accept.reflector, c.accept.t3, c.accept.pending, c.accept.time, c.accept.tag)
             : c.kind == AMBRULICCIU_KIND_OBSERVE ? ambrulicciu_log_write_observe(again, sizeof again, &c.observation)
             : c.kind == AMBRULICCIU_KIND_ADVANCE ? ambrulicciu_log_write_advance(again, sizeof again, c.now)
                                                  : ambrulicciu_log_write_idle(again, sizeof again);
    if (wrote || c.kind != kind || memcmp(log, again, sizeof again) != 0) {
        fprintf(stderr, "any: a record of kind %u is not read as it was written\n", (unsigned)kind);
        exit(1);
    }
}

static void try_reports(void) {
    size_t size, room = drawn() % 4 ? AMBRULICCIU_TEXT : drawn() % 2000;
    uint8_t *log = log_of(&size);
    uint32_t *words = secret();
    rooms r = lend_rooms(KEYS | SLOTS | PROBES | OFFSETS | LINKS | QUEUE);
    uint8_t *text = lend(room, 0);
    uint64_t *length = lend(8, 0);
    ready();
    done("report_log", ambrulicciu_report_log(log, size, words, r.keys, r.key_rows, r.slots, r.slot_rows, r.probes, r.probe_rows, r.offsets, r.offset_rows,
                                              r.links, r.link_rows, r.queue, r.queue_rows, text, room, length), "5978");
    size_t mark_rows = drawn() % 8 ? AMBRULICCIU_RECORDS : drawn() % 1400, front_rows = drawn() % 8 ? AMBRULICCIU_RECORDS : drawn() % 1400;
    log = log_of(&size);
    uint8_t *marks = lend(mark_rows, 0);
    uint32_t *fronts = lend(4 * front_rows, 0);
    text = lend(room, 0);
    length = lend(8, 0);
    ready();
    done("recount_log", ambrulicciu_recount_log(log, size, marks, mark_rows, fronts, front_rows, text, room, length), "5978");
    ambrulicciu_ledger *l = ledger(1);
    ambrulicciu_monitor *m = monitor(1);
    text = lend(room, 0);
    length = lend(8, 0);
    ready();
    done("report_link", ambrulicciu_report_link(l, m, (uint32_t)number(), number(), number(), text, room, length), "5");
}

int main(int argc, char **argv) {
    static void (*const tries[])(void) = {try_version, try_fresh, try_sent, try_accept, try_accept_burst, try_observe, try_answered, try_reads, try_watched_sent,
                                          try_watched_accept, try_watched_accept_burst, try_monitor, try_estimates, try_quality, try_quantiles, try_bits, try_area, try_spread, try_directions, try_writers, try_logs, try_trim, try_trimmed, try_again, try_reports};
    long rounds = argc > 1 ? atol(argv[1]) : 500;
    seed = argc > 2 ? strtoull(argv[2], NULL, 10) : 1;
    for (long round = 0; round < rounds; round++)
        for (size_t i = 0; i < sizeof tries / sizeof *tries; i++)
            tries[i]();
#ifdef MEASURE
    for (int i = 0; seen[i].call; i++)
        printf("%s %zu\n", seen[i].call, seen[i].stack);
    return 0;
#endif
    if (rounds >= 300 && unseen())
        return 1;
    printf("any: %llu calls served and %llu refused on memory that holds anything: each refusal is one that the header names, and changed no byte\n",
           (unsigned long long)served, (unsigned long long)refused);
    return 0;
}
