// The fuzzer's side: each input is a log, reported twice with other rooms and another secret, and counted a second time (document 02, Q-13).
//
// All memory that is lent ends at a page that cannot be touched, and all but the log and the text begin behind one: a word read or
// written outside stops the run.
#include "../host/ambrulicciu.h"

#include <stdio.h>
#include <stdlib.h>
#include <string.h>
#include <sys/mman.h>

#define PAGE 4096u
#define CAPACITY AMBRULICCIU_ROWS
#define TEXT AMBRULICCIU_TEXT
#define MOST_BYTES AMBRULICCIU_LOG
#define RECORD AMBRULICCIU_RECORD
#define TRAILER AMBRULICCIU_TRAILER

size_t LLVMFuzzerMutate(uint8_t *data, size_t size, size_t most);

static void fail(const char *why) {
    fprintf(stderr, "fuzz: %s\n", why);
    abort();
}

// ---- lent memory

// Whole pages between two that cannot be touched.
static uint8_t *pages(size_t size) {
    size_t whole = (size + PAGE - 1) / PAGE * PAGE;
    uint8_t *all = mmap(NULL, whole + 2 * PAGE, PROT_NONE, MAP_PRIVATE | MAP_ANONYMOUS, -1, 0);
    if (all == MAP_FAILED || mprotect(all + PAGE, whole, PROT_READ | PROT_WRITE) != 0)
        fail("no memory");
    return all + PAGE;
}

#define ROOMS 6
static const size_t ROOM_SIZES[ROOMS] = {16 * CAPACITY, 24 * CAPACITY, 32 * CAPACITY, 4 * CAPACITY, 16 * CAPACITY, 24 * CAPACITY};
static uint8_t *rooms[ROOMS];
// The rooms of the second count, each at the end of its pages.
#define MARKS AMBRULICCIU_RECORDS
#define FRONTS (4 * AMBRULICCIU_RECORDS)
static uint8_t *marks, *fronts;
static uint8_t *text_page;
static uint8_t *log_end;

static void lend(void) {
    for (int i = 0; i < ROOMS; i++)
        rooms[i] = pages(ROOM_SIZES[i]);
    marks = pages(MARKS) + PAGE - MARKS;
    fronts = pages(FRONTS) + PAGE - FRONTS;
    text_page = pages(TEXT);
    log_end = pages(MOST_BYTES + PAGE) + MOST_BYTES + PAGE;
}

// ---- what the rooms hold beforehand

static uint64_t hash(const uint8_t *data, size_t size) {
    uint64_t h = 1469598103934665603u;
    for (size_t i = 0; i < size; i++)
        h = (h ^ data[i]) * 1099511628211u;
    return h;
}

static uint64_t next(uint64_t *seed) {
    uint64_t z = *seed += 0x9e3779b97f4a7c15u;
    z = (z ^ (z >> 30)) * 0xbf58476d1ce4e5b9u;
    return z ^ (z >> 29);
}

// Any words, or small ones, which a ledger could have left there.
static uint64_t filler(uint64_t *seed, int small) {
    uint64_t word = next(seed);
    return small ? word & 0x0003000300030003u : word;
}

static void fill(uint8_t *room, size_t size, uint64_t seed, int small) {
    for (size_t i = 0; i < size; i += 8) {
        uint64_t word = filler(&seed, small);
        memcpy(room + i, &word, 8);
    }
}

static int filled(const uint8_t *room, size_t size, uint64_t seed, int small) {
    for (size_t i = 0; i < size; i += 8) {
        uint64_t word = filler(&seed, small);
        if (memcmp(room + i, &word, 8) != 0)
            return 0;
    }
    return 1;
}

// ---- one run

// A log that is refused is so with a number of its own, and nothing was changed. The answer is above any length of a text.
static size_t refused(uint8_t number, int kept, uint64_t seed, int small) {
    if (number != AMBRULICCIU_TOO_LONG && number != AMBRULICCIU_BAD_TRAILER && number != AMBRULICCIU_BAD_RECORD)
        fail("rooms of the right size were refused");
    if (!kept)
        fail("a log was refused, and the text or its length was changed");
    for (int i = 0; i < ROOMS; i++)
        if (!filled(rooms[i], ROOM_SIZES[i], seed + i, small))
            fail("a log was refused, and a room was changed");
    return TEXT + number;
}

static size_t run(const uint8_t *data, size_t size, uint64_t seed, int small, uint8_t copy[TEXT]) {
    uint8_t *log = log_end - size;
    uint8_t *text = text_page + PAGE - TEXT;
    uint32_t secret[8];
    memcpy(log, data, size);
    for (int i = 0; i < ROOMS; i++)
        fill(rooms[i], ROOM_SIZES[i], seed + i, small);
    fill(text_page, PAGE, seed + ROOMS, 0);
    fill((uint8_t *)secret, sizeof secret, seed + ROOMS + 1, small);
    uint8_t before[PAGE];
    memcpy(before, text_page, PAGE);

    uint64_t answer = ~seed;
    uint8_t number = ambrulicciu_report_log(log, size, secret, (ambrulicciu_key *)rooms[0], CAPACITY, (ambrulicciu_slot *)rooms[1],
                                            CAPACITY, (ambrulicciu_probe *)rooms[2], CAPACITY, (uint32_t *)rooms[3], CAPACITY,
                                            (ambrulicciu_chain *)rooms[4], CAPACITY, (ambrulicciu_queued *)rooms[5], CAPACITY, text, TEXT,
                                            &answer);
    if (memcmp(log, data, size) != 0)
        fail("the log was changed");
    if (number != AMBRULICCIU_SERVED)
        return refused(number, answer == ~seed && memcmp(text_page, before, PAGE) == 0, seed, small);
    if (answer > TEXT)
        fail("the answer is no length of a text");
    if (answer == 0 || text[answer - 1] != '\n')
        fail("the text does not end in a line's end");
    if (memcmp(text_page, before, PAGE - TEXT) != 0)
        fail("bytes before the text were changed");
    if (memcmp(text + answer, before + PAGE - TEXT + answer, TEXT - answer) != 0)
        fail("bytes behind the text were changed");
    memcpy(copy, text, answer);
    return answer;
}

// The second count of the same log: the same number, or the same text.
static void recount(const uint8_t *data, size_t size, uint64_t seed, size_t first, const uint8_t *expected) {
    static uint8_t before[MARKS + FRONTS];
    uint8_t *log = log_end - size, *text = text_page + PAGE - TEXT;
    memcpy(log, data, size);
    for (size_t i = 0; i < MARKS + FRONTS; i++)
        before[i] = (uint8_t)next(&seed);
    memcpy(marks, before, MARKS);
    memcpy(fronts, before + MARKS, FRONTS);
    memset(text, 0x5a, TEXT);
    uint64_t answer = ~seed;
    uint8_t number = ambrulicciu_recount_log(log, size, marks, MARKS, (uint32_t *)fronts, MARKS, text, TEXT, &answer);
    if (memcmp(log, data, size) != 0)
        fail("the second count changed the log");
    if (number != AMBRULICCIU_SERVED) {
        if (first != TEXT + (size_t)number)
            fail("the second count refused a log with another number");
        if (answer != ~seed || memcmp(marks, before, MARKS) != 0 || memcmp(fronts, before + MARKS, FRONTS) != 0)
            fail("the second count refused a log, and a room was changed");
    } else if (first != answer || memcmp(text, expected, answer) != 0)
        fail("the second count of a log has another text");
}

int LLVMFuzzerTestOneInput(const uint8_t *data, size_t size) {
    static uint8_t first[TEXT], second[TEXT];
    if (!text_page)
        lend();
    if (size > MOST_BYTES + PAGE)
        return 0;
    uint64_t seed = hash(data, size);
    size_t one = run(data, size, seed, 0, first);
    size_t other = run(data, size, ~seed, 1, second);
    if (one != other || (one <= TEXT && memcmp(first, second, one) != 0))
        fail("the report depends on the rooms or on the secret");
    recount(data, size, seed, one, first);
    return 0;
}

// ---- changed inputs

static void put(uint8_t *at, uint32_t number) {
    for (int i = 0; i < 4; i++)
        at[i] = (uint8_t)(number >> (24 - 8 * i));
}

static void clear(uint8_t *r, int holds, unsigned from, unsigned to) {
    if (!holds)
        memset(r + from, 0, to - from);
}

// Sets to 0 what a record of its kind and flags has not.
static void mend_record(uint8_t *r) {
    static const unsigned ends[5] = {32, 36, 88, 12, 4};
    uint8_t kind = r[0] %= 5;
    uint8_t flags = r[1] &= kind == 2 ? 255 : kind == 1 ? 1 : 0;
    if (kind == 2 && !(flags & 8))
        flags = r[1] &= 255 - 16 - 128;
    r[2] = r[3] = 0;
    memset(r + ends[kind], 0, RECORD - ends[kind]);
    r[95] = 255 - kind;
    if (kind == 1)
        clear(r, flags & 1, 20, 36);
    if (kind != 2)
        return;
    clear(r, flags & 1, 28, 36);
    clear(r, flags & 2, 48, 52);
    clear(r, flags & 4, 52, 64);
    clear(r, flags & 8, 64, 76);
    clear(r, flags & 16, 76, 84);
    clear(r, flags & 32, 84, 88);
}

// An observe is of the key that was accepted last.
static void follow_key(uint8_t *first, size_t count) {
    const uint8_t *accepted = NULL;
    for (size_t i = 0; i < count; i++) {
        uint8_t *r = first + RECORD * i;
        if (r[0] == 1)
            accepted = r;
        else if (r[0] == 2 && accepted)
            memcpy(r + 4, accepted + 4, 16);
    }
}

// Makes a log of the bytes, with as many records as fit.
static void mend(uint8_t *data, size_t size, unsigned choice) {
    if (size < TRAILER)
        return;
    size_t count = (size - TRAILER) / RECORD;
    uint8_t *end = data + size - TRAILER;
    uint8_t *first = end - RECORD * count;
    put(end, (uint32_t)(TRAILER + RECORD * count));
    put(end + 4, (uint32_t)count);
    memcpy(end + 20, "STLG", 4);
    if (choice & 1)
        return;
    for (size_t i = 0; i < count; i++)
        mend_record(first + RECORD * i);
    if (choice & 2)
        follow_key(first, count);
}

// Copies one record of a log over, or in front of, another, or takes one out.
static size_t move_record(uint8_t *data, size_t size, size_t most, uint64_t *seed) {
    if (size < TRAILER + RECORD)
        return size;
    size_t count = (size - TRAILER) / RECORD;
    uint8_t *first = data + size - TRAILER - RECORD * count;
    uint8_t *from = first + RECORD * (next(seed) % count);
    uint8_t *to = first + RECORD * (next(seed) % count);
    uint8_t record[RECORD];
    memcpy(record, from, RECORD);
    switch (next(seed) % 3) {
    case 0:
        memcpy(to, record, RECORD);
        return size;
    case 1:
        if (size + RECORD > most)
            return size;
        memmove(to + RECORD, to, (size_t)(data + size - to));
        memcpy(to, record, RECORD);
        return size + RECORD;
    default:
        memmove(to, to + RECORD, (size_t)(data + size - to) - RECORD);
        return size - RECORD;
    }
}

// Most changed bytes are no good log, and the rules refuse them at once: of eight inputs two stay as they were changed, one gets a good
// trailer, and five get good records too.
size_t LLVMFuzzerCustomMutator(uint8_t *data, size_t size, size_t most, unsigned int seed) {
    uint64_t random = seed;
    unsigned choice = (unsigned)(next(&random) % 8);
    if (next(&random) % 3 == 0)
        size = move_record(data, size, most, &random);
    else
        size = LLVMFuzzerMutate(data, size, most);
    if (choice < 5)
        mend(data, size, choice & 2);
    else if (choice == 5)
        mend(data, size, 1);
    return size;
}
