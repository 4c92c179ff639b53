// The fuzzer's side for extension areas (document 02, Q-1): each input is an area, read by the calls and by the plain reader below, which is
// written from RFC 8972, section 4, and from the request.
//
// The area ends at a page that cannot be touched: a byte read behind it stops the run.
#include "../host/ambrulicciu.h"

#include <stdio.h>
#include <stdlib.h>
#include <string.h>
#include <sys/mman.h>

#define PAGE 4096u
#define MOST 4096u
#define ITEMS (MOST / 4)

static void fail(const char *why) {
    fprintf(stderr, "fuzz: %s\n", why);
    abort();
}

// Whole pages before one that cannot be touched; the answer is their end.
static uint8_t *end_of(size_t size) {
    size_t whole = (size + PAGE - 1) / PAGE * PAGE;
    uint8_t *all = mmap(NULL, whole + PAGE, PROT_NONE, MAP_PRIVATE | MAP_ANONYMOUS, -1, 0);
    if (all == MAP_FAILED || mprotect(all, whole, PROT_READ | PROT_WRITE) != 0)
        fail("no memory");
    return all + whole;
}

// ---- the plain reader

static uint64_t number_at(const uint8_t *at, int bytes) {
    uint64_t number = 0;
    for (int i = 0; i < bytes; i++)
        number = number << 8 | at[i];
    return number;
}

// The first bad item decides: 10 where its header or its value passes the end, then 11 for a length that its type has not.
static uint8_t plainly(const uint8_t *area, size_t size, uint64_t items[ITEMS], size_t *count) {
    size_t at = 0;
    for (*count = 0; at < size; ++*count) {
        if (size - at < 4)
            return 10;
        size_t length = number_at(area + at + 2, 2);
        if (size - at - 4 < length)
            return 10;
        if ((area[at + 1] == 5 && length != 12) || (area[at + 1] == 7 && length != 16))
            return 11;
        items[*count] = number_at(area + at, 4) << 32 | (at + 4);
        at += 4 + length;
    }
    return 0;
}

// What an observation is told: U (128) skips, M (64) ends the reading, I (32) voids all; of two items of one type the first counts.
static void tell(const uint8_t *area, const uint64_t *items, size_t count, ambrulicciu_observation *o) {
    const uint8_t *direct = NULL, *follow = NULL;
    int intact = 1;
    for (size_t i = 0; i < count; i++)
        intact = intact && !(items[i] >> 56 & 32);
    for (size_t i = 0; intact && i < count && !(items[i] >> 56 & 64); i++) {
        const uint8_t *value = area + (uint32_t)items[i];
        if (items[i] >> 56 & 128)
            continue;
        if ((items[i] >> 48 & 255) == 5 && !direct)
            direct = value;
        if ((items[i] >> 48 & 255) == 7 && !follow)
            follow = value;
    }
    o->flags &= ~(uint32_t)(AMBRULICCIU_COUNTERS | AMBRULICCIU_FOLLOW_UP | AMBRULICCIU_UNKNOWN_MODE);
    o->s_txc = direct ? (uint32_t)number_at(direct, 4) : 0;
    o->r_rxc = direct ? (uint32_t)number_at(direct + 4, 4) : 0;
    o->r_txc = direct ? (uint32_t)number_at(direct + 8, 4) : 0;
    o->follow_up_sequence = follow ? (uint32_t)number_at(follow, 4) : 0;
    o->follow_up_timestamp = follow ? number_at(follow + 4, 8) : 0;
    if (direct)
        o->flags |= AMBRULICCIU_COUNTERS;
    if (follow)
        o->flags |= AMBRULICCIU_FOLLOW_UP | (follow[12] >= 1 && follow[12] <= 3 ? 0 : AMBRULICCIU_UNKNOWN_MODE);
}

// ---- one input

int LLVMFuzzerTestOneInput(const uint8_t *data, size_t size) {
    static uint8_t *area_end, *written_end;
    static uint64_t items[ITEMS], expected[ITEMS];
    if (!area_end) {
        area_end = end_of(MOST);
        written_end = end_of(MOST);
    }
    if (size > MOST)
        return 0;
    uint8_t *area = area_end - size, *written = written_end - size;
    memcpy(area, data, size);
    size_t number_of = 0;
    uint8_t number = plainly(area, size, expected, &number_of);

    uint64_t count = 77;
    memset(items, 0xa5, sizeof items);
    if (ambrulicciu_area_read(area, size, items, ITEMS, &count) != number)
        fail("another number than the plain reader's");
    if (number) {
        static uint64_t untouched[ITEMS];
        memset(untouched, 0xa5, sizeof untouched);
        if (count != 77 || memcmp(items, untouched, sizeof items) != 0)
            fail("a refusal wrote");
    } else if (count != number_of || memcmp(items, expected, 8 * number_of) != 0)
        fail("other items than the plain reader's");

    ambrulicciu_observation told, plain;
    memset(&told, 0x5a, sizeof told);
    plain = told;
    if (ambrulicciu_area_observation(area, size, &told) != number)
        fail("area_observation: another number");
    if (!number)
        tell(area, expected, number_of, &plain);
    if (memcmp(&told, &plain, sizeof told) != 0)
        fail("area_observation: told otherwise");
    if (number)
        return 0;

    // What is read is written again: the same bytes, but for the reserved ones of type 7.
    uint64_t length = 77;
    memset(written, 0xa5, size);
    if (ambrulicciu_area_write(items, count, area, size, written, size, &length) != 0 || length != size)
        fail("what was read is not written");
    for (size_t i = 0; i < count; i++)
        if ((items[i] >> 48 & 255) == 7)
            memset(area + (uint32_t)items[i] + 13, 0, 3);
    if (memcmp(written, area, size) != 0)
        fail("what was read is written otherwise");
    if (size > 0 && ambrulicciu_area_write(items, count, area, size, written + 1, size - 1, &length) != 12)
        fail("too few bytes were taken");
    return 0;
}

size_t LLVMFuzzerMutate(uint8_t *data, size_t size, size_t most);

// Half of the changed inputs are mended: each header's length is cut to what is left, and types 5 and 7 get theirs where there is place.
size_t LLVMFuzzerCustomMutator(uint8_t *data, size_t size, size_t most, unsigned seed) {
    size = LLVMFuzzerMutate(data, size, most);
    if (seed & 1)
        return size;
    for (size_t at = 0; at + 4 <= size;) {
        size_t left = size - at - 4, length = number_at(data + at + 2, 2) % 24;
        if (data[at + 1] == 5)
            length = 12;
        if (data[at + 1] == 7)
            length = 16;
        if (length > left) {
            data[at + 1] = 1;
            length = left;
        }
        data[at + 2] = 0;
        data[at + 3] = (uint8_t)length;
        at += 4 + length;
    }
    return size;
}
