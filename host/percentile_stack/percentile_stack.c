/*
 * The stack that ambrulicciu_quantiles_percentiles takes, and that it touches no byte of the room and of the state.
 *
 * Each call runs on a stack of its own, painted before: what is no longer paint was used. The bound is the one that the header states.
 * In an exact room the values of 0 and of 100 are held against a sorted copy; the values between are the comparison's to hold.
 */
#define _XOPEN_SOURCE 700
#include "../ambrulicciu.h"
#include <stdio.h>
#include <stdlib.h>
#include <string.h>
#include <ucontext.h>

#define STACK 65536
#define PAINT 0xa7
#define COUNT 4096
#define PERCENTS 9

static uint8_t stack[STACK];
static ucontext_t back, own;

static ambrulicciu_quantiles state, state_before;
static uint64_t room[AMBRULICCIU_QUANTILES_SIGNED_ROOM], room_before[AMBRULICCIU_QUANTILES_SIGNED_ROOM];
static size_t room_length, percents;
static const double asked[PERCENTS] = {50, 90, 95, 99, 0, 100, 99.9, 25, 1};
static uint64_t shown[PERCENTS], present;
static uint8_t answer;

static void call(void) {
    answer = ambrulicciu_quantiles_percentiles(&state, room, room_length, asked, percents, shown, percents, &present);
}

static void nothing(void) {
}

/* The bytes of a painted stack that the function used. */
static size_t used_by(void (*function)(void)) {
    memset(stack, PAINT, STACK);
    getcontext(&own);
    own.uc_stack.ss_sp = stack;
    own.uc_stack.ss_size = STACK;
    own.uc_link = &back;
    makecontext(&own, function, 0);
    swapcontext(&back, &own);
    size_t low = 0;
    while (low < STACK && stack[low] == PAINT)
        low++;
    return STACK - low;
}

static uint64_t drawn = 88172645463325252u;

static uint64_t draw(void) {
    drawn ^= drawn << 13;
    drawn ^= drawn >> 7;
    drawn ^= drawn << 17;
    return drawn * 2685821657736338717u;
}

static int by_value(const void *a, const void *b) {
    uint64_t x = *(const uint64_t *)a, y = *(const uint64_t *)b;
    return x < y ? -1 : x > y;
}

static int by_signed(const void *a, const void *b) {
    int64_t x = *(const int64_t *)a, y = *(const int64_t *)b;
    return x < y ? -1 : x > y;
}

static const char *const shapes[] = {"random", "sorted", "descending", "constant", "three values", "jitter", "outliers", "all bit lengths",
                                     "sawtooth", "two plateaus", "nearly sorted"};
#define SHAPES (sizeof shapes / sizeof shapes[0])

static uint64_t sample(size_t shape, size_t i) {
    switch (shape) {
    case 0:
        return draw();
    case 1:
        return 1000 * i;
    case 2:
        return 1000 * (COUNT - i);
    case 3:
        return 20000000;
    case 4:
        return 19000000 + 1250000 * (draw() % 3);
    case 5:
        return 20000000 + draw() % 1000000;
    case 6:
        return i % 455 == 13 ? 5000000000u + draw() % 1000000000 : 20000000 + draw() % 1000000;
    case 7:
        return draw() >> draw() % 64;
    case 8:
        return 20000000 + i % 128 * 7919;
    case 9:
        return (i / 512 % 2 ? 35000000 : 20000000) + draw() % 100000;
    default:
        return i % 205 == 7 ? draw() % (1000 * COUNT) : 1000 * i;
    }
}

static size_t most, calls;

/* The call with each number of percents, on the series in the room. */
static int held(size_t count, int is_signed, const char *name) {
    static uint64_t sorted[COUNT];
    size_t exact = count <= COUNT ? count : 0;
    memcpy(sorted, room, exact * sizeof sorted[0]);
    qsort(sorted, exact, sizeof sorted[0], is_signed ? by_signed : by_value);
    for (percents = 0; percents <= PERCENTS; percents++) {
        memcpy(room_before, room, sizeof room);
        state_before = state;
        size_t used = used_by(call) - used_by(nothing);
        calls++;
        if (used > most)
            most = used;
        if (answer != 0 || present != (count > 0)) {
            fprintf(stderr, "percentile_stack: %s: answer %d, present %d\n", name, answer, (int)present);
            return 0;
        }
        if (memcmp(room_before, room, sizeof room) != 0 || memcmp(&state_before, &state, sizeof state) != 0) {
            fprintf(stderr, "percentile_stack: %s: the room or the state was changed\n", name);
            return 0;
        }
        for (size_t k = 0; k < percents && exact; k++) {
            /* 0 and 100 are the first and the last, whatever the rounding */
            size_t rank = asked[k] == 0 ? 0 : asked[k] == 100 ? exact - 1 : COUNT;
            if (rank < COUNT && shown[k] != sorted[rank]) {
                fprintf(stderr, "percentile_stack: %s: another value at rank %d\n", name, (int)rank);
                return 0;
            }
        }
    }
    return 1;
}

int main(void) {
    for (int is_signed = 0; is_signed < 2; is_signed++) {
        room_length = is_signed ? AMBRULICCIU_QUANTILES_SIGNED_ROOM : AMBRULICCIU_QUANTILES_ROOM;
        for (size_t shape = 0; shape < SHAPES; shape++) {
            static const size_t counts[] = {0, 1, 2, 3, 5, 100, 1000, COUNT - 1, COUNT, COUNT + 1, 20000};
            for (size_t n = 0; n < sizeof counts / sizeof counts[0]; n++) {
                uint64_t recorded = 0;
                memset(room, 0x5a, sizeof room);
                ambrulicciu_quantiles_fresh(&state, (uint32_t)is_signed);
                for (size_t i = 0; i < counts[n]; i++)
                    if (ambrulicciu_quantiles_record(&state, room, room_length, sample(shape, i), &recorded) != 0 || recorded != 1)
                        return 1;
                if (!held(counts[n], is_signed, shapes[shape]))
                    return 1;
            }
        }
    }
    printf("percentile_stack: %d calls over %d shapes: at most %d bytes of stack, bound %d; no byte of room or state changed\n", (int)calls,
           (int)SHAPES, (int)most, AMBRULICCIU_PERCENTILES_STACK);
#ifdef __x86_64__
    return most > AMBRULICCIU_PERCENTILES_STACK;
#else
    return 0; /* the header's bound is of x86-64; elsewhere it is only printed */
#endif
}
