/*
 * A link's round trips with their spread and jitter, and its one-way delays in both directions: an example for a host in C.
 *
 *     spread PACKETS     prints the series and both directions; at most 4,096 packets, up to which percentiles are exact
 *
 * The link is simulated: 2 ms each way and a tail, and a reflector whose clock is 20 ms ahead, so that the reverse delays are negative.
 * What is printed is also held against plain lists of the same samples.
 */
#define EXAMPLE "spread"
#include "../ambrulicciu.h"
#include "../example.h"
#include <math.h>
#include <stdio.h>
#include <stdlib.h>
#include <string.h>

#define MOST 4096
#define AHEAD 20000000

__extension__ typedef unsigned __int128 wide;

static uint64_t room[AMBRULICCIU_QUANTILES_ROOM];
static uint64_t slice[AMBRULICCIU_DIRECTIONS_SLICE];

static void same(const char *what, double shown, double plain) {
    if (fabs(shown - plain) > 1e-9 * fmax(fabs(plain), 1)) {
        fprintf(stderr, "spread: %s is %.9f, and %.9f of the plain list\n", what, shown, plain);
        exit(1);
    }
}

/* One way through the yard: 2 ms, up to 0.5 ms more, and now and then a long wait. */
static int64_t one_way(void) { return 2000000 + (int64_t)(drawn() % 500000) + (drawn() % 50 ? 0 : (int64_t)(drawn() % 9000000)); }

/* ---- how jitter and deviation are got from what is shown: both in ms, as the header says ------------------------------------------- */

static double jitter_ms(const ambrulicciu_spread *s) {
    wide sum = (wide)s->jitter_high << 64 | s->jitter_low;
    return (double)(uint64_t)(sum / s->jitter_count) / 1000000; /* not while jitter_count is 0 */
}

static double deviation_ms(const ambrulicciu_spread *s) {
    return sqrt(fmax(s->m2 / (double)s->count, 0)) / 1000000; /* not below a count of 2 */
}

/* The percentiles of a series: its state is four words, and its room the one that it was recorded in. */
static void percentiles(uint64_t is_signed, uint64_t count, uint64_t least, uint64_t most, const uint64_t *in, size_t words, uint64_t *shown) {
    const double percents[3] = {50, 95, 99};
    ambrulicciu_quantiles state = {{is_signed, count, least, most}};
    uint64_t present;
    must(ambrulicciu_quantiles_percentiles(&state, in, words, percents, 3, shown, 3, &present));
}

/* ---- the plain lists that all is held against -------------------------------------------------------------------------------------- */

static int ordered(const void *a, const void *b) {
    int64_t x = *(const int64_t *)a, y = *(const int64_t *)b;
    return (x > y) - (x < y);
}

static void held(const char *name, const int64_t *list, size_t n, const ambrulicciu_delays *shown, const uint64_t *picked) {
    static int64_t sorted[MOST];
    double sum = 0;
    memcpy(sorted, list, n * sizeof *list);
    qsort(sorted, n, sizeof *sorted, ordered);
    for (size_t i = 0; i < n; i++)
        sum += (double)list[i];
    same(name, (double)shown->samples, (double)n);
    same(name, shown->minimum, (double)sorted[0] / 1000000);
    same(name, shown->maximum, (double)sorted[n - 1] / 1000000);
    same(name, shown->average, sum / (double)n / 1000000);
    const double percents[3] = {50, 95, 99};
    for (int i = 0; i < 3; i++)
        same(name, (double)(int64_t)picked[i], (double)sorted[(size_t)floor(percents[i] / 100 * (double)(n - 1) + 0.5)]);
    printf("%s samples %zu min %.3f avg %.3f max %.3f p50 %.3f p95 %.3f p99 %.3f\n", name, n, shown->minimum, shown->average, shown->maximum,
           (double)(int64_t)picked[0] / 1000000, (double)(int64_t)picked[1] / 1000000, (double)(int64_t)picked[2] / 1000000);
}

int main(int argc, char **argv) {
    static int64_t trips[MOST], forward[MOST], reverse[MOST];
    long packets = argc > 1 ? atol(argv[1]) : 4000;
    size_t n = packets < 2 ? 2 : packets > MOST ? MOST : (size_t)packets;
    ambrulicciu_spread spread;
    ambrulicciu_directions both;
    uint64_t recorded, picked[3];
    ambrulicciu_delays shown;
    must(ambrulicciu_spread_fresh(&spread));
    must(ambrulicciu_directions_fresh(&both));
    for (size_t i = 0; i < n; i++) {
        int64_t there = one_way(), back = one_way();
        trips[i] = there + back;
        forward[i] = there + AHEAD;
        reverse[i] = back - AHEAD;
        must(ambrulicciu_spread_record(&spread, room, AMBRULICCIU_QUANTILES_ROOM, (uint64_t)trips[i], &recorded));
        must(ambrulicciu_directions_record(&both, slice, AMBRULICCIU_DIRECTIONS_SLICE, 0, (uint64_t)forward[i], &recorded));
        must(ambrulicciu_directions_record(&both, slice, AMBRULICCIU_DIRECTIONS_SLICE, 1, (uint64_t)reverse[i], &recorded));
    }

    must(ambrulicciu_spread_show(&spread, &shown));
    percentiles(0, spread.count, spread.minimum, spread.maximum, room, AMBRULICCIU_QUANTILES_ROOM, picked);
    held("round trips", trips, n, &shown, picked);

    int64_t successive = 0;
    double mean = 0, squares = 0;
    for (size_t i = 0; i < n; i++)
        mean += (double)trips[i] / (double)n;
    for (size_t i = 0; i < n; i++)
        squares += ((double)trips[i] - mean) * ((double)trips[i] - mean);
    for (size_t i = 1; i < n; i++)
        successive += llabs(trips[i] - trips[i - 1]);
    same("jitter", jitter_ms(&spread), (double)(successive / (int64_t)(n - 1)) / 1000000);
    same("deviation", deviation_ms(&spread), sqrt(squares / (double)n) / 1000000);
    printf("round trips jitter %.3f deviation %.3f\n", jitter_ms(&spread), deviation_ms(&spread));

    /* a direction's words: forward 0 to 5, reverse 6 to 11, of which the first three are its count, minimum and maximum */
    const size_t part = AMBRULICCIU_QUANTILES_SIGNED_ROOM;
    must(ambrulicciu_directions_show(&both, 0, &shown));
    percentiles(1, both.word[0], both.word[1], both.word[2], slice, part, picked);
    held("forward", forward, n, &shown, picked);
    must(ambrulicciu_directions_show(&both, 1, &shown));
    percentiles(1, both.word[6], both.word[7], both.word[8], slice + part, part, picked);
    held("reverse", reverse, n, &shown, picked);
    return 0;
}
