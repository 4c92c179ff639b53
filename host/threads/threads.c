/*
 * Many links at once, from several threads: each must end with the same bytes as when one thread plays them one after the other.
 *
 *     threads LINKS CALLS
 *
 * A link's calls are drawn from its own seed: probes, replies of all classes, observations, the monitor, quantiles, snapshots, reports.
 * In the second half another thread goes on with the link, as a host may that hands links around.
 */
#include "../ambrulicciu.h"
#include <pthread.h>
#include <stdio.h>
#include <stdlib.h>
#include <string.h>

#define THREADS 8

/* All that belongs to one link. */
typedef struct {
    ambrulicciu_link link;
    ambrulicciu_quantiles quantiles;
    uint64_t room[AMBRULICCIU_QUANTILES_ROOM];
    ambrulicciu_figures figures;
    ambrulicciu_session session;
    uint8_t text[AMBRULICCIU_TEXT];
    uint64_t length;
    uint64_t refused[10];
    uint64_t shown[3], present;
    uint64_t seed;
    ambrulicciu_accepted last;
    uint32_t sender, reflector;
    uint64_t t3;
} played;

static uint64_t drawn(uint64_t *seed) {
    uint64_t z = *seed += 0x9e3779b97f4a7c15u;
    z = (z ^ (z >> 30)) * 0xbf58476d1ce4e5b9u;
    z = (z ^ (z >> 27)) * 0x94d049bb133111ebu;
    return z ^ (z >> 31);
}

static void start(played *p, uint64_t seed) {
    uint32_t secret[8];
    memset(p, (int)(seed % 251), sizeof *p); /* the rooms may hold anything */
    memset(p->refused, 0, sizeof p->refused);
    p->seed = seed;
    for (int i = 0; i < 8; i++)
        secret[i] = (uint32_t)drawn(&p->seed);
    ambrulicciu_link_fresh(&p->link, (uint16_t)(seed % 3), secret, 3, 50);
    ambrulicciu_quantiles_fresh(&p->quantiles, 0);
    memset(&p->last, 0, sizeof p->last);
    p->sender = p->reflector = 0;
    p->t3 = 0;
}

static void told(played *p, uint8_t answer) {
    p->refused[answer % 10]++;
}

static void accept(played *p, uint32_t call) {
    uint64_t r = drawn(&p->seed);
    ambrulicciu_packet packet = {call, r};
    if (r % 8) { /* else the same reply once more */
        p->sender = call - (uint32_t)(r >> 8) % 8;
        p->reflector = p->sender - (uint32_t)(r >> 16) % 2;
        p->t3 = r >> 60;
    }
    told(p, ambrulicciu_link_accept(&p->link, p->sender, p->reflector, p->t3, r % 3 ? &packet : NULL, &p->last));
}

static void observe(played *p) {
    uint64_t r = drawn(&p->seed), recorded;
    ambrulicciu_observation o;
    memset(&o, 0, sizeof o);
    o.t3 = p->t3;
    o.sender = p->sender;
    o.reflector = p->reflector;
    o.round_trip = r % 1000000;
    o.t4 = (int64_t)(r % 5000000000000000000u);
    o.ordinal = (uint32_t)p->last.ordinal;
    o.s_txc = o.ordinal + (r % 16 == 0);
    o.r_rxc = o.ordinal + (uint32_t)(r >> 20) % 2;
    o.r_txc = o.ordinal + (uint32_t)(r >> 24) % 3;
    o.follow_up_sequence = p->reflector - (uint32_t)(r >> 28) % 4;
    o.follow_up_timestamp = r >> 62;
    o.sender_estimate = (uint16_t)(r >> 32);
    o.reflector_estimate = (uint16_t)(r >> 48);
    o.flags = (uint32_t)(r >> 40) % 256 | AMBRULICCIU_T4;
    told(p, ambrulicciu_link_observe(&p->link, &o));
    told(p, ambrulicciu_quantiles_record(&p->quantiles, p->room, AMBRULICCIU_QUANTILES_ROOM, o.round_trip, &recorded));
}

static void show(played *p) {
    static const double percents[3] = {50, 95, 99.9};
    ambrulicciu_snapshot(&p->link.ledger, &p->figures);
    ambrulicciu_monitor_summary(&p->link.monitor, &p->session);
    told(p, ambrulicciu_report_link(&p->link.ledger, &p->link.monitor, 1, 0, 0, p->text, sizeof p->text, &p->length));
    told(p, ambrulicciu_quantiles_percentiles(&p->quantiles, p->room, AMBRULICCIU_QUANTILES_ROOM, percents, 3, p->shown, 3,
                                              &p->present));
}

static void play(played *p, uint32_t from, uint32_t to) {
    for (uint32_t call = from; call < to; call++) {
        told(p, ambrulicciu_link_sent(&p->link, call, call, call, call, drawn(&p->seed)));
        if (drawn(&p->seed) % 5) {
            accept(p, call);
            observe(p);
        }
        if (drawn(&p->seed) % 4 == 0)
            told(p, ambrulicciu_link_advance(&p->link, call));
        if (drawn(&p->seed) % 500 == 0)
            told(p, ambrulicciu_link_idle(&p->link));
        if (drawn(&p->seed) % 1000 == 0)
            show(p);
    }
    show(p);
}

/* All bytes but those between the fields of a queued probe, which nobody looks at. */
static int same(const played *a, const played *b) {
    for (int i = 0; i < AMBRULICCIU_ROWS; i++) {
        const ambrulicciu_queued *p = &a->link.queue[i], *q = &b->link.queue[i];
        if (p->sequence != q->sequence || p->deadline != q->deadline || p->mark != q->mark)
            return 0;
    }
    return memcmp(a, b, offsetof(played, link.queue)) == 0 &&
           memcmp(&a->quantiles, &b->quantiles, sizeof *a - offsetof(played, quantiles)) == 0;
}

/* ---- threads */

static played *links;
static uint32_t link_count, call_count;

typedef struct {
    uint32_t first; /* plays links first, first + THREADS, .. */
    uint32_t from, to;
} share;

static void *work(void *given) {
    const share *s = given;
    /* a few calls of each link in turn, so that all are under way at once */
    for (uint32_t at = s->from; at < s->to; at += 100)
        for (uint32_t i = s->first; i < link_count; i += THREADS)
            play(&links[i], at, at + 100 < s->to ? at + 100 : s->to);
    return NULL;
}

static int half(uint32_t shift, uint32_t from, uint32_t to) {
    pthread_t threads[THREADS];
    share shares[THREADS];
    for (uint32_t t = 0; t < THREADS; t++) {
        shares[t].first = (t + shift) % THREADS;
        shares[t].from = from;
        shares[t].to = to;
        if (pthread_create(&threads[t], NULL, work, &shares[t]) != 0)
            return 0;
    }
    for (uint32_t t = 0; t < THREADS; t++)
        pthread_join(threads[t], NULL);
    return 1;
}

int main(int argc, char **argv) {
    link_count = argc > 1 ? (uint32_t)atoi(argv[1]) : 24;
    call_count = argc > 2 ? (uint32_t)atoi(argv[2]) : 10000;
    links = malloc(link_count * sizeof *links);
    played *alone = malloc(sizeof *alone);
    if (!links || !alone) {
        fprintf(stderr, "threads: no memory\n");
        return 1;
    }
    uint32_t middle = call_count / 200 * 100;
    for (uint32_t i = 0; i < link_count; i++)
        start(&links[i], i + 1);
    if (!half(0, 0, middle) || !half(3, middle, call_count)) {
        fprintf(stderr, "threads: no thread\n");
        return 1;
    }
    uint64_t served = 0, refused = 0;
    for (uint32_t i = 0; i < link_count; i++) {
        start(alone, i + 1);
        for (uint32_t at = 0; at < call_count; at += 100)
            play(alone, at, at + 100 < call_count ? at + 100 : call_count);
        if (!same(alone, &links[i])) {
            fprintf(stderr, "threads: link %u differs\n", (unsigned)i);
            return 1;
        }
        served += alone->refused[0];
        for (int number = 1; number < 10; number++)
            refused += alone->refused[number];
    }
    printf("threads: %u links in %d threads, %llu calls served and %llu refused, each link as from one thread\n", (unsigned)link_count,
           THREADS, (unsigned long long)served, (unsigned long long)refused);
    free(alone);
    free(links);
    return 0;
}
