/*
 * An example host: it sends probes over a link, hands every event to the library, keeps a log, and shows the figures.
 *
 *     host SEED LOG REPORT
 *
 * The link is simulated (network.c). LOG is what linkreport reads; REPORT is the text that the library makes of the link as it stands,
 * and linkreport prints the same of the log: host/c/run compares them. Nothing is checked before a call: the library refuses what it
 * cannot serve, and the host only counts that.
 */
#include "network.h"
#include <ambrulicciu.h>
#include <stdio.h>
#include <stdlib.h>
#include <string.h>

#define MS 1000000u
#define SECOND 1000000000
#define MOST_RECORDS ((AMBRULICCIU_LOG - AMBRULICCIU_TRAILER) / AMBRULICCIU_RECORD)
#define PENDING 32 /* packets that the host remembers itself */

typedef struct {
    ambrulicciu_link link;
    uint16_t copies, threshold; /* threshold 0: the link is not watched */
    uint64_t timeout;
    ambrulicciu_quantiles round_trips;
    uint64_t room[AMBRULICCIU_QUANTILES_ROOM];
    struct {
        uint32_t sequence;
        ambrulicciu_packet packet;
        int waits;
    } pending[PENDING];
    uint8_t log[AMBRULICCIU_LOG];
    uint32_t records;
    uint64_t turned_away;
} host;

/* ---- the log: a record for each call, refused ones too */

static uint8_t *next_record(host *h) {
    return h->log + AMBRULICCIU_RECORD * (size_t)h->records++;
}

static int room_for(const host *h, uint32_t records) {
    return h->records + records <= MOST_RECORDS;
}

static void count(host *h, uint8_t answer) {
    h->turned_away += answer != AMBRULICCIU_SERVED;
}

/* ---- events */

static void start(host *h, uint16_t copies, uint16_t threshold, uint64_t timeout, const uint32_t secret[8]) {
    h->copies = copies;
    h->threshold = threshold;
    h->timeout = timeout;
    ambrulicciu_link_fresh(&h->link, copies, secret, threshold, timeout);
    ambrulicciu_quantiles_fresh(&h->round_trips, 0);
}

static void sent(host *h, uint32_t sequence, uint32_t ordinal, uint64_t now) {
    uint64_t tag = 1000 + ordinal;
    uint32_t train = ordinal % 30 < 10 ? 4000 + ordinal / 30 : 0; /* one passes during each ten probes out of thirty */
    h->pending[ordinal % PENDING].sequence = sequence;
    h->pending[ordinal % PENDING].packet.time = now;
    h->pending[ordinal % PENDING].packet.tag = tag;
    h->pending[ordinal % PENDING].waits = 1;
    ambrulicciu_log_write_sent(next_record(h), AMBRULICCIU_RECORD, sequence, ordinal, train, now, tag);
    count(h, ambrulicciu_link_sent(&h->link, sequence, ordinal, train, now, tag));
}

/* The packet of a probe that the host still waits for; it then waits no more. */
static const ambrulicciu_packet *taken(host *h, uint32_t sequence) {
    for (int i = 0; i < PENDING; i++)
        if (h->pending[i].waits && h->pending[i].sequence == sequence) {
            h->pending[i].waits = 0;
            return &h->pending[i].packet;
        }
    return NULL;
}

static void accepted(host *h, const packet *reply, ambrulicciu_accepted *answer) {
    const ambrulicciu_packet *packet = taken(h, reply->sender);
    uint64_t time = packet ? packet->time : 0, tag = packet ? packet->tag : 0;
    memset(answer, 0, sizeof *answer);
    ambrulicciu_log_write_accept(next_record(h), AMBRULICCIU_RECORD, reply->sender, reply->reflector, reply->t3, packet != NULL, time,
                                 tag);
    count(h, ambrulicciu_link_accept(&h->link, reply->sender, reply->reflector, reply->t3, packet, answer));
}

static void observed(host *h, const packet *reply, const ambrulicciu_accepted *answer, int ptp) {
    ambrulicciu_observation told;
    memset(&told, 0, sizeof told);
    told.t3 = reply->t3;
    told.sender = reply->sender;
    told.reflector = reply->reflector;
    told.round_trip = reply->arrives - answer->time;
    told.t4 = wall_clock(reply->arrives);
    told.reference = told.t4 / SECOND;
    told.offset = reply->offset;
    told.s_txc = reply->s_txc;
    told.r_rxc = reply->r_rxc;
    told.r_txc = reply->r_txc;
    told.sender_estimate = told.reflector_estimate = reply->estimate;
    told.follow_up_sequence = reply->follow_up_sequence;
    told.follow_up_timestamp = reply->follow_up_timestamp;
    told.flags = AMBRULICCIU_T4 | AMBRULICCIU_COUNTERS | AMBRULICCIU_ESTIMATES | AMBRULICCIU_FOLLOW_UP | (ptp ? AMBRULICCIU_PTP : 0);
    if (answer->ordinal_known) {
        told.ordinal = (uint32_t)answer->ordinal;
        told.flags |= AMBRULICCIU_ORDINAL;
    }
    ambrulicciu_log_write_observe(next_record(h), AMBRULICCIU_RECORD, &told);
    uint8_t refused = ambrulicciu_link_observe(&h->link, &told);
    uint64_t recorded;
    count(h, refused);
    if (!refused)
        ambrulicciu_quantiles_record(&h->round_trips, h->room, AMBRULICCIU_QUANTILES_ROOM, told.round_trip, &recorded);
}

static void received(host *h, const packet *reply, int ptp) {
    ambrulicciu_accepted answer;
    accepted(h, reply, &answer);
    if (answer.class_ == AMBRULICCIU_UNIQUE)
        observed(h, reply, &answer, ptp);
    if (reply->r_txc % 50 == 0 && room_for(h, 1))
        observed(h, reply, &answer, ptp); /* a mistake: the library refuses it, and no figure shows it */
}

static void timer(host *h, uint64_t now) {
    ambrulicciu_log_write_advance(next_record(h), AMBRULICCIU_RECORD, now);
    count(h, ambrulicciu_link_advance(&h->link, now));
}

static void stop(host *h) {
    ambrulicciu_log_write_idle(next_record(h), AMBRULICCIU_RECORD);
    count(h, ambrulicciu_link_idle(&h->link));
}

/* ---- what is shown */

static int written(const char *name, const uint8_t *bytes, size_t length) {
    FILE *file = fopen(name, "wb");
    if (!file)
        return 0;
    size_t whole = fwrite(bytes, 1, length, file);
    return fclose(file) == 0 && whole == length;
}

static int write_log(host *h, const char *name) {
    uint8_t *trailer = h->log + AMBRULICCIU_RECORD * (size_t)h->records;
    if (ambrulicciu_log_write_trailer(trailer, AMBRULICCIU_TRAILER, h->records, h->copies, h->threshold, h->timeout))
        return 0;
    return written(name, h->log, AMBRULICCIU_RECORD * (size_t)h->records + AMBRULICCIU_TRAILER);
}

static int write_report(const host *h, const char *name) {
    uint8_t text[AMBRULICCIU_TEXT];
    uint64_t length;
    if (ambrulicciu_link_report(&h->link, h->records, h->turned_away, text, &length))
        return 0;
    return written(name, text, (size_t)length);
}

static void print_figures(const host *h) {
    static const double percents[4] = {50, 90, 99, 100};
    ambrulicciu_figures figures;
    uint64_t shown[4], present;
    ambrulicciu_link_snapshot(&h->link, &figures);
    ambrulicciu_quantiles_percentiles(&h->round_trips, h->room, AMBRULICCIU_QUANTILES_ROOM, percents, 4, shown, 4, &present);
    printf("%3u records, %u turned away; loss ", (unsigned)h->records, (unsigned)h->turned_away);
    if (figures.thousandths_known)
        printf("%u of 1,000", (unsigned)figures.thousandths);
    else
        printf("- (nothing was requested)"); /* a silent link has no figure, and must not be read as a perfect one */
    printf(", %u follow-ups matched", (unsigned)figures.follow_up.matched);
    if (figures.follow_up.delay.average_known)
        printf(", average delay %.3f ms", figures.follow_up.delay.average);
    if (figures.follow_up.quality.largest_known)
        printf(", clocks within %.3f ms", figures.follow_up.quality.largest);
    if (present)
        printf("; round trips 50 %% %.1f, 90 %% %.1f, 99 %% %.1f, most %.1f ms", (double)shown[0] / MS, (double)shown[1] / MS,
               (double)shown[2] / MS, (double)shown[3] / MS);
    printf("\n");
}

/* ---- the run */

int main(int argc, char **argv) {
    static host h;
    static network net;
    uint32_t secret[8];
    if (argc != 4) {
        fprintf(stderr, "usage: host SEED LOG REPORT\n");
        return 2;
    }
    uint64_t seed = strtoull(argv[1], NULL, 10);
    network_start(&net, seed);
    for (int i = 0; i < 8; i++)
        secret[i] = (uint32_t)drawn(&seed); /* a real host asks its system for random bytes */
    start(&h, (uint16_t)net.kind.copies, (uint16_t)below(&seed, 4), 100 * MS, secret);

    /* a probe each 20 ms; its sequence may pass 2^32 */
    uint32_t first = below(&seed, 2) ? 0xffffffc0u : 0;
    uint64_t now = 0;
    for (uint32_t ordinal = 1; room_for(&h, 2 * IN_FLIGHT); ordinal++) {
        packet reply;
        now += 20 * MS;
        sent(&h, first + ordinal, ordinal, now);
        network_send(&net, now, first + ordinal, ordinal);
        while (room_for(&h, 3) && network_receive(&net, now, &reply))
            received(&h, &reply, (int)net.kind.ptp);
        timer(&h, now);
        if (below(&seed, 50) == 0)
            stop(&h);
    }
    if (!write_log(&h, argv[2]) || !write_report(&h, argv[3])) {
        fprintf(stderr, "host: a file could not be written\n");
        return 1;
    }
    print_figures(&h);
    return 0;
}
