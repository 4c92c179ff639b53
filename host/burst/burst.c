/*
 * A host that collects replies and hands over up to 256 of them in one call: an example for a host in C.
 *
 *     burst ROUNDS       prints the link's figures
 *
 * The link is simulated: of the replies to 300 probes a round some are lost, some come twice, some a round later, and some answer nothing
 * that was sent; they come in any order. What is printed is also held against a plain count of what the link did.
 */
#define EXAMPLE "burst"
#include "../ambrulicciu.h"
#include "../example.h"

#define PROBES 300
#define ROUND 1000000000u /* ns */

/* A reply on its way, and when it comes. */
typedef struct {
    ambrulicciu_entry entry;
    uint64_t comes;
} reply;

static ambrulicciu_link yard;
static ambrulicciu_entry entries[AMBRULICCIU_ENTRIES];
static uint64_t came[AMBRULICCIU_ENTRIES];
static size_t count;
static uint64_t calls, trips, slowest; /* calls made, round trips that were seen, and the longest of them */

/* ---- the host ---------------------------------------------------------------------------------------------------------------------- */

static uint64_t trip(size_t i, const ambrulicciu_accepted *accepted) { return came[i] - accepted->time; }

/* All that was collected goes over in one call. Each answer stands in its entry's place, and has the probe's send time. */
static void hand_over(void) {
    static ambrulicciu_entry_answer answers[AMBRULICCIU_ENTRIES];
    size_t last = count;
    must(ambrulicciu_link_accept_burst(&yard, entries, count, answers));
    calls++;
    for (size_t i = 0; i < count; i++) {
        must((uint8_t)answers[i].number);
        if (answers[i].accepted.class_ != AMBRULICCIU_UNIQUE)
            continue;
        last = i;
        trips++;
        if (trip(i, &answers[i].accepted) > slowest)
            slowest = trip(i, &answers[i].accepted);
    }
    if (last < count) { /* only the last unique reply of a burst awaits its observation */
        ambrulicciu_observation seen = {.t3 = entries[last].t3, .sender = entries[last].sender, .reflector = entries[last].reflector};
        seen.round_trip = trip(last, &answers[last].accepted);
        must(ambrulicciu_link_observe(&yard, &seen));
    }
    count = 0;
}

static void receive(const reply *r) {
    entries[count] = r->entry;
    came[count++] = r->comes;
    if (count == AMBRULICCIU_ENTRIES)
        hand_over();
}

/* ---- the link ---------------------------------------------------------------------------------------------------------------------- */

static reply flying[3 * PROBES + 2], later[PROBES];
static size_t in_flight, put_off;
static uint64_t unique, duplicate, unknown, late;

static void fly(reply r) { flying[in_flight++] = r; }

/* A probe goes out, and its reply comes back: 20 ms and up to 5 more, while the host still has the packet; or a round later, when it has not. */
static void send(uint32_t sequence, uint64_t now) {
    must(ambrulicciu_link_sent(&yard, sequence, sequence, 0, now, sequence));
    reply r = {{.t3 = now, .sender = sequence, .reflector = sequence, .pending = 1, .time = now, .tag = sequence}, now + 20000000 + drawn() % 5000000};
    uint64_t fate = drawn() % 100;
    if (fate < 4)
        return;
    unique++;
    if (fate < 8) {
        r.entry.pending = 0;
        r.comes += ROUND;
        later[put_off++] = r;
        late++;
        return;
    }
    fly(r);
    if (fate < 16) {
        fly(r);
        duplicate++;
    }
}

static void stray(uint64_t now) {
    reply r = {{.t3 = now, .sender = 4000000000u + (uint32_t)drawn() % 1000}, now};
    fly(r);
    unknown++;
}

static void shuffle(void) {
    for (size_t i = in_flight; i > 1; i--) {
        size_t j = (size_t)drawn() % i;
        reply r = flying[i - 1];
        flying[i - 1] = flying[j];
        flying[j] = r;
    }
}

static void play(uint64_t now, uint32_t first, uint32_t probes) {
    in_flight = 0;
    for (; put_off > 0; put_off--)
        fly(later[put_off - 1]);
    for (uint32_t i = 0; i < probes; i++)
        send(first + i, now + i * 1000);
    for (uint64_t n = drawn() % 3; n > 0; n--)
        stray(now);
    shuffle();
    for (size_t i = 0; i < in_flight; i++)
        receive(&flying[i]);
    if (count > 0) /* the round's timer: what came waits no longer */
        hand_over();
}

int main(int argc, char **argv) {
    const uint32_t secret[8] = {1, 2, 3, 4, 5, 6, 7, 8}; /* a real host asks its system for random bytes */
    uint32_t rounds = argc > 1 ? (uint32_t)atol(argv[1]) : 50;
    ambrulicciu_figures f;
    must(ambrulicciu_link_fresh(&yard, 1, secret, 0, 0)); /* no monitor; with one the same call tells it each unique reply */
    for (uint32_t n = 0; n < rounds; n++)
        play((uint64_t)n * ROUND, n * PROBES, PROBES);
    play((uint64_t)rounds * ROUND, 0, 0); /* what was put off */
    must(ambrulicciu_link_snapshot(&yard, &f));
    printf("requested %llu unobserved %llu", (unsigned long long)f.requested, (unsigned long long)f.unobserved);
    if (f.thousandths_known) /* a link that asked for nothing has no figure of loss */
        printf(" thousandths %llu", (unsigned long long)f.thousandths);
    printf("\n");
    printf("unique %llu duplicate %llu unknown %llu late %llu\n", (unsigned long long)f.unique, (unsigned long long)f.duplicate,
           (unsigned long long)f.unknown, (unsigned long long)f.late);
    printf("calls %llu observed %llu longest round trip %llu ns\n", (unsigned long long)calls, (unsigned long long)f.round_trip.samples,
           (unsigned long long)slowest);
    if (f.requested != (uint64_t)rounds * PROBES || f.unique != unique || f.duplicate != duplicate || f.unknown != unknown || f.late != late ||
        trips != unique || f.unobserved != f.requested - unique) {
        fprintf(stderr, "burst: a plain count of what the link did is another\n");
        return 1;
    }
    return 0;
}
