/*
 * The header's inline calls: each ambrulicciu_link_.. is held against the direct calls that it stands for.
 *
 *     forms LINKS CALLS SEED
 *
 * Two links get the same events, one by the forms and one by the direct calls, written out here a second time. After each event the number
 * returned, the answer and every byte of both links must be the same. An answer lies in memory that holds other bytes on either side, so
 * that a word which a call leaves unwritten differs too. What an answer says is absent must be 0, as the header promises. It fails where an
 * answer that the header speaks of never came.
 */
#include "../ambrulicciu.h"
#include <stdio.h>
#include <stdlib.h>
#include <string.h>

#define ROWS AMBRULICCIU_ROWS

static ambrulicciu_link forms, direct;
static uint64_t seed;

static uint64_t drawn(void) {
    uint64_t z = seed += 0x9e3779b97f4a7c15u;
    z = (z ^ (z >> 30)) * 0xbf58476d1ce4e5b9u;
    z = (z ^ (z >> 27)) * 0x94d049bb133111ebu;
    return z ^ (z >> 31);
}

static uint64_t below(uint64_t bound) {
    return drawn() % bound;
}

/* ---- what was reached */

static const char *const lines[] = {"watched",     "not watched", "sent served",  "sent refused", "unknown",     "duplicate",
                                    "unique",      "ordinal",     "no ordinal",   "pending",      "not pending", "observed",
                                    "out of range", "not awaiting", "answered",   "unanswered",   "burst wait",  "no wait",
                                    "deadline",    "no deadline", "idle",         "active",       "failed",      "no session",
                                    "report",      "matched",     "burst"};
#define LINES (sizeof lines / sizeof *lines)
static uint64_t reached[LINES];

static void reach(const char *line) {
    for (size_t i = 0; i < LINES; i++)
        if (strcmp(lines[i], line) == 0) {
            reached[i]++;
            return;
        }
    fprintf(stderr, "forms: no line '%s'\n", line);
    exit(1);
}

/* ---- the comparison */

static uint64_t compared;

static void unlike(void *one, void *other, size_t size) {
    memset(one, 0xaa, size);
    memset(other, 0x55, size);
}

static void same(const char *call, unsigned one, unsigned other, const void *answer, const void *answer_too, size_t size) {
    const char *what = one != other                           ? "the number returned"
                       : memcmp(&forms, &direct, sizeof forms) ? "the link"
                       : !one && memcmp(answer, answer_too, size) ? "the answer"
                                                               : NULL;
    if (what) {
        fprintf(stderr, "forms: ambrulicciu_link_%s: %s is not that of the direct call (%u and %u)\n", call, what, one, other);
        exit(1);
    }
    compared++;
}

/* ---- what is absent is 0 */

static void absent(const char *what, uint64_t known, uint64_t value) {
    if (known > 1 || (!known && value)) {
        fprintf(stderr, "forms: %s: known is %llu, the value's word %llu\n", what, (unsigned long long)known, (unsigned long long)value);
        exit(1);
    }
}

static uint64_t bits(double value) {
    uint64_t word;
    memcpy(&word, &value, sizeof word);
    return word;
}

static void absent_delays(const char *what, const ambrulicciu_delays *d) {
    absent(what, d->minimum_known, bits(d->minimum));
    absent(what, d->average_known, bits(d->average));
    absent(what, d->maximum_known, bits(d->maximum));
    absent(what, d->samples != 0, d->minimum_known);
}

static void absent_counters(const char *what, const ambrulicciu_counters *c) {
    absent(what, c->known, c->s_txc | c->r_rxc | c->r_txc);
}

static void absent_estimate(const char *what, const ambrulicciu_estimate *e) {
    absent(what, e->seen, e->synchronized | e->ptp | e->scale | e->multiplier | e->error_known | e->received);
    absent(what, e->error_known, bits(e->error));
    absent(what, !e->error_known, e->received);
    absent(what, e->synchronized, 0);
    absent(what, e->ptp, 0);
}

static void absent_figures(const ambrulicciu_figures *f) {
    const ambrulicciu_span *spans[6] = {&f->direct.sent,        &f->direct.received, &f->direct.forward_missing,
                                        &f->direct.transmitted, &f->direct.replies,  &f->direct.reverse_missing};
    absent("last", f->last_known, f->last);
    absent("highest", f->highest_known, f->highest);
    absent_delays("round_trip", &f->round_trip);
    absent_delays("follow_up.delay", &f->follow_up.delay);
    absent("direct.exceeded", f->direct.exceeded, 0);
    absent_counters("direct.anchor", &f->direct.anchor);
    absent_counters("direct.latest", &f->direct.latest);
    for (int i = 0; i < 6; i++)
        absent("a span of direct", spans[i]->known, spans[i]->packets);
    absent_estimate("quality.sender", &f->follow_up.quality.sender);
    absent_estimate("quality.reflector", &f->follow_up.quality.reflector);
    absent("quality.largest", f->follow_up.quality.largest_known, bits(f->follow_up.quality.largest));
}

/* ---- events. The last reply and what became of it are kept for the observation. */

static int watched;
static uint32_t sequence, reflector;
static uint64_t now, t3;

static void fresh(void) {
    uint32_t secret[8];
    uint16_t copies = (uint16_t)below(4), threshold = (uint16_t)below(4);
    uint64_t timeout = below(4) ? 50 + below(50) : 0;
    int byte = (int)below(256);
    for (int i = 0; i < 8; i++)
        secret[i] = (uint32_t)drawn();
    memset(&forms, byte, sizeof forms);
    memset(&direct, byte, sizeof direct);
    watched = threshold != 0;
    reach(watched ? "watched" : "not watched");
    uint8_t one = ambrulicciu_link_fresh(&forms, copies, secret, threshold, timeout), other = 0;
    direct.watched = (uint64_t)watched;
    if (watched)
        other = ambrulicciu_monitor_fresh(&direct.monitor, threshold, timeout);
    other |= ambrulicciu_ledger_fresh(&direct.ledger, copies, secret);
    same("fresh", one, other, "", "", 0);
    sequence = reflector = 0;
    t3 = 0;
    now = 1000;
}

static void send(void) {
    uint32_t ordinal = (uint32_t)drawn(), train = below(3) ? (uint32_t)drawn() : 0, which = below(8) ? ++sequence : (uint32_t)below(20);
    uint64_t time = below(30) ? now : ~(uint64_t)0 - below(60), tag = drawn();
    uint8_t one = ambrulicciu_link_sent(&forms, which, ordinal, train, time, tag);
    uint8_t other = watched ? ambrulicciu_watched_sent(&direct.ledger, &direct.monitor, direct.probes, ROWS, direct.links, ROWS,
                                                       direct.queue, ROWS, which, ordinal, train, time, tag)
                            : ambrulicciu_sent(&direct.ledger, direct.probes, ROWS, direct.links, ROWS, which, ordinal, train, time, tag);
    reach(one ? "sent refused" : "sent served");
    same("sent", one, other, "", "", 0);
}

static void observe(void) {
    static const uint32_t all = AMBRULICCIU_T4 | AMBRULICCIU_ORDINAL | AMBRULICCIU_COUNTERS | AMBRULICCIU_FOLLOW_UP |
                                AMBRULICCIU_ESTIMATES;
    ambrulicciu_observation o;
    memset(&o, 0, sizeof o);
    o.t3 = t3;
    o.round_trip = below(1000);
    o.t4 = below(20) ? (int64_t)(5000000000 + below(1000)) : 5000000000000000000;
    o.reference = (int64_t)below(9) - 4;
    o.follow_up_timestamp = below(6) ? drawn() | 1 : 0;
    o.sender = sequence;
    o.reflector = reflector;
    o.ordinal = o.s_txc = (uint32_t)below(50);
    o.r_rxc = o.r_txc = (uint32_t)below(60);
    o.follow_up_sequence = reflector - (uint32_t)below(3);
    o.offset = (int32_t)below(5) - 2;
    o.sender_estimate = (uint16_t)drawn();
    o.reflector_estimate = (uint16_t)drawn();
    o.flags = below(4) ? all : below(4) ? (uint32_t)drawn() & 255 : 0;
    if (below(2))
        o.flags |= AMBRULICCIU_PTP;
    if (below(4) == 0)
        o.flags |= AMBRULICCIU_UNKNOWN_MODE;
    uint8_t one = ambrulicciu_link_observe(&forms, &o);
    uint8_t other = ambrulicciu_observe(&direct.ledger, direct.keys, ROWS, direct.slots, ROWS, direct.offsets, ROWS, direct.links, ROWS, &o);
    reach(one == AMBRULICCIU_OUT_OF_RANGE ? "out of range" : one == AMBRULICCIU_NOT_AWAITING ? "not awaiting" : "observed");
    same("observe", one, other, "", "", 0);
}

static void accept(void) {
    ambrulicciu_packet packet;
    ambrulicciu_accepted answer, too;
    int pending = below(3) != 0;
    uint32_t sender = below(10) ? sequence : (uint32_t)(500000 + below(3));
    packet.time = drawn();
    packet.tag = drawn();
    if (below(5))
        t3 = drawn();
    if (below(3))
        reflector = below(2) ? sequence : reflector + 1;
    unlike(&answer, &too, sizeof answer);
    reach(pending ? "pending" : "not pending");
    uint8_t one = ambrulicciu_link_accept(&forms, sender, reflector, t3, pending ? &packet : NULL, &answer);
    uint64_t time = pending ? packet.time : 0, tag = pending ? packet.tag : 0;
    uint8_t other = watched ? ambrulicciu_watched_accept(&direct.ledger, &direct.monitor, direct.keys, ROWS, direct.slots, ROWS,
                                                         direct.probes, ROWS, direct.links, ROWS, direct.queue, ROWS, sender,
                                                         reflector, t3, (uint32_t)pending, time, tag, &too)
                            : ambrulicciu_accept(&direct.ledger, direct.keys, ROWS, direct.slots, ROWS, direct.probes, ROWS,
                                                 direct.links, ROWS, sender, reflector, t3, (uint32_t)pending, time, tag, &too);
    same("accept", one, other, &answer, &too, sizeof answer);
    absent("accept", answer.class_ == AMBRULICCIU_UNIQUE, answer.time | answer.tag | answer.ordinal_known | answer.train);
    absent("accept", answer.ordinal_known, answer.ordinal);
    absent("accept", answer.ordinal_known, answer.train);
    reach(answer.class_ == AMBRULICCIU_UNKNOWN ? "unknown" : answer.class_ == AMBRULICCIU_DUPLICATE ? "duplicate" : "unique");
    if (answer.class_ == AMBRULICCIU_UNIQUE) {
        reach(answer.ordinal_known ? "ordinal" : "no ordinal");
        if (sender == sequence)
            observe();
    } else if (below(10) == 0) {
        observe();
    }
}

/* Up to five replies in one call; the last unique one may then be observed. */
static void burst(void) {
    ambrulicciu_entry entries[5];
    ambrulicciu_entry_answer answers[5], too[5];
    size_t count = (size_t)below(6);
    uint32_t kept = sequence;
    memset(entries, 0, sizeof entries);
    for (size_t i = 0; i < count; i++) {
        entries[i].t3 = below(5) ? drawn() : t3;
        entries[i].sender = below(10) ? sequence - (uint32_t)below(3) : (uint32_t)(500000 + below(3));
        entries[i].reflector = reflector + (uint32_t)below(2);
        entries[i].pending = below(3);
        entries[i].time = drawn();
        entries[i].tag = drawn();
    }
    unlike(answers, too, sizeof answers);
    uint8_t one = ambrulicciu_link_accept_burst(&forms, entries, count, answers);
    uint8_t other = watched ? ambrulicciu_watched_accept_burst(&direct.ledger, &direct.monitor, direct.keys, ROWS, direct.slots, ROWS,
                                                               direct.probes, ROWS, direct.links, ROWS, direct.queue, ROWS, entries,
                                                               count, too, count)
                            : ambrulicciu_accept_burst(&direct.ledger, direct.keys, ROWS, direct.slots, ROWS, direct.probes, ROWS,
                                                       direct.links, ROWS, entries, count, too, count);
    same("accept_burst", one, other, answers, too, count * sizeof *answers);
    reach("burst");
    for (size_t i = 0; i < count; i++)
        if (answers[i].accepted.class_ == AMBRULICCIU_UNIQUE) {
            sequence = entries[i].sender;
            reflector = entries[i].reflector;
            t3 = entries[i].t3;
        }
    if (count && answers[count - 1].accepted.class_ == AMBRULICCIU_UNIQUE)
        observe();
    sequence = kept;
}

static void advance(void) {
    now += below(60);
    same("advance", ambrulicciu_link_advance(&forms, now),
         watched ? ambrulicciu_monitor_advance(&direct.monitor, direct.queue, ROWS, now) : 0, "", "", 0);
}

static void stop(void) {
    if (below(10) == 0)
        same("idle", ambrulicciu_link_idle(&forms), watched ? ambrulicciu_monitor_idle(&direct.monitor) : 0, "", "", 0);
}

/* ---- what is shown */

static void numbers(void) {
    uint32_t which = sequence - (uint32_t)below(5);
    uint64_t answer, too;
    unlike(&answer, &too, sizeof answer);
    uint8_t one = ambrulicciu_link_answered(&forms, which, &answer);
    same("answered", one, ambrulicciu_answered(&direct.ledger, direct.probes, ROWS, direct.links, ROWS, which, &too), &answer, &too,
         sizeof answer);
    absent("answered", answer, 0);
    reach(answer ? "answered" : "unanswered");
    unlike(&answer, &too, sizeof answer);
    one = ambrulicciu_link_needs_burst_wait(&forms, &answer);
    same("needs_burst_wait", one, ambrulicciu_needs_burst_wait(&direct.ledger, &too), &answer, &too, sizeof answer);
    absent("needs_burst_wait", answer, 0);
    reach(answer ? "burst wait" : "no wait");
}

static void session(void) {
    ambrulicciu_deadline answer, too;
    ambrulicciu_session shown, shown_too;
    unlike(&answer, &too, sizeof answer);
    unlike(&shown, &shown_too, sizeof shown);
    uint8_t one = ambrulicciu_link_deadline(&forms, &answer), other = 0;
    if (watched)
        other = ambrulicciu_monitor_deadline(&direct.monitor, direct.queue, ROWS, &too);
    else
        memset(&too, 0, sizeof too);
    same("deadline", one, other, &answer, &too, sizeof answer);
    absent("deadline", answer.known, answer.deadline);
    reach(answer.known ? "deadline" : "no deadline");
    one = ambrulicciu_link_session(&forms, &shown);
    other = 0;
    if (watched)
        other = ambrulicciu_monitor_summary(&direct.monitor, &shown_too);
    else
        memset(&shown_too, 0, sizeof shown_too);
    same("session", one, other, &shown, &shown_too, sizeof shown);
    reach(!shown.threshold                         ? "no session"
          : shown.state == AMBRULICCIU_IDLE   ? "idle"
          : shown.state == AMBRULICCIU_ACTIVE ? "active"
                                              : "failed");
}

static void figures(void) {
    static ambrulicciu_figures shown, too;
    static uint8_t text[AMBRULICCIU_TEXT], text_too[AMBRULICCIU_TEXT];
    uint64_t length, length_too, records = drawn(), turned_away = drawn();
    unlike(&shown, &too, sizeof shown);
    same("snapshot", ambrulicciu_link_snapshot(&forms, &shown), ambrulicciu_snapshot(&direct.ledger, &too), &shown, &too, sizeof shown);
    absent_figures(&shown);
    if (shown.follow_up.matched)
        reach("matched");
    unlike(text, text_too, sizeof text);
    unlike(&length, &length_too, sizeof length);
    uint8_t one = ambrulicciu_link_report(&forms, records, turned_away, text, &length);
    uint8_t other = ambrulicciu_report_link(&direct.ledger, &direct.monitor, (uint32_t)watched, records, turned_away, text_too,
                                            AMBRULICCIU_TEXT, &length_too);
    same("report", one, other, &length, &length_too, sizeof length);
    if (length > AMBRULICCIU_TEXT || memcmp(text, text_too, (size_t)length) != 0) {
        fprintf(stderr, "forms: ambrulicciu_link_report: the text is not that of the direct call\n");
        exit(1);
    }
    for (size_t i = (size_t)length; i < AMBRULICCIU_TEXT; i++)
        if (text[i] != 0xaa) {
            fprintf(stderr, "forms: ambrulicciu_link_report: a byte behind the text was written\n");
            exit(1);
        }
    reach("report");
}

/* ---- the header's names of sizes, and of states and classes on a link whose course is known */

static void is(const char *what, uint64_t shown, uint64_t named) {
    if (shown != named) {
        fprintf(stderr, "forms: %s is %llu, and the header's name for it %llu\n", what, (unsigned long long)shown, (unsigned long long)named);
        exit(1);
    }
}

static void named(void) {
    static const uint32_t secret[8] = {1, 2, 3, 4, 5, 6, 7, 8};
    ambrulicciu_session session;
    ambrulicciu_accepted answer;
    ambrulicciu_link_fresh(&forms, 1, secret, 1, 10);
    ambrulicciu_link_session(&forms, &session);
    is("the state of a fresh link", session.state, AMBRULICCIU_IDLE);
    ambrulicciu_link_sent(&forms, 1, 1, 0, 100, 0);
    ambrulicciu_link_accept(&forms, 2, 1, 5, NULL, &answer);
    is("the class of a reply to nothing", answer.class_, AMBRULICCIU_UNKNOWN);
    ambrulicciu_link_accept(&forms, 1, 1, 5, NULL, &answer);
    is("the class of a first reply", answer.class_, AMBRULICCIU_UNIQUE);
    ambrulicciu_link_session(&forms, &session);
    is("the state after a reply", session.state, AMBRULICCIU_ACTIVE);
    ambrulicciu_link_accept(&forms, 1, 1, 5, NULL, &answer);
    is("the class of the same reply again", answer.class_, AMBRULICCIU_DUPLICATE);
    ambrulicciu_link_sent(&forms, 2, 2, 0, 200, 0);
    ambrulicciu_link_advance(&forms, 210);
    ambrulicciu_link_session(&forms, &session);
    is("the state after as many losses as the threshold", session.state, AMBRULICCIU_FAILED);
}

/* What has the size that the header names is served. */
static void sized(void) {
    static uint64_t room[AMBRULICCIU_QUANTILES_ROOM], signed_room[AMBRULICCIU_QUANTILES_SIGNED_ROOM];
    static uint8_t bytes[AMBRULICCIU_LOG];
    ambrulicciu_quantiles quantiles;
    uint64_t recorded;
    ambrulicciu_quantiles_fresh(&quantiles, 0);
    is("the answer to an unsigned room", ambrulicciu_quantiles_record(&quantiles, room, AMBRULICCIU_QUANTILES_ROOM, 1, &recorded), 0);
    ambrulicciu_quantiles_fresh(&quantiles, 1);
    is("the answer to a signed room",
       ambrulicciu_quantiles_record(&quantiles, signed_room, AMBRULICCIU_QUANTILES_SIGNED_ROOM, 1, &recorded), 0);
    is("the answer to a record", ambrulicciu_log_write_idle(bytes, AMBRULICCIU_RECORD), 0);
    is("the answer to a trailer", ambrulicciu_log_write_trailer(bytes, AMBRULICCIU_TRAILER, 1, 1, 1, 1), 0);
}

int main(int argc, char **argv) {
    static void (*const events[])(void) = {send, send, send, accept, accept, accept, burst, advance, stop, numbers, session};
    long links = argc > 1 ? atol(argv[1]) : 60, calls = argc > 2 ? atol(argv[2]) : 400;
    uint32_t version = 0;
    seed = argc > 3 ? strtoull(argv[3], NULL, 10) : 1;
    if (ambrulicciu_version(&version) || version != AMBRULICCIU_VERSION) {
        fprintf(stderr, "forms: the header is of version %u, the library of %u\n", (unsigned)AMBRULICCIU_VERSION, (unsigned)version);
        return 1;
    }
    named();
    sized();
    for (long link = 0; link < links; link++) {
        fresh();
        for (long call = 0; call < calls; call++) {
            events[below(sizeof events / sizeof *events)]();
            if (call % 8 == 0)
                figures();
        }
    }
    for (size_t i = 0; i < LINES; i++)
        if (!reached[i]) {
            fprintf(stderr, "forms: never reached: %s\n", lines[i]);
            return 1;
        }
    printf("forms: %llu calls by the header's inline forms: numbers, answers and every byte of the links are those of the direct calls\n",
           (unsigned long long)compared);
    return 0;
}
