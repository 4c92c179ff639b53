/*
 * Ambrulicciu: the measurement core of a STAMP sender (RFC 8762, RFC 8972), as a static library. C99 and C++.
 *
 * It keeps the books of one link: which probes were sent, which replies came, were duplicates or unknown, what is still missing, the
 * round trips, the direct and follow-up measurements, whether the link is active or failed. The host sends and receives packets, reads
 * its clock, and makes a call for each event. Link with libambrulicciu.a, which `host/library` makes; of other code it needs memcpy,
 * memmove, memset and memcmp at most. It is for little-endian machines of 64 bits (x86-64, aarch64).
 *
 * WHAT IS PROMISED
 *   Each call is proved to end, to touch no memory but what it is lent, and to do what is said here, whatever the numbers are and
 *   whatever bytes the lent memory holds. Nothing has to be checked before a call. A call that cannot be served returns a number above
 *   0, and then NOTHING was changed: no count, no state, no byte of any lent memory, answers included.
 *
 * WHAT THE HOST SEES TO
 *   - A pointer points to as much memory as its type or its length says, aligned as C aligns that type, and is never null.
 *   - The memory lent to one call does not overlap, except where a call only reads it.
 *   - Each call on a link is given what the call before left: the state and all its rooms.
 *   - The stack has room: 1 KB for a call, and as much as is said at it where it takes more (`Stack:`). Proofs do not speak of it:
 *     host/stack measures each call of the compiled library, on x86-64. A program that binds functions of the C library only when they
 *     are first called (the linker's -z lazy) needs 1 to 3 KB more at that call.
 *   - There is no allocation and no global state. One link belongs to one thread at a time; different links share nothing.
 *
 * WHAT A LINK COSTS, in bytes
 *       ledger      640    its state
 *       monitor      96    the session's state, if the link is watched
 *       keys     65,536    the last 4,096 accepted replies
 *       slots    98,304    what was observed of each, for follow-ups
 *       probes  131,072    the last 4,096 probes
 *       offsets  16,384    transmit offsets seen since the anchor
 *       links    65,536    how the tables are searched: shared by keys, probes and offsets
 *       queue    98,304    the monitor's probes that await a reply, if the link is watched
 *     together  475,872    (377,472 without a monitor); ambrulicciu_link below has them all, and a word
 *   A series of quantiles: state 32, room 92,624 (signed: 150,432). A report: a buffer of 1,024. A log: at most 65,536.
 *   A second count of a log: marks 682, fronts 2,728.
 *   A summary of bit errors, one for each direction: 64.
 *   A series of round trips with its spread: state 96, room 92,624. One-way delays in both directions: state 96, slice 300,864.
 *   A room may hold anything when a link is made fresh: it need not be cleared.
 *
 * A HOST IN SHORT (host/c has a whole one)
 *       static ambrulicciu_link yard;
 *       ambrulicciu_link_fresh(&yard, 1, secret, 3, 2000000000u);            copies 1, failed at 3 losses, timeout 2 s
 *       ambrulicciu_link_sent(&yard, sequence, ordinal, train, now, tag);    after each probe; train 0: none
 *       ambrulicciu_link_accept(&yard, sender, reflector, t3, &packet, &accepted);
 *       if (accepted.class_ == AMBRULICCIU_UNIQUE)                           each unique reply is observed once
 *           ambrulicciu_link_observe(&yard, &observation);
 *       ambrulicciu_link_accept_burst(&yard, entries, count, answers);       or up to 256 replies at once; only the last unique one is observed
 *       ambrulicciu_link_advance(&yard, now);                                on a timer: probes past their deadline are losses
 *       ambrulicciu_link_snapshot(&yard, &figures);                          at any time
 */
#ifndef AMBRULICCIU_H
#define AMBRULICCIU_H

#include <stddef.h>
#include <stdint.h>

#ifdef __cplusplus
extern "C" {
#endif

/* ---- refusals ----------------------------------------------------------------------------------------------------------------------
 * What a call returns. If several hold at once, it is the first in this order. A call returns no number that is not named at it. */
#define AMBRULICCIU_SERVED 0
#define AMBRULICCIU_WRONG_ROOM 5      /* Refusal::WrongRoom: a lent room of the wrong size, or a state whose bounds do not hold: those that the
                                         sections below name, and no others */
#define AMBRULICCIU_OUT_OF_RANGE 1    /* Refusal::OutOfRange: a scale above 63; T4 outside +-4*10^18 ns; reference outside +-4*10^9 s;
                                         offset outside +-86,400 s */
#define AMBRULICCIU_DEADLINE_PASSES 6 /* Refusal::DeadlinePasses: send time plus timeout above 2^64-1 */
#define AMBRULICCIU_COUNTS_FULL 4     /* Refusal::CountsFull: 4,294,967,295 calls of sent, accept and observe were served; or a count of
                                         the state at 2^63, a sum's magnitude at 2^126, or beyond */
#define AMBRULICCIU_NOT_AWAITING 2    /* Refusal::NotAwaiting: observe of a reply that is not the one accepted last, or was observed */
#define AMBRULICCIU_QUEUE_FULL 3      /* Refusal::QueueFull: 4,096 probes await their reply at the monitor */
/* Of bytes that are to be a log, in this order: */
#define AMBRULICCIU_TOO_LONG 9    /* Refusal::TooLong: more than 65,536 bytes */
#define AMBRULICCIU_BAD_TRAILER 7 /* Refusal::BadTrailer: no trailer of a log at the end */
#define AMBRULICCIU_BAD_RECORD 8  /* Refusal::BadRecord: a record that is none */
/* Of the extension area of a packet, in this order; the first bad item decides: */
#define AMBRULICCIU_PASSES_END 10   /* Refusal::PassesEnd: a header or a value that passes the end */
#define AMBRULICCIU_WRONG_LENGTH 11 /* Refusal::WrongLength: an item of type 5 or 7 with another length than 12 or 16 */
/* Of bit errors, in this order; 12 also of the area's writers: */
#define AMBRULICCIU_TOO_MUCH_PADDING 14 /* Refusal::TooMuchPadding: padding above 65,535 bytes, or a sample above 524,280 bits */
#define AMBRULICCIU_BAD_PATTERN 13      /* Refusal::BadPattern: a pattern's text that is none */
#define AMBRULICCIU_SHORT_ROOM 12       /* Refusal::ShortRoom: a room too short for what is to be written */

/* ---- version -----------------------------------------------------------------------------------------------------------------------
 * Of this header: 1,000,000 times the first part, 1,000 times the second, and the third. */
#define AMBRULICCIU_VERSION 2000 /* host_version::VERSION: 0.2.0 */

/* That of the library: a host that finds another than AMBRULICCIU_VERSION was compiled with another library's header. Refuses nothing. */
uint8_t ambrulicciu_version(uint32_t *version);

/* ---- sizes -------------------------------------------------------------------------------------------------------------------------
 * Any other size is refused with AMBRULICCIU_WRONG_ROOM. */
#define AMBRULICCIU_ROWS 4096                  /* limits::CAPACITY: rows of each room of a link, and of the monitor's queue */
#define AMBRULICCIU_ENTRIES 256                /* host_burst::MOST_ENTRIES: most entries of a burst */
#define AMBRULICCIU_QUANTILES_ROOM 11578       /* words of the room of an unsigned series */
#define AMBRULICCIU_QUANTILES_SIGNED_ROOM 18804 /* words of the room of a signed series */
#define AMBRULICCIU_DIRECTIONS_SLICE 37608      /* words of the slice of both directions: two rooms of a signed series; it may be longer */
#define AMBRULICCIU_PERCENTILES_STACK 4096      /* bytes of stack that ambrulicciu_quantiles_percentiles takes at most, on x86-64 */
#define AMBRULICCIU_RECORD 96                  /* bytes of a record of a log */
#define AMBRULICCIU_TRAILER 24                 /* bytes of the trailer of a log */
#define AMBRULICCIU_LOG 65536                  /* log_whole::MOST_BYTES: most bytes of a log */
#define AMBRULICCIU_TEXT 1024                  /* report::REPORT_ROOM: bytes of the buffer of a report */
#define AMBRULICCIU_RECORDS 682                /* recount::MOST_RECORDS: most records of a log, and numbers of each room of the second count */

/* ---- states and rooms --------------------------------------------------------------------------------------------------------------
 * Their words are the library's own: a host keeps them and hands them over, and reads figures by the calls below. They may be copied,
 * written to a file and read back as bytes, by the same library: their order is no format. Every content is allowed, and a call is
 * defined on each. What is tested of it is said at refusals 5 and 4 of each section, and no more: a ledger of 1,000,000 answered probes
 * and 0 unique replies, which no call leaves, is served, and its figures are what its words say. So a host that reads a state back from
 * a file sees to it that it is the one it wrote. */
typedef struct { uint64_t word[80]; } ambrulicciu_ledger;
typedef struct { uint64_t word[12]; } ambrulicciu_monitor;
typedef struct { uint64_t word[16]; } ambrulicciu_clock_quality;
typedef struct { uint64_t word[4]; } ambrulicciu_quantiles;
typedef struct { uint64_t word[8]; } ambrulicciu_bit_summary;
typedef struct { uint64_t word[12]; } ambrulicciu_directions;
typedef struct { uint64_t word[2]; } ambrulicciu_key;
typedef struct { uint64_t word[3]; } ambrulicciu_slot;
typedef struct { uint64_t word[4]; } ambrulicciu_probe;
typedef struct { uint16_t word[8]; } ambrulicciu_chain;
/* A probe that the monitor waits for. */
typedef struct {
    uint32_t sequence;
    uint64_t deadline; /* ns */
    uint32_t mark;     /* other than 0: a reply with this sequence is waited for */
} ambrulicciu_queued;

/* ---- what is told and shown --------------------------------------------------------------------------------------------------------
 * A field `.._known` or `.._seen` is 1 or 0; at 0 the fields that it speaks of are 0. Flags that the host hands over are 0 for no and
 * anything else for yes. Times are ns unless said otherwise. */

/* What became of a reply. */
#define AMBRULICCIU_UNKNOWN 0   /* no such probe is held, and no packet was pending */
#define AMBRULICCIU_DUPLICATE 1 /* the same sender and reflector number and T3 are among the last 4,096 accepted */
#define AMBRULICCIU_UNIQUE 2    /* counted; it awaits its observation */

typedef struct {
    uint64_t class_;        /* AMBRULICCIU_UNKNOWN, AMBRULICCIU_DUPLICATE, AMBRULICCIU_UNIQUE; of the first two the rest is 0 */
    uint64_t time;          /* the probe's send time */
    uint64_t tag;           /* the probe's tag, untouched */
    uint64_t ordinal_known; /* 0: the probe was not told by sent */
    uint64_t ordinal;
    uint64_t train;         /* the probe's train, as sent was told last; 0: none, or the probe was not told by sent */
} ambrulicciu_accepted;

/* An entry of a burst: a reply's key, with or without its pending packet, as ambrulicciu_accept is told them. */
typedef struct {
    uint64_t t3;
    uint32_t sender;
    uint32_t reflector;
    uint64_t pending; /* other than 0: the host still had the packet, with this send time and tag */
    uint64_t time;
    uint64_t tag;
} ambrulicciu_entry;
/* What became of an entry. */
typedef struct {
    uint64_t number;               /* 0, or the number that ambrulicciu_accept refuses it with; then `accepted` is as it was */
    ambrulicciu_accepted accepted;
} ambrulicciu_entry_answer;

/* Which fields of an observation are there, added up. AMBRULICCIU_UNKNOWN_MODE counts only with AMBRULICCIU_FOLLOW_UP; bit 16 and bits
 * above 255 are ignored. A field that is not there is not looked at. */
#define AMBRULICCIU_T4 1
#define AMBRULICCIU_ORDINAL 2
#define AMBRULICCIU_COUNTERS 4
#define AMBRULICCIU_FOLLOW_UP 8
#define AMBRULICCIU_ESTIMATES 32
#define AMBRULICCIU_PTP 64           /* timestamps of this reply are PTP; otherwise NTP */
#define AMBRULICCIU_UNKNOWN_MODE 128 /* the mode of the follow-up's timestamp is not known */

/* What a unique reply brought. */
typedef struct {
    uint64_t t3;                  /* the key, as accepted: the reflector's timestamp, raw */
    uint64_t round_trip;          /* ns */
    int64_t t4;                   /* arrival, ns since 1970 */
    int64_t reference;            /* seconds since 1970; always looked at */
    uint32_t reserved[2];         /* not looked at */
    uint64_t follow_up_timestamp; /* raw, as it came: observe converts it */
    uint32_t sender;              /* the key, as accepted: the sender's number */
    uint32_t reflector;           /* the key, as accepted: the reflector's number */
    uint32_t ordinal;             /* of the probe, as ambrulicciu_accept answers it */
    uint32_t s_txc;               /* counters of the Direct Measurement TLV: sender's transmit */
    uint32_t r_rxc;               /* reflector's receive */
    uint32_t r_txc;               /* reflector's transmit */
    uint32_t follow_up_sequence;  /* the reflector number that the follow-up is about */
    int32_t offset;               /* the reflector's offset from UTC, seconds; always looked at */
    uint16_t sender_estimate;     /* error estimates, 16 bits as on the wire */
    uint16_t reflector_estimate;
    uint32_t flags; /* AMBRULICCIU_T4 .. AMBRULICCIU_UNKNOWN_MODE */
    uint32_t unused[2];
} ambrulicciu_observation;

/* A series of delays, in ms. */
typedef struct {
    uint64_t samples;
    uint64_t minimum_known;
    double minimum;
    uint64_t average_known;
    double average;
    uint64_t maximum_known;
    double maximum;
} ambrulicciu_delays;

/* The three counters of one packet. */
typedef struct {
    uint64_t known;
    uint64_t s_txc;
    uint64_t r_rxc;
    uint64_t r_txc;
} ambrulicciu_counters;

/* A number of packets. */
typedef struct {
    uint64_t known;
    uint64_t packets;
} ambrulicciu_span;

/* Direct loss, since the anchor. */
typedef struct {
    uint64_t observations;
    uint64_t unavailable;
    uint64_t discontinuities;
    uint64_t reordered;
    uint64_t exceeded; /* 1: 4,096 offsets were seen at some time, and the anchor was given up */
    ambrulicciu_counters anchor;
    ambrulicciu_counters latest;
    ambrulicciu_span sent;
    ambrulicciu_span received;
    ambrulicciu_span forward_missing;
    ambrulicciu_span transmitted;
    ambrulicciu_span replies;
    ambrulicciu_span reverse_missing;
} ambrulicciu_direct;

/* The last error estimate of one end. */
typedef struct {
    uint64_t seen;
    uint64_t synchronized;
    uint64_t ptp;
    uint64_t scale;
    uint64_t multiplier;
    uint64_t error_known; /* 0: the estimate is invalid: the multiplier is 0, which is no error of zero (RFC 4656) */
    double error;         /* ms */
    uint64_t received;    /* of an invalid estimate the 16 bits as received */
} ambrulicciu_estimate;

/* Declared clock quality: samples = both + unsynchronized + invalid + unknown, and invalid = invalid_sender + invalid_reflector +
 * invalid_both. */
typedef struct {
    uint64_t samples;
    uint64_t both;
    uint64_t unsynchronized;
    uint64_t invalid;
    uint64_t unknown;
    uint64_t invalid_sender;    /* invalid at the sender alone */
    uint64_t invalid_reflector; /* at the reflector alone */
    uint64_t invalid_both;      /* at both */
    ambrulicciu_estimate sender;
    ambrulicciu_estimate reflector;
    uint64_t largest_known;
    double largest; /* largest sum of both ends' errors, ms */
} ambrulicciu_quality;

/* Follow-ups: observations = matched + repeated + unmatched + ambiguous + unavailable. */
typedef struct {
    uint64_t observations;
    uint64_t matched;
    uint64_t repeated;
    uint64_t unmatched;
    uint64_t ambiguous;
    uint64_t unavailable;
    ambrulicciu_delays delay;
    ambrulicciu_quality quality;
} ambrulicciu_follow_ups;

/* Every figure of a link. */
typedef struct {
    uint64_t requested; /* replies asked for: copies of each probe sent */
    uint64_t unique;    /* = answered + additional */
    uint64_t duplicate;
    uint64_t unknown;
    uint64_t answered;   /* probes with a reply */
    uint64_t additional; /* further replies of such probes */
    uint64_t late;       /* first replies with no packet pending */
    uint64_t satisfied;
    uint64_t last_known;
    uint64_t last; /* reflector number of the last unique reply */
    uint64_t highest_known;
    uint64_t highest; /* the highest of them, modulo 2^32 */
    uint64_t reordered;
    uint64_t independent; /* unique replies whose reflector number is not the sender's */
    uint64_t probes_evicted;
    uint64_t replies_evicted;
    uint64_t unobserved;        /* requested less satisfied, not below 0 */
    uint64_t thousandths_known; /* 0 when nothing was requested: then there is no figure, which is not a loss of 0 */
    uint64_t thousandths;       /* 1,000 * unobserved / requested, rounded down */
    ambrulicciu_delays round_trip;
    ambrulicciu_direct direct;
    ambrulicciu_follow_ups follow_up;
    uint64_t evicted_unanswered; /* of the evicted probes, those that had no reply; a probe sent again is not evicted */
} ambrulicciu_figures;

/* The session's states. */
#define AMBRULICCIU_IDLE 0
#define AMBRULICCIU_ACTIVE 1
#define AMBRULICCIU_FAILED 2

typedef struct {
    uint64_t state; /* AMBRULICCIU_IDLE, AMBRULICCIU_ACTIVE, AMBRULICCIU_FAILED */
    uint64_t threshold;
    uint64_t consecutive_losses;
    uint64_t active_notifications; /* how often the state became active; a host that notifies compares it with what it saw last */
    uint64_t failed_notifications;
    uint64_t idle_notifications;
} ambrulicciu_session;

typedef struct {
    uint64_t known;
    uint64_t deadline;
} ambrulicciu_deadline;

/* ---- the ledger --------------------------------------------------------------------------------------------------------------------
 * Refusal 5 of a ledger's call: a room that it is lent has not 4,096 rows; or, in the state, a ring's head is above 4,095, a ring's
 * length or the number of seen offsets above 4,096. Refusal 4 is about the state before the call. */

/* Makes a ledger fresh: counts 0, nothing held. `copies` replies are asked for each probe; 0 counts as 1. `secret`: random words, kept
 * from whoever sends replies, and other ones each time: they decide where entries are searched, never an answer. With the words of before,
 * over rooms that were used with them, each of the first 4,096 probes can take some us. Rooms may hold anything. Refuses nothing. */
uint8_t ambrulicciu_ledger_fresh(ambrulicciu_ledger *ledger, uint16_t copies, const uint32_t secret[8]);

/* A probe was sent: adds copies to requested, and holds the probe. A sequence that is held already becomes the newest, unanswered, with
 * the new ordinal, train, time and tag. `train` comes back with the answer of accept; 0: no train. Refuses 5, 4. */
uint8_t ambrulicciu_sent(ambrulicciu_ledger *ledger, ambrulicciu_probe *probes, size_t probes_length, ambrulicciu_chain *links,
                         size_t links_length, uint32_t sequence, uint32_t ordinal, uint32_t train, uint64_t time, uint64_t tag);

/* A reply came, with the three parts of its key. `pending` other than 0: the host still had the probe's packet, with this send time and
 * tag. Each reply is counted as unique, duplicate or unknown, all of which are served calls. Refuses 5, 4. */
uint8_t ambrulicciu_accept(ambrulicciu_ledger *ledger, ambrulicciu_key *keys, size_t keys_length, ambrulicciu_slot *slots,
                           size_t slots_length, ambrulicciu_probe *probes, size_t probes_length, ambrulicciu_chain *links,
                           size_t links_length, uint32_t sender, uint32_t reflector, uint64_t t3, uint32_t pending, uint64_t time,
                           uint64_t tag, ambrulicciu_accepted *answer);

/* A burst of replies, at most AMBRULICCIU_ENTRIES: ambrulicciu_accept for each entry in list order, with its answer in the row of the same
 * place. An entry that is refused has its number in its row, and the rest go on: the call returns 0. Only the last unique one awaits its
 * observation, as after single calls. Refuses 5: the whole list, before any entry is served, where `answers` has another length than
 * `entries` or there are more than AMBRULICCIU_ENTRIES. */
uint8_t ambrulicciu_accept_burst(ambrulicciu_ledger *ledger, ambrulicciu_key *keys, size_t keys_length, ambrulicciu_slot *slots,
                                 size_t slots_length, ambrulicciu_probe *probes, size_t probes_length, ambrulicciu_chain *links,
                                 size_t links_length, const ambrulicciu_entry *entries, size_t entries_length,
                                 ambrulicciu_entry_answer *answers, size_t answers_length);

/* What the unique reply that was accepted last brought: round trip, counters, follow-up, estimates. Once for each. Refuses 5, 1, 4, 2.
 * A follow-up's timestamp is converted by the format of the reply that it is about. Of all eras of 2^32 s it is in the one whose second
 * lies from r - 2^31 up to but not including r + 2^31, with r the reference of that reply plus the offset of this observation. A PTP
 * timestamp whose ns field is 10^9 or more, and a time outside +-4*10^18 ns, make the follow-up unavailable: that reply can still be
 * corrected by a later one. */
uint8_t ambrulicciu_observe(ambrulicciu_ledger *ledger, const ambrulicciu_key *keys, size_t keys_length, ambrulicciu_slot *slots,
                            size_t slots_length, uint32_t *offsets, size_t offsets_length, ambrulicciu_chain *links,
                            size_t links_length, const ambrulicciu_observation *observation);

/* Whether a held probe has a reply: 1, else 0. Changes only the answer. Refuses 5. */
uint8_t ambrulicciu_answered(const ambrulicciu_ledger *ledger, const ambrulicciu_probe *probes, size_t probes_length,
                             const ambrulicciu_chain *links, size_t links_length, uint32_t sequence, uint64_t *answer);

/* Whether more than one copy is asked for and fewer replies came than were: 1, else 0. Changes only the answer. Refuses 5. */
uint8_t ambrulicciu_needs_burst_wait(const ambrulicciu_ledger *ledger, uint64_t *answer);

/* Every figure. Changes only `shown`. Refuses nothing, and needs no room. */
uint8_t ambrulicciu_snapshot(const ambrulicciu_ledger *ledger, ambrulicciu_figures *shown);

/* ---- the ledger with a monitor -----------------------------------------------------------------------------------------------------
 * One call for both: either both parts change, or none. */

/* ambrulicciu_sent and ambrulicciu_monitor_sent at the same time. Refuses 5, 6, 4, 3, for either part. */
uint8_t ambrulicciu_watched_sent(ambrulicciu_ledger *ledger, ambrulicciu_monitor *monitor, ambrulicciu_probe *probes,
                                 size_t probes_length, ambrulicciu_chain *links, size_t links_length, ambrulicciu_queued *queue,
                                 size_t queue_length, uint32_t sequence, uint32_t ordinal, uint32_t train, uint64_t time,
                                 uint64_t tag);

/* ambrulicciu_accept, and ambrulicciu_monitor_reply if the reply is unique. Refuses 5, 4, for either part. */
uint8_t ambrulicciu_watched_accept(ambrulicciu_ledger *ledger, ambrulicciu_monitor *monitor, ambrulicciu_key *keys, size_t keys_length,
                                   ambrulicciu_slot *slots, size_t slots_length, ambrulicciu_probe *probes, size_t probes_length,
                                   ambrulicciu_chain *links, size_t links_length, ambrulicciu_queued *queue, size_t queue_length,
                                   uint32_t sender, uint32_t reflector, uint64_t t3, uint32_t pending, uint64_t time, uint64_t tag,
                                   ambrulicciu_accepted *answer);

/* ambrulicciu_accept_burst with ambrulicciu_watched_accept for each entry: each unique reply goes to the monitor. What either part
 * refuses of an entry is in its row. Refuses 5: the whole list, where ambrulicciu_accept_burst does. */
uint8_t ambrulicciu_watched_accept_burst(ambrulicciu_ledger *ledger, ambrulicciu_monitor *monitor, ambrulicciu_key *keys,
                                         size_t keys_length, ambrulicciu_slot *slots, size_t slots_length, ambrulicciu_probe *probes,
                                         size_t probes_length, ambrulicciu_chain *links, size_t links_length,
                                         ambrulicciu_queued *queue, size_t queue_length, const ambrulicciu_entry *entries,
                                         size_t entries_length, ambrulicciu_entry_answer *answers, size_t answers_length);

/* ---- the monitor -------------------------------------------------------------------------------------------------------------------
 * Refusal 5 of a monitor's call: the queue has not 4,096 rows, or the ring in the state is out of bounds. */

/* Makes a monitor fresh: idle. `threshold` losses in a row mean failed; 0 counts as 1. `timeout` in ns; 0: no probe is ever lost.
 * The queue may hold anything. Refuses nothing. */
uint8_t ambrulicciu_monitor_fresh(ambrulicciu_monitor *monitor, uint16_t threshold, uint64_t timeout);

/* A probe was sent: its deadline is time plus timeout. Refuses 5, 6, 4, 3. */
uint8_t ambrulicciu_monitor_sent(ambrulicciu_monitor *monitor, ambrulicciu_queued *queue, size_t queue_length, uint32_t sequence,
                                 uint64_t time);

/* A reply came: no losses in a row any more, and the state is active. Refuses 5, 4. */
uint8_t ambrulicciu_monitor_reply(ambrulicciu_monitor *monitor, ambrulicciu_queued *queue, size_t queue_length, uint32_t sequence);

/* The clock is at `time`: each probe at the front whose deadline is at or before it is a loss, and at the threshold the state is failed.
 * Refuses 5, 4. */
uint8_t ambrulicciu_monitor_advance(ambrulicciu_monitor *monitor, ambrulicciu_queued *queue, size_t queue_length, uint64_t time);

/* The session stops: nothing is queued any more. A host calls it when it ends a session. Refuses 5, 4. */
uint8_t ambrulicciu_monitor_idle(ambrulicciu_monitor *monitor);

/* The deadline of the front probe, when advance has something to do. Changes only the answer. Refuses 5. */
uint8_t ambrulicciu_monitor_deadline(const ambrulicciu_monitor *monitor, const ambrulicciu_queued *queue, size_t queue_length,
                                     ambrulicciu_deadline *answer);

/* State, losses in a row, notifications. Changes only `shown`. Refuses 5. */
uint8_t ambrulicciu_monitor_summary(const ambrulicciu_monitor *monitor, ambrulicciu_session *shown);

/* ---- error estimates (RFC 8762, 4.2.1; RFC 4656, 4.1.2) ----------------------------------------------------------------------------
 * An estimate is the 16 bits of the wire. Its error is multiplier * 2^(scale-32) seconds, exactly. */

/* Makes an estimate. Refuses 1: a scale above 63. */
uint8_t ambrulicciu_estimate_new(uint32_t synchronized, uint32_t ptp, uint8_t scale, uint8_t multiplier, uint16_t *wire);

/* The estimate of a clock that is not synchronized: the smallest error that is not invalid. Refuses nothing. */
uint8_t ambrulicciu_estimate_unsynchronized(uint32_t ptp, uint16_t *wire);

/* What 16 bits say. Refuses nothing. */
typedef struct {
    uint64_t synchronized;
    uint64_t ptp;
    uint64_t scale;
    uint64_t multiplier;
} ambrulicciu_parts;
uint8_t ambrulicciu_estimate_parts(uint16_t wire, ambrulicciu_parts *parts);

/* The error in seconds. Refuses nothing. */
uint8_t ambrulicciu_estimate_seconds(uint16_t wire, double *seconds);

/* The reading of an estimate: known is 1, with the error in ms; or 0 at multiplier 0, which has no error, with the 16 bits as received.
 * Refuses nothing. */
uint8_t ambrulicciu_estimate_error(uint16_t wire, uint64_t *known, double *milliseconds, uint16_t *received);

/* ---- clock quality of its own ------------------------------------------------------------------------------------------------------
 * The ledger keeps one for matched follow-ups (figures.follow_up.quality); this is for hosts that keep another. */

/* No sample yet. Refuses nothing. */
uint8_t ambrulicciu_clock_quality_fresh(ambrulicciu_clock_quality *quality);

/* One sample: the estimates of both ends; `estimated` 0: there are none. Refuses 4. */
uint8_t ambrulicciu_clock_quality_record(ambrulicciu_clock_quality *quality, uint32_t estimated, uint16_t sender, uint16_t reflector);

/* Changes only `shown`. Refuses nothing. */
uint8_t ambrulicciu_clock_quality_summary(const ambrulicciu_clock_quality *quality, ambrulicciu_quality *shown);

/* ---- quantiles ---------------------------------------------------------------------------------------------------------------------
 * A series of u64 values, or of i64 values as their two's complement words. Up to 4,096 samples percentiles are exact; beyond, a value
 * shown v' of v has v' at most v and 128*(v-v') at most v, and equals v below 256. Of i64 values this holds of the magnitudes, and the sign
 * is the value's: a negative value is shown at or above itself, -257 as -256, and is exact above -256. In either kind the smallest and the
 * largest sample are shown as they are.
 * The room is one range of words: 4,096 samples; from word 4,096 on the buckets, 7,424 (signed: 14,593); behind them, from word 11,520
 * (signed: 18,689) on, the total of each block of 128 buckets, 58 (signed: 115, the last of one bucket). Up to 4,096 samples buckets and
 * totals may hold anything; sample 4,097 builds both. */

/* No sample yet; the room may hold anything. `signed_` other than 0: i64 values. Refuses nothing. */
uint8_t ambrulicciu_quantiles_fresh(ambrulicciu_quantiles *quantiles, uint32_t signed_);

/* One sample: recorded is 1; or 0, and nothing is changed but it, at a count of 2^64-1. The room has AMBRULICCIU_QUANTILES_ROOM words, or
 * AMBRULICCIU_QUANTILES_SIGNED_ROOM. Refuses 5: a room of another size, a minimum above the maximum at a count above 0, a bucket or
 * the total of its block that would pass u64. */
uint8_t ambrulicciu_quantiles_record(ambrulicciu_quantiles *quantiles, uint64_t *room, size_t room_length, uint64_t value,
                                     uint64_t *recorded);

/* The value of each percentile, in the same order; `shown` has as many words as there are percents. present is 0 and `shown` unchanged
 * where there is no sample. A percent that is a NaN or negative counts as 0, one above 100 as 100. Changes only `shown` and `present`.
 * The samples are only read, and not copied: it takes at most AMBRULICCIU_PERCENTILES_STACK bytes of stack.
 * Beyond 4,096 samples it reads the totals and, for each percent, the buckets of the one block that holds its rank.
 * Refuses 5: a room of another size, other lengths of percents and shown, a minimum above the maximum at a count above 0, totals that do
 * not add up to the count, or a block that is read whose buckets do not add up to its total, or that has a value in the bucket that signed
 * series have no value for. One such block refuses all percents. Stack: 4 KB. */
uint8_t ambrulicciu_quantiles_percentiles(const ambrulicciu_quantiles *quantiles, const uint64_t *room, size_t room_length,
                                          const double *percents, size_t percents_length, uint64_t *shown, size_t shown_length,
                                          uint64_t *present);

/* ---- bit errors --------------------------------------------------------------------------------------------------------------------
 * How many bits of a reply's padding were wrong on the way (draft-gandhi-ippm-stamp-ber-07), for a link in either direction. The padding is
 * held against a pattern that is repeated as often as it takes; the first bit of a byte is the highest, and a run of wrong bits goes over
 * the borders of bytes. A host parses the pattern once; for each accepted reply it hands over the reply's items; and it records the sample
 * in two summaries: forward_errors and forward_burst in one, reverse_errors and reverse_burst in the other. */

/* What a reply's items make. */
#define AMBRULICCIU_BITS_UNUSABLE 0    /* no sample: nothing is to be counted */
#define AMBRULICCIU_BITS_UNSUPPORTED 1 /* the reflector does not do this: the host asks it no more */
#define AMBRULICCIU_BITS_SAMPLED 2     /* a sample */

typedef struct {
    uint64_t errors;  /* bits that differ */
    uint64_t longest; /* the longest run of them */
} ambrulicciu_bit_errors_found;

typedef struct {
    uint64_t class_;              /* AMBRULICCIU_BITS_..; only the last has more, and otherwise the other fields stay */
    uint64_t bits;                /* of the padding */
    uint64_t forward_errors;      /* that the reflector counted */
    uint64_t forward_burst_known; /* whether it told the longest run */
    uint64_t forward_burst;
    uint64_t reverse_errors;      /* counted here */
    uint64_t reverse_burst;
} ambrulicciu_bit_sample;

typedef struct {
    uint64_t packets_received;
    uint64_t packets_with_errors;
    uint64_t padding_bits;
    uint64_t bit_errors;
    uint64_t burst_samples;
    uint64_t max_burst_known;
    uint64_t max_burst_bits;
    uint64_t bit_error_ratio_known; /* 0 while no bits were counted */
    double bit_error_ratio;
    uint64_t bit_errors_per_million_known;
    double bit_errors_per_million;
    uint64_t packets_with_errors_per_million_known; /* 0 while no packet was */
    double packets_with_errors_per_million;
    uint64_t average_max_burst_known; /* 0 while no burst was */
    double average_max_burst_bits;
} ambrulicciu_bit_figures;

/* The bytes of a pattern in hexadecimal digits of either case, with or without one leading 0x, to the start of the room; `length` is how
 * many. The rest of the room stays. Refuses 13: empty behind the 0x, an odd number of digits, a character that is none; then 12: a room
 * shorter than the bytes. */
uint8_t ambrulicciu_parse_pattern(const uint8_t *text, size_t text_length, uint8_t *room, size_t room_length, uint64_t *length);

/* The bits of the padding that differ from the pattern, repeated; an empty pattern differs nowhere. Changes only `counts`. Refuses 14:
 * padding above 65,535 bytes. Stack: 2 KB. */
uint8_t ambrulicciu_bit_errors(const uint8_t *padding, size_t padding_length, const uint8_t *pattern, size_t pattern_length,
                               ambrulicciu_bit_errors_found *counts);

/* What a reply's items make, in the packet's order, HMAC too. An item of the extension area (RFC 8972, 4) is one word: its header's four
 * bytes as they stand in the packet (flags, type, two of length), the first highest, then 32 bits of where its value begins in `bytes`. A
 * value reaches as far as the bytes do. `size` is the padding that the host sends, `intact` whether the reply's HMAC verified (or none was
 * due), `wanted` whether it asks for bursts. Changes only `answer`. Refuses 14: a size above 65,535. Stack: 2 KB. */
uint8_t ambrulicciu_bit_observation(const uint64_t *items, size_t items_length, const uint8_t *bytes, size_t bytes_length,
                                    const uint8_t *pattern, size_t pattern_length, size_t size, uint32_t intact, uint32_t wanted,
                                    ambrulicciu_bit_sample *answer);

/* No packet yet. Refuses nothing. */
uint8_t ambrulicciu_bit_summary_fresh(ambrulicciu_bit_summary *summary);

/* One packet more: its bits, the wrong ones, and the longest run of them; `known` 0: that is not known. Refuses 14: more than 524,280 bits;
 * then 4: a count or a sum at 2^63 or beyond. */
uint8_t ambrulicciu_bit_summary_record(ambrulicciu_bit_summary *summary, uint64_t bits, uint32_t errors, uint32_t known, uint32_t burst);

/* Changes only `shown`. Refuses nothing. */
uint8_t ambrulicciu_bit_summary_show(const ambrulicciu_bit_summary *summary, ambrulicciu_bit_figures *shown);

/* ---- the extension area ------------------------------------------------------------------------------------------------------------
 * Of a packet (RFC 8972, section 4): items one after the other, each a flag byte, a type byte, a 16-bit length and the value, big-endian.
 * An item is one word, here as in ambrulicciu_bit_observation: its header's four bytes as they stand in the area, the first highest, then 32
 * bits of where its value begins; the item starts four bytes before. (Of an area of 4 GiB or more these are the low 32 bits.) */
#define AMBRULICCIU_ITEM_FLAGS(word) ((uint8_t)((word) >> 56))
#define AMBRULICCIU_ITEM_TYPE(word) ((uint8_t)((word) >> 48))
#define AMBRULICCIU_ITEM_LENGTH(word) ((uint16_t)((word) >> 32))
#define AMBRULICCIU_ITEM_VALUE(word) ((uint32_t)(word))
#define AMBRULICCIU_ITEM(flags, type, length, value)                                                                                       \
    ((uint64_t)(uint8_t)(flags) << 56 | (uint64_t)(uint8_t)(type) << 48 | (uint64_t)(uint16_t)(length) << 32 | (uint32_t)(value))
#define AMBRULICCIU_DIRECT_MEASUREMENT 5  /* type of an item; its length is 12 */
#define AMBRULICCIU_FOLLOW_UP_TELEMETRY 7 /* its length is 16 */

/* The value of a Direct Measurement item. */
typedef struct {
    uint32_t s_txc;
    uint32_t r_rxc;
    uint32_t r_txc;
} ambrulicciu_direct_value;

/* The value of a Follow-Up Telemetry item. */
typedef struct {
    uint64_t sequence;
    uint64_t timestamp; /* raw */
    uint64_t mode;      /* RFC 8972's method: 1 hardware, 2 software, 3 control plane; any other is unknown */
} ambrulicciu_follow_value;

/* The items of an area, in its order, to the start of `items`, as many as there is place for; `count` is how many there are. No byte is
 * copied; no bytes have no items. Refuses 10: a header or a value that passes the end; then 11: type 5 or 7 with another length. */
uint8_t ambrulicciu_area_read(const uint8_t *bytes, size_t bytes_length, uint64_t *items, size_t items_length, uint64_t *count);

/* The items in a row to the start of `bytes`, with their values out of `values`; `length` is how many bytes they take, and the rest of them
 * stays. The flag byte is written as it is; the reserved bytes of type 7 are written 0. Refuses 10: a value that passes the end of `values`;
 * then 11: type 5 or 7 with another length; then 12: fewer bytes than the items need. */
uint8_t ambrulicciu_area_write(const uint64_t *items, size_t items_length, const uint8_t *values, size_t values_length, uint8_t *bytes,
                               size_t bytes_length, uint64_t *length);

/* The value of an item of type 5. Changes only `counters`. Refuses 11: a length that is not the type's. */
uint8_t ambrulicciu_counters_read(const uint8_t *value, size_t value_length, ambrulicciu_direct_value *counters);

/* The value of an item of type 7; its reserved bytes are skipped. Changes only `follow`. Refuses 11: a length that is not the type's. */
uint8_t ambrulicciu_follow_up_read(const uint8_t *value, size_t value_length, ambrulicciu_follow_value *follow);

/* The value of an item of type 5, to the start of `bytes`. Refuses 12: fewer than 12 bytes. */
uint8_t ambrulicciu_counters_write(uint8_t *bytes, size_t bytes_length, uint32_t sender, uint32_t received, uint32_t transmitted);

/* The value of an item of type 7, to the start of `bytes`, its reserved bytes 0. Refuses 12: fewer than 16 bytes. */
uint8_t ambrulicciu_follow_up_write(uint8_t *bytes, size_t bytes_length, uint32_t sequence, uint64_t timestamp, uint8_t mode);

/* What a reply's area tells ambrulicciu_observe: the counters and the follow-up (flags AMBRULICCIU_COUNTERS, AMBRULICCIU_FOLLOW_UP and
 * AMBRULICCIU_UNKNOWN_MODE, and their fields, 0 where there is none). Everything else of `observation` stays. By RFC 8972, section 4: an item
 * with flag U is skipped, one with flag M ends the reading, and if any has flag I none counts; of two items of one type that count, the first
 * does. A host that verifies an HMAC makes this call only where it did. Refuses 10: a header or a value that passes the end; then 11: type 5 or 7
 * with another length. */
uint8_t ambrulicciu_area_observation(const uint8_t *bytes, size_t bytes_length, ambrulicciu_observation *observation);

/* ---- spread, jitter and both directions --------------------------------------------------------------------------------------------
 * A series of round trips with its quantiles, its sum, the centered Welford steps and the successive differences; and one-way delays, forward
 * (T2 - T1) and reverse (T4 - T3), each with its quantiles and its sum. Percentiles are those of ambrulicciu_quantiles_percentiles, with a
 * state whose words are 0 (one-way delays: 1), count, minimum and maximum, and the room, or the direction's part of the slice. */

/* A series of round trips. Unlike the states above its words have names: a host reads jitter and deviation from them. With no sample, at count
 * 0, the others mean nothing. The mean absolute successive difference in ns, the original's jitter, is the two words of jitter_sum divided by
 * jitter_count in whole numbers, rounded down, and absent while jitter_count is 0: with a 128-bit type
 * ((unsigned __int128)jitter_high << 64 | jitter_low) / jitter_count. The population standard deviation in ns is the square root of m2 divided
 * by count, both as double, and of 0 where that is negative; absent below a count of 2: sqrt(fmax(m2 / (double)count, 0)). Each divided by
 * 1,000,000 is in ms. The mean in ns is origin + mean. No claim is made of how accurate mean and m2 are. */
typedef struct {
    uint64_t count;
    uint64_t minimum;
    uint64_t maximum;
    uint64_t sum_high;
    uint64_t sum_low;
    uint64_t origin;       /* the first sample */
    double mean;           /* of the samples less the origin, in ns */
    double m2;             /* the sum of squares around it */
    uint64_t jitter_high;  /* the sum of absolute successive differences */
    uint64_t jitter_low;
    uint64_t jitter_count; /* how many differences */
    uint64_t last;         /* the last sample */
} ambrulicciu_spread;

/* No sample yet; the room may hold anything. Refuses nothing. */
uint8_t ambrulicciu_spread_fresh(ambrulicciu_spread *spread);

/* One sample: recorded is 1; or 0, and nothing is changed but it, at a count of 2^64-1. The room has AMBRULICCIU_QUANTILES_ROOM words.
 * Refuses 5: as ambrulicciu_quantiles_record does; 4: one of the two sums at 2^126, or the count of differences at 2^63, or beyond. Both come
 * before the answer 0. */
uint8_t ambrulicciu_spread_record(ambrulicciu_spread *spread, uint64_t *room, size_t room_length, uint64_t value, uint64_t *recorded);

/* Minimum, average and maximum in ms. Changes only `shown`. Refuses nothing. */
uint8_t ambrulicciu_spread_show(const ambrulicciu_spread *spread, ambrulicciu_delays *shown);

/* No sample yet, in either direction; the slice may hold anything. Refuses nothing. */
uint8_t ambrulicciu_directions_fresh(ambrulicciu_directions *directions);

/* One sample of the forward direction, or of the reverse one where `reverse` is other than 0; `value` is the two's complement word of an i64.
 * The forward room is the first AMBRULICCIU_QUANTILES_SIGNED_ROOM words of the slice, the reverse room as many after them, and only the
 * sample's own part and its direction's own six words are written. recorded is 1; or 0, and nothing is changed but it, at a count of 2^64-1.
 * Refuses 5: a slice shorter than AMBRULICCIU_DIRECTIONS_SLICE, and as ambrulicciu_quantiles_record does; 4: the direction's sum at a magnitude
 * of 2^126 or beyond. Both come before the answer 0. */
uint8_t ambrulicciu_directions_record(ambrulicciu_directions *directions, uint64_t *slice, size_t slice_length, uint32_t reverse,
                                      uint64_t value, uint64_t *recorded);

/* Minimum, average and maximum of a direction in ms. Changes only `shown`. Refuses nothing. */
uint8_t ambrulicciu_directions_show(const ambrulicciu_directions *directions, uint32_t reverse, ambrulicciu_delays *shown);

/* ---- the log -----------------------------------------------------------------------------------------------------------------------
 * A log is the list of calls on one link: a record of 96 bytes for each, then a trailer of 24 bytes. The program linkreport plays it from
 * fresh and prints the link's report. At most 682 records. */

/* Each writes one record of AMBRULICCIU_RECORD bytes, with what the call of the same name was told, be it served or refused. Refuses 5:
 * another number of bytes. An observe's has no converted T3: flag 16 is read in a log, and never written. */
uint8_t ambrulicciu_log_write_sent(uint8_t *bytes, size_t bytes_length, uint32_t sequence, uint32_t ordinal, uint32_t train,
                                   uint64_t time, uint64_t tag);
uint8_t ambrulicciu_log_write_accept(uint8_t *bytes, size_t bytes_length, uint32_t sender, uint32_t reflector, uint64_t t3,
                                     uint32_t pending, uint64_t time, uint64_t tag);
uint8_t ambrulicciu_log_write_observe(uint8_t *bytes, size_t bytes_length, const ambrulicciu_observation *observation);
uint8_t ambrulicciu_log_write_advance(uint8_t *bytes, size_t bytes_length, uint64_t time);
uint8_t ambrulicciu_log_write_idle(uint8_t *bytes, size_t bytes_length);

/* Writes the trailer of a log of `count` records, AMBRULICCIU_TRAILER bytes. `threshold` 0: no monitor. Refuses 5: another number of
 * bytes; 9: more than 682 records. */
uint8_t ambrulicciu_log_write_trailer(uint8_t *bytes, size_t bytes_length, uint32_t count, uint16_t copies, uint16_t threshold,
                                      uint64_t timeout);

typedef struct {
    uint64_t count; /* of records */
    uint64_t copies;
    uint64_t threshold; /* 0: no monitor */
    uint64_t timeout;
} ambrulicciu_settings;

/* Whether the bytes are a log, and how its link is made. Changes only the answer. Refuses 9, 7, 8. Stack: 2 KB. */
uint8_t ambrulicciu_log_check(const uint8_t *log, size_t log_length, ambrulicciu_settings *answer);

/* Of a log that is refused with 8: its first bad record, from 0. Of a good log the record count, which is the number of no record: ask
 * only where 8 was answered. Changes only the answer. Refuses 9, 7. Stack: 2 KB. */
uint8_t ambrulicciu_log_first_bad(const uint8_t *log, size_t log_length, uint64_t *answer);

/* One record, as the call that it is. */
#define AMBRULICCIU_KIND_SENT 0
#define AMBRULICCIU_KIND_ACCEPT 1
#define AMBRULICCIU_KIND_OBSERVE 2
#define AMBRULICCIU_KIND_ADVANCE 3
#define AMBRULICCIU_KIND_IDLE 4
typedef struct {
    uint64_t time;
    uint64_t tag;
    uint32_t sequence;
    uint32_t ordinal;
} ambrulicciu_told_sent;
typedef struct {
    uint64_t t3;
    uint64_t time;
    uint64_t tag;
    uint32_t sender;
    uint32_t reflector;
    uint32_t pending; /* 1; or 0, and time and tag are 0 */
    uint32_t unused;
} ambrulicciu_told_accept;
typedef struct {
    uint32_t kind; /* AMBRULICCIU_KIND_SENT .. AMBRULICCIU_KIND_IDLE; the fields of other kinds are 0 */
    uint32_t train; /* of a sent probe, 0: none */
    ambrulicciu_told_sent sent;
    ambrulicciu_told_accept accept;
    ambrulicciu_observation observation; /* as observe is told; fields that are not there are 0 */
    uint64_t now;                        /* the time of an advance */
} ambrulicciu_call;

/* Record `at` of a log, from 0; the other records are not looked at. Changes only `call`. Refuses 9, 7; 8: no good record is there.
 * Stack: 2 KB. */
uint8_t ambrulicciu_log_read(const uint8_t *log, size_t log_length, uint32_t at, ambrulicciu_call *call);

typedef struct {
    uint64_t kept;    /* records */
    uint64_t stop;    /* the byte behind the last of them */
    uint64_t dropped; /* bytes from there on; 0 of a log that was whole */
} ambrulicciu_cut;

/* Makes a log of one that was cut short on the way: its records from byte 0 up to the first that is bad or incomplete, unchanged, and a new
 * trailer with these settings, `stop` + AMBRULICCIU_TRAILER bytes in all. A log that is accepted and begins with its first record is given
 * back as it is, with its own settings. Changes `answer` and as many bytes at the start of `bytes`; AMBRULICCIU_LOG bytes always do. Refuses
 * 9: more than AMBRULICCIU_LOG bytes; then 12: `bytes` is too short. */
uint8_t ambrulicciu_log_trim(const uint8_t *log, size_t log_length, uint16_t copies, uint16_t threshold, uint64_t timeout, uint8_t *bytes,
                             size_t bytes_length, ambrulicciu_cut *answer);

/* ---- the report --------------------------------------------------------------------------------------------------------------------
 * Eleven lines of text, as linkreport prints them, at the start of a buffer of AMBRULICCIU_TEXT bytes; `length` says how many bytes were
 * written. The bytes behind stay as they are; there is no 0 at the end. */

/* The report of a log, played from fresh in the rooms, which may hold anything. Refuses 5: a room, the queue or the buffer of another
 * size; then 9, 7, 8: the log itself. Which record is bad of one that is refused with 8, ambrulicciu_log_first_bad says.
 * Stack: 4 KB. */
uint8_t ambrulicciu_report_log(const uint8_t *log, size_t log_length, const uint32_t secret[8], ambrulicciu_key *keys,
                               size_t keys_length, ambrulicciu_slot *slots, size_t slots_length, ambrulicciu_probe *probes,
                               size_t probes_length, uint32_t *offsets, size_t offsets_length, ambrulicciu_chain *links,
                               size_t links_length, ambrulicciu_queued *queue, size_t queue_length, uint8_t *text,
                               size_t text_length, uint64_t *length);

/* The same report, counted a second time, straight from the records, by code that has the reader of the log and the report's text in common
 * with the call above, and nothing else: a host that makes both releases a log whose two texts are equal. `marks` and `fronts` are rooms of
 * AMBRULICCIU_RECORDS numbers, which may hold anything; a mark for each record is left in the one, and with a monitor a front in the other.
 * Its time grows with the square of the records. Refuses 5: a room or the buffer of another size; then 9, 7, 8: the log itself.
 * Stack: 4 KB. */
uint8_t ambrulicciu_recount_log(const uint8_t *log, size_t log_length, uint8_t *marks, size_t marks_length, uint32_t *fronts,
                                size_t fronts_length, uint8_t *text, size_t text_length, uint64_t *length);

/* The report of a link as it stands. `watched` 0: it has no monitor, and the monitor's words are not looked at. `records`, `turned_away`:
 * how many calls were made and how many of them refused, for the first line. Refuses 5: a buffer of another size, or a ring of the ledger
 * or the monitor out of place. Stack: 2 KB. */
uint8_t ambrulicciu_report_link(const ambrulicciu_ledger *ledger, const ambrulicciu_monitor *monitor, uint32_t watched,
                                uint64_t records, uint64_t turned_away, uint8_t *text, size_t text_length, uint64_t *length);

/* ---- a link with all its memory ----------------------------------------------------------------------------------------------------
 * For hosts that keep it in one piece, with a monitor or without. The calls below only hand its parts to those above, and return what they
 * return. Each is for both kinds of link: without a monitor it leaves the monitor and the queue alone. */

typedef struct {
    ambrulicciu_ledger ledger;
    ambrulicciu_monitor monitor;
    ambrulicciu_key keys[AMBRULICCIU_ROWS];
    ambrulicciu_slot slots[AMBRULICCIU_ROWS];
    ambrulicciu_probe probes[AMBRULICCIU_ROWS];
    uint32_t offsets[AMBRULICCIU_ROWS];
    ambrulicciu_chain links[AMBRULICCIU_ROWS];
    ambrulicciu_queued queue[AMBRULICCIU_ROWS];
    uint64_t watched; /* 1: it has a monitor; 0: it has none */
} ambrulicciu_link;

/* A packet of the host's that a reply is for. */
typedef struct {
    uint64_t time;
    uint64_t tag;
} ambrulicciu_packet;

/* `threshold` 0: the link has no monitor, as in a log. */
static inline uint8_t ambrulicciu_link_fresh(ambrulicciu_link *link, uint16_t copies, const uint32_t secret[8], uint16_t threshold,
                                             uint64_t timeout) {
    link->watched = threshold ? 1 : 0;
    if (link->watched)
        ambrulicciu_monitor_fresh(&link->monitor, threshold, timeout);
    return ambrulicciu_ledger_fresh(&link->ledger, copies, secret);
}

static inline uint8_t ambrulicciu_link_sent(ambrulicciu_link *link, uint32_t sequence, uint32_t ordinal, uint32_t train, uint64_t time,
                                            uint64_t tag) {
    if (!link->watched)
        return ambrulicciu_sent(&link->ledger, link->probes, AMBRULICCIU_ROWS, link->links, AMBRULICCIU_ROWS, sequence, ordinal, train,
                                time, tag);
    return ambrulicciu_watched_sent(&link->ledger, &link->monitor, link->probes, AMBRULICCIU_ROWS, link->links, AMBRULICCIU_ROWS,
                                    link->queue, AMBRULICCIU_ROWS, sequence, ordinal, train, time, tag);
}

/* `packet` is null where none is pending. */
static inline uint8_t ambrulicciu_link_accept(ambrulicciu_link *link, uint32_t sender, uint32_t reflector, uint64_t t3,
                                              const ambrulicciu_packet *packet, ambrulicciu_accepted *answer) {
    if (!link->watched)
        return ambrulicciu_accept(&link->ledger, link->keys, AMBRULICCIU_ROWS, link->slots, AMBRULICCIU_ROWS, link->probes,
                                  AMBRULICCIU_ROWS, link->links, AMBRULICCIU_ROWS, sender, reflector, t3, packet ? 1 : 0,
                                  packet ? packet->time : 0, packet ? packet->tag : 0, answer);
    return ambrulicciu_watched_accept(&link->ledger, &link->monitor, link->keys, AMBRULICCIU_ROWS, link->slots, AMBRULICCIU_ROWS,
                                      link->probes, AMBRULICCIU_ROWS, link->links, AMBRULICCIU_ROWS, link->queue, AMBRULICCIU_ROWS,
                                      sender, reflector, t3, packet ? 1 : 0, packet ? packet->time : 0, packet ? packet->tag : 0,
                                      answer);
}

/* `count` entries, and as many answers. */
static inline uint8_t ambrulicciu_link_accept_burst(ambrulicciu_link *link, const ambrulicciu_entry *entries, size_t count,
                                                    ambrulicciu_entry_answer *answers) {
    if (!link->watched)
        return ambrulicciu_accept_burst(&link->ledger, link->keys, AMBRULICCIU_ROWS, link->slots, AMBRULICCIU_ROWS, link->probes,
                                        AMBRULICCIU_ROWS, link->links, AMBRULICCIU_ROWS, entries, count, answers, count);
    return ambrulicciu_watched_accept_burst(&link->ledger, &link->monitor, link->keys, AMBRULICCIU_ROWS, link->slots, AMBRULICCIU_ROWS,
                                            link->probes, AMBRULICCIU_ROWS, link->links, AMBRULICCIU_ROWS, link->queue,
                                            AMBRULICCIU_ROWS, entries, count, answers, count);
}

static inline uint8_t ambrulicciu_link_observe(ambrulicciu_link *link, const ambrulicciu_observation *observation) {
    return ambrulicciu_observe(&link->ledger, link->keys, AMBRULICCIU_ROWS, link->slots, AMBRULICCIU_ROWS, link->offsets,
                               AMBRULICCIU_ROWS, link->links, AMBRULICCIU_ROWS, observation);
}

static inline uint8_t ambrulicciu_link_answered(const ambrulicciu_link *link, uint32_t sequence, uint64_t *answer) {
    return ambrulicciu_answered(&link->ledger, link->probes, AMBRULICCIU_ROWS, link->links, AMBRULICCIU_ROWS, sequence, answer);
}

static inline uint8_t ambrulicciu_link_needs_burst_wait(const ambrulicciu_link *link, uint64_t *answer) {
    return ambrulicciu_needs_burst_wait(&link->ledger, answer);
}

static inline uint8_t ambrulicciu_link_snapshot(const ambrulicciu_link *link, ambrulicciu_figures *shown) {
    return ambrulicciu_snapshot(&link->ledger, shown);
}

static inline uint8_t ambrulicciu_link_report(const ambrulicciu_link *link, uint64_t records, uint64_t turned_away,
                                              uint8_t text[AMBRULICCIU_TEXT], uint64_t *length) {
    return ambrulicciu_report_link(&link->ledger, &link->monitor, link->watched ? 1 : 0, records, turned_away, text, AMBRULICCIU_TEXT,
                                   length);
}

/* Without a monitor, advance and idle are served and do nothing; no deadline is known; and every word of the session is 0, the threshold
 * too, which a monitor never has. */
static inline uint8_t ambrulicciu_link_advance(ambrulicciu_link *link, uint64_t now) {
    return link->watched ? ambrulicciu_monitor_advance(&link->monitor, link->queue, AMBRULICCIU_ROWS, now) : AMBRULICCIU_SERVED;
}

static inline uint8_t ambrulicciu_link_idle(ambrulicciu_link *link) {
    return link->watched ? ambrulicciu_monitor_idle(&link->monitor) : AMBRULICCIU_SERVED;
}

static inline uint8_t ambrulicciu_link_deadline(const ambrulicciu_link *link, ambrulicciu_deadline *answer) {
    const ambrulicciu_deadline none = {0, 0};
    if (link->watched)
        return ambrulicciu_monitor_deadline(&link->monitor, link->queue, AMBRULICCIU_ROWS, answer);
    *answer = none;
    return AMBRULICCIU_SERVED;
}

static inline uint8_t ambrulicciu_link_session(const ambrulicciu_link *link, ambrulicciu_session *shown) {
    const ambrulicciu_session none = {0, 0, 0, 0, 0, 0};
    if (link->watched)
        return ambrulicciu_monitor_summary(&link->monitor, shown);
    *shown = none;
    return AMBRULICCIU_SERVED;
}

#ifdef __cplusplus
}
#endif

#endif
