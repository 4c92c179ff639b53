/* A link that is not there: a reflector behind a network that loses, delays and repeats packets, all drawn from a seed. */
#ifndef NETWORK_H
#define NETWORK_H

#include <stdint.h>

/* What a reply carries, as a host reads it off the packet. */
typedef struct {
    uint64_t arrives; /* the host's clock, ns */
    uint32_t sender;
    uint32_t reflector;
    uint64_t t3; /* raw timestamp, NTP or PTP */
    uint32_t s_txc, r_rxc, r_txc;
    uint32_t follow_up_sequence; /* the reply that the reflector sent before, and when it really went out */
    uint64_t follow_up_timestamp;
    int32_t offset; /* of the reflector's clock from UTC, s; a real host is told it by its operator */
    uint16_t estimate;
} packet;

/* What a link is like. Shares are of 1,000. */
typedef struct {
    uint32_t copies;    /* replies that the reflector sends for each probe */
    uint32_t lost;      /* of packets, each way */
    uint32_t repeated;  /* of replies */
    uint32_t delayed;   /* of replies, by up to 400 ms more */
    uint32_t own_count; /* 1: the reflector counts its replies itself */
    uint32_t ptp;       /* 1: timestamps are PTP */
    uint32_t silent_from, silent_to; /* probes that the link loses all of */
    int32_t offset;                  /* of the reflector's clock from UTC, s: PTP counts no leap seconds */
} kind_of_link;

#define IN_FLIGHT 64

typedef struct {
    uint64_t seed;
    kind_of_link kind;
    uint32_t received, transmitted;
    uint32_t last_sequence;
    uint64_t last_transmit;
    packet flying[IN_FLIGHT];
    int count;
} network;

uint64_t drawn(uint64_t *seed);
uint32_t below(uint64_t *seed, uint32_t bound);

void network_start(network *net, uint64_t seed);
/* A probe goes out. */
void network_send(network *net, uint64_t now, uint32_t sequence, uint32_t s_txc);
/* The next reply that has come by now: 1 and the reply, or 0. */
int network_receive(network *net, uint64_t now, packet *reply);
/* ns since 1970 when the host's clock is at `now`. */
int64_t wall_clock(uint64_t now);

#endif
