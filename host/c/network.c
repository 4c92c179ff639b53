#include "network.h"

#define MS 1000000u
#define SECOND 1000000000u
#define NTP_TO_UNIX 2208988800u

uint64_t drawn(uint64_t *seed) {
    uint64_t z = *seed += 0x9e3779b97f4a7c15u;
    z = (z ^ (z >> 30)) * 0xbf58476d1ce4e5b9u;
    z = (z ^ (z >> 27)) * 0x94d049bb133111ebu;
    return z ^ (z >> 31);
}

uint32_t below(uint64_t *seed, uint32_t bound) {
    return (uint32_t)(drawn(seed) % bound);
}

int64_t wall_clock(uint64_t now) {
    return 1790000000 * (int64_t)SECOND + (int64_t)now;
}

/* A moment as a timestamp of 64 bits: NTP has seconds since 1900 and a fraction of 2^32, PTP seconds since 1970 and ns. */
static uint64_t timestamp(const network *net, uint64_t now) {
    uint64_t ns = (uint64_t)wall_clock(now) + (uint64_t)net->kind.offset * SECOND;
    uint64_t seconds = ns / SECOND, rest = ns % SECOND;
    if (net->kind.ptp)
        return (seconds & 0xffffffffu) << 32 | rest;
    return ((seconds + NTP_TO_UNIX) & 0xffffffffu) << 32 | ((rest << 32) / SECOND);
}

void network_start(network *net, uint64_t seed) {
    network fresh = {0};
    *net = fresh;
    net->seed = seed;
    net->kind.lost = below(&net->seed, 4) * 60;
    net->kind.repeated = below(&net->seed, 3) * 80;
    net->kind.delayed = below(&net->seed, 3) * 100;
    net->kind.own_count = below(&net->seed, 2);
    net->kind.ptp = below(&net->seed, 2);
    net->kind.silent_from = below(&net->seed, 200);
    net->kind.silent_to = net->kind.silent_from + below(&net->seed, 2) * 9;
    net->kind.copies = 1 + below(&net->seed, 2);
    net->kind.offset = net->kind.ptp ? (int32_t)below(&net->seed, 2) * 37 : 0;
}

static int happens(network *net, uint32_t share) {
    return below(&net->seed, 1000) < share;
}

static void fly(network *net, packet reply, uint64_t arrives) {
    if (net->count == IN_FLIGHT)
        return;
    reply.arrives = arrives;
    net->flying[net->count++] = reply;
}

/* The reflector sends one reply, and the network loses, delays or repeats it. */
static void reflect(network *net, uint64_t there, uint32_t sequence, uint32_t s_txc) {
    uint64_t back = there + 8 * MS + below(&net->seed, 4 * MS);
    packet reply = {0};
    reply.sender = sequence;
    reply.reflector = net->kind.own_count ? net->transmitted : sequence;
    net->transmitted++;
    reply.s_txc = s_txc;
    reply.r_rxc = net->received;
    reply.r_txc = net->transmitted;
    reply.t3 = timestamp(net, there);
    reply.follow_up_sequence = net->last_sequence;
    reply.follow_up_timestamp = net->transmitted > 1 ? timestamp(net, net->last_transmit) : 0;
    reply.offset = net->kind.offset;
    reply.estimate = (uint16_t)(0x8000u | net->kind.ptp << 14 | 22u << 8 | below(&net->seed, 20));
    /* a software timestamp is taken a little before the packet goes out: the follow-up tells the real moment */
    net->last_sequence = reply.reflector;
    net->last_transmit = there + 40000 + below(&net->seed, 20000);
    if (happens(net, net->kind.delayed))
        back += below(&net->seed, 400) * (uint64_t)MS;
    if (happens(net, net->kind.lost))
        return;
    fly(net, reply, back);
    if (happens(net, net->kind.repeated))
        fly(net, reply, back + below(&net->seed, 30) * (uint64_t)MS);
}

void network_send(network *net, uint64_t now, uint32_t sequence, uint32_t s_txc) {
    uint64_t there = now + 8 * MS + below(&net->seed, 4 * MS);
    int silent = s_txc >= net->kind.silent_from && s_txc < net->kind.silent_to;
    if (silent || happens(net, net->kind.lost))
        return;
    net->received++;
    for (uint32_t copy = 0; copy < net->kind.copies; copy++)
        reflect(net, there + copy * MS, sequence, s_txc);
}

int network_receive(network *net, uint64_t now, packet *reply) {
    int first = -1;
    for (int i = 0; i < net->count; i++)
        if (net->flying[i].arrives <= now && (first < 0 || net->flying[i].arrives < net->flying[first].arrives))
            first = i;
    if (first < 0)
        return 0;
    *reply = net->flying[first];
    net->flying[first] = net->flying[--net->count];
    return 1;
}
