/*
 * A crane link whose bit errors are counted in both directions: an example for a host in C.
 *
 *     crane PACKETS      prints both summaries
 *
 * The link is simulated: each direction turns one bit in 2,000, now and then a run. The reflector here counts as a real one does, by the
 * same call. What is printed is also held against a plain count of the bits that were turned.
 */
#define EXAMPLE "crane"
#include "../ambrulicciu.h"
#include "../example.h"
#include <stdio.h>
#include <stdlib.h>
#include <string.h>

#define PADDING 1000

/* Turns bits on the way; what was turned twice is as it was, so the bits are counted at the end. */
static void carried(uint8_t *padding) {
    for (int bit = 0; bit < 8 * PADDING; bit++)
        if (drawn() % 2000 == 0)
            for (uint64_t run = drawn() % 8 ? 1 : 1 + drawn() % 30; run > 0 && bit < 8 * PADDING; run--, bit++)
                padding[bit / 8] ^= (uint8_t)(128 >> bit % 8);
}

static uint64_t turned(const uint8_t *a, const uint8_t *b) {
    uint64_t count = 0;
    for (int bit = 0; bit < 8 * PADDING; bit++)
        count += (a[bit / 8] ^ b[bit / 8]) >> (7 - bit % 8) & 1;
    return count;
}

static void put_32(uint8_t *bytes, uint64_t value) {
    for (int i = 0; i < 4; i++)
        bytes[i] = (uint8_t)(value >> (24 - 8 * i));
}

static uint64_t item(uint64_t type, uint64_t length, uint64_t start) { return type << 48 | length << 32 | start; }

static void print(const char *name, const ambrulicciu_bit_summary *summary) {
    ambrulicciu_bit_figures f;
    must(ambrulicciu_bit_summary_show(summary, &f));
    printf("%s packets %llu with errors %llu bits %llu wrong %llu", name, (unsigned long long)f.packets_received,
           (unsigned long long)f.packets_with_errors, (unsigned long long)f.padding_bits, (unsigned long long)f.bit_errors);
    if (f.bit_errors_per_million_known)
        printf(" per million %.3f", f.bit_errors_per_million);
    if (f.max_burst_known)
        printf(" longest run %llu average %.3f", (unsigned long long)f.max_burst_bits, f.average_max_burst_bits);
    printf("\n");
}

int main(int argc, char **argv) {
    uint8_t pattern[16], sent[PADDING], there[PADDING], packet[PADDING + 8];
    uint64_t length, plain_forward = 0, plain_reverse = 0, samples = 0;
    ambrulicciu_bit_summary forward, reverse;
    must(ambrulicciu_parse_pattern((const uint8_t *)"0xFF00", 6, pattern, sizeof pattern, &length));
    must(ambrulicciu_bit_summary_fresh(&forward));
    must(ambrulicciu_bit_summary_fresh(&reverse));
    for (size_t i = 0; i < PADDING; i++)
        sent[i] = pattern[i % length];
    for (long n = argc > 1 ? atol(argv[1]) : 1000; n > 0; n--) {
        ambrulicciu_bit_errors_found found;
        ambrulicciu_bit_sample sample;
        memcpy(there, sent, PADDING);
        carried(there);
        plain_forward += turned(sent, there);
        must(ambrulicciu_bit_errors(there, PADDING, pattern, length, &found));
        /* the reflector sends fresh padding back, with what it counted */
        memcpy(packet, sent, PADDING);
        carried(packet);
        plain_reverse += turned(sent, packet);
        put_32(packet + PADDING, found.errors);
        put_32(packet + PADDING + 4, found.longest);
        uint64_t items[3] = {item(1, PADDING, 0), item(241, 4, PADDING), item(242, 4, PADDING + 4)};
        must(ambrulicciu_bit_observation(items, 3, packet, sizeof packet, pattern, length, PADDING, 1, 1, &sample));
        if (sample.class_ != AMBRULICCIU_BITS_SAMPLED)
            continue;
        samples++;
        must(ambrulicciu_bit_summary_record(&forward, sample.bits, (uint32_t)sample.forward_errors, (uint32_t)sample.forward_burst_known, (uint32_t)sample.forward_burst));
        must(ambrulicciu_bit_summary_record(&reverse, sample.bits, (uint32_t)sample.reverse_errors, 1, (uint32_t)sample.reverse_burst));
    }
    print("forward", &forward);
    print("reverse", &reverse);
    ambrulicciu_bit_figures f, r;
    must(ambrulicciu_bit_summary_show(&forward, &f));
    must(ambrulicciu_bit_summary_show(&reverse, &r));
    if (f.bit_errors != plain_forward || r.bit_errors != plain_reverse || f.packets_received != samples) {
        fprintf(stderr, "crane: a plain count of the bits turned is another\n");
        return 1;
    }
    return 0;
}
