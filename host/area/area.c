/*
 * A reply's extension area, read from the packet itself: which items it has and where each starts, the counters and the follow-up, and what
 * they tell ambrulicciu_observe. The reply is made by hand, as a reflector would write it: Direct Measurement, Follow-Up Telemetry, a Class of
 * Service item that is stepped over. Then each cut of it, which is refused or a shorter area, and the area written again.
 */
#include "../ambrulicciu.h"

#include <stdio.h>
#include <stdlib.h>
#include <string.h>

static const uint8_t reply[] = {
    0x00, 0x05, 0x00, 0x0c, 0x00, 0x00, 0x00, 0x0c, 0x00, 0x00, 0x00, 0x0b, 0x00, 0x00, 0x00, 0x0a,             /* S_TxC 12, R_RxC 11, R_TxC 10 */
    0x00, 0x07, 0x00, 0x10, 0x00, 0x00, 0x00, 0x09, 0xec, 0x1a, 0x5b, 0x00, 0x80, 0x00, 0x00, 0x00, 0x02, 0xaa, 0xbb, 0xcc, /* of reply 9, software */
    0x80, 0x04, 0x00, 0x04, 0x2e, 0x00, 0x00, 0x00,                                                             /* not recognized */
};

static void expect(int holds, const char *what) {
    if (!holds) {
        printf("area: WRONG: %s\n", what);
        exit(1);
    }
}

int main(void) {
    uint64_t items[8], count = 0;
    expect(ambrulicciu_area_read(reply, sizeof reply, items, 8, &count) == AMBRULICCIU_SERVED && count == 3, "three items");
    for (uint64_t i = 0; i < count; i++)
        printf("item at %u: type %u, flags %u, length %u\n", AMBRULICCIU_ITEM_VALUE(items[i]) - 4, AMBRULICCIU_ITEM_TYPE(items[i]),
               AMBRULICCIU_ITEM_FLAGS(items[i]), AMBRULICCIU_ITEM_LENGTH(items[i]));
    ambrulicciu_direct_value direct;
    expect(ambrulicciu_counters_read(reply + AMBRULICCIU_ITEM_VALUE(items[0]), AMBRULICCIU_ITEM_LENGTH(items[0]), &direct) == 0, "counters");
    printf("counters %u %u %u\n", direct.s_txc, direct.r_rxc, direct.r_txc);
    ambrulicciu_follow_value follow;
    expect(ambrulicciu_follow_up_read(reply + AMBRULICCIU_ITEM_VALUE(items[1]), AMBRULICCIU_ITEM_LENGTH(items[1]), &follow) == 0, "follow-up");
    printf("follow-up of %llu at %016llx, mode %llu\n", (unsigned long long)follow.sequence, (unsigned long long)follow.timestamp,
           (unsigned long long)follow.mode);

    ambrulicciu_observation observation;
    memset(&observation, 0, sizeof observation);
    observation.flags = AMBRULICCIU_T4 | AMBRULICCIU_UNKNOWN_MODE;
    expect(ambrulicciu_area_observation(reply, sizeof reply, &observation) == 0, "told");
    expect(observation.flags == (AMBRULICCIU_T4 | AMBRULICCIU_COUNTERS | AMBRULICCIU_FOLLOW_UP), "flags");
    expect(observation.s_txc == 12 && observation.r_rxc == 11 && observation.r_txc == 10, "counters told");
    expect(observation.follow_up_sequence == 9 && observation.follow_up_timestamp == follow.timestamp, "follow-up told");

    unsigned short_ones = 0;
    for (size_t cut = 0; cut < sizeof reply; cut++) {
        ambrulicciu_observation before = observation;
        uint64_t fewer = 7;
        uint8_t number = ambrulicciu_area_read(reply, cut, items, 0, &fewer);
        expect(number == ambrulicciu_area_observation(reply, cut, &observation), "one number");
        if (cut == 0 || cut == 16 || cut == 36) {
            expect(number == 0 && fewer == (cut == 36 ? 2 : cut / 16), "whole items");
            observation = before;
        } else {
            expect(number == AMBRULICCIU_PASSES_END && fewer == 7 && memcmp(&before, &observation, sizeof before) == 0, "cut short");
            short_ones++;
        }
    }
    printf("%u cuts refused\n", short_ones);

    uint8_t again[sizeof reply];
    uint64_t length = 0;
    expect(ambrulicciu_area_read(reply, sizeof reply, items, 8, &count) == 0, "read again");
    expect(ambrulicciu_area_write(items, count, reply, sizeof reply, again, sizeof again - 1, &length) == AMBRULICCIU_SHORT_ROOM, "one byte too few");
    expect(ambrulicciu_area_write(items, count, reply, sizeof reply, again, sizeof again, &length) == 0 && length == sizeof reply, "written");
    for (size_t i = 0; i < sizeof reply; i++)
        expect(again[i] == (i >= 33 && i < 36 ? 0 : reply[i]), "all but the reserved bytes");
    uint8_t value[16];
    expect(ambrulicciu_counters_write(value, 12, 12, 11, 10) == 0 && memcmp(value, reply + 4, 12) == 0, "counters written");
    expect(ambrulicciu_follow_up_write(value, 16, 9, follow.timestamp, 2) == 0 && memcmp(value, again + 20, 16) == 0, "follow-up written");
    printf("area: as expected\n");
    return 0;
}
