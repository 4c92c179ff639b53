/*
 * The report of a log must not depend on what the stack held.
 *
 *     stack LOG..
 *
 * Each log is reported three times, and counted a second time as often, with the stack below filled with 0x00, 0xff and 0x5a before, and the
 * rooms with the same bytes: the numbers and the texts must be equal. How much of the filling is gone afterwards is how much stack the call
 * took: at most 64 KB.
 */
#include "../ambrulicciu.h"
#include <stdio.h>
#include <string.h>

#define FILLED 900000
#define MOST (64 * 1024)

static ambrulicciu_link rooms;
static uint8_t marks[AMBRULICCIU_RECORDS];
static uint32_t fronts[AMBRULICCIU_RECORDS];
static uint8_t bytes[AMBRULICCIU_LOG + 1];

/* What this leaves is what the next call finds in its frame. */
static uint8_t fill(int byte) {
    volatile uint8_t below[FILLED];
    for (size_t i = 0; i < FILLED; i++)
        below[i] = (uint8_t)byte;
    return below[FILLED / 2];
}

/* How much of that is no longer so: the same frame, looked at from its far end. */
static size_t unfill(int byte) {
    volatile uint8_t below[FILLED];
    volatile uint8_t *end = below;
    size_t kept = 0;
    while (kept < FILLED && end[kept] == (uint8_t)byte)
        kept++;
    return FILLED - kept;
}

/* Called through memory, so that each has a frame of its own. */
static uint8_t (*volatile filled)(int) = fill;
static size_t (*volatile taken)(int) = unfill;
static size_t most;

static int reported(size_t size, int byte, uint8_t text[AMBRULICCIU_TEXT]) {
    static const uint32_t secret[8] = {2, 3, 5, 7, 11, 13, 17, 19};
    uint64_t length = 0;
    memset(&rooms, byte, sizeof rooms);
    memset(text, 0, AMBRULICCIU_TEXT);
    if (filled(byte) != byte)
        return -1;
    int number = ambrulicciu_report_log(bytes, size, secret, rooms.keys, AMBRULICCIU_ROWS, rooms.slots, AMBRULICCIU_ROWS, rooms.probes,
                                        AMBRULICCIU_ROWS, rooms.offsets, AMBRULICCIU_ROWS, rooms.links, AMBRULICCIU_ROWS, rooms.queue,
                                        AMBRULICCIU_ROWS, text, AMBRULICCIU_TEXT, &length);
    size_t took = taken(byte);
    if (took > most)
        most = took;
    return number;
}

static int recounted(size_t size, int byte, uint8_t text[AMBRULICCIU_TEXT]) {
    uint64_t length = 0;
    memset(marks, byte, sizeof marks);
    memset(fronts, byte, sizeof fronts);
    memset(text, 0, AMBRULICCIU_TEXT);
    if (filled(byte) != byte)
        return -1;
    int number = ambrulicciu_recount_log(bytes, size, marks, AMBRULICCIU_RECORDS, fronts, AMBRULICCIU_RECORDS, text, AMBRULICCIU_TEXT, &length);
    size_t took = taken(byte);
    if (took > most)
        most = took;
    return number;
}

static int same(const char *path) {
    static const int fillings[] = {0x00, 0xff, 0x5a};
    uint8_t texts[3][AMBRULICCIU_TEXT], again[AMBRULICCIU_TEXT];
    int numbers[3];
    FILE *file = fopen(path, "rb");
    if (!file) {
        fprintf(stderr, "stack: cannot read %s\n", path);
        return 0;
    }
    size_t size = fread(bytes, 1, sizeof bytes, file);
    fclose(file);
    for (int i = 0; i < 3; i++) {
        numbers[i] = reported(size, fillings[i], texts[i]);
        if (numbers[i] < 0 || numbers[i] != numbers[0] || memcmp(texts[0], texts[i], AMBRULICCIU_TEXT) != 0) {
            fprintf(stderr, "stack: %s: another report where the stack held %#x\n", path, (unsigned)fillings[i]);
            return 0;
        }
        if (recounted(size, fillings[i], again) != numbers[0] || memcmp(texts[0], again, AMBRULICCIU_TEXT) != 0) {
            fprintf(stderr, "stack: %s: another second count where the stack held %#x\n", path, (unsigned)fillings[i]);
            return 0;
        }
    }
    return 1;
}

int main(int count, char **paths) {
    for (int i = 1; i < count; i++)
        if (!same(paths[i]))
            return 1;
    printf("stack: %d logs: the same report, and the same by the second count, whatever the stack held, in %zu bytes of it\n", count - 1, most);
    return count < 2 || most > MOST;
}
