/* The whole way of a kiosk over the C boundary: read the operator's text, build tables, check them, ask, list the rides.
 * The day is the example of document 01; what it must print stands in example.out. */
#include <kiosk.h>
#include <stdio.h>
#include <string.h>

static const char text[] =
    "timetable 1\n"
    "stop HUB\nstop MOOR\nstop QUAY-N\nstop QUAY-S\n"
    "run MOOR HUB 480 500 11\nrun HUB QUAY-N 500 530 12\nrun HUB QUAY-N 510 525 13\n"
    "run QUAY-S MOOR 540 560 14\nrun MOOR QUAY-N 490 540 15\nrun HUB QUAY-S 505 520 16\n"
    "end\n";

static uint32_t runs[20480], codes[510], list[2879], answer[4];
static uint8_t tables[50174];
static uint16_t work[32768];

static void show(const char *call) {
    printf("%s: %u %u %u %u\n", call, answer[0], answer[1], answer[2], answer[3]);
}

int main(void) {
    if (kiosk_build_room() > 32768 || kiosk_check_room() > 32768 || kiosk_rides_room() > 32768)
        return 1;
    kiosk_read((const uint8_t *)text, strlen(text), runs, 20480, codes, 510, answer);
    show("read");
    uint32_t stops = answer[1], count = answer[2];
    kiosk_build(stops, count, runs, 20480, tables, 50174, work, 32768, answer);
    show("build");
    size_t length = answer[1];
    kiosk_check(tables, length, stops, count, runs, 20480, work, 32768, answer);
    show("check");
    kiosk_early(tables, length, 1, 2, 480, answer);
    show("early");
    kiosk_late(tables, length, 1, 2, 524, answer);
    show("late");
    kiosk_short(tables, length, 1, 2, 480, 540, answer);
    show("short");
    kiosk_early_rides(tables, length, stops, count, runs, 20480, 1, 2, 480, list, 2879, work, 32768, answer);
    show("early with rides");
    for (uint32_t k = 0; k < answer[3]; k++) {
        const uint32_t *run = runs + 5 * list[k];
        const uint32_t *from = codes + 2 * run[0], *to = codes + 2 * run[1];
        printf("ride %.*s %.*s %u %u %u\n", (int)from[1], text + from[0], (int)to[1], text + to[0], run[2], run[3], run[4]);
    }
    /* An operator's tables without label 3, contents mended: run 4 and stop 2 show what they miss. */
    memmove(tables + 18 + 6 * 3, tables + 18 + 6 * 4, 6 * 2);
    tables[2 + 4 * 2 + 2]--;
    kiosk_check(tables, length - 6, stops, count, runs, 20480, work, 32768, answer);
    show("check without label 3");
    return 0;
}
