/* What the five services answer for table A of document 01, with kits 1 and percent 50; the filter has percent 60. */
#include <inttypes.h>
#include <stdio.h>

#include "jigbalo.h"

/* (line 0 and event 1) or (line 1 and event 3), events 1/2 and 6/10 */
static const uint8_t table[] = {
    0x11, 0x00, 0x20, 0x00, 0x20, 0x00, 0x00, 0x00, 0x30, 0x40, 0x08, 0x02,
    0x20, 0x80, 0x00, 0x00, 0x30, 0xC0, 0x30, 0x0A, 0x40, 0xC0, 0x08, 0x00,
    0x40, 0x80, 0x10, 0x00, 0x40, 0x40, 0x08, 0x03, 0x40, 0x00, 0x20, 0x03,
};

/* Whether the request was answered; a refusal is printed. */
static int answered(const char *service, uint64_t number, uint64_t place)
{
    if (number != 0)
        printf("%s: refused %" PRIu64 " at %" PRIu64 "\n", service, number, place);
    return number == 0;
}

int main(void)
{
    const uint8_t open[2] = {0, 0};
    const size_t size = sizeof table;
    uint64_t place = 0, number;

    uint64_t variables, records, choices, scale;
    number = jigbalo_read(table, size, &place, &variables, &records, &choices, &scale);
    if (answered("read", number, place))
        printf("read: variables %" PRIu64 " records %" PRIu64 " choices %" PRIu64 " scale %" PRIu64 "\n",
               variables, records, choices, scale);

    uint64_t drops[2], top;
    number = jigbalo_sweep(table, size, open, 2, drops, 2, &place, &top);
    if (answered("sweep", number, place))
        printf("sweep: top %" PRIu64 " drops %" PRIu64 " %" PRIu64 "\n", top, drops[0], drops[1]);

    uint8_t plan[2];
    uint64_t forced;
    number = jigbalo_filter(table, size, open, 2, 60, plan, 2, &place, &forced);
    if (answered("filter", number, place))
        printf("filter: forced %" PRIu64 " plan %d %d\n", forced, plan[0], plan[1]);

    uint64_t score, visits;
    number = jigbalo_search(table, size, open, 2, 1, 50, plan, 2, &place, &score, &visits);
    if (answered("search", number, place))
        printf("search: score %" PRIu64 " visits %" PRIu64 " plan %d %d\n", score, visits, plan[0], plan[1]);

    number = jigbalo_score(table, size, plan, 2, &place, &score);
    if (answered("score", number, place))
        printf("score: %" PRIu64 "\n", score);

    /* an open plan has no score */
    number = jigbalo_score(table, size, open, 2, &place, &score);
    if (answered("score", number, place))
        printf("score: %" PRIu64 "\n", score);
    return 0;
}
