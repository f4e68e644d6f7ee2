/* Plan files that are measured: nothing but pages, a third of them repeats. */
#include "plans.h"

#include <string.h>

#include "blocks.h"

void make_pages(uint64_t *row, uint8_t pages[PLAN_PAGES][PLAN_ENTRY])
{
    for (unsigned i = 0; i < PLAN_PAGES; i++) {
        pages[i][0] = 2;
        for (unsigned j = 1; j < PLAN_ENTRY; j++)
            pages[i][j] = (uint8_t)draw(row);
    }
}

void begin_plan(unsigned count, uint8_t *file)
{
    memcpy(file, "CBP\0\1", 5);
    file[5] = (uint8_t)count;
}

void make_plans(uint64_t *row, unsigned slots, uint8_t *current, uint8_t *previous)
{
    uint8_t pages[PLAN_PAGES][PLAN_ENTRY];
    unsigned given = 0;

    make_pages(row, pages);
    begin_plan(slots, current);
    begin_plan(slots / 2, previous);
    for (unsigned i = 0; i < slots; i++) {
        const uint8_t *page = i % 3 == 2 ? pages[draw(row) % given] : pages[given++];
        memcpy(current + PLAN_FRONT + PLAN_ENTRY * i, page, PLAN_ENTRY);
        if (i % 2 == 0 && i / 2 < slots / 2)
            memcpy(previous + PLAN_FRONT + PLAN_ENTRY * (i / 2), page, PLAN_ENTRY);
    }
}
