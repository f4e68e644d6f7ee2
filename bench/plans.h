/* Plan files that are measured, the same at every run. */
#ifndef PLANS_H
#define PLANS_H

#include <stdint.h>

enum { PLAN_SLOTS = 48, PLAN_FRONT = 6, PLAN_ENTRY = 6, PLAN_PAGES = 96 };

/* Pages, each as the entry of a plan. */
void make_pages(uint64_t *row, uint8_t pages[PLAN_PAGES][PLAN_ENTRY]);

/* The octets before the entries of a plan file. */
void begin_plan(unsigned count, uint8_t *file);

/* A plan file of nothing but pages: two slots in three have one of their own, each third repeats one before it. The plan
 * file before it has half as many slots, with the pages of every other slot. */
void make_plans(uint64_t *row, unsigned slots, uint8_t *current, uint8_t *previous);

#endif
