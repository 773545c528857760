/* Plays a script of the report's calls (oracle year) on the proved library: every number that a call gives back, and all 96 of the report that it was
 * lent, are compared with what the script expects. Prints a line for each of the first twenty calls that differ, and "N calls, M differ". */

/* The kit's compiler comes without headers, so the types and the functions of the C library stand here. */
#define WM_OWN_TYPES
typedef __UINT8_TYPE__ uint8_t;
typedef __UINT32_TYPE__ uint32_t;
typedef __UINT64_TYPE__ uint64_t;
typedef __SIZE_TYPE__ size_t;
typedef _Bool bool;
int printf(const char *, ...);
int open(const char *, int, ...);
long read(int, void *, size_t);

#include "../include/wm.h"

#define MARK 0x3130524145594D57ull /* "WMYEAR01" */
enum { COUNT, ADD, RATE };

static uint64_t script[8u << 20];
static struct wm_told told[1000];
static size_t at, end;
static bool damaged;

static uint64_t next(void) {
    if (at < end)
        return script[at++];
    damaged = 1;
    return 0;
}

static struct wm_report next_report(void) {
    struct wm_report report;
    for (size_t i = 0; i < 96; i++)
        report.totals[i / 4][i % 4] = next();
    return report;
}

/* How many of a call's numbers are not as expected. */
static unsigned report_differs(uint32_t number, const struct wm_report *report) {
    unsigned n = next() != number;
    for (size_t i = 0; i < 96; i++)
        n += next() != report->totals[i / 4][i % 4];
    return n;
}

static unsigned count_differs(void) {
    struct wm_report report = next_report();
    size_t length = next();
    if (length > sizeof told / sizeof *told)
        damaged = 1;
    for (size_t i = 0; i < length && !damaged; i++) {
        told[i].hour = (uint32_t)next();
        told[i].which = (uint32_t)next();
        told[i].code = (uint32_t)next();
        told[i].kind = (uint32_t)next();
        told[i].place = (uint32_t)next();
        told[i].cut = (uint32_t)next();
    }
    if (damaged)
        return 0;
    uint32_t number = wm_report_count(&report, told, length);
    return report_differs(number, &report);
}

static unsigned add_differs(void) {
    struct wm_report report = next_report(), more = next_report(), before = more;
    uint32_t number = wm_report_add(&report, &more);
    unsigned n = report_differs(number, &report);
    for (size_t i = 0; i < 96; i++)
        n += more.totals[i / 4][i % 4] != before.totals[i / 4][i % 4];
    return n;
}

static unsigned rate_differs(void) {
    struct wm_report report = next_report();
    struct wm_rate rate = wm_report_rate(&report);
    unsigned n = next() != rate.number;
    n += next() != rate.cuts;
    n += next() != rate.opened;
    return n;
}

static unsigned call_differs(void) {
    switch (next()) {
    case COUNT:
        return count_differs();
    case ADD:
        return add_differs();
    case RATE:
        return rate_differs();
    }
    damaged = 1;
    return 0;
}

static size_t load(const char *name) {
    int file = open(name, 0);
    size_t bytes = 0;
    long got;
    while ((got = read(file, (uint8_t *)script + bytes, sizeof script - bytes)) > 0)
        bytes += (size_t)got;
    return bytes;
}

int main(int words, char **word) {
    size_t bytes = words == 2 ? load(word[1]) : 0;
    end = bytes / 8;
    damaged = bytes % 8 != 0 || bytes == sizeof script || next() != MARK;
    uint64_t calls = next(), differ = 0;
    for (uint64_t i = 0; i < calls && !damaged; i++) {
        unsigned n = call_differs();
        if (n != 0 && !damaged && differ++ < 20)
            printf("call %llu: %u numbers differ\n", (unsigned long long)i + 1, n);
    }
    if (damaged || at != end) {
        printf("script damaged\n");
        return 1;
    }
    printf("%llu calls, %llu differ\n", (unsigned long long)calls, (unsigned long long)differ);
    return 0;
}
