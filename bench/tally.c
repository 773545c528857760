/* The report: lists of results counted by the proved library and by the plain C. After each list both must have given the same number and
 * left the same 96 totals. */
#include "plain.h"

int printf(const char *, ...);
int strcmp(const char *, const char *);
double seconds(void);             /* driver.c */
uint32_t below(uint32_t n);       /* mix.c */
void begin_chance(uint64_t from); /* mix.c */

enum { RESULTS = 100, CALLS = 600 };

typedef uint32_t count_function(struct wm_report *, const struct wm_told *, size_t);

/* What a call costs without a library: the loop around it. */
static uint32_t none_count(struct wm_report *report, const struct wm_told *told, size_t length) {
    (void)report, (void)told, (void)length;
    return 0;
}

/* volatile: as in driver.c. */
static const struct {
    const char *name;
    count_function *volatile count;
} libraries[3] = {{"proved", wm_report_count}, {"plain", plain_report_count}, {"none", none_count}};

static struct wm_told told[RESULTS];
static struct wm_report reports[2];

/* ---- results ---- */

/* A result as the server gives them: openings, half of them with a cut, policies, terminations, and one in eight is refused. */
static struct wm_told result(void) {
    struct wm_told t = {below(24), below(3), 2001, WM_RESULT_CODE, 0, 0};
    if (below(8) == 0)
        t.code = 5012;
    else if (t.which == 0) {
        t.place = 1 + below(8);
        t.cut = below(2);
    }
    return t;
}

/* Now and then a number is another than the server would give. */
static struct wm_told odd_result(void) {
    struct wm_told t = result();
    switch (below(40)) {
    case 0:
        t.place = below(3);
        break;
    case 1:
        t.cut = below(3);
        break;
    case 2:
        t.code = 2000 + below(3);
        break;
    case 3:
        t.kind = below(3);
        break;
    case 4:
        t.hour = 20 + below(5);
        break;
    }
    return t;
}

/* ---- lines ---- */

static const struct line {
    const char *name;
    size_t results;
    uint32_t last_hour, number;
} lines[] = {
    {"report: a result", 1, 23, 0},
    {"report: 100 results", RESULTS, 23, 0},
    {"report: 100 results, the last at hour 24", RESULTS, 24, WM_HOUR_OVER_23},
};
enum { LINES = sizeof lines / sizeof *lines };

static void set_up(const struct line *line) {
    begin_chance(1);
    memset(reports, 0, sizeof reports);
    for (size_t i = 0; i < line->results; i++)
        told[i] = result();
    told[line->results - 1].hour = line->last_hour;
}

size_t tally_lines(void) {
    return LINES;
}

const char *tally_name(size_t line) {
    return lines[line].name;
}

/* ---- checking ---- */

static bool same_reports(void) {
    return memcmp(&reports[0], &reports[1], sizeof reports[0]) == 0;
}

static bool agree(size_t length, uint32_t *number) {
    *number = libraries[0].count(&reports[0], told, length);
    return libraries[1].count(&reports[1], told, length) == *number && same_reports();
}

/* Both libraries on each line. */
int tally_check(void) {
    for (const struct line *line = lines; line < lines + LINES; line++) {
        uint32_t number;
        set_up(line);
        for (size_t i = 0; i < 3; i++)
            if (!agree(line->results, &number) || number != line->number) {
                printf("%s: not as expected, or the libraries differ; the proved one said %u\n", line->name, number);
                return 1;
            }
    }
    return 0;
}

/* A report that was lent may hold anything: now and then a total is near 64 bits, and now and then all are 0 again. */
static void disturb(void) {
    if (below(8) == 0)
        reports[0].totals[below(24)][below(4)] = 0 - (uint64_t)below(200);
    if (below(8) == 0)
        memset(&reports[0], 0, sizeof reports[0]);
    reports[1] = reports[0];
}

/* Both libraries on lists by chance, of none to all results. */
int tally_mix(uint32_t lists, uint64_t from) {
    uint32_t given[3] = {0};
    begin_chance(from);
    for (uint32_t n = 0; n < lists; n++) {
        uint32_t number;
        size_t length = below(RESULTS + 1);
        for (size_t i = 0; i < length; i++)
            told[i] = odd_result();
        disturb();
        if (!agree(length, &number)) {
            printf("mix: list %u of seed %llu: the libraries differ; the proved one said %u\n", n, (unsigned long long)from, number);
            return 1;
        }
        given[number == 0 ? 0 : number - 28]++;
    }
    printf("mix: %u lists, none differ, %u of them counted, %u refused by 29 and %u by 30\n", lists, given[0], given[1], given[2]);
    return given[0] == 0 || given[1] == 0 || given[2] == 0;
}

/* ---- measuring ---- */

static uint32_t run(const struct line *line, count_function *count, struct wm_report *report, uint32_t calls) {
    uint32_t bad = 0;
    for (uint32_t n = 0; n < calls; n++)
        bad |= count(report, told, line->results) ^ line->number;
    return bad;
}

static uint64_t digest(const struct wm_report *report) {
    uint64_t h = 14695981039346656037u;
    for (size_t i = 0; i < 96; i++)
        h = (h ^ report->totals[i / 4][i % 4]) * 1099511628211u;
    return h;
}

/* The calls of one library that are counted. Of the empty one nothing is expected. */
int tally_count(size_t line, const char *library, uint32_t calls) {
    for (size_t k = 0; k < 3; k++)
        if (!strcmp(library, libraries[k].name)) {
            set_up(&lines[line]);
            uint32_t bad = run(&lines[line], libraries[k].count, &reports[0], calls);
            printf("%016lx\n", (unsigned long)digest(&reports[0]));
            return k < 2 && bad;
        }
    return 2;
}

/* The shortest of many short runs for each, as in driver.c. */
static int time_line(const struct line *line) {
    double best[3] = {1e9, 1e9, 1e9};
    set_up(line);
    for (uint32_t turn = 0; turn < 60; turn++) {
        uint32_t bad[3];
        for (size_t k = 0; k < 3; k++) {
            double from = seconds();
            bad[k] = run(line, libraries[k].count, &reports[k % 2], CALLS);
            double took = (seconds() - from) / CALLS;
            best[k] = took < best[k] ? took : best[k];
        }
        if (bad[0] || bad[1] || !same_reports()) {
            printf("%s: not as expected while it was measured\n", line->name);
            return 1;
        }
    }
    double proved = best[0] - best[2], plain = best[1] - best[2];
    printf("%s\t%.0f\t%.0f\t%.2f\n", line->name, proved * 1e9, plain * 1e9, proved / plain);
    return 0;
}

int tally_time(void) {
    for (const struct line *line = lines; line < lines + LINES; line++)
        if (time_line(line))
            return 1;
    return 0;
}
