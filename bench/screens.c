/* The screen board: lists of screens fed and counted by the proved library and by the plain C. After each call both must have given the same number and
 * left the same bytes. */
#include "plain.h"

int printf(const char *, ...);
int strcmp(const char *, const char *);
double seconds(void);             /* driver.c */
uint32_t below(uint32_t n);       /* mix.c */
void begin_chance(uint64_t from); /* mix.c */

enum { MOST = 66, CALLS = 60 };
enum what { REQUEST, RESULT, NOTICE, CONNECTED, WHATS };

typedef uint32_t request_function(struct wm_screen *, size_t, uint32_t, const uint8_t *, size_t);
typedef uint32_t result_function(struct wm_screen *, size_t, uint32_t, const uint8_t *, size_t, uint32_t, uint32_t, uint32_t);
typedef uint32_t notice_function(struct wm_screen *, size_t, const uint8_t *, size_t);
typedef struct wm_connected connected_function(const struct wm_screen *, size_t);

/* What a call costs without a library: the loop around it. */
static uint32_t none_request(struct wm_screen *s, size_t sl, uint32_t w, const uint8_t *t, size_t tl) {
    (void)s, (void)sl, (void)w, (void)t, (void)tl;
    return 0;
}

static uint32_t none_result(struct wm_screen *s, size_t sl, uint32_t w, const uint8_t *t, size_t tl, uint32_t c, uint32_t k, uint32_t p) {
    (void)s, (void)sl, (void)w, (void)t, (void)tl, (void)c, (void)k, (void)p;
    return 0;
}

static uint32_t none_notice(struct wm_screen *s, size_t sl, const uint8_t *t, size_t tl) {
    (void)s, (void)sl, (void)t, (void)tl;
    return 0;
}

static struct wm_connected none_connected(const struct wm_screen *s, size_t sl) {
    (void)s, (void)sl;
    return (struct wm_connected){0};
}

/* volatile: as in driver.c. */
static const struct library {
    const char *name;
    request_function *volatile request;
    result_function *volatile result;
    notice_function *volatile notice;
    connected_function *volatile connected;
} libraries[3] = {{"proved", wm_screen_request, wm_screen_result, wm_screen_notice, wm_screens_connected},
                  {"plain", plain_screen_request, plain_screen_result, plain_screen_notice, plain_screens_connected},
                  {"none", none_request, none_result, none_notice, none_connected}};

static struct wm_screen lists[2][MOST];

/* What a call brings beside the list. */
static struct call {
    enum what what;
    size_t screens;
    uint32_t which, code, kind, place;
    uint8_t session[130];
    size_t session_length;
} call;

static inline struct wm_connected made(const struct library *library, struct wm_screen *list) {
    switch (call.what) {
    case REQUEST:
        return (struct wm_connected){library->request(list, call.screens, call.which, call.session, call.session_length), 0};
    case RESULT:
        return (struct wm_connected){library->result(list, call.screens, call.which, call.session, call.session_length, call.code, call.kind, call.place), 0};
    case NOTICE:
        return (struct wm_connected){library->notice(list, call.screens, call.session, call.session_length), 0};
    default:
        return library->connected(list, call.screens);
    }
}

static bool same_lists(void) {
    return memcmp(lists[0], lists[1], sizeof lists[0]) == 0;
}

static bool agree(struct wm_connected *said) {
    struct wm_connected other = made(&libraries[1], lists[1]);
    *said = made(&libraries[0], lists[0]);
    return said->number == other.number && said->screens == other.screens && same_lists();
}

/* ---- lines ---- */

/* The last screen of the list is the one that is fed: from the state `before` to `after`. What is said is `number`, and how many are connected. */
static const struct line {
    const char *name;
    enum what what;
    size_t screens;
    uint32_t number, connected, before, after;
} lines[] = {
    {"board: a request", REQUEST, 64, 0, 0, WM_CUT, WM_ASKED},
    {"board: its result", RESULT, 64, 0, 0, WM_ASKED, WM_CONNECTED},
    {"board: a notice", NOTICE, 64, 0, 0, WM_CONNECTED, WM_CUT},
    {"board: how many are connected", CONNECTED, 64, 0, 64, WM_CONNECTED, WM_CONNECTED},
    {"board: a request, 8 screens", REQUEST, 8, 0, 0, WM_CUT, WM_ASKED},
    {"board: a request, refused: 65 screens", REQUEST, 65, WM_SCREENS, 0, WM_CUT, WM_CUT},
    {"board: its result, refused: 65 screens", RESULT, 65, WM_SCREENS, 0, WM_ASKED, WM_ASKED},
    {"board: a notice, refused: 65 screens", NOTICE, 65, WM_SCREENS, 0, WM_CONNECTED, WM_CONNECTED},
    {"board: how many, refused: 65 screens", CONNECTED, 65, WM_SCREENS, 0, WM_CONNECTED, WM_CONNECTED},
};
enum { LINES = sizeof lines / sizeof *lines };

/* The usual Session-Id of 72 bytes, as in driver.c. */
static void put_session(uint8_t *to, uint32_t number) {
    memcpy(to, "pdg1.wlan.mnc001.mcc001.3gppnetwork.org;3402123456;0000000000;tunnel-aaa", 72);
    for (size_t i = 60; number != 0; i--, number /= 10)
        to[i] = (uint8_t)('0' + number % 10);
}

static void set_up(const struct line *line) {
    memset(lists, 0, sizeof lists);
    for (size_t i = 0; i < line->screens; i++) {
        lists[0][i].state = WM_CONNECTED;
        lists[0][i].place = 1 + i % 8;
        lists[0][i].session_length = 72;
        put_session(lists[0][i].session, (uint32_t)i);
    }
    memcpy(lists[1], lists[0], sizeof lists[0]);
    call = (struct call){.what = line->what, .screens = line->screens, .which = 0, .code = 2001, .kind = WM_RESULT_CODE, .place = 8, .session_length = 72};
    put_session(call.session, (uint32_t)line->screens - 1);
}

size_t screens_lines(void) {
    return LINES;
}

const char *screens_name(size_t line) {
    return lines[line].name;
}

/* So many calls of a line, the screen set back before each; what is wrong, 0 if nothing is, without a branch, as in driver.c. */
static uint32_t run(const struct line *line, const struct library *library, struct wm_screen *list, uint32_t calls) {
    struct wm_screen *fed = &list[line->screens - 1];
    uint32_t bad = 0;
    for (uint32_t n = 0; n < calls; n++) {
        fed->state = line->before;
        struct wm_connected said = made(library, list);
        bad |= (said.number ^ line->number) | (said.screens ^ line->connected) | (fed->state ^ line->after);
    }
    return bad;
}

/* Both libraries on each line. */
int screens_check(void) {
    for (const struct line *line = lines; line < lines + LINES; line++) {
        set_up(line);
        if (run(line, &libraries[0], lists[0], 3) | run(line, &libraries[1], lists[1], 3) || !same_lists()) {
            printf("%s: not as expected, or the libraries differ\n", line->name);
            return 1;
        }
    }
    return 0;
}

/* ---- by chance ---- */

/* A Session-Id of a few that are alike, now and then of a length that none may have. */
static size_t odd_session(uint8_t *to) {
    static const size_t lengths[] = {0, 1, 7, 8, 127, 128, 129};
    size_t length = below(60) == 0 ? lengths[below(7)] : 8 + below(2) * 7;
    memset(to, 'a', length);
    for (uint32_t i = 0; i < 2 && length > 0; i++)
        to[below((uint32_t)length)] = (uint8_t)('a' + below(26));
    return length;
}

static void odd_screen(struct wm_screen *s) {
    uint8_t session[130];
    size_t length = odd_session(session);
    *s = (struct wm_screen){.state = below(16) == 0 ? below(6) : below(4), .place = below(10), .session_length = (uint32_t)length};
    memcpy(s->session, session, length < 128 ? length : 128);
}

/* A list of none to 66 screens, mostly few, now and then with one of them twice, and a call that often brings a Session-Id of it. */
static void odd_call(void) {
    call = (struct call){.what = (enum what)below(WHATS), .screens = below(8) == 0 ? below(MOST + 1) : below(9), .which = below(2) ? 0 : below(4),
                         .code = below(3) == 0 ? 5003 : 2001, .kind = below(4) == 0 ? below(3) : WM_RESULT_CODE, .place = below(11)};
    memset(lists, 0, sizeof lists);
    for (size_t i = 0; i < call.screens; i++)
        odd_screen(&lists[0][i]);
    if (call.screens != 0 && below(8) == 0)
        lists[0][below((uint32_t)call.screens)] = lists[0][below((uint32_t)call.screens)];
    memcpy(lists[1], lists[0], sizeof lists[0]);
    call.session_length = odd_session(call.session);
    if (call.screens != 0 && below(4) != 0) {
        const struct wm_screen *s = &lists[0][below((uint32_t)call.screens)];
        call.session_length = s->session_length < 128 ? s->session_length : 128;
        memcpy(call.session, s->session, call.session_length);
    }
}

/* Both libraries on calls by chance. */
int screens_mix(uint32_t calls, uint64_t from) {
    uint32_t fed = 0, unknown = 0, refused = 0;
    begin_chance(from);
    for (uint32_t n = 0; n < calls; n++) {
        struct wm_connected said;
        odd_call();
        if (!agree(&said)) {
            printf("mix: call %u of the board, seed %llu: the libraries differ; the proved one said %u\n", n, (unsigned long long)from, said.number);
            return 1;
        }
        fed += said.number == 0;
        unknown += said.number == 24;
        refused += said.number == 25;
    }
    printf("mix: %u calls of the board, none differ, %u of them refused by 24 and %u by 25\n", calls, unknown, refused);
    return fed == 0 || unknown == 0 || refused == 0;
}

/* ---- measuring ---- */

static uint64_t digest(void) {
    uint64_t h = 14695981039346656037u;
    for (size_t i = 0; i < sizeof lists[0]; i++)
        h = (h ^ ((const uint8_t *)lists[0])[i]) * 1099511628211u;
    return h;
}

/* The calls of one library that are counted. Of the empty one nothing is expected. */
int screens_count(size_t line, const char *library, uint32_t calls) {
    for (size_t k = 0; k < 3; k++)
        if (!strcmp(library, libraries[k].name)) {
            set_up(&lines[line]);
            uint32_t bad = run(&lines[line], &libraries[k], lists[0], calls);
            printf("%016lx\n", (unsigned long)digest());
            return k < 2 && bad;
        }
    return 2;
}

/* The shortest of many short runs for each, as in driver.c. */
static int time_line(const struct line *line) {
    double best[3] = {1e9, 1e9, 1e9};
    uint32_t calls = line->number == 0 ? CALLS : 50 * CALLS; /* a refusal is over at once */
    set_up(line);
    for (uint32_t turn = 0; turn < 60; turn++) {
        uint32_t bad[3];
        for (size_t i = 0; i < 3; i++) {
            size_t k = (i + 2) % 3; /* the empty one first: it leaves a screen as it was */
            double from = seconds();
            bad[k] = run(line, &libraries[k], lists[k % 2], calls);
            double took = (seconds() - from) / calls;
            best[k] = took < best[k] ? took : best[k];
        }
        if (bad[0] || bad[1] || !same_lists()) {
            printf("%s: not as expected while it was measured\n", line->name);
            return 1;
        }
    }
    double proved = best[0] - best[2], plain = best[1] - best[2];
    printf("%s\t%.0f\t%.0f\t%.2f\n", line->name, proved * 1e9, plain * 1e9, proved / plain);
    return 0;
}

int screens_time(void) {
    for (const struct line *line = lines; line < lines + LINES; line++)
        if (time_line(line))
            return 1;
    return 0;
}
