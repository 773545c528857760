/* Runs the proved library and the plain C of server.c on the same calls.
 *
 *   driver lines                   the names of the lines
 *   driver check                   every line and both libraries: outcomes, tables, answer and notice rooms are the same, and
 *                                  the outcome is the one expected
 *   driver mix CALLS SEED          the same on calls by chance (mix.c)
 *   driver tally LISTS SEED        the same on lists of results by chance, counted into a report (tally.c)
 *   driver board CALLS SEED        the same on lists of screens by chance, fed and counted (screens.c)
 *   driver answers FILE CALLS      the proved library's answers to such calls, one behind the other, into a file
 *   driver aborts FILE CALLS       its Abort-Session-Requests for the cuts of such calls on a table of form 2, the same way
 *   driver reauths FILE CALLS      its Re-Auth-Answers and AA-Requests for Re-Auth-Requests by chance, the same way
 *   driver count LINE LIBRARY N    N calls of one line, for the counting of instructions; LIBRARY is proved, plain or none
 *   driver time                    one table of time ratios, the libraries measured in turn
 */
#include "requests.h"

int printf(const char *, ...);
int strcmp(const char *, const char *);
unsigned long strtoul(const char *, char **, int);
struct timespec {
    long tv_sec, tv_nsec;
};
int clock_gettime(int, struct timespec *);
int mix(uint32_t calls, uint64_t seed, const char *written, bool aborts);
int re_auths(uint32_t calls, const char *written);
/* the lines of the report, behind those of this file */
size_t tally_lines(void);
const char *tally_name(size_t line);
int tally_check(void);
int tally_mix(uint32_t lists, uint64_t seed);
int tally_count(size_t line, const char *library, uint32_t calls);
int tally_time(void);
/* and those of the screen board, behind them */
size_t screens_lines(void);
const char *screens_name(size_t line);
int screens_check(void);
int screens_mix(uint32_t calls, uint64_t seed);
int screens_count(size_t line, const char *library, uint32_t calls);
int screens_time(void);
enum { CLOCK_MONOTONIC = 1 };

enum { ROWS = 1024, MESSAGES = 12, MOVED = 64 };
enum { BURST = 100, ANSWERS = BURST * 512 + WM_ANSWER_LEAST, NOTICES = BURST * WM_NOTICE_2_LEAST }; /* rooms that let a burst in */

typedef struct wm_outcome handle_function(uint8_t *, size_t, uint32_t, uint32_t, const uint8_t *, size_t, const uint8_t *, size_t,
                                          const uint8_t *, size_t, bool, uint8_t *, size_t, uint8_t *, size_t);
typedef struct wm_taken burst_function(uint8_t *, size_t, uint32_t, uint32_t, const uint8_t *, size_t, const uint8_t *, size_t, const uint8_t *,
                                       size_t, const uint8_t *, size_t, uint8_t *, size_t, uint8_t *, size_t, struct wm_outcome *, size_t);
typedef uint32_t move_function(const uint8_t *, size_t, uint8_t *, size_t, uint32_t);
typedef struct wm_written abort_function(const uint8_t *, size_t, const uint8_t *, size_t, const uint8_t *, size_t, uint32_t, uint32_t,
                                         uint32_t, uint32_t, uint32_t, uint8_t *, size_t);
typedef struct wm_reauthorized reauth_function(const uint8_t *, size_t, const uint8_t *, size_t, const uint8_t *, size_t, const uint8_t *, size_t,
                                               const uint8_t *, size_t, const uint8_t *, size_t, const uint8_t *, size_t, uint32_t, uint32_t,
                                               uint8_t *, size_t, uint8_t *, size_t);
typedef uint32_t answered_function(const uint8_t *, size_t, const uint8_t *, size_t, uint32_t, uint32_t);
typedef struct wm_judged judge_function(uint8_t *, size_t, const uint8_t *, size_t, uint32_t, uint32_t, const uint8_t *, size_t, const uint8_t *,
                                        size_t, const uint8_t *, size_t, bool, const uint8_t *, size_t, const uint8_t *, size_t, uint8_t *, size_t,
                                        uint8_t *, size_t);

/* What a call costs without a library: the loop around it. */
static struct wm_outcome none_handle(uint8_t *t, size_t tl, uint32_t f, uint32_t op, const uint8_t *h, size_t hl, const uint8_t *r, size_t rl,
                                     const uint8_t *m, size_t ml, bool w, uint8_t *a, size_t al, uint8_t *n, size_t nl) {
    (void)t, (void)tl, (void)f, (void)op, (void)h, (void)hl, (void)r, (void)rl, (void)m, (void)ml, (void)w, (void)a, (void)al, (void)n, (void)nl;
    return (struct wm_outcome){0};
}

static struct wm_taken none_burst(uint8_t *t, size_t tl, uint32_t f, uint32_t op, const uint8_t *h, size_t hl, const uint8_t *r, size_t rl,
                                  const uint8_t *m, size_t ml, const uint8_t *w, size_t wl, uint8_t *a, size_t al, uint8_t *n, size_t nl,
                                  struct wm_outcome *o, size_t ol) {
    (void)t, (void)tl, (void)f, (void)op, (void)h, (void)hl, (void)r, (void)rl, (void)m, (void)ml, (void)w, (void)wl, (void)a, (void)al, (void)n, (void)nl;
    (void)o, (void)ol;
    return (struct wm_taken){0};
}

static uint32_t none_move(const uint8_t *t, size_t tl, uint8_t *to, size_t tol, uint32_t f) {
    (void)t, (void)tl, (void)to, (void)tol, (void)f;
    return 0;
}

static struct wm_written none_abort(const uint8_t *h, size_t hl, const uint8_t *r, size_t rl, const uint8_t *n, size_t nl, uint32_t cs,
                                    uint32_t ch, uint32_t cr, uint32_t hop, uint32_t end, uint8_t *to, size_t tol) {
    (void)h, (void)hl, (void)r, (void)rl, (void)n, (void)nl, (void)cs, (void)ch, (void)cr, (void)hop, (void)end, (void)to, (void)tol;
    return (struct wm_written){0};
}

static uint32_t none_answered(const uint8_t *a, size_t al, const uint8_t *s, size_t sl, uint32_t hop, uint32_t end) {
    (void)a, (void)al, (void)s, (void)sl, (void)hop, (void)end;
    return 0;
}

static struct wm_reauthorized none_reauth(const uint8_t *h, size_t hl, const uint8_t *r, size_t rl, const uint8_t *s, size_t sl, const uint8_t *u,
                                          size_t ul, const uint8_t *l, size_t ll, const uint8_t *v, size_t vl, const uint8_t *m, size_t ml,
                                          uint32_t hop, uint32_t end, uint8_t *a, size_t al, uint8_t *q, size_t ql) {
    (void)h, (void)hl, (void)r, (void)rl, (void)s, (void)sl, (void)u, (void)ul, (void)l, (void)ll, (void)v, (void)vl, (void)m, (void)ml;
    (void)hop, (void)end, (void)a, (void)al, (void)q, (void)ql;
    return (struct wm_reauthorized){0};
}

static struct wm_judged none_judge(uint8_t *t, size_t tl, const uint8_t *u, size_t ul, uint32_t f, uint32_t op, const uint8_t *h, size_t hl,
                                   const uint8_t *r, size_t rl, const uint8_t *m, size_t ml, bool w, const uint8_t *ta, size_t tal,
                                   const uint8_t *tn, size_t tnl, uint8_t *a, size_t al, uint8_t *n, size_t nl) {
    (void)t, (void)tl, (void)u, (void)ul, (void)f, (void)op, (void)h, (void)hl, (void)r, (void)rl, (void)m, (void)ml, (void)w, (void)ta, (void)tal;
    (void)tn, (void)tnl, (void)a, (void)al, (void)n, (void)nl;
    return (struct wm_judged){0};
}

/* volatile: the compiler must not see which function it is, or it takes the loop around the empty one away. */
static const struct library {
    const char *name;
    handle_function *volatile handle;
    burst_function *volatile burst;
    move_function *volatile move;
    abort_function *volatile abort;
    answered_function *volatile answered;
    reauth_function *volatile reauth;
    judge_function *volatile judge;
} libraries[3] = {{"proved", wm_handle, wm_burst, wm_move, wm_abort, wm_abort_answered, wm_reauth, wm_judge},
                  {"plain", plain_handle, plain_burst, plain_move, plain_abort, plain_abort_answered, plain_reauth, plain_judge},
                  {"none", none_handle, none_burst, none_move, none_abort, none_answered, none_reauth, none_judge}};

/* Everything that a library is lent. */
struct lent {
    uint8_t table[ROWS * WM_ROW_2], target[MOVED * WM_ROW_2], answer[ANSWERS], notice[NOTICES];
    struct wm_outcome results[BURST];
};
static struct lent lent[2];
static uint8_t saved[WM_ROW_2]; /* the subscriber's row as it was set up */

static struct request messages[MESSAGES];

/* The same messages in turn, back to back, and the word on each. */
static struct {
    uint8_t bytes[BURST * 512], wags[BURST];
    size_t at[BURST + 1];
} burst;

static const char host[] = "aaa1.wlan.mnc001.mcc001.3gppnetwork.org", realm[] = "wlan.mnc001.mcc001.3gppnetwork.org";
static const char gateway[] = "pdg1.wlan.mnc001.mcc001.3gppnetwork.org", label[] = "internet.operator.example";

/* ---- messages ---- */

/* The usual Session-Id: the gateway's name, two numbers and a mark, 72 bytes; `number` tells them apart. */
static void put_session(struct request *r, uint32_t number) {
    char text[] = "pdg1.wlan.mnc001.mcc001.3gppnetwork.org;3402123456;0000000000;tunnel-aaa";
    for (size_t i = strlen(text) - 12; number != 0; i--, number /= 10)
        text[i] = (char)('0' + number % 10);
    put_text(r, 263, text);
}

/* Names of 15 digits that differ in the last ones. */
static const uint8_t *name_of(uint32_t row) {
    static uint8_t name[15];
    memcpy(name, "001010123450000", 15);
    for (size_t i = 14; row != 0; i--, row /= 10)
        name[i] = (uint8_t)('0' + row % 10);
    return name;
}

static void put_common(struct request *r, uint32_t session, bool termination) {
    put_session(r, session);
    put_value(r, 258, false, 1);
    put_text(r, 264, gateway);
    put_text(r, 296, realm);
    put_text(r, 283, realm);
    put_value(r, termination ? 295 : 274, false, termination ? 1 : 2);
    put_text(r, 293, host);
}

/* 388 bytes. */
static void put_opening(uint32_t i, uint32_t session, uint32_t row) {
    struct request *r = &messages[i];
    start(r, 0xC0, 265, 1, i);
    put_common(r, session, false);
    put_avp(r, 1, false, name_of(row), 15);
    put_value(r, 311, true, 0);
    put_avp(r, 100, true, label, sizeof label - 1);
    finish(r);
}

static void put_policy(uint32_t i, uint32_t session, uint32_t row, const char *policy) {
    struct request *r = &messages[i];
    start(r, 0xC0, 265, 1, i);
    put_common(r, session, false);
    put_avp(r, 1, false, name_of(row), 15);
    put_value(r, 311, true, 1);
    put_avp(r, 312, true, policy, strlen(policy));
    finish(r);
}

static void put_termination(uint32_t i, uint32_t session, uint32_t row) {
    struct request *r = &messages[i];
    start(r, 0xC0, 275, 1, i);
    put_common(r, session, true);
    put_avp(r, 1, false, name_of(row), 15);
    put_avp(r, 100, true, label, sizeof label - 1);
    finish(r);
}

/* ---- lines ---- */

/* What a line calls: a request is handled, a hundred of them are, by a call each or by one for all, the table is moved to the other form, an Abort-Session-Request is written from the notice that `cut` has, with the
 * identifiers of the message, the message is an answer that is judged, or a Re-Auth-Request about the access that `held` has, or what `old` has, another server's answer to the request, is
 * held against ours. */
enum what { HANDLE, EACH, ALL, MOVE, WRITE, JUDGE, REAUTH, HOLD };

/* restore: the subscriber's row is set back before each call. form: of the table. */
struct line {
    const char *name;
    void (*set_up)(void);
    uint32_t rows, messages;
    bool restore;
    struct wm_outcome expected; /* length 0: not looked at */
    uint32_t form;
    enum what what;
};

/* The notice of a cut in form 2, and its lengths. */
static struct {
    uint8_t notice[WM_NOTICE_2_LEAST];
    uint32_t session, host, realm;
} cut;

/* The access that the gateway has: its Session-Id, and the visited network. */
static struct {
    uint8_t session[128];
    size_t session_length;
    const char *visited;
} held;

/* What another server did with the first message: its answer, which ends at `answer.length`, its notice and its row. */
static struct {
    struct request answer;
    uint8_t notice[WM_NOTICE_2_LEAST], after[WM_ROW_2];
    size_t notice_length;
} old;

static uint8_t *table;
static uint32_t rows, form;

static size_t row_of(uint32_t of_form) {
    return of_form == 1 ? WM_ROW : WM_ROW_2;
}

static size_t notice_of(uint32_t of_form) {
    return of_form == 1 ? WM_NOTICE_LEAST : WM_NOTICE_2_LEAST;
}

/* One row of the operator, as a table by itself, with this name. */
static void enter(uint8_t *row, uint32_t op, const uint8_t *name) {
    uint32_t shares[16] = {0};
    shares[op] = 1;
    plain_clear(row, row_of(form), form);
    plain_enter(row, row_of(form), form, op, shares, 16, name, 15);
}

/* The subscriber of a row gets two W-APNs, the first with `limit` places, of which `open` are in use. */
static void fill_row(uint32_t i, uint8_t limit, uint32_t open) {
    static uint8_t answer[WM_ANSWER_LEAST], notice[WM_NOTICE_2_LEAST];
    size_t size = row_of(form);
    uint8_t *row = table + i * size;
    plain_add(row, size, form, 0, name_of(i), 15, (const uint8_t *)label, sizeof label - 1, limit, 2);
    if (limit < 8)
        plain_add(row, size, form, 0, name_of(i), 15, (const uint8_t *)"corporate.example", 17, 1, 0);
    for (uint32_t k = 0; k < open; k++) {
        put_opening(0, k, i);
        plain_handle(row, size, form, 0, (const uint8_t *)host, sizeof host - 1, (const uint8_t *)realm, sizeof realm - 1,
                     messages[0].bytes, messages[0].length, true, answer, sizeof answer, notice, sizeof notice);
    }
}

/* Subscribers of operator 0 in every row; the last one has two W-APNs, the first with `limit` places, of which `open` are in use. */
static void subscribers(uint8_t limit, uint32_t open) {
    for (uint32_t i = 0; i < rows; i++)
        enter(table + i * row_of(form), 0, name_of(i));
    fill_row(rows - 1, limit, open);
}

/* Twelve sessions in turn: each opening cuts the oldest one, and the row is in the same state after twelve. */
static void openings(uint32_t open) {
    for (uint32_t i = 0; i < MESSAGES; i++)
        put_opening(i, (open + i) % MESSAGES, rows - 1);
}

static void cutting(void) {
    subscribers(2, 2);
    openings(2);
}

/* A hundred of them: no session comes again while it stands. */
static void cutting_hundred(void) {
    cutting();
    for (size_t i = 0; i < BURST; i++) {
        const struct request *r = &messages[i % MESSAGES];
        memcpy(burst.bytes + burst.at[i], r->bytes, r->length);
        burst.at[i + 1] = burst.at[i] + r->length;
        burst.wags[i] = 1;
    }
}

/* All other rows have the same name, of the other operators in turn. */
static void cutting_namesake(void) {
    cutting();
    for (uint32_t i = 0; i + 1 < rows; i++)
        enter(table + i * row_of(form), 1 + i % 15, name_of(rows - 1));
}

static void cutting_full(void) {
    subscribers(8, 8);
    openings(8);
}

/* The W-APN, the last AVP of 25 bytes and 3 of padding, is typed in capitals. */
static void cutting_capitals(void) {
    cutting();
    for (struct request *r = messages; r < messages + MESSAGES; r++)
        for (uint8_t *letter = r->bytes + r->length - 28; letter < r->bytes + r->length - 3; letter++)
            if (*letter >= 'a' && *letter <= 'z')
                *letter -= 32;
}

static void opening_first(void) {
    subscribers(2, 0);
    openings(0);
}

static void policies(void) {
    subscribers(2, 2);
    put_policy(0, 1, rows - 1, "permit out 50 from 10.20.30.40 to 192.0.2.0/24");
    put_policy(1, 1, rows - 1, "permit in 50 from 192.0.2.0/24 to 10.20.30.40 4500");
}

/* Three policies at a time. */
static void three_policies(void) {
    policies();
    for (struct request *r = messages; r < messages + 2; r++) {
        put_avp(r, 312, true, "permit out 17 from 10.20.30.40 to 192.0.2.1 53", 46);
        put_avp(r, 312, true, "deny out ip from 10.20.30.40 to any", 35);
        finish(r);
    }
}

/* Every row has two accesses, which say no more than form 1 can: a table of form 2 is one that was moved there. */
static void full_table(void) {
    static uint8_t moved[MOVED * WM_ROW_2];
    uint32_t to = form;
    form = 1;
    subscribers(2, 2);
    for (uint32_t i = 0; i + 1 < rows; i++)
        fill_row(i, 2, 2);
    form = to;
    if (form == 2) {
        plain_move(table, rows * WM_ROW, moved, rows * WM_ROW_2, 2);
        memcpy(table, moved, rows * WM_ROW_2);
    }
}

static void terminations(void) {
    subscribers(2, 2);
    put_termination(0, 0, rows - 1);
}

static void wrong_header(void) {
    cutting();
    messages[0].bytes[4] |= 1;
}

static void wrong_length(void) {
    cutting();
    messages[0].bytes[3] ^= 4;
}

/* The last AVP that is asked for, the W-APN, has another vendor, and no M. */
static void no_label(void) {
    cutting();
    messages[0].bytes[messages[0].length - 29] ^= 1;
    messages[0].bytes[messages[0].length - 36] ^= 0x40;
}

static void bare(void) {
    cutting();
    start(&messages[0], 0xC0, 265, 1, 0);
    finish(&messages[0]);
}

/* An AVP without V and without a value. */
static void put_bare(struct request *r, uint32_t code, uint32_t flags) {
    put_number(r, 4, code);
    put_number(r, 1, flags);
    put_number(r, 3, 8);
}

/* AVPs that are not known, without M, as many as there is room for. */
static void put_tiny(struct request *r) {
    while (r->length + 8 <= MESSAGE_MOST)
        put_bare(r, 33, 0);
    finish(r);
}

/* AVPs that no list names and that are known, with M, as many as there is room for. */
static void put_known(struct request *r) {
    static const uint16_t codes[] = {32, 4, 278, 25, 61, 5, 282, 30, 31, 276, 7, 12, 401};
    for (size_t i = 0; r->length + 8 <= MESSAGE_MOST; i++)
        put_bare(r, codes[i % (sizeof codes / sizeof *codes)], 0x40);
    finish(r);
}

static void tiny_refused(void) {
    cutting();
    start(&messages[0], 0xC0, 265, 1, 0);
    put_tiny(&messages[0]);
}

/* The last one has M. */
static void last_refused(void) {
    tiny_refused();
    messages[0].bytes[MESSAGE_MOST - 8] |= 0x40;
}

static void known_opened(void) {
    cutting();
    for (size_t i = 0; i < MESSAGES; i++)
        put_known(&messages[i]);
}

static void tiny_opened(void) {
    cutting();
    for (size_t i = 0; i < MESSAGES; i++)
        put_tiny(&messages[i]);
}

/* Proxy-Infos, each followed by a Route-Record where they stand apart. */
static void put_proxies(size_t count, bool apart) {
    cutting();
    for (struct request *r = messages; r < messages + MESSAGES; r++) {
        for (size_t i = 0; i < count; i++) {
            put_proxy_info(r);
            if (apart)
                put_text(r, 282, "relay.example.org");
        }
        finish(r);
    }
}

static void many_proxies(void) {
    put_proxies(64, false);
}

static void proxies_apart(void) {
    put_proxies(40, true);
}

static void unknown(void) {
    cutting();
    put_opening(0, 3, rows);
}

/* A byte of the newest access's Session-Id is another. */
static void unsound(void) {
    cutting();
    table[(rows - 1) * row_of(form) + (size_t)form * 512 + 512 + 8 + 70] ^= 1;
}

/* The Session-Id of the answers, which is that of the notice: the gateway's name, two numbers and a mark. */
static void put_cut(uint32_t session) {
    static struct request r;
    r.length = 0;
    put_session(&r, session);
    memset(cut.notice, 0, sizeof cut.notice);
    memcpy(cut.notice, r.bytes + 8, cut.session = 72);
    memcpy(cut.notice + 128, gateway, cut.host = sizeof gateway - 1);
    memcpy(cut.notice + 256, realm, cut.realm = sizeof realm - 1);
}

/* The identifiers stand in the messages. */
static void disconnecting(void) {
    subscribers(2, 2);
    put_cut(7);
    for (uint32_t i = 0; i < MESSAGES; i++)
        start(&messages[i], 0xC0, 274, 1, i);
}

static void disconnecting_longest(void) {
    disconnecting();
    memset(cut.notice, 'x', sizeof cut.notice);
    cut.session = cut.host = cut.realm = 128;
}

/* An access that came from a move has no realm. */
static void disconnecting_moved(void) {
    disconnecting();
    cut.realm = 0;
}

/* An Abort-Session-Answer as a gateway gives it. */
static void put_answer(uint32_t i, uint32_t session) {
    struct request *r = &messages[i];
    start(r, 0x40, 274, 1, i);
    put_session(r, session);
    put_value(r, 268, false, 2001);
    put_text(r, 264, gateway);
    put_text(r, 296, realm);
    finish(r);
}

static void answered(void) {
    disconnecting();
    for (uint32_t i = 0; i < MESSAGES; i++)
        put_answer(i, 7);
}

/* The last AVP is a second Result-Code. */
static void answered_twice(void) {
    answered();
    for (struct request *r = messages; r < messages + MESSAGES; r++) {
        put_value(r, 268, false, 2001);
        finish(r);
    }
}

static void answered_another(void) {
    answered();
    for (uint32_t i = 0; i < MESSAGES; i++)
        put_answer(i, 8);
}

static void answered_tiny(void) {
    answered();
    for (struct request *r = messages; r < messages + MESSAGES; r++)
        put_tiny(r);
}

/* A Re-Auth-Request as a server sends it. */
static void put_re_auth(uint32_t i, uint32_t session, uint32_t type) {
    struct request *r = &messages[i];
    start(r, 0xC0, 258, 1, i);
    put_session(r, session);
    put_value(r, 258, false, 1);
    put_text(r, 264, host);
    put_text(r, 296, realm);
    put_text(r, 283, realm);
    put_text(r, 293, gateway);
    put_value(r, 285, false, type);
    finish(r);
}

/* The access is that of session 7; at home. */
static void re_authorizing(void) {
    subscribers(2, 0);
    for (uint32_t i = 0; i < MESSAGES; i++)
        put_re_auth(i, 7, 0);
    held.session_length = 72;
    memcpy(held.session, messages[0].bytes + 28, 72);
    held.visited = "";
}

static void re_authorizing_abroad(void) {
    re_authorizing();
    held.visited = "wlan.mnc002.mcc002.3gppnetwork.org";
}

static void re_authorizing_another(void) {
    re_authorizing();
    for (uint32_t i = 0; i < MESSAGES; i++)
        put_re_auth(i, 8, 0);
}

static void re_authenticating(void) {
    re_authorizing();
    for (uint32_t i = 0; i < MESSAGES; i++)
        put_re_auth(i, 7, 1);
}

static void re_authorizing_tiny(void) {
    re_authorizing();
    for (struct request *r = messages; r < messages + MESSAGES; r++)
        put_tiny(r);
}

static void re_authorizing_none(void) {
    re_authorizing();
    held.session_length = 0;
}

/* Another server that did what ours does, with an opening that cuts. */
static void hold_opening(void) {
    static uint8_t answer[WM_ANSWER_LEAST];
    memcpy(old.after, table, row_of(form));
    struct wm_outcome o = plain_handle(old.after, row_of(form), form, 0, (const uint8_t *)host, sizeof host - 1, (const uint8_t *)realm, sizeof realm - 1,
                                       messages[0].bytes, messages[0].length, true, answer, sizeof answer, old.notice, sizeof old.notice);
    memcpy(old.answer.bytes, answer, o.length);
    old.answer.length = o.length;
    old.notice_length = o.cut ? notice_of(form) : 0;
}

static void holding(void) {
    cutting();
    hold_opening();
}

/* The last byte of Subscription-Id's 15 digits, before one of padding. */
static void holding_last(void) {
    holding();
    old.answer.bytes[old.answer.length - 2] ^= 1;
}

/* So many bytes at the end of the old server's answer stand behind Session-Id, which ends at byte 100. */
static void turn(size_t bytes) {
    static uint8_t last[WM_ANSWER_LEAST];
    uint8_t *turned = old.answer.bytes + 100, *end = old.answer.bytes + old.answer.length;
    memcpy(last, end - bytes, bytes);
    for (uint8_t *p = end; p-- > turned + bytes;)
        *p = *(p - bytes);
    memcpy(turned, last, bytes);
}

/* The realm and Subscription-Id, the two last. */
static void holding_turned(void) {
    holding();
    turn(88);
}

/* AVPs of our own codes' neighbours, without M. */
static void holding_more(void) {
    struct request *r = &old.answer;
    holding();
    for (uint32_t code = 25; code < 45; code++) {
        put_number(r, 4, code);
        put_number(r, 4, 12);
        put_number(r, 4, code);
    }
    finish(r);
}

/* A Failed-AVP behind all, in it three more, one inside the other, and an AVP in the innermost. */
static void holding_groups(void) {
    struct request *r = &old.answer;
    holding();
    for (uint32_t depth = 4; depth > 0; depth--) {
        put_number(r, 4, 279);
        put_number(r, 1, 0x40);
        put_number(r, 3, 8 * depth + 12);
    }
    put_value(r, 268, false, 5012);
    finish(r);
}

static void holding_proxies(size_t count) {
    put_proxies(count, false);
    hold_opening();
}

static void holding_some_proxies(void) {
    holding_proxies(4);
}

static void holding_many_proxies(void) {
    holding_proxies(64);
}

static void holding_proxies_first(void) {
    size_t before;
    holding_proxies(0);
    before = old.answer.length;
    holding_proxies(64);
    turn(old.answer.length - before);
}

static const struct line lines[] = {
    {"opening with a cut, 1 row", cutting, 1, MESSAGES, false, {2001, 1, 0, 0, 1, 72, 39, 0}, 1, HANDLE},
    {"opening with a cut, 64 rows", cutting, 64, MESSAGES, false, {2001, 1, 0, 0, 1, 72, 39, 0}, 1, HANDLE},
    {"opening with a cut, 1,024 rows", cutting, 1024, MESSAGES, false, {2001, 1, 0, 0, 1, 72, 39, 0}, 1, HANDLE},
    {"opening with a cut, 1,024 rows of its name", cutting_namesake, 1024, MESSAGES, false, {2001, 1, 0, 0, 1, 72, 39, 0}, 1, HANDLE},
    {"opening with a cut, 8 accesses", cutting_full, 1, MESSAGES, false, {2001, 1, 0, 0, 1, 72, 39, 0}, 1, HANDLE},
    {"opening with a cut, W-APN in capitals", cutting_capitals, 1, MESSAGES, false, {2001, 1, 0, 0, 1, 72, 39, 0}, 1, HANDLE},
    {"opening without a cut, 1 row", opening_first, 1, MESSAGES, true, {2001, 1, 0, 1, 0, 0, 0, 0}, 1, HANDLE},
    {"opening without a cut, 1,024 rows", opening_first, 1024, MESSAGES, true, {2001, 1, 0, 1, 0, 0, 0, 0}, 1, HANDLE},
    {"policy", policies, 1, 2, false, {2001, 1, 0, 0, 0, 0, 0, 0}, 1, HANDLE},
    {"termination", terminations, 1, 1, true, {2001, 1, 0, 0, 0, 0, 0, 0}, 1, HANDLE},
    {"refused: number 7", wrong_length, 1, 1, false, {7, 0, 0, 0, 0, 0, 0, 0}, 1, HANDLE},
    {"refused: header flags", wrong_header, 1, 1, false, {5013, 1, 0, 0, 0, 0, 0, 0}, 1, HANDLE},
    {"refused: bare header", bare, 1, 1, false, {5005, 1, 0, 0, 0, 0, 0, 0}, 1, HANDLE},
    {"refused: no W-APN", no_label, 1, 1, false, {5005, 1, 0, 0, 0, 0, 0, 0}, 1, HANDLE},
    {"refused: 509 AVPs of 8 bytes", tiny_refused, 1, 1, false, {5005, 1, 0, 0, 0, 0, 0, 0}, 1, HANDLE},
    {"refused: the last of 509 AVPs", last_refused, 1, 1, false, {5001, 1, 0, 0, 0, 0, 0, 0}, 1, HANDLE},
    {"opening with a cut, 463 more AVPs", tiny_opened, 1, MESSAGES, false, {2001, 1, 0, 0, 1, 72, 39, 0}, 1, HANDLE},
    {"opening with a cut, 463 known AVPs with M", known_opened, 1, MESSAGES, false, {2001, 1, 0, 0, 1, 72, 39, 0}, 1, HANDLE},
    {"opening with a cut, 64 Proxy-Infos", many_proxies, 1, MESSAGES, false, {2001, 1, 0, 0, 1, 72, 39, 0}, 1, HANDLE},
    {"opening with a cut, 40 Proxy-Infos apart", proxies_apart, 1, MESSAGES, false, {2001, 1, 0, 0, 1, 72, 39, 0}, 1, HANDLE},
    {"unknown user, 1,024 rows", unknown, 1024, 1, false, {5001, 2, 0, 0, 0, 0, 0, 0}, 1, HANDLE},
    {"unsound row", unsound, 1, 1, false, {5012, 1, 0, 0, 0, 0, 0, 0}, 1, HANDLE},
    {"form 2: opening with a cut, 1 row", cutting, 1, MESSAGES, false, {2001, 1, 0, 0, 1, 72, 39, 34}, 2, HANDLE},
    {"form 2: opening with a cut, 1,024 rows", cutting, 1024, MESSAGES, false, {2001, 1, 0, 0, 1, 72, 39, 34}, 2, HANDLE},
    {"form 2: opening with a cut, 8 accesses", cutting_full, 1, MESSAGES, false, {2001, 1, 0, 0, 1, 72, 39, 34}, 2, HANDLE},
    {"form 2: opening without a cut", opening_first, 1, MESSAGES, true, {2001, 1, 0, 1, 0, 0, 0, 0}, 2, HANDLE},
    {"form 2: one policy", policies, 1, 2, false, {2001, 1, 0, 0, 0, 0, 0, 0}, 2, HANDLE},
    {"form 2: three policies", three_policies, 1, 2, false, {2001, 1, 0, 0, 0, 0, 0, 0}, 2, HANDLE},
    {"form 2: termination", terminations, 1, 1, true, {2001, 1, 0, 0, 0, 0, 0, 0}, 2, HANDLE},
    {"100 openings with a cut, a call each", cutting_hundred, 1, 1, false, {2001, 1, 0, 0, 1, 72, 39, 0}, 1, EACH},
    {"100 openings with a cut, one burst", cutting_hundred, 1, 1, false, {2001, 1, 0, 0, 1, 72, 39, 0}, 1, ALL},
    {"form 2: 100 openings, a call each", cutting_hundred, 1, 1, false, {2001, 1, 0, 0, 1, 72, 39, 34}, 2, EACH},
    {"form 2: 100 openings, one burst", cutting_hundred, 1, 1, false, {2001, 1, 0, 0, 1, 72, 39, 34}, 2, ALL},
    {"moving 64 rows to form 2", full_table, MOVED, 0, false, {0, 0, 0, 0, 0, 0, 0, 0}, 1, MOVE},
    {"moving 64 rows back to form 1", full_table, MOVED, 0, false, {0, 0, 0, 0, 0, 0, 0, 0}, 2, MOVE},
    {"writing an Abort-Session-Request", disconnecting, 1, MESSAGES, false, {0, 1, 0, 0, 0, 0, 0, 0}, 2, WRITE},
    {"writing one of the longest texts", disconnecting_longest, 1, MESSAGES, false, {0, 1, 0, 0, 0, 0, 0, 0}, 2, WRITE},
    {"writing one, refused: number 22", disconnecting_moved, 1, MESSAGES, false, {22, 0, 0, 0, 0, 0, 0, 0}, 2, WRITE},
    {"an answer to it that belongs", answered, 1, MESSAGES, false, {1, 0, 0, 0, 0, 0, 0, 0}, 2, JUDGE},
    {"an answer of another Session-Id", answered_another, 1, MESSAGES, false, {0, 0, 0, 0, 0, 0, 0, 0}, 2, JUDGE},
    {"an answer with two Result-Codes", answered_twice, 1, MESSAGES, false, {0, 0, 0, 0, 0, 0, 0, 0}, 2, JUDGE},
    {"an answer that belongs, 486 more AVPs", answered_tiny, 1, MESSAGES, false, {1, 0, 0, 0, 0, 0, 0, 0}, 2, JUDGE},
    {"re-authorization, going on", re_authorizing, 1, MESSAGES, false, {2001, 1, 0, 0, 0, 0, 0, 0}, 1, REAUTH},
    {"re-authorization, at a visited network", re_authorizing_abroad, 1, MESSAGES, false, {2001, 1, 0, 0, 0, 0, 0, 0}, 1, REAUTH},
    {"re-authorization, 482 more AVPs", re_authorizing_tiny, 1, MESSAGES, false, {2001, 1, 0, 0, 0, 0, 0, 0}, 1, REAUTH},
    {"re-authorization, refused: type 1", re_authenticating, 1, MESSAGES, false, {5004, 1, 0, 0, 0, 0, 0, 0}, 1, REAUTH},
    {"re-authorization, refused: Session-Id", re_authorizing_another, 1, MESSAGES, false, {5002, 1, 0, 0, 0, 0, 0, 0}, 1, REAUTH},
    {"re-authorization, refused: number 22", re_authorizing_none, 1, MESSAGES, false, {22, 0, 0, 0, 0, 0, 0, 0}, 1, REAUTH},
    {"judged: our own answer accepted", holding, 1, 1, true, {0, 0, 0, 0, 0, 0, 0, 0}, 1, HOLD},
    {"form 2: judged: our own answer accepted", holding, 1, 1, true, {0, 0, 0, 0, 0, 0, 0, 0}, 2, HOLD},
    {"judged: accepted, in another order", holding_turned, 1, 1, true, {0, 0, 0, 0, 0, 0, 0, 0}, 1, HOLD},
    {"form 2: judged: accepted, in another order", holding_turned, 1, 1, true, {0, 0, 0, 0, 0, 0, 0, 0}, 2, HOLD},
    {"judged: refused at the last AVP", holding_last, 1, 1, true, {32, 0, 0, 3, 0, 228, 0, 0}, 1, HOLD},
    {"judged: accepted, four groups nested", holding_groups, 1, 1, true, {0, 0, 0, 0, 0, 0, 0, 0}, 1, HOLD},
    {"judged: accepted, 20 more AVPs without M", holding_more, 1, 1, true, {0, 0, 0, 0, 0, 0, 0, 0}, 1, HOLD},
    {"judged: accepted, 4 Proxy-Infos", holding_some_proxies, 1, 1, true, {0, 0, 0, 0, 0, 0, 0, 0}, 1, HOLD},
    {"judged: accepted, 64 Proxy-Infos", holding_many_proxies, 1, 1, true, {0, 0, 0, 0, 0, 0, 0, 0}, 1, HOLD},
    {"judged: accepted, 64 Proxy-Infos first", holding_proxies_first, 1, 1, true, {0, 0, 0, 0, 0, 0, 0, 0}, 1, HOLD},
};
enum { LINES = sizeof lines / sizeof *lines };

static void set_up(const struct line *line) {
    table = lent[0].table;
    rows = line->rows;
    form = line->form;
    line->set_up();
    memcpy(saved, table + (rows - 1) * row_of(form), row_of(form));
    memcpy(lent[1].table, table, rows * row_of(form));
    for (size_t i = 0; i < 2; i++) {
        memset(lent[i].target, 0xC3, sizeof lent[i].target);
        memset(lent[i].answer, 0xA5, sizeof lent[i].answer);
        memset(lent[i].notice, 0x5A, sizeof lent[i].notice);
        memset(lent[i].results, 0x3C, sizeof lent[i].results);
    }
}

static inline uint32_t four(const uint8_t *p) {
    return (uint32_t)p[0] << 24 | (uint32_t)p[1] << 16 | (uint32_t)p[2] << 8 | p[3];
}

/* A request that was written goes where an answer does, and is told like one. */
static inline struct wm_outcome write_abort(const struct library *library, struct lent *l, uint32_t hop, uint32_t end) {
    struct wm_written w =
        library->abort((const uint8_t *)host, sizeof host - 1, (const uint8_t *)realm, sizeof realm - 1, cut.notice, sizeof cut.notice,
                       cut.session, cut.host, cut.realm, hop, end, l->answer, WM_ABORT_LEAST);
    return (struct wm_outcome){.code = w.number, .kind = w.number == 0, .length = w.length};
}

/* The AA-Request goes where the target of a move does, and its length is told as a place. */
static inline struct wm_outcome re_authorize(const struct library *library, struct lent *l, const struct request *r, uint32_t hop, uint32_t end) {
    struct wm_reauthorized w = library->reauth(
        (const uint8_t *)gateway, sizeof gateway - 1, (const uint8_t *)realm, sizeof realm - 1, held.session, held.session_length, name_of(0), 15,
        (const uint8_t *)label, sizeof label - 1, (const uint8_t *)held.visited, strlen(held.visited), r->bytes, r->length, hop, end, l->answer,
        WM_ANSWER_LEAST, l->target, WM_ANSWER_LEAST);
    return (struct wm_outcome){.code = w.code, .kind = w.kind, .length = w.length, .place = w.request_length};
}

/* The kind of the mismatch is told as a place, its byte as the length of a cut Session-Id. */
static inline struct wm_outcome hold_against(const struct library *library, struct lent *l, const struct line *line) {
    size_t size = row_of(line->form);
    struct wm_judged j = library->judge(l->table, size, old.after, size, line->form, 0, (const uint8_t *)host, sizeof host - 1, (const uint8_t *)realm,
                                        sizeof realm - 1, messages[0].bytes, messages[0].length, true, old.answer.bytes, old.answer.length, old.notice,
                                        old.notice_length, l->answer, WM_ANSWER_LEAST, l->notice, notice_of(line->form));
    return (struct wm_outcome){.code = j.number, .place = j.mismatch, .cut_session = (uint32_t)j.at};
}

/* The outcome of the last message; whether all were taken, and each with a cut, stands in its kind and its cut. */
static inline struct wm_outcome told_of(const struct lent *l, size_t taken, size_t cuts) {
    struct wm_outcome o = l->results[BURST - 1];
    o.kind = taken == BURST;
    o.cut = cuts == BURST;
    return o;
}

static inline struct wm_outcome call_each(const struct library *library, struct lent *l, const struct line *line) {
    size_t cuts = 0;
    for (size_t i = 0; i < BURST; i++) {
        l->results[i] = library->handle(l->table, line->rows * row_of(line->form), line->form, 0, (const uint8_t *)host, sizeof host - 1,
                                        (const uint8_t *)realm, sizeof realm - 1, burst.bytes + burst.at[i], burst.at[i + 1] - burst.at[i],
                                        burst.wags[i], l->answer + i * 512, WM_ANSWER_LEAST, l->notice + i * notice_of(line->form),
                                        notice_of(line->form));
        cuts += l->results[i].cut;
    }
    return told_of(l, BURST, cuts);
}

static inline struct wm_outcome call_all(const struct library *library, struct lent *l, const struct line *line) {
    struct wm_taken t =
        library->burst(l->table, line->rows * row_of(line->form), line->form, 0, (const uint8_t *)host, sizeof host - 1, (const uint8_t *)realm,
                       sizeof realm - 1, burst.bytes, burst.at[BURST], burst.wags, BURST, l->answer, sizeof l->answer, l->notice,
                       sizeof l->notice, l->results, BURST);
    return told_of(l, t.messages, t.notices);
}

static inline struct wm_outcome call(const struct library *library, struct lent *l, const struct line *line, size_t i) {
    size_t size = row_of(line->form);
    if (line->what == MOVE) {
        uint32_t to = 3 - line->form;
        return (struct wm_outcome){.code = library->move(l->table, line->rows * size, l->target, line->rows * row_of(to), to)};
    }
    if (line->what == EACH)
        return call_each(library, l, line);
    if (line->what == ALL)
        return call_all(library, l, line);
    const uint8_t *m = messages[i].bytes;
    if (line->what == WRITE)
        return write_abort(library, l, four(m + 12), four(m + 16));
    if (line->what == JUDGE)
        return (struct wm_outcome){
            .code = library->answered(m, messages[i].length, cut.notice, cut.session, four(m + 12), four(m + 16))};
    if (line->what == REAUTH)
        return re_authorize(library, l, &messages[i], four(m + 12), four(m + 16));
    if (line->restore)
        memcpy(l->table + (line->rows - 1) * size, saved, size);
    if (line->what == HOLD)
        return hold_against(library, l, line);
    return library->handle(l->table, line->rows * size, line->form, 0, (const uint8_t *)host, sizeof host - 1, (const uint8_t *)realm,
                           sizeof realm - 1, messages[i].bytes, messages[i].length, true, l->answer, WM_ANSWER_LEAST, l->notice,
                           notice_of(line->form));
}

/* ---- checking ---- */

static bool same_lent(const struct line *line) {
    return memcmp(lent[0].table, lent[1].table, line->rows * row_of(line->form)) == 0 &&
           memcmp(lent[0].target, lent[1].target, sizeof lent[0].target) == 0 &&
           memcmp(lent[0].answer, lent[1].answer, sizeof lent[0].answer) == 0 &&
           memcmp(lent[0].notice, lent[1].notice, sizeof lent[0].notice) == 0 &&
           memcmp(lent[0].results, lent[1].results, sizeof lent[0].results) == 0;
}

static bool as_expected(const struct wm_outcome *o, const struct wm_outcome *e) {
    return o->code == e->code && o->kind == e->kind && o->cut == e->cut && o->cut_session == e->cut_session &&
           o->cut_host == e->cut_host && o->cut_realm == e->cut_realm && (e->place == 0 || o->place == e->place) && (e->kind != 0) == (o->length >= 20);
}

static void say(const char *who, const struct wm_outcome *o) {
    printf("  %s: code %u, kind %u, length %u, place %u, cut %u, lengths %u, %u and %u\n", who, o->code, o->kind, o->length,
           o->place, o->cut, o->cut_session, o->cut_host, o->cut_realm);
}

/* One call of each library: true if all is the same. */
static bool agree(const struct line *line, size_t i, struct wm_outcome *o) {
    struct wm_outcome other = call(&libraries[1], &lent[1], line, i);
    *o = call(&libraries[0], &lent[0], line, i);
    if (memcmp(o, &other, sizeof other) == 0 && same_lent(line))
        return true;
    printf("the libraries differ:\n");
    say("proved", o);
    say("plain", &other);
    return false;
}

static int check(void) {
    uint32_t calls = 0, failed = 0;
    for (const struct line *line = lines; line < lines + LINES; line++) {
        set_up(line);
        for (size_t i = 0; i < 3 * MESSAGES; i++, calls++) {
            struct wm_outcome o;
            if (agree(line, line->messages ? i % line->messages : 0, &o) && as_expected(&o, &line->expected))
                continue;
            printf("%s, call %zu: not as expected\n", line->name, i);
            say("proved", &o);
            failed++;
            break;
        }
    }
    printf("check: %u calls on %u lines, %u failed\n", calls, (uint32_t)LINES, failed);
    return failed != 0;
}

/* ---- measuring ---- */

/* What is wrong with an outcome and with the head of its answer, 0 if nothing is: without a branch, so that it costs the same
 * whatever was called, and is taken off with the loop around the calls. */
static inline uint32_t wrong(const struct line *line, const struct wm_outcome *o, const uint8_t *answer, const struct request *r) {
    const struct wm_outcome *e = &line->expected;
    uint32_t answered = -(uint32_t)(e->kind != 0), placed = -(uint32_t)(e->place != 0), head;
    uint64_t identifiers, asked;
    memcpy(&head, answer, 4);
    memcpy(&identifiers, answer + 12, 8);
    memcpy(&asked, r->bytes + 12, 8);
    identifiers ^= asked;
    return (o->code ^ e->code) | (o->kind ^ e->kind) | (o->cut ^ e->cut) | (o->cut_session ^ e->cut_session) |
           (o->cut_host ^ e->cut_host) | (o->cut_realm ^ e->cut_realm) | ((o->place ^ e->place) & placed) |
           (((head ^ __builtin_bswap32(0x01000000 + o->length)) | (uint32_t)identifiers | (uint32_t)(identifiers >> 32)) & answered);
}

static uint32_t run(const struct line *line, const struct library *library, struct lent *l, uint32_t calls) {
    uint32_t bad = 0;
    for (uint32_t n = 0, i = 0; n < calls; n++, i = i + 1 < line->messages ? i + 1 : 0) {
        struct wm_outcome o = call(library, l, line, i);
        bad |= wrong(line, &o, l->answer, &messages[i]);
    }
    return bad;
}

/* All that stands in what was lent, in one number. */
static uint64_t digest(const struct lent *l, const struct line *line) {
    uint64_t h = 14695981039346656037u;
    for (size_t i = 0; i < line->rows * row_of(line->form); i++)
        h = (h ^ l->table[i]) * 1099511628211u;
    for (size_t i = 0; i < sizeof l->target; i++)
        h = (h ^ l->target[i]) * 1099511628211u;
    for (size_t i = 0; i < sizeof l->answer; i++)
        h = (h ^ l->answer[i]) * 1099511628211u;
    for (size_t i = 0; i < sizeof l->notice; i++)
        h = (h ^ l->notice[i]) * 1099511628211u;
    for (size_t i = 0; i < BURST; i++)
        h = (h ^ l->results[i].length) * 1099511628211u;
    return h;
}

double seconds(void) {
    struct timespec t;
    clock_gettime(CLOCK_MONOTONIC, &t);
    return (double)t.tv_sec + (double)t.tv_nsec / 1e9;
}

/* The shortest of many short runs for each, the libraries in turn; the loop around the call taken off. Both must leave the same. */
static bool time_line(const struct line *line) {
    double best[3] = {1e9, 1e9, 1e9};
    uint32_t calls = line->what == MOVE || line->what == EACH || line->what == ALL ? MESSAGES : 50 * MESSAGES; /* these take long */
    set_up(line);
    for (uint32_t turn = 0; turn < 60; turn++) {
        uint32_t bad[3];
        for (size_t i = 0; i < 3; i++) {
            size_t k = (i + 2) % 3; /* the empty one first: it sets rows back and leaves no access in them */
            double from = seconds();
            bad[k] = run(line, &libraries[k], &lent[k % 2], calls);
            double took = (seconds() - from) / calls;
            best[k] = took < best[k] ? took : best[k];
        }
        if (bad[0] || bad[1] || !same_lent(line)) {
            printf("%s: not as expected while it was measured\n", line->name);
            return false;
        }
    }
    double proved = best[0] - best[2], plain = best[1] - best[2];
    printf("%s\t%.0f\t%.0f\t%.2f\n", line->name, proved * 1e9, plain * 1e9, proved / plain);
    return true;
}

/* The calls of one library that are counted. Of the empty one nothing is expected. */
static int count_line(const struct line *line, const char *library, uint32_t calls) {
    for (size_t k = 0; k < 3; k++)
        if (!strcmp(library, libraries[k].name)) {
            set_up(line);
            uint32_t bad = run(line, &libraries[k], &lent[0], calls);
            printf("%016lx\n", (unsigned long)digest(&lent[0], line));
            return k < 2 && bad;
        }
    return 2;
}

static int count_any(size_t line, const char *library, uint32_t calls) {
    if (line < LINES)
        return count_line(&lines[line], library, calls);
    line -= LINES;
    return line < tally_lines() ? tally_count(line, library, calls) : screens_count(line - tally_lines(), library, calls);
}

int main(int count, char **words) {
    const char *what = count > 1 ? words[1] : "";
    if (!strcmp(what, "lines")) {
        for (size_t i = 0; i < LINES; i++)
            printf("%s\n", lines[i].name);
        for (size_t i = 0; i < tally_lines(); i++)
            printf("%s\n", tally_name(i));
        for (size_t i = 0; i < screens_lines(); i++)
            printf("%s\n", screens_name(i));
    } else if (!strcmp(what, "check"))
        return check() || tally_check() || screens_check();
    else if (!strcmp(what, "mix") && count == 4)
        return mix((uint32_t)strtoul(words[2], 0, 10), strtoul(words[3], 0, 10), 0, false);
    else if (!strcmp(what, "tally") && count == 4)
        return tally_mix((uint32_t)strtoul(words[2], 0, 10), strtoul(words[3], 0, 10));
    else if (!strcmp(what, "board") && count == 4)
        return screens_mix((uint32_t)strtoul(words[2], 0, 10), strtoul(words[3], 0, 10));
    else if ((!strcmp(what, "answers") || !strcmp(what, "aborts")) && count == 4)
        return mix((uint32_t)strtoul(words[3], 0, 10), 1, words[2], !strcmp(what, "aborts"));
    else if (!strcmp(what, "reauths") && count == 4)
        return re_auths((uint32_t)strtoul(words[3], 0, 10), words[2]);
    else if (!strcmp(what, "time")) {
        for (size_t i = 0; i < LINES; i++)
            if (!time_line(&lines[i]))
                return 1;
        return tally_time() || screens_time();
    } else if (!strcmp(what, "count") && count == 5)
        return count_any(strtoul(words[2], 0, 10) % (LINES + tally_lines() + screens_lines()), words[3], (uint32_t)strtoul(words[4], 0, 10));
    else {
        printf("driver: lines, check, mix CALLS SEED, tally LISTS SEED, board CALLS SEED, answers FILE CALLS, aborts FILE CALLS, reauths FILE CALLS, count LINE LIBRARY N, or time\n");
        return 2;
    }
    return 0;
}
