/* A table of two rows, one for each of two operators, who have a subscriber of the same name: one of them opens a tunnel on its one W-APN, the other has
 * no W-APN. Prints the outcome, the answer's bytes, what the other operator is told, what comes of moving the table to form 2 and back, what is cut there and how its
 * gateway is asked to end it, what comes of three messages in one call, what is told of another server that did the same and of one that did not, how a gateway is asked to have an access authorized again, the report of that hour, and what the screen board shows of the request, of its result and of a notice. */

/* The kit's compiler comes without headers, so the types and the one function of the C library stand here. */
#define WM_OWN_TYPES
typedef __UINT8_TYPE__ uint8_t;
typedef __UINT32_TYPE__ uint32_t;
typedef __UINT64_TYPE__ uint64_t;
typedef __SIZE_TYPE__ size_t;
typedef _Bool bool;
#define false 0
#define true 1
int printf(const char *, ...);

#include "../include/wm.h"

static struct wm_report report;
static struct wm_screen screens[2] = {{WM_OFF, 0, 1, "a"}, {WM_OFF, 0, 1, "b"}};
static uint8_t table[2 * WM_ROW], moved[2 * WM_ROW_2], back[2 * WM_ROW], message[512], answer[WM_ANSWER_LEAST], notice[WM_NOTICE_2_LEAST],
    room[WM_ABORT_LEAST], request[WM_ANSWER_LEAST];
static uint8_t messages[4 * 512], answers[2 * WM_ANSWER_LEAST], notices[4 * WM_NOTICE_2_LEAST];
static struct wm_outcome results[4];

/* Operators 0 and 1 may have a row each. */
static const uint32_t shares[WM_OPERATORS] = {1, 1};

#define TEXT(s) (const uint8_t *)(s), sizeof(s) - 1

static size_t put_number(size_t at, size_t bytes, uint32_t n) {
    for (size_t i = bytes; i-- > 0; n /= 256)
        message[at + i] = (uint8_t)n;
    return at + bytes;
}

/* An AVP: M set; V and the vendor 10415 for those of 3GPP. Its length leaves the padding out. */
static size_t put_avp(size_t at, uint32_t code, bool of_3gpp, const uint8_t *value, size_t length) {
    size_t head = of_3gpp ? 12 : 8, end = at + (head + length + 3) / 4 * 4;
    at = put_number(at, 4, code);
    at = put_number(at, 1, of_3gpp ? 0xC0 : 0x40);
    at = put_number(at, 3, (uint32_t)(head + length));
    if (of_3gpp)
        at = put_number(at, 4, 10415);
    for (size_t i = 0; i < length; i++)
        message[at++] = value[i];
    while (at < end)
        message[at++] = 0;
    return end;
}

/* The header of a message that ends there, with flags and command in one number and the identifiers 7 and 9. */
static void put_header(size_t end, uint32_t command) {
    put_number(0, 4, 0x01000000 + (uint32_t)end);
    put_number(4, 4, command);
    put_number(8, 4, 1);
    put_number(12, 4, 7);
    put_number(16, 4, 9);
}

/* AA-Request of type 0 for the W-APN "board", with a Session-Id of one letter. */
static size_t opening(const char *session) {
    size_t at = 20;
    at = put_avp(at, 263, false, (const uint8_t *)session, 1);
    at = put_avp(at, 258, false, TEXT("\0\0\0\1"));
    at = put_avp(at, 264, false, TEXT("gateway.example"));
    at = put_avp(at, 296, false, TEXT("example"));
    at = put_avp(at, 283, false, TEXT("example"));
    at = put_avp(at, 274, false, TEXT("\0\0\0\2"));
    at = put_avp(at, 293, false, TEXT("server.example"));
    at = put_avp(at, 1, false, TEXT("001010123456789"));
    at = put_avp(at, 311, true, TEXT("\0\0\0\0"));
    at = put_avp(at, 100, true, TEXT("board"));
    put_header(at, 0xC0000000 + 265);
    return at;
}

/* A gateway's answer to a request to end the access with a Session-Id of one letter. */
static size_t ended(const char *session) {
    size_t at = 20;
    at = put_avp(at, 263, false, (const uint8_t *)session, 1);
    at = put_avp(at, 268, false, TEXT("\0\0\7\321"));
    at = put_avp(at, 264, false, TEXT("gateway.example"));
    at = put_avp(at, 296, false, TEXT("example"));
    put_header(at, 0x40000000 + 274);
    return at;
}

/* A server's Re-Auth-Request about the access with a Session-Id of one letter. */
static size_t asking(const char *session) {
    size_t at = 20;
    at = put_avp(at, 263, false, (const uint8_t *)session, 1);
    at = put_avp(at, 258, false, TEXT("\0\0\0\1"));
    at = put_avp(at, 264, false, TEXT("server.example"));
    at = put_avp(at, 296, false, TEXT("example"));
    at = put_avp(at, 283, false, TEXT("example"));
    at = put_avp(at, 293, false, TEXT("gateway.example"));
    at = put_avp(at, 285, false, TEXT("\0\0\0\0"));
    put_header(at, 0xC0000000 + 258);
    return at;
}

/* The board, after a feed that gave this number. */
static void show(const char *fed, uint32_t number) {
    static const char *const states[] = {"off", "asked", "connected", "cut"};
    printf("%s: %u; a is %s", fed, number, states[screens[0].state]);
    if (screens[0].state == WM_CONNECTED)
        printf(" at place %u", screens[0].place);
    printf(", b is %s; %u connected\n", states[screens[1].state], wm_screens_connected(screens, 2).screens);
}

static struct wm_outcome open_in_form_2(const char *session) {
    return wm_handle(moved, sizeof moved, 2, 0, TEXT("server.example"), TEXT("example"), message, opening(session), true, answer,
                     sizeof answer, notice, sizeof notice);
}

/* There and back: to form 2, where each access has room for a realm and two policies more, and, as none has one yet, back to the same bytes. */
static void move_both_ways(void) {
    uint32_t there = wm_move(table, sizeof table, moved, sizeof moved, 2), again = wm_move(moved, sizeof moved, back, sizeof back, 1);
    size_t same = 0;
    while (same < sizeof table && table[same] == back[same])
        same++;
    printf("move to form 2: %u; back to form 1: %u, %zu of %zu bytes the same\n", there, again, same, sizeof table);
    struct wm_outcome o = open_in_form_2("b");
    printf("in form 2: code %u, place %u; and back with its realm: %u\n", o.code, o.place, wm_move(moved, sizeof moved, back, sizeof back, 1));
}

/* The W-APN takes two accesses: a new one cuts the first that was opened, and its gateway is asked to end it. */
static void cut_and_ask(const char *session) {
    struct wm_outcome o = open_in_form_2(session);
    struct wm_written w = wm_abort(TEXT("server.example"), TEXT("example"), notice, sizeof notice, o.cut_session, o.cut_host, o.cut_realm, 7, 9,
                                   room, sizeof room);
    printf("%s cuts %.*s of %.*s in %.*s; to end it: %u, %u bytes", session, (int)o.cut_session, (char *)notice, (int)o.cut_host,
           (char *)notice + 128, (int)o.cut_realm, (char *)notice + 256, w.number, w.length);
    uint32_t for_a = wm_abort_answered(message, ended("a"), notice, o.cut_session, 7, 9);
    uint32_t for_b = wm_abort_answered(message, ended("b"), notice, o.cut_session, 7, 9);
    printf("; answered for a: %u, for b: %u\n", for_a, for_b);
}

/* Puts the message behind those that are there, and gives back where they end. */
static size_t keep(size_t at, size_t length) {
    for (size_t i = 0; i < length; i++)
        messages[at + i] = message[i];
    return at + length;
}

/* Three openings back to back, the second of another version, and two bytes more. The first and the third are taken whatever becomes of the second, in one call or, with
 * room for one answer at a time, in several: each is lent what the one before left. */
static void take_all(const char *sessions, size_t answer_room) {
    static const uint8_t wags[4] = {1, 1, 1, 1};
    size_t end = keep(0, opening(sessions));
    size_t length = opening(sessions + 1);
    message[0] = 2;
    end = keep(end, length);
    end = keep(end, opening(sessions + 2));
    end = keep(end, 2);
    size_t done = 0, bytes = 0, cuts = 0;
    struct wm_taken t;
    do {
        t = wm_burst(moved, sizeof moved, 2, 0, TEXT("server.example"), TEXT("example"), messages + bytes, end - bytes, wags + done, 4 - done, answers,
                     answer_room, notices + cuts * WM_NOTICE_2_LEAST, sizeof notices - cuts * WM_NOTICE_2_LEAST, results + done, 4 - done);
        printf("burst: %u; %zu messages of %zu bytes taken, %zu bytes of answers, %zu notices:", t.number, t.messages, t.bytes, t.answers, t.notices);
        for (size_t i = 0; i < t.messages; i++, done++) {
            printf(" %u", results[done].code);
            if (results[done].cut)
                printf(" cuts %.*s", (int)results[done].cut_session, (char *)notices + cuts++ * WM_NOTICE_2_LEAST);
        }
        printf("; %zu bytes left\n", end - (bytes += t.bytes));
    } while (t.messages != 0);
}

static void copy(uint8_t *to, const uint8_t *from, size_t length) {
    for (size_t i = 0; i < length; i++)
        to[i] = from[i];
}

/* What another server did with the opening "k" on the first row: its answer, the notice of its cut, and the row as it left it. */
static struct {
    uint8_t answer[WM_ANSWER_LEAST], notice[WM_NOTICE_2_LEAST], after[WM_ROW_2];
    size_t answer_length, notice_length;
} old;

static void judge(const char *what) {
    static uint8_t row[WM_ROW_2];
    copy(row, moved, sizeof row);
    struct wm_judged j = wm_judge(row, sizeof row, old.after, sizeof old.after, 2, 0, TEXT("server.example"), TEXT("example"), message, opening("k"), true,
                                  old.answer, old.answer_length, old.notice, old.notice_length, answer, sizeof answer, notice, sizeof notice);
    printf("another server, %s: number %u, mismatch %u at byte %zu\n", what, j.number, j.mismatch, j.at);
}

/* The other server is this one, on a copy of the row; then one byte of its Result-Code is another, it tells nobody of its cut, and a byte of its row is another. */
static void judge_another(void) {
    copy(old.after, moved, sizeof old.after);
    struct wm_outcome o = wm_handle(old.after, sizeof old.after, 2, 0, TEXT("server.example"), TEXT("example"), message, opening("k"), true, old.answer,
                                    sizeof old.answer, old.notice, sizeof old.notice);
    old.answer_length = o.length;
    old.notice_length = o.cut ? sizeof old.notice : 0;
    judge("our own answer");
    old.answer[67] ^= 1;
    judge("another Result-Code");
    old.answer[67] ^= 1;
    old.notice_length = 0;
    judge("no notice");
    old.notice_length = sizeof old.notice;
    old.after[1000] ^= 1;
    judge("another row");
}

/* The gateway has the access with the Session-Id "j", at home. */
static void authorize_again(const char *session) {
    struct wm_reauthorized r =
        wm_reauth(TEXT("gateway.example"), TEXT("example"), TEXT("j"), TEXT("001010123456789"), TEXT("board"), TEXT(""), message, asking(session), 11,
                  12, answer, sizeof answer, request, sizeof request);
    printf("authorize %s again: code %u, kind %u, an answer of %u bytes, an AA-Request of %u\n", session, r.code, r.kind, r.length, r.request_length);
}

int main(void) {
    printf("clear: %u\n", wm_clear(table, sizeof table, 1));
    printf("enter: %u\n", wm_enter(table, sizeof table, 1, 0, shares, WM_OPERATORS, TEXT("001010123456789")));
    printf("enter, for operator 1: %u\n", wm_enter(table, sizeof table, 1, 1, shares, WM_OPERATORS, TEXT("001010123456789")));
    printf("and one more than its share: %u\n", wm_enter(table, sizeof table, 1, 1, shares, WM_OPERATORS, TEXT("001010999999999")));
    printf("add: %u\n", wm_add(table, sizeof table, 1, 0, TEXT("001010123456789"), TEXT("board"), 2, 0));
    struct wm_outcome o = wm_handle(table, sizeof table, 1, 0, TEXT("server.example"), TEXT("example"), message, opening("a"), true,
                                    answer, sizeof answer, notice, sizeof notice);
    printf("code %u, kind %u, place %u, cut %u; an answer of %u bytes:", o.code, o.kind, o.place, o.cut, o.length);
    for (uint32_t i = 0; i < o.length; i++)
        printf(i % 16 == 0 ? "\n %02X" : " %02X", answer[i]);
    printf("\n");
    struct wm_outcome other = wm_handle(table, sizeof table, 1, 1, TEXT("server.example"), TEXT("example"), message, opening("a"), true,
                                        answer, sizeof answer, notice, sizeof notice);
    printf("for operator 1: code %u, kind %u\n", other.code, other.kind);
    move_both_ways();
    cut_and_ask("c");
    cut_and_ask("d");
    take_all("efg", sizeof answers);
    take_all("hij", WM_ANSWER_LEAST);
    judge_another();
    authorize_again("h");
    authorize_again("j");
    struct wm_told told = {21, 0, o.code, o.kind, o.place, o.cut};
    printf("count: %u\n", wm_report_count(&report, &told, 1));
    struct wm_rate rate = wm_report_rate(&report);
    printf("hour 21: %llu opened; the year: %llu cuts to %llu opened\n", (unsigned long long)report.totals[21][0],
           (unsigned long long)rate.cuts, (unsigned long long)rate.opened);
    show("request", wm_screen_request(screens, 2, 0, TEXT("a")));
    show("result", wm_screen_result(screens, 2, 0, TEXT("a"), o.code, o.kind, o.place));
    show("notice", wm_screen_notice(screens, 2, TEXT("a")));
    show("a Session-Id on no entry", wm_screen_notice(screens, 2, TEXT("c")));
    return o.code == 2001 && o.kind == 1 ? 0 : 1;
}
