/* Plays a script of the board's calls (oracle board) on the proved library: every number that a call gives back, and every byte of the list that it was
 * lent, are compared with what the script expects. Prints a line for each of the first twenty calls that differ, and "N calls, M differ". */

/* The kit's compiler comes without headers, so the types and the functions of the C library stand here. */
#define WM_OWN_TYPES
typedef __UINT8_TYPE__ uint8_t;
typedef __UINT32_TYPE__ uint32_t;
typedef __UINT64_TYPE__ uint64_t;
typedef __SIZE_TYPE__ size_t;
typedef _Bool bool;
int printf(const char *, ...);
int open(const char *, int, ...);
long read(int, void *, size_t);

#include "../include/wm.h"

#define MARK 0x314452414F424D57ull /* "WMBOARD1" */
enum { REQUEST, RESULT, NOTICE, CONNECTED };
enum { LIST = 300, SESSION = 1000, SPARE = 8, PAINT = 0xA5 };

static uint64_t script[8u << 20];
/* the list, with entries behind it that no call may touch, and as it was lent */
static struct wm_screen screens[LIST + SPARE], lent[LIST + SPARE];
static uint8_t session[SESSION];
static size_t at, end, list_length, session_length;
static bool damaged;

static uint64_t next(void) {
    if (at < end)
        return script[at++];
    damaged = 1;
    return 0;
}

static uint32_t next_number(void) {
    uint64_t number = next();
    if (number > 0xFFFFFFFFu)
        damaged = 1;
    return (uint32_t)number;
}

static size_t next_length(size_t most) {
    uint64_t length = next();
    if (length > most)
        damaged = 1;
    return damaged ? 0 : (size_t)length;
}

static void next_text(uint8_t *text, size_t length) {
    uint64_t number = 0;
    for (size_t i = 0; i < length; i++) {
        if (i % 8 == 0)
            number = next();
        text[i] = (uint8_t)(number >> i % 8 * 8);
    }
}

static void next_list(void) {
    list_length = next_length(LIST);
    for (size_t i = 0; i < list_length; i++) {
        screens[i].state = next_number();
        screens[i].place = next_number();
        screens[i].session_length = next_number();
        next_text(screens[i].session, sizeof screens[i].session);
    }
    uint8_t *behind = (uint8_t *)&screens[list_length];
    for (size_t i = 0; i < SPARE * sizeof *screens; i++)
        behind[i] = PAINT;
    for (size_t i = 0; i < list_length + SPARE; i++)
        lent[i] = screens[i];
}

static void next_session(void) {
    session_length = next_length(SESSION);
    next_text(session, session_length);
}

/* How many bytes from an entry on are not as they were lent. */
static unsigned bytes_differ(size_t entry) {
    const uint8_t *is = (const uint8_t *)&screens[entry], *was = (const uint8_t *)&lent[entry];
    unsigned n = 0;
    for (size_t i = 0; i < (list_length + SPARE - entry) * sizeof *screens; i++)
        n += is[i] != was[i];
    return n;
}

/* How many numbers of an entry are not as expected; the Session-Id is compared byte by byte. */
static unsigned entry_differs(const struct wm_screen *screen) {
    uint8_t expected[sizeof screen->session];
    unsigned n = next() != screen->state;
    n += next() != screen->place;
    n += next() != screen->session_length;
    next_text(expected, sizeof expected);
    for (size_t i = 0; i < sizeof expected; i++)
        n += expected[i] != screen->session[i];
    return n;
}

static unsigned list_differs(uint32_t number) {
    unsigned n = next() != number;
    for (size_t i = 0; i < list_length; i++)
        n += entry_differs(&screens[i]);
    return n + bytes_differ(list_length);
}

static unsigned request_differs(void) {
    uint32_t which = next_number();
    next_session();
    if (damaged)
        return 0;
    return list_differs(wm_screen_request(screens, list_length, which, session, session_length));
}

static unsigned result_differs(void) {
    uint32_t which = next_number(), code = next_number(), kind = next_number(), place = next_number();
    next_session();
    if (damaged)
        return 0;
    return list_differs(wm_screen_result(screens, list_length, which, session, session_length, code, kind, place));
}

static unsigned notice_differs(void) {
    next_session();
    if (damaged)
        return 0;
    return list_differs(wm_screen_notice(screens, list_length, session, session_length));
}

static unsigned connected_differs(void) {
    if (damaged)
        return 0;
    struct wm_connected connected = wm_screens_connected(screens, list_length);
    unsigned n = next() != connected.number;
    n += next() != connected.screens;
    return n + bytes_differ(0);
}

static unsigned call_differs(void) {
    uint64_t what = next();
    next_list();
    switch (what) {
    case REQUEST:
        return request_differs();
    case RESULT:
        return result_differs();
    case NOTICE:
        return notice_differs();
    case CONNECTED:
        return connected_differs();
    }
    damaged = 1;
    return 0;
}

static size_t load(const char *name) {
    int file = open(name, 0);
    size_t bytes = 0;
    long got;
    while ((got = read(file, (uint8_t *)script + bytes, sizeof script - bytes)) > 0)
        bytes += (size_t)got;
    return bytes;
}

int main(int words, char **word) {
    size_t bytes = words == 2 ? load(word[1]) : 0;
    end = bytes / 8;
    damaged = bytes % 8 != 0 || bytes == sizeof script || next() != MARK;
    uint64_t calls = next(), differ = 0;
    for (uint64_t i = 0; i < calls && !damaged; i++) {
        unsigned n = call_differs();
        if (n != 0 && !damaged && differ++ < 20)
            printf("call %llu: %u numbers differ\n", (unsigned long long)i + 1, n);
    }
    if (damaged || at != end) {
        printf("script damaged\n");
        return 1;
    }
    printf("%llu calls, %llu differ\n", (unsigned long long)calls, (unsigned long long)differ);
    return 0;
}
