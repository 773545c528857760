/* A stack of 4 KiB with nothing behind it, as of a request task: how deep the C library's memory functions go on it, a request that cuts
 * a tunnel, a burst of two that do, the request for a disconnection, the answer to that, a Re-Auth-Request at the gateway, and another server's answer with groups in it. What was not touched still has its paint. Ends with 1 where a memory function takes over LIBRARY bytes; a call that needs more
 * than 4 KiB does not come back at all. */

/* The kit's compiler comes without headers, so the types and the functions of the C library stand here. */
#define WM_OWN_TYPES
typedef __UINT8_TYPE__ uint8_t;
typedef __UINT32_TYPE__ uint32_t;
typedef __UINT64_TYPE__ uint64_t;
typedef __SIZE_TYPE__ size_t;
typedef _Bool bool;
#define true 1
#define false 0
int printf(const char *, ...);
void *mmap(void *, size_t, int, int, int, long);
int mprotect(void *, size_t, int);
void *memset(void *, int, size_t);
void *memcpy(void *, const void *, size_t);
void *memmove(void *, const void *, size_t);

#include "../include/wm.h"

enum { PAGE = 4096, PAINT = 0xA5 };
static uint8_t *stack; /* the page below it can be neither read nor written */

/* Runs f on that stack and gives back how many bytes of it f and its return address took. */
static size_t depth_of(void (*f)(void)) {
    for (size_t i = 0; i < PAGE; i++)
        ((volatile uint8_t *)stack)[i] = PAINT;
    __asm__ volatile("movq %%rsp, %%rbx\n\tmovq %0, %%rsp\n\tcallq *%1\n\tmovq %%rbx, %%rsp"
                     :
                     : "r"(stack + PAGE), "r"(f)
                     : "rax", "rbx", "rcx", "rdx", "rsi", "rdi", "r8", "r9", "r10", "r11", "memory", "cc", "xmm0", "xmm1", "xmm2", "xmm3",
                       "xmm4", "xmm5", "xmm6", "xmm7", "xmm8", "xmm9", "xmm10", "xmm11", "xmm12", "xmm13", "xmm14", "xmm15");
    size_t clean = 0;
    while (clean < PAGE && stack[clean] == PAINT)
        clean++;
    return PAGE - clean;
}

/* ---- the C library's memory functions ---- */

static uint8_t from[3 * PAGE], to[3 * PAGE];
static size_t length, shift;

/* volatile: the call has to be made, not put in its place */
static void *(*volatile set)(void *, int, size_t) = memset;
static void *(*volatile copy)(void *, const void *, size_t) = memcpy;
static void *(*volatile move)(void *, const void *, size_t) = memmove;

static void set_some(void) { set(to + shift, 7, length); }
static void copy_some(void) { copy(to + shift, from, length); }
static void move_some(void) { move(to + shift, to, length); }

/* The most that a memory function takes, with its return address, over lengths around the powers of two and all alignments to 64. */
static size_t deepest(void (*f)(void)) {
    size_t most = 0;
    for (size_t power = 1; power <= 2 * PAGE; power *= 2)
        for (length = power - 1; length <= power + 1; length++)
            for (shift = 0; shift < 64; shift++) {
                size_t depth = depth_of(f);
                most = depth > most ? depth : most;
            }
    return most;
}

/* ---- a request ---- */

static uint8_t table[WM_ROW_2], message[512], answer[WM_ANSWER_LEAST], notice[WM_NOTICE_2_LEAST];
static uint8_t messages[1024], answers[2 * WM_ANSWER_LEAST], notices[2 * WM_NOTICE_2_LEAST];
static const uint8_t wags[2] = {1, 1};
static size_t all;
static struct wm_taken taken;
static struct wm_outcome results[2];
static size_t end;
static struct wm_outcome outcome;
static struct wm_written written;
static uint32_t belongs;
static struct wm_reauthorized reauthorized;
static uint8_t before[WM_ROW_2], theirs[512];
static size_t theirs_length;
static struct wm_judged judged;

#define TEXT(s) (const uint8_t *)(s), sizeof(s) - 1

static void put_number(size_t bytes, uint32_t n) {
    end += bytes;
    for (size_t i = 1; i <= bytes; i++, n /= 256)
        message[end - i] = (uint8_t)n;
}

static void put_avp(uint32_t code, bool of_3gpp, const uint8_t *value, size_t bytes) {
    put_number(4, code);
    put_number(1, of_3gpp ? 0xC0 : 0x40);
    put_number(3, (uint32_t)((of_3gpp ? 12 : 8) + bytes));
    if (of_3gpp)
        put_number(4, 10415);
    for (size_t i = 0; i < bytes; i++)
        message[end++] = value[i];
    while (end % 4 != 0)
        message[end++] = 0;
}

/* AA-Request of type 0 for the label "board". */
static void ask(const uint8_t *session, size_t bytes) {
    end = 20;
    put_avp(263, false, session, bytes);
    put_avp(258, false, TEXT("\0\0\0\1"));
    put_avp(264, false, TEXT("gateway.example"));
    put_avp(296, false, TEXT("example"));
    put_avp(283, false, TEXT("example"));
    put_avp(274, false, TEXT("\0\0\0\2"));
    put_avp(293, false, TEXT("server.example"));
    put_avp(1, false, TEXT("001010123456789"));
    put_avp(311, true, TEXT("\0\0\0\0"));
    put_avp(100, true, TEXT("board"));
    size_t whole = end;
    end = 0;
    put_number(4, 0x01000000 + (uint32_t)whole);
    put_number(4, 0xC0000000 + 265);
    put_number(4, 1);
    put_number(8, 7);
    end = whole;
}

static void set_up(void) {
    static const uint32_t shares[16] = {1};
    wm_clear(table, sizeof table, 2);
    wm_enter(table, sizeof table, 2, 0, shares, 16, TEXT("001010123456789"));
    wm_add(table, sizeof table, 2, 0, TEXT("001010123456789"), TEXT("board"), 1, 0);
}

static void open_tunnel(void) {
    outcome = wm_handle(table, sizeof table, 2, 0, TEXT("server.example"), TEXT("example"), message, end, true, answer, sizeof answer,
                        notice, sizeof notice);
}

static void keep_message(void) {
    memcpy(messages + all, message, end);
    all += end;
}

static void open_both(void) {
    taken = wm_burst(table, sizeof table, 2, 0, TEXT("server.example"), TEXT("example"), messages, all, wags, 2, answers, sizeof answers,
                     notices, sizeof notices, results, 2);
}

static void disconnect(void) {
    written = wm_abort(TEXT("server.example"), TEXT("example"), notice, sizeof notice, outcome.cut_session, outcome.cut_host,
                       outcome.cut_realm, 7, 8, answer, WM_ABORT_LEAST);
}

/* Success, for the Session-Id of the notice. */
static void put_answer(void) {
    end = 20;
    put_avp(263, false, notice, outcome.cut_session);
    put_avp(268, false, TEXT("\0\0\7\321"));
    size_t whole = end;
    end = 0;
    put_number(4, 0x01000000 + (uint32_t)whole);
    put_number(4, 0x40000000 + 274);
    put_number(4, 1);
    put_number(4, 7);
    put_number(4, 8);
    end = whole;
}

static void judge(void) {
    belongs = wm_abort_answered(message, end, notice, outcome.cut_session, 7, 8);
}

/* Re-Auth-Request about the access with the Session-Id "d". */
static void ask_again(void) {
    end = 20;
    put_avp(263, false, TEXT("d"));
    put_avp(258, false, TEXT("\0\0\0\1"));
    put_avp(264, false, TEXT("server.example"));
    put_avp(296, false, TEXT("example"));
    put_avp(283, false, TEXT("example"));
    put_avp(293, false, TEXT("gateway.example"));
    put_avp(285, false, TEXT("\0\0\0\0"));
    size_t whole = end;
    end = 0;
    put_number(4, 0x01000000 + (uint32_t)whole);
    put_number(4, 0xC0000000 + 258);
    put_number(4, 1);
    put_number(8, 7);
    end = whole;
}

static void authorize_again(void) {
    reauthorized = wm_reauth(TEXT("gateway.example"), TEXT("example"), TEXT("d"), TEXT("001010123456789"), TEXT("board"), TEXT("net.example"), message,
                             end, 7, 8, answers, WM_ANSWER_LEAST, answers + WM_ANSWER_LEAST, WM_ANSWER_LEAST);
}

/* What another server did with the request is what ours does, but for a Failed-AVP in its answer, with three more one inside another. */
static void put_theirs(void) {
    memcpy(before, table, sizeof before);
    open_tunnel();
    memcpy(theirs, answer, outcome.length);
    memcpy(notices, notice, sizeof notice);
    theirs_length = outcome.length;
    for (uint8_t depth = 4; depth > 0; depth--) {
        const uint8_t group[8] = {0, 0, 1, 279 - 256, 0x40, 0, 0, (uint8_t)(8 * depth)};
        memcpy(theirs + theirs_length, group, sizeof group);
        theirs_length += sizeof group;
    }
    theirs[2] = (uint8_t)(theirs_length / 256);
    theirs[3] = (uint8_t)theirs_length;
}

static void hold_against(void) {
    judged = wm_judge(before, sizeof before, table, sizeof table, 2, 0, TEXT("server.example"), TEXT("example"), message, end, true, theirs, theirs_length,
                      notices, WM_NOTICE_2_LEAST, answer, sizeof answer, notice, sizeof notice);
}

int main(void) {
    uint8_t *pages = mmap(0, 2 * PAGE, 3, 0x22, -1, 0);
    stack = pages + PAGE;
    if (mprotect(pages, PAGE, 0) != 0)
        return 1;

    size_t sets = deepest(set_some), copies = deepest(copy_some), moves = deepest(move_some);
    printf("of 4 KiB the C library takes: memset %zu bytes, memcpy %zu, memmove %zu, with the return address\n", sets, copies, moves);
    if (sets > LIBRARY || copies > LIBRARY || moves > LIBRARY)
        return 1;

    size_t entering = depth_of(set_up);
    ask(TEXT("a"));
    depth_of(open_tunnel);
    ask(TEXT("b"));
    size_t opening = depth_of(open_tunnel);
    printf("of 4 KiB, with the caller's own frame: set-up %zu bytes, an opening with a cut %zu\n", entering, opening);
    ask(TEXT("c"));
    keep_message();
    ask(TEXT("d"));
    keep_message();
    printf("of 4 KiB, the same way: a burst of two openings with a cut %zu bytes\n", depth_of(open_both));
    size_t writing = depth_of(disconnect);
    put_answer();
    size_t judging = depth_of(judge);
    printf("of 4 KiB, the same way: writing an Abort-Session-Request %zu bytes, judging the answer %zu\n", writing, judging);
    ask_again();
    printf("of 4 KiB, the same way: a Re-Auth-Request that goes on %zu bytes\n", depth_of(authorize_again));
    ask(TEXT("e"));
    put_theirs();
    printf("of 4 KiB, the same way: another server's answer with four groups, one inside another, %zu bytes\n", depth_of(hold_against));
    return judged.number == 0 && reauthorized.code == 2001 && outcome.code == 2001 && outcome.cut == 1 && written.number == 0 && belongs == 1 && taken.messages == 2 && taken.notices == 2 ? 0 : 1;
}
