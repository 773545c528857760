/* Calls by chance: set-up operations, requests, bursts of them, moves, disconnections, another server's answers and re-authorizations, good and damaged, on tables of both forms that live on. After each one both
 * libraries must have given the same and left the same bytes everywhere. */
#include "requests.h"

int printf(const char *, ...);
typedef struct file FILE;
FILE *fopen(const char *, const char *);
size_t fwrite(const void *, size_t, size_t, FILE *);
int fclose(FILE *);

enum { ROWS = 4, BURST = 8 };
/* rooms that let a burst in, and some more */
enum { ANSWER = BURST * WM_ANSWER_LEAST + 64, NOTICE = BURST * WM_NOTICE_2_LEAST + 64 };

static struct side {
    uint8_t table[ROWS * WM_ROW_2], target[ROWS * WM_ROW_2 + 64], answer[ANSWER], notice[NOTICE];
    struct wm_outcome results[BURST + 8];
} proved, plain;

/* The form in which the table stands now: a move that succeeded, and a clearing, may leave another one. */
static uint32_t form;

static size_t row_of(uint32_t of_form) {
    return of_form == 1 ? WM_ROW : WM_ROW_2;
}

static uint64_t seed;

void begin_chance(uint64_t from) {
    seed = from;
}

uint32_t below(uint32_t n) {
    seed = seed * 6364136223846793005u + 1442695040888963407u;
    return (uint32_t)(seed >> 33) % n;
}

static bool one_in(uint32_t n) {
    return below(n) == 0;
}

struct text {
    const char *bytes;
    size_t length;
};
#define TEXT(s) {s, sizeof(s) - 1}
#define TEN "abcdefghij"
#define HUNDRED TEN TEN TEN TEN TEN TEN TEN TEN TEN TEN
#define GATEWAY "pdg1.wlan.mnc001.mcc001.3gppnetwork.org"

/* The last ones of each are wrong in one way or another. */
static const struct text names[] = {TEXT("1"),         TEXT("12345"),           TEXT("12346"),           TEXT("123456"),
                                    TEXT("223456"),    TEXT("001010123456789"), TEXT("001010123456780"), TEXT(""),
                                    TEXT("12a"),       TEXT("0010101234567890"), TEXT(HUNDRED),          TEXT(HUNDRED HUNDRED)};
static const struct text labels[] = {TEXT("a"),  TEXT("board"), TEXT("yard"),   TEXT("internet.operator.example"),
                                     TEXT("@Z[`z{"), TEXT("Board"), TEXT(HUNDRED), TEXT(""),
                                     TEXT(HUNDRED "k")};
static const struct text sessions[] = {
    TEXT("s"),          TEXT("t"),          TEXT("session"),    TEXT("sessions"),      TEXT(GATEWAY ";1;1"),
    TEXT(GATEWAY ";1;2"), TEXT(GATEWAY ";2;1"), TEXT(HUNDRED TEN TEN "abcdefg"), TEXT(HUNDRED TEN TEN "abcdefgh"),
    TEXT(HUNDRED TEN TEN "abcdefgi"), TEXT(""), TEXT(HUNDRED TEN TEN "abcdefghi")};
static const struct text texts[] = {TEXT(GATEWAY), TEXT("x"), TEXT("relay.example.org"), TEXT(HUNDRED TEN TEN "abcdefgh"), TEXT(""),
                                    TEXT(HUNDRED TEN TEN "abcdefghi")};

/* Mostly one of the right ones. */
#define PICK(of) pick(of, sizeof of / sizeof *of)
static const struct text *pick(const struct text *of, uint32_t count) {
    return &of[one_in(40) ? below(count) : below(count - 2 < 7 ? count - 2 : 7)];
}

/* Where the answers, or the Abort-Session-Requests, are for another decoder: requests are wrong in their fields only, commands are known ones, and a
 * subscriber's name is as long as an IMSI is. */
static bool decoded;

static const struct text *pick_name(void) {
    return decoded && !one_in(40) ? &names[3 + below(4)] : PICK(names);
}

/* The bit in which the two cases of a letter differ, turned in one byte, a letter or not. */
static void turn_case(uint8_t *bytes, size_t length) {
    if (length > 0)
        bytes[below((uint32_t)length)] ^= 0x20;
}

/* A label as it stands above, or as others may type it. */
static const struct text *pick_label(void) {
    static uint8_t bytes[128];
    static struct text typed;
    const struct text *label = PICK(labels);
    if (one_in(2))
        return label;
    memcpy(bytes, label->bytes, label->length);
    turn_case(bytes, label->length);
    typed = (struct text){(const char *)bytes, label->length};
    return &typed;
}

/* The lowest place in use, counted from 0. */
static uint32_t first_place(const uint8_t *row) {
    uint32_t place = 0;
    while (place < 7 && !(row[17] >> place & 1))
        place++;
    return place;
}

/* A row, mostly one with an access that stands. */
static uint8_t *pick_row(void) {
    uint8_t *row = proved.table + below(ROWS) * row_of(form);
    for (uint32_t tries = 0; row[17] == 0 && tries < 6; tries++)
        row = proved.table + below(ROWS) * row_of(form);
    return row;
}

/* A row, and its subscriber if an access of his stands: half of the requests are about one. */
static struct {
    const uint8_t *row;
    bool there;
    uint32_t op;
    struct text name, session, label;
} held;

static void look_at_table(void) {
    const uint8_t *row = pick_row(), *block = row + 512 + 512 * form * (one_in(2) ? below(8) : first_place(row));
    uint32_t entry = block[1] - 1u;
    held.row = row;
    held.there = !decoded && one_in(2) && row[0] == 1 && row[1] <= 15 && block[0] == 2 && block[2] <= 128 && entry < 4;
    if (!held.there)
        return;
    const uint8_t *label = row + 32 + 104 * entry;
    held.op = row[19];
    held.name = (struct text){(const char *)row + 2, row[1]};
    held.session = (struct text){(const char *)block + 8, block[2]};
    held.label = (struct text){(const char *)label + 1, label[0] <= 100 ? label[0] : 0};
}

/* ---- a request ---- */

/* A field of the list: now and then it is absent, twice there, of another vendor, or as long as it must not be. */
static void field(struct request *r, uint32_t code, bool of_3gpp, const void *value, size_t length) {
    uint32_t chance = below(400);
    if (chance == 0)
        return;
    put_avp(r, code, chance == 1 ? !of_3gpp : of_3gpp, value, chance == 2 ? length / 2 : length);
    if (chance == 3)
        put_avp(r, code, of_3gpp, value, length);
}

static void text_field(struct request *r, uint32_t code, bool of_3gpp, const struct text *t) {
    field(r, code, of_3gpp, t->bytes, t->length);
}

static void value_field(struct request *r, uint32_t code, bool of_3gpp, uint32_t n) {
    uint8_t value[4] = {one_in(400), 0, 0, (uint8_t)(one_in(100) ? below(12) : n)};
    field(r, code, of_3gpp, value, 4);
}

/* An AVP that no list names: a known one with M, or one that is not known, mostly without. */
static void stranger(struct request *r) {
    static const uint16_t known[] = {282, 25, 32, 4, 278, 401, 402, 443, 444, 450, 578, 279, 298, 285};
    static const uint16_t unknown[] = {33, 280, 97, 408, 286, 100, 312, 600, 304, 26, 3, 579, 0};
    size_t flags = r->length + 4, length = one_in(2) ? 17 : 0;
    if (one_in(8))
        put_avp(r, 304, true, "relay.example.org", length);
    else if (one_in(2))
        put_avp(r, known[below(sizeof known / sizeof *known)], false, "relay.example.org", length);
    else {
        if (one_in(3)) {
            put_avp(r, one_in(2) ? 263 : known[below(4)], true, "relay.example.org", length);
            r->bytes[flags + 7] ^= (uint8_t)below(2);
        } else
            put_avp(r, unknown[below(sizeof unknown / sizeof *unknown)], false, "relay.example.org", length);
        if (!one_in(40))
            r->bytes[flags] &= 0xBF;
    }
}

static void other(struct request *r) {
    while (one_in(3) && r->length < 2000) {
        if (one_in(2))
            put_proxy_info(r);
        else
            stranger(r);
    }
}

/* Policies: one mostly, in form 2 up to three, and now and then one too many or still more. */
static void policies(struct request *r) {
    uint32_t count = form == 2 ? 1 + below(3) : 1;
    if (one_in(30))
        count = form == 2 ? 3 + below(3) : 2;
    for (; count > 0; count--)
        text_field(r, 312, true, PICK(texts));
}

/* Fields in a turned order behind Session-Id: `turn` is the one that comes first. */
static void fields(struct request *r, bool termination, uint32_t type) {
    uint32_t count = termination ? 8 : 11, turn = one_in(3) ? below(count) : 0;
    for (uint32_t i = 0; i < count; i++) {
        other(r);
        switch ((i + turn) % count) {
        case 0:
            value_field(r, 258, false, 1);
            break;
        case 1:
            text_field(r, 264, false, PICK(texts));
            break;
        case 2:
            text_field(r, 296, false, PICK(texts));
            break;
        case 3:
            text_field(r, 283, false, PICK(texts));
            break;
        case 4:
            value_field(r, termination ? 295 : 274, false, termination ? 1 + below(8) : 2);
            break;
        case 5:
            text_field(r, 293, false, PICK(texts));
            break;
        case 6:
            text_field(r, 1, false, held.there ? &held.name : pick_name());
            break;
        case 7:
            if (termination || type == 0 || one_in(4))
                text_field(r, 100, true, held.there && !one_in(8) ? &held.label : pick_label());
            break;
        case 8:
            value_field(r, 311, true, type);
            break;
        case 9:
            if (one_in(4))
                text_field(r, 600, true, PICK(texts));
            break;
        default:
            if (type == 1 || one_in(8))
                policies(r);
        }
    }
}

static void damage(uint8_t *bytes, size_t length, uint32_t times) {
    for (; times > 0; times--)
        bytes[one_in(2) && length > 64 ? below(64) : below((uint32_t)length)] ^= (uint8_t)(1u << below(8));
}

/* The sums of a block are put right. */
static void agree(uint8_t *block) {
    uint32_t low = 0, high = 0;
    for (uint32_t i = 0; i < 510; i++) {
        low = (low + block[i]) % 255;
        high = (high + low) % 255;
    }
    block[510] = (uint8_t)high;
    block[511] = (uint8_t)low;
}

/* The second label of a row becomes the first with that bit turned in one byte; the sums of block 0 agree. */
static void label_again(uint8_t *row) {
    uint8_t *first = row + 32, *second = first + 104;
    if (row[0] != 1 || row[18] < 2 || first[0] < 1 || first[0] > 100)
        return;
    memcpy(second, first, 101);
    turn_case(second + 1, second[0]);
    agree(row);
}

/* One byte of a second block in a row of form 2 is another, mostly one that says something; or the block is gone; or a second or a third policy of one byte
 * stands in it, whatever is held before. The sums agree but where they are what is damaged. */
static void damage_second(uint8_t *row) {
    static const uint16_t at[] = {0, 1, 2, 3, 4, 5, 7, 8, 135, 136, 263, 264, 391, 392, 509};
    uint32_t place = one_in(8) ? below(8) : first_place(row), offset = one_in(4) ? below(512) : at[below(sizeof at / sizeof *at)];
    uint8_t *block = row + 512 + 1024 * place + 512;
    if (one_in(8))
        memset(block, 0, 512);
    else if (block[0] == 3 && !one_in(3)) {
        uint32_t third = below(2);
        memset(block + 136 + 128 * third, 0, 128);
        block[136 + 128 * third] = 'x';
        block[3 + third] = 1;
        agree(block);
    } else {
        block[offset] = one_in(2) ? (uint8_t)(block[offset] ^ 1u << below(8)) : (uint8_t)(126 + below(4));
        if (offset < 510)
            agree(block);
    }
}

/* A row becomes another one, mostly damaged. */
static void damage_row(uint8_t *row) {
    if (one_in(3))
        label_again(row);
    else if (form == 2 && one_in(2))
        damage_second(row);
    else if (row[0] == 1 && one_in(4)) {
        row[19] = (uint8_t)(15 + below(3));
        agree(row);
    } else
        damage(row, one_in(2) ? 512 : row_of(form), 1);
}

static void by_chance(struct request *r) {
    bool termination = one_in(4);
    uint32_t type = one_in(3);
    uint32_t flags = one_in(40) ? below(256) : 0x80 + 0x40 * below(2) + 0x10 * one_in(8);
    if (decoded)
        flags |= 0x80;
    start(r, flags, one_in(100) ? 272 + (decoded ? 2 : below(4)) : termination ? 275 : 265, one_in(60) ? below(3) : 1, below(9999));
    if (one_in(60))
        put_text(r, one_in(2) ? 25 : 33, "before");
    text_field(r, 263, false, held.there && (termination || type == 1) ? &held.session : PICK(sessions));
    fields(r, termination, type);
    other(r);
    if (one_in(100))
        while (r->length < MESSAGE_MOST - 8 + 4 * below(4))
            put_avp(r, 25, false, "", 0);
    if (one_in(100)) {
        put_text(r, one_in(2) ? 25 : 33, "");
        r->bytes[r->length - 4] |= 1;
    }
    finish(r);
    if (!decoded && one_in(8))
        damage(r->bytes, r->length, 1 + below(3));
    if (!decoded && one_in(100))
        r->length = one_in(2) ? below(24) : r->length - below(6);
}

/* ---- operators ---- */

enum { OPERATORS = 16 };

/* Operator 0 more often than all others, and now and then none at all. */
static uint32_t pick_operator(void) {
    static const uint32_t others[] = {1, 1, 1, 2, 15}, none[] = {16, 17, 255, 256, 65536, 0xFFFFFFFF};
    if (decoded || !one_in(3))
        return 0;
    return one_in(12) ? none[below(6)] : others[below(5)];
}

/* Shares for a table of ROWS rows: mostly some that fit, of operator 0 and those around it. Gives back how many they are. */
static size_t pick_shares(uint32_t *shares) {
    memset(shares, 0, (OPERATORS + 1) * sizeof *shares);
    if (decoded) {
        shares[0] = ROWS;
        return OPERATORS;
    }
    uint32_t sum = one_in(10) ? ROWS + 1 : ROWS - one_in(3);
    for (; sum > 0; sum--)
        shares[one_in(2) ? 0 : one_in(2) ? 1 : one_in(2) ? 2 : 15]++;
    if (one_in(20)) {
        uint32_t high = 1u << (31 - below(2)), times = one_in(2) ? 4 : 1 + below(3);
        for (; times > 0; times--)
            shares[3 + below(12)] += high;
    }
    return one_in(20) ? OPERATORS - 1 + 2 * below(2) : OPERATORS;
}

/* ---- one call of both ---- */

static bool same_rooms(void) {
    return memcmp(proved.table, plain.table, sizeof plain.table) == 0 &&
           memcmp(proved.target, plain.target, sizeof plain.target) == 0 &&
           memcmp(proved.answer, plain.answer, sizeof plain.answer) == 0 &&
           memcmp(proved.notice, plain.notice, sizeof plain.notice) == 0 &&
           memcmp(proved.results, plain.results, sizeof plain.results) == 0;
}

static size_t table_length(void) {
    return one_in(100) ? below(3) * row_of(form) + below(2) : ROWS * row_of(form);
}

/* The form that a call says: the table's, and now and then the other one, or none. */
static uint32_t say_form(uint32_t right) {
    static const uint32_t none[] = {0, 3, 4, 255, 257, 258, 0x80000002, 0xFFFFFFFF};
    if (decoded || !one_in(100))
        return right;
    return one_in(2) ? 3 - right : none[below(8)];
}

/* What a move brought, or nothing at all, becomes the table of both, in this form. */
static void go_on_in(uint32_t next, const uint8_t *from, size_t length) {
    form = next;
    memset(proved.table, 0, sizeof proved.table);
    memcpy(proved.table, from, length);
    memcpy(plain.table, proved.table, sizeof plain.table);
}

static bool move(uint32_t *number) {
    uint32_t to = 3 - form, said = say_form(to);
    size_t length = table_length(), target = length / row_of(form) * row_of(to);
    if (one_in(10))
        target = one_in(2) ? below(ROWS + 1) * row_of(to) : target + below(64);
    *number = wm_move(proved.table, length, proved.target, target, said);
    bool same = *number == plain_move(plain.table, length, plain.target, target, said) && same_rooms();
    if (same && *number == 0 && said == to && !one_in(4))
        go_on_in(to, proved.target, target);
    return same;
}

static bool set_up(uint32_t *number) {
    size_t length = table_length();
    const struct text *name = decoded ? &names[3 + below(4)] : PICK(names), *label = pick_label();
    const uint8_t *n = (const uint8_t *)name->bytes, *l = (const uint8_t *)label->bytes;
    uint8_t limit = (uint8_t)(one_in(20) ? below(12) : 1 + below(3)), flags = (uint8_t)(one_in(8) ? below(6) : 2 * below(2));
    uint32_t said = say_form(form);
    if (one_in(40)) {
        *number = wm_clear(proved.table, length, said);
        bool same = *number == plain_clear(plain.table, length, said) && same_rooms();
        if (same && *number == 0 && length == ROWS * row_of(form) && !decoded)
            go_on_in(1 + below(2), proved.table, 0);
        return same;
    }
    uint32_t op = pick_operator(), shares[OPERATORS + 1];
    if (one_in(2)) {
        size_t count = pick_shares(shares);
        *number = wm_enter(proved.table, length, said, op, shares, count, n, name->length);
        return *number == plain_enter(plain.table, length, said, op, shares, count, n, name->length);
    }
    *number = wm_add(proved.table, length, said, op, n, name->length, l, label->length, limit, flags);
    return *number == plain_add(plain.table, length, said, op, n, name->length, l, label->length, limit, flags);
}

/* The last cut in form 2: its notice and the lengths that came with it. */
static struct {
    uint8_t notice[WM_NOTICE_2_LEAST + 64];
    uint32_t lengths[3];
} cut;

static void keep_cut(const struct wm_outcome *o) {
    memcpy(cut.notice, proved.notice, sizeof cut.notice);
    cut.lengths[0] = o->cut_session;
    cut.lengths[1] = o->cut_host;
    cut.lengths[2] = o->cut_realm;
}

static bool request(struct wm_outcome *o) {
    static struct request r;
    const struct text *host = PICK(texts), *realm = PICK(texts);
    size_t table = table_length(), answer = WM_ANSWER_LEAST, notice = form == 1 ? WM_NOTICE_LEAST : WM_NOTICE_2_LEAST;
    bool wag = !one_in(4);
    look_at_table();
    uint32_t said = say_form(form), op = held.there && !one_in(10) ? held.op : pick_operator();
    by_chance(&r);
    if (one_in(100))
        answer = answer + below(3) - 1;
    if (one_in(100))
        notice = one_in(2) ? WM_NOTICE_LEAST + below(3) - 1 : WM_NOTICE_2_LEAST + below(3) - 1;
    *o = wm_handle(proved.table, table, said, op, (const uint8_t *)host->bytes, host->length, (const uint8_t *)realm->bytes,
                   realm->length, r.bytes, r.length, wag, proved.answer, answer, proved.notice, notice);
    struct wm_outcome other =
        plain_handle(plain.table, table, said, op, (const uint8_t *)host->bytes, host->length, (const uint8_t *)realm->bytes,
                     realm->length, r.bytes, r.length, wag, plain.answer, answer, plain.notice, notice);
    if (o->cut && said == 2)
        keep_cut(o);
    return memcmp(o, &other, sizeof other) == 0;
}

/* ---- a burst ---- */

/* The header says another length, and the message has it: past 4,096 bytes, no multiple of 4, or at the least. */
static void resize(struct request *r) {
    size_t length = one_in(3) ? MESSAGE_MOST + below(6) : one_in(2) ? r->length + below(4) : 18 + below(4);
    if (length > r->length)
        memset(r->bytes + r->length, 0, length - r->length);
    r->length = length;
    finish(r);
}

/* Up to BURST messages back to back, of one operator mostly; now and then the last is cut off, or bytes stand behind it. */
static struct {
    uint8_t bytes[(BURST + 1) * sizeof(struct request)], wags[BURST + 8];
    size_t length, messages;
    uint32_t op;
} burst;

static void burst_by_chance(void) {
    static struct request r;
    burst.length = 0;
    burst.op = pick_operator();
    burst.messages = below(BURST + 1);
    for (size_t i = 0; i < burst.messages; i++) {
        look_at_table();
        if (held.there && i == 0)
            burst.op = held.op;
        by_chance(&r);
        if (one_in(20))
            r.bytes[0] = 2;
        if (one_in(20))
            resize(&r);
        memcpy(burst.bytes + burst.length, r.bytes, r.length);
        burst.length += r.length;
        burst.wags[i] = (uint8_t)(one_in(3) ? 0 : one_in(2) ? 1 : 1 + below(255));
    }
    if (one_in(6)) {
        memset(burst.bytes + burst.length, (int)below(2), 24);
        burst.length += below(24);
    } else if (one_in(6)) {
        size_t off = one_in(2) ? below(5) : below((uint32_t)burst.length + 1);
        burst.length -= off < burst.length ? off : burst.length;
    }
}

/* A room for so many, or for one more or less, or around a limit. */
static size_t room_for(size_t least, size_t most) {
    size_t room = one_in(3) ? least * (1 + below(3)) : one_in(2) ? least + below(600) : most;
    return one_in(3) ? room + below(3) - 1 : room;
}

/* Words and places: enough mostly, and now and then as many as messages, or one more or less. */
static size_t some_places(void) {
    size_t exact = burst.messages + below(3);
    return one_in(4) ? exact == 0 ? 0 : exact - 1 : BURST + 8;
}

static bool same_taken(const struct wm_taken *a, const struct wm_taken *b) {
    return a->number == b->number && a->messages == b->messages && a->bytes == b->bytes && a->answers == b->answers && a->notices == b->notices;
}

static bool take_burst(struct wm_taken *t) {
    const struct text *host = PICK(texts), *realm = PICK(texts);
    burst_by_chance();
    size_t table = table_length(), words = some_places(), places = some_places();
    size_t answers = room_for(WM_ANSWER_LEAST, ANSWER - 64), notices = room_for(form == 1 ? WM_NOTICE_LEAST : WM_NOTICE_2_LEAST, NOTICE - 64);
    uint32_t said = say_form(form);
    *t = wm_burst(proved.table, table, said, burst.op, (const uint8_t *)host->bytes, host->length, (const uint8_t *)realm->bytes, realm->length,
                  burst.bytes, burst.length, burst.wags, words, proved.answer, answers, proved.notice, notices, proved.results, places);
    struct wm_taken other = plain_burst(plain.table, table, said, burst.op, (const uint8_t *)host->bytes, host->length,
                                        (const uint8_t *)realm->bytes, realm->length, burst.bytes, burst.length, burst.wags, words,
                                        plain.answer, answers, plain.notice, notices, plain.results, places);
    return same_taken(t, &other);
}

/* ---- the disconnection ---- */

/* A length that came with a notice: now and then another, at the limits or one that would do if its high bytes were not looked at. */
static uint32_t some_length(uint32_t right) {
    static const uint32_t others[] = {0, 1, 127, 128, 129, 256, 257, 65537, 0x80000001, 0xFFFFFFFF};
    return !decoded && one_in(12) ? others[below(sizeof others / sizeof *others)] : right;
}

/* What stands behind the texts of a notice is not looked at. */
static void stain_tails(void) {
    for (size_t i = 0; i < 3; i++)
        for (size_t k = cut.lengths[i]; k < 128; k++)
            cut.notice[128 * i + k] = (uint8_t)below(256);
}

/* The request for the last cut, mostly. */
static bool abort_session(struct wm_written *w) {
    const struct text *host = PICK(texts), *realm = PICK(texts);
    size_t notice = one_in(20) ? WM_NOTICE_2_LEAST + below(3) - 1 : WM_NOTICE_2_LEAST, room = one_in(20) ? WM_ABORT_LEAST + below(3) - 1 : WM_ABORT_LEAST;
    uint32_t session = some_length(cut.lengths[0]), gateway = some_length(cut.lengths[1]), other = some_length(cut.lengths[2]);
    uint32_t hop = 0x1234567 + below(9999), end = one_in(8) ? hop : 0x89ABCDE0 + below(9999);
    if (!decoded && one_in(4))
        stain_tails();
    *w = wm_abort((const uint8_t *)host->bytes, host->length, (const uint8_t *)realm->bytes, realm->length, cut.notice, notice, session,
                  gateway, other, hop, end, proved.answer, room);
    struct wm_written mine = plain_abort((const uint8_t *)host->bytes, host->length, (const uint8_t *)realm->bytes, realm->length,
                                         cut.notice, notice, session, gateway, other, hop, end, plain.answer, room);
    return w->number == mine.number && w->length == mine.length;
}

/* An AVP of an answer: now and then it is absent, twice there, of a vendor, shorter, or another one. */
static void answer_field(struct request *r, uint32_t code, const void *value, size_t length) {
    uint32_t chance = below(30);
    if (chance == 0)
        return;
    if (chance == 5) {
        put_text(r, code, one_in(2) ? "five." : "of eight");
        return;
    }
    put_avp(r, code, chance == 1, value, chance == 2 ? length / 2 : length);
    if (chance == 3)
        put_avp(r, code, false, value, length);
    if (chance == 4)
        put_avp(r, code, true, value, length);
}

/* An answer by chance to a request with this Session-Id. */
static void by_chance_answer(struct request *r, const struct text *session, uint32_t identifiers) {
    start(r, one_in(4) ? below(256) : 0x40, one_in(20) ? 272 + below(4) : 274, one_in(4) ? below(3) : 1, identifiers);
    if (one_in(20))
        put_text(r, 264, "first");
    answer_field(r, 263, session->bytes, session->length);
    other(r);
    if (one_in(20))
        put_avp(r, 297, false, "", 0);
    answer_field(r, 268, "\0\0\7\321", 4);
    other(r);
    if (one_in(60))
        while (r->length < MESSAGE_MOST - 8 + 4 * below(4))
            put_avp(r, 25, false, "", 0);
    finish(r);
    if (one_in(4))
        damage(r->bytes, r->length, 1);
    if (one_in(20))
        r->length = one_in(2) ? below(24) : r->length - below(6);
}

/* The identifiers are those of start, or exchanged, or one is another. */
static bool judge(uint32_t *belongs) {
    static struct request r;
    const struct text *sent = PICK(sessions), *came = one_in(12) ? PICK(sessions) : sent;
    uint32_t identifiers = below(9999), hop = 0x1234567 + identifiers, end = 0x89ABCDE + identifiers, chance = below(24);
    by_chance_answer(&r, came, identifiers);
    if (chance == 0) {
        uint32_t first = hop;
        hop = end;
        end = first;
    }
    hop ^= chance == 1 ? 1u << below(32) : 0;
    end ^= chance == 2 ? 1u << below(32) : 0;
    *belongs = wm_abort_answered(r.bytes, r.length, (const uint8_t *)sent->bytes, sent->length, hop, end);
    return *belongs == plain_abort_answered(r.bytes, r.length, (const uint8_t *)sent->bytes, sent->length, hop, end);
}

/* ---- another server ---- */

enum { PARTS = 1024, OLD_ANSWER = 8192 };

/* What another server is said to have done: its answer, its notice and the row as it left it; with some room behind each. */
static struct {
    uint8_t answer[OLD_ANSWER + 64], notice[WM_NOTICE_2_LEAST + 64], row[2 * WM_ROW_2];
    size_t answer_length, notice_length;
} old;

/* An answer taken apart: its AVPs with their padding, in their order, and what is behind them if no AVP stands there. */
static struct {
    uint8_t bytes[OLD_ANSWER + 64];
    struct text part[PARTS];
    uint32_t count;
} apart;

static size_t part_length(const uint8_t *avp) {
    return (((size_t)avp[5] << 16 | (size_t)avp[6] << 8 | avp[7]) + 3) / 4 * 4;
}

static void take_apart(void) {
    memcpy(apart.bytes, old.answer, old.answer_length);
    apart.count = 0;
    for (size_t at = 20, n; at < old.answer_length; at += n) {
        n = part_length(apart.bytes + at);
        if (n < 8 || n > old.answer_length - at)
            n = old.answer_length - at;
        apart.part[apart.count++] = (struct text){(const char *)apart.bytes + at, n};
    }
}

/* The header's length becomes a true one. */
static void put_length(void) {
    old.answer[1] = (uint8_t)(old.answer_length >> 16);
    old.answer[2] = (uint8_t)(old.answer_length >> 8);
    old.answer[3] = (uint8_t)old.answer_length;
}

/* Its AVPs behind its header. */
static void put_together(void) {
    old.answer_length = 20;
    for (uint32_t i = 0; i < apart.count && old.answer_length + apart.part[i].length <= OLD_ANSWER; i++) {
        memcpy(old.answer + old.answer_length, apart.part[i].bytes, apart.part[i].length);
        old.answer_length += apart.part[i].length;
    }
    put_length();
}

/* A place among the AVPs: behind the first one mostly, so that Session-Id stays first. */
static uint32_t some_place(void) {
    return apart.count == 0 ? 0 : one_in(12) ? below(apart.count + 1) : 1 + below(apart.count);
}

static void put_part(uint32_t place, struct text part) {
    if (apart.count == PARTS)
        return;
    for (uint32_t i = apart.count++; i > place; i--)
        apart.part[i] = apart.part[i - 1];
    apart.part[place] = part;
}

static struct text take_part(uint32_t place) {
    struct text part = apart.part[place];
    apart.count--;
    for (uint32_t i = place; i < apart.count; i++)
        apart.part[i] = apart.part[i + 1];
    return part;
}

/* Groups one inside another, one to six deep, with an AVP or nothing in the innermost, and now and then one beside the group in it. One that has V is no group, and one bit of it all may be
 * another. */
static void put_nested(struct request *r) {
    static const uint16_t groups[] = {279, 279, 297, 443, 284};
    uint32_t depth = 1 + below(6), inside = one_in(3) ? 0 : 8 + below(6), beside = 8 * one_in(3);
    size_t start = r->length;
    for (; depth > 0; depth--) {
        put_number(r, 4, groups[one_in(12) ? 4 : below(4)]);
        put_number(r, 1, one_in(40) ? 0xC0 : 0x40 * below(2));
        put_number(r, 3, 8 * depth + beside * (depth - 1) + (one_in(30) ? inside : (inside + 3) / 4 * 4));
        if (beside && depth > 1)
            put_avp(r, 33, false, "", 0);
    }
    if (inside)
        put_avp(r, one_in(2) ? 263 : 268, false, "within", inside - 8);
    if (one_in(6))
        damage(r->bytes + start, r->length - start, 1);
}

/* One AVP more: one that ours never has, with M or without; a name of ours, with the vendor or with another value; Failed-AVP; groups. */
static struct text some_part(void) {
    static const uint16_t ours[] = {263, 258, 274, 268, 297, 264, 296, 443, 284, 284, 279};
    static struct request kept[4];
    static uint32_t next;
    struct request *r = &kept[next++ % 4];
    uint32_t chance = below(4);
    r->length = 0;
    if (chance == 0)
        put_nested(r);
    else if (chance == 1)
        put_text(r, 33 + below(3), one_in(2) ? "" : "another");
    else
        put_avp(r, ours[below(sizeof ours / sizeof *ours)], one_in(6), one_in(2) ? "\0\0\7\321" : "longer", one_in(2) ? 4 : 6);
    if (chance != 0 && one_in(2))
        r->bytes[4] &= 0xBF;
    return (struct text){(const char *)r->bytes, r->length};
}

/* An AVP is elsewhere, gone, there twice, or one more is there. */
static void change_parts(void) {
    if (old.answer_length < 20)
        return;
    take_apart();
    uint32_t chance = below(6), place = some_place();
    if (chance > 2 || apart.count == 0)
        put_part(place, some_part());
    else {
        struct text part = chance == 2 ? apart.part[place % apart.count] : take_part(place % apart.count);
        if (chance != 1)
            put_part(one_in(3) ? apart.count : some_place(), part);
    }
    put_together();
}

/* One byte of an AVP is another: mostly of its flags, its code, its length, or the last of it, which may be padding. */
static void change_avp(void) {
    if (old.answer_length < 28)
        return;
    take_apart();
    const struct text *part = &apart.part[below(apart.count)];
    uint8_t *avp = old.answer + ((const uint8_t *)part->bytes - apart.bytes);
    static const uint8_t bits[] = {0x80, 0x40, 0x20, 0x10, 1};
    uint32_t chance = below(5);
    if (part->length < 8)
        return;
    if (chance == 0)
        avp[4] ^= bits[below(5)];
    else
        avp[chance == 1 ? 3 : chance == 2 ? 7 : chance == 3 ? part->length - 1 - below(4) : below((uint32_t)part->length)] ^= (uint8_t)(1u << below(8));
}

/* The answer is shorter or longer than its header says, none at all, or nothing but a header. */
static void change_length(void) {
    uint32_t chance = below(6);
    if (chance == 0)
        old.answer_length = 0;
    else if (chance == 1 && old.answer_length >= 20)
        old.answer_length = below(32);
    else if (chance == 2 && old.answer_length >= 20)
        old.answer_length -= 1 + below(8);
    else if (chance == 3) {
        old.answer[old.answer_length] = 0;
        old.answer_length += 1;
    } else if (old.answer_length + 64 < OLD_ANSWER && old.answer_length >= 20) {
        take_apart();
        apart.count = one_in(2) ? 0 : apart.count;
        put_together();
        memset(old.answer + old.answer_length, 0, 64);
        old.answer_length += one_in(2) ? 4 * below(16) : below(64);
        put_length();
    }
}

static void change_notice(void) {
    size_t whole = form == 1 ? WM_NOTICE_LEAST : WM_NOTICE_2_LEAST;
    uint32_t chance = below(4);
    if (chance == 0)
        old.notice_length = old.notice_length ? 0 : whole;
    else if (chance == 1)
        old.notice_length = one_in(2) ? below((uint32_t)whole + 2) : whole - 1 + below(3);
    else
        damage(old.notice, whole, 1);
}

static void change_one(void) {
    uint32_t chance = below(12);
    if (chance < 4)
        change_parts();
    else if (chance < 7)
        change_avp();
    else if (chance == 7)
        old.answer[below(20)] ^= (uint8_t)(1u << below(8));
    else if (chance == 8)
        change_length();
    else if (chance == 9)
        change_notice();
    else
        damage(old.row, row_of(form), 1);
}

/* What plain C does with a request on a row, and on top of it none to three changes. */
static void another_server(uint32_t op, const struct text *host, const struct text *realm, const struct request *r, bool wag) {
    memset(&old, 0, sizeof old);
    memcpy(old.row, held.row, row_of(form));
    struct wm_outcome o = plain_handle(old.row, row_of(form), form, op, (const uint8_t *)host->bytes, host->length, (const uint8_t *)realm->bytes,
                                       realm->length, r->bytes, r->length, wag, old.answer, sizeof old.answer, old.notice, sizeof old.notice);
    old.answer_length = o.length;
    old.notice_length = o.cut == 0 ? 0 : form == 1 ? WM_NOTICE_LEAST : WM_NOTICE_2_LEAST;
    for (uint32_t changes = below(4); changes > 0; changes--)
        change_one();
}

static size_t around(size_t right) {
    return one_in(60) ? right + below(3) - 1 : right;
}

/* The row before stands where the target of a move does. */
static bool hold_against(struct wm_judged *w) {
    static struct request r;
    const struct text *host = PICK(texts), *realm = PICK(texts);
    size_t row = one_in(60) ? 2 * row_of(form) : around(row_of(form)), after = one_in(60) ? 2 * row_of(form) : around(row_of(form));
    size_t answer = around(WM_ANSWER_LEAST);
    size_t notice = around(one_in(60) || form == 1 ? WM_NOTICE_LEAST : WM_NOTICE_2_LEAST);
    bool wag = !one_in(4);
    look_at_table();
    uint32_t said = say_form(form), op = held.there && !one_in(20) ? held.op : pick_operator();
    by_chance(&r);
    another_server(op, host, realm, &r, wag);
    memcpy(proved.target, held.row, row_of(form));
    memcpy(plain.target, held.row, row_of(form));
    *w = wm_judge(proved.target, row, old.row, after, said, op, (const uint8_t *)host->bytes, host->length, (const uint8_t *)realm->bytes,
                  realm->length, r.bytes, r.length, wag, old.answer, old.answer_length, old.notice, old.notice_length, proved.answer, answer,
                  proved.notice, notice);
    struct wm_judged mine = plain_judge(plain.target, row, old.row, after, said, op, (const uint8_t *)host->bytes, host->length,
                                        (const uint8_t *)realm->bytes, realm->length, r.bytes, r.length, wag, old.answer, old.answer_length,
                                        old.notice, old.notice_length, plain.answer, answer, plain.notice, notice);
    return w->number == mine.number && w->mismatch == mine.mismatch && w->at == mine.at;
}

/* ---- the gateway ---- */

/* A Re-Auth-Request by chance about this Session-Id. */
static void by_chance_re_auth(struct request *r, const struct text *session) {
    start(r, one_in(20) ? below(256) : 0xC0, one_in(30) ? decoded ? 275 : 257 + below(19) : 258, one_in(30) ? below(3) : 1, below(9999));
    if (one_in(40))
        put_text(r, one_in(2) ? 25 : 33, "before");
    text_field(r, 263, false, session);
    other(r);
    value_field(r, 258, false, 1);
    text_field(r, 264, false, PICK(texts));
    text_field(r, 296, false, PICK(texts));
    other(r);
    text_field(r, 283, false, PICK(texts));
    text_field(r, 293, false, PICK(texts));
    value_field(r, 285, false, one_in(12) ? 1 : 0);
    other(r);
    if (one_in(60))
        while (r->length < MESSAGE_MOST - 8 + 4 * below(4))
            put_avp(r, 25, false, "", 0);
    finish(r);
    if (!decoded && one_in(8))
        damage(r->bytes, r->length, 1);
    if (!decoded && one_in(20))
        r->length = one_in(2) ? below(24) : r->length - below(6);
}

static size_t re_auth_room(void) {
    return one_in(20) ? WM_ANSWER_LEAST + below(3) - 1 : WM_ANSWER_LEAST;
}

/* The gateway's own operation; the AA-Request goes where the target of a move does. */
static bool re_authorize(struct wm_reauthorized *w) {
    static struct request r;
    const struct text *host = PICK(texts), *realm = PICK(texts), *session = PICK(sessions), *user = pick_name(), *label = pick_label();
    const struct text *visited = one_in(2) ? &texts[4] : PICK(texts), *asked = one_in(8) ? PICK(sessions) : session;
    size_t answer = re_auth_room(), request = re_auth_room();
    uint32_t hop = 0x1234567 + below(9999), end = 0x89ABCDE0 + below(9999);
    by_chance_re_auth(&r, asked);
    *w = wm_reauth((const uint8_t *)host->bytes, host->length, (const uint8_t *)realm->bytes, realm->length, (const uint8_t *)session->bytes,
                   session->length, (const uint8_t *)user->bytes, user->length, (const uint8_t *)label->bytes, label->length,
                   (const uint8_t *)visited->bytes, visited->length, r.bytes, r.length, hop, end, proved.answer, answer, proved.target, request);
    struct wm_reauthorized mine =
        plain_reauth((const uint8_t *)host->bytes, host->length, (const uint8_t *)realm->bytes, realm->length, (const uint8_t *)session->bytes,
                     session->length, (const uint8_t *)user->bytes, user->length, (const uint8_t *)label->bytes, label->length,
                     (const uint8_t *)visited->bytes, visited->length, r.bytes, r.length, hop, end, plain.answer, answer, plain.target, request);
    return w->code == mine.code && w->kind == mine.kind && w->length == mine.length && w->request_length == mine.request_length;
}

/* Each outcome that was seen, once. */
static uint32_t outcomes(uint32_t outcome) {
    static uint32_t seen[128], count;
    for (uint32_t i = 0; i < count; i++)
        if (seen[i] == outcome)
            return count;
    if (count < 128)
        seen[count++] = outcome;
    return count;
}

/* What the proved library wrote goes to a file. */
static uint32_t keep(FILE *file, uint32_t length) {
    if (length != 0)
        fwrite(proved.answer, 1, length, file);
    return length != 0;
}

/* One call by chance. Gives back what to count it under. */
static uint32_t one_call(struct wm_outcome *o, bool *same) {
    struct wm_written w;
    uint32_t chance = decoded ? 1 : below(24);
    if (one_in(8)) {
        *same = set_up(&o->code);
        return 20000 + o->code;
    }
    if (chance == 0) {
        *same = move(&o->code);
        return 20000 + o->code;
    }
    if (chance == 2) {
        *same = abort_session(&w);
        o->code = w.number;
        return 30000 + w.number;
    }
    if (chance == 3 || chance == 4) {
        *same = judge(&o->code);
        return 40000 + o->code;
    }
    if (chance == 5 || chance == 6) {
        struct wm_taken t;
        *same = take_burst(&t);
        o->code = t.number;
        return 50000 + 100 * t.number + (uint32_t)t.messages;
    }
    if (chance == 7) {
        struct wm_reauthorized r;
        *same = re_authorize(&r);
        o->code = r.code;
        return 60000 + r.code;
    }
    if (chance > 19) {
        struct wm_judged j;
        *same = hold_against(&j);
        o->code = j.number;
        return 70000 + 10 * j.number + j.mismatch;
    }
    *same = request(o);
    return o->code + 10000 * (o->kind == 2);
}

/* Both libraries on `calls` calls; where a file is named the proved one's answers go there, or its requests for the cuts, of a table of form 2. */
int mix(uint32_t calls, uint64_t from, const char *name, bool aborts) {
    uint32_t differ = 0, kinds = 0, written = 0;
    FILE *file = name ? fopen(name, "wb") : 0;
    if (name && !file)
        return 2;
    begin_chance(from);
    decoded = file != 0;
    form = aborts ? 2 : 1;
    for (uint32_t n = 0; n < calls && differ < 10; n++) {
        struct wm_outcome o = {0};
        struct wm_written w = {0};
        bool same;
        kinds = outcomes(one_call(&o, &same));
        if (file && !aborts)
            written += keep(file, o.length);
        if (file && aborts && o.cut) {
            same = abort_session(&w) && same;
            written += keep(file, w.length);
        }
        if (!same || !same_rooms()) {
            printf("mix: call %u of seed %llu: the libraries differ; the proved one said %u\n", n, (unsigned long long)from, o.code);
            differ++;
        }
        if (!decoded && one_in(120)) {
            damage_row(pick_row());
            memcpy(plain.table, proved.table, sizeof plain.table);
        }
    }
    if (file)
        fclose(file);
    printf("mix: %u calls, %u differ, %u outcomes seen", calls, differ, kinds);
    printf(file ? ", %u messages written\n" : "\n", written);
    return differ != 0;
}

/* What the proved gateway writes for Re-Auth-Requests by chance: each answer, and behind it the AA-Request, go into the file. */
int re_auths(uint32_t calls, const char *name) {
    uint32_t differ = 0, written = 0;
    FILE *file = fopen(name, "wb");
    if (!file)
        return 2;
    begin_chance(1);
    decoded = true;
    for (uint32_t n = 0; n < calls; n++) {
        struct wm_reauthorized w;
        differ += !re_authorize(&w) || !same_rooms();
        written += keep(file, w.length);
        if (w.request_length != 0)
            written += fwrite(proved.target, 1, w.request_length, file) == w.request_length;
    }
    fclose(file);
    printf("reauths: %u calls, %u differ, %u messages written\n", calls, differ, written);
    return differ != 0;
}
