/* The rules of document 01, with those of 02 that have landed, in plain C, written from the paper for speed: what the proved library is measured against.
 *
 * C11 without intrinsics, for any byte order. Words are read by memcpy, which compiles to one load.
 */
#include "plain.h"

enum { ROWS = 1024, BLOCK = 512, SUMMED = 510, NAME_MOST = 15, TEXT_MOST = 128, LABEL_MOST = 100, ENTRIES = 4, PLACES = 8, OPERATORS = 16 };
enum { POLICIES = 3 }; /* of an access in form 2; form 1 has one */
enum { ENTRY = 32, ENTRY_SIZE = 104, ENTRIES_END = ENTRY + ENTRIES * ENTRY_SIZE, OPERATOR = 19, LINE = 20 }; /* in block 0 */
enum { SESSION_AT = 8, HOST_AT = 136, POLICY_AT = 264 };          /* in a place's first block */
enum { REALM_AT = 8, SECOND_AT = 136, THIRD_AT = 264 };           /* in its second one, of form 2 */
enum { BARRED = 1, MAY_ROAM = 2 };
enum { RESULT = 1, EXPERIMENTAL = 2 };
enum { VENDOR = 10415, ABORT = 274 };

/* Loops that are better off with all registers to themselves. */
#ifdef __GNUC__
#define APART __attribute__((noinline))
#else
#define APART
#endif

/* ---- words and texts ---- */

static inline uint64_t word(const uint8_t *p) {
    uint64_t w;
    memcpy(&w, p, 8);
    return w;
}

/* Between the machine's order and the network's, both ways: compilers have one instruction for the swap. */
static inline uint32_t network(uint32_t n) {
#if defined __BYTE_ORDER__ && __BYTE_ORDER__ == __ORDER_LITTLE_ENDIAN__
    return n << 24 | (n & 0xFF00) << 8 | (n >> 8 & 0xFF00) | n >> 24;
#else
    const uint8_t *p = (const uint8_t *)&n;
    return (uint32_t)p[0] << 24 | (uint32_t)p[1] << 16 | (uint32_t)p[2] << 8 | p[3];
#endif
}

static inline uint32_t number(const uint8_t *p) {
    uint32_t n;
    memcpy(&n, p, 4);
    return network(n);
}

static inline void put_number(uint8_t *p, uint32_t n) {
    n = network(n);
    memcpy(p, &n, 4);
}

/* Are `bytes` (8 or more) all zero? The last word may overlap the one before. */
static inline bool all_zero(const uint8_t *p, size_t bytes) {
    uint64_t any = word(p + bytes - 8);
    for (size_t i = 0; i + 8 <= bytes; i += 8)
        any |= word(p + i);
    return any == 0;
}

/* Is a field zero from byte `used` to its end at `size`? */
static inline bool tail_zero(const uint8_t *field, size_t used, size_t size) {
    if (size - used >= 8)
        return all_zero(field + used, size - used);
    uint8_t any = 0;
    for (size_t i = used; i < size; i++)
        any |= field[i];
    return any == 0;
}

/* Texts of one length. The ends are looked at first: names and Session-Ids often begin alike. */
static inline bool same(const uint8_t *a, const uint8_t *b, size_t bytes) {
    if (bytes >= 8 && word(a + bytes - 8) != word(b + bytes - 8))
        return false;
    return memcmp(a, b, bytes) == 0;
}

static inline uint8_t lower_case(uint8_t letter) {
    return letter >= 'A' && letter <= 'Z' ? letter + 32 : letter;
}

/* Labels of one length, a letter in either case. */
static inline bool same_label(const uint8_t *a, const uint8_t *b, size_t bytes) {
    if (same(a, b, bytes))
        return true;
    for (size_t i = 0; i < bytes; i++)
        if (lower_case(a[i]) != lower_case(b[i]))
            return false;
    return true;
}

/* ---- sums ---- */

/* Fletcher-16 of a block: the second sum times 256, and the first.
 *
 * The block is taken as 16 lines of 32 columns, so that the columns are summed side by side in words of 16 bits (none is over
 * 16 * 255, nor over 120 * 255 for the sum of the sums before). The second sum of 512 bytes weighs byte 32 k + j by
 * 512 - 32 k - j; the two last bytes, which are the sums themselves, are taken out at the end. */
static uint32_t sums(const uint8_t *b) {
    int16_t first[32], before[32];
    for (uint32_t j = 0; j < 32; j++) {
        uint16_t x = 0, y = 0;
        for (uint32_t k = 0; k < 16; k++) {
            y = (uint16_t)(y + x);
            x = (uint16_t)(x + b[32 * k + j]);
        }
        first[j] = (int16_t)x;
        before[j] = (int16_t)y;
    }
    static const int16_t weight[32] = {32, 31, 30, 29, 28, 27, 26, 25, 24, 23, 22, 21, 20, 19, 18, 17,
                                       16, 15, 14, 13, 12, 11, 10, 9,  8,  7,  6,  5,  4,  3,  2,  1};
    int32_t one = 0, two = 0;
    for (uint32_t j = 0; j < 32; j++) {
        one += first[j];
        two += 32 * before[j] + weight[j] * first[j];
    }
    uint32_t p = b[510], q = b[511], s1 = (uint32_t)one - p - q, s2 = (uint32_t)two - 2 * p - q - 2 * s1;
    return s2 % 255 << 8 | s1 % 255;
}

static inline bool sums_agree(const uint8_t *b) {
    return sums(b) == ((uint32_t)b[510] << 8 | b[511]);
}

static inline void put_sums(uint8_t *b) {
    uint32_t s = sums(b);
    b[510] = (uint8_t)(s >> 8);
    b[511] = (uint8_t)s;
}

/* ---- the table ---- */

/* What a sound row's tests have found on the way: how many places are in use, and how many of each entry (from 1). */
struct row_use {
    uint32_t used;
    uint8_t of_entry[ENTRIES + 1];
};

/* A form is told by its number, which is also how many blocks a place has. */
static inline size_t row_size(uint32_t form) {
    return BLOCK + (size_t)PLACES * BLOCK * form;
}

/* Where a place's blocks start in its row. */
static inline size_t place_at(uint32_t form, uint32_t place) {
    return BLOCK + (size_t)BLOCK * form * (place - 1);
}

static inline const uint8_t *entry_at(const uint8_t *row, uint32_t i) {
    return row + ENTRY + ENTRY_SIZE * i;
}

static inline bool in_use(const uint8_t *row, uint32_t place) {
    return row[17] >> (place - 1) & 1;
}

/* The entry with this label, counted from 1, or 0. */
static uint32_t find_entry(const uint8_t *row, const uint8_t *label, size_t length) {
    for (uint32_t i = 0; i < row[18]; i++) {
        const uint8_t *e = entry_at(row, i);
        if (e[0] == length && same_label(e + 1, label, length))
            return i + 1;
    }
    return 0;
}

/* The place with this Session-Id among those in use up to `last`, or 0. */
static uint32_t find_session(const uint8_t *row, uint32_t form, const uint8_t *session, size_t length, uint32_t last) {
    for (uint32_t place = 1; place <= last; place++) {
        const uint8_t *b = row + place_at(form, place);
        if (in_use(row, place) && b[2] == length && same(b + SESSION_AT, session, length))
            return place;
    }
    return 0;
}

static bool name_sound(const uint8_t *row) {
    uint32_t wrong = 0, i = 0;
    for (; i < row[1]; i++)
        wrong |= (uint32_t)(row[2 + i] - '0') > 9;
    for (; i < NAME_MOST; i++)
        wrong |= row[2 + i];
    return wrong == 0;
}

/* The order line lists each place in use once, and then holds zeros. */
static bool line_sound(const uint8_t *row, struct row_use *use) {
    uint32_t listed = 0, n = 0;
    for (; n < PLACES && row[LINE + n] != 0; n++) {
        uint32_t place = row[LINE + n];
        if (place > PLACES || (listed >> (place - 1) & 1))
            return false;
        listed |= 1u << (place - 1);
    }
    use->used = n;
    uint32_t rest = 0;
    for (; n < PLACES; n++)
        rest |= row[LINE + n];
    return listed == row[17] && rest == 0;
}

static bool entries_sound(const uint8_t *row) {
    uint32_t limits = 0;
    for (uint32_t i = 0; i < row[18]; i++) {
        const uint8_t *e = entry_at(row, i);
        if (e[0] < 1 || e[0] > LABEL_MOST || e[101] > 3 || e[102] < 1 || e[102] > 8 || e[103] != 0)
            return false;
        if (!tail_zero(e + 1, e[0], LABEL_MOST))
            return false;
        for (uint32_t j = 0; j < i; j++) {
            const uint8_t *other = entry_at(row, j);
            if (other[0] == e[0] && same_label(other + 1, e + 1, e[0]))
                return false;
        }
        limits += e[102];
    }
    const uint8_t *end = entry_at(row, row[18]);
    return limits <= 8 && all_zero(end, (size_t)(row + SUMMED - end));
}

static bool access_sound(const uint8_t *b, uint32_t entries) {
    if (b[0] != 2 || b[1] < 1 || b[1] > entries || b[2] < 1 || b[2] > TEXT_MOST || b[3] < 1 || b[3] > TEXT_MOST)
        return false;
    if (b[4] > 1 || b[5] > TEXT_MOST || (b[5] != 0) != b[4] || (b[6] | b[7]) != 0)
        return false;
    return tail_zero(b + SESSION_AT, b[2], TEXT_MOST) && tail_zero(b + HOST_AT, b[3], TEXT_MOST) &&
           all_zero(b + POLICY_AT + b[5], (size_t)(SUMMED - POLICY_AT - b[5])) && sums_agree(b);
}

/* The second block of a place in use; `policy` if the first one holds a policy. */
static bool second_sound(const uint8_t *b, bool policy) {
    if (b[0] != 3 || b[1] > TEXT_MOST || b[3] > TEXT_MOST || b[4] > TEXT_MOST || (b[2] | b[5] | b[6] | b[7]) != 0)
        return false;
    if ((b[3] != 0 && !policy) || (b[4] != 0 && b[3] == 0))
        return false;
    return tail_zero(b + REALM_AT, b[1], TEXT_MOST) && tail_zero(b + SECOND_AT, b[3], TEXT_MOST) &&
           all_zero(b + THIRD_AT + b[4], (size_t)(SUMMED - THIRD_AT - b[4])) && sums_agree(b);
}

static bool places_sound(const uint8_t *row, uint32_t form, struct row_use *use) {
    const uint8_t *b = row + BLOCK;
    for (uint32_t place = 1; place <= PLACES; place++, b += BLOCK * form) {
        if (!in_use(row, place)) {
            if (!all_zero(b, (size_t)BLOCK * form))
                return false;
            continue;
        }
        if (!access_sound(b, row[18]) || ++use->of_entry[b[1]] > entry_at(row, b[1] - 1u)[102])
            return false;
        if (form == 2 && !second_sound(b + BLOCK, b[4]))
            return false;
        if (find_session(row, form, b + SESSION_AT, b[2], place - 1) != 0)
            return false;
    }
    return true;
}

/* Of a row that was found: its first byte, its operator and its name's length are right. */
static bool row_sound(const uint8_t *row, uint32_t form, struct row_use *use) {
    memset(use, 0, sizeof *use);
    return row[18] <= ENTRIES && (row[28] | row[29] | row[30] | row[31]) == 0 && name_sound(row) &&
           line_sound(row, use) && entries_sound(row) && sums_agree(row) && places_sound(row, form, use);
}

/* The operator's first row of this name, or none. A row starts with the byte 1, the length and the name. The word that ends with the
 * name tells almost every row apart, and the operator those of the same name; where the name is too short for a word, the first byte does. */
static APART uint8_t *find_row(uint8_t *table, size_t table_length, uint32_t form, uint32_t op, const uint8_t *name,
                               size_t length) {
    if (length < 1 || length > NAME_MOST)
        return 0;
    uint8_t start[2 + NAME_MOST] = {1, (uint8_t)length}, *end = table + table_length;
    size_t size = row_size(form);
    memcpy(start + 2, name, length);
    if (length >= 6) {
        size_t at = length - 6;
        uint64_t wanted = word(start + at);
        for (uint8_t *row = table; row != end; row += size)
            if (word(row + at) == wanted && row[OPERATOR] == op && memcmp(row, start, length + 2) == 0)
                return row;
        return 0;
    }
    for (uint8_t *row = table; row != end; row += size)
        if (row[0] == 1 && row[OPERATOR] == op && memcmp(row, start, length + 2) == 0)
            return row;
    return 0;
}

/* Rows of a known length are divided by it without a division. */
static bool table_fits(size_t table_length, uint32_t form) {
    if (form != 1 && form != 2)
        return false;
    size_t rest = form == 1 ? table_length % WM_ROW : table_length % WM_ROW_2;
    return table_length != 0 && table_length <= ROWS * row_size(form) && rest == 0;
}

/* ---- set-up ---- */

uint32_t plain_clear(uint8_t *table, size_t table_length, uint32_t form) {
    if (!table_fits(table_length, form))
        return 1;
    memset(table, 0, table_length);
    return 0;
}

/* Sixteen shares, and no more of them together than there are rows. */
static bool shares_fit(const uint32_t *shares, size_t shares_length, size_t rows) {
    uint64_t sum = 0;
    if (shares_length != OPERATORS)
        return false;
    for (size_t i = 0; i < OPERATORS; i++)
        sum += shares[i];
    return sum <= rows;
}

/* How many rows the operator has, sound or not. */
static size_t own_rows(const uint8_t *table, size_t table_length, uint32_t form, uint32_t op) {
    size_t own = 0, size = row_size(form);
    for (const uint8_t *row = table; row != table + table_length; row += size)
        own += row[0] == 1 && row[OPERATOR] == op;
    return own;
}

uint32_t plain_enter(uint8_t *table, size_t table_length, uint32_t form, uint32_t op, const uint32_t *shares,
                     size_t shares_length, const uint8_t *name, size_t name_length) {
    size_t size = row_size(form);
    if (!table_fits(table_length, form))
        return 1;
    if (op >= OPERATORS)
        return 33;
    if (!shares_fit(shares, shares_length, table_length / size))
        return 26;
    if (name_length < 1 || name_length > NAME_MOST)
        return 9;
    for (size_t i = 0; i < name_length; i++)
        if (name[i] < '0' || name[i] > '9')
            return 9;
    if (find_row(table, table_length, form, op, name, name_length))
        return 10;
    if (own_rows(table, table_length, form, op) >= shares[op])
        return 27;
    for (uint8_t *row = table; row != table + table_length; row += size) {
        if (row[0] != 0 || !all_zero(row, size))
            continue;
        row[0] = 1;
        row[1] = (uint8_t)name_length;
        memcpy(row + 2, name, name_length);
        row[OPERATOR] = (uint8_t)op;
        put_sums(row);
        return 0;
    }
    return 11;
}

uint32_t plain_add(uint8_t *table, size_t table_length, uint32_t form, uint32_t op, const uint8_t *name, size_t name_length,
                   const uint8_t *label, size_t label_length, uint8_t limit, uint8_t flags) {
    if (!table_fits(table_length, form))
        return 1;
    if (op >= OPERATORS)
        return 33;
    uint8_t *row = find_row(table, table_length, form, op, name, name_length);
    struct row_use use;
    if (!row)
        return 12;
    if (!row_sound(row, form, &use))
        return 13;
    if (label_length < 1 || label_length > LABEL_MOST || limit < 1 || limit > 8 || flags > 3)
        return 14;
    if (find_entry(row, label, label_length))
        return 15;
    if (row[18] == ENTRIES)
        return 16;
    uint32_t limits = limit;
    for (uint32_t i = 0; i < row[18]; i++)
        limits += entry_at(row, i)[102];
    if (limits > 8)
        return 17;
    uint8_t *e = row + ENTRY + ENTRY_SIZE * row[18];
    e[0] = (uint8_t)label_length;
    memcpy(e + 1, label, label_length);
    e[101] = flags;
    e[102] = limit;
    row[18]++;
    put_sums(row);
    return 0;
}

/* ---- moving ---- */

/* A row wherever it stands, found by a name or not. */
static bool row_moves(const uint8_t *row, uint32_t form) {
    struct row_use use;
    if (row[0] != 1)
        return all_zero(row, row_size(form));
    return row[1] - 1u < NAME_MOST && row[OPERATOR] < OPERATORS && row_sound(row, form, &use);
}

/* Whether a sound row of form 2 says what form 1 has no room for. */
static bool says_more(const uint8_t *row) {
    for (uint32_t place = 1; place <= PLACES; place++) {
        const uint8_t *b = row + place_at(2, place) + BLOCK;
        if (in_use(row, place) && (b[1] | b[3]) != 0)
            return true;
    }
    return false;
}

/* A second block of an access that says no more than form 1 can: the sums of one byte 3 and 509 zeros. A place that is not in use, and so a
 * wholly zero row, stays zero. */
static void move_row(const uint8_t *row, uint8_t *to, uint32_t form) {
    memcpy(to, row, BLOCK);
    for (uint32_t place = 1; place <= PLACES; place++) {
        uint8_t *b = to + place_at(form, place);
        memcpy(b, row + place_at(3 - form, place), BLOCK);
        if (form == 1)
            continue;
        memset(b + BLOCK, 0, BLOCK);
        if (in_use(row, place))
            b[BLOCK] = b[BLOCK + 511] = 3;
    }
}

uint32_t plain_move(const uint8_t *table, size_t table_length, uint8_t *target, size_t target_length, uint32_t form) {
    uint32_t from = 3 - form;
    if (!table_fits(table_length, from))
        return 1;
    size_t size = row_size(from), target_size = row_size(form), rows = table_length / size;
    if (target_length != rows * target_size)
        return 19;
    for (size_t i = 0; i < rows; i++)
        if (!row_moves(table + i * size, from))
            return 20;
    for (size_t i = 0; form == 1 && i < rows; i++)
        if (says_more(table + i * size))
            return 21;
    for (size_t i = 0; i < rows; i++)
        move_row(table + i * size, target + i * target_size, form);
    return 0;
}

/* ---- reading a message ---- */

enum slot {
    OTHER,
    SESSION_ID,
    AUTH_APPLICATION,
    ORIGIN_HOST,
    ORIGIN_REALM,
    DESTINATION_REALM,
    AUTH_TYPE,
    DESTINATION_HOST,
    USER_NAME,
    REQUEST_TYPE,
    VISITED_NETWORK,
    APN,
    ROUTING_POLICY,
    CAUSE,
    PROXY_INFO,
    RE_AUTH_TYPE,
    SLOTS,
    KNOWN = SLOTS
};

/* M in the word of flags and length. */
enum { MANDATORY = 0x40000000 };

/* Codes without V. KNOWN are those that no list asks for; Re-Auth-Request-Type is asked for by the gateway alone. */
static const uint8_t base_slot[579] = {
    [1] = USER_NAME,   [258] = AUTH_APPLICATION,  [263] = SESSION_ID, [264] = ORIGIN_HOST,
    [274] = AUTH_TYPE, [283] = DESTINATION_REALM, [284] = PROXY_INFO, [293] = DESTINATION_HOST,
    [295] = CAUSE,     [296] = ORIGIN_REALM,      [266] = KNOWN,      [268] = KNOWN,
    [279] = KNOWN,     [297 ... 298] = KNOWN,     [443 ... 444] = KNOWN, [450] = KNOWN,
    [2] = KNOWN,       [4 ... 9] = KNOWN,         [12 ... 14] = KNOWN, [19] = KNOWN,
    [24 ... 25] = KNOWN, [30 ... 32] = KNOWN,     [34 ... 36] = KNOWN, [60 ... 63] = KNOWN,
    [70] = KNOWN,      [73 ... 74] = KNOWN,       [77] = KNOWN,       [87] = KNOWN,
    [94 ... 96] = KNOWN, [98] = KNOWN,            [276 ... 278] = KNOWN, [282] = KNOWN,
    [291] = KNOWN,     [401 ... 402] = KNOWN,     [578] = KNOWN,      [285] = RE_AUTH_TYPE};

struct value {
    const uint8_t *start;
    uint32_t length;
};

/* What one walk gathers: bit s of `seen` and `twice` for slot s, where its value starts and how long it is (of the last one
 * where there are several: then only their number counts), the stretch from the first Proxy-Info to the last one's end, and how many policies
 * there are, with the first three. */
struct avps {
    uint32_t seen, twice, policies;
    const uint8_t *proxies, *proxies_end;
    struct value of[SLOTS], policy[POLICIES];
};

static inline uint32_t vendor_slot(const uint8_t *avp) {
    if (number(avp + 8) != VENDOR)
        return OTHER;
    switch (number(avp)) {
    case 100:
        return APN;
    case 311:
        return REQUEST_TYPE;
    case 312:
        return ROUTING_POLICY;
    case 600:
        return VISITED_NETWORK;
    case 304:
        return KNOWN;
    default:
        return OTHER;
    }
}

/* The tests on one AVP of which 8 bytes are there; `left` is a multiple of 4, so that the padding needs no test of its own. */
static inline uint32_t avp_code(uint32_t flags_length, uint32_t left) {
    uint32_t length = flags_length & 0xFFFFFF;
    if (flags_length & 0x1F000000)
        return 3009;
    return length > left || length < (flags_length >> 31 ? 12u : 8u) ? 5014 : 0;
}

static inline void gather(struct avps *a, uint32_t slot, const uint8_t *p, uint32_t head, uint32_t length,
                          const uint8_t *next) {
    uint32_t bit = 1u << slot;
    if (slot == PROXY_INFO) {
        if (!(a->seen & bit))
            a->proxies = p;
        a->proxies_end = next;
    }
    a->twice |= a->seen & bit;
    a->seen |= bit;
    a->of[slot].start = p + head;
    a->of[slot].length = length - head;
}

static inline void gather_policy(struct avps *a, const uint8_t *p, uint32_t length) {
    if (a->policies < POLICIES)
        a->policy[a->policies] = (struct value){p + 12, length - 12};
    a->policies++;
}

/* The whole walk: 0, or the code. All but a few AVPs are of the base: they have V clear, and one test tells. */
static APART uint32_t walk(const uint8_t *m, const uint8_t *end, struct avps *a) {
    const uint8_t *p = m + 20, *next;
    for (; end - p >= 8; p = next) {
        uint32_t flags_length = number(p + 4), length = flags_length & 0xFFFFFF, slot;
        if (flags_length & 0x9F000000) {
            uint32_t code = avp_code(flags_length, (uint32_t)(end - p));
            if (code)
                return code;
            next = p + ((length + 3) & ~3u);
            slot = vendor_slot(p);
            if (slot == OTHER) {
                if (flags_length & MANDATORY)
                    return 5001;
            } else if (slot == ROUTING_POLICY)
                gather_policy(a, p, length);
            else if (slot != KNOWN)
                gather(a, slot, p, 12, length, next);
        } else {
            next = p + ((length + 3) & ~3u);
            if (length < 8 || next > end)
                return 5014;
            slot = number(p);
            slot = slot < sizeof base_slot ? base_slot[slot] : OTHER;
            if (slot == OTHER) {
                if (flags_length & MANDATORY)
                    return 5001;
            } else if (slot != KNOWN)
                gather(a, slot, p, 8, length, next);
        }
    }
    return p == end ? 0 : 5014;
}

static uint32_t header_code(const uint8_t *m) {
    uint32_t command = number(m + 4) & 0xFFFFFF, application = number(m + 8);
    if (m[4] & 0x0F)
        return 5013;
    if (m[4] & 0x20)
        return 3008;
    if (command != 265 && command != 275)
        return 3001;
    if (application != 1 && !(command == 275 && application == 0))
        return 3007;
    return 0;
}

/* The length of the first AVP's value if that is a Session-Id for the answer, else 0. */
static uint32_t first_session(const uint8_t *m, uint32_t end) {
    if (end < 28 || number(m + 20) != 263)
        return 0;
    uint32_t flags_length = number(m + 24), length = (flags_length & 0xFFFFFF) - 8;
    return !(flags_length >> 31) && length <= TEXT_MOST && avp_code(flags_length, end - 20) == 0 ? length : 0;
}

/* ---- the lists ---- */

static inline uint32_t stands_once(const struct avps *a, enum slot s) {
    if (!(a->seen >> s & 1))
        return 5005;
    return a->twice >> s & 1 ? 5009 : 0;
}

static inline uint32_t text(const struct avps *a, enum slot s, uint32_t most) {
    uint32_t code = stands_once(a, s);
    if (code)
        return code;
    return a->of[s].length - 1 < most ? 0 : 5014;
}

/* As text, but it may be absent. */
static inline uint32_t text_if(const struct avps *a, enum slot s, uint32_t most, bool required) {
    return required || (a->seen >> s & 1) ? text(a, s, most) : 0;
}

/* As many as an access can hold. */
static uint32_t policies(const struct avps *a, uint32_t form, bool required) {
    if (a->policies == 0)
        return required ? 5005 : 0;
    if (a->policies > (form == 1 ? 1 : POLICIES))
        return 5009;
    for (uint32_t i = 0; i < a->policies; i++)
        if (a->policy[i].length - 1 >= TEXT_MOST)
            return 5014;
    return 0;
}

static inline uint32_t value(const struct avps *a, enum slot s, uint32_t least, uint32_t most) {
    uint32_t code = stands_once(a, s);
    if (code)
        return code;
    if (a->of[s].length != 4)
        return 5014;
    return number(a->of[s].start) - least <= most - least ? 0 : 5004;
}

#define TRY(test)          \
    do {                   \
        uint32_t c = test; \
        if (c)             \
            return c;      \
    } while (0)

/* What every list begins with, the gateway's too. */
static inline uint32_t first_five(const uint8_t *m, const struct avps *a) {
    if (!(a->seen >> SESSION_ID & 1) || number(m + 20) != 263 || m[24] >> 7)
        return 5005;
    TRY(text(a, SESSION_ID, TEXT_MOST));
    TRY(value(a, AUTH_APPLICATION, 1, 1));
    TRY(text(a, ORIGIN_HOST, TEXT_MOST));
    TRY(text(a, ORIGIN_REALM, TEXT_MOST));
    return text(a, DESTINATION_REALM, TEXT_MOST);
}

static uint32_t lists(const uint8_t *m, const struct avps *a, uint32_t form, bool opening_or_policy) {
    TRY(first_five(m, a));
    if (opening_or_policy)
        TRY(value(a, AUTH_TYPE, 2, 2));
    else
        TRY(value(a, CAUSE, 1, 8));
    TRY(text(a, DESTINATION_HOST, TEXT_MOST));
    TRY(text(a, USER_NAME, TEXT_MOST));
    if (!opening_or_policy)
        return text(a, APN, LABEL_MOST);
    TRY(value(a, REQUEST_TYPE, 0, 1));
    bool policy = a->of[REQUEST_TYPE].start[3];
    TRY(text_if(a, VISITED_NETWORK, TEXT_MOST, false));
    TRY(text_if(a, APN, LABEL_MOST, !policy));
    return policies(a, form, policy);
}

/* ---- deciding ---- */

/* One call's view of what it was lent. */
struct call {
    uint32_t form;
    uint8_t *row;
    const uint8_t *m;
    uint8_t *notice;
    struct avps a;
    struct row_use use;
};

static inline const uint8_t *field(const struct call *c, enum slot s) {
    return c->a.of[s].start;
}

/* The first block of a place. */
static inline uint8_t *block(const struct call *c, uint32_t place) {
    return c->row + place_at(c->form, place);
}

/* The place leaves the order line, which closes up, and the mask; its blocks are zeroed. */
static void free_place(struct call *c, uint32_t place) {
    uint8_t *line = c->row + LINE;
    uint32_t i = 0;
    while (line[i] != place)
        i++;
    for (; i + 1 < PLACES; i++)
        line[i] = line[i + 1];
    line[PLACES - 1] = 0;
    c->use.used--;
    c->row[17] &= (uint8_t)~(1u << (place - 1));
    memset(block(c, place), 0, (size_t)BLOCK * c->form);
}

/* Cuts the first-opened access of the entry. Texts in a block are zero filled, so the notice is one stretch of it, and in form 2 one of the second block. */
static void cut_first(struct call *c, uint32_t entry, struct wm_outcome *o) {
    const uint8_t *line = c->row + LINE;
    while (block(c, *line)[1] != entry)
        line++;
    const uint8_t *b = block(c, *line);
    o->cut = 1;
    o->cut_session = b[2];
    o->cut_host = b[3];
    memcpy(c->notice, b + SESSION_AT, 2 * TEXT_MOST);
    if (c->form == 2) {
        o->cut_realm = b[BLOCK + 1];
        memcpy(c->notice + 2 * TEXT_MOST, b + BLOCK + REALM_AT, TEXT_MOST);
    }
    free_place(c, *line);
}

static uint32_t open_access(struct call *c, uint32_t entry) {
    uint32_t place = 1;
    while (in_use(c->row, place))
        place++;
    c->row[LINE + c->use.used] = (uint8_t)place;
    c->row[17] |= (uint8_t)(1u << (place - 1));
    put_sums(c->row);
    uint8_t *b = block(c, place);
    b[0] = 2;
    b[1] = (uint8_t)entry;
    b[2] = (uint8_t)c->a.of[SESSION_ID].length;
    b[3] = (uint8_t)c->a.of[ORIGIN_HOST].length;
    memcpy(b + SESSION_AT, field(c, SESSION_ID), b[2]);
    memcpy(b + HOST_AT, field(c, ORIGIN_HOST), b[3]);
    put_sums(b);
    if (c->form == 2) {
        b += BLOCK;
        b[0] = 3;
        b[1] = (uint8_t)c->a.of[ORIGIN_REALM].length;
        memcpy(b + REALM_AT, field(c, ORIGIN_REALM), b[1]);
        put_sums(b);
    }
    return place;
}

static void decide_opening(struct call *c, struct wm_outcome *o) {
    uint32_t entry = find_entry(c->row, field(c, APN), c->a.of[APN].length);
    if (entry == 0) {
        o->kind = EXPERIMENTAL;
        o->code = 5044;
        return;
    }
    const uint8_t *e = entry_at(c->row, entry - 1);
    o->kind = RESULT;
    if (e[101] & BARRED) {
        o->code = 5003;
    } else if ((c->a.seen >> VISITED_NETWORK & 1) && !(e[101] & MAY_ROAM)) {
        o->kind = EXPERIMENTAL;
        o->code = 5004;
    } else {
        uint32_t held = find_session(c->row, c->form, field(c, SESSION_ID), c->a.of[SESSION_ID].length, PLACES);
        if (held) { /* on this entry it stands as it is */
            o->code = block(c, held)[1] == entry ? 2001 : 5012;
            return;
        }
        if (c->use.of_entry[entry] == e[102])
            cut_first(c, entry, o);
        o->place = open_access(c, entry);
        o->code = 2001;
    }
}

/* The policy that was brought with this index, and zeros behind it; none where fewer were brought. Gives back its length. */
static uint8_t put_policy(const struct call *c, uint8_t *to, uint32_t i) {
    uint32_t length = i < c->a.policies ? c->a.policy[i].length : 0;
    if (length != 0)
        memcpy(to, c->a.policy[i].start, length);
    memset(to + length, 0, TEXT_MOST - length);
    return (uint8_t)length;
}

static void decide_policy(struct call *c, bool wag, struct wm_outcome *o) {
    uint32_t place = find_session(c->row, c->form, field(c, SESSION_ID), c->a.of[SESSION_ID].length, PLACES);
    o->kind = RESULT;
    o->code = 5012;
    if (place == 0 || !wag)
        return;
    uint8_t *b = block(c, place);
    b[4] = 1;
    b[5] = put_policy(c, b + POLICY_AT, 0);
    put_sums(b);
    if (c->form == 2) {
        b += BLOCK;
        b[3] = put_policy(c, b + SECOND_AT, 1);
        b[4] = put_policy(c, b + THIRD_AT, 2);
        put_sums(b);
    }
    o->code = 2001;
}

static void decide_termination(struct call *c, struct wm_outcome *o) {
    uint32_t entry = find_entry(c->row, field(c, APN), c->a.of[APN].length);
    uint32_t place = find_session(c->row, c->form, field(c, SESSION_ID), c->a.of[SESSION_ID].length, PLACES);
    if (entry == 0 || place == 0 || block(c, place)[1] != entry) {
        o->kind = EXPERIMENTAL;
        o->code = 5042;
        return;
    }
    free_place(c, place);
    put_sums(c->row);
    o->kind = RESULT;
    o->code = 2001;
}

static void decide(uint8_t *table, size_t table_length, uint32_t op, struct call *c, bool aa, bool wag, struct wm_outcome *o) {
    c->row = find_row(table, table_length, c->form, op, field(c, USER_NAME), c->a.of[USER_NAME].length);
    if (!c->row) {
        o->kind = EXPERIMENTAL;
        o->code = 5001;
    } else if (!row_sound(c->row, c->form, &c->use)) {
        o->code = 5012;
    } else if (!aa) {
        decide_termination(c, o);
    } else if (field(c, REQUEST_TYPE)[3]) {
        decide_policy(c, wag, o);
    } else {
        decide_opening(c, o);
    }
}

/* ---- writing the answer ---- */

static inline uint8_t *put_head(uint8_t *to, uint32_t code, uint32_t length) {
    put_number(to, code);
    put_number(to + 4, 0x40000000 | length);
    return to + 8;
}

static inline uint8_t *put_avp_number(uint8_t *to, uint32_t code, uint32_t n) {
    put_number(put_head(to, code, 12), n);
    return to + 12;
}

/* The last word is zeroed first, for the padding. */
static inline uint8_t *put_text(uint8_t *to, uint32_t code, const uint8_t *from, size_t length) {
    size_t padded = (length + 3) & ~(size_t)3;
    put_head(to, code, (uint32_t)(8 + length));
    put_number(to + 8 + padded - 4, 0);
    memcpy(to + 8, from, length);
    return to + 8 + padded;
}

static uint8_t *put_result(uint8_t *to, const struct wm_outcome *o) {
    if (o->kind == RESULT)
        return put_avp_number(to, 268, o->code);
    to = put_head(to, 297, 32);
    to = put_avp_number(to, 266, VENDOR);
    return put_avp_number(to, 298, o->code);
}

static uint8_t *put_subscription(uint8_t *to, const uint8_t *name, size_t length) {
    uint32_t padded = (uint32_t)(length + 3) & ~3u;
    to = put_head(to, 443, 8 + 12 + 8 + padded);
    to = put_avp_number(to, 450, 1);
    return put_text(to, 444, name, length);
}

/* Each stretch of Proxy-Infos that stand together is one copy. */
static uint8_t *put_proxies(uint8_t *to, const struct avps *a) {
    const uint8_t *from = a->proxies, *p = from;
    while (p != a->proxies_end) {
        uint32_t flags_length = number(p + 4);
        const uint8_t *next = p + (((flags_length & 0xFFFFFF) + 3) & ~3u);
        if (number(p) != 284 || flags_length >> 31) {
            memcpy(to, from, (size_t)(p - from));
            to += p - from;
            from = next;
        }
        p = next;
    }
    memcpy(to, from, (size_t)(p - from));
    return to + (p - from);
}

struct own {
    const uint8_t *host, *realm;
    size_t host_length, realm_length;
};

/* The header but for the length, and Session-Id. */
static inline uint8_t *start_answer(uint8_t *answer, const uint8_t *m, uint32_t session, bool error) {
    memcpy(answer + 4, m + 4, 16);
    answer[4] = (uint8_t)((m[4] & 0x40) | (error ? 0x20 : 0));
    return session ? put_text(answer + 20, 263, m + 28, session) : answer + 20;
}

static inline uint8_t *put_own(uint8_t *to, const struct own *own) {
    to = put_text(to, 264, own->host, own->host_length);
    return put_text(to, 296, own->realm, own->realm_length);
}

/* Proxy-Info, if there is one, and the header's length, which is given back. */
static inline uint32_t finish_answer(uint8_t *answer, uint8_t *to, const struct avps *a) {
    if (a->seen >> PROXY_INFO & 1)
        to = put_proxies(to, a);
    uint32_t length = (uint32_t)(to - answer);
    put_number(answer, 0x01000000 | length);
    return length;
}

static void write_answer(uint8_t *answer, const struct call *c, const struct own *own, uint32_t session,
                         struct wm_outcome *o) {
    const uint8_t *m = c->m;
    bool error = o->code - 3000 < 1000, aa = (number(m + 4) & 0xFFFFFF) == 265;
    uint8_t *to = start_answer(answer, m, session, error);
    if (aa && !error) {
        to = put_avp_number(to, 258, 1);
        to = put_avp_number(to, 274, 2);
    }
    to = put_result(to, o);
    to = put_own(to, own);
    if (aa && o->code == 2001)
        to = put_subscription(to, field(c, USER_NAME), c->a.of[USER_NAME].length);
    o->length = finish_answer(answer, to, &c->a);
}

/* ---- a request ---- */

/* What is asked of any message, a request or an answer. */
static inline uint32_t frame_number(const uint8_t *message, size_t message_length) {
    if (message_length < 20 || message_length > 4096)
        return 5;
    if (message[0] != 1)
        return 6;
    return (number(message) & 0xFFFFFF) != message_length || message_length % 4 != 0 ? 7 : 0;
}

/* What is asked of a call besides its table and its message. */
static inline uint32_t call_number(uint32_t form, uint32_t op, size_t host_length, size_t realm_length, size_t answer_length,
                                   size_t notice_length) {
    if (op >= OPERATORS)
        return 33;
    if (host_length - 1 >= TEXT_MOST || realm_length - 1 >= TEXT_MOST)
        return 2;
    if (answer_length < WM_ANSWER_LEAST)
        return 3;
    return notice_length < (form == 1 ? WM_NOTICE_LEAST : WM_NOTICE_2_LEAST) ? 4 : 0;
}

static uint32_t no_answer(size_t table_length, uint32_t form, uint32_t op, size_t host_length, size_t realm_length,
                          const uint8_t *message, size_t message_length, size_t answer_length, size_t notice_length) {
    if (!table_fits(table_length, form))
        return 1;
    uint32_t refused = call_number(form, op, host_length, realm_length, answer_length, notice_length);
    if (refused == 0)
        refused = frame_number(message, message_length);
    if (refused)
        return refused;
    return message[4] & 0x80 ? 0 : 8;
}

struct wm_outcome plain_handle(uint8_t *table, size_t table_length, uint32_t form, uint32_t op, const uint8_t *host,
                               size_t host_length, const uint8_t *realm, size_t realm_length, const uint8_t *message,
                               size_t message_length, bool wag, uint8_t *answer, size_t answer_length, uint8_t *notice,
                               size_t notice_length) {
    struct wm_outcome o = {0};
    o.code = no_answer(table_length, form, op, host_length, realm_length, message, message_length, answer_length, notice_length);
    if (o.code)
        return o;
    struct call c;
    struct own own = {host, realm, host_length, realm_length};
    bool aa = message[7] == (265 & 0xFF);
    c.form = form;
    c.m = message;
    c.notice = notice;
    c.a.seen = c.a.twice = c.a.policies = 0;
    o.kind = RESULT;
    o.code = header_code(message);
    if (o.code == 0) {
        o.code = walk(message, message + message_length, &c.a);
        if (o.code)
            c.a.seen = 0; /* no Proxy-Info is copied */
        else
            o.code = lists(message, &c.a, form, aa);
    }
    if (o.code == 0)
        decide(table, table_length, op, &c, aa, wag, &o);
    write_answer(answer, &c, &own, first_session(message, (uint32_t)message_length), &o);
    return o;
}

/* ---- a burst ---- */

/* The length of the message that starts here, by its header; 0 where no whole one does. */
static inline size_t next_length(const uint8_t *p, size_t left) {
    if (left < 4)
        return 0;
    size_t length = number(p) & 0xFFFFFF;
    return length < 20 || length > left ? 0 : length;
}

static size_t whole_messages(const uint8_t *messages, size_t messages_length) {
    size_t whole = 0;
    for (size_t at = 0, n; (n = next_length(messages + at, messages_length - at)) != 0; at += n)
        whole++;
    return whole;
}

static uint32_t burst_number(size_t table_length, uint32_t form, uint32_t op, size_t host_length, size_t realm_length,
                             const uint8_t *messages, size_t messages_length, size_t wags_length, size_t results_length) {
    if (!table_fits(table_length, form))
        return 1;
    if (op >= OPERATORS)
        return 33;
    if (host_length - 1 >= TEXT_MOST || realm_length - 1 >= TEXT_MOST)
        return 2;
    size_t whole = whole_messages(messages, messages_length);
    return wags_length < whole || results_length < whole ? 18 : 0;
}

struct wm_taken plain_burst(uint8_t *table, size_t table_length, uint32_t form, uint32_t op, const uint8_t *host, size_t host_length,
                            const uint8_t *realm, size_t realm_length, const uint8_t *messages, size_t messages_length,
                            const uint8_t *wags, size_t wags_length, uint8_t *answers, size_t answers_length, uint8_t *notices,
                            size_t notices_length, struct wm_outcome *results, size_t results_length) {
    struct wm_taken t = {burst_number(table_length, form, op, host_length, realm_length, messages, messages_length, wags_length, results_length),
                         0, 0, 0, 0};
    size_t n, notice = form == 1 ? WM_NOTICE_LEAST : WM_NOTICE_2_LEAST;
    if (t.number)
        return t;
    while (answers_length - t.answers >= WM_ANSWER_LEAST && notices_length - t.notices * notice >= notice &&
           (n = next_length(messages + t.bytes, messages_length - t.bytes)) != 0) {
        struct wm_outcome *o = &results[t.messages];
        *o = plain_handle(table, table_length, form, op, host, host_length, realm, realm_length, messages + t.bytes, n,
                          wags[t.messages] != 0, answers + t.answers, answers_length - t.answers, notices + t.notices * notice,
                          notices_length - t.notices * notice);
        t.bytes += n;
        t.messages++;
        t.answers += o->length;
        t.notices += o->cut;
    }
    return t;
}

/* ---- the disconnection ---- */

struct wm_written plain_abort(const uint8_t *host, size_t host_length, const uint8_t *realm, size_t realm_length,
                              const uint8_t *notice, size_t notice_length, uint32_t cut_session, uint32_t cut_host,
                              uint32_t cut_realm, uint32_t hop, uint32_t end, uint8_t *room, size_t room_length) {
    if (host_length - 1 >= TEXT_MOST || realm_length - 1 >= TEXT_MOST)
        return (struct wm_written){2, 0};
    if (notice_length < WM_NOTICE_2_LEAST)
        return (struct wm_written){4, 0};
    if (cut_session - 1 >= TEXT_MOST || cut_host - 1 >= TEXT_MOST || cut_realm - 1 >= TEXT_MOST)
        return (struct wm_written){22, 0};
    if (room_length < WM_ABORT_LEAST)
        return (struct wm_written){23, 0};
    uint8_t *to = put_text(room + 20, 263, notice, cut_session);
    to = put_text(to, 264, host, host_length);
    to = put_text(to, 296, realm, realm_length);
    to = put_text(to, 283, notice + 2 * TEXT_MOST, cut_realm);
    to = put_text(to, 293, notice + TEXT_MOST, cut_host);
    to = put_avp_number(to, 258, 1);
    uint32_t length = (uint32_t)(to - room);
    put_number(room, 0x01000000 | length);
    put_number(room + 4, 0xC0000000 | ABORT);
    put_number(room + 8, 1);
    put_number(room + 12, hop);
    put_number(room + 16, end);
    return (struct wm_written){0, length};
}

/* The first AVP is the Session-Id that was sent, and no other one is a Session-Id. */
static inline bool first_is(const uint8_t *answer, size_t answer_length, const uint8_t *session, size_t session_length) {
    return answer_length >= 28 && number(answer + 20) == 263 && !(answer[24] >> 7) &&
           (number(answer + 24) & 0xFFFFFF) - 8 == session_length && answer_length - 28 >= session_length &&
           memcmp(answer + 28, session, session_length) == 0;
}

uint32_t plain_abort_answered(const uint8_t *answer, size_t answer_length, const uint8_t *session, size_t session_length,
                              uint32_t hop, uint32_t end) {
    if (frame_number(answer, answer_length) || (number(answer + 4) & 0x80FFFFFF) != ABORT)
        return 0;
    if (number(answer + 12) != hop || number(answer + 16) != end || !first_is(answer, answer_length, session, session_length))
        return 0;
    uint32_t sessions = 0, results = 0, left = (uint32_t)answer_length - 20;
    for (const uint8_t *p = answer + 20; left != 0;) {
        if (left < 8)
            return 0;
        uint32_t code = number(p), flags_length = number(p + 4), length = flags_length & 0xFFFFFF, padded = (length + 3) & ~3u;
        if (avp_code(flags_length, left))
            return 0;
        if (!(flags_length >> 31)) {
            sessions += code == 263;
            if (code == 268) {
                results++;
                if (length != 12)
                    return 0;
            }
        }
        p += padded;
        left -= padded;
    }
    return sessions == 1 && results == 1;
}

/* ---- judging another server's answer ---- */

enum { DEEPEST = 4, MORE_THAN_24_BITS = 1 << 24 };

/* The kinds of AVP that an answer of ours is made of, none of them with V, and each once at most but Proxy-Info, which stands behind all others. A STRANGER is none of
 * them; Failed-AVP is never in ours, and is PASSED over. */
enum part { STRANGER, SESSION_PART, APPLICATION_PART, TYPE_PART, CODE_PART, EXPERIMENTAL_PART, HOST_PART, REALM_PART, SUBSCRIPTION_PART, PROXY_PART, PASSED, PARTS };

static const uint8_t part_of[444] = {[258] = APPLICATION_PART, [263] = SESSION_PART, [264] = HOST_PART,  [268] = CODE_PART,         [274] = TYPE_PART,
                                     [279] = PASSED,           [284] = PROXY_PART,   [296] = REALM_PART, [297] = EXPERIMENTAL_PART, [443] = SUBSCRIPTION_PART};
enum { GROUPS = 1 << PASSED | 1 << EXPERIMENTAL_PART | 1 << SUBSCRIPTION_PART };

static inline uint32_t part_at(const uint8_t *avp, uint32_t flags_length) {
    uint32_t code = number(avp);
    return code < sizeof part_of && !(flags_length >> 31) ? part_of[code] : STRANGER;
}

static inline size_t padded_length(uint32_t flags_length) {
    return ((flags_length & 0xFFFFFF) + 3) & ~3u;
}

static inline struct wm_judged told(uint32_t number, uint32_t mismatch, size_t at) {
    return (struct wm_judged){number, mismatch, at};
}

/* The first AVP that fails one of the four tests, or the first group too deep, each group walked as it comes. Inside one, `ends` has where it and those around it end; a group
 * without a fault ends where its last AVP does, so that the walk goes on from there. */
static struct wm_judged first_fault(const uint8_t *m, size_t m_length) {
    size_t ends[DEEPEST + 1] = {m_length}, depth = 0, at = 20;
    if (m_length < 20)
        return told(0, 0, 0);
    for (;;) {
        size_t left = ends[depth] - at;
        if (left == 0) {
            if (depth == 0)
                return told(0, 0, 0);
            depth--;
            continue;
        }
        if (left < 8)
            return told(32, 2, at);
        uint32_t flags_length = number(m + at + 4), length = flags_length & 0xFFFFFF;
        if ((flags_length & 0x1F000000) || length < (flags_length >> 31 ? 12 : 8) || padded_length(flags_length) > left)
            return told(32, 2, at);
        if (!(GROUPS >> part_at(m + at, flags_length) & 1)) {
            at += padded_length(flags_length);
            continue;
        }
        if (depth == DEEPEST)
            return told(31, 0, 0);
        ends[++depth] = at + length;
        at += 8;
    }
}

/* Nothing where two texts are the same, else the first byte that differs; one that only one of them has differs too. */
static inline struct wm_judged first_difference(uint32_t mismatch, const uint8_t *a, size_t a_length, const uint8_t *b, size_t b_length) {
    size_t i = 0;
    if (a_length == b_length && memcmp(a, b, a_length) == 0)
        return told(0, 0, 0);
    while (i < a_length && i < b_length && a[i] == b[i])
        i++;
    return told(32, mismatch, i);
}

/* The header due is ours with the length of theirs. Of a length that has no three bytes the first differs from whatever stands there. */
static struct wm_judged judge_header(const uint8_t *ours, size_t ours_length, const uint8_t *theirs, size_t theirs_length) {
    uint8_t due[20];
    if (ours_length == 0)
        return theirs_length == 0 ? told(0, 0, 0) : told(32, 1, 0);
    memcpy(due, ours, 20);
    put_number(due, (uint32_t)ours[0] << 24 | (uint32_t)(theirs_length & 0xFFFFFF));
    if (theirs_length >= MORE_THAN_24_BITS)
        due[1] = theirs[1] ^ 1;
    return first_difference(1, theirs, theirs_length < 20 ? theirs_length : 20, due, 20);
}

/* Where each AVP of ours starts; bit s of `there` for part s, and of `left` as long as none of theirs met it. `proxy` is the first Proxy-Info not yet met. */
struct ours {
    uint32_t there, left;
    const uint8_t *of[PARTS], *proxy, *end;
};

static void take_apart(struct ours *o, const uint8_t *answer, size_t answer_length) {
    const uint8_t *p = answer + 20;
    o->there = 0;
    o->end = answer + answer_length;
    for (; p != o->end; p += padded_length(number(p + 4))) {
        uint32_t part = part_of[number(p)];
        o->there |= 1u << part;
        if (part == PROXY_PART)
            break;
        o->of[part] = p;
    }
    o->proxy = p;
    o->left = o->there;
}

/* Whether the AVP of theirs, of this part, has flags and value of the next of ours, which is then met. */
static inline bool meets(struct ours *o, uint32_t part, const uint8_t *p, uint32_t flags_length) {
    const uint8_t *mine = part == PROXY_PART ? o->proxy : o->of[part];
    if (!(o->left >> part & 1) || number(mine + 4) != flags_length || !same(mine + 8, p + 8, (flags_length & 0xFFFFFF) - 8))
        return false;
    if (part == PROXY_PART && (o->proxy += padded_length(flags_length)) != o->end)
        return true;
    o->left &= ~(1u << part);
    return true;
}

/* The AVPs of theirs, none of which fails, each in its place, and whether one is missing. */
static struct wm_judged judge_avps(const uint8_t *ours, size_t ours_length, const uint8_t *theirs, size_t theirs_length) {
    struct ours o;
    take_apart(&o, ours, ours_length);
    for (size_t at = 20; at != theirs_length;) {
        const uint8_t *p = theirs + at;
        uint32_t flags_length = number(p + 4), part = part_at(p, flags_length);
        bool first = at != 20 || part == SESSION_PART || !(o.there >> SESSION_PART & 1);
        bool fits = part == PASSED || (o.there >> part & 1 ? meets(&o, part, p, flags_length) : !(flags_length & MANDATORY));
        if (!first || !fits)
            return told(32, 3, at);
        at += padded_length(flags_length);
    }
    return o.left ? told(32, 4, 0) : told(0, 0, 0);
}

static struct wm_judged judge_answer(const uint8_t *ours, size_t ours_length, const uint8_t *theirs, size_t theirs_length) {
    struct wm_judged fault = first_fault(theirs, theirs_length);
    if (fault.number == 31)
        return fault;
    struct wm_judged header = judge_header(ours, ours_length, theirs, theirs_length);
    if (header.number)
        return header;
    return fault.number || theirs_length == 0 ? fault : judge_avps(ours, ours_length, theirs, theirs_length);
}

struct wm_judged plain_judge(uint8_t *row, size_t row_length, const uint8_t *after, size_t after_length, uint32_t form, uint32_t op,
                             const uint8_t *host, size_t host_length, const uint8_t *realm, size_t realm_length, const uint8_t *message,
                             size_t message_length, bool wag, const uint8_t *theirs, size_t theirs_length, const uint8_t *their_notice,
                             size_t their_notice_length, uint8_t *answer, size_t answer_length, uint8_t *notice, size_t notice_length) {
    if (form - 1 > 1 || row_length != row_size(form) || after_length != row_length)
        return told(1, 0, 0);
    uint32_t refused = call_number(form, op, host_length, realm_length, answer_length, notice_length);
    if (refused)
        return told(refused, 0, 0);
    struct wm_outcome o = plain_handle(row, row_length, form, op, host, host_length, realm, realm_length, message, message_length, wag, answer,
                                       answer_length, notice, notice_length);
    struct wm_judged found = judge_answer(answer, o.length, theirs, theirs_length);
    if (found.number)
        return found;
    size_t cut = o.cut == 0 ? 0 : form == 1 ? WM_NOTICE_LEAST : WM_NOTICE_2_LEAST;
    found = first_difference(5, their_notice, their_notice_length, notice, cut);
    return found.number ? found : first_difference(6, after, after_length, row, row_length);
}

/* ---- the gateway ---- */

enum { RE_AUTH = 258 };

static inline uint8_t *put_vendor_text(uint8_t *to, uint32_t code, const uint8_t *from, size_t length) {
    size_t padded = (length + 3) & ~(size_t)3;
    put_number(to, code);
    put_number(to + 4, 0xC0000000 | (uint32_t)(12 + length));
    put_number(to + 8, VENDOR);
    put_number(to + 12 + padded - 4, 0);
    memcpy(to + 12, from, length);
    return to + 12 + padded;
}

static uint32_t re_auth_code(const uint8_t *m, size_t length, const uint8_t *session, size_t session_length, struct avps *a) {
    uint32_t code = 0;
    if (m[4] & 0x0F)
        return 5013;
    if (m[4] & 0x20)
        return 3008;
    if ((number(m + 4) & 0xFFFFFF) != RE_AUTH)
        return 3001;
    if (number(m + 8) != 1)
        return 3007;
    code = walk(m, m + length, a);
    if (code) {
        a->seen = 0; /* no Proxy-Info is copied */
        return code;
    }
    TRY(first_five(m, a));
    TRY(text(a, DESTINATION_HOST, TEXT_MOST));
    TRY(value(a, RE_AUTH_TYPE, 0, 0));
    return a->of[SESSION_ID].length == session_length && memcmp(a->of[SESSION_ID].start, session, session_length) == 0 ? 0 : 5002;
}

struct wm_reauthorized plain_reauth(const uint8_t *host, size_t host_length, const uint8_t *realm, size_t realm_length,
                                    const uint8_t *session, size_t session_length, const uint8_t *user, size_t user_length,
                                    const uint8_t *label, size_t label_length, const uint8_t *visited, size_t visited_length,
                                    const uint8_t *message, size_t message_length, uint32_t hop, uint32_t end, uint8_t *answer,
                                    size_t answer_length, uint8_t *request, size_t request_length) {
    static const uint8_t zero[4];
    struct own own = {host, realm, host_length, realm_length};
    struct avps a;
    if (host_length - 1 >= TEXT_MOST || realm_length - 1 >= TEXT_MOST)
        return (struct wm_reauthorized){2, 0, 0, 0};
    if (answer_length < WM_ANSWER_LEAST || request_length < WM_ANSWER_LEAST)
        return (struct wm_reauthorized){3, 0, 0, 0};
    if (session_length - 1 >= TEXT_MOST || user_length - 1 >= TEXT_MOST || label_length - 1 >= LABEL_MOST || visited_length > TEXT_MOST)
        return (struct wm_reauthorized){22, 0, 0, 0};
    uint32_t code = frame_number(message, message_length);
    if (code == 0 && !(message[4] & 0x80))
        code = 8;
    if (code)
        return (struct wm_reauthorized){code, 0, 0, 0};
    a.seen = a.twice = a.policies = 0;
    code = re_auth_code(message, message_length, session, session_length, &a);
    bool goes_on = code == 0;
    code = goes_on ? 2001 : code;
    uint8_t *to = start_answer(answer, message, first_session(message, (uint32_t)message_length), code - 3000 < 1000);
    to = put_own(put_avp_number(to, 268, code), &own);
    struct wm_reauthorized r = {code, RESULT, finish_answer(answer, to, &a), 0};
    if (!goes_on)
        return r;
    to = put_text(request + 20, 263, session, session_length);
    to = put_own(put_avp_number(to, 258, 1), &own);
    to = put_text(to, 283, a.of[ORIGIN_REALM].start, a.of[ORIGIN_REALM].length);
    to = put_avp_number(to, 274, 2);
    to = put_text(to, 293, a.of[ORIGIN_HOST].start, a.of[ORIGIN_HOST].length);
    to = put_text(to, 1, user, user_length);
    to = put_vendor_text(to, 311, zero, 4);
    if (visited_length)
        to = put_vendor_text(to, 600, visited, visited_length);
    to = put_vendor_text(to, 100, label, label_length);
    r.request_length = (uint32_t)(to - request);
    put_number(request, 0x01000000 | r.request_length);
    put_number(request + 4, 0xC0000000 | 265);
    put_number(request + 8, 1);
    put_number(request + 12, hop);
    put_number(request + 16, end);
    return r;
}

/* ---- the year by hour ---- */

enum { OPENED_COLUMN, CUT_COLUMN, ENDED_COLUMN, OTHER_COLUMN };

/* Of openings, terminations and others the one that a result is in. */
static inline uint32_t column(const struct wm_told *t) {
    if (t->place != 0)
        return OPENED_COLUMN;
    return t->which == 2 && t->kind == RESULT && t->code == 2001 ? ENDED_COLUMN : OTHER_COLUMN;
}

/* A result into four totals: a cut is counted beside its opening. */
static inline void tally(uint64_t *totals, const struct wm_told *t) {
    totals[column(t)]++;
    totals[CUT_COLUMN] += t->place != 0 && t->cut != 0;
}

/* Whether 64 bits hold the years with so much more in each column. No hour's total is over its year's. */
static bool years_fit(const struct wm_report *report, const uint64_t more[4]) {
    uint64_t years[4] = {more[0], more[1], more[2], more[3]};
    for (size_t hour = 0; hour < 24; hour++)
        for (size_t k = 0; k < 4; k++) {
            years[k] += report->totals[hour][k];
            if (years[k] < report->totals[hour][k])
                return false;
        }
    return true;
}

/* The columns are counted apart only where the whole list would not fit one of them. */
uint32_t plain_report_count(struct wm_report *report, const struct wm_told *told, size_t told_length) {
    const struct wm_told *end = told + told_length;
    for (const struct wm_told *t = told; t < end; t++)
        if (t->hour > 23)
            return 29;
    uint64_t all[4] = {told_length, told_length, told_length, told_length}, apart[4] = {0};
    if (!years_fit(report, all)) {
        for (const struct wm_told *t = told; t < end; t++)
            tally(apart, t);
        if (!years_fit(report, apart))
            return 30;
    }
    for (const struct wm_told *t = told; t < end; t++)
        tally(report->totals[t->hour], t);
    return 0;
}

/* ---- the screen board ---- */

enum { SCREENS = 64 };

/* The last sixteen bytes are looked at first: Session-Ids of one gateway begin alike, and may end alike too. */
static inline bool is_screen_of(const struct wm_screen *s, const uint8_t *session, size_t length) {
    if (s->session_length != length || (length >= 16 && word(s->session + length - 16) != word(session + length - 16)))
        return false;
    return same(s->session, session, length);
}

/* 25 or 0. */
static uint32_t board_number(const struct wm_screen *screens, size_t length) {
    if (length > SCREENS)
        return 25;
    for (size_t i = 0; i < length; i++)
        if (screens[i].session_length - 1 >= TEXT_MOST)
            return 25;
    for (size_t i = 0; i < length; i++)
        for (size_t j = i + 1; j < length; j++)
            if (is_screen_of(&screens[j], screens[i].session, screens[i].session_length))
                return 25;
    return 0;
}

/* The screen of a Session-Id; null, and then `number` is 25 or 24. */
static inline struct wm_screen *screen_of(struct wm_screen *screens, size_t length, const uint8_t *session, size_t session_length,
                                          uint32_t *number) {
    *number = board_number(screens, length);
    for (size_t i = 0; *number == 0 && i < length; i++)
        if (is_screen_of(&screens[i], session, session_length))
            return &screens[i];
    *number = *number ? *number : 24;
    return 0;
}

static inline void show(struct wm_screen *s, uint32_t state, uint32_t place) {
    s->state = state;
    s->place = place;
}

uint32_t plain_screen_request(struct wm_screen *screens, size_t screens_length, uint32_t which, const uint8_t *session, size_t session_length) {
    uint32_t number;
    struct wm_screen *s = screen_of(screens, screens_length, session, session_length, &number);
    if (s && which == 0 && (s->state == WM_OFF || s->state == WM_CUT))
        show(s, WM_ASKED, 0);
    return number;
}

uint32_t plain_screen_result(struct wm_screen *screens, size_t screens_length, uint32_t which, const uint8_t *session, size_t session_length,
                             uint32_t code, uint32_t kind, uint32_t place) {
    uint32_t number;
    struct wm_screen *s = screen_of(screens, screens_length, session, session_length, &number);
    bool success = kind == RESULT && code == 2001;
    if (!s)
        return number;
    if (which == 2 && success)
        show(s, WM_OFF, 0);
    else if (which == 0 && s->state == WM_ASKED && !success)
        show(s, WM_OFF, 0);
    else if (which == 0 && s->state == WM_ASKED && place - 1 < PLACES)
        show(s, WM_CONNECTED, place);
    return 0;
}

uint32_t plain_screen_notice(struct wm_screen *screens, size_t screens_length, const uint8_t *session, size_t session_length) {
    uint32_t number;
    struct wm_screen *s = screen_of(screens, screens_length, session, session_length, &number);
    if (s)
        show(s, WM_CUT, 0);
    return number;
}

struct wm_connected plain_screens_connected(const struct wm_screen *screens, size_t screens_length) {
    struct wm_connected c = {board_number(screens, screens_length), 0};
    for (size_t i = 0; c.number == 0 && i < screens_length; i++)
        c.screens += screens[i].state == WM_CONNECTED;
    return c;
}
