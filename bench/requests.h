/* Writing a request, AVP by AVP, for the programs of bench/. */
#ifndef REQUESTS_H
#define REQUESTS_H

#include "plain.h"

size_t strlen(const char *);

enum { MESSAGE_MOST = 4096 };

/* A request, and where it goes on; there is room for one that is too long. */
struct request {
    uint8_t bytes[MESSAGE_MOST + 2048];
    size_t length;
};

static inline void put_number(struct request *r, size_t bytes, uint32_t n) {
    for (size_t i = bytes; i-- > 0; n /= 256)
        r->bytes[r->length + i] = (uint8_t)n;
    r->length += bytes;
}

/* An AVP: M set; V and the vendor 10415 for those of 3GPP. */
static inline void put_avp(struct request *r, uint32_t code, bool of_3gpp, const void *value, size_t length) {
    put_number(r, 4, code);
    put_number(r, 1, of_3gpp ? 0xC0 : 0x40);
    put_number(r, 3, (uint32_t)((of_3gpp ? 12 : 8) + length));
    if (of_3gpp)
        put_number(r, 4, 10415);
    memcpy(r->bytes + r->length, value, length);
    r->length += length;
    while (r->length % 4 != 0)
        r->bytes[r->length++] = 0;
}

static inline void put_text(struct request *r, uint32_t code, const char *text) {
    put_avp(r, code, false, text, strlen(text));
}

static inline void put_value(struct request *r, uint32_t code, bool of_3gpp, uint32_t n) {
    uint8_t value[4] = {(uint8_t)(n >> 24), (uint8_t)(n >> 16), (uint8_t)(n >> 8), (uint8_t)n};
    put_avp(r, code, of_3gpp, value, 4);
}

/* Proxy-Host and Proxy-State inside. */
static inline void put_proxy_info(struct request *r) {
    static const char inside[] = "\0\0\1\30\100\0\0\32proxy1.example.org\0\0\0\0\0\41\100\0\0\20state-42";
    put_avp(r, 284, false, inside, sizeof inside - 1);
}

static inline void start(struct request *r, uint32_t flags, uint32_t command, uint32_t application, uint32_t identifiers) {
    r->length = 4;
    put_number(r, 1, flags);
    put_number(r, 3, command);
    put_number(r, 4, application);
    put_number(r, 4, 0x1234567 + identifiers);
    put_number(r, 4, 0x89ABCDE + identifiers);
}

/* The header's length. */
static inline void finish(struct request *r) {
    size_t length = r->length;
    r->length = 0;
    put_number(r, 4, 0x01000000 + (uint32_t)length);
    r->length = length;
}

#endif
