/* The interface of include/wm.h once more, for the plain C of server.c: the same arguments, outcomes and numbers. */
#ifndef PLAIN_H
#define PLAIN_H

/* The kit's compiler comes without headers, so the types and the functions of the C library that are used stand here. */
#define WM_OWN_TYPES
typedef __UINT8_TYPE__ uint8_t;
typedef __INT16_TYPE__ int16_t;
typedef __UINT16_TYPE__ uint16_t;
typedef __INT32_TYPE__ int32_t;
typedef __UINT32_TYPE__ uint32_t;
typedef __UINT64_TYPE__ uint64_t;
typedef __SIZE_TYPE__ size_t;
typedef _Bool bool;
#define false 0
#define true 1
void *memcpy(void *restrict to, const void *restrict from, size_t bytes);
void *memset(void *to, int byte, size_t bytes);
int memcmp(const void *a, const void *b, size_t bytes);

#include "../include/wm.h"

uint32_t plain_clear(uint8_t *table, size_t table_length, uint32_t form);
uint32_t plain_enter(uint8_t *table, size_t table_length, uint32_t form, uint32_t op, const uint32_t *shares,
                     size_t shares_length, const uint8_t *name, size_t name_length);
uint32_t plain_add(uint8_t *table, size_t table_length, uint32_t form, uint32_t op, const uint8_t *name, size_t name_length,
                   const uint8_t *label, size_t label_length, uint8_t limit, uint8_t flags);
struct wm_outcome plain_handle(uint8_t *table, size_t table_length, uint32_t form, uint32_t op, const uint8_t *host,
                               size_t host_length, const uint8_t *realm, size_t realm_length, const uint8_t *message,
                               size_t message_length, bool wag, uint8_t *answer, size_t answer_length, uint8_t *notice,
                               size_t notice_length);
struct wm_taken plain_burst(uint8_t *table, size_t table_length, uint32_t form, uint32_t op, const uint8_t *host, size_t host_length,
                            const uint8_t *realm, size_t realm_length, const uint8_t *messages, size_t messages_length,
                            const uint8_t *wags, size_t wags_length, uint8_t *answers, size_t answers_length, uint8_t *notices,
                            size_t notices_length, struct wm_outcome *results, size_t results_length);
uint32_t plain_move(const uint8_t *table, size_t table_length, uint8_t *target, size_t target_length, uint32_t form);
struct wm_written plain_abort(const uint8_t *host, size_t host_length, const uint8_t *realm, size_t realm_length,
                              const uint8_t *notice, size_t notice_length, uint32_t cut_session, uint32_t cut_host,
                              uint32_t cut_realm, uint32_t hop, uint32_t end, uint8_t *room, size_t room_length);
uint32_t plain_abort_answered(const uint8_t *answer, size_t answer_length, const uint8_t *session, size_t session_length,
                              uint32_t hop, uint32_t end);
struct wm_judged plain_judge(uint8_t *row, size_t row_length, const uint8_t *after, size_t after_length, uint32_t form, uint32_t op,
                             const uint8_t *host, size_t host_length, const uint8_t *realm, size_t realm_length, const uint8_t *message,
                             size_t message_length, bool wag, const uint8_t *theirs, size_t theirs_length, const uint8_t *their_notice,
                             size_t their_notice_length, uint8_t *answer, size_t answer_length, uint8_t *notice, size_t notice_length);
struct wm_reauthorized plain_reauth(const uint8_t *host, size_t host_length, const uint8_t *realm, size_t realm_length,
                                    const uint8_t *session, size_t session_length, const uint8_t *user, size_t user_length,
                                    const uint8_t *label, size_t label_length, const uint8_t *visited, size_t visited_length,
                                    const uint8_t *message, size_t message_length, uint32_t hop, uint32_t end, uint8_t *answer,
                                    size_t answer_length, uint8_t *request, size_t request_length);
uint32_t plain_report_count(struct wm_report *report, const struct wm_told *told, size_t told_length);
uint32_t plain_screen_request(struct wm_screen *screens, size_t screens_length, uint32_t which, const uint8_t *session, size_t session_length);
uint32_t plain_screen_result(struct wm_screen *screens, size_t screens_length, uint32_t which, const uint8_t *session, size_t session_length,
                             uint32_t code, uint32_t kind, uint32_t place);
uint32_t plain_screen_notice(struct wm_screen *screens, size_t screens_length, const uint8_t *session, size_t session_length);
struct wm_connected plain_screens_connected(const struct wm_screen *screens, size_t screens_length);

#endif
