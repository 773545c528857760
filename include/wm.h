/* The Wm side of a tunnel access server: three set-up operations; requests, one at a time or in a burst; moving a table from one form to the other; asking a gateway
 * to end an access that was cut; judging what another server did with a request; the gateway's own side of re-authorization; a report of what came of requests, by
 * hour; and a board that shows which screens are connected.
 * docs/RULES.md has the rules.
 *
 * A table may serve several operators, 0 to 15. A row is one operator's: two of them may have a subscriber of one name, and neither finds or changes
 * the other's. Who has one operator alone says 0 everywhere.
 *
 * A table stands in one of two forms, and the caller says which in every call. In form 2 a row is longer: each access keeps its gateway's realm too, and up
 * to three policies; the notice of a cut tells the realm, by which the gateway can be asked to end the access. A table that is lent in the form it does
 * not have is read as what it is not: where its length fits, damaged rows are what is found. Who starts anew takes form 2; wm_move brings a table of
 * form 1 there.
 *
 * Everything is lent by the caller: a pointer and a length. No function keeps a pointer, allocates, locks or waits, and none has
 * state of its own. Any length and any contents are allowed: what does not fit the rules is refused by its number, and a refusal
 * leaves everything lent as it was (but for what wm_judge tells of another server). A room's bytes behind what was written stay as they were.
 *
 * What the caller has to keep to; nothing is promised otherwise:
 *
 * - A pointer is valid for its length: that many bytes can be read, and written where it is not const.
 * - No pointer is null, not even with length 0: any address of the program's own will do there, it is neither read nor written.
 * - Any alignment will do for bytes. Shares, the results of a burst, a report, the list that is counted into it and a list of screens are aligned as their
 *   types ask.
 * - Buffers of one call do not overlap where one of them is not const: table, answer and notice, of a burst table, answers, notices and results, stand apart
 *   from each other and from all the rest, the target of a move from the table, the room of wm_abort from its notice and names, both rooms of wm_reauth
 *   from each other and from all the rest, so too row, answer and notice of wm_judge, a report that is changed
 *   from the other one and from the list, and a list of screens from the Session-Id. Those that are const may overlap each other: host, realm, message,
 *   messages, wags, name, label, shares; of wm_abort host, realm and notice, of wm_abort_answered both, of wm_reauth names, access and
 *   message, of wm_judge names, message and what the other server left.
 * - While a call runs no other thread writes to anything that was lent to it, and none reads what is not const: table, row, answers, notices, results, target, room. A
 *   move reads its table only, wm_abort its notice.
 *   So calls on one table come one after another, in any threads, with whatever lock the caller likes. Calls with tables and rooms of
 *   their own may run at once, and may share host, realm and messages.
 * - A bool is 0 or 1.
 *
 * The deepest call takes under 1,024 bytes of stack, a burst under 1,536, wm_judge under 2,048 (docs/PERFORMANCE.md).
 */
#ifndef WM_H
#define WM_H

/* Where the compiler has no standard headers, define WM_OWN_TYPES and these types before this file. */
#ifndef WM_OWN_TYPES
#include <stdbool.h>
#include <stddef.h>
#include <stdint.h>
#endif

#ifdef __cplusplus
extern "C" {
#endif

#define WM_ROW 4608u          /* bytes of a row in form 1; a table is 1 to 1,024 rows */
#define WM_ROW_2 8704u        /* bytes of a row in form 2 */
#define WM_ANSWER_LEAST 5120u /* the answer room's least length */
#define WM_NOTICE_LEAST 256u  /* the notice room's least length in form 1 */
#define WM_NOTICE_2_LEAST 384u /* the notice room's least length in form 2 */
#define WM_ABORT_LEAST 1024u  /* the least length of the room that wm_abort writes into */
#define WM_OPERATORS 16u      /* how many shares there are: one for each operator */

/* The flags of a label: either, both or none. */
enum wm_flag { WM_BARRED = 1, WM_MAY_ROAM = 2 };

/* Which kind of code an outcome has. */
enum wm_kind { WM_NO_ANSWER = 0, WM_RESULT_CODE = 1, WM_EXPERIMENTAL_RESULT = 2 };

/* The numbers of refusals that are no Diameter codes. A set-up operation gives 0, 1, 33, 26, 27 or 9 to 17. A request gives 1, 33 or 2 to 8, with the
 * kind WM_NO_ANSWER, or a code that goes into its answer. A burst gives 0, 1, 33, 2 or 18; a move 0, 1 or 19 to 21; wm_abort 0, 2, 4, 22
 * or 23; wm_reauth 2, 3, 22 or 5 to 8, tested in this order, with the kind WM_NO_ANSWER, or a code. wm_judge gives 0, 1, 33, 2, 3, 4, 31 or 32, tested in this order. A board gives 0, 25 or 24, tested in this order; a report 0, 29 or 30. Of the others the first that holds is given, in the order of these lines. */
enum wm_number {
    WM_DONE = 0,             /* set-up, a burst, a move, wm_abort, a board and a report: it is done; wm_judge: accepted */
    WM_TABLE_LENGTH = 1,     /* the form is neither 1 nor 2, or the table is not 1 to 1,024 rows of its form: WM_ROW or WM_ROW_2 bytes each; wm_judge: one of
                              * the two rows is not exactly one row of the form */
    WM_NO_OPERATOR = 33,     /* entering, adding, a request, a burst and wm_judge: the operator is over 15 */
    WM_OWN_NAMES = 2,        /* the own host or realm has not 1 to 128 bytes */
    WM_ANSWER_ROOM = 3,      /* the answer room, and of wm_reauth either room, is under WM_ANSWER_LEAST */
    WM_NOTICE_ROOM = 4,      /* the notice room is under WM_NOTICE_LEAST, in form 2 and for wm_abort under WM_NOTICE_2_LEAST */
    WM_MESSAGE_LENGTH = 5,   /* the message is under 20 or over 4,096 bytes */
    WM_VERSION = 6,          /* the message's version is not 1 */
    WM_HEADER_LENGTH = 7,    /* the length in its header is not that given, or no multiple of 4 */
    WM_NO_REQUEST = 8,       /* its R bit is clear */
    WM_SHARES = 26,          /* entering: the shares are not WM_OPERATORS, or come to more than the table's rows */
    WM_NAME_FORM = 9,        /* entering: the name is not 1 to 15 decimal digits */
    WM_NAME_HELD = 10,       /* entering: a row of the operator has that name */
    WM_SHARE_FULL = 27,      /* entering: the operator has as many rows as its share, or more */
    WM_NO_FREE_ROW = 11,     /* entering: no row is wholly zero */
    WM_NO_SUBSCRIBER = 12,   /* adding: no row of the operator has that name */
    WM_UNSOUND_ROW = 13,     /* adding: the row is damaged */
    WM_LABEL_FORM = 14,      /* adding: the label has not 1 to 100 bytes, the limit is not 1 to 8, or the flags are over 3 */
    WM_LABEL_HELD = 15,      /* adding: the subscriber has that label, its letters in either case */
    WM_FOUR_LABELS = 16,     /* adding: the subscriber has four labels */
    WM_LIMITS_OVER_8 = 17,   /* adding: the limits would sum to over 8 */
    WM_BURST_PLACES = 18,    /* a burst: fewer words from the WAG, or fewer places for results, than whole messages */
    WM_TARGET_LENGTH = 19,   /* moving: the target is not as many rows of the other form */
    WM_UNSOUND_MOVE = 20,    /* moving: some row is damaged, and not wholly zero */
    WM_MORE_THAN_FORM_1 = 21, /* moving to form 1: some access keeps a realm or a second policy */
    WM_CUT_LENGTHS = 22,     /* wm_abort: a length of the cut access's texts is not 1 to 128; wm_reauth: the Session-Id or the user has not 1 to 128 bytes,
                              * the label not 1 to 100, or the visited network over 128 */
    WM_ABORT_ROOM = 23,      /* wm_abort: the room is under WM_ABORT_LEAST */
    WM_NO_SCREEN = 24,       /* the board: the Session-Id is on no entry */
    WM_SCREENS = 25,         /* the board: over 64 entries, or a Session-Id on it twice or not of 1 to 128 bytes */
    WM_HOUR_OVER_23 = 29,    /* counting: an hour of the list is over 23 */
    WM_OVER_64_BITS = 30,    /* a report: an hour's or the year's total of some column passes 64 bits */
    WM_TOO_DEEP = 31,        /* wm_judge: a group inside four others */
    WM_MISMATCH = 32         /* wm_judge: answer, notice or row is another than ours */
};

/* code: the number, 1 to 8 or 33, of a call that gets no answer, or the Diameter code.
 * kind: one of enum wm_kind. length: of the answer. place: taken by a new access, 1 to 8, else 0.
 * cut: 1 if an access was cut, with the lengths of its Session-Id (bytes 0 on of the notice), of its gateway's host (bytes 128 on) and, in form 2, of
 * its gateway's realm (bytes 256 on); else all four are 0. In form 1 cut_realm is always 0, and bytes 256 on of the notice room stay. In form 2 it is 0
 * for an access that was opened in form 1 and moved. */
struct wm_outcome {
    uint32_t code, kind, length, place, cut, cut_session, cut_host, cut_realm;
};

/* Set-up: one of enum wm_number. form: 1 or 2, the one in which the table is lent. op: the operator, 0 to 15. flags: of enum wm_flag.
 * shares: for each operator how many rows it may have; shares_length: how many shares there are, WM_OPERATORS. They are not kept in the table, but
 * lent at each entering. With the same ones each time, on a table that was cleared before, nobody gets WM_NO_FREE_ROW. */
uint32_t wm_clear(uint8_t *table, size_t table_length, uint32_t form);
uint32_t wm_enter(uint8_t *table, size_t table_length, uint32_t form, uint32_t op, const uint32_t *shares, size_t shares_length,
                  const uint8_t *name, size_t name_length);
uint32_t wm_add(uint8_t *table, size_t table_length, uint32_t form, uint32_t op, const uint8_t *name, size_t name_length,
                const uint8_t *label, size_t label_length, uint8_t limit, uint8_t flags);

/* One request, for a subscriber of the operator op. form: as above. host and realm are the server's own names; wag is the wireless gateway's word on a
 * policy. In form 1 a request brings one policy at most, in form 2 three; each that is granted replaces all that were held. */
struct wm_outcome wm_handle(uint8_t *table, size_t table_length, uint32_t form, uint32_t op, const uint8_t *host,
                            size_t host_length, const uint8_t *realm, size_t realm_length, const uint8_t *message,
                            size_t message_length, bool wag, uint8_t *answer, size_t answer_length, uint8_t *notice,
                            size_t notice_length);

/* A BURST: messages back to back in one call, each handled as by wm_handle, in their order.
 * number: one of enum wm_number: 0, or 1, 33, 2 and 18, tested in this order; the four others are then 0. messages, bytes: how many messages were taken, and
 * how many bytes they have. answers: how many bytes of answers were written. notices: how many notices were written. */
struct wm_taken {
    uint32_t number;
    size_t messages, bytes, answers, notices;
};

/* messages: any bytes; messages_length may be 0. The length in its header says where a message ends. It stops, with WM_DONE, at the end; where fewer than 4 bytes
 * are left; where a header's length is under 20 or goes past the end; and before a message for which fewer than WM_ANSWER_LEAST bytes are left for answers or
 * fewer than a notice has are left for notices, also before the first. Nothing else stops it: a message that wm_handle would give a number from 5 to 8 has
 * that in its result, and no answer. Which it was follows from what is left: the next call is lent the rest of everything, and goes on
 * as if there had been one call.
 * wags: a byte for each message, 0 for no; wags_length: how many they are. results: a place for each message; results_length: how many there are. Fewer of
 * either than there are whole messages before the first bad boundary is WM_BURST_PLACES, however many the rooms would let in.
 * answers, notices: the rooms. Answers stand one behind the other, each of its result's length. Notices stand one behind the other too, WM_NOTICE_LEAST bytes
 * each, WM_NOTICE_2_LEAST in form 2: the first belongs to the first result with a cut, the second to the second. What is behind them, and the results
 * behind those of the messages that were taken, stay as they were. It is in the archive libwm_burst.a, wm_judge in libwm_judge.a, wm_reauth in libwm_gateway.a, all other functions in libwm.a. */
struct wm_taken wm_burst(uint8_t *table, size_t table_length, uint32_t form, uint32_t op, const uint8_t *host, size_t host_length,
                         const uint8_t *realm, size_t realm_length, const uint8_t *messages, size_t messages_length, const uint8_t *wags,
                         size_t wags_length, uint8_t *answers, size_t answers_length, uint8_t *notices, size_t notices_length,
                         struct wm_outcome *results, size_t results_length);

/* Moves a table into another room, in the other form: one of enum wm_number. form: 1 or 2, the one to move to; the table is in the other one. target: as many
 * rows as the table has, of that form; it is written whole, or, with a number other than 0, not at all. The table stays as it is. All rows are
 * tested, also those that no name finds, and those that are wholly zero stay so. Forwards each access keeps a realm of no bytes until
 * its tunnel is opened anew; back again the same bytes stand as before. */
uint32_t wm_move(const uint8_t *table, size_t table_length, uint8_t *target, size_t target_length, uint32_t form);

/* THE DISCONNECTION: an Abort-Session-Request, to be sent to the gateway of an access that was cut in form 2, and the answer to it.
 * number: one of enum wm_number. length: of the request; 0 with a number other than 0. */
struct wm_written {
    uint32_t number, length;
};

/* Writes the request at the start of the room, WM_ABORT_LEAST bytes or more; the bytes behind it stay. host and realm are the server's own names. notice: as
 * wm_handle left it; cut_session, cut_host, cut_realm: of the outcome that came with it. What stands in the notice behind the texts does not matter. hop, end:
 * the two identifiers of the request, as the caller chooses them. An access that came from a move has no realm, so WM_CUT_LENGTHS is told for it. */
struct wm_written wm_abort(const uint8_t *host, size_t host_length, const uint8_t *realm, size_t realm_length, const uint8_t *notice,
                           size_t notice_length, uint32_t cut_session, uint32_t cut_host, uint32_t cut_realm, uint32_t hop, uint32_t end,
                           uint8_t *room, size_t room_length);
/* 1 if a message is the answer to the request with this Session-Id and these identifiers, else 0. It may be any bytes. */
uint32_t wm_abort_answered(const uint8_t *answer, size_t answer_length, const uint8_t *session, size_t session_length, uint32_t hop,
                           uint32_t end);

/* JUDGING ANOTHER SERVER'S ANSWER: while an old server and this one both run, what the old one did with a request is held against what this one does with it on a table of
 * that one row. Behind Session-Id the AVPs of an answer may stand in another order, those of one name in their own, and among them any Failed-AVP, and any AVP
 * without M of a name that ours does not have. Flags and values are compared as bytes, so that inside a group nothing may differ; padding does not matter. Groups are Failed-AVP,
 * Experimental-Result and Subscription-Id, and may stand one inside another, four deep. docs/RULES.md has the whole of it.
 *
 * What is told with WM_MISMATCH; where several differ, the first in this order. WM_TOO_DEEP comes before all of them. */
enum wm_mismatch {
    WM_OTHER_HEADER = 1, /* one of the twenty bytes, of which those of the length have to be true; an answer where none is due, or none where one is */
    WM_BROKEN_AVP = 2,   /* an AVP, at the top or inside a group, whose flags or length no AVP can have, or which goes past the end of what it stands in */
    WM_OTHER_AVP = 3,    /* an AVP at the top that is not ours: other flags or another value, one more of its name than ours has, one that is to be
                          * understood (M) of a name that ours does not have, or, where ours starts with Session-Id, any other one in its place */
    WM_MISSING_AVP = 4,  /* ours has one more of some name */
    WM_OTHER_NOTICE = 5, /* one of its bytes, its length, a notice where none is due, or none where one is */
    WM_OTHER_ROW = 6     /* one of its bytes */
};

/* number: one of enum wm_number. mismatch: one of enum wm_mismatch with WM_MISMATCH, else 0.
 * at: of header, notice and row the first byte that differs, counted from 0; where one of the two ends before, the byte behind its end, and so 0 where there is none
 * at all. Of WM_BROKEN_AVP and WM_OTHER_AVP where the AVP starts in the old server's answer, an AVP inside a group too. Else 0. It is a size_t,
 * as the lengths are in which it is a place. */
struct wm_judged {
    uint32_t number, mismatch;
    size_t at;
};

/* row, after: the subscriber's row before the request and as the old server left it, each exactly one row of the form. row is the caller's copy: it becomes the row that is due.
 * form, op, host, realm, message, wag: as for wm_handle; the names are those that the old server answers with. theirs, their_notice: what the old server answered, and the
 * notice of its cut; length 0 for none. theirs may be any bytes and of any length, and a message that wm_handle gives a number from 5 to 8 has no answer, no notice and
 * the row as it was.
 * answer, notice: rooms as for wm_handle, WM_ANSWER_LEAST and WM_NOTICE_LEAST bytes or more, in form 2 WM_NOTICE_2_LEAST. With WM_DONE, WM_TOO_DEEP and WM_MISMATCH our answer and our
 * notice stand in them as wm_handle leaves them, and row is the one due; with any other number row and rooms are as they were.
 * It is in the archive libwm_judge.a, for which none of the others is needed. */
struct wm_judged wm_judge(uint8_t *row, size_t row_length, const uint8_t *after, size_t after_length, uint32_t form, uint32_t op,
                          const uint8_t *host, size_t host_length, const uint8_t *realm, size_t realm_length, const uint8_t *message,
                          size_t message_length, bool wag, const uint8_t *theirs, size_t theirs_length, const uint8_t *their_notice,
                          size_t their_notice_length, uint8_t *answer, size_t answer_length, uint8_t *notice, size_t notice_length);

/* RE-AUTHORIZATION AT THE GATEWAY. A server asks a gateway by a Re-Auth-Request to have one of its accesses authorized again. The gateway answers it, and where the request is
 * good sends an AA-Request for that access back to the server. Here the caller is the gateway.
 * code: a number of enum wm_number, with the kind WM_NO_ANSWER and nothing written; or the Result-Code of the answer, 2001 where the gateway goes on.
 * length: of the Re-Auth-Answer, at the front of the answer room. request_length: of the AA-Request, at the front of the request room; 0, and the room as it was,
 * unless the code is 2001. */
struct wm_reauthorized {
    uint32_t code, kind, length, request_length;
};

/* host, realm: the gateway's own names. session, user, label, visited: the access that it has; visited_length is 0 where it is at home.
 * message: the Re-Auth-Request, any bytes. hop, end: the identifiers that the AA-Request is to have, Hop-by-Hop and End-to-End; those of the answer are the
 * message's. answer, request: rooms of at least WM_ANSWER_LEAST bytes each. A gateway with several accesses lends the one whose Session-Id the message has, or any:
 * a message about another one gets 5002, DIAMETER_UNKNOWN_SESSION_ID. It is in the archive libwm_gateway.a, for which none of the others is needed. */
struct wm_reauthorized wm_reauth(const uint8_t *host, size_t host_length, const uint8_t *realm, size_t realm_length,
                                 const uint8_t *session, size_t session_length, const uint8_t *user, size_t user_length,
                                 const uint8_t *label, size_t label_length, const uint8_t *visited, size_t visited_length,
                                 const uint8_t *message, size_t message_length, uint32_t hop, uint32_t end, uint8_t *answer,
                                 size_t answer_length, uint8_t *request, size_t request_length);

/* THE YEAR BY HOUR. A report is numbers alone: all zero to begin with, and it may be stored and lent again as the caller likes. It may hold anything:
 * where its own totals pass 64 bits the number is WM_OVER_64_BITS.
 * totals: for each hour accesses opened, cuts, terminations that succeeded, every other result. */
struct wm_report {
    uint64_t totals[24][4];
};
/* A result as it is told. hour: 0 to 23. which: the request's kind, 0 and 1 for the types of an authorization, 2 for a termination.
 * code, kind, place, cut: of its outcome. */
struct wm_told {
    uint32_t hour, which, code, kind, place, cut;
};
/* cuts, opened: in lowest terms; 0 and 1 if no access was opened, and with a number other than 0. */
struct wm_rate {
    uint32_t number;
    uint64_t cuts, opened;
};

/* A list of results counted into a report, all of it or, with a number other than 0, none. told_length: how many they are. */
uint32_t wm_report_count(struct wm_report *report, const struct wm_told *told, size_t told_length);
/* A second report added to the first. */
uint32_t wm_report_add(struct wm_report *report, const struct wm_report *more);
/* The year's rate of cuts to accesses opened. */
struct wm_rate wm_report_rate(const struct wm_report *report);

/* THE SCREEN BOARD. A list of up to 64 screens, which is fed call by call: the request, then its result and the notice of the cut that it made, in either
 * order. All screens are WM_OFF to begin with. */
enum wm_screen_state { WM_OFF = 0, WM_ASKED = 1, WM_CONNECTED = 2, WM_CUT = 3 };

/* state: one of enum wm_screen_state; any other is kept until a termination or a notice moves it, and is never counted.
 * place: of a connected screen; written as 0 with any other state. session_length: 1 to 128. Bytes of session behind it mean nothing, and stay. */
struct wm_screen {
    uint32_t state, place, session_length;
    uint8_t session[128];
};
/* screens: how many are connected; 0 with a number other than 0. */
struct wm_connected {
    uint32_t number, screens;
};

/* screens_length: how many entries. which: the request's kind, as in struct wm_told; any other number is as 1. A request of kind 0 asks for a screen. */
uint32_t wm_screen_request(struct wm_screen *screens, size_t screens_length, uint32_t which, const uint8_t *session,
                           size_t session_length);
/* code, kind, place: of the request's outcome. */
uint32_t wm_screen_result(struct wm_screen *screens, size_t screens_length, uint32_t which, const uint8_t *session,
                          size_t session_length, uint32_t code, uint32_t kind, uint32_t place);
/* session: the first cut_session bytes of the notice room. */
uint32_t wm_screen_notice(struct wm_screen *screens, size_t screens_length, const uint8_t *session, size_t session_length);
struct wm_connected wm_screens_connected(const struct wm_screen *screens, size_t screens_length);

#ifdef __cplusplus
}
#endif

#endif
