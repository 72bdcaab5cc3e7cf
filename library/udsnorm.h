/* The canonical form of recorded UDS sessions (ISO 14229 over ISO-TP, ISO 15765-2), from candump logs, as a library.
 *
 * candump of can-utils records such a session, of a tester and an ECU, from SocketCAN, on classic CAN or CAN FD. (ISO-TP
 * is also called DoCAN.) The texts are for regression tests, and for diffs of diagnostic traces.
 *
 * A call is handed a log of `candump -l` or `-L` in memory, and puts a text about it into memory of the caller. It
 * reads no file, prints nothing, keeps nothing from call to call and has no global state: any number of threads may
 * call at once.
 * What the texts are is said in docs/formats.md, what is proved of the calls in docs/library.md. Where udsnorm is installed,
 * these pages lie in share/doc/udsnorm below its prefix.
 *
 * Written by hand. tests/library/library.py compares it with the crate udsnorm_c.
 */
#ifndef UDSNORM_H
#define UDSNORM_H

#include <stddef.h>
#include <stdint.h>

#ifdef __cplusplus
extern "C" {
#endif

/* The version of this header. udsnorm_version() answers that of the library that is linked. */
#define UDSNORM_VERSION_MAJOR 1
#define UDSNORM_VERSION_MINOR 0
#define UDSNORM_VERSION_PATCH 0
#define UDSNORM_VERSION ((UDSNORM_VERSION_MAJOR << 16) | (UDSNORM_VERSION_MINOR << 8) | UDSNORM_VERSION_PATCH)

/* The identifiers and the limit that the program has where none are given: tester 7E0, unit 7E8, 2^30 bytes. (For
 * `messages` and `report` the program has the largest limit, 2^40.) */
#define UDSNORM_TESTER UINT32_C(0x7E0)
#define UDSNORM_UNIT UINT32_C(0x7E8)
#define UDSNORM_LIMIT (UINT64_C(1) << 30)

/* The flag of an identifier of 29 bits, as in canid_t of <linux/can.h>. */
#define UDSNORM_EXTENDED UINT32_C(0x80000000)

/* What a call answers. Further numbers may come with a later version. */
enum udsnorm_status {
    UDSNORM_DONE = 0,         /* the text is in `out`; of udsnorm_compare: the logs were compared */
    UDSNORM_ID_RANGE = 1,     /* an identifier above 7FF, or with UDSNORM_EXTENDED above 1FFFFFFF */
    UDSNORM_SAME_ID = 2,      /* the tester and the unit have one identifier */
    UDSNORM_LIMIT_RANGE = 3,  /* the limit is 0 or above 2^40 */
    UDSNORM_BAD_LINE = 4,     /* no log: the refused place is in `line` and `column` */
    UDSNORM_OVERSIZE = 5,     /* the frame in `line` announces a message of `announced` bytes; 1,048,575 is the most */
    UDSNORM_LOG_LIMIT = 6,    /* the log has more bytes than the limit */
    UDSNORM_OUTPUT_LIMIT = 7, /* its canonical log has */
    UDSNORM_MEMORY = 8,       /* malloc or realloc answered a null pointer, for a log, a profile or a text */
    UDSNORM_ROOM = 9,         /* the text has `length` bytes, more than there is room for */
    UDSNORM_STYLE = 10,       /* there is no such style of this text */
    UDSNORM_PROFILE = 11      /* the profile is wrong, or the name of the unit: what is wrong is in `out` */
};

/* What a `style` may be. */
enum udsnorm_style {
    UDSNORM_TEXT = 0,           /* as the program writes it */
    UDSNORM_NO_NUMBERS = 1,     /* of udsnorm_list: the lines without the numbers of their items */
    UDSNORM_JSON = 2,           /* an object of JSON in each line */
    UDSNORM_JSON_NO_NUMBERS = 3 /* of udsnorm_list: the same without the numbers */
};

/* What came of a call. A call writes every field; those that say nothing of its status are 0. */
struct udsnorm_answer {
    uint32_t status;    /* one of enum udsnorm_status */
    uint32_t column;    /* UDSNORM_BAD_LINE: the byte in its line, from 1 */
    uint64_t line;      /* UDSNORM_BAD_LINE, UDSNORM_OVERSIZE: the line of the log, from 1. UDSNORM_PROFILE: the line of
                           the profile where it is not TOML, and else 0 */
    uint64_t announced; /* UDSNORM_OVERSIZE: bytes */
    uint64_t length;    /* UDSNORM_DONE, UDSNORM_ROOM, UDSNORM_PROFILE: the bytes of the text */
    uint64_t item;      /* of two logs, UDSNORM_DONE, UDSNORM_ROOM: the first item that differs, from 1; 0: none does */
    uint16_t side;      /* of two logs, any fault of a log: 1 the left one, 2 the right one */
    uint16_t exchanged; /* UDSNORM_DONE, UDSNORM_ROOM, but of udsnorm_find: 1 where tester and unit look exchanged in
                           the log, or in one of two: no message is a request, one of the tester has bit 6 of its first
                           byte set, as a response has, and one of the unit has not. Else 0. */
    uint32_t clean;     /* UDSNORM_DONE, UDSNORM_ROOM, but of udsnorm_find: 1 where the log is clean, or both are, which
                           the program asks with --strict: it has a frame of the tester and one of the unit, nothing
                           was dropped, ended or unfinished, and its last byte is a line feed. Else 0. */
    /* UDSNORM_DONE, UDSNORM_ROOM, but of two logs: the counts of the log. */
    uint64_t lines;      /* its lines, blank and foreign ones included */
    uint64_t frames;     /* the frames of the tester and the unit */
    uint64_t messages;   /* the messages that were received whole */
    uint64_t dropped;    /* those of `frames` that were dropped */
    uint64_t ended;      /* the receptions that ended without a message before the log did */
    uint64_t unfinished; /* the receptions that were open at the end: 0 to 2 */
    uint64_t pending;    /* the responses that only announce a later one, which the canonical log leaves out */
    uint64_t left_out;   /* the messages that the profile leaves out; udsnorm_explain knows no rules */
};

/* All calls that take a log take these, but that udsnorm_find has no tester, no unit and no profile:
 *
 *   tester, unit   the identifiers of the frames that the tester and the unit send, as canid_t has them: 0 to 7FF, or
 *                  UDSNORM_EXTENDED with 0 to 1FFFFFFF. They have to be different.
 *   limit          the most bytes of a log, and of its canonical log: 1 to 2^40. A call takes memory for what a log
 *                  means, and for its text, which this bounds.
 *   profile, profile_length
 *                  the text of a profile, as docs/formats.md has it: which messages are left out, which bytes are
 *                  masked, and which units a bench has. With a length of 0 there is none, and any pointer is allowed,
 *                  also a null pointer. Where it has units, tester and unit are not looked at.
 *   only, only_length
 *                  the name of one of its units. With a length of 0 none is named: then it has one unit or none.
 *   log, length    the bytes of a log: that many may be read at `log`, and nobody writes them during the call. They
 *                  stay the caller's. With a length of 0 any pointer is allowed, also a null pointer.
 *   answer         where the answer goes. It is not null, and nothing else uses it during the call.
 *
 * and:
 *
 *   out, room      memory of the caller for the text, and for what is wrong in a profile (udsnorm_compare has no other
 *                  text): that many bytes may be written at `out`, and nothing else uses them during the call. They lie
 *                  apart from the logs, their names, the profile and the answer. With a room of 0 any pointer is allowed.
 *
 * They return the status. With UDSNORM_DONE the text is the first answer->length bytes of `out`, with no 0 behind it,
 * and the bytes behind it are as they were. So is what is wrong in a profile with UDSNORM_PROFILE, where `room` is at
 * least answer->length; 4,096 bytes are enough for it. With every other status all of `out` is as it was. Where the room
 * was too small, the status is UDSNORM_ROOM, and answer->length says how much is wanted. A room of 4 * length + 512 bytes
 * is enough for each text, and one of 8 * length + 512 for objects of JSON, of logs with up to 10^10 lines. For
 * udsnorm_diff `length` is here that of both logs and both names together, 16 * length + 512 is enough for objects, and
 * a profile with rules makes the text up to 16,384 bytes longer. A page is longer: ask with a room of 0 for its length,
 * or again with that where there was too little room.
 *
 * A length is at most PTRDIFF_MAX. No call is made from a signal handler, or from the forked child of a process with
 * threads. 256 KiB of stack are enough for a call. Memory comes from malloc and realloc and goes back to free, which
 * have to be of one allocator.
 */

/* The canonical log. Two logs have the same meaning exactly where their canonical logs are equal byte for byte.
 * Every status but UDSNORM_STYLE. */
uint32_t udsnorm_normalise(uint32_t tester, uint32_t unit, uint64_t limit, const uint8_t *profile,
                           size_t profile_length, const char *only, size_t only_length, const uint8_t *log,
                           size_t length, uint8_t *out, size_t room, struct udsnorm_answer *answer);

/* A line for each exchange and each stray message. `style` is one of enum udsnorm_style. Every status. */
uint32_t udsnorm_list(uint32_t tester, uint32_t unit, uint64_t limit, const uint8_t *profile, size_t profile_length,
                      const char *only, size_t only_length, uint32_t style, const uint8_t *log, size_t length,
                      uint8_t *out, size_t room, struct udsnorm_answer *answer);

/* A line for each message that was received whole, with its lines and time stamps. `style` is UDSNORM_TEXT or
 * UDSNORM_JSON. Every status but UDSNORM_OVERSIZE and UDSNORM_OUTPUT_LIMIT. */
uint32_t udsnorm_messages(uint32_t tester, uint32_t unit, uint64_t limit, const uint8_t *profile,
                          size_t profile_length, const char *only, size_t only_length, uint32_t style,
                          const uint8_t *log, size_t length, uint8_t *out, size_t room, struct udsnorm_answer *answer);

/* What was dropped and why, and the counts. `style` is UDSNORM_TEXT or UDSNORM_JSON.
 * Every status but UDSNORM_OVERSIZE and UDSNORM_OUTPUT_LIMIT. */
uint32_t udsnorm_explain(uint32_t tester, uint32_t unit, uint64_t limit, const uint8_t *profile, size_t profile_length,
                         const char *only, size_t only_length, uint32_t style, const uint8_t *log, size_t length,
                         uint8_t *out, size_t room, struct udsnorm_answer *answer);

/* A line for each pair of identifiers of which one answered the other, whatever they are: it takes no tester and no
 * unit. `style` is UDSNORM_TEXT or UDSNORM_JSON. Of the counts `lines` alone is told; the others are 0.
 * Every status but UDSNORM_ID_RANGE, UDSNORM_SAME_ID, UDSNORM_OVERSIZE, UDSNORM_OUTPUT_LIMIT and UDSNORM_PROFILE. */
uint32_t udsnorm_find(uint64_t limit, uint32_t style, const uint8_t *log, size_t length, uint8_t *out, size_t room,
                      struct udsnorm_answer *answer);

/* Whether two logs have the same meaning: answer->item is 0 where they do, else the number of the first item that
 * differs, as udsnorm_list numbers it. The right log is read only where the left one is accepted. The two may lie in
 * the same bytes. Every status but UDSNORM_ROOM and UDSNORM_STYLE. */
uint32_t udsnorm_compare(uint32_t tester, uint32_t unit, uint64_t limit, const uint8_t *profile, size_t profile_length,
                         const char *only, size_t only_length, const uint8_t *left, size_t left_length,
                         const uint8_t *right, size_t right_length, uint8_t *out, size_t room,
                         struct udsnorm_answer *answer);

/* Where two logs differ: the items that one has alone, that differ or that stand beside them, as `diff -u` of their lists
 * without numbers writes them. Nothing where none does; as objects of JSON then the counts alone. `style` is UDSNORM_TEXT
 * or UDSNORM_JSON. `left_name` and `right_name` are what the text calls the logs; one that is not of letters, digits and
 * ./_-+:@%,= stands between quotes, as C has it, with each byte that is no printable ASCII by its number. The answer is
 * that of udsnorm_compare, with the length of the text: answer->item is the number of the first item that differs. All of
 * them may lie in the same bytes. UDSNORM_MEMORY with a side of 2 also where memory for the text was refused. Every
 * status. */
uint32_t udsnorm_diff(uint32_t tester, uint32_t unit, uint64_t limit, const uint8_t *profile, size_t profile_length,
                      const char *only, size_t only_length, uint32_t style, const char *left_name,
                      size_t left_name_length, const uint8_t *left, size_t left_length, const char *right_name,
                      size_t right_name_length, const uint8_t *right, size_t right_length, uint8_t *out, size_t room,
                      struct udsnorm_answer *answer);

/* The page of a log: a file of HTML that shows the session and says whether the recording is clean. `name` is what the
 * page calls the log, of `name_length` bytes; a byte that is no printable ASCII is shown by its number. The style is the
 * program's. Of a log that is refused there is no page, where the program writes one of the lines before.
 * Every status but UDSNORM_OVERSIZE, UDSNORM_OUTPUT_LIMIT and UDSNORM_STYLE. */
uint32_t udsnorm_report(uint32_t tester, uint32_t unit, uint64_t limit, const uint8_t *profile, size_t profile_length,
                        const char *only, size_t only_length, const char *name, size_t name_length, const uint8_t *log,
                        size_t length, uint8_t *out, size_t room, struct udsnorm_answer *answer);

/* The page of two logs: whether they are the same session, and where they differ first. answer->item is the number of
 * the first item that differs, and 0 where none does: so it is what udsnorm_compare answers, if that accepts both. The
 * right log is read only where the left one can be read. All of them may lie in the same bytes. UDSNORM_MEMORY with a
 * side of 0: memory for the page was refused. Every status but UDSNORM_OVERSIZE, UDSNORM_OUTPUT_LIMIT and
 * UDSNORM_STYLE. */
uint32_t udsnorm_report_pair(uint32_t tester, uint32_t unit, uint64_t limit, const uint8_t *profile,
                             size_t profile_length, const char *only, size_t only_length, const char *left_name,
                             size_t left_name_length, const uint8_t *left, size_t left_length, const char *right_name,
                             size_t right_name_length, const uint8_t *right, size_t right_length, uint8_t *out,
                             size_t room, struct udsnorm_answer *answer);

/* What a status means, in a few words. `text` ends with a 0; it comes by value, so nobody owns it. Of a number that is no
 * status it is "no such status". */
struct udsnorm_words {
    char text[48];
};
struct udsnorm_words udsnorm_status_text(uint32_t status);

/* The version of the library, as UDSNORM_VERSION is made. */
uint32_t udsnorm_version(void);

#ifdef __cplusplus
}
#endif

#endif
