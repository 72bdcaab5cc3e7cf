/* Calls the library as a C program does, over the logs that tests/library/library.py names, and looks at each byte of its own
 * memory.
 *
 *     library_calls answers|rooms|edges|threads|refused
 *
 * takes lines from standard input: the tester, the unit, both in hexadecimal, the limit in decimal, and the name of a
 * file. `answers` writes what each call answers; the others end with 1 at the first byte or answer that is wrong, and
 * say which. It is C99 and C++.
 */
#ifndef _GNU_SOURCE
#define _GNU_SOURCE
#endif
#include <pthread.h>
#include <stdio.h>
#include <stdlib.h>
#include <string.h>
#include <sys/mman.h>
#include <unistd.h>

#include "udsnorm.h"

#define THREADS 16
#define ROUNDS 10
#define GUARD 64
#define FILLED 0xA5
#define NESTED 79

struct session {
    uint32_t tester, unit;
    uint64_t limit;
    uint8_t *log;
    size_t length;
    const uint8_t *profile;
    size_t profile_length;
};

/* Each text with its call, its style, and the bytes that the header says are enough for a byte of the log; 0 of a page,
 * whose length is asked for. */
enum kind { NORMALISE, LIST, MESSAGES, EXPLAIN, FIND, COMPARE, DIFF, REPORT, REPORT_PAIR };
static const struct {
    const char *name;
    enum kind kind;
    uint32_t style;
    size_t growth;
} texts[] = {
    {"normalise", NORMALISE, UDSNORM_TEXT, 4},
    {"list", LIST, UDSNORM_TEXT, 4},
    {"unnumbered", LIST, UDSNORM_NO_NUMBERS, 4},
    {"objects", LIST, UDSNORM_JSON, 8},
    {"unnumbered objects", LIST, UDSNORM_JSON_NO_NUMBERS, 8},
    {"messages", MESSAGES, UDSNORM_TEXT, 4},
    {"message objects", MESSAGES, UDSNORM_JSON, 8},
    {"explain", EXPLAIN, UDSNORM_TEXT, 4},
    {"explain objects", EXPLAIN, UDSNORM_JSON, 8},
    {"find", FIND, UDSNORM_TEXT, 4},
    {"find objects", FIND, UDSNORM_JSON, 8},
    {"compare", COMPARE, UDSNORM_TEXT, 4},
    {"diff", DIFF, UDSNORM_TEXT, 4},
    {"diff objects", DIFF, UDSNORM_JSON, 16},
    {"report", REPORT, UDSNORM_TEXT, 0},
    {"report pair", REPORT_PAIR, UDSNORM_TEXT, 0},
};
#define TEXTS ((int)(sizeof texts / sizeof *texts))

static void fail(const char *what, const char *call, unsigned long long number)
{
    printf("%s: %s: %llu\n", call, what, number);
    exit(1);
}

static void need(int holds, const char *what, const char *call, unsigned long long number)
{
    if (!holds)
        fail(what, call, number);
}

static uint8_t *memory(size_t size)
{
    uint8_t *at = (uint8_t *)malloc(size ? size : 1);
    if (!at)
        fail("no memory", "test", size);
    return at;
}

/* What every call but udsnorm_find takes first. */
#define GIVEN s->tester, s->unit, s->limit, s->profile, s->profile_length, NULL, 0

/* One of the texts of a log; a comparison has none, and compares the log with itself, as a page of two shows it twice. Where
 * it differs is told from no log at all. */
static uint32_t text(int call, const struct session *s, const uint8_t *log, uint8_t *out, size_t room,
                     struct udsnorm_answer *answer)
{
    uint32_t style = texts[call].style;
    memset(answer, FILLED, sizeof *answer);
    switch (texts[call].kind) {
    case NORMALISE: return udsnorm_normalise(GIVEN, log, s->length, out, room, answer);
    case LIST: return udsnorm_list(GIVEN, style, log, s->length, out, room, answer);
    case MESSAGES: return udsnorm_messages(GIVEN, style, log, s->length, out, room, answer);
    case EXPLAIN: return udsnorm_explain(GIVEN, style, log, s->length, out, room, answer);
    case FIND: return udsnorm_find(s->limit, style, log, s->length, out, room, answer);
    case COMPARE: return udsnorm_compare(GIVEN, log, s->length, log, s->length, out, room, answer);
    case DIFF:
        return udsnorm_diff(GIVEN, style, "none", 4, NULL, 0, "a log", 5, log, s->length, out, room, answer);
    case REPORT: return udsnorm_report(GIVEN, "log", 3, log, s->length, out, room, answer);
    default:
        return udsnorm_report_pair(GIVEN, "left", 4, log, s->length, NULL, 0, log, s->length, out, room, answer);
    }
}

static size_t enough(int call, const struct session *s)
{
    struct udsnorm_answer answer;
    if (texts[call].growth)
        return texts[call].growth * s->length + 512;
    text(call, s, s->log, NULL, 0, &answer);
    return (size_t)answer.length;
}

/* A text in memory that has room for it by what the header says, and what was answered. */
static uint8_t *whole(int call, const struct session *s, struct udsnorm_answer *answer)
{
    size_t room = enough(call, s);
    uint8_t *out = memory(room);
    uint32_t status = text(call, s, s->log, out, room, answer);
    need(status == answer->status, "another status", texts[call].name, status);
    need(status != UDSNORM_ROOM, "a larger room is wanted", texts[call].name, answer->length);
    return out;
}

static int is_filled(const uint8_t *from, size_t size)
{
    while (size--)
        if (*from++ != FILLED)
            return 0;
    return 1;
}

static void answers(const struct session *s)
{
    int call;
    for (call = 0; call < TEXTS; call++) {
        struct udsnorm_answer a;
        uint8_t *out = whole(call, s, &a);
        printf("%s %s: %llu %u %llu %llu %llu %llu %llu %llu %llu %llu %llu %llu %u %u %u\n", texts[call].name, udsnorm_status_text(a.status).text,
               (unsigned long long)a.line, (unsigned)a.column, (unsigned long long)a.announced, (unsigned long long)a.length,
               (unsigned long long)a.lines, (unsigned long long)a.frames, (unsigned long long)a.messages,
               (unsigned long long)a.dropped, (unsigned long long)a.ended, (unsigned long long)a.unfinished,
               (unsigned long long)a.pending, (unsigned long long)a.item, (unsigned)a.side, (unsigned)a.exchanged,
               (unsigned)a.clean);
        fwrite(out, 1, (size_t)a.length, stdout);
        free(out);
    }
}

/* With each room up to the length of the text and one more, what lies behind the room stays, and behind the text too. Of a
 * page, which is long, with the first few and the last few. */
static void rooms(const struct session *s)
{
    int call;
    for (call = 0; call < TEXTS; call++) {
        struct udsnorm_answer want, a;
        uint8_t *whole_text = whole(call, s, &want), *out = memory((size_t)want.length + 1 + GUARD);
        size_t room, size = (size_t)want.length;
        for (room = 0; room <= size + 1; room++) {
            if (!texts[call].growth && room == 2 && size > 4)
                room = size - 1;
            memset(out, FILLED, size + 1 + GUARD);
            text(call, s, s->log, room ? out : NULL, room, &a);
            if (want.status == UDSNORM_DONE && room >= size) {
                need(memcmp(&a, &want, sizeof a) == 0, "another answer with room", texts[call].name, room);
                need(memcmp(out, whole_text, size) == 0, "another text", texts[call].name, room);
                need(is_filled(out + size, 1 + GUARD), "a byte behind the text", texts[call].name, room);
            } else {
                struct udsnorm_answer small = want;
                if (want.status == UDSNORM_DONE)
                    small.status = UDSNORM_ROOM;
                need(memcmp(&a, &small, sizeof a) == 0, "another answer without room", texts[call].name, room);
                need(is_filled(out, size + 1 + GUARD), "a byte without room", texts[call].name, room);
            }
        }
        free(out);
        free(whole_text);
    }
}

/* Pages of which the first and the last may not be touched, with this many bytes between them. */
static uint8_t *walled(size_t size, size_t *between)
{
    size_t page = (size_t)sysconf(_SC_PAGESIZE);
    uint8_t *at;
    *between = (size + page - 1) / page * page;
    at = (uint8_t *)mmap(NULL, *between + 2 * page, PROT_READ | PROT_WRITE, MAP_PRIVATE | MAP_ANONYMOUS, -1, 0);
    need(at != MAP_FAILED && mprotect(at, page, PROT_NONE) == 0 && mprotect(at + page + *between, page, PROT_NONE) == 0, "no pages", "test", size);
    return at + page;
}

/* A log that begins at the start of a page, and one that ends at the end of one; so with the text. */
static void edges(const struct session *s)
{
    size_t page = (size_t)sysconf(_SC_PAGESIZE), log_room, out_room;
    uint8_t *log = walled(s->length, &log_room);
    int call, end;
    for (call = 0; call < TEXTS; call++) {
        struct udsnorm_answer want, a;
        uint8_t *whole_text = whole(call, s, &want);
        size_t size = (size_t)want.length;
        uint8_t *out = walled(size, &out_room);
        for (end = 0; end < 2; end++) {
            uint8_t *log_at = log + (end ? log_room - s->length : 0), *out_at = out + (end ? out_room - size : 0);
            memmove(log_at, s->log, s->length);
            text(call, s, log_at, out_at, size, &a);
            need(memcmp(&a, &want, sizeof a) == 0, "another answer at the edge", texts[call].name, (unsigned long long)end);
            need(memcmp(out_at, whole_text, size) == 0, "another text at the edge", texts[call].name, (unsigned long long)end);
        }
        munmap(out - page, out_room + 2 * page);
        free(whole_text);
    }
    munmap(log - page, log_room + 2 * page);
}

static void again_under(const struct session *s)
{
    int round, call;
    for (call = 0; call < TEXTS; call++) {
        struct udsnorm_answer want, a;
        size_t room = enough(call, s);
        uint8_t *whole_text = whole(call, s, &want), *out = memory(room);
        for (round = 0; round < ROUNDS; round++) {
            text(call, s, s->log, out, room, &a);
            need(memcmp(&a, &want, sizeof a) == 0 && memcmp(out, whole_text, (size_t)a.length) == 0, "another answer in a thread", texts[call].name,
                 (unsigned long long)round);
        }
        free(out);
        free(whole_text);
    }
}

/* Each text without a profile, with rules, and with tables in each other, as many as a profile may have: what takes most stack. */
static void *again(void *of)
{
    static const char rules[] = "drop = [\"3E\"]\nmask = [\"62F190..*\"]\n";
    char deep[4 * NESTED + 6] = "x = ";
    struct session s = *(const struct session *)of;
    int n;
    again_under(&s);
    s.profile = (const uint8_t *)rules;
    s.profile_length = sizeof rules - 1;
    again_under(&s);
    for (n = 0; n < NESTED; n++)
        memcpy(deep + 4 + 3 * n, "{a=", 3);
    deep[4 + 3 * NESTED] = '1';
    memset(deep + 5 + 3 * NESTED, '}', NESTED);
    s.profile = (const uint8_t *)deep;
    s.profile_length = 4 * NESTED + 5;
    again_under(&s);
    return NULL;
}

static void threads(const struct session *s)
{
    pthread_t running[THREADS];
    pthread_attr_t how;
    int i;
    pthread_attr_init(&how);
#ifdef STACK
    need(pthread_attr_setstacksize(&how, STACK) == 0, "no stack", "test", STACK);
#endif
    for (i = 0; i < THREADS; i++)
        need(pthread_create(&running[i], &how, again, (void *)s) == 0, "no thread", "test", (unsigned long long)i);
    for (i = 0; i < THREADS; i++)
        pthread_join(running[i], NULL);
    pthread_attr_destroy(&how);
}

#ifdef REFUSES
/* malloc and realloc are linked by way of these: calls are counted, and from one on, or one alone, they are refused. */
static long calls, refused_from = -1, refused_to, held;

#ifdef __cplusplus
extern "C" {
#endif
void *__real_malloc(size_t size);
void *__real_realloc(void *at, size_t size);
void __real_free(void *at);
void *__wrap_malloc(size_t size);
void *__wrap_realloc(void *at, size_t size);
void __wrap_free(void *at);

static int is_refused(void)
{
    long call = calls++;
    return refused_from >= 0 && call >= refused_from && call <= refused_to;
}

void *__wrap_malloc(size_t size)
{
    void *at = is_refused() ? NULL : __real_malloc(size);
    held += at != NULL;
    return at;
}

void *__wrap_realloc(void *at, size_t size)
{
    return is_refused() ? NULL : __real_realloc(at, size);
}

void __wrap_free(void *at)
{
    held -= at != NULL;
    __real_free(at);
}
#ifdef __cplusplus
}
#endif

/* Each growth is refused in turn, alone and with all after it. Then memory is what is answered, or the same as ever. */
static void refused(const struct session *s)
{
    int call, for_good;
    for (call = 0; call < TEXTS; call++) {
        struct udsnorm_answer want, a;
        uint8_t *whole_text = whole(call, s, &want), *out = memory((size_t)want.length + GUARD);
        size_t size = (size_t)want.length;
        long growths, k, before;
        calls = 0;
        text(call, s, s->log, out, size, &a);
        growths = calls;
        for (for_good = 0; for_good < 2; for_good++)
            for (k = 0; k < growths; k++) {
                memset(out, FILLED, size + GUARD);
                before = held;
                calls = 0;
                refused_from = k;
                refused_to = for_good ? 1L << 40 : k;
                text(call, s, s->log, out, size, &a);
                refused_from = -1;
                need(held == before, "memory is kept", texts[call].name, (unsigned long long)k);
                need(a.status == UDSNORM_MEMORY, "another status without memory", texts[call].name, (unsigned long long)a.status);
                need(is_filled(out, size + GUARD), "a byte without memory", texts[call].name, (unsigned long long)k);
                text(call, s, s->log, out, size, &a);
                need(memcmp(&a, &want, sizeof a) == 0 && memcmp(out, whole_text, size) == 0, "another answer afterwards", texts[call].name, (unsigned long long)k);
            }
        free(out);
        free(whole_text);
    }
}
#endif

static void take(const char *mode, const struct session *s)
{
    if (!strcmp(mode, "answers"))
        answers(s);
    else if (!strcmp(mode, "rooms"))
        rooms(s);
    else if (!strcmp(mode, "edges"))
        edges(s);
    else if (!strcmp(mode, "threads"))
        threads(s);
#ifdef REFUSES
    else if (!strcmp(mode, "refused"))
        refused(s);
#endif
    else
        fail("no such test", mode, 0);
}

int main(int count, char **words)
{
    char name[4096];
    unsigned long tester, unit;
    unsigned long long limit;
    while (scanf("%lx %lx %llu %4095s", &tester, &unit, &limit, name) == 4) {
        struct session s = {(uint32_t)tester, (uint32_t)unit, (uint64_t)limit, NULL, 0, NULL, 0};
        FILE *file = fopen(name, "rb");
        long end = -1;
        need(file != NULL && fseek(file, 0, SEEK_END) == 0 && (end = ftell(file)) >= 0 && fseek(file, 0, SEEK_SET) == 0, "no file", name, 0);
        s.length = (size_t)end;
        s.log = memory(s.length);
        need(fread(s.log, 1, s.length, file) == s.length, "a short file", name, 0);
        fclose(file);
        take(count > 1 ? words[1] : "", &s);
        free(s.log);
    }
    return 0;
}
