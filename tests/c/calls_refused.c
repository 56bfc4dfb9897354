/* Refuses each allocation of the calls that take memory in turn, on some logs: then there is no
   answer, nothing else is written and no memory is kept; and the same call returns the right answer
   afterwards. Link with --wrap of malloc, realloc and free. */
#include "vicinity.h"

#include "read_log.h"
#include <stdlib.h>
#include <string.h>

enum { PLACES = 64, UNWRITTEN = 7 };
enum which {
    CHECK,
    EXPLAIN,
    REPORT,
    MARGIN,
    CHECK_LISTED,
    MARGIN_LISTED,
    SIMULATE,
    RUN_REPORT,
    RUN_RECONCILE,
    RUN_SPELL,
    CALLS
};

static size_t growths, refused, held;

void *__real_malloc(size_t size);
void *__real_realloc(void *memory, size_t size);
void __real_free(void *memory);
void *__wrap_malloc(size_t size);
void *__wrap_realloc(void *memory, size_t size);
void __wrap_free(void *memory);

void *__wrap_malloc(size_t size)
{
    void *memory = ++growths == refused ? NULL : __real_malloc(size);
    held += memory != NULL;
    return memory;
}

void *__wrap_realloc(void *memory, size_t size)
{
    void *more = ++growths == refused ? NULL : __real_realloc(memory, size);
    held += !memory && more;
    return more;
}

void __wrap_free(void *memory)
{
    held -= memory != NULL;
    __real_free(memory);
}

/* The result of one call: it has no padding. */
struct given {
    struct vicinity_answer answer;
    uint64_t status;
    size_t needed;
    uint64_t room[PLACES];
    struct vicinity_finding findings[PLACES];
    struct vicinity_weakest weakest;
    uint8_t filled[ROOM];
};

/* Makes the call for a command: over a log, a list with the log twice, or words. */
static uint32_t run(enum which which, const uint8_t *log, size_t len, struct given *given)
{
    static const char names[] = "list\nlog\nlog\n",
                      words[] = "responseflags00dsfid00uidE0040100000000A1";
    static const char list[] = "vicinity-log 1\nU E0040100000000A1\n";
    static uint8_t texts[3 * ROOM];
    size_t listed = sizeof list - 1;
    if (which == RUN_SPELL)
        return vicinity_run(VICINITY_COMMAND_SPELL, (const uint8_t *)"\n\n\n\n\n\n\n", 7,
                            (const uint8_t *)words, sizeof words - 1,
                            (const size_t[]){8, 5, 2, 5, 2, 3, 16}, 7, given->filled, ROOM,
                            &given->needed);
    if (which == RUN_REPORT)
        return vicinity_run(VICINITY_COMMAND_REPORT, (const uint8_t *)names + 5, 4, log, len, &len,
                            1, given->filled, ROOM, &given->needed);
    memcpy(texts, list, listed);
    memcpy(texts + listed, log, len);
    memcpy(texts + listed + len, log, len);
    return vicinity_run(VICINITY_COMMAND_RECONCILE, (const uint8_t *)names, sizeof names - 1, texts,
                        listed + 2 * len, (const size_t[]){listed, len, len}, 3, given->filled,
                        ROOM, &given->needed);
}

/* Makes a call whose allocation with this number is refused; none is if it is 0. */
static void call(enum which which, const uint8_t *text, size_t len, size_t number,
                 struct given *given)
{
    static const uint64_t uids[] = {UINT64_C(0xE0040100000000B2), UINT64_C(0xE0040100000000A1)};
    memset(given, UNWRITTEN, sizeof *given);
    given->needed = 0;
    growths = 0;
    refused = number;
    switch (which) {
    case EXPLAIN:
        given->status =
            vicinity_explain(text, len, &given->answer, given->room, PLACES, &given->needed);
        break;
    case REPORT:
        given->status =
            vicinity_report(text, len, &given->answer, given->findings, PLACES, &given->needed);
        break;
    case MARGIN:
        given->status = vicinity_margin(text, len, &given->answer, &given->weakest);
        break;
    case CHECK_LISTED:
        given->status = vicinity_check_listed(text, len, uids, 2, &given->answer);
        break;
    case MARGIN_LISTED:
        given->status = vicinity_margin_listed(text, len, uids, 2, &given->answer, &given->weakest);
        break;
    case SIMULATE:
        given->status = vicinity_simulate(text, len, given->filled, ROOM, &given->needed);
        break;
    case RUN_REPORT:
    case RUN_RECONCILE:
    case RUN_SPELL:
        given->status = run(which, text, len, given);
        break;
    default:
        given->status = vicinity_check(text, len, &given->answer);
    }
}

/* The result of a call that was refused memory: no answer, if it would have one. */
static void none(enum which which, struct given *given)
{
    memset(given, UNWRITTEN, sizeof *given);
    if (which < SIMULATE) {
        memset(&given->answer, 0, sizeof given->answer);
        given->answer.status = 4;
    }
    given->status = 4;
    given->needed = 0;
    if (which == MARGIN || which == MARGIN_LISTED)
        memset(&given->weakest, 0, sizeof given->weakest);
}

/* Removes the lines that begin with one of these letters from a text. */
static size_t without(const char *letters, uint8_t *text, size_t len)
{
    size_t kept = 0;
    for (size_t start = 0, end; start < len; start = end) {
        const uint8_t *lf = memchr(text + start, '\n', len - start);
        end = lf ? (size_t)(lf - text) + 1 : len;
        if (!memchr(letters, text[start], strlen(letters))) {
            memmove(text + kept, text + start, end - start);
            kept += end - start;
        }
    }
    return kept;
}

/* Refuses each allocation of a call in turn; returns how many there were, or 0 if something is
 * wrong. */
static size_t refuse_each(enum which which, const uint8_t *text, size_t len)
{
    static struct given right, given, memory;
    size_t before = held;
    none(which, &memory);
    call(which, text, len, 0, &right);
    size_t most = growths;
    for (size_t number = 1; number <= most; number++) {
        call(which, text, len, number, &given);
        /* `reconcile` goes on without what only saves it time */
        int is_right = which == RUN_RECONCILE && memcmp(&given, &right, sizeof given) == 0;
        if ((memcmp(&given, &memory, sizeof given) && !is_right) || held != before)
            return 0;
    }
    call(which, text, len, 0, &given);
    return right.status == 4 || memcmp(&given, &right, sizeof given) || held != before ? 0 : most;
}

int main(int argc, char **argv)
{
    static uint8_t text[ROOM], changed[ROOM];
    size_t calls = 0;
    for (int i = 1; i < argc; i++) {
        size_t len = read_log(argv[i], text);
        if (len == NO_LOG)
            return 1;
        for (int which = 0; which < CALLS; which++) {
            memcpy(changed, text, len);
            /* a text to fill in has no slot lines, one with a separate list no UIDs */
            const char *letters = which == SIMULATE       ? "SRCD"
                                  : which >= RUN_REPORT   ? ""
                                  : which >= CHECK_LISTED ? "U"
                                                          : "";
            size_t refusals =
                refuse_each((enum which)which, changed, without(letters, changed, len));
            if (refusals == 0)
                return 1;
            calls += refusals;
        }
    }
    printf("%zu growths refused, no answer each\n", calls);
    return 0;
}
