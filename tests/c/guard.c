/* Makes the calls on each prefix of some logs, and those that read bytes on each part of a frame.
   The bytes that are passed end where memory ends, and so do the buffers, of as many elements as
   are needed and of one fewer: a byte read or written after them would fault. What they get is
   tested elsewhere. */
#define _GNU_SOURCE
#include "vicinity.h"

#include "read_log.h"
#include <string.h>
#include <sys/mman.h>

enum { PAGE = 4096, COUNT = 2 };
enum { TEXT, BUFFER, LENGTHS, TEXTS, EXPECTED, NAMES, ENDS };

typedef struct vicinity_answer answer;
typedef uint32_t list_call(const uint8_t *, size_t, answer *, void *, size_t, size_t *);

/* The calls that list something of a text, with the size of an element. */
static const struct {
    list_call *call;
    size_t size;
} LISTS[] = {{(list_call *)vicinity_explain, sizeof(uint64_t)},
             {(list_call *)vicinity_report, sizeof(struct vicinity_finding)}};

/* Where memory ends, behind ROOM bytes each. */
static uint8_t *ends[ENDS];
static uint64_t *expected;

static int have_ends(void)
{
    for (int i = 0; i < ENDS; i++) {
        uint8_t *pages =
            mmap(0, ROOM + PAGE, PROT_READ | PROT_WRITE, MAP_PRIVATE | MAP_ANONYMOUS, -1, 0);
        if (pages == MAP_FAILED || mprotect(pages + ROOM, PAGE, PROT_NONE))
            return 0;
        ends[i] = pages + ROOM;
    }
    expected = (uint64_t *)ends[EXPECTED] - COUNT;
    expected[0] = UINT64_C(0xE0040100000000A1);
    expected[1] = UINT64_C(0xE0040100000000B2);
    return 1;
}

/* Whether a call has the same answer with a buffer of as many elements as it needs, and of one
 * fewer. */
static int lists(list_call *call, size_t size, const uint8_t *text, size_t len)
{
    answer told, again;
    size_t needed, same;
    call(text, len, &told, ends[BUFFER], 0, &needed);
    for (size_t places = needed ? needed - 1 : 0; places <= needed; places++) {
        call(text, len, &again, ends[BUFFER] - places * size, places, &same);
        if (memcmp(&told, &again, sizeof told) || same != needed)
            return 0;
    }
    return 1;
}

static uint32_t simulate(const uint8_t *text, size_t len, answer *told, void *room, size_t places,
                         size_t *needed)
{
    memset(told, 0, sizeof *told);
    return told->status = vicinity_simulate(text, len, room, places, needed);
}

/* What the program writes of a list and of a text, with the lengths and the names where memory
 * ends, too. */
static uint32_t reconcile(const uint8_t *text, size_t len, answer *told, void *room, size_t places,
                          size_t *needed)
{
    static const char list[] = "vicinity-log 1\nU E0040100000000A1\n", names[] = "list\nlog\n";
    size_t listed = sizeof list - 1, *lengths = (size_t *)ends[LENGTHS] - 2,
           named = sizeof names - 1;
    uint8_t *texts = ends[TEXTS] - listed - len;
    memcpy(texts, list, listed);
    memcpy(texts + listed, text, len);
    lengths[0] = listed;
    lengths[1] = len;
    memset(told, 0, sizeof *told);
    return told->status =
               vicinity_run(VICINITY_COMMAND_RECONCILE, memcpy(ends[NAMES] - named, names, named),
                            named, texts, listed + len, lengths, 2, room, places, needed);
}

/* What a log is measured by, into a struct that ends where memory ends. */
static int measures(const uint8_t *text, size_t len)
{
    answer told, again;
    struct vicinity_weakest *weakest = (struct vicinity_weakest *)ends[BUFFER] - 1;
    return vicinity_margin(text, len, &told, weakest) == told.status &&
           vicinity_margin_listed(text, len, expected, COUNT, &again, weakest) == again.status;
}

/* Makes each call on a text whose end is the end of memory. */
static int judges(const uint8_t *text, size_t len)
{
    answer told, again;
    for (size_t i = 0; i < sizeof LISTS / sizeof *LISTS; i++)
        if (!lists(LISTS[i].call, LISTS[i].size, text, len))
            return 0;
    return vicinity_check(text, len, &told) == told.status &&
           vicinity_check_listed(text, len, expected, COUNT, &again) == again.status &&
           lists(simulate, 1, text, len) && lists(reconcile, 1, text, len) && measures(text, len);
}

/* Whether a frame that is both a request and a reply is read, and no part of it; CRCs and lines are
 * written of all parts. */
static int reads_frames(void)
{
    static const uint8_t frame[] = {0x22, 0x02, 0xA1, 0, 0, 0, 0, 1, 4, 0xE0, 0x66, 0x2A};
    for (size_t part = 0; part <= sizeof frame; part++) {
        struct vicinity_request request;
        struct vicinity_reply reply;
        struct vicinity_frame whole;
        struct vicinity_line line;
        uint8_t *bytes = memcpy(ends[TEXT] - part, frame, part);
        int is_whole = part == sizeof frame;
        if ((vicinity_read_request(bytes, part, &request) == 0) != is_whole ||
            (vicinity_read_response(bytes, part, &reply) == 0) != is_whole ||
            vicinity_add_crc(bytes, part, &whole) ||
            vicinity_write_line('T', bytes, part, 0, &line) || line.len != 2 * part + 3)
            return 0;
    }
    return 1;
}

int main(int argc, char **argv)
{
    static uint8_t text[ROOM];
    if (!have_ends() || !reads_frames())
        return 1;
    for (int i = 1; i < argc; i++) {
        size_t len = read_log(argv[i], text);
        if (len == NO_LOG)
            return 1;
        /* the beginnings of the log, and of its list, behind a header */
        for (size_t start = 0; start <= len; start++) {
            int is_list = start == 0 || memcmp(text + start - 1, "\nU ", 3) == 0;
            for (size_t end = start; is_list && end <= len; end++) {
                static const char header[] = "vicinity-log 2\n";
                size_t before = start ? sizeof header - 1 : 0, part = before + end - start;
                memcpy(ends[TEXT] - part, header, before);
                memcpy(ends[TEXT] - part + before, text + start, end - start);
                if (!judges(ends[TEXT] - part, part))
                    return 1;
            }
        }
    }
    return 0;
}
