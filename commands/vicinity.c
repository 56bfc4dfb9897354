/* The commands of vicinity, in C over the call of its library that does what the program does. Only
 * the library knows what texts and words mean, and what is written: here are the command line, the
 * reading and the writing, in C99 over POSIX. */
#define _POSIX_C_SOURCE 200112L
#include "vicinity.h"

#include <fcntl.h>
#include <signal.h>
#include <stdbool.h>
#include <stdio.h>
#include <stdlib.h>
#include <string.h>
#include <unistd.h>

enum {
    PIECE = 1 << 16, /* bytes that an array begins with, and that are read or written at once */
    MOST_OF_LOG = 1000000 * (128 + 2) /* bytes: any more are a line too many, or too long a line */
};

/* What operands are: a log, or none for standard input; files; names of empty files; words. */
enum operands { LOG, FILES, NAMES, WORDS };

/* The commands by their numbers, and what each takes. */
static const struct {
    const char *name;
    enum operands takes;
} COMMANDS[] = {{"", WORDS}, {"check", LOG}, {"explain", LOG}, {"report", LOG}, {"margin", LOG},
                {"simulate", LOG}, {"reconcile", FILES}, {"frame", WORDS}, {"spell", WORDS},
                {"survey", FILES}, {"collection", FILES}, {"json", LOG},
                {"json-collection", FILES}};

struct array {
    uint8_t *bytes;
    size_t len, room;
};

/* A call: the texts, one behind the other, a line for the name of each, and their lengths, which
 * are size_t; what is written, which has `needed` bytes, and the status. */
struct call {
    struct array texts, names, lengths, written;
    size_t count, needed;
    int status;
};

/* Says why there is no answer. Each function that returns false has said it. */
static bool fail(const char *why, const char *file)
{
    fprintf(stderr, "vicinity: %s%s\n", why, file);
    return false;
}

static bool make_room(struct array *array, size_t more)
{
    size_t room = array->room ? array->room : PIECE;
    while (room - array->len < more)
        room *= 2;
    uint8_t *bytes = room > array->room ? realloc(array->bytes, room) : array->bytes;
    if (bytes)
        *array = (struct array){bytes, array->len, room};
    return bytes || fail("out of memory", "");
}

/* Puts bytes behind those of an array, where those of NULL are already. */
static bool append(struct array *array, const void *bytes, size_t len)
{
    bool has_room = make_room(array, len);
    if (has_room && bytes)
        memcpy(array->bytes + array->len, bytes, len);
    array->len += has_room ? len : 0;
    return has_room;
}

static bool add(struct call *call, const char *name, const char *text, size_t len)
{
    if (strchr(name, '\n'))
        return fail("usage", "");
    call->count++;
    return append(&call->texts, text, len) && append(&call->names, name, strlen(name)) &&
           append(&call->names, "\n", 1) && append(&call->lengths, &len, sizeof len);
}

/* Adds a file, or standard input. One without a name is a log. */
static bool add_file(struct call *call, const char *file, const char *name)
{
    struct array *texts = &call->texts;
    size_t len = 0, most = *name ? SIZE_MAX : MOST_OF_LOG;
    int from = file ? open(file, O_RDONLY) : STDIN_FILENO;
    ssize_t got = 1;
    bool has_room = true;
    if (from < 0)
        return fail("cannot open ", file);
    while (got > 0 && len <= most && (has_room = make_room(texts, len + PIECE))) {
        got = read(from, texts->bytes + texts->len + len, PIECE);
        len += got > 0 ? (size_t)got : 0;
    }
    if (file)
        close(from);
    return has_room && (got >= 0 || fail("read failed", "")) && add(call, name, NULL, len);
}

/* Adds each operand. */
static bool add_all(struct call *call, enum operands are, char **words, int count)
{
    bool is_added = true;
    for (int i = 0; i < count && is_added; i++)
        is_added = are == WORDS   ? add(call, "", words[i], strlen(words[i]))
                   : are == NAMES ? add(call, words[i], "", 0)
                                  : add_file(call, words[i], words[i]);
    return is_added;
}

/* Makes the call for a command, and forgets what it was given. */
static bool make(struct call *call, int command)
{
    struct array *texts = &call->texts, *names = &call->names, *written = &call->written;
    call->needed = texts->len; /* few answers are longer */
    do {
        if (!make_room(written, call->needed))
            return false;
        call->status = vicinity_run(command, names->bytes, names->len, texts->bytes, texts->len,
                                    (const void *)call->lengths.bytes, call->count, written->bytes,
                                    written->room, &call->needed);
    } while (call->needed > written->room);
    texts->len = names->len = call->lengths.len = call->count = 0;
    bool has_answer = call->status != VICINITY_STATUS_NO_ANSWER;
    return has_answer || fail(call->needed ? "usage" : "out of memory", "");
}

static bool write_out(const uint8_t *bytes, size_t len)
{
    ssize_t taken = 1;
    for (size_t done = 0; done < len && taken > 0; done += (size_t)taken)
        taken = write(STDOUT_FILENO, bytes + done, len - done < PIECE ? len - done : PIECE);
    return taken > 0 || fail("write failed", "");
}

/* Leaves only the operands of the words behind a command. Returns how many there are; -1 if they
 * are too many, or one is an option, which none of `spell` is. */
static int find_operands(int command, char **words, int count)
{
    int end = 0; /* of the words that may be options */
    for (; end < count && strcmp(words[end], "--") != 0 && command != VICINITY_COMMAND_SPELL; end++)
        if (words[end][0] == '-' && words[end][1])
            return -1;
    if (end < count && strcmp(words[end], "--") == 0)
        memmove(words + end, words + end + 1, (size_t)(--count - end) * sizeof *words);
    return COMMANDS[command].takes == LOG && count > 1 ? -1 : count;
}

/* Adds the operands of a command. The names of files are looked at before any is opened, as those
 * of empty files: `survey` takes the names that all commands over files take. */
static bool add_operands(struct call *call, int command, char **words, int count)
{
    enum operands takes = COMMANDS[command].takes;
    if (takes == LOG)
        return add_file(call, count ? words[0] : NULL, "");
    if (takes == FILES)
        return add_all(call, NAMES, words, count) && make(call, VICINITY_COMMAND_SURVEY) &&
               add_all(call, FILES, words, count);
    return add_all(call, WORDS, words, count);
}

int main(int argc, char **argv)
{
    struct call call = {0};
    int command = sizeof COMMANDS / sizeof *COMMANDS - 1;
#ifdef SIGPIPE
    signal(SIGPIPE, SIG_IGN); /* so that a write into a closed pipe fails */
#endif
    while (command && (argc < 2 || strcmp(argv[1], COMMANDS[command].name) != 0))
        command--;
    int count = command ? find_operands(command, argv + 2, argc - 2) : -1;
    /* words that aren't UTF-8 aren't accepted: not even `spell` takes them */
    bool is_answered = (count >= 0 || fail("usage", "")) && add_all(&call, WORDS, argv, argc) &&
                       make(&call, VICINITY_COMMAND_SPELL) &&
                       add_operands(&call, command, argv + 2, count) && make(&call, command) &&
                       write_out(call.written.bytes, call.needed);
    free(call.texts.bytes);
    free(call.names.bytes);
    free(call.lengths.bytes);
    free(call.written.bytes);
    return is_answered ? call.status : VICINITY_STATUS_NO_ANSWER;
}
