/* Everything that the library answers to texts:  answers <TEXTS
 *
 * A text is given as its length in decimal on a line, and its bytes. For each, the answer of each
 * call is written with every field; the population in buffers of none, one and as many elements as
 * it needs; the findings; the margin of the log; and then what the program writes for each command.
 */
#include "vicinity.h"

#include <inttypes.h>
#include <stdio.h>
#include <stdlib.h>
#include <string.h>

static void show(const struct vicinity_answer *answer, uint32_t status)
{
    char text[65] = {0};
    memcpy(text, answer->text, 64);
    printf("%" PRIu32 " %" PRIu32 " %" PRIu32 " %" PRIu32 " %" PRIu32 " %" PRIu32 " %" PRIu32
           " %" PRIX64 " %" PRIX64 " %s",
           status, answer->kind, answer->status, answer->count, answer->line, answer->fault,
           answer->mask_len, answer->mask_value, answer->uid, text);
}

static void explain(const uint8_t *text, size_t len, size_t room)
{
    struct vicinity_answer answer;
    size_t needed = 9;
    uint64_t *population = malloc((room + 1) * sizeof *population);
    if (!population)
        abort();
    for (size_t i = 0; i <= room; i++)
        population[i] = 7;
    memset(&answer, 9, sizeof answer);
    show(&answer, vicinity_explain(text, len, &answer, population, room, &needed));
    printf("%zu of %zu:", room, needed);
    for (size_t i = 0; i <= room; i++)
        printf(" %" PRIX64, population[i]);
    printf("\n");
    free(population);
    if (room < needed && room < 2)
        explain(text, len, room == 0 && needed > 1 ? 1 : needed);
}

static void *elements(size_t count, size_t size)
{
    void *room = calloc(count + 1, size);
    if (!room)
        abort();
    return room;
}

static void report(const uint8_t *text, size_t len)
{
    struct vicinity_answer answer;
    struct vicinity_finding nothing;
    size_t needed;
    vicinity_report(text, len, &answer, &nothing, 0, &needed);
    struct vicinity_finding *findings = elements(needed, sizeof *findings);
    show(&answer, vicinity_report(text, len, &answer, findings, needed, &needed));
    for (size_t i = 0; i < needed; i++)
        printf("%" PRIu32 " %" PRIu32 " %" PRIu32 " %" PRIX64 " %" PRIX64 "\n", findings[i].kind,
               findings[i].line, findings[i].mask_len, findings[i].mask_value, findings[i].uid);
    free(findings);
}

static void measure(const uint8_t *text, size_t len)
{
    struct vicinity_answer answer;
    struct vicinity_weakest weakest;
    show(&answer, vicinity_margin(text, len, &answer, &weakest));
    printf("%" PRIu32 " %" PRIu32 " %" PRIX64 "\n", weakest.margin, weakest.mask_len,
           weakest.mask_value);
    printf("%" PRIu32 " %" PRIu32 " %" PRIX64 " %" PRIu32 " %" PRIu32 " %" PRIX64 "\n",
           weakest.has_hidden, weakest.hidden_len, weakest.hidden_value, weakest.has_deaf,
           weakest.deaf_len, weakest.deaf_value);
}

/* What the program writes for each command of one log, behind its status and its length. */
static void run(const uint8_t *text, size_t len)
{
    static const enum vicinity_command commands[] = {
        VICINITY_COMMAND_CHECK,  VICINITY_COMMAND_EXPLAIN, VICINITY_COMMAND_REPORT,
        VICINITY_COMMAND_MARGIN, VICINITY_COMMAND_SURVEY,  VICINITY_COMMAND_JSON};
    static const uint8_t name[] = "log\n";
    for (size_t i = 0; i < sizeof commands / sizeof *commands; i++) {
        uint8_t nothing;
        size_t needed;
        vicinity_run(commands[i], name, sizeof name - 1, text, len, &len, 1, &nothing, 0, &needed);
        uint8_t *written = elements(needed, 1);
        enum vicinity_status status = vicinity_run(commands[i], name, sizeof name - 1, text, len,
                                                   &len, 1, written, needed, &needed);
        printf("%d %zu\n", (int)status, needed);
        fwrite(written, 1, needed, stdout);
        free(written);
    }
}

int main(void)
{
    size_t len;
    while (scanf("%zu", &len) == 1 && getchar() == '\n') {
        uint8_t *text = malloc(len + 1);
        if (!text || fread(text, 1, len, stdin) != len)
            return 1;
        struct vicinity_answer answer;
        memset(&answer, 9, sizeof answer);
        show(&answer, vicinity_check(text, len, &answer));
        explain(text, len, 0);
        report(text, len);
        measure(text, len);
        run(text, len);
        free(text);
    }
    return ferror(stdin) || fflush(stdout) ? 1 : 0;
}
