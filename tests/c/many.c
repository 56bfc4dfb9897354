/* Runs the commands in C many times in one process:  many FOLDER
 *
 * A line of standard input is a run: the folder in which it runs, the name of the program and the
 * words after it, each as a dash and its bytes in hex. The run's standard input is the file `in` of
 * FOLDER, and what it writes goes to `out` and `err`; its status is a line of standard output. */
#include <fcntl.h>
#include <stdio.h>
#include <stdlib.h>
#include <string.h>
#include <unistd.h>

#ifndef O_BINARY
#define O_BINARY 0
#endif
#ifdef __SANITIZE_ADDRESS__
#include <sanitizer/lsan_interface.h>
#else
#define __lsan_do_recoverable_leak_check() 0
#endif

enum { LINE = 1 << 16, WORDS = LINE / 2, LEAK = 99 };

int vicinity_main(int count, char **words);

/* The word that a dash and hex digits stand for, in their place. */
static char *word_of(char *digits)
{
    char *word = digits, pair[3] = {0};
    for (char *from = digits + 1; *from; from += 2) {
        memcpy(pair, from, 2);
        *word++ = (char)strtol(pair, NULL, 16);
    }
    *word = 0;
    return digits;
}

/* Puts a file in the place of a standard stream. */
static int replace(int stream, const char *folder, const char *name, int flags)
{
    char path[FILENAME_MAX];
    snprintf(path, sizeof path, "%s/%s", folder, name);
    int file = open(path, flags | O_BINARY);
    return file >= 0 && dup2(file, stream) >= 0 && close(file) == 0;
}

int main(int count, char **given)
{
    static char line[LINE];
    FILE *runs = fdopen(dup(0), "r"), *told = fdopen(dup(1), "w");
    while (count == 2 && fgets(line, sizeof line, runs)) {
        char *words[WORDS] = {0};
        if (!strchr(line, '\n')) /* it is longer: its end would be a run by itself */
            return 1;
        count = 0;
        for (char *word = strtok(line, " \n"); word && count < WORDS - 1;
             word = strtok(NULL, " \n"))
            words[count++] = word_of(word);
        if (chdir(words[0]) || !replace(0, given[1], "in", O_RDONLY) ||
            !replace(1, given[1], "out", O_WRONLY | O_TRUNC) ||
            !replace(2, given[1], "err", O_WRONLY | O_TRUNC))
            return 1;
        int status = vicinity_main(count - 1, words + 1);
        fprintf(told, "%d\n", __lsan_do_recoverable_leak_check() ? LEAK : status);
        fflush(told);
        count = 2;
    }
    return 0;
}
