/* What the commands in C lack on Windows: their words and the names of files in UTF-8, the files
 * that a word with * stands for, which the shell of Windows leaves to the program, and bytes as
 * they are.
 *
 * The commands are compiled with main and open named as here (targets/windows/link). */
#include <fcntl.h>
#include <io.h>
#include <stdbool.h>
#include <stdio.h>
#include <stdlib.h>
#include <windows.h>

enum {
    NO_ANSWER = 4,
    PATH_ROOM = 1 << 16
}; /* a word has at most half as many letters, and a name 259 */

/* Windows takes *.log for a.log_old too, by a short name that it has: what words stand for is
 * looked up here. */
int _dowildcard = 0;

/* The words, one after the other. */
static char **words;
static int count;

/* A word that isn't UTF-8, which the commands refuse. */
static char no_text[] = "\xFF";

int vicinity_main(int count, char **words);
int open_utf8(const char *name, int flags, ...);

/* The text of a name for Windows, or NULL. */
static wchar_t *widened(const char *name)
{
    int length = MultiByteToWideChar(CP_UTF8, MB_ERR_INVALID_CHARS, name, -1, NULL, 0);
    wchar_t *wide = length ? malloc((size_t)length * sizeof *wide) : NULL;
    if (wide)
        MultiByteToWideChar(CP_UTF8, MB_ERR_INVALID_CHARS, name, -1, wide, length);
    return wide;
}

/* A word in UTF-8; NULL if memory is refused. */
static char *narrowed(const wchar_t *wide)
{
    int length = WideCharToMultiByte(CP_UTF8, WC_ERR_INVALID_CHARS, wide, -1, NULL, 0, NULL, NULL);
    char *word = length ? malloc((size_t)length) : no_text;
    if (word && length)
        WideCharToMultiByte(CP_UTF8, WC_ERR_INVALID_CHARS, wide, -1, word, length, NULL, NULL);
    return word;
}

/* Opens a file as bytes. A folder, which Windows doesn't open, is opened as a device that can't be
 * read, as on Linux. */
int open_utf8(const char *name, int flags, ...)
{
    wchar_t *wide = widened(name);
    int file = -1;
    if (wide) {
        DWORD is = GetFileAttributesW(wide);
        if (is != INVALID_FILE_ATTRIBUTES && is & FILE_ATTRIBUTE_DIRECTORY)
            file = _wopen(L"NUL", _O_WRONLY);
        else
            file = _wopen(wide, flags | _O_BINARY);
    }
    free(wide);
    return file;
}

/* Adds a word. False if memory is refused. */
static bool add(const wchar_t *wide)
{
    char *word = narrowed(wide), **more = realloc(words, ((size_t)count + 1) * sizeof *words);
    if (!word || !more)
        return false;
    words = more;
    words[count++] = word;
    return true;
}

/* Whether a word stands for a name. As ever on Windows, ? may stand for nothing before a dot and at
 * the end, and a dot for nothing at the end. */
static bool stands_for(const wchar_t *word, const wchar_t *name)
{
    bool is_end = *name == L'\0', is_any = *word == L'*', is_one = *word == L'?';
    bool may_lack = is_any || (is_one && *name == L'.') || (is_end && (is_one || *word == L'.'));
    if (*word == L'\0')
        return is_end;
    if (may_lack && stands_for(word + 1, name))
        return true;
    if (is_end || !(is_any || is_one || CompareStringOrdinal(word, 1, name, 1, TRUE) == CSTR_EQUAL))
        return false;
    return stands_for(is_any ? word : word + 1, name + 1);
}

/* Where the last name of a path begins. */
static wchar_t *last_name(wchar_t *path)
{
    wchar_t *name = path + wcslen(path);
    while (name > path && !wcschr(L"/\\:", name[-1]))
        name--;
    return name;
}

/* Adds the files that a word with * or ? stands for. If there are none, or the folder can't be read
 * to its end, the word is added, which names no file. False if memory is refused. */
static bool add_files(const wchar_t *word)
{
    static wchar_t path[PATH_ROOM];
    WIN32_FIND_DATAW found;
    wchar_t *name = last_name(wcscpy(path, word));
    size_t folder = (size_t)(name - path);
    int before = count;
    bool has_memory = true;
    HANDLE search = FindFirstFileW(word, &found);
    for (bool is_found = search != INVALID_HANDLE_VALUE; has_memory && is_found;
         is_found = FindNextFileW(search, &found)) {
        wcscpy(name, found.cFileName);
        if (name[wcsspn(name, L".")] && stands_for(word + folder, name)) /* not . and .. */
            has_memory = add(path);
    }
    bool is_whole = GetLastError() == ERROR_NO_MORE_FILES && count > before;
    FindClose(search);
    return has_memory && (is_whole || add(word));
}

int wmain(int given, wchar_t **wide)
{
    for (int i = 0; i < given; i++) {
        if (!(i > 0 && wcspbrk(wide[i], L"*?") ? add_files : add)(wide[i])) {
            fputs("vicinity: out of memory\n", stderr);
            return NO_ANSWER;
        }
    }
    UINT before = GetConsoleOutputCP();
    SetConsoleOutputCP(CP_UTF8);
    for (int stream = 0; stream <= 2; stream++)
        _setmode(stream, _O_BINARY);
    int status = vicinity_main(count, words);
    SetConsoleOutputCP(before);
    return status;
}
