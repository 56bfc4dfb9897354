/* Lets a program on Windows read and write bytes as they are on its standard streams. */
#include <fcntl.h>
#include <io.h>

__attribute__((constructor)) static void as_bytes(void)
{
    for (int stream = 0; stream <= 2; stream++)
        _setmode(stream, _O_BINARY);
}
