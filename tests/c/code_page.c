/* Ends with 0 if a run of vicinity.exe leaves the console the code page that it had. */
#include <stdlib.h>
#include <windows.h>

int main(void)
{
    UINT before = GetConsoleOutputCP();
    int status = system("vicinity.exe frame 260100F60A");
    return before == 0 || status != 0 || GetConsoleOutputCP() != before;
}
