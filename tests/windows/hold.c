/* Keeps a file open, so that others may do what the second word says, until its input ends: r to read it, w to write it. */
#include <stdio.h>
#include <wchar.h>
#include <windows.h>

int wmain(int count, wchar_t **words) {
    const wchar_t *may = count > 2 ? words[2] : L"";
    DWORD share = (wcschr(may, L'r') ? FILE_SHARE_READ : 0) | (wcschr(may, L'w') ? FILE_SHARE_WRITE : 0);
    HANDLE file = CreateFileW(words[1], GENERIC_READ, share, NULL, OPEN_EXISTING, 0, NULL);
    puts(file == INVALID_HANDLE_VALUE ? "refused" : "held");
    fflush(stdout);
    return getchar() != EOF || file == INVALID_HANDLE_VALUE;
}
