/* Names in UTF-8 and in UTF-16, and Windows' errors by Linux's numbers. */
static int last_error;
/* path_of answers -1 where there can be no file of a name, or this. */
enum { IS_DEVICE = -2 };

SYSV int sv_rattle_errno(void) { return last_error; }
SYSV void sv_rattle_set_errno(int number) { last_error = number; }
static int fail_with(int number) { return last_error = number, -1; }

/* Puts a path behind a front, as far as there is room. */
static wchar_t *put_path(wchar_t *to, const wchar_t *front, const wchar_t *path) {
    _snwprintf(to, PATH_UNITS - 1, L"%ls%ls", front, path);
    return to[PATH_UNITS - 1] = 0, to;
}

/* Answers a call that Windows refused, by the numbers of errors that the program tells apart. That a
 * network is gone is another one, since what is on it may still be there. */
static int fail(DWORD error) {
    switch (error) {
    case ERROR_FILE_NOT_FOUND: case ERROR_PATH_NOT_FOUND: case ERROR_INVALID_NAME:
    case ERROR_BAD_PATHNAME: return fail_with(L_ENOENT);
    case ERROR_FILE_EXISTS: case ERROR_ALREADY_EXISTS: return fail_with(L_EEXIST);
    case ERROR_ACCESS_DENIED: return fail_with(L_EACCES);
    case ERROR_NOT_ENOUGH_MEMORY: case ERROR_OUTOFMEMORY:
    case ERROR_COMMITMENT_LIMIT: return fail_with(L_ENOMEM);
    case ERROR_BROKEN_PIPE: case ERROR_NO_DATA:
    case ERROR_PIPE_NOT_CONNECTED: return fail_with(L_EPIPE);
    case ERROR_INVALID_FUNCTION: case ERROR_NOT_SUPPORTED:
    case ERROR_CALL_NOT_IMPLEMENTED: return fail_with(L_EOPNOTSUPP);
    default: return fail_with(L_EIO);
    }
}

static int is_folder(const wchar_t *path) {
    DWORD found = GetFileAttributesW(path);
    return found != INVALID_FILE_ATTRIBUTES && found & FILE_ATTRIBUTE_DIRECTORY;
}

/* The same of a call on a path: a file in the place of a folder is told apart from nothing. */
static int fail_on(const wchar_t *path, DWORD error) {
    wchar_t above[PATH_UNITS], *end = put_path(above, L"", path);
    if (error != ERROR_PATH_NOT_FOUND && error != ERROR_INVALID_NAME && error != ERROR_DIRECTORY)
        return fail(error);
    while (GetFileAttributesW(above) == INVALID_FILE_ATTRIBUTES && (end = wcsrchr(above, L'\\')))
        *end = 0;
    return fail_with(end && !is_folder(above) ? L_ENOTDIR : L_ENOENT);
}

/* Divides a path by Linux's slashes. */
static void put_slashes(wchar_t *path) {
    while ((path = wcschr(path, L'\\')) != NULL) *path = L'/';
}

/* Writes UTF-16 as UTF-8, three bytes for each unit at most, and answers how many. Where half a pair
 * stands alone, that is one byte which is no UTF-8, so that the program says so. */
static size_t to_utf8(const wchar_t *from, size_t count, char *to) {
    const DWORD exact = WC_ERR_INVALID_CHARS;
    int length = WideCharToMultiByte(CP_UTF8, exact, from, count, to, 3 * count, NULL, NULL);
    if (length == 0 && count > 0) to[length++] = '\xff';
    return length;
}

/* Whether the part of a path that begins here is kept for a device, with whatever ending. */
static int names_device(const wchar_t *part) {
    static const wchar_t *const words[] = {L"CON", L"PRN", L"AUX", L"NUL", L"CONIN$", L"CONOUT$"};
    size_t end = wcscspn(part, L".\\/");
    while (end > 0 && part[end - 1] == L' ') end--;
    for (size_t at = 0; at < sizeof words / sizeof *words; at++)
        if (wcslen(words[at]) == end && !_wcsnicmp(part, words[at], end)) return 1;
    int is_port = !_wcsnicmp(part, L"COM", 3) || !_wcsnicmp(part, L"LPT", 3);
    return end == 4 && is_port && wcschr(L"123456789\xb9\xb2\xb3", part[3]);
}

/* Whether a part of a path is no name: a blank or a full stop at its end Windows takes away, and so
 * leads to the file of another name; a colon leads to a second text in a file, which no list shows. */
static int is_no_name(const wchar_t *part, size_t length) {
    if (length <= 2 && !wcsncmp(part, L"..", length)) return 0;
    return wcschr(L". ", part[length - 1]) || wmemchr(part, L':', length);
}

/* Writes the path of a name as Windows takes one of any length, and answers 0; -1 where there can be
 * no file of this name. What stands before the last drive, or before `\\server` after a slash, counts
 * for nothing: so a path from a folder leads to another drive, and `/C:/ana` to this one. A drive
 * alone is its topmost folder. */
static int path_of(const char *name, wchar_t *path) {
    count_call();
    wchar_t given[PATH_UNITS], full[PATH_UNITS], *begin = given;
    int units = MultiByteToWideChar(CP_UTF8, MB_ERR_INVALID_CHARS, name, -1, given, PATH_UNITS - 8);
    /* What Linux says under the second of these of the program itself, Windows has nowhere. */
    if (!*name || !strncmp(name, "/proc/self/", 11) || !units) return fail_with(L_ENOENT);
    for (wchar_t *part = given; *part; part += *part != 0) {
        size_t length = wcscspn(part, L"\\/");
        int has_drive = *part < 0x80 && iswalpha(*part) && part[1] == L':';
        if (part > given && part[-1] == L'/' && !wcsncmp(part, L"\\\\", 2)) begin = part;
        if (has_drive && (length == 2 || part == given)) {
            begin = part;
            part += 2;
            length -= 2;
        }
        if (names_device(part)) return fail_with(L_EACCES), IS_DEVICE;
        if (is_no_name(part, length)) return fail_with(L_ENOENT);
        part += length;
    }
    if (begin[1] == L':' && !begin[2]) wmemcpy(begin + 2, L"\\", 2);
    DWORD length = GetFullPathNameW(begin, PATH_UNITS - 8, full, NULL);
    if (length == 0) return fail(GetLastError());
    if (length >= PATH_UNITS - 8) return fail_with(L_ENAMETOOLONG);
    if (!wcsncmp(full, L"\\\\.\\", 4)) return fail_with(L_EACCES), IS_DEVICE;
    int is_whole = !wcsncmp(full, L"\\\\?\\", 4), is_share = !is_whole && full[1] == L'\\';
    const wchar_t *front = is_whole ? L"" : is_share ? L"\\\\?\\UNC" : L"\\\\?\\";
    return put_path(path, front, is_share ? full + 1 : full), 0;
}

/* A number of a path, in whatever case. */
static uint64_t number_of(const wchar_t *path) {
    wchar_t small[PATH_UNITS];
    uint64_t number = 0xcbf29ce484222325u;
    int length = LCMapStringW(LOCALE_INVARIANT, LCMAP_LOWERCASE, path, -1, small, PATH_UNITS);
    for (int at = 0; at < length; at++) number = (number ^ small[at]) * 0x100000001b3u;
    return number;
}
