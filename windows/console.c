/* A console: UTF-8 in and out, whatever its code page is. */
enum { UNITS = 4096, CONTROL_D = 4, CONTROL_Z = 26 };

/* What was typed and is not read yet, and half a pair, the rest of which is not typed yet. */
static char typed[3 * UNITS];
static size_t typed_from, typed_end;
static wchar_t kept;

/* Waits for a line, or for Control-D or Control-Z, which end the input: the units of it. */
static int64_t read_line(HANDLE console, wchar_t *units, size_t room) {
    CONSOLE_READCONSOLE_CONTROL control = {sizeof control, 0, 1u << CONTROL_D | 1u << CONTROL_Z, 0};
    for (DWORD got = 0;; Sleep(1000)) {
        SetLastError(NO_ERROR);
        BOOL is_read = ReadConsoleW(console, units, room, &got, &control);
        DWORD error = GetLastError();
        /* At Control-C another thread ends the program, and half a text is no text. */
        if (got == 0 && error == ERROR_OPERATION_ABORTED) continue;
        return is_read ? (int64_t)got : fail(error);
    }
}

/* What was typed, as UTF-8, with LF for CR LF, up to a key that ends the input. */
static int64_t read_console(HANDLE console, char *to, size_t room) {
    static wchar_t units[UNITS];
    while (typed_from == typed_end && room > 0) {
        size_t before = kept ? 1 : 0, end = 0;
        units[0] = kept;
        int64_t got = read_line(console, units + before, UNITS - before);
        if (got < 0) return -1;
        for (const wchar_t *unit = units; unit < units + before + got; unit++) {
            if (*unit == CONTROL_D || *unit == CONTROL_Z) break;
            if (*unit != L'\r') units[end++] = *unit;
        }
        kept = end > 0 && IS_HIGH_SURROGATE(units[end - 1]) ? units[--end] : 0;
        typed_from = 0;
        typed_end = to_utf8(units, end, typed);
        if (typed_end == 0 && (got == 0 || !kept)) return 0;
    }
    size_t count = typed_end - typed_from < room ? typed_end - typed_from : room;
    memcpy(to, typed + typed_from, count);
    typed_from += count;
    return count;
}

/* Windows has known the sequences that the program writes since 2016, where it is told so. */
static int64_t write_console(HANDLE console, const char *from, size_t count) {
    static wchar_t units[UNITS];
    DWORD mode = 0, put;
    if (count > UNITS)
        for (count = UNITS; count > 1 && (from[count] & 0xc0) == 0x80;) count--;
    GetConsoleMode(console, &mode);
    SetConsoleMode(console, mode | ENABLE_PROCESSED_OUTPUT | ENABLE_VIRTUAL_TERMINAL_PROCESSING);
    int length = MultiByteToWideChar(CP_UTF8, 0, from, count, units, UNITS);
    BOOL is_written = WriteConsoleW(console, units, length, &put, NULL);
    DWORD error = GetLastError();
    SetConsoleMode(console, mode);
    return is_written ? (int64_t)count : fail(error);
}
