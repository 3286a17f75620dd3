/* The words of the command line and variables, in UTF-8; the clock, and the zone of the computer.
 * So many units a command line of Windows has at most, and a rule of a zone. */
enum { LONGEST = 32768, LONGEST_RULE = 32 };
static char bytes[3 * LONGEST + 1];

/* Puts a text there, and answers its length: -2 where it is longer than the room, which is full. */
static int64_t put(const wchar_t *text, char *to, size_t room) {
    size_t length = to_utf8(text, wcslen(text), bytes);
    memcpy(to, bytes, length < room ? length : room);
    return length <= room ? (int64_t)length : -2;
}

SYSV size_t sv_rattle_arg_count(void) { return __argc; }

/* Whether a word is a path: it leads to what is there, or into a folder. */
static int is_path(const wchar_t *word) {
    wchar_t path[PATH_UNITS];
    bytes[to_utf8(word, wcslen(word), bytes)] = 0;
    if (path_of(bytes, path) == 0 && GetFileAttributesW(path) != INVALID_FILE_ATTRIBUTES) return 1;
    char *last = strrchr(bytes, '\\');
    *last = 0;
    return last > bytes && path_of(bytes, path) == 0 && is_folder(path);
}

/* A word of the line: -1 where there is none. A path is divided by `/`, since the program takes it
 * apart, and no other word is changed. */
SYSV int64_t sv_rattle_arg(size_t at, char *to, size_t room) {
    if (at >= (size_t)__argc) return -1;
    wchar_t *word = __wargv[at];
    if (wcschr(word, L'\\') && !wcsstr(word, L"/\\\\") && is_path(word)) put_slashes(word);
    return put(word, to, room);
}

/* How far the zone is from UTC now, as a rule of POSIX: its offset is positive to the west, as
 * Windows' bias is. */
static const wchar_t *zone_rule(void) {
    static wchar_t rule[LONGEST_RULE];
    TIME_ZONE_INFORMATION zone = {0};
    DWORD kind = GetTimeZoneInformation(&zone);
    long season = kind == TIME_ZONE_ID_DAYLIGHT ? zone.DaylightBias : zone.StandardBias;
    long bias = zone.Bias + (kind == TIME_ZONE_ID_UNKNOWN ? 0 : season);
    const wchar_t *sign = bias < 0 ? L"-" : L"";
    swprintf(rule, LONGEST_RULE, L"LOC%ls%ld:%02ld", sign, labs(bias) / 60, labs(bias) % 60);
    return rule;
}

/* The value of a variable: -1 where it is not set, but for `TZ`, which is the computer's zone then. */
SYSV int64_t sv_rattle_env(const char *name, char *to, size_t room) {
    wchar_t wide[PATH_UNITS];
    int units = MultiByteToWideChar(CP_UTF8, MB_ERR_INVALID_CHARS, name, -1, wide, PATH_UNITS);
    const wchar_t *value = units > 0 ? _wgetenv(wide) : NULL;
    if (!value && !strcmp(name, "TZ")) value = zone_rule();
    return value ? put(value, to, room) : -1;
}

/* An entry of the environment, of which the program asks for none. */
SYSV int64_t sv_rattle_env_at(void) { return -1; }

/* The time of day, whichever clock is asked for: the program asks for no other. Windows counts from
 * 1601, in tenths of a microsecond. */
SYSV int sv_clock_gettime(int clock, int64_t now[2]) {
    FILETIME found;
    GetSystemTimeAsFileTime(&found);
    uint64_t tenths = (uint64_t)found.dwHighDateTime << 32 | found.dwLowDateTime;
    now[0] = tenths / 10000000 - 11644473600;
    now[1] = tenths % 10000000 * 100;
    return 0;
}
