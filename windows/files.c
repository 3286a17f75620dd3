/* Files and folders that are open: read, written and looked at. */

/* Linux's flags of open and statx. */
enum { L_WRONLY = 1, L_RDWR = 2, L_EXCL = 0200, L_NOFOLLOW = 0x100, L_EMPTY_PATH = 0x1000 };
#define IN_USE "another program has this file open: "
enum { MOST_OPEN = 256, STREAMS = 3, MOST_AT_ONCE = 0x7ffff000, MOMENT = 15 };
static struct opened table[MOST_OPEN];

/* Takes over what is open under the numbers 0 to 2. */
static void hold_streams(void) {
    static const DWORD names[STREAMS] = {STD_INPUT_HANDLE, STD_OUTPUT_HANDLE, STD_ERROR_HANDLE};
    for (int number = 0; number < STREAMS; number++) {
        HANDLE handle = GetStdHandle(names[number]);
        DWORD mode, type = GetFileType(handle);
        if (type == FILE_TYPE_UNKNOWN) continue;
        enum kind kept = type == FILE_TYPE_DISK ? PLAIN : STREAM;
        table[number].kind = GetConsoleMode(handle, &mode) ? CONSOLE : kept;
        table[number].handle = handle;
    }
}

static struct opened *opened_at(int number) {
    count_call();
    if (number >= 0 && number < MOST_OPEN && table[number].kind != FREE) return &table[number];
    return fail_with(L_EBADF), NULL;
}

/* Gives what was opened the lowest number that is free. */
static int put_opened(struct opened opened) {
    int number = 0;
    while (number < MOST_OPEN && table[number].kind != FREE) number++;
    if (number == MOST_OPEN) return CloseHandle(opened.handle), fail_with(L_EMFILE);
    table[number] = opened;
    return number;
}

/* Closes a file or a folder that would be in the way. The mutex of its path stays. */
static void let_go(struct opened *file) {
    CloseHandle(file->handle);
    file->handle = INVALID_HANDLE_VALUE;
    file->kind = LET_GO;
}

SYSV int64_t sv_read(int number, void *to, size_t room) {
    ON_NUMBER(file, number);
    DWORD got;
    if (file->kind == CONSOLE) return read_console(file->handle, to, room);
    if (file->kind == FOLDER) return fail_with(L_EISDIR);
    if (room > MOST_AT_ONCE) room = MOST_AT_ONCE;
    while (ReadFile(file->handle, to, room, &got, NULL))
        /* Nothing that was written to a pipe is not its end. */
        if (got || !room || !PeekNamedPipe(file->handle, NULL, 0, NULL, NULL, NULL)) return got;
    DWORD error = GetLastError();
    return error == ERROR_BROKEN_PIPE || error == ERROR_HANDLE_EOF ? 0 : fail(error);
}

SYSV int64_t sv_write(int number, const void *from, size_t count) {
    ON_NUMBER(file, number);
    DWORD put;
    if (file->kind == CONSOLE) return write_console(file->handle, from, count);
    if (count > MOST_AT_ONCE) count = MOST_AT_ONCE;
    return WriteFile(file->handle, from, count, &put, NULL) ? (int64_t)put : fail(GetLastError());
}

SYSV int64_t sv_lseek(int number, int64_t offset, int whence) {
    ON_NUMBER(file, number);
    LARGE_INTEGER to = {.QuadPart = offset};
    BOOL is_there = file->kind == PLAIN && SetFilePointerEx(file->handle, to, &to, whence);
    return is_there ? to.QuadPart : fail_with(L_ESPIPE);
}

SYSV int sv_isatty(unsigned number) { return number < STREAMS && table[number].kind == CONSOLE; }

/* Where Windows syncs no folder, the answer is that of a disk which syncs none. */
SYSV int sv_fsync(int number) {
    ON_NUMBER(file, number);
    if (FlushFileBuffers(file->handle)) return 0;
    return file->kind == PLAIN ? fail(GetLastError()) : fail_with(L_EINVAL);
}

/* The only right of Linux's that a file has here is whether it may be written. The program asks for
 * it of its new files alone. */
SYSV int sv_fchmod(int number, unsigned mode) {
    ON_NUMBER(file, number);
    DWORD rights = FILE_ATTRIBUTE_ARCHIVE | (mode & 0222 ? 0 : FILE_ATTRIBUTE_READONLY);
    FILE_BASIC_INFO info = {.FileAttributes = rights};
    BOOL is_set = SetFileInformationByHandle(file->handle, FileBasicInfo, &info, sizeof info);
    return is_set ? 0 : fail(GetLastError());
}

/* What is refused whatever is asked: a file has no owner of Linux's, the program cuts none, and of
 * links it follows that of the system's zone alone, which Windows has not. */
SYSV int sv_fchown(void) { return fail_with(L_EPERM); }
SYSV int sv_ftruncate(void) { return fail_with(L_EINVAL); }
SYSV int64_t sv_readlink(void) { return fail_with(L_EINVAL); }

/* Answers whether a call on a path that Windows refused is to be tried again. It waits for that where
 * another program may be in the way, as one that looks for viruses in a new file: for two seconds, and
 * in all for ten. Then it says once that this program has the file, since ours knows no such fault. */
static int tries_again(const wchar_t *path, DWORD error, int *turn) {
    static char line[sizeof IN_USE + 3 * PATH_UNITS] = IN_USE;
    static uint64_t told, turns;
    int is_in_use = error == ERROR_SHARING_VIOLATION || error == ERROR_USER_MAPPED_FILE;
    int is_passing = is_in_use || error == ERROR_ACCESS_DENIED || error == ERROR_DELETE_PENDING;
    int is_told = is_passing && told == number_of(path);
    if (is_passing && !is_told && *turn < 128 && turns++ < 640) return ++*turn, Sleep(MOMENT), 1;
    if (is_in_use && !is_told) {
        const wchar_t *name = wcsrchr(path, L'\\') + 1;
        size_t length = sizeof IN_USE + to_utf8(name, wcslen(name), line + sizeof IN_USE - 1);
        line[length - 1] = '\n';
        sv_write(2, line, length);
        told = number_of(path);
    }
    return fail_on(path, error), 0;
}

/* Opens what stands under a name, or a new file. Another program is not waited for where a file is
 * opened to be written, since the program opens it to be read next, and for a right to read. */
static HANDLE open_path(const wchar_t *path, DWORD access, DWORD how, DWORD flags) {
    for (int turn = 0;;) {
        HANDLE handle = CreateFileW(path, access, EVERYBODY, NULL, how, flags, NULL);
        if (handle != INVALID_HANDLE_VALUE) return handle;
        DWORD error = GetLastError();
        int is_read = access == GENERIC_READ && error == ERROR_ACCESS_DENIED;
        if (how == OPEN_EXISTING && (access & GENERIC_WRITE || is_read))
            return fail_on(path, error), handle;
        if (!tries_again(path, error, &turn)) return handle;
    }
}

/* Opens a folder, which nobody may rename or remove while it is open; where that is allowed, so that
 * it can be synced. */
static int open_folder(const wchar_t *path) {
    const DWORD share = FILE_SHARE_READ | FILE_SHARE_WRITE, list = FILE_LIST_DIRECTORY;
    const DWORD ways[][2] = {{list | FILE_ADD_FILE, share}, {list, share}, {list, EVERYBODY}};
    HANDLE handle = INVALID_HANDLE_VALUE;
    for (int at = 0; at < 3 && handle == INVALID_HANDLE_VALUE; at++)
        handle = CreateFileW(path, ways[at][0], ways[at][1], NULL, OPEN_EXISTING, FOLLOWED, NULL);
    if (handle == INVALID_HANDLE_VALUE) return fail_on(path, GetLastError());
    return put_opened((struct opened){.kind = FOLDER, .handle = handle});
}

/* Opens a folder, a file that is there, or a new one, which may be renamed by who has it open: so
 * nobody opens it meanwhile who lets nobody rename it. */
SYSV int sv_open(const char *name, int flags) {
    ON_NAME(path, name, -1);
    int is_made = (flags & L_EXCL) != 0, is_written = (flags & (L_WRONLY | L_RDWR)) != 0;
    if (!is_made && is_folder(path)) return is_written ? fail_with(L_EISDIR) : open_folder(path);
    DWORD access = GENERIC_READ | (is_written ? GENERIC_WRITE : 0) | (is_made ? DELETE : 0);
    HANDLE handle = open_path(path, access, is_made ? CREATE_NEW : OPEN_EXISTING, 0);
    if (handle == INVALID_HANDLE_VALUE) return -1;
    if (GetFileType(handle) != FILE_TYPE_DISK) return CloseHandle(handle), fail_with(L_EACCES);
    struct opened opened = {PLAIN, handle, NULL, 0, is_made ? NULL : _wcsdup(path), access};
    return put_opened(opened);
}

static int is_one(const struct statx *one, const struct statx *other) {
    return one->file != 0 && one->disk == other->disk && one->file == other->file;
}

/* Looks at what is open. A file of a disk that numbers none, as some of a network, is known by its
 * path: else all of them would be one. What a cloud or a compressing disk keeps elsewhere is no link,
 * as a junction is. */
static int look(HANDLE handle, struct statx *found) {
    BY_HANDLE_FILE_INFORMATION info;
    FILE_ATTRIBUTE_TAG_INFO tag = {0};
    uint64_t id[3] = {0}; /* as FILE_ID_INFO: a disk's number, and the two halves of a file's */
    wchar_t path[PATH_UNITS];
    if (!GetFileInformationByHandle(handle, &info)) return fail(GetLastError());
    GetFileInformationByHandleEx(handle, FileAttributeTagInfo, &tag, sizeof tag);
    GetFileInformationByHandleEx(handle, FileIdInfo, id, sizeof id);
    unsigned rights = info.dwFileAttributes & FILE_ATTRIBUTE_READONLY ? 0444 : 0666;
    *found = (struct statx){.mask = 0x7ff, .names = info.nNumberOfLinks, .mode = L_IFREG | rights};
    if (info.dwFileAttributes & FILE_ATTRIBUTE_DIRECTORY) found->mode = L_IFDIR | 0777;
    else found->size = (uint64_t)info.nFileSizeHigh << 32 | info.nFileSizeLow;
    if (tag.FileAttributes & FILE_ATTRIBUTE_REPARSE_POINT && IsReparseTagNameSurrogate(tag.ReparseTag))
        found->mode = L_IFLNK | 0777;
    int has_id = (id[1] | id[2]) != 0 && (id[1] & id[2]) != UINT64_MAX;
    found->disk = has_id ? id[0] : info.dwVolumeSerialNumber;
    found->file = has_id ? id[1] ^ id[2] * 0x9e3779b97f4a7c15u
                         : (uint64_t)info.nFileIndexHigh << 32 | info.nFileIndexLow;
    if (found->file != 0 && found->file != UINT64_MAX) return 0;
    DWORD length = GetFinalPathNameByHandleW(handle, path, PATH_UNITS, VOLUME_NAME_NONE);
    found->file = length > 0 && length < PATH_UNITS ? number_of(path) : 0;
    return 0;
}

/* Lets go of a file whose place another one takes, or of a folder that is removed. */
static void let_go_of(const struct statx *which) {
    for (struct opened *file = table + STREAMS; file < table + MOST_OPEN; file++) {
        struct statx found;
        if (file->kind != PLAIN && file->kind != FOLDER) continue;
        if (look(file->handle, &found) == 0 && is_one(&found, which)) let_go(file);
    }
}

/* Looks at what stands under a name. Nobody who has a file open keeps anybody from that, but one that
 * is being removed is there for a moment. */
static int look_at(const wchar_t *path, DWORD flags, struct statx *found) {
    HANDLE handle = open_path(path, FILE_READ_ATTRIBUTES, OPEN_EXISTING, flags);
    if (handle == INVALID_HANDLE_VALUE) return -1;
    int answer = look(handle, found);
    return CloseHandle(handle), answer;
}

SYSV int sv_statx(int folder, const char *name, int flags, unsigned mask, struct statx *found) {
    wchar_t path[PATH_UNITS];
    if (flags & L_EMPTY_PATH && !*name) {
        ON_NUMBER(file, folder);
        *found = (struct statx){.mode = (file->kind == CONSOLE ? L_IFCHR : L_IFIFO) | 0600};
        return file->kind == PLAIN || file->kind == FOLDER ? look(file->handle, found) : 0;
    }
    *found = (struct statx){.mode = L_IFCHR | 0666, .names = 1};
    int known = path_of(name, path);
    if (known < 0) return known == IS_DEVICE ? 0 : -1;
    return look_at(path, flags & L_NOFOLLOW ? AS_IT_IS : FOLLOWED, found);
}
