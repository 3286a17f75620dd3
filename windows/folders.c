/* Names: those in a folder, and what changes them. */

/* What Windows 10 has since 2017: a file takes the place of one that is open, as on Linux. */
enum { REPLACES = 1, LIKE_LINUX = 2, EVEN_KEPT = 0x40, BY_FLAGS = 22 };
enum { LISTED = 65536, NAME_AT = 19, LINUX_PATH = 4096 };

/* Opens a folder to read the names in it. The program asks for no folder within an open one. */
SYSV int sv_rattle_open_dir_at(int folder, const char *name) {
    ON_NAME(path, name, -1);
    return is_folder(path) ? open_folder(path) : fail_on(path, ERROR_DIRECTORY);
}

/* The next names in a folder, as Linux's entries. These take half as much again as those of Windows
 * at most, so half of the room is asked for. */
SYSV int64_t sv_getdents64(int number, char *to, size_t room) {
    ON_NUMBER(file, number);
    static _Alignas(8) char entries[LISTED];
    DWORD most = room / 2 < LISTED ? room / 2 : LISTED;
    if (file->kind != FOLDER) return fail_with(L_ENOTDIR);
    if (!GetFileInformationByHandleEx(file->handle, FileFullDirectoryInfo, entries, most)) {
        DWORD error = GetLastError();
        return error == ERROR_NO_MORE_FILES || error == ERROR_FILE_NOT_FOUND ? 0 : fail(error);
    }
    size_t gone = 0;
    const FILE_FULL_DIR_INFO *entry = (const void *)entries;
    for (;; entry = (const void *)((const char *)entry + entry->NextEntryOffset)) {
        char *name = to + gone + NAME_AT;
        size_t length = to_utf8(entry->FileName, entry->FileNameLength / sizeof(wchar_t), name);
        uint16_t whole = (NAME_AT + length + 1 + 7) & ~7;
        memset(name - NAME_AT, 0, NAME_AT);
        memset(name + length, 0, whole - NAME_AT - length);
        memcpy(name - 3, &whole, sizeof whole);
        gone += whole;
        if (entry->NextEntryOffset == 0) return gone;
    }
}

SYSV int sv_mkdir(const char *name) {
    ON_NAME(path, name, -1);
    return CreateDirectoryW(path, NULL) ? 0 : fail_on(path, GetLastError());
}

SYSV int sv_link(const char *from, const char *to) {
    ON_NAME(old, from, -1);
    ON_NAME(new, to, -1);
    return CreateHardLinkW(new, old, NULL) ? 0 : fail_on(new, GetLastError());
}

/* Where a name leads, without links: `/C:/ana`, or `/\\server/share/ana`, so that it begins as a whole
 * path of Linux does, and ends so: a drive's topmost folder is `/C:`. */
SYSV char *sv_realpath(const char *name, char *found) {
    ON_NAME(path, name, NULL);
    wchar_t whole[PATH_UNITS];
    HANDLE handle = open_path(path, FILE_READ_ATTRIBUTES, OPEN_EXISTING, FOLLOWED);
    if (handle == INVALID_HANDLE_VALUE) return NULL;
    DWORD length = GetFinalPathNameByHandleW(handle, whole, PATH_UNITS, 0);
    CloseHandle(handle);
    /* Some disks do not say it, and wine says none of more than 260 characters: then it is the path
     * as it is given. Both begin with `\\?\C:` or `\\?\UNC\`. */
    wchar_t *from = length > 0 && length < PATH_UNITS ? whole : path;
    int is_share = !_wcsnicmp(from, L"\\\\?\\UNC\\", 8);
    from += is_share ? 5 : 3;
    put_slashes(from + 3);
    wmemcpy(from, L"/\\\\", is_share ? 3 : 1);
    length = wcslen(from);
    if (from[length - 1] == L'/') length--;
    if (length >= LINUX_PATH / 3) return fail_with(L_ENAMETOOLONG), NULL;
    found[to_utf8(from, length, found)] = 0;
    return found;
}

/* Takes from a file that it may not be written: on Linux it may be replaced and removed still. */
static void unkeep(const wchar_t *path) {
    DWORD found = GetFileAttributesW(path);
    if (found == INVALID_FILE_ATTRIBUTES || !(found & FILE_ATTRIBUTE_READONLY)) return;
    SetFileAttributesW(path, found & ~FILE_ATTRIBUTE_READONLY);
}

/* Whether the rights of a file keep one from replacing it. */
static int is_kept_from(const wchar_t *path) {
    HANDLE handle = CreateFileW(path, DELETE, EVERYBODY, NULL, OPEN_EXISTING, AS_IT_IS, NULL);
    if (handle == INVALID_HANDLE_VALUE) return GetLastError() == ERROR_ACCESS_DENIED;
    return CloseHandle(handle), 0;
}

/* Gives a file another name as Linux does, written through, where the disk has that. */
static BOOL rename_like_linux(const wchar_t *from, const wchar_t *to) {
    static struct { DWORD flags; HANDLE folder; DWORD bytes; wchar_t name[PATH_UNITS]; } wanted;
    const DWORD how = AS_IT_IS | FILE_FLAG_WRITE_THROUGH;
    HANDLE handle = CreateFileW(from, DELETE, EVERYBODY, NULL, OPEN_EXISTING, how, NULL);
    wanted.flags = REPLACES | LIKE_LINUX | EVEN_KEPT; /* as FILE_RENAME_INFO */
    wanted.bytes = wcslen(put_path(wanted.name, L"", to)) * sizeof *to;
    BOOL is_renamed = SetFileInformationByHandle(handle, (int)BY_FLAGS, &wanted, sizeof wanted);
    return CloseHandle(handle), is_renamed;
}

/* Where Windows does not replace a file as Linux does, the program lets go of it, which it may have
 * open and locked: the mutex of its path is still its own. */
SYSV int sv_rename(const char *from, const char *to) {
    ON_NAME(old, from, -1);
    ON_NAME(new, to, -1);
    struct statx which, other = {0};
    if (look_at(old, AS_IT_IS, &which) < 0) return -1;
    /* Two names of one file stay, as on Linux. */
    if (look_at(new, AS_IT_IS, &other) == 0 && is_one(&which, &other)) return 0;
    if (is_folder(new)) return fail_with(L_EISDIR);
    for (int turn = 0; !rename_like_linux(old, new);) {
        let_go_of(&other);
        unkeep(new);
        if (MoveFileExW(old, new, MOVEFILE_REPLACE_EXISTING | MOVEFILE_WRITE_THROUGH)) return 0;
        DWORD error = GetLastError();
        /* So Windows says also that somebody has the file that is to be replaced. */
        if (error == ERROR_ACCESS_DENIED && other.names != 0 && !is_kept_from(new))
            error = ERROR_SHARING_VIOLATION;
        if (!tries_again(new, error, &turn)) return -1;
    }
    return 0;
}

/* Removes what stands under a name: a file, or a link, one to a folder as a folder is removed; or a
 * folder, which the program may have open. */
static int take_away(const char *name, int is_folder_wanted) {
    ON_NAME(path, name, -1);
    struct statx found;
    if (look_at(path, AS_IT_IS, &found) < 0) return -1;
    if (is_folder_wanted) let_go_of(&found);
    else if (found.mode & L_IFDIR) return fail_with(L_EISDIR);
    int is_by_folder = is_folder_wanted || is_folder(path);
    for (int turn = 0; !(is_by_folder ? RemoveDirectoryW(path) : DeleteFileW(path));) {
        DWORD error = GetLastError();
        if (error == ERROR_ACCESS_DENIED) unkeep(path);
        if (!tries_again(path, error, &turn)) return -1;
    }
    return 0;
}

SYSV int sv_unlink(const char *name) { return take_away(name, 0); }
SYSV int sv_rmdir(const char *name) { return take_away(name, 1); }
