/* Locks. A file is locked by a byte far behind its end, so that whoever reads it is not kept out, and
 * by a mutex of its path, since the byte is free for a moment where the file is replaced; a folder by
 * a mutex of its number. Mutexes are known on this computer alone. */
enum { L_UNLOCK = 8, L_AT_ONCE = 4 };

static const OVERLAPPED locked = {.OffsetHigh = 1u << 8};

/* Takes a mutex, which every user of the computer may take; -1 where another command has it. Where
 * there can be none, what has none goes on. */
static int take(struct opened *file, const wchar_t *kind, uint64_t one, uint64_t other, DWORD wait) {
    wchar_t name[80];
    SECURITY_DESCRIPTOR rights;
    SECURITY_ATTRIBUTES everybody = {sizeof everybody, &rights, FALSE};
    InitializeSecurityDescriptor(&rights, SECURITY_DESCRIPTOR_REVISION);
    SetSecurityDescriptorDacl(&rights, TRUE, NULL, FALSE);
    swprintf(name, 80, L"Global\\usfm_team %ls %016llx %016llx", kind, one, other);
    HANDLE mutex = CreateMutexW(&everybody, FALSE, name);
    if (mutex && WaitForSingleObject(mutex, wait) == WAIT_TIMEOUT)
        return CloseHandle(mutex), fail_with(L_EAGAIN);
    file->mutex = mutex;
    return 0;
}

static void unlock(struct opened *file) {
    OVERLAPPED at = locked;
    if (file->is_locked && file->kind == PLAIN) UnlockFileEx(file->handle, 0, 1, 0, &at);
    if (file->mutex) ReleaseMutex(file->mutex), CloseHandle(file->mutex);
    file->mutex = NULL;
    file->is_locked = 0;
}

SYSV int sv_close(int number) {
    ON_NUMBER(file, number);
    unlock(file);
    if (file->kind != LET_GO) CloseHandle(file->handle);
    free(file->path);
    *file = (struct opened){.kind = FREE};
    return 0;
}

/* Where the lock of a file that was there before is waited for, the file is closed meanwhile, since
 * one that is open cannot be replaced everywhere, and opened again: the program looks whether it is
 * still the one under its name. */
static int lock_plain(struct opened *file, DWORD wait) {
    const DWORD how = LOCKFILE_EXCLUSIVE_LOCK | LOCKFILE_FAIL_IMMEDIATELY;
    const wchar_t *path = file->path;
    for (;; Sleep(MOMENT)) {
        OVERLAPPED at = locked;
        if (path && wait && file->kind == PLAIN) let_go(file);
        if (path && take(file, L"file", number_of(path), 0, wait) < 0) return -1;
        for (int turn = 0; file->kind == LET_GO;) {
            file->handle = CreateFileW(path, file->access, EVERYBODY, NULL, OPEN_EXISTING, 0, NULL);
            if (file->handle != INVALID_HANDLE_VALUE) file->kind = PLAIN;
            else if (!tries_again(path, GetLastError(), &turn)) return -1;
        }
        if (LockFileEx(file->handle, how, 0, 1, 0, &at)) return 0;
        DWORD error = GetLastError();
        unlock(file);
        if (error != ERROR_LOCK_VIOLATION && error != ERROR_IO_PENDING) return fail(error);
        if (!wait) return fail_with(L_EAGAIN);
    }
}

SYSV int sv_flock(int number, int how) {
    ON_NUMBER(file, number);
    struct statx which;
    DWORD wait = how & L_AT_ONCE ? 0 : INFINITE;
    int answer = fail_with(L_EOPNOTSUPP);
    if (how & L_UNLOCK) unlock(file);
    if (how & L_UNLOCK || file->is_locked) return 0;
    if (file->kind == PLAIN) answer = lock_plain(file, wait);
    else if (file->kind == FOLDER && look(file->handle, &which) == 0)
        answer = take(file, L"folder", which.disk, which.file, wait);
    file->is_locked = answer == 0;
    return answer;
}
