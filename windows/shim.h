/* What the parts of the shim have in common. */
#include <stdint.h>
#include <stdio.h>
#include <stdlib.h>
#include <string.h>
#include <wchar.h>
#include <windows.h>

#define SYSV __attribute__((sysv_abi))

/* Linux's numbers of errors. */
enum { L_EPERM = 1, L_ENOENT = 2, L_EIO = 5, L_EBADF = 9, L_EAGAIN = 11, L_ENOMEM = 12, L_EACCES = 13,
       L_EEXIST = 17, L_ENOTDIR = 20, L_EISDIR = 21, L_EINVAL = 22, L_EMFILE = 24, L_ESPIPE = 29,
       L_EPIPE = 32, L_ENAMETOOLONG = 36, L_EOPNOTSUPP = 95 };

/* Linux's struct statx, as far as the program reads it: a file is known by its disk's number and its
 * own. The mode has one of these kinds, and the rights. */
enum { L_IFIFO = 010000, L_IFCHR = 020000, L_IFDIR = 040000, L_IFREG = 0100000, L_IFLNK = 0120000 };
struct statx {
    uint32_t mask, block_size;
    uint64_t attributes;
    uint32_t names, owner, group;
    uint16_t mode, spare;
    uint64_t file, size, blocks, attributes_mask, times[8], device, disk, more[14];
};

/* What a number of an open file stands for. What was let go of is closed for Windows, and not yet
 * for the program. */
enum kind { FREE, PLAIN, FOLDER, STREAM, CONSOLE, LET_GO };

struct opened {
    enum kind kind;
    HANDLE handle, mutex;
    int is_locked;
    /* By which a file that was there before is opened anew while its lock is waited for. */
    wchar_t *path;
    DWORD access;
};

/* So many units has a path at most. Everybody may read, write, rename and remove what is open so. */
enum { PATH_UNITS = 8192, EVERYBODY = FILE_SHARE_READ | FILE_SHARE_WRITE | FILE_SHARE_DELETE };
/* How what stands under a name is opened: what a link leads to, or the link itself. */
enum { FOLLOWED = FILE_FLAG_BACKUP_SEMANTICS, AS_IT_IS = FOLLOWED | FILE_FLAG_OPEN_REPARSE_POINT };

/* How a call on a number or on a name begins: it is refused where nothing is open there, or no file
 * can be. */
#define ON_NUMBER(file, number)              \
    struct opened *file = opened_at(number); \
    if (!file) return -1
#define ON_NAME(path, name, refused) \
    wchar_t path[PATH_UNITS];        \
    if (path_of(name, path) < 0) return refused
