/* The program's object calls C functions in the System V manner, by Linux's numbers. `link` gives
 * each of these calls the front `sv_`, and the files here answer them, each after those it uses. */
#include "shim.h"
#include "memory.c"
#include "names.c"
#include "arguments.c"
#include "console.c"
#include "files.c"
#include "locks.c"
#include "folders.c"

/* No word of the line is taken for a pattern of names. */
int _dowildcard = 0;

extern SYSV int sv_main(int count, char **words, char **environment);

/* With -O1 gcc 12 makes no function that calls from Windows' manner into System V's. */
__attribute__((optimize("O0"))) int wmain(void) {
    /* A stick that was pulled out is an error, and no window that asks for it. */
    SetErrorMode(SEM_FAILCRITICALERRORS | SEM_NOOPENFILEERRORBOX);
    hold_streams();
    return sv_main(0, NULL, NULL);
}
