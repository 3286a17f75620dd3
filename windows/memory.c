/* Memory, and what the processor has. */
#include <cpuid.h>

/* Where there is no memory, the block is one byte that nobody owns. */
struct tried { uint64_t is_there; void *block; };
static struct tried tried(void *block) {
    static char nothing[16];
    return (struct tried){block != NULL, block ? block : nothing};
}

SYSV struct tried sv_rattle_alloc(size_t size) { return tried(malloc(size ? size : 1)); }
SYSV struct tried sv_rattle_realloc(void *block, size_t old, size_t size) {
    return tried(realloc(block, size ? size : 1));
}
SYSV void sv_rattle_dealloc(void *block) { free(block); }
SYSV void *sv_memset(void *to, int byte, size_t count) { return memset(to, byte, count); }
SYSV void *sv_memcpy(void *to, const void *from, size_t count) { return memcpy(to, from, count); }
SYSV void *sv_memmove(void *to, const void *from, size_t count) { return memmove(to, from, count); }

typedef unsigned __int128 whole;
SYSV whole sv___udivti3(whole one, whole other) { return one / other; }
SYSV whole sv___umodti3(whole one, whole other) { return one % other; }

/* There are no signals to be ignored. */
SYSV void *sv___sysv_signal(void) { return NULL; }

/* What the processor says of itself, by glibc's numbers of leaves: four words, and the four again
 * that may be used. The program asks for 1 and 0x80000001 alone, whose features it wants Windows on
 * these processors uses too. */
SYSV const unsigned *sv___x86_get_cpuid_feature_leaf(unsigned leaf) {
    static unsigned found[8];
    memset(found, 0, sizeof found);
    if (leaf == 0 || leaf == 2)
        __get_cpuid(leaf == 0 ? 1 : 0x80000001, &found[0], &found[1], &found[2], &found[3]);
    memcpy(found + 4, found, 4 * sizeof *found);
    return found;
}

/* In a program of `link --counted` each call on a number or a name is counted, and the one whose
 * number the variable SHIM_ENDS_AT says ends it. */
static void count_call(void) {
#ifdef COUNTED
    static unsigned long made;
    const char *last = getenv("SHIM_ENDS_AT");
    if (last && ++made == strtoul(last, NULL, 10)) TerminateProcess(GetCurrentProcess(), 99);
#endif
}
