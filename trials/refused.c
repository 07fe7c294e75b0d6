// Refuses calls for memory, and counts them, where it is loaded before a program: the call of the number REFUSED, counted from 1 on
// over all threads of the process, and with REFUSED_ON every call behind it too. COUNTS is a file that exists: of four numbers of
// eight bytes, the calls that asked for memory, the calls refused, and the blocks that the program itself was given and gave back.
#define _GNU_SOURCE
#include <errno.h>
#include <fcntl.h>
#include <link.h>
#include <stdatomic.h>
#include <stddef.h>
#include <stdint.h>
#include <stdlib.h>
#include <sys/mman.h>
#include <unistd.h>

extern void *__libc_malloc(size_t);
extern void *__libc_calloc(size_t, size_t);
extern void *__libc_realloc(void *, size_t);
extern void *__libc_memalign(size_t, size_t);
extern void __libc_free(void *);

struct counts {
    atomic_long asked, refused, given, taken_back;
};
static struct counts own, *counts = &own;
static long first_refused;
static int and_behind;
static uintptr_t program_begin, program_end;

// The first of the objects is the program.
static int find_program(struct dl_phdr_info *info, size_t size, void *data) {
    for (int at = 0; at < info->dlpi_phnum; at++) {
        const ElfW(Phdr) *part = &info->dlpi_phdr[at];
        if (part->p_type != PT_LOAD || !(part->p_flags & PF_X)) continue;
        program_begin = info->dlpi_addr + part->p_vaddr;
        program_end = program_begin + part->p_memsz;
    }
    return 1;
}

__attribute__((constructor)) static void begin(void) {
    const char *number = getenv("REFUSED"), *path = getenv("COUNTS");
    int file = path ? open(path, O_RDWR) : -1;
    dl_iterate_phdr(find_program, NULL);
    if (file >= 0) {
        void *shared = mmap(NULL, sizeof own, PROT_READ | PROT_WRITE, MAP_SHARED, file, 0);
        if (shared != MAP_FAILED) counts = shared;
        close(file);
    }
    first_refused = number ? atol(number) : 0;
    and_behind = getenv("REFUSED_ON") != NULL;
    atomic_store(&counts->asked, 0);
}

static int is_refused(void) {
    long number = atomic_fetch_add(&counts->asked, 1) + 1;
    if (first_refused <= 0 || number < first_refused || (number > first_refused && !and_behind)) return 0;
    atomic_fetch_add(&counts->refused, 1);
    errno = ENOMEM;
    return 1;
}

#define FROM_PROGRAM \
    ((uintptr_t)__builtin_return_address(0) >= program_begin && (uintptr_t)__builtin_return_address(0) < program_end)

void *malloc(size_t size) {
    void *block = is_refused() ? NULL : __libc_malloc(size);
    if (block != NULL && FROM_PROGRAM) atomic_fetch_add(&counts->given, 1);
    return block;
}

void *calloc(size_t count, size_t size) {
    void *block = is_refused() ? NULL : __libc_calloc(count, size);
    if (block != NULL && FROM_PROGRAM) atomic_fetch_add(&counts->given, 1);
    return block;
}

void *realloc(void *block, size_t size) {
    void *made = is_refused() ? NULL : __libc_realloc(block, size);
    if (made != NULL && block == NULL && FROM_PROGRAM) atomic_fetch_add(&counts->given, 1);
    return made;
}

int posix_memalign(void **block, size_t alignment, size_t size) {
    void *made = is_refused() ? NULL : __libc_memalign(alignment, size);
    if (made == NULL) return ENOMEM;
    if (FROM_PROGRAM) atomic_fetch_add(&counts->given, 1);
    *block = made;
    return 0;
}

void *aligned_alloc(size_t alignment, size_t size) {
    void *made = is_refused() ? NULL : __libc_memalign(alignment, size);
    if (made != NULL && FROM_PROGRAM) atomic_fetch_add(&counts->given, 1);
    return made;
}

void free(void *block) {
    if (block != NULL && FROM_PROGRAM) atomic_fetch_add(&counts->taken_back, 1);
    __libc_free(block);
}
