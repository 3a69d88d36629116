// Preloaded into a program: of the requests for memory that the program itself makes, counted from 1, the one with the
// number REFUSE is refused. The descriptor COUNTED is told how many there were so far, or with HELD how many octets the
// program holds, in a line each time: where the program writes octets that hold the text MARK, and at the end.
#define _GNU_SOURCE
#include <dlfcn.h>
#include <errno.h>
#include <malloc.h>
#include <stdatomic.h>
#include <stdio.h>
#include <stdlib.h>
#include <string.h>
#include <sys/auxv.h>
#include <sys/syscall.h>
#include <unistd.h>

void *__libc_malloc(size_t size);
void *__libc_realloc(void *block, size_t size);
void __libc_free(void *block);

static atomic_long requests, held;
static long refused;
static const char *mark;
static atomic_long *counted = &requests;
static void *program;

static void *object_of(void *address) {
    Dl_info found;
    return dladdr(address, &found) ? found.dli_fbase : NULL;
}

__attribute__((constructor)) static void begin(void) {
    const char *number = getenv("REFUSE");
    refused = number ? atol(number) : 0;
    mark = getenv("MARK");
    counted = getenv("HELD") ? &held : &requests;
    program = object_of((void *)getauxval(AT_ENTRY));
}

static void tell(void) {
    const char *descriptor = getenv("COUNTED");
    if (descriptor && dprintf(atoi(descriptor), "%ld\n", (long)*counted) < 0) {
        abort();
    }
}

__attribute__((destructor)) static void end(void) {
    tell();
}

// A program that may start threads ends by this call, which runs no destructors.
void _exit(int status) {
    tell();
    for (;;) {
        syscall(SYS_exit_group, status);
    }
}

ssize_t write(int descriptor, const void *octets, size_t count) {
    if (mark && memmem(octets, count, mark, strlen(mark))) {
        tell();
    }
    return syscall(SYS_write, descriptor, octets, count);
}

static int is_ours(void *caller) {
    return program && object_of(caller) == program;
}

static int is_refused(void *caller) {
    return is_ours(caller) && atomic_fetch_add(&requests, 1) + 1 == refused;
}

static void count(void *caller, long more) {
    if (counted == &held && is_ours(caller)) {
        atomic_fetch_add(&held, more);
    }
}

static long room_of(void *block) {
    return (long)malloc_usable_size(block);
}

void *malloc(size_t size) {
    void *caller = __builtin_return_address(0);
    if (is_refused(caller)) {
        errno = ENOMEM;
        return NULL;
    }
    void *block = __libc_malloc(size);
    count(caller, room_of(block));
    return block;
}

void *realloc(void *block, size_t size) {
    void *caller = __builtin_return_address(0);
    if (is_refused(caller)) {
        errno = ENOMEM;
        return NULL;
    }
    long had = room_of(block);
    void *moved = __libc_realloc(block, size);
    if (moved) {
        count(caller, room_of(moved) - had);
    }
    return moved;
}

void free(void *block) {
    count(__builtin_return_address(0), -room_of(block));
    __libc_free(block);
}
