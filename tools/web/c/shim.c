/* What the program needs of an operating system, for a browser: memory, and four calls of the page (see program.js).
   There are no threads, no environment and no files but standard input and output. */
#include "shim.h"

#define FROM_PAGE(name) __attribute__((import_module("page"), import_name(name)))

/* Takes bytes of standard output (1) or standard error (2). */
FROM_PAGE("put") void page_put(i32 file, const u8 *bytes, u64 count);
/* Fills in bytes of standard input, and gives how many; 0 at its end. */
FROM_PAGE("get") i64 page_get(u8 *bytes, u64 room);
/* How many words the program is called with, its own name among them. */
FROM_PAGE("words") u64 page_words(void);
/* Fills in a word, and gives its length; -1 where there is none, -2 where the room is too small. */
FROM_PAGE("word") i64 page_word(u64 place, u8 *bytes, u64 room);
/* Ends the program: it doesn't come back. */
FROM_PAGE("quit") void page_quit(i32 status);

enum { TRY_AGAIN = 11, BROKEN = 134 };

i64 read(i32 file, u8 *bytes, u64 room) { return file == 0 ? page_get(bytes, room) : -1; }

i64 write(i32 file, const u8 *bytes, u64 count) {
    page_put(file, bytes, count);
    return count;
}

i32 isatty(i32 file) { return 0; }

u64 rattle_arg_count(void) { return page_words(); }
i64 rattle_arg(u64 place, u8 *bytes, u64 room) { return page_word(place, bytes, room); }
i64 rattle_env_at(u64 place, u8 *bytes, u64 room) { return -1; }
i64 rattle_env(void *name, u8 *bytes, u64 room) { return -1; }

static i32 errno_now;
void rattle_set_errno(i32 number) { errno_now = number; }
i32 rattle_errno(void) { return errno_now; }

void _exit(i32 status) {
    page_quit(status);
    __builtin_trap();
}

void abort(void) { _exit(BROKEN); }

/* No thread begins, so that a block is played in the program's own thread. */
i32 pthread_create(void *thread, void *attributes, void *does, void *given) { return TRY_AGAIN; }
i32 pthread_attr_init(void *attributes) { return 0; }
i32 pthread_attr_setguardsize(void *attributes, u64 size) { return 0; }
i32 pthread_attr_setstacksize(void *attributes, u64 size) { return 0; }
i32 pthread_attr_destroy(void *attributes) { return 0; }
u64 pthread_self(void) { return 1; }
i32 pthread_detach(u64 thread) { return 0; }
i32 pthread_join(u64 thread, void *result) { return 0; }
i32 sched_yield(void) { return 0; }

/* Only waiting threads ask the system for anything else. */
i64 rattle_syscall(i64 number, void *one, i64 two, i64 three, void *four) { return -1; }
i64 __sysv_signal(i32 number, i64 handler) { return 0; }

/* A program for the gate's target asks first whether the processor has all that its code needs. Here no code needs any of it. */
const u64 *__x86_get_cpuid_feature_leaf(i32 leaf) {
    static const u64 all[] = {~0ul, ~0ul, ~0ul, ~0ul};
    return all;
}

i64 __write(i32 file, const u8 *bytes, u64 count) { return write(file, bytes, count); }
