"""The program under an operating system that refuses: one allocation or one call of a run fails, or calls do less than was asked."""
import json, os, subprocess, tempfile

LIBRARY = r"""
#define _GNU_SOURCE
#include <errno.h>
#include <fcntl.h>
#include <stdlib.h>
#include <sys/epoll.h>
#include <sys/socket.h>
#include <sys/syscall.h>
#include <unistd.h>
extern void *__libc_malloc(size_t);
extern void *__libc_calloc(size_t, size_t);
extern void *__libc_realloc(void *, size_t);
extern void *__libc_memalign(size_t, size_t);
enum { MALLOC, READ, WRITE, WAIT, LISTEN, KINDS };
static const char *const names[KINDS] = {"REFUSE_MALLOC", "REFUSE_READ", "REFUSE_WRITE", "REFUSE_WAIT", "REFUSE_LISTEN"};
static unsigned long counts[KINDS], at[KINDS], piece;
static unsigned long told(const char *name) {
    const char *text = getenv(name);
    return text ? strtoul(text, 0, 10) : 0;
}
__attribute__((constructor)) static void begin(void) {
    for (int kind = 0; kind < KINDS; kind++) {
        at[kind] = told(names[kind]);
        counts[kind] = 0;
    }
    piece = told("PIECE");
}
__attribute__((destructor)) static void end(void) {
    const char *path = getenv("COUNTED");
    int file = path ? open(path, O_WRONLY | O_CREAT | O_TRUNC, 0600) : -1;
    if (file < 0) return;
    for (int kind = 0; kind < KINDS; kind++) {
        char digits[24];
        int length = 0;
        unsigned long count = counts[kind];
        digits[23 - length++] = '\n';
        do digits[23 - length++] = '0' + count % 10; while (count /= 10);
        if (syscall(SYS_write, file, digits + 24 - length, length) < 0) _exit(99);
    }
    close(file);
}
static int refused(int kind, int why) {
    if (++counts[kind] != at[kind]) return 0;
    errno = why;
    return 1;
}
void *malloc(size_t size) { return refused(MALLOC, ENOMEM) ? 0 : __libc_malloc(size); }
void *calloc(size_t n, size_t size) { return refused(MALLOC, ENOMEM) ? 0 : __libc_calloc(n, size); }
void *realloc(void *old, size_t size) { return refused(MALLOC, ENOMEM) ? 0 : __libc_realloc(old, size); }
void *aligned_alloc(size_t align, size_t size) { return refused(MALLOC, ENOMEM) ? 0 : __libc_memalign(align, size); }
int posix_memalign(void **to, size_t align, size_t size) {
    void *got = refused(MALLOC, ENOMEM) ? 0 : __libc_memalign(align, size);
    if (!got) return ENOMEM;
    *to = got;
    return 0;
}
ssize_t read(int file, void *to, size_t size) {
    if (file == 0 && refused(READ, EIO)) return -1;
    return syscall(SYS_read, file, to, file == 0 && piece && size > piece ? piece : size);
}
ssize_t write(int file, const void *from, size_t size) {
    if (file == 1 && refused(WRITE, ENOSPC)) return -1;
    return syscall(SYS_write, file, from, file == 1 && piece && size > piece ? piece : size);
}
int epoll_wait(int file, struct epoll_event *events, int most, int time) {
    if (refused(WAIT, EBADF)) return -1;
    return syscall(SYS_epoll_wait, file, events, most, time);
}
int listen(int file, int backlog) { return refused(LISTEN, EADDRINUSE) ? -1 : syscall(SYS_listen, file, backlog); }
"""


def lines(*requests):
    return b"".join(json.dumps(it).encode() + b"\n" for it in requests)


def word(kind, *forms):
    return dict(do="word", kind=kind, forms=list(forms))


COUNTRIES = lines(
    word("name", "Germany"), word("noun", "country"), word("verb", "border"), word("name", "Switzerland"), dict(do="find", word="countries"),
    dict(do="find", word="bordered"), dict(do="add", article="Switzerland", at=0, text="Switzerland borders Germany."),
    dict(do="add", article="Switzerland", text="Switzerland is a country."), dict(do="add", article="country", at=0, text="Which countries border Germany?"),
    dict(do="read", article="country"), dict(do="axioms", article="country", at=0), dict(do="parse", text="Which countries border Germany?"))


class Refusing:
    """The program with a library before the C library that refuses. What is refused is told by names and numbers."""

    def __init__(self, program, folder):
        self.program, self.library, self.counted = program, f"{folder}/refusing.so", f"{folder}/counted"
        with open(f"{folder}/refusing.c", "w") as it:
            it.write(LIBRARY)
        subprocess.run(["cc", "-O1", "-shared", "-fPIC", "-fno-builtin", "-o", self.library, f"{folder}/refusing.c"], check=True)

    def environment(self, **refused):
        told = {name if name == "PIECE" else "REFUSE_" + name: str(number) for name, number in refused.items()}
        return dict(os.environ, LD_PRELOAD=self.library, COUNTED=self.counted, **told)

    def replay(self, given, errors=subprocess.PIPE, **refused):
        """The status of a run, what it wrote, and what it told on standard error where that is not given."""
        with tempfile.TemporaryFile() as it:
            it.write(given)
            it.seek(0)
            done = subprocess.run([self.program, "replay"], stdin=it, stdout=subprocess.PIPE, stderr=errors, env=self.environment(**refused), timeout=120)
        return done.returncode, done.stdout, done.stderr

    def counts(self):
        """How many allocations, reads of the input, writes of the output, waits and listens the last run made."""
        with open(self.counted) as it:
            return [int(line) for line in it]
