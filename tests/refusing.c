/* Stands between the program and the C library: refuses the request for memory, the read or the write that the environment
   names, and each connection with the error that it names. Standard error is left alone. fault_injection.py builds it; journal_injection.py adds calls to it. */
#define _GNU_SOURCE
#include <errno.h>
#include <fcntl.h>
#include <stdlib.h>
#include <sys/socket.h>
#include <sys/syscall.h>
#include <unistd.h>

extern void *__libc_malloc(size_t);
extern void *__libc_calloc(size_t, size_t);
extern void *__libc_realloc(void *, size_t);
extern void *__libc_memalign(size_t, size_t);

static long requests, reads, writes;

static long number(const char *name) {
    const char *text = getenv(name);
    return text ? atol(text) : 0;
}

/* whether this is the call to refuse, with this error; it leaves a mark then */
static int refuses(long *count, const char *name, int error) {
    long at = number(name);
    if (at == 0 || ++*count != at) return 0;
    int mark = open(getenv("REFUSED_MARK"), O_CREAT | O_WRONLY, 0600);
    if (mark >= 0) close(mark);
    errno = error;
    return 1;
}

static int is_refused(void) { return refuses(&requests, "REFUSED_REQUEST", ENOMEM); }
void *malloc(size_t size) { return is_refused() ? NULL : __libc_malloc(size); }
void *calloc(size_t count, size_t size) { return is_refused() ? NULL : __libc_calloc(count, size); }
void *realloc(void *block, size_t size) { return is_refused() ? NULL : __libc_realloc(block, size); }
void *memalign(size_t to, size_t size) { return is_refused() ? NULL : __libc_memalign(to, size); }
void *aligned_alloc(size_t to, size_t size) { return memalign(to, size); }
int posix_memalign(void **block, size_t to, size_t size) {
    void *made = memalign(to, size);
    if (!made) return ENOMEM;
    *block = made;
    return 0;
}

ssize_t read(int file, void *bytes, size_t size) {
    if (refuses(&reads, "FAILED_READ", EIO)) return -1;
    return syscall(SYS_read, file, bytes, size);
}
ssize_t recv(int file, void *bytes, size_t size, int flags) {
    if (refuses(&reads, "FAILED_READ", EIO)) return -1;
    return syscall(SYS_recvfrom, file, bytes, size, flags, NULL, NULL);
}
ssize_t write(int file, const void *bytes, size_t size) {
    if (file != 2 && refuses(&writes, "FAILED_WRITE", ENOSPC)) return -1;
    if (file != 2 && size > 1 && number("WRITES_OF_ONE")) size = 1;
    return syscall(SYS_write, file, bytes, size);
}
ssize_t send(int file, const void *bytes, size_t size, int flags) {
    if (refuses(&writes, "FAILED_WRITE", ECONNRESET)) return -1;
    if (size > 1 && number("WRITES_OF_ONE")) size = 1;
    return syscall(SYS_sendto, file, bytes, size, flags, NULL, 0);
}
int connect(int file, const struct sockaddr *address, socklen_t size) {
    long error = number("FAILED_CONNECT");
    if (!error) return syscall(SYS_connect, file, address, size);
    errno = error;
    return -1;
}
