// Lets user-mode Linux run where threads have more registers than it knows of. It sets them with as many bytes as it has, and Linux
// takes no fewer than all: the rest is set as it stands. guest puts this before the C library's own ptrace(2).
#define _GNU_SOURCE
#include <dlfcn.h>
#include <stdarg.h>
#include <string.h>
#include <sys/ptrace.h>
#include <sys/uio.h>

#define NT_X86_XSTATE ((void *)0x202)
#define MOST_BYTES 65536

long ptrace(enum __ptrace_request request, ...) {
    va_list rest;
    va_start(rest, request);
    pid_t pid = va_arg(rest, pid_t);
    void *address = va_arg(rest, void *);
    struct iovec *data = va_arg(rest, void *);
    va_end(rest);
    long (*next)(int, pid_t, void *, void *) = dlsym(RTLD_NEXT, "ptrace");
    if (request != PTRACE_SETREGSET || address != NT_X86_XSTATE)
        return next(request, pid, address, data);
    static char all[MOST_BYTES];
    struct iovec whole = {all, sizeof all};
    if (next(PTRACE_GETREGSET, pid, address, &whole) < 0)
        return -1;
    memcpy(all, data->iov_base, data->iov_len < whole.iov_len ? data->iov_len : whole.iov_len);
    return next(PTRACE_SETREGSET, pid, address, &whole);
}
