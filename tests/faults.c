// Preloaded into a program, this makes its reads of standard input and of named files and its writes of standard output fall
// short or fail, as the environment says:
//     READ_MOST=k     WRITE_MOST=k      a call passes at most k bytes
//     READ_EINTR=n    WRITE_EINTR=n     the first call and every n-th after it is interrupted
//     READ_EIO=n      WRITE_ENOSPC=n    the n-th call fails
//     READ_EIO_AT=k   WRITE_ENOSPC_AT=k  the first k bytes are passed, and a call for those behind them fails
// READ_.. is for standard input. For the file that FIRST names, whatever its descriptor, it is FIRST_.., and SECOND_.. for the
// one that SECOND names.
// The name of each fault that was really made goes into the file FAULTS_MADE, once, so that a test can tell.
#include <errno.h>
#include <fcntl.h>
#include <stdlib.h>
#include <string.h>
#include <sys/stat.h>
#include <sys/syscall.h>
#include <unistd.h>

struct fault {
    const char *name;
    int made;
};

// The calls of one kind: their faults, how many there were, and the bytes that they passed.
struct calls {
    struct fault most, interrupted, failed, failed_at;
    int error;
    long count, bytes;
};

#define READS_OF(name) {{name "_MOST", 0}, {name "_EINTR", 0}, {name "_EIO", 0}, {name "_EIO_AT", 0}, EIO, 0, 0}
#define WRITES_OF(name) {{name "_MOST", 0}, {name "_EINTR", 0}, {name "_ENOSPC", 0}, {name "_ENOSPC_AT", 0}, ENOSPC, 0, 0}

// The number that is asked for, or -1 where this fault is not asked for.
static long number(const struct fault *fault) {
    const char *text = getenv(fault->name);
    return text ? atol(text) : -1;
}

static void make(struct fault *fault) {
    const char *file = getenv("FAULTS_MADE");
    if (fault->made++ || !file)
        return;
    int to = open(file, O_WRONLY | O_APPEND);
    syscall(SYS_write, to, fault->name, strlen(fault->name));
    syscall(SYS_write, to, "\n", 1);
    close(to);
}

// The error of this call, or 0 where it goes on, then with a count that may be less.
static int fails(struct calls *calls, size_t *count) {
    long most = number(&calls->most), interrupted = number(&calls->interrupted), end = number(&calls->failed_at);
    ++calls->count;
    if (calls->count == number(&calls->failed)) {
        make(&calls->failed);
        return calls->error;
    }
    if (interrupted > 0 && calls->count % interrupted == 1) {
        make(&calls->interrupted);
        return EINTR;
    }
    if (end >= 0 && calls->bytes >= end) {
        make(&calls->failed_at);
        return calls->error;
    }
    if (end >= 0 && *count > (size_t)(end - calls->bytes))
        *count = end - calls->bytes;
    if (most > 0 && *count > (size_t)most) {
        make(&calls->most);
        *count = most;
    }
    return 0;
}

// A read or write, of a stream whose calls are counted, or of another where `calls` is NULL.
static ssize_t pass(struct calls *calls, long which, int descriptor, const void *bytes, size_t count) {
    int error = calls ? fails(calls, &count) : 0;
    if (error) {
        errno = error;
        return -1;
    }
    ssize_t passed = syscall(which, descriptor, bytes, count);
    if (calls && passed > 0)
        calls->bytes += passed;
    return passed;
}

// Whether a descriptor is of the file that a variable of the environment names.
static int is_of(int descriptor, const char *variable) {
    const char *name = getenv(variable);
    struct stat one, other;
    return name && !fstat(descriptor, &one) && !stat(name, &other) && one.st_dev == other.st_dev && one.st_ino == other.st_ino;
}

ssize_t read(int from, void *bytes, size_t count) {
    static struct calls input = READS_OF("READ"), first = READS_OF("FIRST"), second = READS_OF("SECOND");
    struct calls *calls = from == STDIN_FILENO ? &input : NULL;
    if (is_of(from, "FIRST"))
        calls = &first;
    else if (is_of(from, "SECOND"))
        calls = &second;
    return pass(calls, SYS_read, from, bytes, count);
}

ssize_t write(int to, const void *bytes, size_t count) {
    static struct calls output = WRITES_OF("WRITE");
    return pass(to == STDOUT_FILENO ? &output : NULL, SYS_write, to, bytes, count);
}
