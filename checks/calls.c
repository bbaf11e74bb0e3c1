/* Records calls of the system in the file that CALLS names, and has one of them fail. Loaded before the C library by LD_PRELOAD, on Linux for x86-64.

   A line is 'NAME DESCRIPTOR SIZE PLACE RESULT ERROR BYTES': the bytes are what was written, read or named, in hexadecimal, and '-' where there are none.
   FAULT is 'NAME NUMBER WAY': of the calls of this name the one with this number, counted from 1, gives the error WAY (a number, such as 5 for EIO) and
   does nothing; or WAY is 'short' (only one byte of it is done) or 'torn' (half of it is done, and EIO given).
   HASTE divides the time that a socket is told to wait at most. It needs no headers, so that a compiler alone is enough. */

typedef unsigned long size_t;
typedef long ssize_t;

extern long syscall(long number, ...);
extern char *getenv(const char *name);
extern int *__errno_location(void);

enum { READ = 0, WRITE = 1, OPEN = 2, CLOSE = 3, PREAD = 17, PWRITE = 18, CONNECT = 42, SEND = 44, RECV = 45, SHUTDOWN = 48, SETSOCKOPT = 54, FLOCK = 73, FSYNC = 74, FDATASYNC = 75,
       FTRUNCATE = 77, FADVISE = 221, ACCEPT4 = 288 };
enum { EIO = 5, MOST_BYTES = 4096 };

static int record = -1;
static const char *fault;
static long number, way, haste;
static long counted;

static long numeral(const char *text) {
    long value = 0;
    while (*text >= '0' && *text <= '9') value = 10 * value + (*text++ - '0');
    return value;
}

static const char *behind_blank(const char *text) {
    while (*text && *text != ' ') text++;
    return *text ? text + 1 : text;
}

__attribute__((constructor)) static void begin(void) {
    const char *name = getenv("CALLS"), *most = getenv("HASTE");
    if (name) record = (int) syscall(OPEN, name, 02002101L, 0600L);
    fault = getenv("FAULT");
    if (fault) {
        number = numeral(behind_blank(fault));
        way = *behind_blank(behind_blank(fault));
        if (way >= '0' && way <= '9') way = -numeral(behind_blank(behind_blank(fault)));
    }
    haste = most ? numeral(most) : 1;
}

/* Whether this call, of which one more is counted, is the one that fails. */
static int fails(const char *name) {
    const char *at = fault;
    if (!at) return 0;
    while (*name && *name == *at) name++, at++;
    return *name == 0 && *at == ' ' && __atomic_add_fetch(&counted, 1, __ATOMIC_SEQ_CST) == number;
}

static char *put_number(char *at, long value) {
    char digits[24];
    int count = 0;
    if (value < 0) *at++ = '-', value = -value;
    do digits[count++] = '0' + value % 10; while (value /= 10);
    while (count) *at++ = digits[--count];
    *at++ = ' ';
    return at;
}

static char *put_bytes(char *at, const unsigned char *bytes, long count) {
    if (!bytes || count <= 0) *at++ = '-';
    for (long i = 0; bytes && i < count && i < MOST_BYTES; i++) {
        *at++ = "0123456789abcdef"[bytes[i] >> 4];
        *at++ = "0123456789abcdef"[bytes[i] & 15];
    }
    return at;
}

static long told(const char *name, long fd, long size, long place, long result, const void *bytes, long count) {
    char line[2 * MOST_BYTES + 256], *at = line;
    int error = *__errno_location();
    if (record >= 0) {
        while (*name) *at++ = *name++;
        *at++ = ' ';
        at = put_number(put_number(put_number(at, fd), size), place);
        at = put_bytes(put_number(put_number(at, result), result < 0 ? error : 0), bytes, count);
        *at++ = '\n';
        syscall(WRITE, (long) record, line, (long) (at - line));
        *__errno_location() = error;
    }
    return result;
}

static long error_of(long value) {
    *__errno_location() = (int) value;
    return -1;
}

/* A call that moves bytes, with its fault. */
static long moved(const char *name, long call, long fd, void *bytes, long size, long place, long flags, int is_read) {
    int now = fails(name);
    long part = now && way == 's' && size > 1 ? 1 : now && way == 't' ? size / 2 : size, result;
    if (now && way <= 0) {
        result = error_of(-way);
    } else {
        result = call == SEND || call == RECV ? syscall(call, fd, bytes, part, flags, 0L, 0L) : syscall(call, fd, bytes, part, place);
        if (now && way == 't') {
            told(name, fd, part, place, result, bytes, result);
            result = error_of(EIO);
        }
    }
    return told(name, fd, size, place, result, bytes, result < 0 || (is_read && call != RECV) ? 0 : result);
}

ssize_t read(int fd, void *into, size_t size) { return moved("read", READ, fd, into, (long) size, 0, 0, 1); }
ssize_t write(int fd, const void *piece, size_t size) { return moved("write", WRITE, fd, (void *) piece, (long) size, 0, 0, 0); }
ssize_t pread(int fd, void *into, size_t size, long at) { return moved("pread", PREAD, fd, into, (long) size, at, 0, 1); }
ssize_t pread64(int fd, void *into, size_t size, long at) { return pread(fd, into, size, at); }
ssize_t pwrite(int fd, const void *piece, size_t size, long at) { return moved("pwrite", PWRITE, fd, (void *) piece, (long) size, at, 0, 0); }
ssize_t pwrite64(int fd, const void *piece, size_t size, long at) { return pwrite(fd, piece, size, at); }
ssize_t recv(int fd, void *into, size_t size, int flags) { return moved("recv", RECV, fd, into, (long) size, 0, flags, 1); }
ssize_t send(int fd, const void *piece, size_t size, int flags) { return moved("send", SEND, fd, (void *) piece, (long) size, 0, flags, 0); }

/* A call without bytes, with its fault. */
static long made(const char *name, long call, long fd, long one, long two, long three) {
    long result = fails(name) ? error_of(-way) : syscall(call, fd, one, two, three);
    return told(name, fd, one, two, result, 0, 0);
}

int fsync(int fd) { return (int) made("fsync", FSYNC, fd, 0, 0, 0); }
int fdatasync(int fd) { return (int) made("fdatasync", FDATASYNC, fd, 0, 0, 0); }
int flock(int fd, int kind) { return (int) made("flock", FLOCK, fd, kind, 0, 0); }
int ftruncate(int fd, long size) { return (int) made("ftruncate", FTRUNCATE, fd, size, 0, 0); }
int ftruncate64(int fd, long size) { return ftruncate(fd, size); }
int shutdown(int fd, int how) { return (int) made("shutdown", SHUTDOWN, fd, how, 0, 0); }
int accept4(int fd, void *from, void *length, int flags) { return (int) made("accept4", ACCEPT4, fd, (long) from, (long) length, flags); }

/* It gives its error as its result. */
int posix_fadvise(int fd, long at, long size, int advice) {
    long result = fails("fadvise") ? error_of(-way) : syscall(FADVISE, (long) fd, at, size, (long) advice);
    return told("fadvise", fd, size, advice, result, 0, 0) < 0 ? *__errno_location() : 0;
}
int posix_fadvise64(int fd, long at, long size, int advice) { return posix_fadvise(fd, at, size, advice); }

int close(int fd) { return (int) told("close", fd, 0, 0, syscall(CLOSE, (long) fd), 0, 0); }

int connect(int fd, const void *to, unsigned size) { return (int) told("connect", fd, size, 0, fails("connect") ? error_of(-way) : syscall(CONNECT, (long) fd, to, (long) size), to, size); }

int open(const char *name, int flags, int mode) {
    long length = 0, result = fails("open") ? error_of(-way) : syscall(OPEN, name, (long) flags, (long) mode);
    while (name[length]) length++;
    return (int) told("open", -1, flags, mode, result, name, length);
}
int open64(const char *name, int flags, int mode) { return open(name, flags, mode); }

int setsockopt(int fd, int level, int option, const void *value, unsigned size) {
    long less[2], result;
    const void *used = value;
    if (level == 1 && (option == 20 || option == 21) && size == sizeof less && haste > 1) {
        const long *asked = value;
        long micros = (asked[0] * 1000000 + asked[1]) / haste;
        less[0] = micros / 1000000;
        less[1] = micros % 1000000;
        used = less;
    }
    result = syscall(SETSOCKOPT, (long) fd, (long) level, (long) option, used, (long) size);
    return (int) told("setsockopt", fd, level, option, result, value, size);
}
