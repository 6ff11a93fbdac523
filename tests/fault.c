/* A failing system, for tests/files.sh: loaded before the C library, it makes chosen calls of a proved program fail.
   FAULT is a list CALL:NTH:WHAT,.. where WHAT is an error's number; `kill`; `wait`, until the file FAULT_GO is there, with the
   file FAULT_HERE made meanwhile; `short`, from that call on at most 1000 bytes move; or `same`, from that call on the answer
   does not change (getpid, getentropy). Other programs that are started with it, as a shell, are let be. */
typedef unsigned long size_t;
typedef long ssize_t;

extern int *__errno_location(void);
extern char *getenv(const char *);

enum { SYS_READ = 0, SYS_WRITE = 1, SYS_OPEN = 2, SYS_CLOSE = 3, SYS_NANOSLEEP = 35, SYS_GETPID = 39, SYS_KILL = 62,
       SYS_FSYNC = 74, SYS_RENAME = 82, SYS_UNLINK = 87, SYS_READLINK = 89, SYS_FCHMOD = 91, SYS_GETRANDOM = 318, SYS_ACCESS = 21 };

static long raw(long n, long a, long b, long c)
{
    long r;
    __asm__ volatile("syscall" : "=a"(r) : "a"(n), "D"(a), "S"(b), "d"(c) : "rcx", "r11", "memory");
    return r;
}

static long answer(long r)
{
    if (r < 0) {
        *__errno_location() = (int)-r;
        return -1;
    }
    return r;
}

/* A proved program stands in a folder target/bin. */
static int is_program(void)
{
    static int known = -1;
    if (known < 0) {
        char path[4096];
        long n = raw(SYS_READLINK, (long)"/proc/self/exe", (long)path, sizeof path - 1), i = 0, k = 0;
        const char *want = "/target/bin/";
        known = 0;
        for (i = 0; i < n && !known; i++) {
            for (k = 0; want[k] && i + k < n && path[i + k] == want[k]; k++)
                ;
            known = !want[k];
        }
    }
    return known;
}

static int same(const char *a, const char *b, int n)
{
    for (int i = 0; i < n; i++)
        if (a[i] != b[i]) return 0;
    return b[n] == 0;
}

static void wait_for_go(void)
{
    char *here = getenv("FAULT_HERE"), *go = getenv("FAULT_GO");
    long step[2] = { 0, 20000000 };
    if (here) raw(SYS_CLOSE, raw(SYS_OPEN, (long)here, 0102, 0666), 0, 0);
    for (int i = 0; go && i < 3000 && raw(SYS_ACCESS, (long)go, 0, 0) != 0; i++) raw(SYS_NANOSLEEP, (long)step, 0, 0);
}

enum { NONE = 0, SHORT = -1, SAME = -2 };

/* What is to happen at this call, the nth of its name. */
static int fault(const char *call, int nth)
{
    char *s = is_program() ? getenv("FAULT") : 0;
    int found = NONE;
    while (s && *s) {
        int k = 0, n = 0, e = 0;
        while (s[k] && s[k] != ':') k++;
        int mine = same(s, call, k);
        s += k + (s[k] == ':');
        for (; *s >= '0' && *s <= '9'; s++) n = 10 * n + *s - '0';
        s += *s == ':';
        if (mine && s[0] == 's' && nth >= n) found = s[1] == 'h' ? SHORT : SAME;
        if (mine && s[0] == 'k' && nth == n) raw(SYS_KILL, raw(SYS_GETPID, 0, 0, 0), 9, 0);
        if (mine && s[0] == 'w' && nth == n) wait_for_go();
        for (; *s >= '0' && *s <= '9'; s++) e = 10 * e + *s - '0';
        if (mine && e && nth == n) return e;
        while (*s && *s != ',') s++;
        s += *s == ',';
    }
    return found;
}

#define COUNTED(call) \
    static int nth; \
    int f = fault(call, ++nth); \
    if (f > 0) { \
        *__errno_location() = f; \
        return -1; \
    }

ssize_t read(int fd, void *buf, size_t n)
{
    COUNTED("read")
    return answer(raw(SYS_READ, fd, (long)buf, f == SHORT && n > 1000 ? 1000 : n));
}

ssize_t write(int fd, const void *buf, size_t n)
{
    COUNTED("write")
    return answer(raw(SYS_WRITE, fd, (long)buf, f == SHORT && n > 1000 ? 1000 : n));
}

int fsync(int fd)
{
    COUNTED("fsync")
    return answer(raw(SYS_FSYNC, fd, 0, 0));
}

int close(int fd)
{
    COUNTED("close")
    return answer(raw(SYS_CLOSE, fd, 0, 0));
}

int rename(const char *from, const char *to)
{
    COUNTED("rename")
    return answer(raw(SYS_RENAME, (long)from, (long)to, 0));
}

int fchmod(int fd, unsigned mode)
{
    COUNTED("fchmod")
    return answer(raw(SYS_FCHMOD, fd, mode, 0));
}

int getpid(void)
{
    static int nth;
    return fault("getpid", ++nth) == SAME ? 42 : (int)raw(SYS_GETPID, 0, 0, 0);
}

int getentropy(void *buf, size_t n)
{
    COUNTED("getentropy")
    if (f != SAME) return raw(SYS_GETRANDOM, (long)buf, n, 0) == (long)n ? 0 : -1;
    for (size_t i = 0; i < n; i++) ((unsigned char *)buf)[i] = 0;
    return 0;
}
