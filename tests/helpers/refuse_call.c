/* Refuses one call of a process, and says so on standard error: a growth of memory, a read or a write. It is loaded in front of
   the C library (LD_PRELOAD). The variable REFUSED_GROWTH, REFUSED_READ or REFUSED_WRITE has the number of the call among those
   of its kind, counted from 1, and REFUSED_AS the error number of a read or a write, 0 where it gives or takes nothing. Where
   there is REFUSED_FOR_GOOD, later writes to the same file are refused too. MOST_BYTES is the most that a read gives or a write
   takes. */

extern void *__libc_malloc(unsigned long size);
extern void *__libc_realloc(void *old, unsigned long size);
extern char *getenv(const char *name);
extern long atol(const char *digits);
extern long syscall(long number, ...);
extern int *__errno_location(void);

static const long READ = 0, WRITE = 1;
static long growths, reads, writes;
static int full = -1;

static int is_refused(const char *variable, long *calls)
{
    const char *number = getenv(variable);
    *calls += 1;
    if (!number || *calls != atol(number))
        return 0;
    syscall(WRITE, 2, "refused\n", 8);
    return 1;
}

static long failed(void)
{
    long error = atol(getenv("REFUSED_AS"));
    *__errno_location() = error;
    return error ? -1 : 0;
}

static unsigned long shortened(unsigned long size)
{
    const char *most = getenv("MOST_BYTES");
    return most && (unsigned long)atol(most) < size ? (unsigned long)atol(most) : size;
}

void *malloc(unsigned long size)
{
    return is_refused("REFUSED_GROWTH", &growths) ? 0 : __libc_malloc(size);
}

void *realloc(void *old, unsigned long size)
{
    return is_refused("REFUSED_GROWTH", &growths) ? 0 : __libc_realloc(old, size);
}

long read(int file, void *bytes, unsigned long size)
{
    return is_refused("REFUSED_READ", &reads) ? failed() : syscall(READ, file, bytes, shortened(size));
}

long write(int file, const void *bytes, unsigned long size)
{
    if (file == full)
        return failed();
    if (!is_refused("REFUSED_WRITE", &writes))
        return syscall(WRITE, file, bytes, shortened(size));
    if (getenv("REFUSED_FOR_GOOD"))
        full = file;
    return failed();
}
