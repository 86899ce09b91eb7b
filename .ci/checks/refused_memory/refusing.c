// Preloaded into a program by `runs.py`. Runs it many times, from its first line to its end, and
// refuses other requests for memory each time.
//
// The process itself never comes to the program's `main`. Its children do, one after another: the first with
// all memory, and child N with request N refused, as malloc refuses it where there is no memory. With
// REFUSE_LATER=1 every request after that is refused too. The last child is the one that makes less than N
// requests, or number REFUSE_LAST where that is given. Each child reads standard input from its start.
//
// A line goes to descriptor REFUSE_REPORT for each child:
//
//     STATUS REQUESTS REFUSED LIVE PEAK OUTPUT ERRORS
//
// its status as `waitpid` has it, the requests that it made, how many of them were refused here, the blocks that
// it never freed, the greatest number of bytes that it held at once, and where standard output and errors, which
// are files, end after it. A block freed twice, or one that was never handed out, ends a child with status 99.
typedef unsigned long size_t;

extern void *__libc_malloc(size_t);
extern void __libc_free(void *);
extern char *getenv(const char *);
extern long write(int, const void *, size_t);
extern long lseek(int, long, int);
extern int *__errno_location(void);
extern int fork(void);
extern int waitpid(int, int *, int);
extern unsigned alarm(unsigned);
extern void *mmap(void *, size_t, int, int, int, long);
extern void *memcpy(void *, const void *, size_t);
extern void *memset(void *, int, size_t);
extern void _exit(int);

enum { OUT_OF_MEMORY = 12, SECONDS = 60, BAD_FREE = 99 };

// What a child has done so far, in memory that it shares with its parent.
struct record {
    long requests, refused, live, bytes, peak;
};
static struct record *seen;
static long refused_at, refuse_later;

static long number(const char *text) {
    long n = 0;
    while (text && *text >= '0' && *text <= '9') n = n * 10 + (*text++ - '0');
    return n;
}

static void report(int to, const long *numbers, int count) {
    char line[256], *end = line;
    for (int i = 0; i < count; i++) {
        char digits[24];
        int length = 0;
        long n = numbers[i];
        if (n < 0) {
            *end++ = '-';
            n = -n;
        }
        do digits[length++] = '0' + n % 10;
        while (n /= 10);
        while (length) *end++ = digits[--length];
        *end++ = i + 1 < count ? ' ' : '\n';
    }
    write(to, line, end - line);
}

__attribute__((constructor)) static void run(void) {
    const char *descriptor = getenv("REFUSE_REPORT"), *last = getenv("REFUSE_LAST");
    int to = (int)number(descriptor), later = (int)number(getenv("REFUSE_LATER"));
    if (!descriptor) return;
    // readable and writable, shared, anonymous
    struct record *record = mmap(0, sizeof *record, 3, 0x21, -1, 0);
    for (long n = 0;; n++) {
        memset(record, 0, sizeof *record);
        lseek(0, 0, 0);
        int child = fork(), status = -1;
        if (child == 0) {
            alarm(SECONDS);
            seen = record;
            refused_at = n;
            refuse_later = later;
            return;
        }
        if (child < 0 || waitpid(child, &status, 0) != child) _exit(1);
        long output = lseek(1, 0, 1), errors = lseek(2, 0, 1);
        long numbers[] = {status, record->requests, record->refused, record->live, record->peak, output, errors};
        report(to, numbers, 7);
        if (last ? n == number(last) : n > 0 && record->refused == 0) _exit(0);
    }
}

// In front of each block: a mark, and its size.
struct head {
    size_t mark, size;
};
#define MARK 0x5afe5afe5afe5afeUL

static int refuses(void) {
    if (!seen) return 0;
    long n = ++seen->requests;
    int refused = refused_at && (n == refused_at || (refuse_later && n > refused_at));
    seen->refused += refused;
    return refused;
}

static void *none(void) {
    *__errno_location() = OUT_OF_MEMORY;
    return 0;
}

// A block whose bytes are not zero.
static void *block(size_t size) {
    struct head *head = size > ~(size_t)0 / 2 ? 0 : __libc_malloc(size + sizeof *head);
    if (!head) return none();
    head->mark = MARK;
    head->size = size;
    if (seen) {
        seen->live++;
        seen->bytes += size;
        if (seen->bytes > seen->peak) seen->peak = seen->bytes;
    }
    return memset(head + 1, 0xA5, size);
}

static struct head *head_of(void *block) {
    struct head *head = (struct head *)block - 1;
    if (head->mark != MARK) {
        write(2, "a block that was not handed out is freed\n", 41);
        _exit(BAD_FREE);
    }
    return head;
}

void *malloc(size_t size) { return refuses() ? none() : block(size); }

void *calloc(size_t count, size_t size) {
    if (refuses() || (size && count > ~(size_t)0 / 2 / size)) return none();
    void *made = block(count * size);
    return made ? memset(made, 0, count * size) : 0;
}

void free(void *old) {
    if (!old) return;
    struct head *head = head_of(old);
    if (seen) {
        seen->live--;
        seen->bytes -= head->size;
    }
    memset(head, 0x5A, sizeof *head + head->size);
    __libc_free(head);
}

void *realloc(void *old, size_t size) {
    if (refuses()) return none();
    size_t kept = old ? head_of(old)->size : 0;
    void *made = block(size);
    if (made && old) {
        memcpy(made, old, kept < size ? kept : size);
        free(old);
    }
    return made;
}
