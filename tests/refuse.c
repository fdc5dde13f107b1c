/* Refuses one allocation of a program: the one whose number REFUSE has, from 1. tests/memory.py builds this.
   It needs no headers, so that any C compiler does. Each call is counted, whichever thread makes it.
   A byte is written to the open file whose number TOLD has when it comes to that. */
typedef __SIZE_TYPE__ size;
extern void *__libc_malloc(size);
extern void *__libc_calloc(size, size);
extern void *__libc_realloc(void *, size);
extern void *__libc_memalign(size, size);
extern char *getenv(const char *);
extern int atoi(const char *);
extern int *__errno_location(void);
extern long write(int, const void *, size);

static int calls;
static int refused;
static int told;

__attribute__((constructor)) static void begin(void) {
    const char *number = getenv("REFUSE");
    const char *file = getenv("TOLD");
    if (!number || !file) return;
    told = atoi(file);
    __atomic_store_n(&calls, 0, __ATOMIC_SEQ_CST);
    refused = atoi(number);
}

static int refuse(void) {
    if (__atomic_add_fetch(&calls, 1, __ATOMIC_SEQ_CST) != refused) return 0;
    (void)!write(told, "r", 1);
    /* As the system's own allocator says it: ENOMEM. */
    *__errno_location() = 12;
    return 1;
}

void *malloc(size n) { return refuse() ? 0 : __libc_malloc(n); }
void *calloc(size n, size each) { return refuse() ? 0 : __libc_calloc(n, each); }
void *realloc(void *old, size n) { return refuse() ? 0 : __libc_realloc(old, n); }
void *aligned_alloc(size align, size n) { return refuse() ? 0 : __libc_memalign(align, n); }
int posix_memalign(void **to, size align, size n) {
    void *got = refuse() ? 0 : __libc_memalign(align, n);
    if (!got) return 12;
    *to = got;
    return 0;
}
