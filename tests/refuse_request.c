/* Loaded into a program (LD_PRELOAD), refuses one of its requests for memory: the one whose number
   REFUSED_REQUEST gives, counted from 1. Says so on standard error. Written without headers, so that the
   kit's compiler suffices. */
typedef __SIZE_TYPE__ size;

extern char *getenv(const char *name);
extern long strtol(const char *text, char **end, int base);
extern long write(int file, const void *bytes, size count);
extern void *__libc_malloc(size count);
extern void *__libc_realloc(void *block, size count);

/* How many requests are granted before the refused one, -1 where none is refused any more. */
static long granted_before = -1;

__attribute__((constructor)) static void read_number(void) {
    const char *number = getenv("REFUSED_REQUEST");
    if (number) {
        granted_before = strtol(number, 0, 10) - 1;
    }
}

static int is_refused(void) {
    static const char said[] = "a request was refused\n";
    if (granted_before < 0 || granted_before-- > 0) {
        return 0;
    }
    return write(2, said, sizeof said - 1) > 0;
}

void *malloc(size count) {
    return is_refused() ? 0 : __libc_malloc(count);
}

void *realloc(void *block, size count) {
    return is_refused() ? 0 : __libc_realloc(block, count);
}
