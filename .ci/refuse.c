/*
 * Stands before the C library's malloc, realloc and free, and refuses one call of the first two:
 * the one whose number, from 1 on, the variable REFUSE has. At the end two lines go to descriptor
 * 3. The first has four numbers: how many calls of the two there were, the most bytes that one
 * asked for, how many were refused, and how many blocks were given and not freed. The second has
 * the bytes that each of the first 16 calls asked for.
 *
 * It names no header, so that the clang of the kit compiles it alone.
 */
typedef unsigned long size;

extern void *__libc_malloc(size bytes);
extern void *__libc_realloc(void *block, size bytes);
extern void __libc_free(void *block);
extern char *getenv(const char *name);
extern long write(int descriptor, const void *bytes, size count);

/* Of so many calls the second line has the bytes. */
enum { SHOWN = 16 };

static size calls;
static size most;
static size refused;
static size given;
static size freed;
static size asked[SHOWN];

static size refused_call(void) {
    const char *digits = getenv("REFUSE");
    size number = 0;
    while (digits && *digits >= '0' && *digits <= '9') {
        number = number * 10 + (size)(*digits++ - '0');
    }
    return number;
}

static int is_refused(size bytes) {
    if (calls < SHOWN) {
        asked[calls] = bytes;
    }
    calls++;
    if (bytes > most) {
        most = bytes;
    }
    if (calls != refused_call()) {
        return 0;
    }
    refused++;
    return 1;
}

void *malloc(size bytes) {
    void *block = is_refused(bytes) ? 0 : __libc_malloc(bytes);
    given += block != 0;
    return block;
}

void *realloc(void *block, size bytes) {
    void *moved = is_refused(bytes) ? 0 : __libc_realloc(block, bytes);
    given += !block && moved;
    return moved;
}

void free(void *block) {
    freed += block != 0;
    __libc_free(block);
}

static void print_number(size number, char behind) {
    char text[24];
    size at = sizeof text;
    text[--at] = behind;
    do {
        text[--at] = (char)('0' + number % 10);
        number /= 10;
    } while (number);
    write(3, text + at, sizeof text - at);
}

__attribute__((destructor)) static void print_counts(void) {
    print_number(calls, ' ');
    print_number(most, ' ');
    print_number(refused, ' ');
    print_number(given - freed, '\n');
    for (size call = 0; call < calls && call < SHOWN; call++) {
        print_number(asked[call], ' ');
    }
    write(3, "\n", 1);
}
