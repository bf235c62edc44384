/* stack: how many bytes of stack each call of the library takes, the most of all that is tried here; a table in Markdown.

   A call runs on a stack of its own, which is painted before: every word of it is another number. The lowest word that the
   call changed says how deep it went. It is counted from the stack pointer just before the call: the return address counts;
   what this program has on its own stack does not, nor do the arguments that go by the stack, nor bytes that are set aside and
   never touched. Nothing here goes by time, and what is tried is the same in every run. A call that goes past its stack is
   ended by the page below it. Exit status: 1 where something was not tried that should be. */
#include <stddef.h>
#include <stdint.h>
#include <stdio.h>
#include <string.h>
#include <sys/mman.h>

#include "../include/lleuadrys.h"

/* ---- the painted stack */

enum { WORDS = 1 << 13, PASSED = 6, ARGUMENTS = 11 };
static uint64_t *stack; /* WORDS of them; below lies a page that nobody may touch */

/* Calls fn with eleven arguments on the stack that ends at top. The last five go by the stack; with a word that keeps it
   aligned they are the PASSED words that lie above the stack pointer just before the call. */
uint64_t call_on(uint64_t *top, void (*fn)(void), const uint64_t *arguments);
__asm__(".text\n"
        "call_on:\n"
        "  push %rbx\n"
        "  push %rbp\n"
        "  mov %rsp, %rbp\n"
        "  mov %rdi, %rsp\n"
        "  mov %rsi, %rax\n"
        "  mov %rdx, %rbx\n"
        "  sub $8, %rsp\n"
        "  push 80(%rbx)\n"
        "  push 72(%rbx)\n"
        "  push 64(%rbx)\n"
        "  push 56(%rbx)\n"
        "  push 48(%rbx)\n"
        "  mov 40(%rbx), %r9\n"
        "  mov 32(%rbx), %r8\n"
        "  mov 24(%rbx), %rcx\n"
        "  mov 16(%rbx), %rdx\n"
        "  mov 8(%rbx), %rsi\n"
        "  mov 0(%rbx), %rdi\n"
        "  call *%rax\n"
        "  mov %rbp, %rsp\n"
        "  pop %rbp\n"
        "  pop %rbx\n"
        "  ret\n");

static uint64_t painted(size_t word) { return (word + 1) * 0x9E3779B97F4A7C15; }

static int make_stack(void)
{
    enum { PAGE = 4096 };
    uint8_t *room = mmap(NULL, PAGE + 8 * WORDS, PROT_READ | PROT_WRITE, MAP_PRIVATE | MAP_ANONYMOUS, -1, 0);
    if (room == MAP_FAILED || mprotect(room, PAGE, PROT_NONE) != 0)
        return 0;
    stack = (uint64_t *)(room + PAGE);
    return 1;
}

/* ---- what is tried, and what it took */

enum { PLAIN, BUFFERED, ENGINES };
enum { MOUNT, NO_SESSION, ANY_REQUEST, LAST_REQUEST = ANY_REQUEST + 13, LOOK, POSITION, FIND, FIELD,
       ADD, DELETE, SHOW, LINE, LIST, WORDS_PUT, DECODE, ENCODE, CHARACTER, SIZES, ROWS };
static const char *const names[ROWS] = {
    [MOUNT] = "`lleuadrys_mount`",
    [NO_SESSION] = "`lleuadrys_request`, any bytes for a session",
    [ANY_REQUEST] = "`lleuadrys_request`, a code that names none",
    "1 opening",
    "2 read",
    "3 write",
    "4 granule read",
    "5 granule write",
    "6 granule look",
    "7 write file mark",
    "8 rewind on-line",
    "9 rewind off-line",
    "10 record forward",
    "11 record back",
    "12 file forward",
    "13 file back",
    [LOOK] = "`lleuadrys_look`",
    [POSITION] = "`lleuadrys_position`",
    [FIND] = "`lleuadrys_find`",
    [FIELD] = "`lleuadrys_field`",
    [ADD] = "`lleuadrys_add`",
    [DELETE] = "`lleuadrys_delete`",
    [SHOW] = "`lleuadrys_show`",
    [LINE] = "`lleuadrys_line`",
    [LIST] = "`lleuadrys_list`",
    [WORDS_PUT] = "`lleuadrys_words`",
    [DECODE] = "`lleuadrys_decode`",
    [ENCODE] = "`lleuadrys_encode`",
    [CHARACTER] = "`lleuadrys_to_ascii`, `lleuadrys_to_ebcdic`",
    [SIZES] = "`lleuadrys_session_size`, `lleuadrys_buffered_session_size`, `lleuadrys_version`",
};
static size_t most[ROWS][ENGINES];
static unsigned tried[ROWS][ENGINES], done[ROWS][ENGINES]; /* calls, and those of them that were answered 0 */

#define A(x) ((uint64_t)(x))
#define TRY(row, engine, fn, ...) measure(row, engine, (void (*)(void))(fn), (const uint64_t[ARGUMENTS]){__VA_ARGS__})

static uint64_t measure(int row, int engine, void (*fn)(void), const uint64_t *arguments)
{
    for (size_t k = 0; k < WORDS; k++)
        stack[k] = painted(k);
    uint64_t answer = call_on(stack + WORDS, fn, arguments);
    size_t low = 0;
    while (low < WORDS - PASSED && stack[low] == painted(low))
        low++;
    size_t bytes = 8 * (WORDS - PASSED - low);
    if (most[row][engine] < bytes)
        most[row][engine] = bytes;
    tried[row][engine]++;
    return answer;
}

static uint64_t seed = 1;
static uint32_t any(uint32_t below)
{
    seed ^= seed << 13;
    seed ^= seed >> 7;
    seed ^= seed << 17;
    return (uint32_t)((seed >> 16) % below);
}

/* ---- images */

enum { SECTOR = 360, LISTED = 180, LARGEST = 4096, LONG = 300000 };
static uint8_t mixed[LISTED * SECTOR], hostile[LISTED * SECTOR], large[LARGEST * SECTOR], image[LISTED * SECTOR];

static void put_word(uint8_t *at, unsigned n)
{
    at[0] = (uint8_t)(n / 256);
    at[1] = (uint8_t)(n % 256);
}

static void put_entry(uint8_t *in, unsigned i, unsigned kind, unsigned length, unsigned first, unsigned sectors,
                      unsigned count, unsigned flags)
{
    uint8_t *e = in + 20 * i;
    memset(e, 0x40, 8);
    e[0] = (uint8_t)(i < 9 ? 0xC1 + i : 0xD1 + (i - 9));
    put_word(e + 8, kind);
    put_word(e + 10, length);
    put_word(e + 12, first);
    put_word(e + 14, sectors);
    put_word(e + 16, count);
    put_word(e + 18, flags);
}

/* Codes in which the decoder's two functions call each other as often as can be: a character, a blank, a character, ..; or
   runs of one sort alone, each of one character or one blank. */
enum { IN_TURN, CHARACTERS, BLANKS, SORTS };
static size_t put_runs(uint8_t *at, size_t room, int sort)
{
    size_t k = 0;
    while (k + 3 <= room) {
        if (sort != BLANKS) {
            at[k++] = 1;
            at[k++] = 0xC1;
        }
        if (sort != CHARACTERS)
            at[k++] = 129;
    }
    return k;
}

/* The code of such a record of R characters: its length. */
static size_t put_code(uint8_t *at, size_t R, int sort)
{
    size_t n = put_runs(at, sort == IN_TURN ? R / 2 * 3 : sort == CHARACTERS ? 2 * R + 1 : R + 2, sort);
    n = sort == BLANKS ? R : n;
    at[n] = 0;
    return n + 1;
}

/* Every sector of an extent full of them: how many records that are. */
static unsigned put_codes(uint8_t *at, unsigned sectors, size_t R, int sort)
{
    uint8_t code[SECTOR];
    size_t e = put_code(code, R, sort);
    unsigned count = 0;
    memset(at, 128, sectors * SECTOR);
    for (unsigned s = 0; s < sectors; s++)
        for (size_t o = 0; o + e <= SECTOR; o += e, count++)
            memcpy(at + s * SECTOR + o, code, e);
    return count;
}

static void put_packed(uint8_t *in, unsigned i, unsigned R, unsigned first, unsigned sectors, int sort, unsigned flags)
{
    put_entry(in, i, 3, R, first, sectors, put_codes(in + first * SECTOR, sectors, R, sort), flags);
}

static void make_images(void)
{
    put_entry(mixed, 0, 1, 400, 1, 8, 3, 0);
    put_entry(mixed, 1, 2, 24, 9, 8, 100, 1);
    put_packed(mixed, 2, 80, 17, 8, IN_TURN, 0);
    put_entry(mixed, 3, 4, 360, 25, 8, 0, 0);
    put_packed(mixed, 4, 132, 33, 20, CHARACTERS, 1);
    put_entry(mixed, 5, 2, 360, 53, 8, 8, 3);
    put_entry(mixed, 6, 1, 3600, 61, 20, 1, 0);
    put_entry(mixed, 7, 4, 3600, 81, 20, 0, 0);
    put_entry(mixed, 8, 4, 2, 101, 4, 0, 2);
    put_packed(mixed, 9, 2, 105, 4, BLANKS, 1);
    put_entry(mixed, 10, 3, 132, 109, 30, 0, 0);
    put_entry(mixed, 11, 2, 2, 139, 8, 0, 0);
    put_entry(mixed, 12, 3, 2, 147, 30, 30 * SECTOR, 0); /* a code for each byte, 0: a count of five digits */
    put_entry(mixed, 13, 4, 60, 177, 3, 0, 0);
    for (unsigned i = 0; i < 18; i++) {
        put_packed(hostile, i, 132, 1 + 9 * i, 9, (int)(i % SORTS), i % 2);
        put_packed(large, i, 132, 1 + 227 * i, 227, IN_TURN, 0);
    }
}

/* ---- the calls */

static uint8_t session[LLEUADRYS_BUFFERED_SESSION + 1], given[3602], buffer[3602], line[LLEUADRYS_LONGEST_LINE];
static uint8_t code[LONG + 1], text[LONG + 1], out[2 * LONG];
static const size_t session_sizes[ENGINES] = {LLEUADRYS_SESSION, LLEUADRYS_BUFFERED_SESSION};

static void fill(uint8_t *at, size_t n)
{
    for (size_t k = 0; k < n; k++)
        at[k] = (uint8_t)any(256);
}

/* Bytes to write: all alike, blanks in many places, or any. */
static void make_given(void)
{
    uint32_t sort = any(3);
    for (size_t k = 0; k < sizeof given; k++)
        given[k] = sort == 0 ? 0xC1 : sort == 1 ? (k % 3 == 0 ? 0xC1 : 0x40) : (uint8_t)any(256);
}

static uint64_t try_mount(int engine, const uint8_t *from, size_t size, size_t session_size)
{
    uint64_t answer = TRY(MOUNT, engine, lleuadrys_mount, A(from), size, A(session), session_size);
    done[MOUNT][engine] += answer == 0;
    return answer;
}

static uint64_t try_request(int row, int engine, size_t session_size, size_t entry, unsigned request)
{
    static const size_t lengths[] = {0, 1, 2, 24, 80, 82, 132, 134, 360, 400, 3600, 3602};
    static const uint32_t granules[] = {0, 1, 3, 7, 8, 65535, 0xFFFFFFFF};
    uint64_t answer = TRY(row, engine, lleuadrys_request, A(image), sizeof image, A(session), session_size, entry, request,
                          granules[any(7)], A(given), lengths[any(12)], A(buffer), lengths[any(12)]);
    done[row][engine] += answer == 0;
    return answer;
}

static void try_look(int engine, size_t session_size, size_t entry, uint32_t granule)
{
    static size_t at;
    uint64_t size = TRY(LOOK, engine, lleuadrys_look, A(image), sizeof image, A(session), session_size, entry, granule, A(&at));
    done[LOOK][engine] += size != 0;
}

static void try_position(int engine, size_t session_size, size_t entry)
{
    static uint32_t record;
    uint64_t stands = TRY(POSITION, engine, lleuadrys_position, A(session), session_size, entry, A(&record));
    done[POSITION][engine] += stands != LLEUADRYS_CLOSED;
}

/* A name out of the session's bytes, where an entry begins or anywhere, and every field of an entry. */
static void try_entry(int engine, size_t session_size, size_t entry)
{
    static size_t found;
    size_t at = any(2) == 0 ? 22 * (size_t)any(18) : any((uint32_t)session_size - 16);
    uint64_t answer = TRY(FIND, engine, lleuadrys_find, A(session), session_size, A(session + at), any(8) == 0 ? any(16) : 8, A(&found));
    done[FIND][engine] += answer == 0;
    done[FIELD][engine] += TRY(FIELD, engine, lleuadrys_field, A(session), session_size, entry, any(8)) != 0;
}

/* A file of any kind added, often one that may be, and one deleted. */
static void try_edits(int engine, size_t session_size, size_t entry)
{
    static const uint16_t lengths[] = {0, 1, 24, 80, 132, 134, 180, 360, 362, 3600, 3602};
    static uint8_t name[16];
    static size_t added;
    memset(name, 0x40, sizeof name);
    name[0] = (uint8_t)(0xC0 + any(10));
    name[1] = (uint8_t)(0xF0 + any(11));
    uint64_t answer = TRY(ADD, engine, lleuadrys_add, A(image), sizeof image, A(session), session_size, A(name),
                          any(8) == 0 ? any(16) : 8, any(6), lengths[any(11)], any(8) == 0 ? any(65536) : any(4), A(&added));
    done[ADD][engine] += answer == 0;
    answer = TRY(DELETE, engine, lleuadrys_delete, A(image), sizeof image, A(session), session_size, entry);
    done[DELETE][engine] += answer == 0;
}

/* The next line of a pass listing, for a record of that length or of any, in a room that may be too small. */
static uint64_t try_line(int engine, size_t session_size, size_t entry, size_t length)
{
    static size_t put;
    uint64_t answer = TRY(LINE, engine, lleuadrys_line, A(image), sizeof image, A(session), session_size, entry,
                          any(16) == 0 ? any(3602) : length, A(line), any(16) == 0 ? any(sizeof line) : sizeof line, A(&put));
    done[LINE][engine] += answer == 0;
    return answer;
}

/* A pass listing of a file by its name, which is a letter here; now and then by a name that is none. The session is mounted
   anew by it. */
static void try_show(int engine, const uint8_t *from, size_t size, size_t session_size)
{
    static const size_t sizes[] = {0, 1, 2, 8, 9, sizeof given};
    static size_t entry, length, put;
    for (size_t k = 0; k < sizeof given; k++)
        given[k] = any(8) == 0 ? (uint8_t)any(256) : ' ';
    memset(given + 1, ' ', any(8));
    given[0] = (uint8_t)('A' + any(18));
    uint64_t answer = TRY(SHOW, engine, lleuadrys_show, A(from), size, A(session), session_size, A(given),
                          any(4) == 0 ? sizes[any(6)] : 1, A(&entry), A(&length), A(line), any(16) == 0 ? any(12) : sizeof line,
                          A(&put));
    done[SHOW][engine] += answer == 0;
    for (unsigned k = 0; k < 40 && answer == 0 && from == image; k++)
        answer = try_line(engine, session_size, entry, length);
}

/* Entry numbers: those that there are, the one behind them, the greatest. */
static size_t any_entry(void)
{
    uint32_t i = any(20);
    return i == 19 ? SIZE_MAX : i;
}

/* A walk of requests from a mounted image, begun anew now and then; and behind each a request on the session with some of its
   bytes changed, which is then put back. */
static void walk(int engine, const uint8_t *from, unsigned steps)
{
    static uint8_t kept[sizeof session];
    size_t size = session_sizes[engine];
    for (unsigned k = 0; k < steps; k++) {
        if (k % 400 == 0) {
            memcpy(image, from, sizeof image);
            try_mount(engine, image, sizeof image, size);
        }
        make_given();
        size_t entry = any_entry();
        uint32_t request = any(16);
        try_request(1 <= request && request <= 13 ? ANY_REQUEST + (int)request : ANY_REQUEST, engine, size, entry, request);
        try_look(engine, size, entry, any(9));
        try_position(engine, size, entry);
        try_entry(engine, size, entry);
        if (k % 16 == 0)
            try_edits(engine, size, any_entry());
        memcpy(kept, session, size);
        if (k % 16 == 0)
            try_show(engine, image, sizeof image, size);
        memcpy(session, kept, size);
        if (k % 8 == 0)
            fill(session, size);
        for (uint32_t n = any(4); n > 0; n--)
            session[any(3) == 0 ? any((uint32_t)size) : 396 + any((uint32_t)size - 396)] = (uint8_t)any(any(2) == 0 ? 2 : 256);
        try_request(NO_SESSION, engine, size, entry, any(16));
        try_look(engine, size, entry, any(9));
        try_position(engine, size, entry);
        try_entry(engine, size, entry);
        if (k % 4 == 0)
            try_edits(engine, size, entry);
        try_line(engine, size, entry, any(3602));
        memcpy(session, kept, size);
    }
}

/* Every number of lent bytes near that of a session, and images of every odd length. */
static void try_lengths(int engine)
{
    static const size_t near[] = {0, 1, 516, 518, 1980, 1982};
    static const size_t sizes[] = {0, 1, 359, 360, 361, 720, sizeof mixed - 1, sizeof mixed};
    for (size_t k = 0; k < sizeof near / sizeof *near; k++) {
        try_mount(engine, mixed, sizeof mixed, near[k]);
        try_show(engine, mixed, sizeof mixed, near[k]);
        try_line(engine, near[k], 0, 400);
        try_request(NO_SESSION, engine, near[k], 0, 1 + (unsigned)k);
        try_look(engine, near[k], 0, 0);
        try_position(engine, near[k], 0);
    }
    for (size_t k = 0; k < sizeof sizes / sizeof *sizes; k++) {
        try_mount(engine, mixed, sizes[k], session_sizes[engine]);
        try_show(engine, mixed, sizes[k], session_sizes[engine]);
        TRY(LIST, PLAIN, lleuadrys_list, A(mixed), sizes[k], A(out), 3600);
    }
    try_mount(engine, hostile, sizeof hostile, session_sizes[engine]);
    try_mount(engine, large, sizeof large, session_sizes[engine]);
    try_show(engine, large, sizeof large, session_sizes[engine]);
    for (unsigned k = 0; k < 200; k++) {
        fill(image, k % 2 == 0 ? sizeof image : 720);
        try_mount(engine, image, sizeof image, session_sizes[engine]);
        TRY(LIST, PLAIN, lleuadrys_list, A(image), sizeof image, A(out), 3600);
        memcpy(image, k % 3 == 0 ? mixed : hostile, sizeof image);
        image[any(k % 4 == 0 ? sizeof image : 720)] ^= (uint8_t)(1 + any(255));
        try_mount(engine, image, sizeof image, session_sizes[engine]);
        try_show(engine, image, sizeof image, session_sizes[engine]);
        TRY(LIST, PLAIN, lleuadrys_list, A(image), sizeof image, A(out), any(1600));
    }
}

static void try_codes(void)
{
    static const size_t lengths[] = {0, 1, 2, 80, 132, 254, 255, 360, 361, 3600, LONG};
    enum { MANY = sizeof lengths / sizeof *lengths };
    for (int sort = 0; sort < SORTS + 3; sort++) {
        if (sort < SORTS)
            put_runs(code, LONG, sort);
        else
            for (size_t k = 0; k < LONG; k++)
                code[k] = sort == SORTS ? 0 : sort == SORTS + 1 ? 128 : (uint8_t)any(256);
        for (int n = 0; n < MANY; n++)
            for (int r = 0; r < MANY; r++)
                TRY(DECODE, PLAIN, lleuadrys_decode, A(code), lengths[n], A(text), lengths[r]);
    }
    for (int sort = 0; sort < SORTS; sort++)
        for (size_t R = 2; R <= 132; R += 2) {
            size_t e = put_code(code, R, sort);
            done[DECODE][PLAIN] += TRY(DECODE, PLAIN, lleuadrys_decode, A(code), SECTOR, A(text), R) == e;
        }
    for (int sort = 0; sort < 4; sort++) {
        for (size_t k = 0; k < LONG; k++)
            text[k] = sort == 0 ? 0x40 : sort == 1 ? 0xC1 : sort == 2 ? (k % 3 == 0 ? 0xC1 : 0x40) : (uint8_t)any(256);
        for (int n = 0; n < MANY; n++)
            for (int r = 0; r < MANY; r++)
                done[ENCODE][PLAIN] += TRY(ENCODE, PLAIN, lleuadrys_encode, A(text), lengths[n], A(out), lengths[r]) != 0;
    }
}

static void tell(const char *name, const size_t *bytes, int engines)
{
    printf(engines == 2 ? "| %s | %lu | %lu |\n" : "| %s | %lu | |\n", name, (unsigned long)bytes[PLAIN],
           (unsigned long)bytes[BUFFERED]);
}

int main(void)
{
    if (!make_stack())
        return 1;
    make_images();
    for (int engine = PLAIN; engine < ENGINES; engine++) {
        try_lengths(engine);
        walk(engine, mixed, 30000);
        walk(engine, hostile, 10000);
    }
    for (unsigned k = 0; k < 1600; k++) {
        done[LIST][PLAIN] += TRY(LIST, PLAIN, lleuadrys_list, A(mixed), sizeof mixed, A(out), k) == k;
        TRY(LIST, PLAIN, lleuadrys_list, A(hostile), sizeof hostile, A(out), k);
    }
    for (unsigned k = 0; k < 1600; k++)
        done[WORDS_PUT][PLAIN] += TRY(WORDS_PUT, PLAIN, lleuadrys_words, k % 20, A(out), any(60)) != 0;
    try_codes();
    for (unsigned k = 0; k < 256; k++) {
        done[CHARACTER][PLAIN] += TRY(CHARACTER, PLAIN, lleuadrys_to_ascii, k) != 0;
        done[CHARACTER][PLAIN] += TRY(CHARACTER, PLAIN, lleuadrys_to_ebcdic, k) != 0;
    }
    done[SIZES][PLAIN] += TRY(SIZES, PLAIN, lleuadrys_version, 0) == LLEUADRYS_VERSION;
    done[SIZES][PLAIN] += TRY(SIZES, PLAIN, lleuadrys_session_size, 0) == LLEUADRYS_SESSION;
    done[SIZES][PLAIN] += TRY(SIZES, PLAIN, lleuadrys_buffered_session_size, 0) == LLEUADRYS_BUFFERED_SESSION;

    int status = 0;
    size_t greatest = 0;
    unsigned calls = 0;
    printf("| call | plain | buffered |\n|---|---:|---:|\n");
    for (int row = 0; row < ROWS; row++) {
        int engines = row < LIST ? ENGINES : 1;
        tell(names[row], most[row], engines);
        for (int engine = PLAIN; engine < engines; engine++) {
            calls += tried[row][engine];
            if (greatest < most[row][engine])
                greatest = most[row][engine];
            if (row != ANY_REQUEST && done[row][engine] == 0) {
                printf("%s: nothing of it was done\n", names[row]);
                status = 1;
            }
        }
    }
    printf("\nThe greatest of %u calls: %lu bytes\n", calls, (unsigned long)greatest);
    return status;
}
