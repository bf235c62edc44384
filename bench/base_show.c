/* base_show plain|buffered FILE: prints the pass listing of each case of a file, by that engine, as the
   program `show_cases` does. A case is eight words (1 or 2, two words of a number, a zero, two words of
   the name's length, two zeros), then an image of so many bytes (1), or so many patches of the last
   whole image (2), three words each: two of a place, and the byte; then the name as it is typed. */
#include "base.h"

#include <stdio.h>
#include <string.h>

enum { WHOLE = 1, PATCHED = 2, HEADER = 16, PATCH = 6, ROOM = 1 << 16, LONGEST_LINE = 3601 };

static uint8_t whole[ROOM], image[ROOM];
static char name[ROOM];
static size_t size; /* of the last whole image */

static size_t long_at(const uint8_t *b)
{
    return (size_t)b[0] << 24 | (size_t)b[1] << 16 | (size_t)b[2] << 8 | b[3];
}

static bool take(FILE *f, void *to, size_t n)
{
    return n <= ROOM && fread(to, 1, n, f) == n;
}

static bool take_patches(FILE *f, size_t n)
{
    uint8_t b[PATCH];
    for (; n > 0; n--) {
        if (!take(f, b, PATCH))
            return false;
        if (long_at(b) < size)
            image[long_at(b)] = b[5];
    }
    return true;
}

/* The image of a case. */
static bool take_image(FILE *f, const uint8_t *header)
{
    size_t n = long_at(header + 2);
    if (header[1] == WHOLE) {
        size = n;
        if (!take(f, whole, n))
            return false;
    }
    memcpy(image, whole, size);
    return header[1] == WHOLE || (header[1] == PATCHED && take_patches(f, n));
}

static void show_plain(size_t name_size)
{
    static struct session s;
    char line[LONGEST_LINE];
    size_t entry, length, n;
    enum answer a =
        base_show(image, size, &s, name, name_size, &entry, &length, line, sizeof line, &n);
    fwrite(line, 1, n, stdout);
    while (a == DONE) {
        a = base_line(image, size, &s, entry, length, line, sizeof line, &n);
        fwrite(line, 1, n, stdout);
    }
}

static void show_buffered(size_t name_size)
{
    static struct buffered_session s;
    char line[LONGEST_LINE];
    size_t entry, length, n;
    enum answer a =
        base_buffered_show(image, size, &s, name, name_size, &entry, &length, line, sizeof line, &n);
    fwrite(line, 1, n, stdout);
    while (a == DONE) {
        a = base_buffered_line(image, size, &s, entry, length, line, sizeof line, &n);
        fwrite(line, 1, n, stdout);
    }
}

int main(int argc, char **argv)
{
    uint8_t header[HEADER];
    FILE *f = argc == 3 ? fopen(argv[2], "rb") : NULL;
    if (f == NULL) {
        fprintf(stderr, "usage: base_show plain|buffered FILE\n");
        return 2;
    }
    for (unsigned number = 1; take(f, header, HEADER); number++) {
        size_t name_size = long_at(header + 8);
        if (!take_image(f, header) || !take(f, name, name_size)) {
            fprintf(stderr, "base_show: case %u is not in order\n", number);
            return 1;
        }
        printf("CASE %u\n", number);
        if (strcmp(argv[1], "buffered") == 0)
            show_buffered(name_size);
        else
            show_plain(name_size);
    }
    return 0;
}
