/* base_play plain|buffered IMAGE SCRIPT BYTES OUT: plays a script of requests on an image, and
   prints what the independent program prints for `second play` of the same. A row of the script is
   eight words: code, entry, length (bytes of a write, buffer size of a read), the granule's low
   word, two that are ignored, the granule's high word, a zero. Writes use up BYTES in order. OUT becomes the image at the end.
   base_play list IMAGE: the listing. */
#include "base.h"

#include <stdio.h>
#include <stdlib.h>
#include <string.h>

enum { ROW = 16 };

struct bytes {
    uint8_t *at;
    size_t size;
};

/* Reads a file, but no more than `most` bytes and one. */
static bool read_file(const char *path, size_t most, struct bytes *b)
{
    size_t room = 1 << 16;
    FILE *f = fopen(path, "rb");
    if (f == NULL)
        return false;
    b->size = 0;
    b->at = malloc(room);
    for (size_t n; (n = fread(b->at + b->size, 1, room - b->size, f)) > 0;) {
        b->size += n;
        if (b->size > most)
            break;
        if (b->size == room)
            b->at = realloc(b->at, room *= 2);
    }
    fclose(f);
    if (b->size > most)
        b->size = most + 1;
    return true;
}

static unsigned word(const uint8_t *b)
{
    return (unsigned)(b[0] << 8 | b[1]);
}

/* The sum modulo 65,535 of the words moved. */
static unsigned long word_sum(const uint8_t *b, size_t size)
{
    unsigned long sum = 0;
    for (size_t i = 0; i + 1 < size; i += 2)
        sum = (sum + word(b + i)) % 65535;
    return sum;
}

static int refuse(const char *why)
{
    printf("ERROR %s\n", why);
    return 1;
}

/* Codes of rows that are no requests of a file. */
enum { ADD_ROW = 14, DELETE_ROW = 15 };

/* How many of the bytes given a row uses up. */
static size_t row_uses(unsigned code, size_t length)
{
    return code == WRITE || code == GRANULE_WRITE || code == ADD_ROW ? length : 0;
}

static bool takes_granule(unsigned code)
{
    return code == GRANULE_READ || code == GRANULE_WRITE || code == GRANULE_LOOK;
}

/* Tests every row; prints why the first that is not in order is not. */
static bool rows_are_good(struct bytes script, size_t left)
{
    for (size_t at = 0, row = 0; at < script.size; at += ROW, row++) {
        const uint8_t *b = script.at + at;
        if (script.size - at < ROW) {
            printf("ERROR row %zu: cut short at %zu of 16 bytes\n", row, script.size - at);
            return false;
        }
        unsigned code = word(b), length = word(b + 4);
        if (word(b + 14) != 0 || (word(b + 12) != 0 && !takes_granule(code))) {
            printf("ERROR row %zu: unknown shape (word 7 is not zero, or word 6 without a granule)\n", row);
            return false;
        }
        if (code < OPEN || code > DELETE_ROW) {
            printf("ERROR row %zu: unknown code %u\n", row, code);
            return false;
        }
        size_t uses = row_uses(code, length);
        if (uses > left) {
            printf("ERROR row %zu: bytes are missing for its %s of %zu\n", row,
                   code == ADD_ROW ? "name" : "write", uses);
            return false;
        }
        left -= uses;
    }
    return true;
}

static struct session plain;
static struct buffered_session buffered;

/* An adding or a deleting; prints its line. */
static void edit(bool with_buffers, struct bytes image, const uint8_t *b, size_t row,
                 const uint8_t *given)
{
    uint16_t first = (uint16_t)word(b + 2), length = (uint16_t)word(b + 6),
             sectors = (uint16_t)word(b + 8);
    size_t name = word(b + 4), entry = 0;
    enum answer a;
    if (word(b) == DELETE_ROW)
        a = with_buffers ? base_buffered_delete(image.at, image.size, &buffered, first)
                         : base_delete(image.at, image.size, &plain, first);
    else
        a = with_buffers ? base_buffered_add(image.at, image.size, &buffered, given, name, first,
                                             length, sectors, &entry)
                         : base_add(image.at, image.size, &plain, given, name, first, length,
                                    sectors, &entry);
    printf("%zu %d %zu - -\n", row, a, entry);
}

static void play(bool with_buffers, struct bytes image, struct bytes script, const uint8_t *given)
{
    static uint8_t buffer[65536];
    enum answer a = with_buffers ? base_buffered_mount(image.at, image.size, &buffered)
                                 : base_mount(image.at, image.size, &plain);
    const struct entry *table = with_buffers ? buffered.table : plain.table;
    printf("MOUNT %d\n", a);
    for (size_t at = 0, row = 0; at < script.size; at += ROW, row++) {
        const uint8_t *b = script.at + at;
        enum request code = word(b);
        size_t entry = word(b + 2), length = word(b + 4);
        if (word(b) >= ADD_ROW) {
            edit(with_buffers, image, b, row, given);
            given += row_uses(word(b), length);
            continue;
        }
        uint32_t granule = (uint32_t)word(b + 12) << 16 | word(b + 6);
        struct part moved = {buffer, 0};
        memset(buffer, 0, length);
        if (code == GRANULE_LOOK)
            moved = with_buffers
                        ? base_buffered_look(image.at, image.size, &buffered, entry, granule)
                        : base_look(image.at, image.size, &plain, entry, granule);
        a = with_buffers ? base_buffered_request(image.at, image.size, &buffered, entry, code,
                                                 granule, given, length, buffer, length)
                         : base_request(image.at, image.size, &plain, entry, code, granule, given,
                                        length, buffer, length);
        if (a == DONE && (code == READ || code == GRANULE_READ))
            moved = (struct part){buffer, table[entry].length};
        if (a == DONE && (code == WRITE || code == GRANULE_WRITE))
            moved = (struct part){given, length};
        printf("%zu %d %lu ", row, a, word_sum(moved.bytes, moved.size));
        struct spot spot = with_buffers ? base_buffered_position(&buffered, entry)
                                        : base_position(&plain, entry);
        if (spot.open)
            printf("%u %d\n", spot.record, spot.beyond);
        else
            printf("- -\n");
        given += row_uses(code, length);
    }
}

static int list(const char *path)
{
    static char text[1024];
    struct bytes image = {NULL, 0};
    read_file(path, (size_t)MOST_LISTED * SECTOR, &image);
    fwrite(text, 1, base_list(image.at, image.size, text, sizeof text), stdout);
    return 0;
}

int main(int argc, char **argv)
{
    if (argc == 3 && strcmp(argv[1], "list") == 0)
        return list(argv[2]);
    if (argc != 6) {
        fprintf(stderr, "usage: base_play plain|buffered IMAGE SCRIPT BYTES OUT\n"
                        "       base_play list IMAGE\n");
        return 2;
    }
    char why[4096];
    struct bytes part[3];
    bool with_buffers = strcmp(argv[1], "buffered") == 0;
    if (!with_buffers && strcmp(argv[1], "plain") != 0) {
        snprintf(why, sizeof why, "no such engine: %s", argv[1]);
        return refuse(why);
    }
    for (int i = 0; i < 3; i++) {
        size_t most = i == 0 ? (size_t)MOST_SECTORS * SECTOR : SIZE_MAX - 1;
        if (!read_file(argv[2 + i], most, &part[i])) {
            snprintf(why, sizeof why, "cannot read %s", argv[2 + i]);
            return refuse(why);
        }
        if (part[i].size > most) {
            snprintf(why, sizeof why, "image longer than %zu bytes", most);
            return refuse(why);
        }
    }
    if (!rows_are_good(part[1], part[2].size))
        return 1;
    play(with_buffers, part[0], part[1], part[2].at);
    FILE *out = fopen(argv[5], "wb");
    if (out == NULL || fwrite(part[0].at, 1, part[0].size, out) != part[0].size || fclose(out)) {
        snprintf(why, sizeof why, "cannot write %s", argv[5]);
        return refuse(why);
    }
    return 0;
}
