#include "images.h"

#include <string.h>

#include "../base.h"

uint8_t frames[LINES][60];
uint8_t lines[LINES][80];
uint8_t wide[LINES][132];

/* ---- records ---- */

/* Marsaglia's xorshift. */
static uint32_t seed;

static uint32_t below(uint32_t n)
{
    seed ^= seed << 13;
    seed ^= seed >> 17;
    seed ^= seed << 5;
    return seed % n;
}

static uint8_t ebcdic(char c)
{
    if (c >= '0' && c <= '9')
        return (uint8_t)(0xF0 + (c - '0'));
    if (c >= 'A' && c <= 'I')
        return (uint8_t)(0xC1 + (c - 'A'));
    if (c >= 'J' && c <= 'R')
        return (uint8_t)(0xD1 + (c - 'J'));
    if (c >= 'S' && c <= 'Z')
        return (uint8_t)(0xE2 + (c - 'S'));
    return c == '.' ? 0x4B : c == '-' ? 0x60 : 0x40;
}

static uint8_t *put_text(uint8_t *at, const char *text)
{
    while (*text != 0)
        *at++ = ebcdic(*text++);
    return at;
}

/* A number at the right of a column, with `places` digits behind a point. */
static uint8_t *put_column(uint8_t *at, int width, uint32_t n, int places)
{
    int i = width;
    for (int digits = 0; i > 1 && (n > 0 || digits <= places); digits++) {
        if (digits == places && places > 0)
            at[--i] = ebcdic('.');
        at[--i] = ebcdic((char)('0' + n % 10));
        n /= 10;
    }
    return at + width;
}

/* A frame number, a name, four measures in columns of eight, a state word. */
static void make_line(uint8_t *line, size_t length, uint32_t number)
{
    static const char *const name[] = {"BUS A", "BUS B", "BATTERY", "RX", "TX", "PANEL", "WHEEL 1"};
    static const char *const state[] = {"", "OK", "LOW", "HIGH", "NO LOCK", "SAFE"};
    uint8_t *at = line;
    memset(line, 0x40, length);
    at = put_text(at, "T");
    at = put_column(at, 6, number, 0);
    at = put_text(at, "  ");
    put_text(at, name[below(7)]);
    at += 9;
    for (size_t k = 0; k < (length == 80 ? 5u : 12u); k++)
        at = put_column(at, 8, below(4) == 0 ? below(100000) : below(1000), k % 2 == 0 ? 2 : 0);
    if (length == 80)
        put_text(at + 2, state[below(6)]);
}

void make_records(void)
{
    seed = 1971;
    for (uint32_t i = 0; i < LINES; i++) {
        for (int k = 0; k < 60; k++)
            frames[i][k] = (uint8_t)below(256);
        make_line(lines[i], 80, i);
        make_line(wide[i], 132, i);
    }
}

/* ---- images ---- */

static void put_word(uint8_t *b, size_t w)
{
    b[0] = (uint8_t)(w >> 8);
    b[1] = (uint8_t)w;
}

/* Fills an extent with fixed records, q of them in every s sectors. */
static void fill_fixed(uint8_t *extent, size_t sectors, size_t length)
{
    size_t s = (length + SECTOR - 1) / SECTOR, q = length > SECTOR ? 1 : SECTOR / length;
    for (size_t group = 0; group + s <= sectors; group += s)
        for (size_t k = 0; k < q; k++)
            for (size_t i = 0; i < length; i++)
                extent[SECTOR * group + k * length + i] = frames[(group + k) % LINES][i % 60];
}

/* Fills an extent with at most `most` compressed records, as the writer would. Returns their number. */
static size_t fill_packed(uint8_t *extent, size_t sectors, size_t length, size_t most)
{
    size_t sector = 0, at = 0, count = 0;
    memset(extent, 128, SECTOR * sectors);
    for (; count < most; count++) {
        uint8_t code[LONGEST_CODE];
        const uint8_t *line = length == 132 ? wide[count % LINES] : lines[count % LINES];
        size_t n = base_encode(line, length, code);
        if (at + n > SECTOR) {
            sector++;
            at = 0;
        }
        if (sector == sectors)
            break;
        memcpy(extent + SECTOR * sector + at, code, n);
        at += n;
    }
    return count;
}

/* An image that is being made: files are put into it one behind another. */
struct making {
    uint8_t *image;
    size_t entry, first, packed;
};

/* A file with `count` records, or as many as fit if that is fewer. */
static size_t add_file(struct making *m, const char *name, unsigned kind, size_t length,
                       size_t sectors, size_t count, unsigned flags)
{
    uint8_t *extent = m->image + SECTOR * m->first, *entry = m->image + ENTRY_BYTES * m->entry;
    size_t s = (length + SECTOR - 1) / SECTOR;
    size_t fit = kind == BLOCKED ? SECTOR / length * sectors : sectors / s;
    if (kind == COMPRESSED) {
        count = fill_packed(extent, sectors, length, count);
        m->packed += count;
    } else {
        fill_fixed(extent, sectors, length);
        count = kind == RANDOM ? 0 : count < fit ? count : fit;
    }
    memset(entry, 0x40, 8);
    put_text(entry, name);
    put_word(entry + 8, kind);
    put_word(entry + 10, length);
    put_word(entry + 12, m->first);
    put_word(entry + 14, sectors);
    put_word(entry + 16, count);
    put_word(entry + 18, flags);
    m->entry++;
    m->first += sectors;
    return count;
}

static struct making start(uint8_t *image, size_t sectors)
{
    memset(image, 0, SECTOR * sectors);
    return (struct making){image, 0, 1, 0};
}

enum { ALL = 65535 };

size_t make_full(uint8_t *image)
{
    struct making m = start(image, FULL_SECTORS);
    add_file(&m, "PASSA", COMPRESSED, 80, 300, ALL, MARKED);
    add_file(&m, "PASSB", COMPRESSED, 80, 300, ALL, MARKED);
    add_file(&m, "BUSLOG1", BLOCKED, 60, 250, ALL, MARKED);
    add_file(&m, "PASSC", COMPRESSED, 80, 300, ALL, MARKED);
    add_file(&m, "NOTES1", UNBLOCKED, 720, 200, ALL, MARKED | PROTECTED);
    add_file(&m, "TABLES1", RANDOM, 360, 100, 0, 0);
    add_file(&m, "PASSD", COMPRESSED, 80, 300, ALL, MARKED);
    add_file(&m, "BUSLOG2", BLOCKED, 60, 250, ALL, 0);
    add_file(&m, "TABLES2", RANDOM, 720, 100, 0, 0);
    add_file(&m, "PASSE", COMPRESSED, 80, 300, ALL, 0);
    add_file(&m, "NOTES2", UNBLOCKED, 720, 200, ALL, MARKED);
    add_file(&m, "BUSLOG3", BLOCKED, 90, 250, ALL, MARKED);
    add_file(&m, "TABLES3", RANDOM, 1080, 100, 0, PROTECTED);
    add_file(&m, "PASSF", COMPRESSED, 80, 300, ALL, MARKED);
    add_file(&m, "PRINTOUT", COMPRESSED, 132, 295, ALL, MARKED);
    add_file(&m, "BUSLOG4", BLOCKED, 120, 250, ALL, MARKED);
    add_file(&m, "NOTES3", UNBLOCKED, 360, 200, ALL, MARKED);
    add_file(&m, "TABLES4", RANDOM, 360, 100, 0, 0);
    return m.packed;
}

static size_t make_station_with(uint8_t *image, size_t packed, size_t granule)
{
    struct making m = start(image, STATION_SECTORS);
    add_file(&m, "NOTES", UNBLOCKED, 720, 100, ALL, MARKED);
    add_file(&m, "BUSLOG", BLOCKED, 60, 1700, STREAM, MARKED);
    size_t count = add_file(&m, "PASSA", COMPRESSED, 80, 1900, packed, MARKED);
    add_file(&m, "TABLES", RANDOM, granule, TABLES_GRANULES, 0, 0);
    return count;
}

void make_station(uint8_t *image)
{
    make_station_with(image, STREAM, 360);
}

void make_small_granules(uint8_t *image)
{
    make_station_with(image, STREAM, SMALL_GRANULE);
}

size_t make_full_station(uint8_t *image)
{
    return make_station_with(image, ALL, 360);
}

void make_listed(uint8_t *image)
{
    static const char *const name[] = {"PASSA",   "BUSLOG1", "NOTES1",  "TABLES1", "PASSB",   "PASSC",
                                       "BUSLOG2", "NOTES2",  "TABLES2", "PASSD",   "PASSE",   "BUSLOG3",
                                       "NOTES3",  "TABLES3", "PASSF",   "PRINTOUT", "BUSLOG4", "TABLES4"};
    struct making m = start(image, LISTED_SECTORS);
    for (size_t i = 0; i < ENTRIES; i++) {
        switch (name[i][0]) {
        case 'P':
            add_file(&m, name[i], COMPRESSED, name[i][1] == 'R' ? 132 : 80, 14, ALL, MARKED);
            break;
        case 'B':
            add_file(&m, name[i], BLOCKED, 60, 8, ALL, MARKED);
            break;
        case 'N':
            add_file(&m, name[i], UNBLOCKED, 720, 8, ALL, MARKED | PROTECTED);
            break;
        default:
            add_file(&m, name[i], RANDOM, 360, 5, 0, 0);
        }
    }
}

size_t make_log(uint8_t *image, unsigned kind)
{
    struct making m = start(image, LOG_SECTORS);
    if (kind == BLOCKED) {
        add_file(&m, "BUSLOG1", BLOCKED, 60, 10, ALL, MARKED);
        add_file(&m, "NOTES1", UNBLOCKED, 720, 10, ALL, MARKED);
        add_file(&m, "TABLES1", RANDOM, 360, 9, 0, 0);
    }
    uint8_t *extent = image + SECTOR * m.first;
    size_t count = add_file(&m, LOG_NAME, kind, 80, LOG_SECTORS - m.first, ALL, MARKED);
    if (kind == BLOCKED) /* lines, not frames */
        for (size_t i = 0; i < count; i++)
            memcpy(extent + SECTOR * (i / 4) + 80 * (i % 4), lines[i % LINES], 80);
    return count;
}

void make_fragmented(uint8_t *image)
{
    static const unsigned kinds[] = {UNBLOCKED, BLOCKED, COMPRESSED, RANDOM};
    struct making m = start(image, FRAGMENTED_SECTORS);
    for (size_t k = 0; k < FRAGMENTS; k++) {
        char name[] = "PASSA";
        name[4] = (char)(name[4] + k);
        m.first = 1 + 7 * (5 * k % FRAGMENTS);
        add_file(&m, name, kinds[k % 4], 80, 4, 3, MARKED * (kinds[k % 4] != RANDOM));
    }
}
