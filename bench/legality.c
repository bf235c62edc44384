/* Tests number 12, which no script can reach: each rule of a legal session is broken once, in both
   engines. A request that is lawful but for that must be answered 12, and must change nothing. */
#include "base.h"

#include <stdio.h>
#include <string.h>

enum { SECTORS = 20 };

static uint8_t image[SECTORS * SECTOR];
static struct buffered_session good, s;
static int failed, tried;

static void add(int i, const char *name, uint16_t kind, uint16_t length, uint16_t first,
                uint16_t sectors, uint32_t count, uint16_t flags)
{
    struct entry *e = &good.table[i];
    memset(e->name, 0x40, 8);
    memcpy(e->name, name, strlen(name));
    e->kind = kind;
    e->length = length;
    e->first = first;
    e->sectors = sectors;
    e->count = count;
    e->flags = flags;
}

static struct session plain_of(const struct buffered_session *b)
{
    struct session p;
    memset(&p, 0, sizeof p);
    memcpy(p.table, b->table, sizeof p.table);
    for (int k = 0; k < MOST_OPEN; k++)
        p.files[k] = b->files[k].file;
    return p;
}

/* Asks for a rewind of entry 0 in both engines; `plain` and `buffered` are the answers due. */
static void expect(const char *what, size_t size, enum answer plain, enum answer buffered)
{
    static struct buffered_session b;
    static uint8_t kept[sizeof image];
    struct session p = plain_of(&s), q = p;
    memcpy(&b, &s, sizeof b);
    memcpy(kept, image, sizeof image);
    enum answer x = base_request(image, size, &p, 0, REWIND_ONLINE, 0, NULL, 0, NULL, 0);
    enum answer y = base_buffered_request(image, size, &b, 0, REWIND_ONLINE, 0, NULL, 0, NULL, 0);
    bool moved = memcmp(image, kept, sizeof image) != 0 ||
                 (x != DONE && memcmp(&p, &q, sizeof p) != 0) ||
                 (y != DONE && memcmp(&b, &s, sizeof b) != 0);
    tried++;
    if (x != plain || y != buffered || moved) {
        printf("%s: %d %d, not %d %d%s\n", what, x, y, plain, buffered, moved ? ", changed" : "");
        failed++;
    }
    memcpy(&s, &good, sizeof s);
}

#define BREAK(change) (change, expect(#change, sizeof image, NOT_LEGAL, NOT_LEGAL))
#define KEEP(change) (change, expect(#change, sizeof image, DONE, DONE))
#define BREAK_BUFFERED(change) (change, expect(#change, sizeof image, DONE, NOT_LEGAL))

int main(void)
{
    add(0, "\xC1\xF0", BLOCKED, 100, 1, 3, 5, 1);
    add(1, "\xC1\xF1", COMPRESSED, 80, 4, 4, 3, 1);
    add(2, "\xE2", UNBLOCKED, 362, 8, 5, 2, 3);
    add(3, "\xC9\xD1\xD9\xE2\xE9\xF0\xF9\xC1", RANDOM, 360, 13, 6, 0, 2);
    for (size_t k = 0; k < MOST_OPEN; k++)
        good.files[k].file = (struct open_file){.used = true, .entry = k};
    good.files[0].file.position = 5;
    good.files[0].file.beyond = true;
    memcpy(&s, &good, sizeof s);

    KEEP((void)0);
    expect("size 0", 0, NOT_LEGAL, NOT_LEGAL);
    expect("a byte short", sizeof image - 1, NOT_LEGAL, NOT_LEGAL);
    expect("a byte more", sizeof image + 1, NOT_LEGAL, NOT_LEGAL);
    expect("a sector short of the last extent", sizeof image - 2 * SECTOR, NOT_LEGAL, NOT_LEGAL);
    expect("as short as may be", sizeof image - SECTOR, DONE, DONE);
    expect("4,097 sectors", 4097 * SECTOR, NOT_LEGAL, NOT_LEGAL);

    BREAK(s.table[2].kind = 5);
    BREAK(s.table[2].kind = 0);
    BREAK(s.table[9].name[7] = 0x40);
    BREAK(s.table[9].length = 2);
    BREAK(s.table[9].first = 1);
    BREAK(s.table[9].sectors = 1);
    BREAK(s.table[9].count = 65536);
    BREAK(s.table[9].flags = 1);
    BREAK(s.table[2].name[0] = 0x40);
    BREAK(s.table[2].name[0] = 0xF1);
    BREAK(s.table[2].name[0] = 0xC0);
    BREAK(s.table[2].name[0] = 0xCA);
    BREAK(s.table[2].name[0] = 0xD0);
    BREAK(s.table[2].name[0] = 0xDA);
    BREAK(s.table[2].name[0] = 0xE1);
    BREAK(s.table[2].name[0] = 0xEA);
    KEEP(s.table[2].name[0] = 0xC9);
    KEEP(s.table[2].name[0] = 0xD1);
    KEEP(s.table[2].name[0] = 0xE9);
    BREAK(s.table[2].name[2] = 0xC1);
    BREAK(s.table[2].name[7] = 0xC1);
    BREAK(s.table[2].name[1] = 0xFA);
    BREAK(s.table[2].name[1] = 0xEF);
    KEEP(s.table[2].name[1] = 0xF9);
    BREAK(s.table[1].name[1] = 0xF0);
    KEEP(s.table[1].name[1] = 0x40);
    BREAK(s.table[0].first = 0);
    BREAK(s.table[0].sectors = 0);
    BREAK(s.table[0].sectors = 4);
    BREAK(s.table[1].first = 3);
    BREAK(s.table[1].first = 5);
    BREAK(s.table[3].sectors = 8);
    KEEP(s.table[3].sectors = 7);
    BREAK(s.table[3].sectors = 65535);
    BREAK(s.table[2].flags = 4);
    BREAK(s.table[0].length = 101);
    BREAK(s.table[0].length = 0);
    BREAK(s.table[0].length = 362);
    BREAK(s.table[1].length = 134);
    KEEP(s.table[1].length = 132);
    BREAK(s.table[2].length = 3602);
    KEEP((s.table[3].length = 3600));
    BREAK(s.table[2].count = 3);
    BREAK((s.table[0].count = 10, s.files[0].file.beyond = false));
    KEEP((s.table[0].count = 9, s.files[0].file.beyond = false));
    KEEP(s.table[1].count = 65535);
    BREAK(s.table[1].count = 65536);
    BREAK(s.table[3].count = 1);
    BREAK(s.table[3].flags = 1);

    BREAK(s.files[2].file.entry = 18);
    BREAK(s.files[2].file.entry = SIZE_MAX);
    BREAK(s.files[2].file.entry = 9);
    BREAK(s.files[2].file.entry = 1);
    KEEP((s.files[2].file.entry = 18, s.files[2].file.used = false));
    BREAK(s.files[0].file.position = 6);
    BREAK(s.files[0].file.position = 4);
    BREAK(s.table[0].flags = 0);
    KEEP((s.table[0].flags = 0, s.files[0].file.beyond = false));
    KEEP((s.files[0].file.position = 4, s.files[0].file.beyond = false));
    BREAK(s.files[3].file.position = 1);
    BREAK(s.files[3].file.beyond = true);
    BREAK(s.files[1].file.here.sector = 4);
    BREAK(s.files[1].file.here.byte = 361);
    BREAK(s.files[1].file.end.sector = 4);
    BREAK(s.files[1].file.end.byte = 361);
    KEEP((s.files[1].file.here.sector = 3, s.files[1].file.here.byte = 360));
    KEEP(s.files[2].file.here.sector = 99);
    BREAK_BUFFERED((s.files[0].holds = true, s.files[0].held = 3));
    KEEP((s.files[0].holds = true, s.files[0].held = 2));
    KEEP(s.files[0].held = 3);
    BREAK_BUFFERED((s.files[1].holds = true, s.files[1].held = 4));
    KEEP((s.files[2].holds = true, s.files[2].held = 4));
    BREAK_BUFFERED((s.files[2].holds = true, s.files[2].held = 5));
    KEEP((s.files[3].holds = true, s.files[3].held = 5));
    BREAK_BUFFERED((s.files[3].holds = true, s.files[3].held = 6));
    printf("%d sessions tried, %d not as due\n", tried, failed);
    return failed != 0;
}
