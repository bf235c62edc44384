#include "base.h"

#include <string.h>

enum { BLANK = 0x40, GO_ON = 128 };

/* ---- one compressed record ---- */

/* The length of the code that s begins with, or 0 if it is bad. */
static size_t measure(const uint8_t *s, size_t size, size_t length)
{
    size_t at = 0;
    while (at < size) {
        size_t n = s[at++];
        if (n == 0)
            return at;
        if (n == GO_ON)
            return 0;
        if (n > GO_ON) {
            n -= GO_ON;
        } else {
            if (n > size - at)
                return 0;
            at += n;
        }
        if (n > length)
            return 0;
        length -= n;
    }
    return 0;
}

/* Decodes a code that is good. */
static void expand(const uint8_t *s, uint8_t *record, size_t length)
{
    uint8_t *end = record + length;
    size_t n;
    while ((n = *s++) != 0) {
        if (n < GO_ON) {
            memcpy(record, s, n);
            s += n;
        } else {
            n -= GO_ON;
            memset(record, BLANK, n);
        }
        record += n;
    }
    memset(record, BLANK, (size_t)(end - record));
}

size_t base_decode(const uint8_t *code, size_t size, uint8_t *record, size_t length)
{
    size_t used = measure(code, size, length);
    if (used > 0)
        expand(code, record, length);
    return used;
}

/* Two blanks begin here. The last character of a record to be coded is no blank, so there is a
   next one wherever there is a blank. */
static bool in_gap(const uint8_t *at)
{
    return at[0] == BLANK && at[1] == BLANK;
}

size_t base_encode(const uint8_t *record, size_t length, uint8_t *code)
{
    const uint8_t *end = record + length;
    while (end > record && end[-1] == BLANK)
        end--;
    uint8_t *out = code;
    while (record < end) {
        const uint8_t *from = record;
        if (in_gap(record)) {
            while (*record == BLANK)
                record++;
            size_t n = (size_t)(record - from);
            for (; n > 127; n -= 127)
                *out++ = 255;
            *out++ = (uint8_t)(GO_ON + n);
        } else {
            while (record < end && !in_gap(record))
                record++;
            size_t n = (size_t)(record - from);
            while (n > 0) {
                size_t run = n > 127 ? 127 : n;
                *out++ = (uint8_t)run;
                memcpy(out, from, run);
                out += run;
                from += run;
                n -= run;
            }
        }
    }
    *out++ = 0;
    return (size_t)(out - code);
}

/* ---- the directory ---- */

static uint16_t word_at(const uint8_t *b)
{
    return (uint16_t)(b[0] << 8 | b[1]);
}

static void put_word(uint8_t *b, uint32_t w)
{
    b[0] = (uint8_t)(w >> 8);
    b[1] = (uint8_t)w;
}

static struct entry entry_at(const uint8_t *b)
{
    struct entry e;
    memcpy(e.name, b, 8);
    e.kind = word_at(b + 8);
    e.length = word_at(b + 10);
    e.first = word_at(b + 12);
    e.sectors = word_at(b + 14);
    e.count = word_at(b + 16);
    e.flags = word_at(b + 18);
    return e;
}

/* N of an image, or 0 if its length is unlawful. */
static uint32_t sectors_of(size_t size)
{
    if (size % SECTOR != 0 || size / SECTOR > MOST_SECTORS)
        return 0;
    return (uint32_t)(size / SECTOR);
}

/* Sectors of a record or a granule that takes whole ones. */
static uint32_t sectors_for(const struct entry *e)
{
    return (e->length + SECTOR - 1u) / SECTOR;
}

/* Records or granules in a sector, where they share it. */
static uint32_t per_sector(const struct entry *e)
{
    return SECTOR / (uint32_t)e->length;
}

/* Whether a file's granules share sectors. */
static bool granules_share(const struct entry *e)
{
    return e->kind == RANDOM && e->length <= LONGEST_SHARED;
}

/* Of kinds 1, 2 and 4. */
static uint32_t capacity(const struct entry *e)
{
    if (e->kind == BLOCKED) {
        uint32_t n = per_sector(e) * e->sectors;
        return n < MOST_RECORDS ? n : MOST_RECORDS;
    }
    return granules_share(e) ? per_sector(e) * e->sectors : e->sectors / sectors_for(e);
}

/* The byte of its extent at which a granule begins. */
static uint32_t granule_at(const struct entry *e, uint32_t g)
{
    if (!granules_share(e))
        return SECTOR * sectors_for(e) * g;
    uint32_t q = per_sector(e);
    return SECTOR * (g / q) + g % q * e->length;
}

static bool is_capital(uint8_t c)
{
    return (c >= 0xC1 && c <= 0xC9) || (c >= 0xD1 && c <= 0xD9) || (c >= 0xE2 && c <= 0xE9);
}

static bool is_digit(uint8_t c)
{
    return c >= 0xF0 && c <= 0xF9;
}

static inline __attribute__((always_inline)) bool name_is_good(const uint8_t name[8])
{
    int i = 1;
    if (!is_capital(name[0]))
        return false;
    while (i < 8 && (is_capital(name[i]) || is_digit(name[i])))
        i++;
    while (i < 8 && name[i] == BLANK)
        i++;
    return i == 8;
}

static bool is_zero(const struct entry *e)
{
    static const uint8_t none[8];
    return memcmp(e->name, none, 8) == 0 && e->length == 0 && e->first == 0 && e->sectors == 0 &&
           e->count == 0 && e->flags == 0;
}

static inline __attribute__((always_inline)) bool length_is_good(const struct entry *e)
{
    unsigned most = e->kind == BLOCKED ? 360 : e->kind == COMPRESSED ? LONGEST_PACKED : 3600;
    return e->length % 2 == 0 && e->length >= 2 && e->length <= most;
}

/* Asked of an entry whose length is good. */
static bool count_is_good(const struct entry *e)
{
    switch (e->kind) {
    case COMPRESSED:
        return e->count <= MOST_RECORDS;
    case RANDOM:
        return e->count == 0 && (e->flags & MARKED) == 0;
    default:
        return e->count <= capacity(e);
    }
}

static bool entry_is_good(const struct entry *e, uint32_t sectors)
{
    if (e->kind == FREE)
        return is_zero(e);
    return e->kind <= RANDOM && name_is_good(e->name) && e->first >= 1 && e->sectors >= 1 &&
           (uint32_t)e->first + e->sectors <= sectors && e->flags <= 3 && length_is_good(e) &&
           count_is_good(e);
}

static bool pair_is_good(const struct entry *a, const struct entry *b)
{
    return memcmp(a->name, b->name, 8) != 0 &&
           (a->first + a->sectors <= b->first || b->first + b->sectors <= a->first);
}

/* Every rule of a good directory but the decoding one. */
static bool table_is_good(const struct entry table[ENTRIES], uint32_t sectors)
{
    for (int i = 0; i < ENTRIES; i++) {
        if (!entry_is_good(&table[i], sectors))
            return false;
        if (table[i].kind == FREE)
            continue;
        for (int j = 0; j < i; j++)
            if (table[j].kind != FREE && !pair_is_good(&table[i], &table[j]))
                return false;
    }
    return true;
}

/* ---- an open file at work ---- */

struct work {
    uint8_t *image;
    struct entry *entry;
    struct open_file *file;
    struct buffered_file *hold; /* the file with its buffer; NULL if it has none */
};

/* A sector of the extent in the image. */
static uint8_t *in_image(const struct work *w, uint32_t sector)
{
    return w->image + (size_t)SECTOR * (w->entry->first + sector);
}

static bool is_held(const struct work *w, uint32_t sector)
{
    return w->hold != NULL && w->hold->holds && w->hold->held == sector;
}

/* A sector of the extent as this file has it. */
static const uint8_t *view(const struct work *w, uint32_t sector)
{
    return is_held(w, sector) ? w->hold->buffer : in_image(w, sector);
}

static void put_back(struct work *w)
{
    struct buffered_file *b = w->hold;
    if (b != NULL && b->holds && b->changed) {
        memcpy(in_image(w, b->held), b->buffer, SECTOR);
        b->changed = false;
    }
}

/* The sector to work in: in the buffer if the file has one, else in the image. */
static uint8_t *take(struct work *w, uint32_t sector)
{
    struct buffered_file *b = w->hold;
    if (b == NULL)
        return in_image(w, sector);
    if (!is_held(w, sector)) {
        put_back(w);
        memcpy(b->buffer, in_image(w, sector), SECTOR);
        b->holds = true;
        b->held = sector;
        b->changed = false;
    }
    return b->buffer;
}

/* The same, to be changed. */
static uint8_t *take_to_change(struct work *w, uint32_t sector)
{
    uint8_t *bytes = take(w, sector);
    if (w->hold != NULL)
        w->hold->changed = true;
    return bytes;
}

/* Finds the compressed record behind a place: where it starts, and the length of its code, or 0
   if that is bad. */
static size_t next_code(const struct work *w, struct place behind, struct place *start)
{
    if (behind.byte == SECTOR || (behind.byte > 0 && view(w, behind.sector)[behind.byte] == GO_ON)) {
        behind.sector++;
        behind.byte = 0;
    }
    *start = behind;
    if (behind.sector >= w->entry->sectors)
        return 0;
    return measure(view(w, behind.sector) + behind.byte, SECTOR - behind.byte, w->entry->length);
}

/* Decodes the count records of a compressed file in the image: the place behind them. */
static bool find_end(uint8_t *image, struct entry *e, struct place *end)
{
    struct work w = {.image = image, .entry = e};
    struct place p = {0, 0};
    for (uint32_t k = 0; k < e->count; k++) {
        size_t size = next_code(&w, p, &p);
        if (size == 0)
            return false;
        p.byte += (uint32_t)size;
    }
    *end = p;
    return true;
}

/* At the end of the records. */
static enum answer meet_end(struct work *w)
{
    if ((w->entry->flags & MARKED) == 0)
        return WRONG_SEQUENCE;
    w->file->beyond = true;
    return END_OF_FILE;
}

static enum answer read_packed(struct work *w, uint8_t *buffer)
{
    struct open_file *f = w->file;
    struct place start;
    size_t size = next_code(w, f->here, &start);
    if (size == 0)
        return BAD_IMAGE;
    if (start.sector != f->here.sector && f->here.byte < SECTOR)
        take(w, f->here.sector);
    expand(take(w, start.sector) + start.byte, buffer, w->entry->length);
    f->here.sector = start.sector;
    f->here.byte = start.byte + (uint32_t)size;
    f->position++;
    return DONE;
}

static enum answer read_record(struct work *w, uint8_t *buffer, size_t buffer_size)
{
    const struct entry *e = w->entry;
    struct open_file *f = w->file;
    if (e->kind == RANDOM || f->beyond)
        return WRONG_SEQUENCE;
    if (buffer_size < e->length)
        return BAD_SIZE;
    if (f->position >= e->count)
        return meet_end(w);
    if (e->kind == COMPRESSED)
        return read_packed(w, buffer);
    const uint8_t *record;
    if (e->kind == BLOCKED) {
        uint32_t q = per_sector(e);
        record = take(w, f->position / q) + f->position % q * e->length;
    } else {
        record = in_image(w, f->position * sectors_for(e));
    }
    memcpy(buffer, record, e->length);
    f->position++;
    return DONE;
}

/* What is given, and zeros behind it, in all of so many bytes. */
static void store(uint8_t *to, size_t all, const uint8_t *given, size_t size)
{
    memcpy(to, given, size);
    memset(to + size, 0, all - size);
}

static enum answer write_packed(struct work *w, const uint8_t *given, size_t size)
{
    struct open_file *f = w->file;
    struct place to = f->here;
    uint8_t code[LONGEST_CODE];
    uint32_t n = (uint32_t)base_encode(given, size, code);
    if (n > SECTOR)
        return BAD_SIZE;
    if (to.byte + n > SECTOR) {
        to.sector++;
        to.byte = 0;
    }
    if (f->position >= MOST_RECORDS || to.sector >= w->entry->sectors)
        return NO_ROOM;
    if (to.sector != f->here.sector && f->here.byte < SECTOR)
        memset(take_to_change(w, f->here.sector) + f->here.byte, GO_ON, SECTOR - f->here.byte);
    uint8_t *sector = take_to_change(w, to.sector);
    memcpy(sector + to.byte, code, n);
    to.byte += n;
    memset(sector + to.byte, GO_ON, SECTOR - to.byte);
    f->here = f->end = to;
    return DONE;
}

static enum answer write_blocked(struct work *w, const uint8_t *given, size_t size)
{
    const struct entry *e = w->entry;
    uint32_t q = per_sector(e), p = w->file->position;
    if (p >= capacity(e))
        return NO_ROOM;
    uint32_t at = p % q * e->length;
    uint8_t *to = take_to_change(w, p / q) + at;
    memcpy(to, given, size);
    memset(to + size, 0, SECTOR - at - size);
    return DONE;
}

static enum answer write_unblocked(struct work *w, const uint8_t *given, size_t size)
{
    if (w->file->position >= capacity(w->entry))
        return NO_ROOM;
    uint32_t s = sectors_for(w->entry);
    store(in_image(w, w->file->position * s), (size_t)SECTOR * s, given, size);
    return DONE;
}

/* Tests 5 and 6 of a write. */
static enum answer check_given(const struct entry *e, size_t size)
{
    if (size % 2 != 0)
        return ODD_COUNT;
    return size == 0 || size > e->length ? BAD_SIZE : DONE;
}

static enum answer write_record(struct work *w, const uint8_t *given, size_t size)
{
    struct entry *e = w->entry;
    struct open_file *f = w->file;
    if (e->kind == RANDOM)
        return WRONG_SEQUENCE;
    if (e->flags & PROTECTED)
        return WRITE_PROTECTED;
    if (f->beyond)
        return WRONG_SEQUENCE;
    enum answer a = check_given(e, size);
    if (a == DONE)
        a = e->kind == COMPRESSED ? write_packed(w, given, size)
            : e->kind == BLOCKED  ? write_blocked(w, given, size)
                                  : write_unblocked(w, given, size);
    if (a == DONE) {
        e->count = ++f->position;
        e->flags &= (uint16_t)~MARKED;
    }
    return a;
}

static enum answer read_granule(struct work *w, uint32_t g, uint8_t *buffer, size_t buffer_size)
{
    const struct entry *e = w->entry;
    if (e->kind != RANDOM)
        return WRONG_SEQUENCE;
    if (buffer_size < e->length)
        return BAD_SIZE;
    if (g >= capacity(e))
        return NO_ROOM;
    memcpy(buffer, in_image(w, 0) + granule_at(e, g), e->length);
    return DONE;
}

static enum answer write_granule(struct work *w, uint32_t g, const uint8_t *given, size_t size)
{
    const struct entry *e = w->entry;
    if (e->kind != RANDOM)
        return WRONG_SEQUENCE;
    if (e->flags & PROTECTED)
        return WRITE_PROTECTED;
    enum answer a = check_given(e, size);
    if (a != DONE)
        return a;
    if (g >= capacity(e))
        return NO_ROOM;
    size_t all = granules_share(e) ? e->length : (size_t)SECTOR * sectors_for(e);
    store(in_image(w, 0) + granule_at(e, g), all, given, size);
    return DONE;
}

static enum answer check_look(const struct entry *e, uint32_t g)
{
    if (e->kind != RANDOM)
        return WRONG_SEQUENCE;
    return g >= capacity(e) ? NO_ROOM : DONE;
}

static void to_start(struct open_file *f)
{
    f->position = 0;
    f->beyond = false;
    f->here = (struct place){0, 0};
}

static enum answer write_mark(struct work *w)
{
    struct entry *e = w->entry;
    struct open_file *f = w->file;
    if (e->kind == RANDOM)
        return WRONG_SEQUENCE;
    if (e->flags & PROTECTED)
        return WRITE_PROTECTED;
    if (f->beyond)
        return WRONG_SEQUENCE;
    put_back(w);
    e->count = f->position;
    e->flags |= MARKED;
    f->beyond = true;
    f->end = f->here;
    return DONE;
}

static enum answer rewind_online(struct work *w)
{
    if (w->entry->kind == RANDOM)
        return WRONG_SEQUENCE;
    put_back(w);
    to_start(w->file);
    return DONE;
}

static enum answer rewind_offline(struct work *w)
{
    uint8_t *stamp = w->image + ENTRY_BYTES * w->file->entry + 16;
    put_back(w);
    put_word(stamp, w->entry->count);
    put_word(stamp + 2, w->entry->flags);
    return DONE;
}

static enum answer record_forward(struct work *w)
{
    const struct entry *e = w->entry;
    struct open_file *f = w->file;
    if (e->kind == RANDOM || f->beyond)
        return WRONG_SEQUENCE;
    if (f->position >= e->count)
        return meet_end(w);
    if (e->kind == COMPRESSED) {
        struct place start;
        size_t size = next_code(w, f->here, &start);
        if (size == 0)
            return BAD_IMAGE;
        f->here.sector = start.sector;
        f->here.byte = start.byte + (uint32_t)size;
    }
    f->position++;
    return DONE;
}

static enum answer record_back(struct work *w)
{
    struct open_file *f = w->file;
    if (w->entry->kind == RANDOM || w->entry->kind == COMPRESSED)
        return WRONG_SEQUENCE;
    if (f->beyond) {
        f->beyond = false;
        return END_OF_FILE;
    }
    if (f->position == 0)
        return BEGINNING_OF_TAPE;
    f->position--;
    return DONE;
}

static enum answer file_forward(struct work *w)
{
    const struct entry *e = w->entry;
    struct open_file *f = w->file;
    if (e->kind == RANDOM || f->beyond || (e->flags & MARKED) == 0)
        return WRONG_SEQUENCE;
    put_back(w);
    f->position = e->count;
    f->beyond = true;
    f->here = f->end;
    return DONE;
}

static enum answer file_back(struct work *w)
{
    struct open_file *f = w->file;
    if (w->entry->kind == RANDOM)
        return WRONG_SEQUENCE;
    if (f->beyond) {
        put_back(w);
        f->beyond = false;
        return DONE;
    }
    to_start(f);
    return BEGINNING_OF_TAPE;
}

/* Every request but an opening. */
static enum answer serve(struct work *w, enum request code, uint32_t granule, const uint8_t *given,
                         size_t given_size, uint8_t *buffer, size_t buffer_size)
{
    switch (code) {
    case READ:
        return read_record(w, buffer, buffer_size);
    case WRITE:
        return write_record(w, given, given_size);
    case GRANULE_READ:
        return read_granule(w, granule, buffer, buffer_size);
    case GRANULE_WRITE:
        return write_granule(w, granule, given, given_size);
    case GRANULE_LOOK:
        return check_look(w->entry, granule);
    case WRITE_MARK:
        return write_mark(w);
    case REWIND_ONLINE:
        return rewind_online(w);
    case REWIND_OFFLINE:
        return rewind_offline(w);
    case RECORD_FORWARD:
        return record_forward(w);
    case RECORD_BACK:
        return record_back(w);
    case FILE_FORWARD:
        return file_forward(w);
    case FILE_BACK:
        return file_back(w);
    default:
        return WRONG_SEQUENCE;
    }
}

/* ---- sessions ---- */

/* A session of either engine, to be looked at. */
struct desk {
    const struct entry *table;
    const struct open_file *file[MOST_OPEN];
    bool refused;
};

static struct desk plain_desk(const struct session *s)
{
    struct desk d = {.table = s->table, .refused = s->refused};
    for (int k = 0; k < MOST_OPEN; k++)
        d.file[k] = &s->files[k];
    return d;
}

static struct desk buffered_desk(const struct buffered_session *s)
{
    struct desk d = {.table = s->table, .refused = s->refused};
    for (int k = 0; k < MOST_OPEN; k++)
        d.file[k] = &s->files[k].file;
    return d;
}

static bool place_is_good(const struct entry *e, struct place p)
{
    return p.sector < e->sectors && p.byte <= SECTOR;
}

static bool file_is_good(const struct entry table[ENTRIES], const struct open_file *f)
{
    if (f->entry >= ENTRIES || table[f->entry].kind == FREE)
        return false;
    const struct entry *e = &table[f->entry];
    if (f->position > e->count)
        return false;
    if (f->beyond && ((e->flags & MARKED) == 0 || f->position != e->count))
        return false;
    return e->kind != COMPRESSED || (place_is_good(e, f->here) && place_is_good(e, f->end));
}

/* No used entry and no open file. */
static bool is_empty(const struct desk *d)
{
    for (int i = 0; i < ENTRIES; i++)
        if (d->table[i].kind != FREE)
            return false;
    for (int k = 0; k < MOST_OPEN; k++)
        if (d->file[k]->used)
            return false;
    return true;
}

/* The session is legal for an image of this size, but for what its buffers hold. */
static bool is_legal(const struct desk *d, size_t size)
{
    uint32_t sectors = sectors_of(size);
    if (sectors == 0 || !table_is_good(d->table, sectors))
        return false;
    for (int k = 0; k < MOST_OPEN; k++) {
        if (!d->file[k]->used)
            continue;
        if (!file_is_good(d->table, d->file[k]))
            return false;
        for (int j = 0; j < k; j++)
            if (d->file[j]->used && d->file[j]->entry == d->file[k]->entry)
                return false;
    }
    return !d->refused || is_empty(d);
}

/* Each held sector lies in its file's extent. Asked of a session that is legal else. */
static bool holds_are_legal(const struct buffered_session *s)
{
    for (int k = 0; k < MOST_OPEN; k++) {
        const struct buffered_file *b = &s->files[k];
        if (!b->file.used || !b->holds)
            continue;
        if (b->held >= s->table[b->file.entry].sectors)
            return false;
    }
    return true;
}

/* The state of an entry's open file, or -1. */
static int slot_of(const struct desk *d, size_t entry)
{
    for (int k = 0; k < MOST_OPEN; k++)
        if (d->file[k]->used && d->file[k]->entry == entry)
            return k;
    return -1;
}

/* The lowest state not in use, or -1. */
static int unused_slot(const struct desk *d)
{
    for (int k = 0; k < MOST_OPEN; k++)
        if (!d->file[k]->used)
            return k;
    return -1;
}

static bool no_such_entry(const struct desk *d, size_t entry)
{
    return entry >= ENTRIES || d->table[entry].kind == FREE;
}

/* The tests of an opening behind 12 and 8. A file that may be opened is in `fresh`, and `slot` is
   where it goes. */
static enum answer open_file(const struct desk *d, uint8_t *image, struct entry *e, size_t entry,
                             struct open_file *fresh, int *slot)
{
    if (slot_of(d, entry) >= 0)
        return ALREADY_OPEN;
    *slot = unused_slot(d);
    if (*slot < 0)
        return FIFTH_FILE;
    struct place end = {0, 0};
    if (e->kind == COMPRESSED && !find_end(image, e, &end))
        return BAD_IMAGE;
    *fresh = (struct open_file){.used = true, .entry = entry, .end = end};
    return DONE;
}

/* The granule, behind 12; of size 0 if it may not be looked at. */
static struct part look(const struct desk *d, const uint8_t *image, size_t entry, uint32_t granule)
{
    struct part none = {image, 0};
    if (no_such_entry(d, entry) || slot_of(d, entry) < 0)
        return none;
    const struct entry *e = &d->table[entry];
    if (check_look(e, granule) != DONE)
        return none;
    return (struct part){image + (size_t)SECTOR * e->first + granule_at(e, granule), e->length};
}

static struct spot position(const struct desk *d, size_t entry)
{
    int slot = slot_of(d, entry);
    if (slot < 0)
        return (struct spot){false, 0, false};
    return (struct spot){true, d->file[slot]->position, d->file[slot]->beyond};
}

/* ---- mounting ---- */

static bool read_table(const uint8_t *image, size_t size, struct entry table[ENTRIES])
{
    uint32_t sectors = sectors_of(size);
    if (sectors == 0)
        return false;
    for (int i = 0; i < ENTRIES; i++)
        table[i] = entry_at(image + ENTRY_BYTES * i);
    if (!table_is_good(table, sectors))
        return false;
    for (int i = 0; i < ENTRIES; i++) {
        struct place end;
        /* find_end only reads the image */
        if (table[i].kind == COMPRESSED && !find_end((uint8_t *)image, &table[i], &end))
            return false;
    }
    return true;
}

enum answer base_mount(const uint8_t *image, size_t size, struct session *s)
{
    memset(s, 0, sizeof *s);
    if (read_table(image, size, s->table))
        return DONE;
    memset(s->table, 0, sizeof s->table);
    s->refused = true;
    return BAD_IMAGE;
}

enum answer base_buffered_mount(const uint8_t *image, size_t size, struct buffered_session *s)
{
    memset(s, 0, sizeof *s);
    if (read_table(image, size, s->table))
        return DONE;
    memset(s->table, 0, sizeof s->table);
    s->refused = true;
    return BAD_IMAGE;
}

/* ---- requests ---- */

enum answer base_request(uint8_t *image, size_t size, struct session *s, size_t entry,
                         enum request code, uint32_t granule, const uint8_t *given,
                         size_t given_size, uint8_t *buffer, size_t buffer_size)
{
    struct desk d = plain_desk(s);
    if (!is_legal(&d, size))
        return NOT_LEGAL;
    if (no_such_entry(&d, entry))
        return NOT_THERE;
    struct entry *e = &s->table[entry];
    if (code == OPEN) {
        struct open_file fresh;
        int slot;
        enum answer a = open_file(&d, image, e, entry, &fresh, &slot);
        if (a == DONE)
            s->files[slot] = fresh;
        return a;
    }
    int slot = slot_of(&d, entry);
    if (slot < 0)
        return NOT_THERE;
    struct work w = {image, e, &s->files[slot], NULL};
    enum answer a = serve(&w, code, granule, given, given_size, buffer, buffer_size);
    if (code == REWIND_OFFLINE)
        s->files[slot] = (struct open_file){0};
    return a;
}

/* Only such a file has a buffer: nothing is read from, or put back for, any other. */
static bool has_buffer(const struct entry *e)
{
    return e->kind == BLOCKED || e->kind == COMPRESSED;
}

enum answer base_buffered_request(uint8_t *image, size_t size, struct buffered_session *s,
                                  size_t entry, enum request code, uint32_t granule,
                                  const uint8_t *given, size_t given_size, uint8_t *buffer,
                                  size_t buffer_size)
{
    struct desk d = buffered_desk(s);
    if (!is_legal(&d, size) || !holds_are_legal(s))
        return NOT_LEGAL;
    if (no_such_entry(&d, entry))
        return NOT_THERE;
    struct entry *e = &s->table[entry];
    if (code == OPEN) {
        struct open_file fresh;
        int slot;
        enum answer a = open_file(&d, image, e, entry, &fresh, &slot);
        if (a == DONE)
            s->files[slot] = (struct buffered_file){.file = fresh};
        return a;
    }
    int slot = slot_of(&d, entry);
    if (slot < 0)
        return NOT_THERE;
    struct buffered_file *b = &s->files[slot];
    struct work w = {image, e, &b->file, has_buffer(e) ? b : NULL};
    enum answer a = serve(&w, code, granule, given, given_size, buffer, buffer_size);
    if (code == REWIND_OFFLINE)
        *b = (struct buffered_file){0};
    return a;
}

struct part base_look(const uint8_t *image, size_t size, const struct session *s, size_t entry,
                      uint32_t granule)
{
    struct desk d = plain_desk(s);
    if (!is_legal(&d, size))
        return (struct part){image, 0};
    return look(&d, image, entry, granule);
}

struct part base_buffered_look(const uint8_t *image, size_t size,
                               const struct buffered_session *s, size_t entry, uint32_t granule)
{
    struct desk d = buffered_desk(s);
    if (!is_legal(&d, size) || !holds_are_legal(s))
        return (struct part){image, 0};
    return look(&d, image, entry, granule);
}

struct spot base_position(const struct session *s, size_t entry)
{
    struct desk d = plain_desk(s);
    return position(&d, entry);
}

struct spot base_buffered_position(const struct buffered_session *s, size_t entry)
{
    struct desk d = buffered_desk(s);
    return position(&d, entry);
}

/* ---- edits ---- */

/* The first sector of the lowest gap of so many, or the image's sectors if there is none. */
static uint32_t lowest_gap(const struct entry table[ENTRIES], uint32_t sectors, uint32_t n)
{
    uint32_t at = 1;
    while (at + n <= sectors) {
        uint32_t moved = at;
        for (int i = 0; i < ENTRIES; i++) {
            const struct entry *e = &table[i];
            if (e->kind != FREE && e->first < moved + n && moved < (uint32_t)e->first + e->sectors)
                moved = (uint32_t)e->first + e->sectors;
        }
        if (moved == at)
            return at;
        at = moved;
    }
    return sectors;
}

static void put_entry(uint8_t *b, const struct entry *e)
{
    memcpy(b, e->name, 8);
    put_word(b + 8, e->kind);
    put_word(b + 10, e->length);
    put_word(b + 12, e->first);
    put_word(b + 14, e->sectors);
    put_word(b + 16, e->count);
    put_word(b + 18, e->flags);
}

/* The tests of an adding behind 12, and its entry, in the table and in the image. */
static enum answer add(const struct desk *d, uint8_t *image, size_t size,
                       struct entry table[ENTRIES], const uint8_t *name, size_t name_size,
                       struct entry e, size_t *entry)
{
    size_t n = 0;
    if (d->refused)
        return BAD_IMAGE;
    if (name_size != 8 || !name_is_good(name))
        return BAD_NAME;
    if (e.kind == FREE || e.kind > RANDOM || !length_is_good(&e) || e.sectors == 0)
        return BAD_SHAPE;
    for (int i = 0; i < ENTRIES; i++)
        if (table[i].kind != FREE && memcmp(table[i].name, name, 8) == 0)
            return NAME_IN_USE;
    while (n < ENTRIES && table[n].kind != FREE)
        n++;
    if (n == ENTRIES)
        return NO_ENTRY;
    uint32_t sectors = sectors_of(size), first = lowest_gap(table, sectors, e.sectors);
    if (first == sectors)
        return NO_GAP;
    memcpy(e.name, name, 8);
    e.first = (uint16_t)first;
    table[n] = e;
    put_entry(image + ENTRY_BYTES * n, &e);
    *entry = n;
    return DONE;
}

/* The tests of a deleting behind 12; the entry is zeroed in the table and in the image. */
static enum answer delete_file(const struct desk *d, uint8_t *image, struct entry table[ENTRIES],
                               size_t entry)
{
    if (no_such_entry(d, entry))
        return NOT_THERE;
    if (slot_of(d, entry) >= 0)
        return ALREADY_OPEN;
    memset(&table[entry], 0, sizeof table[entry]);
    memset(image + ENTRY_BYTES * entry, 0, ENTRY_BYTES);
    return DONE;
}

static struct entry shaped(uint16_t kind, uint16_t length, uint16_t sectors)
{
    return (struct entry){.kind = kind, .length = length, .sectors = sectors};
}

enum answer base_add(uint8_t *image, size_t size, struct session *s, const uint8_t *name,
                     size_t name_size, uint16_t kind, uint16_t length, uint16_t sectors,
                     size_t *entry)
{
    struct desk d = plain_desk(s);
    if (!is_legal(&d, size))
        return NOT_LEGAL;
    return add(&d, image, size, s->table, name, name_size, shaped(kind, length, sectors), entry);
}

enum answer base_buffered_add(uint8_t *image, size_t size, struct buffered_session *s,
                              const uint8_t *name, size_t name_size, uint16_t kind,
                              uint16_t length, uint16_t sectors, size_t *entry)
{
    struct desk d = buffered_desk(s);
    if (!is_legal(&d, size) || !holds_are_legal(s))
        return NOT_LEGAL;
    return add(&d, image, size, s->table, name, name_size, shaped(kind, length, sectors), entry);
}

enum answer base_delete(uint8_t *image, size_t size, struct session *s, size_t entry)
{
    struct desk d = plain_desk(s);
    if (!is_legal(&d, size))
        return NOT_LEGAL;
    return delete_file(&d, image, s->table, entry);
}

enum answer base_buffered_delete(uint8_t *image, size_t size, struct buffered_session *s,
                                 size_t entry)
{
    struct desk d = buffered_desk(s);
    if (!is_legal(&d, size) || !holds_are_legal(s))
        return NOT_LEGAL;
    return delete_file(&d, image, s->table, entry);
}

/* ---- characters ---- */

/* From EBCDIC to ASCII. A full stop stands at each code that no listed character has. */
static const char ascii[256] __attribute__((nonstring)) =
    "................"
    "................"
    "................"
    "................"
    " ...........<(+."
    "&..........$*);."
    "-/.........,%_>?"
    "..........:#@'=\""
    "................"
    "................"
    "................"
    "................"
    ".ABCDEFGHI......"
    ".JKLMNOPQR......"
    "..STUVWXYZ......"
    "0123456789......";

/* And back. A blank, hex 40, which is @ here, stands at each character that is not listed. */
static const char ebcdic[256] __attribute__((nonstring)) =
    "@@@@@@@@@@@@@@@@"
    "@@@@@@@@@@@@@@@@"
    "@@\x7F\x7B\x5B\x6C\x50\x7D\x4D\x5D\x5C\x4E\x6B\x60\x4B\x61"
    "\xF0\xF1\xF2\xF3\xF4\xF5\xF6\xF7\xF8\xF9\x7A\x5E\x4C\x7E\x6E\x6F"
    "\x7C\xC1\xC2\xC3\xC4\xC5\xC6\xC7\xC8\xC9\xD1\xD2\xD3\xD4\xD5\xD6"
    "\xD7\xD8\xD9\xE2\xE3\xE4\xE5\xE6\xE7\xE8\xE9@@@@\x6D"
    "@@@@@@@@@@@@@@@@"
    "@@@@@@@@@@@@@@@@"
    "@@@@@@@@@@@@@@@@"
    "@@@@@@@@@@@@@@@@"
    "@@@@@@@@@@@@@@@@"
    "@@@@@@@@@@@@@@@@"
    "@@@@@@@@@@@@@@@@"
    "@@@@@@@@@@@@@@@@"
    "@@@@@@@@@@@@@@@@"
    "@@@@@@@@@@@@@@@@";

/* ---- the listing ---- */

struct text {
    char *out;
    size_t room, size;
};

static void put_char(struct text *t, char c)
{
    if (t->size < t->room)
        t->out[t->size] = c;
    t->size++;
}

static void put_string(struct text *t, const char *s)
{
    while (*s != 0)
        put_char(t, *s++);
}

static void put_number(struct text *t, uint32_t n)
{
    char digits[10];
    int k = 0;
    do {
        digits[k++] = (char)('0' + n % 10);
        n /= 10;
    } while (n > 0);
    while (k > 0)
        put_char(t, digits[--k]);
}

static void put_line(struct text *t, uint32_t number, const struct entry *e)
{
    const uint32_t numbers[] = {e->kind, e->length, e->first, e->sectors, e->count, e->flags};
    put_number(t, number);
    put_char(t, ' ');
    for (int i = 0; i < 8 && e->name[i] != BLANK; i++)
        put_char(t, ascii[e->name[i]]);
    for (int i = 0; i < 6; i++) {
        put_char(t, ' ');
        put_number(t, numbers[i]);
    }
    put_char(t, '\n');
}

/* Not too long to be listed. */
static bool is_short(size_t size)
{
    return size <= (size_t)MOST_LISTED * SECTOR;
}

size_t base_list(const uint8_t *image, size_t size, char *out, size_t room)
{
    struct text t = {out, room, 0};
    struct entry table[ENTRIES];
    if (!is_short(size) || !read_table(image, size, table)) {
        put_string(&t, "BAD IMAGE\n");
        return t.size;
    }
    put_string(&t, "FILE NAME KIND RECORD FIRST SECTORS COUNT FLAGS\n");
    for (uint32_t i = 0; i < ENTRIES; i++)
        if (table[i].kind != FREE)
            put_line(&t, i, &table[i]);
    return t.size;
}

/* ---- the pass listing ---- */

/* The eight bytes of a name as it is typed; of one that is no file's, false. */
static bool read_name(const char *typed, size_t size, uint8_t name[8])
{
    if (size == 0 || size > 8)
        return false;
    memset(name, BLANK, 8);
    for (size_t i = 0; i < size; i++) {
        name[i] = (uint8_t)ebcdic[(uint8_t)typed[i]];
        if (ascii[name[i]] != typed[i])
            return false;
    }
    return true;
}

/* The sequential file of that name in the table of a mounted image. */
static enum answer find_shown(const struct entry table[ENTRIES], const char *typed, size_t size,
                              size_t *entry)
{
    uint8_t name[8];
    if (!read_name(typed, size, name))
        return NOT_THERE;
    size_t i = 0;
    while (i < ENTRIES && (table[i].kind == FREE || memcmp(table[i].name, name, 8) != 0))
        i++;
    if (i == ENTRIES)
        return NOT_THERE;
    *entry = i;
    return table[i].kind == RANDOM ? WRONG_SEQUENCE : DONE;
}

/* The line of a number, as far as there is room. */
static size_t put_answer(enum answer a, char *out, size_t room)
{
    struct text t = {out, room, 0};
    put_string(&t, "ANSWER ");
    put_number(&t, a);
    put_char(&t, '\n');
    return t.size < room ? t.size : room;
}

/* What is printed before the first read. */
static size_t print_first(enum answer a, char *out, size_t room)
{
    return a == DONE ? 0 : put_answer(a, out, room);
}

/* The room for a record in a room for its line, which has a byte more; 0 if that is too small. */
static size_t record_room(size_t length, size_t room)
{
    return length < room ? length : 0;
}

/* Makes the record of n bytes in out its line. */
static size_t make_line(char *out, size_t n)
{
    while (n > 0 && out[n - 1] == BLANK)
        n--;
    for (size_t i = 0; i < n; i++)
        out[i] = ascii[(uint8_t)out[i]];
    out[n] = '\n';
    return n + 1;
}

/* What a read prints that had n bytes of out for its record. */
static size_t print_read(enum answer a, char *out, size_t n, size_t room)
{
    if (a == DONE)
        return make_line(out, n);
    return a == END_OF_FILE || a == WRONG_SEQUENCE ? 0 : put_answer(a, out, room);
}

enum answer base_show(uint8_t *image, size_t size, struct session *s, const char *name,
                      size_t name_size, size_t *entry, size_t *length, char *out, size_t room,
                      size_t *put)
{
    size_t i = 0;
    enum answer a = is_short(size) ? base_mount(image, size, s) : BAD_IMAGE;
    if (a == DONE)
        a = find_shown(s->table, name, name_size, &i);
    if (a == DONE)
        a = base_request(image, size, s, i, OPEN, 0, NULL, 0, NULL, 0);
    if (a == DONE) {
        *entry = i;
        *length = s->table[i].length;
    }
    *put = print_first(a, out, room);
    return a;
}

enum answer base_buffered_show(uint8_t *image, size_t size, struct buffered_session *s,
                               const char *name, size_t name_size, size_t *entry, size_t *length,
                               char *out, size_t room, size_t *put)
{
    size_t i = 0;
    enum answer a = is_short(size) ? base_buffered_mount(image, size, s) : BAD_IMAGE;
    if (a == DONE)
        a = find_shown(s->table, name, name_size, &i);
    if (a == DONE)
        a = base_buffered_request(image, size, s, i, OPEN, 0, NULL, 0, NULL, 0);
    if (a == DONE) {
        *entry = i;
        *length = s->table[i].length;
    }
    *put = print_first(a, out, room);
    return a;
}

enum answer base_line(uint8_t *image, size_t size, struct session *s, size_t entry, size_t length,
                      char *out, size_t room, size_t *put)
{
    size_t n = record_room(length, room);
    enum answer a = base_request(image, size, s, entry, READ, 0, NULL, 0, (uint8_t *)out, n);
    *put = print_read(a, out, n, room);
    return a;
}

enum answer base_buffered_line(uint8_t *image, size_t size, struct buffered_session *s,
                               size_t entry, size_t length, char *out, size_t room, size_t *put)
{
    size_t n = record_room(length, room);
    enum answer a =
        base_buffered_request(image, size, s, entry, READ, 0, NULL, 0, (uint8_t *)out, n);
    *put = print_read(a, out, n, room);
    return a;
}
