#include "workloads.h"

#include <stdlib.h>
#include <string.h>

#include "../base.h"
#include "images.h"
#include "side.h"

static _Alignas(64) uint8_t image[(size_t)MOST_SECTORS * SECTOR];
static _Alignas(64) uint8_t before[(size_t)MOST_SECTORS * SECTOR];
static struct side_session session;
static _Alignas(64) uint8_t buffer[3600];
static size_t size; /* of the image */

/* Of the workload. */
static const struct side_engine *engine;
static size_t entry;  /* the file that it is about */
static size_t blanks; /* between two characters of the record that it encodes */

/* One request without a granule. */
static unsigned ask(size_t file, enum request code, const uint8_t *given, size_t given_size,
                    size_t buffer_size)
{
    return engine->request(image, size, &session, file, code, 0, given, given_size, buffer,
                           buffer_size);
}

/* A step of preparation that must be answered 0. */
static void must(unsigned answer)
{
    if (answer != DONE)
        abort();
}

static uint32_t mix(uint32_t sum, uint32_t x)
{
    return (sum << 5 | sum >> 27) ^ x;
}

/* What a read left: its answer, and three bytes of the record. */
static uint32_t mix_read(uint32_t sum, unsigned answer, size_t length)
{
    return mix(sum, answer << 24 | (uint32_t)buffer[0] << 16 | (uint32_t)buffer[length / 2] << 8 |
                        buffer[length - 1]);
}

/* A sum over all bytes of the image, once at the end of a writing iteration would cost more than
   the writing: a few bytes of each eighth sector. */
static uint32_t mix_image(uint32_t sum)
{
    for (size_t i = 0; i < size; i += 8 * SECTOR)
        sum = mix(sum, (uint32_t)image[i] << 8 | image[i + 100]);
    return sum;
}

/* ---- mounting ---- */

static size_t prepare_mount(void)
{
    size = (size_t)FULL_SECTORS * SECTOR;
    make_full(image);
    return 1;
}

static uint32_t mount(void)
{
    return engine->mount(image, size, &session);
}

/* ---- streams ---- */

/* Mounts the station's image, which is made already, and opens a file. */
static void open_station(void)
{
    size = (size_t)STATION_SECTORS * SECTOR;
    must(engine->mount(image, size, &session));
    must(ask(entry, OPEN, NULL, 0, 0));
}

static size_t prepare_stream(void)
{
    make_station(image);
    open_station();
    return STREAM;
}

/* Rewinds and writes STREAM records. */
static uint32_t write_stream(const uint8_t *records, size_t length)
{
    uint32_t sum = ask(entry, REWIND_ONLINE, NULL, 0, 0);
    for (size_t i = 0; i < STREAM; i++)
        sum = mix(sum, ask(entry, WRITE, records + length * (i % LINES), length, 0));
    return mix_image(sum);
}

/* Rewinds and reads STREAM records. */
static uint32_t read_stream(size_t length)
{
    uint32_t sum = ask(entry, REWIND_ONLINE, NULL, 0, 0);
    for (size_t i = 0; i < STREAM; i++)
        sum = mix_read(sum, ask(entry, READ, NULL, 0, length), length);
    return sum;
}

static uint32_t write_blocked(void)
{
    return write_stream(frames[0], 60);
}

static uint32_t read_blocked(void)
{
    return read_stream(60);
}

static uint32_t write_packed(void)
{
    return write_stream(lines[0], 80);
}

static uint32_t read_packed(void)
{
    return read_stream(80);
}

/* ---- granules ---- */

enum { GRANULE_STEPS = 1000 };

/* The granules of the random file: how many there are, and how long one is. */
static size_t granules, granule_length;

static size_t open_granules(size_t many, size_t length)
{
    granules = many;
    granule_length = length;
    open_station();
    return GRANULE_STEPS;
}

static size_t prepare_granules(void)
{
    make_station(image);
    return open_granules(TABLES_GRANULES, SECTOR);
}

static size_t prepare_small_granules(void)
{
    make_small_granules(image);
    return open_granules(SMALL_GRANULES, SMALL_GRANULE);
}

static uint32_t granule_of(size_t i)
{
    return (uint32_t)(i * 211 % granules);
}

static uint32_t read_granules(void)
{
    uint32_t sum = 0;
    for (size_t i = 0; i < GRANULE_STEPS; i++)
        sum = mix_read(sum,
                       engine->request(image, size, &session, entry, GRANULE_READ, granule_of(i),
                                       NULL, 0, buffer, granule_length),
                       granule_length);
    return sum;
}

static uint32_t write_granules(void)
{
    uint32_t sum = 0;
    for (size_t i = 0; i < GRANULE_STEPS; i++)
        sum = mix(sum, engine->request(image, size, &session, entry, GRANULE_WRITE, granule_of(i),
                                       frames[0] + 60 * (i % (LINES - 6)), granule_length, NULL, 0));
    return mix_image(sum);
}

static uint32_t look_granules(void)
{
    uint32_t sum = 0;
    for (size_t i = 0; i < GRANULE_STEPS; i++)
        sum = mix(sum, (uint32_t)engine->look(image, size, &session, entry, granule_of(i)));
    return sum;
}

/* ---- one record ---- */

static uint8_t codes[LINES][LONGEST_CODE];

static size_t prepare_codes(void)
{
    for (size_t i = 0; i < LINES; i++)
        base_encode(lines[i], 80, codes[i]);
    return LINES;
}

static uint32_t decode_lines(void)
{
    uint32_t sum = 0;
    for (size_t i = 0; i < LINES; i++)
        sum = mix_read(sum, (unsigned)side_decode(codes[i], LONGEST_CODE, buffer, 80), 80);
    return sum;
}

/* Encodes LINES records of one length, each so many bytes behind the one before it. */
static uint32_t encode_records(const uint8_t *records, size_t apart, size_t length)
{
    uint32_t sum = 0;
    for (size_t i = 0; i < LINES; i++) {
        size_t n = side_encode(records + apart * i, length, buffer, LONGEST_CODE);
        sum = mix_read(sum, (unsigned)n, n);
    }
    return sum;
}

static uint32_t encode_lines(void)
{
    return encode_records(lines[0], 80, 80);
}

/* ---- blanks ---- */

/* A record of the greatest length: a character, blanks, a character, blanks .. a character, as far
   as whole runs fit. A step is one blank. */
enum { GAPPED_SIZE = 132 };

static uint8_t gapped[GAPPED_SIZE];
static size_t gapped_size;

static size_t prepare_gapped(void)
{
    const size_t runs = (GAPPED_SIZE - 1) / (blanks + 1);
    gapped_size = runs * (blanks + 1) + 1;
    memset(gapped, 0x40, gapped_size);
    for (size_t i = 0; i < gapped_size; i += blanks + 1)
        gapped[i] = 0xC1;
    return LINES * runs * blanks;
}

static uint32_t encode_gapped(void)
{
    return encode_records(gapped, 0, gapped_size);
}

/* ---- the listing ---- */

static size_t prepare_list(void)
{
    size = (size_t)LISTED_SECTORS * SECTOR;
    make_listed(image);
    return 1;
}

static uint32_t list_image(void)
{
    size_t n = side_list(image, size, buffer, sizeof buffer);
    uint32_t sum = (uint32_t)n;
    for (size_t i = 0; i < n && i < sizeof buffer; i++)
        sum = mix(sum, buffer[i]);
    return sum;
}

/* ---- the pass listing ---- */

enum { LINE_ROOM = 81 };

static size_t line_length; /* of the file's records */

/* Mounts the log and opens it by its name, which tells its entry. */
static unsigned show(void)
{
    size_t text;
    return engine->show(image, size, &session, LOG_NAME, sizeof LOG_NAME - 1, &entry, &line_length,
                        buffer, LINE_ROOM, &text);
}

static size_t open_log(unsigned kind)
{
    size = (size_t)LOG_SECTORS * SECTOR;
    size_t count = make_log(image, kind);
    must(show());
    return count;
}

static size_t prepare_packed_log(void)
{
    return open_log(COMPRESSED);
}

static size_t prepare_blocked_log(void)
{
    return open_log(BLOCKED);
}

static size_t prepare_show(void)
{
    open_log(COMPRESSED);
    return 1;
}

static uint32_t begin_listing(void)
{
    unsigned answer = show();
    return mix(answer, (uint32_t)(entry << 16 | line_length));
}

/* Rewinds and prints every line. */
static uint32_t print_log(void)
{
    uint32_t sum = ask(entry, REWIND_ONLINE, NULL, 0, 0);
    unsigned answer;
    do {
        size_t text = 0;
        answer = engine->line(image, size, &session, entry, line_length, buffer, LINE_ROOM, &text);
        sum = mix(mix_read(sum, answer, LINE_ROOM), (uint32_t)(text << 8 | buffer[text / 2]));
    } while (answer == DONE);
    return sum;
}

/* ---- refusals ---- */

enum { REFUSALS = 1000, REFUSED_OPENINGS = 20 };

/* A read of an open random file, with four files in the directory. */
static size_t prepare_refused(void)
{
    prepare_stream();
    return REFUSALS;
}

/* The same with eighteen files in the directory, four of them open. */
enum { FULL_TABLES = 17 };

static size_t prepare_full(void)
{
    size = (size_t)FULL_SECTORS * SECTOR;
    make_full(image);
    must(engine->mount(image, size, &session));
    must(ask(0, OPEN, NULL, 0, 0));
    must(ask(2, OPEN, NULL, 0, 0));
    must(ask(4, OPEN, NULL, 0, 0));
    must(ask(entry, OPEN, NULL, 0, 0));
    return REFUSALS;
}

static uint32_t refuse_reads(void)
{
    uint32_t sum = 0;
    for (size_t i = 0; i < REFUSALS; i++)
        sum = mix(sum, ask(entry, READ, NULL, 0, 360));
    return sum;
}

/* Opening the compressed file, as full as it can be, once more. */
static size_t prepare_reopen(void)
{
    size = (size_t)STATION_SECTORS * SECTOR;
    make_full_station(image);
    must(engine->mount(image, size, &session));
    must(ask(entry, OPEN, NULL, 0, 0));
    return REFUSED_OPENINGS;
}

static uint32_t refuse_openings(void)
{
    uint32_t sum = 0;
    for (size_t i = 0; i < REFUSED_OPENINGS; i++)
        sum = mix(sum, ask(entry, OPEN, NULL, 0, 0));
    return sum;
}

/* ---- edits ---- */

/* Each edit has a session of its own, so that all find the same; two iterations have as many. */
enum { EDITS = 500, DELETED = 8 };

static struct side_session edited[2 * EDITS];
static size_t edits; /* how many are done */

static size_t prepare_edits(void)
{
    size = (size_t)FRAGMENTED_SECTORS * SECTOR;
    make_fragmented(image);
    must(engine->mount(image, size, &session));
    for (size_t i = 0; i < 2 * EDITS; i++)
        memcpy(&edited[i], &session, sizeof session);
    return EDITS;
}

/* A file of four sectors, which the lowest gap behind all the others holds. */
static uint32_t add_files(void)
{
    static const uint8_t name[8] = {0xE9, 0xE9, 0xF0, 0xF1, 0x40, 0x40, 0x40, 0x40};
    uint32_t sum = 0;
    for (size_t i = 0; i < EDITS; i++) {
        size_t added = 0;
        sum = mix(sum, engine->add(image, size, &edited[edits++], name, 8, BLOCKED, 80, 4, &added));
        sum = mix(sum, (uint32_t)added << 16 | (uint32_t)image[ENTRY_BYTES * added + 13]);
    }
    return sum;
}

static uint32_t delete_files(void)
{
    uint32_t sum = 0;
    for (size_t i = 0; i < EDITS; i++) {
        sum = mix(sum, engine->remove(image, size, &edited[edits++], entry));
        sum = mix(sum, image[ENTRY_BYTES * entry]);
    }
    return sum;
}

/* ---- sector writes: no instructions are counted here; the sum is the number of sectors that
   differ in the image behind a request from before it, over all requests of a stream ---- */

enum { SECTOR_STREAM = 500 };

static uint32_t changed_sectors(void)
{
    uint32_t n = 0;
    for (size_t i = 0; i < size; i += SECTOR)
        if (memcmp(image + i, before + i, SECTOR) != 0) {
            memcpy(before + i, image + i, SECTOR);
            n++;
        }
    return n;
}

/* A rewind, SECTOR_STREAM writes of records that differ from what stands there, and a close. */
static uint32_t count_sectors(const uint8_t *records, size_t length)
{
    uint32_t n = 0;
    memcpy(before, image, size);
    must(ask(entry, REWIND_ONLINE, NULL, 0, 0));
    n += changed_sectors();
    for (size_t i = 0; i < SECTOR_STREAM; i++) {
        must(ask(entry, WRITE, records + length * ((i + 7) % LINES), length, 0));
        n += changed_sectors();
    }
    must(ask(entry, REWIND_OFFLINE, NULL, 0, 0));
    n += changed_sectors();
    must(ask(entry, OPEN, NULL, 0, 0));
    return n;
}

static uint32_t count_blocked(void)
{
    make_station(image);
    return count_sectors(frames[0], 60);
}

static uint32_t count_packed(void)
{
    make_station(image);
    return count_sectors(lines[0], 80);
}

/* ---- all of them ---- */

/* One by each engine, about the same file. */
#define BOTH(name, about, file, prepare, run)                          \
    {name "-plain", about, &side_plain, file, 0, prepare, run},        \
    {name "-buffered", "the same, buffered", &side_buffered, file, 0, prepare, run}
/* One by no engine, about no file. */
#define ALONE(name, about, blanks, prepare, run) {name, about, NULL, 0, blanks, prepare, run}
/* Encoding a record with so many blanks between its characters. */
#define BLANKS(n)                                                                          \
    ALONE("blanks-" #n, "encoding, " #n " blanks between characters: a step is one blank", \
          n, prepare_gapped, encode_gapped)

const struct workload workloads[] = {
    BOTH("mount", "mounting 4,096 sectors, 18 full files", 0, prepare_mount, mount),
    BOTH("blocked-write", "writing 10,000 records of 60 bytes", BUSLOG, prepare_stream,
         write_blocked),
    BOTH("blocked-read", "reading 10,000 records of 60 bytes", BUSLOG, prepare_stream,
         read_blocked),
    BOTH("packed-write", "writing 10,000 compressed records of 80", PASSA, prepare_stream,
         write_packed),
    BOTH("packed-read", "reading 10,000 compressed records of 80", PASSA, prepare_stream,
         read_packed),
    BOTH("granule-read", "reading 1,000 granules of 360", TABLES, prepare_granules,
         read_granules),
    BOTH("granule-write", "writing 1,000 granules of 360", TABLES, prepare_granules,
         write_granules),
    BOTH("granule-look", "looking at 1,000 granules of 360", TABLES, prepare_granules,
         look_granules),
    BOTH("granule-read-60", "reading 1,000 granules of 60", TABLES, prepare_small_granules,
         read_granules),
    BOTH("granule-write-60", "writing 1,000 granules of 60", TABLES, prepare_small_granules,
         write_granules),
    BOTH("granule-look-60", "looking at 1,000 granules of 60", TABLES, prepare_small_granules,
         look_granules),
    ALONE("decode", "decoding 1,000 records of 80", 0, prepare_codes, decode_lines),
    ALONE("encode", "encoding 1,000 records of 80", 0, prepare_codes, encode_lines),
    BLANKS(2),
    BLANKS(10),
    BLANKS(64),
    BLANKS(127),
    BLANKS(130),
    ALONE("list", "listing 180 sectors, 18 files", 0, prepare_list, list_image),
    BOTH("show", "beginning a pass listing: 180 sectors, one full compressed file", 0, prepare_show,
         begin_listing),
    BOTH("line-packed", "every line of that file, records of 80", 0, prepare_packed_log, print_log),
    BOTH("line-blocked", "every line of a blocked file, records of 80, 4 files", 0, prepare_blocked_log,
         print_log),
    BOTH("refused", "1,000 reads of an open random file (7), 4 files", TABLES, prepare_refused,
         refuse_reads),
    BOTH("refused-full", "the same, 18 files and 4 of them open", FULL_TABLES, prepare_full,
         refuse_reads),
    BOTH("reopen", "20 openings of an open full compressed file (9)", PASSA, prepare_reopen,
         refuse_openings),
    BOTH("add", "500 times ADD, 17 files, fragmented", 0, prepare_edits, add_files),
    BOTH("delete", "500 times DELETE, 17 files", DELETED, prepare_edits, delete_files),
    BOTH("sectors-blocked", "sum: sectors changed by 500 blocked writes", BUSLOG, prepare_stream,
         count_blocked),
    BOTH("sectors-packed", "sum: sectors changed by 500 compressed writes", PASSA, prepare_stream,
         count_packed),
};
const size_t workload_count = sizeof workloads / sizeof *workloads;

size_t prepare(const struct workload *w)
{
    engine = w->engine;
    entry = w->entry;
    blanks = w->blanks;
    return w->prepare();
}
