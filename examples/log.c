/* Logs one pass on an image: finds its files by name, writes frames into the blocked file TRACE and a line into the compressed
   file PASSLOG, with the buffered engine; closes both, lists the directory, and reads the last line back. It writes a granule
   of CALIB and looks at it in place. Then it adds a file REMARKS and writes a line into it, and deletes NOTES. Last it shows
   two files as lines of text, and tries a random one.

       log IMAGE

   The image is read, changed in memory, and written back. examples/run builds this and runs it on a copy of
   images/station.img. */
#include <stdint.h>
#include <stdio.h>
#include <string.h>

#include "../include/lleuadrys.h"

enum { FRAME = 180, LINE = 80, GRANULE = 60 };

/* What the constants of the header are among themselves; is_as_linked sees that they are the library's. */
_Static_assert(LLEUADRYS_ENTRIES * 20 == LLEUADRYS_SECTOR, "the directory fills a sector");
_Static_assert(LLEUADRYS_BUFFERED_SESSION == LLEUADRYS_SESSION + LLEUADRYS_MOST_OPEN * (LLEUADRYS_SECTOR + 6),
               "a buffer for each open file, and what it holds");
_Static_assert(LLEUADRYS_LONGEST_CODE == LLEUADRYS_LONGEST_COMPRESSED + 3, "a code has at most three bytes more");
_Static_assert(LLEUADRYS_LONGEST_LINE == LLEUADRYS_LONGEST_RECORD + 1, "a line has its end besides");

static uint8_t image[LLEUADRYS_MOST_SECTORS * LLEUADRYS_SECTOR];
static size_t image_size;
static uint8_t session[LLEUADRYS_BUFFERED_SESSION];

/* The entries of the files. */
static size_t passlog, curves, trace, calib;

/* Room for what is read. */
static uint8_t text[LLEUADRYS_LONGEST_RECORD];

/* A character in EBCDIC. */
static uint8_t to_ebcdic(char c) { return lleuadrys_to_ebcdic((uint8_t)c); }

/* A request that is given bytes: its answer. */
static unsigned give(size_t entry, enum lleuadrys_code code, uint32_t granule, const uint8_t *given, size_t given_size)
{
    return lleuadrys_request(image, image_size, session, sizeof session, entry, code, granule, given, given_size, text,
                             sizeof text);
}

/* A read, into text. */
static unsigned read_next(size_t entry)
{
    static const uint8_t nothing[1];
    return give(entry, LLEUADRYS_READ, 0, nothing, 0);
}

/* A request that needs no bytes. */
static unsigned order(size_t entry, enum lleuadrys_code code)
{
    return lleuadrys_order(image, image_size, session, sizeof session, entry, code);
}

/* Says what was done and how it was answered. */
static void say(const char *what, unsigned answer)
{
    uint8_t words[LLEUADRYS_LONGEST_WORDS];
    size_t n = lleuadrys_words((uint16_t)answer, words, sizeof words);
    printf("%s: %u, %.*s\n", what, answer, (int)n, (const char *)words);
}

/* Room for a name, and one in it, with blanks behind it. */
static uint8_t wanted[LLEUADRYS_NAME];

static void want(const char *name)
{
    size_t n = 0;
    for (size_t i = 0; i < sizeof wanted; i++)
        wanted[i] = name[n] != 0 ? to_ebcdic(name[n++]) : 0x40;
}

/* The entry of that name. */
static unsigned find(const char *name, size_t *entry)
{
    want(name);
    return lleuadrys_find(session, sizeof session, wanted, sizeof wanted, entry);
}

/* Adds a compressed file of that name; its entry. */
static unsigned add(const char *name, uint16_t sectors, size_t *entry)
{
    want(name);
    return lleuadrys_add(image, image_size, session, sizeof session, wanted, sizeof wanted, LLEUADRYS_COMPRESSED, LINE,
                         sectors, entry);
}

/* A frame of telemetry: its number in two bytes, then a ramp. */
static unsigned write_frame(unsigned k)
{
    uint8_t frame[FRAME];
    frame[0] = (uint8_t)(k / 256);
    frame[1] = (uint8_t)(k % 256);
    for (size_t i = 2; i < FRAME; i++)
        frame[i] = (uint8_t)(7 * i + k);
    return give(trace, LLEUADRYS_WRITE, 0, frame, FRAME);
}

static unsigned write_line(size_t entry, const char *line)
{
    uint8_t out[LINE];
    size_t n = 0;
    while (line[n] != 0 && n < LINE) {
        out[n] = to_ebcdic(line[n]);
        n++;
    }
    if (n % 2 == 1)
        out[n++] = 0x40; /* a write takes an even number of bytes */
    return give(entry, LLEUADRYS_WRITE, 0, out, n);
}

static void print_record(size_t entry)
{
    size_t n = lleuadrys_field(session, sizeof session, entry, LLEUADRYS_RECORD);
    while (0 < n && text[n - 1] == 0x40)
        n--;
    for (size_t i = 0; i < n; i++)
        printf("%c", lleuadrys_to_ascii(text[i]));
    printf("\n");
}

static void print_position(const char *name, size_t entry)
{
    static const char *const words[] = {"not open", "open", "beyond the mark"};
    uint32_t record = 0;
    uint16_t stands = lleuadrys_position(session, sizeof session, entry, &record);
    printf("%s is %s, at record %u of %u\n", name, words[stands], (unsigned)record,
           (unsigned)lleuadrys_field(session, sizeof session, entry, LLEUADRYS_COUNT));
}

static void print_listing(void)
{
    uint8_t out[LLEUADRYS_LONGEST_LISTING];
    size_t n = lleuadrys_list(image, image_size, out, sizeof out);
    fwrite(out, 1, n, stdout);
}

/* Finds the files; whether each is there. */
static int find_files(void)
{
    size_t none = 0;
    say("finding PASSLOG", find("PASSLOG", &passlog));
    say("finding CURVES", find("CURVES", &curves));
    say("finding TRACE", find("TRACE", &trace));
    say("finding CALIB", find("CALIB", &calib));
    say("finding TRACES", find("TRACES", &none));
    return lleuadrys_field(session, sizeof session, passlog, LLEUADRYS_KIND) == LLEUADRYS_COMPRESSED
        && lleuadrys_field(session, sizeof session, curves, LLEUADRYS_KIND) == LLEUADRYS_RANDOM
        && lleuadrys_field(session, sizeof session, trace, LLEUADRYS_RECORD) == FRAME
        && lleuadrys_field(session, sizeof session, calib, LLEUADRYS_RECORD) == GRANULE;
}

/* Logs the pass on a mounted image. */
static void log_pass(void)
{
    static const uint8_t granule[2];
    say("opening TRACE", order(trace, LLEUADRYS_OPEN));
    say("opening PASSLOG", order(passlog, LLEUADRYS_OPEN));
    unsigned a = LLEUADRYS_DONE;
    while (a == LLEUADRYS_DONE)
        a = order(passlog, LLEUADRYS_RECORD_FORWARD);
    say("behind the last line", a);
    a = LLEUADRYS_DONE;
    unsigned k = 0;
    while (k < 20 && (a = write_frame(k)) == LLEUADRYS_DONE)
        k++;
    printf("frames written: %u\n", k);
    say("one more", a);
    say("a line", write_line(passlog, "PASS 424   AOS 184694   LOS 185803   MAX EL 76   FRAMES 576"));
    say("a granule of CURVES", give(curves, LLEUADRYS_GRANULE_WRITE, 0, granule, sizeof granule));
    print_position("TRACE", trace);
    print_position("PASSLOG", passlog);
    say("a mark behind the frames", order(trace, LLEUADRYS_WRITE_MARK));
    print_position("TRACE", trace);
    say("closing TRACE", order(trace, LLEUADRYS_REWIND_OFFLINE));
    say("closing PASSLOG", order(passlog, LLEUADRYS_REWIND_OFFLINE));
}

/* Reads the last line of PASSLOG back, with the image mounted afresh. */
static void read_back(void)
{
    say("mounting", lleuadrys_mount(image, image_size, session, sizeof session));
    say("opening PASSLOG", order(passlog, LLEUADRYS_OPEN));
    while (read_next(passlog) == LLEUADRYS_DONE)
        continue;
    print_record(passlog);
    say("closing PASSLOG", order(passlog, LLEUADRYS_REWIND_OFFLINE));
}

/* Looks at a granule of CALIB in place, and says where it lies and which two words it begins with. */
static void print_granule(uint32_t granule)
{
    size_t at = 0, n = lleuadrys_look(image, image_size, session, sizeof session, calib, granule, &at);
    const uint8_t *shown = image + at;
    printf("granule %u: %zu bytes from byte %zu of sector %zu on, with %u and %u\n", (unsigned)granule, n,
           at % LLEUADRYS_SECTOR, at / LLEUADRYS_SECTOR, shown[0] * 256u + shown[1], shown[2] * 256u + shown[3]);
}

/* Writes a granule of CALIB, in which six lie in a sector: the ones beside it are as they were. */
static void calibrate(void)
{
    static const uint8_t points[2] = {0x01, 0x02};
    say("opening CALIB", order(calib, LLEUADRYS_OPEN));
    say("granule 7 of CALIB", give(calib, LLEUADRYS_GRANULE_WRITE, 7, points, sizeof points));
    for (uint32_t granule = 6; granule <= 8; granule++)
        print_granule(granule);
    say("granule 12 of CALIB", give(calib, LLEUADRYS_GRANULE_WRITE, 12, points, sizeof points));
    say("closing CALIB", order(calib, LLEUADRYS_REWIND_OFFLINE));
}

/* Adds REMARKS, writes a line into it, and deletes NOTES, whose sectors are then free. */
static void edit_directory(void)
{
    size_t remarks = 0, notes = 0;
    say("adding REMARKS with 60 sectors", add("REMARKS", 60, &remarks));
    say("with 2", add("REMARKS", 2, &remarks));
    say("once more", add("REMARKS", 2, &remarks));
    say("opening REMARKS", order(remarks, LLEUADRYS_OPEN));
    say("a line", write_line(remarks, "NOTES ARE ON PAPER NOW"));
    say("finding NOTES", find("NOTES", &notes));
    say("deleting NOTES", lleuadrys_delete(image, image_size, session, sizeof session, notes));
    say("deleting REMARKS", lleuadrys_delete(image, image_size, session, sizeof session, remarks));
    say("closing REMARKS", order(remarks, LLEUADRYS_REWIND_OFFLINE));
    print_listing();
}

/* Shows a file as lines of text, with a session of its own. */
static void show(const char *name)
{
    uint8_t lent[LLEUADRYS_SESSION], line[LLEUADRYS_LONGEST_LINE];
    size_t entry = 0, length = 0, size = 0;
    printf("showing %s\n", name);
    unsigned a = lleuadrys_show(image, image_size, lent, sizeof lent, (const uint8_t *)name, strlen(name), &entry, &length,
                                line, sizeof line, &size);
    fwrite(line, 1, size, stdout);
    while (a == LLEUADRYS_DONE) {
        a = lleuadrys_line(image, image_size, lent, sizeof lent, entry, length, line, sizeof line, &size);
        fwrite(line, 1, size, stdout);
    }
}

/* Whether this was compiled for the library that is linked: each constant is what a call says. */
static int is_as_linked(void)
{
    uint8_t sector[LLEUADRYS_SECTOR] = {0}, record[LLEUADRYS_LONGEST_COMPRESSED], room[4096];
    size_t longest = 0;
    for (unsigned k = 0; k < 20; k++) {
        size_t n = lleuadrys_words((uint16_t)k, room, sizeof room);
        longest = longest < n ? n : longest;
    }
    for (size_t i = 0; i < sizeof record; i++)
        record[i] = 0xC1;
    return lleuadrys_version() == LLEUADRYS_VERSION && lleuadrys_session_size() == LLEUADRYS_SESSION
        && lleuadrys_buffered_session_size() == LLEUADRYS_BUFFERED_SESSION && longest == LLEUADRYS_LONGEST_WORDS
        && lleuadrys_encode(record, sizeof record, room, sizeof room) == LLEUADRYS_LONGEST_CODE
        && lleuadrys_mount(sector, sizeof sector, session, sizeof session) == LLEUADRYS_DONE
        && lleuadrys_mount(sector, sizeof sector - 1, session, sizeof session) == LLEUADRYS_BAD_IMAGE;
}

int main(int argc, char **argv)
{
    FILE *file = argc == 2 ? fopen(argv[1], "rb") : NULL;
    if (file == NULL) {
        printf("log: usage: log IMAGE\n");
        return 2;
    }
    image_size = fread(image, 1, sizeof image, file);
    fclose(file);
    if (!is_as_linked()) {
        printf("log: lleuadrys.h belongs to another version of the library\n");
        return 2;
    }
    unsigned a = lleuadrys_mount(image, image_size, session, sizeof session);
    say("mounting", a);
    if (a != LLEUADRYS_DONE || !find_files())
        return 1;
    log_pass();
    print_listing();
    read_back();
    calibrate();
    edit_directory();
    show("ELEMENTS");
    show("REMARKS");
    show("CURVES");
    file = fopen(argv[1], "wb");
    if (file == NULL || fwrite(image, 1, image_size, file) != image_size || fclose(file) != 0) {
        printf("log: the image was not written back\n");
        return 1;
    }
    return 0;
}
