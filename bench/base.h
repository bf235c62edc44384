/* The file layer of document 01, with document 02's items 1, 3 and 4, in plain C: the baseline that the proved one is measured against.
   The same work and the same checks, written plainly: sessions by pointer, bytes moved by memcpy. */
#ifndef BASE_H
#define BASE_H

#include <stdbool.h>
#include <stddef.h>
#include <stdint.h>

enum {
    SECTOR = 360,        /* bytes of a sector */
    MOST_SECTORS = 4096, /* sectors of an image */
    MOST_LISTED = 180,   /* sectors of an image that is listed */
    ENTRIES = 18,        /* entries of the directory */
    ENTRY_BYTES = 20,
    MOST_OPEN = 4,
    MOST_RECORDS = 65535,
    LONGEST_SHARED = 180, /* of granules that share sectors */
    LONGEST_PACKED = 132,            /* characters of a compressed record */
    LONGEST_CODE = LONGEST_PACKED + 3 /* bytes of its code */
};

enum kind { FREE, UNBLOCKED, BLOCKED, COMPRESSED, RANDOM };
enum flag { MARKED = 1, PROTECTED = 2 };

/* The documents' answer numbers. */
enum answer {
    DONE,
    END_OF_FILE,
    BEGINNING_OF_TAPE,
    NO_ROOM,
    WRITE_PROTECTED,
    ODD_COUNT,
    BAD_SIZE,
    WRONG_SEQUENCE,
    NOT_THERE,
    ALREADY_OPEN,
    FIFTH_FILE,
    BAD_IMAGE,
    NOT_LEGAL,
    BAD_NAME,
    NAME_IN_USE,
    NO_ENTRY,
    NO_GAP,
    BAD_SHAPE
};

/* Request codes. */
enum request {
    OPEN = 1,
    READ,
    WRITE,
    GRANULE_READ,
    GRANULE_WRITE,
    GRANULE_LOOK,
    WRITE_MARK,
    REWIND_ONLINE,
    REWIND_OFFLINE,
    RECORD_FORWARD,
    RECORD_BACK,
    FILE_FORWARD,
    FILE_BACK
};

struct entry {
    uint8_t name[8];
    uint16_t kind, length, first, sectors;
    uint32_t count;
    uint16_t flags;
};

/* A sector of the extent, from 0 on, and a byte 0 to 360 of it. */
struct place {
    uint32_t sector, byte;
};

/* An open file. Only a compressed one uses its places: just behind the last record read or
   written, and just behind the last record of all. */
struct open_file {
    bool used;
    size_t entry;
    uint32_t position;
    bool beyond;
    struct place here, end;
};

/* An open file with its blocking buffer: the sector of the extent that it holds, if it does. */
struct buffered_file {
    struct open_file file;
    bool holds;
    uint32_t held;
    bool changed;
    uint8_t buffer[SECTOR];
};

struct session {
    struct entry table[ENTRIES];
    struct open_file files[MOST_OPEN];
    bool refused; /* from a refused mounting */
};

struct buffered_session {
    struct entry table[ENTRIES];
    struct buffered_file files[MOST_OPEN];
    bool refused;
};

/* A part of the image, shown in place; of size 0 when refused. */
struct part {
    const uint8_t *bytes;
    size_t size;
};

/* Where an entry's file stands. */
struct spot {
    bool open;
    uint32_t record;
    bool beyond;
};

/* One compressed record. Decoding gives the length of the code, or 0 and an untouched record if
   the code is bad. Encoding is for at most LONGEST_PACKED characters; `code` has LONGEST_CODE bytes. */
size_t base_decode(const uint8_t *code, size_t size, uint8_t *record, size_t length);
size_t base_encode(const uint8_t *record, size_t length, uint8_t *code);

/* The engine with no buffer. */
enum answer base_mount(const uint8_t *image, size_t size, struct session *s);
enum answer base_request(uint8_t *image, size_t size, struct session *s, size_t entry,
                         enum request code, uint32_t granule, const uint8_t *given,
                         size_t given_size, uint8_t *buffer, size_t buffer_size);
struct part base_look(const uint8_t *image, size_t size, const struct session *s, size_t entry,
                      uint32_t granule);
struct spot base_position(const struct session *s, size_t entry);
enum answer base_add(uint8_t *image, size_t size, struct session *s, const uint8_t *name,
                     size_t name_size, uint16_t kind, uint16_t length, uint16_t sectors,
                     size_t *entry);
enum answer base_delete(uint8_t *image, size_t size, struct session *s, size_t entry);

/* The engine with a blocking buffer for each open blocked or compressed file. */
enum answer base_buffered_mount(const uint8_t *image, size_t size, struct buffered_session *s);
enum answer base_buffered_request(uint8_t *image, size_t size, struct buffered_session *s,
                                  size_t entry, enum request code, uint32_t granule,
                                  const uint8_t *given, size_t given_size, uint8_t *buffer,
                                  size_t buffer_size);
struct part base_buffered_look(const uint8_t *image, size_t size,
                               const struct buffered_session *s, size_t entry, uint32_t granule);
struct spot base_buffered_position(const struct buffered_session *s, size_t entry);
enum answer base_buffered_add(uint8_t *image, size_t size, struct buffered_session *s,
                              const uint8_t *name, size_t name_size, uint16_t kind,
                              uint16_t length, uint16_t sectors, size_t *entry);
enum answer base_buffered_delete(uint8_t *image, size_t size, struct buffered_session *s,
                                 size_t entry);

/* The listing. Returns the length of the text, and puts as much of it into `out` as fits. */
size_t base_list(const uint8_t *image, size_t size, char *out, size_t room);

/* The pass listing, in either engine. Each call puts text into `out`, as far as it fits, and tells how
   much in `put`. `show` mounts the image, opens the file of a name as it is typed and tells its entry
   and its record length; behind an answer 0 `line` reads the next record and makes it a line, as long
   as that is answered 0. `out` has a byte more than a record. */
enum answer base_show(uint8_t *image, size_t size, struct session *s, const char *name,
                      size_t name_size, size_t *entry, size_t *length, char *out, size_t room,
                      size_t *put);
enum answer base_line(uint8_t *image, size_t size, struct session *s, size_t entry, size_t length,
                      char *out, size_t room, size_t *put);
enum answer base_buffered_show(uint8_t *image, size_t size, struct buffered_session *s,
                               const char *name, size_t name_size, size_t *entry, size_t *length,
                               char *out, size_t room, size_t *put);
enum answer base_buffered_line(uint8_t *image, size_t size, struct buffered_session *s,
                               size_t entry, size_t length, char *out, size_t room, size_t *put);

#endif
