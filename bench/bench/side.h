/* What each side gives: base_side.c for the baseline, ours.c for the proved file layer.
   bench is linked once with each. */
#ifndef SIDE_H
#define SIDE_H

#include <stdbool.h>
#include <stddef.h>
#include <stdint.h>

/* Room for a session of either engine of either side. */
struct side_session {
    _Alignas(64) uint8_t bytes[4096];
};

/* One engine. Answers are document 01's numbers, codes 1 to 13 are `enum request` of base.h. */
struct side_engine {
    unsigned (*mount)(const uint8_t *image, size_t size, struct side_session *s);
    unsigned (*request)(uint8_t *image, size_t size, struct side_session *s, size_t entry,
                        unsigned code, uint32_t granule, const uint8_t *given, size_t given_size,
                        uint8_t *buffer, size_t buffer_size);
    /* the size of the granule shown, 0 when refused */
    size_t (*look)(const uint8_t *image, size_t size, const struct side_session *s, size_t entry,
                   uint32_t granule);
    /* whether the entry's file is open, and where it stands */
    bool (*position)(const struct side_session *s, size_t entry, uint32_t *record, bool *beyond);
    /* ADD, which tells the new entry's number, and DELETE */
    unsigned (*add)(uint8_t *image, size_t size, struct side_session *s, const uint8_t *name,
                    size_t name_size, uint16_t kind, uint16_t length, uint16_t sectors,
                    size_t *entry);
    unsigned (*remove)(uint8_t *image, size_t size, struct side_session *s, size_t entry);
    /* the pass listing: how many bytes of text go into out is put */
    unsigned (*show)(uint8_t *image, size_t size, struct side_session *s, const char *name,
                     size_t name_size, size_t *entry, size_t *length, uint8_t *out, size_t room,
                     size_t *put);
    unsigned (*line)(uint8_t *image, size_t size, struct side_session *s, size_t entry,
                     size_t length, uint8_t *out, size_t room, size_t *put);
};

extern const struct side_engine side_plain, side_buffered;

/* The length of the code, or 0 if it is bad. */
size_t side_decode(const uint8_t *code, size_t size, uint8_t *record, size_t length);
/* The length of the code. */
size_t side_encode(const uint8_t *record, size_t length, uint8_t *code, size_t room);
/* The length of the text. */
size_t side_list(const uint8_t *image, size_t size, uint8_t *out, size_t room);

#endif
