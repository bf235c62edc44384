/* The baseline's side. */
#include "side.h"

#include "../base.h"

_Static_assert(sizeof(struct buffered_session) <= sizeof(struct side_session), "room");

static unsigned plain_mount(const uint8_t *image, size_t size, struct side_session *s)
{
    return base_mount(image, size, (struct session *)s);
}

static unsigned plain_request(uint8_t *image, size_t size, struct side_session *s, size_t entry,
                              unsigned code, uint32_t granule, const uint8_t *given,
                              size_t given_size, uint8_t *buffer, size_t buffer_size)
{
    return base_request(image, size, (struct session *)s, entry, (enum request)code, granule, given,
                        given_size, buffer, buffer_size);
}

static size_t plain_look(const uint8_t *image, size_t size, const struct side_session *s,
                         size_t entry, uint32_t granule)
{
    return base_look(image, size, (const struct session *)s, entry, granule).size;
}

static bool plain_position(const struct side_session *s, size_t entry, uint32_t *record,
                           bool *beyond)
{
    struct spot spot = base_position((const struct session *)s, entry);
    *record = spot.record;
    *beyond = spot.beyond;
    return spot.open;
}

static unsigned plain_add(uint8_t *image, size_t size, struct side_session *s, const uint8_t *name,
                          size_t name_size, uint16_t kind, uint16_t length, uint16_t sectors,
                          size_t *entry)
{
    return base_add(image, size, (struct session *)s, name, name_size, kind, length, sectors,
                    entry);
}

static unsigned plain_remove(uint8_t *image, size_t size, struct side_session *s, size_t entry)
{
    return base_delete(image, size, (struct session *)s, entry);
}

static unsigned plain_show(uint8_t *image, size_t size, struct side_session *s, const char *name,
                           size_t name_size, size_t *entry, size_t *length, uint8_t *out,
                           size_t room, size_t *put)
{
    return base_show(image, size, (struct session *)s, name, name_size, entry, length, (char *)out,
                     room, put);
}

static unsigned plain_line(uint8_t *image, size_t size, struct side_session *s, size_t entry,
                           size_t length, uint8_t *out, size_t room, size_t *put)
{
    return base_line(image, size, (struct session *)s, entry, length, (char *)out, room, put);
}

static unsigned buffered_mount(const uint8_t *image, size_t size, struct side_session *s)
{
    return base_buffered_mount(image, size, (struct buffered_session *)s);
}

static unsigned buffered_request(uint8_t *image, size_t size, struct side_session *s, size_t entry,
                                 unsigned code, uint32_t granule, const uint8_t *given,
                                 size_t given_size, uint8_t *buffer, size_t buffer_size)
{
    return base_buffered_request(image, size, (struct buffered_session *)s, entry,
                                 (enum request)code, granule, given, given_size, buffer,
                                 buffer_size);
}

static size_t buffered_look(const uint8_t *image, size_t size, const struct side_session *s,
                            size_t entry, uint32_t granule)
{
    return base_buffered_look(image, size, (const struct buffered_session *)s, entry, granule).size;
}

static bool buffered_position(const struct side_session *s, size_t entry, uint32_t *record,
                              bool *beyond)
{
    struct spot spot = base_buffered_position((const struct buffered_session *)s, entry);
    *record = spot.record;
    *beyond = spot.beyond;
    return spot.open;
}

static unsigned buffered_add(uint8_t *image, size_t size, struct side_session *s,
                             const uint8_t *name, size_t name_size, uint16_t kind,
                             uint16_t length, uint16_t sectors, size_t *entry)
{
    return base_buffered_add(image, size, (struct buffered_session *)s, name, name_size, kind,
                             length, sectors, entry);
}

static unsigned buffered_remove(uint8_t *image, size_t size, struct side_session *s, size_t entry)
{
    return base_buffered_delete(image, size, (struct buffered_session *)s, entry);
}

static unsigned buffered_show(uint8_t *image, size_t size, struct side_session *s,
                              const char *name, size_t name_size, size_t *entry, size_t *length,
                              uint8_t *out, size_t room, size_t *put)
{
    return base_buffered_show(image, size, (struct buffered_session *)s, name, name_size, entry,
                              length, (char *)out, room, put);
}

static unsigned buffered_line(uint8_t *image, size_t size, struct side_session *s, size_t entry,
                              size_t length, uint8_t *out, size_t room, size_t *put)
{
    return base_buffered_line(image, size, (struct buffered_session *)s, entry, length,
                              (char *)out, room, put);
}

const struct side_engine side_plain = {plain_mount, plain_request, plain_look, plain_position,
                                       plain_add,   plain_remove,  plain_show, plain_line};
const struct side_engine side_buffered = {buffered_mount, buffered_request, buffered_look,
                                          buffered_position, buffered_add, buffered_remove,
                                          buffered_show, buffered_line};

size_t side_decode(const uint8_t *code, size_t size, uint8_t *record, size_t length)
{
    return base_decode(code, size, record, length);
}

size_t side_encode(const uint8_t *record, size_t length, uint8_t *code, size_t room)
{
    return room < LONGEST_CODE ? 0 : base_encode(record, length, code);
}

size_t side_list(const uint8_t *image, size_t size, uint8_t *out, size_t room)
{
    return base_list(image, size, (char *)out, room);
}
