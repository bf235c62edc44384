/* Our side: the proved file layer, linked as liblleuadrys.a (`tools/library`); include/lleuadrys.h declares it. The
   number of the lent bytes says which engine serves. */
#include "side.h"

#include "../../include/lleuadrys.h"

_Static_assert(LLEUADRYS_BUFFERED_SESSION <= sizeof(struct side_session), "room");

#define ENGINE(name, bytes_lent)                                                                                       \
    static unsigned name##_mount(const uint8_t *image, size_t size, struct side_session *s)                            \
    {                                                                                                                  \
        return lleuadrys_mount(image, size, s->bytes, bytes_lent);                                                     \
    }                                                                                                                  \
    static unsigned name##_request(uint8_t *image, size_t size, struct side_session *s, size_t entry, unsigned code,   \
                                   uint32_t granule, const uint8_t *given, size_t given_size, uint8_t *buffer,         \
                                   size_t buffer_size)                                                                 \
    {                                                                                                                  \
        return lleuadrys_request(image, size, s->bytes, bytes_lent, entry, (uint16_t)code, granule, given, given_size, \
                                 buffer, buffer_size);                                                                 \
    }                                                                                                                  \
    static size_t name##_look(const uint8_t *image, size_t size, const struct side_session *s, size_t entry,           \
                              uint32_t granule)                                                                        \
    {                                                                                                                  \
        size_t at = 0;                                                                                                 \
        return lleuadrys_look(image, size, s->bytes, bytes_lent, entry, granule, &at);                                 \
    }                                                                                                                  \
    static bool name##_position(const struct side_session *s, size_t entry, uint32_t *record, bool *beyond)            \
    {                                                                                                                  \
        uint16_t stands = lleuadrys_position(s->bytes, bytes_lent, entry, record);                                     \
        *beyond = stands == LLEUADRYS_BEYOND;                                                                          \
        return stands != LLEUADRYS_CLOSED;                                                                             \
    }                                                                                                                  \
    static unsigned name##_add(uint8_t *image, size_t size, struct side_session *s, const uint8_t *file_name,          \
                               size_t name_size, uint16_t kind, uint16_t length, uint16_t sectors, size_t *entry)      \
    {                                                                                                                  \
        return lleuadrys_add(image, size, s->bytes, bytes_lent, file_name, name_size, kind, length, sectors, entry);   \
    }                                                                                                                  \
    static unsigned name##_remove(uint8_t *image, size_t size, struct side_session *s, size_t entry)                   \
    {                                                                                                                  \
        return lleuadrys_delete(image, size, s->bytes, bytes_lent, entry);                                             \
    }                                                                                                                  \
    static unsigned name##_show(uint8_t *image, size_t size, struct side_session *s, const char *file_name,            \
                                size_t name_size, size_t *entry, size_t *length, uint8_t *out, size_t room,            \
                                size_t *put)                                                                           \
    {                                                                                                                  \
        return lleuadrys_show(image, size, s->bytes, bytes_lent, (const uint8_t *)file_name, name_size, entry, length, \
                              out, room, put);                                                                         \
    }                                                                                                                  \
    static unsigned name##_line(uint8_t *image, size_t size, struct side_session *s, size_t entry, size_t length,      \
                                uint8_t *out, size_t room, size_t *put)                                                \
    {                                                                                                                  \
        return lleuadrys_line(image, size, s->bytes, bytes_lent, entry, length, out, room, put);                       \
    }                                                                                                                  \
    const struct side_engine side_##name = {name##_mount, name##_request, name##_look, name##_position,                \
                                            name##_add,   name##_remove,  name##_show, name##_line}

ENGINE(plain, LLEUADRYS_SESSION);
ENGINE(buffered, LLEUADRYS_BUFFERED_SESSION);

size_t side_decode(const uint8_t *code, size_t size, uint8_t *record, size_t length)
{
    return lleuadrys_decode(code, size, record, length);
}

size_t side_encode(const uint8_t *record, size_t length, uint8_t *code, size_t room)
{
    return lleuadrys_encode(record, length, code, room);
}

size_t side_list(const uint8_t *image, size_t size, uint8_t *out, size_t room)
{
    return lleuadrys_list(image, size, out, room);
}
