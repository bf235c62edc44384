/* Mounts an image with the engine that has no buffers, lists its directory, and prints the fields of a file by its name.

       list IMAGE NAME

   In C++, with no library but C's: examples/run builds this and runs it on images/station.img. */
#include <stdint.h>
#include <stdio.h>

#include "../include/lleuadrys.h"

namespace {

static_assert(LLEUADRYS_VERSION / 10000 == 3, "written for version 3");

uint8_t image[LLEUADRYS_MOST_SECTORS * LLEUADRYS_SECTOR];

/* A file's name, with blanks behind it. */
struct Name {
    uint8_t bytes[LLEUADRYS_NAME];

    explicit Name(const char *text)
    {
        for (uint8_t &byte : bytes)
            byte = *text != 0 ? lleuadrys_to_ebcdic(static_cast<uint8_t>(*text++)) : uint8_t{0x40};
    }
};

class Session {
public:
    Session(const uint8_t *mounted, size_t size) : answer_(lleuadrys_mount(mounted, size, bytes_, sizeof bytes_)) {}

    uint16_t answer() const { return answer_; }

    uint16_t find(const Name &name, size_t &entry) const
    {
        return lleuadrys_find(bytes_, sizeof bytes_, name.bytes, sizeof name.bytes, &entry);
    }

    unsigned field(size_t entry, enum lleuadrys_field which) const
    {
        return lleuadrys_field(bytes_, sizeof bytes_, entry, static_cast<uint16_t>(which));
    }

private:
    uint8_t bytes_[LLEUADRYS_SESSION];
    uint16_t answer_;
};

/* Says what was done and how it was answered; whether it was done. */
bool say(const char *what, uint16_t answer)
{
    uint8_t words[LLEUADRYS_LONGEST_WORDS];
    size_t n = lleuadrys_words(answer, words, sizeof words);
    printf("%s: %u, %.*s\n", what, static_cast<unsigned>(answer), static_cast<int>(n),
           reinterpret_cast<const char *>(words));
    return answer == LLEUADRYS_DONE;
}

void print_listing(size_t size)
{
    uint8_t out[LLEUADRYS_LONGEST_LISTING];
    fwrite(out, 1, lleuadrys_list(image, size, out, sizeof out), stdout);
}

void print_fields(const Session &session, size_t entry)
{
    static const char *const names[] = {"kind", "record length", "first sector", "sectors", "count", "flags"};
    for (int k = LLEUADRYS_KIND; k <= LLEUADRYS_FLAGS; k++)
        printf("%s %u\n", names[k - 1], session.field(entry, static_cast<enum lleuadrys_field>(k)));
}

} // namespace

int main(int argc, char **argv)
{
    FILE *file = argc == 3 ? fopen(argv[1], "rb") : nullptr;
    if (file == nullptr || lleuadrys_version() != LLEUADRYS_VERSION) {
        printf("list: usage: list IMAGE NAME, with a library of version %d\n", LLEUADRYS_VERSION);
        return 2;
    }
    size_t size = fread(image, 1, sizeof image, file);
    fclose(file);
    Session session(image, size);
    size_t entry = 0;
    if (!say("mounting", session.answer()))
        return 1;
    print_listing(size);
    if (!say(argv[2], session.find(Name(argv[2]), entry)))
        return 1;
    print_fields(session, entry);
    return 0;
}
