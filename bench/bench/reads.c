/* reads BLANKS: encodes one record, a character, so many blanks, a character. Prints the address at
   which the record lies, the low twelve bits of it zero; `./reads` counts what is read there. */
#include <stdio.h>
#include <stdlib.h>
#include <string.h>

#include "../base.h"
#include "side.h"

enum { LONGEST = 132 };

static _Alignas(4096) uint8_t record[4096];
static uint8_t code[LONGEST_CODE];

int main(int argc, char **argv)
{
    const size_t blanks = argc == 2 ? (size_t)atol(argv[1]) : LONGEST;
    if (blanks > LONGEST - 2)
        return 2;
    memset(record, 0x40, blanks + 2);
    record[0] = record[blanks + 1] = 0xC1;
    printf("%lx\n", (unsigned long)record);
    return side_encode(record, blanks + 2, code, sizeof code) == 0;
}
