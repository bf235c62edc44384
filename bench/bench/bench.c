/* bench NAME ITERATIONS: prepares the workload NAME and runs it so often. Prints its steps for each
   iteration and its sum, in as many characters for every run. bench: the names.
   What an iteration costs is the difference of the instruction counts of two runs with as many
   digits in ITERATIONS, as 1 and 2. */
#include <stdio.h>
#include <stdlib.h>
#include <string.h>

#include "images.h"
#include "workloads.h"

static char *put_hex(char *at, uint32_t n)
{
    for (int shift = 28; shift >= 0; shift -= 4)
        *at++ = "0123456789abcdef"[n >> shift & 15];
    return at;
}

int main(int argc, char **argv)
{
    if (argc != 3) {
        for (size_t i = 0; i < workload_count; i++)
            printf("%-26s%s\n", workloads[i].name, workloads[i].about);
        return argc == 1 ? 0 : 2;
    }
    const struct workload *w = NULL;
    for (size_t i = 0; i < workload_count; i++)
        if (strcmp(workloads[i].name, argv[1]) == 0)
            w = &workloads[i];
    if (w == NULL)
        return 2;
    make_records();
    size_t steps = prepare(w);
    uint32_t sum = 0;
    for (long left = atol(argv[2]); left > 0; left--)
        sum = w->run();
    char line[] = "steps 00000000 sum 00000000\n";
    put_hex(line + 6, (uint32_t)steps);
    put_hex(line + 19, sum);
    fwrite(line, 1, sizeof line - 1, stdout);
    return 0;
}
