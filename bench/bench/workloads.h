/* The workloads. Each prepares its images once; then every iteration does the same work. */
#ifndef WORKLOADS_H
#define WORKLOADS_H

#include <stddef.h>
#include <stdint.h>

struct side_engine;

struct workload {
    const char *name;
    const char *about;
    const struct side_engine *engine;
    size_t entry;  /* of the file that it is about */
    size_t blanks; /* between two characters of the record that it encodes */
    size_t (*prepare)(void);
    uint32_t (*run)(void);   /* returns a sum over answers and bytes, to be the same on both sides */
};

extern const struct workload workloads[];
extern const size_t workload_count;

/* Prepares a workload. Returns how many steps an iteration has: requests, records, blanks, mountings. */
size_t prepare(const struct workload *w);

#endif
