/* Images and records for the workloads: the same bytes on every run and on both sides. */
#ifndef IMAGES_H
#define IMAGES_H

#include <stddef.h>
#include <stdint.h>

enum { LINES = 1000 };

/* Records of 60 bytes as from a bus. */
extern uint8_t frames[LINES][60];
/* Lines of 80 characters of EBCDIC: telemetry in columns, with blanks between and behind. */
extern uint8_t lines[LINES][80];
/* Lines of 132 characters, denser. */
extern uint8_t wide[LINES][132];

void make_records(void);

/* 4,096 sectors, 18 files, all full: compressed, blocked, unblocked and random ones.
   Returns the number of compressed records in all. */
enum { FULL_SECTORS = 4096 };
size_t make_full(uint8_t *image);

/* 4,096 sectors, one file of each kind. The blocked and the compressed one have STREAM records. */
enum { STATION_SECTORS = 4096, STREAM = 10000 };
enum { NOTES, BUSLOG, PASSA, TABLES }; /* entries: unblocked R 720, blocked R 60, compressed R 80, random R 360 */
enum { TABLES_GRANULES = 395 };
void make_station(uint8_t *image);
/* The same, but with granules of 60 bytes in the random file, six to a sector. */
enum { SMALL_GRANULE = 60, SMALL_GRANULES = 6 * TABLES_GRANULES };
void make_small_granules(uint8_t *image);
/* The same, but with as many records in the compressed file as fit. Returns their number. */
size_t make_full_station(uint8_t *image);

/* 180 sectors, 18 files, the compressed ones full. */
enum { LISTED_SECTORS = 180 };
void make_listed(uint8_t *image);

/* 180 sectors with a file that is full of lines of 80: one compressed file alone, or a blocked one behind three others. Returns
   how many lines. */
enum { LOG_SECTORS = 180 };
#define LOG_NAME "PASSLOG"
size_t make_log(uint8_t *image, unsigned kind);

/* 180 sectors, 17 files of 4 sectors each, 3 free sectors behind each, their entries out of order: the lowest gap of 4 sectors is
   behind the last. */
enum { FRAGMENTED_SECTORS = 180, FRAGMENTS = 17 };
void make_fragmented(uint8_t *image);

#endif
