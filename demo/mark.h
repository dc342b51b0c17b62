/* Time marks: the body that is written for one, and the time that a body says, as text. */
#ifndef MARK_H
#define MARK_H

#include "rasppuce.h"

enum {
    BODY_BYTES = RASPPUCE_BODY_BYTES(1), /* of a mark with a local offset: each one here has it */
    TIME_MOST = 64                       /* room for a time as text */
};

/* A time mark, and the time that has to be read from its body. */
typedef struct {
    uint64_t seconds;  /* since 1970-01-01 00:00:00 UTC */
    uint32_t fraction; /* of a second, in 2^-28 seconds */
    int32_t offset;    /* of local time, in minutes */
    const char *time;
} time_mark;

/* A quarter of a second. */
enum { QUARTER = RASPPUCE_FRACTION_END / 4 };

/* The time mark that both screens seal. */
#define OUR_TIME "2026-03-02 14:05:09.250 +01:00"
extern const time_mark our_mark;

/* A number of a record, of a tape count or of values: four bytes, the highest first. */
uint32_t read_number(const uint8_t *bytes);

/* Writes the body of a time mark. */
uint32_t write_mark(const time_mark *mark, uint8_t body[BODY_BYTES]);

/* Reads a body; `time` gets local time and offset as text, in the form of OUR_TIME. */
uint32_t read_time(const uint8_t body[BODY_BYTES], char time[TIME_MOST]);

#endif
