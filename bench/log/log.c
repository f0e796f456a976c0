/* A log in plain C: records one after another, and an index of where the last one for each place starts.
   It does what the program `logspeed` does: gets from logs of 10, 1,000 and 10,000 records, at the same ten places.

       log index GETS       finds a record by the index
       log scan GETS        finds it by reading the log from its start

   The checksums go to standard output, and the nanoseconds for a get go to standard error. */
#include <stdint.h>
#include <stdio.h>
#include <stdlib.h>
#include <string.h>
#include <time.h>

enum { BLOCK = 1024, DIGEST = 32, LONGEST = 1029, MOST_BLOCKS = 4096, TOP_LEVEL = 12, PLACES = 10 };
enum { NOTHING = 1, OUTSIDE = 2, LENGTH = 3, FULL = 4 };

static const size_t NONE = SIZE_MAX;

/* The C library's memcpy. What gcc makes of a memcpy whose length it knows, `rep movsq`, is slower. */
extern void *copy(void *to, const void *from, size_t length) __asm__("memcpy");

/* A block if the level is negative, else a node. */
struct place {
    int level;
    uint32_t number;
};

struct log {
    uint8_t *bytes;
    size_t length, used;
    size_t index[3 * MOST_BLOCKS];
};

static size_t record_length(struct place p) { return p.level < 0 ? BLOCK : DIGEST; }
static size_t header_length(struct place p) { return p.level < 0 ? 5 : 6; }

static size_t slot(struct place p) {
    if (p.level < 0)
        return p.number;
    return MOST_BLOCKS + ((size_t)1 << (TOP_LEVEL - p.level)) + p.number;
}

/* Refuses a record, or a buffer, of another length, and then a place outside. */
static int admit(struct place p, size_t length) {
    if (length != record_length(p))
        return LENGTH;
    uint32_t end = p.level < 0 ? MOST_BLOCKS : MOST_BLOCKS >> p.level;
    if (p.number >= end)
        return OUTSIDE;
    return 0;
}

static int put(struct log *log, struct place p, const uint8_t *record, size_t length) {
    int refused = admit(p, length);
    if (refused)
        return refused;
    if (log->length - log->used < LONGEST)
        return FULL;
    uint8_t *out = log->bytes + log->used;
    if (p.level < 0)
        memcpy(out, (uint8_t[]){16, 4, 2, p.number >> 8, p.number}, 5);
    else
        memcpy(out, (uint8_t[]){17, 0, 35, p.level, p.number >> 8, p.number}, 6);
    memcpy(out + header_length(p), record, length);
    log->index[slot(p)] = log->used;
    log->used += header_length(p) + length;
    return 0;
}

static size_t indexed(const struct log *log, struct place p) { return log->index[slot(p)]; }

/* Where the last record for a place starts, found from the start of the log on. */
static size_t scanned(const struct log *log, struct place p) {
    size_t found = NONE;
    for (size_t at = 0; at < log->used;) {
        const uint8_t *record = log->bytes + at;
        struct place other = {-1, record[3] << 8 | record[4]};
        if (record[0] == 17)
            other = (struct place){record[3], record[4] << 8 | record[5]};
        if (other.level == p.level && other.number == p.number)
            found = at;
        at += 3 + (record[1] << 8 | record[2]);
    }
    return found;
}

static int get(const struct log *log, int scans, struct place p, uint8_t *out, size_t length) {
    int refused = admit(p, length);
    if (refused)
        return refused;
    size_t at = scans ? scanned(log, p) : indexed(log, p);
    if (at == NONE)
        return NOTHING;
    copy(out, log->bytes + at + header_length(p), length);
    return 0;
}

/* Where a record lies: each tenth part of the log begins with one of the ten, and the others are blocks by number. */
static struct place place_of(const struct place places[PLACES], size_t record, size_t records) {
    size_t part = records / PLACES;
    if (record % part == 0)
        return places[record / part];
    return (struct place){-1, record % MOST_BLOCKS};
}

/* A log of this many records. */
static void fill(struct log *log, const struct place places[PLACES], size_t records) {
    log->length = LONGEST * records;
    log->used = 0;
    log->bytes = calloc(log->length, 1);
    if (!log->bytes)
        exit(1);
    for (size_t i = 0; i < 3 * MOST_BLOCKS; i++)
        log->index[i] = NONE;
    for (size_t r = 0; r < records; r++) {
        uint8_t bytes[BLOCK];
        for (size_t i = 0; i < BLOCK; i++)
            bytes[i] = (r + i) % 251;
        struct place p = place_of(places, r, records);
        if (put(log, p, bytes, record_length(p)))
            exit(1);
    }
}

/* Gets the records at the places again and again, and adds a byte of each to a checksum. */
static uint32_t checksum(const struct log *log, int scans, const struct place places[PLACES], size_t gets) {
    uint8_t block[BLOCK] = {0}, digest[DIGEST] = {0};
    uint32_t sum = 0;
    for (size_t turn = 0; turn < gets; turn++) {
        struct place p = places[7 * turn % PLACES];
        uint8_t byte;
        if (p.level < 0) {
            get(log, scans, p, block, BLOCK);
            byte = block[turn % BLOCK];
        } else {
            get(log, scans, p, digest, DIGEST);
            byte = digest[turn % DIGEST];
        }
        sum = 31 * sum + byte;
    }
    return sum;
}

static double seconds(void) {
    struct timespec now;
    clock_gettime(CLOCK_MONOTONIC, &now);
    return now.tv_sec + now.tv_nsec * 1e-9;
}

int main(int count, char **words) {
    static struct log log;
    static const size_t sizes[] = {10, 1000, 10000};
    struct place places[PLACES];
    if (count != 3)
        return 2;
    int scans = !strcmp(words[1], "scan");
    size_t gets = strtoull(words[2], NULL, 10);
    for (int k = 0; k < PLACES; k++)
        places[k] = k % 2 ? (struct place){k, 1} : (struct place){-1, 400 * k};
    for (size_t i = 0; i < 3; i++) {
        fill(&log, places, sizes[i]);
        double start = seconds();
        uint32_t sum = checksum(&log, scans, places, gets);
        double took = seconds() - start;
        printf("%zu %u\n", sizes[i], sum);
        fprintf(stderr, "%zu %.2f\n", sizes[i], took * 1e9 / gets);
        free(log.bytes);
    }
    return 0;
}
