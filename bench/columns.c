/* Folds and scans of a table whose segments lie by columns, by hand: what the form of docs/COLUMNS.md costs at least.
 *
 * Makes the rows of bench/columns, in segments of up to 1,024: the times in one array in order, each column in one,
 * marks of NULL as bits, and one position at which all were inserted. Then does some work on them so many times. It
 * knows this table alone and checks nothing, so it is a measure and no database.
 *
 *   columns WORK ROWS TIMES     prints a number that depends on all results
 *
 * WORK is one of
 *   all       counts rows and sums a column, in one bucket
 *   keys      the same by buckets of 1,000 times and devices
 *   months    the same by months of the calendar and devices
 *   few       copies the rows of the last ten times
 */
#include <stdint.h>
#include <stdio.h>
#include <stdlib.h>
#include <string.h>

enum { SEGMENT = 1024, DEVICES = 7, WIDTH = 1000, DAY = 86400, NOW = 1 };

typedef struct {
    int64_t least, most;
    uint64_t born;
    size_t count;
    int64_t times[SEGMENT], devices[SEGMENT], values[SEGMENT];
    uint64_t null_devices[SEGMENT / 64], null_values[SEGMENT / 64];
    int has_null;
} Segment;

/* Groups by number: each part of them in an array of its own, and places by the hash of bucket and key. */
typedef struct {
    size_t count, room;
    int64_t *starts, *keys, *sums;
    uint64_t *counts;
    uint32_t *places;
} Groups;

typedef struct {
    int64_t start, end;
} Bucket;

static void *room_for(size_t count, size_t size) {
    void *items = calloc(count, size);
    if (!items) exit(70);
    return items;
}

static Segment *segments_of(size_t rows, size_t *count) {
    *count = (rows + SEGMENT - 1) / SEGMENT;
    Segment *segments = room_for(*count, sizeof *segments);
    for (size_t row = 0; row < rows; row++) {
        Segment *segment = segments + row / SEGMENT;
        size_t at = segment->count++;
        segment->born = NOW;
        segment->times[at] = row;
        segment->devices[at] = row % DEVICES;
        segment->values[at] = row % 100;
        if (!at) segment->least = row;
        segment->most = row;
    }
    return segments;
}

static Groups groups_for(size_t most) {
    size_t room = 64;
    while (room < 2 * most) room *= 2;
    return (Groups){0, room, room_for(most, 8), room_for(most, 8), room_for(most, 8), room_for(most, 8),
                    room_for(room, 4)};
}

static void drop_groups(Groups groups) {
    free(groups.starts), free(groups.keys), free(groups.sums), free(groups.counts), free(groups.places);
}

static uint64_t mixed(uint64_t bits) {
    bits *= 0x9e3779b97f4a7c15;
    return bits ^ bits >> 32;
}

/* The number of the group of a bucket and a key, whose hash is given. */
static size_t group_of(Groups *groups, int64_t start, int64_t key, uint64_t hash) {
    for (size_t at = hash;; at++) {
        uint32_t *place = groups->places + (at & (groups->room - 1));
        size_t number = *place ? *place - 1 : groups->count;
        if (!*place) {
            *place = ++groups->count;
            groups->starts[number] = start;
            groups->keys[number] = key;
            return number;
        }
        if (groups->starts[number] == start && groups->keys[number] == key) return number;
    }
}

/* The rows from one place on and below another, which are all in one bucket. */
static void take_run(Groups *groups, const Segment *segment, size_t from, size_t to, int64_t start) {
    uint64_t hashes[SEGMENT], of_bucket = mixed(start);
    for (size_t at = from; at < to; at++) hashes[at] = mixed(segment->devices[at] ^ of_bucket);
    for (size_t at = from; at < to; at++) {
        size_t number = group_of(groups, start, segment->devices[at], hashes[at]);
        groups->counts[number]++;
        groups->sums[number] += segment->values[at];
    }
}

static Bucket fixed_bucket(int64_t time) {
    int64_t start = time / WIDTH * WIDTH;
    return (Bucket){start, start + WIDTH};
}

/* The days from 1970 to the first of a month that is counted from January of the year 0. */
static int64_t first_day(int64_t month) {
    int64_t year = month / 12, number = month % 12 + 1;
    year -= number <= 2;
    int64_t era = year / 400, of_era = year - era * 400;
    int64_t of_year = (153 * (number + (number > 2 ? -3 : 9)) + 2) / 5;
    return era * 146097 + of_era * 365 + of_era / 4 - of_era / 100 + of_year - 719468;
}

static Bucket month_bucket(int64_t time) {
    int64_t day = time / DAY, month = 1970 * 12 + day / 31;
    while (first_day(month + 1) <= day) month++;
    return (Bucket){first_day(month) * DAY, first_day(month + 1) * DAY};
}

/* The first place behind `from` with a time that isn't below an end. */
static size_t run_end(const Segment *segment, size_t from, int64_t end) {
    if (segment->most < end) return segment->count;
    size_t low = from, high = segment->count;
    while (low < high) {
        size_t middle = (low + high) / 2;
        if (segment->times[middle] < end) low = middle + 1;
        else high = middle;
    }
    return low;
}

static int64_t fold_by(const Segment *segments, size_t count, size_t most, Bucket (*bucket_of)(int64_t)) {
    Groups groups = groups_for(most);
    for (const Segment *segment = segments; segment < segments + count; segment++) {
        if (segment->born > NOW || segment->has_null) continue;
        for (size_t from = 0, to; from < segment->count; from = to) {
            Bucket bucket = bucket_of(segment->times[from]);
            to = run_end(segment, from, bucket.end);
            take_run(&groups, segment, from, to, bucket.start);
        }
    }
    int64_t sum = groups.count;
    for (size_t number = 0; number < groups.count; number++) sum += groups.counts[number] * groups.sums[number];
    drop_groups(groups);
    return sum;
}

static int64_t fold_all(const Segment *segments, size_t count) {
    int64_t rows = 0, sum = 0;
    for (const Segment *segment = segments; segment < segments + count; segment++) {
        if (segment->born > NOW || segment->has_null) continue;
        for (size_t at = 0; at < segment->count; at++) sum += segment->values[at];
        rows += segment->count;
    }
    return rows + sum;
}

static int64_t few(const Segment *segments, size_t count, int64_t low) {
    int64_t read = 0, found[3 * 16] = {0}, *to = found;
    for (const Segment *segment = segments; segment < segments + count; segment++) {
        read += segment->count;
        if (segment->born > NOW || segment->most < low) continue;
        for (size_t at = run_end(segment, 0, low); at < segment->count; at++) {
            *to++ = segment->times[at], *to++ = segment->devices[at], *to++ = segment->values[at];
        }
    }
    return read + found[0];
}

static int64_t work(const char *name, const Segment *segments, size_t count, size_t rows) {
    if (!strcmp(name, "all")) return fold_all(segments, count);
    if (!strcmp(name, "few")) return few(segments, count, (int64_t)rows - 10);
    size_t buckets = !strcmp(name, "keys") ? rows / WIDTH + 2 : rows / (28 * DAY) + 2;
    return fold_by(segments, count, buckets * DEVICES, !strcmp(name, "keys") ? fixed_bucket : month_bucket);
}

int main(int argc, char **argv) {
    if (argc != 4) return 64;
    size_t rows = strtoull(argv[2], 0, 10), count, sum = 0;
    Segment *segments = segments_of(rows, &count);
    for (long times = strtol(argv[3], 0, 10); times > 0; times--) sum += work(argv[1], segments, count, rows);
    printf("%zu\n", sum);
    free(segments);
    return 0;
}
