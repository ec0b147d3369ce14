/* The work of the demo's script, by hand, for its one table.
 *
 * Reads a script such as `tsctl demo N` runs, of any length, from standard input, and does what `tsctl run`
 * does with it: the same replies on standard output, and in `tsctl.journal` of the working folder the same
 * bytes with the same syncs. It knows the table of the script alone, with chunks of 5,000,
 * devices 0 to 7 and one aggregate of buckets of 100, looks no name up and checks nothing. So it is a measure
 * of what the work costs at least, and no database.
 *
 *   demo_work < SCRIPT            needs an empty working folder
 *   demo_work --hash < SCRIPT     a refresh finds its groups by a hash of keys that it doesn't know, and sorts them
 */
#define _GNU_SOURCE
#include <fcntl.h>
#include <stdint.h>
#include <stdlib.h>
#include <string.h>
#include <unistd.h>

enum { BUCKET = 100, CHUNK = 5000, DEVICES = 8 };

/* No row and no window of the script begins earlier. Chunks and buckets are numbered from here. */
enum { FIRST_TIME = -5000 };

/* Gives a block room for at least so many items, with zeros behind those that it had. */
static void *grown(void *items, size_t *room, size_t wanted, size_t size) {
    if (wanted <= *room) return items;
    size_t more = *room ? *room : 64;
    while (more < wanted) more *= 2;
    items = realloc(items, more * size);
    if (!items) exit(70);
    memset((char *)items + *room * size, 0, (more - *room) * size);
    *room = more;
    return items;
}

/* ---- Replies, gathered and written before more of the script is read ---- */

static char replies[1 << 20];
static size_t replied;

static void write_replies(void) {
    for (size_t at = 0; at < replied;) {
        ssize_t n = write(1, replies + at, replied - at);
        if (n <= 0) exit(74);
        at += n;
    }
    replied = 0;
}

/* The place of the next bytes of a reply, of which there are at most 256. */
static char *reply_room(void) {
    if (replied + 256 > sizeof replies) write_replies();
    return replies + replied;
}

static void reply_ends(const char *end) {
    replied = end - replies;
}

static char *put_text(char *to, const char *text) {
    size_t n = strlen(text);
    memcpy(to, text, n);
    return to + n;
}

static char *put_number(char *to, int64_t number) {
    char digits[20], *end = digits + sizeof digits, *at = end;
    uint64_t left = number < 0 ? -(uint64_t)number : (uint64_t)number;
    do *--at = '0' + left % 10; while (left /= 10);
    if (number < 0) *to++ = '-';
    memcpy(to, at, end - at);
    return to + (end - at);
}

static char *put_position(char *to, const char *text, uint64_t position) {
    return put_number(put_text(to, text), position);
}

/* ---- The journal: a record behind a closed gate, a sync, the gate opened, a sync ---- */

static int journal;
static uint64_t journal_end = 8; /* the closed gate behind the last record */
static uint64_t journal_room;    /* how long the file is */
static uint64_t events;
static unsigned char *record;
static size_t record_len, record_room;

static unsigned char *record_space(size_t n) {
    record = grown(record, &record_room, record_len + n, 1);
    record_len += n;
    return record + record_len - n;
}

static void put_8(int value) { *record_space(1) = value; }
static void put_32(uint32_t value) { memcpy(record_space(4), &value, 4); }
static void put_64(int64_t value) { memcpy(record_space(8), &value, 8); }

static void put_name(const char *name) {
    put_8(strlen(name));
    memcpy(record_space(strlen(name)), name, strlen(name));
}

static void write_at(uint64_t at, const void *bytes, size_t n) {
    if (pwrite(journal, bytes, n, at) != (ssize_t)n) exit(74);
}

static void sync_journal(void) {
    if (fdatasync(journal)) exit(74);
}

/* The file grows ahead, so that few syncs wait for new blocks. */
static void grow_journal(uint64_t end) {
    static const char zeros[1 << 18];
    if (end <= journal_room) return;
    journal_room = (end / sizeof zeros + 1) * sizeof zeros;
    write_at(end, zeros, journal_room - end);
}

static void open_journal(void) {
    journal = open("tsctl.journal", O_RDWR | O_CREAT | O_EXCL, 0666);
    if (journal < 0) exit(74);
    write_at(0, "TSCTLJ01", 9);
    sync_journal();
}

static void begin_event(int kind) {
    record_len = 0;
    put_32(0);
    put_8(kind);
}

static void end_event(void) {
    uint32_t payload = record_len - 4;
    memcpy(record, &payload, 4);
    put_8(0);
    uint64_t end = journal_end + 1 + record_len;
    write_at(journal_end + 1, record, record_len);
    grow_journal(end);
    sync_journal();
    write_at(journal_end, "\1", 1);
    sync_journal();
    journal_end = end - 1;
    events++;
}

/* ---- Rows by chunks, and groups by buckets and devices ---- */

struct row { int64_t time, device, value; };
struct chunk { struct row *rows; size_t count, room; };
struct group { int64_t count, sum; };

static struct chunk *chunks;
static size_t chunks_room;
static struct group (*materialised)[DEVICES]; /* by bucket */
static char *is_clean;                        /* by bucket: refreshed, and no row came since */
static size_t materialised_room, clean_room;
static int64_t threshold = INT64_MIN; /* rows below it are noted */
static size_t watermark;              /* a bucket, or 0 before the first row is materialised */

static size_t bucket_of(int64_t time) { return (time - FIRST_TIME) / BUCKET; }
static size_t chunk_of(int64_t time) { return (time - FIRST_TIME) / CHUNK; }
static int64_t start_of(size_t bucket) { return (int64_t)bucket * BUCKET + FIRST_TIME; }

static void add_row(struct row row) {
    size_t number = chunk_of(row.time);
    chunks = grown(chunks, &chunks_room, number + 1, sizeof *chunks);
    struct chunk *chunk = &chunks[number];
    chunk->rows = grown(chunk->rows, &chunk->room, chunk->count + 1, sizeof row);
    chunk->rows[chunk->count++] = row;
}

/* Rows from one time to another have come: their buckets are out of date. */
static void note_rows(int64_t from, int64_t to) {
    if (from >= threshold) return;
    for (size_t bucket = bucket_of(from); bucket <= bucket_of(to) && bucket < clean_room; bucket++)
        is_clean[bucket] = 0;
}

static void add_to(struct group *group, const struct row *row) {
    group->count++;
    group->sum += row->value;
}

/* ---- Statements ---- */

static const char *number_at(const char *text, int64_t *number) {
    while (*text == ' ') text++;
    int is_negative = *text == '-';
    text += is_negative;
    uint64_t value = 0;
    while (*text >= '0' && *text <= '9') value = value * 10 + (*text++ - '0');
    *number = is_negative ? -(int64_t)value : (int64_t)value;
    return text;
}

static void reply_made(const char *text) {
    char *to = put_position(put_text(reply_room(), "d: "), text, events);
    *to++ = '\n';
    reply_ends(to);
}

static void create_table(void) {
    begin_event(1);
    put_name("m");
    put_8(3);
    put_name("time"), put_8(1);
    put_name("dev"), put_8(0);
    put_name("val"), put_8(0);
    end_event();
    reply_made("TABLE @");
}

static void create_hypertable(void) {
    begin_event(2);
    put_32(0);
    put_32(0);
    put_64(CHUNK);
    end_event();
    reply_made("HYPERTABLE @");
}

static void create_view(void) {
    begin_event(3);
    put_name("m100");
    put_32(0);
    put_64(BUCKET);
    put_64(0);
    put_8(1), put_32(1);                          /* the key */
    put_8(2), put_8(1), put_32(0), put_8(3), put_32(2); /* the count of rows and the sum of values */
    put_32(0);
    put_8(4), put_name("bucket"), put_name("dev"), put_name("count"), put_name("sum");
    put_8(0);
    end_event();
    reply_made("VIEW @");
}

/* The row that begins here, put into its chunk and into the record. */
static const char *insert_row(const char *text, struct row *row) {
    text = number_at(text, &row->time);
    text = number_at(text + 1, &row->device);
    text = number_at(text + 1, &row->value);
    add_row(*row);
    unsigned char *to = record_space(27);
    memcpy(to, &row->time, 8);
    to[8] = 2;
    to[9] = 1, memcpy(to + 10, &row->device, 8);
    to[18] = 1, memcpy(to + 19, &row->value, 8);
    return text;
}

static void insert(const char *text) {
    begin_event(5);
    put_32(1), put_8(1), put_32(0);
    size_t count_at = record_len;
    put_32(0);
    uint32_t count = 0;
    int64_t from = INT64_MAX, to = INT64_MIN;
    while ((text = strchr(text, '('))) {
        struct row row;
        text = insert_row(text + 1, &row);
        if (row.time < from) from = row.time;
        if (row.time > to) to = row.time;
        count++;
    }
    memcpy(record + count_at, &count, 4);
    end_event();
    note_rows(from, to);
    char *reply = put_position(reply_room(), "d: COMMIT @", events);
    reply_ends(put_text(put_position(reply, " +", count), " -0\n"));
}

/* ---- Groups by a hash of their keys ---- */

struct keyed { size_t bucket; int64_t device; struct group group; };

static int is_hashed;
static struct keyed *keyed; /* a place without rows is free */
static size_t keyed_count, keyed_room;

static struct keyed *place_of(size_t bucket, int64_t device) {
    uint64_t print = (bucket ^ (uint64_t)device * 0x9e3779b97f4a7c15u) * 0xc2b2ae3d27d4eb4fu;
    size_t at = print >> 32;
    while (1) {
        struct keyed *place = &keyed[at++ & (keyed_room - 1)];
        if (!place->group.count || (place->bucket == bucket && place->device == device)) return place;
    }
}

/* No group, and room for so many places, a power of two. */
static void begin_groups(size_t room) {
    keyed = calloc(room, sizeof *keyed);
    if (!keyed) exit(70);
    keyed_room = room;
}

static void double_groups(void) {
    struct keyed *old = keyed;
    size_t old_room = keyed_room;
    begin_groups(2 * old_room);
    for (struct keyed *place = old; place < old + old_room; place++)
        if (place->group.count) *place_of(place->bucket, place->device) = *place;
    free(old);
}

static void add_keyed(size_t bucket, const struct row *row) {
    struct keyed *place = place_of(bucket, row->device);
    if (!place->group.count) {
        place->bucket = bucket, place->device = row->device;
        keyed_count++;
    }
    add_to(&place->group, row);
    if (2 * keyed_count > keyed_room) double_groups();
}

static int keyed_order(const void *a, const void *b) {
    const struct keyed *x = a, *y = b;
    if (x->bucket != y->bucket) return x->bucket < y->bucket ? -1 : 1;
    return (x->device > y->device) - (x->device < y->device);
}

/* Puts the groups where they belong, in order, and forgets them. */
static void end_groups(void) {
    struct keyed *end = keyed;
    for (struct keyed *place = keyed; place < keyed + keyed_room; place++)
        if (place->group.count) *end++ = *place;
    qsort(keyed, keyed_count, sizeof *keyed, keyed_order);
    for (struct keyed *place = keyed; place < end; place++) materialised[place->bucket][place->device] = place->group;
    free(keyed);
    keyed_count = 0;
}

/* Builds the buckets of a window that are out of date. */
static void build(size_t from, size_t to) {
    for (size_t bucket = from; bucket < to; bucket++)
        if (!is_clean[bucket]) memset(materialised[bucket], 0, sizeof *materialised);
    if (is_hashed) begin_groups(64);
    size_t last = chunk_of(start_of(to) - 1);
    for (size_t number = chunk_of(start_of(from)); number <= last && number < chunks_room; number++) {
        struct chunk *chunk = &chunks[number];
        for (const struct row *row = chunk->rows; row < chunk->rows + chunk->count; row++) {
            size_t bucket = bucket_of(row->time);
            if (bucket < from || bucket >= to || is_clean[bucket]) continue;
            if (is_hashed) add_keyed(bucket, row);
            else add_to(&materialised[bucket][row->device], row);
        }
    }
    if (is_hashed) end_groups();
    for (size_t bucket = from; bucket < to; bucket++) {
        is_clean[bucket] = 1;
        for (int device = 0; device < DEVICES; device++)
            if (materialised[bucket][device].count && bucket >= watermark) watermark = bucket + 1;
    }
}

static void refresh(const char *text) {
    int64_t from, to;
    text = number_at(strchr(text, ',') + 1, &from);
    number_at(text + 1, &to);
    begin_event(6);
    put_32(0), put_64(from), put_64(to);
    end_event();
    uint64_t cut = events;
    if (to > threshold) threshold = to;
    materialised = grown(materialised, &materialised_room, bucket_of(to), sizeof *materialised);
    is_clean = grown(is_clean, &clean_room, bucket_of(to), 1);
    build(bucket_of(from), bucket_of(to));
    begin_event(7);
    put_64(cut), put_64(cut);
    end_event();
    char *reply = put_position(reply_room(), "d: REFRESH ", cut);
    reply = put_position(put_position(reply, " @", events), " snap ", cut);
    reply = put_position(put_position(reply, " ", from), "..", to);
    *reply++ = '\n';
    reply_ends(reply);
}

/* The groups of the rows from the watermark on, and the bucket behind the last of them. */
static struct group (*fold_live(size_t *end))[DEVICES] {
    static struct group (*live)[DEVICES];
    static size_t live_room;
    size_t buckets = chunks_room * (CHUNK / BUCKET) - watermark;
    live = grown(live, &live_room, buckets, sizeof *live);
    if (live) memset(live, 0, buckets * sizeof *live);
    *end = watermark;
    for (size_t number = watermark / (CHUNK / BUCKET); number < chunks_room; number++) {
        struct chunk *chunk = &chunks[number];
        for (const struct row *row = chunk->rows; row < chunk->rows + chunk->count; row++) {
            size_t bucket = bucket_of(row->time);
            if (bucket < watermark) continue;
            add_to(&live[bucket - watermark][row->device], row);
            if (bucket >= *end) *end = bucket + 1;
        }
    }
    return live;
}

static size_t count_groups(struct group (*groups)[DEVICES], size_t buckets) {
    size_t count = 0;
    for (size_t bucket = 0; bucket < buckets; bucket++)
        for (int device = 0; device < DEVICES; device++) count += groups[bucket][device].count != 0;
    return count;
}

static void reply_groups(struct group (*groups)[DEVICES], size_t first, size_t end) {
    for (size_t bucket = first; bucket < end; bucket++)
        for (int device = 0; device < DEVICES; device++) {
            const struct group *group = &groups[bucket - first][device];
            if (!group->count) continue;
            char *to = put_number(reply_room(), start_of(bucket));
            *to++ = '|', *to++ = '0' + device, *to++ = '|';
            to = put_number(to, group->count);
            *to++ = '|';
            to = put_number(to, group->sum);
            *to++ = '\n';
            reply_ends(to);
        }
}

/* Counts the ranges below the watermark that are out of date, and replies them where that is asked for. The
   first one takes in all that no refresh has ever reached. */
static size_t stale_ranges(int is_replied) {
    size_t count = 0, bucket = 0;
    while (watermark && (bucket < watermark || count == 0)) {
        size_t from = bucket;
        while (bucket < watermark && !is_clean[bucket]) bucket++;
        if (bucket > from || count == 0) {
            count++;
            if (is_replied) {
                char *to = put_text(reply_room(), "stale ");
                to = from == 0 ? put_text(to, "min") : put_number(to, start_of(from));
                to = put_number(put_text(to, ".."), start_of(bucket));
                *to++ = '\n';
                reply_ends(to);
            }
        }
        while (bucket < watermark && is_clean[bucket]) bucket++;
    }
    return count;
}

static void answer(void) {
    size_t end;
    struct group (*live)[DEVICES] = fold_live(&end);
    size_t groups = count_groups(materialised, watermark) + count_groups(live, end - watermark);
    char *to = put_position(reply_room(), "d: ANSWER @", events);
    to = put_position(put_position(to, " rows ", groups), " stale ", stale_ranges(0));
    *to++ = '\n';
    reply_ends(to);
    reply_groups(materialised, 0, watermark);
    reply_groups(live, watermark, end);
    stale_ranges(1);
}

static int begins(const char *text, const char *front) {
    return strncmp(text, front, strlen(front)) == 0;
}

static void execute(const char *line) {
    if (!begins(line, "d: ")) exit(65);
    const char *text = line + 3;
    if (begins(text, "INSERT")) insert(text);
    else if (begins(text, "CALL")) refresh(text);
    else if (begins(text, "SELECT *")) answer();
    else if (begins(text, "CREATE TABLE")) create_table();
    else if (begins(text, "SELECT create")) create_hypertable();
    else if (begins(text, "CREATE MAT")) create_view();
    else exit(65);
}

int main(int count, char **words) {
    static char input[1 << 17];
    is_hashed = count == 2 && strcmp(words[1], "--hash") == 0;
    size_t held = 0;
    ssize_t n;
    open_journal();
    while ((n = read(0, input + held, sizeof input - held)) > 0) {
        held += n;
        char *line = input, *end;
        while ((end = memchr(line, '\n', input + held - line))) {
            *end = 0;
            execute(line);
            line = end + 1;
        }
        write_replies();
        held -= line - input;
        memmove(input, line, held);
    }
    return n < 0 ? 74 : 0;
}
