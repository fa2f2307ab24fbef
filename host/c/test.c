/* A host in C: writes two records, looks their values up, recovers them from the log into a new image, and clears them. */
#include "../../include/hongsathep.h"

#include <stdio.h>
#include <stdlib.h>
#include <string.h>

static int faults;

static void expect(const char *what, uint64_t got, uint64_t due) {
    if (got != due) {
        printf("%s: %llu, and %llu is due\n", what, (unsigned long long)got, (unsigned long long)due);
        faults++;
    }
}

/* index table 3 with 4 chunks, value table 7 with 8 values of 20 bytes */
static const uint64_t tables[] = {0, 3, 1, 4, 0, 0, 1, 7, 2, 8, 20, 0};
#define TABLES tables, sizeof tables / sizeof *tables

static uint64_t list[HONGSATHEP_LIST_HEAD_WORDS], items[HONGSATHEP_LIST_WORDS];
static uint8_t chunks[HONGSATHEP_LIST_BYTES];
#define LIST list, HONGSATHEP_LIST_HEAD_WORDS
#define ITEMS items, HONGSATHEP_LIST_WORDS
#define CHUNKS chunks, HONGSATHEP_LIST_BYTES

static uint64_t overlays[HONGSATHEP_OVERLAYS_HEAD_WORDS], words[HONGSATHEP_OVERLAYS_WORDS];
static uint8_t bytes[HONGSATHEP_OVERLAYS_BYTES];
#define OVERLAYS overlays, HONGSATHEP_OVERLAYS_HEAD_WORDS
#define WORDS words, HONGSATHEP_OVERLAYS_WORDS
#define BYTES bytes, HONGSATHEP_OVERLAYS_BYTES

static uint64_t queues[HONGSATHEP_QUEUES_WORDS];
#define QUEUES queues, HONGSATHEP_QUEUES_WORDS

static uint8_t log_bytes[65536];
static uint64_t log_length;
static uint64_t next = 1;

/* a record of one value of table 7, appended to the log */
static void append(uint64_t index, const char *text) {
    uint8_t value[20] = {0};
    uint64_t size, source, file, first = log_length == 0;
    memcpy(value, text, strlen(text));
    expect("begin_record", hongsathep_begin_record(&next, LIST), 0);
    expect("insert_value", hongsathep_insert_value(TABLES, LIST, ITEMS, CHUNKS, 7, index, value, 20), 0);
    expect("insert_value, no such table", hongsathep_insert_value(TABLES, LIST, ITEMS, CHUNKS, 8, index, value, 20), 6);
    expect("record_size", hongsathep_record_size(TABLES, LIST, ITEMS, CHUNKS, &size), 0);
    expect("record_size, bytes", size, 45);
    expect("end_record", hongsathep_end_record(TABLES, LIST, ITEMS, CHUNKS, OVERLAYS, WORDS, BYTES, QUEUES, next,
        log_bytes + log_length, sizeof log_bytes - log_length, &size, &source, &file), 0);
    expect("end_record, bytes", size, 45);
    expect("end_record, where the file is from", source, first ? 2 : 0);
    expect("end_record, file", file, 0);
    log_length += size;
}

static void recover(const uint8_t *log, size_t length, uint64_t answer, uint64_t count, uint64_t place) {
    size_t n = hongsathep_image_length(TABLES), start = hongsathep_table_start(TABLES, 1);
    uint8_t *image = calloc(n, 1);
    uint64_t end, ran, fault;
    expect("image_length", n, 4 * 512 + 8 * 20);
    expect("run", hongsathep_run(TABLES, log, length, 0, 1, image, n, &end, &ran, &fault), answer);
    expect("run, records", ran, count);
    expect("run, position", end, 45 * count);
    expect("run, fault", fault, place);
    expect("value 2 recovered", memcmp(image + start + 2 * 20, "42 metres", 9) == 0, count > 0);
    expect("value 5 recovered", memcmp(image + start + 5 * 20, "not feet", 8) == 0, count > 1);
    expect("run, image of another length", hongsathep_run(TABLES, log, length, 0, 1, image, n - 1, &end, &ran, &fault), 13);
    free(image);
}

static void look(uint64_t index, const char *text, uint64_t memory) {
    uint64_t where, place, length, found;
    uint8_t dest[8] = {0};
    expect("lookup", hongsathep_lookup(1, OVERLAYS, WORDS, BYTES, 7, index, &where, &place, &length), 0);
    expect("lookup, memory", where, memory);
    expect("lookup, length", length, memory ? 20 : 0);
    if (memory) expect("lookup, bytes", memcmp(bytes + place, text, strlen(text)), 0);
    expect("value", hongsathep_value(OVERLAYS, WORDS, BYTES, 7, index, dest, sizeof dest, &found), 0);
    expect("value, found", found, memory ? 1 : 0);
    if (memory) expect("value, bytes", memcmp(dest, text, sizeof dest), 0);
}

static void step(void) {
    uint64_t reader[HONGSATHEP_READER_WORDS], tag, table, index, start, length, fault;
    expect("reader_new", hongsathep_reader_new(reader, 5, 0, true), 0);
    expect("next", hongsathep_next(TABLES, log_bytes, log_length, reader, 5, &tag, &table, &index, &start, &length, &fault), 0);
    expect("next, begin", tag, 1);
    expect("next", hongsathep_next(TABLES, log_bytes, log_length, reader, 5, &tag, &table, &index, &start, &length, &fault), 0);
    expect("next, a value", tag, 3);
    expect("next, table", table, 7);
    expect("next, index", index, 2);
    expect("next, payload", memcmp(log_bytes + start, "42 metres", 9), 0);
    expect("next", hongsathep_next(TABLES, log_bytes, log_length, reader, 5, &tag, &table, &index, &start, &length, &fault), 0);
    expect("next, end", tag, 4);
    expect("reader, position", reader[0], 45);
    expect("next, fault", fault, 45);
    expect("next, cut", hongsathep_next(TABLES, log_bytes, 50, reader, 5, &tag, &table, &index, &start, &length, &fault), 1);
    expect("next, cut, fault", fault, 45);
}

static void files(void) {
    uint64_t moved, number, reader[HONGSATHEP_READER_WORDS], empty[64], remove[64], emptied, removed, more;
    expect("flush_one", hongsathep_flush_one(QUEUES, 89, &moved, &number), 0);
    expect("flush_one, moved", moved, 1);
    expect("read_next", hongsathep_read_next(QUEUES, log_bytes, log_length, 0, true, &number, reader, 5), 0);
    expect("read_next, id", reader[1], 1);
    expect("read_next, end", hongsathep_read_next(QUEUES, log_bytes, log_length, log_length, true, &number, reader, 5), 1);
    expect("num_dirty_logs", hongsathep_num_dirty_logs(QUEUES), 1);
    expect("clean_logs", hongsathep_clean_logs(QUEUES, 4, &more, empty, &emptied, remove, &removed), 0);
    expect("clean_logs, to empty", emptied, 1);
    expect("clean_logs, which", empty[0], 0);
    expect("clean_logs, to remove", removed, 0);
}

/* words that are no queues: 13, and they stay as they were */
static void refusals(void) {
    uint64_t moved, number, before[HONGSATHEP_QUEUES_WORDS];
    queues[330] = 2;
    memcpy(before, queues, sizeof queues);
    expect("flush_one, dirty is 2", hongsathep_flush_one(QUEUES, 0, &moved, &number), 13);
    expect("queues as they were", memcmp(before, queues, sizeof queues), 0);
    queues[330] = 1;
    expect("flush_one, a word short", hongsathep_flush_one(queues, HONGSATHEP_QUEUES_WORDS - 1, 0, &moved, &number), 13);
}

/* a record whose value is damaged is left out, and the one behind it is copied */
static void salvage(void) {
    uint64_t lines[HONGSATHEP_SALVAGE_WORDS], due[] = {0, 0, 45, 0, 1, 45, 45, 2}, count, written;
    uint8_t out[90] = {0};
    log_bytes[30] ^= 1;
    expect("salvage", hongsathep_salvage(TABLES, log_bytes, log_length, out, sizeof out, lines, HONGSATHEP_SALVAGE_WORDS, &count, &written), 0);
    expect("salvage, lines", count, 2);
    expect("salvage, the list", memcmp(lines, due, sizeof due), 0);
    expect("salvage, bytes", written, 45);
    expect("salvage, the record", memcmp(out, log_bytes + 45, 45), 0);
    expect("salvage, no room", hongsathep_salvage(TABLES, log_bytes, log_length, out, 44, lines, HONGSATHEP_SALVAGE_WORDS, &count, &written), 10);
    expect("salvage, a word short", hongsathep_salvage(TABLES, log_bytes, log_length, out, 90, lines, HONGSATHEP_SALVAGE_WORDS - 1, &count, &written), 13);
    log_bytes[30] ^= 1;
}

int main(void) {
    uint64_t end, id, fault;
    expect("checksum", hongsathep_checksum((const uint8_t *)"123456789", 9), 0xCBF43926);
    expect("directory_kept", hongsathep_directory_kept(TABLES), 0);
    expect("directory_kept, a word short", hongsathep_directory_kept(tables, 11), 13);
    expect("overlays_new", hongsathep_overlays_new(OVERLAYS), 0);
    expect("queues_new", hongsathep_queues_new(QUEUES), 0);
    append(2, "42 metres");
    append(5, "not feet");
    look(2, "42 metres", 2);
    look(5, "not feet", 2);
    look(6, "", 0);
    expect("last_record_id", hongsathep_last_record_id(OVERLAYS, 2), 2);
    step();
    recover(log_bytes, log_length, 1, 2, 90);
    recover(log_bytes, log_length - 1, 2, 1, 85);
    recover(log_bytes, 40, 2, 0, 40);
    recover(log_bytes, 39, 2, 0, 9);
    log_bytes[60] ^= 1;
    recover(log_bytes, log_length, 7, 1, 54);
    log_bytes[60] ^= 1;
    log_bytes[80] ^= 1;
    recover(log_bytes, log_length, 8, 1, 85);
    log_bytes[80] ^= 1;
    salvage();
    files();
    next = 1;
    expect("end_read", hongsathep_end_read(TABLES, log_bytes, log_length, 0, OVERLAYS, WORDS, BYTES, &next, &end, &id, &fault), 0);
    expect("end_read, position", end, 45);
    expect("end_read, fault", fault, 45);
    expect("end_read, id", id, 1);
    look(2, "", 0);
    look(5, "not feet", 2);
    expect("end_read", hongsathep_end_read(TABLES, log_bytes, log_length, end, OVERLAYS, WORDS, BYTES, &next, &end, &id, &fault), 0);
    expect("next id", next, 3);
    look(5, "", 0);
    refusals();
    if (faults == 0) puts("host/c: all as expected");
    return faults != 0;
}
