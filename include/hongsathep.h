/* Hongsathep: the write-ahead log of parity-db, each call proved to meet its contract. For hosts in C, C++ or Rust on x86-64 Linux.

   Link target/staticlib/libedge_reading.a, libedge_queues.a, libedge_lists.a, libedge_lookups.a and libedge_log.a (host/c/build makes them).
   There is no heap, no thread, no file call and no state inside: all states lie in memory that the host lends for the length of a call.

   Answers are numbers, the same for every call that has one (document 01, "Numbered answers"):
     0 done                                  8 checksum differs
     1 end of log at this position           9 no room in a list, overlay or the file set
     2 the bytes end inside a begun record  10 output too short
     3 tag 0 or 8 to 255                    11 list's id plus 1 isn't the next id
     4 begin missing, or inside a record    12 record ids, file numbers or a file's size used up
     5 id isn't the expected one            13 a state handed in breaks a rule, or image length differs
     6 table not in the directory           14 slot above 63, chunk or value of the wrong length, position beyond the log's end
     7 index not below the table's count

   A refusal, any answer but 0, leaves every lent state and memory as it was; what a call hands out through a pointer to one number is then 0, or
   the position or id that was handed in. Where a call has `fault`, a refusal stores there the position of the first byte of the action at fault:
   for 5 the begin tag, for 8 the end tag, for a fault where a record opens (1 among them) the record's start, for 2 the action that isn't whole, or
   the log's end if none is begun, for 12 the place behind the last record read, for 13 and 14 the position handed in. Two exceptions: hongsathep_run says where and with which answer it stopped, and the image has the records
   before; hongsathep_read_next moves a file on when it answers 1.

   What the caller sees to, in every call: each pointer is valid, aligned and not null, also where a length is 0; a length is the number of
   elements behind its pointer; no memory that a call writes overlaps another that it is lent; nobody else writes them meanwhile.
   Nothing else: any bytes, any words, any order of calls end with an answer. A state whose words have another length, or a word out of its
   range, counts as one that breaks a rule: 13.

   A second form, named .._kept, leaves the test of the rules out, and the caller sees to it that the states keep them: each state was made by
   this library and written by nobody else, and its last call was handed the same directory. (Every call keeps the rules: that is proved.) Handed
   a state that breaks a rule it may read or write outside of what it was lent. */
#ifndef HONGSATHEP_H
#define HONGSATHEP_H

#include <stdbool.h>
#include <stddef.h>
#include <stdint.h>

#ifdef __cplusplus
extern "C" {
#endif

/* A directory: 6 words a table, in the order in which the tables lie in the image: kind (0 index, 1 value, 2 reference count), number, column,
   count, length, marks (0). At most 16 tables. */
#define HONGSATHEP_TABLE_WORDS 6
#define HONGSATHEP_MOST_TABLES 16

/* A reader: position, record id, the checksum's register, validate (0 or 1), inside (0 or 1). */
#define HONGSATHEP_READER_WORDS 5

/* The list of a damaged log (`list` of hongsathep_salvage): room for 64 lines of four words: 1 kept or 0 lost, position, length, the record's id, 0
   where it is lost. */
#define HONGSATHEP_SALVAGE_WORDS 256

/* A change list: its head (`list`: the record's id; how many index, value and reference count keys; how many index drops and 16 table numbers; the
   same of the reference count drops), and two memories of its own, `items` and `chunks`. Head and memories go together. */
#define HONGSATHEP_LIST_HEAD_WORDS 38
#define HONGSATHEP_LIST_WORDS 400
#define HONGSATHEP_LIST_BYTES 49152

/* The shared overlays: their head (`overlays`: how many index, value and reference count keys, and the last ids of columns 0 to 7), and two
   memories, `words` and `bytes`. */
#define HONGSATHEP_OVERLAYS_HEAD_WORDS 11
#define HONGSATHEP_OVERLAYS_WORDS 3840
#define HONGSATHEP_OVERLAYS_BYTES 524288

/* The file queues: appending (0 or 1, number, size), read queue (count, 64 numbers), reading (0 or 1, number), cleanup, pool and replay queue
   (count, 64 numbers each), 64 first ids beside the replay queue, the next number, dirty (0 or 1). */
#define HONGSATHEP_QUEUES_WORDS 331

/* ---- the checksum and the directory */

/* CRC-32 of ITU-T V.42 of the bytes. */
uint32_t hongsathep_checksum(const uint8_t *bytes, size_t bytes_length);

/* 0 if the directory keeps its rules, else 13. */
uint64_t hongsathep_directory_kept(const uint64_t *tables, size_t tables_length);

/* How many bytes the image of the tables has. */
size_t hongsathep_image_length(const uint64_t *tables, size_t tables_length);

/* Where the table in a row, counted from 0, begins in the image. */
size_t hongsathep_table_start(const uint64_t *tables, size_t tables_length, size_t row);

/* ---- reading and replay */

/* Makes a reader between records at a position; validate: whether it tests checksums. 13 if `reader` isn't 5 words. */
uint64_t hongsathep_reader_new(
    uint64_t *reader, size_t reader_length, size_t position, bool validate);

/* One step of the reader: the action's tag (1 begin, 2 index, 3 value, 4 end, 5 drop index table, 6 reference count, 7 drop reference count
   table), its table and index, and where its payload starts in the log and how long it is. Answers 0 to 4, 6 to 8, 13, 14; the reader moves on
   after 0. `fault`: after 0 the position behind the action; where the reader's words break a rule, 0. It hands out actions before the checksum at the record's end is seen: whoever applies them must have seen the end first, as
   hongsathep_replay does. Kept: the directory keeps its rules. */
uint64_t hongsathep_next(
    const uint64_t *tables, size_t tables_length, const uint8_t *log, size_t log_length, uint64_t *reader,
    size_t reader_length, uint64_t *tag, uint64_t *table, uint64_t *index, uint64_t *start, uint64_t *length,
    uint64_t *fault);
uint64_t hongsathep_next_kept(
    const uint64_t *tables, size_t tables_length, const uint8_t *log, size_t log_length, uint64_t *reader,
    size_t reader_length, uint64_t *tag, uint64_t *table, uint64_t *index, uint64_t *start, uint64_t *length,
    uint64_t *fault);

/* Replays the record at a position: checked to its end, then applied to the image, which is hongsathep_image_length bytes. `end`: the position
   behind it, or the one handed in; `fault`: after 0 as `end`. Answers 0 to 8, 13, 14; the image changes after 0 alone. Kept: the directory keeps its rules and the image
   has its length. */
uint64_t hongsathep_replay(
    const uint64_t *tables, size_t tables_length, const uint8_t *log, size_t log_length, size_t position,
    uint64_t expected, uint8_t *image, size_t image_length, uint64_t *end, uint64_t *fault);
uint64_t hongsathep_replay_kept(
    const uint64_t *tables, size_t tables_length, const uint8_t *log, size_t log_length, size_t position,
    uint64_t expected, uint8_t *image, size_t image_length, uint64_t *end, uint64_t *fault);

/* Replays from a position on, the expected id rising by 1, up to the first answer other than 0, which it gives: 1 where the log ends. `end`:
   where the record not replayed begins; `count`: how many were replayed; the image has those. Kept: as above. */
uint64_t hongsathep_run(
    const uint64_t *tables, size_t tables_length, const uint8_t *log, size_t log_length, size_t position,
    uint64_t expected, uint8_t *image, size_t image_length, uint64_t *end, uint64_t *count, uint64_t *fault);
uint64_t hongsathep_run_kept(
    const uint64_t *tables, size_t tables_length, const uint8_t *log, size_t log_length, size_t position,
    uint64_t expected, uint8_t *image, size_t image_length, uint64_t *end, uint64_t *count, uint64_t *fault);

/* Copies the whole records of a damaged log that are acceptable under the directory, whatever their ids, to the front of `out`, and lists them and
   the stretches between them, which cover the log once and in order, at the front of `list`; the rest of both stays. `lines`: how many lines there
   are; `written`: how many bytes. It applies nothing. Answers 0, 13 (a directory that breaks a rule, a `list` that isn't 256 words), 9 (more than
   64 lines), 10, in that order. Kept: the directory keeps its rules and `list` is 256 words. */
uint64_t hongsathep_salvage(
    const uint64_t *tables, size_t tables_length, const uint8_t *log, size_t log_length, uint8_t *out,
    size_t out_length, uint64_t *list, size_t list_length, uint64_t *lines, uint64_t *written);
uint64_t hongsathep_salvage_kept(
    const uint64_t *tables, size_t tables_length, const uint8_t *log, size_t log_length, uint8_t *out,
    size_t out_length, uint64_t *list, size_t list_length, uint64_t *lines, uint64_t *written);

/* ---- a change list */

/* Makes an empty list of an id; its memories may hold anything. 13 if `list` isn't 38 words. */
uint64_t hongsathep_list_new(uint64_t *list, size_t list_length, uint64_t id);

/* Inserts an index chunk, 512 bytes, at a slot 0 to 63. Answers 0, 6, 7, 9, 13, 14. Kept: directory and list keep their rules, and the list
   fits the directory. */
uint64_t hongsathep_insert_index(
    const uint64_t *tables, size_t tables_length, uint64_t *list, size_t list_length, uint64_t *items,
    size_t items_length, uint8_t *chunks, size_t chunks_length, uint16_t table, uint64_t index, uint8_t sub,
    const uint8_t *data, size_t data_length);
uint64_t hongsathep_insert_index_kept(
    const uint64_t *tables, size_t tables_length, uint64_t *list, size_t list_length, uint64_t *items,
    size_t items_length, uint8_t *chunks, size_t chunks_length, uint16_t table, uint64_t index, uint8_t sub,
    const uint8_t *data, size_t data_length);

/* Inserts a value of the table's length. Answers 0, 6, 7, 9, 13, 14. Kept: as above. */
uint64_t hongsathep_insert_value(
    const uint64_t *tables, size_t tables_length, uint64_t *list, size_t list_length, uint64_t *items,
    size_t items_length, uint8_t *chunks, size_t chunks_length, uint16_t table, uint64_t index,
    const uint8_t *data, size_t data_length);
uint64_t hongsathep_insert_value_kept(
    const uint64_t *tables, size_t tables_length, uint64_t *list, size_t list_length, uint64_t *items,
    size_t items_length, uint8_t *chunks, size_t chunks_length, uint16_t table, uint64_t index,
    const uint8_t *data, size_t data_length);

/* Inserts a reference count chunk, 1,024 bytes, at a slot 0 to 63. Answers 0, 6, 7, 9, 13, 14. Kept: as above. */
uint64_t hongsathep_insert_ref_count(
    const uint64_t *tables, size_t tables_length, uint64_t *list, size_t list_length, uint64_t *items,
    size_t items_length, uint8_t *chunks, size_t chunks_length, uint16_t table, uint64_t index, uint8_t sub,
    const uint8_t *data, size_t data_length);
uint64_t hongsathep_insert_ref_count_kept(
    const uint64_t *tables, size_t tables_length, uint64_t *list, size_t list_length, uint64_t *items,
    size_t items_length, uint8_t *chunks, size_t chunks_length, uint16_t table, uint64_t index, uint8_t sub,
    const uint8_t *data, size_t data_length);

/* Lists the drop of an index table. Answers 0, 6, 9, 13. Kept: as above. */
uint64_t hongsathep_drop_table(
    const uint64_t *tables, size_t tables_length, uint64_t *list, size_t list_length, const uint64_t *items,
    size_t items_length, const uint8_t *chunks, size_t chunks_length, uint16_t table);
uint64_t hongsathep_drop_table_kept(
    const uint64_t *tables, size_t tables_length, uint64_t *list, size_t list_length, const uint64_t *items,
    size_t items_length, const uint8_t *chunks, size_t chunks_length, uint16_t table);

/* Lists the drop of a reference count table. Answers 0, 6, 9, 13. Kept: as above. */
uint64_t hongsathep_drop_ref_count_table(
    const uint64_t *tables, size_t tables_length, uint64_t *list, size_t list_length, const uint64_t *items,
    size_t items_length, const uint8_t *chunks, size_t chunks_length, uint16_t table);
uint64_t hongsathep_drop_ref_count_table_kept(
    const uint64_t *tables, size_t tables_length, uint64_t *list, size_t list_length, const uint64_t *items,
    size_t items_length, const uint8_t *chunks, size_t chunks_length, uint16_t table);

/* How long the list's record is. Answers 0, 13. Kept: the list keeps its rules. */
uint64_t hongsathep_record_size(
    const uint64_t *tables, size_t tables_length, const uint64_t *list, size_t list_length,
    const uint64_t *items, size_t items_length, const uint8_t *chunks, size_t chunks_length, uint64_t *size);
uint64_t hongsathep_record_size_kept(
    const uint64_t *list, size_t list_length, const uint64_t *items, size_t items_length,
    const uint8_t *chunks, size_t chunks_length, uint64_t *size);

/* Writes the list's record at the front of `out`, the rest staying; `size`: its length. Answers 0, 10, 13. Kept: the list keeps its rules. */
uint64_t hongsathep_flush_to_file(
    const uint64_t *tables, size_t tables_length, const uint64_t *list, size_t list_length,
    const uint64_t *items, size_t items_length, const uint8_t *chunks, size_t chunks_length, uint8_t *out,
    size_t out_length, uint64_t *size);
uint64_t hongsathep_flush_to_file_kept(
    const uint64_t *list, size_t list_length, const uint64_t *items, size_t items_length,
    const uint8_t *chunks, size_t chunks_length, uint8_t *out, size_t out_length, uint64_t *size);

/* Where a table's values stand in the list: at `from` to `to` of the order of its value keys (words 288 to 319 of `items`, each the number p
   of a row at word 160 + 4p: table, index, record id, length; the value's bytes are at 16,384 + 512p of `chunks`). Answers 0, 13. Kept: the
   list keeps its rules. */
uint64_t hongsathep_local_values_changes(
    const uint64_t *list, size_t list_length, const uint64_t *items, size_t items_length,
    const uint8_t *chunks, size_t chunks_length, uint16_t table, uint64_t *from, uint64_t *to);
uint64_t hongsathep_local_values_changes_kept(
    const uint64_t *list, size_t list_length, const uint64_t *items, size_t items_length,
    const uint8_t *chunks, size_t chunks_length, uint16_t table, uint64_t *from, uint64_t *to);

/* ---- the shared overlays */

/* Makes empty overlays; their memories may hold anything. 13 if `overlays` isn't 11 words. */
uint64_t hongsathep_overlays_new(uint64_t *overlays, size_t overlays_length);

/* The id of the last record that set a value of a column 0 to 7; 2^64-1 for any other column. */
uint64_t hongsathep_last_record_id(const uint64_t *overlays, size_t overlays_length, uint64_t col);

/* Where the bytes under a table and an index lie: `kind` 0 index, 1 value, any other reference count; `memory` 0 where there is no entry, 2
   `bytes`; their place there and their length. Answers 0, 13. Kept: the overlays keep their rules. */
uint64_t hongsathep_lookup(
    uint64_t kind, const uint64_t *overlays, size_t overlays_length, const uint64_t *words,
    size_t words_length, const uint8_t *bytes, size_t bytes_length, uint16_t table, uint64_t index,
    uint64_t *memory, uint64_t *place, uint64_t *length);
uint64_t hongsathep_lookup_kept(
    uint64_t kind, const uint64_t *overlays, size_t overlays_length, const uint64_t *words,
    size_t words_length, const uint8_t *bytes, size_t bytes_length, uint16_t table, uint64_t index,
    uint64_t *memory, uint64_t *place, uint64_t *length);

/* The same in a list first, then in the overlays: `memory` 0 none, 1 the list's `chunks`, 2 `bytes`. Kept: list and overlays keep their rules. */
uint64_t hongsathep_lookup_listed(
    uint64_t kind, const uint64_t *list, size_t list_length, const uint64_t *items, size_t items_length,
    const uint8_t *chunks, size_t chunks_length, const uint64_t *overlays, size_t overlays_length,
    const uint64_t *words, size_t words_length, const uint8_t *bytes, size_t bytes_length, uint16_t table,
    uint64_t index, uint64_t *memory, uint64_t *place, uint64_t *length);
uint64_t hongsathep_lookup_listed_kept(
    uint64_t kind, const uint64_t *list, size_t list_length, const uint64_t *items, size_t items_length,
    const uint8_t *chunks, size_t chunks_length, const uint64_t *overlays, size_t overlays_length,
    const uint64_t *words, size_t words_length, const uint8_t *bytes, size_t bytes_length, uint16_t table,
    uint64_t index, uint64_t *memory, uint64_t *place, uint64_t *length);

/* Copies a value, the shorter of it and `dest`; the rest of `dest` stays. `found`: 1 if there is one, else 0. Answers 0, 13. Kept: the
   overlays keep their rules. */
uint64_t hongsathep_value(
    const uint64_t *overlays, size_t overlays_length, const uint64_t *words, size_t words_length,
    const uint8_t *bytes, size_t bytes_length, uint16_t table, uint64_t index, uint8_t *dest,
    size_t dest_length, uint64_t *found);
uint64_t hongsathep_value_kept(
    const uint64_t *overlays, size_t overlays_length, const uint64_t *words, size_t words_length,
    const uint8_t *bytes, size_t bytes_length, uint16_t table, uint64_t index, uint8_t *dest,
    size_t dest_length, uint64_t *found);

/* The same in a list first, then in the overlays. Kept: list and overlays keep their rules. */
uint64_t hongsathep_value_listed(
    const uint64_t *list, size_t list_length, const uint64_t *items, size_t items_length,
    const uint8_t *chunks, size_t chunks_length, const uint64_t *overlays, size_t overlays_length,
    const uint64_t *words, size_t words_length, const uint8_t *bytes, size_t bytes_length, uint16_t table,
    uint64_t index, uint8_t *dest, size_t dest_length, uint64_t *found);
uint64_t hongsathep_value_listed_kept(
    const uint64_t *list, size_t list_length, const uint64_t *items, size_t items_length,
    const uint8_t *chunks, size_t chunks_length, const uint64_t *overlays, size_t overlays_length,
    const uint64_t *words, size_t words_length, const uint8_t *bytes, size_t bytes_length, uint16_t table,
    uint64_t index, uint8_t *dest, size_t dest_length, uint64_t *found);

/* ---- records begun, ended and cleared */

/* Hands out the next id: makes an empty list of it, and raises `next` by 1. The first `next` is 1. Answers 0, 12, 13. */
uint64_t hongsathep_begin_record(uint64_t *next, uint64_t *list, size_t list_length);

/* Ends a record: writes it at the front of `out`, the rest staying (`size`: its length), puts its entries over the shared ones, and takes its
   file (`source` 0 the one appended to, 1 from the pool, 2 a new one; `file`: its number). `next` is the next id, not raised by it. Answers 0,
   9 to 13. Kept: all states keep their rules, the list fits the directory, and next isn't 0. */
uint64_t hongsathep_end_record(
    const uint64_t *tables, size_t tables_length, const uint64_t *list, size_t list_length,
    const uint64_t *items, size_t items_length, const uint8_t *chunks, size_t chunks_length,
    uint64_t *overlays, size_t overlays_length, uint64_t *words, size_t words_length, uint8_t *bytes,
    size_t bytes_length, uint64_t *queues, size_t queues_length, uint64_t next, uint8_t *out,
    size_t out_length, uint64_t *size, uint64_t *source, uint64_t *file);
uint64_t hongsathep_end_record_kept(
    const uint64_t *tables, size_t tables_length, const uint64_t *list, size_t list_length,
    const uint64_t *items, size_t items_length, const uint8_t *chunks, size_t chunks_length,
    uint64_t *overlays, size_t overlays_length, uint64_t *words, size_t words_length, uint8_t *bytes,
    size_t bytes_length, uint64_t *queues, size_t queues_length, uint64_t next, uint8_t *out,
    size_t out_length, uint64_t *size, uint64_t *source, uint64_t *file);

/* Clears an accepted record's entries from the overlays and raises `next` if the record's id isn't below it; `end`: the position behind the
   record, `id`: its id, `fault`: after 0 as `end`. After a recovery clear at least the last record, else used ids are handed out again. Answers 0 to 4, 6 to 8, 12 to 14.
   Kept: directory and overlays keep their rules, and next isn't 0. */
uint64_t hongsathep_end_read(
    const uint64_t *tables, size_t tables_length, const uint8_t *log, size_t log_length, size_t position,
    uint64_t *overlays, size_t overlays_length, uint64_t *words, size_t words_length, uint8_t *bytes,
    size_t bytes_length, uint64_t *next, uint64_t *end, uint64_t *id, uint64_t *fault);
uint64_t hongsathep_end_read_kept(
    const uint64_t *tables, size_t tables_length, const uint8_t *log, size_t log_length, size_t position,
    uint64_t *overlays, size_t overlays_length, uint64_t *words, size_t words_length, uint8_t *bytes,
    size_t bytes_length, uint64_t *next, uint64_t *end, uint64_t *id, uint64_t *fault);

/* Sends the file being read and those to replay to cleanup, empties the overlays, clears dirty. Answers 0, 13. Kept: the queues keep their
   rules. */
uint64_t hongsathep_clear_replay_logs(
    uint64_t *overlays, size_t overlays_length, const uint64_t *words, size_t words_length,
    const uint8_t *bytes, size_t bytes_length, uint64_t *queues, size_t queues_length);
uint64_t hongsathep_clear_replay_logs_kept(
    uint64_t *overlays, size_t overlays_length, uint64_t *queues, size_t queues_length);

/* ---- the file queues */

/* Makes queues without files. 13 if `queues` isn't 331 words. */
uint64_t hongsathep_queues_new(uint64_t *queues, size_t queues_length);

/* The queues of the files found: the bytes of all names, one behind the other, and the length of each; each file's length; each one's first 9
   bytes, zeros behind a shorter one's. `remove`: the numbers of those that the host is to remove, `removed` of them, at its front. Answers 0,
   9, 10, 12, 13. */
uint64_t hongsathep_open(
    const uint8_t *names, size_t names_length, const size_t *name_lengths, size_t name_lengths_length,
    const uint64_t *lengths, size_t lengths_length, const uint8_t *heads, size_t heads_length,
    uint64_t *remove, size_t remove_length, uint64_t *removed, uint64_t *queues, size_t queues_length);

/* Moves the appending file to the read queue if its size is greater than the minimum. `moved`: 1 if it was; `number`: which. Answers 0, 13.
   Kept, here and below: the queues keep their rules. */
uint64_t hongsathep_flush_one(
    uint64_t *queues, size_t queues_length, uint64_t min, uint64_t *moved, uint64_t *number);
uint64_t hongsathep_flush_one_kept(
    uint64_t *queues, size_t queues_length, uint64_t min, uint64_t *moved, uint64_t *number);

/* Tries a record's opening: at the position in `log`, the bytes of the file being read, or at 0 of the read queue's front. After 0 `number` is
   the file's and `reader` stands behind the opening; 1 sends the file to cleanup and leaves `reader` at the position handed in. Answers 0, 1,
   3, 4, 8, 13, 14. */
uint64_t hongsathep_read_next(
    uint64_t *queues, size_t queues_length, const uint8_t *log, size_t log_length, size_t position,
    bool validate, uint64_t *number, uint64_t *reader, size_t reader_length);
uint64_t hongsathep_read_next_kept(
    uint64_t *queues, size_t queues_length, const uint8_t *log, size_t log_length, size_t position,
    bool validate, uint64_t *number, uint64_t *reader, size_t reader_length);

/* Sends the file being read to cleanup and takes the next one to replay. `found`: 1 if there was one; `number`: which. Answers 0, 13. */
uint64_t hongsathep_replay_next(
    uint64_t *queues, size_t queues_length, uint64_t *found, uint64_t *number);
uint64_t hongsathep_replay_next_kept(
    uint64_t *queues, size_t queues_length, uint64_t *found, uint64_t *number);

/* Moves up to `max` files from cleanup to the pool. `more`: 1 if cleanup still holds any. `empty` and `remove` have room for 64 numbers: those
   of the files that the host is to empty, `emptied` of them, and then to remove, `removed` of them. Answers 0, 13. */
uint64_t hongsathep_clean_logs(
    uint64_t *queues, size_t queues_length, size_t max, uint64_t *more, uint64_t *empty, uint64_t *emptied,
    uint64_t *remove, uint64_t *removed);
uint64_t hongsathep_clean_logs_kept(
    uint64_t *queues, size_t queues_length, size_t max, uint64_t *more, uint64_t *empty, uint64_t *emptied,
    uint64_t *remove, uint64_t *removed);

/* Removes pool and the file being read: `remove`, with room for 64 numbers, has `removed` of them. Answers 0, 13. */
uint64_t hongsathep_kill_logs(
    uint64_t *queues, size_t queues_length, uint64_t *remove, uint64_t *removed);
uint64_t hongsathep_kill_logs_kept(
    uint64_t *queues, size_t queues_length, uint64_t *remove, uint64_t *removed);

/* Whether there is a file to replay; `id`: its first record's id, else 0. */
bool hongsathep_replay_record_id(const uint64_t *queues, size_t queues_length, uint64_t *id);

/* How many files cleanup holds. */
size_t hongsathep_num_dirty_logs(const uint64_t *queues, size_t queues_length);

/* Whether the read queue holds any. */
bool hongsathep_has_log_files_to_read(const uint64_t *queues, size_t queues_length);

#ifdef __cplusplus
}
#endif

#endif
