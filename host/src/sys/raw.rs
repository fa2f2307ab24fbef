//! Every tested call of include/hongsathep.h over the host's own memory: states are words in slices, as that header has
//! them, answers are numbers.
//!
//! For a host that keeps its states elsewhere, say in memory that it shares. Nothing is asked of the words: whatever is
//! handed in, whatever its length, a call ends with an answer, and a state that breaks a rule gets 13 and stays as it
//! was. The types of this crate's root are what one uses otherwise; they are faster, since they needn't test.
//!
//! ```
//! use hongsathep::raw;
//! let mut queues = [7; 331];
//! let (mut moved, mut number) = (9, 9);
//! assert_eq!(raw::hongsathep_flush_one(&mut queues, 0, &mut moved, &mut number), 13);
//! assert_eq!((queues, moved, number), ([7; 331], 0, 0));
//! ```

/// The words of a table in a directory: kind, number, column, count, length, marks.
pub const TABLE_WORDS: usize = 6;
/// The most tables of a directory.
pub const MOST_TABLES: usize = 16;
/// The words of a reader.
pub const READER_WORDS: usize = 5;
/// The words of a damaged log's list: 64 lines of kept or lost (1 or 0), position, length, id.
pub const SALVAGE_WORDS: usize = 256;
/// The words of a change list's head.
pub const LIST_HEAD_WORDS: usize = 38;
/// The words of a change list's `items`.
pub const LIST_WORDS: usize = 400;
/// The bytes of a change list's `chunks`.
pub const LIST_BYTES: usize = 49152;
/// The words of the overlays' head.
pub const OVERLAYS_HEAD_WORDS: usize = 11;
/// The words of the overlays.
pub const OVERLAYS_WORDS: usize = 3840;
/// The bytes of the overlays.
pub const OVERLAYS_BYTES: usize = 524288;
/// The words of the file queues.
pub const QUEUES_WORDS: usize = 331;

calls! { tested
    /// CRC-32 of ITU-T V.42 of the bytes.
    fn hongsathep_checksum(bytes: &[u8]) -> u32;

    /// 0 if the directory keeps its rules, else 13.
    fn hongsathep_directory_kept(tables: &[u64]) -> u64;

    /// How many bytes the image of the tables has.
    fn hongsathep_image_length(tables: &[u64]) -> usize;

    /// Where the table in a row, counted from 0, begins in the image.
    fn hongsathep_table_start(tables: &[u64], row: usize) -> usize;

    /// Makes a reader between records at a position. 13 if `reader` isn't 5 words.
    fn hongsathep_reader_new(reader: &mut [u64], position: usize, validate: bool) -> u64;

    /// One step of the reader. Answers 0 to 4, 6 to 8, 13, 14; the reader moves on after 0.
    fn hongsathep_next(
        tables: &[u64], log: &[u8], reader: &mut [u64], tag: &mut u64, table: &mut u64, index: &mut u64,
        start: &mut u64, length: &mut u64, fault: &mut u64) -> u64;

    /// Replays the record at a position. Answers 0 to 8, 13, 14; the image changes after 0 alone.
    fn hongsathep_replay(
        tables: &[u64], log: &[u8], position: usize, expected: u64, image: &mut [u8], end: &mut u64,
        fault: &mut u64) -> u64;

    /// Replays from a position on, up to the first answer other than 0, which it gives.
    fn hongsathep_run(
        tables: &[u64], log: &[u8], position: usize, expected: u64, image: &mut [u8], end: &mut u64,
        count: &mut u64, fault: &mut u64) -> u64;

    /// Copies the whole records of a damaged log to the front of `out` and lists them and what lies between at the front
    /// of `list`, 256 words. Answers 0, 9, 10, 13.
    fn hongsathep_salvage(
        tables: &[u64], log: &[u8], out: &mut [u8], list: &mut [u64], lines: &mut u64, written: &mut u64) -> u64;

    /// Makes an empty list of an id. 13 if `list` isn't 38 words.
    fn hongsathep_list_new(list: &mut [u64], id: u64) -> u64;

    /// Inserts an index chunk, 512 bytes, at a slot 0 to 63. Answers 0, 6, 7, 9, 13, 14.
    fn hongsathep_insert_index(
        tables: &[u64], list: &mut [u64], items: &mut [u64], chunks: &mut [u8], table: u16, index: u64, sub: u8,
        data: &[u8]) -> u64;

    /// Inserts a value of the table's length. Answers 0, 6, 7, 9, 13, 14.
    fn hongsathep_insert_value(
        tables: &[u64], list: &mut [u64], items: &mut [u64], chunks: &mut [u8], table: u16, index: u64,
        data: &[u8]) -> u64;

    /// Inserts a reference count chunk, 1,024 bytes, at a slot 0 to 63. Answers 0, 6, 7, 9, 13, 14.
    fn hongsathep_insert_ref_count(
        tables: &[u64], list: &mut [u64], items: &mut [u64], chunks: &mut [u8], table: u16, index: u64, sub: u8,
        data: &[u8]) -> u64;

    /// Lists the drop of an index table. Answers 0, 6, 9, 13.
    fn hongsathep_drop_table(
        tables: &[u64], list: &mut [u64], items: &[u64], chunks: &[u8], table: u16) -> u64;

    /// Lists the drop of a reference count table. Answers 0, 6, 9, 13.
    fn hongsathep_drop_ref_count_table(
        tables: &[u64], list: &mut [u64], items: &[u64], chunks: &[u8], table: u16) -> u64;

    /// How long the list's record is. Answers 0, 13.
    fn hongsathep_record_size(tables: &[u64], list: &[u64], items: &[u64], chunks: &[u8], size: &mut u64) -> u64;

    /// Writes the list's record at the front of `out`, the rest staying. Answers 0, 10, 13.
    fn hongsathep_flush_to_file(
        tables: &[u64], list: &[u64], items: &[u64], chunks: &[u8], out: &mut [u8], size: &mut u64) -> u64;

    /// Where a table's values stand in the list's order of value keys. Answers 0, 13.
    fn hongsathep_local_values_changes(
        list: &[u64], items: &[u64], chunks: &[u8], table: u16, from: &mut u64, to: &mut u64) -> u64;

    /// Makes empty overlays. 13 if `overlays` isn't 11 words.
    fn hongsathep_overlays_new(overlays: &mut [u64]) -> u64;

    /// The id of the last record that set a value of a column 0 to 7; 2^64-1 for any other column.
    fn hongsathep_last_record_id(overlays: &[u64], col: u64) -> u64;

    /// Where the bytes under a table and an index lie. Answers 0, 13.
    fn hongsathep_lookup(
        kind: u64, overlays: &[u64], words: &[u64], bytes: &[u8], table: u16, index: u64, memory: &mut u64,
        place: &mut u64, length: &mut u64) -> u64;

    /// The same in a list first, then in the overlays.
    fn hongsathep_lookup_listed(
        kind: u64, list: &[u64], items: &[u64], chunks: &[u8], overlays: &[u64], words: &[u64], bytes: &[u8],
        table: u16, index: u64, memory: &mut u64, place: &mut u64, length: &mut u64) -> u64;

    /// Copies a value, the shorter of it and `dest`. Answers 0, 13.
    fn hongsathep_value(
        overlays: &[u64], words: &[u64], bytes: &[u8], table: u16, index: u64, dest: &mut [u8],
        found: &mut u64) -> u64;

    /// The same in a list first, then in the overlays.
    fn hongsathep_value_listed(
        list: &[u64], items: &[u64], chunks: &[u8], overlays: &[u64], words: &[u64], bytes: &[u8], table: u16,
        index: u64, dest: &mut [u8], found: &mut u64) -> u64;

    /// Hands out the next id: makes an empty list of it, and raises `next` by 1. Answers 0, 12, 13.
    fn hongsathep_begin_record(next: &mut u64, list: &mut [u64]) -> u64;

    /// Ends a record: writes it at the front of `out`, puts its entries over the shared ones, takes its file. Answers 0,
    /// 9 to 13.
    fn hongsathep_end_record(
        tables: &[u64], list: &[u64], items: &[u64], chunks: &[u8], overlays: &mut [u64], words: &mut [u64],
        bytes: &mut [u8], queues: &mut [u64], next: u64, out: &mut [u8], size: &mut u64, source: &mut u64,
        file: &mut u64) -> u64;

    /// Clears an accepted record's entries from the overlays and raises `next`. Answers 0 to 4, 6 to 8, 12 to 14.
    fn hongsathep_end_read(
        tables: &[u64], log: &[u8], position: usize, overlays: &mut [u64], words: &mut [u64], bytes: &mut [u8],
        next: &mut u64, end: &mut u64, id: &mut u64, fault: &mut u64) -> u64;

    /// Sends the file being read and those to replay to cleanup, empties the overlays, clears dirty. Answers 0, 13.
    fn hongsathep_clear_replay_logs(
        overlays: &mut [u64], words: &[u64], bytes: &[u8], queues: &mut [u64]) -> u64;

    /// Makes queues without files. 13 if `queues` isn't 331 words.
    fn hongsathep_queues_new(queues: &mut [u64]) -> u64;

    /// The queues of the files found. Answers 0, 9, 10, 12, 13.
    fn hongsathep_open(
        names: &[u8], name_lengths: &[usize], lengths: &[u64], heads: &[u8], remove: &mut [u64],
        removed: &mut u64, queues: &mut [u64]) -> u64;

    /// Moves the appending file to the read queue if its size is greater than the minimum. Answers 0, 13.
    fn hongsathep_flush_one(queues: &mut [u64], min: u64, moved: &mut u64, number: &mut u64) -> u64;

    /// Tries a record's opening in the file being read, or in the read queue's front. Answers 0, 1, 3, 4, 8, 13, 14.
    fn hongsathep_read_next(
        queues: &mut [u64], log: &[u8], position: usize, validate: bool, number: &mut u64,
        reader: &mut [u64]) -> u64;

    /// Sends the file being read to cleanup and takes the next one to replay. Answers 0, 13.
    fn hongsathep_replay_next(queues: &mut [u64], found: &mut u64, number: &mut u64) -> u64;

    /// Moves up to `max` files from cleanup to the pool. Answers 0, 13.
    fn hongsathep_clean_logs(
        queues: &mut [u64], max: usize, more: &mut u64, empty: &mut [u64; 64], emptied: &mut u64,
        remove: &mut [u64; 64], removed: &mut u64) -> u64;

    /// Removes pool and the file being read. Answers 0, 13.
    fn hongsathep_kill_logs(queues: &mut [u64], remove: &mut [u64; 64], removed: &mut u64) -> u64;

    /// Whether there is a file to replay; `id`: its first record's id, else 0.
    fn hongsathep_replay_record_id(queues: &[u64], id: &mut u64) -> bool;

    /// How many files cleanup holds.
    fn hongsathep_num_dirty_logs(queues: &[u64]) -> usize;

    /// Whether the read queue holds any.
    fn hongsathep_has_log_files_to_read(queues: &[u64]) -> bool;
}
