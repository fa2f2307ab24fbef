//! A log cut at every byte: exactly the whole records before the cut.

use crate::sample::{directory, fill, record, Scratch};
use hongsathep::{Answer, Directory, Image, Log, Records};
use std::fs;

/// A log of records of ids from 5 on, where each ends, and the image behind each, the first being the empty one.
fn log(directory: &Directory) -> (Vec<u8>, Vec<usize>, Vec<Image>) {
    let (mut log, mut ends, mut images) = (Vec::new(), vec![0], vec![Image::new(directory)]);
    for id in 5..15 {
        let mut image = images.last().unwrap().clone();
        let record = record(directory, id);
        image.replay(&record, 0, id).unwrap();
        log.extend(record);
        ends.push(log.len());
        images.push(image);
    }
    (log, ends, images)
}

#[test]
fn a_run_and_the_records() {
    let directory = directory();
    let (log, ends, images) = log(&directory);
    for cut in 0..=log.len() {
        let bytes = &log[..cut];
        let whole = ends.iter().filter(|end| **end <= cut).count() - 1;
        let mut image = Image::new(&directory);
        let ran = image.run(bytes, 0, 5);
        // Under 9 bytes of a record count as none.
        let expected = if cut - ends[whole] < 9 { Answer::EndOfLog } else { Answer::Cut };
        assert_eq!((ran.answer, ran.position, ran.count), (expected, ends[whole] as u64, whole as u64), "cut at {cut}");
        assert!(image.bytes() == images[whole].bytes(), "cut at {cut}");

        let mut records = Records::new(&directory, bytes).expecting(5);
        let ids: Vec<u64> = records.by_ref().map_while(Result::ok).map(|record| record.id()).collect();
        assert_eq!(ids, (5..5 + whole as u64).collect::<Vec<_>>());
        assert_eq!(records.offset(), ends[whole]);
    }
    println!("{} cuts of a log of {} records", log.len() + 1, images.len() - 1);
}

/// The folder of a process that died at any byte of its last write: all whole records, and the log goes on behind them.
#[test]
fn a_folder() {
    let directory = directory();
    let (log, ends, images) = log(&directory);
    let scratch = Scratch::new();
    let mut cuts = 0;
    for cut in (9..=log.len()).step_by(7) {
        let whole = ends.iter().filter(|end| **end <= cut).count() - 1;
        fs::write(scratch.file(4), &log[..cut]).unwrap();
        let mut image = Image::new(&directory);
        let mut opened = Log::open(scratch.path(), &directory).unwrap().recover(&mut image).unwrap();
        assert!(image.bytes() == images[whole].bytes(), "cut at {cut}");
        assert_eq!(opened.next_id(), if whole == 0 { 1 } else { 5 + whole as u64 });
        let file = opened.recovered()[0];
        assert_eq!((file.file, file.count, file.cut), (4, whole as u64, (cut - ends[whole]) as u64));

        let mut list = opened.begin().unwrap();
        fill(&mut list, 99);
        opened.end(&list).unwrap();
        drop(opened);
        let mut again = Image::new(&directory);
        let opened = Log::open(scratch.path(), &directory).unwrap().recover(&mut again).unwrap();
        let counts: Vec<u64> = opened.recovered().iter().map(|file| file.count).filter(|count| *count > 0).collect();
        assert_eq!(counts.iter().sum::<u64>(), whole as u64 + 1, "cut at {cut}");
        image.replay(&list.record(), 0, list.id()).unwrap();
        assert!(image.bytes() == again.bytes(), "cut at {cut}");
        drop(opened);
        fs::read_dir(scratch.path()).unwrap().for_each(|entry| fs::remove_file(entry.unwrap().path()).unwrap());
        cuts += 1;
    }
    println!("{cuts} folders cut");
}
