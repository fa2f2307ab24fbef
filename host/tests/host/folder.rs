//! A log's life in a folder.

use crate::sample::{directory, fill, record, Scratch, INDEX, REF_COUNT, VALUE};
use hongsathep::*;
use std::{fmt::Debug, fs, path::Path};

fn open(scratch: &Scratch, image: &mut Image) -> Log {
    Log::open(scratch.path(), &directory()).unwrap().recover(image).unwrap()
}

fn append(log: &mut Log) -> ChangeList {
    let mut list = log.begin().unwrap();
    let id = list.id();
    fill(&mut list, id);
    log.end(&list).unwrap();
    list
}

fn names(folder: &Path) -> Vec<String> {
    let name = |entry: std::io::Result<fs::DirEntry>| entry.unwrap().file_name().into_string().unwrap();
    let mut names: Vec<String> = fs::read_dir(folder).unwrap().map(name).collect();
    names.sort();
    names
}

/// The image behind records 1 to so many.
fn image_of(count: u64) -> Image {
    let mut image = Image::new(&directory());
    for id in 1..=count {
        image.replay(&record(&directory(), id), 0, id).unwrap();
    }
    image
}

/// One thread at a time, whichever.
#[test]
fn all_may_go_to_another_thread() {
    fn may<T: Send + Sync + Debug>() {}
    may::<(Directory, Image, ChangeList, Overlays, Queues)>();
    may::<(LogReader, Records, Record, Log, Opened, Error)>();
}

#[test]
fn records_over_several_lives() {
    let scratch = Scratch::new();
    for life in 0..5 {
        let mut image = Image::new(&directory());
        let mut log = open(&scratch, &mut image);
        assert!(image.bytes() == image_of(4 * life).bytes());
        assert_eq!(log.next_id(), 4 * life + 1);
        assert_eq!(log.recovered().len() as u64, life);
        assert!(log.recovered().iter().all(|file| (file.answer, file.count) == (Answer::EndOfLog, 4)));
        (0..4).for_each(|_| drop(append(&mut log)));
        log.sync().unwrap();
    }
    assert_eq!(names(scratch.path()), ["lock", "log0", "log1", "log2", "log3", "log4"]);
}

#[test]
fn what_is_ended_is_found_until_it_is_applied() {
    let scratch = Scratch::new();
    let mut image = Image::new(&directory());
    let mut log = open(&scratch, &mut image);
    let mut list = log.begin().unwrap();
    list.insert_value(VALUE, 1, &[7; 20]).unwrap();
    list.insert_index(INDEX, 2, 63, &[8; 512]).unwrap();
    list.insert_ref_count(REF_COUNT, 0, 0, &[9; 1024]).unwrap();
    assert_eq!(log.value(VALUE, 1), None);
    assert_eq!(log.with(&list).value(VALUE, 1), Some(&[7; 20][..]));
    log.end(&list).unwrap();
    assert_eq!(log.value(VALUE, 1), Some(&[7; 20][..]));
    assert_eq!(log.index(INDEX, 2), Some(&[8; 512][..]));
    assert_eq!(log.ref_count(REF_COUNT, 0), Some(&[9; 1024][..]));
    assert_eq!(log.overlays().last_record_id(1), 1);

    assert!(log.read_next().unwrap().is_none());
    assert_eq!(log.flush(0).unwrap(), Some(0));
    assert_eq!(log.read_next().unwrap().unwrap().id(), 1);
    assert_eq!(log.read_next().unwrap().unwrap().actions().count(), 3);
    assert_eq!(log.end_read().unwrap(), Some(1));
    assert_eq!(log.end_read().unwrap(), None);
    assert!(log.read_next().unwrap().is_none());
    assert_eq!(log.value(VALUE, 1), None);
    assert_eq!((log.overlays().count(Kind::Index), log.overlays().count(Kind::RefCount)), (0, 0));
}

#[test]
fn checkpoints_empty_the_files_and_use_them_again() {
    let scratch = Scratch::new();
    let path = scratch.path().join("image");
    let mut written = 0;
    for life in 0..4 {
        let mut image = Image::load(&directory(), &path).unwrap();
        let mut log = open(&scratch, &mut image);
        assert!(image.bytes() == image_of(written).bytes());
        log.checkpoint(&mut image, &path).unwrap();
        // Nothing is left that says which ids were used; the records' changes go on where they were.
        let mut image = Image::load(&directory(), &path).unwrap();
        for _ in 0..10 {
            let mut list = log.begin().unwrap();
            written += 1;
            fill(&mut list, written);
            log.end(&list).unwrap();
            if written % 3 == 0 {
                log.checkpoint(&mut image, &path).unwrap();
                assert_eq!(log.queues().pool().len(), 1);
            }
        }
        assert_eq!(names(scratch.path()), ["image", "lock", "log0"], "life {life}");
    }
}

#[test]
fn a_full_overlay_makes_room() {
    let scratch = Scratch::new();
    let directory: Directory = "value 7 1 4096 20".parse().unwrap();
    let mut image = Image::new(&directory);
    let mut log = Log::open(scratch.path(), &directory).unwrap().recover(&mut image).unwrap();
    let mut refused = 0;
    for index in 0..600 {
        let mut list = log.begin().unwrap();
        list.insert_value(VALUE, index, &[index as u8; 20]).unwrap();
        if let Err(error) = log.end(&list) {
            assert_eq!(error.answer(), Some(Answer::NoRoom));
            log.checkpoint(&mut image, scratch.path().join("image")).unwrap();
            log.end(&list).unwrap();
            refused += 1;
        }
    }
    assert_eq!(refused, 2);
    log.checkpoint(&mut image, scratch.path().join("image")).unwrap();
    (0..600).for_each(|index| assert_eq!(image.value(VALUE, index), Some(&[index as u8; 20][..])));
}

#[test]
fn a_dropped_list_leaves_no_gap() {
    let scratch = Scratch::new();
    let mut log = open(&scratch, &mut Image::new(&directory()));
    drop(log.begin().unwrap());
    let (first, second) = (log.begin().unwrap(), log.begin().unwrap());
    log.end(&second).unwrap();
    assert_eq!(log.end(&first).unwrap_err().answer(), Some(Answer::NotNext));
    assert_eq!(log.end(&second).unwrap_err().answer(), Some(Answer::NotNext));
    append(&mut log);
    drop(log);
    let log = open(&scratch, &mut Image::new(&directory()));
    assert_eq!(log.recovered()[0].count, 2);
}

#[test]
fn a_list_for_another_directory_is_tested() {
    let scratch = Scratch::new();
    let mut log = open(&scratch, &mut Image::new(&directory()));
    let other: Directory = "value 7 1 4096 20\nvalue 8 1 4096 21".parse().unwrap();
    let mut list = ChangeList::new(&other, 1);
    list.insert_value(VALUE, 1000, &[7; 20]).unwrap();
    assert_eq!(log.end(&list).unwrap_err().answer(), Some(Answer::BadState));
    let mut list = ChangeList::new(&other, 1);
    list.insert_value(VALUE, 15, &[7; 20]).unwrap();
    log.end(&list).unwrap();
    assert_eq!(log.value(VALUE, 15), Some(&[7; 20][..]));
    let mut image = Image::new(&other);
    let refused = Log::open(Scratch::new().path(), &directory()).unwrap().recover(&mut image);
    assert_eq!(refused.err().unwrap().number(), Some(13));
}

#[test]
fn one_at_a_time() {
    let scratch = Scratch::new();
    let log = open(&scratch, &mut Image::new(&directory()));
    let error = Log::open(scratch.path(), &directory()).err().unwrap();
    assert_eq!(error.path(), Some(&*scratch.path().join("lock")));
    assert!(error.io().is_some() && error.number().is_none());
    drop(log);
    Log::open(scratch.path(), &directory()).unwrap();
}

#[test]
fn names_that_are_no_logs() {
    let scratch = Scratch::new();
    let others = ["log07", "log+1", "log", "logs", "notes", "log1.new", "log4294967296"];
    others.iter().for_each(|name| fs::write(scratch.path().join(name), [1; 50]).unwrap());
    fs::create_dir(scratch.file(5)).unwrap();
    fs::write(scratch.file(6), [1; 8]).unwrap();
    let opened = Log::open(scratch.path(), &directory()).unwrap();
    assert!(opened.queues().replay_queue().is_empty());
    let log = opened.recover(&mut Image::new(&directory())).unwrap();
    assert_eq!((log.queues().next_number(), log.next_id()), (0, 1));
    assert!(!scratch.file(6).exists() && scratch.file(5).exists());
    assert!(others.iter().all(|name| scratch.path().join(name).exists()));
}

/// Files with records 1 to 3, 4 to 6 and 7 to 9; in the second a byte of record 5 is wrong.
fn damaged(scratch: &Scratch) {
    for (number, ids) in [(8, 1..4), (2, 4..7), (5, 7..10)] {
        let mut bytes: Vec<u8> = ids.flat_map(|id| record(&directory(), id)).collect();
        if number == 2 {
            let place = record(&directory(), 4).len() + 9;
            bytes[place] = 99;
        }
        fs::write(scratch.file(number), bytes).unwrap();
    }
}

#[test]
fn damage_is_told_and_nothing_touched() {
    let scratch = Scratch::new();
    damaged(&scratch);
    let before: Vec<Vec<u8>> = [8, 2, 5].map(|number| fs::read(scratch.file(number)).unwrap()).into();
    let mut image = Image::new(&directory());
    let error = Log::open(scratch.path(), &directory()).unwrap().recover(&mut image).err().unwrap();
    assert_eq!((error.answer(), error.path()), (Some(Answer::UnknownTag), Some(&*scratch.file(2))));
    assert_eq!(error.position(), Some(record(&directory(), 4).len() as u64 + 9));
    assert!(image.bytes() == image_of(4).bytes());
    let mut ids = Vec::new();
    let apply = |record: &Record| {
        ids.push(record.id());
        Ok(())
    };
    let error: Error = Log::open(scratch.path(), &directory()).unwrap().recover_with(apply).err().unwrap();
    assert_eq!((error.number(), ids), (Some(3), vec![1, 2, 3, 4]));
    assert_eq!(before, [8, 2, 5].map(|number| fs::read(scratch.file(number)).unwrap()));
}

#[test]
fn damage_is_discarded_on_demand() {
    let scratch = Scratch::new();
    damaged(&scratch);
    let mut image = Image::new(&directory());
    let mut log = Log::open(scratch.path(), &directory()).unwrap().discard_damage().recover(&mut image).unwrap();
    assert!(image.bytes() == image_of(4).bytes());
    assert_eq!(log.recovered().iter().map(|file| (file.file, file.count)).collect::<Vec<_>>(), [(8, 3), (2, 1)]);
    assert_eq!((log.next_id(), log.queues().cleanup_queue()), (5, vec![8, 2, 5]));
    append(&mut log);
    drop(log);
    // What was ended behind the damage is there in the next life.
    let mut image = Image::new(&directory());
    let log = open(&scratch, &mut image);
    assert!(image.bytes() == image_of(5).bytes());
    assert_eq!(log.next_id(), 6);
}

#[test]
fn records_for_tables_elsewhere() {
    let scratch = Scratch::new();
    let mut log = open(&scratch, &mut Image::new(&directory()));
    (0..6).for_each(|_| drop(append(&mut log)));
    log.flush(0).unwrap();
    (0..6).for_each(|_| drop(append(&mut log)));
    drop(log);
    let mut image = Image::new(&directory());
    let opened = Log::open(scratch.path(), &directory()).unwrap();
    let log = opened.recover_with(|record| image.replay_record(record)).unwrap();
    assert!(image.bytes() == image_of(12).bytes());
    assert_eq!((log.next_id(), log.recovered().len()), (13, 2));
}

#[test]
fn a_failed_write_ends_a_log() {
    let scratch = Scratch::new();
    let mut log = open(&scratch, &mut Image::new(&directory()));
    fs::create_dir(scratch.file(0)).unwrap();
    let error = log.end(&log.begin().unwrap()).unwrap_err();
    assert_eq!(error.path(), Some(&*scratch.file(0)));
    assert!(log.begin().is_err() && log.sync().is_err() && log.flush(0).is_err() && log.clean(1).is_err());
    assert_eq!(log.sync().unwrap_err().to_string(), "a write failed before: the log has to be opened anew");
}

#[test]
fn a_life_ends() {
    let scratch = Scratch::new();
    let mut image = Image::new(&directory());
    let mut log = open(&scratch, &mut image);
    append(&mut log);
    log.checkpoint(&mut image, scratch.path().join("image")).unwrap();
    log.kill().unwrap();
    assert_eq!(names(scratch.path()), ["image", "lock"]);
}

/// The last ids of all.
#[test]
fn ids_are_used_up() {
    let scratch = Scratch::new();
    let last: Vec<u8> = [u64::MAX - 2, u64::MAX - 1].iter().flat_map(|id| record(&directory(), *id)).collect();
    fs::write(scratch.file(0), &last).unwrap();
    let log = open(&scratch, &mut Image::new(&directory()));
    assert_eq!((log.next_id(), log.begin().err().unwrap().answer()), (u64::MAX, Some(Answer::UsedUp)));
    drop(log);
    fs::write(scratch.file(0), record(&directory(), u64::MAX)).unwrap();
    let opened = Log::open(scratch.path(), &directory()).unwrap();
    let refused = opened.recover(&mut Image::new(&directory())).err().unwrap();
    assert_eq!(refused.answer(), Some(Answer::UsedUp));
    let opened = Log::open(scratch.path(), &directory()).unwrap();
    let refused: Error = opened.recover_with(|_| Ok(())).err().unwrap();
    assert_eq!(refused.answer(), Some(Answer::UsedUp));
    let opened = Log::open(scratch.path(), &directory()).unwrap().discard_damage();
    let log = opened.recover(&mut Image::new(&directory())).unwrap();
    assert_eq!(log.begin().err().unwrap().answer(), Some(Answer::UsedUp));
}
