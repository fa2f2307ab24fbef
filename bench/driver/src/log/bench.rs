//! The rows. Most are of one record: 8 inserts over 4 index keys, 8 values of 64 bytes, 1 reference count, which makes 789 bytes.
mod by_hand;
mod checksums;
mod clearing;
mod ending;
mod exported;
mod figures;
mod files;
mod growing;
mod host;
mod inserting;
mod looking;
mod made;
mod port;
mod reading;
mod replaying;
mod tables;
mod writing;

use figures::Figures;

/// What the sections share: the logs' length in bytes, and a folder for files.
pub struct Setting {
    bytes: usize,
    folder: String,
}

/// MB, how many rounds, a folder that is made and removed, and which sections: all if none are named.
pub fn run(args: &[String]) {
    crate::table_id::INDEX.register(1, 0);
    crate::table_id::VALUE.register(2, 1);
    crate::table_id::REF_COUNT.register(3, 2);
    let [mb, rounds, folder] = &args[..3] else { panic!("MB, ROUNDS and FOLDER") };
    let setting =
        Setting { bytes: mb.parse::<usize>().unwrap() * 1_000_000, folder: folder.clone() };
    let sections: [(&str, fn(&Setting, &mut Figures)); 11] = [
        ("checksum, MB/s", checksums::rows),
        ("reading, MB/s", reading::rows),
        ("replay into an image, MB/s", replaying::rows),
        ("inserts, ns each", inserting::rows),
        ("flush_to_file, a list of 17 inserts, ns", writing::rows),
        ("end_record, ns", ending::rows),
        ("end_read, ns", clearing::rows),
        ("lookups, ns", looking::rows),
        ("a file's life (taken, flushed, read, ended, cleaned), ns", files::rows),
        ("growth", growing::rows),
        ("through the exported functions, states as words, ns", exported::rows),
    ];
    let mut figures = Figures::default();
    for _ in 0..rounds.parse().unwrap() {
        for (n, (name, rows)) in (1..).zip(sections) {
            let number = n.to_string();
            if args.get(3).map_or(true, |wanted| wanted.split(',').any(|w| w == number)) {
                figures.section(&format!("{number}. {name}"));
                rows(&setting, &mut figures);
            }
        }
    }
    let _ = std::fs::remove_dir_all(folder);
    println!("logs of {mb} MB; CPU time, best of {rounds} rounds of several; times above 1: ours is faster");
    figures.print();
}
