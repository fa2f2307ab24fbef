//! A directory's text form, as the programs read it.

use hongsathep::{Directory, DirectoryFault, Kind};

#[test]
fn the_sample() {
    let text = include_str!("../../../crates/recover/data/directory");
    let directory: Directory = text.parse().unwrap();
    let built = Directory::builder().index(3, 0, 64).value(7, 1, 128, 20).ref_count(2, 0, 8).build().unwrap();
    assert_eq!(directory, built);
    assert_eq!(directory.to_string(), "index 3 0 64\nvalue 7 1 128 20\nrefcount 2 0 8\n");
    assert_eq!(directory.range_of(Kind::RefCount, 2), Some(35_328..43_520));
    assert_eq!(directory.range_of(Kind::RefCount, 3), None);
}

#[test]
fn texts_that_pass() {
    for text in [
        "",
        "\n\n# nothing\n",
        " \tindex  003 0\t64\r",
        "value 65535 7 4096 512",
        "index 1 0 1\nvalue 1 0 1 1\nrefcount 1 0 1",
    ] {
        assert!(text.parse::<Directory>().is_ok(), "{text:?}");
    }
}

#[test]
fn texts_at_fault() {
    let many = "index 1 0 1\n".repeat(2);
    let seventeen: String = (0..17).map(|number| format!("index {number} 0 1\n")).collect();
    let faults = [
        ("indx 3 0 64", 1, DirectoryFault::UnknownKind),
        ("\nINDEX 3 0 64", 2, DirectoryFault::UnknownKind),
        ("index 3 0", 1, DirectoryFault::NumberMissing),
        ("index 3 0 # 64", 1, DirectoryFault::NumberMissing),
        ("value 3 0 64", 1, DirectoryFault::NumberMissing),
        ("index 3 x 64", 1, DirectoryFault::NotDecimal),
        ("index 3 -1 64", 1, DirectoryFault::NotDecimal),
        ("index 3 +1 64", 1, DirectoryFault::NotDecimal),
        ("index 65536 0 64", 1, DirectoryFault::TooLarge),
        ("index 3 0 18446744073709551616", 1, DirectoryFault::TooLarge),
        ("index 3 256 64", 1, DirectoryFault::TooLarge),
        ("index 3 0 64 20", 1, DirectoryFault::MoreWords),
        ("index 3 8 64", 1, DirectoryFault::Column),
        ("index 3 0 0", 1, DirectoryFault::Count),
        ("index 3 0 4097", 1, DirectoryFault::Count),
        ("value 3 0 64 0", 1, DirectoryFault::Length),
        ("value 3 0 64 513", 1, DirectoryFault::Length),
        (&many, 2, DirectoryFault::NumberTaken),
        (&seventeen, 17, DirectoryFault::TooManyTables),
    ];
    for (text, line, fault) in faults {
        let error = text.parse::<Directory>().unwrap_err();
        assert_eq!((error.line(), error.directory_fault()), (Some(line), Some(fault)), "{text:?}");
        assert_eq!(error.number(), Some(13));
    }
}
