//! Page files: opening, closing, closing again.
use recfile::{Error, File, Options};
use std::fs;
use std::io::ErrorKind;

mod support;
use support::{dump, put, Room};

#[test]
fn what_was_committed_is_there_again() {
    let room = Room::new("again");
    let path = room.path("f.rec");
    let file = Options::new().order(2).create(&path).unwrap();
    put(&file, "a", "1");
    let order = file.begin().unwrap();
    order.put(b"b", b"2").unwrap();
    drop(order);
    file.close().unwrap();
    assert_eq!(dump(&path), [(b"a".to_vec(), b"1".to_vec())]);
}

#[test]
fn a_dropped_file_is_closed_and_a_discarded_one_is_not() {
    let room = Room::new("dropped");
    let path = room.path("f.rec");
    let file = File::create(&path).unwrap();
    put(&file, "a", "1");
    drop(file);
    let file = File::open(&path).unwrap();
    put(&file, "a", "2");
    file.discard();
    assert_eq!(dump(&path), [(b"a".to_vec(), b"1".to_vec())]);
}

#[test]
fn files_that_are_not_opened() {
    let room = Room::new("not");
    let path = room.path("f.rec");
    let missing = File::open(&path).unwrap_err();
    assert!(matches!(&missing, Error::Device { call: "open", source } if source.kind() == ErrorKind::NotFound));
    assert!(missing.to_string().starts_with("open: "));
    fs::write(&path, [7; 4096]).unwrap();
    assert!(matches!(File::open(&path), Err(Error::NotARecordFile(_))));
    assert!(matches!(Options::new().open_or_create(&path), Err(Error::NotARecordFile(_))));
    assert_eq!(fs::read(&path).unwrap(), [7; 4096]);
    fs::remove_file(&path).unwrap();
    let file = File::create(&path).unwrap();
    assert!(matches!(File::open(&path), Err(Error::Locked)));
    assert!(matches!(Options::new().open_or_create(&path), Err(Error::Locked)));
    assert!(matches!(File::create(&path), Err(Error::Device { .. })));
    drop(file);
    assert!(matches!(Options::new().order(17).create(room.path("order")), Err(Error::BadLimit(_))));
    assert!(matches!(File::open("a\0b"), Err(Error::Device { call: "open", .. })));
    let mut bytes = fs::read(&path).unwrap();
    bytes[20] = 1;
    fs::write(&path, &bytes).unwrap();
    assert!(File::open(&path).is_err());
}

#[test]
fn a_file_beside_a_log_of_commits_is_not_opened() {
    let room = Room::new("commits");
    let path = room.path("f.rec");
    let file = File::create(&path).unwrap();
    put(&file, "a", "1");
    file.close().unwrap();
    let before = fs::read(&path).unwrap();
    fs::write(room.path("f.rec-commits"), "commits 1 2 3\n").unwrap();
    assert!(matches!(File::open(&path), Err(Error::NotARecordFile(_))));
    assert!(matches!(Options::new().open_or_create(&path), Err(Error::NotARecordFile(_))));
    assert_eq!(fs::read(&path).unwrap(), before);
    fs::remove_file(&path).unwrap();
    assert!(matches!(File::create(&path), Err(Error::BadJournal)));
    assert!(!path.exists());
    assert_eq!(fs::read(room.path("f.rec-commits")).unwrap(), b"commits 1 2 3\n");
}

#[test]
fn a_file_that_was_made_and_never_closed_is_made_anew() {
    let room = Room::new("empty");
    let path = room.path("f.rec");
    File::create(&path).unwrap().discard();
    assert_eq!(fs::metadata(&path).unwrap().len(), 0);
    assert!(matches!(File::open(&path), Err(Error::NotARecordFile(_))));
    for record in ["1", "2"] {
        let file = Options::new().open_or_create(&path).unwrap();
        put(&file, "a", record);
        file.close().unwrap();
    }
    assert_eq!(dump(&path), [(b"a".to_vec(), b"2".to_vec())]);
}

#[test]
fn forgotten_work_goes_back_at_the_close() {
    let room = Room::new("forgotten");
    let path = room.path("f.rec");
    let file = File::create(&path).unwrap();
    let order = file.begin().unwrap();
    order.put(b"a", b"1").unwrap();
    std::mem::forget(order);
    put(&file, "b", "1");
    file.close().unwrap();
    assert_eq!(dump(&path), [(b"b".to_vec(), b"1".to_vec())]);
}

#[test]
fn another_folder_loses_nothing() {
    let room = Room::new("folder");
    std::env::set_current_dir(room.path("")).unwrap();
    let file = File::create("f.rec").unwrap();
    put(&file, "a", "1");
    std::env::set_current_dir("/").unwrap();
    file.close().unwrap();
    assert_eq!(dump(&room.path("f.rec")).len(), 1);
}

#[test]
fn a_closing_that_fails_can_be_tried_again() {
    let room = Room::new("retry");
    let (path, moved) = (room.path("f.rec"), room.path("moved"));
    File::create(&path).unwrap().close().unwrap();
    for is_new in [false, true] {
        if is_new {
            fs::remove_file(&path).unwrap();
        }
        let file = Options::new().open_or_create(&path).unwrap();
        put(&file, "a", "1");
        fs::rename(&path, &moved).unwrap();
        let unclosed = file.close().unwrap_err();
        assert!(matches!(unclosed.cause(), Error::Device { call: "realpath", .. }));
        let unclosed = unclosed.retry().unwrap_err();
        fs::rename(&moved, &path).unwrap();
        unclosed.retry().unwrap();
        assert_eq!(dump(&path).len(), 1);
    }
}
