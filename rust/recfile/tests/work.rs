//! Transactions, savepoints and lists over a file in memory.
use recfile::{Error, File, Options, Status};

fn keys(file: &File) -> Vec<String> {
    file.entries().map(|entry| String::from_utf8(entry.unwrap().key.to_vec()).unwrap()).collect()
}

#[test]
fn dropped_work_goes_back() {
    let file = File::memory().unwrap();
    let first = file.begin().unwrap();
    first.put(b"kept", b"1").unwrap();
    first.commit().unwrap();
    {
        let second = file.begin().unwrap();
        assert_eq!(second.put(b"kept", b"2").unwrap().unwrap(), b"1");
        second.put(b"new", b"3").unwrap();
    }
    let third = file.begin().unwrap();
    assert_eq!(third.get(b"kept").unwrap().unwrap(), b"1");
    assert_eq!(keys(&file), ["kept"]);
}

#[test]
fn a_panic_takes_the_transaction_back() {
    let file = File::memory().unwrap();
    let panicked = std::panic::catch_unwind(std::panic::AssertUnwindSafe(|| {
        let order = file.begin().unwrap();
        order.put(b"a", b"1").unwrap();
        panic!("on purpose");
    }));
    assert!(panicked.is_err());
    assert!(keys(&file).is_empty());
}

#[test]
fn savepoints_go_back_and_are_not_mixed_up() {
    let file = File::memory().unwrap();
    let order = file.begin().unwrap();
    let one = order.savepoint().unwrap();
    let two = order.savepoint().unwrap();
    order.put(b"a", b"1").unwrap();
    one.release().unwrap();
    let three = order.savepoint().unwrap();
    let four = order.savepoint().unwrap();
    order.put(b"b", b"2").unwrap();
    assert!(matches!(two.rollback(), Err(Error::NoSuchSavepoint)));
    drop(two); // its number is four's now
    assert_eq!(order.get(b"b").unwrap().unwrap(), b"2");
    assert_eq!(three.rollback().unwrap(), 1);
    assert!(matches!(four.release(), Err(Error::NoSuchSavepoint)));
    order.put(b"c", b"3").unwrap();
    drop(three);
    assert_eq!(order.held().unwrap(), [b"a"]);
    assert_eq!(order.status().unwrap(), Status { is_rolling: false, ends: false, savepoints: 0, live: 1, left: 0 });
    assert_eq!(order.rollback().unwrap(), 1);
    order.commit().unwrap();
}

#[test]
fn refusals() {
    let file = Options::new().records(2).log(6).begins(3).memory().unwrap();
    let (a, b) = (file.begin().unwrap(), file.begin().unwrap());
    a.put(b"k", b"v").unwrap();
    assert!(b.remove(b"zz").unwrap().is_none());
    for answer in [b.get(b"k"), b.remove(b"k"), b.claim(b"k"), b.put(b"k", b"w")] {
        assert!(matches!(answer, Err(Error::Held { owner: 1 })));
    }
    assert!(matches!(a.put(b"", b"v"), Err(Error::EmptyKey)));
    assert!(matches!(a.put(&[1; 17], b"v"), Err(Error::LongKey)));
    assert!(matches!(a.put(b"k", &[1; 101]), Err(Error::LongRecord)));
    assert!(matches!(a.resume(), Err(Error::NotRolling)));
    a.put(b"l", &[]).unwrap();
    assert!(matches!(b.put(b"m", b"v"), Err(Error::Full)));
    assert_eq!(a.put(b"l", b"x").unwrap().unwrap().len(), 0);
    assert!(matches!(a.put(b"l", b"x"), Err(Error::LogFull)));
    assert_eq!(file.log_use().unwrap(), 6);
    assert_eq!(b.abort().unwrap(), 0);
    file.begin().unwrap().commit().unwrap();
    assert!(matches!(file.begin(), Err(Error::BeginsSpent)));
    let bad = Options::new().records(0).memory();
    assert!(matches!(bad, Err(Error::BadLimit(text)) if text.contains("records")));
    let savepoints: Vec<_> = (0..32).map(|_| a.savepoint().unwrap()).collect();
    assert!(matches!(a.savepoint(), Err(Error::TooDeep)));
    assert_eq!(savepoints.len(), 32);
}

#[test]
fn ranges_go_on_over_changes_and_give_each_key_once() {
    let file = File::memory().unwrap();
    let order = file.begin().unwrap();
    for i in 0..200u8 {
        order.put(&[i], &[i; 100]).unwrap();
    }
    let mut entries = file.entries();
    assert_eq!(entries.next_back().unwrap().unwrap().key, [199u8]);
    assert_eq!(entries.next().unwrap().unwrap().key, [0u8]);
    for i in (0..200u8).filter(|i| i % 2 == 1) {
        order.remove(&[i]).unwrap();
    }
    assert_eq!(file.count().unwrap(), 100);
    let rest: Vec<_> = entries.by_ref().map(|entry| entry.unwrap().key[0]).collect();
    assert!(rest.windows(2).all(|two| two[0] < two[1]));
    assert!((1..100u8).all(|i| rest.contains(&(2 * i))));
    assert!(entries.next_back().is_none());
}

#[test]
fn ranges_have_both_ends() {
    let file = File::memory().unwrap();
    let order = file.begin().unwrap();
    for i in 0..200u8 {
        order.put(&[i], &[i; 100]).unwrap();
    }
    let told = |keys: (Bound<Vec<u8>>, Bound<Vec<u8>>)| {
        let up: Vec<_> = file.range(keys.clone()).map(|entry| entry.unwrap().key[0]).collect();
        let mut down: Vec<_> = file.range(keys).rev().map(|entry| entry.unwrap().key[0]).collect();
        down.reverse();
        assert_eq!(up, down);
        (up.len(), up.first().copied(), up.last().copied())
    };
    let long = |byte: u8| vec![byte; 17];
    use std::ops::Bound::{self, Excluded, Included, Unbounded};
    assert_eq!(told((Unbounded, Unbounded)), (200, Some(0), Some(199)));
    assert_eq!(told((Included(vec![10]), Excluded(vec![90]))), (80, Some(10), Some(89)));
    assert_eq!(told((Excluded(vec![10]), Included(vec![90]))), (80, Some(11), Some(90)));
    assert_eq!(told((Included(long(10)), Excluded(long(90)))), (80, Some(11), Some(90)));
    assert_eq!(told((Excluded(long(10)), Included(long(90)))), (80, Some(11), Some(90)));
    assert_eq!(told((Unbounded, Included(vec![1]))), (2, Some(0), Some(1)));
    assert_eq!(told((Included(vec![198]), Unbounded)), (2, Some(198), Some(199)));
    assert_eq!(told((Included(vec![20]), Excluded(vec![10]))), (0, None, None));
    assert_eq!(told((Included(vec![]), Excluded(vec![]))), (0, None, None));
    assert_eq!(file.range("\u{5}".."\u{7}").count(), 2);
    let mut both = file.range::<&[u8], _>(..);
    let (mut met, mut fell) = (Vec::new(), Vec::new());
    while let Some(entry) = both.next() {
        met.push(entry.unwrap().key[0]);
        fell.extend(both.next_back().map(|entry| entry.unwrap().key[0]));
    }
    fell.reverse();
    assert_eq!([met, fell].concat(), (0..200).collect::<Vec<u8>>());
}

#[test]
fn ends_and_what_is_committed() {
    let file = File::memory().unwrap();
    assert!(file.first().unwrap().is_none() && file.last().unwrap().is_none() && file.count().unwrap() == 0);
    let first = file.begin().unwrap();
    first.put(b"a", b"1").unwrap();
    first.put(b"b", b"2").unwrap();
    first.commit().unwrap();
    let second = file.begin().unwrap();
    second.put(b"a", b"3").unwrap();
    second.remove(b"b").unwrap();
    second.put(b"c", b"4").unwrap();
    let (least, greatest) = (file.first().unwrap().unwrap(), file.last().unwrap().unwrap());
    assert_eq!(
        (least.key.to_vec(), least.record.to_vec(), least.owner),
        (b"a".to_vec(), b"3".to_vec(), Some(second.number()))
    );
    assert_eq!(greatest.key, b"c");
    let committed = |key: &[u8]| file.committed(key).unwrap().map(|record| record.to_vec());
    assert_eq!((committed(b"a"), committed(b"b"), committed(b"c")), (Some(b"1".to_vec()), Some(b"2".to_vec()), None));
    assert!(matches!(file.committed(b""), Err(Error::EmptyKey)));
}

#[test]
fn a_file_goes_to_another_thread() {
    let file = File::memory().unwrap();
    let worker = std::thread::spawn(move || {
        let order = file.begin().unwrap();
        order.put(b"a", b"1").unwrap();
        order.commit().unwrap();
        file
    });
    assert_eq!(keys(&worker.join().unwrap()), ["a"]);
}
