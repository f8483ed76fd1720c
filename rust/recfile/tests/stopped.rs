//! With memory refused to librecfile.so, where a library is preloaded that does so as its numbers `from` and `to` say:
//!
//!     LD_PRELOAD=refuse.so REFUSE_TO=/librecfile. cargo test --features dynamic --test stopped
use recfile::{Error, File, Options, Transaction};
use std::os::raw::{c_char, c_ulong, c_void};
use std::ptr::null_mut;

mod support;
use support::Room;

extern "C" {
    fn dlsym(handle: *mut c_void, name: *const c_char) -> *mut c_void;
}

/// The hook's number of that name, where it is preloaded.
fn number(name: &[u8]) -> Option<*mut c_ulong> {
    // SAFETY: the name ends with a zero byte.
    let found = unsafe { dlsym(null_mut(), name.as_ptr().cast()) } as *mut c_ulong;
    (!found.is_null()).then_some(found)
}

/// Refuses memory, or doesn't, by the hook's own numbers.
struct Refusals {
    from: *mut c_ulong,
    to: *mut c_ulong,
}

impl Refusals {
    fn find() -> Option<Refusals> {
        Some(Refusals { from: number(b"from\0")?, to: number(b"to\0")? })
    }

    fn during<T>(&self, call: impl FnOnce() -> T) -> T {
        // SAFETY: this is the only thread that uses the numbers.
        unsafe {
            *self.to = c_ulong::MAX;
            *self.from = 1;
        }
        let answer = call();
        // SAFETY: as above.
        unsafe { *self.from = 0 };
        answer
    }
}

fn keys() -> impl Iterator<Item = String> {
    (0..200).map(|i| format!("k{i:03}"))
}

/// A transaction that has taken every record out.
fn emptied(file: &File) -> Transaction<'_> {
    let order = file.begin().unwrap();
    keys().for_each(|key| assert!(order.remove(key.as_bytes()).unwrap().is_some()));
    order
}

#[test]
fn a_rollback_that_stops_is_gone_on_with() {
    let refusals = match Refusals::find() {
        Some(refusals) => refusals,
        None => return eprintln!("left out: nothing is preloaded that refuses memory"),
    };
    let room = Room::new("stopped");
    let path = room.path("f.rec");
    let file = Options::new().order(1).create(&path).unwrap();
    keys().for_each(|key| support::put(&file, &key, "v"));
    file.close().unwrap();

    let file = Options::new().open(&path).unwrap();
    let order = emptied(&file);
    let stopped = refusals.during(|| order.abort()).unwrap_err();
    match stopped.cause() {
        Error::Stopped { undone, left, cause } => {
            assert_eq!(undone + left, 200);
            assert!(matches!(**cause, Error::Memory));
        }
        other => panic!("{other:?}"),
    }
    assert!(matches!(file.begin().unwrap().get(b"k000"), Err(Error::Held { owner: 1 })));
    assert_eq!(stopped.resume().unwrap(), 200);

    // One that is dropped while memory is refused is gone on with when the file is closed.
    let order = emptied(&file);
    refusals.during(|| drop(order));
    assert_eq!(file.count().unwrap(), 0);
    file.close().unwrap();
    assert_eq!(support::dump(&path).len(), 200);
}
