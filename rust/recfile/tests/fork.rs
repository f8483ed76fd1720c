//! A child of a fork has its parent's file, and must not write it.
use recfile::{Error, File};
use std::os::raw::c_int;

mod support;
use support::{dump, put, Room};

extern "C" {
    fn fork() -> c_int;
    fn waitpid(child: c_int, status: *mut c_int, options: c_int) -> c_int;
    fn _exit(status: c_int) -> !;
}

#[test]
fn a_child_writes_nothing() {
    let room = Room::new("fork");
    let path = room.path("f.rec");
    let file = File::create(&path).unwrap();
    put(&file, "a", "1");
    // SAFETY: the child calls nothing that another thread may have been in.
    let child = unsafe { fork() };
    if child == 0 {
        let refused = matches!(file.close(), Err(unclosed) if matches!(unclosed.cause(), Error::WrongProcess));
        // SAFETY: it ends the child.
        unsafe { _exit(if refused { 7 } else { 1 }) };
    }
    let mut status = 0;
    // SAFETY: the status is written to.
    assert_eq!(unsafe { waitpid(child, &mut status, 0) }, child);
    assert_eq!(status, 7 << 8);
    assert_eq!(std::fs::metadata(&path).unwrap().len(), 0);
    put(&file, "b", "2");
    file.close().unwrap();
    assert_eq!(dump(&path).len(), 2);
}
