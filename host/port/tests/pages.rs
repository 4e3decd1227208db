//! A touch of the pages around lent words ends the program: tried in a program of its own.
use port::pages::Pages;
use std::os::unix::process::ExitStatusExt;
use std::process::Command;
use std::{env, ptr};

const ASKED: &str = "PORT_TOUCHES";
const SEGMENTATION_FAULT: i32 = 11;

#[test]
fn a_touch_beyond_ends_the_program() {
    if let Ok(place) = env::var(ASKED) {
        return touch(&place);
    }
    for (place, signal) in
        [("first", None), ("last", None), ("before", Some(SEGMENTATION_FAULT)), ("behind", Some(SEGMENTATION_FAULT))]
    {
        let mut again = Command::new(env::current_exe().unwrap());
        let output = again.args(["--exact", "a_touch_beyond_ends_the_program"]).env(ASKED, place).output().unwrap();
        assert_eq!(output.status.signal(), signal, "{place}");
    }
}

fn touch(place: &str) {
    let pages = Pages::of(1000);
    let words = pages.words().as_ptr_range();
    let at = match place {
        "before" => words.start.wrapping_sub(1),
        "first" => words.start,
        "last" => words.end.wrapping_sub(1),
        _ => words.end,
    };
    // Not sound outside of the pages, and that is what is tried.
    unsafe { ptr::read_volatile(at) };
}
