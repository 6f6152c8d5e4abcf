//! The standard library with a `thread::sleep` that costs no time, and an `fs::read_to_string` that gives a lent text. The original's crate is
//! compiled with this crate under the name `std`, so that its text stays as it is, its pauses between queries cost nothing, and a log that it only
//! reads need not be a file.

pub use ::std::*;

pub mod thread {
    pub use ::std::thread::*;

    pub fn sleep(_pause: ::std::time::Duration) {}
}

pub mod fs {
    pub use ::std::fs::*;

    use ::std::cell::RefCell;
    use ::std::path::{Path, PathBuf};

    thread_local! {
        static LENT: RefCell<Option<(PathBuf, String)>> = const { RefCell::new(None) };
    }

    /// From here on a read of this path, in this thread, gives this text.
    pub fn lend(path: &Path, text: &str) {
        LENT.with(|lent| {
            let mut lent = lent.borrow_mut();
            let (of, held) = lent.get_or_insert_default();
            if of.as_os_str() != path.as_os_str() {
                *of = path.into();
            }
            held.clear();
            held.push_str(text);
        });
    }

    /// From here on every read is of a file.
    pub fn lend_none() {
        LENT.with(|lent| *lent.borrow_mut() = None);
    }

    pub fn read_to_string<P: AsRef<Path>>(path: P) -> ::std::io::Result<String> {
        let lent = LENT.with(|lent| lent.borrow().as_ref().filter(|(of, _)| of.as_os_str() == path.as_ref().as_os_str()).map(|(_, text)| text.clone()));
        lent.map_or_else(|| ::std::fs::read_to_string(path), Ok)
    }
}
