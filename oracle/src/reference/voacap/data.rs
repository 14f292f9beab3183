//! Files from memory, so that `redmap` runs unchanged.

use std::cell::RefCell;
use std::collections::HashMap;
use std::io::{Error, ErrorKind, Result};
use std::path::Path;
use std::rc::Rc;

thread_local! {
    static FILES: RefCell<HashMap<String, Rc<[u8]>>> = RefCell::new(HashMap::new());
}

/// Holds `bytes` as the file `path`, as in `coeffs/coeff01w.bin`.
pub fn put(path: &str, bytes: impl Into<Rc<[u8]>>) {
    FILES.with_borrow_mut(|files| files.insert(path.to_owned(), bytes.into()));
}

pub fn clear() {
    FILES.with_borrow_mut(HashMap::clear);
}

/// What was put under `path`; there is one tree only, so `_root` is free.
/// The bytes are shared and not copied, as the original's embedded ones.
pub fn read(_root: &Path, path: &str) -> Result<Rc<[u8]>> {
    FILES
        .with_borrow(|files| files.get(path).cloned())
        .ok_or_else(|| Error::new(ErrorKind::NotFound, format!("{path} was not put")))
}
