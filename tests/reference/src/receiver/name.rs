//! Names of files: what a `file` command may ask for.

use super::{scan, utf8};

const LONGEST_NAME: usize = 4096;
const LONGEST_COMPONENT: usize = 255;

/// Whether the bytes are a name by document 01, with order 2's UTF-8.
pub fn good(name: &[u8]) -> bool {
    let rooted = name.starts_with(b"/") || name.starts_with(b"~/");
    rooted
        && name.len() <= LONGEST_NAME
        && name.split(|&b| b == b'/').all(good_component)
        && scan::all(name, |b| b != 0)
        && utf8::well_formed(name)
}

fn good_component(component: &[u8]) -> bool {
    component.len() <= LONGEST_COMPONENT && component != b".."
}
