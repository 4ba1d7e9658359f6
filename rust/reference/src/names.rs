//! What the names of all vectors have to be, for the tests of each kind of them.

use std::collections::HashSet;

/// Small letters, digits and underscores, and no name twice.
pub fn assert_plain_and_different(names: impl Iterator<Item = String>) {
    let mut seen = HashSet::new();
    for name in names {
        let plain = |c: char| c.is_ascii_lowercase() || c.is_ascii_digit() || c == '_';
        assert!(name.chars().all(plain), "{name}");
        assert!(seen.insert(name.clone()), "{name} twice");
    }
}
