//! One number in three places: the archive, these declarations, and the package's own version, a.b.c as 10000 a + 100 b + c.
use lumintayag_sys::{lumintayag_version, VERSION};

#[test]
fn the_archive_answers_this_version() {
    // It takes no argument.
    assert_eq!(unsafe { lumintayag_version() }, VERSION);
}

#[test]
fn the_package_has_this_version() {
    let numbers: Vec<u32> = env!("CARGO_PKG_VERSION").split('.').map(|n| n.parse().unwrap()).collect();
    assert_eq!(numbers.iter().fold(0, |sum, n| 100 * sum + n), VERSION);
}
