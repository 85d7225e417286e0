//! Demand 3: documents "of equal length that differ only in digits of readable Qty values".

use crate::model::qty_digits;
use crate::random::Random;

/// The document with other readable Qty digits: all of them, or a few; nothing where it has none.
pub fn other_digits(random: &mut Random, doc: &[u8]) -> Option<Vec<u8>> {
    let places = qty_digits(doc);
    if places.is_empty() {
        return None;
    }
    let rarely = random.one_of(&[1, 1, 4, 20]);
    let mut other = doc.to_vec();
    for place in places {
        if random.one_in(rarely) {
            other[place] = b'0' + random.below(10) as u8;
        }
    }
    Some(other)
}
