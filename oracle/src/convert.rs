//! Changes of the list format. A request that gives the bytes of calls another
//! form adds a conversion here, at the end; `oracle convert` then rewrites the
//! recorded lists once, and `oracle relist` their listings.

/// From a list's bytes to those of the same list in the next format. A list
/// that breaks off has to break off at the same place of the same call.
pub type Conversion = fn(&[u8]) -> Vec<u8>;

/// In the order in which the formats came. The index says how many of them the
/// recorded lists have been through.
pub const CONVERSIONS: &[Conversion] = &[];

/// A list after these conversions; without any, the same list.
pub fn converted(list: &[u8], conversions: &[Conversion]) -> Vec<u8> {
    let start = list.to_vec();
    conversions
        .iter()
        .fold(start, |list, convert| convert(&list))
}
