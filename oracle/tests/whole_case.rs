//! Document 01's whole case gives its ten lines.

use oracle::{cases, listing};

#[test]
fn whole_case() {
    assert_eq!(
        listing::listing(&cases::whole_case()),
        cases::WHOLE_CASE_LISTING
    );
}
