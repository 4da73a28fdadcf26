//! The structs have the sizes that a C compiler gives those of `btcheck.h`: BTCHECK_SIZES has these, if it is set.
use btcheck_sys::*;
use std::mem::size_of;

#[test]
fn sizes_are_those_of_c() {
    let sizes = [
        size_of::<btcheck_root>(),
        size_of::<btcheck_session>(),
        size_of::<btcheck_ask>(),
        size_of::<btcheck_file>(),
        size_of::<btcheck_blocks>(),
        size_of::<btcheck_verdict>(),
        size_of::<btcheck_check>(),
        size_of::<btcheck_holdings>(),
        size_of::<btcheck_run>(),
        size_of::<btcheck_held>(),
        size_of::<btcheck_draft>(),
        size_of::<btcheck_draft_file>(),
        size_of::<btcheck_piece>(),
        size_of::<btcheck_piece_range>(),
        size_of::<btcheck_taken>(),
    ];
    if let Ok(wanted) = std::env::var("BTCHECK_SIZES") {
        let texts: Vec<_> = sizes.iter().map(|size| size.to_string()).collect();
        assert_eq!(texts.join(" "), wanted);
    }
}
