//! Tests of a box that is taken apart.
use sm_kept::BoxParts;
use std::test::Fail;

#[test]
fn parts_make_the_box_again(rt: HostRuntime) -> Result<(), Fail> {
    let kept = Box::new(rt.alloc(), 7u8)?;
    let parts = BoxParts::of(kept);
    assert_eq!(rt; *parts.into_box(), 7);
    Ok(())
}
