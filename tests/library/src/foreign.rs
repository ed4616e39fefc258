//! A board of foreign bodies.
use sm_foreign::{Chief, Fence, Foreign, ForeignChief, PassFault};
use sm_ranges::ServerId;
use std::test::Fail;

#[test]
fn makes_a_pass(rt: HostRuntime) -> Result<(), Fail> {
    let (alloc, one) = (rt.alloc(), ServerId::of(1));
    let bodies = Foreign::all(alloc, &[70, 80])?;
    let Ok(held) = Chief::make(alloc, bodies, 2, 1, 100) else {
        return Err("no board".into());
    };
    let chief = ForeignChief {
        held,
        fence: Fence::first(),
    };
    assert_eq!(rt; chief.pass(Some(one))?.held.count(), 2);
    assert!(rt; chief.pass(Some(one))?.token().is_none());
    let stranger = chief.pass(Some(ServerId::of(3)));
    assert!(rt; matches!(stranger, Err(PassFault::UnknownServer)));
    Ok(())
}
