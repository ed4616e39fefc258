use sm_trace::{Shadow, Trace};
use std::test::Fail;

// A number, and all that was written into it, which proofs alone read.
#[derive(Drop)]
struct Register {
    value: u64,
    written: Trace<u64>,
}

#[test]
fn traces_take_no_memory(rt: HostRuntime) -> Result<(), Fail> {
    let mut register = Register {
        value: 0,
        written: Trace::empty(),
    };
    for value in [3u64, 4, 5] {
        register.value = value;
        register.written.push(&value);
    }
    let before = Shadow::of(&register.value);
    assert_eq!(rt; register.value, 5);
    assert_eq!(rt; size_of_val(&register.written), 0);
    assert_eq!(rt; size_of_val(&before), 0);
    Ok(())
}
