//! What errors say of themselves.

use fault_queue::QueueFault;
use std::test::Fail;

#[test]
fn a_queue_says_why_nobody_was_added(rt: HostRuntime) -> Result<(), Fail> {
    for (fault, said) in [
        (QueueFault::AlreadyWaiting, "waits already"),
        (QueueFault::Memory, "out of memory"),
    ] {
        assert_eq!(rt; format!(in rt.alloc(); "{fault}")?.as_str(), said);
    }
    Ok(())
}
