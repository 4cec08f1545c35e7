//! What errors say of themselves.

use cert_maker::MakeFault;
use merge_runs::MergeFault;
use std::test::Fail;

#[test]
fn a_replay_says_why_there_is_none(rt: HostRuntime) -> Result<(), Fail> {
    for (fault, said) in [
        (
            MergeFault::NoMerging,
            "the runs are no merging of the session's logs",
        ),
        (MergeFault::Memory, "no memory for the replay"),
    ] {
        assert_eq!(rt; format!(in rt.alloc(); "{fault}")?.as_str(), said);
    }
    Ok(())
}

#[test]
fn a_maker_says_why_there_is_no_certificate(rt: HostRuntime) -> Result<(), Fail> {
    for (fault, said) in [
        (MakeFault::NoCertificate, "no certificate"),
        (MakeFault::Memory, "out of memory"),
    ] {
        assert_eq!(rt; format!(in rt.alloc(); "{fault}")?.as_str(), said);
    }
    Ok(())
}
