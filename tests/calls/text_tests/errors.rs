//! What errors say of themselves.

use guest_script::{ScriptFault, VcpuFault};
use migration_types::GeometryFault;
use std::test::Fail;
use text_lines::{FaultKind, TextFault};

#[test]
fn a_geometry_says_which_limit_is_missed(rt: HostRuntime) -> Result<(), Fail> {
    for (fault, said) in [
        (
            GeometryFault::Pages,
            "a machine has at least one page, and no more than its size allows",
        ),
        (GeometryFault::Cells, "a page has 1 to 512 cells"),
        (
            GeometryFault::TooMany,
            "a machine has no more cells than its size allows",
        ),
    ] {
        assert_eq!(rt; format!(in rt.alloc(); "{fault}")?.as_str(), said);
    }
    Ok(())
}

#[test]
fn a_text_says_where_it_is_refused(rt: HostRuntime) -> Result<(), Fail> {
    for (kind, said) in [
        (FaultKind::Form, "line 7: not the form that is wanted here"),
        (FaultKind::Range, "line 7: a number is out of its range"),
        (
            FaultKind::Ended,
            "line 7: the text ends too early or too late",
        ),
        (FaultKind::Memory, "line 7: out of memory"),
    ] {
        let fault = TextFault { line: 7, kind };
        assert_eq!(rt; format!(in rt.alloc(); "{fault}")?.as_str(), said);
    }
    Ok(())
}

#[test]
fn a_script_says_what_is_wrong_with_its_parts(rt: HostRuntime) -> Result<(), Fail> {
    for (fault, said) in [
        (
            ScriptFault::Init(3),
            "initial page 3 is none of the machine's, out of order, of another size, or zeros",
        ),
        (ScriptFault::Pivots, "there are 1 to 16 pivots"),
        (ScriptFault::Window, "a window has 1 to 65,536 packets"),
        (
            ScriptFault::Down,
            "there are at most 4,096 fates on the way down",
        ),
        (
            ScriptFault::Up,
            "there are at most 4,096 fates on the way up",
        ),
        (
            ScriptFault::Lane,
            "a script of the second version alone has a lane, with at most 4,096 fates",
        ),
        (ScriptFault::Vcpus, "there are 1 to 64 virtual processors"),
        (
            ScriptFault::Vcpu {
                vcpu: 9,
                fault: VcpuFault::ManyBefore,
            },
            "virtual processor 9: more than 65,536 operations before the move",
        ),
        (
            ScriptFault::Vcpu {
                vcpu: 9,
                fault: VcpuFault::ManyAfter,
            },
            "virtual processor 9: more than 65,536 operations after the move",
        ),
        (
            ScriptFault::Vcpu {
                vcpu: 9,
                fault: VcpuFault::Before(5),
            },
            "virtual processor 9: operation 5 before the move is on no page or cell of the machine",
        ),
        (
            ScriptFault::Vcpu {
                vcpu: 9,
                fault: VcpuFault::After(5),
            },
            "virtual processor 9: operation 5 after the move is on no page or cell of the machine, or a release in the first version",
        ),
    ] {
        assert_eq!(rt; format!(in rt.alloc(); "{fault}")?.as_str(), said);
    }
    Ok(())
}
