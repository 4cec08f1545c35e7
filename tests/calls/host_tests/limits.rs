//! Records and logs at the limits of a session, and beyond them.

use guest_script::{Script, read_script};
use host_checks::{RunFault, session_of};
use migration_types::{
    Contents, GuestRec, LaneRec, LinkRec, Logs, MOST_RECORDS, PageNo, PagerRec, Seq, SourceRec,
};
use std::alloc::{AllocError, Global};
use std::test::Fail;

/// One of the second version, for a machine of 3 pages of 2 cells.
const SCRIPT: &[u8] =
    b"postcopy-script 2\npages 3\ncells 2\ninit 0\npivots 1\nwindow 1\ndown -\nup -\nlanes 1\nvcpus 1\nvcpu 0 0\nend\n";

/// What records name: a virtual processor, a page, a cell and a record, and how many cells contents have.
struct Named {
    vcpu: u8,
    page: u32,
    cell: u16,
    number: u32,
    cells: usize,
}

/// The greatest of each.
const GREATEST: Named = Named {
    vcpu: 63,
    page: 2,
    cell: 1,
    number: 1_048_575,
    cells: 2,
};

/// One of these beyond its limit.
static BEYOND: [Named; 6] = [
    Named {
        vcpu: 64,
        ..GREATEST
    },
    Named {
        page: 3,
        ..GREATEST
    },
    Named {
        cell: 2,
        ..GREATEST
    },
    Named {
        number: 1_048_576,
        ..GREATEST
    },
    Named {
        cells: 1,
        ..GREATEST
    },
    Named {
        cells: 3,
        ..GREATEST
    },
];

fn contents(alloc: Global, cells: usize) -> Result<Contents, AllocError> {
    Ok(Contents::from_vec(vec![in alloc; u64::MAX; cells]?))
}

/// A record of each kind that names something, in its log.
fn logs_with(alloc: Global, named: &Named) -> Result<Logs, AllocError> {
    let vcpu = named.vcpu;
    let cell = named.cell;
    let number = named.number;
    let page = PageNo::new(named.page);
    let guest = [
        GuestRec::Read {
            vcpu,
            page,
            cell,
            value: u64::MAX,
        },
        GuestRec::Release { vcpu, page },
        GuestRec::Miss { vcpu, page },
        GuestRec::Resume { ready: number },
        GuestRec::See { placement: number },
    ];
    let source = [
        SourceRec::Halted { halt: number },
        SourceRec::Send {
            page,
            contents: contents(alloc, named.cells)?,
        },
        SourceRec::Again { sending: number },
        SourceRec::Ask { up: number },
    ];
    let link = [
        LinkRec::Down { sending: number },
        LinkRec::Up { asking: number },
    ];
    let lane = [LaneRec::Down { sending: number }];
    let pager = [
        PagerRec::Got { down: number },
        PagerRec::Pull { down: number },
        PagerRec::Fault { miss: number },
        PagerRec::Join { want: number },
        PagerRec::Want { page },
        PagerRec::Place {
            page,
            got: number,
            contents: contents(alloc, named.cells)?,
        },
        PagerRec::Skip { got: number },
    ];
    Ok(Logs {
        guest: Seq::from_vec(Vec::from_array(alloc, guest)?),
        source: Seq::from_vec(Vec::from_array(alloc, source)?),
        link: Seq::from_vec(Vec::from_array(alloc, link)?),
        lane: Seq::from_vec(Vec::from_array(alloc, lane)?),
        pager: Seq::from_vec(Vec::from_array(alloc, pager)?),
    })
}

/// So many halts, and nothing else.
fn logs_of(alloc: Global, count: usize) -> Result<Logs, AllocError> {
    Ok(Logs {
        guest: Seq::from_vec(vec![in alloc; GuestRec::Halt; count]?),
        source: Seq::from_vec(Vec::new(alloc)),
        link: Seq::from_vec(Vec::new(alloc)),
        lane: Seq::from_vec(Vec::new(alloc)),
        pager: Seq::from_vec(Vec::new(alloc)),
    })
}

/// Whether the logs make a session, and false where they are beyond its limits.
fn make_a_session(alloc: Global, script: &Script, logs: Logs) -> Option<bool> {
    match session_of(alloc, script, logs) {
        Ok(_) => Some(true),
        Err(RunFault::TranscriptDiffers) => Some(false),
        Err(_) => None,
    }
}

#[test]
fn records_with_the_greatest_numbers_make_a_session(rt: HostRuntime) -> Result<(), Fail> {
    let alloc = rt.alloc();
    let script = read_script(alloc, SCRIPT).expect(&rt, "a script's text");
    assert_eq!(rt;
        make_a_session(alloc, &script, logs_with(alloc, &GREATEST)?),
        Some(true)
    );
    for named in &BEYOND {
        assert_eq!(rt;
            make_a_session(alloc, &script, logs_with(alloc, named)?),
            Some(false)
        );
    }
    Ok(())
}

#[test]
fn a_full_log_makes_a_session(rt: HostRuntime) -> Result<(), Fail> {
    let alloc = rt.alloc();
    let script = read_script(alloc, SCRIPT).expect(&rt, "a script's text");
    let most = MOST_RECORDS as usize;
    assert_eq!(rt;
        make_a_session(alloc, &script, logs_of(alloc, most)?),
        Some(true)
    );
    assert_eq!(rt;
        make_a_session(alloc, &script, logs_of(alloc, most + 1)?),
        Some(false)
    );
    Ok(())
}
