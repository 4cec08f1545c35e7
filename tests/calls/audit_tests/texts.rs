//! Sessions, and an order of one of them, as texts.

use migration_types::Session;
use session_log::read_session;
use std::alloc::{AllocError, Global};

/// Page 0 comes when it is missed, and page 1, which was written, after it.
pub const HANDOVER: &str = "postcopy-session 1
pages 2
cells 1
init 1
page 0 0000000000000005
guest 9
w 0 1 0 7
halt
resume 1
miss 0 0
see 5
r 0 0 0 5
see 7
w 0 1 0 9
r 0 1 0 9
source 5
halted 1
state
ask 1
send 0 0000000000000005
send 1 0000000000000007
link 4
down 1
up 3
down 3
down 4
pager 8
got 0
ready
fault 3
want 0
got 2
place 0 4 0000000000000005
got 3
place 1 6 0000000000000007
end
";

/// The order of the handover that stays with a log as long as it can.
pub const FOUND: &str = "postcopy-runs 1
runs 11
run guest 2
run source 2
run link 1
run pager 2
run guest 2
run pager 2
run link 1
run source 3
run link 2
run pager 4
run guest 5
end
";

/// Page 1 is released before the guest moves, and comes back as zeros.
pub const RELEASED: &str = "postcopy-session 1
pages 2
cells 1
init 2
page 0 0000000000000005
page 1 0000000000000006
guest 6
z 0 1
halt
resume 1
miss 0 1
see 3
r 0 1 0 0
source 2
halted 1
state
link 1
down 1
pager 4
got 0
ready
fault 3
zero 1
end
";

/// Page 0 comes when it is missed, and once more; page 1 is pushed; pages 2 and 3 were released.
pub const MIXED: &str = "postcopy-session 1
pages 4
cells 1
init 1
page 0 0000000000000005
guest 12
w 0 1 0 7
z 0 2
z 0 3
halt
resume 1
miss 0 0
see 5
r 0 0 0 5
miss 1 2
see 9
r 1 2 0 0
w 0 1 0 9
source 7
halted 3
state
ask 1
send 0 0000000000000005
send 1 0000000000000007
again 3
done
link 5
down 1
up 3
down 3
down 4
down 5
pager 13
got 0
ready
fault 5
want 0
got 2
place 0 4 0000000000000005
got 3
place 1 6 0000000000000007
fault 8
zero 2
zero 3
got 4
skip 11
end
";

/// The handover with its first look before the miss that leads to it.
pub const CIRCLE: &str = "postcopy-session 1
pages 2
cells 1
init 1
page 0 0000000000000005
guest 9
w 0 1 0 7
halt
resume 1
see 5
miss 0 0
r 0 0 0 5
see 7
w 0 1 0 9
r 0 1 0 9
source 5
halted 1
state
ask 1
send 0 0000000000000005
send 1 0000000000000007
link 4
down 1
up 3
down 3
down 4
pager 8
got 0
ready
fault 4
want 0
got 2
place 0 4 0000000000000005
got 3
place 1 6 0000000000000007
end
";

/// The handover without its second look.
pub const EARLY_ACCESS: &str = "postcopy-session 1
pages 2
cells 1
init 1
page 0 0000000000000005
guest 8
w 0 1 0 7
halt
resume 1
miss 0 0
see 5
r 0 0 0 5
w 0 1 0 9
r 0 1 0 9
source 5
halted 1
state
ask 1
send 0 0000000000000005
send 1 0000000000000007
link 4
down 1
up 3
down 3
down 4
pager 8
got 0
ready
fault 3
want 0
got 2
place 0 4 0000000000000005
got 3
place 1 6 0000000000000007
end
";

/// The handover with zeros sent in place of what was written.
pub const STALE_PAGE: &str = "postcopy-session 1
pages 2
cells 1
init 1
page 0 0000000000000005
guest 6
w 0 1 0 7
halt
resume 1
miss 0 0
see 5
r 0 0 0 5
source 5
halted 1
state
ask 1
send 0 0000000000000005
send 1 0000000000000000
link 4
down 1
up 3
down 3
down 4
pager 8
got 0
ready
fault 3
want 0
got 2
place 0 4 0000000000000005
got 3
place 1 6 0000000000000000
end
";

/// A guest that stays at the source.
pub const AT_HOME: &str = "postcopy-session 1
pages 1
cells 1
init 0
guest 4
w 0 0 0 3
r 0 0 0 3
z 0 0
r 0 0 0 0
source 0
link 0
pager 0
end
";

/// Such a guest, which reads what it did not write.
pub const WRONG_READ: &str = "postcopy-session 1
pages 1
cells 1
init 0
guest 4
w 0 0 0 3
r 0 0 0 4
z 0 0
r 0 0 0 0
source 0
link 0
pager 0
end
";

/// A session that is not of the right shape.
pub const WRONG_SHAPE: &str = "postcopy-session 1
pages 2
cells 1
init 1
page 0 0000000000000005
guest 9
w 0 1 0 7
halt
resume 1
miss 0 0
see 5
r 0 0 0 5
see 7
w 0 1 0 9
r 0 1 0 9
source 6
halted 1
state
ask 1
send 0 0000000000000005
send 1 0000000000000007
send 0 0000000000000005
link 4
down 1
up 3
down 3
down 4
pager 8
got 0
ready
fault 3
want 0
got 2
place 0 4 0000000000000005
got 3
place 1 6 0000000000000007
end
";

/// A guest that reads pages as they began.
pub const INITIAL_MEMORY: &str = "postcopy-session 1
pages 3
cells 2
init 2
page 0 00000000000000050000000000000000
page 2 0000000000000000ffffffffffffffff
guest 6
r 0 0 0 5
r 1 2 1 18446744073709551615
r 0 1 0 0
w 63 1 1 7
z 0 2
r 0 2 1 0
source 0
link 0
pager 0
end
";

/// In the second version: page 0 is released at the target, and what was sent of it never placed.
pub const FRESH: &str = "postcopy-session 2
pages 1
cells 1
init 1
page 0 0000000000000006
guest 4
halt
resume 1
z 0 0
r 0 0 0 0
source 3
halted 0
state
send 0 0000000000000006
link 2
down 1
down 2
lane 0
pager 4
got 0
ready
got 1
skip 2
end
";

/// The same, with what was sent placed, over the release or before it.
pub const OVER: &str = "postcopy-session 2
pages 1
cells 1
init 1
page 0 0000000000000006
guest 4
halt
resume 1
z 0 0
r 0 0 0 0
source 3
halted 0
state
send 0 0000000000000006
link 2
down 1
down 2
lane 0
pager 4
got 0
ready
got 1
place 0 2 0000000000000006
end
";

/// The same, with a look before the release.
pub const SEEN: &str = "postcopy-session 2
pages 1
cells 1
init 1
page 0 0000000000000006
guest 5
halt
resume 1
see 3
z 0 0
r 0 0 0 0
source 3
halted 0
state
send 0 0000000000000006
link 2
down 1
down 2
lane 0
pager 4
got 0
ready
got 1
place 0 2 0000000000000006
end
";

/// Page 0 is released at the source, and again at the target, and may come back as zeros after that.
pub const ZEROED: &str = "postcopy-session 2
pages 1
cells 1
init 1
page 0 0000000000000006
guest 5
z 0 0
halt
resume 1
z 0 0
r 0 0 0 0
source 2
halted 1
state
link 1
down 1
lane 0
pager 3
got 0
ready
zero 0
end
";

/// In the second version: page 0 comes when it is missed; page 1 is pushed, seen, and then released at the target;
/// page 2 is released there before it comes, and never placed; page 3 was released at the source.
pub const LATE_RELEASES: &str = "postcopy-session 2
pages 4
cells 1
init 1
page 0 0000000000000005
guest 13
w 0 1 0 7
z 0 3
halt
resume 1
z 0 2
w 0 2 0 4
r 0 2 0 4
miss 0 0
see 5
r 0 0 0 5
see 8
z 0 1
r 0 1 0 0
source 6
halted 2
state
ask 1
send 0 0000000000000005
send 1 0000000000000007
send 2 0000000000000000
link 5
down 1
up 3
down 3
down 4
down 5
lane 0
pager 11
got 0
ready
fault 7
want 0
got 2
place 0 4 0000000000000005
zero 3
got 3
place 1 7 0000000000000007
got 4
skip 9
end
";

/// In the second version: page 0 comes over the lane, and is seen and read.
pub const PULLED: &str = "postcopy-session 2
pages 1
cells 1
init 1
page 0 0000000000000006
guest 4
halt
resume 1
see 3
r 0 0 0 6
source 3
halted 0
state
send 0 0000000000000006
link 1
down 1
lane 1
down 2
pager 4
got 0
ready
pull 0
place 0 2 0000000000000006
end
";

/// How many lines a text has.
fn lines_of(text: &str) -> u32 {
    let mut lines = 0u32;
    for byte in text.as_bytes() {
        if *byte == b'\n' {
            lines = lines.saturating_add(1);
        }
    }
    lines
}

/// The logs of a session, as texts.
pub struct Logs {
    pub guest: &'static str,
    pub source: &'static str,
    pub link: &'static str,
    pub pager: &'static str,
}

/// The text of the session of two pages of one cell with these logs, in which page 0 begins as 5.
fn text_of(alloc: Global, logs: &Logs) -> Result<String, AllocError> {
    let (guest, source, link, pager) = (logs.guest, logs.source, logs.link, logs.pager);
    format!(in alloc;
        "postcopy-session 1\npages 2\ncells 1\ninit 1\npage 0 0000000000000005\nguest {}\n{guest}source {}\n{source}link {}\n{link}pager {}\n{pager}end\n",
        lines_of(guest),
        lines_of(source),
        lines_of(link),
        lines_of(pager),
    )
}

/// The text with its changes.
pub fn changed(alloc: Global, text: &str, changes: &[(&str, &str)]) -> Result<String, AllocError> {
    let mut text = String::from_str(alloc, text)?;
    for (old, new) in changes {
        text = text.as_str().replace(alloc, *old, new)?;
    }
    Ok(text)
}

/// That session; none where its text is refused, or there is no memory.
pub fn session_of(alloc: Global, logs: &Logs) -> Option<Session> {
    let text = text_of(alloc, logs).ok()?;
    read_session(alloc, text.as_bytes()).ok()
}

/// The session of a text with a change: the first `old` in it becomes `new`. None where the changed text is refused, or
/// there is no memory.
pub fn changed_session(alloc: Global, text: &str, old: &str, new: &str) -> Option<Session> {
    let changed = text.replacen(alloc, old, new, 1).ok()?;
    read_session(alloc, changed.as_bytes()).ok()
}
