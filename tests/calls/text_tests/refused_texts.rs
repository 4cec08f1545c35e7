//! Texts that are refused, and what may stand where they are.

/// What a text is to be.
#[derive(Clone, Copy)]
pub enum Text {
    Session,
    Cert,
    Runs,
    Script,
    Events,
}

use Text::{Cert, Events, Runs, Script, Session};

/// A text that is refused at its last line, whether an LF ends it or not, and what is wanted there: in words, its forms with
/// bars between them, and in numbers how many items of a list came, how many it has, the line that says so, the least and
/// the greatest number, and the machine's pages and cells.
pub type Refused = (Text, &'static str, &'static str, &'static str, [u32; 7]);

const GUEST: &str = "r V P C X|w V P C X|z V P|miss V P|halt|resume I|see I";

const SOURCE: &str = "halted I|state|send P HEX|again I|ask I|done";

const LATE_SOURCE: &str = "halted I|state|send P HEX|again I|ask I|done|back";

const PAGER: &str = "got I|ready|fault I|join I|want P|place P I HEX|zero P|skip I|all";

const LATE_PAGER: &str = "got I|pull I|ready|fault I|join I|want P|place P I HEX|zero P|skip I|all";

const ENTRY: &str =
    "page Q none|page Q source I I I I|page Q source I I - -|page Q balloon I I I|page Q balloon I - -";

const LATE_ENTRY: &str =
    "page Q none|page Q source I I I I|page Q source I I - -|page Q balloon I I I|page Q balloon I - -|page Q fresh I";

const EVENT: &str =
    "guest V|halt|push|serve|source-tick|link down FATE|link up FATE|link lane FATE|pop|pop-lane|fault|flush|deliver|pager-tick";

pub static REFUSED: [Refused; 68] = [
    (
        Session,
        "",
        "the header of a session",
        "postcopy-session 1|postcopy-session 2|postcopy-session 3",
        [0, 0, 0, 0, 0, 0, 0],
    ),
    (
        Session,
        "postcopy-session 4\n",
        "the header of a session",
        "postcopy-session 1|postcopy-session 2|postcopy-session 3",
        [0, 0, 0, 0, 0, 0, 0],
    ),
    (
        Session,
        "postcopy-session 1\npages 0\n",
        "the number of pages",
        "pages N",
        [0, 0, 0, 1, 65536, 0, 0],
    ),
    (
        Session,
        "postcopy-session 3\npages 16777217\n",
        "the number of pages",
        "pages N",
        [0, 0, 0, 1, 16777216, 0, 0],
    ),
    (
        Session,
        "postcopy-session 3\npages 65537\ncells 513\n",
        "the number of cells",
        "cells N",
        [0, 0, 0, 1, 512, 65537, 0],
    ),
    (
        Session,
        "postcopy-session 3\npages 65537\ncells 1\ninit 65538\n",
        "the number of initial pages",
        "init N",
        [0, 0, 0, 0, 65537, 65537, 1],
    ),
    (
        Session,
        "postcopy-session 3\npages 2\ncells 1\ninit 0\nguest 134217729\n",
        "the number of the guest's records",
        "guest N",
        [0, 0, 4, 0, 134217728, 2, 1],
    ),
    (
        Session,
        "postcopy-session 3\npages 2\ncells 1\ninit 0\nguest 0\nsource 0\nlink 0\nlane 0\npager 134217729\n",
        "the number of the pager's records",
        "pager N",
        [0, 0, 8, 0, 134217728, 2, 1],
    ),
    (
        Session,
        "postcopy-session 1\npages 2\ncells 513\n",
        "the number of cells",
        "cells N",
        [0, 0, 0, 1, 512, 2, 0],
    ),
    (
        Session,
        "postcopy-session 1\npages 2\ncells 1\ninit 3\n",
        "the number of initial pages",
        "init N",
        [0, 0, 0, 0, 2, 2, 1],
    ),
    (
        Session,
        "postcopy-session 1\npages 2\ncells 1\ninit 2\npage 1 0000000000000001\n",
        "an initial page",
        "page N HEX",
        [0, 2, 4, 0, 0, 2, 1],
    ),
    (
        Session,
        "postcopy-session 1\npages 2\ncells 1\ninit 1\npage 0 0000000000000001\npage 1 0000000000000001\n",
        "the number of the guest's records",
        "guest N",
        [1, 1, 4, 0, 1048576, 2, 1],
    ),
    (
        Session,
        "postcopy-session 1\npages 2\ncells 1\ninit 1\npage 1 0000000000000001\nguest 2\nhalt\nr 64 0 0 0\n",
        "a record of the guest",
        GUEST,
        [1, 2, 6, 0, 0, 2, 1],
    ),
    (
        Session,
        "postcopy-session 1\npages 2\ncells 1\ninit 0\nguest 1\nhalt\nhalt\n",
        "the number of the source's records",
        "source N",
        [1, 1, 5, 0, 1048576, 2, 1],
    ),
    (
        Session,
        "postcopy-session 1\npages 2\ncells 1\ninit 0\nguest 1\nhalt\nsource 2\ndone\nsend 0 00",
        "a record of the source",
        SOURCE,
        [1, 2, 7, 0, 0, 2, 1],
    ),
    (
        Session,
        "postcopy-session 3\npages 2\ncells 1\ninit 0\nguest 0\nsource 2\nback\nback 0",
        "a record of the source",
        LATE_SOURCE,
        [1, 2, 6, 0, 0, 2, 1],
    ),
    (
        Session,
        "postcopy-session 1\npages 2\ncells 1\ninit 0\nguest 1\nhalt\nsource 1\ndone\nlink 1048577\n",
        "the number of the link's records",
        "link N",
        [1, 1, 7, 0, 1048576, 2, 1],
    ),
    (
        Session,
        "postcopy-session 1\npages 2\ncells 1\ninit 0\nguest 1\nhalt\nsource 1\ndone\nlink 3\nup 0\ndown 0\ndown\n",
        "a record of the link",
        "down I|up I",
        [2, 3, 9, 0, 0, 2, 1],
    ),
    (
        Session,
        "postcopy-session 1\npages 2\ncells 1\ninit 0\nguest 0\nsource 0\nlink 1\nup 0\nlane 0\n",
        "the number of the pager's records",
        "pager N",
        [1, 1, 7, 0, 1048576, 2, 1],
    ),
    (
        Session,
        "postcopy-session 2\npages 2\ncells 1\ninit 0\nguest 0\nsource 0\nlink 1\nup 0\npager 0\n",
        "the number of the lane's records",
        "lane N",
        [1, 1, 7, 0, 1048576, 2, 1],
    ),
    (
        Session,
        "postcopy-session 2\npages 2\ncells 1\ninit 0\nguest 0\nsource 0\nlink 1\nup 0\nlane 2\ndown 1\nup 1\n",
        "a record of the lane",
        "down I",
        [1, 2, 9, 0, 0, 2, 1],
    ),
    (
        Session,
        "postcopy-session 2\npages 2\ncells 1\ninit 0\nguest 0\nsource 0\nlink 1\nup 0\nlane 1\ndown 1\nup 1\n",
        "the number of the pager's records",
        "pager N",
        [1, 1, 9, 0, 1048576, 2, 1],
    ),
    (
        Session,
        "postcopy-session 2\npages 2\ncells 1\ninit 0\nguest 0\nsource 0\nlink 1\nup 0\nlane 1\ndown 1\npager 1\nwant 2\n",
        "a record of the pager",
        LATE_PAGER,
        [0, 1, 11, 0, 0, 2, 1],
    ),
    (
        Session,
        "postcopy-session 1\npages 2\ncells 1\ninit 0\nguest 0\nsource 0\nlink 1\nup 0\npager 2\nall\npull 0\n",
        "a record of the pager",
        PAGER,
        [1, 2, 9, 0, 0, 2, 1],
    ),
    (
        Session,
        "postcopy-session 1\npages 2\ncells 1\ninit 0\nguest 0\nsource 0\nlink 0\npager 1\nall\nall\n",
        "the closing line",
        "end",
        [1, 1, 8, 0, 0, 2, 1],
    ),
    (
        Session,
        "postcopy-session 1\npages 2\ncells 1\ninit 0\nguest 0\nsource 0\nlink 0\npager 0\nend",
        "the closing line",
        "end",
        [0, 0, 8, 0, 0, 2, 1],
    ),
    (
        Session,
        "postcopy-session 1\npages 2\ncells 1\ninit 0\nguest 0\nsource 0\nlink 0\npager 0\nend\nx",
        "nothing after the closing line",
        "",
        [0, 0, 0, 0, 0, 2, 1],
    ),
    (
        Cert,
        "postcopy-certificate\n",
        "the header of a certificate",
        "postcopy-certificate 1|postcopy-certificate 2|postcopy-certificate 3",
        [0, 0, 0, 0, 0, 0, 0],
    ),
    (
        Cert,
        "postcopy-certificate 1\npages 65537\n",
        "the number of pages",
        "pages N",
        [0, 0, 0, 1, 65536, 0, 0],
    ),
    (
        Cert,
        "postcopy-certificate 1\npages 3\npage 0 none\npage 1 fresh 0\n",
        "the entry of a page",
        ENTRY,
        [1, 3, 2, 1, 1, 3, 0],
    ),
    (
        Cert,
        "postcopy-certificate 2\npages 3\npage 0 none\npage 1 fresh 0\npage 3 none\n",
        "the entry of a page",
        LATE_ENTRY,
        [2, 3, 2, 2, 2, 3, 0],
    ),
    (
        Cert,
        "postcopy-certificate 1\npages 1\npage 0 none\nruns 4194305\n",
        "the number of runs",
        "runs N",
        [1, 1, 2, 0, 4194304, 1, 0],
    ),
    (
        Cert,
        "postcopy-certificate 2\npages 1\npage 0 none\nruns 5242881\n",
        "the number of runs",
        "runs N",
        [1, 1, 2, 0, 5242880, 1, 0],
    ),
    (
        Cert,
        "postcopy-certificate 3\npages 16777217\n",
        "the number of pages",
        "pages N",
        [0, 0, 0, 1, 16777216, 0, 0],
    ),
    (
        Cert,
        "postcopy-certificate 3\npages 1\npage 0 none\nruns 671088641\n",
        "the number of runs",
        "runs N",
        [1, 1, 2, 0, 671088640, 1, 0],
    ),
    (
        Cert,
        "postcopy-certificate 3\npages 1\npage 0 none\nruns 1\nrun guest 134217729\n",
        "a run",
        "run guest N|run source N|run link N|run lane N|run pager N",
        [0, 1, 4, 1, 134217728, 1, 0],
    ),
    (
        Cert,
        "postcopy-certificate 1\npages 2\npage 0 none\npage 1 none\nruns 3\nrun guest 1\nrun lane 1\n",
        "a run",
        "run source N|run link N|run pager N",
        [1, 3, 5, 1, 1048576, 2, 0],
    ),
    (
        Cert,
        "postcopy-certificate 2\npages 2\npage 0 none\npage 1 none\nruns 3\nrun guest 1\nrun guest 1\n",
        "a run",
        "run source N|run link N|run lane N|run pager N",
        [1, 3, 5, 1, 1048576, 2, 0],
    ),
    (
        Cert,
        "postcopy-certificate 2\npages 2\npage 0 none\npage 1 none\nruns 1\nrun guest 1\nrun link 1\n",
        "the closing line",
        "end",
        [1, 1, 5, 0, 0, 2, 0],
    ),
    (
        Cert,
        "postcopy-certificate 2\npages 1\npage 0 none\nruns 0\nend\n\n",
        "nothing after the closing line",
        "",
        [0, 0, 0, 0, 0, 1, 0],
    ),
    (
        Runs,
        "postcopy-runs 2\n",
        "the header of a runs text",
        "postcopy-runs 1",
        [0, 0, 0, 0, 0, 0, 0],
    ),
    (
        Runs,
        "postcopy-runs 1\nruns 671088641\n",
        "the number of runs",
        "runs N",
        [0, 0, 0, 0, 671088640, 0, 0],
    ),
    (
        Runs,
        "postcopy-runs 1\nruns 2\nrun guest 1\nrun guest 1\n",
        "a run",
        "run source N|run link N|run lane N|run pager N",
        [1, 2, 2, 1, 134217728, 0, 0],
    ),
    (
        Runs,
        "postcopy-runs 1\nruns 1\nrun guest 1\nrun link 1\n",
        "the closing line",
        "end",
        [1, 1, 2, 0, 0, 0, 0],
    ),
    (
        Runs,
        "postcopy-runs 1\nruns 0\nend\nx",
        "nothing after the closing line",
        "",
        [0, 0, 0, 0, 0, 0, 0],
    ),
    (
        Script,
        "postcopy-scripts 1\n",
        "the header of a script",
        "postcopy-script 1|postcopy-script 2",
        [0, 0, 0, 0, 0, 0, 0],
    ),
    (
        Script,
        "postcopy-script 1\npages x\n",
        "the number of pages",
        "pages N",
        [0, 0, 0, 1, 65536, 0, 0],
    ),
    (
        Script,
        "postcopy-script 1\npages 2\ncells 0\n",
        "the number of cells",
        "cells N",
        [0, 0, 0, 1, 512, 2, 0],
    ),
    (
        Script,
        "postcopy-script 1\npages 2\ncells 1\ninit 3\n",
        "the number of initial pages",
        "init N",
        [0, 0, 0, 0, 2, 2, 1],
    ),
    (
        Script,
        "postcopy-script 1\npages 2\ncells 1\ninit 2\npage 0 0000000000000001\npage 0 0000000000000001\n",
        "an initial page",
        "page N HEX",
        [1, 2, 4, 1, 1, 2, 1],
    ),
    (
        Script,
        "postcopy-script 1\npages 2\ncells 1\ninit 1\npage 0 0000000000000001\npivots 17\n",
        "the number of pivots",
        "pivots N",
        [1, 1, 4, 1, 16, 2, 1],
    ),
    (
        Script,
        "postcopy-script 1\npages 2\ncells 1\ninit 0\npivots 1\nwindow 0\n",
        "the window",
        "window N",
        [0, 0, 0, 1, 65536, 2, 1],
    ),
    (
        Script,
        "postcopy-script 1\npages 2\ncells 1\ninit 0\npivots 1\nwindow 1\ndown x\n",
        "the fates on the way down",
        "down FATES",
        [0, 0, 0, 1, 4096, 2, 1],
    ),
    (
        Script,
        "postcopy-script 1\npages 2\ncells 1\ninit 0\npivots 1\nwindow 1\ndown d\nup \n",
        "the fates on the way up",
        "up FATES",
        [0, 0, 0, 1, 4096, 2, 1],
    ),
    (
        Script,
        "postcopy-script 2\npages 2\ncells 1\ninit 0\npivots 1\nwindow 1\ndown d\nup -\nlanes 3\n",
        "the number of links that go down",
        "lanes 1|lanes 2",
        [0, 0, 0, 0, 0, 2, 1],
    ),
    (
        Script,
        "postcopy-script 2\npages 2\ncells 1\ninit 0\npivots 1\nwindow 1\ndown d\nup -\nlanes 2\nlane 1\n",
        "the fates on the lane",
        "lane FATES",
        [0, 0, 0, 1, 4096, 2, 1],
    ),
    (
        Script,
        "postcopy-script 1\npages 2\ncells 1\ninit 0\npivots 1\nwindow 1\ndown -\nup -\nvcpus 65\n",
        "the number of virtual processors",
        "vcpus N",
        [0, 0, 0, 1, 64, 2, 1],
    ),
    (
        Script,
        "postcopy-script 1\npages 2\ncells 1\ninit 0\npivots 1\nwindow 1\ndown -\nup -\nvcpus 2\nvcpu 0\n",
        "the numbers of operations before and after the move of a virtual processor",
        "vcpu N N",
        [0, 2, 9, 0, 65536, 2, 1],
    ),
    (
        Script,
        "postcopy-script 2\npages 2\ncells 1\ninit 0\npivots 1\nwindow 1\ndown -\nup -\nlanes 2\nlane -\nvcpus 2\nvcpu 2 1\nz 0\nz 2\n",
        "an operation before the move",
        "r P C|w P C X|z P",
        [1, 2, 12, 0, 0, 2, 1],
    ),
    (
        Script,
        "postcopy-script 1\npages 2\ncells 1\ninit 1\npage 0 0000000000000001\npivots 1\nwindow 1\ndown -\nup -\nvcpus 3\nvcpu 1 2\nz 0\nr 0 0\nr 1 0\nvcpu 1 1\nz 0\nz 0\n",
        "an operation after the move",
        "r P C|w P C X",
        [0, 1, 15, 0, 0, 2, 1],
    ),
    (
        Script,
        "postcopy-script 2\npages 2\ncells 1\ninit 0\npivots 1\nwindow 1\ndown -\nup -\nlanes 1\nvcpus 3\nvcpu 1 2\nz 0\nr 0 0\nr 1 0\nr 1 0\n",
        "the numbers of operations before and after the move of a virtual processor",
        "vcpu N N",
        [1, 3, 10, 0, 65536, 2, 1],
    ),
    (
        Script,
        "postcopy-script 1\npages 2\ncells 1\ninit 0\npivots 1\nwindow 1\ndown -\nup -\nvcpus 1\nvcpu 0 1\nr 0 0\nr 0 0\n",
        "the closing line",
        "end",
        [1, 1, 9, 0, 0, 2, 1],
    ),
    (
        Script,
        "postcopy-script 1\npages 2\ncells 1\ninit 0\npivots 1\nwindow 1\ndown -\nup -\nvcpus 1\nvcpu 0 0\nend\nend\n",
        "nothing after the closing line",
        "",
        [0, 0, 0, 0, 0, 2, 1],
    ),
    (
        Events,
        "postcopy-events 2\n",
        "the header of events",
        "postcopy-events 1",
        [0, 0, 0, 0, 0, 0, 0],
    ),
    (
        Events,
        "postcopy-events 1\nevents 1048577\n",
        "the number of events",
        "events N",
        [0, 0, 0, 0, 1048576, 0, 0],
    ),
    (
        Events,
        "postcopy-events 1\nevents 3\nhalt\nguest 64\n",
        "an event",
        EVENT,
        [1, 3, 2, 0, 0, 0, 0],
    ),
    (
        Events,
        "postcopy-events 1\nevents 1\nhalt\npush\n",
        "the closing line",
        "end",
        [1, 1, 2, 0, 0, 0, 0],
    ),
    (
        Events,
        "postcopy-events 1\nevents 0\nend\nx",
        "nothing after the closing line",
        "",
        [0, 0, 0, 0, 0, 0, 0],
    ),
];

/// Texts that are refused, and what else holds of a line in one of the forms that are wanted there.
pub static RULES: [(Text, &str, &str); 10] = [
    (
        Session,
        "postcopy-session 2\npages 65537\n",
        "postcopy-session 3 has up to 16777216",
    ),
    (
        Cert,
        "postcopy-certificate 1\npages 65537\n",
        "postcopy-certificate 3 has up to 16777216",
    ),
    (
        Session,
        "postcopy-session 1\npages 65536\ncells 17\n",
        "the cells of all pages are at most 1,048,576",
    ),
    (
        Session,
        "postcopy-session 3\npages 16777216\ncells 2\n",
        "the cells of all pages are at most 16,777,216",
    ),
    (Session, "postcopy-session 3\npages 16777217\n", ""),
    (Cert, "postcopy-certificate 3\npages 16777217\n", ""),
    (
        Session,
        "postcopy-session 1\npages 1\ncells 1\ninit 1\npage 0 0000000000000000\n",
        "no page has contents of zeros alone",
    ),
    (
        Script,
        "postcopy-script 1\npages 2\ncells 1\ninit 2\npage 1 0000000000000001\n",
        "no page has contents of zeros alone",
    ),
    (
        Runs,
        "postcopy-runs 1\nruns 2\nrun lane 1\nrun lane 1\n",
        "two runs in a row take from different logs",
    ),
    (Events, "postcopy-events 1\nevents 1\nhalts\n", ""),
];
