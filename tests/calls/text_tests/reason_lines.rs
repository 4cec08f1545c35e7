//! Lines that are refused, and what is to be said of each. The sentences are written by hand, by the rules of the formats.

use crate::reasons::At;

/// A line that is refused: what may stand there, its number, its bytes, and what is said of it behind the text's name and
/// the number.
#[derive(Clone, Copy)]
pub struct Case(pub At, pub u32, pub &'static [u8], pub &'static str);

/// Lines that are refused at one place: what may stand there, their number, and then each line with what is said of it below
/// it.
pub struct Group(pub At, pub u32, pub &'static str);

/// Lines of plain words.
pub static WORDS: [Group; 23] = [
    Group(
        At::Guest,
        15,
        r#"source 5
1: found "source 5"; expected a record of the guest, the 9th of 9 that line 6 promises
"#,
    ),
    Group(
        At::EleventhOfGuest,
        17,
        r#"done
1: found "done"; expected a record of the guest, the 11th of 21 that line 6 promises
"#,
    ),
    Group(
        At::Guest,
        9,
        r#"w 0 64 0 5
5: found "64" in "w 0 64 0 5"; expected P, a page from 0 to 63, as in "w V P C X"
w 64 0 0 5
3: found "64" in "w 64 0 0 5"; expected V, a virtual processor from 0 to 63, as in "w V P C X"
r 0 63 2 5
8: found "2" in "r 0 63 2 5"; expected C, a cell from 0 to 1, as in "r V P C X"
w 0 3 0
8: found the end of the line after "w 0 3 0"; expected X, a value from 0 to 18446744073709551615, as in "w V P C X"
w 0 3 0 18446744073709551616
9: found "18446744073709551616" in "w 0 3 0 18446744073709551616"; expected X, a value from 0 to 18446744073709551615, as in "w V P C X"
w 0 3 0 +5
9: found "+5" in "w 0 3 0 +5"; expected X, a value from 0 to 18446744073709551615, as in "w V P C X"; a number has no sign
w 0 3 0 -5
9: found "-5" in "w 0 3 0 -5"; expected X, a value from 0 to 18446744073709551615, as in "w V P C X"; a number has no sign
w 0 3 0 0x1f
9: found "0x1f" in "w 0 3 0 0x1f"; expected X, a value from 0 to 18446744073709551615, as in "w V P C X"; numbers are decimal
w 0 3 0 0X1F
9: found "0X1F" in "w 0 3 0 0X1F"; expected X, a value from 0 to 18446744073709551615, as in "w V P C X"; numbers are decimal
w 0 03 0 5
5: found "03" in "w 0 03 0 5"; expected P, a page from 0 to 63, as in "w V P C X"; a number has no leading zero
w 0 00 0 5
5: found "00" in "w 0 00 0 5"; expected P, a page from 0 to 63, as in "w V P C X"; a number has no leading zero
w 0 three 0 5
5: found "three" in "w 0 three 0 5"; expected P, a page from 0 to 63, as in "w V P C X"
w  0 3 0 5
3: found a second space in "w  0 3 0 5"; expected V, a virtual processor from 0 to 63, as in "w V P C X"; words are separated by one space
see 1048576
5: found "1048576"; expected I, the number of a record from 0 to 1048575, as in "see I"
"#,
    ),
    Group(
        At::LargeLogs,
        9,
        r#"see 134217728
5: found "134217728"; expected I, the number of a record from 0 to 134217727, as in "see I"
"#,
    ),
    Group(
        At::SmallestPage,
        7,
        r#"z 0 1
5: found "1" in "z 0 1"; expected P, a page, here only 0, as in "z V P"
"#,
    ),
    Group(
        At::Source,
        12,
        r#"state 5
6: found " 5" after "state"; expected the end of the line
send 3 000000000000000000000000000000
8: found "000000000000000000000000000000" in "send 3 000000000000000000000000000000"; expected HEX, 32 digits for 2 cells, each 0 to 9 or a to f, as in "send P HEX"; these are 30
send 3 000000000000000000000000000000A0
38: found "A" in "send 3 000000000000000000000000000000A0"; expected HEX, 32 digits for 2 cells, each 0 to 9 or a to f, as in "send P HEX"; contents are written in lower case
send 3 ABCDEF00000000000000000000000000
8: found "ABCDEF00000000000000000000000000" in "send 3 ABCDEF00000000000000000000000000"; expected HEX, 32 digits for 2 cells, each 0 to 9 or a to f, as in "send P HEX"; contents are written in lower case
send 3 0x00000000000000010000000000000002
8: found "0x00000000000000010000000000000002" in "send 3 0x00000000000000010000000000000002"; expected HEX, 32 digits for 2 cells, each 0 to 9 or a to f, as in "send P HEX"; contents have no 0x
send 3 00g00000000000000000000000000000
10: found "g" in "send 3 00g00000000000000000000000000000"; expected HEX, 32 digits for 2 cells, each 0 to 9 or a to f, as in "send P HEX"
send 3 0123456789abcdeffedcba987654321g
39: found "g" in "send 3 0123456789abcdeffedcba987654321g"; expected HEX, 32 digits for 2 cells, each 0 to 9 or a to f, as in "send P HEX"
send 3 0000000000000000000000000000000000000000000000000000000000000000
8: found "000000000000000000000000000000000000000000000000000000000000".. in "send 3 00000000000000000000000000000000000000000000000000000"..; expected HEX, 32 digits for 2 cells, each 0 to 9 or a to f, as in "send P HEX"; these are 64
"#,
    ),
    Group(
        At::LaneCount,
        24,
        r#"got 5
1: found "got 5"; expected "lane N", the number of the lane's records: all 4 that line 6 promises are there
lane 1048577
6: found "1048577"; expected N, a number from 0 to 1048576, as in "lane N"
"#,
    ),
    Group(
        At::LaneCountAfterOne,
        24,
        r#"down 5
1: found "down 5"; expected "lane N", the number of the lane's records: the one that line 6 promises is there
"#,
    ),
    Group(
        At::LaneCountAfterNone,
        24,
        r#"down 5
1: found "down 5"; expected "lane N", the number of the lane's records: line 6 promises none
"#,
    ),
    Group(
        At::Pages,
        2,
        r#"pages 1048576
7: found "1048576"; expected N, a number from 1 to 65536, as in "pages N"; postcopy-session 3 has up to 16777216; of a larger machine a window can be recorded: see RECORDING
pages 0
7: found "0"; expected N, a number from 1 to 65536, as in "pages N"
page 5
1: found "page 5"; expected "pages N", the number of pages
"#,
    ),
    Group(
        At::InitialPage,
        6,
        r#"page 0 00000000000000000000000000000000
6: found "0" in "page 0 00000000000000000000000000000000"; expected N, a number from 3 to 7, as in "page N HEX"
page 3 00000000000000000000000000000000
1: found "page 3 00000000000000000000000000000000"; expected an initial page, the 2nd of 2 that line 6 promises: no page has contents of zeros alone
"#,
    ),
    Group(
        At::Run,
        4,
        r#"run gast 1
5: found "gast" in "run gast 1"; expected "source", "link" or "pager", as in "run source N"; two runs in a row take from different logs
run guest 1
5: found "guest" in "run guest 1"; expected "source", "link" or "pager", as in "run source N"; two runs in a row take from different logs
run link 10
10: found "10" in "run link 10"; expected N, a number from 1 to 9, as in "run link N"
"#,
    ),
    Group(
        At::Closed,
        31,
        r#"x
1: found "x"; expected nothing after the closing line
"#,
    ),
    Group(
        At::Entry,
        6,
        r#"page 4 none
6: found "4" in "page 4 none"; expected Q, the number 3, as in "page Q none"
page 3 sorce 1 2 3 4
8: found "sorce" in "page 3 sorce 1 2 3 4"; expected "none", "source" or "balloon", as in "page Q none"
page 3 source 1 2 x -
19: found "x" in "page 3 source 1 2 x -"; expected I, the number of a record from 0 to 1048575 or "-", as in "page Q source I I I I"
page 3 source 1 2 - 4
21: found "4" in "page 3 source 1 2 - 4"; expected "-", as in "page Q source I I - -"
"#,
    ),
    Group(
        At::Lanes,
        8,
        r#"lanes  2
7: found a second space in "lanes  2"; expected "lanes 1" or "lanes 2"; words are separated by one space
lanes 3
1: found "lanes 3"; expected "lanes 1" or "lanes 2"
"#,
    ),
    Group(
        At::Link,
        3,
        r#"link dwn deliver
6: found "dwn" in "link dwn deliver"; expected "down", "up" or "lane", as in "link down FATE"
link  up deliver
6: found a second space in "link  up deliver"; expected "down", "up" or "lane", as in "link down FATE"; words are separated by one space
link up dropped
9: found "dropped" in "link up dropped"; expected FATE, the fate of a packet, deliver, lose, repeat or back, as in "link up FATE"
"#,
    ),
    Group(
        At::Down,
        9,
        r#"down dlxb
8: found "x" in "down dlxb"; expected FATES, the fates of packets, - or 1 to 4096 letters of d, l, r and b, as in "down FATES"
"#,
    ),
    Group(
        At::Unknown,
        9,
        r#"x
1: found "x"; expected another line
"#,
    ),
    Group(
        At::SessionHead,
        1,
        r#"postcopy-session 4
1: found "postcopy-session 4"; expected "postcopy-session 1", "postcopy-session 2" or "postcopy-session 3"
hello
1: found "hello"; expected "postcopy-session 1", "postcopy-session 2" or "postcopy-session 3", the header of a session
postcopy-certificate 1
1: this is a certificate; expected a session: are the two files swapped?
clean
1: this is a report of audit; expected a session
"#,
    ),
    Group(
        At::CertHead,
        1,
        r#"shape line 9 phases
1: this is a report of audit; expected a certificate
incomplete page 3
1: this is a report of audit; expected a certificate
session-text line 1
1: this is a report of audit; expected a certificate
postcopy-session 2
1: this is a session; expected a certificate: are the two files swapped?
clean
1: this is a report of audit; expected a certificate, which stands below its first line
BZh91AY
1: this is a bzip2 file; unpack it first
"#,
    ),
    Group(
        At::EventsHead,
        1,
        r#"postcopy-script 1
1: this is a script; expected a list of events: are the two files swapped?
"#,
    ),
    Group(
        At::OrderHead,
        1,
        r#"postcopy-certificate 4
1: found "postcopy-certificate 4"; expected "postcopy-certificate 1", "postcopy-certificate 2" or "postcopy-certificate 3"
postcopy-runs 2
1: found "postcopy-runs 2"; expected "postcopy-runs 1"
postcopy-session 2
1: this is a session; expected a text of runs: are the two files swapped?
faulty line 9 late
15: found "late" in "faulty line 9 late"; expected "read" or "over", as in "faulty line N read"
faulty line 0 read
13: found "0" in "faulty line 0 read"; expected N, a number from 1 to 4294967295, as in "faulty line N read"
knot line 9
1: this is a report of audit; expected a text of runs
hello
1: found "hello"; expected the first line of an order
"#,
    ),
    Group(
        At::RunsHead,
        1,
        r#"faulty line 9 read
1: this is a report of audit; expected a text of runs, which stands below its first line
knot line 9
1: this is a report of audit; expected a text of runs
"#,
    ),
];

/// Lines of other bytes, and with spaces at an end.
pub static BYTES: [Case; 18] = [
    Case(
        At::ThirdOfGuest,
        9,
        b"",
        r#"1: found an empty line; expected a record of the guest, the 3rd of 9 that line 6 promises"#,
    ),
    Case(
        At::Guest,
        9,
        b"w 0 3 0 ",
        r#"9: found the end of the line after "w 0 3 0 "; expected X, a value from 0 to 18446744073709551615, as in "w V P C X""#,
    ),
    Case(
        At::Guest,
        9,
        b"w 0\t3 0 5",
        r#"3: found "0\x093" in "w 0\x093 0 5"; expected V, a virtual processor from 0 to 63, as in "w V P C X"; words are separated by one space"#,
    ),
    Case(
        At::Guest,
        9,
        b"w\t0\t3\t0\t5",
        r#"1: found "w\x090\x093\x090\x095"; expected a record of the guest, the 9th of 9 that line 6 promises; words are separated by one space"#,
    ),
    Case(
        At::Guest,
        9,
        b" w 0 3 0 5",
        r#"1: found " w 0 3 0 5"; expected a record of the guest, the 9th of 9 that line 6 promises; words are separated by one space"#,
    ),
    Case(
        At::Guest,
        9,
        b"gel\xc3\xb6scht",
        r#"1: found "gel\xc3\xb6scht"; expected a record of the guest, the 9th of 9 that line 6 promises"#,
    ),
    Case(
        At::Source,
        12,
        b"state ",
        r#"6: found " " after "state"; expected the end of the line"#,
    ),
    Case(
        At::End,
        30,
        b"end ",
        r#"4: found " " after "end"; expected the end of the line"#,
    ),
    Case(
        At::SessionHead,
        1,
        b"\xef\xbb\xbfpostcopy-session 1",
        r#"1: found a byte order mark; texts are ASCII and have none"#,
    ),
    Case(
        At::SessionHead,
        1,
        b"\xff\xfep\0o\0",
        r#"1: this is UTF-16; texts are ASCII, a byte for each character"#,
    ),
    Case(
        At::SessionHead,
        1,
        b"\xfe\xff\0p\0o",
        r#"1: this is UTF-16; texts are ASCII, a byte for each character"#,
    ),
    Case(
        At::SessionHead,
        1,
        b"\x1f\x8b\x08\0",
        r#"1: this is a gzip file; unpack it first"#,
    ),
    Case(
        At::SessionHead,
        1,
        b"\x28\xb5\x2f\xfd\x04",
        r#"1: this is a zstd file; unpack it first"#,
    ),
    Case(
        At::CertHead,
        1,
        b"\xfd\x37\x7a\x58\x5a\0\0",
        r#"1: this is an xz file; unpack it first"#,
    ),
    Case(
        At::CertHead,
        1,
        b"PK\x03\x04",
        r#"1: this is a zip file; unpack it first"#,
    ),
    Case(
        At::SessionHead,
        1,
        b"postcopy-records 1",
        r#"1: this is one file of a recording; name its folder, or make a session of that (postcopy session FOLDER)"#,
    ),
    Case(
        At::CertHead,
        1,
        b"postcopy-records 1",
        r#"1: this is one file of a recording; expected a certificate"#,
    ),
    Case(
        At::Guest,
        9,
        b"w 0 3 0 5\r",
        r#"10: found a carriage return at the end of the line; lines end with a line feed alone (dos2unix mends a file)"#,
    ),
];

/// Lines at which the text ends, with no line feed.
pub static LAST: [Case; 17] = [
    Case(
        At::ThirdOfGuest,
        30,
        b"",
        r#"1: the text ends here; expected a record of the guest, the 3rd of 9 that line 6 promises"#,
    ),
    Case(
        At::SessionHead,
        1,
        b"",
        r#"1: the text is empty; expected "postcopy-session 1", "postcopy-session 2" or "postcopy-session 3", the header of a session"#,
    ),
    Case(
        At::End,
        30,
        b"end",
        r#"4: the text ends in the middle of a line; expected a line feed after "end""#,
    ),
    Case(
        At::Guest,
        9,
        b"see 5",
        r#"6: the text ends in the middle of a line; expected a line feed after "see 5""#,
    ),
    Case(
        At::Guest,
        9,
        b"w 0 3",
        r#"6: the text ends in the middle of a line, after "w 0 3"; expected C, a cell from 0 to 1, as in "w V P C X""#,
    ),
    Case(
        At::Guest,
        9,
        b"w 0 64",
        r#"5: found "64" in "w 0 64"; expected P, a page from 0 to 63, as in "w V P C X""#,
    ),
    Case(
        At::Closed,
        31,
        b"x",
        r#"1: found "x"; expected nothing after the closing line"#,
    ),
    Case(
        At::Guest,
        9,
        b"en",
        r#"1: found "en"; expected a record of the guest, the 9th of 9 that line 6 promises"#,
    ),
    Case(
        At::Source,
        12,
        b"send 3 0000",
        r#"12: the text ends in the middle of a line, after "send 3 0000"; expected HEX, 32 digits for 2 cells, each 0 to 9 or a to f, as in "send P HEX""#,
    ),
    Case(
        At::Source,
        12,
        b"send 3 0000000000000000000000000000000",
        r#"39: the text ends in the middle of a line, after "send 3 0000000000000000000000000000000"; expected HEX, 32 digits for 2 cells, each 0 to 9 or a to f, as in "send P HEX""#,
    ),
    Case(
        At::Source,
        12,
        b"send 3 00A",
        r#"10: found "A" in "send 3 00A"; expected HEX, 32 digits for 2 cells, each 0 to 9 or a to f, as in "send P HEX"; contents are written in lower case"#,
    ),
    Case(
        At::Source,
        12,
        b"sta",
        r#"4: the text ends in the middle of a line, after "sta"; expected "state""#,
    ),
    Case(
        At::Source,
        12,
        b"s",
        r#"2: the text ends in the middle of a line, after "s"; expected "state" or "send P HEX""#,
    ),
    Case(
        At::Guest,
        9,
        b"se",
        r#"3: the text ends in the middle of a line, after "se"; expected "see", as in "see I""#,
    ),
    Case(
        At::End,
        30,
        b"en",
        r#"3: the text ends in the middle of a line, after "en"; expected "end""#,
    ),
    Case(
        At::Link,
        3,
        b"link up del",
        r#"12: the text ends in the middle of a line, after "link up del"; expected FATE, the fate of a packet, deliver, lose, repeat or back, as in "link up FATE""#,
    ),
    Case(
        At::SessionHead,
        1,
        b"postcopy-ses",
        r#"13: the text ends in the middle of a line, after "postcopy-ses"; expected "postcopy-session 1", "postcopy-session 2" or "postcopy-session 3""#,
    ),
];

/// Lines with all that is said of them.
pub static IN_FULL: [Case; 7] = [
    Case(
        At::Guest,
        9,
        b"w 0 64 0 5",
        r#"session:9:5: found "64" in "w 0 64 0 5"; expected P, a page from 0 to 63, as in "w V P C X"
  w 0 64 0 5
      ^
one of:
  r V P C X
  w V P C X
  z V P
  miss V P
  halt
  resume I
  see I
V is a virtual processor from 0 to 63
P is a page from 0 to 63
C is a cell from 0 to 1
X is a value from 0 to 18446744073709551615
I is the number of a record from 0 to 1048575
"#,
    ),
    Case(
        At::End,
        30,
        b"x\xff",
        r#"session:30:1: found "x\xff"; expected "end", the closing line
  x\xff
  ^
its form:
  end
"#,
    ),
    Case(
        At::Closed,
        31,
        b"",
        r#"session:31:1: found an empty line; expected nothing after the closing line
"#,
    ),
    Case(
        At::SessionHead,
        1,
        b"\x1f\x8b",
        r#"session:1:1: this is a gzip file; unpack it first
  \x1f\x8b
  ^
"#,
    ),
    Case(
        At::Guest,
        9,
        b"\xc3\xb6\r",
        r#"session:9:3: found a carriage return at the end of the line; lines end with a line feed alone (dos2unix mends a file)
  \xc3\xb6\x0d
          ^
"#,
    ),
    Case(
        At::BigContents,
        12,
        b"send 3 11111111111111111111111111111111111111111111111111111111111111111111111111111111111111111111111111111111111111111111111111111111111111111111111111111111111111111111111111111111111111111111111111111111111111111111111111111111111111111111111111111111111111111111111111111111111111111111111111111111111A22222222222222222222222222222222222222222222222222222222222222222222222222222222222222222222222222222222222222222222222222222222222222222222222222222222222222222222222222222222222222222222222222222222222222222222",
        r#"session:12:307: found "A" in "send 3 11111111111111111111111111111111111111111111111111111"..; expected HEX, 512 digits for 32 cells, each 0 to 9 or a to f, as in "send P HEX"; contents are written in lower case
  ..11111111111111111111A2222222222222222222222222222222222222222222222222222222222222222222222222..
                        ^
its form:
  send P HEX
P is a page from 0 to 63
HEX is 512 digits for 32 cells, each 0 to 9 or a to f
"#,
    ),
    Case(
        At::BigContents,
        12,
        b"send 3 1111111111111111111111111111111111111111111111111111111111111111111111111111111111111111A",
        r#"session:12:96: found "A" in "send 3 11111111111111111111111111111111111111111111111111111"..; expected HEX, 512 digits for 32 cells, each 0 to 9 or a to f, as in "send P HEX"; contents are written in lower case
  send 3 1111111111111111111111111111111111111111111111111111111111111111111111111111111111111111A
                                                                                                 ^
its form:
  send P HEX
P is a page from 0 to 63
HEX is 512 digits for 32 cells, each 0 to 9 or a to f
"#,
    ),
];
