// smallest.rs: both sides of a migration of one page. The page is recorded as one hash.
use std::ffi::{c_char, CString};

#[repr(C)]
struct Log([u8; 0]); // postcopy_log. A pointer to one may go to other threads

extern "C" {
    fn postcopy_log_open(folder: *const c_char, party: *const c_char, first: u32) -> *mut Log;
    fn postcopy_log_close(log: *mut Log);
    fn postcopy_log_hand_over(log: *mut Log) -> u32;
    fn postcopy_page_hash(page: *const u8, length: usize) -> u64;
    fn postcopy_record_machine(machine: *mut Log, pages: u32, cells: u32) -> u32;
    fn postcopy_record_initial(machine: *mut Log, page: u32, contents: *const u64, cells: usize) -> u32;
    fn postcopy_record_halt(guest: *mut Log) -> u32;
    fn postcopy_record_resume(guest: *mut Log, ready: u32) -> u32;
    fn postcopy_record_see(guest: *mut Log, placement: u32) -> u32;
    fn postcopy_record_read(guest: *mut Log, vcpu: u32, page: u32, cell: u32, value: u64) -> u32;
    fn postcopy_record_halted(source: *mut Log, halt: u32) -> u32;
    fn postcopy_record_state(source: *mut Log) -> u32;
    fn postcopy_record_send(source: *mut Log, page: u32, contents: *const u64, cells: usize) -> u32;
    fn postcopy_record_ask_sent(source: *mut Log, sent: u32) -> u32;
    fn postcopy_record_done(source: *mut Log) -> u32;
    fn postcopy_record_got_sent(pager: *mut Log, sent: u32) -> u32;
    fn postcopy_record_ready(pager: *mut Log) -> u32;
    fn postcopy_record_place(pager: *mut Log, page: u32, got: u32, contents: *const u64, cells: usize) -> u32;
    fn postcopy_record_all(pager: *mut Log) -> u32;
}

/// Opens the log of a party. (If this fails, the answer is a null pointer, which would record nothing.)
fn open(folder: &str, party: &str, first: u32) -> *mut Log {
    let [folder, party] = [folder, party].map(|name| CString::new(name).expect("a name without zero bytes"));
    let log = unsafe { postcopy_log_open(folder.as_ptr(), party.as_ptr(), first) };
    assert!(!log.is_null(), "{folder:?}: {}", std::io::Error::last_os_error());
    log
}

fn main() {
    let folder = std::env::args().nth(1).unwrap_or("recording".into());
    let [machine, guest, source, pager] = ["machine", "guest", "source", "pager"].map(|party| open(&folder, party, 0));
    let page = [7u8; 4096];
    unsafe {
        let hash = postcopy_page_hash(page.as_ptr(), page.len());
        postcopy_record_machine(machine, 1, 1); // one page of one cell
        postcopy_record_initial(machine, 0, &hash, 1);
        postcopy_record_halted(source, postcopy_record_halt(guest));
        let first = postcopy_log_hand_over(guest); // travels with the state, as the number of its record does
        let state = postcopy_record_state(source);

        let guest = open(&folder, "guest", first); // at the target: the log goes on
        postcopy_record_got_sent(pager, state);
        postcopy_record_resume(guest, postcopy_record_ready(pager));
        let sent = postcopy_record_send(source, 0, &hash, 1);
        let got = postcopy_record_got_sent(pager, sent);
        postcopy_record_see(guest, postcopy_record_place(pager, 0, got, &hash, 1));
        postcopy_record_read(guest, 0, 0, 0, hash);
        postcopy_record_ask_sent(source, postcopy_record_all(pager));
        postcopy_record_done(source);
        for log in [machine, guest, source, pager] {
            postcopy_log_close(log);
        }
    }
}
