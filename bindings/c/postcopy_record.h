/* Records what the parties of your own migration do, for `postcopy audit`. `man 5 postcopy` describes the records.
   Compile postcopy_record.c with the program, with -pthread.

   Each party has a log, which is open in the process that acts for the party. A call appends one record and returns its
   number. Send the number with the message; the receiver names it in a record of its own. The order of a log is the order of
   its calls, so make the call in the critical section of the act that it records. Calls on one log need no lock of their own:
   its numbers come from an atomic counter, and each thread writes to its own file. So a record is in the file when its call
   returns, and stays there however the process ends. (It can be lost if the machine fails.)

   A folder holds one recording: give each run a folder of its own. `postcopy-session FOLDER..` makes the session from the
   files, and says what is missing. So close each log when its party has finished, or hand it over.

   The recorder never ends a process. If a record cannot be written, the call returns POSTCOPY_LOST, the log ends there for all
   threads, and postcopy_log_error says why. EFBIG means that the process has reached its limit on files; it raises no SIGXFSZ.
   A full disk raises no SIGBUS: a file is mapped if its file system is known to keep the space that it gave (ext2 to ext4, tmpfs),
   and otherwise each record is written by a system call. (If somebody else truncates a mapped file, the next record does.)
   EBADF means that the program has closed a descriptor of the log, as closefrom(3) does. Whatever has its number then is left alone.

   A log that is NULL records nothing, and all its calls return POSTCOPY_LOST. So do calls on a log in a forked
   child: a child opens its own logs. The log's last line then tells that a record was not written (EPERM), also if the parent has
   closed it, so that the recording counts as one that is not whole. A signal handler may not call where it may interrupt another
   call of its thread on the log.

   These files are for C. A program in C++ includes the header, and links what a compiler for C makes of postcopy_record.c. */
#ifndef POSTCOPY_RECORD_H
#define POSTCOPY_RECORD_H

#include <stddef.h>
#include <stdint.h>

#ifdef __cplusplus
extern "C" {
#endif

typedef struct postcopy_log postcopy_log;

/* Not a number: the record was not written. You can send it in place of a number: postcopy-session reports the record that names
   it. */
#define POSTCOPY_LOST UINT32_MAX

/* Opens the log of a party, "guest", "source", "link", "lane" or "pager", or "machine" for the first three calls below. Its
   files are made in the folder, which is made if it does not exist. `first` is the number of the first record: 0, or if another
   process handed the log over (the guest's, after the halt) what postcopy_log_hand_over returned there. Returns NULL, with errno,
   if it fails: EINVAL if there is no such party, or `first` is POSTCOPY_LOST; EBADMSG if the folder's file recording-name does not
   contain a name, or is no file; ELOOP if it is a link. */
postcopy_log *postcopy_log_open(const char *folder, const char *party, uint32_t first);

/* Returns why a record of the log was not written, or can be no more (EBADF): an errno, or 0 if all were. */
int postcopy_log_error(const postcopy_log *log);

/* Closes the log. Nobody may use it meanwhile or later. Its files then say how many records it has. Without this no record is
   lost, but nobody can know that they are all, and the recording counts as one that is not whole. */
void postcopy_log_close(postcopy_log *log);

/* Closes the log like postcopy_log_close, so that another process can go on with it. Returns the number with which that process
   opens it, or POSTCOPY_LOST if a record was lost, because then nobody can go on. (What a forked child could not record took no
   number.) */
uint32_t postcopy_log_hand_over(postcopy_log *log);

/* Returns the recording's name: letters, digits, `-`, `_` and `.`, at most POSTCOPY_NAME_SIZE bytes with the final 0. The first
   log that is opened in a folder makes one at random. The name is valid while the log is open. For a log that is NULL it is
   empty. */
#define POSTCOPY_NAME_SIZE 65
const char *postcopy_log_recording(const postcopy_log *log);

/* Makes a folder part of the recording with this name. Call it on another machine, before the first log is opened there. Returns
   0, or -1 with errno: EEXIST if the folder has another name, EINVAL if this is not a name. */
int postcopy_recording_join(const char *folder, const char *recording);

/* The machine: the number of pages, and of 64-bit cells in each; and the initial contents of a page that does not begin as
   zeros. If the lane has a log, the second call replaces the first, so that nobody can lose that log unseen. */
uint32_t postcopy_record_machine(postcopy_log *machine, uint32_t pages, uint32_t cells);
uint32_t postcopy_record_machine_with_lane(postcopy_log *machine, uint32_t pages, uint32_t cells);
uint32_t postcopy_record_initial(postcopy_log *machine, uint32_t page, const uint64_t *contents, size_t cells);

/* The guest. A vcpu is 0 to 63. `ready` and `placement` are numbers from the pager's log. */
uint32_t postcopy_record_read(postcopy_log *guest, uint32_t vcpu, uint32_t page, uint32_t cell, uint64_t value);
uint32_t postcopy_record_write(postcopy_log *guest, uint32_t vcpu, uint32_t page, uint32_t cell, uint64_t value);
uint32_t postcopy_record_release(postcopy_log *guest, uint32_t vcpu, uint32_t page);
uint32_t postcopy_record_miss(postcopy_log *guest, uint32_t vcpu, uint32_t page);
uint32_t postcopy_record_halt(postcopy_log *guest);
uint32_t postcopy_record_resume(postcopy_log *guest, uint32_t ready);
uint32_t postcopy_record_see(postcopy_log *guest, uint32_t placement);

/* The guest looks at the newest placement, and reads each cell of each page that has come. For each page, `contents` puts its cells
   into `values` and returns 1, or returns 0 if the page has not come. Call it once, at the end, while the guest stands still: so a lost
   write that nobody else reads is found. Returns the number of the last record. */
uint32_t postcopy_record_read_all(postcopy_log *guest, uint32_t vcpu, uint32_t placement, uint32_t pages, size_t cells,
                                  int (*contents)(void *context, uint32_t page, uint64_t *values), void *context);

/* The source. `halt` is a number from the guest's log, `up` from the link's, and `sent` that of its own earlier state or send.
   With `back` it starts its guest again; this must be the last record of the log. */
uint32_t postcopy_record_halted(postcopy_log *source, uint32_t halt);
uint32_t postcopy_record_state(postcopy_log *source);
uint32_t postcopy_record_send(postcopy_log *source, uint32_t page, const uint64_t *contents, size_t cells);
uint32_t postcopy_record_again(postcopy_log *source, uint32_t sent);
uint32_t postcopy_record_ask(postcopy_log *source, uint32_t up);
uint32_t postcopy_record_done(postcopy_log *source);
uint32_t postcopy_record_back(postcopy_log *source);

/* The link and the lane. `sent` is a number from the source's log, or for `up` from the pager's. */
uint32_t postcopy_record_down(postcopy_log *link_or_lane, uint32_t sent);
uint32_t postcopy_record_up(postcopy_log *link, uint32_t sent);

/* The pager. `down` is a number from the link's or the lane's log, `miss` from the guest's; the others are from its own. */
uint32_t postcopy_record_got(postcopy_log *pager, uint32_t down);
uint32_t postcopy_record_pull(postcopy_log *pager, uint32_t down);
uint32_t postcopy_record_ready(postcopy_log *pager);
uint32_t postcopy_record_fault(postcopy_log *pager, uint32_t miss);
uint32_t postcopy_record_join(postcopy_log *pager, uint32_t want);
uint32_t postcopy_record_want(postcopy_log *pager, uint32_t page);
uint32_t postcopy_record_place(postcopy_log *pager, uint32_t page, uint32_t got, const uint64_t *contents, size_t cells);
uint32_t postcopy_record_zero(postcopy_log *pager, uint32_t page);
uint32_t postcopy_record_skip(postcopy_log *pager, uint32_t got);
uint32_t postcopy_record_all(postcopy_log *pager);

/* These replace `got`, `pull` and `ask` if nobody writes a log of the link or the lane, as over a plain connection. `sent` is the
   number that came with the message: from the source's log, or for an ask from the pager's. postcopy-session makes the logs of
   the link and the lane from these. */
uint32_t postcopy_record_got_sent(postcopy_log *pager, uint32_t sent);
uint32_t postcopy_record_pull_sent(postcopy_log *pager, uint32_t sent);
uint32_t postcopy_record_ask_sent(postcopy_log *source, uint32_t sent);

/* Returns a page's contents as one cell: 0 if all bytes are 0, and otherwise a hash. If the length is no multiple of 8, bytes 0
   count behind it, up to one. Two pages that differ in only one word have different hashes. The hash does not resist an attacker,
   who can make two pages with the same one. */
uint64_t postcopy_page_hash(const void *page, size_t length);

#ifdef __cplusplus
}
#endif

#endif
