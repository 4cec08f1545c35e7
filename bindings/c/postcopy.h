/* The proved checker and auditor of recorded live migrations, for C and any language that can call C.
   The man page postcopy(1) says what each answer means and what is proved; postcopy(5) describes the texts.
   Link with -lpostcopy. */
#ifndef POSTCOPY_H
#define POSTCOPY_H

#include <stddef.h>
#include <stdint.h>

#ifdef __cplusplus
extern "C" {
#endif

/* The version of this header: 10,000 times its first number, plus 100 times its second, plus its third. */
#define POSTCOPY_VERSION 10100

/* Which answer it is. No answer has the number 0. The word before a colon says which calls give the answer: check, replay,
   why and answers stand for the call of that name, missing for postcopy_missing and postcopy_missing_pages, and report for
   all calls that write a text about a session. If there is no such word, several kinds of calls give the answer. */
enum postcopy_kind {
    POSTCOPY_YES = 1,          /* check: the certificate is right, and every merging of the session is safe */
    POSTCOPY_CLEAN = 2,        /* report: every merging of the session is safe */
    POSTCOPY_SESSION_TEXT = 3, /* the session's text is refused at `line` */
    POSTCOPY_CERT_TEXT = 4,    /* check: the certificate's text is refused at `line` */
    POSTCOPY_SHAPE = 5,        /* the session does not have the right shape: the fault at `line`, for `reason` */
    POSTCOPY_PAGES = 6,        /* check: the session and the certificate have different numbers of pages */
    POSTCOPY_RUNS = 7,         /* check: the run at `line` of the certificate is the first that cannot be taken */
    POSTCOPY_PAGE = 8,         /* check: the entry at `line` of the certificate is the first that is not right */
    POSTCOPY_KNOT = 9,         /* report: the session's logs have no merging, because of the record at `line` */
    POSTCOPY_FAULTY = 10,      /* report: the session is not safe: the fault at `line`, for `reason` */
    POSTCOPY_NO_MEMORY = 11,   /* memory ran out, and nothing is said about the texts */
    POSTCOPY_SAFE = 12,        /* replay: in this one order the demand of each record holds; other orders may go wrong */
    POSTCOPY_RUNS_TEXT = 13,   /* replay: the text of the order is refused at `line` */
    POSTCOPY_NO_MERGING = 14,  /* replay: the runs spell no merging of the session */
    POSTCOPY_BROKEN = 15,      /* replay: in this order the record at `line` is the first whose demand fails */
    POSTCOPY_READ = 16,        /* why: no line of the text is refused */
    POSTCOPY_INCOMPLETE = 17,  /* missing: every merging of the session is safe, but the session is not complete */
    POSTCOPY_NO_QUESTION = 18  /* answers: the number of a question is not in enum postcopy_asks */
};

/* The reason: one of the first five for POSTCOPY_SHAPE, one of the others for POSTCOPY_FAULTY. 0 is no reason. */
enum postcopy_reason {
    POSTCOPY_REASON_PHASES = 1,
    POSTCOPY_REASON_NAMED = 2,
    POSTCOPY_REASON_START = 3,
    POSTCOPY_REASON_SECOND_SEND = 4,
    POSTCOPY_REASON_BOTH = 5,
    POSTCOPY_REASON_READ = 11,
    POSTCOPY_REASON_EARLY = 12,
    POSTCOPY_REASON_GIVEN = 13,
    POSTCOPY_REASON_STALE = 14,
    POSTCOPY_REASON_TWICE = 15,
    POSTCOPY_REASON_ALTERED = 16,
    POSTCOPY_REASON_UNFIT = 17,
    POSTCOPY_REASON_OVER = 18
};

typedef struct {
    uint32_t kind;   /* of enum postcopy_kind */
    uint32_t line;   /* the line of the text that the answer names, counted from 1, or 0 */
    uint32_t reason; /* of enum postcopy_reason, or 0 */
    size_t text_len; /* the length of the answer's text in bytes, whether or not it fits into the room; 0 for check and replay */
} postcopy_answer;

/* Why a text is refused. */
typedef struct {
    uint32_t kind;   /* the kind given to postcopy_why, if the text is refused; else POSTCOPY_READ, POSTCOPY_NO_MEMORY or 0 */
    uint32_t line;   /* the line at which the text is refused, counted from 1, or 0 */
    uint32_t column; /* the place of the error in that line, in bytes counted from 1, or 0 */
    size_t text_len; /* the length of the words in bytes, whether or not they fit into the room */
} postcopy_refusal;

/* What a question of postcopy_answers asks for: the text that the call of this name writes. A name that ends in OBJECT asks for
   a JSON object instead, as the program writes it with --format json. */
enum postcopy_asks {
    POSTCOPY_ASKS_AUDIT = 1,
    POSTCOPY_ASKS_CERTIFY = 2,
    POSTCOPY_ASKS_AUDIT_ALL = 3,
    POSTCOPY_ASKS_MISSING = 4,
    POSTCOPY_ASKS_MISSING_PAGES = 5,
    POSTCOPY_ASKS_EXPLAIN = 6,
    POSTCOPY_ASKS_EXPLAIN_PAGE = 7,
    POSTCOPY_ASKS_EXPLAIN_LINE = 8,
    POSTCOPY_ASKS_DRAW = 9,
    POSTCOPY_ASKS_DRAW_PAGE = 10,
    POSTCOPY_ASKS_AUDIT_OBJECT = 11,
    POSTCOPY_ASKS_AUDIT_ALL_OBJECT = 12,
    POSTCOPY_ASKS_EXPLAIN_OBJECT = 13
};

typedef struct {
    uint32_t asks;  /* of enum postcopy_asks */
    uint32_t about; /* the page for PAGE, the line for LINE; any number for other questions */
} postcopy_question;

/* What the caller must see to in each call; nothing checks it:
   - A pointer is not null, even if its length is 0, and a length is less than 2^63.
   - Each text has as many readable bytes as its length says, and nobody writes them until the call returns. The same holds for
     the questions.
   - The room has as many readable and writable bytes as its length says. It does not overlap the texts, and nobody else uses
     it until the call returns. It may hold any bytes. The same holds for the ends, which do not overlap the room either.
   - malloc, realloc and free belong to one allocator, and align memory as C requires.
   - No call is made from a signal handler, or in the forked child of a process that had threads.
   Calls may run in several threads at once. They keep nothing, and return nothing that must be freed. */

/* Checks the certificate of a session. */
postcopy_answer postcopy_check(const uint8_t *session, size_t session_len, const uint8_t *cert, size_t cert_len);

/* Replays a session in the one order that a text of runs, a certificate or a report gives. It says nothing about other
   orders. */
postcopy_answer postcopy_replay(const uint8_t *session, size_t session_len, const uint8_t *runs, size_t runs_len);

/* Writes the certificate of a clean session, or for any other session the first line of its report.
   The text is written to the front of the room if text_len <= room_len. If it does not fit, the room stays as it was: call
   again with room for text_len bytes. The room also stays as it was if memory runs out. No 0 follows the text. */
postcopy_answer postcopy_certify(const uint8_t *session, size_t session_len, uint8_t *room, size_t room_len);

/* Writes the report on a session, in the same way. */
postcopy_answer postcopy_audit(const uint8_t *session, size_t session_len, uint8_t *room, size_t room_len);

/* Writes the first line of the report on a session, and each page that has a fault, in the same way. If the session does not
   have the right shape, only pages are listed that no record of the wrong shape touches; if it has no merging, none. */
postcopy_answer postcopy_audit_all(const uint8_t *session, size_t session_len, uint8_t *room, size_t room_len);

/* Writes the line that says what is missing first from a clean session, or nothing if the session tells of a whole migration.
   For any other session, writes the first line of its report. The text is written in the same way. */
postcopy_answer postcopy_missing(const uint8_t *session, size_t session_len, uint8_t *room, size_t room_len);

/* The same, but a clean session needs only this: the guest was halted and resumed, and each owed page was placed, or was released
   at the target. The pager need not have said so, and the source need not have learned of it. */
postcopy_answer postcopy_missing_pages(const uint8_t *session, size_t session_len, uint8_t *room, size_t room_len);

/* Writes the story of a session in words, after the first line of its report, in the same way. */
postcopy_answer postcopy_explain(const uint8_t *session, size_t session_len, uint8_t *room, size_t room_len);

/* Writes the story of the page with this number, in the same way. Pages are counted from 0. If the machine does not have the
   page, the text says so. */
postcopy_answer postcopy_explain_page(const uint8_t *session, size_t session_len, uint32_t page, uint8_t *room,
                                      size_t room_len);

/* Writes the story of the record at this line of the session's text, and of its page, in the same way. Lines are counted
   from 1. If there is no record at the line, the text says so. */
postcopy_answer postcopy_explain_line(const uint8_t *session, size_t session_len, uint32_t line, uint8_t *room,
                                      size_t room_len);

/* Writes the picture of a session in the order of its report, as SVG, in the same way. If the session's text is refused, writes
   the line that says so. */
postcopy_answer postcopy_draw(const uint8_t *session, size_t session_len, uint8_t *room, size_t room_len);

/* Writes the picture about the page with this number, in the same way. */
postcopy_answer postcopy_draw_page(const uint8_t *session, size_t session_len, uint32_t page, uint8_t *room, size_t room_len);

/* Answers several questions about one session, which is read once and judged once. For each question it writes the text of the
   call with that name, one text after another, if all of them fit into the room; text_len is the length of all texts. If there
   are at least as many ends as questions, the first ends say where each text ends: text i has the bytes from ends[i - 1], or 0,
   up to ends[i]. What does not fit stays as it was. The rest of the answer is that of postcopy_audit. Something is missing from
   a clean session if the text of MISSING is not empty. If the number of a question is unknown, the kind is POSTCOPY_NO_QUESTION,
   and nothing is written. */
postcopy_answer postcopy_answers(const uint8_t *session, size_t session_len, const postcopy_question *questions,
                                 size_t questions_len, size_t *ends, size_t ends_len, uint8_t *room, size_t room_len);

/* Says why a text is refused: the line, the column, and words about what was found there and what is allowed there. The words are
   one line without a line feed, which is written as the text of postcopy_certify is. `kind` is the kind of answer that refuses
   the text: POSTCOPY_SESSION_TEXT for a session, POSTCOPY_CERT_TEXT for a certificate, POSTCOPY_RUNS_TEXT for an order that
   postcopy_replay takes. For any other number the kind of the answer is 0, and nothing is said. The words may change with a
   version, and no program should parse them. */
postcopy_refusal postcopy_why(const uint8_t *text, size_t text_len, uint32_t kind, uint8_t *room, size_t room_len);

/* Returns the version of the linked library, in the form of POSTCOPY_VERSION. */
uint32_t postcopy_version(void);

#ifdef __cplusplus
}
#endif

#endif
