/*
    The least that a check has to do: reads a session of the first version and its certificate, and says yes or no.

        floor SESSION CERTIFICATE

    It has one thread, reads each text once, piece by piece, and tells no line. So it is a bound for the program, and no
    checker for users. -DHELD=N says what it holds of a session:

        0   frames, a few marks for each page, and receipts
        1   the guest's records too, in 16 bytes each
        2   the contents that were sent and placed too, in a block each
        3   the initial pages too, in a block each, apart from the frames
        4   the records of source and pager in 40 bytes each too: all that the program holds where no contents are placed
            as they were sent
*/
#include <emmintrin.h>
#include <fcntl.h>
#include <stdbool.h>
#include <stdint.h>
#include <stdio.h>
#include <stdlib.h>
#include <string.h>
#include <tmmintrin.h>
#include <unistd.h>

#ifndef HELD
#define HELD 0
#endif

typedef uint8_t u8;
typedef uint32_t u32;
typedef uint64_t u64;

#define NONE UINT32_MAX
#define HIGH 0x80000000u
#define LIKELY(x) __builtin_expect(!!(x), 1)
#define INLINE static inline __attribute__((always_inline))

static _Noreturn void say_no(void)
{
    puts("no");
    exit(1);
}

INLINE void need(bool right)
{
    if (!LIKELY(right))
        say_no();
}

static void *room(size_t count, size_t size)
{
    void *found = calloc(count + 1, size);
    if (!found)
        abort();
    return found;
}

/* The text: a buffer of which `at` to `end` is unread, with zeros behind. */

enum { PIECE = 256 * 1024, BEHIND = 64 };

static u8 buffer[PIECE + 2 * BEHIND];
static const u8 *at, *end;
static int file;
static bool ended;

static __attribute__((noinline)) void fill(void)
{
    size_t left = end - at;
    memmove(buffer, at, left);
    u8 *to = buffer + left;
    while (!ended && to < buffer + PIECE) {
        ssize_t got = read(file, to, buffer + PIECE - to);
        if (got < 0)
            abort();
        ended = got == 0;
        to += got;
    }
    at = buffer;
    end = to;
    memset(to, 0, BEHIND);
}

/* Makes so many bytes of the text be in the buffer, if it has them. */
INLINE void ahead(size_t count)
{
    if (!LIKELY((size_t)(end - at) >= count) && !ended)
        fill();
}

static void open_text(const char *name)
{
    file = open(name, O_RDONLY);
    if (file < 0)
        abort();
    ended = false;
    at = end = buffer;
    fill();
}

INLINE bool begins(const char *words, size_t count)
{
    if (memcmp(at, words, count))
        return false;
    at += count;
    return true;
}

#define IS(words) begins(words, sizeof(words) - 1)

INLINE void byte(u8 wanted)
{
    need(*at++ == wanted);
}

/* Numbers. */

INLINE u64 eight_bytes(const u8 *from)
{
    u64 found;
    memcpy(&found, from, 8);
    return found;
}

/* The value of 0 to 8 digits. */
INLINE u64 digits(const u8 *from, u32 count)
{
    u32 shift = 32 - 4 * count;
    u64 each = ((eight_bytes(from) & 0x0f0f0f0f0f0f0f0f) << shift) << shift;
    each = (each * (10 << 8 | 1) >> 8) & 0x00ff00ff00ff00ff;
    each = (each * (100 << 16 | 1) >> 16) & 0x0000ffff0000ffff;
    return each * (10000ull << 32 | 1) >> 32;
}

/* A number of 1 to 8 digits. */
INLINE u32 number(void)
{
    u64 each = eight_bytes(at) ^ 0x3030303030303030;
    u64 others = ((each + 0x7676767676767676) | each) & 0x8080808080808080;
    u32 count = others ? __builtin_ctzll(others) >> 3 : 8;
    need(count > 0 && (*at != '0' || count == 1));
    u64 found = digits(at, count);
    at += count;
    return found;
}

/* The value of 1 to 20 digits. */
INLINE u64 value(const u8 *from, u32 count)
{
    static const u64 TEN[] = {1, 10, 100, 1000, 10000, 100000, 1000000, 10000000, 100000000};
    u32 first = count < 8 ? count : 8, second = count - first < 8 ? count - first : 8, third = count - first - second;
    u64 front = digits(from, first) * TEN[second] + digits(from + 8, second), found;
    need(!__builtin_mul_overflow(front, TEN[third], &found));
    need(!__builtin_add_overflow(found, digits(from + 16, third), &found));
    return found;
}

static u32 counted(const char *words)
{
    ahead(64);
    need(begins(words, strlen(words)));
    u32 found = number();
    byte('\n');
    return found;
}

/* Contents, 16 hexadecimal digits for each cell. Where one is no digit, `odd` gets bits. */

static __m128i odd;

INLINE u64 cell_of(const u8 *from, __m128i *wrong)
{
    __m128i text = _mm_loadu_si128((const __m128i *)from);
    __m128i digit = _mm_sub_epi8(text, _mm_set1_epi8('0')), letter = _mm_sub_epi8(text, _mm_set1_epi8('a'));
    __m128i is_digit = _mm_cmpeq_epi8(_mm_min_epu8(digit, _mm_set1_epi8(9)), digit);
    __m128i is_letter = _mm_cmpeq_epi8(_mm_min_epu8(letter, _mm_set1_epi8(5)), letter);
    *wrong = _mm_or_si128(*wrong, _mm_xor_si128(_mm_or_si128(is_digit, is_letter), _mm_set1_epi8(-1)));
    __m128i each = _mm_sub_epi8(digit, _mm_and_si128(is_letter, _mm_set1_epi8('a' - '0' - 10)));
    each = _mm_maddubs_epi16(each, _mm_set1_epi16(0x0110));
    return __builtin_bswap64(_mm_cvtsi128_si64(_mm_packus_epi16(each, each)));
}

static u32 pages, cells;

/* Takes contents into these cells, and says whether any is not zero. */
static __attribute__((noinline)) bool take_contents(u64 *into)
{
    __m128i wrong = odd;
    u64 any = 0;
    for (u32 cell = 0; cell < cells; cell++)
        any |= into[cell] = cell_of(at + 16 * cell, &wrong);
    odd = wrong;
    at += 16 * (size_t)cells;
    return any;
}

/* Takes contents, and says whether they differ from these cells. They are held if there is a place for that. */
static __attribute__((noinline)) bool contents_differ(const u64 *from, u64 **held)
{
    if (held) {
        *held = room(cells, sizeof **held);
        take_contents(*held);
        return memcmp(*held, from, 8 * (size_t)cells);
    }
    __m128i wrong = odd;
    u64 any = 0;
    for (u32 cell = 0; cell < cells; cell++)
        any |= cell_of(at + 16 * cell, &wrong) ^ from[cell];
    odd = wrong;
    at += 16 * (size_t)cells;
    return any;
}

/* What is known of a page. */

typedef struct {
    u32 touch;  /* the guest's first use of it behind the resume */
    u32 placed; /* its placement */
    bool released, released_at_halt, sent, wrong;
} Page;

static Page *page;
static u64 *frames, *frames_at_halt;

INLINE u32 page_number(void)
{
    u32 found = number();
    need(found < pages);
    return found;
}

static u64 *frame_at_halt(u32 number)
{
    return frames_at_halt + (size_t)number * cells;
}

/* The guest. */

typedef struct {
    u64 value;
    u32 cell, page; /* the cell among all; the page, and the highest bit for a write, or NONE for a record that is no use */
} Use;

typedef struct {
    u32 place, named; /* the record, and the pager's record that it names; a resume has the highest bit */
} Receipt;

enum { BLOCK = 1024 };

static u32 guest_count, halt = NONE, receipt_count, receipt_room = 1024, use_count;
static Use *uses;
static Receipt *receipts;
static u64 *misses;
static bool resumed;

/* Carries out the uses that were gathered, behind which is this record. */
static __attribute__((noinline)) void carry_out(u32 behind)
{
    u32 first = behind - use_count, early = resumed ? 0 : NONE;
    for (u32 index = 0; index < use_count; index++) {
        Use use = uses[index];
        if (HELD >= 1 && use.page == NONE)
            continue;
        bool writes = use.page & HIGH;
        Page *of = &page[use.page & ~HIGH];
        u64 *cell = frames + use.cell, old = *cell;
        *cell = writes ? use.value : old;
        of->released &= !writes;
        of->wrong |= !writes & (old != use.value);
        u32 touch = (first + index) | early;
        of->touch = touch < of->touch ? touch : of->touch;
    }
    if (HELD >= 1)
        uses += use_count;
    use_count = 0;
}

/* A read or a write: four numbers, whose ends are found in one mask. */
INLINE void take_use(bool writes)
{
    const u8 *from = at + 2;
    u64 ends = 0;
    for (int part = 0; part < 3; part++) {
        __m128i digit = _mm_sub_epi8(_mm_loadu_si128((const __m128i *)(from + 16 * part)), _mm_set1_epi8('0'));
        __m128i is_digit = _mm_cmpeq_epi8(_mm_min_epu8(digit, _mm_set1_epi8(9)), digit);
        ends |= (u64)(~_mm_movemask_epi8(is_digit) & 0xffff) << (16 * part);
    }
    u32 place[4], count[4];
    const u8 *field[4];
    bool right = true;
    for (int number = 0; number < 4; number++) {
        need(ends);
        place[number] = __builtin_ctzll(ends);
        ends &= ends - 1;
        field[number] = number ? from + place[number - 1] + 1 : from;
        count[number] = from + place[number] - field[number];
        right &= (from[place[number]] == (number < 3 ? ' ' : '\n')) & ((*field[number] != '0') | (count[number] == 1));
        right &= count[number] - 1 < (u32[]){2, 8, 3, 20}[number];
    }
    need(right);
    u32 vcpu = digits(field[0], count[0]), number = digits(field[1], count[1]), cell = digits(field[2], count[2]);
    need((vcpu < 64) & (number < pages) & (cell < cells));
    uses[use_count++] = (Use){value(field[3], count[3]), number * cells + cell, number | (writes ? HIGH : 0)};
    at = from + place[3] + 1;
}

static void add_receipt(u32 place, u32 named)
{
    if (receipt_count == receipt_room && !(receipts = realloc(receipts, (receipt_room *= 2) * sizeof *receipts)))
        abort();
    receipts[receipt_count++] = (Receipt){place, named};
}

static void take_vcpu(void)
{
    need(number() < 64);
    byte(' ');
}

static void take_halt(u32 place)
{
    need(halt == NONE);
    halt = place;
    size_t all = (size_t)pages * cells;
    frames_at_halt = memcpy(room(all, 8), frames, 8 * all);
    for (u32 number = 0; number < pages; number++)
        page[number].released_at_halt = page[number].released;
}

static void take_release(void)
{
    need(halt == NONE);
    take_vcpu();
    u32 number = page_number();
    memset(frames + (size_t)number * cells, 0, 8 * (size_t)cells);
    page[number].released = true;
}

static void take_miss(u32 place)
{
    need(resumed);
    take_vcpu();
    page_number();
    misses[place / 64] |= 1ull << place % 64;
}

/* A record that is no use: those gathered are carried out before it, if it is one that they must not come behind. */
static __attribute__((noinline)) void take_other(u32 place)
{
    bool is_look = IS("see "), is_miss = !is_look && IS("miss ");
    if (HELD >= 1)
        uses[use_count++].page = NONE;
    if (HELD == 0 || !(is_look || is_miss))
        carry_out(place + (HELD >= 1));
    if (is_look) {
        need(resumed);
        add_receipt(place, number());
    } else if (is_miss) {
        take_miss(place);
    } else if (IS("z ")) {
        take_release();
    } else if (IS("halt")) {
        take_halt(place);
    } else {
        need(IS("resume ") && halt != NONE && !resumed);
        resumed = true;
        add_receipt(place, number() | HIGH);
    }
    byte('\n');
}

static void take_guest(void)
{
    guest_count = counted("guest ");
    uses = room(HELD >= 1 ? guest_count : BLOCK, sizeof *uses);
    receipts = room(receipt_room, sizeof *receipts);
    misses = room(guest_count / 64 + 1, sizeof *misses);
    for (u32 n = 0; n < guest_count; n++) {
        ahead(64);
        if (!LIKELY(((*at == 'r') | (*at == 'w')) & (at[1] == ' '))) { /* (no branch on which of both it is) */
            take_other(n);
            continue;
        }
        need(halt == NONE || resumed);
        take_use(*at == 'w');
        if (HELD == 0 && use_count == BLOCK)
            carry_out(n + 1);
    }
    carry_out(guest_count);
    if (halt == NONE)
        frames_at_halt = frames;
}

/* The other logs. */

enum { HALTED, STATE, SEND, AGAIN, ASK, DONE, GOT, READY, FAULT, JOIN, WANT, PLACE, ZERO, SKIP, ALL };

typedef struct {
    u32 kind, page, named;
#if HELD >= 2
    u64 *contents;
#endif
#if HELD >= 4
    u64 more[2];
#endif
} Record;

#if HELD >= 2
#define HOLD(record) (&(record)->contents)
#else
#define HOLD(record) NULL
#endif

static Record *source, *pager;
static u32 *link_log; /* the record that each names; one that goes up has the highest bit */
static u32 source_count, link_count, pager_count;

static u32 earlier(u32 n)
{
    u32 found = number();
    need(found < n);
    return found;
}

static void take_send(Record *record)
{
    record->kind = SEND;
    Page *of = &page[record->page = page_number()];
    byte(' ');
    need(!of->sent);
    of->sent = true;
    of->wrong |= contents_differ(frame_at_halt(record->page), HOLD(record)) | of->released_at_halt;
}

static void take_source(void)
{
    source_count = counted("source ");
    need(source_count != 1);
    source = room(source_count, sizeof *source);
    for (u32 n = 0; n < source_count; n++) {
        Record *record = &source[n];
        ahead(16 * (size_t)cells + 64);
        if (IS("send ")) {
            take_send(record);
        } else if (IS("again ")) {
            record->kind = AGAIN;
            u32 first = source[record->named = earlier(n)].kind;
            need(first == SEND || first == STATE);
        } else if (IS("ask ")) {
            record->kind = ASK;
            record->named = number();
        } else if (IS("halted ")) {
            record->kind = HALTED;
            need(number() == halt);
        } else if (IS("state")) {
            record->kind = STATE;
        } else {
            need(IS("done"));
            record->kind = DONE;
        }
        byte('\n');
        need((n == 0) == (record->kind == HALTED) && (n == 1) == (record->kind == STATE));
    }
}

static void take_link(void)
{
    link_count = counted("link ");
    link_log = room(link_count, sizeof *link_log);
    for (u32 n = 0; n < link_count; n++) {
        ahead(64);
        if (IS("down ")) {
            u32 sent = link_log[n] = number();
            need(sent < source_count);
            u32 kind = source[sent].kind;
            need(kind == SEND || kind == STATE || kind == AGAIN);
        } else {
            need(IS("up "));
            link_log[n] = number() | HIGH;
        }
        byte('\n');
    }
}

/* What the source sent first that this `got` took. */
static const Record *sent_by(const Record *got)
{
    const Record *sent = &source[link_log[got->named]];
    return sent->kind == AGAIN ? &source[sent->named] : sent;
}

static void place(u32 number, u32 n, bool is_wrong)
{
    Page *of = &page[number];
    of->wrong |= is_wrong | (of->placed != NONE);
    if (of->placed == NONE)
        of->placed = n;
}

static void take_place(Record *record, u32 n)
{
    record->kind = PLACE;
    record->page = page_number();
    byte(' ');
    const Record *got = &pager[record->named = earlier(n)];
    byte(' ');
    need(got->kind == GOT && sent_by(got)->kind == SEND && sent_by(got)->page == record->page);
    place(record->page, n, contents_differ(frame_at_halt(record->page), HOLD(record)));
}

static void take_fault(Record *record)
{
    record->kind = FAULT;
    u32 miss = record->named = number();
    need(miss < guest_count && misses[miss / 64] >> miss % 64 & 1);
}

static void take_pager(void)
{
    pager_count = counted("pager ");
    pager = room(pager_count, sizeof *pager);
    for (u32 n = 0; n < pager_count; n++) {
        Record *record = &pager[n];
        ahead(16 * (size_t)cells + 64);
        if (IS("got ")) {
            record->kind = GOT;
            record->named = number();
            need(record->named < link_count && !(link_log[record->named] & HIGH));
        } else if (IS("place ")) {
            take_place(record, n);
        } else if (IS("zero ")) {
            record->kind = ZERO;
            record->page = page_number();
            place(record->page, n, !page[record->page].released_at_halt);
        } else if (IS("want ")) {
            record->kind = WANT;
            record->page = page_number();
        } else if (IS("fault ")) {
            take_fault(record);
        } else if (IS("join ")) {
            record->kind = JOIN;
            need(pager[record->named = earlier(n)].kind == WANT);
        } else if (IS("skip ")) {
            record->kind = SKIP;
            need(pager[record->named = earlier(n)].kind == GOT);
        } else if (IS("ready")) {
            record->kind = READY;
        } else {
            need(IS("all"));
            record->kind = ALL;
        }
        byte('\n');
        need((n == 1) == (record->kind == READY) && (n > 0 || (record->kind == GOT && sent_by(record)->kind == STATE)));
    }
}

/* Records that name others which were not read when they were. */
static void look_back(void)
{
    for (u32 n = 0; n < link_count; n++) {
        u32 asked = link_log[n] & ~HIGH;
        need(!(link_log[n] & HIGH) || (asked < pager_count && (pager[asked].kind == WANT || pager[asked].kind == ALL)));
    }
    for (u32 n = 0; n < source_count; n++)
        need(source[n].kind != ASK || (source[n].named < link_count && (link_log[source[n].named] & HIGH)));
    for (u32 n = 0; n < receipt_count; n++) {
        u32 named = receipts[n].named & ~HIGH;
        need(named < pager_count);
        u32 kind = pager[named].kind;
        need(receipts[n].named & HIGH ? kind == READY : kind == PLACE || kind == ZERO);
    }
}

static void take_initial(void)
{
    u32 count = counted("init "), least = 0;
    for (u32 index = 0; index < count; index++) {
        ahead(16 * (size_t)cells + 64);
        need(IS("page "));
        u32 number = page_number();
        byte(' ');
        need(number >= least);
        least = number + 1;
        u64 *frame = frames + (size_t)number * cells, *held = HELD >= 3 ? room(cells, sizeof *held) : frame;
        need(take_contents(held));
        if (held != frame)
            memcpy(frame, held, 8 * (size_t)cells);
        byte('\n');
    }
}

static void take_session(const char *name)
{
    open_text(name);
    need(IS("postcopy-session 1\n"));
    pages = counted("pages ");
    cells = counted("cells ");
    need(pages > 0 && pages <= 65536 && cells > 0 && cells <= 512 && (u64)pages * cells <= 1048576);
    frames = room((size_t)pages * cells, sizeof *frames);
    page = room(pages, sizeof *page);
    for (u32 number = 0; number < pages; number++)
        page[number].touch = page[number].placed = NONE;
    take_initial();
    take_guest();
    take_source();
    take_link();
    take_pager();
    ahead(64);
    need(IS("end\n") && at == end && !_mm_movemask_epi8(odd));
    look_back();
}

/* The certificate. */

/* A look at this place covers a use of a page that was placed there. */
static void look_covers(u32 look, u32 use, u32 placed)
{
    u32 low = 0, high = receipt_count;
    while (low < high) {
        u32 middle = (low + high) / 2;
        if (receipts[middle].place < look)
            low = middle + 1;
        else
            high = middle;
    }
    need(look < use && low < receipt_count && receipts[low].place == look);
    need(!(receipts[low].named & HIGH) && receipts[low].named >= placed);
}

/* The guest's first use of a page behind the resume, and the look that covers it. */
static void take_first_use(const Page *of)
{
    if (IS("- -\n")) {
        need(of->touch == NONE);
        return;
    }
    u32 use = number();
    byte(' ');
    u32 look = number();
    byte('\n');
    need(use == of->touch);
    look_covers(look, use, of->placed);
}

static void take_entry(u32 expected)
{
    ahead(64);
    need(IS("page ") && number() == expected);
    byte(' ');
    const Page *of = &page[expected];
    need(!of->wrong);
    if (IS("none\n")) {
        need(of->placed == NONE && of->touch == NONE);
        return;
    }
    need(of->placed != NONE);
    const Record *placed = &pager[of->placed];
    if (IS("source ")) {
        u32 sent = number();
        byte(' ');
        need(sent < source_count && placed->kind == PLACE && sent_by(&pager[placed->named]) == &source[sent]);
    } else {
        need(IS("balloon ") && placed->kind == ZERO);
    }
    need(number() == of->placed);
    byte(' ');
    take_first_use(of);
}

/* How far the runs have come in each log. */
static u32 guest_at, source_at, link_at, pager_at, receipt_at;

static void run_guest(u32 count)
{
    need(count <= guest_count - guest_at);
    guest_at += count;
    for (; receipt_at < receipt_count && receipts[receipt_at].place < guest_at; receipt_at++)
        need((receipts[receipt_at].named & ~HIGH) < pager_at);
}

static void run_source(u32 count)
{
    need(count <= source_count - source_at);
    for (; count > 0; count--, source_at++) {
        const Record *record = &source[source_at];
        need(record->kind != HALTED || halt < guest_at);
        need(record->kind != ASK || record->named < link_at);
    }
}

static void run_link(u32 count)
{
    need(count <= link_count - link_at);
    for (; count > 0; count--, link_at++) {
        u32 named = link_log[link_at];
        need((named & ~HIGH) < (named & HIGH ? pager_at : source_at));
    }
}

static void run_pager(u32 count)
{
    need(count <= pager_count - pager_at);
    for (; count > 0; count--, pager_at++) {
        const Record *record = &pager[pager_at];
        need(record->kind != GOT || record->named < link_at);
        need(record->kind != FAULT || record->named < guest_at);
    }
}

static u32 run_length(void)
{
    u32 found = number();
    byte('\n');
    need(found > 0);
    return found;
}

static void take_runs(void)
{
    u32 count = counted("runs ");
    u8 last = 0;
    for (u32 index = 0; index < count; index++) {
        ahead(64);
        need(IS("run ") && *at != last);
        last = *at;
        if (IS("guest ")) {
            run_guest(run_length());
        } else if (IS("source ")) {
            run_source(run_length());
        } else if (IS("link ")) {
            run_link(run_length());
        } else {
            need(IS("pager "));
            run_pager(run_length());
        }
    }
    need(guest_at == guest_count && source_at == source_count && link_at == link_count && pager_at == pager_count);
}

static void take_certificate(const char *name)
{
    open_text(name);
    need(IS("postcopy-certificate 1\n") && counted("pages ") == pages);
    for (u32 number = 0; number < pages; number++)
        take_entry(number);
    take_runs();
    ahead(64);
    need(IS("end\n") && at == end);
}

int main(int count, char **words)
{
    if (count != 3)
        return 2;
    take_session(words[1]);
    take_certificate(words[2]);
    puts("yes");
    return 0;
}
