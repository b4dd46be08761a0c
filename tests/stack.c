/* What each call of the library takes of the stack, measured: it is called on a stack of its own, which is painted,
 * and the paint is gone as far down as the call went. Of many inputs the most counts. It prints a line each: call,
 * and bytes below the caller's frame, with the arguments and the return address that stand there. It ends with 0 if
 * no call took more than the header says. */
#define _XOPEN_SOURCE 700
#include "../c/knobstream.h"

#include <stdio.h>
#include <stdlib.h>
#include <string.h>
#include <ucontext.h>

enum { STACK = 128 * 1024, LONG = KNOBSTREAM_MAX_BYTES, CHUNKS = KNOBSTREAM_MAX_CHUNKS };

static uint8_t *stack, paint;
static const uint8_t *top, *low; /* where the stack pointer stood before the call, and how far down the call went */

/* What is passed and what comes back; not on the stack that is measured. */
static struct list {
    uint8_t bytes[LONG];
    uint64_t table[4 * CHUNKS];
    size_t length, rows;
} field, month, day;
static size_t chunks[KNOBSTREAM_MAX_PIECES], pieces;
static knobstream_date date;
static knobstream_answer answer;
static knobstream_written written;
static int32_t order;
static knobstream_period period;
static knobstream_seconds seconds;
static knobstream_pages pages;
static uint32_t ranges[2 * KNOBSTREAM_MAX_PIECES];
static uint8_t out[KNOBSTREAM_LINE_ROOM];
static uint8_t line[2 * 8192];
static size_t digits;
static knobstream_chronology entries;
static knobstream_entries counted;
static knobstream_reply reply;
static int64_t list[KNOBSTREAM_LIST_ROOM];

#define COUNT(array) (sizeof(array) / sizeof *(array))
#define LENT(l) (l).bytes, (l).length, (l).table, (l).rows

/* A call on that stack. It looks at the stack on the spot: what is done to leave it goes down too. */
#if defined __aarch64__
#define STACK_POINTER "mov %0, sp"
#else
#define STACK_POINTER "mov %%rsp, %0"
#endif
#define ON_A_STACK(name, call) \
    static void name(void) \
    { \
        const uint8_t *here; \
        __asm__ volatile(STACK_POINTER : "=r"(here) : : "memory"); \
        top = here; \
        call; \
        for (low = stack; *low == paint; low++) { \
        } \
    }

ON_A_STACK(parse, knobstream_parse(LENT(field), &answer))
ON_A_STACK(parse_strict, knobstream_parse_strict(LENT(field), &answer))
ON_A_STACK(parse_level_one, knobstream_parse_level_one(LENT(field), &answer))
ON_A_STACK(parse_three_fields, knobstream_parse_three_fields(LENT(field), 1, LENT(month), 1, LENT(day), &answer))
ON_A_STACK(parse_six_fields, knobstream_parse_six_fields(LENT(field), 1, LENT(month), 1, LENT(day), 1, LENT(field), 1, LENT(month), 1, LENT(day), &answer))
ON_A_STACK(parse_pages, knobstream_parse_pages(LENT(field), chunks, pieces, ranges, COUNT(ranges), &pages))
ON_A_STACK(write_range, written = knobstream_write_range(UINT32_MAX, UINT32_MAX, out, sizeof out))
ON_A_STACK(measure_date, written = knobstream_date_length(&date))
ON_A_STACK(write_date, written = knobstream_date_text(&date, out, sizeof out))
ON_A_STACK(write_fields, written = knobstream_date_fields(&date, out, sizeof out))
ON_A_STACK(measure_level_one, written = knobstream_date_level_one_length(&date))
ON_A_STACK(write_level_one, written = knobstream_date_level_one_text(&date, out, sizeof out))
ON_A_STACK(measure_timed, written = knobstream_date_timed_length(&date))
ON_A_STACK(write_timed, written = knobstream_date_timed_text(&date, out, sizeof out))
ON_A_STACK(days, period = knobstream_days(date.first))
ON_A_STACK(instant, seconds = knobstream_instant(date.first))
ON_A_STACK(compare_instants, order = knobstream_compare_instants(date.first, date.first))
ON_A_STACK(answer_frame, written = knobstream_answer_frame(line, digits, out, sizeof out))
ON_A_STACK(version, order = (int32_t)knobstream_version())
ON_A_STACK(compare, order = knobstream_compare(date.first, date.second))
ON_A_STACK(add_entry, counted = knobstream_chronology_add(&entries, 0, 3652424, 1000))
ON_A_STACK(remove_entry, counted = knobstream_chronology_remove(&entries, 1000))
ON_A_STACK(count_entries, counted = knobstream_chronology_count(&entries))
ON_A_STACK(list_entries, counted = knobstream_chronology_list(&entries, list, KNOBSTREAM_LIST_ROOM))
ON_A_STACK(any_dated, reply = knobstream_chronology_any_dated(&entries, 3652424, 3652424))

static struct {
    const char *name;
    void (*on_a_stack)(void);
    size_t allowed, most;
} calls[] = {
    { "knobstream_version", version, KNOBSTREAM_STACK, 0 },
    { "knobstream_parse", parse, KNOBSTREAM_STACK, 0 },
    { "knobstream_parse_strict", parse_strict, KNOBSTREAM_STACK, 0 },
    { "knobstream_parse_level_one", parse_level_one, KNOBSTREAM_STACK, 0 },
    { "knobstream_parse_three_fields", parse_three_fields, KNOBSTREAM_STACK, 0 },
    { "knobstream_parse_six_fields", parse_six_fields, KNOBSTREAM_SIX_FIELDS_STACK, 0 },
    { "knobstream_parse_pages", parse_pages, KNOBSTREAM_STACK, 0 },
    { "knobstream_write_range", write_range, KNOBSTREAM_STACK, 0 },
    { "knobstream_measure_date", measure_date, KNOBSTREAM_STACK, 0 },
    { "knobstream_write_date", write_date, KNOBSTREAM_STACK, 0 },
    { "knobstream_write_fields", write_fields, KNOBSTREAM_STACK, 0 },
    { "knobstream_measure_level_one", measure_level_one, KNOBSTREAM_STACK, 0 },
    { "knobstream_write_level_one", write_level_one, KNOBSTREAM_STACK, 0 },
    { "knobstream_measure_timed", measure_timed, KNOBSTREAM_STACK, 0 },
    { "knobstream_write_timed", write_timed, KNOBSTREAM_STACK, 0 },
    { "knobstream_days", days, KNOBSTREAM_STACK, 0 },
    { "knobstream_instant", instant, KNOBSTREAM_STACK, 0 },
    { "knobstream_compare_instants", compare_instants, KNOBSTREAM_STACK, 0 },
    { "knobstream_compare", compare, KNOBSTREAM_STACK, 0 },
    { "knobstream_answer_frame", answer_frame, KNOBSTREAM_FRAME_STACK, 0 },
    { "knobstream_add_entry", add_entry, KNOBSTREAM_STACK, 0 },
    { "knobstream_remove_entry", remove_entry, KNOBSTREAM_STACK, 0 },
    { "knobstream_count_entries", count_entries, KNOBSTREAM_STACK, 0 },
    { "knobstream_list_entries", list_entries, KNOBSTREAM_STACK, 0 },
    { "knobstream_any_dated", any_dated, KNOBSTREAM_STACK, 0 },
};

static size_t used(void (*on_a_stack)(void))
{
    static ucontext_t back, there;
    memset(stack, paint, STACK);
    if (getcontext(&there) != 0) {
        fputs("no stack\n", stderr);
        exit(2);
    }
    there.uc_stack.ss_sp = stack;
    there.uc_stack.ss_size = STACK;
    there.uc_link = &back;
    makecontext(&there, on_a_stack, 0);
    if (swapcontext(&back, &there) != 0) {
        fputs("no stack\n", stderr);
        exit(2);
    }
    return (size_t)(top - low);
}

/* Every call, with what is to be passed now. A byte may be stored that looks like paint, so there are two colours. */
static void measure(void)
{
    const uint8_t colours[] = { 0x5A, 0xA5 };
    for (size_t i = 0; i < COUNT(calls); i++)
        for (size_t j = 0; j < COUNT(colours); j++) {
            paint = colours[j];
            const size_t n = used(calls[i].on_a_stack);
            if (n > calls[i].most)
                calls[i].most = n;
        }
}

/* A text, filled up with spaces, in chunks of one kind. */
static void fill(struct list *l, const char *text, size_t length, size_t chunks, uint64_t kind)
{
    const size_t n = strlen(text);
    l->length = n > length ? n : length;
    l->rows = 4 * chunks;
    memset(l->bytes, ' ', l->length);
    memcpy(l->bytes, text, n);
    for (size_t i = 0, at = 0; i < chunks; i++) {
        const size_t end = l->length * (i + 1) / chunks;
        const uint64_t row[4] = { kind, end - at, at, end };
        memcpy(l->table + 4 * i, row, sizeof row);
        at = end;
    }
}

/* A byte of the frame, if it still goes in. */
static void put(uint64_t byte)
{
    if (digits + 2 <= sizeof line) {
        line[digits++] = (uint8_t)"0123456789abcdef"[byte / 16 % 16];
        line[digits++] = (uint8_t)"0123456789abcdef"[byte % 16];
    }
}

/* A list, as a frame has it. */
static void put_list(const struct list *l)
{
    put(l->rows / 4);
    for (size_t i = 0, at = 0; i < l->rows; at += l->table[i + 1], i += 4) {
        put(l->table[i]);
        put(l->table[i + 1]);
        for (int shift = 24; shift >= 0; shift -= 8)
            put(l->table[i + 2] >> shift);
        for (int shift = 24; shift >= 0; shift -= 8)
            put(l->table[i + 3] >> shift);
        for (size_t k = 0; k < l->table[i + 1]; k++)
            put(l->bytes[at + k]);
    }
}

/* The frame that asks for the field, or for the three fields. */
static void put_frame(uint8_t operation)
{
    digits = 0;
    put(operation);
    put_list(&field);
    if (operation == 3) {
        put(1);
        put_list(&month);
        put(0);
    }
}

/* Date fields, year fields, page ranges, date fields of level one; and month fields. */
static const char *const texts[] = {
    "", "2000", "49", "-0049", "2000-02-29", " 2000 - 2 - 9 ~", "2000-02-29T10:20:30Z", "2000-02-29T10:20:30+02:30%",
    "2000-2-9 T 1:2:3 - 2 : 3", "1999/2003", "1999-07-01/2003-08-31", "2000/..", "../2000", "../..",
    "2000-02-29T10:20:30+02:30/2003-08-31T10:20:30-02:30~", "19XX", "199X", "19XX/2005", "2000-XX-XX", "2000-02-XX",
    "1900-02-29", "2000/1900-02-29", "2000-13", "2000-02-29T10:20:30+2", "forthcoming", "\xC3\xA9", "2000\xC2\xA0",
    "\xC2\xBD/q", "20\xE2\x80\x93", "20\xE2\x82\xAC", "20\xF0\x9F\x98\x80", "\xFF", "2000\n-02",
    "1000 BC", "5 AD", "5 BCE x", "- 5", "+5 CE", "12345", "0 AD",
    "7-12", " 7\xE2\x80\x93 12 ", "4294967295-4294967295", "5x", "5-7x", "4294967296",
    "2000-21", "-0044-24~", "Y12345", "Y-123456789", "2000-22/2001-23?", "Y-12345/..", "../2000-24%", "2000-25", "Y1234",
};
static const char *const months[] = { "July", "jul-4", "sept", "07", "13", "jul-999", "jul-32", "x" };
static const size_t lengths[] = { 0, 60, 64, LONG };
static const size_t numbers[] = { 1, 2, CHUNKS };

int main(void)
{
    stack = aligned_alloc(4096, STACK);
    for (size_t i = 0; i < COUNT(texts); i++)
        for (size_t n = 0; n < COUNT(lengths); n++)
            for (size_t m = 0; m < COUNT(numbers); m++)
                for (uint64_t kind = 0; kind < 3; kind++) {
                    fill(&field, texts[i], lengths[n], numbers[m], kind);
                    fill(&month, months[i % COUNT(months)], lengths[n], numbers[m], kind);
                    fill(&day, "31", lengths[n], numbers[m], kind);
                    knobstream_parse(LENT(field), &answer);
                    if (answer.refusal != KNOBSTREAM_OK)
                        knobstream_parse_level_one(LENT(field), &answer);
                    date = answer.date;
                    put_frame((uint8_t)(i % 5 + 1));
                    /* one piece of all chunks, or a piece of each */
                    pieces = (i + n) % 2 == 0 ? 1 : numbers[m];
                    for (size_t k = 0; k < pieces; k++)
                        chunks[k] = numbers[m] / pieces;
                    measure();
                }
    /* the longest text that a date has, with seasons and without */
    memset(&date, 254, sizeof date);
    date.first.year = date.second.year = INT32_MIN;
    measure();
    date.first.season = date.second.season = KNOBSTREAM_NO_SEASON;
    measure();
    /* the same with the longest times, and as many page ranges as there may be */
    date.first.hour = date.first.offset_hours = 23;
    date.first.minute = date.first.second = date.first.offset_minutes = 59;
    date.second = date.first;
    for (field.length = 0, pieces = 0; pieces < KNOBSTREAM_MAX_PIECES; pieces++) {
        const uint64_t row[4] = { KNOBSTREAM_NORMAL, 21, 0, 21 };
        memcpy(field.table + 4 * pieces, row, sizeof row);
        memcpy(field.bytes + field.length, "4294967295-4294967295", 21);
        field.length += 21;
        field.rows = 4 * (pieces + 1);
        chunks[pieces] = 1;
    }
    measure();
    if (knobstream_date_timed_length(&date).length != KNOBSTREAM_TIMED_ROOM || pages.ranges != KNOBSTREAM_MAX_PIECES) {
        fputs("what should be the most is not\n", stderr);
        return 2;
    }
    /* chronologies: the above were empty, or had the one entry; 511 entries, 512, and what is none. Each of them has both its remainders, by 4096 and by 4093, with another. */
    for (entries.count = 0; entries.count < KNOBSTREAM_ENTRIES - 1; entries.count++) {
        const uint32_t i = (uint32_t)entries.count;
        entries.firsts[i] = (int32_t)i;
        entries.lasts[i] = 3652424;
        entries.ids[i] = 2000 + i / 2 + i % 2 * 4096 * 4093;
    }
    measure();
    entries.count = 600;
    measure();

    int over = 0;
    for (size_t i = 0; i < COUNT(calls); i++) {
        printf("%s\t%zu\n", calls[i].name, calls[i].most);
        over |= calls[i].most > calls[i].allowed;
    }
    return over;
}
