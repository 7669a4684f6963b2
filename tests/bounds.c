/* bounds.c: every function of the library on memory of exactly the size that
   is lent, for valgrind to watch, and its answers held against each other.

   All strings of up to three elements out of a table are read by both readers,
   shown, stepped over and written, and all of up to five octets out of another are
   put into their resource form and read as one. The archive reader is also held
   against the first one on longer strings, in lists of every length around the
   need. The direction and the depth of each unit are held against those that its
   string's marks give, counted here, and lists to be written hold anything there.
   The places of refusals, and where a reader then stands, are those of a table of
   strings. What the direction rule says of extended segments is tried on a table of
   strings, lists and readers, and the table of sets is held against one of its own.
   X11R5's reader is held against the steps of the first one, on the strings of the
   first table as they are and with a 00 at every place, and its writer against one
   that is made here. What is lent is filled with a pattern or left as malloc gives it,
   and what must stay is looked at afterwards. */

#include <stdio.h>
#include <stdlib.h>
#include <string.h>

#include "ctext.h"

#define PATTERN 0xA5

static const char *const ELEMENTS[] = {
    "\x41", "\x7E", "\x20", "\x09", "\x0A", "\xA0", "\xE9", "\xFF", "\x30\x21", "\xB0\xA1",
    "\x1B\x28\x42", "\x1B\x28\x4A", "\x1B\x29\x49", "\x1B\x2D\x48", "\x1B\x24\x28\x42",
    "\x1B\x24\x29\x43", "\x9B\x31\x5D", "\x9B\x32\x5D", "\x9B\x5D",
    "\x1B\x25\x2F\x31\x80\x84\x61\x62\x02\xFF", "\x1B\x25\x2F\x32\x80\x84\x61\x02\xFE\xFF",
    "\x1B\x25\x2F\x34\x80\x82\x61\x02",
    /* refused, or cut at the end of the string */
    "\x1B", "\x1B\x24\x28", "\x1B\x25\x2F\x30\x81", "\x1B\x25\x2F\x30\x81\x80\x61", "\x9B",
    "\x1B\x23", "\x1B\x24\x42", "\x7F"
};

#define MANY (sizeof ELEMENTS / sizeof ELEMENTS[0])

/* What escapes are made of and for, and others; resource forms are tried over it. */
static const uint8_t LETTERS[] = { '\\', 'n', '0', 0x0A, 0x00, 'A', 0xE9 };

static unsigned long failures, strings, accepted, archived, directions, forms, designations, places;
static unsigned long r5_strings, r5_accepted, r5_lists;

static void expect(int holds, const char *what, const uint8_t *s, size_t n)
{
    size_t i;
    if (holds)
        return;
    printf("bounds: %s:", what);
    for (i = 0; i < n && i < 40; i++)
        printf(" %02X", s[i]);
    printf("\n");
    failures++;
}

/* Memory of exactly so many octets; of none, the null pointer. */
static void *lend(size_t octets)
{
    void *memory = octets == 0 ? NULL : malloc(octets);
    if (octets != 0 && memory == NULL)
        exit(2);
    return memory;
}

static uint8_t *lend_copy(const uint8_t *octets, size_t n)
{
    uint8_t *copy = (uint8_t *)lend(n);
    if (n > 0)
        memcpy(copy, octets, n);
    return copy;
}

static uint8_t *lend_pattern(size_t octets)
{
    uint8_t *memory = (uint8_t *)lend(octets);
    if (octets > 0)
        memset(memory, PATTERN, octets);
    return memory;
}

static int same_octets(const uint8_t *a, size_t n, const uint8_t *b, size_t m)
{
    return n == m && (n == 0 || memcmp(a, b, n) == 0);
}

static int same_answer(ctext_answer a, ctext_answer b)
{
    return a.number == b.number && a.place == b.place && a.count == b.count;
}

static int is_answer(ctext_answer a, unsigned number, size_t place, size_t count)
{
    return a.number == number && a.place == place && a.count == count;
}

static int same_unit(const ctext_unit *a, const ctext_unit *b)
{
    return a->kind == b->kind && a->set == b->set && a->code == b->code && a->start == b->start
        && a->length == b->length && a->direction == b->direction && a->depth == b->depth;
}

static int untouched(const void *memory, size_t octets)
{
    const uint8_t *p = (const uint8_t *)memory;
    size_t i;
    for (i = 0; i < octets; i++)
        if (p[i] != PATTERN)
            return 0;
    return 1;
}

static int same_reader(ctext_reader a, ctext_reader b)
{
    return a.levels == b.levels && a.place == b.place && a.count == b.count && a.gl == b.gl
        && a.gr == b.gr && a.depth == b.depth && a.marked == b.marked && a.texted == b.texted;
}

/* ---- Directions ----------------------------------------------------------- */

/* The directions that are open: those of numbers[1] to numbers[depth], from the one
   opened first on; numbers[0] is none. */
typedef struct open_directions {
    uint16_t numbers[CTEXT_MOST_OPEN + 1];
    uint16_t depth;
} open_directions;

/* Those of a reader: each a binary digit of its levels, the last opened lowest. */
static open_directions open_of(ctext_reader r)
{
    open_directions open = { { CTEXT_DIRECTION_NONE }, 0 };
    for (; open.depth < r.depth && open.depth < CTEXT_MOST_OPEN; open.depth++)
        open.numbers[open.depth + 1] = r.levels >> (r.depth - 1 - open.depth) & 1 ? CTEXT_DIRECTION_RIGHT_TO_LEFT
                                                                                  : CTEXT_DIRECTION_LEFT_TO_RIGHT;
    return open;
}

/* The levels of a reader with these open; digits from the depth upwards mean nothing. */
static uint64_t levels_of(const open_directions *open)
{
    uint64_t levels = UINT64_MAX;
    unsigned i;
    for (i = 1; i <= open->depth; i++)
        levels = levels << 1 | (open->numbers[i] == CTEXT_DIRECTION_RIGHT_TO_LEFT);
    return levels;
}

/* Those after a unit of the kind. */
static void pass(open_directions *open, unsigned kind)
{
    if (kind == CTEXT_KIND_REVERT && open->depth > 0)
        open->depth--;
    if ((kind != CTEXT_KIND_LEFT_TO_RIGHT && kind != CTEXT_KIND_RIGHT_TO_LEFT) || open->depth == CTEXT_MOST_OPEN)
        return;
    open->depth++;
    open->numbers[open->depth] = kind == CTEXT_KIND_RIGHT_TO_LEFT ? CTEXT_DIRECTION_RIGHT_TO_LEFT
                                                                  : CTEXT_DIRECTION_LEFT_TO_RIGHT;
}

static int is_directed(const ctext_unit *unit, const open_directions *open)
{
    directions++;
    return unit->direction == open->numbers[open->depth] && unit->depth == open->depth;
}

/* The direction and the depth of each unit of a list are those after it. */
static void list_is_directed(const uint8_t *s, size_t n, const ctext_unit *units, size_t count)
{
    open_directions open = open_of(ctext_open());
    size_t i;
    for (i = 0; i < count; i++) {
        pass(&open, units[i].kind);
        expect(is_directed(&units[i], &open), "the direction and the depth of a unit", s, n);
    }
}

/* The list with other directions and depths, which the caller frees: numbers that no
   reader gives, or what malloc gives, which nobody may look at. */
static ctext_unit *lend_misdirected(const ctext_unit *units, size_t count, int filled)
{
    ctext_unit *others = (ctext_unit *)lend(count * sizeof *others);
    size_t i;
    for (i = 0; i < count; i++) {
        others[i].kind = units[i].kind;
        others[i].set = units[i].set;
        others[i].code = units[i].code;
        others[i].start = units[i].start;
        others[i].length = units[i].length;
        if (filled) {
            others[i].direction = (uint16_t)(UINT16_MAX - i);
            others[i].depth = (uint16_t)(CTEXT_MOST_OPEN + 1 + i);
        }
    }
    return others;
}

/* Whatever the directions and depths of a list are, it is written in the same way:
   the answer is this one, and so are the octets, as many as it counts. */
static void written_misdirected(const uint8_t *s, size_t n, const ctext_unit *units, size_t count,
                                ctext_answer wanted, const uint8_t *octets)
{
    size_t room = CTEXT_WORK_ROOM(count), o = wanted.number == CTEXT_ACCEPTED ? wanted.count : n;
    uint8_t *work = (uint8_t *)lend(room);
    uint8_t *out = (uint8_t *)lend(o);
    int filled;
    for (filled = 0; filled < 2; filled++) {
        ctext_unit *others = lend_misdirected(units, count, filled);
        ctext_answer a = ctext_write(others, count, s, n, work, room, out, o);
        expect(same_answer(a, wanted), "writing whatever the directions", s, n);
        expect(wanted.number != CTEXT_ACCEPTED || same_octets(out, a.count, octets, wanted.count),
               "the octets written whatever the directions", s, n);
        free(others);
    }
    free(out);
    free(work);
}

/* ---- One string ----------------------------------------------------------- */

/* Whether the octets before a place, taken alone, are accepted, or only cut. */
static int only_cut(const uint8_t *s, size_t place)
{
    ctext_answer a = ctext_check(s, place);
    return a.place == place && (a.number == CTEXT_ACCEPTED || a.number == CTEXT_CUT);
}

/* Where a reader of so many units stands that gives no further one: at the end, or
   at the start of an element that is refused, in which the place of the refusal
   lies. What is before the element is accepted. */
static void standing(const uint8_t *s, size_t n, ctext_reader r, size_t given, ctext_answer check)
{
    int holds = r.place == check.place && check.place < n; /* 8 and 9 */
    if (check.number == CTEXT_ACCEPTED)
        holds = r.place == n && check.place == n;
    else if (check.number == CTEXT_CUT)
        holds = r.place < n && check.place == n;
    else if (check.number <= CTEXT_BAD_SEGMENT)
        holds = r.place <= check.place && check.place < n && only_cut(s, check.place);
    expect(holds, "where a reader stands at its end, and the place", s, n);
    expect(r.count == given && r.place <= n && is_answer(ctext_check(s, r.place), CTEXT_ACCEPTED, r.place, given),
           "what is before the place where a reader stands", s, n);
}

/* The units of ctext_next are those of ctext_read, and so is the answer. Those
   before a refusal have their directions too, and where there is none it is all 0. */
static void steps(const uint8_t *s, size_t n, const ctext_unit *units, ctext_answer check)
{
    static const ctext_unit none = { 0, 0, 0, 0, 0, 0, 0 };
    ctext_step step = ctext_next(s, n, ctext_open()), again;
    open_directions open = open_of(ctext_open());
    size_t given = 0;
    while (step.given && given < n) {
        if (check.number == CTEXT_ACCEPTED && given < check.count)
            expect(same_unit(&units[given], &step.unit), "a unit of a step", s, n);
        pass(&open, step.unit.kind);
        expect(is_directed(&step.unit, &open), "the direction and the depth of a step", s, n);
        given++;
        step = ctext_next(s, n, step.reader);
    }
    expect(!step.given && same_answer(step.answer, check), "the answer of a step", s, n);
    expect(same_unit(&step.unit, &none), "the unit beside an answer", s, n);
    expect(check.number != CTEXT_ACCEPTED || given == check.count, "the number of steps", s, n);
    standing(s, n, step.reader, given, check);
    again = ctext_next(s, n, step.reader);
    expect(!again.given && same_answer(again.answer, check) && same_reader(again.reader, step.reader),
           "the answer repeated", s, n);
}

static int same_run(ctext_run_bounds a, ctext_run_bounds b)
{
    return a.start == b.start && a.end == b.end && a.set == b.set && a.width == b.width
        && a.direction == b.direction && same_answer(a.answer, b.answer);
}

/* The runs of ctext_next_run are those of ctext_run, also past the last. */
static void runs_in_order(const uint8_t *s, size_t n)
{
    ctext_run_step step = ctext_next_run(s, n, ctext_open_runs());
    size_t k = 0, past = 0;
    while (past < 2) {
        expect(same_run(step.run, ctext_run(s, n, k)), "a run in order", s, n);
        past += step.run.answer.number != CTEXT_ACCEPTED;
        k++;
        step = ctext_next_run(s, n, step.reader);
    }
}

static int same_run_reader(ctext_run_reader a, ctext_run_reader b)
{
    return a.levels == b.levels && a.place == b.place && a.gl == b.gl && a.gr == b.gr
        && a.depth == b.depth && a.marked == b.marked && a.texted == b.texted
        && a.checked == b.checked;
}

static int same_listed(uint64_t listed, ctext_run_bounds run)
{
    return ctext_run_start(listed) == run.start && ctext_run_end(listed) == run.end
        && ctext_run_set(listed) == run.set && ctext_run_width(listed) == run.width
        && ctext_run_direction(listed) == run.direction && listed >> 56 == 0;
}

/* One call, into a list of exactly so many words. The runs stored are those that
   ctext_next_run shows, and the reader then stands where that one does; the rest
   of the list stays, the whole of it beside a refusal. */
static ctext_runs_step listed(const uint8_t *s, size_t n, ctext_run_reader from, size_t room)
{
    uint64_t *list = (uint64_t *)lend(room * sizeof *list);
    ctext_run_step step = { from, { 0, 0, { 0, 0, 0 }, 0, 0, 0 } };
    ctext_runs_step all;
    size_t k;
    if (room > 0)
        memset(list, PATTERN, room * sizeof *list);
    all = ctext_next_runs(s, n, from, list, room);
    expect(all.answer.count <= room, "more runs than there is room for", s, n);
    for (k = 0; k < all.answer.count && k < room; k++) {
        step = ctext_next_run(s, n, step.reader);
        expect(same_listed(list[k], step.run), "a run of a list", s, n);
    }
    expect(k == room || untouched(list + k, (room - k) * sizeof *list), "the rest of a list", s, n);
    if (k < room) {
        step = ctext_next_run(s, n, step.reader);
        expect(step.run.answer.number != CTEXT_ACCEPTED, "a run that is left out", s, n);
    }
    if (all.answer.number == CTEXT_ACCEPTED)
        expect(all.answer.place == n, "the place of a list", s, n);
    else if (room > 0)
        expect(same_answer(all.answer, step.run.answer), "the refusal of a list", s, n);
    if (room == 0)
        step.reader.checked = all.answer.number == CTEXT_ACCEPTED || from.checked != 0;
    expect(same_run_reader(all.reader, step.reader), "the reader after a list", s, n);
    free(list);
    return all;
}

/* Lists of no room, of little and of more than enough, up to the end and past it. */
static void runs_listed(const uint8_t *s, size_t n, ctext_answer check)
{
    size_t room;
    for (room = 0; room <= n + 1 && room < 6; room++) {
        ctext_run_reader reader = ctext_open_runs();
        unsigned past = 0;
        while (past < 2) {
            ctext_runs_step step = listed(s, n, reader, room);
            expect(step.answer.number == check.number && step.answer.place == check.place,
                   "the answer of a list", s, n);
            past += step.answer.count == 0;
            reader = step.reader;
        }
    }
}

/* The runs stand one after the other and hold every character and space. */
static void runs(const uint8_t *s, size_t n, const ctext_unit *units, ctext_answer check)
{
    size_t octets = 0, shown = 0, end = 0, k, i;
    for (i = 0; check.number == CTEXT_ACCEPTED && i < check.count; i++)
        if (units[i].kind <= CTEXT_KIND_SPACE)
            octets += units[i].length;
    for (k = 0; k <= n; k++) {
        ctext_run_bounds run = ctext_run(s, n, k);
        if (run.answer.number != CTEXT_ACCEPTED) {
            expect(run.start == run.end && run.set == 0 && run.width == 0 && run.direction == 0,
                   "the part beside a refusal", s, n);
            expect(check.number == CTEXT_ACCEPTED ? is_answer(run.answer, CTEXT_BAD_UNIT, 0, 0)
                                                  : same_answer(run.answer, check),
                   "the refusal of a run", s, n);
            break;
        }
        expect(run.start >= end && run.start < run.end && run.end <= n, "a run's place", s, n);
        expect(run.answer.place == n && run.answer.count == run.end - run.start,
               "a run's answer", s, n);
        end = run.end;
        shown += run.end - run.start;
    }
    expect(shown == octets, "the octets of all runs", s, n);
}

/* What is written reads as the same list, and is written the same again. */
static void rewritten(const uint8_t *out, size_t o, const ctext_unit *units, size_t count)
{
    ctext_unit *again = (ctext_unit *)lend(count * sizeof *again);
    uint8_t *work = (uint8_t *)lend(CTEXT_WORK_ROOM(count));
    uint8_t *twice = (uint8_t *)lend(o);
    ctext_answer a = ctext_read(out, o, again, count);
    size_t i;
    expect(a.number == CTEXT_ACCEPTED && a.count == count, "reading what was written", out, o);
    for (i = 0; i < a.count; i++)
        expect(units[i].kind == again[i].kind && units[i].set == again[i].set
                   && units[i].code == again[i].code && units[i].direction == again[i].direction
                   && units[i].depth == again[i].depth,
               "a unit of what was written", out, o);
    a = ctext_write(again, count, out, o, work, CTEXT_WORK_ROOM(count), twice, o);
    expect(a.number == CTEXT_ACCEPTED && a.count == o, "writing twice", out, o);
    expect(o == 0 || memcmp(out, twice, o) == 0, "the octets written twice", out, o);
    free(twice);
    free(work);
    free(again);
}

/* Work room and output one short, exact, and more than enough. */
static void written(const uint8_t *s, size_t n, const ctext_unit *units, size_t count)
{
    size_t room = CTEXT_WORK_ROOM(count);
    uint8_t *work = (uint8_t *)lend(room);
    uint8_t *large = (uint8_t *)lend(n + 1);
    uint8_t *exact;
    ctext_answer a;
    memset(large, PATTERN, n + 1);
    a = ctext_write(units, count, s, n, work, room - 1, large, n + 1);
    expect(a.number == CTEXT_NO_WORK_ROOM && a.place == 0 && a.count == 0, "work room", s, n);
    expect(untouched(large, n + 1), "output of a refusal", s, n);
    a = ctext_write(units, count, s, n, work, room, large, n + 1);
    expect(a.number == CTEXT_ACCEPTED && a.place == count && a.count <= n, "writing", s, n);
    expect(untouched(large + a.count, n + 1 - a.count), "the rest of the output", s, n);
    exact = (uint8_t *)lend(a.count);
    expect(same_answer(ctext_write(units, count, s, n, work, room, exact, a.count), a),
           "writing into exact output", s, n);
    expect(a.count == 0 || memcmp(exact, large, a.count) == 0, "the octets", s, n);
    rewritten(exact, a.count, units, count);
    written_misdirected(s, n, units, count, a, exact);
    if (a.count > 0) {
        size_t needed = a.count;
        memset(exact, PATTERN, needed);
        a = ctext_write(units, count, s, n, work, room, exact, needed - 1);
        expect(a.number == CTEXT_NO_ROOM && a.place == 0 && a.count == needed, "no room", s, n);
        expect(untouched(exact, needed), "output too short", s, n);
    }
    free(exact);
    free(large);
    free(work);
}

/* The octets are those that ctext_write gives for the string's units. */
static void same_form(const uint8_t *s, size_t n, const ctext_unit *units, size_t count,
                      const uint8_t *form, size_t length)
{
    uint8_t *work = (uint8_t *)lend(CTEXT_WORK_ROOM(count));
    uint8_t *out = (uint8_t *)lend(n);
    ctext_answer a = ctext_write(units, count, s, n, work, CTEXT_WORK_ROOM(count), out, n);
    expect(a.number == CTEXT_ACCEPTED && a.count == length
               && (length == 0 || memcmp(out, form, length) == 0),
           "the form printed, and that written", s, n);
    free(out);
    free(work);
}

/* What the program prints: into no output, one too short, exact, and larger. */
static void printed(const uint8_t *s, size_t n, const ctext_unit *units, ctext_answer check)
{
    ctext_printed needed = ctext_program(s, n, NULL, 0), p;
    size_t length = needed.length;
    uint8_t *exact = (uint8_t *)lend(length);
    uint8_t *large = (uint8_t *)lend(length + 1);
    char line[64];
    memset(large, PATTERN, length + 1);
    p = ctext_program(s, n, large, length + 1);
    expect(p.length == length && untouched(large + length, 1), "what is printed", s, n);
    if (p.answer.number == CTEXT_ACCEPTED) {
        expect(check.number == CTEXT_ACCEPTED && p.answer.count == length, "a form printed", s, n);
        same_form(s, n, units, check.count, large, length);
        expect(length == 0 || (needed.answer.number == CTEXT_NO_ROOM && needed.answer.count == length),
               "the octets needed", s, n);
    } else {
        int m = snprintf(line, sizeof line, "refused %u at %lu\n", (unsigned)p.answer.number,
                         (unsigned long)p.answer.place);
        expect(m > 0 && (size_t)m == length && memcmp(large, line, length) == 0, "a line printed", s, n);
        expect(same_answer(p.answer, check) && same_answer(needed.answer, check), "a line's answer", s, n);
    }
    p = ctext_program(s, n, exact, length);
    expect(p.length == length && (length == 0 || memcmp(exact, large, length) == 0),
           "what is printed into exact output", s, n);
    if (length > 0) {
        memset(exact, PATTERN, length);
        p = ctext_program(s, n, exact, length - 1);
        expect(p.length == length && untouched(exact, length), "what does not fit", s, n);
    }
    free(large);
    free(exact);
}

/* ctext_read or ctext_archive_read. */
typedef ctext_answer list_way(const uint8_t *s, size_t n, ctext_unit *units, size_t room);

/* Into a list with a record before it and one after it that are not lent: both stay. */
static void list_within(list_way *way, const uint8_t *s, size_t n, size_t room)
{
    ctext_unit *list = (ctext_unit *)lend_pattern((room + 2) * sizeof *list);
    way(s, n, list + 1, room);
    expect(untouched(list, sizeof *list), "what stands before a list", s, n);
    expect(untouched(list + 1 + room, sizeof *list), "what stands after a list", s, n);
    free(list);
}

/* Both readers into lists of exactly so many records: the same answer, the same
   units, and the rest of the list stays, the whole of it beside a refusal. */
static void archive_list(const uint8_t *s, size_t n, size_t room)
{
    ctext_unit *first = (ctext_unit *)lend_pattern(room * sizeof *first);
    ctext_unit *second = (ctext_unit *)lend_pattern(room * sizeof *second);
    ctext_answer wanted = ctext_read(s, n, first, room), a = ctext_archive_read(s, n, second, room);
    size_t stored = wanted.number == CTEXT_ACCEPTED ? wanted.count : 0, rest = (room - stored) * sizeof *first, i;
    expect(same_answer(a, wanted), "the answer of an archive's list", s, n);
    for (i = 0; i < stored && i < room; i++)
        expect(same_unit(&first[i], &second[i]), "a unit of an archive's list", s, n);
    expect(stored == room || (stored < room && untouched(first + stored, rest)), "what stays of a list", s, n);
    expect(stored == room || (stored < room && untouched(second + stored, rest)), "what stays of an archive's list", s, n);
    list_within(ctext_read, s, n, room);
    list_within(ctext_archive_read, s, n, room);
    free(second);
    free(first);
}

/* The archive reader and the first one: no list, lists one record too short, exact
   and larger, and one for each octet. */
static void archive(const uint8_t *s, size_t n)
{
    ctext_answer check = ctext_check(s, n);
    expect(same_answer(ctext_archive_check(s, n), check), "the answer of an archive's check", s, n);
    archive_list(s, n, 0);
    if (check.count > 1)
        archive_list(s, n, check.count - 1);
    archive_list(s, n, check.count + 1);
    if (check.count > 0)
        archive_list(s, n, check.count);
    if (n > check.count + 1)
        archive_list(s, n, n);
    archived++;
}

static void try_string(const uint8_t *octets, size_t n)
{
    uint8_t *s = lend_copy(octets, n);
    ctext_answer check, a;
    size_t room;
    ctext_unit *units;
    check = ctext_check(s, n);
    strings++;
    accepted += check.number == CTEXT_ACCEPTED;
    room = check.number == CTEXT_ACCEPTED ? check.count : 2;
    units = (ctext_unit *)lend(room * sizeof *units);
    if (room > 0) {
        memset(units, PATTERN, room * sizeof *units);
        a = ctext_read(s, n, units, check.number == CTEXT_ACCEPTED ? room - 1 : room);
        expect(a.number == (check.number == CTEXT_ACCEPTED ? CTEXT_NO_ROOM : check.number),
               "a list too short", s, n);
        expect(untouched(units, room * sizeof *units), "the list of a refusal", s, n);
    }
    a = ctext_read(s, n, units, room);
    expect(same_answer(a, check), "the answer of the list", s, n);
    list_is_directed(s, n, units, a.number == CTEXT_ACCEPTED ? a.count : 0);
    archive(s, n);
    steps(s, n, units, check);
    runs(s, n, units, check);
    printed(s, n, units, check);
    runs_in_order(s, n);
    runs_listed(s, n, check);
    if (a.number == CTEXT_ACCEPTED)
        written(s, n, units, a.count);
    expect(n == 0 || memcmp(s, octets, n) == 0, "the string itself", s, n);
    free(units);
    free(s);
}

static void try_elements(unsigned most, const uint8_t *before, size_t n)
{
    uint8_t octets[64];
    size_t i;
    try_string(before, n);
    if (most == 0)
        return;
    if (n > 0)
        memcpy(octets, before, n);
    for (i = 0; i < MANY; i++) {
        size_t more = strlen(ELEMENTS[i]);
        memcpy(octets + n, ELEMENTS[i], more);
        try_elements(most - 1, octets, n + more);
    }
}

/* The archive reader on these octets with each element behind them. */
static void try_behind(uint8_t *octets, size_t n)
{
    size_t i;
    for (i = 0; i < MANY; i++) {
        size_t more = strlen(ELEMENTS[i]);
        uint8_t *s;
        memcpy(octets + n, ELEMENTS[i], more);
        s = lend_copy(octets, n + more);
        archive(s, n + more);
        free(s);
    }
}

/* Stretches: an element so often, after one that designates or begins a direction,
   or none. */
static void try_stretches(void)
{
    static const char *const BEFORE[] = { "", "\x1B\x24\x28\x42", "\x1B\x24\x29\x43", "\x1B\x29\x49", "\x9B\x32\x5D" };
    static const size_t OFTEN[] = { 3, 7, 8, 9, 15, 16, 17, 33, 65 };
    uint8_t octets[1024];
    size_t b, i, j, k;
    for (b = 0; b < sizeof BEFORE / sizeof BEFORE[0]; b++)
        for (i = 0; i < MANY; i++)
            for (j = 0; j < sizeof OFTEN / sizeof OFTEN[0]; j++) {
                size_t n = strlen(BEFORE[b]), more = strlen(ELEMENTS[i]);
                memcpy(octets, BEFORE[b], n);
                for (k = 0; k < OFTEN[j]; k++, n += more)
                    memcpy(octets + n, ELEMENTS[i], more);
                try_behind(octets, n);
            }
}

/* ctext_resource_write or ctext_resource_read. */
typedef ctext_answer resource_way(const uint8_t *s, size_t n, uint8_t *out, size_t o);

/* One call, into output of exactly so many octets, which the caller frees. What
   the answer does not count stays. */
static uint8_t *turned_into(resource_way *way, const uint8_t *s, size_t n, size_t room, ctext_answer *a)
{
    uint8_t *out = lend_pattern(room);
    size_t stored;
    *a = way(s, n, out, room);
    stored = a->number == CTEXT_ACCEPTED ? a->count : 0;
    expect(stored == room || (stored < room && untouched(out + stored, room - stored)),
           "what stays of a resource's output", s, n);
    return out;
}

/* Into no output, and into one octet less than is needed, as many, and more: the
   answer, and the octets, which the caller frees. */
static uint8_t *turned(resource_way *way, const uint8_t *s, size_t n, ctext_answer *a)
{
    size_t needed = way(s, n, NULL, 0).count;
    ctext_answer larger;
    uint8_t *wide, *out;
    if (needed > 0) {
        free(turned_into(way, s, n, needed - 1, a));
        expect(is_answer(*a, CTEXT_NO_ROOM, 0, needed), "a resource's output too short", s, n);
    }
    wide = turned_into(way, s, n, needed > 0 ? needed + 1 : n + 1, &larger);
    out = turned_into(way, s, n, needed, a);
    expect(same_answer(*a, larger), "a resource's exact output", s, n);
    expect(a->number != CTEXT_ACCEPTED || same_octets(wide, needed, out, needed), "a resource's larger output", s, n);
    free(wide);
    expect(a->number != CTEXT_ACCEPTED || (a->place == n && a->count == needed), "a resource's answer", s, n);
    return out;
}

/* What is read of a form is what was written, and 1 to 4 octets stand for each. */
static void form_written(const uint8_t *s, size_t n)
{
    ctext_answer written, read;
    uint8_t *form = turned(ctext_resource_write, s, n, &written);
    uint8_t *plain = turned(ctext_resource_read, form, written.count, &read);
    expect(written.number == CTEXT_ACCEPTED && written.count >= n && written.count <= 4 * n,
           "the form of a string", s, n);
    expect(read.number == CTEXT_ACCEPTED && same_octets(plain, read.count, s, n), "a form read", s, n);
    free(plain);
    free(form);
}

/* A string as a form is the one of its octets, or what stands before the place of
   its refusal is a form. */
static void form_read(const uint8_t *s, size_t n)
{
    ctext_answer read, other;
    uint8_t *plain = turned(ctext_resource_read, s, n, &read);
    if (read.number == CTEXT_ACCEPTED) {
        uint8_t *form = turned(ctext_resource_write, plain, read.count, &other);
        expect(same_octets(form, other.count, s, n), "the only form", s, n);
        free(form);
        forms++;
    } else {
        int placed = read.number == CTEXT_BAD_FORM && read.place < n && read.count == 0;
        uint8_t *before = lend_copy(s, placed ? read.place : 0);
        expect(placed && memchr("\\\n", s[read.place], 3) != NULL, "an octet that is refused", s, n);
        free(turned(ctext_resource_read, before, placed ? read.place : 0, &other));
        expect(other.number == CTEXT_ACCEPTED, "a form before a refusal", s, n);
        free(before);
    }
    free(plain);
}

static void try_form(const uint8_t *octets, size_t n)
{
    uint8_t *s = lend_copy(octets, n);
    form_written(s, n);
    form_read(s, n);
    expect(same_octets(s, n, octets, n), "the string itself, by a resource", s, n);
    free(s);
}

static void try_forms(unsigned most, uint8_t *octets, size_t n)
{
    size_t i;
    try_form(octets, n);
    for (i = 0; most > 0 && i < sizeof LETTERS; i++) {
        octets[n] = LETTERS[i];
        try_forms(most - 1, octets, n + 1);
    }
}

/* Each escape, and what looks like one. */
static void try_escapes(void)
{
    static const uint8_t plain[] = { 'A', '\\', 0x0A, 0x00, '1', 0x1B, 0xE9 };
    static const char form[] = "A\\\\\\n\\0001\x1B\xE9";
    static const struct { const char *form; size_t place; } bad[] = {
        { "\\", 0 }, { "A\\0", 1 }, { "\\\\\\00", 2 }, { "\\N", 0 }, { "\\x00", 0 }, { "\\012", 0 },
        { "\\n\\001", 2 }, { "\\ ", 0 }, { "A\n", 1 }, { "A\n\\", 1 }
    };
    ctext_answer a;
    uint8_t *out = turned(ctext_resource_write, plain, sizeof plain, &a);
    size_t i;
    expect(same_octets(out, a.count, (const uint8_t *)form, strlen(form)), "the escapes", plain, sizeof plain);
    free(out);
    for (i = 0; i < sizeof bad / sizeof bad[0]; i++) {
        const uint8_t *s = (const uint8_t *)bad[i].form;
        a = ctext_resource_read(s, strlen(bad[i].form), NULL, 0);
        expect(is_answer(a, CTEXT_BAD_FORM, bad[i].place, 0), "no escape", s, strlen(bad[i].form));
    }
}

/* Strings and forms at their limits and one octet longer, of one octet but for
   the last. */
static void try_form_limits(void)
{
    static const struct { resource_way *way; int octet, last; size_t n; ctext_answer a; } most[] = {
        { ctext_resource_write, 'A', '\\', 65535, { 65535, 65536, 0 } },
        { ctext_resource_write, 0x00, 0x00, 65535, { 65535, 262140, 0 } },
        { ctext_resource_write, 'A', 'A', 65536, { 0, 0, CTEXT_TOO_LONG } },
        { ctext_resource_read, 'A', 'A', 65535, { 65535, 65535, 0 } },
        { ctext_resource_read, '\\', '\\', 131070, { 131070, 65535, 0 } },
        { ctext_resource_read, 'A', 'A', 65536, { 0, 0, CTEXT_TOO_LONG } },
        { ctext_resource_read, 'A', 0x0A, 65536, { 65535, 0, CTEXT_BAD_FORM } },
        { ctext_resource_read, 'A', 'A', 262140, { 0, 0, CTEXT_TOO_LONG } },
        { ctext_resource_read, 'A', '\\', 262140, { 262139, 0, CTEXT_BAD_FORM } },
        { ctext_resource_read, 0x00, 0x00, 262141, { 0, 0, CTEXT_TOO_LONG } }
    };
    size_t i;
    for (i = 0; i < sizeof most / sizeof most[0]; i++) {
        size_t n = most[i].n;
        uint8_t *s = (uint8_t *)lend(n);
        ctext_answer a;
        memset(s, most[i].octet, n);
        s[n - 1] = (uint8_t)most[i].last;
        free(turned(most[i].way, s, n, &a));
        expect(same_answer(a, most[i].a), "a resource at its limit", s, 1);
        if (most[i].way == ctext_resource_write && n <= CTEXT_MOST_OCTETS)
            form_written(s, n);
        free(s);
    }
}

/* Readers made by hand, good and bad ones. */
static void try_readers(void)
{
    static const uint8_t s[] = { 0x09, 0x09 };
    unsigned gl, gr, depth, place;
    for (gl = 0; gl < 20; gl++)
        for (gr = 0; gr < 20; gr++)
            for (depth = 0; depth < 20; depth++)
                for (place = 0; place < 4; place++) {
                    int good = (gl == 0 || gl == 2 || (gl >= 12 && gl <= 14))
                        && (gr == 1 || (gr >= 3 && gr <= 14)) && depth <= CTEXT_MOST_OPEN
                        && place <= sizeof s;
                    ctext_reader r = ctext_open();
                    ctext_step step;
                    r.gl = (uint8_t)gl;
                    r.gr = (uint8_t)gr;
                    r.depth = (uint8_t)depth;
                    r.place = place;
                    r.count = SIZE_MAX;
                    r.levels = UINT64_MAX;
                    step = ctext_next(s, sizeof s, r);
                    if (good && place < sizeof s)
                        expect(step.given == 1 && step.unit.kind == CTEXT_KIND_TAB
                                   && step.unit.direction == (depth == 0 ? 0 : CTEXT_DIRECTION_RIGHT_TO_LEFT)
                                   && step.unit.depth == depth && step.reader.place == place + 1
                                   && step.reader.count == SIZE_MAX,
                               "a good reader", s, 2);
                    else
                        expect(step.given == 0 && step.reader.place == place
                                   && step.answer.number == (good ? 0 : CTEXT_BAD_UNIT)
                                   && step.answer.place == (good ? place : 0),
                               "a bad reader, or one at the end", s, 2);
                }
}

/* The program's 909 units, one more, and one octet more than a string has. */
static void try_program(void)
{
    static const struct { size_t n; const char *line; } most[] = {
        { 909, NULL }, { 910, "refused 12 at 0\n" }, { CTEXT_MOST_OCTETS, "refused 12 at 0\n" },
        { CTEXT_MOST_OCTETS + 1, "refused 1 at 0\n" }
    };
    uint8_t *s = (uint8_t *)lend(CTEXT_MOST_OCTETS + 1);
    uint8_t *out = (uint8_t *)lend(CTEXT_MOST_OCTETS);
    size_t i;
    memset(s, 0x20, CTEXT_MOST_OCTETS + 1);
    for (i = 0; i < sizeof most / sizeof most[0]; i++) {
        ctext_printed p = ctext_program(s, most[i].n, out, CTEXT_MOST_OCTETS);
        const void *expected = most[i].line ? (const void *)most[i].line : s;
        expect(p.length == (most[i].line ? strlen(most[i].line) : most[i].n)
                   && memcmp(out, expected, p.length) == 0,
               "the program's limits", s, 1);
    }
    free(out);
    free(s);
}

/* Readers of runs made by hand, good and bad ones: from the last run on, and
   past the string. */
static void try_run_readers(void)
{
    static const uint8_t octets[] = { 0x41, 0x09, 0xE9 };
    uint8_t *s = (uint8_t *)lend(sizeof octets);
    unsigned gr, depth, place, room;
    memcpy(s, octets, sizeof octets);
    for (gr = 0; gr < 20; gr++)
        for (depth = 0; depth < 20; depth++)
            for (place = 0; place < 8; place++) {
                int good = (gr == 1 || (gr >= 3 && gr <= 14)) && depth <= CTEXT_MOST_OPEN
                    && place <= sizeof octets;
                int shown = good && place < sizeof octets && (gr < 12 || place == 0);
                ctext_run_reader r = ctext_open_runs();
                ctext_run_step step;
                r.gr = (uint8_t)gr;
                r.depth = (uint8_t)depth;
                r.place = place;
                r.levels = UINT64_MAX;
                r.checked = (uint8_t)(depth * 7);
                step = ctext_next_run(s, sizeof octets, r);
                expect((step.run.answer.number == CTEXT_ACCEPTED) == shown, "a reader of runs", s, 3);
                expect(shown || step.run.start == step.run.end, "no run", s, 3);
                expect(good || (step.run.answer.number == CTEXT_BAD_UNIT && step.reader.place == place),
                       "a bad reader of runs", s, 3);
                for (room = 0; room < 3; room++) {
                    int taken = good && (room == 0 || shown || place == sizeof octets);
                    ctext_answer a = listed(s, sizeof octets, r, room).answer;
                    expect((a.number == CTEXT_ACCEPTED) == taken, "a list of a reader", s, 3);
                    expect(good || a.number == CTEXT_BAD_UNIT, "a list of a bad reader", s, 3);
                }
            }
    free(s);
}

/* ---- The places of refusals ---------------------------------------------- */

/* Strings in hexadecimal, with the number and the place of their refusal, where the
   refused element starts, and the units before it. */
static const struct { const char *octets; uint8_t number; size_t place, element, units; } PLACED[] = {
    /* those that the rules name */
    { "1B 24 42", 4, 2, 0, 0 }, { "1B 28", 2, 2, 0, 0 }, { "1B 29 42", 5, 2, 0, 0 },
    { "1B 28 21 42", 5, 3, 0, 0 }, { "1B 24 28 42 30", 2, 5, 4, 0 },
    { "1B 25 2F 32 80 84 61 62 02 FF", 7, 9, 0, 0 },
    /* 2: the length */
    { "1B", 2, 1, 0, 0 }, { "1B 24", 2, 2, 0, 0 }, { "1B 24 29", 2, 3, 0, 0 }, { "1B 2D 23 20", 2, 4, 0, 0 },
    { "1B 24 28 42 30 21 30", 2, 7, 6, 1 }, { "1B 24 29 43 C0 B1 C0", 2, 7, 6, 1 }, { "9B", 2, 1, 0, 0 },
    { "9B 31", 2, 2, 0, 0 }, { "1B 25", 2, 2, 0, 0 }, { "1B 25 2F", 2, 3, 0, 0 }, { "1B 25 2F 30", 2, 4, 0, 0 },
    { "1B 25 2F 30 80", 2, 5, 0, 0 }, { "1B 25 2F 30 80 81", 2, 6, 0, 0 },
    { "1B 25 2F 32 80 84 2A 3F 02", 2, 9, 0, 0 },
    /* 3: the first octet */
    { "00", 3, 0, 0, 0 }, { "07", 3, 0, 0, 0 }, { "7F", 3, 0, 0, 0 }, { "80", 3, 0, 0, 0 }, { "9F", 3, 0, 0, 0 },
    { "41 0D", 3, 1, 1, 1 }, { "1B 24 28 42 20", 3, 4, 4, 0 }, { "1B 24 28 42 7F", 3, 4, 4, 0 },
    { "1B 29 49 A0", 3, 3, 3, 0 }, { "1B 29 49 FF", 3, 3, 3, 0 }, { "1B 24 29 41 A0", 3, 4, 4, 0 },
    { "1B 24 29 41 B0 A1 FF", 3, 6, 6, 1 },
    /* 3: the second octet of a character */
    { "1B 24 28 42 30 07", 3, 5, 4, 0 }, { "1B 24 28 42 30 20", 3, 5, 4, 0 }, { "1B 24 28 42 30 7F", 3, 5, 4, 0 },
    { "1B 24 28 42 30 1B", 3, 5, 4, 0 }, { "1B 24 28 42 30 9B", 3, 5, 4, 0 }, { "1B 24 28 42 30 A1", 3, 5, 4, 0 },
    { "1B 24 28 42 30 21 7E 09", 3, 7, 6, 1 }, { "1B 24 29 43 C0 31", 3, 5, 4, 0 },
    { "1B 24 29 43 C0 A0", 3, 5, 4, 0 }, { "1B 24 29 43 C0 FF", 3, 5, 4, 0 }, { "1B 24 29 43 FE 1B", 3, 5, 4, 0 },
    /* 4: the first octet with which the sequence is unknown */
    { "1B 41", 4, 1, 0, 0 }, { "1B 1B 28 42", 4, 1, 0, 0 }, { "1B 20", 4, 1, 0, 0 }, { "1B 24 2D", 4, 2, 0, 0 },
    { "1B 24 1B", 4, 2, 0, 0 }, { "1B 25 47", 4, 2, 0, 0 }, { "1B 25 2F 35", 4, 3, 0, 0 },
    { "1B 25 2F 2F", 4, 3, 0, 0 }, { "1B 28 20 42", 4, 2, 0, 0 }, { "1B 28 24 42", 4, 2, 0, 0 },
    { "1B 2D 2F", 4, 2, 0, 0 }, { "1B 29 30", 4, 2, 0, 0 }, { "1B 28 7F", 4, 2, 0, 0 }, { "1B 28 C2", 4, 2, 0, 0 },
    { "1B 28 21 30", 4, 3, 0, 0 }, { "1B 28 22 20 2F 1B", 4, 5, 0, 0 }, { "1B 24 28 24", 4, 3, 0, 0 },
    { "1B 24 29 23 3F", 4, 4, 0, 0 }, { "9B 30", 4, 1, 0, 0 }, { "9B 33 5D", 4, 1, 0, 0 }, { "9B 9B", 4, 1, 0, 0 },
    { "9B 31 31", 4, 2, 0, 0 }, { "9B 32 5B", 4, 2, 0, 0 },
    /* 5: the final octet; 6: the 23 */
    { "1B 28 41", 5, 2, 0, 0 }, { "1B 29 4A", 5, 2, 0, 0 }, { "1B 2D 62", 5, 2, 0, 0 }, { "1B 24 28 44", 5, 3, 0, 0 },
    { "1B 24 29 40", 5, 3, 0, 0 }, { "1B 29 23 49", 5, 3, 0, 0 }, { "1B 24 28 21 20 2F 42", 5, 6, 0, 0 },
    { "1B 23", 6, 1, 0, 0 }, { "1B 23 20 30", 6, 1, 0, 0 }, { "41 1B 23", 6, 2, 1, 1 },
    /* 7: M, also before a low L; L; L where n is 0 */
    { "1B 25 2F 31 7F", 7, 4, 0, 0 }, { "1B 25 2F 31 00 00", 7, 4, 0, 0 }, { "1B 25 2F 31 80 7F", 7, 5, 0, 0 },
    { "1B 25 2F 31 80 80", 7, 5, 0, 0 },
    /* 7: a bad octet of the name, also without an 02 and where the text's length is wrong too */
    { "1B 25 2F 31 80 83 61 20 02", 7, 7, 0, 0 }, { "1B 25 2F 31 80 82 A0 02", 7, 6, 0, 0 },
    { "1B 25 2F 31 80 83 2A 3F 62", 7, 6, 0, 0 }, { "1B 25 2F 31 80 83 61 62 7F", 7, 8, 0, 0 },
    { "1B 25 2F 32 80 84 61 3F 02 FF", 7, 7, 0, 0 },
    /* 7: the 02 of an empty name, also where the text's length is wrong too */
    { "1B 25 2F 31 80 81 02", 7, 6, 0, 0 }, { "1B 25 2F 31 80 82 02 02", 7, 6, 0, 0 },
    { "1B 25 2F 32 80 82 02 FF", 7, 6, 0, 0 },
    /* 7: the last of the n octets, without an 02 and where the text's length is wrong */
    { "1B 25 2F 31 80 81 61", 7, 6, 0, 0 }, { "1B 25 2F 30 80 82 61 FF", 7, 7, 0, 0 },
    { "1B 25 2F 32 80 83 61 02 FF", 7, 8, 0, 0 }, { "1B 25 2F 33 80 84 61 02 FF FF", 7, 9, 0, 0 },
    { "1B 25 2F 34 80 88 61 02 02 02 02 02 02 02", 7, 13, 0, 0 },
    /* 8: the start; 9 is in try_depth */
    { "41 9B 31 5D", 8, 1, 1, 1 }, { "9B 5D", 8, 0, 0, 0 }, { "9B 31 5D 9B 5D 41", 8, 5, 5, 2 },
    { "9B 31 5D 9B 5D 1B 24 28 42 30 21", 8, 9, 9, 2 },
    { "9B 31 5D 9B 5D 1B 25 2F 31 80 83 61 02 FF", 8, 5, 5, 2 }
};

/* The octets of a row, or of those that stand before or after it. */
static size_t octets_of(const char *hexadecimal, uint8_t *octets)
{
    size_t n = 0;
    char *rest;
    for (; *hexadecimal != '\0'; hexadecimal = rest)
        octets[n++] = (uint8_t)strtoul(hexadecimal, &rest, 16);
    return n;
}

/* Runs by a reader that takes the string for accepted: those before the refused
   element, and then its refusal. */
static void placed_runs(const uint8_t *s, size_t n, ctext_answer wanted)
{
    ctext_run_reader unchecked = ctext_open_runs();
    ctext_run_step step;
    ctext_runs_step all;
    unchecked.checked = 1;
    step = ctext_next_run(s, n, unchecked);
    while (step.run.answer.number == CTEXT_ACCEPTED)
        step = ctext_next_run(s, n, step.reader);
    expect(same_answer(step.run.answer, wanted), "the place of a run in order", s, n);
    all = listed(s, n, unchecked, 2);
    while (all.answer.number == CTEXT_ACCEPTED && all.answer.count > 0)
        all = listed(s, n, all.reader, 2);
    expect(same_answer(all.answer, wanted), "the place of a list of runs", s, n);
}

/* Each function that hands back the string's refusal, and where the reader stands. */
static void placed_at(const uint8_t *octets, size_t n, ctext_answer wanted, size_t element, size_t units)
{
    uint8_t *s = lend_copy(octets, n);
    ctext_unit *list = (ctext_unit *)lend(n * sizeof *list);
    ctext_step step = ctext_next(s, n, ctext_open());
    expect(same_answer(ctext_check(s, n), wanted), "the place of a check", s, n);
    expect(same_answer(ctext_read(s, n, list, n), wanted), "the place of a list", s, n);
    expect(same_answer(ctext_archive_check(s, n), wanted), "the place of an archive's check", s, n);
    expect(same_answer(ctext_archive_read(s, n, list, n), wanted), "the place of an archive's list", s, n);
    expect(same_answer(ctext_run(s, n, 0).answer, wanted), "the place of a run", s, n);
    expect(same_answer(ctext_next_run(s, n, ctext_open_runs()).run.answer, wanted), "the place of a first run", s, n);
    expect(same_answer(listed(s, n, ctext_open_runs(), 2).answer, wanted), "the place of first runs", s, n);
    placed_runs(s, n, wanted);
    printed(s, n, NULL, wanted);
    while (step.given)
        step = ctext_next(s, n, step.reader);
    expect(same_answer(step.answer, wanted), "the place of a step", s, n);
    expect(step.reader.place == element && step.reader.count == units, "where the element starts", s, n);
    places++;
    free(list);
    free(s);
}

/* Each row by itself and after a tab and two designations; and where it is not the
   end that cuts it, also with a letter after it. */
static void try_places(void)
{
    uint8_t octets[64];
    size_t i, around, before, n;
    for (i = 0; i < sizeof PLACED / sizeof PLACED[0]; i++)
        for (around = 0; around < (PLACED[i].number == CTEXT_CUT ? 2 : 4); around++) {
            ctext_answer wanted = { 0, 0, PLACED[i].number };
            before = around % 2 == 0 ? 0 : octets_of("09 1B 28 4A 1B 2D 42", octets);
            n = before + octets_of(PLACED[i].octets, octets + before);
            n += around < 2 ? 0 : octets_of("41", octets + n);
            wanted.place = before + PLACED[i].place;
            placed_at(octets, n, wanted, before + PLACED[i].element, around % 2 + PLACED[i].units);
        }
}

/* Where the reader stands, and with which sets and directions, after designations:
   at the end, and before an element that is refused. */
static void try_standing(void)
{
    static const struct { const char *octets; ctext_answer answer; ctext_reader reader; } STANDING[] = {
        { "41 1B 28 4A 1B 2D 42", { 7, 1, 0 }, { 0, 7, 1, CTEXT_SET_JISX0201_LEFT, CTEXT_SET_ISO8859_2_RIGHT, 0, 0, 1 } },
        { "41 1B 28 4A 1B 2D 42 07", { 7, 0, 3 }, { 0, 7, 1, CTEXT_SET_JISX0201_LEFT, CTEXT_SET_ISO8859_2_RIGHT, 0, 0, 1 } },
        { "41 1B 28 4A 1B 24 42", { 6, 0, 4 }, { 0, 4, 1, CTEXT_SET_JISX0201_LEFT, CTEXT_SET_ISO8859_1_RIGHT, 0, 0, 1 } },
        { "1B 24 28 41 1B 29 49 20", { 7, 0, 3 }, { 0, 7, 0, CTEXT_SET_GB2312, CTEXT_SET_JISX0201_RIGHT, 0, 0, 0 } },
        { "1B 24 29 43 1B 24 28 42 30 07", { 9, 0, 3 }, { 0, 8, 0, CTEXT_SET_JISX0208, CTEXT_SET_KSC5601, 0, 0, 0 } },
        { "9B 32 5D 1B 2D 48 1B", { 7, 0, 2 }, { 1, 6, 1, CTEXT_SET_ASCII, CTEXT_SET_ISO8859_8_RIGHT, 1, 1, 0 } },
        { "9B 31 5D 9B 5D 1B 28 4A 41", { 8, 0, 8 }, { 0, 8, 2, CTEXT_SET_JISX0201_LEFT, CTEXT_SET_ISO8859_1_RIGHT, 0, 1, 0 } }
    };
    size_t i;
    for (i = 0; i < sizeof STANDING / sizeof STANDING[0]; i++) {
        uint8_t octets[16], *s;
        size_t n = octets_of(STANDING[i].octets, octets);
        ctext_step step;
        s = lend_copy(octets, n);
        for (step = ctext_next(s, n, ctext_open()); step.given; step = ctext_next(s, n, step.reader))
            continue;
        step.reader.levels &= ((uint64_t)1 << step.reader.depth) - 1; /* no other digit means anything */
        expect(same_answer(step.answer, STANDING[i].answer) && same_reader(step.reader, STANDING[i].reader),
               "a reader past designations", s, n);
        free(s);
    }
}

/* A string that is too long, and a reader that cannot be, leave the reader as it was. */
static void try_staying(void)
{
    uint8_t *s = (uint8_t *)lend(CTEXT_MOST_OCTETS + 1);
    ctext_reader r = ctext_open();
    ctext_step step;
    memset(s, 0x20, CTEXT_MOST_OCTETS + 1);
    memcpy(s, "\x1B\x28\x4A", 3);
    step = ctext_next(s, CTEXT_MOST_OCTETS + 1, r);
    expect(is_answer(step.answer, CTEXT_TOO_LONG, 0, 0) && same_reader(step.reader, r), "a reader of too long a string", s, 3);
    r.depth = CTEXT_MOST_OPEN + 1;
    step = ctext_next(s, 3, r);
    expect(is_answer(step.answer, CTEXT_BAD_UNIT, 0, 0) && same_reader(step.reader, r), "a reader that cannot be", s, 3);
    free(s);
}

/* Sixteen directions open, and a seventeenth. */
static void try_depth(void)
{
    uint8_t s[3 * (CTEXT_MOST_OPEN + 1)];
    ctext_answer a;
    size_t i;
    for (i = 0; i < sizeof s; i++)
        s[i] = (uint8_t)"\x9B\x32\x5D"[i % 3];
    a = ctext_check(s, sizeof s - 3);
    expect(a.number == CTEXT_ACCEPTED && a.count == CTEXT_MOST_OPEN, "sixteen open", s, 3);
    a = ctext_check(s, sizeof s);
    expect(a.number == CTEXT_TOO_DEEP && a.place == sizeof s - 3, "seventeen open", s, 3);
    placed_at(s, sizeof s, a, sizeof s - 3, CTEXT_MOST_OPEN);
}

/* As many runs as there can be, all in one call, and the rest after some of them;
   and a string of one octet more. */
static void try_many_runs(void)
{
    size_t most = CTEXT_MOST_OCTETS, some = 1000, i;
    uint8_t *s = (uint8_t *)lend(most + 1);
    ctext_runs_step step;
    for (i = 0; i <= most; i++)
        s[i] = i % 2 == 0 ? 0x41 : 0xE9;
    expect(listed(s, most, ctext_open_runs(), most).answer.count == most, "all runs", s, 2);
    step = listed(s, most, ctext_open_runs(), some);
    expect(step.answer.count == some, "some runs", s, 2);
    step = listed(s, most, step.reader, most);
    expect(step.answer.count == most - some && step.reader.place == most, "the other runs", s, 2);
    step = listed(s, most + 1, ctext_open_runs(), some);
    expect(step.answer.number == CTEXT_TOO_LONG && step.answer.place == 0, "runs of too long a string", s, 2);
    free(s);
}

/* The longest string and list, and one more. */
static void try_limits(void)
{
    size_t most = CTEXT_MOST_OCTETS, n;
    uint8_t *s = (uint8_t *)lend(most + 1);
    ctext_unit *units = (ctext_unit *)lend((most + 1) * sizeof *units);
    uint8_t *work = (uint8_t *)lend(CTEXT_WORK_ROOM(most + 1));
    ctext_answer a;
    memset(s, 0x20, most + 1);
    for (n = most; n <= most + 1; n++) {
        uint8_t expected = n > most ? CTEXT_TOO_LONG : CTEXT_ACCEPTED;
        expect(ctext_check(s, n).number == expected, "a check at the limit", s, 1);
        archive(s, n);
        expect(ctext_archive_check(s, n).number == expected, "an archive's check at the limit", s, 1);
        expect(ctext_read(s, n, units, most + 1).number == expected, "a list at the limit", s, 1);
        expect(ctext_run(s, n, 0).answer.number == expected, "a run at the limit", s, 1);
        expect(ctext_next_run(s, n, ctext_open_runs()).run.answer.number == expected,
               "a run in order at the limit", s, 1);
        expect(listed(s, n, ctext_open_runs(), 2).answer.number == expected,
               "a list of runs at the limit", s, 1);
        expect(ctext_next(s, n, ctext_open()).given == (expected == CTEXT_ACCEPTED),
               "a step at the limit", s, 1);
        units[most] = units[0];
        a = ctext_write(units, n, NULL, 0, work, CTEXT_WORK_ROOM(n), s, n);
        expect(a.number == expected, "a writing at the limit", s, 1);
    }
    free(work);
    free(units);
    free(s);
}

/* ---- Extended segments and the direction rule ---------------------------- */

#define LETTERS_MOST 18
#define PART_MOST 14

/* Elements, a letter for each. */
static const struct part { char letter; uint8_t kind; const char *octets; } PARTS[] = {
    { '>', CTEXT_KIND_LEFT_TO_RIGHT, "\x9B\x31\x5D" },
    { '<', CTEXT_KIND_RIGHT_TO_LEFT, "\x9B\x32\x5D" },
    { '|', CTEXT_KIND_REVERT, "\x9B\x5D" },
    { 'A', CTEXT_KIND_CHARACTER, "A" },
    { '_', CTEXT_KIND_SPACE, " " },
    { 't', CTEXT_KIND_TAB, "\t" },
    { 'n', CTEXT_KIND_NEWLINE, "\n" },
    /* segments with text: an octet, a lone 02, the octets of a mark */
    { 's', CTEXT_KIND_SEGMENT, "\x1B\x25\x2F\x30\x80\x83" "a\x02" "b" },
    { 'd', CTEXT_KIND_SEGMENT, "\x1B\x25\x2F\x31\x80\x83" "a\x02\x02" },
    { 'm', CTEXT_KIND_SEGMENT, "\x1B\x25\x2F\x33\x80\x88" "abcd\x02\x9B\x31\x5D" },
    /* without text */
    { '0', CTEXT_KIND_SEGMENT, "\x1B\x25\x2F\x30\x80\x82" "a\x02" },
    { '1', CTEXT_KIND_SEGMENT, "\x1B\x25\x2F\x31\x80\x82" "a\x02" },
    { '2', CTEXT_KIND_SEGMENT, "\x1B\x25\x2F\x32\x80\x82" "a\x02" },
    { '3', CTEXT_KIND_SEGMENT, "\x1B\x25\x2F\x33\x80\x82" "a\x02" },
    { '4', CTEXT_KIND_SEGMENT, "\x1B\x25\x2F\x34\x80\x82" "a\x02" },
    /* bad: a text of half a character, no name, no 02 */
    { 'x', CTEXT_KIND_SEGMENT, "\x1B\x25\x2F\x32\x80\x83" "a\x02" "b" },
    { 'y', CTEXT_KIND_SEGMENT, "\x1B\x25\x2F\x30\x80\x82\x02" "b" },
    { 'z', CTEXT_KIND_SEGMENT, "\x1B\x25\x2F\x30\x80\x82" "ab" }
};

#define PARTS_MANY (sizeof PARTS / sizeof PARTS[0])

/* Strings by these letters, with the number and the index of what is refused. */
static const struct { const char *letters; uint8_t number; size_t index; } DIRECTED[] = {
    /* before the first mark */
    { "s>", 8, 1 }, { "s<", 8, 1 }, { "d>", 8, 1 }, { "m<A", 8, 1 }, { "sA>", 8, 2 }, { "As>", 8, 2 },
    { "s_t>", 8, 3 }, { "stn<", 8, 3 }, { "s0>", 8, 2 }, { "0s>", 8, 2 }, { "s|", 8, 1 }, { "0|", 8, 1 },
    { "A0>", 8, 2 }, { "0A>", 8, 2 }, { "s", 0, 0 }, { "sts", 0, 0 }, { "sA", 0, 0 }, { "s0tn4", 0, 0 },
    { "0>", 0, 0 }, { "1<A", 0, 0 }, { "2>s", 0, 0 }, { "3>", 0, 0 }, { "4<", 0, 0 }, { "t0n>A", 0, 0 },
    /* after the last revert */
    { ">|s", 8, 2 }, { "<|s", 8, 2 }, { ">|d", 8, 2 }, { ">s|m", 8, 3 }, { ">|ts", 8, 3 }, { ">|0s", 8, 3 },
    { "<>A|s|s", 8, 6 }, { "><||s", 8, 4 }, { ">|sA", 8, 2 }, { ">|As", 8, 2 }, { ">|0A", 8, 3 },
    { ">|<s|s", 8, 5 }, { ">|<s", 0, 0 }, { ">|0", 0, 0 }, { ">|1", 0, 0 }, { "<|2", 0, 0 },
    { "<|3", 0, 0 }, { ">|4t", 0, 0 }, { "><||0", 0, 0 },
    /* within a direction */
    { ">s", 0, 0 }, { "<s", 0, 0 }, { ">d|", 0, 0 }, { "<>m|s|", 0, 0 }, { ">sA|<sA", 0, 0 }, { ">0|", 0, 0 },
    { ">1|", 0, 0 }, { "<4", 0, 0 }, { "<2>3s", 0, 0 }, { ">s||", 8, 3 }, { ">>>>>>>>>>>>>>>>s", 0, 0 }, { ">>>>>>>>>>>>>>>>s<", 9, 17 },
    { "s>>>>>>>>>>>>>>>>>", 8, 1 },
    /* a segment's own shape comes first */
    { ">|x", 7, 2 }, { ">|y", 7, 2 }, { ">|z", 7, 2 }, { "x>", 7, 0 }, { ">x", 7, 1 }, { "sx>", 7, 1 },
    { ">|sx", 8, 2 }, { "s>x", 8, 1 }
};

/* A string by its letters, and the list of its units, whose segments stand in it. */
typedef struct directed {
    uint8_t octets[PART_MOST * LETTERS_MOST];
    ctext_unit units[LETTERS_MOST];
    size_t places[LETTERS_MOST + 1];
    size_t count;
} directed;

static const struct part *part_of(char letter)
{
    size_t i = 0;
    while (PARTS[i].letter != letter)
        i++;
    return &PARTS[i];
}

/* The unit of an element at a place, after which the directions are open. */
static ctext_unit unit_of(const struct part *p, size_t place, const open_directions *open)
{
    size_t head = p->kind == CTEXT_KIND_SEGMENT ? 6 : 0;
    ctext_unit unit = { 0, 0, 0, 0, 0, 0, 0 };
    unit.kind = p->kind;
    if (p->kind == CTEXT_KIND_SEGMENT || p->kind == CTEXT_KIND_CHARACTER)
        unit.code = (uint8_t)p->octets[head / 2]; /* d, or the character's octet */
    unit.start = (uint32_t)(place + head);
    unit.length = (uint32_t)(strlen(p->octets) - head);
    unit.direction = open->numbers[open->depth];
    unit.depth = open->depth;
    return unit;
}

static directed directed_of(const char *letters)
{
    directed d;
    open_directions open = open_of(ctext_open());
    size_t k;
    d.count = strlen(letters);
    d.places[0] = 0;
    for (k = 0; k < d.count; k++) {
        const struct part *p = part_of(letters[k]);
        pass(&open, p->kind);
        d.units[k] = unit_of(p, d.places[k], &open);
        d.places[k + 1] = d.places[k] + strlen(p->octets);
        memcpy(d.octets + d.places[k], p->octets, strlen(p->octets));
    }
    return d;
}

static int is_text(char letter)
{
    return strchr("A_sdm", letter) != NULL;
}

/* The octet of a bad segment that is refused: the last of its text, the 02 of an
   empty name, and the last of a name without 02. */
static size_t fault_of(char letter)
{
    return letter == 'x' ? 8 : letter == 'y' ? 6 : 7;
}

/* The units before what is refused, and what the reader knows after each. */
static void directed_steps(const directed *d, const char *letters, size_t good, ctext_answer wanted)
{
    size_t n = d->places[d->count], k;
    uint8_t *s = lend_copy(d->octets, n);
    ctext_step step = ctext_next(s, n, ctext_open());
    int texted = 0, marked = 0;
    for (k = 0; k < good; k++) {
        texted |= is_text(letters[k]);
        marked |= strchr("<>|", letters[k]) != NULL;
        expect(step.given && same_unit(&step.unit, &d->units[k]), "a unit before a refusal", s, n);
        expect(step.reader.texted == texted && step.reader.marked == marked, "whether text was read", s, n);
        step = ctext_next(s, n, step.reader);
    }
    expect(!step.given && same_answer(step.answer, wanted), "a step by the direction rule", s, n);
    expect(step.reader.place == d->places[good], "where a reader stands by the direction rule", s, n);
    free(s);
}

/* The string needs no designation, and so is the shortest of its list. */
static void directed_list(const directed *d, ctext_answer wanted)
{
    size_t n = d->places[d->count], room = CTEXT_WORK_ROOM(d->count);
    ctext_unit *units = (ctext_unit *)lend(d->count * sizeof *units);
    uint8_t *segments = lend_copy(d->octets, n);
    uint8_t *work = (uint8_t *)lend(room);
    uint8_t *out = lend_pattern(n);
    ctext_answer a;
    memcpy(units, d->units, d->count * sizeof *units);
    a = ctext_write(units, d->count, segments, n, work, room, out, n);
    expect(same_answer(a, wanted), "a list by the direction rule", d->octets, n);
    expect(a.number == CTEXT_ACCEPTED ? same_octets(out, a.count, d->octets, n) : untouched(out, n),
           "the writing of a list by the direction rule", d->octets, n);
    written_misdirected(d->octets, n, units, d->count, wanted, d->octets);
    a = ctext_write(units, d->count, segments, n, NULL, 0, NULL, 0);
    expect(a.number == (wanted.number == CTEXT_ACCEPTED ? CTEXT_NO_WORK_ROOM : wanted.number),
           "the direction rule before the work room", d->octets, n);
    free(out);
    free(work);
    free(segments);
    free(units);
}

static void try_directed(void)
{
    size_t i;
    for (i = 0; i < sizeof DIRECTED / sizeof DIRECTED[0]; i++) {
        directed d = directed_of(DIRECTED[i].letters);
        int refused = DIRECTED[i].number != CTEXT_ACCEPTED;
        size_t n = d.places[d.count], good = refused ? DIRECTED[i].index : d.count;
        ctext_answer string = { d.places[good], refused ? 0 : d.count, DIRECTED[i].number };
        ctext_answer list = { good, refused ? 0 : n, DIRECTED[i].number };
        if (DIRECTED[i].number == CTEXT_BAD_SEGMENT)
            string.place += fault_of(DIRECTED[i].letters[good]);
        expect(same_answer(ctext_check(d.octets, n), string), "a string by the direction rule", d.octets, n);
        try_string(d.octets, n);
        directed_steps(&d, DIRECTED[i].letters, good, string);
        directed_list(&d, list);
    }
}

/* Lists of a direction begun and reverted and a segment with text, spoiled by
   itself: 11 for a d of 35 and for a part one octet past the octets lent, then 7
   for a segment that is too long, and only then 8. */
static void try_directed_spoiled(void)
{
    static uint8_t octets[CTEXT_MOST_SEGMENT + 1] = "a\x02";
    static const struct { uint16_t d; uint32_t start, length; uint8_t number; } SPOILED[] = {
        { 0x31, 0, CTEXT_MOST_SEGMENT, CTEXT_BAD_DIRECTION },
        { 0x35, 0, CTEXT_MOST_SEGMENT, CTEXT_BAD_UNIT },
        { 0x35, 0, CTEXT_MOST_SEGMENT + 1, CTEXT_BAD_UNIT },
        { 0x31, 0, CTEXT_MOST_SEGMENT + 1, CTEXT_BAD_SEGMENT },
        { 0x31, 0, CTEXT_MOST_SEGMENT + 2, CTEXT_BAD_UNIT },
        { 0x31, CTEXT_MOST_SEGMENT + 1, 1, CTEXT_BAD_UNIT }
    };
    size_t i;
    for (i = 0; i < sizeof SPOILED / sizeof SPOILED[0]; i++) {
        ctext_unit units[3] = { { CTEXT_KIND_LEFT_TO_RIGHT, 0, 0, 0, 0, 0, 0 }, { CTEXT_KIND_REVERT, 0, 0, 0, 0, 0, 0 },
                                { CTEXT_KIND_SEGMENT, 0, 0, 0, 0, 0, 0 } };
        units[2].code = SPOILED[i].d;
        units[2].start = SPOILED[i].start;
        units[2].length = SPOILED[i].length;
        expect(is_answer(ctext_write(units, 3, octets, sizeof octets, NULL, 0, NULL, 0), SPOILED[i].number, 2, 0),
               "what is bad in a segment by itself comes before the direction rule", octets, 2);
    }
}

/* What the first element is refused with from a reader on, 0 if it is not. */
static unsigned refused_from(const struct part *p, ctext_reader r)
{
    if (strchr("xyz", p->letter) != NULL)
        return CTEXT_BAD_SEGMENT;
    if (is_text(p->letter))
        return r.marked != 0 && r.depth == 0 ? CTEXT_BAD_DIRECTION : 0;
    if (p->kind == CTEXT_KIND_REVERT)
        return r.depth == 0 ? CTEXT_BAD_DIRECTION : 0;
    if (p->kind == CTEXT_KIND_LEFT_TO_RIGHT || p->kind == CTEXT_KIND_RIGHT_TO_LEFT)
        return r.marked == 0 && r.texted != 0 ? CTEXT_BAD_DIRECTION : r.depth == CTEXT_MOST_OPEN ? CTEXT_TOO_DEEP : 0;
    return 0;
}

/* A step over the element, by a reader made by hand. */
static void step_from(const struct part *p, uint8_t marked, uint8_t depth, uint8_t texted)
{
    size_t n = strlen(p->octets), place;
    uint8_t *s = lend_copy((const uint8_t *)p->octets, n);
    ctext_reader r = ctext_open();
    open_directions open;
    ctext_unit unit;
    ctext_step step;
    unsigned number;
    r.marked = marked;
    r.depth = depth;
    r.texted = texted;
    open = open_of(r);
    pass(&open, p->kind);
    unit = unit_of(p, 0, &open);
    number = refused_from(p, r);
    step = ctext_next(s, n, r);
    place = number == CTEXT_BAD_SEGMENT ? fault_of(p->letter) : 0;
    expect(step.given == (number == 0) && is_answer(step.answer, number, place, 0), "a step of a reader made by hand", s, n);
    expect(number != 0 || same_unit(&step.unit, &unit), "a unit of a reader made by hand", s, n);
    expect(step.reader.place == (number == 0 ? n : 0), "where a reader made by hand stands", s, n);
    expect(step.reader.texted == (texted != 0 || (number == 0 && is_text(p->letter))), "text read by hand", s, n);
    free(s);
}

/* The run of a character after the segment, by a reader of runs made by hand. */
static void run_from(const struct part *p, uint8_t marked, uint8_t depth, uint8_t texted, uint8_t checked)
{
    const char letters[] = { p->letter, 'A', '\0' };
    directed d = directed_of(letters);
    size_t n = d.places[2], room;
    uint8_t *s = lend_copy(d.octets, n);
    int outside = marked != 0 && depth == 0;
    ctext_answer wanted = { n, 1, 0 }, refused = { d.places[is_text(p->letter) ? 0 : 1], 0, CTEXT_BAD_DIRECTION };
    ctext_run_reader r = ctext_open_runs();
    ctext_run_step step;
    r.marked = marked;
    r.depth = depth;
    r.texted = texted;
    r.checked = checked;
    step = ctext_next_run(s, n, r);
    expect(same_answer(step.run.answer, outside ? refused : wanted), "a run of a reader made by hand", s, n);
    /* of the levels that are open all are 0, left-to-right, whose number is 1 as the depth is */
    expect(outside || (step.run.start == d.places[1] && step.run.end == n && step.run.direction == depth
                       && step.reader.texted == 1),
           "a run after a segment", s, n);
    for (room = 0; room < 3; room++) {
        ctext_answer a = listed(s, n, r, room).answer;
        expect(room > 0 && outside ? same_answer(a, refused) : is_answer(a, 0, n, room > 0),
               "a list of a reader made by hand, after a segment", s, n);
    }
    free(s);
}

/* Over each element, with and without marks, directions and text before it. */
static void try_directed_readers(void)
{
    unsigned before;
    size_t i;
    for (i = 0; i < PARTS_MANY; i++)
        for (before = 0; before < 8; before++) {
            uint8_t marked = before & 1, depth = before >> 1 & 1, texted = before >> 2 & 1;
            step_from(&PARTS[i], marked, depth, texted);
            step_from(&PARTS[i], (uint8_t)(marked * 255), depth, (uint8_t)(texted * 2));
            if (strchr("sdm01234", PARTS[i].letter) == NULL)
                continue;
            run_from(&PARTS[i], marked, depth, texted, 0);
            run_from(&PARTS[i], marked, depth, texted, 1);
        }
}

/* ---- Directions of units --------------------------------------------------- */

/* The octets of records as they lie in memory, of each number the lowest first: kind,
   set, code, start, length, direction, depth, and nothing between them or after. */
static void try_record(void)
{
    static const uint8_t s[] = { 0x9B, 0x31, 0x5D, 0x9B, 0x32, 0x5D, 0x1B, 0x24, 0x29, 0x42, 0xB0, 0xA1 };
    static const uint8_t wanted[3][16] = {
        { 4, 0, 0, 0, 0, 0, 0, 0, 3, 0, 0, 0, 1, 0, 1, 0 },
        { 5, 0, 0, 0, 3, 0, 0, 0, 3, 0, 0, 0, 2, 0, 2, 0 },
        { 0, 13, 0x21, 0x30, 10, 0, 0, 0, 2, 0, 0, 0, 2, 0, 2, 0 }
    };
    list_way *const ways[] = { ctext_read, ctext_archive_read };
    size_t i;
    expect(sizeof(ctext_unit) == sizeof wanted[0], "the octets of a record", NULL, 0);
    for (i = 0; i < sizeof ways / sizeof ways[0]; i++) {
        uint8_t *list = lend_pattern(sizeof wanted);
        ways[i](s, sizeof s, (ctext_unit *)(void *)list, 3);
        expect(memcmp(list, wanted, sizeof wanted) == 0, "a record's octets", s, sizeof s);
        free(list);
    }
}

/* Strings by the letters above, with the direction after each unit, and the depth as
   one digit, a to g for 10 to 16. */
static const struct { const char *letters, *directions, *depths; } TURNED[] = {
    { "A_tns0", "000000", "000000" }, { ">A", "11", "11" }, { "<A", "22", "11" },
    { "t><A|_|n", "01221100", "01221100" }, { "<<>s|0||t", "221122200", "123322100" },
    { ">|<A|>|0", "10220100", "10110100" }, { "<>|>A|A|", "21211220", "12122110" },
    { "><><><><><><><><A|", "121212121212121221", "123456789abcdefggf" }
};

static unsigned depth_shown(char digit)
{
    return digit <= '9' ? (unsigned)(digit - '0') : (unsigned)(digit - 'a') + 10;
}

/* A reader made by hand that stands before unit k, and has nothing else but the
   directions that are open there. It gives that unit. */
static void turned_by_hand(const directed *d, size_t k)
{
    size_t n = d->places[d->count], i;
    uint8_t *s = lend_copy(d->octets, n);
    open_directions open = open_of(ctext_open());
    ctext_reader r = ctext_open();
    ctext_step step;
    for (i = 0; i < k; i++)
        pass(&open, d->units[i].kind);
    r.place = d->places[k];
    r.levels = levels_of(&open);
    r.depth = (uint8_t)open.depth;
    step = ctext_next(s, n, r);
    expect(step.given && same_unit(&step.unit, &d->units[k]), "a unit by a reader made by hand, within directions", s, n);
    free(s);
}

/* By both lists, by steps and by readers made by hand: the row's directions. */
static void try_turned(void)
{
    size_t i, k;
    for (i = 0; i < sizeof TURNED / sizeof TURNED[0]; i++) {
        directed d = directed_of(TURNED[i].letters);
        size_t n = d.places[d.count];
        ctext_unit *first = (ctext_unit *)lend(d.count * sizeof *first);
        ctext_unit *second = (ctext_unit *)lend(d.count * sizeof *second);
        ctext_step step = ctext_next(d.octets, n, ctext_open());
        expect(ctext_read(d.octets, n, first, d.count).count == d.count
                   && ctext_archive_read(d.octets, n, second, d.count).count == d.count,
               "a row of directions", d.octets, n);
        for (k = 0; k < d.count; k++) {
            unsigned direction = depth_shown(TURNED[i].directions[k]), depth = depth_shown(TURNED[i].depths[k]);
            expect(first[k].direction == direction && first[k].depth == depth, "a row's direction and depth", d.octets, n);
            expect(same_unit(&first[k], &d.units[k]), "a row's unit", d.octets, n);
            expect(same_unit(&second[k], &first[k]), "a row's unit by the archive reader", d.octets, n);
            expect(step.given && same_unit(&step.unit, &first[k]), "a row's unit by a step", d.octets, n);
            step = ctext_next(d.octets, n, step.reader);
            turned_by_hand(&d, k);
        }
        free(second);
        free(first);
    }
}

/* A step of a reader made by hand, with these directions open, over the element. */
static void step_under(const struct part *p, uint64_t levels, uint8_t depth)
{
    uint8_t *s = lend_copy((const uint8_t *)p->octets, strlen(p->octets));
    ctext_reader r = ctext_open();
    open_directions open;
    ctext_unit unit;
    ctext_step step;
    r.levels = levels;
    r.depth = depth;
    r.marked = 1;
    open = open_of(r);
    pass(&open, p->kind);
    unit = unit_of(p, 0, &open);
    step = ctext_next(s, strlen(p->octets), r);
    expect(step.given && same_unit(&step.unit, &unit), "a unit under directions made by hand", s, strlen(p->octets));
    expect(step.unit.depth == step.reader.depth, "the depth of a unit, and the reader's", s, strlen(p->octets));
    directions++;
    free(s);
}

/* Each element under each depth at which it may stand, and several levels, whose
   digits from the depth upwards mean nothing. */
static void try_levels(void)
{
    static const uint64_t LEVELS[] = { 0, UINT64_MAX, 0x5555, 0xAAAAAAAAAAAAAAAA, 0x1234, 0x8001 };
    uint8_t depth;
    size_t i, k;
    for (i = 0; i < PARTS_MANY; i++)
        for (depth = 0; depth <= CTEXT_MOST_OPEN; depth++) {
            ctext_reader r = ctext_open();
            r.depth = depth;
            r.marked = 1;
            if (refused_from(&PARTS[i], r) != 0)
                continue;
            for (k = 0; k < sizeof LEVELS / sizeof LEVELS[0]; k++)
                step_under(&PARTS[i], LEVELS[k], depth);
        }
}

/* ---- Sets ---------------------------------------------------------------- */

#define OCTETS 256 /* the values of an octet */

/* The paper's table: form, final octet, GL, GR, octets of a character. */
static const ctext_row ROWS[CTEXT_NO_SET] = {
    [CTEXT_SET_ASCII] = { CTEXT_FORM_94, 0x42, 1, 0, 1 },
    [CTEXT_SET_JISX0201_RIGHT] = { CTEXT_FORM_94, 0x49, 0, 1, 1 },
    [CTEXT_SET_JISX0201_LEFT] = { CTEXT_FORM_94, 0x4A, 1, 0, 1 },
    [CTEXT_SET_ISO8859_1_RIGHT] = { CTEXT_FORM_96, 0x41, 0, 1, 1 },
    [CTEXT_SET_ISO8859_2_RIGHT] = { CTEXT_FORM_96, 0x42, 0, 1, 1 },
    [CTEXT_SET_ISO8859_3_RIGHT] = { CTEXT_FORM_96, 0x43, 0, 1, 1 },
    [CTEXT_SET_ISO8859_4_RIGHT] = { CTEXT_FORM_96, 0x44, 0, 1, 1 },
    [CTEXT_SET_ISO8859_7_RIGHT] = { CTEXT_FORM_96, 0x46, 0, 1, 1 },
    [CTEXT_SET_ISO8859_6_RIGHT] = { CTEXT_FORM_96, 0x47, 0, 1, 1 },
    [CTEXT_SET_ISO8859_8_RIGHT] = { CTEXT_FORM_96, 0x48, 0, 1, 1 },
    [CTEXT_SET_ISO8859_5_RIGHT] = { CTEXT_FORM_96, 0x4C, 0, 1, 1 },
    [CTEXT_SET_ISO8859_9_RIGHT] = { CTEXT_FORM_96, 0x4D, 0, 1, 1 },
    [CTEXT_SET_GB2312] = { CTEXT_FORM_94X94, 0x41, 1, 1, 2 },
    [CTEXT_SET_JISX0208] = { CTEXT_FORM_94X94, 0x42, 1, 1, 2 },
    [CTEXT_SET_KSC5601] = { CTEXT_FORM_94X94, 0x43, 1, 1, 2 }
};

static void try_set_rows(void)
{
    static const ctext_row none = { 0, 0, 0, 0, 0 };
    unsigned set;
    for (set = 0; set < OCTETS; set++) {
        const ctext_row *wanted = set < CTEXT_NO_SET ? &ROWS[set] : &none;
        const uint8_t number = (uint8_t)set;
        ctext_row row = ctext_set_row(number);
        expect(row.form == wanted->form && row.final_octet == wanted->final_octet && row.gl == wanted->gl
                   && row.gr == wanted->gr && row.octets == wanted->octets,
               "the row of a set", &number, 1);
    }
}

/* The sets by the rows: forms 1 to 3, both sides, every octet. */
static void named_by_rows(uint8_t named[4][2][OCTETS])
{
    uint8_t set;
    memset(named, CTEXT_NO_SET, sizeof(uint8_t[4][2][OCTETS]));
    for (set = 0; set < CTEXT_NO_SET; set++) {
        ctext_row row = ROWS[set];
        if (row.gl)
            named[row.form][CTEXT_GL][row.final_octet] = set;
        if (row.gr)
            named[row.form][CTEXT_GR][row.final_octet] = set;
    }
}

/* Every form, side and octet, those that are none too. */
static void try_set_of(void)
{
    static uint8_t named[4][2][OCTETS];
    unsigned form, side, octet;
    named_by_rows(named);
    for (form = 0; form < OCTETS; form++)
        for (side = 0; side < OCTETS; side++)
            for (octet = 0; octet < OCTETS; octet++) {
                const uint8_t asked[] = { (uint8_t)form, (uint8_t)side, (uint8_t)octet };
                uint8_t wanted = form < 4 && side < 2 ? named[form][side][octet] : CTEXT_NO_SET;
                expect(ctext_set_of(asked[0], asked[1], asked[2]) == wanted,
                       "the set of a form, a side and an octet", asked, 3);
            }
}

/* The five forms of a designation: what stands before its final octet. */
static const struct lead { const char *octets; uint8_t form, side; } LEADS[] = {
    { "\x1B\x28", CTEXT_FORM_94, CTEXT_GL },
    { "\x1B\x29", CTEXT_FORM_94, CTEXT_GR },
    { "\x1B\x2D", CTEXT_FORM_96, CTEXT_GR },
    { "\x1B\x24\x28", CTEXT_FORM_94X94, CTEXT_GL },
    { "\x1B\x24\x29", CTEXT_FORM_94X94, CTEXT_GR }
};

/* The reader knows the same sets: a character after the designation is of the one
   that it names, and a designation that names none is refused. */
static void designated(const struct lead *l, uint8_t octet)
{
    uint8_t s[6], set = ctext_set_of(l->form, l->side, octet);
    size_t n = strlen(l->octets);
    ctext_step step;
    memcpy(s, l->octets, n);
    s[n++] = octet;
    s[n++] = l->side == CTEXT_GL ? 0x30 : 0xB0;
    s[n++] = l->side == CTEXT_GL ? 0x21 : 0xA1;
    step = ctext_next(s, n, ctext_open());
    if (set == CTEXT_NO_SET) {
        expect(is_answer(step.answer, CTEXT_NOT_APPROVED, strlen(l->octets), 0), "a designation of no set", s, n);
        return;
    }
    designations++;
    expect(step.given && step.unit.set == set && step.unit.length == ctext_set_row(set).octets,
           "a character of the set designated", s, n);
}

/* All forms with all final octets: eighteen designations. */
static void try_designations(void)
{
    uint8_t octet;
    size_t i;
    for (i = 0; i < sizeof LEADS / sizeof LEADS[0]; i++)
        for (octet = 0x40; octet <= 0x7E; octet++)
            designated(&LEADS[i], octet);
    expect(designations == 18, "the number of designations", NULL, 0);
}

/* ---- X11R5 ---------------------------------------------------------------- */

/* What ctext_r5_read is to answer where the octets before the 00, so many, give no
   further unit: that of ctext_next, but 15 where it refuses a mark, or what begins a
   segment. */
static ctext_answer r5_ended(const uint8_t *s, size_t end, ctext_step step)
{
    size_t at = step.reader.place, left = end - at;
    int segment = left >= 4 && memcmp(s + at, "\x1B\x25\x2F", 3) == 0 && s[at + 3] >= 0x30 && s[at + 3] <= 0x34;
    ctext_answer not_there = { 0, 0, CTEXT_NOT_IN_X11R5 };
    not_there.place = at;
    if (step.answer.number == CTEXT_ACCEPTED || step.answer.number == CTEXT_TOO_LONG)
        return step.answer;
    return step.answer.number == CTEXT_BAD_DIRECTION || segment ? not_there : step.answer;
}

/* What it is to answer with as many records as it needs, by the steps of a reader over
   the octets before the 00. */
static ctext_answer r5_wanted(const uint8_t *s, size_t n)
{
    const uint8_t *zero = n == 0 ? NULL : (const uint8_t *)memchr(s, 0, n);
    size_t end = zero == NULL ? n : (size_t)(zero - s);
    ctext_answer refused = { 0, 0, CTEXT_NOT_ENDED };
    ctext_step step;
    refused.place = n;
    if (zero == NULL)
        return refused;
    step = ctext_next(s, end, ctext_open());
    while (step.given && step.unit.kind < CTEXT_KIND_LEFT_TO_RIGHT)
        step = ctext_next(s, end, step.reader);
    refused.number = CTEXT_NOT_IN_X11R5;
    refused.place = step.unit.start - (step.unit.kind == CTEXT_KIND_SEGMENT ? 6 : 0);
    return step.given ? refused : r5_ended(s, end, step);
}

/* One call into a list of exactly so many records. The answer is this one; the units
   are those of ctext_read for the octets before the 00; the rest of the list stays, the
   whole of it beside a refusal. */
static void r5_list(const uint8_t *s, size_t n, size_t room, ctext_answer wanted)
{
    ctext_unit *list = (ctext_unit *)lend_pattern(room * sizeof *list);
    ctext_unit *units = (ctext_unit *)lend(room * sizeof *units);
    ctext_answer a = ctext_r5_read(s, n, list, room);
    size_t stored = a.number == CTEXT_ACCEPTED && a.count <= room ? a.count : 0, i;
    expect(same_answer(a, wanted), "the answer of an X11R5 list", s, n);
    if (stored > 0)
        ctext_read(s, a.place, units, room);
    for (i = 0; i < stored; i++)
        expect(same_unit(&list[i], &units[i]), "a unit of an X11R5 list", s, n);
    expect(stored == room || untouched(list + stored, (room - stored) * sizeof *list), "what stays of an X11R5 list", s, n);
    list_within(ctext_r5_read, s, n, room);
    free(units);
    free(list);
}

/* The string in memory of exactly its size, and no records, one too few, as many as
   are needed, and one more. */
static void r5_string(const uint8_t *octets, size_t n)
{
    uint8_t *s = lend_copy(octets, n);
    ctext_answer wanted = r5_wanted(s, n), too_few = { 0, wanted.count, CTEXT_NO_ROOM };
    if (wanted.count > 1)
        r5_list(s, n, wanted.count - 1, too_few);
    r5_list(s, n, 0, wanted.count > 0 ? too_few : wanted);
    r5_list(s, n, wanted.count, wanted);
    r5_list(s, n, wanted.count + 1, wanted);
    expect(same_octets(s, n, octets, n), "the string itself, by X11R5", s, n);
    r5_strings++;
    r5_accepted += wanted.number == CTEXT_ACCEPTED;
    free(s);
}

/* As it is, and with a 00 at every place of it, before which it is read. */
static void r5_read(const uint8_t *s, size_t n)
{
    uint8_t *ended = (uint8_t *)lend(n + 1);
    size_t place;
    r5_string(s, n);
    for (place = 0; place <= n; place++) {
        if (n > 0) {
            memcpy(ended, s, place);
            memcpy(ended + place + 1, s + place, n - place);
        }
        ended[place] = 0;
        r5_string(ended, n + 1);
    }
    free(ended);
}

/* A string that is made, and the sets in force at its end. */
typedef struct made {
    uint8_t *octets; /* null: counted alone */
    size_t length;
    uint8_t gl;
    uint8_t gr;
} made;

static void make_octet(made *m, unsigned octet)
{
    if (m->octets != NULL)
        m->octets[m->length] = (uint8_t)octet;
    m->length++;
}

/* The designation that puts the set on its side in X11R5, where it is not in force. */
static void make_designation(made *m, uint8_t set)
{
    ctext_row row = ROWS[set];
    uint8_t *side = row.gl ? &m->gl : &m->gr;
    if (*side == set)
        return;
    *side = set;
    make_octet(m, 0x1B);
    if (row.form == CTEXT_FORM_94X94)
        make_octet(m, 0x24);
    make_octet(m, row.form == CTEXT_FORM_96 ? 0x2D : row.gl ? 0x28 : 0x29);
    make_octet(m, row.final_octet);
}

/* A unit that X11R5 has. */
static void make_unit(made *m, ctext_unit unit)
{
    if (unit.kind == CTEXT_KIND_CHARACTER)
        make_designation(m, unit.set);
    if (unit.kind == CTEXT_KIND_SPACE && ROWS[m->gl].octets == 2)
        make_designation(m, CTEXT_SET_ASCII);
    if (unit.kind == CTEXT_KIND_CHARACTER && ROWS[unit.set].octets == 2)
        make_octet(m, unit.code >> 8);
    if (unit.kind == CTEXT_KIND_CHARACTER)
        make_octet(m, (unit.code & 0xFFu) | (ROWS[unit.set].gl ? 0 : 0x80));
    else
        make_octet(m, unit.kind == CTEXT_KIND_SPACE ? 0x20 : unit.kind == CTEXT_KIND_TAB ? 0x09 : 0x0A);
}

/* The octets of a list of such units, and the 00; how many there are. */
static size_t make_string(const ctext_unit *units, size_t count, uint8_t *octets)
{
    made m = { NULL, 0, CTEXT_SET_ASCII, CTEXT_SET_ISO8859_1_RIGHT };
    size_t i;
    m.octets = octets;
    for (i = 0; i < count; i++)
        make_unit(&m, units[i]);
    make_octet(&m, 0);
    return m.length;
}

/* One call into output of exactly so many octets, which the caller frees. What the
   answer does not count stays. */
static uint8_t *r5_written_into(const ctext_unit *units, size_t count, const uint8_t *segments, size_t m, size_t room,
                                ctext_answer *a)
{
    uint8_t *out = lend_pattern(room);
    size_t stored;
    *a = ctext_r5_write(units, count, segments, m, out, room);
    stored = a->number == CTEXT_ACCEPTED ? a->count : 0;
    expect(stored == room || (stored < room && untouched(out + stored, room - stored)), "what stays of an X11R5 output",
           segments, m);
    return out;
}

/* What is written reads as the same list: with the 00 by X11R5's reader, without it by
   the first one. */
static void r5_reads_as(const uint8_t *out, size_t o, const ctext_unit *units, size_t count)
{
    uint8_t *plain = lend_copy(out, o - 1);
    ctext_unit *first = (ctext_unit *)lend(count * sizeof *first);
    ctext_unit *second = (ctext_unit *)lend(count * sizeof *second);
    size_t i;
    expect(is_answer(ctext_read(plain, o - 1, first, count), CTEXT_ACCEPTED, o - 1, count), "reading what X11R5 writes", out, o);
    expect(is_answer(ctext_r5_read(out, o, second, count), CTEXT_ACCEPTED, o - 1, count), "X11R5 reading what it writes", out, o);
    for (i = 0; i < count; i++) {
        expect(same_unit(&first[i], &second[i]), "a unit of what X11R5 writes, by both readers", out, o);
        expect(first[i].kind == units[i].kind && first[i].set == (units[i].kind == CTEXT_KIND_CHARACTER ? units[i].set : 0)
                   && first[i].code == (units[i].kind == CTEXT_KIND_CHARACTER ? units[i].code : 0),
               "a unit of what X11R5 writes", out, o);
    }
    free(second);
    free(first);
    free(plain);
}

/* A list that X11R5 has is written as it is made here, into no output, one octet too
   few, as many as are needed, and one more. Directions and depths may be anything. */
static void r5_accepts(const ctext_unit *units, size_t count, const uint8_t *segments, size_t m)
{
    size_t needed = make_string(units, count, NULL), room;
    uint8_t *wanted = (uint8_t *)lend(needed);
    ctext_unit *others = lend_misdirected(units, count, 0);
    make_string(units, count, wanted);
    for (room = needed - 1; room <= needed + 1; room++) {
        ctext_answer a;
        uint8_t *out = r5_written_into(others, count, segments, m, room, &a);
        expect(room < needed ? is_answer(a, CTEXT_NO_ROOM, 0, needed) : is_answer(a, CTEXT_ACCEPTED, count, needed),
               "the answer of an X11R5 writing", wanted, needed);
        expect(room < needed || same_octets(out, needed, wanted, needed), "the octets of an X11R5 writing", wanted, needed);
        free(out);
    }
    expect(is_answer(ctext_r5_write(units, count, segments, m, NULL, 0), CTEXT_NO_ROOM, 0, needed), "X11R5 without output",
           wanted, needed);
    r5_reads_as(wanted, needed, units, count);
    free(others);
    free(wanted);
}

/* A list that is refused, whatever the output. */
static void r5_refuses(const ctext_unit *units, size_t count, const uint8_t *segments, size_t m, ctext_answer wanted)
{
    size_t room;
    for (room = 0; room < 40; room += 13) {
        ctext_answer a;
        free(r5_written_into(units, count, segments, m, room, &a));
        expect(same_answer(a, wanted), "the refusal of an X11R5 writing", segments, m);
    }
}

/* A good list, whose segments stand in the m octets: written, or refused at its first
   mark or segment. */
static void r5_written(const uint8_t *segments, size_t m, const ctext_unit *units, size_t count)
{
    ctext_answer refused = { 0, 0, CTEXT_NOT_IN_X11R5 };
    while (refused.place < count && units[refused.place].kind < CTEXT_KIND_LEFT_TO_RIGHT)
        refused.place++;
    if (refused.place < count)
        r5_refuses(units, count, segments, m, refused);
    else
        r5_accepts(units, count, segments, m);
}

/* The string, and where it is accepted the list of its units. */
static void r5_both(const uint8_t *s, size_t n)
{
    ctext_unit *units = (ctext_unit *)lend(n * sizeof *units);
    ctext_answer a = ctext_read(s, n, units, n);
    r5_read(s, n);
    if (a.number == CTEXT_ACCEPTED)
        r5_written(s, n, units, a.count);
    free(units);
}

/* All strings of up to so many elements. */
static void try_r5_elements(unsigned most, const uint8_t *before, size_t n)
{
    uint8_t octets[64];
    size_t i;
    r5_both(before, n);
    if (n > 0)
        memcpy(octets, before, n);
    for (i = 0; most > 0 && i < MANY; i++) {
        size_t more = strlen(ELEMENTS[i]);
        memcpy(octets + n, ELEMENTS[i], more);
        try_r5_elements(most - 1, octets, n + more);
    }
}

/* Strings in hexadecimal, with the answer: number, place and count. */
static const struct { const char *octets; uint8_t number; size_t place, count; } ENDED[] = {
    { "00", 0, 0, 0 }, { "00 00", 0, 0, 0 }, { "41 00", 0, 1, 1 }, { "1B 28 4A 00", 0, 3, 0 },
    { "1B 24 29 42 B0 A1 00", 0, 6, 1 }, { "1B 24 29 41 B0 A1 41 1B 24 29 43 C0 B1 00", 0, 13, 3 },
    /* 14 at the length, before everything else */
    { "", 14, 0, 0 }, { "41", 14, 1, 0 }, { "9B 5D", 14, 2, 0 }, { "1B 25 2F 30", 14, 4, 0 }, { "07", 14, 1, 0 }, { "1B 28", 14, 2, 0 },
    /* 15 for marks that are whole, never 8 */
    { "9B 5D 00", 15, 0, 0 }, { "9B 31 5D 00", 15, 0, 0 }, { "9B 32 5D 41 00", 15, 0, 0 }, { "41 9B 31 5D 00", 15, 1, 0 },
    { "20 9B 5D 00", 15, 1, 0 }, { "9B 31 5D 9B 5D 41 00", 15, 0, 0 }, { "1B 24 29 43 C0 B1 9B 32 5D 00", 15, 6, 0 },
    { "9B 00", 2, 1, 0 }, { "9B 31 00", 2, 2, 0 }, { "9B 31 00 5D", 2, 2, 0 }, { "9B 33 00", 4, 1, 0 }, { "9B 31 31 00", 4, 2, 0 },
    /* 15 at the start of a segment whose d is read, whatever follows, never 7 */
    { "1B 25 2F 30 00", 15, 0, 0 }, { "1B 25 2F 34 00", 15, 0, 0 }, { "41 1B 25 2F 31 00", 15, 1, 0 }, { "1B 25 2F 31 80 00", 15, 0, 0 },
    { "1B 25 2F 31 41 00", 15, 0, 0 }, { "1B 25 2F 31 80 80 00", 15, 0, 0 }, { "1B 25 2F 32 80 84 61 62 02 FF 00", 15, 0, 0 },
    { "1B 25 2F 31 80 84 61 62 02 FF 00", 15, 0, 0 }, { "1B 25 2F 31 80 84 61 62 02 00 00", 15, 0, 0 }, { "1B 25 2F 33 07 00", 15, 0, 0 },
    { "9B 5D 1B 25 2F 31 00", 15, 0, 0 }, { "1B 25 2F 31 80 82 61 02 9B 5D 00", 15, 0, 0 },
    { "1B 25 00", 2, 2, 0 }, { "1B 25 2F 00", 2, 3, 0 }, { "1B 25 2F 00 30", 2, 3, 0 }, { "1B 25 2F 35 00", 4, 3, 0 }, { "1B 25 47 00", 4, 2, 0 },
    /* the others, where they are in every string; 2 at the 00 */
    { "1B 00", 2, 1, 0 }, { "1B 28 00", 2, 2, 0 }, { "1B 28 00 42", 2, 2, 0 }, { "1B 24 28 42 30 00", 2, 5, 0 }, { "1B 24 29 42 B0 00 A1", 2, 5, 0 },
    { "07 00", 3, 0, 0 }, { "41 7F 00", 3, 1, 0 }, { "1B 24 28 42 20 00", 3, 4, 0 }, { "1B 24 28 42 30 07 00", 3, 5, 0 }, { "1B 29 49 A0 00", 3, 3, 0 },
    { "1B 24 42 00", 4, 2, 0 }, { "1B 29 42 00", 5, 2, 0 }, { "1B 28 21 42 00", 5, 3, 0 }, { "1B 23 00", 6, 1, 0 }, { "09 1B 23 20 30 00", 6, 2, 0 },
    /* the first of two */
    { "41 07 9B 5D 00", 3, 1, 0 }, { "9B 5D 07 00", 15, 0, 0 }, { "1B 23 9B 5D 00", 6, 1, 0 }, { "1B 25 2F 30 1B 23 00", 15, 0, 0 }
};

/* Each row, and where it has a 00 with octets behind it that would complete much. */
static void try_ended(void)
{
    uint8_t octets[64];
    size_t i, n, behind;
    for (i = 0; i < sizeof ENDED / sizeof ENDED[0]; i++)
        for (behind = 0; behind < (ENDED[i].number == CTEXT_NOT_ENDED ? 1 : 2); behind++) {
            ctext_answer wanted = { 0, 0, 0 };
            n = octets_of(ENDED[i].octets, octets);
            n += behind == 0 ? 0 : octets_of("5D 42 9B 31 5D 1B 25 2F 31 00 1B", octets + n);
            wanted.number = ENDED[i].number;
            wanted.place = ENDED[i].place;
            wanted.count = wanted.number == CTEXT_ACCEPTED ? ENDED[i].count : 0;
            expect(same_answer(r5_wanted(octets, n), wanted), "what an X11R5 reader is to answer", octets, n);
            r5_string(octets, n);
        }
}

/* Long strings: so many letters A, these octets in the place of the first of them, a 00
   or none, and so many octets behind it. */
static void try_ended_limits(void)
{
    static const struct { size_t letters; const char *first; int ended; size_t behind; ctext_answer a; } LIMITS[] = {
        { 65535, "", 1, 0, { 65535, 65535, 0 } }, { 65535, "", 1, 65536, { 65535, 65535, 0 } },
        { 65536, "", 1, 0, { 0, 0, CTEXT_TOO_LONG } }, { 65536, "", 1, 70000, { 0, 0, CTEXT_TOO_LONG } },
        { 65535, "", 0, 0, { 65535, 0, CTEXT_NOT_ENDED } }, { 65536, "", 0, 0, { 65536, 0, CTEXT_NOT_ENDED } },
        { 200000, "", 0, 0, { 200000, 0, CTEXT_NOT_ENDED } }, { 0, "", 1, 70000, { 0, 0, 0 } },
        /* 14 before 1, 1 before the offence, the offence before 10 */
        { 65536, "9B 5D", 0, 0, { 65536, 0, CTEXT_NOT_ENDED } }, { 65536, "9B 5D", 1, 0, { 0, 0, CTEXT_TOO_LONG } },
        { 65536, "1B 25 2F 31", 1, 0, { 0, 0, CTEXT_TOO_LONG } }, { 65536, "07", 1, 0, { 0, 0, CTEXT_TOO_LONG } },
        { 65535, "9B 5D", 1, 0, { 0, 0, CTEXT_NOT_IN_X11R5 } }, { 65535, "07", 1, 0, { 0, 0, CTEXT_UNUSED } }
    };
    size_t i;
    for (i = 0; i < sizeof LIMITS / sizeof LIMITS[0]; i++) {
        size_t letters = LIMITS[i].letters, n = letters + (LIMITS[i].ended ? 1 : 0) + LIMITS[i].behind;
        uint8_t *s = (uint8_t *)lend(n);
        memset(s, 'A', n);
        octets_of(LIMITS[i].first, s);
        if (LIMITS[i].ended)
            s[letters] = 0;
        expect(same_answer(r5_wanted(s, n), LIMITS[i].a), "what an X11R5 reader is to answer at the limit", s, 2);
        r5_string(s, n);
        free(s);
    }
}

/* Lists of a character of two octets and one of one octet, ten octets in all, so many
   times, and then tabs: written in 65,535 octets and the 00, and in one more, which is 1
   whatever the output. An offending unit goes before that 1, and 1 for the list before it. */
static void try_r5_list_limits(void)
{
    static const ctext_unit pair[] = { { CTEXT_KIND_CHARACTER, CTEXT_SET_JISX0208, 0x3021, 0, 0, 0, 0 },
                                       { CTEXT_KIND_CHARACTER, CTEXT_SET_ASCII, 'A', 0, 0, 0, 0 },
                                       { CTEXT_KIND_TAB, 0, 0, 0, 0, 0, 0 } };
    static const ctext_answer too_long = { 0, 0, CTEXT_TOO_LONG };
    ctext_unit *units = (ctext_unit *)lend((CTEXT_MOST_UNITS + 1) * sizeof *units);
    ctext_answer refused = { 6553, 0, CTEXT_NOT_IN_X11R5 };
    size_t i;
    for (i = 0; i <= CTEXT_MOST_UNITS; i++)
        units[i] = pair[i < 13106 ? i % 2 : 2];
    expect(make_string(units, 13111, NULL) == CTEXT_R5_MOST_OCTETS, "the octets of the longest X11R5 string", NULL, 0);
    r5_accepts(units, 13111, NULL, 0);
    r5_refuses(units, 13112, NULL, 0, too_long);
    r5_refuses(units, CTEXT_MOST_UNITS, NULL, 0, too_long);
    units[6553].kind = CTEXT_KIND_REVERT;
    r5_refuses(units, CTEXT_MOST_UNITS, NULL, 0, refused);
    r5_refuses(units, CTEXT_MOST_UNITS + 1, NULL, 0, too_long);
    for (i = 0; i <= CTEXT_MOST_UNITS; i++)
        units[i].kind = CTEXT_KIND_SPACE;
    r5_accepts(units, CTEXT_MOST_UNITS, NULL, 0);
    r5_refuses(units, CTEXT_MOST_UNITS + 1, NULL, 0, too_long);
    free(units);
}

/* Units that are bad by themselves, and those that X11R5 does not have: alone and after
   a good one, with so many octets of segments. */
static void try_r5_units(void)
{
    static const struct { ctext_unit unit; size_t m; uint8_t number; } UNITS[] = {
        { { CTEXT_KIND_LEFT_TO_RIGHT, 0, 0, 0, 0, 0, 0 }, 0, 15 }, { { CTEXT_KIND_RIGHT_TO_LEFT, 99, 99, 99, 99, 9, 9 }, 0, 15 },
        { { CTEXT_KIND_REVERT, 0, 0, 0, 0, 0, 0 }, 0, 15 }, { { 8, 0, 0x41, 0, 0, 0, 0 }, 0, 11 }, { { 255, 0, 0x31, 0, 0, 0, 0 }, 0, 11 },
        { { CTEXT_KIND_CHARACTER, CTEXT_NO_SET, 0x41, 0, 0, 0, 0 }, 0, 11 }, { { CTEXT_KIND_CHARACTER, 0, 0x20, 0, 0, 0, 0 }, 0, 11 },
        { { CTEXT_KIND_CHARACTER, CTEXT_SET_KSC5601, 0x41, 0, 0, 0, 0 }, 0, 11 },
        /* segments: good ones, bad ones that are 7 elsewhere, a part of nothing, and one that is too long */
        { { CTEXT_KIND_SEGMENT, 0, 0x31, 0, 3, 0, 0 }, 3, 15 }, { { CTEXT_KIND_SEGMENT, 0, 0x30, 0, 2, 0, 0 }, 3, 15 },
        { { CTEXT_KIND_SEGMENT, 0, 0x34, 2, 1, 0, 0 }, 3, 15 }, { { CTEXT_KIND_SEGMENT, 0, 0x31, 0, 0, 0, 0 }, 0, 15 },
        { { CTEXT_KIND_SEGMENT, 0, 0x31, 3, 0, 0, 0 }, 3, 15 }, { { CTEXT_KIND_SEGMENT, 0, 0x31, 0, 16384, 0, 0 }, 16384, 15 },
        /* segments with another d, or a part outside, which goes before 15 */
        { { CTEXT_KIND_SEGMENT, 0, 0x2F, 0, 3, 0, 0 }, 3, 11 }, { { CTEXT_KIND_SEGMENT, 0, 0x35, 0, 3, 0, 0 }, 3, 11 },
        { { CTEXT_KIND_SEGMENT, 0, 0x131, 0, 3, 0, 0 }, 3, 11 }, { { CTEXT_KIND_SEGMENT, 0, 0x31, 0, 4, 0, 0 }, 3, 11 },
        { { CTEXT_KIND_SEGMENT, 0, 0x31, 4, 0, 0, 0 }, 3, 11 }, { { CTEXT_KIND_SEGMENT, 0, 0x31, 0, 1, 0, 0 }, 0, 11 },
        { { CTEXT_KIND_SEGMENT, 0, 0x31, UINT32_MAX, 2, 0, 0 }, 3, 11 }, { { CTEXT_KIND_SEGMENT, 0, 0x31, 2, UINT32_MAX, 0, 0 }, 3, 11 },
        { { CTEXT_KIND_SEGMENT, 0, 0x31, 0, 16384, 0, 0 }, 16383, 11 }
    };
    size_t i, before;
    for (i = 0; i < sizeof UNITS / sizeof UNITS[0]; i++) {
        uint8_t *segments = lend_pattern(UNITS[i].m);
        for (before = 0; before < 2; before++) {
            ctext_unit units[3] = { { CTEXT_KIND_SPACE, 0, 0, 0, 0, 0, 0 }, { CTEXT_KIND_SPACE, 0, 0, 0, 0, 0, 0 },
                                    { CTEXT_KIND_REVERT, 0, 0, 0, 0, 0, 0 } };
            ctext_answer wanted = { 0, 0, 0 };
            wanted.number = UNITS[i].number;
            wanted.place = before;
            units[before] = UNITS[i].unit;
            r5_refuses(units, before + 1, segments, UNITS[i].m, wanted);
            units[2].kind = wanted.number == CTEXT_BAD_UNIT ? CTEXT_KIND_REVERT : CTEXT_KIND_SEGMENT + 1;
            r5_refuses(units, 3, segments, UNITS[i].m, wanted);
        }
        free(segments);
    }
}

/* Characters of every set and many codes: refused where ctext_write refuses them, and
   else written. */
static void try_r5_codes(void)
{
    static const uint8_t HIGH[] = { 0x00, 0x01, 0x20, 0x21, 0x7E, 0x7F, 0x80, 0xA1, 0xFF };
    uint8_t work[CTEXT_WORK_ROOM(1)], out[16];
    unsigned set, low;
    size_t i;
    for (set = 0; set <= CTEXT_NO_SET; set++)
        for (i = 0; i < sizeof HIGH; i++)
            for (low = 0; low < OCTETS; low++) {
                ctext_unit unit = { CTEXT_KIND_CHARACTER, 0, 0, 0, 0, 0, 0 };
                unsigned number;
                unit.set = (uint8_t)set;
                unit.code = (uint16_t)(HIGH[i] << 8 | low);
                number = ctext_write(&unit, 1, NULL, 0, work, sizeof work, out, sizeof out).number;
                if (number == CTEXT_ACCEPTED)
                    r5_accepts(&unit, 1, NULL, 0);
                else
                    expect(is_answer(ctext_r5_write(&unit, 1, NULL, 0, NULL, 0), number, 0, 0), "a code by X11R5", &HIGH[i], 1);
            }
}

/* Nothing at all, and every list of up to so many units out of a table: each set, which
   may be in force or not, spaces, a tab. */
static void try_r5_lists(unsigned most, ctext_unit *units, size_t count)
{
    static const ctext_unit TABLE[] = {
        { CTEXT_KIND_SPACE, 7, 7, 7, 7, 7, 7 }, { CTEXT_KIND_TAB, 7, 7, 7, 7, 7, 7 }, { CTEXT_KIND_CHARACTER, 0, 0x41, 7, 7, 7, 7 },
        { CTEXT_KIND_CHARACTER, 1, 0x31, 0, 0, 0, 0 }, { CTEXT_KIND_CHARACTER, 2, 0x5C, 0, 0, 0, 0 },
        { CTEXT_KIND_CHARACTER, 3, 0x20, 0, 0, 0, 0 }, { CTEXT_KIND_CHARACTER, 8, 0x7F, 0, 0, 0, 0 },
        { CTEXT_KIND_CHARACTER, 12, 0x2121, 0, 0, 0, 0 }, { CTEXT_KIND_CHARACTER, 13, 0x3021, 0, 0, 0, 0 },
        { CTEXT_KIND_CHARACTER, 14, 0x7E7E, 0, 0, 0, 0 }
    };
    size_t i;
    r5_accepts(units, count, NULL, 0);
    r5_lists++;
    for (i = 0; most > 0 && i < sizeof TABLE / sizeof TABLE[0]; i++) {
        units[count] = TABLE[i];
        try_r5_lists(most - 1, units, count + 1);
    }
}

static void try_r5(unsigned most)
{
    ctext_unit units[6]; /* most + 1 */
    try_r5_elements(most, NULL, 0);
    try_ended();
    try_ended_limits();
    try_r5_list_limits();
    try_r5_units();
    try_r5_codes();
    try_r5_lists(most + 1, units, 0);
}

int main(int argc, char **argv)
{
    unsigned most = argc > 1 ? (unsigned)atoi(argv[1]) : 3;
    uint8_t octets[7]; /* of a resource form: most + 2 */
    if (most > 5)
        most = 5;
    try_elements(most, NULL, 0);
    try_stretches();
    try_forms(most + 2, octets, 0);
    try_escapes();
    try_form_limits();
    try_readers();
    try_program();
    try_run_readers();
    try_places();
    try_standing();
    try_staying();
    try_depth();
    try_directed();
    try_directed_spoiled();
    try_directed_readers();
    try_record();
    try_turned();
    try_levels();
    try_many_runs();
    try_limits();
    try_set_rows();
    try_set_of();
    try_designations();
    try_r5(most);
    printf("bounds: %lu strings, %lu accepted, %lu by both readers, %lu units with directions, %lu resource forms, "
           "%lu designations, %lu places, %lu X11R5 strings, %lu accepted, %lu X11R5 lists, %lu failures\n",
           strings, accepted, archived, directions, forms, designations, places, r5_strings, r5_accepted, r5_lists, failures);
    return failures != 0;
}
