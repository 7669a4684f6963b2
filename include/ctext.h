/* ctext.h: reading and writing X11 Compound Text (COMPOUND_TEXT, version 1.1).

   The library keeps nothing between calls: no memory of its own, no global
   state, no locale, no files. Every string starts from the fresh state, ASCII
   in GL and ISO 8859-1 in GR. A call returns for every input, and any number
   of threads may call.

   What the library relies on, because C cannot guarantee it:
   - A pointer and the length after it tell the truth: so many octets, records
     or words stand there for the whole call. Beside a length of 0 the pointer
     is not followed and may be null.
   - What is lent for an answer (units of ctext_read, ctext_archive_read and
     ctext_r5_read, runs of ctext_next_runs, work and out of ctext_write, out of
     ctext_r5_write, ctext_program, ctext_resource_write and ctext_resource_read)
     overlaps nothing else that is lent to the same call.
   - While a call runs, nobody else writes to what it was lent, and nobody
     else looks at what it was lent for an answer.
   Nothing else is left to the caller. Any octets, records, readers and
   lengths may be passed, and what is lent for an answer may hold anything.

   The structs below may have octets after their fields that mean nothing:
   compare them field by field, never by memcmp.

   Octets are written in hexadecimal below. */

#ifndef CTEXT_H
#define CTEXT_H

#include <stddef.h>
#include <stdint.h>

#define CTEXT_VERSION "4.0"

/* The most octets of a string, units of a list, octets of an extended
   segment, and directions open at once. */
#define CTEXT_MOST_OCTETS 65535
#define CTEXT_MOST_UNITS 65535
#define CTEXT_MOST_SEGMENT 16383
#define CTEXT_MOST_OPEN 16

/* The most octets of a string for X11R5, with the 00 that ends it. */
#define CTEXT_R5_MOST_OCTETS 65536

/* The most octets of a resource form, four for each octet of a string. */
#define CTEXT_MOST_FORM 262140

/* The octets of work room that ctext_write needs for a list of n units. */
#ifdef __cplusplus
#define CTEXT_WORK_ROOM(n) (72 * (static_cast<size_t>(n) + 1))
#else
#define CTEXT_WORK_ROOM(n) (72 * ((size_t)(n) + 1))
#endif

#ifdef __cplusplus
extern "C" {
#endif

/* ---- Answers ----------------------------------------------------------- */

/* number  CTEXT_ACCEPTED, or why the input is refused (below)
   place   accepted: the input's length, in octets or units, but of ctext_r5_read
           the place of the 00;
           refused: the offending octet of the string (below) or of a resource
           form, or the index of the offending unit; 0 for 1, 10, 12, and for a
           run or a reader that does not exist
   count   accepted: the units read, the octets written or shown, or the runs
           stored; refused: 0, but under CTEXT_NO_ROOM the records or octets
           needed */
typedef struct ctext_answer {
    size_t place;
    size_t count;
    uint8_t number;
} ctext_answer;

enum ctext_refusal {
    CTEXT_ACCEPTED = 0,
    CTEXT_TOO_LONG = 1,             /* string, list or shortest writing over 65,535, or
                                       resource form over 262,140 */
    CTEXT_CUT = 2,                  /* end inside an element */
    CTEXT_UNUSED = 3,               /* octet not used there */
    CTEXT_UNKNOWN = 4,              /* unknown sequence */
    CTEXT_NOT_APPROVED = 5,         /* set not approved for that form */
    CTEXT_VERSION_SEQUENCE = 6,     /* version sequence, 1B 23 */
    CTEXT_BAD_SEGMENT = 7,          /* bad extended segment, or a unit's over 16,383 octets */
    CTEXT_BAD_DIRECTION = 8,        /* direction rule (below) */
    CTEXT_TOO_DEEP = 9,             /* a seventeenth open direction */
    CTEXT_NO_ROOM = 10,             /* list or output too short; count is what is needed */
    CTEXT_BAD_UNIT = 11,            /* bad unit; no such run; no such reader */
    CTEXT_NO_WORK_ROOM = 12,        /* work room under CTEXT_WORK_ROOM(units) */
    CTEXT_BAD_FORM = 13,            /* backslash that begins no escape, raw newline or raw 00
                                       in a resource form */
    CTEXT_NOT_ENDED = 14,           /* X11R5: no 00 ends the string */
    CTEXT_NOT_IN_X11R5 = 15         /* X11R5: a direction mark or an extended segment */
};

/* The place of a refusal of a string, in octets from 0, by its number:
   2     the string's length
   3     the octet that is not used there: the first of its element, or the second
         of a character of two octets
   4     the first octet with which the sequence is unknown
   5     the final octet of the designation
   6     the 23
   7     of an extended segment 1B 25 2F d M L and n octets, the first of these that
         there is: M or L, where it is under 80; the first bad octet of the name
         (without an 02 all n octets are name); the 02 of an empty name; the last of
         the n octets, or L where n is 0, where there is no 02 or where the text's
         length is wrong
   8, 9  where the element starts
   A place of 3 to 7 lies inside the string, and inside the offending element. The
   octets before it, taken alone, are accepted, or only cut: CTEXT_CUT at their
   length. What follows the offending element of 3 to 9 changes nothing. Where the
   offending element starts, ctext_next says. In 1.x and 2.x the place was that start
   for all of these; the numbers are the same. 14 and 15 are at X11R5, below. */

/* The direction rule, of strings and of lists: where there is a direction mark,
   all text stands within directions. Text is characters, spaces, and extended
   segments whose text (what follows their first 02) is not empty; in 1.x such a
   segment counted as nothing. Refused with CTEXT_BAD_DIRECTION are
   - a mark that begins a direction, where text and no mark stands before it;
   - text after a mark, while no direction is open;
   - a revert, while no direction is open.
   Tabs, newlines and extended segments without text stand anywhere, and a string
   or list may end with directions open. What is bad in an element or a unit by
   itself, as a bad extended segment, is refused before the rule is asked. */

/* The text of a number of refusal: a constant string, never null. */
static inline const char *ctext_refusal_text(unsigned number)
{
    switch (number) {
    case CTEXT_ACCEPTED: return "accepted";
    case CTEXT_TOO_LONG: return "string, list or shortest writing over 65,535, or resource form over 262,140";
    case CTEXT_CUT: return "end inside an element";
    case CTEXT_UNUSED: return "octet not used there";
    case CTEXT_UNKNOWN: return "unknown sequence";
    case CTEXT_NOT_APPROVED: return "set not approved for that form";
    case CTEXT_VERSION_SEQUENCE: return "version sequence";
    case CTEXT_BAD_SEGMENT: return "bad extended segment";
    case CTEXT_BAD_DIRECTION: return "direction rule";
    case CTEXT_TOO_DEEP: return "too many directions open";
    case CTEXT_NO_ROOM: return "list or output too short";
    case CTEXT_BAD_UNIT: return "bad unit, or no such run or reader";
    case CTEXT_NO_WORK_ROOM: return "work room too short";
    case CTEXT_BAD_FORM: return "bad escape, raw newline or raw 00 in a resource form";
    default: return "no number of refusal";
    }
}

/* The same with the numbers that the functions for X11R5 alone give. */
static inline const char *ctext_r5_refusal_text(unsigned number)
{
    switch (number) {
    case CTEXT_NOT_ENDED: return "no 00 ends the string for X11R5";
    case CTEXT_NOT_IN_X11R5: return "direction mark or extended segment, which X11R5 does not have";
    default: return ctext_refusal_text(number);
    }
}

/* ---- Units ------------------------------------------------------------- */

enum ctext_kind {
    CTEXT_KIND_CHARACTER = 0,
    CTEXT_KIND_SPACE = 1,
    CTEXT_KIND_TAB = 2,
    CTEXT_KIND_NEWLINE = 3,
    CTEXT_KIND_LEFT_TO_RIGHT = 4, /* begins a direction */
    CTEXT_KIND_RIGHT_TO_LEFT = 5, /* begins a direction */
    CTEXT_KIND_REVERT = 6,        /* ends the direction begun last */
    CTEXT_KIND_SEGMENT = 7        /* extended segment */
};

enum ctext_set {
    CTEXT_SET_ASCII = 0,           /* GL */
    CTEXT_SET_JISX0201_RIGHT = 1,  /* GR */
    CTEXT_SET_JISX0201_LEFT = 2,   /* GL */
    CTEXT_SET_ISO8859_1_RIGHT = 3, /* 3 to 11: GR */
    CTEXT_SET_ISO8859_2_RIGHT = 4,
    CTEXT_SET_ISO8859_3_RIGHT = 5,
    CTEXT_SET_ISO8859_4_RIGHT = 6,
    CTEXT_SET_ISO8859_7_RIGHT = 7,
    CTEXT_SET_ISO8859_6_RIGHT = 8,
    CTEXT_SET_ISO8859_8_RIGHT = 9,
    CTEXT_SET_ISO8859_5_RIGHT = 10,
    CTEXT_SET_ISO8859_9_RIGHT = 11,
    CTEXT_SET_GB2312 = 12,         /* 12 to 14: two octets, GL or GR */
    CTEXT_SET_JISX0208 = 13,
    CTEXT_SET_KSC5601 = 14
};

/* The direction in force, of a unit and of a run. */
enum ctext_direction {
    CTEXT_DIRECTION_NONE = 0,
    CTEXT_DIRECTION_LEFT_TO_RIGHT = 1,
    CTEXT_DIRECTION_RIGHT_TO_LEFT = 2
};

/* kind       one of enum ctext_kind
   set        of a character: one of enum ctext_set
   code       of a character: its octet less the top bit; of two octets
              first * 256 + second, each less its top bit;
              of an extended segment: its octet d, 30 to 34
   start      where the unit's octets start in the string, and how many they are;
   length     of an extended segment those of its name, 02 and text
   direction  in force after the unit: one of enum ctext_direction
   depth      how many directions are then open, CTEXT_MOST_OPEN at most
   Set and code are 0 where they mean nothing. A mark that begins a direction has
   that direction, and counts it as open; a revert has the direction beneath, none
   at depth 0; any other unit keeps both. Every reader fills direction and depth,
   and ctext_write ignores them. They are new in 4.0, where the record grew from 12
   octets to 16: programs for 3.x are to be compiled again. */
typedef struct ctext_unit {
    uint8_t kind;
    uint8_t set;
    uint16_t code;
    uint32_t start;
    uint32_t length;
    uint16_t direction;
    uint16_t depth;
} ctext_unit;

/* ---- Sets -------------------------------------------------------------- */

/* The number that stands for no set, one more than the last of enum ctext_set. */
#define CTEXT_NO_SET 15

/* The form of a set, by the octets of its characters. */
enum ctext_form {
    CTEXT_FORM_NONE = 0, /* no set */
    CTEXT_FORM_94 = 1,   /* one octet, 21-7E in GL, A1-FE in GR */
    CTEXT_FORM_96 = 2,   /* one octet, A0-FF in GR */
    CTEXT_FORM_94X94 = 3 /* two octets, each as of a set of 94 */
};

enum ctext_side {
    CTEXT_GL = 0,
    CTEXT_GR = 1
};

/* A row of the table of sets.
   form         one of enum ctext_form
   final_octet  F, the last octet of the set's designations, which are
                1B 28 F to GL and 1B 29 F to GR for a set of 94,
                1B 2D F to GR for a set of 96,
                1B 24 28 F to GL and 1B 24 29 F to GR for a set of 94 by 94
   gl, gr       whether the set may stand in GL, and whether in GR: 0 or 1
   octets       of one of its characters, 1 or 2 */
typedef struct ctext_row {
    uint8_t form;
    uint8_t final_octet;
    uint8_t gl;
    uint8_t gr;
    uint8_t octets;
} ctext_row;

/* The row of a set, one of enum ctext_set. For every other number, 15 to 255,
   all of it is 0. */
ctext_row ctext_set_row(uint8_t set);

/* The set that a designation names: the one whose row has that form and final
   octet, and 1 for that side (of enum ctext_side). No two sets agree in these.
   CTEXT_NO_SET where there is none, as for every form that is 0 or over 3 and
   every side over 1. */
uint8_t ctext_set_of(uint8_t form, uint8_t side, uint8_t final_octet);

/* ---- Reading a whole string -------------------------------------------- */

/* Whether the n octets at s are accepted: 0, n and the number of units. Else
   CTEXT_TOO_LONG, or the refusal of the first offending element, whose place is
   the offending octet (Answers, above). Reads s, touches nothing. */
ctext_answer ctext_check(const uint8_t *s, size_t n);

/* The units of the n octets at s. The caller lends room records at units; n
   records always suffice. Answers as ctext_check, but an accepted string of
   more than room units is CTEXT_NO_ROOM. Accepted: the first count records
   hold the units and the rest stay as they were. Refused: no record is
   touched. */
ctext_answer ctext_read(const uint8_t *s, size_t n, ctext_unit *units, size_t room);

/* The archive reader: a second reader, driven by a table of what each octet starts.
   For every string its answer, its units and what it touches are those of
   ctext_check and of ctext_read. Of most notes it is the quicker of the two; of
   units of long two-octet text, ctext_read. */
ctext_answer ctext_archive_check(const uint8_t *s, size_t n);
ctext_answer ctext_archive_read(const uint8_t *s, size_t n, ctext_unit *units, size_t room);

/* ---- Runs -------------------------------------------------------------- */

/* A run is as many characters and spaces as follow each other on one side, GL
   or GR, with no other octet between them. Three functions show the runs of a
   string, and they show the same:
   ctext_next_runs  several a call, into a list that the caller lends: for all
                    runs of a string, the quickest where they are many
   ctext_next_run   the next one, by value: where no list is at hand, or not all
                    runs are wanted
   ctext_run        the one of a number: for a few runs, since each call checks
                    the string and reads it from its start */

/* A run: the octets start to end of the string, end not included, and the set,
   the octets of one of its characters (1 or 2) and the direction in force, one of
   enum ctext_direction (above). */
typedef struct ctext_run_bounds {
    size_t start;
    size_t end;
    ctext_answer answer;
    uint8_t set;
    uint8_t width;
    uint8_t direction;
} ctext_run_bounds;

/* The run of number k, from 0, of the n octets at s.
   Shown: 0, n and the run's octets. A refused string: its refusal. Past the
   last run: CTEXT_BAD_UNIT at 0. Beside a refusal all else is 0. Reads s,
   touches nothing. Each call checks all n octets and reads on to run k, so all
   runs of a string by number take time in the square of n: go through them by
   ctext_next_runs or ctext_next_run. */
ctext_run_bounds ctext_run(const uint8_t *s, size_t n, size_t k);

/* The run's octets, end - start of them, where they stand in the string. */
static inline const uint8_t *ctext_run_octets(const uint8_t *s, ctext_run_bounds run)
{
    return run.start == 0 ? s : s + run.start;
}

/* Where a reader of runs stands. The caller keeps it, and the string. It may be
   copied, stored, and made by hand. Its fields are those of a ctext_reader
   (below) but for the count, and
   checked  whether the whole string is known to be accepted: 0 is no and
            anything else yes; a step gives 0 or 1 */
typedef struct ctext_run_reader {
    uint64_t levels;
    size_t place;
    uint8_t gl;
    uint8_t gr;
    uint8_t depth;
    uint8_t marked;
    uint8_t texted;
    uint8_t checked;
} ctext_run_reader;

/* A run, or the answer where none is shown, and the reader after it. */
typedef struct ctext_run_step {
    ctext_run_reader reader;
    ctext_run_bounds run;
} ctext_run_step;

/* A reader of runs at the start of a string, in the fresh state, not checked. */
ctext_run_reader ctext_open_runs(void);

/* The next run of the n octets at s. A reader of ctext_open_runs, taken on over
   the same octets, shows in its steps 0, 1, 2, .. what ctext_run gives for those
   numbers. The first step checks the whole string, and each further one reads
   on from where the reader stands, so all runs of a string take time in
   proportion to n. Where a step shows no run (run.answer.number is not
   CTEXT_ACCEPTED), every further step repeats its answer; of a refused string
   each checks the string again.

   A string over 65,535 octets gives CTEXT_TOO_LONG, whatever the reader. Else a
   reader made by hand whose place lies past the string, with a set on a side it
   may not use, or whose depth is over 16, gives CTEXT_BAD_UNIT at 0. Else, where
   checked is 0, a refused string gives its refusal. Then the next run from where
   the reader stands is shown by the rules; an element that is refused before it
   gives its refusal, and the end of the string CTEXT_BAD_UNIT at 0. Reads s,
   touches nothing. */
ctext_run_step ctext_next_run(const uint8_t *s, size_t n, ctext_run_reader reader);

/* How many runs were stored, or why none could be, and the reader after them. */
typedef struct ctext_runs_step {
    ctext_run_reader reader;
    ctext_answer answer;
} ctext_runs_step;

/* The next runs of the n octets at s, as many as there is room for. The caller
   lends room words at runs, and each run is stored as one word (its parts are
   below). They are the runs that ctext_next_run shows from the same reader on.

   Accepted: 0, n and the number of runs that were stored, from runs[0] on. The
   rest of the list stays as it was, and the reader stands after the last of
   them. The number is 0 where no run is left, or there is no room. All runs of
   a string:

       uint64_t runs[64];
       ctext_runs_step step;
       step.reader = ctext_open_runs();
       do {
           step = ctext_next_runs(s, n, step.reader, runs, 64);
           .. runs[0] to runs[step.answer.count - 1] ..
       } while (step.answer.count > 0);
       .. step.answer is accepted, or the refusal of the string ..

   The first call checks the whole string, and each further one reads on from
   where the reader stands, so all runs of a string take time in proportion to
   n. One word of room is enough, n words always hold all runs at once, and from
   some dozens on a longer list gains little.

   Refused: no word is touched. A string over 65,535 octets, a reader made by
   hand that cannot be, and a refused string where checked is 0 give what they
   give for ctext_next_run, in this order, whatever the room. An element that is
   refused, which only a reader made by hand comes to, ends the runs: those
   before it are stored, and the next call that has room gives its refusal. */
ctext_runs_step ctext_next_runs(const uint8_t *s, size_t n, ctext_run_reader reader,
                                uint64_t *runs, size_t room);

/* The parts of a run of ctext_next_runs, as in ctext_run_bounds: its octets are
   start to end of the string, end not included. From its lowest octet on the
   word holds start and end in two octets each, then set, width and direction in
   one each; the highest octet is 0. */
static inline size_t ctext_run_start(uint64_t run)
{
    return run & 0xFFFF;
}

static inline size_t ctext_run_end(uint64_t run)
{
    return (run >> 16) & 0xFFFF;
}

static inline uint8_t ctext_run_set(uint64_t run)
{
    return (run >> 32) & 0xFF;
}

static inline uint8_t ctext_run_width(uint64_t run)
{
    return (run >> 40) & 0xFF;
}

static inline uint8_t ctext_run_direction(uint64_t run)
{
    return (run >> 48) & 0xFF;
}

/* ---- A reader that steps ----------------------------------------------- */

/* Where a reader stands. The caller keeps it, and the string. It may be copied,
   stored, and made by hand; two of them are compared field by field.
   levels  the open directions, a binary digit for each: the last opened lowest,
           1 for right-to-left; digits from depth upwards mean nothing
   place   the next octet
   count   the units handed out; it stays at the largest number
   gl, gr  the sets in force
   depth   how many directions are open
   marked  whether a direction mark was read
   texted  whether text was read: a character, a space, or an extended segment
           whose text is not empty
   Of marked and texted 0 is no and anything else yes; a step gives 0 or 1. */
typedef struct ctext_reader {
    uint64_t levels;
    size_t place;
    size_t count;
    uint8_t gl;
    uint8_t gr;
    uint8_t depth;
    uint8_t marked;
    uint8_t texted;
} ctext_reader;

/* given 1: unit is the next unit, and reader stands after it; answer is all 0.
   given 0: there is none, answer says why, and unit is all 0. At the end, and for
   2 to 9, reader stands past the designations after the last unit: at the string's
   end, or at the start of the element that is refused, so that reader.place is
   that start and answer.place the offending octet, and its sets are those in force
   there. (In 1.x and 2.x it stayed after the last unit.) For 1 and 11 it stands
   where it stood. All else of it is as it was, marked and texted written as 0 or 1.
   The end is told by given alone: beside a unit the answer's number is 0 too,
   which is CTEXT_ACCEPTED. */
typedef struct ctext_step {
    ctext_reader reader;
    ctext_answer answer;
    ctext_unit unit;
    uint8_t given;
} ctext_step;

/* A reader at the start of a string, in the fresh state. */
ctext_reader ctext_open(void);

/* One step over the n octets at s. A reader of ctext_open, taken on over the
   same octets, hands out exactly the units before the end or the offending
   element; the answer is then that of ctext_check, and every further step
   repeats it. A string over 65,535 octets gives CTEXT_TOO_LONG and no unit,
   whatever the reader. All units of a string:

       ctext_step step = ctext_next(s, n, ctext_open());
       while (step.given) {
           .. step.unit ..
           step = ctext_next(s, n, step.reader);
       }
       .. step.answer says why there is no further unit ..

   That costs what reading the string once does. At its end a reader stays
   where it is, and each further call looks at the offending element again.

   A reader made by hand is read on by the rules from where it stands: its count
   goes on from its own, and direction and depth of its units from its levels and
   its depth. One whose place lies past the string, with a set on a side it may not
   use, or whose depth is over 16, gives CTEXT_BAD_UNIT at 0. No other reader is
   refused for what it holds: where its fields contradict each other or the string
   (a direction open and marked 0, a place inside a character, a count of other
   units), each is used as it is. Reads s, touches nothing. */
ctext_step ctext_next(const uint8_t *s, size_t n, ctext_reader reader);

/* ---- Writing ----------------------------------------------------------- */

/* The shortest string that reads as the count units. The extended segments of
   the list stand in the m octets at segments: of such a unit start and length
   name its octets there, so for units of ctext_read pass the string itself.
   Fields that mean nothing for a unit's kind are ignored, start and length of all
   other units, and direction and depth of every unit: the list's own marks say
   which directions are open.

   The caller lends w octets of work room, at least CTEXT_WORK_ROOM(count), and
   o octets of output. For units of ctext_read the length of their string is
   enough output.

   Accepted: 0, count and the octets written, at the start of out; the rest of
   out stays as it was. Refused, in this order: 1 for the list; the first
   offending unit (11, 7, 8, 9); 12; 1 for the writing; CTEXT_NO_ROOM with the
   octets needed. Then out is not touched. Whatever is answered, work may hold
   anything afterwards. units and segments are only read.

   The time is in proportion to the units, the output, and the octets of the
   names of all extended segments together: a name that many units share is
   read for each of them, 65,535 times 16,382 octets at most. */
ctext_answer ctext_write(const ctext_unit *units, size_t count,
                         const uint8_t *segments, size_t m,
                         uint8_t *work, size_t w,
                         uint8_t *out, size_t o);

/* ---- X11R5 --------------------------------------------------------------- */

/* Compound Text as the implementation of X11R5 has it: no extended segments, no
   directions, no extensions, and a 00 that ends the string. Neither function needs
   work room. */

/* The units of the octets before the first 00 of the n octets at s. What follows that
   00 is never looked at. The caller lends room records at units; n records always
   suffice. Accepted: 0, the place of the 00 and the number of units, the same units
   that ctext_read gives for these octets; the rest of the records stays as it was.
   Refused, in this order:
   14  there is no 00: the place is n, whatever n is
   1   over 65,535 octets stand before the 00
   the first offending element, as by ctext_read, but with
   2   at the place of the 00, which is the string's length
   15  where the element starts, for 9B 31 5D, 9B 32 5D and 9B 5D, which are never
       8 or 9, and for 1B 25 2F d where d is 30 to 34, whatever follows, so never 7
   10  more than room units
   Then no record is touched. GB 2312, JIS X0208 and KS C5601 are accepted on both
   sides. */
ctext_answer ctext_r5_read(const uint8_t *s, size_t n, ctext_unit *units, size_t room);

/* The string for X11R5 of the count units, and the 00 that ends it. GB 2312, JIS
   X0208 and KS C5601 stand in GL, so that each set has one side (enum ctext_set). A
   set is designated where it is needed and not in force; for a space that finds a set
   of two octets in GL, ASCII is. So the string may be longer than that of ctext_write.
   ctext_read reads it, without the 00, as the same units.

   The list, and the m octets of its extended segments, are those of ctext_write. o
   octets of output are lent; CTEXT_R5_MOST_OCTETS always suffice.

   Accepted: 0, count and the octets written with the 00, at the start of out; the rest
   of out stays as it was. Refused, in this order:
   1   over 65,535 units
   the first offending unit, at its index:
   11  as by ctext_write, also an extended segment with a bad d or a part outside the
       m octets
   15  any other extended segment, or a direction mark; 7, 8 and 9 are never given
   1   the string has over 65,535 octets without the 00
   10  with the octets needed, the 00 among them: 1 for an empty list and no output
   Then out is not touched. units and segments are only read; what the m octets are
   does not matter. */
ctext_answer ctext_r5_write(const ctext_unit *units, size_t count,
                            const uint8_t *segments, size_t m,
                            uint8_t *out, size_t o);

/* ---- Resource files ----------------------------------------------------- */

/* The form of octets as the value of an X resource, by the standard's Resources
   section: a backslash becomes two backslashes, a newline \n, an octet 00 \000,
   and every other octet stays. It is for any octets, Compound Text or not. A form
   has at least as many octets as it stands for, and at most four times as many.
   Each string has one form, and each form that is accepted is that of one string.

   Neither function needs work room, and out is touched by an acceptance alone. */

/* The form of the n octets at s, at the start of the o octets at out.
   Accepted: 0, n and the octets of the form; the rest of out stays as it was.
   Refused: CTEXT_TOO_LONG where n is over 65,535; CTEXT_NO_ROOM with the octets
   needed, which are at most 4 * n. */
ctext_answer ctext_resource_write(const uint8_t *s, size_t n, uint8_t *out, size_t o);

/* The octets that the form of n octets at s stands for, at the start of the o
   octets at out. Accepted: 0, n and the number of these octets; the rest of out
   stays as it was. Refused, in this order: CTEXT_TOO_LONG where n is over 262,140;
   CTEXT_BAD_FORM at the first backslash that does not begin one of the three
   escapes (one that the form's end cuts too), raw newline or raw 00;
   CTEXT_TOO_LONG where the form stands for more than 65,535 octets; CTEXT_NO_ROOM
   with the octets needed, which are at most n. */
ctext_answer ctext_resource_read(const uint8_t *s, size_t n, uint8_t *out, size_t o);

/* ---- The program ------------------------------------------------------- */

/* What the program ctext prints, of which length octets are printed. */
typedef struct ctext_printed {
    ctext_answer answer;
    size_t length;
} ctext_printed;

/* What the program ctext prints for the n octets at s: their shortest form,
   nothing added, or "refused N at P" and a newline, N and P in decimal. It is
   stored at the start of the o octets at out, and the rest of out stays as it
   was. Up to 909 units are served; an accepted string of more is refused with
   CTEXT_NO_WORK_ROOM at 0. The work room for them, 65,520 octets, lies on the
   stack.

   length is the octets that are printed, and answer says why: accepted, with
   the units as place and the octets as count, or the refusal that is printed.
   CTEXT_MOST_OCTETS octets of output always suffice. Where length is over o
   nothing is stored; answer is then CTEXT_NO_ROOM with the octets needed, or
   the refusal whose line does not fit. What is printed depends on the octets
   at s alone. */
ctext_printed ctext_program(const uint8_t *s, size_t n, uint8_t *out, size_t o);

/* The archive is for x86-64 Linux; another layout does not compile. */
typedef char ctext_unit_layout[offsetof(ctext_unit, kind) == 0 && offsetof(ctext_unit, set) == 1
                               && offsetof(ctext_unit, code) == 2
                               && offsetof(ctext_unit, start) == 4
                               && offsetof(ctext_unit, length) == 8
                               && offsetof(ctext_unit, direction) == 12
                               && offsetof(ctext_unit, depth) == 14
                               && sizeof(ctext_unit) == 16
                               ? 1 : -1];
typedef char ctext_layout[sizeof(ctext_answer) == 24 && sizeof(ctext_row) == 5
                          && sizeof(ctext_run_bounds) == 48 && sizeof(ctext_printed) == 32
                          && sizeof(ctext_run_reader) == 24
                          && sizeof(ctext_run_step) == 72
                          && sizeof(ctext_runs_step) == 48
                          && sizeof(ctext_reader) == 32 && sizeof(ctext_step) == 80
                          ? 1 : -1];

/* ---- Names for people --------------------------------------------------- */

/* The text of a kind, a set or a direction: a constant string, never null. */
static inline const char *ctext_kind_text(unsigned kind)
{
    static const char *const texts[] = {
        "character", "space", "tab", "newline",
        "left-to-right", "right-to-left", "revert", "extended segment"
    };
    return kind < sizeof texts / sizeof texts[0] ? texts[kind] : "no kind";
}

static inline const char *ctext_set_text(unsigned set)
{
    static const char *const texts[] = {
        "ASCII", "JIS X0201 right", "JIS X0201 left", "ISO 8859-1 right",
        "ISO 8859-2 right", "ISO 8859-3 right", "ISO 8859-4 right", "ISO 8859-7 right",
        "ISO 8859-6 right", "ISO 8859-8 right", "ISO 8859-5 right", "ISO 8859-9 right",
        "GB 2312", "JIS X0208", "KS C5601"
    };
    return set < sizeof texts / sizeof texts[0] ? texts[set] : "no set";
}

static inline const char *ctext_direction_text(unsigned direction)
{
    static const char *const texts[] = { "no direction", "left-to-right", "right-to-left" };
    return direction < sizeof texts / sizeof texts[0] ? texts[direction] : "not a direction";
}

/* The CharSet name of the standard's Font Names section, with which the name of
   a font for the set ends; never null. None is registered for ASCII, which is
   the left half of ISO8859-1. In such a font a character's index is its code,
   of a right half (sets 1 and 3 to 11) its code + 80. */
static inline const char *ctext_set_charset(unsigned set)
{
    static const char *const names[] = {
        "ISO8859-1", "JISX0201.1976-0", "JISX0201.1976-0", "ISO8859-1",
        "ISO8859-2", "ISO8859-3", "ISO8859-4", "ISO8859-7",
        "ISO8859-6", "ISO8859-8", "ISO8859-5", "ISO8859-9",
        "GB2312.1980-0", "JISX0208.1983-0", "KSC5601.1987-0"
    };
    return set < sizeof names / sizeof names[0] ? names[set] : "no set";
}

/* ---- The parts of an extended segment ----------------------------------- */

/* Where the name of its encoding and its text stand in the string. */
typedef struct ctext_segment {
    uint32_t name_start;
    uint32_t name_length;
    uint32_t text_start;
    uint32_t text_length;
} ctext_segment;

/* The parts of the unit in the n octets at s: the name ends at the first 02, the
   text follows it. All 0 where the unit is no extended segment, does not lie
   wholly in those octets, or holds no 02; the name of a unit of ctext_read or
   ctext_next is never empty. The segment counts as text for the direction rule
   where text_length is not 0. Reads s, touches nothing. */
static inline ctext_segment ctext_segment_parts(const uint8_t *s, size_t n, ctext_unit unit)
{
    ctext_segment parts = { 0, 0, 0, 0 };
    uint32_t i;
    if (unit.kind != CTEXT_KIND_SEGMENT || unit.start > n || unit.length > n - unit.start)
        return parts;
    for (i = 0; i < unit.length; i++) {
        if (s[unit.start + i] == 0x02) {
            parts.name_start = unit.start;
            parts.name_length = i;
            parts.text_start = unit.start + i + 1;
            parts.text_length = unit.length - i - 1;
            return parts;
        }
    }
    return parts;
}

/* ---- Version ------------------------------------------------------------ */

/* The CTEXT_VERSION of the library that runs: a constant string. It stands in
   the libraries that lib/build installs, beside the proved functions. */
const char *ctext_version(void);

#ifdef __cplusplus
}
#endif

#endif
