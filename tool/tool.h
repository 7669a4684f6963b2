/* tool.h: what the verbs of the command ctext share. All memory is of fixed
   size: one note of the library's limits, its units, its shortest form, its form
   for X11R5 and its resource form, and what is held of an archive. */

#ifndef TOOL_H
#define TOOL_H

#include <stddef.h>
#include <stdint.h>

#include "ctext.h"

/* The exit status, and what a verb answers for one note. */
enum status { STATUS_ACCEPTED = 0, STATUS_REFUSED = 1, STATUS_FAILED = 2 };

/* A note as it was read, and whether it is one of several. Within a framed file it
   has no name, and the pointer is null. */
typedef struct note {
    const char *name;
    const uint8_t *octets;
    size_t length;
    uint64_t dropped; /* by input_ended: octets that were read and are not held */
    int several;
} note;

/* ---- main.c ------------------------------------------------------------- */

/* What is wrong with a word of the command line, and the usage, to standard error;
   STATUS_FAILED. */
int wrong_use(const char *word, const char *why);

/* ---- input.c ------------------------------------------------------------ */

/* Opens the file; standard input where its name is "-". Where that fails, says so
   and answers -1. Standard input is not closed. */
int input_open(const char *file);
void input_close(const char *file, int opened);

/* The name to be shown. */
const char *input_name(const char *file);

/* Reads the file, or standard input where its name is "-". Of one with more than
   most octets, CTEXT_MOST_FORM at most, the first most + 1, so that it is seen to
   be too long. Where that fails, says so and answers 0. The octets stay until the
   next call. */
int input_note(const char *file, size_t most, note *n);

/* The same for a string that its first 00 ends. The first CTEXT_R5_MOST_OCTETS octets
   are held, and where a 00 is among them no more is read. Else what follows is read
   and dropped up to a 00, which is held as one octet more, or to the end. */
int input_ended(const char *file, note *n);

/* ---- stream.c ----------------------------------------------------------- */

#define STREAM_MOST 262144 /* the most octets that are held */

/* An input of any length, of which a part is held; one at a time.
   octets  what is held, count octets; they stay until more are read, and one octet
           after them may be written too
   taken   how many octets came before them
   why     the errno of a read that failed, else 0
   ended   whether nothing more is read */
typedef struct stream {
    int file;
    uint8_t *octets;
    size_t count;
    uint64_t taken;
    int why;
    int ended;
} stream;

void stream_open(stream *s, int file);

/* Drops what is held; nothing more is read. */
void stream_end(stream *s);

/* Reads until so many octets are held; whether they are. More than STREAM_MOST
   never are. */
int stream_hold(stream *s, size_t count);

/* Takes off octets that are held. */
void stream_take(stream *s, size_t count);

/* Takes off so many octets, held or not; whether there were so many. */
int stream_pass(stream *s, uint64_t count);

/* ---- frames.c and names.c ----------------------------------------------- */

/* What the next call finds: one more, a fault that it has told, or the end. After a
   fault the next call goes on; where nothing more can be read it finds the end. */
enum found { FOUND_ONE, FOUND_FAULT, FOUND_END };

/* A framed file, and the number of its next note. */
typedef struct frames {
    const char *file;
    size_t index;
    stream stream;
} frames;

/* Whether it could be opened; if not, says so. */
int frames_open(frames *f, const char *file);
void frames_close(frames *f);

/* The next note. Of one with more than CTEXT_MOST_OCTETS no octet is kept: the note
   has one octet more than that, any ones. */
int frames_next(frames *f, note *n);

/* The names on standard input, what ends each (newline or 00), and how many were
   found. */
typedef struct names {
    char end;
    size_t index;
    stream stream;
} names;

void names_open(names *l, char end);

/* The next name, which stays until the next call. */
int names_next(names *l, const char **name);

/* ---- output.c ----------------------------------------------------------- */

/* To standard output, through a buffer. Where writing fails the command says so
   and ends with STATUS_FAILED. */
void out_octets(const void *octets, size_t n);
void out_text(const char *text);
void out_format(const char *format, ...);

/* A space and two hexadecimal digits for each octet. */
void out_hexadecimal(const uint8_t *octets, size_t n);

/* The note's name and the text after it, where it is one of several. */
void out_name(const note *n, const char *after);

/* The refusal in a line: number, place and words. */
void out_refusal(ctext_answer a);

/* What a verb made of the note: the octets, a.count of them, or the refusal in
   words to standard error; its status. Nothing is added to the octets, but of
   several notes each has a line with its name and the count of its octets before
   it, and a newline after it. */
int out_made(const note *n, ctext_answer a, const uint8_t *octets);

/* Writes what the buffer holds. */
void out_flush(void);

/* The same, and closes standard output: what was held back may fail only then. */
void out_close(void);

/* "ctext: NAME: WHAT" to standard error, after what stands in the buffer. */
void complain(const char *name, const char *what);

/* The refusal in words to standard error; STATUS_REFUSED. */
int complain_refusal(const note *n, ctext_answer a);

/* A name as it can be shown: '?' for each control octet. */
const char *shown_name(const char *name);

/* ---- progress.c --------------------------------------------------------- */

/* A job that may be long begins; then how far it is, after each note. Shown is that
   once a second on standard error, where it is a terminal. */
void progress_begin(void);
void progress(size_t notes, size_t refused);

/* Takes the line off the terminal, before anything else is written to the file, where
   that is a terminal. */
void progress_clear(int file);

/* ---- shorten.c ---------------------------------------------------------- */

/* ctext_read or ctext_r5_read. */
typedef ctext_answer reading(const uint8_t *s, size_t n, ctext_unit *units, size_t room);

/* The note's shortest form: the answer of its reading where that refuses, else that
   of ctext_write, with its octets, which stay until the next call. */
ctext_answer shortest_form(const note *n, reading *read, const uint8_t **octets);

/* ---- to_r5.c ------------------------------------------------------------ */

/* As out_made; after a refusal 14 or 15, whose place is where the element starts, a
   line more says what is known about it. */
int out_made_r5(const note *n, ctext_answer a, const uint8_t *octets);

/* ---- dump.c ------------------------------------------------------------- */

/* The lines of the note that have the element's start and the place, 16 octets
   each, and those around the place: in hexadecimal, with `>' before the start and
   the place within brackets, and as ASCII. A place at the note's end is shown as
   [--], and lines that are left out as `..'. */
void out_dump(const note *n, size_t element, size_t place);

/* ---- The words of a refusal ---------------------------------------------- */

/* A note that one of its elements is refused for: the answer, 2 to 9, and the
   reader at the start of that element. */
typedef struct refusal {
    const note *note;
    ctext_answer answer;
    ctext_reader reader;
} refusal;

/* reason.c: what is wrong with the octet at the place, a line or two. */
void say_reason(const refusal *r);

/* sequence.c: the same for CTEXT_CUT, CTEXT_UNKNOWN and CTEXT_NOT_APPROVED. */
void say_cut(const refusal *r);
void say_unknown(const refusal *r);
void say_not_approved(const refusal *r);

/* segment.c: the same for CTEXT_BAD_SEGMENT, and of a segment that is cut. */
void say_segment(const refusal *r);
void say_segment_cut(const refusal *r);

/* ---- The verbs, one file for each --------------------------------------- */

/* What the command does for standard input where no verb is given. */
int program(void);

/* Each prints its answer for the note: accepted or refused. */
int shorten(const note *n);
int check(const note *n);
int units(const note *n);
int runs(const note *n);
int explain(const note *n);
int escape(const note *n);
int unescape(const note *n);
int to_r5(const note *n);
int from_r5(const note *n);

/* Takes no note. */
int sets(void);

/* Takes one of its options, or null, and the files. */
int archive(const char *option, char *const *files, int count);

#endif
