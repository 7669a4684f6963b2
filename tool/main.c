/* main.c: the command ctext. Chooses the verb, and gives it each note. */

#include <stdio.h>
#include <string.h>

#include "tool.h"

/* A verb answers notes, of at most so many octets each or each ended by a 00, one by
   one; or it takes none, and prints; or it takes one of its options, or null, and the
   files. The functions for the others are null. */
typedef struct verb {
    const char *name;
    int (*answer)(const note *n);
    size_t most; /* 0 where a 00 ends a note */
    int (*print)(void);
    int (*take)(const char *option, char *const *files, int count);
    const char *options[3]; /* up to a null */
    const char *help;       /* one line */
    const char *words;      /* after its name in the usage, where they are not files */
    const char *more;       /* what its own help says besides, or null */
} verb;

/* A new verb is a line here, a line of tool.h and a file; one that takes other words
   than files is a line of USAGE too. */
static const verb VERBS[] = {
    { "shorten", .answer = shorten, .most = CTEXT_MOST_OCTETS, .help = "write its shortest form, nothing added" },
    { "check", .answer = check, .most = CTEXT_MOST_OCTETS, .help = "say whether it is accepted, or why not" },
    { "units", .answer = units, .most = CTEXT_MOST_OCTETS,
      .help = "list its units: characters, spaces, tabs, newlines, directions, segments" },
    { "runs", .answer = runs, .most = CTEXT_MOST_OCTETS, .help = "list its runs: stretches of text in one set" },
    { "explain", .answer = explain, .most = CTEXT_MOST_OCTETS, .help = "show where it is refused, or what it holds" },
    { "escape", .answer = escape, .most = CTEXT_MOST_OCTETS,
      .help = "write its resource form, a value for an X resource file, nothing added" },
    { "unescape", .answer = unescape, .most = CTEXT_MOST_FORM,
      .help = "read a resource form, and write the octets it stands for, nothing added" },
    { "to-r5", .answer = to_r5, .most = CTEXT_MOST_OCTETS,
      .help = "write it for an X11R5 console, the 00 that ends it there included" },
    { "from-r5", .answer = from_r5,
      .help = "read it up to its first 00, as an X11R5 console ends it, and write its shortest form" },
    { "archive", .take = archive, .options = { "--null", "--framed" },
      .help = "check many files, or those that standard input names: list the refused, count all",
      .words = " FILE ..\n"
               "       ctext archive [--null] < NAMES\n"
               "       ctext archive --framed [FILE]",
      .more = "\n"
              "Without a file, standard input has the names of the notes' files, one to a line,\n"
              "or with --null each ended by an octet 00. With --framed all notes are in one file,\n"
              "or on standard input, each after its length in four octets, most significant first.\n" },
    { "sets", .print = sets, .help = "take no note, and list the fifteen sets with their designations", .words = "" }
};

#define COUNT (sizeof VERBS / sizeof VERBS[0])

static const char USAGE[] =
    "usage: ctext < NOTE\n"
    "       ctext VERB [FILE ..]\n"
    "       ctext archive [--null] < NAMES\n"
    "       ctext archive --framed [FILE]\n"
    "       ctext sets\n"
    "       ctext --help | --version\n";

static const char ABOUT[] =
    "\n"
    "Notes in X11 Compound Text. Without a verb: writes the shortest form of the note\n"
    "on standard input, or `refused N at P' and a newline; up to 909 units. A verb\n"
    "takes each file as a note, standard input where none is given or for `-':\n"
    "\n";

static const char STATUS[] =
    "\n"
    "Exit status: 0 accepted; 1 refused; 2 wrong use, or a read or write failed.\n";

int wrong_use(const char *word, const char *why)
{
    complain(word, why);
    fputs(USAGE, stderr);
    return STATUS_FAILED;
}

static void print_verb(const verb *v)
{
    out_format("  %-8s  %s\n", v->name, v->help);
}

static int print_help(void)
{
    size_t i;
    out_text(USAGE);
    out_text(ABOUT);
    for (i = 0; i < COUNT; i++)
        print_verb(&VERBS[i]);
    out_text(STATUS);
    return STATUS_ACCEPTED;
}

static const verb *find(const char *name)
{
    size_t i;
    for (i = 0; i < COUNT; i++)
        if (strcmp(VERBS[i].name, name) == 0)
            return &VERBS[i];
    return NULL;
}

/* A note's answer is written before the next note is read. */
static int answer_one(const verb *v, const char *file, int several)
{
    note n;
    int status = STATUS_FAILED;
    n.several = several;
    if (v->most == 0 ? input_ended(file, &n) : input_note(file, v->most, &n))
        status = v->answer(&n);
    out_flush();
    return status;
}

/* The status of all is the greatest of each. */
static int answer_all(const verb *v, char *const *files, int count)
{
    int status = STATUS_ACCEPTED, i;
    if (count == 0)
        return answer_one(v, "-", 0);
    for (i = 0; i < count; i++) {
        int one = answer_one(v, files[i], count > 1);
        status = one > status ? one : status;
    }
    return status;
}

static int run_on(const verb *v, const char *option, char *const *files, int count)
{
    if (v->take != NULL)
        return v->take(option, files, count);
    if (v->answer != NULL)
        return answer_all(v, files, count);
    return count == 0 ? v->print() : wrong_use(files[0], "the verb takes no file");
}

static int is_option(const char *word)
{
    return word[0] == '-' && word[1] != '\0';
}

static int has_option(const verb *v, const char *word)
{
    size_t i = 0;
    while (v->options[i] != NULL && strcmp(v->options[i], word) != 0)
        i++;
    return v->options[i] != NULL;
}

static int print_verb_help(const verb *v)
{
    out_format("usage: ctext %s%s\n", v->name, v->words != NULL ? v->words : " [FILE ..]");
    print_verb(v);
    out_text(v->more != NULL ? v->more : "");
    return STATUS_ACCEPTED;
}

/* The words after the verb: --help; or an option that it has, or none, and files,
   which may stand after `--'. */
static int run_verb(const verb *v, char *const *words, int count)
{
    const char *option = count > 0 && has_option(v, words[0]) ? words[0] : NULL;
    int first = option != NULL;
    if (count > 0 && strcmp(words[0], "--help") == 0)
        return print_verb_help(v);
    if (count > first && strcmp(words[first], "--") == 0)
        first++;
    else if (count > first && is_option(words[first]))
        return wrong_use(words[first], option != NULL ? "one option at most" : "no such option");
    return run_on(v, option, words + first, count - first);
}

static int run(int argc, char *const *argv)
{
    const verb *v = argc > 1 ? find(argv[1]) : NULL;
    if (argc <= 1)
        return program();
    if (v != NULL)
        return run_verb(v, argv + 2, argc - 2);
    if (argc == 2 && strcmp(argv[1], "--help") == 0)
        return print_help();
    if (argc == 2 && strcmp(argv[1], "--version") == 0) {
        out_format("ctext %s\n", ctext_version());
        return STATUS_ACCEPTED;
    }
    return wrong_use(argv[1], is_option(argv[1]) ? "no such option" : "no such verb");
}

int main(int argc, char **argv)
{
    int status = run(argc, argv);
    out_close();
    return status;
}
