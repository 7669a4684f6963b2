// Compares ctext_check and ctext_archive_check with bench/yardstick.c on all short strings: exhaustive DEPTH PROCESSES
//
// Each part is a prefix with all its continuations by up to DEPTH octets. The parts are the empty string alone, the 256 prefixes of one octet,
// so that with a DEPTH of 3 these are all strings of up to four octets, and the prefixes below, after which a short string meets states and
// elements that it cannot reach by itself. The processes take the parts in turn. Compared are the number and the place, of a refusal the octet
// that it names; the yardstick counts no units, so of the count only that a refusal has none, and that an accepted string has no more units
// than octets. The two checks are compared with each other too, count and all.
#define _DEFAULT_SOURCE
#include <stdatomic.h>
#include <stdbool.h>
#include <stdio.h>
#include <stdlib.h>
#include <string.h>
#include <sys/mman.h>
#include <sys/wait.h>
#include <time.h>
#include <unistd.h>

#include "../bench/yardstick.h"
#include "../include/ctext.h"

// the same line as in a header that has the archive reader
ctext_answer ctext_archive_check(const uint8_t *s, size_t n);

enum { MOST_DEPTH = 3, MOST_PROCESSES = 64, MOST_SHOWN = 20, LONGEST_PREFIX = 64, SECONDS = 10 };

struct prefix {
    const char *what, *octets;
};

#define LTR "\x9B" "1]"
#define EIGHT LTR LTR LTR LTR LTR LTR LTR LTR
#define REVERTED LTR "\x9B]"

static const struct prefix prefixes[] = {
    {"a 94 set designated to GL", "\x1B(J"},
    {"a 94 set designated to GR", "\x1B)I"},
    {"a 96 set designated to GR", "\x1B-B"},
    {"a 94 by 94 set designated to GL", "\x1B$(B"},
    {"a 94 by 94 set designated to GR", "\x1B$)B"},
    {"94 by 94 sets on both sides", "\x1B$(A\x1B$)C"},
    {"a direction open", LTR},
    {"a direction open, and text in it", "\x9B" "2]A"},
    {"all directions reverted", REVERTED},
    {"text before any direction", "A"},
    {"text before any direction, inside a mark", "A\x9B"},
    {"all directions reverted, a 94 by 94 set designated", REVERTED "\x1B$(B"},
    {"fifteen directions open", EIGHT LTR LTR LTR LTR LTR LTR LTR},
    {"sixteen directions open", EIGHT EIGHT},
    {"sixteen directions open, inside a mark", EIGHT EIGHT "\x9B"},
    {"inside a designation, before its side", "\x1B$"},
    {"inside a designation, before its final octet", "\x1B$("},
    {"inside a designation, after an intermediate", "\x1B-!"},
    {"text, inside a designation, after intermediates", "A\x1B$)#/"},
    {"inside a two-octet character", "\x1B$(B0"},
    {"inside a segment, before its length", "\x1B%/2"},
    {"inside a segment, before the second octet of its length", "\x1B%/2\x80"},
    {"inside a segment of three octets, two a character", "\x1B%/2\x80\x83"},
    {"text, inside a segment of three octets, three a character", "A\x1B%/3\x80\x83"},
    {"inside a segment's name", "\x1B%/1\x80\x83" "a"},
    {"inside a segment's name, three octets a character", "\x1B%/3\x80\x85" "ab"},
    {"inside a segment's text", "\x1B%/1\x80\x84" "a\x02"},
    {"inside a segment's text, three octets a character", "\x1B%/3\x80\x84" "a\x02"},
    {"after a segment with a text, inside a mark", "\x1B%/1\x80\x83" "a\x02" "b\x9B"},
    {"after a segment whose text is an 02, inside a mark", "\x1B%/1\x80\x83" "a\x02\x02\x9B"},
    {"after a segment without text, inside a mark", "\x1B%/2\x80\x82" "a\x02\x9B"},
    {"a direction open, inside a segment's name", LTR "\x1B%/1\x80\x83" "a"},
    {"all directions reverted, inside a segment's name", REVERTED "\x1B%/1\x80\x83" "a"},
    {"all directions reverted, inside a segment's name, two octets a character", REVERTED "\x1B%/2\x80\x84" "a"},
    {"all directions reverted, after a segment without text", REVERTED "\x1B%/4\x80\x82" "a\x02"},
};

enum { PREFIXES = sizeof prefixes / sizeof *prefixes, PARTS = 1 + 256 + PREFIXES };

// What the processes share. The strings of the prefixes are counted apart from those of up to so many octets.
struct shared {
    _Atomic int next, done;
    _Atomic long told; // when progress was said last
    _Atomic unsigned long long shortest, continued, accepted, differences;
};

static struct shared *shared;

// What one process counts in the part that it has taken.
static unsigned long long strings, accepted, differences;

static void show(const uint8_t *s, size_t n, ctext_answer a, ctext_answer b, struct verdict v)
{
    char line[8 * (LONGEST_PREFIX + MOST_DEPTH)], *at = line;
    for (size_t i = 0; i < n; i++) at += sprintf(at, " %02X", s[i]);
    *at = 0;
    printf("exhaustive: on%s: the check %u at %zu, count %zu; the archive check %u at %zu, count %zu; the yardstick %u at %u\n", line, a.number,
           a.place, a.count, b.number, b.place, b.count, v.number, v.place);
    fflush(stdout);
}

static void compare(const uint8_t *s, size_t n)
{
    ctext_answer a = ctext_check(s, n), b = ctext_archive_check(s, n);
    struct verdict v = yardstick(s, n);
    bool counted = a.number ? a.count == 0 : a.count <= n;
    bool equal = a.number == b.number && a.place == b.place && a.count == b.count;
    strings++;
    accepted += a.number == 0;
    if (a.number == v.number && a.place == v.place && counted && equal) return;
    if (atomic_load(&shared->differences) + differences++ < MOST_SHOWN) show(s, n, a, b, v);
}

// The string of n octets at s, and all its continuations by up to depth octets.
static void continuations(uint8_t *s, size_t n, int depth)
{
    compare(s, n);
    if (depth == 0) return;
    for (int octet = 0; octet < 256; octet++) {
        s[n] = (uint8_t)octet;
        continuations(s, n + 1, depth - 1);
    }
}

static void part(int k, int depth)
{
    uint8_t s[LONGEST_PREFIX + MOST_DEPTH];
    if (k == 0) {
        continuations(s, 0, 0);
    } else if (k <= 256) {
        s[0] = (uint8_t)(k - 1);
        continuations(s, 1, depth);
    } else {
        size_t n = strlen(prefixes[k - 257].octets);
        memcpy(s, prefixes[k - 257].octets, n);
        continuations(s, n, depth);
    }
}

static void say_progress(void)
{
    long now = (long)time(NULL), told = atomic_load(&shared->told);
    if (now < told + SECONDS || !atomic_compare_exchange_strong(&shared->told, &told, now)) return;
    fprintf(stderr, "exhaustive: %d of %d parts, %llu differences\n", atomic_load(&shared->done), PARTS, atomic_load(&shared->differences));
}

static void take_parts(int depth)
{
    for (int k; (k = atomic_fetch_add(&shared->next, 1)) < PARTS;) {
        strings = accepted = differences = 0;
        part(k, depth);
        atomic_fetch_add(k > 256 ? &shared->continued : &shared->shortest, strings);
        atomic_fetch_add(&shared->accepted, accepted);
        atomic_fetch_add(&shared->differences, differences);
        if (k > 256) printf("exhaustive: %s: %llu strings, %llu accepted\n", prefixes[k - 257].what, strings, accepted);
        fflush(stdout);
        atomic_fetch_add(&shared->done, 1);
        say_progress();
    }
}

int main(int count, char **words)
{
    int depth = count == 3 ? atoi(words[1]) : -1, processes = count == 3 ? atoi(words[2]) : 0;
    if (depth < 0 || depth > MOST_DEPTH || processes < 1 || processes > MOST_PROCESSES) {
        fprintf(stderr, "usage: exhaustive DEPTH PROCESSES\n");
        return 2;
    }
    shared = mmap(NULL, sizeof *shared, PROT_READ | PROT_WRITE, MAP_SHARED | MAP_ANONYMOUS, -1, 0);
    if (shared == MAP_FAILED) return 2;
    shared->told = (long)time(NULL);
    for (int i = 1; i < processes; i++) {
        pid_t child = fork();
        if (child < 0) return 2;
        if (child == 0) {
            take_parts(depth);
            return 0;
        }
    }
    take_parts(depth);
    bool ended = true;
    for (int status; wait(&status) > 0;) ended = ended && status == 0;
    ended = ended && shared->done == PARTS;
    printf("exhaustive: %llu strings of up to %d octets, %llu after %d prefixes, %llu accepted, %llu differences%s\n", shared->shortest, depth + 1,
           shared->continued, PREFIXES, shared->accepted, shared->differences, ended ? "" : ", NOT ENDED");
    return ended && shared->differences == 0 ? 0 : 1;
}
