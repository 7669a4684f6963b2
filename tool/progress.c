/* progress.c: a line on standard error, where that is a terminal, that tells once a
   second how far a long job is. An alarm says when, so that no note costs a look at
   the clock. */

#include <signal.h>
#include <stdio.h>
#include <string.h>
#include <unistd.h>

#include "tool.h"

static volatile sig_atomic_t due;
static int width; /* of the line that is shown */

static void on_alarm(int number)
{
    (void)number;
    due = 1;
}

void progress_begin(void)
{
    struct sigaction action;
    if (!isatty(STDERR_FILENO))
        return;
    memset(&action, 0, sizeof action);
    action.sa_handler = on_alarm;
    action.sa_flags = SA_RESTART;
    sigaction(SIGALRM, &action, NULL);
    alarm(1);
}

void progress(size_t notes, size_t refused)
{
    if (!due)
        return;
    due = 0;
    progress_clear(STDERR_FILENO);
    width = fprintf(stderr, "notes %zu, refused %zu", notes, refused);
    alarm(1);
}

void progress_clear(int file)
{
    if (width <= 0 || !isatty(file))
        return;
    fprintf(stderr, "\r%*s\r", width, "");
    width = 0;
}
