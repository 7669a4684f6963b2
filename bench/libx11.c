// libX11's reader and writer of compound text. The display is asked for nothing but the number of an atom, once.
#include "libx11.h"

#ifdef WITH_X11

#include <X11/Xlib.h>
#include <X11/Xutil.h>
#include <locale.h>
#include <string.h>

static Display *display;
static Atom compound_text;

void x11_open(void)
{
    if (!setlocale(LC_ALL, "C.UTF-8") || !XSupportsLocale()) return;
    display = XOpenDisplay(NULL);
    if (display) compound_text = XInternAtom(display, "COMPOUND_TEXT", False);
}

bool x11_is_there(void) { return display != NULL; }

static bool converted(const uint8_t *octets, size_t length, char ***list)
{
    XTextProperty p = {.value = (unsigned char *)octets, .encoding = compound_text, .format = 8, .nitems = length};
    int count;
    *list = NULL;
    return Xutf8TextPropertyToTextList(display, &p, list, &count) == Success && count == 1;
}

char *x11_text(const uint8_t *octets, size_t length)
{
    char **list;
    if (!display) return NULL;
    char *text = converted(octets, length, &list) ? strdup(list[0]) : NULL;
    if (list) XFreeStringList(list);
    return text;
}

size_t x11_read(const uint8_t *octets, size_t length)
{
    char **list;
    size_t n = converted(octets, length, &list) ? strlen(list[0]) : 0;
    if (list) XFreeStringList(list);
    return n;
}

size_t x11_write(char *utf8)
{
    XTextProperty p;
    if (Xutf8TextListToTextProperty(display, &utf8, 1, XCompoundTextStyle, &p) != Success) return 0;
    XFree(p.value);
    return p.nitems;
}

#else

void x11_open(void) {}

bool x11_is_there(void) { return false; }

char *x11_text(const uint8_t *octets, size_t length)
{
    (void)octets, (void)length;
    return NULL;
}

size_t x11_read(const uint8_t *octets, size_t length)
{
    (void)octets;
    return length;
}

size_t x11_write(char *utf8)
{
    (void)utf8;
    return 0;
}

#endif
