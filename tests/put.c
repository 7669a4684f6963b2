/* put.c: sets a property of the root window, for tests/x11.

   put PROPERTY TYPE < octets */

#include <X11/Xlib.h>
#include <stdio.h>

#define MOST 262144

int main(int argc, char **argv)
{
    static unsigned char octets[MOST];
    Display *display = argc == 3 ? XOpenDisplay(NULL) : NULL;
    size_t length = fread(octets, 1, MOST, stdin);
    if (display == NULL)
        return 2;
    XChangeProperty(display, DefaultRootWindow(display), XInternAtom(display, argv[1], False),
                    XInternAtom(display, argv[2], False), 8, PropModeReplace, octets, (int)length);
    XCloseDisplay(display);
    return 0;
}
