/* segment.c: what is wrong with an extended segment: 1B 25 2F d M L, and the n
   octets that M and L count, which are a name, 02 and a text. */

#include <string.h>

#include "tool.h"

#define HEAD 6 /* octets before the name */

/* n, of a head that the note has whole and whose M and L are 80-FF. */
static size_t counted(const uint8_t *head)
{
    return (size_t)(head[4] - 0x80) * 0x80 + (size_t)(head[5] - 0x80);
}

static int in_a_name(uint8_t octet)
{
    return octet >= 0x21 && (octet <= 0x7E || octet >= 0xA1) && octet != 0x2A && octet != 0x3F;
}

/* The place is M or L. */
static void say_head(const uint8_t *head, size_t place)
{
    if (head[place] < 0x80)
        out_format("%s is %02X; M and L are to be 80-FF\n", place == 4 ? "M" : "L", head[place]);
    else
        out_text("M and L count no octets, and so no name and no 02\n");
}

/* The place is in the n octets. Where an 02 stands before it the name is good, and
   what is wrong is the text, whose last octet it is. */
static void say_content(const uint8_t *head, const uint8_t *content, size_t place)
{
    const uint8_t *separator = (const uint8_t *)memchr(content, 0x02, place);
    unsigned octet = content[place];
    if (separator != NULL)
        out_format("octets of its text %zu; where d is %02X, a multiple of %d is needed\n",
                   (size_t)(content + place - separator), head[3], head[3] - 0x30);
    else if (octet == 0x02)
        out_text("no octet stands before the 02: the name is empty\n");
    else if (in_a_name(content[place]))
        out_format("no 02 ends the name; octets that M and L count %zu, all of them name\n", counted(head));
    else
        out_format("%02X may not stand in a name; 21-7E and A1-FF may, but for 2A and 3F\n", octet);
}

void say_segment(const refusal *r)
{
    const uint8_t *head = r->note->octets + r->reader.place;
    size_t place = r->answer.place - r->reader.place;
    if (place < HEAD)
        say_head(head, place);
    else
        say_content(head, head + HEAD, place - HEAD);
}

void say_segment_cut(const refusal *r)
{
    const uint8_t *head = r->note->octets + r->reader.place;
    size_t there = r->answer.place - r->reader.place;
    if (there >= HEAD)
        out_format("octets that M and L count %zu, of which the note has %zu\n", counted(head), there - HEAD);
    else
        out_text("a segment begins with 1B 25 2F d M L, and a name, 02 and text follow\n");
}
