#include "plain_form.h"

static ctext_answer refused(uint8_t number, size_t place, size_t count) { return (ctext_answer){.number = number, .place = place, .count = count}; }

// ---- writing

static size_t length_of_form(const uint8_t *s, size_t n)
{
    size_t count = 0;
    for (size_t i = 0; i < n; i++) count += s[i] == 0 ? 4 : s[i] == '\\' || s[i] == '\n' ? 2 : 1;
    return count;
}

static void store_form(const uint8_t *s, size_t n, uint8_t *out)
{
    size_t k = 0;
    for (size_t i = 0; i < n; i++)
        switch (s[i]) {
        case '\\': out[k++] = '\\'; out[k++] = '\\'; break;
        case '\n': out[k++] = '\\'; out[k++] = 'n'; break;
        case 0: out[k++] = '\\'; out[k++] = '0'; out[k++] = '0'; out[k++] = '0'; break;
        default: out[k++] = s[i];
        }
}

ctext_answer plain_write(const uint8_t *s, size_t n, uint8_t *out, size_t o)
{
    if (n > CTEXT_MOST_OCTETS) return refused(CTEXT_TOO_LONG, 0, 0);
    size_t count = length_of_form(s, n);
    if (count > o) return refused(CTEXT_NO_ROOM, 0, count);
    store_form(s, n, out);
    return (ctext_answer){.place = n, .count = count};
}

// ---- reading

// The octets that the form stands for, and where it ends or is wrong.
static size_t check_form(const uint8_t *s, size_t n, size_t *place)
{
    size_t count = 0, i = 0;
    for (; i < n; count++) {
        if (s[i] == '\n' || s[i] == 0) break;
        if (s[i] != '\\') i++;
        else if (i + 1 < n && (s[i + 1] == '\\' || s[i + 1] == 'n')) i += 2;
        else if (i + 3 < n && s[i + 1] == '0' && s[i + 2] == '0' && s[i + 3] == '0') i += 4;
        else break;
    }
    *place = i;
    return count;
}

static void store_plain(const uint8_t *s, uint8_t *out, size_t count)
{
    size_t i = 0;
    for (size_t k = 0; k < count; k++) {
        if (s[i] != '\\') {
            out[k] = s[i++];
        } else if (s[i + 1] == '0') {
            out[k] = 0;
            i += 4;
        } else {
            out[k] = s[i + 1] == 'n' ? '\n' : '\\';
            i += 2;
        }
    }
}

ctext_answer plain_read(const uint8_t *s, size_t n, uint8_t *out, size_t o)
{
    size_t place;
    if (n > CTEXT_MOST_FORM) return refused(CTEXT_TOO_LONG, 0, 0);
    size_t count = check_form(s, n, &place);
    if (place < n) return refused(CTEXT_BAD_FORM, place, 0);
    if (count > CTEXT_MOST_OCTETS) return refused(CTEXT_TOO_LONG, 0, 0);
    if (count > o) return refused(CTEXT_NO_ROOM, 0, count);
    store_plain(s, out, count);
    return (ctext_answer){.place = n, .count = count};
}
