/* Splits frames, checks each message by the whole grammar of RFC 5424 (section 6) in the profile that docs/FORMATS.md
 * states, and writes lines. It was written from the grammar and not from the program. The first fault from the left
 * is answered, with the offset of its part. */
#include "lines.h"

enum { PRI = 1, VERSION, TIMESTAMP, HOSTNAME, APP_NAME, PROCID, MSGID, STRUCTURED_DATA, TRAILING };

static int is_digit(unsigned char byte) {
    return byte >= '0' && byte <= '9';
}

static int is_printable(unsigned char byte) {
    return byte >= 33 && byte <= 126;
}

/* Two digits as a number, or -1. */
static int two(const unsigned char *bytes) {
    return is_digit(bytes[0]) && is_digit(bytes[1]) ? (bytes[0] - '0') * 10 + (bytes[1] - '0') : -1;
}

static int is_within(int value, int low, int high) {
    return value >= low && value <= high;
}

static int days_of(int year, int month) {
    static const int days[] = {31, 28, 31, 30, 31, 30, 31, 31, 30, 31, 30, 31};
    int is_leap = (year % 4 == 0 && year % 100 != 0) || year % 400 == 0;
    return days[month - 1] + (month == 2 && is_leap);
}

static int is_date(const unsigned char *text) {
    int century = two(text), rest = two(text + 2), month = two(text + 5), day = two(text + 8);
    if (century < 0 || rest < 0 || text[4] != '-' || text[7] != '-' || !is_within(month, 1, 12))
        return 0;
    return is_within(day, 1, days_of(century * 100 + rest, month));
}

static int is_time(const unsigned char *text) {
    return is_within(two(text), 0, 23) && text[2] == ':' && is_within(two(text + 3), 0, 59) && text[5] == ':' &&
           is_within(two(text + 6), 0, 59);
}

static int is_offset(const unsigned char *text, size_t length) {
    if (length == 1)
        return text[0] == 'Z';
    return length == 6 && (text[0] == '+' || text[0] == '-') && is_within(two(text + 1), 0, 23) && text[3] == ':' &&
           is_within(two(text + 4), 0, 59);
}

static int is_timestamp(const unsigned char *text, size_t length) {
    size_t at = 19;
    if (length == 1)
        return text[0] == '-';
    if (length < 20 || !is_date(text) || text[10] != 'T' || !is_time(text + 11))
        return 0;
    if (text[at] == '.') {
        size_t first = ++at;
        while (at < length && is_digit(text[at]))
            at++;
        if (at - first < 1 || at - first > 6)
            return 0;
    }
    return is_offset(text + at, length - at);
}

/* The bytes from `at` to the next space; 0 where there is no space, or a byte before it isn't printable. */
static int field(const unsigned char *message, size_t length, size_t at, size_t longest, size_t *end) {
    size_t i = at;
    while (i < length && is_printable(message[i]))
        i++;
    *end = i;
    return i < length && message[i] == ' ' && i > at && i - at <= longest;
}

/* SD-NAME, or 0; *at moves past it. */
static int sd_name(const unsigned char *message, size_t length, size_t *at) {
    size_t first = *at, i = first;
    while (i < length && is_printable(message[i]) && message[i] != '=' && message[i] != ']' && message[i] != '"')
        i++;
    *at = i;
    return i > first && i - first <= 32;
}

/* PARAM-VALUE and its closing quote, or 0. */
static int sd_value(const unsigned char *message, size_t length, size_t *at) {
    for (size_t i = *at; i < length; i++) {
        unsigned char byte = message[i];
        if (byte == '"') {
            *at = i + 1;
            return 1;
        }
        if (byte == ']')
            return 0;
        if (byte == '\\' && i + 1 < length && (message[i + 1] == '"' || message[i + 1] == '\\' || message[i + 1] == ']'))
            i++;
    }
    return 0;
}

static int sd_element(const unsigned char *message, size_t length, size_t *at) {
    size_t i = *at + 1;
    if (!sd_name(message, length, &i))
        return 0;
    while (i < length && message[i] == ' ') {
        i++;
        if (!sd_name(message, length, &i) || length - i < 2 || message[i] != '=' || message[i + 1] != '"')
            return 0;
        i += 2;
        if (!sd_value(message, length, &i))
            return 0;
    }
    *at = i + 1;
    return i < length && message[i] == ']';
}

static int structured_data(const unsigned char *message, size_t length, size_t *at) {
    if (*at < length && message[*at] == '-') {
        ++*at;
        return 1;
    }
    if (*at == length || message[*at] != '[')
        return 0;
    while (*at < length && message[*at] == '[')
        if (!sd_element(message, length, at))
            return 0;
    return 1;
}

/* PRI; *at moves past it. */
static int pri(const unsigned char *message, size_t length, size_t *at) {
    size_t i = 1;
    int value = 0;
    while (i < length && i < 4 && is_digit(message[i]))
        value = value * 10 + (message[i++] - '0');
    *at = i + 1;
    return i > 1 && i < length && message[i] == '>' && value <= 191;
}

static struct fault check(const unsigned char *message, size_t length) {
    static const size_t longest[] = {255, 48, 128, 32};
    size_t at = 0, end;
    if (length == 0 || message[0] != '<')
        return (struct fault){PRI, 0};
    if (!pri(message, length, &at))
        return (struct fault){PRI, 1};
    if (length - at < 2 || message[at] != '1' || message[at + 1] != ' ')
        return (struct fault){VERSION, at};
    at += 2;
    if (!field(message, length, at, 32, &end) || !is_timestamp(message + at, end - at))
        return (struct fault){TIMESTAMP, at};
    for (int part = 0; part < 4; part++) {
        at = end + 1;
        if (!field(message, length, at, longest[part], &end))
            return (struct fault){HOSTNAME + part, at};
    }
    at = end = end + 1;
    if (!structured_data(message, length, &end))
        return (struct fault){STRUCTURED_DATA, at};
    if (end < length && message[end] != ' ')
        return (struct fault){TRAILING, end};
    return (struct fault){0, 0};
}

int main(void) {
    return pass_lines(check);
}
