/* What reader.c and checker.c share: octet-counted frames (RFC 6587, section 3.4.1) from standard input, one line a
 * message on standard output. It reads in blocks of 64 KiB and has written each line before the next read, as
 * `syc pass` does. Faults are reported as `syc pass` reports them, so that the outputs can be compared byte by byte. */
#ifndef LINES_H
#define LINES_H

#include <errno.h>
#include <stddef.h>
#include <stdio.h>
#include <string.h>
#include <unistd.h>

enum { BLOCK = 65536, LONGEST = 65536, LONGEST_HEAD = 6, ROOM = BLOCK + LONGEST + LONGEST_HEAD };

/* A message's fault: code 0 is none. */
struct fault {
    int code;
    size_t offset;
};

/* What a look at the front of the input found. */
enum head { OPEN, WHOLE, BAD_LENGTH, TOO_LONG };

static unsigned char input[ROOM];
static unsigned char lines[BLOCK];
static size_t lines_length;

static int write_all(const unsigned char *bytes, size_t length) {
    while (length > 0) {
        ssize_t n = write(1, bytes, length);
        if (n < 0 && errno == EINTR)
            continue;
        if (n <= 0)
            return -1;
        bytes += n;
        length -= (size_t)n;
    }
    return 0;
}

static int flush_lines(void) {
    size_t length = lines_length;
    lines_length = 0;
    return write_all(lines, length);
}

/* Adds one line to those that wait. */
static int append_line(const unsigned char *message, size_t length) {
    if (length + 1 > BLOCK - lines_length && flush_lines())
        return -1;
    if (length + 1 > BLOCK)
        return write_all(message, length) || write_all((const unsigned char *)"\n", 1) ? -1 : 0;
    memcpy(lines + lines_length, message, length);
    lines[lines_length + length] = '\n';
    lines_length += length + 1;
    return 0;
}

/* Reads MSG-LEN and its space; where the frame is whole, its message is bytes[*head .. *head + *length]. */
static enum head read_head(const unsigned char *bytes, size_t have, size_t *head, size_t *length) {
    size_t i = 0, value = 0;
    for (; i < have && bytes[i] >= '0' && bytes[i] <= '9'; i++) {
        if (i == 0 && bytes[i] == '0')
            return BAD_LENGTH;
        value = value * 10 + (size_t)(bytes[i] - '0');
        if (value > LONGEST)
            return TOO_LONG;
    }
    if (i == have)
        return OPEN;
    if (i == 0 || bytes[i] != ' ')
        return BAD_LENGTH;
    *head = i + 1;
    *length = value;
    return have - *head >= value ? WHOLE : OPEN;
}

static int end_with(int status, const char *what) {
    if (flush_lines()) {
        status = 4;
        what = "write failed";
    }
    fprintf(stderr, "syc: %s\n", what);
    return status;
}

static int end_with_frame_fault(const char *name, unsigned long long frame) {
    char text[80];
    snprintf(text, sizeof text, "%s in frame %llu", name, frame);
    return end_with(2, text);
}

static int end_with_message_fault(struct fault fault, unsigned long long frame) {
    static const char *const names[] = {"",       "Pri",    "Version", "Timestamp",      "Hostname",
                                        "AppName", "ProcId", "MsgId",   "StructuredData", "Trailing"};
    char text[80];
    snprintf(text, sizeof text, "%d %s at %zu in frame %llu", fault.code, names[fault.code], fault.offset, frame);
    return end_with(2, text);
}

/* Passes all of standard input. `check` looks at each message. */
static inline int pass_lines(struct fault (*check)(const unsigned char *message, size_t length)) {
    size_t at = 0, have = 0;
    unsigned long long frame = 0;
    for (;;) {
        size_t head, length;
        enum head found = read_head(input + at, have - at, &head, &length);
        if (found == WHOLE) {
            const unsigned char *message = input + at + head;
            frame++;
            struct fault fault = check(message, length);
            if (fault.code)
                return end_with_message_fault(fault, frame);
            if (append_line(message, length))
                return end_with(4, "write failed");
            at += head + length;
            continue;
        }
        if (found != OPEN)
            return end_with_frame_fault(found == TOO_LONG ? "12 TooLong" : "11 BadLength", frame + 1);
        memmove(input, input + at, have - at);
        have -= at;
        at = 0;
        if (flush_lines())
            return end_with(4, "write failed");
        ssize_t n;
        do
            n = read(0, input + have, BLOCK);
        while (n < 0 && errno == EINTR);
        if (n < 0)
            return end_with(4, "read failed");
        if (n == 0 && have > 0)
            return end_with_frame_fault("13 Truncated", frame + 1);
        if (n == 0)
            return 0;
        have += (size_t)n;
    }
}

#endif
