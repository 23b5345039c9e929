/* Writes octet-counted frames (RFC 6587, section 3.4.1) of RFC 5424 messages: frames MODE BYTES [SEED].
 * It ends with the first whole frame at which BYTES bytes are reached. One seed gives the same bytes on each machine.
 *
 *   real    what real senders write, 150 to 400 bytes: timestamps with fractions and offsets, host, application,
 *           process, message id, two elements of structured data with a few escapes, a text
 *   plain   messages of 150 to 400 bytes whose parts before the text are all `-`
 *   short   the shortest usual message, `<34>1 - - - - - -`
 */
#include <inttypes.h>
#include <stdarg.h>
#include <stdio.h>
#include <stdlib.h>
#include <string.h>

enum { SHORTEST = 150, LONGEST = 400, ROOM = 1024 };

static uint64_t state;

/* splitmix64 */
static uint64_t next(void) {
    uint64_t z = state += 0x9e3779b97f4a7c15u;
    z = (z ^ (z >> 30)) * 0xbf58476d1ce4e5b9u;
    z = (z ^ (z >> 27)) * 0x94d049bb133111ebu;
    return z ^ (z >> 31);
}

static unsigned below(unsigned limit) {
    return (unsigned)(next() % limit);
}

#define PICK(list) ((list)[below(sizeof(list) / sizeof *(list))])

struct text {
    char bytes[ROOM];
    size_t length;
};

static void add(struct text *text, const char *format, ...) __attribute__((format(printf, 2, 3)));

static void add(struct text *text, const char *format, ...) {
    va_list values;
    va_start(values, format);
    int n = vsnprintf(text->bytes + text->length, ROOM - text->length, format, values);
    va_end(values);
    if (n < 0 || (size_t)n >= ROOM - text->length) {
        fprintf(stderr, "frames: a message is too long\n");
        exit(1);
    }
    text->length += (size_t)n;
}

static const char *const hosts[] = {"web1",           "web2.example.org", "db-primary", "mx.example.com", "fw-edge-03",
                                    "node17.cluster", "192.0.2.17",       "gw",         "2001:db8::42",   "build-agent-8"};
static const char *const apps[] = {"sshd", "nginx", "postfix/smtpd", "systemd", "kernel", "CRON", "haproxy", "dhcpd", "sudo", "app"};
static const char *const ids[] = {"-", "-", "-", "ID47", "LOGIN", "TCPIN", "REQ", "8f3c"};
static const char *const fractions[] = {"%03u", "%06u", "%06u", "%06u"};
static const unsigned fraction_limits[] = {1000, 1000000, 1000000, 1000000};
static const char *const offsets[] = {"Z", "Z", "+02:00", "+01:00", "-05:00", "+05:30"};
static const char *const first_elements[] = {
    "[timeQuality tzKnown=\"1\" isSynced=\"1\" syncAccuracy=\"%u\"]",
    "[timeQuality tzKnown=\"1\" isSynced=\"0\"]",
    "[meta sequenceId=\"%u\" sysUpTime=\"37\" language=\"en\"]",
};
static const char *const second_elements[] = {
    "[origin ip=\"192.0.2.129\" software=\"rsyslogd\" swVersion=\"8.2302.0\"]",
    "[exampleSDID@32473 iut=\"3\" eventSource=\"Application\" eventID=\"%u\"]",
    "[request@32473 path=\"/api/v2/items?q=\\\"a b\\\"\" code=\"%u\"]",
    "[audit@32473 list=\"[1,2\\]\" user=\"Zo\xc3\xab\" id=\"%u\"]",
};
static const char *const texts[] = {
    "Accepted publickey for deploy from 198.51.100.23 port %u ssh2",
    "192.0.2.7 - - \"GET /index.html?id=%u HTTP/1.1\" 200 5316 \"-\" \"Mozilla/5.0 (X11; Linux x86_64)\"",
    "pam_unix(cron:session): session opened for user root(uid=0) by (uid=%u)",
    "DHCPACK on 10.0.3.%u to 52:54:00:12:34:56 (host-a) via eth1",
    "\xef\xbb\xbf" "connection reset by peer while reading response header from upstream, request %u",
    "[UFW BLOCK] IN=eth0 OUT= SRC=203.0.113.9 DST=192.0.2.1 LEN=40 TTL=244 ID=%u PROTO=TCP SPT=45120 DPT=23",
};

#pragma GCC diagnostic ignored "-Wformat-nonliteral"
#pragma GCC diagnostic ignored "-Wformat-security"
#pragma GCC diagnostic ignored "-Wformat-extra-args"

/* Fills a message up with words until it has a length that was drawn before. */
static void fill(struct text *text, size_t length) {
    static const char *const words[] = {" took", " ms=12", " retry", " state=ok", " queue", " worker-3", " bytes=2048", " flushed"};
    while (text->length < length) {
        const char *word = PICK(words);
        add(text, "%.*s", (int)(length - text->length), word);
    }
}

/* (each draw stands in a statement of its own: C leaves the order of arguments open) */
static void add_pri(struct text *text) {
    unsigned class = below(192);
    add(text, "<%u>1 ", class);
}

/* Adds one of some formats, with one number. */
static void add_one_of(struct text *text, const char *const *formats, size_t count, unsigned limit) {
    const char *format = formats[below((unsigned)count)];
    unsigned number = below(limit);
    add(text, format, number);
}

#define ADD_ONE_OF(text, list, limit) add_one_of(text, list, sizeof(list) / sizeof *(list), limit)

static void real(struct text *text, uint64_t number) {
    size_t length = SHORTEST + below(LONGEST - SHORTEST + 1);
    unsigned part = below(4), second = (unsigned)(number / 2000);
    add_pri(text);
    add(text, "2025-06-%02uT%02u:%02u:%02u.", 1 + second / 86400 % 30, second / 3600 % 24, second / 60 % 60, second % 60);
    add(text, fractions[part], below(fraction_limits[part]));
    add(text, "%s ", PICK(offsets));
    add(text, "%s ", PICK(hosts));
    add(text, "%s ", PICK(apps));
    if (below(8))
        add(text, "%u", 1 + below(65535));
    else
        add(text, "-");
    add(text, " %s ", PICK(ids));
    ADD_ONE_OF(text, first_elements, 100000);
    ADD_ONE_OF(text, second_elements, 1000);
    add(text, " ");
    ADD_ONE_OF(text, texts, 65536);
    fill(text, length);
}

static void plain(struct text *text, uint64_t number) {
    size_t length = SHORTEST + below(LONGEST - SHORTEST + 1);
    (void)number;
    add_pri(text);
    add(text, "- - - - - - ");
    ADD_ONE_OF(text, texts, 65536);
    fill(text, length);
}

static void brief(struct text *text, uint64_t number) {
    (void)number;
    add(text, "<34>1 - - - - - -");
}

int main(int count, char **words) {
    static const struct {
        const char *name;
        void (*make)(struct text *, uint64_t);
    } modes[] = {{"real", real}, {"plain", plain}, {"short", brief}};
    unsigned long long bytes = 0, limit = count > 2 ? strtoull(words[2], NULL, 10) : 0;
    void (*make)(struct text *, uint64_t) = NULL;
    for (size_t i = 0; count > 2 && i < sizeof modes / sizeof *modes; i++)
        if (!strcmp(words[1], modes[i].name))
            make = modes[i].make;
    if (!make) {
        fprintf(stderr, "usage: frames real|plain|short BYTES [SEED]\n");
        return 2;
    }
    state = count > 3 ? strtoull(words[3], NULL, 10) : 1;
    for (uint64_t number = 0; bytes < limit; number++) {
        struct text text = {.length = 0};
        make(&text, number);
        int head = printf("%zu ", text.length);
        if (head < 0 || fwrite(text.bytes, 1, text.length, stdout) != text.length)
            return 4;
        bytes += (unsigned long long)head + text.length;
    }
    return fflush(stdout) ? 4 : 0;
}
