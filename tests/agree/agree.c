/* Gives a program and a second reader of the same grammar the same random streams, and compares what they write:
 * agree FIRST COUNT CHECKER PROGRAM [ARGUMENT..]. The streams are numbered; FIRST is the first number. Most hold some
 * good messages and one that was changed in a byte or two, so that both answer one fault with its offset and frame.
 * A stream on which they differ is left as the file agree-NUMBER, and named. It ends with 1 where they differ. */
#define _GNU_SOURCE
#include <fcntl.h>
#include <inttypes.h>
#include <stdio.h>
#include <stdlib.h>
#include <string.h>
#include <sys/mman.h>
#include <sys/wait.h>
#include <unistd.h>

enum { ROOM = 1 << 18, ANSWER = 1 << 18 };

struct bytes {
    size_t length;
    unsigned char at[ROOM];
};

struct answer {
    int status;
    size_t lengths[2];
    char texts[2][ANSWER];
};

static uint64_t state;

/* splitmix64 */
static unsigned below(unsigned limit) {
    uint64_t z = state += 0x9e3779b97f4a7c15u;
    z = (z ^ (z >> 30)) * 0xbf58476d1ce4e5b9u;
    z = (z ^ (z >> 27)) * 0x94d049bb133111ebu;
    return (unsigned)((z ^ (z >> 31)) % limit);
}

#define PICK(list) ((list)[below(sizeof(list) / sizeof *(list))])

static void add(struct bytes *to, const void *bytes, size_t length) {
    if (length > ROOM - to->length)
        length = ROOM - to->length;
    memcpy(to->at + to->length, bytes, length);
    to->length += length;
}

static void add_text(struct bytes *to, const char *text) {
    add(to, text, strlen(text));
}

/* A byte that means something somewhere in the grammar, or any byte. */
static unsigned char telling_byte(void) {
    static const char telling[] = "<> -1[]\"\\=:.+TZtz09\n\r\x7f!~";
    return below(8) ? (unsigned char)telling[below(sizeof telling - 1)] : (unsigned char)below(256);
}

/* A name of printable bytes: mostly short, sometimes as long as is read, seldom one longer. */
static void add_name(struct bytes *to, unsigned longest, const char *without) {
    unsigned length = below(8) ? 1 + below(8) : longest + (below(12) == 0);
    for (unsigned i = 0; i < length; i++) {
        char byte;
        do
            byte = (char)(33 + below(94));
        while (strchr(without, byte));
        add(to, &byte, 1);
    }
}

static void add_field(struct bytes *to, unsigned longest) {
    if (below(3))
        add_text(to, "-");
    else
        add_name(to, longest, "");
    add_text(to, " ");
}

static void add_timestamp(struct bytes *to) {
    static const char *const dates[] = {"2025-06-01", "2000-02-29", "1900-02-29", "1900-02-28", "2024-02-29", "2023-02-29",
                                        "0000-02-29", "2025-04-30", "2025-04-31", "2025-12-31", "2025-13-01", "2025-00-01",
                                        "2025-01-00", "2025-01-32", "9999-11-30", "2100-02-29"};
    static const char *const times[] = {"10:20:30", "00:00:00", "23:59:59", "24:00:00", "23:60:00", "23:59:60"};
    static const char *const fractions[] = {"", "", ".1", ".123456", ".1234567", ".", ".000"};
    static const char *const offsets[] = {"Z", "Z", "+02:00", "-00:00", "+23:59", "+24:00", "-12:60", "z", "", "+0200"};
    if (below(3) == 0) {
        add_text(to, "- ");
        return;
    }
    int is_good = below(16) != 0;
    add_text(to, is_good ? dates[0] : PICK(dates));
    add_text(to, below(200) ? "T" : "t");
    add_text(to, is_good ? times[0] : PICK(times));
    add_text(to, is_good ? fractions[below(4)] : PICK(fractions));
    add_text(to, is_good ? offsets[below(5)] : PICK(offsets));
    add_text(to, " ");
}

static void add_value(struct bytes *to) {
    static const char *const pieces[] = {"a", " ", "\\\"", "\\\\", "\\]", "\\x", "[", "=", "\xc3\xab", "\n", "'", ",", "\\\\\\\""};
    for (unsigned i = below(5); i > 0; i--)
        add_text(to, PICK(pieces));
    if (below(30) == 0)
        add(to, "", 1);
    if (below(150) == 0)
        add_text(to, "\\"); /* takes the closing quote with it */
}

static void add_structured_data(struct bytes *to) {
    if (below(3) == 0) {
        add_text(to, "-");
        return;
    }
    for (unsigned elements = 1 + below(3); elements > 0; elements--) {
        add_text(to, "[");
        add_name(to, 32, "=]\"");
        for (unsigned parameters = below(3); parameters > 0; parameters--) {
            add_text(to, " ");
            add_name(to, 32, "=]\"");
            add_text(to, "=\"");
            add_value(to);
            add_text(to, "\"");
        }
        add_text(to, "]");
    }
}

static void make_message(struct bytes *to) {
    static const unsigned longest[] = {255, 48, 128, 32};
    static const char *const pris[] = {"<0>", "<34>", "<191>", "<007>", "<13>", "<165>", "<192>", "<0034>", "<>", "<034>"};
    to->length = 0;
    add_text(to, below(12) ? pris[below(6)] : PICK(pris));
    add_text(to, "1 ");
    add_timestamp(to);
    for (int part = 0; part < 4; part++)
        add_field(to, longest[part]);
    add_structured_data(to);
    if (below(3)) {
        add_text(to, " ");
        for (unsigned i = below(below(10) ? 20 : 3000); i > 0; i--) {
            unsigned char byte = telling_byte();
            add(to, &byte, 1);
        }
    }
}

/* Changes, drops or adds a byte, or cuts the end off. */
static void change(struct bytes *it) {
    if (it->length == 0)
        return;
    size_t at = below(below(2) ? (unsigned)it->length : (unsigned)(it->length < 60 ? it->length : 60));
    switch (below(4)) {
    case 0:
        it->at[at] = telling_byte();
        break;
    case 1:
        memmove(it->at + at, it->at + at + 1, it->length - at - 1);
        it->length--;
        break;
    case 2:
        if (it->length < ROOM) {
            memmove(it->at + at + 1, it->at + at, it->length - at);
            it->at[at] = telling_byte();
            it->length++;
        }
        break;
    default:
        it->length = at;
    }
}

static void make_stream(struct bytes *stream, uint64_t number) {
    static const char *const bad_heads[] = {"0", "00", " ", "65536 ", "65537 ", "65537", "6553", "99999 ", "\n", "1 ", "+", "-1 "};
    static struct bytes message;
    char head[24];
    state = number * 0x2545f4914f6cdd1du + 1;
    stream->length = 0;
    for (unsigned messages = 1 + below(5); messages > 0; messages--) {
        make_message(&message);
        if (below(5) == 0)
            change(&message);
        if (message.length == 0)
            continue;
        snprintf(head, sizeof head, "%zu ", message.length);
        if (below(40) == 0)
            add_text(stream, PICK(bad_heads));
        add_text(stream, head);
        add(stream, message.at, message.length);
    }
    if (below(6) == 0)
        change(stream);
}

static size_t read_back(int file, char *to) {
    ssize_t n, length = 0;
    lseek(file, 0, SEEK_SET);
    while ((n = read(file, to + length, (size_t)(ANSWER - length))) > 0)
        length += n;
    close(file);
    return (size_t)length;
}

static void ask(struct answer *answer, const struct bytes *stream, char **words) {
    int files[3];
    for (int i = 0; i < 3; i++)
        if ((files[i] = memfd_create("agree", MFD_CLOEXEC)) < 0)
            exit(2);
    if (write(files[0], stream->at, stream->length) != (ssize_t)stream->length || lseek(files[0], 0, SEEK_SET))
        exit(2);
    pid_t child = fork();
    if (child == 0) {
        for (int i = 0; i < 3; i++)
            dup2(files[i], i);
        execvp(words[0], words);
        _exit(127);
    }
    if (child < 0 || waitpid(child, &answer->status, 0) < 0)
        exit(2);
    close(files[0]);
    for (int i = 0; i < 2; i++)
        answer->lengths[i] = read_back(files[i + 1], answer->texts[i]);
}

static int are_alike(const struct answer *a, const struct answer *b) {
    for (int i = 0; i < 2; i++)
        if (a->lengths[i] != b->lengths[i] || memcmp(a->texts[i], b->texts[i], a->lengths[i]))
            return 0;
    return a->status == b->status;
}

int main(int count, char **words) {
    static struct bytes stream;
    static struct answer ours, theirs;
    if (count < 5) {
        fprintf(stderr, "usage: agree FIRST COUNT CHECKER PROGRAM [ARGUMENT..]\n");
        return 2;
    }
    uint64_t first = strtoull(words[1], NULL, 10), last = first + strtoull(words[2], NULL, 10);
    uint64_t differ = 0, faulty = 0;
    for (uint64_t number = first; number < last; number++) {
        make_stream(&stream, number);
        ask(&theirs, &stream, (char *[]){words[3], NULL});
        ask(&ours, &stream, words + 4);
        faulty += theirs.status != 0;
        if (are_alike(&ours, &theirs))
            continue;
        char name[40];
        snprintf(name, sizeof name, "agree-%" PRIu64, number);
        FILE *file = fopen(name, "wb");
        if (!file || fwrite(stream.at, 1, stream.length, file) != stream.length || fclose(file))
            return 2;
        printf("%s: status %d, %zu bytes, %.*s", name, ours.status >> 8, ours.lengths[0], (int)ours.lengths[1], ours.texts[1]);
        printf("  and the checker: status %d, %zu bytes, %.*s\n", theirs.status >> 8, theirs.lengths[0], (int)theirs.lengths[1], theirs.texts[1]);
        differ++;
    }
    printf("agree: %" PRIu64 " streams, %" PRIu64 " of them faulty, %" PRIu64 " differ\n", last - first, faulty, differ);
    return differ != 0;
}
