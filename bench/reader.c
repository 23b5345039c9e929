/* Splits frames and writes lines, and looks at no message: the mark for `syc pass` in C. */
#include "lines.h"

static struct fault any(const unsigned char *message, size_t length) {
    (void)message;
    (void)length;
    return (struct fault){0, 0};
}

int main(void) {
    return pass_lines(any);
}
