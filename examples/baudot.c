/*
 * A first call from C: converts a text to five-bit codes and reads them back.
 *
 *     make lib
 *     gcc -std=c99 -Iinclude examples/baudot.c target/staticlib/libcuyrapaq.a -o target/baudot
 *     target/baudot 'HELLO 73'
 */
#include "cuyrapaq.h"

#include <stdio.h>
#include <string.h>

#define LONGEST 1000 /* characters of one text */

static int refused(const char *entry, uint8_t answer)
{
    const char *reason = "see the refusals in cuyrapaq.h";
    if (answer == CQ_REFUSED_STATE) {
        reason = "shift or count is out of range";
    } else if (answer == CQ_REFUSED_CHARACTER) {
        reason = "the text has a byte above 127; only characters of seven bits can be sent";
    } else if (answer == CQ_REFUSED_RESULT_SLICE) {
        reason = "the slice is too short for this result";
    } else if (answer == CQ_REFUSED_CODE) {
        reason = "a code is above 31";
    }
    fprintf(stderr, "%s refused with %u: %s\n", entry, (unsigned)answer, reason);
    return 1;
}

int main(int argc, char **argv)
{
    const char *line = argc > 1 ? argv[1] : "HELLO 73";
    size_t length = strlen(line);
    uint8_t text[LONGEST];
    uint8_t codes[CQ_BAUDOT_CODES_MAX(LONGEST)];
    uint8_t back[CQ_BAUDOT_TEXT_MAX(sizeof codes)];
    cq_baudot_sent sent;
    cq_baudot_text read;
    size_t i;
    int bit;

    if (length > LONGEST) {
        fprintf(stderr, "the text is longer than %d characters\n", LONGEST);
        return 1;
    }
    memcpy(text, line, length);

    /* A fresh sender. The next part of a longer text would get sent.shift and sent.count. */
    sent = cq_baudot_send(text, length, CQ_SHIFT_FRESH, 0, codes, sizeof codes);
    if (sent.answer != CQ_OK) {
        return refused("cq_baudot_send", sent.answer);
    }
    printf("codes:");
    for (i = 0; i < sent.length; i++) {
        putchar(' ');
        for (bit = 4; bit >= 0; bit--) {
            putchar(codes[i] >> bit & 1 ? '1' : '0');
        }
    }
    putchar('\n');

    /* A fresh reader is in letters. The codes that follow would get read.shift. */
    read = cq_baudot_read(codes, sent.length, CQ_SHIFT_LETTERS, back, sizeof back);
    if (read.answer != CQ_OK) {
        return refused("cq_baudot_read", read.answer);
    }
    printf("text: ");
    fwrite(back, 1, read.length, stdout);
    putchar('\n');
    return 0;
}
