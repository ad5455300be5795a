/*
 * Calls at the edges of what the C interface allows: no text, no byte, as many bytes as there may be, and one more.
 * Prints what is answered otherwise than it should be. Exit status: 0 if nothing is, else 1.
 */
#include <stdint.h>
#include <stdio.h>
#include <string.h>

#include "pewterfinch.h"

static int held(const char *what, uint16_t answer, uint16_t expected)
{
    if (answer != expected) {
        printf("%s: answered %u, expected %u\n", what, (unsigned)answer, (unsigned)expected);
    }
    return answer == expected;
}

int main(void)
{
    static const char least[] = "chart=a\nevents=1\nautomata=1\nstates=1\ntransitions=0\nunder=top\nfirst=0\nin=0\n";
    static uint8_t text[PEWTERFINCH_MOST_TEXT_BYTES + 1];
    const size_t length = sizeof least - 1;
    int all = 1;

    all &= held("null, no byte", pewterfinch_check(NULL, 0), PEWTERFINCH_UNENDED);
    all &= held("null, a byte", pewterfinch_check(NULL, 1), PEWTERFINCH_UNENDED);
    all &= held("null, too many bytes", pewterfinch_check(NULL, sizeof text), PEWTERFINCH_UNENDED);
    all &= held("no byte", pewterfinch_check(text, 0), PEWTERFINCH_UNENDED);
    all &= held("no byte, without the wrapper", check(text, 0), PEWTERFINCH_UNENDED);

    memset(text, 'a', sizeof text);
    all &= held("16,384 bytes", pewterfinch_check(text, PEWTERFINCH_MOST_TEXT_BYTES), PEWTERFINCH_UNENDED);
    all &= held("16,385 bytes", pewterfinch_check(text, PEWTERFINCH_MOST_TEXT_BYTES + 1), PEWTERFINCH_OVERSIZE);

    /* the least chart, at an odd address, whole, one byte short and one byte longer */
    memcpy(text + 1, least, length);
    all &= held("the least chart", pewterfinch_check(text + 1, length), PEWTERFINCH_ACCEPTED);
    all &= held("one byte short", pewterfinch_check(text + 1, length - 1), PEWTERFINCH_UNENDED);
    all &= held("one byte longer", pewterfinch_check(text + 1, length + 1), PEWTERFINCH_TRAILING);
    return all ? 0 : 1;
}
