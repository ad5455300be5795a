/*
 * Pewterfinch for C: whether a text is a chart.
 *
 * docs/CHARTS.md has the format and the rules, docs/C-INTERFACE.md says what stands here at more length.
 * Link with target/staticlib/libfirmware.a.
 */
#ifndef PEWTERFINCH_H
#define PEWTERFINCH_H

#include <stddef.h>
#include <stdint.h>

#ifdef __cplusplus
extern "C" {
#endif

/* A text has at most so many bytes. */
#define PEWTERFINCH_MOST_TEXT_BYTES 16384

/*
 * The answers: a text is accepted, or refused with the number of its first fault.
 * 1 to 7 are faults of the text, 8 and 9 of an automaton, 10 to 12 of a transition.
 */
enum pewterfinch_answer {
    /* the text is a chart, and every rule is kept */
    PEWTERFINCH_ACCEPTED = 0,
    /* the text has more than 16,384 bytes */
    PEWTERFINCH_OVERSIZE = 1,
    /* a line has no end: no byte 10 follows from its start on; so too if lines are missing at the end */
    PEWTERFINCH_UNENDED = 2,
    /* a line has more than 96 bytes before its byte 10 */
    PEWTERFINCH_OVERLONG = 3,
    /* a line does not begin with the key that is due and `=` */
    PEWTERFINCH_WRONG_KEY = 4,
    /* an element is not written as it should be, is one too many, or does not ascend where it has to */
    PEWTERFINCH_FORM = 5,
    /* an element is outside its limits, or names something that there is not */
    PEWTERFINCH_RANGE = 6,
    /* the text goes on behind its last due line */
    PEWTERFINCH_TRAILING = 7,
    /* automaton 0 does not stand under `top`, or a later one not under a state of a lower-numbered automaton */
    PEWTERFINCH_MISPLACED = 8,
    /* the `first` of an automaton does not lie in it */
    PEWTERFINCH_STRAY_INITIAL = 9,
    /* `from` and `to` of a transition lie in different automata */
    PEWTERFINCH_SPLIT_ENDS = 10,
    /* a `with` has a state that is not below its `from`, or two states that are not orthogonal */
    PEWTERFINCH_ILL_FORMED = 11,
    /*
     * an `into` is not full: it has a state that is not basic or not below its `to`, or two states that are not
     * orthogonal, or it lacks a state that is orthogonal to all the others
     */
    PEWTERFINCH_NOT_FULL = 12
};

/*
 * Whether the bytes are a chart: 0 if so, else the refusal's number, 1 to 12.
 *
 * What the caller owes: `text` is not null, and points to `length` bytes that can be read and that nobody changes
 * during the call. `length` is at most what one object can have (PTRDIFF_MAX). Nothing else is asked of the bytes, and
 * any alignment will do.
 * - Length 0 is an empty text, and the answer is 2. No byte is read then, so any pointer that is not null will do.
 * - More than 16,384 bytes are answered with 1.
 * A null pointer is not allowed, with length 0 neither. pewterfinch_check, below, allows it.
 *
 * What the call does: it reads the text and answers. It writes to no memory but its own stack, asks for no heap, and
 * keeps nothing from one call to the next; so it may be called from several threads at the same time. It always comes
 * back. It needs at most TODO-STACK bytes of stack.
 */
uint16_t check(const uint8_t *text, size_t length);

/*
 * The same, also for a null pointer: that is an empty text, whatever the length says, and the answer is 2.
 * For any other pointer the caller owes what `check` asks for.
 */
static inline uint16_t pewterfinch_check(const uint8_t *text, size_t length)
{
    static const uint8_t no_byte = 0;

    if (text == NULL) {
        return check(&no_byte, 0);
    }
    return check(text, length);
}

#ifdef __cplusplus
}
#endif

#endif
