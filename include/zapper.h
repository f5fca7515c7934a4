/*
 * The zapper kernel for C: check a table, start its program, run it one instant at a time; take what it has parked out of its store, to go on with it
 * elsewhere; read a program in written form into a table, and print a table in written form.
 *
 * `tools/build --library kernel text` makes target/staticlib/libkernel.a, which has zapper_check, zapper_start, zapper_instant and zapper_take, and
 * libtext.a, which has zapper_read and zapper_print. A program links the one that it needs, or both.
 *
 * A call takes whatever it is lent and returns: bad tables, damaged states, unknown events, texts that can't be read and short rooms are answered
 * by a number (the requirements' refusal numbers; 0 is success) and an index, and then no room has been written. A call keeps nothing between
 * calls, allocates nothing and calls nothing back. It checks the table anew each time.
 *
 * Stack: an instant takes 4,736 bytes on x86-64 for its checks, whatever the table; then its passes take, in the same place, some 810 bytes, at most 96
 * for each level of nesting (a Par; 80 a Repeat, an Until or a Freezable, 64 or less the other forms) and 32 to read a configuration of any height:
 * 6,888 for a table of 64 levels, all Pars but the last. A check takes 4,016. So deep did the library, as rattle-kit-5b built it, change bytes below a caller
 * that had filled its stack with a pattern; nothing proves it.
 *
 * Pointers are not null, each with as many elements as its length says, and nothing that a call writes overlaps anything else that it is lent.
 * An answer is a row of 64-bit numbers, whose places are named below. All of them are written by every call.
 */
#ifndef ZAPPER_H
#define ZAPPER_H

#include <stddef.h>
#include <stdint.h>

#ifdef __cplusplus
extern "C" {
#endif

/* In every answer: the refusal's number, 0 for success, and its index (a node, a configuration, an event or a place in a text, else 0). */
enum { ZAPPER_NUMBER = 0, ZAPPER_INDEX = 1 };

/*
 * A check's answer: what bounds an instant. One instant generates at most so many events and does at most so many atoms; one pass of it runs at
 * most ZAPPER_WEIGHT nodes, a node counted every time that it is run (a Repeat once, its body once a repetition). An instant has at most
 * ZAPPER_GENERATIONS + 2 passes, so it runs at most (ZAPPER_GENERATIONS + 2) * ZAPPER_WEIGHT nodes. Nodes are counted as the rules run them;
 * checking the table, the state and the store, reading a configuration and clearing or parking a body are not counted. One instant parks at most
 * ZAPPER_PARKED bytes, at most 16,384. All four are 0 if the table is refused.
 * A Repeat whose body can't end in the instant that begins it counts the body twice at most. What can't is worked out from the tests too: an Await
 * whose test can't be true before the instant's end, a When or Until whose parts that can be reached before it can't. Values are not known here: of an
 * If the larger branch counts, and a RepeatExt counts as a Repeat of its cap.
 */
enum { ZAPPER_GENERATIONS = 2, ZAPPER_MOST_ATOMS = 3, ZAPPER_WEIGHT = 4, ZAPPER_PARKED = 5, ZAPPER_CHECK_PLACES = 6 };

/* A start's answer. */
enum { ZAPPER_START_PLACES = 2 };

/*
 * The words of an event set: event e is bit e % 64 of word e / 64. Where an answer names an event or a node, ZAPPER_NO_EVENT and ZAPPER_NO_NODE
 * say that there is none.
 */
enum { ZAPPER_EVENT_WORDS = 16, ZAPPER_NO_EVENT = 64 * ZAPPER_EVENT_WORDS, ZAPPER_NO_NODE = 4096 };

/*
 * How many values the box hands in with an instant: what a program can ask of it, whether a card is in, how often to try. Each is a byte, and has
 * its place in the row as its number.
 */
enum { ZAPPER_VALUES = 16 };

/*
 * An instant's answer: how many events are present at its end and which is the lowest (ZAPPER_NO_EVENT if none is), how many atoms were written,
 * whether the program has finished (1 or 0), how many passes there were; the node of the first test that was suspended in the last pass before
 * the end was declared, and the event that it waited for (ZAPPER_NO_NODE and ZAPPER_NO_EVENT if the end never was); and the events present: event
 * e is bit e % 64 of place ZAPPER_EVENTS + e / 64. If the instant is refused these are 0, but what names an event or a node says that there is none.
 */
enum {
    ZAPPER_COUNT = 2,
    ZAPPER_LOWEST = 3,
    ZAPPER_ATOMS = 4,
    ZAPPER_FINISHED = 5,
    ZAPPER_PASSES = 6,
    ZAPPER_WAITS_NODE = 7,
    ZAPPER_WAITS_EVENT = 8,
    ZAPPER_EVENTS = 9,
    ZAPPER_INSTANT_PLACES = ZAPPER_EVENTS + ZAPPER_EVENT_WORDS
};

/* A taking's answer: how many bytes of the piece's table and of its state stand at the start of their rooms. Both are 0 if the taking is refused. */
enum { ZAPPER_TABLE_LENGTH = 2, ZAPPER_STATE_LENGTH = 3, ZAPPER_TAKE_PLACES = 4 };

/* The answer of reading and of printing: how many bytes were written at the start of the room. It is 0 if the text or the table is refused. */
enum { ZAPPER_LENGTH = 2, ZAPPER_TEXT_PLACES = 3 };

/* Refusals 1 to 8: is this a table, and what can one instant of its program cost? */
void zapper_check(const uint8_t *table, size_t table_length, uint64_t answer[ZAPPER_CHECK_PLACES]);

/* Refusals 1 to 9: makes the state fresh, four bytes for each node of the table. What stands behind these in the room is not touched. */
void zapper_start(const uint8_t *table, size_t table_length, uint8_t *state, size_t state_length, uint64_t answer[ZAPPER_START_PLACES]);

/*
 * Refusals 1 to 13 and 25: runs one instant with these events and values handed in. The state becomes the next one; the numbers of the atoms done go
 * into `atoms`, in order. The row needs ZAPPER_MOST_ATOMS places; those behind the atoms written are not touched.
 *
 * The values are fixed throughout the instant. An If that is reached goes on with its first branch if its value isn't 0, else with its second, and
 * keeps to it in later instants. A RepeatExt runs its body as often as the lesser of its cap and its value says, read when it begins. A program
 * without these two forms answers the same whatever the values are.
 *
 * The store holds what the program has parked: a Freezable whose event is present when its body has stopped leaves that body, half done as it is,
 * in the store as a piece. It belongs to the table and lasts over the instants, as the state does: begin it empty, its first two bytes 0, and lend
 * the same bytes to every instant of the table; zapper_take takes pieces out of it. Those two bytes, the high one first, count the bytes in use
 * behind them; new pieces go behind these, and what stands behind the new ones is not touched.
 *
 * 25 is a store that no instant of this table leaves: fewer than two bytes, more in use than there are, or a piece that is damaged or another table's.
 * 13 is a store with fewer than ZAPPER_PARKED bytes free; it comes at every instant, whatever the instant would have parked, until a piece is taken or
 * a longer store is lent. So a store has 2 bytes, ZAPPER_PARKED for the next instant, and as many as the pieces that wait in it to be taken; a program
 * without Freezables needs just the 2. Of a store of more than 65,537 bytes the rest isn't used.
 */
void zapper_instant(const uint8_t *table, size_t table_length, uint8_t *state, size_t state_length,
                    const uint64_t handed_in[ZAPPER_EVENT_WORDS], const uint8_t values[ZAPPER_VALUES],
                    uint16_t *atoms, size_t atoms_length, uint8_t *store, size_t store_length,
                    uint64_t answer[ZAPPER_INSTANT_PLACES]);

/*
 * Refusals 1 to 8, 25, 14 and 15: takes the newest piece of an event out of a store of this table. It leaves as a table and a state of its own, each
 * at the start of its room, that zapper_instant goes on with in any box, with a store of its own; don't start it. The other pieces stay in their
 * order, those behind it move down, and the room serves again.
 *
 * 14 is an event of which there is no piece, 15 a table or a state that is longer than its room. No piece is longer than the table and the state that
 * parked it: rooms as long as these two always suffice. What stands behind the table and the state in the rooms is not touched.
 */
void zapper_take(const uint8_t *table, size_t table_length, uint8_t *store, size_t store_length, size_t event,
                 uint8_t *table_room, size_t table_room_length, uint8_t *state_room, size_t state_room_length,
                 uint64_t answer[ZAPPER_TAKE_PLACES]);

/*
 * Refusals 21, 22 and 1 to 8: reads a program in written form and puts its table at the start of the room. 21 is a text that has no reading; the
 * index is the first byte where none goes on, or the text's length if it only ends early. 22 is a table that needs more bytes than the room has, or
 * more than 32,778; 1 to 8 are those of zapper_check on that table. What stands behind the table in the room is not touched.
 *
 * A read has its memory on the stack: 64 KiB for the brackets that are open, 32 KiB for the table until it is checked and 8 KiB for the levels of
 * the text, which the compiler may lay over one another.
 */
void zapper_read(const uint8_t *text, size_t text_length, uint8_t *table, size_t table_length, uint64_t answer[ZAPPER_TEXT_PLACES]);

/*
 * Refusals 1 to 8 and 24: prints the program of a table in written form at the start of the room, nothing behind it, so that zapper_read can read it.
 * 24 is a text that is longer than the room. What stands behind the text in the room is not touched.
 */
void zapper_print(const uint8_t *table, size_t table_length, uint8_t *text, size_t text_length, uint64_t answer[ZAPPER_TEXT_PLACES]);

#ifdef __cplusplus
}
#endif

#endif
