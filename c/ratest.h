/* RATest as a library: one call from the bytes of a request to the bytes of a reply.
 *
 * It answers as the programs `ratest` and `ratest_plus` do, and reads no file, writes none and keeps nothing
 * from one call to the next. Link libratest.so, or libratest.a:
 *
 *     cc program.c $(pkg-config --cflags --libs ratest)
 */
#ifndef RATEST_H
#define RATEST_H

#include <stddef.h>
#include <stdint.h>

#ifdef __cplusplus
extern "C" {
#endif

/* What the call gives where there is no reply: the request is not of the form below; or there was no memory
 * before the command began or after it ended, or a text of the reply has 4 GiB or more. */
#define RATEST_MALFORMED (-1)
#define RATEST_NO_MEMORY (-2)

/* Runs the command of a request and writes the reply in front of `reply`, which has room for `room` bytes.
 *
 * A number has four bytes, the lowest first. A field is its length as a number, and then its bytes.
 *
 * A request is, with nothing between its parts and nothing behind them:
 *   - the number of arguments, and the number of files;
 *   - each argument, as a field that is UTF-8;
 *   - for each file its name, as a field that is UTF-8, and its contents, as a field.
 *
 * The arguments are those of a command line, without the program's name. Where the first is `ra`, `row`,
 * `grade`, `prove` or `check`, they are those of `ratest_plus`, else those of `ratest`. (A schema in a file
 * of such a name is written ./row.) Only the files of the request can be read, by just the names that they
 * have there: for the data folder `d` the rows of the table `t` are the file `d/t.csv`. Of two files of one
 * name the first counts.
 *
 * A reply is:
 *   - the exit status, as one byte;
 *   - the length of what goes to standard output, as a number, and its bytes;
 *   - the bytes of what goes to standard error, up to the end.
 * Status 7 is a command that ran out of memory.
 *
 * The result is
 *   - the length of the reply, at least 5, where it was written;
 *   - minus the length of the reply, at most -5, where the room is too small for it;
 *   - RATEST_MALFORMED or RATEST_NO_MEMORY.
 * Where it is negative, `reply` is unchanged; else only its front is written.
 *
 * Both pointers must be valid for their lengths, and not null even where these are 0; the two pieces of
 * memory must not overlap. The call takes its memory from malloc, realloc and free of the program, and gives
 * all of it back. Several threads may call at once. It must not be called from a signal handler, or in a
 * forked child of a process with threads. A thread that calls needs 4 MiB of stack: the deepest nests of
 * subqueries that are read took between 1 and 2.
 */
int64_t ratest_ask(const uint8_t *request, size_t length, uint8_t *reply, size_t room);

#ifdef __cplusplus
}
#endif

#endif
