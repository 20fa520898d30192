/*
 * gbus: the simulated module bus of Project Ara, in the process of its caller.
 *
 * A bus takes a script line by line, as `gbus run` does, and has the report of its last line:
 *
 *     gbus bus = GBUS_INIT;
 *     size_t size;
 *     char report[4096];
 *
 *     if (gbus_open(&bus, false) == GBUS_DONE) {
 *         gbus_line(&bus, "insert 2 gpio", 13, &size);
 *         gbus_line(&bus, "boot", 4, &size);
 *         size = gbus_text(&bus, 0, report, sizeof report);
 *         fwrite(report, 1, size, stdout);
 *         gbus_close(&bus);
 *     }
 *
 * docs/LIBRARY.md begins with a whole program, docs/SCRIPT.md has the lines and their reports, and
 * docs/PROOF.md says what is proved of these calls, and what isn't. `bin/gbus lib` builds the
 * archive and the shared library, and says where they are.
 *
 * Conditions, which no call tests:
 *
 * - `bus` and `size` point to such a value, that may be written.
 * - A handle is GBUS_INIT before its first call, and nothing but these calls writes it. It isn't
 *   copied while it is open: of two copies that both are used the memory is given back twice.
 * - `line` points to `length` bytes, and `out` to `room` bytes that may be written. Where there are
 *   0 of them the pointer may be any, null too. `out` overlaps neither `bus` nor `size`.
 * - malloc, realloc and free are of one allocator, and align each block as C says.
 * - No call is made in a signal handler, or in the child of a fork where the process has threads.
 *
 * Who owns what: a bus owns its memory, from gbus_open to gbus_close, and keeps no pointer that it
 * was given. Lines and reports are the caller's. A handle that is let go while it is open leaks.
 *
 * Threads: there may be any number of buses, and calls on different ones may be made at once. A bus
 * may go from one thread to another, but one call on it must end before the next one begins, as
 * under a lock. No call blocks, and none starts a thread.
 */
#ifndef GBUS_H
#define GBUS_H

#include <stdbool.h>
#include <stddef.h>
#include <stdint.h>

#ifdef __cplusplus
extern "C" {
#endif

/* A bus that is open or closed. What stands in it is the library's. */
typedef struct gbus {
    void *at;
} gbus;

/* A handle that is closed. */
#define GBUS_INIT { 0 }

/* What a call answers. */
typedef uint32_t gbus_status;
enum {
    /* It did what it is for. A line whose event the bus refused is done too: its report says so. */
    GBUS_DONE = 0,
    /* The line is bad, as the report says. The bus is as before, but for the number of lines. */
    GBUS_BAD_LINE = 1,
    /* No memory was found. Of a line: the bus keeps nothing any more, and answers this at each line
       until it is closed. */
    GBUS_NO_MEMORY = 2,
    /* The bus has taken 4,294,967,295 lines, and takes no more. */
    GBUS_SPENT = 3,
    /* The handle is closed, and nothing was done. */
    GBUS_CLOSED = 4,
    /* The handle is open, and nothing was done. */
    GBUS_OPEN = 5
};

/* A line has at most so many bytes, without its end. A longer one is bad. */
#define GBUS_LONGEST_LINE 8192

/*
 * Opens a closed handle: a bus on which nothing is plugged and nothing was sent. With `hex` reports
 * have the bytes of each message, as those of `gbus run --hex`.
 * GBUS_DONE; GBUS_NO_MEMORY, and the handle is closed; GBUS_OPEN.
 */
gbus_status gbus_open(gbus *bus, bool hex);

/*
 * Runs a line, and sets `*size` to how many bytes its report has. The first line is line 1. It may
 * end with LF, CR LF or CR, which is no part of it; any other byte outside of 0x20 to 0x7e makes it
 * bad. A blank line and a comment have an empty report, and so has each line that is answered with
 * another status than GBUS_DONE and GBUS_BAD_LINE.
 * GBUS_DONE; GBUS_BAD_LINE; GBUS_NO_MEMORY; GBUS_SPENT; GBUS_CLOSED.
 */
gbus_status gbus_line(gbus *bus, const char *line, size_t length, size_t *size);

/*
 * Copies the report of the last line to `out`, from its byte `from` on and as far as there is room,
 * and answers how many bytes that were. What stands behind them in `out` is as before: no byte 0 is
 * put there. Nothing of the bus changes, so a report may be read again, or piece by piece. That of
 * a closed handle is empty.
 */
size_t gbus_text(gbus *bus, size_t from, char *out, size_t room);

/* Closes a handle and gives its memory back. It may be opened again. Nothing happens if it is
   closed. */
void gbus_close(gbus *bus);

#ifdef __cplusplus
}
#endif

#endif
