/*
 * Zanderanvil as a library: the commands of docs/COMMANDS.md over files in memory. docs/LIBRARY.md says how to
 * build it, and what is proved of it. Link with libzanderanvil.a or libzanderanvil.so, and with the C library.
 *
 * The library keeps no state. It opens no file, prints nothing, starts no thread, and takes its memory from malloc,
 * all of which it has freed when a call returns. Calls may overlap in time where their buffers do not overlap.
 */
#ifndef ZANDERANVIL_H
#define ZANDERANVIL_H

#include <stddef.h>
#include <stdint.h>
#include <string.h>

/* The version of this header and of its library, which is that of the file VERSION: major * 1000 + minor. A library with another major
   number, which its soname has (libzanderanvil.so.1), does not fit. */
#define ZANDERANVIL_VERSION_MAJOR 1
#define ZANDERANVIL_VERSION_MINOR 0
#define ZANDERANVIL_VERSION_TEXT "1.0"
#define ZANDERANVIL_VERSION (ZANDERANVIL_VERSION_MAJOR * 1000 + ZANDERANVIL_VERSION_MINOR)

/* How many bytes of stack a call needs of its thread, with those that the system takes of it: checks/embed.sh runs each command in a
   thread with a stack of this size. */
#define ZANDERANVIL_STACK 131072

#ifdef __cplusplus
extern "C" {
#endif

/*
 * Bytes that are lent for a call, which only reads them. `bytes` is never NULL, also where `length` is 0:
 * zanderanvil_text("") is an empty file. `length` is at most PTRDIFF_MAX, as the size of every object in C: of a larger one,
 * which no object has, nothing is said.
 */
typedef struct {
    const uint8_t *bytes;
    size_t length;
} zanderanvil_bytes;

/*
 * A command, and the files that its words may name. All five files are there, and an empty one is a file of no
 * bytes. A name of the words that is none of the five is the name of no file: to read it ends with
 * ZANDERANVIL_READ_FAULT.
 */
typedef struct {
    /* The words of the command line behind the program's name, in UTF-8, one on each line, as "run\nsource\n". A line
       ends with LF, or with CR and LF, and the last one may also end with the text. An empty line is an empty word. */
    zanderanvil_bytes words;
    /* The file `source`, of at most 4,194,304 bytes. */
    zanderanvil_bytes source;
    /* The file `second`, of at most 4,194,304 bytes: another source, for the commands that read two. */
    zanderanvil_bytes second;
    /* The file `input`, of at most 1,048,576 bytes, for `--input input`. */
    zanderanvil_bytes input;
    /* The file `interrupts`, of at most 1,048,576 bytes, for `--interrupts interrupts`. */
    zanderanvil_bytes interrupts;
    /* The file `image`, of at most 1,048,576 bytes. */
    zanderanvil_bytes image;
} zanderanvil_call;

/* How a call ended. The number stands in `status`: the exit status of the program, or one of the last two. */
enum {
    /* A run or a meaning halted, or the command is done. */
    ZANDERANVIL_DONE = 0,
    /* The source is refused: the output says by which line, and why. */
    ZANDERANVIL_REFUSED = 1,
    /* The words ask for nothing. */
    ZANDERANVIL_USAGE = 2,
    /* A run or a meaning did not end within its budget. */
    ZANDERANVIL_OUT_OF_BUDGET = 3,
    /* A file that the words name is none of the five, or is longer than its limit: the output says which. */
    ZANDERANVIL_READ_FAULT = 4,
    /* Memory ran out. Nothing comes back but this number. */
    ZANDERANVIL_MEMORY = 6,
    /* The image file is refused: the output says why. */
    ZANDERANVIL_BAD_IMAGE = 7,
    /* The interrupt file is refused: the output says by which line, and why. */
    ZANDERANVIL_BAD_EVENTS = 8,
    /* The meaning is stuck. */
    ZANDERANVIL_STUCK = 9,
    /* The words are not UTF-8. Nothing comes back but this number. */
    ZANDERANVIL_NOT_TEXT = 10,
    /* The command ended, and a buffer has no room for all that comes back. Both hold as much as they have room for.
       A second call, with room for `output_needed` and `file_needed` bytes, is answered alike, memory permitting. */
    ZANDERANVIL_TOO_SHORT = 11
};

typedef struct {
    uint32_t status;
    /* How many bytes of output are in its buffer, and how many there are in all. */
    size_t output;
    size_t output_needed;
    /* How many bytes of the file that was written are in its buffer, and how many there are in all: 0 where the
       command wrote no file. */
    size_t file;
    size_t file_needed;
} zanderanvil_outcome;

/*
 * Runs the command of a call.
 *
 * call         the words and the files
 * output       gets what the command prints, from its first byte on
 * output_room  how many bytes `output` has room for
 * file         gets the file that `build` and `migrate` write, whatever its name
 * file_room    how many bytes `file` has room for
 *
 * No pointer is NULL, also where the room is 0, and a room is at most PTRDIFF_MAX. `output` overlaps neither `file` nor the call nor any of its bytes,
 * and neither does `file`. Nothing else is written: no byte behind those that the outcome counts in either buffer.
 * Not to be called from a signal handler, nor from the forked child of a process with threads.
 */
zanderanvil_outcome zanderanvil_command(const zanderanvil_call *call, uint8_t *output, size_t output_room,
                                        uint8_t *file, size_t file_room);

/* The bytes of a text up to its NUL, which is not one of them. */
static inline zanderanvil_bytes zanderanvil_text(const char *text)
{
    zanderanvil_bytes lent;
    lent.bytes = (const uint8_t *)text;
    lent.length = strlen(text);
    return lent;
}

/* A call of these words, with five empty files. */
static inline zanderanvil_call zanderanvil_ask(const char *words)
{
    zanderanvil_call call;
    call.words = zanderanvil_text(words);
    call.source = call.second = call.input = call.interrupts = call.image = zanderanvil_text("");
    return call;
}

#ifdef __cplusplus
}
#endif

#endif
