/*
 * The season book for a C program.
 *
 * Link target/staticlib/libscript.a, which `tools/build library` proves and
 * writes. docs/SCRIPT.md has the script's format and docs/REFUSALS.md the
 * numbers of its refusals. docs/LINKING.md goes step by step.
 */
#ifndef SEASON_BOOK_H
#define SEASON_BOOK_H

#include <stddef.h>
#include <stdint.h>

#ifdef __cplusplus
extern "C" {
#endif

/* The most that a script may have. */
#define SEASON_MAX_SCRIPT_BYTES 65536
#define SEASON_MAX_SCRIPT_LINES 4096

/* Output that a line needs: with this many bytes a line every run has room. */
#define SEASON_OUTPUT_BYTES_PER_LINE 16

/* The number that `season_run` returns counts a refusal in millions. */
#define SEASON_REFUSAL_UNIT 1000000

/* The two refusals of a whole script. */
#define SEASON_SCRIPT_TOO_LONG 1
#define SEASON_OUTPUT_TOO_SHORT 15

/*
 * The name that the library exports, `run`, is a common word. Where another
 * function of the program has it, the linker may take that one and say nothing.
 * Then rename the library's in a copy of the archive
 *
 *   objcopy --redefine-sym run=season_book_run \
 *       target/staticlib/libscript.a target/staticlib/libseason_book.a
 *
 * and compile every file that includes this header with
 * -DSEASON_SYMBOL=season_book_run. A program that calls `season_run` below
 * needs no other change.
 */
#ifndef SEASON_SYMBOL
#define SEASON_SYMBOL run
#endif

/*
 * Answers a script: reads script_length bytes from script and writes the
 * answers to out, which has out_length bytes.
 *
 * Returns refusal * 1000000 + written length. Below 1000000 the script was run
 * and that many bytes were written. Otherwise nothing was written:
 *    1000000  the script has over 65,536 bytes or over 4,096 lines;
 *   15000000  out has less than 16 bytes for each line of the script.
 * Bytes of out beyond the written length stay as they were. A line counts if
 * it ends in LF or is what stands after the last LF.
 *
 * Both pointers must be good for their lengths, also where a length is 0, and
 * the two stretches must not overlap. Nothing is kept between two calls, so
 * threads may call it at the same time; each needs SEASON_STACK_BYTES bytes of stack.
 */
uint64_t SEASON_SYMBOL(const uint8_t *script, size_t script_length, uint8_t *out,
                       size_t out_length);

/* The same under a name of its own, which the library's symbol does not decide. */
static inline uint64_t season_run(const uint8_t *script, size_t script_length, uint8_t *out,
                                  size_t out_length)
{
    return SEASON_SYMBOL(script, script_length, out, out_length);
}

/* Stack that one call of `season_run` may take. */
#define SEASON_STACK_BYTES 1048576

#ifdef __cplusplus
}
#endif

#endif
