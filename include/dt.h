/* The checks, the count of commands and the ramp figures of a DT drive, for firmware.
 *
 * Every function answers on every input and returns; none keeps or changes anything, calls the system or needs a heap, so
 * each may be called from any task at any time.
 *
 * The archive: for a Cortex-M, `chip/dist` writes target/dist/ with a libdt.a for each chip (docs/CHIP.md says how to link it,
 * and its stack). For x86-64 (ELF objects, the System V calling convention), `chip/archive` proves the code and writes
 * target/libdt.a, and `examples/run` shows it at work; examples/firmware.c is to be copied. The one for x86-64 needs no C
 * library and leaves no symbol undefined: it links with -nostdlib, and its deepest call takes 392 bytes of stack (docs/SPEED.md
 * says how that was seen). In each archive dt_count is an object of its own: a program that never calls it links none of
 * it. C and C++ may include this header.
 *
 * What the numbers mean is said in docs/MANUAL.md.
 *
 * A slice is a pointer and a length in bytes. A slice of length 0 is empty: its pointer is not read and may be null.
 * With a length above 0 a null pointer is forbidden, and all of the bytes must be readable. Slices may overlap: they
 * are only read.
 *
 * A length is a uint64_t on every processor, since it has 64 bits in the proofs and so in the code. A size_t is the same
 * on x86-64, but on a chip of 32 bits it would link and hand over half a length: the pointer goes in r0, the length in
 * r2 and r3.
 */
#ifndef DT_H
#define DT_H

#include <stdint.h>

#ifdef __cplusplus
extern "C" {
#endif

/* The code that an idle unit gives to the body of a frame. */
#define DT_LINE_TAKEN 0u    /* the body is taken */
#define DT_LINE_MISTAKE 2u  /* an unknown or misplaced letter, the structure, or over 256 bytes */
#define DT_LINE_OPERAND 3u  /* an operand is missing, has more than ten digits or is out of its range */

/* How many commands a run takes: a count is at most 2^63 - 1, so the numbers from 2^63 on are refusals. */
#define DT_COUNT_REFUSED UINT64_C(0x8000000000000000)
#define DT_COUNT_MISTAKE (DT_COUNT_REFUSED + 2u)  /* the line check gives DT_LINE_MISTAKE */
#define DT_COUNT_OPERAND (DT_COUNT_REFUSED + 3u)  /* the line check gives DT_LINE_OPERAND */
#define DT_COUNT_LETTER (DT_COUNT_REFUSED + 4u)   /* it has an e, S or H, a bare G, or a G, P or D of 0 */
#define DT_COUNT_OVER (DT_COUNT_REFUSED + 5u)     /* the count is over 2^63 - 1 */

/* Whether a text may be stored as a program. */
#define DT_TEXT_GOOD 0u
#define DT_TEXT_BAD 1u

/* An image of the programs. */
#define DT_IMAGE_GOOD 0u
#define DT_IMAGE_LENGTH 1u  /* it has not 4160 bytes */
#define DT_IMAGE_BAD 2u     /* an entry, a body or an unused byte breaks the rules. A unit starts all the same on a store of
                             * older firmware in which only operands of more than ten digits do: those programs do not run
                             * (code 1). Store each anew, or clear it: docs/MANUAL.md, "Stored programs" */
#define DT_IMAGE_BYTES 4160u

/* The figures of a ramp, or the first number that is out of its range. */
#define DT_RAMP_TAKEN 0u
#define DT_RAMP_V 1u        /* V is not 1 to 16777216 */
#define DT_RAMP_L 2u        /* L is not 1 to 65000 */
#define DT_RAMP_N 3u        /* N of a finite move is not 1 to 2147483647 */

/* The body of a frame, without its address and its CR: DT_LINE_.. */
uint32_t dt_check_line(const uint8_t *body, uint64_t length);

/* Where the fault of such a body is, counting its bytes from 1: 1 to its length plus 1 (a missing `R`), so at most 257.
 * 0 where there is none: the body is taken, or it has over 256 bytes. */
uint32_t dt_line_place(const uint8_t *body, uint64_t length);

/* The same body: how many commands a run of its text takes when nothing stops it, or a DT_COUNT_.. An `s` line counts the text
 * that it stores; a body without a text gives 0. */
uint64_t dt_count(const uint8_t *body, uint64_t length);

/* The text of a program, without `s`, slot and `R`: DT_TEXT_.. An operand has ten digits at most. */
uint32_t dt_check_text(const uint8_t *text, uint64_t length);

/* The image of the sixteen programs: DT_IMAGE_.. */
uint32_t dt_check_image(const uint8_t *image, uint64_t length);

/* A move of n microsteps at top speed v (microsteps per second) and acceleration l (units of 6103.5 microsteps per
 * second squared); where endless is not 0 the move has no end and n is not looked at. */

/* DT_RAMP_..: whether the figures below stand. Where it is not DT_RAMP_TAKEN they are all 0. */
uint32_t dt_ramp_check(uint32_t v, uint32_t l, uint32_t endless, uint32_t n);

/* The greatest speed that the move reaches: at least 1, at most v. */
uint32_t dt_ramp_peak(uint32_t v, uint32_t l, uint32_t endless, uint32_t n);

/* The microsteps of the ramp up to the peak, rounded down; of an endless move they may pass 32 bits. */
uint64_t dt_ramp_distance(uint32_t v, uint32_t l, uint32_t endless, uint32_t n);

/* The peak, exactly, in microsteps per second. */
double dt_ramp_speed(uint32_t v, uint32_t l, uint32_t endless, uint32_t n);

/* l times 6103.5, exactly, in microsteps per second squared. */
double dt_ramp_acceleration(uint32_t v, uint32_t l, uint32_t endless, uint32_t n);

/* The seconds to the peak: speed over acceleration, rounded once; finite and above 0 where the figures stand. */
double dt_ramp_time(uint32_t v, uint32_t l, uint32_t endless, uint32_t n);

/* All figures of one ramp. */
struct dt_ramp {
    uint32_t check;
    uint32_t peak;
    uint64_t distance;
    double speed;
    double acceleration;
    double time;
};

/* Gathers the figures. */
static inline struct dt_ramp dt_ramp(uint32_t v, uint32_t l, uint32_t endless, uint32_t n)
{
    struct dt_ramp r;
    r.check = dt_ramp_check(v, l, endless, n);
    r.peak = dt_ramp_peak(v, l, endless, n);
    r.distance = dt_ramp_distance(v, l, endless, n);
    r.speed = dt_ramp_speed(v, l, endless, n);
    r.acceleration = dt_ramp_acceleration(v, l, endless, n);
    r.time = dt_ramp_time(v, l, endless, n);
    return r;
}

#ifdef __cplusplus
}
#endif

#endif
