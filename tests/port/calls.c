/* Makes the calls of include/dt.h that standard input asks for, so that another program can compare the answers or time them.
 *
 *     calls               makes each call once and writes each answer
 *     calls repeat TIMES  makes all of the calls so many times and writes the sum of the answers, in decimal
 *
 * A call is a letter and its operands, numbers of 32 bits:
 *
 *     L, T, I           length, bytes      the check of a line, a text, an image
 *     P                 length, bytes      the place of a line's fault
 *     N                 length, bytes      the number of commands of a line
 *     c, p, d, s, a, t  v, l, endless, n   of a ramp: check, peak, distance, speed, acceleration, time
 *
 * An answer is a number of 64 bits; a double is given by its bits. All numbers have the low byte first.
 */
#define _DEFAULT_SOURCE /* for MAP_ANONYMOUS */
#include <dt.h>
#include <inttypes.h>
#include <stdio.h>
#include <stdlib.h>
#include <string.h>
#include <sys/mman.h>

/* Longer than any slice, and a whole number of pages on every processor. */
#define ROOM ((size_t)1 << 16)

struct call {
    int letter;
    uint32_t length;
    uint8_t *bytes;
    uint32_t v, l, endless, n;
};

static struct call *calls;
static size_t count;

static void fail(const char *why)
{
    fprintf(stderr, "calls: %s\n", why);
    exit(2);
}

static void *found(void *memory)
{
    if (memory == NULL || memory == MAP_FAILED) fail("no memory");
    return memory;
}

static uint32_t read_number(void)
{
    uint8_t b[4];
    if (fread(b, 1, sizeof b, stdin) != sizeof b) fail("the input ends inside a number");
    return b[0] | (uint32_t)b[1] << 8 | (uint32_t)b[2] << 16 | (uint32_t)b[3] << 24;
}

/* A slice has exactly its bytes, and an empty one none. */
static void read_slice(struct call *call)
{
    call->length = read_number();
    if (call->length > ROOM) fail("a slice is too long");
    if (call->length == 0) return;
    call->bytes = found(malloc(call->length));
    if (fread(call->bytes, 1, call->length, stdin) != call->length) fail("the input ends inside a slice");
}

static void read_call(struct call *call, int letter)
{
    memset(call, 0, sizeof *call);
    call->letter = letter;
    if (strchr("LPTIN", letter)) {
        read_slice(call);
    } else {
        call->v = read_number();
        call->l = read_number();
        call->endless = read_number();
        call->n = read_number();
    }
}

static void read_calls(void)
{
    size_t room = 0;
    for (int letter = getchar(); letter != EOF; letter = getchar()) {
        if (letter == 0 || !strchr("LPTINcpdsat", letter)) fail("an unknown letter");
        if (count == room) {
            room = 2 * room + 1;
            calls = found(realloc(calls, room * sizeof *calls));
        }
        read_call(&calls[count++], letter);
    }
}

static uint64_t bits(double number)
{
    uint64_t b;
    memcpy(&b, &number, sizeof b);
    return b;
}

static uint64_t answer(const struct call *c, const uint8_t *bytes)
{
    switch (c->letter) {
    case 'L': return dt_check_line(bytes, c->length);
    case 'P': return dt_line_place(bytes, c->length);
    case 'T': return dt_check_text(bytes, c->length);
    case 'I': return dt_check_image(bytes, c->length);
    case 'N': return dt_count(bytes, c->length);
    case 'c': return dt_ramp_check(c->v, c->l, c->endless, c->n);
    case 'p': return dt_ramp_peak(c->v, c->l, c->endless, c->n);
    case 'd': return dt_ramp_distance(c->v, c->l, c->endless, c->n);
    case 's': return bits(dt_ramp_speed(c->v, c->l, c->endless, c->n));
    case 'a': return bits(dt_ramp_acceleration(c->v, c->l, c->endless, c->n));
    default: return bits(dt_ramp_time(c->v, c->l, c->endless, c->n));
    }
}

static void write_number(uint64_t number)
{
    uint8_t b[8];
    for (size_t i = 0; i < sizeof b; i++) b[i] = (uint8_t)(number >> 8 * i);
    if (fwrite(b, 1, sizeof b, stdout) != sizeof b) fail("an answer cannot be written");
}

/* The archive has no sanitizer in it, so each slice is lent just before a page that cannot be read. Nothing is held back: where
 * the program is ended by a call, the answers before it have been written. */
static void answer_calls(void)
{
    uint8_t *room = found(mmap(NULL, 2 * ROOM, PROT_READ | PROT_WRITE, MAP_PRIVATE | MAP_ANONYMOUS, -1, 0));
    if (mprotect(room + ROOM, ROOM, PROT_NONE) != 0) fail("no page that cannot be read");
    setvbuf(stdout, NULL, _IONBF, 0);
    for (size_t i = 0; i < count; i++) {
        uint8_t *lent = room + ROOM - calls[i].length;
        if (calls[i].length > 0) memcpy(lent, calls[i].bytes, calls[i].length);
        write_number(answer(&calls[i], lent));
    }
}

static void repeat_calls(unsigned long times)
{
    uint64_t sum = 0;
    for (; times > 0; times--) {
        for (size_t i = 0; i < count; i++) sum += answer(&calls[i], calls[i].bytes);
    }
    printf("%" PRIu64 "\n", sum);
}

int main(int words, char **word)
{
    read_calls();
    if (words == 1) {
        answer_calls();
    } else if (words == 3 && strcmp(word[1], "repeat") == 0) {
        repeat_calls(strtoul(word[2], NULL, 10));
    } else {
        fail("calls [repeat TIMES]");
    }
    return fflush(stdout) != 0;
}
