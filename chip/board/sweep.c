/* Random calls of every function of include/dt.h, and sums over all answers, doubles by their bits. The program writes the
 * sums, which are the same on every processor. */
#include <dt.h>
#include <stdio.h>
#include <string.h>

/* FNV-1a, over 64 bits. */
struct sum {
    const char *what;
    uint64_t value;
};

static uint32_t state = 1;
static struct sum checks = {"checks", 14695981039346656037u};
static struct sum figures = {"figures", 14695981039346656037u};
static struct sum doubles = {"doubles", 14695981039346656037u};

static uint32_t next(void)
{
    state ^= state << 13;
    state ^= state >> 17;
    state ^= state << 5;
    return state;
}

static void add(struct sum *sum, uint64_t answer)
{
    for (unsigned i = 0; i < 8; i++) sum->value = (sum->value ^ (answer >> 8 * i & 255)) * 1099511628211u;
}

static void add_double(double answer)
{
    uint64_t bits;
    memcpy(&bits, &answer, sizeof bits);
    add(&doubles, bits);
}

/* Numbers of all lengths, mostly within the range. */
static uint32_t number(uint32_t top)
{
    uint32_t n = next() % (top + 2);
    return n >> next() % 24;
}

static void ramp(void)
{
    uint32_t v = number(16777216);
    uint32_t l = number(65000);
    uint32_t endless = next() % 4 == 0;
    uint32_t n = number(2147483647);
    struct dt_ramp r = dt_ramp(v, l, endless, n);
    add(&figures, r.check);
    add(&figures, r.peak);
    add(&figures, r.distance);
    add_double(r.speed);
    add_double(r.acceleration);
    add_double(r.time);
}

/* Letters and digits as a text, and with an R at the end as a line, which is counted too. */
static void body(void)
{
    static const char letters[] = "gGAPDVLSHMesR0123456789000111";
    static uint8_t bytes[260];
    uint32_t n = next() % 4 == 0 ? next() % 260 : next() % 12;
    for (uint32_t i = 0; i < n; i++) bytes[i] = (uint8_t)letters[next() % (sizeof letters - 1)];
    add(&checks, dt_check_text(bytes, n));
    if (n > 0) bytes[n - 1] = 'R';
    add(&checks, dt_check_line(bytes, n));
    add(&checks, dt_count(bytes, n));
}

/* Loops within loops, their counts on both sides of the bound. */
static void loops(void)
{
    static char text[260];
    uint32_t n = 0, depth = next() % 5;
    while (n < depth) text[n++] = 'g';
    for (uint32_t i = 0; i < depth; i++) {
        for (uint32_t k = next() % 13; k > 0; k--) n += (uint32_t)sprintf(text + n, "z0");
        n += (uint32_t)sprintf(text + n, "G%lu", (unsigned long)(30000 - next() % 3));
    }
    add(&checks, dt_count((const uint8_t *)text, n));
}

/* A good image, with one byte changed. */
static void image(void)
{
    static uint8_t bytes[DT_IMAGE_BYTES];
    memset(bytes, 0, sizeof bytes);
    for (unsigned k = 0; k < 16; k++) {
        bytes[4 * k] = 64;
        bytes[4 * k + 1] = (uint8_t)k;
    }
    memcpy(bytes + 64, "gP5G2", 5);
    bytes[2] = 5;
    uint32_t at = next() % 72;
    bytes[at] = (uint8_t)(next() % 3 == 0 ? 5 : next());
    add(&checks, dt_check_image(bytes, sizeof bytes - (next() % 8 == 0)));
}

static void told(const struct sum *sum)
{
    printf("%s %08lx%08lx\n", sum->what, (unsigned long)(sum->value >> 32), (unsigned long)(sum->value & 0xffffffffu));
}

int main(void)
{
    for (unsigned i = 0; i < 20000; i++) {
        ramp();
        body();
        if (i % 16 == 0) image();
        if (i % 16 == 1) loops();
    }
    told(&checks);
    told(&figures);
    told(&doubles);
    return 0;
}
