/* How deep the stack is in calls of every function of include/dt.h, in bytes: what lies below the stack pointer is painted, and
 * the lowest word that a call has changed is looked for. The program writes the largest depth; chip/stack must not say less. */
#include <dt.h>
#include <stdio.h>
#include <string.h>

#define WORDS 512u
#define PAINT 0xa5c3965au

static uint32_t deepest;

/* The painting, the call and the look are in one function, so the stack pointer is the same in all three. */
#define DEPTH(call)                                                                        \
    do {                                                                                   \
        volatile uint32_t *top;                                                            \
        __asm__ volatile("mov %0, sp" : "=r"(top));                                        \
        for (uint32_t i = 1; i <= WORDS; i++) *(top - i) = PAINT;                          \
        (void)(call);                                                                      \
        uint32_t n = WORDS;                                                                \
        while (n > 0 && *(top - n) == PAINT) n--;                                          \
        if (4 * n > deepest) deepest = 4 * n;                                              \
    } while (0)

/* Bodies and texts that go every way: groups, skips, stores, each kind of operand, and faults. */
static void lines(void)
{
    static const char *const bodies[] = {
        "", "R", "?0", "A2147483648R", "A0000000000000000001R", "ggggG1G1G1G1R", "gA0S03e0G0R", "gS03G2R", "S02", "s16R", "b9601R", "j256R", "H02R", "o1650R",
        "s1A1A1A1A1A1A1A1A1A1A1A1A1A1A1R", "s3V1000P400R", "s1gP5gD1G2G3R", "gP5gD1G2G3R", "m100h50f1F1J3M30000L65000V16777216R", "XX", "y",
    };
    for (size_t i = 0; i < sizeof bodies / sizeof bodies[0]; i++) {
        const uint8_t *body = (const uint8_t *)bodies[i];
        uint64_t n = strlen(bodies[i]);
        DEPTH(dt_check_line(body, n));
        DEPTH(dt_count(body, n));
        DEPTH(dt_line_place(body, n));
        DEPTH(dt_check_text(body, n));
        if (n > 0) DEPTH(dt_check_text(body, n - 1));
    }
}

static void images(void)
{
    static uint8_t image[DT_IMAGE_BYTES];
    for (unsigned k = 0; k < 16; k++) {
        image[4 * k] = 64;
        image[4 * k + 1] = (uint8_t)k;
    }
    DEPTH(dt_check_image(image, sizeof image));
    memcpy(image + 64, "gP5gD1G2G3", 10);
    image[2] = 10;
    DEPTH(dt_check_image(image, sizeof image));
}

static void ramps(void)
{
    static const struct { uint32_t v, l, endless, n; } rows[] = {
        {305175, 1000, 0, 15259}, {305175, 1000, 0, 15258}, {16777216, 1, 1, 0}, {1, 65000, 0, 2147483647}, {305175, 0, 0, 1}, {0, 0, 0, 0},
    };
    for (size_t i = 0; i < sizeof rows / sizeof rows[0]; i++) {
        uint32_t v = rows[i].v, l = rows[i].l, endless = rows[i].endless, n = rows[i].n;
        DEPTH(dt_ramp_check(v, l, endless, n));
        DEPTH(dt_ramp_peak(v, l, endless, n));
        DEPTH(dt_ramp_distance(v, l, endless, n));
        DEPTH(dt_ramp_speed(v, l, endless, n));
        DEPTH(dt_ramp_acceleration(v, l, endless, n));
        DEPTH(dt_ramp_time(v, l, endless, n));
    }
}

int main(void)
{
    lines();
    images();
    ramps();
    printf("%lu\n", (unsigned long)deepest);
    return 0;
}
