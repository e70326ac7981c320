/* Calls every function of include/dt.h on the edges of the rules. The last line is 'N passed, M failed'. */
#include <dt.h>
#include <stdio.h>
#include <string.h>

static unsigned passed, failed;

static void same(const char *what, double found, double wanted)
{
    if (found == wanted) {
        passed++;
    } else {
        failed++;
        printf("%s: %.17g, not %.17g\n", what, found, wanted);
    }
}

static uint32_t line(const char *body) { return dt_check_line((const uint8_t *)body, strlen(body)); }
static uint32_t text(const char *t) { return dt_check_text((const uint8_t *)t, strlen(t)); }

/* A body of n bytes: z0 again and again, an H where a byte is left, and an R. */
static uint32_t filled_line(size_t n)
{
    uint8_t body[300];
    for (size_t i = 0; i < sizeof body; i++) body[i] = i % 2 ? '0' : 'z';
    if (n % 2 == 0) body[n - 2] = 'H';
    body[n - 1] = 'R';
    return dt_check_line(body, n);
}

static void lines(void)
{
    static const struct { const char *body; uint32_t code; } rows[] = {
        {"", 0}, {"R", 0}, {"X", 0}, {"T", 0}, {"TR", 0}, {"Q", 0}, {"$", 0}, {"?0", 0}, {"?5", 0}, {"?9", 0},
        {"?1", 2}, {"?", 2}, {"T5", 2}, {"TRR", 2}, {"Q1", 2}, {"$$", 2},
        {"A2147483647R", 0}, {"A2147483648R", 3}, {"A4294967297R", 3}, {"A0000000001R", 0}, {"A00000000001R", 3}, {"AR", 3},
        {"V1R", 0}, {"V0R", 3}, {"V16777216R", 0}, {"V16777217R", 3}, {"L1R", 0}, {"L0R", 3}, {"L65000R", 0}, {"L65001R", 3},
        {"f1F1R", 0}, {"f2R", 3}, {"m100h50R", 0}, {"m101R", 3}, {"h51R", 3}, {"o1400o1650R", 0}, {"o1399R", 3}, {"o1651R", 3},
        {"J3R", 0}, {"J4R", 3}, {"b9600b19200b38400R", 0}, {"b9601R", 3}, {"M30000R", 0}, {"M30001R", 3},
        {"j1R", 0}, {"j256R", 0}, {"j3R", 3}, {"j512R", 3}, {"j0R", 3},
        {"H02R", 0}, {"HR", 0}, {"H013R", 3}, {"H2R", 3}, {"H05R", 3}, {"H24R", 3}, {"S02A1R", 0}, {"SA1R", 3},
        {"e15R", 0}, {"e16R", 3}, {"eR", 3}, {"gG30000R", 0}, {"gG30001R", 3}, {"gGR", 0}, {"g5R", 2},
        {"ggggG1G1G1G1R", 0}, {"gggggG1G1G1G1G1R", 2}, {"G1R", 2}, {"gR", 2}, {"gS03G2R", 2}, {"gA0S03e0G0R", 0},
        {"S02", 2}, {"S02gG1R", 2}, {"A1RA2", 2}, {"RR", 2}, {"XX", 2}, {"A1X", 2}, {"A1s2R", 2},
        {"s0R", 0}, {"s15A1R", 0}, {"s16R", 3}, {"sR", 3}, {"s3A1", 2}, {"s003A1R", 0},
        {"s0000000003R", 0}, {"s00000000003R", 3}, {"s3A00000000001R", 3}, {"gG00000000002R", 3}, {"H00000000002R", 3}, {"S00000000002A1R", 3},
        {"s1A1A1A1A1A1A1A1A1A1A1A1A1A1A1R", 0}, {"s1A1A1A1A1A1A1A1A1A1A1A1A1A1A1A1R", 2},
        {"s1G1j3R", 3}, {"y", 2}, {"A1\n", 2},
    };
    for (size_t i = 0; i < sizeof rows / sizeof rows[0]; i++) same(rows[i].body, line(rows[i].body), rows[i].code);
    same("256 bytes", filled_line(256), DT_LINE_TAKEN);
    same("257 bytes", filled_line(257), DT_LINE_MISTAKE);
    same("an empty slice", dt_check_line(NULL, 0), DT_LINE_TAKEN);
}

static uint32_t place(const char *body) { return dt_line_place((const uint8_t *)body, strlen(body)); }

/* Where the fault is: in the reading, in the structure, the leftmost of two, and none. */
static void places(void)
{
    static const struct { const char *body; uint32_t place; } rows[] = {
        {"", 0}, {"R", 0}, {"?0", 0}, {"A1R", 0}, {"s3A1R", 0}, {"?1", 1}, {"T5", 1}, {"y", 1}, {"g5R", 2}, {"A1L0R", 3}, {"A1RA2", 3}, {"A1s2R", 3},
        {"s16R", 1}, {"sR", 1}, {"s12A1x", 6}, {"A1G1R", 3}, {"gggggG1G1G1G1G1R", 5}, {"A1gA2", 3}, {"A1S02", 3}, {"S02gG1R", 1},
        {"s1A1A1A1A1A1A1A1A1A1A1A1A1A1A1A1R", 31}, {"s3A1", 5}, {"s3", 3}, {"s0000000003z0000000008", 23}, {"A00000000001R", 1}, {"A1V00000000001R", 3},
        {"gggggGGGGR", 1}, {"ggA1S02G1R", 1}, {"G1gP1R", 1}, {"s1A1A1A1A1A1A1A1A1A1A1A1A1A1A1A1", 31}, {"G1L0R", 3}, {"s12gA5", 4},
    };
    uint8_t body[300];
    for (size_t i = 0; i < sizeof rows / sizeof rows[0]; i++) same(rows[i].body, place(rows[i].body), rows[i].place);
    memset(body, '0', sizeof body);
    body[0] = 's';
    same("a slot of 255 digits", dt_line_place(body, 256), 1);
    same("257 bytes, no place", dt_line_place(body, 257), 0);
    same("an empty slice", dt_line_place(NULL, 0), 0);
}

/* Numbers of 64 bits, which a double would round. */
static void counts(void)
{
    static const struct { const char *body; uint64_t count; } rows[] = {
        {"", 0}, {"R", 0}, {"X", 0}, {"T", 0}, {"?0", 0}, {"s3R", 0}, {"gP5gD1G2G3", 22}, {"gP5gD1G2G3R", 22}, {"s3gP5gD1G2G3R", 22},
        {"gG1", 2}, {"gG30000", 30001}, {"A0z0Z0f0M0R", 5},
        {"ggggA1A1A1A1A1A1A1A1A1A1G30000G30000G30000G30000R", UINT64_C(8910054001800060001)},
        {"ggggA1A1A1A1A1A1A1A1A1A1A1G30000G30000G30000G30000R", DT_COUNT_OVER},
        {"ggggz0z0z0z0z0z0z0z0z0z0z0z0z0z0z0z0z0z0z0z0z0z0z0z0z0z0z0z0z0z0G30000G30000G30000G30000R", DT_COUNT_OVER},
        {"ggggz0G30000gz0G30000gz0G30000gz0G30000gz0G30000gz0G20799z0G30000gz0G5574z0G30000gz0G911G30000gz0G12902z0", UINT64_C(9223372036854775807)},
        {"ggggz0G30000gz0G30000gz0G30000gz0G30000gz0G30000gz0G20799z0G30000gz0G5574z0G30000gz0G911G30000gz0G12902z0z0", DT_COUNT_OVER},
        {"A1e0R", DT_COUNT_LETTER}, {"S01A1R", DT_COUNT_LETTER}, {"HR", DT_COUNT_LETTER}, {"gA1GR", DT_COUNT_LETTER}, {"gA1G0R", DT_COUNT_LETTER},
        {"P0R", DT_COUNT_LETTER}, {"D0R", DT_COUNT_LETTER}, {"P0xR", DT_COUNT_MISTAKE}, {"P0A2147483648R", DT_COUNT_OPERAND}, {"?1", DT_COUNT_MISTAKE},
    };
    for (size_t i = 0; i < sizeof rows / sizeof rows[0]; i++) {
        uint64_t found = dt_count((const uint8_t *)rows[i].body, strlen(rows[i].body));
        same(rows[i].body, found == rows[i].count, 1);
    }
    same("an empty slice", dt_count(NULL, 0) == 0, 1);
}

static void texts(void)
{
    uint8_t nines[257];
    memset(nines, '9', sizeof nines);
    same("", text(""), DT_TEXT_GOOD);
    same("A1", text("A1"), DT_TEXT_GOOD);
    same("A1R", text("A1R"), DT_TEXT_BAD);
    same("fourteen", text("A1A1A1A1A1A1A1A1A1A1A1A1A1A1"), DT_TEXT_GOOD);
    same("fifteen", text("A1A1A1A1A1A1A1A1A1A1A1A1A1A1A1"), DT_TEXT_BAD);
    same("ten digits", text("A0000000001"), DT_TEXT_GOOD);
    same("eleven digits", text("A00000000001"), DT_TEXT_BAD);
    same("nines", dt_check_text(nines, sizeof nines), DT_TEXT_BAD);
    same("an empty slice", dt_check_text(NULL, 0), DT_TEXT_GOOD);
}

static uint8_t image[DT_IMAGE_BYTES + 1];

static void clear(void)
{
    memset(image, 0, sizeof image);
    for (unsigned k = 0; k < 16; k++) {
        image[4 * k] = 64;
        image[4 * k + 1] = (uint8_t)k;
    }
}

static void with_byte(const char *what, size_t at, uint8_t byte, uint32_t wanted)
{
    clear();
    memcpy(image + 64 + 256 * 3, "A10", 3);
    image[4 * 3 + 2] = 3;
    image[at] = byte;
    same(what, dt_check_image(image, DT_IMAGE_BYTES), wanted);
}

static void images(void)
{
    clear();
    same("empty", dt_check_image(image, DT_IMAGE_BYTES), DT_IMAGE_GOOD);
    same("a byte short", dt_check_image(image, DT_IMAGE_BYTES - 1), DT_IMAGE_LENGTH);
    same("a byte long", dt_check_image(image, DT_IMAGE_BYTES + 1), DT_IMAGE_LENGTH);
    same("an empty slice", dt_check_image(NULL, 0), DT_IMAGE_LENGTH);
    with_byte("a program", 64, 0, DT_IMAGE_GOOD);
    with_byte("another start", 0, 65, DT_IMAGE_BAD);
    with_byte("the start of the last slot", 61, 0, DT_IMAGE_BAD);
    with_byte("a length of 257", 4 * 3 + 3, 1, DT_IMAGE_BAD);
    with_byte("an unused byte", 64 + 256 * 3 + 3, '0', DT_IMAGE_BAD);
    with_byte("the last byte", DT_IMAGE_BYTES - 1, 1, DT_IMAGE_BAD);
    with_byte("a letter", 64 + 256 * 3, 'R', DT_IMAGE_BAD);
    clear();
    memcpy(image + 64 + 256 * 3, "A00000000010", 12);
    image[4 * 3 + 2] = 12;
    same("a program of an older store", dt_check_image(image, DT_IMAGE_BYTES), DT_IMAGE_BAD);
}

static void ramps(void)
{
    static const struct { uint32_t v, l, endless, n, check, peak; uint64_t distance; } rows[] = {
        {305175, 1000, 0, 15259, 0, 305175, 7629}, {305175, 1000, 0, 15258, 0, 305167, 7628},
        {305175, 1000, 0, 1, 0, 2470, 0}, {305175, 1, 0, 1, 0, 78, 0},
        {16777216, 1, 1, 0, 0, 16777216, 23058489121u}, {1, 65000, 0, 2147483647, 0, 1, 0},
        {0, 0, 0, 0, DT_RAMP_V, 0, 0}, {16777217, 0, 0, 0, DT_RAMP_V, 0, 0},
        {1, 0, 0, 0, DT_RAMP_L, 0, 0}, {1, 65001, 1, 0, DT_RAMP_L, 0, 0},
        {1, 1, 0, 0, DT_RAMP_N, 0, 0}, {1, 1, 0, 2147483648u, DT_RAMP_N, 0, 0},
        {1, 1, 256, 0, DT_RAMP_TAKEN, 1, 0}, {1, 1, 4294967295u, 4294967295u, DT_RAMP_TAKEN, 1, 0},
    };
    for (size_t i = 0; i < sizeof rows / sizeof rows[0]; i++) {
        struct dt_ramp r = dt_ramp(rows[i].v, rows[i].l, rows[i].endless, rows[i].n);
        int stands = rows[i].check == DT_RAMP_TAKEN;
        same("check", r.check, rows[i].check);
        same("peak", r.peak, rows[i].peak);
        same("distance", (double)r.distance, (double)rows[i].distance);
        same("speed", r.speed, rows[i].peak);
        same("acceleration", r.acceleration, stands ? rows[i].l * 6103.5 : 0);
        same("time", r.time, stands ? rows[i].peak / (rows[i].l * 6103.5) : 0);
        same("time above 0", stands ? r.time > 0 : r.time == 0, 1);
    }
}

int main(void)
{
    lines();
    places();
    counts();
    texts();
    images();
    ramps();
    printf("%u passed, %u failed\n", passed, failed);
    return failed != 0;
}
