/* What the library says of some bodies of frames, of an image and of moves, through examples/firmware.c: check BODY.. */
#include "firmware.h"
#include <inttypes.h>
#include <stdio.h>
#include <string.h>

static void line(const char *body)
{
    static const char *const told[] = {
        "taken", "", "refused, code 2: a letter, the structure or the length", "refused, code 3: an operand is missing or out of its range"};
    size_t n = strlen(body);
    if (n > UINT16_MAX) n = UINT16_MAX;
    int runs = n > 1 && body[0] != 's' && body[0] != 'T' && body[n - 1] == 'R';
    uint8_t status = status_of_line((const uint8_t *)body, (uint16_t)n, runs);
    uint32_t place = dt_line_place((const uint8_t *)body, n);
    uint64_t commands;
    printf("%-14s status %02X, %s", body, status, told[status & 15]);
    if (place != 0) printf(", at byte %lu", (unsigned long)place);
    if (commands_of_line((const uint8_t *)body, (uint16_t)n, &commands)) printf(", commands of a run: %" PRIu64, commands);
    printf("\n");
}

static void image(const char *what, const uint8_t *eeprom)
{
    printf("%s: the programs %s\n", what, programs_are_good(eeprom) ? "may be run" : "are to be erased first");
}

static void move(uint32_t v, uint32_t l, uint32_t n)
{
    static const char *const refused[] = {"", "V", "L", "N"};
    struct plan p;
    printf("V %u L %u N %u: ", v, l, n);
    if (plan_move(v, l, n, &p))
        printf("peak %u after %u microsteps and %.0f microseconds, down from %u on\n", p.peak, p.up, p.microseconds, p.down_from);
    else
        printf("%s is refused, the motor stands\n", refused[dt_ramp_check(v, l, 0, n)]);
}

int main(int count, char **words)
{
    static const char *const samples[] = {"gP5gD1G2G3R", "A2147483647R", "A2147483648R", "gS03G2R", "s3V1000P400R", "L0R", "?0"};
    static uint8_t eeprom[DT_IMAGE_BYTES];
    for (int i = 1; i < count; i++) line(words[i]);
    if (count > 1) return 0;
    for (size_t i = 0; i < sizeof samples / sizeof samples[0]; i++) line(samples[i]);
    image("an EEPROM that was never written", eeprom);
    for (unsigned k = 0; k < 16; k++) {
        eeprom[4 * k] = 64;
        eeprom[4 * k + 1] = (uint8_t)k;
    }
    image("sixteen empty slots", eeprom);
    move(305175, 1000, 15258);
    move(305175, 0, 15258);
    return 0;
}
