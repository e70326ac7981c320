/* What a drive's firmware asks the library, to be copied: at power-up, when a line comes, and before a move. It needs dt.h and
 * target/libdt.a and nothing else: no C library, no heap. examples/run compiles it with -ffreestanding and tries it. */
#include "firmware.h"

/* Whether the programs in EEPROM may be run. If not, erase them before the unit starts. */
int programs_are_good(const uint8_t eeprom[DT_IMAGE_BYTES])
{
    return dt_check_image(eeprom, DT_IMAGE_BYTES) == DT_IMAGE_GOOD;
}

/* The status byte that answers a line which comes while idle: the code 0, 2 or 3. A line that runs is then busy. */
uint8_t status_of_line(const uint8_t *body, uint16_t length, int runs)
{
    uint32_t code = dt_check_line(body, length);
    return (uint8_t)((code == DT_LINE_TAKEN && runs ? 0x40u : 0x60u) | code);
}

/* How many commands a run of a line takes when nothing stops it. Where 0 comes back that is not to be told: the line is refused,
 * it may wait, skip, jump or go on for ever, or it takes 2^63 commands and more. */
int commands_of_line(const uint8_t *body, uint16_t length, uint64_t *commands)
{
    uint64_t count = dt_count(body, length);
    if (count >= DT_COUNT_REFUSED) return 0;
    *commands = count;
    return 1;
}

/* What the step timer is set to for a move of n microsteps. Where 0 comes back the motor must not be started: a number is out
 * of its range, and no figure of the plan stands. There is no time to be compared and no not-a-number to slip by. */
int plan_move(uint32_t v, uint32_t l, uint32_t n, struct plan *plan)
{
    struct dt_ramp r = dt_ramp(v, l, 0, n);
    if (r.check != DT_RAMP_TAKEN) return 0;
    plan->peak = r.peak;
    plan->up = (uint32_t)r.distance;
    plan->down_from = n - plan->up;
    plan->microseconds = r.time * 1e6;
    return 1;
}
