/* What examples/firmware.c offers to the rest of a drive's firmware. */
#ifndef FIRMWARE_H
#define FIRMWARE_H

#include <dt.h>

/* A finite move: speed up for `up` microsteps to `peak`, in `microseconds`; slow down from the microstep `down_from` on. */
struct plan {
    uint32_t peak;
    uint32_t up;
    uint32_t down_from;
    double microseconds;
};

int programs_are_good(const uint8_t eeprom[DT_IMAGE_BYTES]);
uint8_t status_of_line(const uint8_t *body, uint16_t length, int runs);
int commands_of_line(const uint8_t *body, uint16_t length, uint64_t *commands);
int plan_move(uint32_t v, uint32_t l, uint32_t n, struct plan *plan);

#endif
