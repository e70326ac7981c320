/* A drive's firmware in small: it judges what came in by the proved library before it is kept or moved by. Its words go to a
 * debugger or an emulator; on a board with a serial port, give newlib a _write of your own in place of rdimon. */
#include <dt.h>
#include <stdio.h>
#include <string.h>

/* What the firmware would store as its programs: sixteen entries of start and length, then sixteen texts. */
static uint8_t image[DT_IMAGE_BYTES];

static void clear(void)
{
    memset(image, 0, sizeof image);
    for (unsigned k = 0; k < 16; k++) {
        image[4 * k] = 64;
        image[4 * k + 1] = (uint8_t)k;
    }
}

int main(void)
{
    static const char *const bodies[] = {"gP5gD1G2G3R", "A2147483648R", "gS03G2R"};
    for (unsigned i = 0; i < sizeof bodies / sizeof bodies[0]; i++)
        printf("%s: code %lu\n", bodies[i], (unsigned long)dt_check_line((const uint8_t *)bodies[i], strlen(bodies[i])));
    printf("%s: %lu commands\n", bodies[0], (unsigned long)dt_count((const uint8_t *)bodies[0], strlen(bodies[0])));

    clear();
    printf("image: %lu\n", (unsigned long)dt_check_image(image, sizeof image));
    image[64] = 'R';
    printf("image with a stray byte: %lu\n", (unsigned long)dt_check_image(image, sizeof image));

    struct dt_ramp r = dt_ramp(305175, 1000, 0, 15258);
    printf("ramp: peak %lu after %lu microsteps and %lu us\n", (unsigned long)r.peak, (unsigned long)r.distance,
           (unsigned long)(r.time * 1e6));
    return 0;
}
