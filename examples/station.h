/* The bench station's table: header; resources r0 (level 3, order 1), r1 (0, 2), r2 (3, 1); devices bus, camera, lamp. */
#ifndef STATION_H
#define STATION_H

#include <stdint.h>

static const uint8_t station[140] = {
    0x50, 0x57, 0x54, 3, 1, 0, 3, 0,
    3, 0, 1, 0, 0, 0, 2, 0, 3, 0, 1, 0,
    /* 0 bus */
    0xff, 9, 9, 0, 1, 0, 0, 0, 0, 0, 0, 0, 0, 0, 0, 0, 1, 0, 0, 0, 0, 0, 0, 0,
    0xff, 0xff, 0xff, 0xff, 0xff, 0xff, 0xff, 0xff, 0xff, 0, 0, 0, 0, 0, 0, 0,
    /* 1 camera */
    0, 0x0d, 0x0d, 3, 7, 0, 0, 0, 0, 0, 0, 0, 5, 0, 0, 0, 1, 0, 0, 0, 4, 0, 0, 0,
    0xff, 0xff, 2, 0xff, 0xff, 0xff, 0xff, 3, 0xff, 3, 0, 0, 0, 0, 0, 0,
    /* 2 lamp */
    0, 0, 9, 0, 2, 0, 0, 0, 0, 0, 0, 0, 0, 0, 0, 0, 0, 0, 0, 0, 0, 0, 0, 0,
    0xff, 0xff, 0xff, 0xff, 0xff, 0xff, 0xff, 0xff, 0xff, 0, 0, 0, 0, 0, 0, 0,
};

#endif
