/* Tables for the tests: the bench station as each version has it, and tables of every size, up to the largest that a version allows. */
#ifndef FULL_H
#define FULL_H

#include <string.h>

#include "../examples/station.h"
#include "sailgarnet.h"

/* Room for the plan of a request. */
static size_t room_for(const struct sailgarnet_sizes *sizes, uint32_t kind)
{
    return kind == SAILGARNET_SLEEP ? sizes->sleep_plan : sizes->plan;
}

static size_t table_size(uint32_t version, unsigned resources, unsigned devices)
{
    return 8 + 4 * (size_t)resources + sailgarnet_sizes_of_version(version).record * devices;
}

/* The record of a device of a table that has it. */
static uint8_t *record_of(uint8_t *table, unsigned d)
{
    return table + table_size(table[4], sailgarnet_resource_count(table), d);
}

/* All of so many resources. */
static uint64_t all_of(unsigned resources) { return resources < 64 ? (UINT64_C(1) << resources) - 1 : UINT64_MAX; }

/* A set of a device's record: _PR0 to _PR3, _PRW. */
static void put_set(uint8_t *record, const struct sailgarnet_sizes *sizes, unsigned k, uint64_t set)
{
    sailgarnet_sized_set_write(record + 4 + sizes->set * k, (unsigned)sizes->set, set);
}

/* A device with every object. The last one has the resources from 8 on for itself. */
static void fill_device(uint8_t *record, const struct sailgarnet_sizes *sizes, unsigned d, int last, uint64_t all)
{
    record[0] = d == 0 ? SAILGARNET_NONE : (uint8_t)(d - 1);
    record[1] = record[2] = 15;
    record[3] = 3;
    for (unsigned k = 0; k < 4; k++)
        put_set(record, sizes, k, all & (last ? ~all_of(8) : all_of(8)));
    put_set(record, sizes, 4, all & UINT64_C(1) << d % 8);
    memset(record + 8 + 5 * sizes->set, 4, 6);
}

/* A good table of so many resources and devices, the devices in one line of descent. Returns its length. */
static size_t fill_table(uint8_t *table, uint32_t version, unsigned resources, unsigned devices)
{
    static const uint8_t header[8] = {'P', 'W', 'T', 0, 0, 0, 0, 0};
    struct sailgarnet_sizes sizes = sailgarnet_sizes_of_version(version);
    size_t length = table_size(version, resources, devices);

    memset(table, 0, length);
    memcpy(table, header, sizeof header);
    table[3] = (uint8_t)resources;
    table[4] = (uint8_t)version;
    table[6] = (uint8_t)devices;
    for (unsigned r = 0; r < resources; r++) {
        table[8 + 4 * r] = 4;
        table[8 + 4 * r + 2] = (uint8_t)(7 * r % 16);
    }
    for (unsigned d = 0; d < devices; d++)
        fill_device(record_of(table, d), &sizes, d, d == devices - 1, all_of(resources));
    return length;
}

/* The largest table of a version. */
static size_t fill_full_table(uint8_t *table, uint32_t version)
{
    struct sailgarnet_sizes sizes = sailgarnet_sizes_of_version(version);

    return fill_table(table, version, sizes.max_resources, sizes.max_devices);
}

/*
 * The full table, changed so that sleep entry for S3 from the fresh state has a move of each device, to D3hot by its _S3D, and three calls
 * for each device: the last device needs every resource in D0 and none in D3hot, the others none in D0 and every one in D3hot.
 */
static size_t fill_sleep_table(uint8_t *table, uint32_t version)
{
    struct sailgarnet_sizes sizes = sailgarnet_sizes_of_version(version);
    size_t length = fill_full_table(table, version);

    for (unsigned d = 0; d < sizes.max_devices; d++) {
        uint8_t *record = record_of(table, d);
        uint64_t in_d0 = d == sizes.max_devices - 1 ? UINT64_MAX : 0;

        put_set(record, &sizes, 0, in_d0);
        put_set(record, &sizes, 3, ~in_d0);
        record[6 + 5 * sizes.set] = SAILGARNET_D3HOT;
    }
    return length;
}

/* The bench station as a version has it. Returns its length, or 0 if the library refuses it. */
static size_t fill_station(uint8_t *table, uint32_t version)
{
    uint8_t resources[3 * SAILGARNET_DESCRIBED_RESOURCE_SIZE], devices[3 * SAILGARNET_DESCRIBED_DEVICE_SIZE];
    uint64_t answer = sailgarnet_describe(station, sizeof station, resources, sizeof resources, devices, sizeof devices);

    if (sailgarnet_number_of(answer) == SAILGARNET_DONE)
        answer = sailgarnet_write(version, resources, sizeof resources, devices, sizeof devices, table, table_size(version, 3, 3));
    return sailgarnet_number_of(answer) == SAILGARNET_DONE ? sailgarnet_count_of(answer) : 0;
}

#endif
