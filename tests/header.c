/*
 * The header alone, as C and as C++: its sizes and kinds, and that its functions on answers, calls, versions, on-sets and records read and
 * write the bytes that docs/RULES.md says and no other.
 */
#include <stdio.h>
#include <string.h>

#include "sailgarnet.h"

enum { RESOURCE = SAILGARNET_DESCRIBED_RESOURCE_SIZE, DEVICE = SAILGARNET_DESCRIBED_DEVICE_SIZE, RECORDS = 3 };

static int failures;

static void require(int holds, const char *what)
{
    if (!holds) {
        printf("FAILED: %s\n", what);
        failures++;
    }
}

/* All of a version follows from the bytes of a set: a bit for each resource, and as many devices. */
static void sizes_by_set(uint32_t version, unsigned set)
{
    struct sailgarnet_sizes sizes = sailgarnet_sizes_of_version(version);

    require(sizes.version == version && sizes.set == set, "a version and the bytes of its sets");
    require(sizes.max_resources == 8 * set && sizes.max_devices == 8 * set, "the limits of a version");
    require(sizes.record == 4 + 5 * sizes.set + 10 + (set == 4 ? 6 : 10), "a device's record");
    require(sizes.entries == 4 * (size_t)sizes.max_devices, "the device entries of a state image");
    require(sizes.state == sizes.entries + sizes.set, "a state image");
    require(sizes.plan == 4 * ((size_t)sizes.max_resources + 1), "a plan");
    require(sizes.sleep_plan == sizes.max_devices * sizes.plan, "a plan of sleep entry");
}

/* What the longest lists and the longest table of a version must be. */
static void longest(uint32_t version, size_t resources, size_t devices, size_t table)
{
    struct sailgarnet_sizes sizes = sailgarnet_sizes_of_version(version);

    require(resources == sizes.max_resources * (size_t)RESOURCE, "the longest list of resources");
    require(devices == sizes.max_devices * (size_t)DEVICE, "the longest list of devices");
    require(table == 8 + resources + sizes.max_devices * sizes.record, "the longest table");
}

static int no_sizes(struct sailgarnet_sizes sizes)
{
    return sizes.version == 0 && sizes.max_resources == 0 && sizes.max_devices == 0 && sizes.record == 0 && sizes.set == 0 &&
           sizes.entries == 0 && sizes.state == 0 && sizes.plan == 0 && sizes.sleep_plan == 0;
}

static void sizes(void)
{
    static const uint32_t others[] = {0, 3, 255, 256, 257, 258, 65537, 65538, UINT32_MAX};

    sizes_by_set(SAILGARNET_TABLE_VERSION_1, 4);
    sizes_by_set(SAILGARNET_TABLE_VERSION_2, 8);
    for (size_t i = 0; i < sizeof others / sizeof others[0]; i++)
        require(no_sizes(sailgarnet_sizes_of_version(others[i])), "another version has no sizes");
    longest(SAILGARNET_TABLE_VERSION_1, SAILGARNET_MAX_RESOURCES_SIZE, SAILGARNET_MAX_DEVICES_SIZE, SAILGARNET_MAX_TABLE_SIZE);
    longest(SAILGARNET_TABLE_VERSION_2, SAILGARNET_V2_MAX_RESOURCES_SIZE, SAILGARNET_V2_MAX_DEVICES_SIZE, SAILGARNET_V2_MAX_TABLE_SIZE);
}

/* Buffers of the ANY sizes have room for each version. */
static void any_version(uint32_t version)
{
    struct sailgarnet_sizes sizes = sailgarnet_sizes_of_version(version);

    require(SAILGARNET_ANY_STATE_SIZE >= sizes.state, "a state of any version");
    require(SAILGARNET_ANY_PLAN_SIZE >= sizes.plan, "a plan of any version");
    require(SAILGARNET_ANY_SLEEP_PLAN_SIZE >= sizes.sleep_plan, "a plan of sleep entry of any version");
    require(SAILGARNET_ANY_MAX_RESOURCES_SIZE >= sizes.max_resources * RESOURCE, "the resources of any version");
    require(SAILGARNET_ANY_MAX_DEVICES_SIZE >= sizes.max_devices * DEVICE, "the devices of any version");
    require(SAILGARNET_ANY_MAX_TABLE_SIZE >= 8 + sizes.max_resources * RESOURCE + sizes.max_devices * sizes.record,
            "a table of any version");
}

/* The header of a table with each byte changed to each value, and cut short (RULES.md 2.2). R and D decide nothing here. */
static void versions(void)
{
    static const uint8_t good[8] = {'P', 'W', 'T', 200, 1, 0, 200, 0};
    uint8_t table[8];

    for (size_t k = 0; k < sizeof table; k++)
        for (unsigned value = 0; value < 256; value++) {
            uint32_t expected = k == 3 || k == 6 || value == good[k] ? 1 : k == 4 && value == 2 ? 2 : 0;

            memcpy(table, good, sizeof table);
            table[k] = (uint8_t)value;
            require(sailgarnet_version_of(table, sizeof table) == expected, "the version of a table");
            require(sailgarnet_sizes_of(table, sizeof table).version == expected, "the sizes of a table");
        }
    for (size_t length = 0; length < sizeof good; length++)
        require(no_sizes(sailgarnet_sizes_of(good, length)), "less than a header has no sizes");
    require(no_sizes(sailgarnet_sizes_of(NULL, 0)), "nothing has no sizes");
}

/* The answers of RULES.md 9.5, and a count of more than a byte. */
static void answers(void)
{
    require(sailgarnet_number_of(0x300) == SAILGARNET_DONE && sailgarnet_count_of(0x300) == 3, "done with 3 calls");
    require(sailgarnet_count_of(UINT64_C(4360) << 8) == 4360, "done with 4360 bytes");
    require(sailgarnet_number_of(0x0100000e) == SAILGARNET_CHILD_SHALLOWER && sailgarnet_place_of(0x0100000e) == 1, "14 at place 1");
    require(sailgarnet_count_of(0x0100000e) == 0, "the count of 14 at place 1");
    require(sailgarnet_number_of(0x01000014) == SAILGARNET_ARMED_FOR_OTHER && sailgarnet_place_of(0x01000014) == 1, "20 at place 1");
    require(sailgarnet_number_of(0x15) == SAILGARNET_NO_CHOICE && sailgarnet_place_of(0x15) == 0, "21 without a place");
}

/* The kinds of RULES.md 2.8. */
static void kinds(void)
{
    require(SAILGARNET_MOVE == 1 && SAILGARNET_ARM == 2 && SAILGARNET_DISARM == 3, "the requests about one device");
    require(SAILGARNET_SLEEP == 4, "sleep entry");
}

/* A call of each kind (RULES.md 2.9). */
static void calls(void)
{
    static const uint8_t plan[] = {1, 2, 0, 0, 2, 1, 0, 0, 3, 1, 3, 0, 4, 1, 3, 0x82, 4, 1, 0, 0};

    require(sailgarnet_call_kind_of(plan, 0) == SAILGARNET_CALL_ON && sailgarnet_call_target(plan, 0) == 2, "_ON of r2");
    require(sailgarnet_call_kind_of(plan, 1) == SAILGARNET_CALL_OFF && sailgarnet_call_target(plan, 1) == 1, "_OFF of r1");
    require(sailgarnet_call_kind_of(plan, 2) == SAILGARNET_CALL_SET_STATE && sailgarnet_call_state(plan, 2) == 3, "_PS3");
    require(sailgarnet_call_kind_of(plan, 3) == SAILGARNET_CALL_SET_WAKE && sailgarnet_call_wake_on(plan, 3), "_DSW on");
    require(sailgarnet_call_wake_sleep(plan, 3) == 3 && sailgarnet_call_wake_state(plan, 3) == SAILGARNET_D2, "S3 and D2 of _DSW");
    require(!sailgarnet_call_wake_on(plan, 4), "_DSW off");
}

/* Bytes 128 to 131 of a state image, lowest first (RULES.md 2.7), with a byte past it. */
static void on_set(void)
{
    static const uint8_t on[] = {0x01, 0x20, 0xff, 0x80};
    uint8_t state[SAILGARNET_STATE_SIZE + 1], expected[SAILGARNET_STATE_SIZE + 1];

    for (size_t k = 0; k < sizeof state; k++)
        state[k] = expected[k] = (uint8_t)k;
    require(sailgarnet_on_read(state) == 0x83828180u, "the on-set of a state");
    memcpy(expected + 128, on, sizeof on);
    sailgarnet_on_write(state, 0x80ff2001u);
    require(memcmp(state, expected, sizeof state) == 0, "an on-set is written to its bytes and to no other");
    require(sailgarnet_on_read(state) == 0x80ff2001u, "an on-set that was written");
}

/* The on-set for a table: so many bytes of a state after its entries, numbered from 0 at first. There are bytes past them. */
static void on_set_for(uint8_t version, size_t entries, size_t set)
{
    static const uint8_t on[] = {0x01, 0x20, 0xff, 0x80, 0x02, 0x40, 0xfe, 0x90};
    const uint8_t table[8] = {'P', 'W', 'T', 0, version, 0, 0, 0};
    const uint64_t mask = set < 8 ? (UINT64_C(1) << 8 * set) - 1 : UINT64_MAX;
    uint8_t state[SAILGARNET_ANY_STATE_SIZE + 8], expected[SAILGARNET_ANY_STATE_SIZE + 8];

    for (size_t k = 0; k < sizeof state; k++)
        state[k] = expected[k] = (uint8_t)(k - entries);
    require(sailgarnet_on_read_for(table, sizeof table, state) == (UINT64_C(0x0706050403020100) & mask), "the on-set for a table");
    memcpy(expected + entries, on, set);
    sailgarnet_on_write_for(table, sizeof table, state, UINT64_C(0x90fe400280ff2001));
    require(memcmp(state, expected, sizeof state) == 0, "an on-set is written for a table to its bytes and to no other");
    require(sailgarnet_on_read_for(table, sizeof table, state) == (UINT64_C(0x90fe400280ff2001) & mask), "what was written for a table");
}

/* Lists of three records, of which byte k is k. */
static void layout(void)
{
    uint8_t bytes[RECORDS * DEVICE];
    struct sailgarnet_resource resource;
    struct sailgarnet_device device;

    for (size_t k = 0; k < sizeof bytes; k++)
        bytes[k] = (uint8_t)k;
    require(sailgarnet_resource_count(bytes) == 3 && sailgarnet_device_count(bytes) == 6, "R and D of a table");
    resource = sailgarnet_resource_read(bytes, 1);
    require(resource.systemlevel == 4 && resource.reserved == 5 && resource.resourceorder == 0x0706, "the fields of resource 1");
    device = sailgarnet_device_read(bytes, 1);
    require(device.parent == 54 && device.ps == 55 && device.pr == 56 && device.flags == 57, "bytes 0 to 3 of device 1");
    require(device.pr_sets[0] == UINT64_C(0x41403f3e3d3c3b3a) && device.pr_sets[1] == UINT64_C(0x4948474645444342), "_PR0, _PR1");
    require(device.pr_sets[2] == UINT64_C(0x51504f4e4d4c4b4a) && device.pr_sets[3] == UINT64_C(0x5958575655545352), "_PR2, _PR3");
    require(device.prw_set == UINT64_C(0x61605f5e5d5c5b5a), "_PRW");
    require(device.sxd[0] == SAILGARNET_NONE, "there is no _S0D");
    require(device.sxd[1] == 98 && device.sxd[2] == 99 && device.sxd[3] == 100 && device.sxd[4] == 101, "_S1D to _S4D");
    require(device.sxw[0] == 102 && device.sxw[1] == 103 && device.sxw[2] == 104, "_S0W to _S2W");
    require(device.sxw[3] == 105 && device.sxw[4] == 106 && device.deepest == 107, "_S3W, _S4W, deepest");
}

/* A device without parent and without any object (RULES.md 2.4, 11.1). */
static void none(void)
{
    uint8_t written[DEVICE], expected[DEVICE] = {0};
    struct sailgarnet_device device = sailgarnet_device_none();

    expected[0] = SAILGARNET_NONE;
    memset(expected + 44, SAILGARNET_NONE, 9);
    memset(written, 0x5a, sizeof written);
    sailgarnet_device_write(written, 0, &device);
    require(memcmp(written, expected, sizeof expected) == 0, "no parent, no object, no _SxD and no _SxW");
    require(device.sxd[0] == SAILGARNET_NONE, "no _S0D");
}

static void rewrite_resource(uint8_t *resources, size_t r)
{
    struct sailgarnet_resource resource = sailgarnet_resource_read(resources, r);

    memset(resources + RESOURCE * r, 0x5a, RESOURCE);
    sailgarnet_resource_write(resources, r, &resource);
}

static void rewrite_device(uint8_t *devices, size_t d)
{
    struct sailgarnet_device device = sailgarnet_device_read(devices, d);

    memset(devices + DEVICE * d, 0x5a, DEVICE);
    sailgarnet_device_write(devices, d, &device);
}

/* Every byte of a list with each value: its record read and written leaves the list as it was. */
static void survives(size_t size, void (*rewrite)(uint8_t *, size_t), const char *what)
{
    uint8_t list[RECORDS * DEVICE], before[RECORDS * DEVICE];
    unsigned long lost = 0;

    for (size_t k = 0; k < RECORDS * size; k++)
        for (unsigned value = 0; value < 256; value++) {
            for (size_t i = 0; i < sizeof list; i++)
                list[i] = (uint8_t)(0xa5 ^ i);
            list[k] = (uint8_t)value;
            memcpy(before, list, sizeof list);
            rewrite(list, k / size);
            lost += memcmp(before, list, sizeof list) != 0;
        }
    require(lost == 0, what);
}

int main(void)
{
    sizes();
    any_version(SAILGARNET_TABLE_VERSION_1);
    any_version(SAILGARNET_TABLE_VERSION_2);
    versions();
    answers();
    kinds();
    calls();
    on_set();
    on_set_for(1, 128, 4);
    on_set_for(2, 256, 8);
    on_set_for(3, 0, 0);
    layout();
    none();
    survives(RESOURCE, rewrite_resource, "a resource's bytes are not the same once read and written");
    survives(DEVICE, rewrite_device, "a device's bytes are not the same once read and written");
    return failures != 0;
}
