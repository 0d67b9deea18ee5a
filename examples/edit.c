/*
 * How a configurator edits a station: it describes the bench station's table, changes records through their structs and writes the table
 * anew. What changed is told from the descriptions before and after. A bad edit is refused with its record, and the table stays as it was.
 * After `make library`:
 *
 *     gcc -Iinclude examples/edit.c target/staticlib/libsailgarnet.a -o target/edit && target/edit
 */
#include <inttypes.h>
#include <stdio.h>
#include <string.h>

#include "sailgarnet.h"
#include "station.h"

enum { BUS, CAMERA, LAMP };
static const char *const devices[4] = {"bus", "camera", "lamp", "fan"};

/* The fields of a device. Those from the _PS mask to _PRW are sets. */
enum { PS_MASK = 1, PRW = 8, FIELDS = 19 };
static const char *const fields[FIELDS] = {"parent", "_PS mask", "_PR mask", "flags", "_PR0", "_PR1", "_PR2", "_PR3", "_PRW", "_S1D",
                                           "_S2D", "_S3D", "_S4D", "_S0W", "_S1W", "_S2W", "_S3W", "_S4W", "deepest"};

struct table {
    uint8_t bytes[SAILGARNET_MAX_TABLE_SIZE];
    size_t length;
};

/* Room for 32 records in each list. The bench station has few; an editor of any station must look for room before it adds one. */
struct description {
    uint8_t resources[SAILGARNET_MAX_RESOURCES_SIZE], devices[SAILGARNET_MAX_DEVICES_SIZE];
    unsigned resource_count, device_count;
};

struct edit {
    const char *title;
    void (*change)(struct description *);
};

static void give_lamp_a_supply(struct description *edited)
{
    struct sailgarnet_resource supply = {.systemlevel = 0, .resourceorder = 2};
    struct sailgarnet_device lamp = sailgarnet_device_read(edited->devices, LAMP);

    lamp.pr_sets[0] = UINT64_C(1) << edited->resource_count;
    sailgarnet_resource_write(edited->resources, edited->resource_count++, &supply);
    sailgarnet_device_write(edited->devices, LAMP, &lamp);
}

static void let_camera_wake_from_s2(struct description *edited)
{
    struct sailgarnet_device camera = sailgarnet_device_read(edited->devices, CAMERA);

    camera.sxw[2] = SAILGARNET_D3HOT;
    sailgarnet_device_write(edited->devices, CAMERA, &camera);
}

static void add_fan(struct description *edited)
{
    struct sailgarnet_device fan = sailgarnet_device_none();

    fan.parent = BUS;
    fan.pr = 1u << 0 | 1u << 3;
    fan.pr_sets[0] = UINT64_C(1) << 1; /* r1 in D0; _PR3 is empty */
    sailgarnet_device_write(edited->devices, edited->device_count++, &fan);
}

static void mistype_prw(struct description *edited)
{
    struct sailgarnet_device camera = sailgarnet_device_read(edited->devices, CAMERA);

    camera.prw_set = UINT64_C(1) << 40;
    sailgarnet_device_write(edited->devices, CAMERA, &camera);
}

static void forget_ps0(struct description *edited)
{
    struct sailgarnet_device lamp = sailgarnet_device_read(edited->devices, LAMP);

    lamp.ps = 1u << 3;
    sailgarnet_device_write(edited->devices, LAMP, &lamp);
}

/* Whether the table is good, and then its description. */
static int describe(const struct table *table, struct description *of)
{
    uint64_t answer =
        sailgarnet_describe(table->bytes, table->length, of->resources, sizeof of->resources, of->devices, sizeof of->devices);

    if (sailgarnet_number_of(answer) != SAILGARNET_DONE)
        return 0;
    of->resource_count = sailgarnet_resource_count(table->bytes);
    of->device_count = sailgarnet_device_count(table->bytes);
    return 1;
}

static uint64_t write_table(const struct description *of, struct table *table)
{
    size_t resources_len = SAILGARNET_DESCRIBED_RESOURCE_SIZE * (size_t)of->resource_count;
    size_t devices_len = SAILGARNET_DESCRIBED_DEVICE_SIZE * (size_t)of->device_count;

    return sailgarnet_write(SAILGARNET_TABLE_VERSION_1, of->resources, resources_len, of->devices, devices_len, table->bytes,
                            sizeof table->bytes);
}

static void list_fields(const struct sailgarnet_device *device, uint64_t values[FIELDS])
{
    size_t n = 0;

    values[n++] = device->parent;
    values[n++] = device->ps;
    values[n++] = device->pr;
    values[n++] = device->flags;
    for (unsigned x = 0; x < 4; x++)
        values[n++] = device->pr_sets[x];
    values[n++] = device->prw_set;
    for (unsigned x = 1; x < 5; x++)
        values[n++] = device->sxd[x];
    for (unsigned x = 0; x < 5; x++)
        values[n++] = device->sxw[x];
    values[n++] = device->deepest;
}

static void print_set(uint64_t set)
{
    const char *between = "";

    printf("{");
    for (unsigned i = 0; i < 64; i++)
        if (set >> i & 1) {
            printf("%s%u", between, i);
            between = ", ";
        }
    printf("}");
}

static void print_value(size_t field, uint64_t value)
{
    if (field >= PS_MASK && field <= PRW)
        print_set(value);
    else if (value == SAILGARNET_NONE)
        printf("absent");
    else
        printf("%" PRIu64, value);
}

static void print_device_changes(const struct sailgarnet_device *before, const struct sailgarnet_device *after, unsigned d)
{
    uint64_t was[FIELDS], is[FIELDS];

    list_fields(before, was);
    list_fields(after, is);
    for (size_t i = 0; i < FIELDS; i++)
        if (was[i] != is[i]) {
            printf("    %s: %s was ", devices[d], fields[i]);
            print_value(i, was[i]);
            printf(", is ");
            print_value(i, is[i]);
            printf("\n");
        }
}

/* No edit here changes a resource that was there. A new device is compared with one without any object. */
static void print_changes(const struct description *before, const struct description *after)
{
    for (unsigned r = before->resource_count; r < after->resource_count; r++) {
        struct sailgarnet_resource added = sailgarnet_resource_read(after->resources, r);

        printf("    r%u is new: systemlevel %u, resourceorder %u\n", r, added.systemlevel, added.resourceorder);
    }
    for (unsigned d = 0; d < after->device_count; d++) {
        struct sailgarnet_device old = sailgarnet_device_none(), edited = sailgarnet_device_read(after->devices, d);

        if (d < before->device_count)
            old = sailgarnet_device_read(before->devices, d);
        else
            printf("    %s is new: device %u\n", devices[d], d);
        print_device_changes(&old, &edited, d);
    }
}

/* The place names a record in answers 4, 5 and 6 alone. */
static void print_refusal(uint64_t answer)
{
    unsigned number = sailgarnet_number_of(answer);

    printf("    refused: answer %u", number);
    if (number == SAILGARNET_BAD_RESOURCE)
        printf(", resource %" PRIu64, sailgarnet_place_of(answer));
    else if (number == SAILGARNET_BAD_DEVICE || number == SAILGARNET_BAD_OBJECTS)
        printf(", device %" PRIu64, sailgarnet_place_of(answer));
    printf("\n");
}

static void try_edit(struct table *table, struct description *current, const struct edit *edit)
{
    struct description after = *current;
    struct table old = *table;
    uint64_t answer;

    edit->change(&after);
    answer = write_table(&after, table);
    printf("%s\n", edit->title);
    if (sailgarnet_number_of(answer) != SAILGARNET_DONE) {
        print_refusal(answer);
        printf("    the table is %s\n", memcmp(table->bytes, old.bytes, sizeof old.bytes) == 0 ? "as it was" : "another");
        return;
    }
    table->length = sailgarnet_count_of(answer);
    printf("    written: %zu bytes\n", table->length);
    if (!describe(table, &after)) {
        printf("    refused when read back\n");
        return;
    }
    print_changes(current, &after);
    *current = after;
}

int main(void)
{
    static const struct edit edits[] = {
        {"the lamp gets a supply of its own", give_lamp_a_supply},
        {"the camera may wake the system from S2 too", let_camera_wake_from_s2},
        {"a fan is added to the bus", add_fan},
        {"_PRW of the camera lists r40, which the station has not", mistype_prw},
        {"the lamp gets _PS3 without _PS0", forget_ps0},
    };
    static struct table table = {.length = sizeof station};
    struct description bench;

    memcpy(table.bytes, station, sizeof station);
    if (!describe(&table, &bench)) {
        fprintf(stderr, "the table is refused\n");
        return 1;
    }
    printf("the bench station: %u resources, %u devices, %zu bytes\n", bench.resource_count, bench.device_count, table.length);
    for (size_t i = 0; i < sizeof edits / sizeof edits[0]; i++)
        try_edit(&table, &bench, &edits[i]);
    return 0;
}
