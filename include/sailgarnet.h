/*
 * Sailgarnet: a proved planner for ACPI power resources (ACPI 6.4, chapter 7).
 *
 * Seven functions on numbers and byte buffers: for a board fresh, plan and check, and at power-on bring_up and
 * check_bring_up; for an editor of tables write and describe. Nothing has to be checked before a call: any bytes for table,
 * state, request, call list and description get an answer, and a refusal writes nothing. Two things are left to the caller,
 * because no function can see them:
 *   - each pointer is valid for the length that is passed with it; with a length of 0 nothing is read or written, and any
 *     pointer is good, a null pointer too;
 *   - buffers that are lent in one call do not overlap.
 *
 * docs/RULES.md has all formats and rules. Valid as C99, C11 and C++17.
 */
#ifndef SAILGARNET_H
#define SAILGARNET_H

#include <stddef.h>
#include <stdint.h>

#ifdef __cplusplus
extern "C" {
#endif

/* Versions of the table. Each function takes a table of either, and goes by the version that stands in the table. */
#define SAILGARNET_TABLE_VERSION_1 1u /* at most 32 resources and 32 devices, device records of 40 bytes */
#define SAILGARNET_TABLE_VERSION_2 2u /* at most 64 resources and 64 devices, device records of 64 bytes */

/*
 * Sizes, in bytes, and limits. Those of version 1 have the plain names, those of version 2 have V2 in them. A program for
 * tables of either version takes buffers of the ANY sizes, and passes the lengths that sailgarnet_sizes_of gives for its
 * table: a state must have exactly the size of its version.
 *
 * A plan has at most a call of four bytes for each resource and one for the device: 33 calls, or 65. That of a sleep entry
 * has at most as many for each device: 1,056, or 4,160.
 */
#define SAILGARNET_STATE_SIZE 132u
#define SAILGARNET_ENTRIES_SIZE 128u /* the device entries of a state; its on-set, of 4 bytes, is after them */
#define SAILGARNET_PLAN_SIZE 132u
#define SAILGARNET_SLEEP_PLAN_SIZE 4224u
#define SAILGARNET_MAX_RESOURCES 32u
#define SAILGARNET_MAX_DEVICES 32u
#define SAILGARNET_RECORD_SIZE 40u /* a device's record in a table */

#define SAILGARNET_V2_STATE_SIZE 264u
#define SAILGARNET_V2_ENTRIES_SIZE 256u /* the on-set after them has 8 bytes */
#define SAILGARNET_V2_PLAN_SIZE 260u
#define SAILGARNET_V2_SLEEP_PLAN_SIZE 16640u
#define SAILGARNET_V2_MAX_RESOURCES 64u
#define SAILGARNET_V2_MAX_DEVICES 64u
#define SAILGARNET_V2_RECORD_SIZE 64u

#define SAILGARNET_ANY_STATE_SIZE SAILGARNET_V2_STATE_SIZE
#define SAILGARNET_ANY_PLAN_SIZE SAILGARNET_V2_PLAN_SIZE
#define SAILGARNET_ANY_SLEEP_PLAN_SIZE SAILGARNET_V2_SLEEP_PLAN_SIZE

#define SAILGARNET_NONE 255u /* no parent, or no such _SxD or _SxW */

/*
 * Descriptions: the bytes of a resource and of a device, the same for both versions. Then what the lists and the table of
 * any station of version 1 fit in, of version 2, and of either.
 */
#define SAILGARNET_DESCRIBED_RESOURCE_SIZE 4u
#define SAILGARNET_DESCRIBED_DEVICE_SIZE 54u
#define SAILGARNET_MAX_RESOURCES_SIZE 128u
#define SAILGARNET_MAX_DEVICES_SIZE 1728u
#define SAILGARNET_MAX_TABLE_SIZE 1416u
#define SAILGARNET_V2_MAX_RESOURCES_SIZE 256u
#define SAILGARNET_V2_MAX_DEVICES_SIZE 3456u
#define SAILGARNET_V2_MAX_TABLE_SIZE 4360u
#define SAILGARNET_ANY_MAX_RESOURCES_SIZE SAILGARNET_V2_MAX_RESOURCES_SIZE
#define SAILGARNET_ANY_MAX_DEVICES_SIZE SAILGARNET_V2_MAX_DEVICES_SIZE
#define SAILGARNET_ANY_MAX_TABLE_SIZE SAILGARNET_V2_MAX_TABLE_SIZE

/* Request kinds. */
#define SAILGARNET_MOVE 1u   /* device to state a; b is 0 */
#define SAILGARNET_ARM 2u    /* device may wake the system from sleep state a; while armed it is never deeper than b */
#define SAILGARNET_DISARM 3u /* device may no longer wake the system; a and b are 0 */
#define SAILGARNET_SLEEP 4u  /* sleep entry: all devices to states for sleep state a, 1 to 4; device and b are 0 */

/* Device power states. Larger is deeper. */
#define SAILGARNET_D0 0u
#define SAILGARNET_D1 1u
#define SAILGARNET_D2 2u
#define SAILGARNET_D3HOT 3u
#define SAILGARNET_D3COLD 4u

/* Answer numbers, named as in crates/rules. In brackets what the place names; it is 0 where nothing is named. */
enum sailgarnet_number {
    SAILGARNET_DONE = 0,              /* done; count is calls for plan and bring_up, bytes for write and describe, else 0 */
    SAILGARNET_NOT_A_TABLE = 1,       /* table under 8 bytes, or wrong mark, byte 7 or version; write: version not 1 or 2 */
    SAILGARNET_TOO_MANY = 2,          /* more than 32 resources or devices, in version 2 more than 64 */
    SAILGARNET_WRONG_LENGTH = 3,      /* the table's length is not 8 + 4 R + 40 D, in version 2 8 + 4 R + 64 D */
    SAILGARNET_BAD_RESOURCE = 4,      /* a resource record has a bad field or, in a description, is cut short [resource] */
    SAILGARNET_BAD_DEVICE = 5,        /* a device record has a bad field or, in a description, is cut short [device] */
    SAILGARNET_BAD_OBJECTS = 6,       /* a device breaks an object rule, see struct sailgarnet_device [device] */
    SAILGARNET_BAD_STATE = 7,         /* the state is not 132 bytes, in version 2 264, or a value is out of its rules */
    SAILGARNET_INCONSISTENT = 8,      /* the state is not consistent, for bring-up even with all on [lowest such device] */
    SAILGARNET_NO_ROOM = 9,           /* plan under 132 (V2 260), of sleep entry 4224 (16640); other output without room */
    SAILGARNET_BAD_REQUEST = 10,      /* kind, device or number out of range, or an unused number not zero */
    SAILGARNET_UNSUPPORTED = 11,      /* the device does not support the state */
    SAILGARNET_SHALLOWER = 12,        /* the target is shallower than the present state and not D0 */
    SAILGARNET_PARENT_DEEPER = 13,    /* the parent is in a deeper state than the target [parent] */
    SAILGARNET_CHILD_SHALLOWER = 14,  /* a child is in a shallower state than the target [lowest such child] */
    SAILGARNET_TOO_DEEP_TO_WAKE = 15, /* the device is armed, and the target is deeper than its wake state */
    SAILGARNET_NO_WAKE = 16,          /* no _PRW, or the sleep state is above its deepest */
    SAILGARNET_WAKE_UNPOWERED = 17,   /* a _PRW resource has a systemlevel below the sleep state */
    SAILGARNET_BAD_WAKE_STATE = 18,   /* wake state not supported, outside its range, or shallower than the present state */
    SAILGARNET_NOT_CONFORMING = 19,   /* checkers only: the list does not conform to the request, or to the bring-up */
    SAILGARNET_ARMED_FOR_OTHER = 20,  /* sleep entry: a device is armed for another sleep state [lowest such device] */
    SAILGARNET_NO_CHOICE = 21         /* sleep entry: there are no states that all devices may take together */
};

/*
 * The fresh state of a table: every device in D0, none armed, all resources on. Writes every byte of `state`. Answers 1 to
 * 6, then 7 if the buffer is not 132 bytes, for a table of version 2 264, else 0.
 */
uint64_t sailgarnet_fresh(const uint8_t *table, size_t table_len, uint8_t *state, size_t state_len);

/*
 * Plans one request. Done: the first 4 * count bytes of `plan` are the calls in their order, four bytes each, the rest
 * of `plan` is as it was, and `state` is the state after the calls. Refused: nothing is written. `plan` must have at least
 * SAILGARNET_PLAN_SIZE bytes, for a table of version 2 SAILGARNET_V2_PLAN_SIZE, else the answer is 9.
 *
 * SAILGARNET_SLEEP prepares all devices for sleep state x = a, which the board enters afterwards. `plan` must then have
 * SAILGARNET_SLEEP_PLAN_SIZE bytes, or SAILGARNET_V2_SLEEP_PLAN_SIZE. Each device takes the shallowest state that it may
 * take: one that it supports, that is not shallower than its present state, its _SxD or the state of its parent, in which
 * all that it needs has systemlevel x or more, and which is its wake state if it is armed. The calls are those of
 * SAILGARNET_MOVE for each device whose state changes, from the highest down. If none changes, they turn off what is on and
 * not needed. Answers 1 to 9, then 10 if a is not 1 to 4 or device or b is not 0, 20 if a device is armed for another sleep
 * state, 21 if some device is left without a state, else 0.
 */
uint64_t sailgarnet_plan(const uint8_t *table, size_t table_len, uint8_t *state, size_t state_len,
                         uint32_t kind, uint32_t device, uint32_t a, uint32_t b,
                         uint8_t *plan, size_t plan_len);

/*
 * Whether a list of calls, four bytes each, conforms to a request from a state. Writes nothing. Answers 1 to 8, 10 to 18
 * as the planner does, then 19 for a list that does not conform, such as one that ends within a call, else 0. A request
 * SAILGARNET_SLEEP is answered 10: what can be checked is each of its moves, as SAILGARNET_MOVE from the state before it.
 */
uint64_t sailgarnet_check(const uint8_t *table, size_t table_len, const uint8_t *state, size_t state_len,
                          uint32_t kind, uint32_t device, uint32_t a, uint32_t b,
                          const uint8_t *list, size_t list_len);

/*
 * What to switch at power-on. The lent `state` has the device entries that the board kept and, as its on-set, the
 * resources that are on by _STA (sailgarnet_on_write_for); a needed one may be off. Answers 1 to 7, then 8 for the lowest
 * device that is in a state which it does not have, shallower than its parent, armed for a wake pair that is not legal,
 * or deeper than its wake state; resources that are off are no reason. Then 9 if `plan` has fewer than 132 bytes, for a
 * table of version 2 fewer than 260, else 0. Done: the first 4 * count bytes of `plan` are the calls in their order, _ON
 * of each resource that is needed and off, then _OFF of each that is on and not needed, and the rest of `plan` is as it
 * was. No method of a device is called, not even where its supply was off. `state` keeps its device entries and has
 * exactly the needed resources on, so it is consistent. Refused: nothing is written.
 */
uint64_t sailgarnet_bring_up(const uint8_t *table, size_t table_len, uint8_t *state, size_t state_len,
                             uint8_t *plan, size_t plan_len);

/*
 * Whether a list of calls, four bytes each, conforms to a bring-up. `state` is the one that was lent to
 * sailgarnet_bring_up, as it was before. Writes nothing. Answers 1 to 8 as sailgarnet_bring_up does, then 19 for a list
 * that does not conform, such as one that ends within a call, else 0.
 */
uint64_t sailgarnet_check_bring_up(const uint8_t *table, size_t table_len, const uint8_t *state, size_t state_len,
                                   const uint8_t *list, size_t list_len);

/*
 * Writes the table that a description makes, of the version that is asked for: `resources` has R records of 4 bytes,
 * `devices` D records of 54, and a record that is cut short counts. Their lengths say how many records there are: lend 4
 * R and 54 D bytes, not the whole buffers, whose unused bytes would be taken for records. Answers 1 for a version other
 * than 1 and 2, then 2 for more than 32 of either, in version 2 more than 64, then 9 if `table` has fewer than 8 + 4 R +
 * 40 D bytes, in version 2 fewer than 8 + 4 R + 64 D, then 4, 5 and 6 as for the table, else 0. Done: the first count
 * bytes of `table` are the table, and the rest is as it was. Refused: nothing is written. With at most 32 resources and
 * 32 devices, and room, a description is written as either version or refused as either, with the same answer.
 */
uint64_t sailgarnet_write(uint32_t version, const uint8_t *resources, size_t resources_len,
                          const uint8_t *devices, size_t devices_len, uint8_t *table, size_t table_len);

/*
 * Describes a table; sailgarnet_write with the table's version makes the same table of the description. Answers 1 to 6,
 * then 9 if `resources` has fewer than 4 R bytes or `devices` fewer than 54 D, else 0. Done: the first 4 R bytes of
 * `resources` and the first 54 D bytes of `devices` are the description, the count is their sum, and the rest is as it was.
 * R and D are then sailgarnet_resource_count and sailgarnet_device_count of the table. Refused: nothing is written.
 */
uint64_t sailgarnet_describe(const uint8_t *table, size_t table_len, uint8_t *resources, size_t resources_len,
                             uint8_t *devices, size_t devices_len);

/* The parts of an answer: number in bits 0 to 7, count in bits 8 to 23, place in bits 24 to 63. */
static inline unsigned sailgarnet_number_of(uint64_t answer) { return (unsigned)(answer & 0xffu); }
static inline unsigned sailgarnet_count_of(uint64_t answer) { return (unsigned)((answer >> 8) & 0xffffu); }
static inline uint64_t sailgarnet_place_of(uint64_t answer) { return answer >> 24; }

/* The kind of a call, its first byte. */
enum sailgarnet_call_kind {
    SAILGARNET_CALL_ON = 1,        /* _ON of a resource */
    SAILGARNET_CALL_OFF = 2,       /* _OFF of a resource */
    SAILGARNET_CALL_SET_STATE = 3, /* _PSx of a device */
    SAILGARNET_CALL_SET_WAKE = 4   /* _DSW of a device */
};

/* The parts of the i-th call of a plan. */
static inline unsigned sailgarnet_call_kind_of(const uint8_t *plan, size_t i) { return plan[4 * i]; }
/* the resource of an _ON or _OFF, else the device */
static inline unsigned sailgarnet_call_target(const uint8_t *plan, size_t i) { return plan[4 * i + 1]; }
/* the x of _PSx */
static inline unsigned sailgarnet_call_state(const uint8_t *plan, size_t i) { return plan[4 * i + 2]; }
/* of _DSW: whether waking is switched on, from which sleep state, and in which device state */
static inline int sailgarnet_call_wake_on(const uint8_t *plan, size_t i) { return plan[4 * i + 3] >= 128; }
static inline unsigned sailgarnet_call_wake_sleep(const uint8_t *plan, size_t i) { return plan[4 * i + 2]; }
static inline unsigned sailgarnet_call_wake_state(const uint8_t *plan, size_t i) { return plan[4 * i + 3] & 0x7fu; }

/* A set of resources in `size` bytes, at most 8, lowest first. Bit r stands for resource r. */
static inline uint64_t sailgarnet_sized_set_read(const uint8_t *bytes, unsigned size)
{
    uint64_t set = 0;

    for (unsigned i = 0; i < size; i++)
        set |= (uint64_t)bytes[i] << 8 * i;
    return set;
}

static inline void sailgarnet_sized_set_write(uint8_t *bytes, unsigned size, uint64_t set)
{
    for (unsigned i = 0; i < size; i++)
        bytes[i] = (uint8_t)(set >> 8 * i & 0xffu);
}

/* R and D of a good table, the numbers of its resources and devices. */
static inline unsigned sailgarnet_resource_count(const uint8_t *table) { return table[3]; }
static inline unsigned sailgarnet_device_count(const uint8_t *table) { return table[6]; }

/* What the version of a table decides. */
struct sailgarnet_sizes {
    unsigned version;       /* 1 or 2 */
    unsigned max_resources; /* 32 or 64 */
    unsigned max_devices;   /* 32 or 64 */
    size_t record;          /* a device's record in the table: 40 or 64 bytes */
    size_t set;             /* a set in a device's record, and the on-set of a state: 4 or 8 */
    size_t entries;         /* the device entries of a state; its on-set is after them: 128 or 256 */
    size_t state;           /* a state, exactly: 132 or 264 */
    size_t plan;            /* a plan, at least: 132 or 260 */
    size_t sleep_plan;      /* the plan of a sleep entry, at least: 4224 or 16640 */
};

/* The sizes of a version. Of a version other than 1 and 2, all are 0. */
static inline struct sailgarnet_sizes sailgarnet_sizes_of_version(uint32_t version)
{
    static const struct sailgarnet_sizes sizes[3] = {
        {0, 0, 0, 0, 0, 0, 0, 0, 0},
        {SAILGARNET_TABLE_VERSION_1, SAILGARNET_MAX_RESOURCES, SAILGARNET_MAX_DEVICES, SAILGARNET_RECORD_SIZE, 4,
         SAILGARNET_ENTRIES_SIZE, SAILGARNET_STATE_SIZE, SAILGARNET_PLAN_SIZE, SAILGARNET_SLEEP_PLAN_SIZE},
        {SAILGARNET_TABLE_VERSION_2, SAILGARNET_V2_MAX_RESOURCES, SAILGARNET_V2_MAX_DEVICES, SAILGARNET_V2_RECORD_SIZE, 8,
         SAILGARNET_V2_ENTRIES_SIZE, SAILGARNET_V2_STATE_SIZE, SAILGARNET_V2_PLAN_SIZE, SAILGARNET_V2_SLEEP_PLAN_SIZE},
    };

    return sizes[version <= SAILGARNET_TABLE_VERSION_2 ? version : 0];
}

/* The version of a table. It is 0 exactly for the bytes that the functions answer 1: they are no table. */
static inline uint32_t sailgarnet_version_of(const uint8_t *table, size_t table_len)
{
    if (table_len < 8 || table[0] != 'P' || table[1] != 'W' || table[2] != 'T' || table[5] != 0 || table[7] != 0)
        return 0;
    return sailgarnet_sizes_of_version(table[4]).version;
}

/*
 * The sizes of a table's version. For bytes that are no table all are 0: a function that is lent them answers 1, whatever
 * lengths it is passed. A table that has sizes may still be refused with 2 to 6.
 */
static inline struct sailgarnet_sizes sailgarnet_sizes_of(const uint8_t *table, size_t table_len)
{
    return sailgarnet_sizes_of_version(sailgarnet_version_of(table, table_len));
}

/*
 * The on-set of a state, the resources that are on, for a table of either version. The two touch the bytes of the on-set
 * alone, 4 or 8, and none for bytes that are no table. A state of version 1 has no room for resources from 32 on: they are
 * not written.
 */
static inline uint64_t sailgarnet_on_read_for(const uint8_t *table, size_t table_len, const uint8_t *state)
{
    struct sailgarnet_sizes sizes = sailgarnet_sizes_of(table, table_len);

    return sailgarnet_sized_set_read(state + sizes.entries, (unsigned)sizes.set);
}

static inline void sailgarnet_on_write_for(const uint8_t *table, size_t table_len, uint8_t *state, uint64_t on)
{
    struct sailgarnet_sizes sizes = sailgarnet_sizes_of(table, table_len);

    sailgarnet_sized_set_write(state + sizes.entries, (unsigned)sizes.set, on);
}

/* The same for a state of version 1. The two touch its 4 bytes alone. */
static inline uint32_t sailgarnet_on_read(const uint8_t *state)
{
    return (uint32_t)sailgarnet_sized_set_read(state + SAILGARNET_ENTRIES_SIZE, 4);
}

static inline void sailgarnet_on_write(uint8_t *state, uint32_t on)
{
    sailgarnet_sized_set_write(state + SAILGARNET_ENTRIES_SIZE, 4, on);
}

/* A described resource. A value out of its range is answered 4. */
struct sailgarnet_resource {
    uint8_t systemlevel;    /* the deepest sleep state in which it can be on, 0 to 4 */
    uint8_t reserved;       /* 0 */
    uint16_t resourceorder; /* a lower order is turned on earlier and turned off later */
};

/*
 * A described device. A new one begins as sailgarnet_device_none(), not as zeros: 0 is device 0 as a parent, and D0 as an
 * _SxD or _SxW. There is no _S0D: sxd[0] is read as SAILGARNET_NONE, and is not written.
 *
 * In a set, bit r stands for resource r, and r is below R; the set of an object that does not exist is 0. Where both
 * exist, _SxD is at most _SxW. A break of this, or a value out of its range, is answered 5. A break of one of the four
 * object rules is answered 6: with any _PSx there are _PS0 and _PS3; with any _PRx there is _PR0; a device with both kinds
 * has _PS1 exactly if it has _PR1, and _PS2 exactly if it has _PR2; with _DSW there is _PRW.
 */
struct sailgarnet_device {
    uint8_t parent;      /* the device that this one is attached to, of a lower number than its own, or SAILGARNET_NONE */
    uint8_t ps;          /* bit x, 0 to 3: _PSx exists */
    uint8_t pr;          /* bit x, 0 to 3: _PRx exists */
    uint8_t flags;       /* SAILGARNET_HAS_PRW, SAILGARNET_HAS_DSW */
    uint64_t pr_sets[4]; /* _PRx at x: what it needs in D0, D1, D2 and D3hot */
    uint64_t prw_set;    /* _PRW: what it needs to wake the system */
    uint8_t sxd[5];      /* _SxD at x, 0 to 3 or SAILGARNET_NONE */
    uint8_t sxw[5];      /* _SxW at x, 0 to 4 or SAILGARNET_NONE */
    uint8_t deepest;     /* the deepest sleep state from which it can wake the system, 0 to 4; 0 without _PRW */
};

/* The flags of a device. */
#define SAILGARNET_HAS_PRW 1u
#define SAILGARNET_HAS_DSW 2u

/* A device without parent and without any object. */
static inline struct sailgarnet_device sailgarnet_device_none(void)
{
    struct sailgarnet_device device;

    device.parent = SAILGARNET_NONE;
    device.ps = 0;
    device.pr = 0;
    device.flags = 0;
    for (unsigned x = 0; x < 4; x++)
        device.pr_sets[x] = 0;
    device.prw_set = 0;
    for (unsigned x = 0; x < 5; x++) {
        device.sxd[x] = SAILGARNET_NONE;
        device.sxw[x] = SAILGARNET_NONE;
    }
    device.deepest = 0;
    return device;
}

/* A set in a description: 8 bytes, lowest first. */
static inline uint64_t sailgarnet_set_read(const uint8_t *bytes) { return sailgarnet_sized_set_read(bytes, 8); }
static inline void sailgarnet_set_write(uint8_t *bytes, uint64_t set) { sailgarnet_sized_set_write(bytes, 8, set); }

/*
 * Records of a description as structs and back. What is read from any bytes is written as the same bytes. The two for a
 * resource touch the 4 bytes of resource r alone, the two for a device the 54 bytes of device d.
 */
static inline struct sailgarnet_resource sailgarnet_resource_read(const uint8_t *resources, size_t r)
{
    const uint8_t *bytes = resources + SAILGARNET_DESCRIBED_RESOURCE_SIZE * r;
    struct sailgarnet_resource resource;

    resource.systemlevel = bytes[0];
    resource.reserved = bytes[1];
    resource.resourceorder = (uint16_t)(bytes[2] | bytes[3] << 8);
    return resource;
}

static inline void sailgarnet_resource_write(uint8_t *resources, size_t r, const struct sailgarnet_resource *resource)
{
    uint8_t *bytes = resources + SAILGARNET_DESCRIBED_RESOURCE_SIZE * r;

    bytes[0] = resource->systemlevel;
    bytes[1] = resource->reserved;
    bytes[2] = (uint8_t)(resource->resourceorder & 0xffu);
    bytes[3] = (uint8_t)(resource->resourceorder >> 8);
}

static inline struct sailgarnet_device sailgarnet_device_read(const uint8_t *devices, size_t d)
{
    const uint8_t *bytes = devices + SAILGARNET_DESCRIBED_DEVICE_SIZE * d;
    struct sailgarnet_device device;

    device.parent = bytes[0];
    device.ps = bytes[1];
    device.pr = bytes[2];
    device.flags = bytes[3];
    for (unsigned x = 0; x < 4; x++)
        device.pr_sets[x] = sailgarnet_set_read(bytes + 4 + 8 * x);
    device.prw_set = sailgarnet_set_read(bytes + 36);
    device.sxd[0] = SAILGARNET_NONE;
    for (unsigned x = 1; x < 5; x++)
        device.sxd[x] = bytes[43 + x];
    for (unsigned x = 0; x < 5; x++)
        device.sxw[x] = bytes[48 + x];
    device.deepest = bytes[53];
    return device;
}

static inline void sailgarnet_device_write(uint8_t *devices, size_t d, const struct sailgarnet_device *device)
{
    uint8_t *bytes = devices + SAILGARNET_DESCRIBED_DEVICE_SIZE * d;

    bytes[0] = device->parent;
    bytes[1] = device->ps;
    bytes[2] = device->pr;
    bytes[3] = device->flags;
    for (unsigned x = 0; x < 4; x++)
        sailgarnet_set_write(bytes + 4 + 8 * x, device->pr_sets[x]);
    sailgarnet_set_write(bytes + 36, device->prw_set);
    for (unsigned x = 1; x < 5; x++)
        bytes[43 + x] = device->sxd[x];
    for (unsigned x = 0; x < 5; x++)
        bytes[48 + x] = device->sxw[x];
    bytes[53] = device->deepest;
}

#ifdef __cplusplus
}
#endif

#endif
