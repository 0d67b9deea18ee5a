/*
 * One board's program for tables of either version: what it lends has the sizes of the table's version, as sailgarnet_sizes_of gives them.
 * The bench station is written as version 1 and as version 2, and both get the same requests: the calls are the same. Then comes a line
 * with two cameras, whose 47 resources are too many for version 1. board.c and sleep.c show how a plan is checked before it is carried out.
 * After `make library`:
 *
 *     gcc -Iinclude examples/wide.c target/staticlib/libsailgarnet.a -o target/wide && target/wide
 */
#include <inttypes.h>
#include <stdio.h>
#include <string.h>

#include "sailgarnet.h"
#include "station.h"

enum { CAMERA = 1, LAMP = 2 };
static const char *const bench_names[] = {"bus", "camera", "lamp"};

/* The line: r0 is for the bus, and each camera has supplies of its own after it. */
enum { RIGHT = 2, SUPPLIES = 23 };
static const char *const line_names[] = {"bus", "left", "right"};

/* The same for both versions. */
struct description {
    uint8_t resources[SAILGARNET_ANY_MAX_RESOURCES_SIZE], devices[SAILGARNET_ANY_MAX_DEVICES_SIZE];
    unsigned resource_count, device_count;
};

/* What a board keeps, with room for either version, and its last plan. */
struct board {
    const char *const *names;
    uint8_t table[SAILGARNET_ANY_MAX_TABLE_SIZE], state[SAILGARNET_ANY_STATE_SIZE], plan[SAILGARNET_ANY_SLEEP_PLAN_SIZE];
    size_t table_len, count;
    struct sailgarnet_sizes sizes;
};

struct request {
    const char *title;
    uint32_t kind, device, a, b;
};

static int describe_bench(struct description *bench)
{
    uint64_t answer = sailgarnet_describe(station, sizeof station, bench->resources, sizeof bench->resources, bench->devices,
                                          sizeof bench->devices);

    bench->resource_count = sailgarnet_resource_count(station);
    bench->device_count = sailgarnet_device_count(station);
    return sailgarnet_number_of(answer) == SAILGARNET_DONE;
}

static void add_resource(struct description *line, uint8_t systemlevel)
{
    struct sailgarnet_resource added = {.systemlevel = systemlevel, .resourceorder = (uint16_t)line->resource_count};

    sailgarnet_resource_write(line->resources, line->resource_count++, &added);
}

/* A device with D0, D3hot and D3cold, and what it needs in the first two. */
static void add_device(struct description *line, uint8_t parent, uint64_t in_d0, uint64_t in_d3hot)
{
    struct sailgarnet_device added = sailgarnet_device_none();

    added.parent = parent;
    added.ps = added.pr = 1u << 0 | 1u << 3;
    added.pr_sets[0] = in_d0;
    added.pr_sets[3] = in_d3hot;
    sailgarnet_device_write(line->devices, line->device_count++, &added);
}

/* In S3 the supply of the bus can be on, those of the cameras cannot. */
static void describe_line(struct description *line)
{
    uint64_t supplies = (UINT64_C(1) << SUPPLIES) - 1;

    line->resource_count = line->device_count = 0;
    add_resource(line, 3);
    for (unsigned k = 0; k < 2 * SUPPLIES; k++)
        add_resource(line, 0);
    add_device(line, SAILGARNET_NONE, 1, 1);
    add_device(line, 0, supplies << 1, 0);
    add_device(line, 0, supplies << (1 + SUPPLIES), 0);
}

/* Whether the answer is a refusal, which is printed. */
static int refused(uint64_t answer)
{
    if (sailgarnet_number_of(answer) == SAILGARNET_DONE)
        return 0;
    printf(" refused: answer %u, place %" PRIu64 "\n", sailgarnet_number_of(answer), sailgarnet_place_of(answer));
    return 1;
}

/* Gives a board the table of a description, as this version, and its fresh state. Whether it has them. */
static int start(struct board *board, const char *const *names, const struct description *of, uint32_t version)
{
    size_t resources_len = SAILGARNET_DESCRIBED_RESOURCE_SIZE * (size_t)of->resource_count;
    size_t devices_len = SAILGARNET_DESCRIBED_DEVICE_SIZE * (size_t)of->device_count;
    uint64_t answer;

    printf("    version %" PRIu32 ":", version);
    answer = sailgarnet_write(version, of->resources, resources_len, of->devices, devices_len, board->table, sizeof board->table);
    if (refused(answer))
        return 0;
    board->names = names;
    board->table_len = sailgarnet_count_of(answer);
    board->sizes = sailgarnet_sizes_of(board->table, board->table_len);
    printf(" table %zu bytes, state %zu, plan %zu, plan of sleep entry %zu\n", board->table_len, board->sizes.state, board->sizes.plan,
           board->sizes.sleep_plan);
    return !refused(sailgarnet_fresh(board->table, board->table_len, board->state, board->sizes.state));
}

/* A real board would run the method here. */
static void carry_out(const struct board *board, size_t i)
{
    unsigned target = sailgarnet_call_target(board->plan, i);

    switch (sailgarnet_call_kind_of(board->plan, i)) {
    case SAILGARNET_CALL_ON:
        printf(" r%u._ON", target);
        break;
    case SAILGARNET_CALL_OFF:
        printf(" r%u._OFF", target);
        break;
    case SAILGARNET_CALL_SET_STATE:
        printf(" %s._PS%u", board->names[target], sailgarnet_call_state(board->plan, i));
        break;
    case SAILGARNET_CALL_SET_WAKE:
        printf(" %s._DSW %s", board->names[target], sailgarnet_call_wake_on(board->plan, i) ? "on" : "off");
        break;
    }
}

/* Plans a request and carries it out. Whether it is done. */
static int ask(struct board *board, const struct request *q)
{
    size_t room = q->kind == SAILGARNET_SLEEP ? board->sizes.sleep_plan : board->sizes.plan;
    uint64_t answer = sailgarnet_plan(board->table, board->table_len, board->state, board->sizes.state, q->kind, q->device, q->a, q->b,
                                      board->plan, room);

    printf("    version %u:", board->sizes.version);
    if (refused(answer))
        return 0;
    board->count = sailgarnet_count_of(answer);
    if (board->count == 0)
        printf(" no calls");
    for (size_t i = 0; i < board->count; i++) {
        if (i > 0 && i % 12 == 0)
            printf("\n              ");
        carry_out(board, i);
    }
    printf("\n");
    return 1;
}

static uint64_t on(const struct board *board) { return sailgarnet_on_read_for(board->table, board->table_len, board->state); }

/* Whether two boards with one station had the same calls, and have the same device entries and the same resources on. */
static int agree(const struct board *one, const struct board *other)
{
    return one->count == other->count && memcmp(one->plan, other->plan, 4 * one->count) == 0 &&
           memcmp(one->state, other->state, 4 * (size_t)sailgarnet_device_count(one->table)) == 0 && on(one) == on(other);
}

static int bench_station(void)
{
    static const struct request day[] = {
        {"lamp to D3cold", SAILGARNET_MOVE, LAMP, SAILGARNET_D3COLD, 0},
        {"camera to D3hot", SAILGARNET_MOVE, CAMERA, SAILGARNET_D3HOT, 0},
        {"camera to D0", SAILGARNET_MOVE, CAMERA, SAILGARNET_D0, 0},
        {"arm camera for S3, D2", SAILGARNET_ARM, CAMERA, 3, SAILGARNET_D2},
        {"sleep entry for S3", SAILGARNET_SLEEP, 0, 3, 0},
    };
    static struct board boards[2];
    struct description bench;

    if (!describe_bench(&bench))
        return 0;
    printf("the bench station, %u resources and %u devices\n", bench.resource_count, bench.device_count);
    if (!start(&boards[0], bench_names, &bench, SAILGARNET_TABLE_VERSION_1) ||
        !start(&boards[1], bench_names, &bench, SAILGARNET_TABLE_VERSION_2))
        return 0;
    for (size_t i = 0; i < sizeof day / sizeof day[0]; i++) {
        printf("%s\n", day[i].title);
        if (!ask(&boards[0], &day[i]) || !ask(&boards[1], &day[i]) || !agree(&boards[0], &boards[1]))
            return 0;
    }
    return 1;
}

/* Version 1 is tried first; version 2 has room for the line. */
static int line_with_two_cameras(void)
{
    static const struct request day[] = {
        {"right camera to D3cold", SAILGARNET_MOVE, RIGHT, SAILGARNET_D3COLD, 0},
        {"right camera to D0", SAILGARNET_MOVE, RIGHT, SAILGARNET_D0, 0},
        {"sleep entry for S3", SAILGARNET_SLEEP, 0, 3, 0},
    };
    static struct board board;
    struct description line;

    describe_line(&line);
    printf("the line with two cameras, %u resources and %u devices\n", line.resource_count, line.device_count);
    if (!start(&board, line_names, &line, SAILGARNET_TABLE_VERSION_1) && !start(&board, line_names, &line, SAILGARNET_TABLE_VERSION_2))
        return 0;
    for (size_t i = 0; i < sizeof day / sizeof day[0]; i++) {
        printf("%s\n", day[i].title);
        if (!ask(&board, &day[i]))
            return 0;
    }
    return 1;
}

int main(void)
{
    return bench_station() && line_with_two_cameras() ? 0 : 1;
}
