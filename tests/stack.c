/*
 * The stack that the exported functions use for tables of each version, on the bench station, on a table of full size, on refusals at each
 * stage and on long lists. Each call runs on a stack of its own, filled with one byte value before. What was overwritten, less what an
 * empty function with as many arguments on the stack overwrites, is the call's. Two values are tried, since a function may write the one
 * that was there.
 */
#define _XOPEN_SOURCE 700
#include <stdio.h>
#include <string.h>
#include <ucontext.h>

#include "full.h"

enum { STACK = 64 * 1024, LIMIT = 8192, LONG_LIST = 40000 };

/* The arguments of a call. */
struct input {
    const uint8_t *table;
    size_t table_len;
    struct sailgarnet_sizes sizes; /* of the table */
    uint8_t state[SAILGARNET_ANY_STATE_SIZE];
    size_t state_len;
    uint32_t kind, device, a, b;
    uint8_t plan[SAILGARNET_ANY_SLEEP_PLAN_SIZE];
    size_t plan_len;
    const uint8_t *list;
    size_t list_len;
    uint32_t version;
    uint8_t resources[SAILGARNET_ANY_MAX_RESOURCES_SIZE + 1];
    size_t resources_len;
    uint8_t devices[SAILGARNET_ANY_MAX_DEVICES_SIZE];
    size_t devices_len;
    uint8_t written[SAILGARNET_ANY_MAX_TABLE_SIZE];
    size_t written_len;
};

static struct input in;
static uint8_t table[SAILGARNET_ANY_MAX_TABLE_SIZE]; /* the one that is lent, as it is filled for a test */
static uint64_t answer;
static unsigned char stack[STACK] __attribute__((aligned(64)));
static ucontext_t outside, inside;
static int failures;

static void require(int holds, const char *what)
{
    if (!holds) {
        printf("FAILED: %s\n", what);
        failures++;
    }
}

/* Empty functions; the arguments past the sixth are on the stack. */
static uint64_t __attribute__((noinline)) empty_of_6(const uint8_t *one, size_t one_len, const uint8_t *other, size_t other_len,
                                                     const uint8_t *third, size_t third_len)
{
    __asm__ volatile("" : : "r"(one), "r"(other), "r"(third) : "memory");
    return one_len + other_len + third_len;
}

static uint64_t __attribute__((noinline)) empty_of_7(uint32_t version, const uint8_t *resources, size_t resources_len,
                                                     const uint8_t *devices, size_t devices_len, uint8_t *table, size_t table_len)
{
    __asm__ volatile("" : : "r"(resources), "r"(devices), "r"(table) : "memory");
    return version + resources_len + devices_len + table_len;
}

static uint64_t __attribute__((noinline)) empty_of_10(const uint8_t *table, size_t table_len, uint8_t *state, size_t state_len,
                                                      uint32_t kind, uint32_t device, uint32_t a, uint32_t b, uint8_t *plan,
                                                      size_t plan_len)
{
    __asm__ volatile("" : : "r"(table), "r"(state), "r"(plan) : "memory");
    return table_len + state_len + kind + device + a + b + plan_len;
}

/* A function that is known to use much. */
static uint64_t __attribute__((noinline)) large(size_t size)
{
    volatile unsigned char buffer[3000];

    for (size_t i = 0; i < sizeof buffer; i++)
        buffer[i] = (unsigned char)(i + size);
    return buffer[size % sizeof buffer];
}

static void run_empty_of_6(void)
{
    answer = empty_of_6(in.table, in.table_len, in.resources, in.resources_len, in.devices, in.devices_len);
}
static void run_empty_of_7(void)
{
    answer = empty_of_7(in.version, in.resources, in.resources_len, in.devices, in.devices_len, in.written, in.written_len);
}
static void run_empty_of_10(void)
{
    answer = empty_of_10(in.table, in.table_len, in.state, in.state_len, in.kind, in.device, in.a, in.b, in.plan, in.plan_len);
}
static void run_large(void) { answer = large(in.table_len); }
static void run_fresh(void) { answer = sailgarnet_fresh(in.table, in.table_len, in.state, in.state_len); }
static void run_plan(void)
{
    answer = sailgarnet_plan(in.table, in.table_len, in.state, in.state_len, in.kind, in.device, in.a, in.b, in.plan, in.plan_len);
}
static void run_check(void)
{
    answer = sailgarnet_check(in.table, in.table_len, in.state, in.state_len, in.kind, in.device, in.a, in.b, in.list, in.list_len);
}
static void run_bring_up(void)
{
    answer = sailgarnet_bring_up(in.table, in.table_len, in.state, in.state_len, in.plan, in.plan_len);
}
static void run_check_bring_up(void)
{
    answer = sailgarnet_check_bring_up(in.table, in.table_len, in.state, in.state_len, in.list, in.list_len);
}
static void run_write(void)
{
    answer = sailgarnet_write(in.version, in.resources, in.resources_len, in.devices, in.devices_len, in.written, in.written_len);
}
static void run_describe(void)
{
    answer = sailgarnet_describe(in.table, in.table_len, in.resources, in.resources_len, in.devices, in.devices_len);
}

/* What is measured, and the empty one with as many arguments on the stack. */
struct function {
    const char *name;
    void (*run)(void), (*run_empty)(void);
};

/* A planner is followed by its checker. */
enum { FRESH, PLAN, CHECK, BRING_UP, CHECK_BRING_UP, WRITE, DESCRIBE, LARGE };
static const struct function functions[] = {
    [FRESH] = {"fresh", run_fresh, run_empty_of_6},
    [PLAN] = {"plan", run_plan, run_empty_of_10},
    [CHECK] = {"check", run_check, run_empty_of_10},
    [BRING_UP] = {"bring_up", run_bring_up, run_empty_of_6},
    [CHECK_BRING_UP] = {"check_bring_up", run_check_bring_up, run_empty_of_6},
    [WRITE] = {"write", run_write, run_empty_of_7},
    [DESCRIBE] = {"describe", run_describe, run_empty_of_6},
    [LARGE] = {"large", run_large, run_empty_of_6},
};

/* How many bytes of the stack a run overwrites, with this value in them before. The input is as before afterwards. */
static size_t overwritten(void (*run)(void), unsigned char value)
{
    struct input before = in;
    size_t untouched = 0;

    memset(stack, value, sizeof stack);
    getcontext(&inside);
    inside.uc_stack.ss_sp = stack;
    inside.uc_stack.ss_size = sizeof stack;
    inside.uc_link = &outside;
    makecontext(&inside, run, 0);
    swapcontext(&outside, &inside);
    in = before;
    while (untouched < sizeof stack && stack[untouched] == value)
        untouched++;
    return sizeof stack - untouched;
}

static size_t deepest(void (*run)(void))
{
    size_t first = overwritten(run, 0xa5), second = overwritten(run, 0x3c);

    return first > second ? first : second;
}

/* The bytes of a function alone, whose answer is kept. */
static size_t used(int function)
{
    size_t harness = deepest(functions[function].run_empty), whole = deepest(functions[function].run);

    return whole > harness ? whole - harness : 0;
}

/* Measures one call, which must give the answer number that its title says. */
static void measure(int function, const char *title, unsigned number)
{
    size_t bytes = used(function);

    printf("| %s | %u | %s | %u | %zu |\n", functions[function].name, in.sizes.version, title, sailgarnet_number_of(answer), bytes);
    if (sailgarnet_number_of(answer) != number || bytes >= LIMIT) {
        printf("FAILED: answer %u was expected, and less than %d bytes\n", number, LIMIT);
        failures++;
    }
}

/* A title with a number in it, good until the next one. */
static const char *titled(const char *format, unsigned number)
{
    static char title[80];

    snprintf(title, sizeof title, format, number);
    return title;
}

/* Measures a planner and its checker. */
static void both(int planner, const char *title, unsigned number)
{
    measure(planner, title, number);
    measure(planner + 1, title, number);
}

/* Measures what is lent a table and a state, for requests and for bring-up. */
static void all_four(const char *title, unsigned number)
{
    both(PLAN, title, number);
    both(BRING_UP, title, number);
}

/* A request, and a plan that has room for it. */
static void request(uint32_t kind, uint32_t device, uint32_t a, uint32_t b)
{
    in.kind = kind;
    in.device = device;
    in.a = a;
    in.b = b;
    in.plan_len = room_for(&in.sizes, kind);
}

/* Runs what must be done before another call is measured. */
static void prepare(void (*run)(void))
{
    run();
    require(sailgarnet_number_of(answer) == SAILGARNET_DONE, "a call that prepares another is refused");
}

/* Lends the table, its fresh state and its description, and no list. */
static void lend(size_t table_len)
{
    memset(&in, 0, sizeof in);
    in.table = table;
    in.table_len = table_len;
    in.sizes = sailgarnet_sizes_of(table, table_len);
    in.state_len = in.sizes.state;
    in.plan_len = in.sizes.plan;
    in.version = in.sizes.version;
    in.resources_len = SAILGARNET_DESCRIBED_RESOURCE_SIZE * (size_t)sailgarnet_resource_count(table);
    in.devices_len = SAILGARNET_DESCRIBED_DEVICE_SIZE * (size_t)sailgarnet_device_count(table);
    in.written_len = table_len;
    prepare(run_describe);
    prepare(run_fresh);
}

/* Carries out a request, so that the next one starts from there. */
static void walk(uint32_t kind, uint32_t device, uint32_t a, uint32_t b)
{
    request(kind, device, a, b);
    prepare(run_plan);
}

/* Lends a planner's own list from what is lent. */
static void own_list(int planner)
{
    static uint8_t list[SAILGARNET_ANY_PLAN_SIZE];
    struct input before = in;

    prepare(functions[planner].run);
    memcpy(list, in.plan, sizeof list);
    in = before;
    in.list = list;
    in.list_len = 4 * (size_t)sailgarnet_count_of(answer);
}

/* A request, with the planner's own list for its checker. */
static void measure_request(const char *title, uint32_t kind, uint32_t device, uint32_t a, uint32_t b)
{
    request(kind, device, a, b);
    own_list(PLAN);
    both(PLAN, title, 0);
}

/* Bring-up with this on-set, which has so many calls. The state is as before afterwards. */
static void measure_bring_up(const char *title, uint64_t on, unsigned count)
{
    uint64_t before = sailgarnet_on_read_for(in.table, in.table_len, in.state);

    sailgarnet_on_write_for(in.table, in.table_len, in.state, on);
    own_list(BRING_UP);
    require(sailgarnet_count_of(answer) == count, "this bring-up has another number of calls");
    both(BRING_UP, title, 0);
    sailgarnet_on_write_for(in.table, in.table_len, in.state, before);
}

static void bench_station(uint32_t version)
{
    lend(fill_station(table, version));
    measure(FRESH, "bench", 0);
    measure(DESCRIBE, "bench", 0);
    measure(WRITE, "bench", 0);
    walk(SAILGARNET_MOVE, 2, SAILGARNET_D3COLD, 0);
    measure_request("bench W4", SAILGARNET_MOVE, 1, SAILGARNET_D3HOT, 0);
    walk(SAILGARNET_MOVE, 1, SAILGARNET_D3HOT, 0);
    measure_request("bench W5", SAILGARNET_MOVE, 1, SAILGARNET_D0, 0);
    measure_bring_up("bench, 3 calls", 1u << 1 | 1u << 2, 3);
}

/* All but the last device in D0, every fourth one armed. Returns the number of the last one. */
static unsigned lend_full(uint32_t version)
{
    unsigned last;

    lend(fill_full_table(table, version));
    last = in.sizes.max_devices - 1;
    for (unsigned d = 3; d < last; d += 4)
        walk(SAILGARNET_ARM, d, 3, SAILGARNET_D3HOT);
    return last;
}

/* The last device has all but 8 resources for itself. */
static void full_table(uint32_t version)
{
    unsigned last = lend_full(version), all = in.sizes.max_resources, own = all - 8;

    measure(FRESH, "full", 0);
    measure(DESCRIBE, "full", 0);
    measure(WRITE, "full", 0);
    measure_request(titled("full, %u calls to D3cold", own + 1), SAILGARNET_MOVE, last, SAILGARNET_D3COLD, 0);
    measure_bring_up(titled("full, %u to turn on", all), 0, all);
    walk(SAILGARNET_MOVE, last, SAILGARNET_D3COLD, 0);
    measure_request(titled("full, %u calls to D0", own + 1), SAILGARNET_MOVE, last, SAILGARNET_D0, 0);
    measure_request("full, arming again", SAILGARNET_ARM, 3, 4, SAILGARNET_D3COLD);
    measure_request("full, disarming", SAILGARNET_DISARM, 3, 0, 0);
    measure_bring_up(titled("full, 8 to turn on and %u off", own), ~all_of(8), all);
}

static void refused_tables_and_states(uint32_t version)
{
    static const uint8_t deeper_than_wake[] = {SAILGARNET_D1, 1, 3, SAILGARNET_D0};
    unsigned last = lend_full(version);
    size_t length = in.table_len;

    in.table_len = 0;
    measure(FRESH, "empty table", 1);
    measure(DESCRIBE, "empty table", 1);
    all_four("empty table", 1);
    in.table_len = length;
    table[length - 1] = 1;
    measure(FRESH, "table, last field", 5);
    measure(DESCRIBE, "table, last field", 5);
    all_four("table, last field", 5);
    table[length - 1] = 0;
    in.state_len--;
    measure(FRESH, titled("state of %u bytes", (unsigned)in.state_len), 7);
    all_four(titled("state of %u bytes", (unsigned)in.state_len), 7);
    in.state_len++;
    memcpy(in.state + 4 * last, deeper_than_wake, sizeof deeper_than_wake);
    all_four("consistency, last device", 8);
}

static void refused_requests_and_lists(uint32_t version)
{
    static uint8_t list[LONG_LIST];
    unsigned last = lend_full(version);

    request(0, 0, 0, 0);
    both(PLAN, "request, kind", 10);
    request(SAILGARNET_MOVE, 0, SAILGARNET_D3COLD, 0);
    both(PLAN, "request, child", 14);
    request(SAILGARNET_ARM, last, 4, SAILGARNET_D3COLD);
    in.plan_len--;
    measure(PLAN, "room", 9);
    measure(BRING_UP, "room", 9);
    in.list = list;
    in.list_len = sizeof list;
    measure(CHECK, "list of 10000 words", 19);
    measure(CHECK_BRING_UP, "list of 10000 words", 19);
    in.list_len--;
    measure(CHECK, "list of 39999 bytes", 19);
    measure(CHECK_BRING_UP, "list of 39999 bytes", 19);
}

/* What is refused stays, since what is refused after it is looked at before it. */
static void refused_descriptions(uint32_t version)
{
    struct sailgarnet_resource resource;
    struct sailgarnet_device device;
    unsigned last;

    lend(fill_full_table(table, version));
    last = in.sizes.max_devices - 1; /* the last resource too */
    in.devices_len--;
    measure(DESCRIBE, "room", 9);
    measure(WRITE, "last device cut short", 5);
    in.devices_len++;
    device = sailgarnet_device_read(in.devices, last);
    device.ps = 1;
    sailgarnet_device_write(in.devices, last, &device);
    measure(WRITE, "objects, last device", 6);
    resource = sailgarnet_resource_read(in.resources, last);
    resource.systemlevel = 5;
    sailgarnet_resource_write(in.resources, last, &resource);
    measure(WRITE, "last resource", 4);
    in.written_len--;
    measure(WRITE, "room", 9);
    in.resources_len++;
    measure(WRITE, titled("%u resources", in.sizes.max_resources + 1), 2);
    in.version = 3;
    measure(WRITE, "no such version", 1);
}

/* Sleep entry for S3, which has so many calls. */
static void measure_sleep_entry(const char *title, unsigned count)
{
    request(SAILGARNET_SLEEP, 0, 3, 0);
    measure(PLAN, title, 0);
    require(sailgarnet_count_of(answer) == count, "this sleep entry has another number of calls");
}

/* The bench station; then as many devices as there can be, which all move, and refusals at each stage past 8. */
static void sleep_entries(uint32_t version)
{
    unsigned devices;

    lend(fill_station(table, version));
    walk(SAILGARNET_ARM, 1, 3, SAILGARNET_D2);
    measure_sleep_entry("bench, sleep entry, 2 moves", 2);
    request(SAILGARNET_SLEEP, 0, 4, 0);
    measure(PLAN, "bench, sleep entry, armed for S3", 20);
    walk(SAILGARNET_SLEEP, 0, 3, 0);
    sailgarnet_on_write_for(in.table, in.table_len, in.state, 7);
    measure_sleep_entry("bench, sleep entry, none moves", 1);
    lend(fill_sleep_table(table, version));
    devices = in.sizes.max_devices;
    measure_sleep_entry(titled("full, sleep entry, %u moves", devices), 3 * devices);
    in.plan_len--;
    measure(PLAN, "full, sleep entry, room", 9);
    request(SAILGARNET_SLEEP, 0, 5, 0);
    both(PLAN, "full, sleep entry, S5", 10);
    walk(SAILGARNET_ARM, devices - 1, 3, SAILGARNET_D3HOT);
    request(SAILGARNET_SLEEP, 0, 4, 0);
    measure(PLAN, "full, sleep entry, last device armed for S3", 20);
    walk(SAILGARNET_ARM, 0, 3, SAILGARNET_D3COLD);
    request(SAILGARNET_SLEEP, 0, 3, 0);
    measure(PLAN, "full, sleep entry, no choice", 21);
}

/* The measurement itself: a buffer of 3000 bytes must be seen, and not much more. */
static void control(void)
{
    size_t bytes = used(LARGE);

    if (bytes < 3000 || bytes > 3000 + 256) {
        printf("FAILED: a function with a buffer of 3000 bytes was measured as %zu\n", bytes);
        failures++;
    }
}

static void each_of(uint32_t version)
{
    bench_station(version);
    full_table(version);
    refused_tables_and_states(version);
    refused_requests_and_lists(version);
    refused_descriptions(version);
    sleep_entries(version);
}

int main(void)
{
    printf("| function | version | input | answer | stack bytes |\n|---|---|---|---|---|\n");
    each_of(SAILGARNET_TABLE_VERSION_1);
    each_of(SAILGARNET_TABLE_VERSION_2);
    control();
    return failures != 0;
}
