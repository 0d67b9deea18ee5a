/*
 * No exported function touches a byte beside what it is lent. Every lent buffer ends exactly at a page that may not be touched, and in a
 * second run starts exactly after one. Each call must answer and write what the same call does in ordinary memory, leave what it only
 * reads and what is past its output, and on a refusal leave every byte. What write wrote must be described as what it was lent, and what
 * describe described must be written as the table that it was lent. What bring_up planned must pass its checker, and the state after it
 * have its entries as before and exactly what they need on. A sleep entry must have the calls of its moves, each as it is planned alone and
 * passed by the checker, and leave exactly what is needed on and nothing for a second one. All this for tables of each version.
 */
#define _DEFAULT_SOURCE
#include <setjmp.h>
#include <signal.h>
#include <stdio.h>
#include <stdlib.h>
#include <string.h>
#include <sys/mman.h>
#include <unistd.h>

#include "full.h"

enum { PAGE = 4096, RESOURCE = SAILGARNET_DESCRIBED_RESOURCE_SIZE, DEVICE = SAILGARNET_DESCRIBED_DEVICE_SIZE };
/* The bytes between two forbidden pages: the plan of a sleep entry has more than four pages, in version 1 more than one. */
enum { OPEN = 5 * PAGE };
/* The functions, and two that touch the byte before and the byte past a buffer, to see that both are caught. */
enum function { FRESH, PLAN, CHECK, BRING_UP, CHECK_BRING_UP, WRITE, DESCRIBE, FUNCTIONS, BEFORE = FUNCTIONS, PAST, TOUCHES };
/* What is lent; ROOM is for a plan. Bring-up has a state of its own, REPORTED, and its checker a list of its own, SWITCHING. */
enum { TABLE, STATE, REPORTED, ROOM, LIST, SWITCHING, RESOURCES, DEVICES, LENT };
enum { AT_END, AT_START, PLACES };
/* What a function does with a buffer; it fills one without reading it. */
enum use { NONE, READS, CHANGES, FILLS };

static const char *const functions[TOUCHES] = {"sailgarnet_fresh", "sailgarnet_plan", "sailgarnet_check", "sailgarnet_bring_up",
                                               "sailgarnet_check_bring_up", "sailgarnet_write", "sailgarnet_describe",
                                               "a touch before", "a touch past"};
static const char *const names[LENT] = {"table", "state", "reported state", "plan", "list", "list of bring-up", "resources", "devices"};
static const char *const places[PLACES] = {"each ending at a forbidden page", "each starting after a forbidden page"};
static const enum use uses[TOUCHES][LENT] = {
    [FRESH] = {[TABLE] = READS, [STATE] = FILLS},
    [PLAN] = {[TABLE] = READS, [STATE] = CHANGES, [ROOM] = FILLS},
    [CHECK] = {[TABLE] = READS, [STATE] = READS, [LIST] = READS},
    [BRING_UP] = {[TABLE] = READS, [REPORTED] = CHANGES, [ROOM] = FILLS},
    [CHECK_BRING_UP] = {[TABLE] = READS, [REPORTED] = READS, [SWITCHING] = READS},
    [WRITE] = {[RESOURCES] = READS, [DEVICES] = READS, [TABLE] = FILLS},
    [DESCRIBE] = {[TABLE] = READS, [RESOURCES] = FILLS, [DEVICES] = FILLS},
    [BEFORE] = {READS, READS, READS, READS, READS, READS, READS, READS},
    [PAST] = {READS, READS, READS, READS, READS, READS, READS, READS},
};
/* The answers that a function can give, bit n for answer n. */
static const uint32_t possible[FUNCTIONS] = {
    [FRESH] = 0xff,             /* 0 to 7 */
    [PLAN] = 0x37ffff,          /* 0 to 18, 20, 21 */
    [CHECK] = 0xffdff,          /* 0 to 8, 10 to 19 */
    [BRING_UP] = 0x3ff,         /* 0 to 9 */
    [CHECK_BRING_UP] = 0x801ff, /* 0 to 8, 19 */
    [WRITE] = 0x277,            /* 0 to 2, 4 to 6, 9 */
    [DESCRIBE] = 0x27f,         /* 0 to 6, 9 */
};

/* A call. Its bytes are the first of content; what is to be filled holds those of content[ROOM] before. */
static struct call {
    enum function function;
    size_t length[LENT];
    uint32_t kind, device, a, b;
    uint32_t version;              /* to be written */
    struct sailgarnet_sizes sizes; /* of the table, before it is damaged or cut */
    int large;                     /* a table of more than a page: for it fewer pairs of lengths and fewer changes are tried */
    uint8_t *const *empty;         /* where buffers without bytes are, if not at their fence */
} in;
static uint8_t content[LENT][OPEN];
static uint8_t ordinary[LENT][OPEN + 1]; /* at odd addresses too */
static uint8_t *fenced[LENT];
static const char *where = "before any call";
static unsigned long calls[FUNCTIONS];
static uint32_t given[FUNCTIONS]; /* those that it gave */
static sigjmp_buf back;
static volatile sig_atomic_t inside;
static uint8_t *volatile touched;

static enum use use(int i) { return uses[in.function][i]; }
static int lends(int i) { return use(i) != NONE; }
static int is_state(int i) { return i == STATE || i == REPORTED; }
static int is_list(int i) { return i == LIST || i == SWITCHING; }

static void fail(const char *what)
{
    printf("FAILED: %s with", functions[in.function]);
    for (int i = 0; i < LENT; i++)
        if (lends(i))
            printf(" %s of %zu bytes,", names[i], in.length[i]);
    if (in.empty != NULL)
        printf(" empty ones at %p,", (void *)*in.empty);
    if (in.function == PLAN || in.function == CHECK)
        printf(" request %u %u %u %u,", in.kind, in.device, in.a, in.b);
    if (in.function == WRITE)
        printf(" version %u,", in.version);
    printf(" %s: %s\n", where, what);
    exit(1);
}

static void require(int holds, const char *what)
{
    if (!holds) {
        printf("FAILED: %s\n", what);
        exit(1);
    }
}

/* A fault in a function comes back to its call; one of this program itself ends it. */
static void on_fault(int number, siginfo_t *info, void *context)
{
    (void)context;
    if (!inside) {
        signal(number, SIG_DFL);
        return;
    }
    touched = info->si_addr;
    siglongjmp(back, 1);
}

static void fail_touched(uint8_t *const at[LENT])
{
    char what[80];

    snprintf(what, sizeof what, "it touched %p, which is in no buffer", (void *)touched);
    for (int i = 0; i < LENT; i++)
        if (lends(i) && touched >= fenced[i] - PAGE && touched < fenced[i] + OPEN + PAGE)
            snprintf(what, sizeof what, "it touched byte %ld of the %s", (long)(touched - at[i]), names[i]);
    fail(what);
}

static uint64_t call(uint8_t *const at[LENT])
{
    const size_t *length = in.length;

    switch (in.function) {
    case FRESH:
        return sailgarnet_fresh(at[TABLE], length[TABLE], at[STATE], length[STATE]);
    case PLAN:
        return sailgarnet_plan(at[TABLE], length[TABLE], at[STATE], length[STATE], in.kind, in.device, in.a, in.b, at[ROOM], length[ROOM]);
    case CHECK:
        return sailgarnet_check(at[TABLE], length[TABLE], at[STATE], length[STATE], in.kind, in.device, in.a, in.b, at[LIST], length[LIST]);
    case BRING_UP:
        return sailgarnet_bring_up(at[TABLE], length[TABLE], at[REPORTED], length[REPORTED], at[ROOM], length[ROOM]);
    case CHECK_BRING_UP:
        return sailgarnet_check_bring_up(at[TABLE], length[TABLE], at[REPORTED], length[REPORTED], at[SWITCHING], length[SWITCHING]);
    case WRITE:
        return sailgarnet_write(in.version, at[RESOURCES], length[RESOURCES], at[DEVICES], length[DEVICES], at[TABLE], length[TABLE]);
    case DESCRIBE:
        return sailgarnet_describe(at[TABLE], length[TABLE], at[RESOURCES], length[RESOURCES], at[DEVICES], length[DEVICES]);
    case BEFORE:
        return *((volatile uint8_t *)at[in.device] - 1);
    default:
        return *((volatile uint8_t *)at[in.device] + length[in.device]);
    }
}

/* Whether the call came to its end without a fault. */
static int call_guarded(uint8_t *const at[LENT], uint64_t *answer)
{
    if (sigsetjmp(back, 0) != 0) {
        inside = 0;
        return 0;
    }
    inside = 1;
    *answer = call(at);
    inside = 0;
    return 1;
}

static const uint8_t *source(int i) { return content[use(i) == FILLS ? ROOM : i]; }

static int same(const uint8_t *one, const uint8_t *other, size_t length) { return length == 0 || memcmp(one, other, length) == 0; }

/* How many bytes at the front of a buffer a call that is done may change. */
static size_t output(int i, uint64_t answer)
{
    size_t count = sailgarnet_count_of(answer);

    if (use(i) == NONE || use(i) == READS)
        return 0;
    if (is_state(i))
        return in.sizes.state;
    if (i == ROOM)
        return 4 * count;
    if (in.function == WRITE)
        return count;
    return i == RESOURCES ? RESOURCE * (size_t)content[TABLE][3] : DEVICE * (size_t)content[TABLE][6];
}

static void describe_written(size_t count)
{
    static uint8_t resources[PAGE], devices[PAGE];
    const size_t *length = in.length;
    uint64_t answer = sailgarnet_describe(ordinary[TABLE], count, resources, length[RESOURCES], devices, length[DEVICES]);

    if (sailgarnet_number_of(answer) != SAILGARNET_DONE || sailgarnet_count_of(answer) != length[RESOURCES] + length[DEVICES] ||
        !same(resources, content[RESOURCES], length[RESOURCES]) || !same(devices, content[DEVICES], length[DEVICES]))
        fail("what it wrote is not described as what it was lent");
}

static void write_described(size_t count, size_t resources_len, size_t devices_len)
{
    static uint8_t table[OPEN];
    size_t length = in.length[TABLE];
    uint64_t answer = sailgarnet_write(in.sizes.version, ordinary[RESOURCES], resources_len, ordinary[DEVICES], devices_len, table, length);

    if (count != resources_len + devices_len || answer != (uint64_t)length << 8 || !same(table, content[TABLE], length))
        fail("what it described is not written as what it was lent");
}

/* A move to the present state has no calls exactly if what is on is what is needed. */
static void check_brought_up(size_t count)
{
    const uint8_t *table = content[TABLE], *before = content[REPORTED], *after = ordinary[REPORTED], *list = ordinary[ROOM];
    size_t length = in.length[TABLE], state_len = in.sizes.state;

    if (sailgarnet_check_bring_up(table, length, before, state_len, list, 4 * count) != SAILGARNET_DONE)
        fail("its checker refuses its list");
    if (!same(before, after, in.sizes.entries))
        fail("it changed device entries");
    if (sailgarnet_check_bring_up(table, length, after, state_len, list, 0) != SAILGARNET_DONE)
        fail("another bring-up would have calls");
    if (sailgarnet_device_count(table) > 0 &&
        sailgarnet_check(table, length, after, state_len, SAILGARNET_MOVE, 0, after[0], 0, list, 0) != SAILGARNET_DONE)
        fail("what is on is not what is needed");
}

/* The bytes of the move of a device to its state after a sleep entry, planned alone; `state` moves on. The calls must begin with them. */
static size_t check_move(uint8_t *state, unsigned d, const uint8_t *calls)
{
    uint8_t before[SAILGARNET_ANY_STATE_SIZE], plan[SAILGARNET_ANY_PLAN_SIZE];
    const uint8_t *table = content[TABLE];
    size_t length = in.length[TABLE], state_len = in.sizes.state, bytes;
    uint32_t target = ordinary[STATE][4 * d];
    uint64_t answer;

    memcpy(before, state, state_len);
    answer = sailgarnet_plan(table, length, state, state_len, SAILGARNET_MOVE, d, target, 0, plan, in.sizes.plan);
    bytes = 4 * (size_t)sailgarnet_count_of(answer);
    if (sailgarnet_number_of(answer) != SAILGARNET_DONE || !same(calls, plan, bytes))
        fail("its calls are not those of its moves");
    if (sailgarnet_check(table, length, before, state_len, SAILGARNET_MOVE, d, target, 0, calls, bytes) != SAILGARNET_DONE)
        fail("the checker refuses a move");
    return bytes;
}

/* If no device moves, the calls are those of a bring-up: in a consistent state it only turns off. */
static void check_slept(size_t count)
{
    const uint8_t *table = content[TABLE], *before = content[STATE], *after = ordinary[STATE], *calls = ordinary[ROOM];
    uint8_t state[SAILGARNET_ANY_STATE_SIZE], plan[SAILGARNET_ANY_SLEEP_PLAN_SIZE];
    size_t length = in.length[TABLE], state_len = in.sizes.state, bytes = 0;

    memcpy(state, before, state_len);
    for (unsigned d = sailgarnet_device_count(table); d-- > 0;) {
        if (after[4 * d] != before[4 * d])
            bytes += check_move(state, d, calls + bytes);
        if (after[4 * d + 1] && (after[4 * d] != after[4 * d + 3] || after[4 * d + 2] != in.a))
            fail("an armed device cannot wake the system");
    }
    if (!same(state, after, in.sizes.entries))
        fail("it changed more than the states of devices");
    if (same(before, after, in.sizes.entries)) {
        if (sailgarnet_check_bring_up(table, length, before, state_len, calls, 4 * count) != SAILGARNET_DONE)
            fail("without a move, it does not turn off what is not needed");
    } else if (bytes != 4 * count || !same(state, after, state_len)) {
        fail("it does more than its moves");
    }
    if (sailgarnet_check_bring_up(table, length, after, state_len, calls, 0) != SAILGARNET_DONE)
        fail("what is on is not what is needed");
    memcpy(state, after, state_len);
    if (sailgarnet_plan(table, length, state, state_len, SAILGARNET_SLEEP, 0, in.a, 0, plan, in.sizes.sleep_plan) != SAILGARNET_DONE)
        fail("another sleep entry would have calls");
}

/* Whether a call can be done with a buffer of this length: a state image, room for any plan, whole calls. */
static int good_length(int i)
{
    size_t length = in.length[i];

    if (is_state(i))
        return length == in.sizes.state;
    if (i == ROOM)
        return length >= (in.function == PLAN ? room_for(&in.sizes, in.kind) : in.sizes.plan);
    return !is_list(i) || length % 4 == 0;
}

/* The answer is one that the function can give, and all is as it was but the output of a call that is done. */
static void judge(uint64_t answer)
{
    unsigned number = sailgarnet_number_of(answer);
    int done = number == SAILGARNET_DONE;

    if (number >= 32 || !(possible[in.function] >> number & 1))
        fail("it cannot give this answer");
    if (done ? sailgarnet_place_of(answer) != 0 : sailgarnet_count_of(answer) != 0)
        fail("a call that is done has no place, and a refusal no count");
    for (int i = 0; i < LENT; i++) {
        size_t front = done ? output(i, answer) : 0;
        if (lends(i) && done && !good_length(i))
            fail("it cannot be done with a buffer of this length");
        if (lends(i) && front > in.length[i])
            fail("its output is longer than what it was lent");
        if (lends(i) && !same(ordinary[i] + front, source(i) + front, in.length[i] - front))
            fail("it changed bytes that it must leave");
    }
    if (done && in.function == PLAN && in.kind == SAILGARNET_SLEEP)
        check_slept(sailgarnet_count_of(answer));
    if (done && in.function == BRING_UP)
        check_brought_up(sailgarnet_count_of(answer));
    if (done && in.function == WRITE)
        describe_written(sailgarnet_count_of(answer));
    if (done && in.function == DESCRIBE)
        write_described(sailgarnet_count_of(answer), output(RESOURCES, answer), output(DEVICES, answer));
    given[in.function] |= UINT32_C(1) << number;
}

/* The call in ordinary memory, which holds afterwards what is to be found at the fences too. */
static uint64_t call_ordinary(void)
{
    uint8_t *at[LENT];
    uint64_t answer = 0;

    for (int i = 0; i < LENT; i++)
        at[i] = memcpy(ordinary[i], source(i), lends(i) ? in.length[i] : 0);
    where = "in ordinary memory";
    if (!call_guarded(at, &answer))
        fail_touched(at);
    judge(answer);
    return answer;
}

static void lend(int place, uint8_t *at[LENT])
{
    where = places[place];
    for (int i = 0; i < LENT; i++) {
        at[i] = fenced[i] + (place == AT_END ? OPEN - in.length[i] : 0);
        if (!lends(i))
            continue;
        if (in.length[i] > 0)
            memcpy(at[i], source(i), in.length[i]);
        else if (in.empty != NULL)
            at[i] = *in.empty;
    }
}

/* The call at both fences, beside itself in ordinary memory. */
static uint64_t compare(void)
{
    uint64_t expected = call_ordinary(), answer = 0;
    uint8_t *at[LENT];

    for (int place = 0; place < PLACES; place++) {
        lend(place, at);
        if (!call_guarded(at, &answer))
            fail_touched(at);
        if (answer != expected)
            fail("its answer is not that in ordinary memory");
        for (int i = 0; i < LENT; i++)
            if (lends(i) && !same(at[i], ordinary[i], in.length[i]))
                fail("the bytes after it are not those in ordinary memory");
        calls[in.function]++;
    }
    return expected;
}

/* Each function that is lent a buffer. All are lent a table. */
static void compare_lent(int i)
{
    for (in.function = FRESH; in.function < FUNCTIONS; in.function++)
        if (lends(i))
            compare();
}

/* Each function that reads a buffer. */
static void compare_readers(int i)
{
    for (in.function = FRESH; in.function < FUNCTIONS; in.function++)
        if (use(i) == READS || use(i) == CHANGES)
            compare();
}

/* A request, and a plan that has room for it. */
static void request(uint32_t kind, uint32_t device, uint32_t a, uint32_t b)
{
    in.kind = kind;
    in.device = device;
    in.a = a;
    in.b = b;
    in.length[ROOM] = room_for(&in.sizes, kind);
}

/* The lengths that are tried beside others are so many: those of a state or a plan are among them, and some more. */
static size_t longest(void) { return in.sizes.state + 68; }

/* Lends a checker the calls of a plan; they again follow the list. Of a refusal the list is empty. */
static void lend_list(int i, const uint8_t *plan, uint64_t answer)
{
    size_t length = 4 * (size_t)sailgarnet_count_of(answer);

    for (size_t k = 0; length > 0 && (k < longest() || k < length); k++)
        content[i][k] = plan[k % length];
    in.length[i] = length;
}

/* Lends bring-up the entries of the state in content with this on-set, and its checker the list that it gives. */
static void report(uint64_t on)
{
    uint8_t state[SAILGARNET_ANY_STATE_SIZE], plan[SAILGARNET_ANY_PLAN_SIZE];
    size_t length = in.length[TABLE], state_len = in.sizes.state;

    memcpy(state, content[STATE], state_len);
    sailgarnet_on_write_for(content[TABLE], length, state, on);
    memcpy(content[REPORTED], state, state_len);
    lend_list(SWITCHING, plan, sailgarnet_bring_up(content[TABLE], length, state, state_len, plan, in.sizes.plan));
}

/* The on-set of the state in content. */
static uint64_t on(void) { return sailgarnet_on_read_for(content[TABLE], in.length[TABLE], content[STATE]); }

/* The table in content, of this length, its description, and its fresh state, for bring-up too. */
static void begin(size_t length)
{
    uint64_t answer;

    memset(&in, 0, sizeof in);
    in.sizes = sailgarnet_sizes_of(content[TABLE], length);
    in.large = length > PAGE;
    in.length[TABLE] = length;
    in.length[STATE] = in.length[REPORTED] = in.sizes.state;
    in.length[ROOM] = in.sizes.plan;
    in.length[RESOURCES] = RESOURCE * (size_t)content[TABLE][3];
    in.length[DEVICES] = DEVICE * (size_t)content[TABLE][6];
    in.version = in.sizes.version;
    answer = sailgarnet_describe(content[TABLE], length, content[RESOURCES], PAGE, content[DEVICES], PAGE);
    if (sailgarnet_number_of(answer) != SAILGARNET_DONE ||
        sailgarnet_fresh(content[TABLE], length, content[STATE], in.sizes.state) != SAILGARNET_DONE)
        fail("the table of the test is refused");
    report(on());
}

static void begin_station(uint32_t version) { begin(fill_station(content[TABLE], version)); }

/* Plans the request for the table in content. */
static uint64_t plan_for(uint8_t *state, uint8_t *plan)
{
    return sailgarnet_plan(content[TABLE], in.length[TABLE], state, in.sizes.state, in.kind, in.device, in.a, in.b, plan, in.length[ROOM]);
}

/* Carries out a request, so that the next one starts from there. */
static void walk(uint32_t kind, uint32_t device, uint32_t a, uint32_t b)
{
    uint8_t plan[SAILGARNET_ANY_SLEEP_PLAN_SIZE];

    request(kind, device, a, b);
    if (sailgarnet_number_of(plan_for(content[STATE], plan)) != SAILGARNET_DONE)
        fail("the state of the test cannot be reached");
}

/* Lends the checker the planner's own list for a request. */
static void ask(uint32_t kind, uint32_t device, uint32_t a, uint32_t b)
{
    uint8_t state[SAILGARNET_ANY_STATE_SIZE], plan[SAILGARNET_ANY_SLEEP_PLAN_SIZE];

    request(kind, device, a, b);
    memcpy(state, content[STATE], in.sizes.state);
    lend_list(LIST, plan, plan_for(state, plan));
}

/* The shortest length that is tried beside others: zero, but for a plan of sleep entry one that is near its room. */
static size_t shortest(int i) { return i == ROOM && in.kind == SAILGARNET_SLEEP ? in.sizes.sleep_plan - 100 : 0; }

/* Every such length of a lent buffer beside every one of another, the third as it is; with a large table every fourth one. */
static void pairs_of_lengths(int one, int other)
{
    struct call before = in;
    size_t step = in.large ? 4 : 1;

    for (in.length[one] = shortest(one); in.length[one] <= shortest(one) + longest(); in.length[one] += step)
        for (in.length[other] = shortest(other); in.length[other] <= shortest(other) + longest(); in.length[other] += step)
            compare();
    in = before;
}

static void lengths_for(enum function function)
{
    in.function = function;
    for (int one = 0; one < LENT; one++)
        for (int other = one + 1; other < LENT; other++)
            if (lends(one) && lends(other))
                pairs_of_lengths(one, other);
}

static void lengths(void)
{
    for (enum function function = FRESH; function < FUNCTIONS; function++)
        lengths_for(function);
}

/* Every length of each lent buffer up to a record more than it has, the others as they are. */
static void single_lengths(void)
{
    for (int i = 0; i < LENT; i++) {
        size_t before = in.length[i];

        for (in.length[i] = 0; in.length[i] <= before + DEVICE; in.length[i]++)
            compare_lent(i);
        in.length[i] = before;
    }
}

/* Every byte of a buffer changed to each other value; with a large table every bit of it. */
static void damage_for(enum function function, int i)
{
    in.function = function;
    for (size_t k = 0; k < in.length[i]; k++)
        for (unsigned change = 1; change < 256; change += in.large ? change : 1) {
            content[i][k] ^= (uint8_t)change;
            compare();
            content[i][k] ^= (uint8_t)change;
        }
}

/* For each function that reads the buffer. */
static void damage(int i)
{
    for (enum function function = FRESH; function < FUNCTIONS; function++)
        if (uses[function][i] == READS || uses[function][i] == CHANGES)
            damage_for(function, i);
}

static void damages(void)
{
    damage(TABLE);
    damage(STATE);
    damage(REPORTED);
    damage(LIST);
    damage(SWITCHING);
}

static void damage_description(void)
{
    damage(RESOURCES);
    damage(DEVICES);
}

/* A version is compared as a whole, and before all else. */
static void versions(void)
{
    static const uint32_t others[] = {0, 3, 255, 256, 257, 258, 65535, 65536, 65537, 65538, 0x1000001, 0x1000002, UINT32_MAX};
    struct call before = in;

    in.function = WRITE;
    for (size_t i = 0; i < sizeof others / sizeof others[0]; i++) {
        in.version = others[i];
        memcpy(in.length, before.length, sizeof in.length);
        if (compare() != SAILGARNET_NOT_A_TABLE)
            fail("there is no such version");
        memset(in.length, 0, sizeof in.length);
        if (compare() != SAILGARNET_NOT_A_TABLE)
            fail("there is no such version, whatever else is lent");
    }
    in = before;
}

static uint32_t other_version(void) { return SAILGARNET_TABLE_VERSION_1 + SAILGARNET_TABLE_VERSION_2 - in.sizes.version; }

/* A state of the other version's size is none of this table's. */
static void states_of_other_version(void)
{
    struct call before = in;

    in.length[STATE] = in.length[REPORTED] = sailgarnet_sizes_of_version(other_version()).state;
    for (in.function = FRESH; in.function < FUNCTIONS; in.function++)
        if ((lends(STATE) || lends(REPORTED)) && compare() != SAILGARNET_BAD_STATE)
            fail("the state has the size of the other version");
    in = before;
}

/* What is described is written as the other version too, into exactly its room. */
static void write_other_version(void)
{
    struct call before = in;

    in.function = WRITE;
    in.version = other_version();
    in.length[TABLE] = table_size(in.version, content[TABLE][3], content[TABLE][6]);
    if (compare() != (uint64_t)in.length[TABLE] << 8)
        fail("it is not written as the other version");
    in.length[TABLE]--;
    if (compare() != SAILGARNET_NO_ROOM)
        fail("there is no room for it as the other version");
    in = before;
}

/* Requests within and beyond every range. */
static void requests(void)
{
    static const uint32_t numbers[] = {0, 1, 2, 3, 4, 5, UINT32_MAX};
    enum { COUNT = sizeof numbers / sizeof numbers[0] };
    uint32_t devices = content[TABLE][6];

    for (int kind = 0; kind < COUNT; kind++)
        for (uint32_t d = 0; d <= devices + 1; d++)
            for (int a = 0; a < COUNT; a++)
                for (int b = 0; b < COUNT; b++) {
                    ask(numbers[kind], d <= devices ? d : UINT32_MAX, numbers[a], numbers[b]);
                    compare_readers(STATE);
                }
}

/* Bring-up with no resource on, with one, with all but one and with all; and with one that there is not. */
static void on_sets(void)
{
    uint64_t all = all_of(sailgarnet_resource_count(content[TABLE]));

    for (unsigned r = 0; r <= in.sizes.max_resources; r++) {
        uint64_t one = all_of(r + 1) & ~all_of(r);

        report(one);
        compare_readers(REPORTED);
        report(all & ~one);
        compare_readers(REPORTED);
    }
}

static int lends_empty(int i) { return lends(i) && in.length[i] == 0; }

/* What the bench station gets where buffers are empty. Without resources, the sets of its bus have one that there is not. */
static unsigned answer_to_empty(void)
{
    if (lends_empty(TABLE))
        return in.function == WRITE ? SAILGARNET_NO_ROOM : SAILGARNET_NOT_A_TABLE;
    if (in.function == WRITE)
        return lends_empty(RESOURCES) && !lends_empty(DEVICES) ? SAILGARNET_BAD_DEVICE : SAILGARNET_DONE;
    if (in.function == DESCRIBE)
        return lends_empty(RESOURCES) || lends_empty(DEVICES) ? SAILGARNET_NO_ROOM : SAILGARNET_DONE;
    if (lends_empty(STATE) || lends_empty(REPORTED))
        return SAILGARNET_BAD_STATE;
    return lends_empty(ROOM) ? SAILGARNET_NO_ROOM : SAILGARNET_DONE;
}

/* Buffers without bytes, in each choice of them, at this address. */
static void empty_at(uint8_t *const *address)
{
    struct call before = in;

    for (unsigned chosen = 1; chosen < 1u << LENT; chosen++) {
        in.empty = address;
        for (int i = 0; i < LENT; i++)
            if (chosen >> i & 1)
                in.length[i] = 0;
        for (in.function = FRESH; in.function < FUNCTIONS; in.function++)
            if (sailgarnet_number_of(compare()) != answer_to_empty())
                fail("another answer was expected for what is empty");
        in = before;
    }
}

/* A request and a bring-up without calls, to which the empty list conforms, so that nothing but the empty buffer decides. */
static void empties(uint32_t version)
{
    uint8_t *addresses[] = {NULL,
                            (uint8_t *)1,
                            (uint8_t *)UINTPTR_MAX,
                            fenced[TABLE] - PAGE,
                            fenced[STATE] - 1,
                            fenced[REPORTED] - 1,
                            fenced[LIST] + OPEN,
                            fenced[SWITCHING] + OPEN,
                            fenced[ROOM] + OPEN + 100,
                            fenced[RESOURCES] + OPEN,
                            fenced[DEVICES] - 1};

    begin_station(version);
    ask(SAILGARNET_MOVE, 2, SAILGARNET_D3COLD, 0);
    for (size_t i = 0; i < sizeof addresses / sizeof addresses[0]; i++)
        empty_at(&addresses[i]);
}

/* What the bench station gets where a buffer is longer than it need be. */
static unsigned answer_to_long(int i)
{
    if (is_state(i))
        return SAILGARNET_BAD_STATE;
    if (use(i) == FILLS)
        return SAILGARNET_DONE;
    return i == TABLE ? SAILGARNET_WRONG_LENGTH : is_list(i) ? SAILGARNET_NOT_CONFORMING : SAILGARNET_TOO_MANY;
}

/*
 * The low bits of the length, or of the number of records, are those of the right one, or zero where a longer buffer is good: a function
 * that looked at them alone would give another answer. The plan of a sleep entry is longer than the shortest of these.
 */
static void long_buffer(uint8_t *vast, int i)
{
    static const unsigned bits[] = {8, 16, 32};
    size_t unit = i == DEVICES ? DEVICE : i == RESOURCES || is_list(i) ? RESOURCE : 1, before = in.length[i];
    size_t low = answer_to_long(i) == SAILGARNET_DONE ? 0 : before;
    uint8_t *at[LENT];
    uint64_t answer = 0;

    for (size_t k = 0; k < sizeof bits / sizeof bits[0]; k++) {
        if (low + (unit << bits[k]) < before)
            continue;
        lend(AT_END, at);
        where = "one longer than it need be";
        at[i] = memcpy(vast, source(i), PAGE);
        in.length[i] = low + (unit << bits[k]);
        if (!call_guarded(at, &answer))
            fail_touched(at);
        if (sailgarnet_number_of(answer) != answer_to_long(i))
            fail("another answer was expected for this length");
        in.length[i] = before;
    }
}

/* All of the long buffer may be read, and its first page be written: no output is longer. */
static void long_buffers(uint32_t version)
{
    size_t size = ((size_t)DEVICE << 32) + PAGE;
    uint8_t *vast = mmap(NULL, size, PROT_READ, MAP_PRIVATE | MAP_ANONYMOUS | MAP_NORESERVE, -1, 0);

    require(vast != MAP_FAILED && mprotect(vast, PAGE, PROT_READ | PROT_WRITE) == 0, "no address space to be had");
    begin_station(version);
    ask(SAILGARNET_MOVE, 1, SAILGARNET_D3HOT, 0);
    report(1u << 1);
    for (in.function = FRESH; in.function < FUNCTIONS; in.function++)
        for (int i = 0; i < LENT; i++)
            if (lends(i))
                long_buffer(vast, i);
    ask(SAILGARNET_SLEEP, 0, 3, 0);
    in.function = PLAN;
    for (int i = 0; i < LENT; i++)
        if (lends(i))
            long_buffer(vast, i);
    munmap(vast, size);
}

static void bench_station(uint32_t version)
{
    begin_station(version);
    versions();
    states_of_other_version();
    write_other_version();
    damage_description();
    requests();
    ask(SAILGARNET_ARM, 1, 4, SAILGARNET_D2);
    report(1u << 1);
    damages();
    walk(SAILGARNET_ARM, 1, 3, SAILGARNET_D2);
    requests();
    begin_station(version);
    walk(SAILGARNET_MOVE, 2, SAILGARNET_D3COLD, 0);
    ask(SAILGARNET_MOVE, 1, SAILGARNET_D3HOT, 0);
    lengths();
    damages();
    walk(SAILGARNET_MOVE, 1, SAILGARNET_D3HOT, 0);
    requests();
    walk(SAILGARNET_MOVE, 0, SAILGARNET_D3HOT, 0);
    requests();
}

/* The camera in D2 and armed, the lamp in D3cold: r2 is to be turned on, and r1 to be turned off. */
static void bench_bring_up(uint32_t version)
{
    begin_station(version);
    walk(SAILGARNET_ARM, 1, 3, SAILGARNET_D2);
    walk(SAILGARNET_MOVE, 1, SAILGARNET_D2, 0);
    walk(SAILGARNET_MOVE, 2, SAILGARNET_D3COLD, 0);
    on_sets();
    report(1u << 0 | 1u << 1);
    lengths();
    damages();
}

/* All but the last device in D0, every fourth one armed; the last one has the most calls. Bring-up has to switch each resource. */
static void full_table(uint32_t version)
{
    unsigned last;

    begin(fill_full_table(content[TABLE], version));
    last = in.sizes.max_devices - 1;
    for (unsigned d = 3; d < last; d += 4)
        walk(SAILGARNET_ARM, d, 3, SAILGARNET_D3HOT);
    requests();
    ask(SAILGARNET_MOVE, last, SAILGARNET_D3COLD, 0);
    on_sets();
    report(0);
    single_lengths();
    lengths();
    damages();
    damage_description();
    walk(SAILGARNET_MOVE, last, SAILGARNET_D3COLD, 0);
    ask(SAILGARNET_MOVE, last, SAILGARNET_D0, 0);
    on_sets();
    report(~all_of(8));
    lengths();
    damage(REPORTED);
    damage(SWITCHING);
}

/* Sleep entry for S3 with each length of what it is lent, and each damage of the state. */
static void sleep_entry(void)
{
    ask(SAILGARNET_SLEEP, 0, 3, 0);
    lengths_for(PLAN);
    damage_for(PLAN, STATE);
}

/* The camera armed for S3 and D2: it and the lamp move. Then none moves, and r1 is to be turned off. */
static void bench_sleep_entry(uint32_t version)
{
    begin_station(version);
    walk(SAILGARNET_ARM, 1, 3, SAILGARNET_D2);
    sleep_entry();
    damage_for(PLAN, TABLE);
    walk(SAILGARNET_SLEEP, 0, 3, 0);
    sailgarnet_on_write_for(content[TABLE], in.length[TABLE], content[STATE], 7);
    sleep_entry();
    damage_for(PLAN, TABLE);
}

/* The longest plan of a sleep entry; then D3cold for the first device and D3hot for the last, which is its descendant. */
static void full_sleep_entry(uint32_t version)
{
    unsigned devices;

    begin(fill_sleep_table(content[TABLE], version));
    devices = in.sizes.max_devices;
    ask(SAILGARNET_SLEEP, 0, 3, 0);
    require(in.length[LIST] == 4 * 3 * (size_t)devices, "this sleep entry has another number of calls");
    single_lengths();
    sleep_entry();
    walk(SAILGARNET_ARM, 0, 3, SAILGARNET_D3COLD);
    walk(SAILGARNET_ARM, devices - 1, 3, SAILGARNET_D3HOT);
    sleep_entry();
}

/* Whole tables of every size. A buffer without bytes is a null pointer. For sleep entry the first device is armed, so that all move. */
static void sizes(uint32_t version)
{
    struct sailgarnet_sizes limits = sailgarnet_sizes_of_version(version);
    uint8_t *nothing = NULL;

    for (unsigned resources = 0; resources <= limits.max_resources; resources++)
        for (unsigned devices = 0; devices <= limits.max_devices; devices++) {
            begin(fill_table(content[TABLE], version, resources, devices));
            in.empty = &nothing;
            ask(SAILGARNET_MOVE, devices - 1, SAILGARNET_D3COLD, 0);
            report(on() & UINT64_C(0xaaaaaaaaaaaaaaaa));
            compare_lent(TABLE);
            if (devices > 0)
                walk(SAILGARNET_ARM, 0, 4, SAILGARNET_D3COLD);
            ask(SAILGARNET_SLEEP, 0, 4, 0);
            in.function = PLAN;
            compare();
        }
}

/* A touch beside a buffer is caught on the side of its fence, and there alone. */
static void control(uint32_t version)
{
    uint8_t *at[LENT];
    uint64_t byte;

    begin_station(version);
    for (int place = 0; place < PLACES; place++)
        for (in.device = 0; in.device < LENT; in.device++)
            for (in.function = BEFORE; in.function <= PAST; in.function++) {
                lend(place, at);
                if (call_guarded(at, &byte) != (place == (in.function == BEFORE ? AT_END : AT_START)))
                    fail("the forbidden page is not where it should be");
            }
}

static void build_fences(void)
{
    struct sigaction action = {0};

    require(sysconf(_SC_PAGESIZE) == PAGE, "the machine's pages have another size");
    for (int i = 0; i < LENT; i++) {
        uint8_t *start = mmap(NULL, OPEN + 2 * PAGE, PROT_NONE, MAP_PRIVATE | MAP_ANONYMOUS, -1, 0);
        require(start != MAP_FAILED, "no pages to be had");
        fenced[i] = start + PAGE;
        require(mprotect(fenced[i], OPEN, PROT_READ | PROT_WRITE) == 0, "no page can be opened");
    }
    for (size_t k = 0; k < OPEN; k++)
        for (int i = 0; i < LENT; i++)
            content[i][k] = (uint8_t)(0xa5 ^ k);
    action.sa_sigaction = on_fault;
    action.sa_flags = SA_SIGINFO | SA_NODEFER;
    sigaction(SIGSEGV, &action, NULL);
    sigaction(SIGBUS, &action, NULL);
}

static void each_of(uint32_t version)
{
    memset(calls, 0, sizeof calls);
    memset(given, 0, sizeof given);
    control(version);
    empties(version);
    long_buffers(version);
    bench_station(version);
    bench_bring_up(version);
    bench_sleep_entry(version);
    full_table(version);
    full_sleep_entry(version);
    sizes(version);
    for (int i = 0; i < FUNCTIONS; i++) {
        require(given[i] == possible[i], "some function never gave one of its answers");
        printf("%s, version %u: %lu calls beside forbidden pages, with each of its answers\n", functions[i], version, calls[i]);
    }
}

int main(void)
{
    build_fences();
    each_of(SAILGARNET_TABLE_VERSION_1);
    each_of(SAILGARNET_TABLE_VERSION_2);
    return 0;
}
