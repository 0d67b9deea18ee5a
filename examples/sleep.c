/*
 * How a board's program prepares for a sleep state: it arms the camera of the bench station to wake the system from S3, then asks for sleep
 * entry. The plan is checked move by move before any call is carried out. Each call is printed in words, with what is on after it.
 * After `make library`:
 *
 *     gcc -Iinclude examples/sleep.c target/staticlib/libsailgarnet.a -o target/sleep && target/sleep
 */
#include <inttypes.h>
#include <stdio.h>
#include <string.h>

#include "sailgarnet.h"
#include "station.h"

enum { BUS, CAMERA, LAMP, DEVICES };
static const char *const devices[DEVICES] = {"bus", "camera", "lamp"};
static const char *const states[5] = {"D0", "D1", "D2", "D3hot", "D3cold"};

struct request {
    const char *title;
    uint32_t kind, device, a, b;
};

static void print_on(uint32_t on)
{
    printf("on:");
    for (unsigned r = 0; r < sailgarnet_resource_count(station); r++)
        if (on >> r & 1)
            printf(" r%u", r);
    printf("\n");
}

/* A real board would run the method here. Returns what is on after it. */
static uint32_t carry_out(const uint8_t *plan, size_t i, uint32_t on)
{
    unsigned target = sailgarnet_call_target(plan, i);
    char words[32] = "";

    switch (sailgarnet_call_kind_of(plan, i)) {
    case SAILGARNET_CALL_ON:
        snprintf(words, sizeof words, "r%u._ON", target);
        on |= UINT32_C(1) << target;
        break;
    case SAILGARNET_CALL_OFF:
        snprintf(words, sizeof words, "r%u._OFF", target);
        on &= ~(UINT32_C(1) << target);
        break;
    case SAILGARNET_CALL_SET_STATE:
        snprintf(words, sizeof words, "%s._PS%u", devices[target], sailgarnet_call_state(plan, i));
        break;
    case SAILGARNET_CALL_SET_WAKE:
        snprintf(words, sizeof words, "%s._DSW %s", devices[target], sailgarnet_call_wake_on(plan, i) ? "on" : "off");
        break;
    }
    printf("    %-16s", words);
    print_on(on);
    return on;
}

static void print_entries(const uint8_t *state)
{
    const char *between = "    now";

    for (unsigned d = 0; d < DEVICES; d++) {
        printf("%s %s %s", between, devices[d], states[state[4 * d]]);
        if (state[4 * d + 1])
            printf(" (armed for S%u, %s)", state[4 * d + 2], states[state[4 * d + 3]]);
        between = ",";
    }
    printf("\n");
}

/*
 * Whether the calls from here on begin with the list of a device's move. Moves the state on, and returns the bytes of the list in *length:
 * as many as the planner gives for the move alone.
 */
static int move_conforms(uint8_t *state, uint32_t device, uint32_t target, const uint8_t *calls, size_t left, size_t *length)
{
    uint8_t own[SAILGARNET_PLAN_SIZE], before[SAILGARNET_STATE_SIZE];
    uint64_t answer;

    memcpy(before, state, sizeof before);
    answer = sailgarnet_plan(station, sizeof station, state, sizeof before, SAILGARNET_MOVE, device, target, 0, own, sizeof own);
    *length = 4 * (size_t)sailgarnet_count_of(answer);
    if (sailgarnet_number_of(answer) != SAILGARNET_DONE || *length > left)
        return 0;
    answer = sailgarnet_check(station, sizeof station, before, sizeof before, SAILGARNET_MOVE, device, target, 0, calls, *length);
    return answer == SAILGARNET_DONE;
}

/*
 * Whether the calls of a sleep entry are those of its moves, from the highest device down, and these lead to the state after it. If no
 * device moves, they switch to what the entries need, as bring-up does.
 */
static int sleep_conforms(const uint8_t *before, const uint8_t *after, const uint8_t *calls, size_t left)
{
    uint8_t state[SAILGARNET_STATE_SIZE];
    size_t length;

    if (memcmp(before, after, SAILGARNET_ENTRIES_SIZE) == 0)
        return sailgarnet_check_bring_up(station, sizeof station, before, SAILGARNET_STATE_SIZE, calls, left) == SAILGARNET_DONE;
    memcpy(state, before, sizeof state);
    for (unsigned d = DEVICES; d-- > 0;) {
        if (before[4 * d] == after[4 * d])
            continue;
        if (!move_conforms(state, d, after[4 * d], calls, left, &length))
            return 0;
        calls += length;
        left -= length;
    }
    return left == 0 && memcmp(state, after, sizeof state) == 0;
}

static int conforms(const struct request *q, const uint8_t *before, const uint8_t *after, const uint8_t *calls, size_t length)
{
    if (q->kind == SAILGARNET_SLEEP)
        return sleep_conforms(before, after, calls, length);
    return sailgarnet_check(station, sizeof station, before, SAILGARNET_STATE_SIZE, q->kind, q->device, q->a, q->b, calls, length) ==
           SAILGARNET_DONE;
}

static int ask(uint8_t *state, const struct request *q)
{
    static uint8_t plan[SAILGARNET_SLEEP_PLAN_SIZE]; /* room for a request of any kind */
    uint8_t before[SAILGARNET_STATE_SIZE];
    uint64_t answer;
    uint32_t on;

    memcpy(before, state, sizeof before);
    answer = sailgarnet_plan(station, sizeof station, state, SAILGARNET_STATE_SIZE, q->kind, q->device, q->a, q->b, plan, sizeof plan);
    printf("%s\n", q->title);
    if (sailgarnet_number_of(answer) != SAILGARNET_DONE) {
        printf("    refused: answer %u, place %" PRIu64 "\n", sailgarnet_number_of(answer), sailgarnet_place_of(answer));
        return 0;
    }
    if (!conforms(q, before, state, plan, 4 * (size_t)sailgarnet_count_of(answer))) {
        printf("    the checker refuses the plan\n");
        return 1;
    }
    on = sailgarnet_on_read(before);
    if (sailgarnet_count_of(answer) == 0)
        printf("    no calls\n");
    for (size_t i = 0; i < sailgarnet_count_of(answer); i++)
        on = carry_out(plan, i, on);
    print_entries(state);
    return on != sailgarnet_on_read(state);
}

int main(void)
{
    static const struct request night[] = {
        {"arm camera for S3, D2", SAILGARNET_ARM, CAMERA, 3, SAILGARNET_D2},
        {"sleep entry for S4, for which the camera is not armed", SAILGARNET_SLEEP, 0, 4, 0},
        {"sleep entry for S3", SAILGARNET_SLEEP, 0, 3, 0},
        {"sleep entry for S3 again", SAILGARNET_SLEEP, 0, 3, 0},
    };
    uint8_t state[SAILGARNET_STATE_SIZE];

    if (sailgarnet_fresh(station, sizeof station, state, sizeof state) != SAILGARNET_DONE) {
        fprintf(stderr, "the table is refused\n");
        return 1;
    }
    for (size_t i = 0; i < sizeof night / sizeof night[0]; i++)
        if (ask(state, &night[i]))
            return 1;
    /* A real board would enter S3 here. */
    printf("the board enters S3, ");
    print_on(sailgarnet_on_read(state));
    return 0;
}
