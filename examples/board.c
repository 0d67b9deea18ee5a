/*
 * How a board's program calls Sailgarnet: at power-on it brings the bench station up, from the entries that it kept and from what _STA
 * reports, then come requests as the drivers would make them. Each plan is checked before its calls are carried out, and each call is
 * printed in words.
 */
#include <inttypes.h>
#include <stdio.h>
#include <string.h>

#include "sailgarnet.h"
#include "station.h"

static const char *const devices[3] = {"bus", "camera", "lamp"};
static const char *const states[5] = {"D0", "D1", "D2", "D3hot", "D3cold"};

/* Kept from before power-off: the entries of bus, camera and lamp. The camera is armed for S3, D2. */
static const uint8_t kept[] = {
    SAILGARNET_D0, 0, 0, 0,
    SAILGARNET_D2, 1, 3, SAILGARNET_D2,
    SAILGARNET_D3COLD, 0, 0, 0,
};

struct request {
    const char *title;
    uint32_t kind, device, a, b;
};

/* Whether a resource is on. A real board would run its _STA here. */
static uint32_t sta(unsigned r) { return r != 2; }

static uint32_t reported_on(void)
{
    uint32_t on = 0;

    for (unsigned r = 0; r < sailgarnet_resource_count(station); r++)
        on |= sta(r) << r;
    return on;
}

/* A real board would run the method here. */
static void carry_out(const uint8_t *plan, size_t i)
{
    unsigned target = sailgarnet_call_target(plan, i);

    switch (sailgarnet_call_kind_of(plan, i)) {
    case SAILGARNET_CALL_ON:
        printf("    r%u._ON\n", target);
        break;
    case SAILGARNET_CALL_OFF:
        printf("    r%u._OFF\n", target);
        break;
    case SAILGARNET_CALL_SET_STATE:
        printf("    %s._PS%u\n", devices[target], sailgarnet_call_state(plan, i));
        break;
    case SAILGARNET_CALL_SET_WAKE:
        if (sailgarnet_call_wake_on(plan, i))
            printf("    %s._DSW on, from S%u in %s\n", devices[target], sailgarnet_call_wake_sleep(plan, i), states[sailgarnet_call_wake_state(plan, i)]);
        else
            printf("    %s._DSW off\n", devices[target]);
        break;
    }
}

static void print_state(const char *when, const uint8_t *state)
{
    printf("    %s", when);
    for (unsigned d = 0; d < 3; d++)
        printf(" %s %s%s,", devices[d], states[state[4 * d]], state[4 * d + 1] ? " (armed)" : "");
    printf(" on:");
    for (unsigned r = 0; r < 3; r++)
        if (sailgarnet_on_read(state) >> r & 1)
            printf(" r%u", r);
    printf("\n");
}

/* Whether the answer is a refusal, which is printed. */
static int refused(uint64_t answer)
{
    if (sailgarnet_number_of(answer) == SAILGARNET_DONE)
        return 0;
    printf("    refused: answer %u, place %" PRIu64 "\n", sailgarnet_number_of(answer), sailgarnet_place_of(answer));
    return 1;
}

/* Carries out the calls of a plan if its checker has passed them, and prints the state after them. */
static int finish(const uint8_t *plan, size_t count, uint64_t checked, const uint8_t *state)
{
    if (checked != SAILGARNET_DONE) {
        printf("    the checker refuses the plan: answer %u\n", sailgarnet_number_of(checked));
        return 1;
    }
    if (count == 0)
        printf("    no calls\n");
    for (size_t i = 0; i < count; i++)
        carry_out(plan, i);
    print_state("now", state);
    return 0;
}

static int bring_up(uint8_t *state)
{
    uint8_t plan[SAILGARNET_PLAN_SIZE], before[SAILGARNET_STATE_SIZE];
    uint64_t answer, checked;

    memcpy(before, state, sizeof before);
    answer = sailgarnet_bring_up(station, sizeof station, state, SAILGARNET_STATE_SIZE, plan, sizeof plan);
    printf("bring-up\n");
    if (refused(answer))
        return 1;
    print_state("from", before);
    checked = sailgarnet_check_bring_up(station, sizeof station, before, sizeof before, plan, 4 * (size_t)sailgarnet_count_of(answer));
    return finish(plan, sailgarnet_count_of(answer), checked, state);
}

static int ask(uint8_t *state, const struct request *q)
{
    uint8_t plan[SAILGARNET_PLAN_SIZE], before[SAILGARNET_STATE_SIZE];
    uint64_t answer, checked;

    memcpy(before, state, sizeof before);
    answer = sailgarnet_plan(station, sizeof station, state, SAILGARNET_STATE_SIZE, q->kind, q->device, q->a, q->b, plan, sizeof plan);
    printf("%s\n", q->title);
    if (refused(answer))
        return 0;
    checked = sailgarnet_check(station, sizeof station, before, sizeof before, q->kind, q->device, q->a, q->b, plan, 4 * (size_t)sailgarnet_count_of(answer));
    return finish(plan, sailgarnet_count_of(answer), checked, state);
}

int main(void)
{
    static const struct request day[] = {
        {"disarm camera", SAILGARNET_DISARM, 1, 0, 0},
        {"W3 camera to D0", SAILGARNET_MOVE, 1, SAILGARNET_D0, 0},
        {"W4 camera to D3hot", SAILGARNET_MOVE, 1, SAILGARNET_D3HOT, 0},
        {"W7 camera to D2, which is shallower and not D0", SAILGARNET_MOVE, 1, SAILGARNET_D2, 0},
        {"W5 camera to D0", SAILGARNET_MOVE, 1, SAILGARNET_D0, 0},
        {"lamp to D0", SAILGARNET_MOVE, 2, SAILGARNET_D0, 0},
        {"W9 arm camera for S3, D2", SAILGARNET_ARM, 1, 3, SAILGARNET_D2},
        {"camera to D2", SAILGARNET_MOVE, 1, SAILGARNET_D2, 0},
        {"lamp to D3cold", SAILGARNET_MOVE, 2, SAILGARNET_D3COLD, 0},
    };
    uint8_t state[SAILGARNET_STATE_SIZE];

    if (sailgarnet_fresh(station, sizeof station, state, sizeof state) != SAILGARNET_DONE) {
        fprintf(stderr, "the table is refused\n");
        return 1;
    }
    /*
     * A board that kept no entries starts with those of the fresh state. So could one whose kept entries are refused with 8; this
     * program stops there.
     */
    memcpy(state, kept, sizeof kept);
    sailgarnet_on_write(state, reported_on());
    if (bring_up(state))
        return 1;
    for (size_t i = 0; i < sizeof day / sizeof day[0]; i++)
        if (ask(state, &day[i]))
            return 1;
    return 0;
}
