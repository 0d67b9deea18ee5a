#include <stdio.h>
#include "sailgarnet.h"
#include "station.h"

int main(void)
{
    uint8_t state[SAILGARNET_STATE_SIZE], plan[SAILGARNET_PLAN_SIZE];
    sailgarnet_fresh(station, sizeof station, state, sizeof state);
    uint64_t answer = sailgarnet_plan(station, sizeof station, state, sizeof state,
                                      SAILGARNET_MOVE, 1, SAILGARNET_D2, 0, plan, sizeof plan);
    printf("answer %u, %u call\n", sailgarnet_number_of(answer), sailgarnet_count_of(answer));
    for (unsigned i = 0; i < sailgarnet_count_of(answer); i++)
        printf("%02x %02x %02x %02x\n", plan[4 * i], plan[4 * i + 1], plan[4 * i + 2], plan[4 * i + 3]);
    return 0;
}
