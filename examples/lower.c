/* Lowers machine M, then the activations of the result. */
#include "../include/ol_lower.h"
#include <stdio.h>

static uint8_t machines[OL_PACK_MOST], activations[OL_PACK_MOST], report[OL_PACK_MOST];

static void print(const char *call, uint64_t word) {
    printf("%s %u %u\n", call, (unsigned)ol_number(word), (unsigned)ol_value(word));
}

int main(void) {
    const uint8_t pack[40] = {2, 0, 1, 'M', 1, 'S', 0, 0, 0, 0, 1, 0, 0, 0, 255, 255, 0, 0, 0, 0,
                              0, 0, 1, 0,   1, 0,   1, 0, 0, 0, 0, 0, 0, 0, 255, 255, 0, 0, 0, 0};
    print("check", ol_pack_check(pack, sizeof pack));
    uint64_t word = ol_lower_state_machines(pack, sizeof pack, machines, sizeof machines, report, sizeof report);
    print("machines", word);
    if (ol_number(word) != OL_DONE)
        return 1;
    word = ol_lower_activations(machines, ol_value(word), activations, sizeof activations, report, sizeof report);
    print("activations", word);
    return 0;
}
