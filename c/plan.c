/* Plans the network text on standard input, and prints the chain text and the kept text. */
#include "thinning.h"

#include <stdio.h>

int main(void)
{
    /* One byte more than the longest network text has, so that bytes left over are seen. */
    static uint8_t network[THINNING_NETWORK_TEXT + 1];
    uint8_t chain[THINNING_CHAIN_TEXT];
    uint8_t kept[THINNING_KEPT_TEXT];
    size_t chain_written = 0;
    size_t kept_written = 0;
    size_t network_len = fread(network, 1, sizeof network, stdin);
    uint32_t refusal = thinning_plan(network, network_len, chain, sizeof chain, kept, sizeof kept,
                                     &chain_written, &kept_written);
    if (refusal != 0) {
        fprintf(stderr, "refusal %u\n", (unsigned)refusal);
        return 1;
    }
    fwrite(chain, 1, chain_written, stdout);
    fwrite(kept, 1, kept_written, stdout);
    return 0;
}
