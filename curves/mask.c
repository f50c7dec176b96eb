// mask RULE N K: prints the mask of a code, as one line of digits, 1 for a frozen position. Rules:
//   erasure       erasure rates, for an erasure channel of rate 1/2, by the library's own call
//   polarization  polarization weight (c/common/codes.h)
//   rows          row weight, by the library's own call
#include "channel.h"
#include "codes.h"
#include "ruznavo.h"

#include <stdio.h>
#include <stdlib.h>
#include <string.h>

static int usage(void) {
    fputs("usage: mask erasure|polarization|rows N K, N a power of two from 2 to 1024, K at most N\n", stderr);
    return 2;
}

int main(int count, char **words) {
    if (count != 4) return usage();
    size_t n = strtoul(words[2], NULL, 10), k = strtoul(words[3], NULL, 10);
    if (n < 2 || n > MAX_N || (n & (n - 1)) || k > n) return usage();
    uint8_t mask[MAX_N];
    uint64_t refused = 0;
    if (!strcmp(words[1], "erasure")) refused = ruznavo_mask_by_erasure(n, k, 0.5, mask, n);
    else if (!strcmp(words[1], "polarization")) code_by_polarization(mask, n, k);
    else if (!strcmp(words[1], "rows")) refused = ruznavo_mask_by_weight(n, k, mask, n);
    else return usage();
    if (refused) return usage();
    for (size_t i = 0; i < n; i++) putchar('0' + mask[i]);
    putchar('\n');
    return 0;
}
