/* A change on two cards, and whether it is safe. */
#include <stdio.h>
#include <string.h>
#include "yerwaqis.h"

int main(void) {
    const char *list = "fresh 2\nopen 0 3\nvote 1 0 1\nvote 1 1 1\ntake 1 0\ntake 1 1\nstore 0 1\nsafe 1\nstore 1 1\nsafe 1\n";
    uint8_t out[256];
    uint8_t little[4] = {7, 7, 7, 7};
    /* a buffer too short for all answers stays as it was */
    if (yerwaqis_replay((const uint8_t *)list, strlen(list), little, sizeof little) != SIZE_MAX || little[0] != 7) {
        return 1;
    }
    size_t n = yerwaqis_replay((const uint8_t *)list, strlen(list), out, sizeof out);
    if (n == SIZE_MAX) {
        return 1;
    }
    fwrite(out, 1, n, stdout);
    return 0;
}
