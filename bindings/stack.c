/* Standard input through yerwaqis_replay, with nothing of its own on the stack: bindings/stack.sh runs it. */
#include <stdio.h>
#include "yerwaqis.h"

static uint8_t text[1 << 20];
static uint8_t out[1 << 20];

int main(void) {
    size_t n = yerwaqis_replay(text, fread(text, 1, sizeof text, stdin), out, sizeof out);
    return n == SIZE_MAX || fwrite(out, 1, n, stdout) != n;
}
