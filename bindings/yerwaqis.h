/* A list of calls as text in, its answers as text out. */
#ifndef YERWAQIS_H
#define YERWAQIS_H

#include <stddef.h>
#include <stdint.h>

#ifdef __cplusplus
extern "C" {
#endif

/* The count of bytes of the answers, which stand at the front of `out`, or SIZE_MAX where `out` is too short for all of
   them: no byte of it is changed then. The two buffers must not overlap. */
/* Lend it 2 MB of stack: it uses some 1,050 KB on x86-64, whatever the text (`sh bindings/stack.sh` measures it), and no heap. */
size_t yerwaqis_replay(const uint8_t *text, size_t text_len, uint8_t *out, size_t out_len);

#ifdef __cplusplus
}
#endif

#endif
