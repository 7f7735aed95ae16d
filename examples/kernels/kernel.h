/* What all kernels share. */
#include <stdint.h>

/* Data that a run starts with. They stand in the file, also where they are 0, so that other values
 * can be written there; results and intermediate values don't. */
#define DATA __attribute__((section(".data")))
