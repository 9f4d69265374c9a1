/* The model in the place of the library: both are then wrong alike, and what is told is told by document 01's own rules. */
#include "pmwcas_recovery.h"
#include "recover.h"

pmwcas_recovery pmwcas_recover(uint64_t n, uint64_t k, unsigned char *image, size_t length, uint64_t allowance) {
    struct recovered s = model_recover(n, k, image, length, allowance);
    pmwcas_recovery r = { s.answer, s.steps };
    return r;
}
