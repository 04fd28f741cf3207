/* The Rust wrapper: rust/src/lib.rs under the loop that AFL++ drives. */
#include "fuzz.h"

void fuzz_one(const uint8_t *bytes, size_t length);

static void one(const uint8_t *bytes, size_t length) { fuzz_one(bytes, length); }
