/* What the core reads first: where the stack begins, and where the code does. */
#include "firmware.h"

__attribute__((section(".text.vectors"))) const uintptr_t vectors[] = {0x20004000, (uintptr_t)reset};
