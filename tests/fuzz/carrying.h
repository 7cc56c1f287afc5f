/* carrying.h: request 13's export and import, as the fuzz target calls them. */
#ifndef FUZZ_CARRYING_H
#define FUZZ_CARRYING_H

#include "../../c/mutree.h"
#include "../guarded.h"

/* The export into so many bytes, which stand against a guard page. Ends the run where they are not as the call says; returns the answer. */
uint32_t export_checked(uint32_t geometry, struct guarded image, size_t lent, int at_end, struct guarded result);

/* The import of a text, which stands against a guard page. Ends the run where the image is not as the call says; returns the answer. */
uint32_t import_checked(uint32_t geometry, struct guarded image, const uint8_t *text, size_t length, int at_end, struct guarded result);

#endif
