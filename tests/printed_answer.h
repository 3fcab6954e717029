/* Is a printed answer right for a net file? Which of several least placements is printed is left
   open, so the text cannot simply be compared. */
#ifndef PRINTED_ANSWER_H
#define PRINTED_ANSWER_H

#include <stddef.h>
#include <stdint.h>

/* NULL where the text is exactly what the program may print for these bytes, else what is wrong.
   Nets that want more than some millions of entries are beyond it. */
const char *fault_in_answer(const uint8_t *bytes, size_t length, const char *text);

#endif
