/* The worked examples of the report. */
#ifndef COMPARE_H
#define COMPARE_H

#include <stdbool.h>

/* Whether both sides give every value in the file of examples. Prints what differs. */
bool examples_hold(const char *file);

#endif
