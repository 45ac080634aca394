/* Captures: the one that is read, packet by packet and in batches, and the one that is written. */
#ifndef CAPTURES_H
#define CAPTURES_H

#include "report.h"
#include "words.h"

/* Runs the program on the capture's packets, and prints what was counted. */
enum status filter(const struct words *words, struct report *report);

#endif
