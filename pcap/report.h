/* What laxonje-pcap counted, as lines or as JSON. */
#ifndef REPORT_H
#define REPORT_H

#include "settings.h"
#include <laxonje.h>
#include <stdbool.h>
#include <stdio.h>

enum { ACTIONS = 4 };

/* Packets, and their bytes and instructions. */
struct sum {
	uint64_t packets, bytes, instructions;
};

struct report {
	struct sum by_action[ACTIONS];
	uint64_t nanoseconds; /* that the runs took */
	uint64_t not_judged;  /* packets */
	uint64_t *counters;
	size_t clock; /* which of them is the time, which the program doesn't count; LAXONJE_NOWHERE if it asks for none */
	struct laxonje_program *program;
	struct settings settings;
};

extern const char *const action_names[ACTIONS];

void print_lines(FILE *to, const struct report *report, bool has_time);
void print_json(FILE *to, const struct report *report);

#endif
