/* What laxonje-pcap reads packets from: a file or a pipe, at which it waits without losing what was read or told to do. */
#ifndef INPUT_H
#define INPUT_H

#include <stdbool.h>
#include <stdint.h>
#include <stdio.h>

/* Where bytes come from. `idle` is called before each wait, and `due` each time that the interval is over. */
struct input {
	int file;
	unsigned interval; /* in seconds; 0 is never */
	void (*idle)(void *), (*due)(void *);
	void *context;
	uint64_t next; /* when `due` is called next, in nanoseconds */
};

enum { SECOND = 1000000000 }; /* in nanoseconds */

uint64_t nanoseconds(void);

/* From now on the first SIGINT or SIGTERM ends the input: what comes within a second is still read. A second one ends the program. */
void await_signals(void);

/* Whether the input was ended by a signal. */
bool is_input_ended(void);

/* A stream of an input, or null with errno. The input has to outlive it. Closing it closes the file, but for standard input. */
FILE *stream_of(struct input *input);

#endif
