/* The lines that `bench/peers` gives to each peer: NAME TIMES PROGRAM PACKET, program and packet in hex; a packet that
 * the peer doesn't need is 00. */
#include <stdint.h>
#include <stdio.h>
#include <string.h>

#define MOST_SLOTS 4096
#define MOST_PACKET 2048

struct line {
	char name[64];
	unsigned times, slots, length;
	uint64_t program[MOST_SLOTS];
	uint8_t packet[MOST_PACKET];
};

/* Reads hex digits into bytes, and returns how many. */
static unsigned bytes_of(const char *hex, void *bytes)
{
	unsigned length = strlen(hex) / 2;

	for (unsigned at = 0; at < length; at++)
		sscanf(hex + 2 * at, "%2hhx", (unsigned char *)bytes + at);
	return length;
}

/* Reads the next line of standard input; 0 at the end, or if one isn't as above. */
static int read_line(struct line *line)
{
	static char text[2][16 * MOST_SLOTS + 1];

	if (scanf("%63s %u %65536s %4096s", line->name, &line->times, text[0], text[1]) != 4)
		return 0;
	line->slots = bytes_of(text[0], line->program) / 8;
	line->length = bytes_of(text[1], line->packet);
	return 1;
}
