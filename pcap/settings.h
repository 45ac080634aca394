/* What laxonje-pcap reads of a settings text itself, once the library has accepted the text: the names of its maps, its interface, and whether it
 * says what counters begin with. */
#ifndef SETTINGS_H
#define SETTINGS_H

#include <stdbool.h>
#include <stddef.h>
#include <stdint.h>

enum { MOST_MAPS = 16, MOST_NAME = 32, MOST_SETTINGS = 1 << 20 };

/* A name in UTF-8. It may have any characters, and isn't ended by a zero. */
struct name {
	char bytes[MOST_NAME];
	size_t length;
};

struct settings {
	struct name maps[MOST_MAPS];
	size_t map_count;
	uint32_t ifindex;
	/* a counter is to begin with another number than 0 */
	bool begins;
};

/* The settings of a text that the library accepts; anything for one that it refuses. */
struct settings settings_of(const uint8_t *text, size_t length);

#endif
