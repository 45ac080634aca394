/* Texts like those of the files that are named, with bytes changed, taken away and repeated: reading them stays in the text and ends.
 * usage: any-text COUNT FILE.. */
#include "../settings.h"
#include <stdio.h>
#include <stdlib.h>
#include <string.h>

enum { MOST = 1 << 16 };

static uint64_t state = 1;

static uint32_t below(uint32_t limit)
{
	state ^= state << 13, state ^= state >> 7, state ^= state << 17;
	return (uint32_t)(state >> 16) % limit;
}

/* Changes a text at one place; its length afterwards. */
static size_t change(uint8_t *text, size_t length)
{
	static const char marks[] = "[]{}=.,\"'\\#\n\r \tu0";
	size_t at = below((uint32_t)length), part = below(16);

	part = part < length - at ? part : length - at;
	switch (below(3)) {
	case 0:
		text[at] = below(2) ? (uint8_t)marks[below(sizeof marks)] : (uint8_t)below(256);
		return length;
	case 1:
		memmove(text + at, text + at + part, length - at - part);
		return length - part;
	default:
		if (length + part > MOST)
			return length;
		memmove(text + at + part, text + at, length - at);
		return length + part;
	}
}

int main(int count, char **given)
{
	unsigned long texts = count > 2 ? strtoul(given[1], NULL, 10) : 0, names = 0;
	static uint8_t whole[MOST];

	for (unsigned long i = 0; i < texts; i++) {
		FILE *file = fopen(given[2 + i % (unsigned long)(count - 2)], "rb");
		size_t length = file ? fread(whole, 1, MOST / 2, file) : 0;

		for (uint32_t changes = 1 + below(8); changes && length; changes--)
			length = change(whole, length);
		/* (in a block of its own, whose end a sanitizer watches) */
		uint8_t *text = malloc(length + 1);

		if (!file || !text)
			return perror("any-text"), 1;
		fclose(file);
		memcpy(text, whole, length);
		struct settings found = settings_of(text, length);

		for (size_t map = 0; map < found.map_count; map++)
			names += found.maps[map].length <= MOST_NAME;
		free(text);
	}
	printf("texts %lu names %lu\n", texts, names);
	return 0;
}
