/* The words that laxonje-pcap is called with, and how it ends. */
#ifndef WORDS_H
#define WORDS_H

#include <stdbool.h>

/* The exit statuses, as xdpbox has them. */
enum status { DONE, REFUSED, WORDS, MEMORY, INPUT };

struct words {
	bool is_json, is_timed, is_told;
	unsigned interval; /* in seconds; 0 is none */
	const char *written, *function, *settings, *capture; /* function: of an object in the place of settings */
};

extern const char usage[], help[];

/* Reads the words. False if they are wrong. */
bool read_words(int count, char **given, struct words *words);

/* Says why it failed, in one line, and answers the status. */
enum status failed(enum status status, const char *form, ...);

#endif
