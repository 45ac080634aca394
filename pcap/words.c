#define _DEFAULT_SOURCE /* of POSIX's calls */
#include "words.h"
#include <stdarg.h>
#include <stdio.h>
#include <stdlib.h>
#include <string.h>
#include <unistd.h>

enum { MOST_SECONDS = 86400 };

const char usage[] = "usage: laxonje-pcap [-j] [-t] [-v] [-i SECONDS] [-o FUNCTION] [-w FILE] SETTINGS CAPTURE\n";
const char help[] =
	"Runs the program of SETTINGS on each packet of CAPTURE, and counts what becomes of them.\n"
	"\n"
	"  -j       print JSON: packets, bytes and instructions by action, counters, and the time a packet\n"
	"  -t       print the time that a packet took\n"
	"  -v       print a line for each packet\n"
	"  -i SECONDS  print what was counted so far each time that so many seconds are over\n"
	"  -o FUNCTION  SETTINGS is an object file that clang made for BPF, and its program this function\n"
	"  -w FILE  write the packets that are passed or sent back, as the program left them\n"
	"  --help, --version\n"
	"\n"
	"SIGINT and SIGTERM end the capture, and what was counted is printed. A packet that a guest can't send, or of which the\n"
	"capture kept a part, isn't judged: such packets are counted, and the status is 4.\n"
	"CAPTURE is a pcap or pcapng file of Ethernet frames. Each FILE, SETTINGS and CAPTURE may be -, of the first two one.\n"
	"Exit status: 0 done, 1 the program is refused, 2 the words or the settings are, 3 memory ran out, 4 input or output failed.\n";

enum status failed(enum status status, const char *form, ...)
{
	va_list words;

	va_start(words, form);
	fputs("laxonje-pcap: ", stderr);
	vfprintf(stderr, form, words);
	fputc('\n', stderr);
	va_end(words);
	return status;
}

/* A number of seconds of decimal digits, or 0. */
static unsigned seconds_of(const char *word)
{
	size_t length = strspn(word, "0123456789");
	unsigned long number = length && length < 9 && !word[length] ? strtoul(word, NULL, 10) : 0;

	return number <= MOST_SECONDS ? (unsigned)number : 0;
}

bool read_words(int count, char **given, struct words *words)
{
	int option;

	opterr = 0;
	while ((option = getopt(count, given, "i:jo:tvw:")) != -1)
		if (option == 'j')
			words->is_json = true;
		else if (option == 't')
			words->is_timed = true;
		else if (option == 'v')
			words->is_told = true;
		else if (option == 'w' && !words->written)
			words->written = optarg;
		else if (option == 'o' && !words->function)
			words->function = optarg;
		else if (option == 'i' && !words->interval && seconds_of(optarg))
			words->interval = seconds_of(optarg);
		else
			return false;
	if (count - optind != 2)
		return false;
	words->settings = given[optind];
	words->capture = given[optind + 1];
	return strcmp(words->settings, "-") || strcmp(words->capture, "-");
}
