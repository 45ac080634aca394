/* laxonje-pcap: runs the program of a settings text, or of an object, on the packets of a capture of any size. docs/PCAP.md says more, and its manual
 * page. */
#define _DEFAULT_SOURCE /* of POSIX's calls */
#include "captures.h"
#include <errno.h>
#include <fcntl.h>
#include <stdlib.h>
#include <string.h>
#include <unistd.h>

/* In each archive: tools/parts/build.c. */
const char *laxonje_build(void);

#if LAXONJE_VERSION < 3
static struct laxonje_program *laxonje_program_new(void)
{
	return calloc(1, sizeof(struct laxonje_program));
}

static void laxonje_program_delete(struct laxonje_program **program)
{
	if (*program)
		laxonje_free(*program);
	free(*program);
	*program = NULL;
}
#endif

/* Reads a file up to one byte more than settings may have. */
static enum status read_settings(const char *name, uint8_t *text, size_t *length)
{
	bool is_input = !strcmp(name, "-");
	FILE *file = is_input ? stdin : fopen(name, "rb");

	if (!file)
		return failed(INPUT, "%s: %s", name, strerror(errno));
	*length = fread(text, 1, MOST_SETTINGS + 1, file);
	bool is_read = !ferror(file);
	int why = errno;

	if (!is_input)
		fclose(file);
	return is_read ? DONE : failed(INPUT, "%s: %s", name, strerror(why));
}

/* Says why there is no program, as xdpbox does, and what to write instead. */
static enum status refusal(struct laxonje_verdict verdict)
{
	char advice[512];

	if (verdict.kind == LAXONJE_SETTINGS)
		return failed(WORDS, "settings refused L%u", verdict.cause);
	if (verdict.kind == LAXONJE_OBJECT)
		return failed(WORDS, "object refused O%u at %u", verdict.cause, verdict.at);
	size_t length = laxonje_advice(verdict.cause, (uint8_t *)advice, sizeof advice);

	if (length > sizeof advice)
		length = sizeof advice;
	failed(REFUSED, "refused V%u at %u", verdict.cause, verdict.at);
	if (length)
		fprintf(stderr, "write instead: %.*s\n", (int)length, advice);
	return REFUSED;
}

/* The names of an object's maps. */
static struct settings settings_of_object(struct laxonje_program *program)
{
	struct settings found = {.map_count = laxonje_map_count(program)};

	for (uint32_t map = 0; map < found.map_count; map++)
		found.maps[map].length = laxonje_map_name(program, map, (uint8_t *)found.maps[map].bytes, MOST_NAME);
	return found;
}

static struct laxonje_verdict load_program(const uint8_t *bytes, size_t length, const char *function, struct laxonje_program *program)
{
	if (function)
		return laxonje_load_object(bytes, length, (const uint8_t *)function, strlen(function), program);
	return laxonje_load_settings(bytes, length, program);
}

static enum status load(const struct words *words, struct report *report)
{
	uint8_t *text = malloc(MOST_SETTINGS + 1);
	size_t length = 0;

	report->program = laxonje_program_new();
	if (!text || !report->program)
		return free(text), failed(MEMORY, "memory");
	enum status status = read_settings(words->settings, text, &length);

	if (status == DONE) {
		struct laxonje_verdict verdict = load_program(text, length, words->function, report->program);

		status = verdict.kind == LAXONJE_ACCEPTED ? DONE : refusal(verdict);
	}
	if (status == DONE)
		report->settings = words->function ? settings_of_object(report->program) : settings_of(text, length);
	free(text);
	if (status != DONE)
		return status;
	if (report->settings.begins)
		fputs("laxonje-pcap: counters begin with 0 here: the settings' values aren't looked at\n", stderr);
	report->counters = calloc(laxonje_counters(report->program) + 1, sizeof *report->counters);
	report->clock = laxonje_clock(report->program);
	return report->counters ? DONE : failed(MEMORY, "memory");
}

/* Standard input, output and error have to be open: a file would take the number of one that isn't, and get what is printed. */
static bool are_open(void)
{
	for (int number = STDIN_FILENO; number <= STDERR_FILENO; number++)
		if (fcntl(number, F_GETFD) < 0 && (number == STDOUT_FILENO || open("/dev/null", O_RDWR) != number))
			return false;
	return true;
}

int main(int count, char **given)
{
	struct words words = {0};
	struct report report = {.nanoseconds = 0};

	if (!are_open())
		return failed(INPUT, "standard output is closed");
	if (count == 2 && !strcmp(given[1], "--help"))
		return printf("%s%s", usage, help), fflush(stdout) ? INPUT : DONE;
	if (count == 2 && !strcmp(given[1], "--version"))
		return printf("%s\n", laxonje_build()), fflush(stdout) ? INPUT : DONE;
	if (!read_words(count, given, &words))
		return failed(WORDS, "words refused"), fputs(usage, stderr), WORDS;
	enum status status = load(&words, &report);

	if (status == DONE)
		status = filter(&words, &report);
	free(report.counters);
	laxonje_program_delete(&report.program);
	if (fflush(stdout) || ferror(stdout))
		status = status == DONE ? failed(INPUT, "a write failed: %s", strerror(errno)) : status;
	return (int)status;
}
