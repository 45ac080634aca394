#include "report.h"
#include <inttypes.h>

const char *const action_names[ACTIONS] = {"ABORTED", "DROP", "PASS", "TX"};

/* A counter that isn't 0, and where it is. */
struct counter {
	uint32_t map, entry, place;
	bool is_one_of_many, is_first;
	uint64_t value;
};

typedef void print_counter(FILE *, const struct report *, const struct counter *);

/* Calls back for each counter that isn't 0, by map, entry and place. */
static void each_counter(FILE *to, const struct report *report, print_counter *print)
{
	size_t word = 0;
	bool is_first = true;

	for (uint32_t map = 0; map < laxonje_map_count(report->program); map++) {
		struct laxonje_map size = laxonje_map_size(report->program, map);

		for (uint32_t i = 0; i < size.entries * size.counters; i++, word++)
			if (report->counters[word] && word != report->clock) {
				struct counter counter = {map, i / size.counters, i % size.counters, size.counters > 1, is_first, report->counters[word]};

				print(to, report, &counter);
				is_first = false;
			}
	}
}

static void print_name(FILE *to, const struct report *report, uint32_t map)
{
	if (map < report->settings.map_count)
		fwrite(report->settings.maps[map].bytes, 1, report->settings.maps[map].length, to);
	else
		fprintf(to, "%" PRIu32, map);
}

static void print_counter_line(FILE *to, const struct report *report, const struct counter *counter)
{
	fputs("counter ", to);
	print_name(to, report, counter->map);
	fprintf(to, " %" PRIu32, counter->entry);
	if (counter->is_one_of_many)
		fprintf(to, " %" PRIu32, counter->place);
	fprintf(to, " %" PRIu64 "\n", counter->value);
}

static struct sum sum_of_all(const struct report *report)
{
	struct sum all = {0};

	for (int action = 0; action < ACTIONS; action++) {
		all.packets += report->by_action[action].packets;
		all.bytes += report->by_action[action].bytes;
		all.instructions += report->by_action[action].instructions;
	}
	return all;
}

static double time_a_packet(const struct report *report)
{
	uint64_t packets = sum_of_all(report).packets;

	return packets ? (double)report->nanoseconds / (double)packets : 0;
}

static void print_sum(FILE *to, const struct sum *sum)
{
	fprintf(to, "packets %" PRIu64 " bytes %" PRIu64 " instructions %" PRIu64 "\n", sum->packets, sum->bytes, sum->instructions);
}

void print_lines(FILE *to, const struct report *report, bool has_time)
{
	struct sum all = sum_of_all(report);

	print_sum(to, &all);
	for (int action = 0; action < ACTIONS; action++) {
		fprintf(to, "%s ", action_names[action]);
		print_sum(to, &report->by_action[action]);
	}
	if (report->not_judged)
		fprintf(to, "not judged packets %" PRIu64 "\n", report->not_judged);
	each_counter(to, report, print_counter_line);
	if (has_time)
		fprintf(to, "nanoseconds a packet %.1f\n", time_a_packet(report));
}

/* A name as JSON's text: what is no printable ASCII and no UTF-8 of more bytes is escaped. */
static void print_json_name(FILE *to, const struct report *report, uint32_t map)
{
	const struct name *name = &report->settings.maps[map];

	fputc('"', to);
	if (map >= report->settings.map_count)
		print_name(to, report, map);
	else
		for (size_t i = 0; i < name->length; i++) {
			unsigned char byte = (unsigned char)name->bytes[i];

			if (byte < 0x20 || byte == 0x7f || byte == '"' || byte == '\\')
				fprintf(to, "\\u%04x", byte);
			else
				fputc(byte, to);
		}
	fputc('"', to);
}

static void print_json_counter(FILE *to, const struct report *report, const struct counter *counter)
{
	fputs(counter->is_first ? "{\"map\":" : ",{\"map\":", to);
	print_json_name(to, report, counter->map);
	fprintf(to, ",\"entry\":%" PRIu32 ",\"place\":%" PRIu32 ",\"value\":%" PRIu64 "}", counter->entry, counter->place, counter->value);
}

static void print_json_sum(FILE *to, const struct sum *sum)
{
	fprintf(to, "\"packets\":%" PRIu64 ",\"bytes\":%" PRIu64 ",\"instructions\":%" PRIu64, sum->packets, sum->bytes, sum->instructions);
}

void print_json(FILE *to, const struct report *report)
{
	struct sum all = sum_of_all(report);

	fputc('{', to);
	print_json_sum(to, &all);
	fputs(",\"actions\":{", to);
	for (int action = 0; action < ACTIONS; action++) {
		fprintf(to, "%s\"%s\":{", action ? "," : "", action_names[action]);
		print_json_sum(to, &report->by_action[action]);
		fputc('}', to);
	}
	fprintf(to, "},\"not_judged\":%" PRIu64 ",\"counters\":[", report->not_judged);
	each_counter(to, report, print_json_counter);
	fprintf(to, "],\"nanoseconds_a_packet\":%.1f}\n", time_a_packet(report));
}
