#define _DEFAULT_SOURCE /* of POSIX's calls, and libpcap's types */
#include "captures.h"
#include "input.h"
#include <errno.h>
#include <fcntl.h>
#include <pcap/pcap.h>
#include <stdarg.h>
#include <stdlib.h>
#include <string.h>
#include <sys/stat.h>
#include <unistd.h>

enum { BATCH = 256, LEAST = 14, BUFFER = 1 << 18 };

/* How many bytes of a check sequence a capture's frames end in, as its link type says. */
#define FCS_BYTES(link) ((unsigned)(link) & 0x04000000 ? (unsigned)(link) >> 28 : 0)

/* The packets of a batch, one after another in `bytes`. */
struct batch {
	uint8_t bytes[BATCH * LAXONJE_PACKET];
	struct laxonje_packet packets[BATCH];
	struct laxonje_result results[BATCH];
	struct pcap_pkthdr headers[BATCH];
	uint64_t numbers[BATCH]; /* of the packets in the capture, from 1 */
	size_t count, length;
};

/* The capture that is read, the one that is written, if any, how many packets were read, and what is made of them. */
struct captures {
	const struct words *words;
	struct input input;
	pcap_t *in;
	pcap_dumper_t *out;
	uint64_t count;
	FILE *to;         /* where sums go */
	FILE *told;       /* where lines for packets go, if anywhere */
	bool is_partial;  /* whether a packet wasn't judged */
	struct batch *batch;
	struct report *report;
};

/* Whether a file that is written is one that is read: the file of a name, or standard input. */
static bool is_read(FILE *written, const char *name)
{
	struct stat first, second;
	bool is_there = strcmp(name, "-") ? !stat(name, &second) : !fstat(STDIN_FILENO, &second);

	return is_there && !fstat(fileno(written), &first) && S_ISREG(first.st_mode) && first.st_dev == second.st_dev && first.st_ino == second.st_ino;
}

static void judge_batch(void *context);
static void print_so_far(void *context);

/* Opens the capture that is read. Times are kept in nanoseconds. */
static enum status open_capture(const char *name, struct captures *captures)
{
	char error[PCAP_ERRBUF_SIZE];
	int number = strcmp(name, "-") ? open(name, O_RDONLY | O_CLOEXEC) : STDIN_FILENO;

	captures->input = (struct input){number, captures->words->interval, judge_batch, print_so_far, captures, 0};
	FILE *file = number < 0 ? NULL : stream_of(&captures->input);

	if (!file)
		return failed(INPUT, "%s: %s", name, strerror(errno));
	setvbuf(file, NULL, _IOFBF, BUFFER);
	captures->in = pcap_fopen_offline_with_tstamp_precision(file, PCAP_TSTAMP_PRECISION_NANO, error);
	if (!captures->in)
		return fclose(file), failed(INPUT, "%s: %s", name, error);
	int link = pcap_datalink(captures->in);
	const char *known = pcap_datalink_val_to_name(link);

	if (link != DLT_EN10MB)
		return failed(INPUT, "%s: packet 1: its frames are of link type %d (%s); 1 is Ethernet", name, link, known ? known : "no name");
	if (FCS_BYTES(pcap_datalink_ext(captures->in)))
		return failed(INPUT, "%s: packet 1: its frames end in a check sequence, which no guest sends", name);
	return DONE;
}

/* Opens a file that is written: one that is there is emptied only if it isn't one that is read. */
static enum status file_to_write(const struct words *words, FILE **file)
{
	int number = open(words->written, O_WRONLY | O_CREAT, 0666);
	const char *why = NULL;

	*file = number < 0 ? NULL : fdopen(number, "wb");
	if (!*file)
		return failed(INPUT, "%s: %s", words->written, strerror(errno));
	if (is_read(*file, words->capture))
		why = "it is the capture that is read";
	else if (is_read(*file, words->settings))
		why = "it is the settings that are read";
	else if (ftruncate(number, 0) && errno != EINVAL)
		why = strerror(errno);
	if (why)
		fclose(*file);
	return why ? failed(INPUT, "%s: %s", words->written, why) : DONE;
}

static enum status open_output(struct captures *captures)
{
	const char *name = captures->words->written;
	FILE *file = stdout;
	enum status status = strcmp(name, "-") ? file_to_write(captures->words, &file) : DONE;

	if (status != DONE)
		return status;
	setvbuf(file, NULL, _IOFBF, BUFFER);
	captures->out = pcap_dump_fopen(captures->in, file);
	if (captures->out)
		return DONE;
	if (file != stdout)
		fclose(file);
	return failed(INPUT, "%s: %s", name, pcap_geterr(captures->in));
}

/* Says once why a packet isn't judged. */
static void count_out(struct captures *captures, const char *form, ...)
{
	char why[160];
	va_list words;

	va_start(words, form);
	vsnprintf(why, sizeof why, form, words);
	va_end(words);
	if (!captures->is_partial)
		failed(INPUT, "packet %llu: %s", (unsigned long long)captures->count, why);
	captures->is_partial = true;
	captures->report->not_judged++;
}

/* Whether a packet is whole, and one that a guest may send. Else it is counted as not judged. */
static bool is_judged(struct captures *captures, const struct pcap_pkthdr *header)
{
	if (header->caplen < header->len)
		count_out(captures, "%u of its %u bytes were kept: capture whole packets, as tcpdump -s 0 does", header->caplen, header->len);
	else if (header->caplen > header->len)
		count_out(captures, "%u bytes were kept of a packet of %u", header->caplen, header->len);
	else if (header->len < LEAST || header->len > LAXONJE_PACKET)
		count_out(captures, "it has %u bytes; 14 to 65535 is what a guest can send", header->len);
	else
		return true;
	return false;
}

/* Reads packets until the batch is full or the capture ends. Whether there are more. */
static bool fill(struct captures *captures)
{
	struct batch *batch = captures->batch;
	struct pcap_pkthdr *header;
	const u_char *bytes;
	int got = 1;

	while (batch->count < BATCH && (got = pcap_next_ex(captures->in, &header, &bytes)) == 1) {
		captures->count++;
		if (!is_judged(captures, header))
			continue;
		memcpy(batch->bytes + batch->length, bytes, header->caplen);
		batch->packets[batch->count] = (struct laxonje_packet){batch->length, header->caplen};
		batch->numbers[batch->count] = captures->count;
		batch->headers[batch->count++] = *header;
		batch->length += header->caplen;
	}
	if (got == PCAP_ERROR && !is_input_ended()) {
		failed(INPUT, "packet %llu: %s", (unsigned long long)captures->count + 1, pcap_geterr(captures->in));
		captures->is_partial = true;
	}
	return got == 1;
}

static uint64_t time_of(const struct pcap_pkthdr *header)
{
	return header->ts.tv_sec < 0 ? 0 : (uint64_t)header->ts.tv_sec * SECOND + (uint64_t)header->ts.tv_usec; /* which are nanoseconds */
}

/* Gives the program the time of a packet, if it asks for it, and answers how many packets have that time: the time never goes back. */
static size_t begin_time(const struct batch *batch, size_t first, const struct report *report)
{
	size_t next = first;

	if (report->clock == LAXONJE_NOWHERE)
		return batch->count - first;
	uint64_t *clock = &report->counters[report->clock], time = time_of(&batch->headers[first]);

	*clock = time > *clock ? time : *clock;
	while (next < batch->count && time_of(&batch->headers[next]) <= *clock)
		next++;
	return next - first;
}

static void run(struct batch *batch, struct report *report)
{
	uint64_t start = nanoseconds();

	for (size_t first = 0, count; first < batch->count; first += count) {
		count = begin_time(batch, first, report);
		laxonje_run_batch(report->program, report->counters, laxonje_counters(report->program), batch->bytes, batch->length,
		                  batch->packets + first, count, batch->results + first, count, report->settings.ifindex, 0);
	}
	report->nanoseconds += nanoseconds() - start;
	for (size_t i = 0; i < batch->count; i++) {
		struct sum *sum = &report->by_action[batch->results[i].action];

		sum->packets++;
		sum->bytes += batch->packets[i].length;
		sum->instructions += batch->results[i].instructions;
	}
}

/* Writes what is passed or sent back, and a line for each packet if these are wanted. */
static void put(const struct batch *batch, const struct captures *captures)
{
	for (size_t i = 0; i < batch->count; i++) {
		const struct laxonje_result *result = &batch->results[i];

		if (captures->out && result->action >= LAXONJE_PASS)
			pcap_dump((u_char *)captures->out, &batch->headers[i], batch->bytes + batch->packets[i].start);
		if (captures->told)
			fprintf(captures->told, "packet %llu bytes %zu %s number %u instructions %u\n",
			        (unsigned long long)batch->numbers[i], batch->packets[i].length,
			        action_names[result->action], result->number, result->instructions);
	}
}

/* Runs the packets that were read, and begins another batch. */
static void judge_batch(void *context)
{
	struct captures *captures = context;

	if (!captures->batch || !captures->batch->count)
		return;
	run(captures->batch, captures->report);
	put(captures->batch, captures);
	captures->batch->count = captures->batch->length = 0;
}

static enum status run_all(struct captures *captures)
{
	struct batch *batch = captures->batch = malloc(sizeof *batch);

	if (!batch)
		return failed(MEMORY, "memory");
	batch->count = batch->length = 0;
	await_signals();
	while (fill(captures) && !(captures->out && ferror(pcap_dump_file(captures->out))))
		judge_batch(captures);
	judge_batch(captures);
	free(batch);
	captures->batch = NULL;
	return captures->is_partial ? INPUT : DONE;
}

static void print_report(const struct captures *captures)
{
	if (captures->words->is_json)
		print_json(captures->to, captures->report);
	else
		print_lines(captures->to, captures->report, captures->words->is_timed);
}

/* What was counted since the beginning. */
static void print_so_far(void *context)
{
	struct captures *captures = context;

	if (!captures->batch)
		return;
	judge_batch(captures);
	print_report(captures);
	fflush(captures->to);
}

static enum status close_output(pcap_dumper_t *out)
{
	bool is_written = !pcap_dump_flush(out) && !ferror(pcap_dump_file(out));
	int why = errno;

	/* Standard output is closed by the end of the process. */
	if (pcap_dump_file(out) != stdout)
		pcap_dump_close(out);
	return is_written ? DONE : failed(INPUT, "a write failed: %s", strerror(why));
}

/* What was counted goes to standard output, or beside a capture there to standard error; also if packets weren't judged. */
static enum status judge_all(struct captures *captures)
{
	const struct words *words = captures->words;
	enum status status = open_capture(words->capture, captures);

	captures->to = words->written && !strcmp(words->written, "-") ? stderr : stdout;
	captures->told = words->is_told ? captures->to : NULL;
	if (status == DONE && words->written)
		status = open_output(captures);
	bool is_open = status == DONE;

	if (is_open)
		status = run_all(captures);
	enum status closed = captures->out ? close_output(captures->out) : DONE;

	if (is_open && status != MEMORY && closed == DONE)
		print_report(captures);
	return status == DONE ? closed : status;
}

enum status filter(const struct words *words, struct report *report)
{
	struct captures captures = {.words = words, .report = report};
	enum status status = judge_all(&captures);

	if (captures.in)
		pcap_close(captures.in);
	return status;
}
