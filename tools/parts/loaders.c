/* The calls that the headers define themselves, as functions of the library: for what loads the shared object and reads no header, as Python's
 * ctypes does. tools/parts/pack-host compiles this into each archive. To a host in C the headers' own come first. */
#define laxonje_program_new inline_program_new
#define laxonje_program_delete inline_program_delete
#define laxonje_run inline_run
#define laxonje_clock inline_clock
#define laxonje_runs_alone inline_runs_alone
#define laxonje_queue_new inline_queue_new
#define laxonje_queue_delete inline_queue_delete
#define laxonje_counters_new inline_counters_new
#define laxonje_counters_delete inline_counters_delete
#define laxonje_drive_turn inline_drive_turn
#define laxonje_drive_turns inline_drive_turns
#define laxonje_drive_packet inline_drive_packet
#define laxonje_drive_deliver inline_drive_deliver
#define laxonje_drive_deliver_as inline_drive_deliver_as
#define laxonje_drive_await inline_drive_await
#define laxonje_drive_await_as inline_drive_await_as
#define laxonje_mapped_page inline_mapped_page
#define laxonje_mapped_extents inline_mapped_extents
#define laxonje_taken_name inline_taken_name
#define laxonje_made_name inline_made_name
#define laxonje_relisted_name inline_relisted_name
#define laxonje_refusal_name inline_refusal_name
#define laxonje_halt_name inline_halt_name
#define laxonje_name inline_name
#include <laxonje_drive.h>
#undef laxonje_program_new
#undef laxonje_program_delete
#undef laxonje_run
#undef laxonje_clock
#undef laxonje_runs_alone
#undef laxonje_queue_new
#undef laxonje_queue_delete
#undef laxonje_counters_new
#undef laxonje_counters_delete
#undef laxonje_drive_turn
#undef laxonje_drive_turns
#undef laxonje_drive_packet
#undef laxonje_drive_deliver
#undef laxonje_drive_deliver_as
#undef laxonje_drive_await
#undef laxonje_drive_await_as
#undef laxonje_mapped_page
#undef laxonje_mapped_extents
#undef laxonje_taken_name
#undef laxonje_made_name
#undef laxonje_relisted_name
#undef laxonje_refusal_name
#undef laxonje_halt_name
#undef laxonje_name

/* Each has the type of the header's own. */
extern __typeof__(inline_program_new) laxonje_program_new;
extern __typeof__(inline_program_delete) laxonje_program_delete;
extern __typeof__(inline_run) laxonje_run;
extern __typeof__(inline_clock) laxonje_clock;
extern __typeof__(inline_runs_alone) laxonje_runs_alone;
extern __typeof__(inline_queue_new) laxonje_queue_new;
extern __typeof__(inline_queue_delete) laxonje_queue_delete;
extern __typeof__(inline_counters_new) laxonje_counters_new;
extern __typeof__(inline_counters_delete) laxonje_counters_delete;
extern __typeof__(inline_drive_turn) laxonje_drive_turn;
extern __typeof__(inline_drive_turns) laxonje_drive_turns;
extern __typeof__(inline_drive_packet) laxonje_drive_packet;
extern __typeof__(inline_drive_deliver) laxonje_drive_deliver;
extern __typeof__(inline_drive_deliver_as) laxonje_drive_deliver_as;
extern __typeof__(inline_drive_await) laxonje_drive_await;
extern __typeof__(inline_drive_await_as) laxonje_drive_await_as;
extern __typeof__(inline_mapped_page) laxonje_mapped_page;
extern __typeof__(inline_mapped_extents) laxonje_mapped_extents;
extern __typeof__(inline_taken_name) laxonje_taken_name;
extern __typeof__(inline_made_name) laxonje_made_name;
extern __typeof__(inline_relisted_name) laxonje_relisted_name;
extern __typeof__(inline_refusal_name) laxonje_refusal_name;
extern __typeof__(inline_halt_name) laxonje_halt_name;
extern __typeof__(inline_name) laxonje_name;

struct laxonje_program *laxonje_program_new(void)
{
	return inline_program_new();
}

void laxonje_program_delete(struct laxonje_program **program)
{
	inline_program_delete(program);
}

struct laxonje_result laxonje_run(struct laxonje_program *program, uint64_t *counters, size_t counter_count, uint8_t *packet,
                                  size_t packet_bytes, uint32_t ifindex, uint32_t queue)
{
	return inline_run(program, counters, counter_count, packet, packet_bytes, ifindex, queue);
}

size_t laxonje_clock(struct laxonje_program *program)
{
	return inline_clock(program);
}

uint32_t laxonje_runs_alone(struct laxonje_program *program)
{
	return inline_runs_alone(program);
}

struct laxonje_queue *laxonje_queue_new(void)
{
	return inline_queue_new();
}

void laxonje_queue_delete(struct laxonje_queue **queue)
{
	inline_queue_delete(queue);
}

struct laxonje_shared *laxonje_counters_new(struct laxonje_program *program, size_t queues)
{
	return inline_counters_new(program, queues);
}

void laxonje_counters_delete(struct laxonje_shared **counters)
{
	inline_counters_delete(counters);
}

struct laxonje_op laxonje_drive_turn(struct laxonje_drive *drive, const struct laxonje_io *io)
{
	return inline_drive_turn(drive, io);
}

struct laxonje_op laxonje_drive_turns(struct laxonje_drive *drive, const struct laxonje_io *io, uint32_t most, struct laxonje_turns *turns)
{
	return inline_drive_turns(drive, io, most, turns);
}

size_t laxonje_drive_packet(const struct laxonje_drive *drive, const struct laxonje_turns *turns, uint32_t number, uint8_t *out, size_t out_bytes)
{
	return inline_drive_packet(drive, turns, number, out, out_bytes);
}

uint32_t laxonje_drive_deliver(struct laxonje_drive *drive, const struct laxonje_io *io, const uint8_t *packet, size_t packet_bytes,
                               struct laxonje_op *over)
{
	return inline_drive_deliver(drive, io, packet, packet_bytes, over);
}

uint32_t laxonje_drive_deliver_as(struct laxonje_drive *drive, const struct laxonje_io *io, const uint8_t *packet, size_t packet_bytes,
                                  uint32_t offload, uint32_t segment_size, struct laxonje_op *over)
{
	return inline_drive_deliver_as(drive, io, packet, packet_bytes, offload, segment_size, over);
}

uint32_t laxonje_drive_await(struct laxonje_drive *drive, const struct laxonje_io *io, size_t packet_bytes, struct laxonje_op *over)
{
	return inline_drive_await(drive, io, packet_bytes, over);
}

uint32_t laxonje_drive_await_as(struct laxonje_drive *drive, const struct laxonje_io *io, size_t packet_bytes, uint32_t offload,
                                struct laxonje_op *over)
{
	return inline_drive_await_as(drive, io, packet_bytes, offload, over);
}

uint32_t *laxonje_mapped_page(const struct laxonje_mapped *parts, size_t count, uint32_t frame)
{
	return inline_mapped_page(parts, count, frame);
}

size_t laxonje_mapped_extents(const struct laxonje_mapped *parts, size_t count, uint16_t domain, struct laxonje_extent *extents,
                              size_t extent_count)
{
	return inline_mapped_extents(parts, count, domain, extents, extent_count);
}

const char *laxonje_taken_name(uint32_t taken)
{
	return inline_taken_name(taken);
}

const char *laxonje_made_name(uint32_t made)
{
	return inline_made_name(made);
}

const char *laxonje_relisted_name(uint32_t relisted)
{
	return inline_relisted_name(relisted);
}

const char *laxonje_refusal_name(uint32_t cause)
{
	return inline_refusal_name(cause);
}

const char *laxonje_halt_name(uint32_t cause)
{
	return inline_halt_name(cause);
}

const char *laxonje_name(uint32_t outcome, uint32_t cause)
{
	return inline_name(outcome, cause);
}
