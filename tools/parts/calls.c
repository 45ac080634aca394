/* The calls of the library that take a handle, for a null one too, which holds nothing: tools/parts/pack-host compiles this into each archive, and
 * gives the library's own calls, which have no answer for null, the names held_laxonje_*. And what says which header an object may have been
 * compiled with. */
#include <laxonje.h>

#define HELD(call) extern __typeof__(call) held_##call

const char laxonje_header_4 = LAXONJE_VERSION;

HELD(laxonje_load);
HELD(laxonje_load_settings);
HELD(laxonje_load_object);
HELD(laxonje_again);
HELD(laxonje_free);
HELD(laxonje_run_into);
HELD(laxonje_run_batch);
HELD(laxonje_counters);
HELD(laxonje_place);
HELD(laxonje_map_count);
HELD(laxonje_map_size);
HELD(laxonje_map_named);
HELD(laxonje_map_name);
HELD(laxonje_queue_make);
HELD(laxonje_queue_make_extents);
HELD(laxonje_queue_turn);
HELD(laxonje_queue_step);
HELD(laxonje_queue_turns);
HELD(laxonje_queue_turns_step);
HELD(laxonje_queue_turns_packet);
HELD(laxonje_queue_counters);
HELD(laxonje_queue_deliver);
HELD(laxonje_queue_deliver_as);
HELD(laxonje_queue_await);
HELD(laxonje_queue_flags);
HELD(laxonje_queue_offer);
HELD(laxonje_queue_accept);
HELD(laxonje_queue_segment_type);
HELD(laxonje_queue_segment_size);
HELD(laxonje_queue_packet);
HELD(laxonje_queue_state);
HELD(laxonje_queue_free);
HELD(laxonje_relist);
HELD(laxonje_queue_relist);
HELD(laxonje_queue_share);
HELD(laxonje_queue_pass);
HELD(laxonje_counters_make);
HELD(laxonje_counters_at);
HELD(laxonje_counters_add);
HELD(laxonje_counters_free);

static const struct laxonje_verdict no_out = { LAXONJE_NULL, 0, 0 }, no_program = { LAXONJE_EMPTY, 0, 0 };

struct laxonje_verdict laxonje_load(const uint8_t *program, size_t program_bytes, const struct laxonje_map *maps, size_t map_count,
                                    struct laxonje_program *out)
{
	return out ? held_laxonje_load(program, program_bytes, maps, map_count, out) : no_out;
}

struct laxonje_verdict laxonje_load_settings(const uint8_t *text, size_t text_bytes, struct laxonje_program *out)
{
	return out ? held_laxonje_load_settings(text, text_bytes, out) : no_out;
}

struct laxonje_verdict laxonje_load_object(const uint8_t *object, size_t object_bytes, const uint8_t *function, size_t function_bytes,
                                           struct laxonje_program *out)
{
	return out ? held_laxonje_load_object(object, object_bytes, function, function_bytes, out) : no_out;
}

struct laxonje_verdict laxonje_again(struct laxonje_program *program, struct laxonje_program *out)
{
	if (!out)
		return no_out;
	if (program)
		return held_laxonje_again(program, out);
	held_laxonje_free(out);
	return no_program;
}

void laxonje_free(struct laxonje_program *program)
{
	if (program)
		held_laxonje_free(program);
}

void laxonje_run_into(struct laxonje_program *program, uint64_t *counters, size_t counter_count, uint8_t *packet, size_t packet_bytes,
                      uint32_t ifindex, uint32_t queue, struct laxonje_result *out)
{
	static const struct laxonje_result nothing = { 0, LAXONJE_ABORTED, 0 };
	if (program && out)
		held_laxonje_run_into(program, counters, counter_count, packet, packet_bytes, ifindex, queue, out);
	else if (out)
		*out = nothing;
}

size_t laxonje_run_batch(struct laxonje_program *program, uint64_t *counters, size_t counter_count, uint8_t *bytes, size_t byte_count,
                         const struct laxonje_packet *packets, size_t packet_count, struct laxonje_result *results, size_t result_count,
                         uint32_t ifindex, uint32_t queue)
{
	if (!program)
		return 0;
	return held_laxonje_run_batch(program, counters, counter_count, bytes, byte_count, packets, packet_count, results, result_count, ifindex,
	                              queue);
}

size_t laxonje_counters(struct laxonje_program *program)
{
	return program ? held_laxonje_counters(program) : 0;
}

size_t laxonje_place(struct laxonje_program *program, uint32_t map, uint32_t entry, uint32_t counter)
{
	return program ? held_laxonje_place(program, map, entry, counter) : LAXONJE_NOWHERE;
}

size_t laxonje_map_count(struct laxonje_program *program)
{
	return program ? held_laxonje_map_count(program) : 0;
}

struct laxonje_map laxonje_map_size(struct laxonje_program *program, uint32_t number)
{
	static const struct laxonje_map no_map = { 0, 0 };
	return program ? held_laxonje_map_size(program, number) : no_map;
}

size_t laxonje_map_named(struct laxonje_program *program, const uint8_t *name, size_t name_bytes)
{
	return program ? held_laxonje_map_named(program, name, name_bytes) : LAXONJE_NOWHERE;
}

size_t laxonje_map_name(struct laxonje_program *program, uint32_t number, uint8_t *out, size_t out_bytes)
{
	return program ? held_laxonje_map_name(program, number, out, out_bytes) : 0;
}

uint32_t laxonje_queue_make(struct laxonje_program *program, const uint16_t *owners, size_t owner_count, const uint32_t *table,
                            size_t table_count, const struct laxonje_queue_desc *desc, struct laxonje_queue *out)
{
	if (!desc || !out)
		return LAXONJE_MADE_NULL;
	return program ? held_laxonje_queue_make(program, owners, owner_count, table, table_count, desc, out) : LAXONJE_MADE_PROGRAM;
}

uint32_t laxonje_queue_make_extents(struct laxonje_program *program, const struct laxonje_extent *extents, size_t extent_count,
                                    const uint32_t *table, size_t table_count, const struct laxonje_queue_desc *desc,
                                    struct laxonje_queue *out)
{
	if (!desc || !out)
		return LAXONJE_MADE_NULL;
	return program ? held_laxonje_queue_make_extents(program, extents, extent_count, table, table_count, desc, out) : LAXONJE_MADE_PROGRAM;
}

size_t laxonje_queue_turn(struct laxonje_queue *queue, uint32_t producer, struct laxonje_op *ops, size_t op_count)
{
	return queue ? held_laxonje_queue_turn(queue, producer, ops, op_count) : 0;
}

size_t laxonje_queue_step(struct laxonje_queue *queue, uint32_t *words, size_t word_count, uint64_t *counters, size_t counter_count,
                          struct laxonje_op *ops, size_t op_count)
{
	return queue ? held_laxonje_queue_step(queue, words, word_count, counters, counter_count, ops, op_count) : 0;
}

size_t laxonje_queue_turns(struct laxonje_queue *queue, uint32_t producer, uint32_t most, struct laxonje_op *ops, size_t op_count)
{
	return queue ? held_laxonje_queue_turns(queue, producer, most, ops, op_count) : 0;
}

size_t laxonje_queue_turns_step(struct laxonje_queue *queue, uint32_t *words, size_t word_count, uint64_t *counters, size_t counter_count,
                                struct laxonje_op *ops, size_t op_count, struct laxonje_turned *turned, size_t turned_count)
{
	if (!queue)
		return 0;
	return held_laxonje_queue_turns_step(queue, words, word_count, counters, counter_count, ops, op_count, turned, turned_count);
}

size_t laxonje_queue_turns_packet(struct laxonje_queue *queue, size_t number, uint8_t *out, size_t out_bytes)
{
	return queue ? held_laxonje_queue_turns_packet(queue, number, out, out_bytes) : 0;
}

size_t laxonje_queue_counters(struct laxonje_queue *queue)
{
	return queue ? held_laxonje_queue_counters(queue) : LAXONJE_NOWHERE;
}

uint32_t laxonje_queue_deliver(struct laxonje_queue *queue, uint32_t producer, const uint8_t *packet, size_t packet_bytes)
{
	return queue ? held_laxonje_queue_deliver(queue, producer, packet, packet_bytes) : LAXONJE_TAKEN_NOT;
}

uint32_t laxonje_queue_deliver_as(struct laxonje_queue *queue, uint32_t producer, const uint8_t *packet, size_t packet_bytes,
                                  uint32_t offload, uint32_t segment_size)
{
	return queue ? held_laxonje_queue_deliver_as(queue, producer, packet, packet_bytes, offload, segment_size) : LAXONJE_TAKEN_NOT;
}

uint32_t laxonje_queue_await(struct laxonje_queue *queue, uint32_t pages)
{
	return queue ? held_laxonje_queue_await(queue, pages) : LAXONJE_TAKEN_NOT;
}

uint32_t laxonje_queue_flags(struct laxonje_queue *queue)
{
	return queue ? held_laxonje_queue_flags(queue) : 0;
}

uint32_t laxonje_queue_offer(struct laxonje_queue *queue, uint32_t offers)
{
	return queue ? held_laxonje_queue_offer(queue, offers) : LAXONJE_OFFERED_NOT;
}

uint32_t laxonje_queue_accept(struct laxonje_queue *queue, uint32_t accepts)
{
	return queue ? held_laxonje_queue_accept(queue, accepts) : LAXONJE_OFFERED_NOT;
}

uint32_t laxonje_queue_segment_type(struct laxonje_queue *queue)
{
	return queue ? held_laxonje_queue_segment_type(queue) : LAXONJE_SEGMENTS_NONE;
}

uint32_t laxonje_queue_segment_size(struct laxonje_queue *queue)
{
	return queue ? held_laxonje_queue_segment_size(queue) : 0;
}

size_t laxonje_queue_packet(struct laxonje_queue *queue, uint8_t *out, size_t out_bytes)
{
	return queue ? held_laxonje_queue_packet(queue, out, out_bytes) : 0;
}

struct laxonje_queue_standing laxonje_queue_state(struct laxonje_queue *queue)
{
	static const struct laxonje_queue_standing none = { LAXONJE_STANDS_NOT, 0, 0, 0 };
	return queue ? held_laxonje_queue_state(queue) : none;
}

void laxonje_queue_free(struct laxonje_queue *queue)
{
	if (queue)
		held_laxonje_queue_free(queue);
}

struct laxonje_verdict laxonje_relist(struct laxonje_program *program, const uint8_t *text, size_t text_bytes)
{
	return program ? held_laxonje_relist(program, text, text_bytes) : no_program;
}

uint32_t laxonje_queue_relist(struct laxonje_queue *queue, struct laxonje_program *program)
{
	_Alignas(void *) char none[LAXONJE_HANDLE] = { 0 };
	return queue ? held_laxonje_queue_relist(queue, program ? program : (void *)none) : LAXONJE_RELISTED_NOT;
}

uint32_t laxonje_queue_share(struct laxonje_queue *queue, struct laxonje_shared *counters)
{
	return queue && counters ? held_laxonje_queue_share(queue, counters) : LAXONJE_SHARES_NOTHING;
}

uint32_t laxonje_queue_pass(struct laxonje_queue *queue, struct laxonje_queue *to)
{
	return queue && to ? held_laxonje_queue_pass(queue, to) : LAXONJE_SHARES_NOTHING;
}

uint32_t laxonje_counters_make(struct laxonje_program *program, size_t queues, struct laxonje_shared *out)
{
	return program && out ? held_laxonje_counters_make(program, queues, out) : LAXONJE_SHARES_NOTHING;
}

uint64_t laxonje_counters_at(struct laxonje_shared *counters, uint32_t map, uint32_t entry, uint32_t counter)
{
	return counters ? held_laxonje_counters_at(counters, map, entry, counter) : 0;
}

uint32_t laxonje_counters_add(struct laxonje_shared *counters, uint32_t map, uint32_t entry, uint32_t counter, uint64_t amount)
{
	return counters ? held_laxonje_counters_add(counters, map, entry, counter, amount) : LAXONJE_NO_COUNTER;
}

void laxonje_counters_free(struct laxonje_shared *counters)
{
	if (counters)
		held_laxonje_counters_free(counters);
}
