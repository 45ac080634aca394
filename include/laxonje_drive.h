/* The loop of a host of netback's queue: each access of a turn, a delivery or a wait, made once and in order in pages that the host has
 * mapped; and names for its logs. C11 and C++17, for gcc and clang. It is glue over laxonje.h: tested, and not proved.
 *
 * A host fills in a struct laxonje_io and a struct laxonje_drive, and calls laxonje_drive_turn or laxonje_drive_turns, laxonje_drive_deliver and
 * laxonje_drive_await. docs/HOST.md, "Netback's queue", has a whole host over it. A host with accesses of its own writes its own loop over
 * laxonje.h. */
#ifndef LAXONJE_DRIVE_H
#define LAXONJE_DRIVE_H

#include <laxonje.h>

/* What the host does. `host` is what each call is given. */
struct laxonje_io {
	void *host;
	/* The LAXONJE_PAGE_WORDS words of the frame `op->frame`, aligned to 4 bytes. It is asked before the op is made, so that a host that maps a
	 * page for a while sees what for. Null if the page can't be had: the op isn't made, and nothing after it. */
	uint32_t *(*page)(void *host, const struct laxonje_op *op);
	/* Sends a notice to a port. */
	void (*notify)(void *host, uint32_t port);
	/* Each op once it is made, with the lent words: a trace. May be null. */
	void (*told)(void *host, const struct laxonje_op *op, const uint32_t *words);
};

/* A queue, with `tx` and `rx` of the desc that it was made of, and the counters of its program. `words` is the loop's own. */
struct laxonje_drive {
	struct laxonje_queue *queue;
	uint32_t tx;
	uint32_t rx;
	uint64_t *counters;
	size_t counter_count;
	uint32_t words[LAXONJE_PAGE_WORDS];
};

/* Room for laxonje_drive_turns: how many packets it took, and what became of each. The rest is the loop's own. */
struct laxonje_turns {
	uint32_t count;
	uint32_t several_;
	struct laxonje_turned turned[LAXONJE_TURNS];
	uint32_t words_[LAXONJE_TURNS_WORDS];
};

/* The outcome if nothing was begun: `cause` says why (enum laxonje_taken). If it is LAXONJE_TAKEN_BUSY, an access is missing, and the queue can
 * only be deleted: `page` answered null, or `page` or `notify` didn't return, as by an exception. */
#define LAXONJE_NOTHING UINT32_MAX

/* Four words, wherever they lie, by one load: each once. */
#if defined(__x86_64__) && defined(__SSE2__) && !defined(LAXONJE_LOAD_4_)
struct laxonje_words_ {
	uint32_t word[4];
};
#define LAXONJE_LOAD_4_(words, at)                                                                            \
	__asm__ __volatile__("movdqu %1, %%xmm0\n\tmovdqu %%xmm0, %0"                                         \
	                     : "=m"(*(struct laxonje_words_ *)(words)) : "m"(*(const struct laxonje_words_ *)(at)) : "xmm0", "memory")
struct laxonje_two_ {
	uint32_t word[2];
};
#define LAXONJE_LOAD_2_(words, at)                                                                            \
	__asm__ __volatile__("movq %1, %%xmm0\n\tmovq %%xmm0, %0"                                             \
	                     : "=m"(*(struct laxonje_two_ *)(words)) : "m"(*(const struct laxonje_two_ *)(at)) : "xmm0", "memory")
#endif

/* Words in rising order, each once: by four as far as they go, since any answer is allowed for any word, and four times four in a round. */
static inline void laxonje_drive_load_(const uint32_t *at, uint32_t count, uint32_t *words)
{
	const uint32_t *const end = at + count;
#ifdef LAXONJE_LOAD_4_
	if (count == 2) { /* an entry of a grant table */
		LAXONJE_LOAD_2_(words, at);
		return;
	}
	for (; end - at >= 16; at += 16, words += 16) {
		LAXONJE_LOAD_4_(words, at);
		LAXONJE_LOAD_4_(words + 4, at + 4);
		LAXONJE_LOAD_4_(words + 8, at + 8);
		LAXONJE_LOAD_4_(words + 12, at + 12);
	}
	for (; end - at >= 4; at += 4, words += 4)
		LAXONJE_LOAD_4_(words, at);
	if (end - at >= 2) {
		LAXONJE_LOAD_2_(words, at);
		at += 2, words += 2;
	}
#endif
	for (; at < end; at++, words++)
		*words = __atomic_load_n(at, __ATOMIC_ACQUIRE);
}

/* Words into a page. */
static inline void laxonje_drive_store_(uint32_t *at, uint32_t count, const uint32_t *words)
{
	for (uint32_t i = 0; i < count; i++)
		__atomic_store_n(at + i, words[i], __ATOMIC_RELEASE);
}

/* A producer or an event index, and then a word into the lent one: the load must not come first. */
static inline void laxonje_drive_push_(uint32_t *page, const struct laxonje_op *op, uint32_t *word)
{
	__atomic_store_n(page + op->word, op->value[0], __ATOMIC_RELEASE);
	__atomic_thread_fence(__ATOMIC_SEQ_CST);
	*word = __atomic_load_n(page + op->value[1], __ATOMIC_ACQUIRE);
}

/* An op of a page. */
static inline void laxonje_drive_access_(uint32_t *words, uint32_t *page, const struct laxonje_op *op)
{
	uint32_t *lent = words + op->lent;
	switch (op->kind) {
	case LAXONJE_OP_READ:
		laxonje_drive_load_(page + op->word, op->count, lent);
		break;
	case LAXONJE_OP_WRITE:
		laxonje_drive_store_(page + op->word, op->count, lent);
		break;
	case LAXONJE_OP_STORE:
		laxonje_drive_store_(page + op->word, op->count, op->value);
		break;
	default:
		laxonje_drive_push_(page, op, lent);
		break;
	}
}

/* An op. Returns 0 if its page can't be had. */
static inline int laxonje_drive_make_(uint32_t *words, const struct laxonje_io *io, const struct laxonje_op *op)
{
	if (op->kind == LAXONJE_OP_NOTIFY) {
		io->notify(io->host, op->value[0]);
	} else if (op->kind != LAXONJE_OP_DONE) {
		uint32_t *page = io->page(io->host, op);
		if (!page)
			return 0;
		laxonje_drive_access_(words, page, op);
	}
	if (io->told)
		io->told(io->host, op, words);
	return 1;
}

/* The producer of a ring, which is word 0 of its frame, into the first lent word. Returns 0 if its page can't be had. */
static inline int laxonje_drive_producer_(uint32_t *words, const struct laxonje_io *io, uint32_t ring)
{
	struct laxonje_op read;
	read.kind = LAXONJE_OP_READ, read.frame = ring, read.word = 0, read.count = 1, read.lent = 0, read.value[0] = read.value[1] = 0, read.entry = 0;
	return laxonje_drive_make_(words, io, &read);
}

/* In place of the op that ends something, if nothing was begun. */
static inline struct laxonje_op laxonje_drive_nothing_(uint32_t cause)
{
	struct laxonje_op op;
	op.kind = 0, op.outcome = LAXONJE_NOTHING, op.number = 0, op.cause = cause, op.ops = 0, op.value[0] = op.value[1] = 0, op.entry = 0;
	return op;
}

/* Whether something may begin: nothing does without the counters that its steps will want. */
static inline uint32_t laxonje_drive_may_begin_(const struct laxonje_drive *drive)
{
	size_t wanted = laxonje_queue_counters(drive->queue);
	if (wanted == LAXONJE_NOWHERE)
		return LAXONJE_TAKEN_NOT;
	return wanted > drive->counter_count ? LAXONJE_TAKEN_COUNTERS : LAXONJE_TAKEN;
}

/* Ops in their order. Returns the last if it says what something has come to, one that says so if an access is missing, and else null. */
static inline const struct laxonje_op *laxonje_drive_ops_(uint32_t *words, const struct laxonje_io *io, struct laxonje_op *ops, size_t count)
{
	size_t made = 0;
	while (made < count && laxonje_drive_make_(words, io, &ops[made]))
		made++;
	if (made && made == count)
		return ops[count - 1].kind == LAXONJE_OP_DONE ? &ops[count - 1] : NULL;
	ops[0] = laxonje_drive_nothing_(LAXONJE_TAKEN_BUSY);
	return ops;
}

/* The ops of a call and those of the next ones, to the end of what is under way: the op that says what it came to. */
static inline struct laxonje_op laxonje_drive_finish_(struct laxonje_drive *drive, const struct laxonje_io *io, struct laxonje_op *ops,
                                                      size_t count)
{
	for (;;) {
		const struct laxonje_op *over = laxonje_drive_ops_(drive->words, io, ops, count);
		if (over)
			return *over;
		count = laxonje_queue_step(drive->queue, drive->words, LAXONJE_PAGE_WORDS, drive->counters, drive->counter_count, ops, LAXONJE_OPS);
	}
}

/* The ops of what was begun, to its end. */
static inline struct laxonje_op laxonje_drive_begun_(struct laxonje_drive *drive, const struct laxonje_io *io)
{
	struct laxonje_op ops[LAXONJE_OPS];
	size_t count = laxonje_queue_step(drive->queue, drive->words, LAXONJE_PAGE_WORDS, drive->counters, drive->counter_count, ops, LAXONJE_OPS);
	return laxonje_drive_finish_(drive, io, ops, count);
}

/* A turn: at most one packet. Of a queue that has halted the ring's producer is read all the same, so delete it before its pages are unmapped. */
static inline struct laxonje_op laxonje_drive_turn(struct laxonje_drive *drive, const struct laxonje_io *io)
{
	struct laxonje_op ops[LAXONJE_OPS];
	uint32_t taken = laxonje_drive_may_begin_(drive);
	if (taken != LAXONJE_TAKEN)
		return laxonje_drive_nothing_(taken);
	if (!laxonje_drive_producer_(drive->words, io, drive->tx))
		return laxonje_drive_nothing_(LAXONJE_TAKEN_BUSY);
	size_t count = laxonje_queue_turn(drive->queue, drive->words[0], ops, LAXONJE_OPS);
	return laxonje_drive_finish_(drive, io, ops, count);
}

/* The result of a turn of one packet, as if it were of several. */
static inline struct laxonje_turned laxonje_drive_turned_(struct laxonje_queue *queue, const struct laxonje_op *over)
{
	const int ran = over->outcome == LAXONJE_TURN_RAN;
	struct laxonje_turned turned;
	turned.outcome = over->outcome, turned.ops = over->ops, turned.number = over->number, turned.slots = over->slots, turned.cause = over->cause;
	turned.length = ran ? (uint32_t)laxonje_queue_packet(queue, NULL, 0) : 0;
	turned.flags = ran ? laxonje_queue_flags(queue) : 0;
	turned.segment_type = (uint16_t)(ran ? laxonje_queue_segment_type(queue) : 0);
	turned.segment_size = (uint16_t)(ran ? laxonje_queue_segment_size(queue) : 0);
	return turned;
}

/* The results of what is over. Returns the op that says it: of several packets with which the queue has halted, that it has. */
static inline struct laxonje_op laxonje_drive_results_(struct laxonje_drive *drive, struct laxonje_turns *turns, struct laxonje_op over)
{
	turns->several_ = over.outcome == LAXONJE_TURN_SEVERAL;
	if (turns->several_) {
		turns->count = over.slots;
		if (turns->turned[over.slots - 1].outcome == LAXONJE_TURN_HALTED)
			over.outcome = LAXONJE_TURN_HALTED, over.cause = turns->turned[over.slots - 1].cause, over.slots = 0;
	} else if (over.outcome == LAXONJE_TURN_RAN || over.outcome == LAXONJE_TURN_REFUSED) {
		turns->count = 1;
		turns->turned[0] = laxonje_drive_turned_(drive->queue, &over);
	}
	return over;
}

/* A turn of up to `most` packets, at most LAXONJE_TURNS: turns->count of them were taken, and the first of turns->turned say what became of each. The
 * outcome is LAXONJE_TURN_HALTED if the queue has halted, also behind some of them, and LAXONJE_TURN_SEVERAL or that of laxonje_drive_turn else. */
static inline struct laxonje_op laxonje_drive_turns(struct laxonje_drive *drive, const struct laxonje_io *io, uint32_t most,
                                                    struct laxonje_turns *turns)
{
	struct laxonje_op ops[LAXONJE_TURNS_OPS];
	const struct laxonje_op *over;
	uint32_t taken = laxonje_drive_may_begin_(drive);
	turns->count = 0;
	if (taken != LAXONJE_TAKEN)
		return laxonje_drive_nothing_(taken);
	if (!laxonje_drive_producer_(turns->words_, io, drive->tx))
		return laxonje_drive_nothing_(LAXONJE_TAKEN_BUSY);
	size_t count = laxonje_queue_turns(drive->queue, turns->words_[0], most, ops, LAXONJE_TURNS_OPS);
	while (!(over = laxonje_drive_ops_(turns->words_, io, ops, count)))
		count = laxonje_queue_turns_step(drive->queue, turns->words_, LAXONJE_TURNS_WORDS, drive->counters, drive->counter_count, ops,
		                                 LAXONJE_TURNS_OPS, turns->turned, LAXONJE_TURNS);
	return laxonje_drive_results_(drive, turns, *over);
}

/* Copies out the packet of that number, from 0, of those that laxonje_drive_turns took last, as far as there is room, and answers how long it is:
 * 0 if its program didn't run. It is there until the next turn begins; if it was taken alone, also until the next delivery does. */
static inline size_t laxonje_drive_packet(const struct laxonje_drive *drive, const struct laxonje_turns *turns, uint32_t number, uint8_t *out,
                                          size_t out_bytes)
{
	if (number >= turns->count)
		return 0;
	return turns->several_ ? laxonje_queue_turns_packet(drive->queue, number, out, out_bytes) : laxonje_queue_packet(drive->queue, out, out_bytes);
}

/* A packet of the host's own to the guest, as laxonje_queue_deliver_as has it. If it is taken (enum laxonje_taken), `over` says what became of it;
 * else its outcome is LAXONJE_NOTHING. */
static inline uint32_t laxonje_drive_deliver_as(struct laxonje_drive *drive, const struct laxonje_io *io, const uint8_t *packet,
                                                size_t packet_bytes, uint32_t offload, uint32_t segment_size, struct laxonje_op *over)
{
	uint32_t taken = laxonje_drive_may_begin_(drive);
	if (taken == LAXONJE_TAKEN && !laxonje_drive_producer_(drive->words, io, drive->rx))
		taken = LAXONJE_TAKEN_BUSY;
	if (taken == LAXONJE_TAKEN)
		taken = laxonje_queue_deliver_as(drive->queue, drive->words[0], packet, packet_bytes, offload, segment_size);
	*over = taken == LAXONJE_TAKEN ? laxonje_drive_begun_(drive, io) : laxonje_drive_nothing_(taken);
	return taken;
}

/* The same for a packet that leaves nothing to the guest. */
static inline uint32_t laxonje_drive_deliver(struct laxonje_drive *drive, const struct laxonje_io *io, const uint8_t *packet, size_t packet_bytes,
                                             struct laxonje_op *over)
{
	return laxonje_drive_deliver_as(drive, io, packet, packet_bytes, LAXONJE_OFFLOAD_NONE, 0, over);
}

/* A wait for the rx slots of a packet of that many bytes that leaves this to the guest (enum laxonje_offload), one that can be delivered. If it is
 * taken, `over` says what it came to; else its outcome is LAXONJE_NOTHING. */
static inline uint32_t laxonje_drive_await_as(struct laxonje_drive *drive, const struct laxonje_io *io, size_t packet_bytes, uint32_t offload,
                                              struct laxonje_op *over)
{
	const size_t page = 4 * LAXONJE_PAGE_WORDS, header = 14;
	const size_t extra = offload == LAXONJE_OFFLOAD_TCPV4 || offload == LAXONJE_OFFLOAD_TCPV6;
	uint32_t taken = laxonje_drive_may_begin_(drive);
	if (taken == LAXONJE_TAKEN && (packet_bytes < header || packet_bytes > LAXONJE_PACKET))
		taken = LAXONJE_TAKEN_NO_FRAME;
	if (taken == LAXONJE_TAKEN)
		taken = laxonje_queue_await(drive->queue, (uint32_t)((packet_bytes + page - 1) / page + extra));
	*over = taken == LAXONJE_TAKEN ? laxonje_drive_begun_(drive, io) : laxonje_drive_nothing_(taken);
	return taken;
}

/* The same for a packet that leaves nothing to the guest. */
static inline uint32_t laxonje_drive_await(struct laxonje_drive *drive, const struct laxonje_io *io, size_t packet_bytes, struct laxonje_op *over)
{
	return laxonje_drive_await_as(drive, io, packet_bytes, LAXONJE_OFFLOAD_NONE, over);
}

/* ---- The pages of a guest whose memory has many parts */

/* The domain that owns a frame of a hole: no domain has it (Xen's DOMID_INVALID). */
#define LAXONJE_NOBODY 0x7ff4

/* Frames of a guest, one after another, that the host has mapped so: the first, how many, and the words of the first. */
struct laxonje_mapped {
	uint32_t first;
	uint32_t frames;
	uint32_t *words;
};

/* Returns the words of a frame, or null if no part has it. The parts are those that laxonje_mapped_extents takes: it is found by halves, in 20
 * comparisons among a million. */
static inline uint32_t *laxonje_mapped_page(const struct laxonje_mapped *parts, size_t count, uint32_t frame)
{
	size_t low = 0, high = count;
	while (low < high) {
		size_t middle = low + (high - low) / 2;
		if (parts[middle].first <= frame)
			low = middle + 1;
		else
			high = middle;
	}
	if (!low || frame - parts[low - 1].first >= parts[low - 1].frames)
		return NULL;
	return parts[low - 1].words + (size_t)(frame - parts[low - 1].first) * LAXONJE_PAGE_WORDS;
}

/* Writes the owners for laxonje_queue_make_extents, as far as there is room: `domain` those of the parts, and LAXONJE_NOBODY those of the holes
 * below and between. Returns how many extents there are, two for each part at most. Returns 0 if there is no part, or a part has no frames or
 * no words, begins before the end of the one before it, or passes frame 2^32 - 2. Parts that touch are one extent, since each check of a grant
 * searches the extents from the first on. */
static inline size_t laxonje_mapped_extents(const struct laxonje_mapped *parts, size_t count, uint16_t domain, struct laxonje_extent *extents,
                                            size_t extent_count)
{
	size_t said = 0;
	uint64_t next = 0;
	for (size_t i = 0; i < count; i++) {
		const uint64_t first = parts[i].first, end = first + parts[i].frames;
		const int touches = said && first == next;
		if (!parts[i].frames || !parts[i].words || first < next || end > LAXONJE_EXTENT_FRAMES)
			return 0;
		if (first > next && said++ < extent_count)
			extents[said - 1].frames = (uint32_t)(first - next), extents[said - 1].domain = LAXONJE_NOBODY;
		if (!touches && said++ < extent_count)
			extents[said - 1].frames = 0, extents[said - 1].domain = domain;
		if (said <= extent_count)
			extents[said - 1].frames += parts[i].frames;
		next = end;
	}
	return said;
}

/* Why nothing was begun, in words for a log (enum laxonje_taken). */
static inline const char *laxonje_taken_name(uint32_t taken)
{
	switch (taken) {
	case LAXONJE_TAKEN: return "it was begun";
	case LAXONJE_TAKEN_NOT: return "there is no queue";
	case LAXONJE_TAKEN_BUSY: return "something is under way";
	case LAXONJE_TAKEN_NO_FRAME: return "fewer than 14 bytes, or more than 65,535";
	case LAXONJE_TAKEN_SLOTS: return "more slots than a ring has";
	case LAXONJE_TAKEN_COUNTERS: return "fewer counters than the program has";
	case LAXONJE_TAKEN_NOT_ACCEPTED: return "the guest doesn't take what the packet leaves to it";
	case LAXONJE_TAKEN_UNKNOWN: return "what the packet leaves has no name";
	default: return "no answer";
	}
}

/* Why no queue was made, in words for a log (enum laxonje_made). */
static inline const char *laxonje_made_name(uint32_t made)
{
	switch (made) {
	case LAXONJE_MADE: return "a queue was made";
	case LAXONJE_MADE_MEMORY: return "memory ran out";
	case LAXONJE_MADE_FRAMES: return "too many frames";
	case LAXONJE_MADE_TABLE: return "too many frames of the grant table, none, or one that isn't the frontend's";
	case LAXONJE_MADE_RING: return "a ring's frame isn't the frontend's, is the other ring's, or is one of the table's";
	case LAXONJE_MADE_DOMAIN: return "the frontend's domain is the backend's own";
	case LAXONJE_MADE_PROGRAM: return "there is no program";
	case LAXONJE_MADE_NULL: return "a null pointer for the desc or the queue";
	default: return "no answer";
	}
}

/* Why a queue has the lists that it had, in words for a log (enum laxonje_relisted). */
static inline const char *laxonje_relisted_name(uint32_t relisted)
{
	switch (relisted) {
	case LAXONJE_RELISTED: return "the queue has the lists";
	case LAXONJE_RELISTED_NOT: return "there is no queue";
	case LAXONJE_RELISTED_BUSY: return "something is under way";
	case LAXONJE_RELISTED_MAPS: return "the program has other maps than the queue";
	case LAXONJE_RELISTED_MEMORY: return "memory ran out";
	case LAXONJE_RELISTED_PROGRAM: return "there is no program";
	default: return "no answer";
	}
}

/* Why a packet was refused, in words for a log (enum laxonje_refusal). */
static inline const char *laxonje_refusal_name(uint32_t cause)
{
	switch (cause) {
	case LAXONJE_REFUSAL_SHORT: return "less than an Ethernet header";
	case LAXONJE_REFUSAL_SIZES: return "later slots have more bytes than the first";
	case LAXONJE_REFUSAL_PAGE: return "a slot's bytes pass the end of its page";
	case LAXONJE_REFUSAL_GRANT: return "a tx slot's grant failed its check";
	case LAXONJE_REFUSAL_EXTRA: return "an extra info";
	case LAXONJE_REFUSAL_FEW_SLOTS: return "too few rx slots to send it back";
	case LAXONJE_REFUSAL_RX_GRANT: return "an rx slot's grant failed its check";
	default: return "no cause";
	}
}

/* Why a queue has halted, in words for a log (enum laxonje_halt). */
static inline const char *laxonje_halt_name(uint32_t cause)
{
	switch (cause) {
	case LAXONJE_HALT_TX_PRODUCER: return "the tx producer is more than a ring ahead";
	case LAXONJE_HALT_SHORT_CHAIN: return "a chain wants a slot that the producer didn't show";
	case LAXONJE_HALT_SLOTS: return "more than 18 slots";
	case LAXONJE_HALT_UNKNOWN_EXTRA: return "an extra info of no known type";
	case LAXONJE_HALT_EXTRAS: return "too many extra infos";
	case LAXONJE_HALT_RX_PRODUCER: return "the rx producer is more than a ring ahead";
	default: return "no cause";
	}
}

/* What something came to, in words for a log, and why: the outcome and the cause of a LAXONJE_OP_DONE. */
static inline const char *laxonje_name(uint32_t outcome, uint32_t cause)
{
	switch (outcome) {
	case LAXONJE_NOTHING: return laxonje_taken_name(cause);
	case LAXONJE_TURN_IDLE: return "no request";
	case LAXONJE_TURN_SEVERAL: return "several packets";
	case LAXONJE_TURN_RAN: return "the program ran";
	case LAXONJE_TURN_REFUSED: return laxonje_refusal_name(cause);
	case LAXONJE_DELIVERY_SENT: return "sent";
	case LAXONJE_DELIVERY_FEW_SLOTS: return "too few rx slots";
	case LAXONJE_DELIVERY_REFUSED: return "an rx slot's grant failed its check";
	case LAXONJE_AWAITED_POSTED: return "the rx slots are there";
	case LAXONJE_AWAITED_WAITING: return "the rx slots aren't there yet";
	case LAXONJE_TURN_HALTED:
	case LAXONJE_DELIVERY_HALTED:
	case LAXONJE_AWAITED_HALTED: return laxonje_halt_name(cause);
	default: return "no outcome";
	}
}

#endif
