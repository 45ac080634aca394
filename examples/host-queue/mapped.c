/* The pages of a guest whose memory has many parts: each frame at the borders is found as by a search from the first part on, and the extents are the
 * parts' own. Parts that are no guest's get no extents, and whatever they are no frame is answered that its part hasn't. */
#include <laxonje_drive.h>
#include <stdio.h>

enum { MANY = 1000, DOMAIN = 7, LAST = 16 };

static unsigned wrong;
static uint32_t words[4 * LAXONJE_PAGE_WORDS];
static struct laxonje_mapped many[MANY];
static struct laxonje_extent extents[2 * MANY + 1];

static void is(const char *what, int holds)
{
	if (!holds)
		printf("wrong: %s\n", what);
	wrong += !holds;
}

/* The search from the first part on. */
static const uint32_t *plain(const struct laxonje_mapped *parts, size_t count, uint32_t frame)
{
	for (size_t i = 0; i < count; i++)
		if ((uint64_t)frame >= parts[i].first && (uint64_t)frame < (uint64_t)parts[i].first + parts[i].frames)
			return parts[i].words + (size_t)(frame - parts[i].first) * LAXONJE_PAGE_WORDS;
	return NULL;
}

/* The owner of a frame by the extents; LAXONJE_NOBODY beyond them. */
static unsigned owner(size_t count, uint32_t frame)
{
	uint64_t next = 0;
	for (size_t i = 0; i < count; i++)
		if (frame < (next += extents[i].frames))
			return extents[i].domain;
	return LAXONJE_NOBODY;
}

/* Both of all frames near the borders. */
static void compared(const char *what, const struct laxonje_mapped *parts, size_t count)
{
	size_t said = laxonje_mapped_extents(parts, count, DOMAIN, extents, 2 * MANY + 1);
	int found = 1, owned = said > 0 && said <= 2 * count;
	for (size_t i = 0; i < count; i++)
		for (uint32_t near = 0; near < 4; near++) {
			uint32_t first = parts[i].first + near - 2, last = parts[i].first + parts[i].frames + near - 2;
			found = found && laxonje_mapped_page(parts, count, first) == plain(parts, count, first);
			found = found && laxonje_mapped_page(parts, count, last) == plain(parts, count, last);
			owned = owned && (owner(said, first) == DOMAIN) == (plain(parts, count, first) != NULL);
			owned = owned && (owner(said, last) == DOMAIN) == (plain(parts, count, last) != NULL);
		}
	is(what, found && owned);
}

static size_t extents_of(struct laxonje_mapped one, struct laxonje_mapped other)
{
	const struct laxonje_mapped parts[] = { one, other };
	return laxonje_mapped_extents(parts, 2, DOMAIN, extents, 4);
}

static struct laxonje_mapped part(uint32_t first, uint32_t frames)
{
	const struct laxonje_mapped it = { first, frames, words };
	return it;
}

/* Parts of one to four frames, with holes of none to three before them, up to the last frame that a queue takes. */
static void many_parts(uint32_t from, unsigned seed)
{
	for (size_t i = 0; i < MANY; i++) {
		seed = seed * 1103515245 + 12345;
		many[i] = part(from + (seed >> 16) % 4, 1 + (seed >> 20) % 4);
		from = many[i].first + many[i].frames;
	}
}

static void good_parts(void)
{
	const struct laxonje_mapped first = part(0, 1), far = part(UINT32_MAX - 1, 1), all = part(0, UINT32_MAX);
	compared("frame 0", &first, 1);
	compared("the last frame", &far, 1);
	compared("all frames", &all, 1);
	for (unsigned seed = 0; seed < LAST; seed++) {
		many_parts(seed % 3, seed);
		for (size_t count = 1; count <= MANY; count += 111)
			compared("parts from frame 0 on", many, count);
		many_parts(UINT32_MAX - 8 * MANY, seed);
		compared("parts up to the last", many, MANY);
	}
	is("two that touch are one extent", extents_of(part(2, 3), part(5, 1)) == 2 && extents[0].frames == 2 && extents[1].frames == 4);
	is("room for fewer is answered too", laxonje_mapped_extents(many, MANY, DOMAIN, NULL, 0) == laxonje_mapped_extents(many, MANY, DOMAIN, extents, 2 * MANY));
}

static void bad_parts(void)
{
	struct laxonje_mapped none = part(0, 1);
	none.words = NULL;
	is("no part", !laxonje_mapped_extents(NULL, 0, DOMAIN, extents, 1) && !laxonje_mapped_page(NULL, 0, 0));
	is("a part without frames", !extents_of(part(0, 0), part(1, 1)));
	is("a part without words", !extents_of(none, part(1, 1)));
	is("parts that share a frame", !extents_of(part(0, 3), part(2, 2)));
	is("a part twice", !extents_of(part(4, 1), part(4, 1)));
	is("parts in falling order", !extents_of(part(8, 2), part(4, 2)));
	is("a part up to frame 2^32 - 1", !extents_of(part(0, 1), part(UINT32_MAX, 1)));
	is("a part that wraps", !extents_of(part(0, 1), part(UINT32_MAX - 1, UINT32_MAX)));
	is("a part that wraps to its own end", !extents_of(part(0, 1), part(3, UINT32_MAX - 1)));
}

/* Whatever the parts are, an answer is of the last part that begins at the frame or before it. */
static void any_parts(unsigned seed)
{
	int inside = 1;
	for (unsigned tries = 0; tries < 20000; tries++) {
		size_t count = tries % 9;
		for (size_t i = 0; i < count; i++) {
			seed = seed * 1103515245 + 12345;
			many[i] = part((seed >> 3) << (seed >> 28), (seed >> 8) % 3 ? (seed >> 16) % 4 : UINT32_MAX - (seed >> 30));
		}
		for (uint32_t frame = many[0].first - 2, i = 0; i < 6; i++, frame++) {
			const uint32_t *page = laxonje_mapped_page(many, count, frame);
			int is_in_one = !page;
			for (size_t k = 0; k < count; k++)
				is_in_one = is_in_one || (frame >= many[k].first && frame - many[k].first < many[k].frames);
			inside = inside && is_in_one;
		}
	}
	is("any parts", inside);
}

int main(void)
{
	good_parts();
	bad_parts();
	any_parts(1);
	printf("%u wrong\n", wrong);
	return wrong != 0;
}
