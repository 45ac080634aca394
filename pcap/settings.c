/* A reader of TOML that keeps three things. The library has judged the text before: what isn't TOML ends the reading, and no more. */
#include "settings.h"
#include <stdbool.h>
#include <string.h>

enum { MOST_PARTS = 3, MOST_DEPTH = 8 };

/* Where the reading is. */
struct reader {
	const uint8_t *at, *end;
};

/* The keys that lead to a value, the first of them, and how many there are. */
struct path {
	struct name parts[MOST_PARTS];
	size_t count;
};

static bool starts(const struct reader *reader, const char *with)
{
	size_t length = strlen(with);

	return (size_t)(reader->end - reader->at) >= length && !memcmp(reader->at, with, length);
}

static bool took(struct reader *reader, const char *text)
{
	bool is_there = starts(reader, text);

	if (is_there)
		reader->at += strlen(text);
	return is_there;
}

static bool is_one_of(const struct reader *reader, const char *bytes)
{
	return reader->at < reader->end && *reader->at && strchr(bytes, *reader->at);
}

/* Passes blanks and comments, and line ends too. */
static void skip(struct reader *reader)
{
	while (is_one_of(reader, " \t\r\n#"))
		if (took(reader, "#"))
			while (reader->at < reader->end && *reader->at != '\n')
				reader->at++;
		else
			reader->at++;
}

/* A longer name than any map's keeps its beginning. */
static void add_byte(struct name *name, unsigned byte)
{
	if (name->length < MOST_NAME)
		name->bytes[name->length++] = (char)byte;
}

static void add_letter(struct name *name, uint32_t letter)
{
	if (letter < 0x80) {
		add_byte(name, letter);
		return;
	}
	int more = letter < 0x800 ? 1 : letter < 0x10000 ? 2 : 3;
	add_byte(name, ((0xff00u >> (more + 1)) & 0xff) | letter >> 6 * more);
	while (more--)
		add_byte(name, 0x80 | ((letter >> 6 * more) & 0x3f));
}

static int digit_of(uint8_t byte)
{
	static const char digits[] = "0123456789abcdef";
	const char *found = strchr(digits, byte | (byte >= 'A' ? 0x20 : 0));

	return byte && found ? (int)(found - digits) : 16;
}

static uint32_t number_of_digits(struct reader *reader, int count)
{
	uint32_t number = 0;

	while (count-- && reader->at < reader->end && digit_of(*reader->at) < 16)
		number = number << 4 | (uint32_t)digit_of(*reader->at++);
	return number;
}

/* What stands after a backslash. */
static void read_escape(struct reader *reader, struct name *name)
{
	static const char letters[] = "btnfre\"\\", meant[] = "\b\t\n\f\r\033\"\\";

	if (is_one_of(reader, letters))
		add_byte(name, (uint8_t)meant[strchr(letters, *reader->at++) - letters]);
	else if (took(reader, "u"))
		add_letter(name, number_of_digits(reader, 4));
	else if (took(reader, "U"))
		add_letter(name, number_of_digits(reader, 8));
	else if (took(reader, "x"))
		add_letter(name, number_of_digits(reader, 2));
	else
		while (is_one_of(reader, " \t\r\n"))
			reader->at++;
}

/* A text up to its marks, which are up to three quotes. A text of several lines may end in one or two quotes of its own. */
static struct name read_quoted(struct reader *reader, const char *marks)
{
	struct name name = {.length = 0};
	bool has_escapes = marks[0] == '"', is_long = strlen(marks) == 3;

	if (is_long && !took(reader, "\n"))
		took(reader, "\r\n");
	while (reader->at < reader->end) {
		bool is_end = starts(reader, marks);

		if (is_end && !(is_long && reader->end - reader->at > 3 && reader->at[3] == (uint8_t)marks[0]))
			break;
		if (has_escapes && took(reader, "\\"))
			read_escape(reader, &name);
		else
			add_byte(&name, *reader->at++);
	}
	took(reader, marks);
	return name;
}

static bool read_text(struct reader *reader, struct name *name)
{
	static const char *const marks[] = {"\"\"\"", "'''", "\"", "'"};

	for (size_t i = 0; i < sizeof marks / sizeof *marks; i++)
		if (took(reader, marks[i])) {
			*name = read_quoted(reader, marks[i]);
			return true;
		}
	return false;
}

static bool is_bare(uint8_t byte)
{
	return byte >= 0x80 || byte == '_' || byte == '-' || (byte >= '0' && byte <= '9') || ((byte | 0x20) >= 'a' && (byte | 0x20) <= 'z');
}

static struct name read_key(struct reader *reader)
{
	struct name name = {.length = 0};

	if (!read_text(reader, &name))
		while (reader->at < reader->end && is_bare(*reader->at))
			add_byte(&name, *reader->at++);
	return name;
}

/* Adds the keys of a dotted one. */
static void read_path(struct reader *reader, struct path *path)
{
	do {
		skip(reader);
		struct name key = read_key(reader);

		if (path->count < MOST_PARTS)
			path->parts[path->count] = key;
		path->count++;
		skip(reader);
	} while (took(reader, "."));
}

static bool is_part(const struct path *path, size_t number, const char *text)
{
	return path->parts[number].length == strlen(text) && !memcmp(path->parts[number].bytes, text, strlen(text));
}

/* What stands in front of a number's digits: their base. */
static int read_sign_and_base(struct reader *reader)
{
	took(reader, "+");
	if (took(reader, "0x"))
		return 16;
	if (took(reader, "0o"))
		return 8;
	return took(reader, "0b") ? 2 : 10;
}

/* A whole number in TOML's forms: decimal, or with a prefix, with underlines between digits. */
static uint32_t read_number(struct reader *reader)
{
	uint32_t base = (uint32_t)read_sign_and_base(reader), number = 0;

	for (; reader->at < reader->end && (*reader->at == '_' || digit_of(*reader->at) < (int)base); reader->at++)
		if (*reader->at != '_')
			number = number * base + (uint32_t)digit_of(*reader->at);
	return number;
}

/* Whether a number is above 0, of whatever digits. */
static bool is_above_0(struct reader *reader)
{
	bool is_above = false;

	read_sign_and_base(reader);
	for (; reader->at < reader->end && (*reader->at == '_' || digit_of(*reader->at) < 16); reader->at++)
		is_above |= *reader->at != '_' && *reader->at != '0';
	return is_above;
}

static void read_value(struct reader *reader, const struct path *path, struct settings *found, int depth);

static void read_list(struct reader *reader, const struct path *path, struct settings *found, int depth)
{
	for (skip(reader); reader->at < reader->end && !took(reader, "]"); skip(reader)) {
		const uint8_t *before = reader->at;

		read_value(reader, path, found, depth);
		skip(reader);
		if (!took(reader, ",") && reader->at == before)
			reader->at = reader->end;
	}
}

static void read_pair(struct reader *reader, const struct path *table, struct settings *found, int depth)
{
	struct path path = *table;

	read_path(reader, &path);
	if (!took(reader, "="))
		reader->at = reader->end;
	skip(reader);
	read_value(reader, &path, found, depth);
}

static void read_table(struct reader *reader, const struct path *path, struct settings *found, int depth)
{
	for (skip(reader); reader->at < reader->end && !took(reader, "}"); skip(reader)) {
		read_pair(reader, path, found, depth);
		skip(reader);
		took(reader, ",");
	}
}

static void read_value(struct reader *reader, const struct path *path, struct settings *found, int depth)
{
	struct name text;

	if (depth == MOST_DEPTH)
		reader->at = reader->end;
	else if (took(reader, "["))
		read_list(reader, path, found, depth + 1);
	else if (took(reader, "{"))
		read_table(reader, path, found, depth + 1);
	else if (read_text(reader, &text)) {
		if (path->count == 2 && is_part(path, 0, "map") && is_part(path, 1, "name") && found->map_count < MOST_MAPS)
			found->maps[found->map_count++] = text;
	} else if (path->count == 1 && is_part(path, 0, "ifindex"))
		found->ifindex = read_number(reader);
	else {
		if (path->count == 2 && is_part(path, 0, "map") && is_part(path, 1, "values"))
			found->begins |= is_above_0(reader);
		while (reader->at < reader->end && !is_one_of(reader, ",]}# \t\r\n"))
			reader->at++;
	}
}

struct settings settings_of(const uint8_t *text, size_t length)
{
	struct settings found = {.map_count = 0};
	struct reader reader = {text, text + length};
	struct path table = {.count = 0};

	took(&reader, "\xef\xbb\xbf");
	for (skip(&reader); reader.at < reader.end; skip(&reader)) {
		if (!took(&reader, "[")) {
			read_pair(&reader, &table, &found, 0);
			continue;
		}
		bool is_list = took(&reader, "[");

		table = (struct path){.count = 0};
		read_path(&reader, &table);
		if (!took(&reader, is_list ? "]]" : "]"))
			break;
	}
	return found;
}
