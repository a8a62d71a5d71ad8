/* A table that does as little as it can, for judge.sh: the IPv4 prefixes of a capture's UPDATEs put
 * and withdrawn in an open table of hashes with room for 2^21, a block of malloc for each UPDATE's
 * path attributes, which goes with the last prefix that has them. It knows no order, no family, no
 * memory that is refused, and reads the capture before the clock starts; messages are trusted.
 * Prints the milliseconds of the processor that all changes took. */
#include <stdint.h>
#include <stdio.h>
#include <stdlib.h>
#include <string.h>
#include <time.h>

enum { SLOTS = 1 << 21, RECORD = 12, AS4_MESSAGE = 4, ADDRESSES = 20, HEADER = 19, UPDATE = 2 };

struct path { size_t count; unsigned char octets[]; };

/* A prefix as its address and its length, which is 0 in an empty slot. */
static struct slot { uint64_t prefix; struct path *path; } *slots;

static void *room(size_t size)
{
	void *p = calloc(1, size);
	if (!p)
		exit(4);
	return p;
}

static unsigned two(const unsigned char *at) { return at[0] << 8 | at[1]; }

static size_t four(const unsigned char *at) { return (size_t)two(at) << 16 | two(at + 2); }

static void drop(struct path *path)
{
	if (path && --path->count == 0)
		free(path);
}

static struct slot *slot_of(uint64_t prefix)
{
	size_t i = prefix * 0x9e3779b97f4a7c15u >> 43;
	while (slots[i].prefix && slots[i].prefix != prefix)
		i = (i + 1) % SLOTS;
	return &slots[i];
}

/* Gives each prefix the path, or none where it is withdrawn. */
static void change(const unsigned char *at, size_t size, struct path *path)
{
	const unsigned char *end = at + size;
	while (at < end) {
		size_t octets = (at[0] + 7) / 8, i;
		uint64_t address = 0;
		struct slot *slot;
		for (i = 0; i < 4; i++)
			address = address << 8 | (i < octets ? at[1 + i] : 0);
		slot = slot_of(address << 8 | at[0]);
		if (path) {
			slot->prefix = address << 8 | at[0];
			path->count++;
		}
		drop(slot->path);
		slot->path = path;
		at += 1 + octets;
	}
}

static void apply(const unsigned char *update, size_t size)
{
	size_t withdrawn = two(update), attributes = two(update + 2 + withdrawn);
	const unsigned char *at = update + 4 + withdrawn;
	change(update + 2, withdrawn, NULL);
	if (at + attributes < update + size) {
		struct path *path = malloc(sizeof *path + attributes);
		if (!path)
			exit(4);
		path->count = 1;
		memcpy(path->octets, at, attributes);
		change(at + attributes, update + size - at - attributes, path);
		drop(path);
	}
}

int main(int count, char **words)
{
	FILE *file = count == 2 ? fopen(words[1], "rb") : NULL;
	size_t size, at, message;
	unsigned char *octets;
	clock_t began;

	if (!file || fseek(file, 0, SEEK_END))
		return 1;
	size = ftell(file);
	rewind(file);
	octets = room(size + 1);
	if (fread(octets, 1, size, file) != size)
		return 1;
	slots = room(SLOTS * sizeof *slots);
	began = clock();
	for (at = 0; at < size; at += RECORD + four(octets + at + 8)) {
		message = at + RECORD + ADDRESSES;
		if (two(octets + at + 6) == AS4_MESSAGE && octets[message + 18] == UPDATE)
			apply(octets + message + HEADER, two(octets + message + 16) - HEADER);
	}
	printf("%ld\n", (long)((clock() - began) / (CLOCKS_PER_SEC / 1000)));
	return 0;
}
