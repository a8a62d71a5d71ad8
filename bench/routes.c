/* The baseline of routes.sh: the routes of crates/bench_loads in the balanced tree of the C
 * library (tsearch), a node and an entry of malloc for each, put, withdrawn and listed in the same
 * order. */
#include <search.h>
#include <stdint.h>
#include <stdio.h>
#include <stdlib.h>
#include <string.h>
#include <time.h>

/* A path as a counted reference, with four AS numbers and two communities. */
struct path { size_t count; uint32_t numbers[4], communities[2]; };

/* A prefix as its family, its address and its length, and its path. */
struct route { unsigned char prefix[18]; struct path *path; };

static void *tree;
static uint32_t listed;
static const struct route *last;
static int in_order = 1;

static int by_prefix(const void *a, const void *b)
{
	return memcmp(a, b, sizeof ((struct route *)a)->prefix);
}

static void *room(size_t size)
{
	void *p = malloc(size);
	if (!p)
		exit(4);
	return p;
}

static void drop(struct path *path)
{
	if (--path->count == 0)
		free(path);
}

static void prefix_of(unsigned char *prefix, int v6, uint32_t index)
{
	uint32_t one = (index * 0x9e3779b1u) & 0xffffff;
	uint32_t number = ((one ^ (one >> 12)) * 0x85ebca6bu) & 0xffffff;

	memset(prefix, 0, 18);
	prefix[0] = v6;
	if (v6) {
		prefix[1] = 0x20, prefix[2] = 0x01;
		prefix[4] = number >> 16, prefix[5] = number >> 8, prefix[6] = number;
	} else {
		prefix[1] = number >> 16, prefix[2] = number >> 8, prefix[3] = number;
	}
	prefix[17] = v6 ? 48 : 24;
}

static void put(const struct route *made, struct path *path)
{
	struct route *entry = room(sizeof *entry), **found;

	memcpy(entry->prefix, made->prefix, sizeof entry->prefix);
	entry->path = path;
	path->count++;
	found = tsearch(entry, &tree, by_prefix);
	if (!found)
		exit(4);
	if (*found != entry) {
		drop((*found)->path);
		(*found)->path = path;
		free(entry);
	}
}

static void withdraw(const struct route *made)
{
	struct route **found = tfind(made, &tree, by_prefix), *entry;

	if (found) {
		entry = *found;
		tdelete(entry, &tree, by_prefix);
		drop(entry->path);
		free(entry);
	}
}

static void list(const void *node, VISIT visit, int depth)
{
	const struct route *route = *(struct route *const *)node;

	(void)depth;
	if (visit != postorder && visit != leaf)
		return;
	if (last && by_prefix(last, route) >= 0)
		in_order = 0;
	last = route;
	listed++;
}

static long long now(void)
{
	struct timespec t;
	clock_gettime(CLOCK_MONOTONIC, &t);
	return t.tv_sec * 1000000000ll + t.tv_nsec;
}

/* A group of prefixes is announced, or withdrawn. */
static long long change(uint32_t v4, uint32_t v6, uint32_t per, uint32_t group, int is_put)
{
	uint32_t groups = v4 / per + 1, is_v6 = group >= groups, count = is_v6 ? v6 : v4;
	uint32_t first = (is_v6 ? group - groups : group) * per, index;
	struct route *made = room(per * sizeof *made);
	struct path *path = room(sizeof *path);
	long long began;
	uint32_t n = 0, i;

	memset(path, 0, sizeof *path);
	path->count = 1;
	path->numbers[3] = group;
	for (index = first; index < count && n < per; index++)
		prefix_of(made[n++].prefix, is_v6, index);
	began = now();
	for (i = 0; i < n; i++)
		if (is_put)
			put(&made[i], path);
		else
			withdraw(&made[i]);
	began = now() - began;
	drop(path);
	free(made);
	return began;
}

int main(int argc, char **argv)
{
	uint32_t v4 = argc > 1 ? atoi(argv[1]) : 1000, v6 = argc > 2 ? atoi(argv[2]) : 200;
	uint32_t paths = argc > 3 ? atoi(argv[3]) : 200;
	uint32_t per = (v4 + v6) / paths ? (v4 + v6) / paths : 1;
	uint32_t groups = v4 / per + 1 + v6 / per + 1, group;
	long long apply = 0, began;
	char line[256];
	FILE *status;

	for (group = 0; group < groups; group++)
		apply += change(v4, v6, per, group, 1);
	for (group = 0; group < groups; group += 10) {
		apply += change(v4, v6, per, group, 0);
		apply += change(v4, v6, per, group, 1);
	}
	began = now();
	twalk(tree, list);
	printf("%u routes in order: %s\n", listed, in_order && listed == v4 + v6 ? "true" : "false");
	printf("apply %lld us, list %lld us, ", apply / 1000, (now() - began) / 1000);
	status = fopen("/proc/self/status", "r");
	while (status && fgets(line, sizeof line, status))
		if (!strncmp(line, "VmHWM:", 6))
			fputs(line, stdout);
	return 0;
}
