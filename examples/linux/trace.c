/* A trace made on Linux, with a report as `replay` writes it. The library replays the trace first:
 * what it finds at fault is refused with its place, so that each line here is known to be right.
 *
 * A comment `#linux CALL FRAME [COUNT]` is a call that the model hasn't, which is made here.
 */
#include "harness.h"
#include <inttypes.h>
#include <stdio.h>
#include <stdlib.h>
#include <string.h>

enum { MAX_WORDS = 8 };

static char *file_of(const char *path, size_t *len)
{
	FILE *file = strcmp(path, "-") ? fopen(path, "rb") : stdin;
	char *text = NULL;
	size_t room = 0, more;

	if (!file)
		refuse("%s can't be opened", path);
	*len = 0;
	do {
		room = 2 * room + (1 << 16);
		text = realloc(text, room);
		if (!text)
			refuse("out of memory");
		more = fread(text + *len, 1, room - *len, file);
		*len += more;
	} while (more);
	if (ferror(file))
		refuse("%s can't be read", path);
	if (file != stdin)
		fclose(file);
	return text;
}

/* The last line of a report that ends with a fault says where. */
static void refuse_faults(const char *path, const char *text, size_t len)
{
	size_t room = 1 << 20, written;
	uint8_t *report = malloc(room);
	int32_t status;
	char *last;

	while ((status = pkvm_replay((const uint8_t *)text, len, report, room, &written)) ==
	       PKVM_NO_ROOM) {
		room = written;
		report = realloc(report, room);
	}
	if (!report || status == PKVM_NO_MEMORY)
		refuse("out of memory");
	if (status == PKVM_FAULT) {
		report[written - 1] = 0;
		last = strrchr((char *)report, '\n');
		last = last ? last + 1 : (char *)report;
		refuse("%s: line %s", path, last);
	}
	free(report);
}

/* The settings until `boot`. */
struct settings {
	uint64_t address_bits, cpus, carve_first, carve_count;
	struct pkvm_region regions[REGIONS];
	size_t regions_len;
};

static uint64_t number(const char *word)
{
	return strtoull(word, NULL, 0);
}

static void set(struct settings *to, char **words)
{
	if (!strcmp(words[0], "geometry"))
		to->address_bits = number(words[1]);
	else if (!strcmp(words[0], "cpus"))
		to->cpus = number(words[1]);
	else if (!strcmp(words[0], "memory") || !strcmp(words[0], "device"))
		to->regions[to->regions_len++] = (struct pkvm_region){
			words[0][0] == 'd', number(words[1]), number(words[2])};
	else if (!strcmp(words[0], "carve")) {
		to->carve_first = number(words[1]);
		to->carve_count = number(words[2]);
	}
}

static void step_of(struct pkvm_step *step, char **words, size_t len)
{
	uint64_t *a = step->arguments;
	size_t at = 2;

	*step = (struct pkvm_step){0};
	for (uint64_t call = 1; call < 30; call++)
		if (!strcmp(words[1], calls[call].name))
			step->call = call;
	for (const char *it = calls[step->call].arguments; *it; it++) {
		const char *word = at < len ? words[at++] : NULL;

		switch (*it) {
		case 'v': /* decimal, as 0.1 */
			*a++ = strtoull(word, NULL, 10);
			*a++ = strtoull(strchr(word, '.') + 1, NULL, 10);
			break;
		case 'r':
			*a++ = PKVM_R | (strchr(word, 'w') ? 2u : 0u) |
			       (strchr(word, 'x') ? 1u : 0u);
			break;
		case 'k':
			*a++ = !strcmp(word, "protected") ? PKVM_PROTECTED : PKVM_PLAIN;
			break;
		case 'c':
			*a++ = word ? number(word) : 1;
			break;
		default:
			*a++ = number(word);
			break;
		}
	}
}

/* --- Queries, answered from Linux' tables --- */

static uint64_t tree_of(char **words, size_t *at)
{
	const char *word = words[(*at)++];

	if (!strcmp(word, "host"))
		return HOST;
	if (!strcmp(word, "hyp") || !strcmp(word, "shared"))
		return HYP;
	return GUEST + number(words[(*at)++]);
}

static bool has_tree(uint64_t tree)
{
	return tree < GUEST || vms.guests[tree - GUEST].phase != PKVM_EMPTY;
}

static int by_place(const void *a, const void *b)
{
	const struct pkvm_run *x = a, *y = b;

	return x->page < y->page ? -1 : x->page > y->page;
}

/* What Linux has for itself is no page of the trace. */
static void show(const struct recorded *now, uint64_t tree)
{
	const struct pkvm_region *own = &machine.regions[machine.regions_len - 1];
	struct pkvm_run *runs = malloc((now->runs_len + 1) * sizeof(*runs));
	size_t len = 0;
	char text[96];

	if (!runs)
		refuse("out of memory");
	for (size_t i = 0; i < now->runs_len; i++)
		if (now->runs[i].tree == tree &&
		    (tree >= GUEST ||
		     now->runs[i].page - (tree == HYP ? LINEAR : 0) - own->first >= own->count))
			runs[len++] = now->runs[i];
	qsort(runs, len, sizeof(*runs), by_place);
	for (size_t i = 0; i < len; i++) {
		text_of_word(&runs[i].word, text, sizeof(text));
		printf("run 0x%" PRIx64 " %" PRIu64 " %s\n", runs[i].page, runs[i].count, text);
	}
	free(runs);
}

static void query(const struct recorded *now, char **words)
{
	size_t at = 1, free_frames = 0;
	uint64_t tree = tree_of(words, &at), word = 0;

	if (!has_tree(tree) && !strcmp(words[0], "word")) {
		printf("word none\n");
	} else if (!strcmp(words[0], "word")) {
		/* Linux' path may be shorter than the model's. */
		if (word_at(tree, number(words[at]), number(words[at + 1]), &word))
			printf("word 0x%016" PRIx64 "\n", word);
		else
			printf("word none\n");
	} else if (!strcmp(words[0], "free")) {
		if (tree == HYP)
			free_frames = now->free_shared;
		else
			for (size_t i = 0; i < now->frames_len; i++)
				free_frames += now->frames[i].pool == tree;
		printf("free %zu\n", free_frames);
	} else {
		show(now, tree);
	}
}

/* --- The run --- */

static struct recorded before, after;
static uint64_t disagreements;

static void boot(struct settings *settings)
{
	const char *why;
	const struct pkvm_step donate = {PKVM_DONATE_HYP,
					 {settings->carve_first, settings->carve_count}};
	size_t host = 0, hyp = 0;

	why = machine_make(settings->address_bits, settings->cpus, settings->carve_first,
			   settings->carve_count, settings->regions, settings->regions_len);
	if (why)
		refuse("the trace has %s", why);
	linux_boot();
	vms_make();
	if (linux_call(&donate, 0).error)
		refuse("Linux doesn't take the carve-out");
	record(&before);
	for (size_t i = 0; i < before.tables_len; i++) {
		host += before.tables[i].tree == HOST;
		hyp += before.tables[i].tree == HYP;
	}
	printf("boot host %zu hyp %zu free %zu\n", host, hyp, before.free_shared);
}

static void make_one(size_t line, uint64_t cpu, const struct pkvm_step *step)
{
	struct judgement judgement;
	struct made made;
	char text[256];

	make_ready();
	record(&before);
	made = make_step(cpu, step, &before);
	record(&after);
	judge(&before, cpu, step, &made, &after, &judgement);
	text_of_reply(&made, text, sizeof(text));
	printf("%zu %" PRIu64 " %s\n", line, cpu, text);
	if (judgement.verdict != AGREES) {
		printf("%s\n", judgement.text);
		disagreements++;
	}
	if (judgement.verdict == DIFFERS)
		fprintf(stderr, "unknown: line %zu: %s\n", line, judgement.text);
	count_step(step, &made, &judgement);
}

static uint64_t number_in(size_t line, const char *word)
{
	char *end;
	uint64_t value = strtoull(word, &end, 0);

	if (*end || *word < '0' || *word > '9')
		refuse("line %zu: %s is no number", line, word);
	return value;
}

/* A call that the model hasn't is told on standard error: it is no line of the report. */
static void make_other(size_t line, char **words, size_t len, bool is_booted)
{
	struct ended ended;
	uint64_t frame, count;

	if (len < 3 || len > 4 || !is_booted)
		refuse("line %zu: #linux stands after `boot`, and has a call, a frame, and a count or none",
		       line);
	if (!linux_has_other(words[1]))
		refuse("line %zu: %s is no call of this release that the model hasn't", line,
		       words[1]);
	frame = number_in(line, words[2]);
	count = len > 3 ? number_in(line, words[3]) : 1;
	make_ready();
	ended = linux_other(words[1], frame, count);
	count_other();
	fprintf(stderr, "line %zu: %s %s -> %s\n", line, words[1], words[2],
		ended.is_stopped ? ended.where : refusal_name((uint64_t)ended.error));
}

static size_t split(char *line, char **words)
{
	size_t len = 0;

	for (char *it = strtok(line, " "); it && len < MAX_WORDS; it = strtok(NULL, " "))
		words[len++] = it;
	return len;
}

int run_trace(const char *path)
{
	struct settings settings = {.address_bits = 39, .cpus = 1};
	size_t len, line = 0, steps = 0;
	char *text = file_of(path, &len), *at = text;
	bool is_booted = false;

	refuse_faults(path, text, len);
	while (at < text + len) {
		char *end = memchr(at, '\n', (size_t)(text + len - at));
		size_t of_line = end ? (size_t)(end - at) : (size_t)(text + len - at);
		char copy[300], *words[MAX_WORDS];
		size_t count;

		line++;
		memcpy(copy, at, of_line < 299 ? of_line : 299);
		copy[of_line < 299 ? of_line : 299] = 0;
		at += of_line + 1;
		count = split(copy, words);
		if (!count || (words[0][0] == '#' && strcmp(words[0], "#linux")))
			continue;
		if (words[0][0] == '#') {
			make_other(line, words, count, is_booted);
		} else if (!strcmp(words[0], "boot")) {
			boot(&settings);
			is_booted = true;
		} else if (words[0][0] >= '0' && words[0][0] <= '9') {
			struct pkvm_step step;

			step_of(&step, words, count);
			make_one(line, number(words[0]), &step);
			steps++;
		} else if (!strcmp(words[0], "word") || !strcmp(words[0], "free") ||
			   !strcmp(words[0], "show")) {
			make_ready();
			record(&before);
			query(&before, words);
		} else {
			set(&settings, words);
		}
	}
	printf("end steps %zu disagreements %" PRIu64 "\n", steps, disagreements);
	fflush(stdout);
	return print_summary(stderr) ? 0 : 1;
}
