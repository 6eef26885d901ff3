/* Answers calls of include/ola.h that tests/manual/check asks for, one a line on standard input, in words and numbers on standard output. Texts are
   hexadecimal, `-` where empty. Every lent buffer is filled with a mark first and has entries past its end; a line `fault` says what was touched that
   should not be, where the two forms of assembling, the room told and the build, a build on a meter and one without, the two ways of reading on, or a
   bytecode and the source written of it, do not agree, and where an address in an accepted source's table is no first word's position. */
#include <inttypes.h>
#include <stdio.h>
#include <stdlib.h>
#include <string.h>

#include "ola.h"

#define MARK 0xA5
#define PAST 3
#define LINE (4u << 20)

static char *at;

static char *word(void)
{
    while (*at == ' ')
        at += 1;
    char *start = at;
    while (*at && *at != ' ' && *at != '\n')
        at += 1;
    if (*at)
        *at++ = 0;
    return start;
}

static uint64_t number(void)
{
    return strtoull(word(), NULL, 0);
}

static void *lent(size_t entries, size_t size)
{
    void *buffer = malloc((entries + PAST) * size);
    if (!buffer)
        exit(2);
    memset(buffer, MARK, (entries + PAST) * size);
    return buffer;
}

/* Every byte of a buffer from an entry on is the mark. */
static void untouched(const char *what, const void *buffer, size_t from, size_t entries, size_t size)
{
    const uint8_t *b = buffer;
    for (size_t i = from * size; i < (entries + PAST) * size; i++)
        if (b[i] != MARK) {
            printf("fault %s is touched at byte %zu\n", what, i);
            return;
        }
}

static int digit(char c)
{
    return c <= '9' ? c - '0' : c - 'a' + 10;
}

static uint8_t *text(size_t *length)
{
    char *hex = word();
    *length = *hex == '-' ? 0 : strlen(hex) / 2;
    uint8_t *bytes = malloc(*length + 1);
    if (!bytes)
        exit(2);
    for (size_t i = 0; i < *length; i++)
        bytes[i] = (uint8_t)(digit(hex[2 * i]) * 16 + digit(hex[2 * i + 1]));
    return bytes;
}

static void put_text(const uint8_t *bytes, size_t length)
{
    if (!length)
        printf("-");
    for (size_t i = 0; i < length; i++)
        printf("%02x", bytes[i]);
    printf("\n");
}

static void put_numbers(const char *what, const uint64_t *list, uint64_t count)
{
    printf("%s", what);
    for (uint64_t i = 0; i < count; i++)
        printf(" %" PRIu64, list[i]);
    printf("\n");
}

/* A source and a prophet list, what is lent for them, and what assembling them by ola_assemble_parts answered and wrote. */
struct build {
    uint8_t *source, *list;
    size_t source_len, list_len, entries, word_room, host_room, filled;
    ola_assembly told;
    uint8_t *kinds;
    bool *mapped;
    size_t *starts, *lengths;
    uint64_t *addresses, *words, *hosts;
};

/* A bool has no mark: they are false and true by turns. */
static void mark_mapped(const struct build *b)
{
    for (size_t i = 0; i < b->entries; i++)
        b->mapped[i] = i % 2;
}

static void lend(struct build *b)
{
    b->kinds = lent(b->entries, 1);
    b->mapped = lent(b->entries, sizeof *b->mapped);
    mark_mapped(b);
    b->starts = lent(b->entries, sizeof *b->starts);
    b->lengths = lent(b->entries, sizeof *b->lengths);
    b->addresses = lent(b->entries, sizeof *b->addresses);
    b->words = lent(b->word_room, sizeof *b->words);
    b->hosts = lent(b->host_room, sizeof *b->hosts);
}

/* A buffer that is lent, with the bytes past its end. */
struct buffer {
    void *start;
    size_t size;
};

#define BUFFERS 7

static void buffers(const struct build *b, struct buffer list[BUFFERS])
{
    size_t entries = b->entries + PAST;
    list[0] = (struct buffer){b->kinds, entries};
    list[1] = (struct buffer){b->mapped, entries * sizeof *b->mapped};
    list[2] = (struct buffer){b->starts, entries * sizeof *b->starts};
    list[3] = (struct buffer){b->lengths, entries * sizeof *b->lengths};
    list[4] = (struct buffer){b->addresses, entries * sizeof *b->addresses};
    list[5] = (struct buffer){b->words, (b->word_room + PAST) * sizeof *b->words};
    list[6] = (struct buffer){b->hosts, (b->host_room + PAST) * sizeof *b->hosts};
}

static void release(const struct build *b)
{
    struct buffer list[BUFFERS];
    buffers(b, list);
    for (size_t i = 0; i < BUFFERS; i++)
        free(list[i].start);
}

/* Whether ola_assemble answers and writes the same, with so many entries and words. */
static int again(const struct build *b, size_t entries, size_t word_room)
{
    ola_label *table = lent(entries, sizeof *table);
    for (size_t i = 0; i < entries; i++)
        table[i].mapped = false;
    uint64_t *words = lent(word_room, sizeof *words), *hosts = lent(b->host_room, sizeof *hosts);
    ola_assembly a = ola_assemble(b->source, b->source_len, b->list, b->list_len, table, entries, words, word_room, hosts, b->host_room);
    int same = !memcmp(&a, &b->told, sizeof a) && !memcmp(words, b->words, a.words * sizeof *words) && !memcmp(hosts, b->hosts, a.hosts * sizeof *hosts);
    for (size_t i = 0; i < b->filled; i++)
        same = same && table[i].kind == b->kinds[i] && table[i].mapped == b->mapped[i] && table[i].start == b->starts[i]
               && table[i].length == b->lengths[i] && table[i].address == b->addresses[i];
    for (size_t i = b->filled; i < entries; i++)
        same = same && table[i].kind == MARK;
    untouched("what is past the entries", table, entries, entries, sizeof *table);
    untouched("the words", words, a.words, word_room, sizeof *words);
    untouched("the hosts", hosts, a.hosts, b->host_room, sizeof *hosts);
    free(table);
    free(words);
    free(hosts);
    return same;
}

/* The position after an instruction of an accepted source whose first word is given. */
static uint64_t behind(uint64_t position, uint64_t first)
{
    return position + (first & (1ull << 62 | 1ull << 22 | 1ull << 21) ? 2 : 1);
}

/* How many of an accepted source's words are first ones. */
static uint64_t first_words(const uint64_t *words, uint64_t count)
{
    uint64_t firsts = 0;
    for (uint64_t i = 0; i < count; i = behind(i, words[i]))
        firsts += 1;
    return firsts;
}

/* Whether one of them stands at a position. */
static int is_first(const uint64_t *words, uint64_t count, uint64_t position)
{
    uint64_t i = 0;
    while (i < count && i < position)
        i = behind(i, words[i]);
    return i < count && i == position;
}

/* What ola_room_of tells of the source, beside what assembling answered. */
static void beside_room(const struct build *b)
{
    ola_room r = ola_room_of(b->source, b->source_len);
    ola_assembly a = b->told;
    if (r.refusal || (a.refusal && a.refusal <= 6)) {
        if (r.refusal > 6 || r.refusal != a.refusal || r.detail != a.detail || r.labels || r.instructions || r.counted || r.words)
            printf("fault ola_room_of refuses otherwise than assembling\n");
        return;
    }
    if ((a.refusal == 7) != (b->entries < r.labels) || (a.refusal != 7 && b->filled != r.labels)) {
        printf("fault the figures' label rows are not those of the table\n");
        return;
    }
    if (!a.refusal && (r.words != a.words || r.instructions != first_words(b->words, a.words) || r.words != r.counted))
        printf("fault the figures are not those of the words\n");
    if (b->entries >= r.labels && b->word_room >= r.words && !again(b, r.labels, r.words))
        printf("fault with just so much room as the figures tell, assembling answers otherwise\n");
}

/* The total after a build on a meter that has this one before: the words of an accepted build are added, up to 2^64 - 1. All else is as assembling without a
   meter answers and leaves it, past the ends of what is lent too. What is lent stands in `m`. */
static uint64_t on_meter(const struct build *b, const struct build *m, uint64_t total)
{
    struct buffer without[BUFFERS], with[BUFFERS];
    buffers(b, without);
    buffers(m, with);
    for (size_t i = 0; i < BUFFERS; i++)
        memset(with[i].start, MARK, with[i].size);
    mark_mapped(m);
    ola_meter meter = {total};
    ola_metered answered = ola_meter_build(meter, m->source, m->source_len, m->list, m->list_len, m->kinds, m->entries, m->mapped, m->entries, m->starts,
                                           m->entries, m->lengths, m->entries, m->addresses, m->entries, m->words, m->word_room, m->hosts, m->host_room);
    if (memcmp(&answered.assembly, &b->told, sizeof b->told))
        printf("fault on a meter of %" PRIu64 " assembling answers otherwise\n", total);
    for (size_t i = 0; i < BUFFERS; i++)
        if (memcmp(with[i].start, without[i].start, with[i].size))
            printf("fault on a meter of %" PRIu64 " assembling leaves buffer %zu otherwise\n", total, i);
    uint64_t added = b->told.refusal ? 0 : b->told.words;
    if (answered.meter.total != (added < UINT64_MAX - total ? total + added : UINT64_MAX))
        printf("fault %" PRIu64 " words on a meter of %" PRIu64 " give a total of %" PRIu64 "\n", added, total, answered.meter.total);
    return answered.meter.total;
}

/* Builds on meters: from 0, from where the words just fit, and from the last two totals; where one is given, from that one, and its total is told. */
static void beside_meters(const struct build *b, const char *given)
{
    const uint64_t totals[] = {0, UINT64_MAX - b->told.words, UINT64_MAX - 1, UINT64_MAX};
    struct build m = *b;
    lend(&m);
    for (size_t i = 0; i < sizeof totals / sizeof totals[0]; i++)
        on_meter(b, &m, totals[i]);
    if (*given)
        printf("total %" PRIu64 "\n", on_meter(b, &m, strtoull(given, NULL, 0)));
    release(&m);
}

static void assemble(void)
{
    struct build b;
    b.source = text(&b.source_len);
    b.list = text(&b.list_len);
    b.entries = number();
    b.word_room = number();
    b.host_room = number();
    const char *meter = word();
    lend(&b);
    ola_assembly a = b.told = ola_assemble_parts(b.source, b.source_len, b.list, b.list_len, b.kinds, b.entries, b.mapped, b.entries, b.starts, b.entries,
                                                 b.lengths, b.entries, b.addresses, b.entries, b.words, b.word_room, b.hosts, b.host_room);
    size_t filled = 0;
    while (filled < b.entries && b.kinds[filled] != MARK)
        filled += 1;
    b.filled = filled;
    printf("assembled %" PRIu64 " %" PRIu64 " %" PRIu64 " %" PRIu64 "\n", a.refusal, a.detail, a.labels, a.kept);
    put_numbers("words", b.words, a.words);
    put_numbers("hosts", b.hosts, a.hosts);
    for (size_t i = 0; i < filled; i++)
        printf("entry %u %d %zu %zu %" PRIu64 "\n", b.kinds[i], b.mapped[i], b.starts[i], b.lengths[i], b.addresses[i]);
    untouched("the kinds", b.kinds, filled, b.entries, 1);
    for (size_t i = filled; i < b.entries; i++)
        if (b.mapped[i] != i % 2)
            printf("fault the mapped are touched at entry %zu\n", i);
    untouched("what is past the mapped", b.mapped, b.entries, b.entries, sizeof *b.mapped);
    untouched("the starts", b.starts, filled, b.entries, sizeof *b.starts);
    untouched("the lengths", b.lengths, filled, b.entries, sizeof *b.lengths);
    untouched("the addresses", b.addresses, filled, b.entries, sizeof *b.addresses);
    untouched("the words", b.words, a.words, b.word_room, sizeof *b.words);
    untouched("the hosts", b.hosts, a.hosts, b.host_room, sizeof *b.hosts);
    if (a.refusal && a.refusal <= 7 && filled)
        printf("fault refusal %" PRIu64 " filled the table\n", a.refusal);
    if (!a.refusal && a.labels != filled)
        printf("fault %" PRIu64 " entries told, %zu filled\n", a.labels, filled);
    for (size_t i = 0; !a.refusal && i < filled; i++)
        if (b.mapped[i] && !is_first(b.words, a.words, b.addresses[i]))
            printf("fault no first word stands at %" PRIu64 ", the address of entry %zu\n", b.addresses[i], i);
    if (!again(&b, b.entries, b.word_room))
        printf("fault ola_assemble and ola_assemble_parts do not agree\n");
    beside_room(&b);
    beside_meters(&b, meter);
    release(&b);
    free(b.source);
    free(b.list);
}

static void put_written(const char *what, ola_written w, uint8_t *buffer, size_t room)
{
    printf("%s %" PRIu64 " %" PRIu64 " ", what, w.refusal, w.detail);
    put_text(buffer, w.written);
    untouched("the text", buffer, w.written, room, 1);
    free(buffer);
}

static void put_instruction(ola_instruction i)
{
    printf(" %u", i.opcode);
    for (int k = 0; k < 3; k++) {
        ola_place p = k == 0 ? i.op0 : k == 1 ? i.op1 : i.dst;
        printf(" %u %u %" PRIu64, p.content, p.reg, p.number);
    }
}

static void put_step(ola_step s)
{
    printf("step %" PRIu64 " %" PRIu64 " %" PRIu64, s.refusal, s.detail, s.line);
    if (!s.refusal)
        put_instruction(s.instruction);
    printf("\n");
}

static int same_place(ola_place a, ola_place b)
{
    return a.content == b.content && a.reg == b.reg && a.number == b.number;
}

static int same_step(ola_step a, ola_step b)
{
    ola_instruction i = a.instruction, j = b.instruction;
    return a.refusal == b.refusal && a.detail == b.detail && i.opcode == j.opcode && same_place(i.op0, j.op0) && same_place(i.op1, j.op1)
           && same_place(i.dst, j.dst);
}

/* The run from the text's start up to the first refusal, by lines and by offsets. */
static void run(const uint8_t *bytes, size_t length)
{
    size_t line = 0, offset = 0;
    for (;;) {
        ola_step s = ola_next(bytes, length, line), t = ola_next_at(bytes, length, offset);
        put_step(s);
        if (!same_step(s, t))
            printf("fault ola_next and ola_next_at do not agree\n");
        if (s.refusal)
            return;
        line = s.line;
        offset = t.line;
    }
}

/* The words of a source that has one label, assembled without prophets in one entry and so many words; none where that is refused or answers otherwise. */
static uint64_t *words_of(const uint8_t *source, size_t length, size_t room, uint64_t *count)
{
    ola_label entry = {0};
    uint64_t host, *words = lent(room, sizeof *words);
    ola_assembly a = ola_assemble(source, length, source, 0, &entry, 1, words, room, &host, 0);
    *count = a.words;
    if (!a.refusal && a.labels == 1 && a.words <= room && entry.kind == 0 && entry.start == 0 && entry.length == 4)
        return words;
    free(words);
    return NULL;
}

/* Whether the first reads as the second does. */
static int read_alike(const uint8_t *one, size_t one_length, const uint8_t *other, size_t other_length)
{
    size_t at_one = 0, at_other = 0;
    for (;;) {
        ola_step s = ola_next_at(one, one_length, at_one), t = ola_next_at(other, other_length, at_other);
        if (!same_step(s, t))
            return 0;
        if (s.refusal)
            return 1;
        at_one = s.line;
        at_other = t.line;
    }
}

/* The source of a bytecode, beside its text: opening refuses as writing does; so many bytes are just enough and one less is 23; it has as many rows as the
   bytecode has instructions; and assembling it, in one entry and a word for each line, gives words that read as the bytecode. */
static void beside_source(const uint8_t *bytes, size_t length)
{
    ola_opened o = ola_open(bytes, length);
    size_t lines = 1, rows = 0, instructions = 0;
    for (size_t i = 0; i < length; i++)
        lines += bytes[i] == '\n';
    size_t room = 5 + 21 * lines;
    uint8_t *source = lent(room, 1);
    ola_written w = ola_write_source(bytes, length, source, room);
    untouched("the text", source, w.written, room, 1);
    if (!o.refusal)
        for (ola_step s = ola_next_at(bytes, length, 0); !s.refusal; s = ola_next_at(bytes, length, s.line))
            instructions += 1;
    if (o.refusal ? w.refusal != o.refusal || w.detail != o.detail : w.refusal != 0 && (w.refusal != 26 || w.detail >= instructions))
        printf("fault ola_write_source refuses with %" PRIu64 ", ola_open with %" PRIu64 "\n", w.refusal, o.refusal);
    if (w.refusal) {
        free(source);
        return;
    }
    uint8_t *exact = lent(w.written, 1);
    ola_written again = ola_write_source(bytes, length, exact, w.written - 1);
    if (again.refusal != 23 || again.detail || again.written)
        printf("fault with a byte less than the source has, it is not 23\n");
    untouched("the text that is too short", exact, 0, w.written, 1);
    again = ola_write_source(bytes, length, exact, w.written);
    if (again.refusal || again.written != w.written || memcmp(exact, source, w.written))
        printf("fault with just so many bytes as the source has, it is another\n");
    untouched("what is past the text", exact, w.written, w.written, 1);
    for (size_t i = 0; i < w.written; i++)
        rows += source[i] == '\n';
    if (rows != instructions)
        printf("fault %zu rows for %zu instructions\n", rows, instructions);
    if (w.written <= 65536) {
        uint64_t count, *words = words_of(source, w.written, lines, &count);
        uint8_t *text = lent(19 * lines, 1);
        again = words ? ola_write_bytecode(words, count, text, 19 * lines) : again;
        if (!words || again.refusal || !read_alike(text, again.written, bytes, length))
            printf("fault assembling the source does not give the program back\n");
        free(words);
        free(text);
    }
    free(exact);
    free(source);
}

static ola_place place(void)
{
    ola_place p = {0};
    p.content = (uint8_t)number();
    p.reg = (uint8_t)number();
    p.number = number();
    return p;
}

static ola_instruction instruction(void)
{
    ola_instruction i = {0};
    i.opcode = (uint8_t)number();
    i.op0 = place();
    i.op1 = place();
    i.dst = place();
    return i;
}

static void answer(const char *what)
{
    if (!strcmp(what, "assemble")) {
        assemble();
    } else if (!strcmp(what, "meter")) {
        printf("meter %" PRIu64 "\n", ola_meter_open().total);
    } else if (!strcmp(what, "write")) {
        size_t room = number(), count = number();
        uint64_t *words = malloc((count + 1) * sizeof *words);
        if (!words)
            exit(2);
        for (size_t i = 0; i < count; i++)
            words[i] = number();
        uint8_t *buffer = lent(room, 1);
        put_written("written", ola_write_bytecode(words, count, buffer, room), buffer, room);
        free(words);
    } else if (!strcmp(what, "row")) {
        size_t room = number();
        ola_instruction i = instruction();
        uint8_t *buffer = lent(room, 1);
        put_written("row", ola_listing_row(i, buffer, room), buffer, room);
    } else if (!strcmp(what, "encode")) {
        ola_encoding e = ola_encode(instruction());
        uint64_t words[2] = {e.first, e.second};
        printf("encoded %" PRIu64 " %" PRIu64 "\n", e.refusal, e.detail);
        put_numbers("words", words, e.count);
    } else if (!strcmp(what, "name")) {
        size_t length;
        uint8_t *source = text(&length);
        ola_label entry = {0};
        entry.start = number();
        entry.length = number();
        ola_name n = ola_label_name(source, length, entry);
        printf("name %zu %zu\n", n.start, n.length);
        free(source);
    } else if (!strcmp(what, "room")) {
        size_t length;
        uint8_t *source = text(&length);
        ola_room r = ola_room_of(source, length);
        uint64_t figures[] = {r.refusal, r.detail, r.labels, r.instructions, r.counted, r.words};
        put_numbers("room", figures, 6);
        free(source);
    } else {
        size_t length;
        uint8_t *bytes = text(&length);
        if (!strcmp(what, "open")) {
            ola_opened o = ola_open(bytes, length);
            printf("opened %" PRIu64 " %" PRIu64 "\n", o.refusal, o.detail);
            if (!o.refusal)
                run(bytes, length);
            beside_source(bytes, length);
        } else if (!strcmp(what, "source")) {
            size_t room = number();
            uint8_t *buffer = lent(room, 1);
            put_written("source", ola_write_source(bytes, length, buffer, room), buffer, room);
            beside_source(bytes, length);
        } else if (!strcmp(what, "next")) {
            put_step(ola_next(bytes, length, number()));
        } else if (!strcmp(what, "next_at")) {
            put_step(ola_next_at(bytes, length, number()));
        } else {
            printf("fault no such call: %s\n", what);
        }
        free(bytes);
    }
}

int main(void)
{
    char *line = malloc(LINE);
    if (!line)
        return 2;
    while (fgets(line, LINE, stdin)) {
        at = line;
        answer(word());
        printf("end\n");
        fflush(stdout);
    }
    return 0;
}
