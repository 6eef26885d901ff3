/* Calls every function of include/ola.h on the customer's printing source and on inputs that are refused, and compares what they
   answer and leave with values typed from documents 01 and 02 and from their readings. Prints what was compared; ends with 1 on a difference. */
#include <stdio.h>
#include <string.h>

#include "ola.h"

static int faults;

/* What stands in a buffer before a call. */
#define MARK 0xA5

/* p of document 01, "Numbers". */
static const uint64_t ORDER = UINT64_C(0xFFFFFFFF00000001);

static void say(const char *what, int right)
{
    printf("%s %s\n", right ? "right" : "WRONG", what);
    if (!right)
        faults += 1;
}

static const uint8_t *bytes(const char *s)
{
    return (const uint8_t *)s;
}

/* Every byte of a buffer is the mark. */
static int untouched(const void *buffer, size_t size)
{
    const uint8_t *b = buffer;
    for (size_t i = 0; i < size; i++)
        if (b[i] != MARK)
            return 0;
    return 1;
}

/* ---- what is lent to assembling */

#define ENTRIES 8
#define WORDS 8
#define HOSTS 4

/* What stands past the most that is lent. */
#define PAST 2

static uint8_t kinds[ENTRIES + PAST];
static bool mapped[ENTRIES + PAST];
static size_t starts[ENTRIES + PAST], lengths[ENTRIES + PAST];
static uint64_t addresses[ENTRIES + PAST], words[WORDS + PAST], hosts[HOSTS + PAST];

static void clear(void)
{
    memset(kinds, MARK, sizeof kinds);
    memset(mapped, 0, sizeof mapped);
    memset(starts, MARK, sizeof starts);
    memset(lengths, MARK, sizeof lengths);
    memset(addresses, MARK, sizeof addresses);
    memset(words, MARK, sizeof words);
    memset(hosts, MARK, sizeof hosts);
}

static ola_assembly parts(const char *source, size_t source_len, const char *prophets, size_t entries, size_t word_room, size_t host_room)
{
    return ola_assemble_parts(bytes(source), source_len, bytes(prophets), strlen(prophets), kinds, entries, mapped, entries,
                              starts, entries, lengths, entries, addresses, entries, words, word_room, hosts, host_room);
}

static int assembly_is(ola_assembly a, uint64_t refusal, uint64_t detail, uint64_t labels, uint64_t n, uint64_t host_count, uint64_t kept)
{
    return a.refusal == refusal && a.detail == detail && a.labels == labels && a.words == n && a.hosts == host_count && a.kept == kept;
}

static int table_untouched(void)
{
    return untouched(kinds, sizeof kinds) && untouched(starts, sizeof starts) && untouched(lengths, sizeof lengths)
           && untouched(addresses, sizeof addresses);
}

/* A source that is refused: number and detail, every count 0, words and hosts untouched; the table too, up to refusal 7. */
static void declines(const char *what, const char *source, const char *prophets, size_t entries, size_t word_room, size_t host_room,
                     uint64_t refusal, uint64_t detail)
{
    clear();
    ola_assembly a = parts(source, strlen(source), prophets, entries, word_room, host_room);
    say(what, assembly_is(a, refusal, detail, 0, 0, 0, 0) && untouched(words, sizeof words) && untouched(hosts, sizeof hosts)
              && (refusal > 7 || table_untouched()));
}

/* ---- document 01, "The printing program" */

static const char SOURCE[] = "f:\nret\nmain:\nmov r1 -1\ncall f\n.PROPHET0_0:\nend";

static const uint64_t PRINTED[6] = {
    UINT64_C(0x4000000208000000), UINT64_C(0xffffffff00000000), UINT64_C(0x4000000001000000),
    UINT64_C(0x5), UINT64_C(0x0000000000100000), UINT64_C(0x0000000000800000),
};

static const char BYTECODE[] =
    "0x4000000208000000\n0xffffffff00000000\n0x4000000001000000\n0x5\n0x0000000000100000\n0x0000000000800000";

/* The label rows in sorted order, main's first; f marks ret, a prophet label its host. */
static const ola_label TABLE[3] = {
    { .kind = 0, .mapped = true, .start = 7, .length = 4, .address = 0 },
    { .kind = 2, .mapped = true, .start = 30, .length = 11, .address = 2 },
    { .kind = 0, .mapped = true, .start = 0, .length = 1, .address = 5 },
};

static const char *const NAMES[3] = { "main", ".PROPHET0_0", "f" };

static ola_label entry_at(size_t i)
{
    ola_label e = { .kind = kinds[i], .mapped = mapped[i], .start = starts[i], .length = lengths[i], .address = addresses[i] };
    return e;
}

static int same_entry(ola_label a, ola_label b)
{
    return a.kind == b.kind && a.mapped == b.mapped && a.start == b.start && a.length == b.length && a.address == b.address;
}

static void assembling(void)
{
    clear();
    ola_assembly a = parts(SOURCE, strlen(SOURCE), "label\n.PROPHET0_0", ENTRIES, WORDS, HOSTS);
    say("assemble_parts: the printing source is accepted: 3 labels, 6 words, 1 host, 1 kept", assembly_is(a, 0, 0, 3, 6, 1, 1));
    say("assemble_parts: its words are those of document 01", memcmp(words, PRINTED, sizeof PRINTED) == 0);
    say("assemble_parts: the prophet's host is 2", hosts[0] == 2);
    int right = 1;
    for (size_t i = 0; i < 3; i++)
        right = right && same_entry(entry_at(i), TABLE[i]);
    say("assemble_parts: its label table", right);
    say("assemble_parts: what stands past the counts is untouched",
        untouched(words + 6, sizeof words - 6 * sizeof words[0]) && untouched(hosts + 1, sizeof hosts - sizeof hosts[0])
        && untouched(kinds + 3, sizeof kinds - 3) && untouched(addresses + 3, sizeof addresses - 3 * sizeof addresses[0]));

    declines("assemble_parts: 2 with the offset of a byte above 127", "main:\nmov r1 \x80\n", "", ENTRIES, WORDS, HOSTS, 2, 13);
    declines("assemble_parts: 3 with the rows before it", "main:\n\nmload\n", "", ENTRIES, WORDS, HOSTS, 3, 1);
    declines("assemble_parts: 4 for the empty source", "", "", ENTRIES, WORDS, HOSTS, 4, 0);
    declines("assemble_parts: 5 without main", "f:\nret\n", "", ENTRIES, WORDS, HOSTS, 5, 0);
    declines("assemble_parts: 6 for two mains", "main:\nend\nmain:\nend\n", "", ENTRIES, WORDS, HOSTS, 6, 0);
    declines("assemble_parts: 7 for a short table", SOURCE, "", 2, WORDS, HOSTS, 7, 0);
    declines("assemble_parts: 8 for another first line", SOURCE, "labels\n", ENTRIES, WORDS, HOSTS, 8, 0);
    declines("assemble_parts: 9 with the prophet's index", SOURCE, "label\n.PROPHET0_0\n.PROPHET0_1", ENTRIES, WORDS, HOSTS, 9, 1);
    declines("assemble_parts: 10 with the instruction's index", "main:\nadd r1 5 r2\ncall g", "", ENTRIES, WORDS, HOSTS, 10, 1);
    declines("assemble_parts: 11 for mload from a register", "main:\nmload r1 r2", "", ENTRIES, WORDS, HOSTS, 11, 0);
    declines("assemble_parts: 12 for a number in op0", "main:\nadd r1 5 r2", "", ENTRIES, WORDS, HOSTS, 12, 0);
    declines("assemble_parts: 13 for few word entries", SOURCE, "", ENTRIES, 5, HOSTS, 13, 0);
    declines("assemble_parts: 13 for few host entries", SOURCE, "label\n.PROPHET0_0", ENTRIES, WORDS, 0, 13, 0);
    declines("assemble_parts: 25 with the instruction's index for brackets outside mload and mstore", "main:\nend\nmov r1 [r2]", "", ENTRIES, WORDS, HOSTS,
             25, 1);

    static char long_source[65537];
    memset(long_source, ' ', sizeof long_source);
    say("assemble_parts: 1 for 65,537 bytes", assembly_is(parts(long_source, sizeof long_source, "", ENTRIES, WORDS, HOSTS), 1, 0, 0, 0, 0, 0));
    say("assemble_parts: 4 for 65,536 bytes of spaces", assembly_is(parts(long_source, 65536, "", ENTRIES, WORDS, HOSTS), 4, 0, 0, 0, 0, 0));
}

/* The same with the table as entries. */
static void assembling_entries(void)
{
    static ola_label table[ENTRIES];
    static const uint8_t marked = MARK;
    const size_t past = 3;
    clear();
    for (size_t i = 0; i < ENTRIES; i++)
        table[i] = (ola_label){ .kind = marked, .mapped = false, .start = marked, .length = marked, .address = marked };
    const ola_label mark = table[0];
    const char *prophets = "label\n.PROPHET0_0";
    ola_assembly a = ola_assemble(bytes(SOURCE), strlen(SOURCE), bytes(prophets), strlen(prophets), table, ENTRIES, words, WORDS, hosts, HOSTS);
    say("assemble: the printing source is accepted: 3 labels, 6 words, 1 host, 1 kept", assembly_is(a, 0, 0, 3, 6, 1, 1));
    say("assemble: its words are those of document 01", memcmp(words, PRINTED, sizeof PRINTED) == 0);
    say("assemble: the prophet's host is 2", hosts[0] == 2);
    int right = 1;
    for (size_t i = 0; i < past; i++)
        right = right && same_entry(table[i], TABLE[i]);
    say("assemble: its label table", right);
    right = untouched(words + 6, sizeof words - 6 * sizeof words[0]) && untouched(hosts + 1, sizeof hosts - sizeof hosts[0]);
    for (size_t i = past; i < ENTRIES; i++)
        right = right && same_entry(table[i], mark);
    say("assemble: what stands past the counts is untouched", right);

    clear();
    for (size_t i = 0; i < ENTRIES; i++)
        table[i] = mark;
    a = ola_assemble(bytes(SOURCE), strlen(SOURCE), bytes(""), 0, table, 2, words, WORDS, hosts, HOSTS);
    say("assemble: 7 for a short table, which stays as it was",
        assembly_is(a, 7, 0, 0, 0, 0, 0) && same_entry(table[0], mark) && same_entry(table[1], mark) && untouched(words, sizeof words));
    a = ola_assemble(bytes(SOURCE), strlen(SOURCE), bytes(""), 0, table, ENTRIES, words, 5, hosts, HOSTS);
    say("assemble: 13 for few word entries, with the table filled",
        assembly_is(a, 13, 0, 0, 0, 0, 0) && same_entry(table[0], TABLE[0]) && same_entry(table[2], TABLE[2]) && untouched(words, sizeof words));
    a = ola_assemble(bytes("main:\nmload r1 r2"), 17, bytes(""), 0, table, ENTRIES, words, WORDS, hosts, HOSTS);
    say("assemble: 11 for mload from a register", assembly_is(a, 11, 0, 0, 0, 0, 0));
}

/* ---- document 02, Point 1 */

static int room_is(ola_room r, uint64_t refusal, uint64_t detail, uint64_t labels, uint64_t instructions, uint64_t counted, uint64_t n)
{
    return r.refusal == refusal && r.detail == detail && r.labels == labels && r.instructions == instructions && r.counted == counted && r.words == n;
}

static void takes(const char *what, const char *source, uint64_t labels, uint64_t instructions, uint64_t counted, uint64_t n)
{
    say(what, room_is(ola_room_of(bytes(source), strlen(source)), 0, 0, labels, instructions, counted, n));
}

/* A source that is refused: number and detail, every figure 0. */
static void takes_none(const char *what, const char *source, size_t source_len, uint64_t refusal, uint64_t detail)
{
    say(what, room_is(ola_room_of(bytes(source), source_len), refusal, detail, 0, 0, 0, 0));
}

static void telling_room(void)
{
    takes("room_of: mload of a register: more words than the counted length", "main:\nmload r1 r2", 1, 1, 1, 2);
    takes("room_of: mstore of a number: one word more in all", "main:\nmstore [r1] 5", 1, 1, 3, 2);
    takes("room_of: mload of a number: likewise", "main:\nmload r1 5", 1, 1, 2, 2);
    takes("room_of: brackets outside mload and mstore take no word", "main:\nmov r1 [r2]", 1, 1, 2, 1);
    takes("room_of: a number in dst takes none", "main:\nmov 5 r1", 1, 1, 1, 1);
    takes("room_of: a number in op0 takes none", "main:\nadd r1 5 r2", 1, 1, 2, 1);
    takes("room_of: no name is looked up", "main:\njmp nowhere", 1, 1, 2, 2);
    takes("room_of: main alone", "main:", 1, 0, 0, 0);
    takes_none("room_of: 4 for the empty source", "", 0, 4, 0);
    takes_none("room_of: 5 without main", "f:\nret", 6, 5, 0);
    takes_none("room_of: 6 for two mains", "main:\nmain:", 11, 6, 0);
    takes_none("room_of: 2 with the offset of a byte above 127", "main:\nmov r1 \x80\n", 15, 2, 13);
    takes_none("room_of: 3 with the rows before it", "main:\n\nmload\n", 13, 3, 1);
    static char long_source[65537];
    memset(long_source, ' ', sizeof long_source);
    takes_none("room_of: 1 for 65,537 bytes", long_source, sizeof long_source, 1, 0);
    takes_none("room_of: 4 for 65,536 bytes of spaces", long_source, 65536, 4, 0);
    takes("room_of: the printing source: 3 labels, 4 instructions, counted length 6, 6 words", SOURCE, 3, 4, 6, 6);

    static ola_label table[ENTRIES];
    ola_room room = ola_room_of(bytes(SOURCE), strlen(SOURCE));
    int fits = room.labels > 0 && room.labels <= ENTRIES && room.words > 0 && room.words <= WORDS;
    say("room_of: the printing source fits what is lent here", fits);
    if (!fits)
        return;
    clear();
    ola_assembly a = ola_assemble(bytes(SOURCE), strlen(SOURCE), bytes(""), 0, table, room.labels, words, room.words, hosts, 0);
    say("room_of: just so many entries and words are enough for assemble",
        assembly_is(a, 0, 0, 3, 6, 0, 0) && memcmp(words, PRINTED, sizeof PRINTED) == 0 && untouched(words + 6, sizeof words - 6 * sizeof words[0]));
    a = ola_assemble(bytes(SOURCE), strlen(SOURCE), bytes(""), 0, table, room.labels, words, room.words - 1, hosts, 0);
    say("room_of: one word less is 13", assembly_is(a, 13, 0, 0, 0, 0, 0));
    a = ola_assemble(bytes(SOURCE), strlen(SOURCE), bytes(""), 0, table, room.labels - 1, words, room.words, hosts, 0);
    say("room_of: one entry less is 7", assembly_is(a, 7, 0, 0, 0, 0, 0));
}

/* ---- document 02, Point 3 */

/* All that is lent, as a call left it. */
struct left {
    uint8_t kinds[sizeof kinds], mapped[sizeof mapped], starts[sizeof starts], lengths[sizeof lengths], addresses[sizeof addresses],
        words[sizeof words], hosts[sizeof hosts];
};

static void keep(struct left *left)
{
    memcpy(left->kinds, kinds, sizeof kinds);
    memcpy(left->mapped, mapped, sizeof mapped);
    memcpy(left->starts, starts, sizeof starts);
    memcpy(left->lengths, lengths, sizeof lengths);
    memcpy(left->addresses, addresses, sizeof addresses);
    memcpy(left->words, words, sizeof words);
    memcpy(left->hosts, hosts, sizeof hosts);
}

static int left_so(const struct left *left)
{
    return memcmp(left->kinds, kinds, sizeof kinds) == 0 && memcmp(left->mapped, mapped, sizeof mapped) == 0
           && memcmp(left->starts, starts, sizeof starts) == 0 && memcmp(left->lengths, lengths, sizeof lengths) == 0
           && memcmp(left->addresses, addresses, sizeof addresses) == 0 && memcmp(left->words, words, sizeof words) == 0
           && memcmp(left->hosts, hosts, sizeof hosts) == 0;
}

static int same_assembly(ola_assembly a, ola_assembly b)
{
    return assembly_is(a, b.refusal, b.detail, b.labels, b.words, b.hosts, b.kept);
}

static ola_metered build(ola_meter meter, const char *source, const char *prophets, size_t entries, size_t word_room, size_t host_room)
{
    return ola_meter_build(meter, bytes(source), strlen(source), bytes(prophets), strlen(prophets), kinds, entries, mapped, entries,
                           starts, entries, lengths, entries, addresses, entries, words, word_room, hosts, host_room);
}

/* A build on a meter of one total leaves it at the other, gives the answer and the words told, and leaves all that is lent as ola_assemble_parts does,
   whatever `mapped` was before. */
static int builds(uint64_t before, const char *source, const char *prophets, size_t entries, size_t word_room, size_t host_room,
                  ola_assembly told, const uint64_t *emitted, uint64_t after)
{
    static struct left left;
    const ola_meter meter = { .total = before };
    int right = 1;
    for (int set = 0; set < 2; set++) {
        clear();
        memset(mapped, set, sizeof mapped);
        ola_assembly a = parts(source, strlen(source), prophets, entries, word_room, host_room);
        keep(&left);
        clear();
        memset(mapped, set, sizeof mapped);
        ola_metered m = build(meter, source, prophets, entries, word_room, host_room);
        right = right && same_assembly(m.assembly, told) && same_assembly(m.assembly, a) && left_so(&left) && m.meter.total == after;
        for (size_t i = 0; i < told.words; i++)
            right = right && words[i] == emitted[i];
        right = right && untouched(words + told.words, sizeof words - told.words * sizeof words[0])
                && untouched(hosts + told.hosts, sizeof hosts - told.hosts * sizeof hosts[0])
                && (told.refusal == 0 || told.refusal > 7 || table_untouched());
    }
    return right;
}

/* An accepted source. */
static void meters(const char *what, uint64_t before, const char *source, const char *prophets, ola_assembly told, const uint64_t *emitted,
                   uint64_t after)
{
    say(what, builds(before, source, prophets, ENTRIES, WORDS, HOSTS, told, emitted, after));
}

/* A source that is refused: the meter comes back as it was, at 0, elsewhere and at the stop. */
static void meters_none(const char *what, const char *source, const char *prophets, size_t entries, size_t word_room, size_t host_room,
                        uint64_t refusal, uint64_t detail)
{
    static const uint64_t totals[] = { 0, 1, 12, UINT64_MAX - 1, UINT64_MAX };
    const ola_assembly told = { .refusal = refusal, .detail = detail };
    int right = 1;
    for (size_t i = 0; i < sizeof totals / sizeof totals[0]; i++)
        right = right && builds(totals[i], source, prophets, entries, word_room, host_room, told, NULL, totals[i]);
    say(what, right);
}

static const char JUMP_SOURCE[] = "main:\njmp 5";

static const uint64_t JUMP[2] = { UINT64_C(0x4000000004000000), 5 };

static void metering(void)
{
    static const uint64_t returned[1] = { UINT64_C(0x0000000000800000) };
    static const ola_assembly alone = { .labels = 1 }, jump = { .labels = 1, .words = 2 }, printing = { .labels = 3, .words = 6, .hosts = 1, .kept = 1 };
    const char *listed = "label\n.PROPHET0_0";

    say("meter_open: a total of 0", ola_meter_open().total == 0);
    meters("meter_build: main alone adds 0 to 0", 0, "main:", "", alone, NULL, 0);
    meters("meter_build: main alone adds 0 to 7", 7, "main:", "", alone, NULL, 7);
    meters("meter_build: jmp 5 adds 2 to 0", 0, JUMP_SOURCE, "", jump, JUMP, 2);
    meters("meter_build: jmp 5 adds 2 to 7", 7, JUMP_SOURCE, "", jump, JUMP, 9);
    meters("meter_build: a prophet that is listed twice has two hosts, and they are not counted", 0, "main:\n.PROPHET0_0:\nret",
           "label\n.PROPHET0_0\n.PROPHET0_0", (ola_assembly){ .labels = 2, .words = 1, .hosts = 2, .kept = 1 }, returned, 1);
    meters("meter_build: the printing source adds 6", 0, SOURCE, listed, printing, PRINTED, 6);
    meters("meter_build: a meter that nobody opened", 1000000, SOURCE, listed, printing, PRINTED, 1000006);
    say("meter_build: with just so much room as it takes", builds(12, SOURCE, listed, 3, 6, 1, printing, PRINTED, 18));

    meters("meter_build: from 2^32 - 1 on", UINT64_C(0xFFFFFFFF), JUMP_SOURCE, "", jump, JUMP, UINT64_C(0x100000001));
    meters("meter_build: from 2^63 - 1 on", UINT64_C(0x7FFFFFFFFFFFFFFF), JUMP_SOURCE, "", jump, JUMP, UINT64_C(0x8000000000000001));
    meters("meter_build: 2^64 - 4 and 2 are 2^64 - 2", UINT64_MAX - 3, JUMP_SOURCE, "", jump, JUMP, UINT64_MAX - 1);
    meters("meter_build: 2^64 - 3 and 2 are 2^64 - 1", UINT64_MAX - 2, JUMP_SOURCE, "", jump, JUMP, UINT64_MAX);
    meters("meter_build: 2^64 - 2 and 2 stop at 2^64 - 1, and both words are written", UINT64_MAX - 1, JUMP_SOURCE, "", jump, JUMP, UINT64_MAX);
    meters("meter_build: at 2^64 - 1 it stays, and both words are written", UINT64_MAX, JUMP_SOURCE, "", jump, JUMP, UINT64_MAX);
    meters("meter_build: at 2^64 - 1 main alone", UINT64_MAX, "main:", "", alone, NULL, UINT64_MAX);

    static char long_source[65537 + 1];
    memset(long_source, ' ', 65537);
    meters_none("meter_build: 1 for 65,537 bytes", long_source, "", ENTRIES, WORDS, HOSTS, 1, 0);
    meters_none("meter_build: 2 with the offset of a byte above 127", "main:\nmov r1 \x80\n", "", ENTRIES, WORDS, HOSTS, 2, 13);
    meters_none("meter_build: 3 with the rows before it", "main:\n\nmload\n", "", ENTRIES, WORDS, HOSTS, 3, 1);
    meters_none("meter_build: 4 for the empty source", "", "", ENTRIES, WORDS, HOSTS, 4, 0);
    meters_none("meter_build: 5 without main", "f:\nret\n", "", ENTRIES, WORDS, HOSTS, 5, 0);
    meters_none("meter_build: 6 for two mains", "main:\nend\nmain:\nend\n", "", ENTRIES, WORDS, HOSTS, 6, 0);
    meters_none("meter_build: 7 for no table entry", JUMP_SOURCE, "", 0, WORDS, HOSTS, 7, 0);
    meters_none("meter_build: 8 for another first line", SOURCE, "labels\n", ENTRIES, WORDS, HOSTS, 8, 0);
    meters_none("meter_build: 9 with the prophet's index", SOURCE, "label\n.PROPHET0_0\n.PROPHET0_1", ENTRIES, WORDS, HOSTS, 9, 1);
    meters_none("meter_build: 10 with the instruction's index", "main:\nadd r1 5 r2\ncall g", "", ENTRIES, WORDS, HOSTS, 10, 1);
    meters_none("meter_build: 11 for mload from a register", "main:\nmload r1 r2", "", ENTRIES, WORDS, HOSTS, 11, 0);
    meters_none("meter_build: 12 for a number in op0", "main:\nadd r1 5 r2", "", ENTRIES, WORDS, HOSTS, 12, 0);
    meters_none("meter_build: 13 for one word entry of two", JUMP_SOURCE, "", ENTRIES, 1, HOSTS, 13, 0);
    meters_none("meter_build: 13 for few host entries", SOURCE, listed, ENTRIES, WORDS, 0, 13, 0);
    meters_none("meter_build: 25 for mov r1 [r2], which adds neither a word nor its counted length", "main:\nmov r1 [r2]", "", ENTRIES, WORDS, HOSTS, 25, 0);
}

/* Builds one after another: each takes the meter that the last one answered. */
static void metering_a_history(void)
{
    static const struct { const char *source; uint64_t refusal, words, total; } history[] = {
        { SOURCE, 0, 6, 6 },
        { "main:\njmp g", 10, 0, 6 },
        { "main:", 0, 0, 6 },
        { "main:\nmov r1 [r2]", 25, 0, 6 },
        { SOURCE, 0, 6, 12 },
    };
    ola_meter meter = ola_meter_open();
    int right = 1;
    clear();
    for (size_t i = 0; i < sizeof history / sizeof history[0]; i++) {
        ola_metered m = build(meter, history[i].source, "", ENTRIES, WORDS, HOSTS);
        right = right && m.assembly.refusal == history[i].refusal && m.assembly.detail == 0 && m.assembly.words == history[i].words
                && m.meter.total == history[i].total;
        meter = m.meter;
    }
    say("meter_build: the printing source, 10, main alone, 25 and the printing source: 12 words", right && meter.total == 12);
    say("meter_open: after builds, a total of 0", ola_meter_open().total == 0);

    ola_metered first = build(meter, JUMP_SOURCE, "", ENTRIES, WORDS, HOSTS), second = build(meter, JUMP_SOURCE, "", ENTRIES, WORDS, HOSTS);
    say("meter_build: two builds on one meter answer the same, and count one",
        assembly_is(first.assembly, 0, 0, 1, 2, 0, 0) && assembly_is(second.assembly, 0, 0, 1, 2, 0, 0) && first.meter.total == 14
        && second.meter.total == 14);
    ola_assembly a = parts(SOURCE, strlen(SOURCE), "", ENTRIES, WORDS, HOSTS);
    ola_metered third = build(second.meter, JUMP_SOURCE, "", ENTRIES, WORDS, HOSTS);
    say("meter_build: what ola_assemble_parts builds is not counted", assembly_is(a, 0, 0, 3, 6, 0, 0) && third.meter.total == 16);
}

/* ---- document 02, Point 4 */

/* A row after `main:`. */
static const char *after_main(const char *row)
{
    static char source[2][96];
    static int turn;
    turn = 1 - turn;
    snprintf(source[turn], sizeof source[turn], "main:\n%s", row);
    return source[turn];
}

/* Of a source that begins with `main:` and an instruction. */
static const ola_label MAIN_ROW = { .kind = 0, .mapped = true, .start = 0, .length = 4, .address = 0 };

/* A row of two words with its number in hexadecimal, and the same row in decimal: of both the words told, by every call that builds, in just so much room as
   ola_room_of tells, and the same in all that is lent. */
static void spelt(const char *row, const char *decimal, uint64_t first, uint64_t second)
{
    static struct left left;
    static ola_label table[ENTRIES];
    static const ola_assembly told = { .labels = 1, .words = 2 };
    const uint64_t emitted[2] = { first, second };
    const char *const source[2] = { after_main(row), after_main(decimal) };
    char what[160];
    int right = 1;
    for (int i = 0; i < 2; i++) {
        size_t length = strlen(source[i]);
        right = right && room_is(ola_room_of(bytes(source[i]), length), 0, 0, 1, 1, 2, 2);
        right = right && builds(7, source[i], "", 1, 2, 0, told, emitted, 9);
        clear();
        table[0] = (ola_label){ .kind = MARK, .mapped = false };
        ola_assembly a = ola_assemble(bytes(source[i]), length, bytes(""), 0, table, 1, words, 2, hosts, 0);
        right = right && same_assembly(a, told) && same_entry(table[0], MAIN_ROW) && memcmp(words, emitted, sizeof emitted) == 0
                && untouched(words + 2, sizeof words - sizeof emitted);
        clear();
        right = right && same_assembly(parts(source[i], length, "", ENTRIES, WORDS, HOSTS), told) && same_entry(entry_at(0), MAIN_ROW)
                && memcmp(words, emitted, sizeof emitted) == 0;
        if (i == 0)
            keep(&left);
    }
    snprintf(what, sizeof what, "0x: %s is %s", row, decimal);
    say(what, right && left_so(&left));
}

/* A source that every call which builds refuses so: no meter moves, words and hosts are untouched, and the table has so many entries, these, and is untouched
   behind them. */
static int turned_away(const char *source, const char *prophets, size_t entries, size_t word_room, uint64_t refusal, uint64_t detail,
                       const ola_label *filled, size_t count)
{
    static ola_label table[ENTRIES];
    const ola_label mark = { .kind = MARK, .mapped = false, .start = MARK, .length = MARK, .address = MARK };
    const ola_assembly told = { .refusal = refusal, .detail = detail };
    int right = builds(0, source, prophets, entries, word_room, HOSTS, told, NULL, 0)
                && builds(12, source, prophets, entries, word_room, HOSTS, told, NULL, 12);
    clear();
    right = right && same_assembly(parts(source, strlen(source), prophets, entries, word_room, HOSTS), told) && untouched(kinds + count, sizeof kinds - count)
            && untouched(addresses + count, sizeof addresses - count * sizeof addresses[0]);
    for (size_t i = 0; i < count; i++)
        right = right && same_entry(entry_at(i), filled[i]);
    clear();
    for (size_t i = 0; i < ENTRIES; i++)
        table[i] = mark;
    ola_assembly a = ola_assemble(bytes(source), strlen(source), bytes(prophets), strlen(prophets), table, entries, words, word_room, hosts, HOSTS);
    right = right && same_assembly(a, told) && untouched(words, sizeof words) && untouched(hosts, sizeof hosts);
    for (size_t i = 0; i < ENTRIES; i++)
        right = right && same_entry(table[i], i < count ? filled[i] : mark);
    return right;
}

/* A source that every call which takes one refuses with 3, so that nothing is written and no meter moves. */
static int unreadable(const char *source, uint64_t detail)
{
    return turned_away(source, "", ENTRIES, WORDS, 3, detail, NULL, 0) && room_is(ola_room_of(bytes(source), strlen(source)), 3, detail, 0, 0, 0, 0);
}

/* What is no number, alone and in brackets. */
static void misspelt(const char *number)
{
    static const char *const rows[] = { "mov r1 %s", "mload r1 [r2,%s]", "mstore [r2,%s] r1", "mload r1 [r2,r3,%s]", "mov %s r1", "jmp %s" };
    char row[64], what[96];
    int right = 1;
    for (size_t i = 0; i < sizeof rows / sizeof rows[0]; i++) {
        snprintf(row, sizeof row, rows[i], number);
        right = right && unreadable(after_main(row), 1);
    }
    snprintf(what, sizeof what, "0x: %s is no number, alone or in brackets: 3", number);
    say(what, right);
}

static void hexadecimal(void)
{
    const uint64_t mov = UINT64_C(0x4000000208000000), mload = UINT64_C(0x4040000200400000);
    spelt("mov r1 0xaBcD", "mov r1 43981", mov, 0xabcd);
    spelt("mov r1 0x0", "mov r1 -0", mov, 0);
    spelt("mov r1 0x10", "mov r1 16", mov, 16);
    spelt("mov r1 0x0000000000000005", "mov r1 +005", mov, 5);
    spelt("mov r1 0x0123456789abcdef", "mov r1 81985529216486895", mov, UINT64_C(0x0123456789abcdef));
    spelt("mov r1 0xFEDCBA9876543210", "mov r1 18364758544493064720", mov, UINT64_C(0xfedcba9876543210));
    spelt("mov r1 0xffffffff", "mov r1 4294967295", mov, UINT64_C(0xffffffff));
    spelt("mov r1 0xffffffff00000000", "mov r1 18446744069414584320", mov, ORDER - 1);
    spelt("mov r1 0xFFFFFFFF00000000", "mov r1 -1", mov, ORDER - 1);
    spelt("mload r1 [r2,0xA]", "mload r1 [r2,10]", mload, 10);
    spelt("mload r1 [r2,0xffffffff00000000]", "mload r1 [r2,-1]", mload, ORDER - 1);
    spelt("mload r1 [r2,r3,0xA]", "mload r1 [r2,r3,10]", UINT64_C(0x0040200200400000), 10);
    spelt("mstore [r2,0xA] r1", "mstore [r2,10] r1", UINT64_C(0x4040000200200000), 10);
    spelt("mstore [r1,r2,0xa] r3", "mstore [r1,r2,10] r3", UINT64_C(0x0020100800200000), 10);
    spelt("add r1 r2 0x7", "add r1 r2 7", UINT64_C(0x4040000280000000), 7);
    spelt("cjmp r1 0x7", "cjmp r1 7", UINT64_C(0x4020000002000000), 7);
    spelt("jmp 0x5", "jmp 5", JUMP[0], JUMP[1]);

    static const char *const numbers[] = {
        "0x00000000000000005", "0x10000000000000000", "0xffffffff00000001", "0xFFFFFFFFFFFFFFFF", "0x", "0X5", "-0x5", "+0x5", "0x+5", "0x-5", "0x0x5",
        "0xg", "0xG", "0x5g", "00x5", "0x5_", "0x_5", "0x5.", "0x:", "0x@", "0x/", "0x`", "5x", "0xx5", "-0xA", "0xLBL1_2",
    };
    for (size_t i = 0; i < sizeof numbers / sizeof numbers[0]; i++)
        misspelt(numbers[i]);
    say("0x: 3 with the rows before it, hexadecimal ones among them", unreadable("main:\nmov r1 0x5\nmload r1 [r2,0xA]\nmov r1 0x\nmov r1 0X5", 3));
    say("0x: no .LBL row has such digits", unreadable("main:\n.LBL0x1_2:\nend", 1) && unreadable("main:\njmp .LBL0x1_2\n.LBL1_2:\nend", 1));

    /* Where 3 came before. */
    meters_none("0x: 12 for one in dst", "main:\nmov 0x5 r1", "", ENTRIES, WORDS, HOSTS, 12, 0);
    takes("room_of: 0x in dst takes no word", "main:\nmov 0x5 r1", 1, 1, 1, 1);
    meters_none("0x: 12 for one in op0", "main:\nadd r1 0x5 r2", "", ENTRIES, WORDS, HOSTS, 12, 0);
    takes("room_of: 0x in op0 takes none", "main:\nadd r1 0x5 r2", 1, 1, 2, 1);
    meters_none("0x: 11 for mload from one", "main:\nmload r1 0x5", "", ENTRIES, WORDS, HOSTS, 11, 0);
    takes("room_of: mload of 0x", "main:\nmload r1 0x5", 1, 1, 2, 2);
    takes("room_of: mstore of 0x: one word more in all", "main:\nmstore [r1] 0x5", 1, 1, 3, 2);
    meters_none("0x: 13 for one word of two", "main:\njmp 0x5", "", ENTRIES, 1, HOSTS, 13, 0);
    /* As before. */
    meters_none("0x: r0x1 is a name: 10", "main:\nmov r0x1 5", "", ENTRIES, WORDS, HOSTS, 10, 0);
    meters_none("0x: x5 is a name: 10", "main:\njmp x5", "", ENTRIES, WORDS, HOSTS, 10, 0);

    /* A call label that no operand can name: the call goes to 5, and the row is at 2. */
    static const char call[] = "main:\ncall 0x5\n0x5:\nret";
    static const uint64_t called[3] = { UINT64_C(0x4000000001000000), 5, UINT64_C(0x800000) };
    static const ola_label other = { .kind = 0, .mapped = true, .start = 15, .length = 3, .address = 2 };
    meters("0x: call 0x5 beside a row 0x5: goes to 5", 0, call, "", (ola_assembly){ .labels = 2, .words = 3 }, called, 3);
    clear();
    ola_assembly a = parts(call, strlen(call), "", ENTRIES, WORDS, HOSTS);
    say("0x: that row is an entry of its table",
        assembly_is(a, 0, 0, 2, 3, 0, 0) && same_entry(entry_at(0), MAIN_ROW) && same_entry(entry_at(1), other));
    takes("room_of: call 0x5 and the row 0x5:", call, 2, 2, 3, 3);
    ola_name name = ola_label_name(bytes(call), strlen(call), other);
    say("label_name: 0x5", name.start == 15 && name.length == 3);
}

/* Each line of a bytecode text is a number that a row takes as it is. */
static void pasting(void)
{
    int right = 1;
    const char *line = BYTECODE;
    for (size_t i = 0; i < 6; i++) {
        char row[64];
        size_t length = strcspn(line, "\n");
        snprintf(row, sizeof row, "mov r1 %.*s", (int)length, line);
        const char *source = after_main(row);
        clear();
        right = right && assembly_is(parts(source, strlen(source), "", ENTRIES, WORDS, HOSTS), 0, 0, 1, 2, 0, 0)
                && words[0] == UINT64_C(0x4000000208000000) && words[1] == PRINTED[i];
        line += length + 1;
    }
    say("0x: each line of the printing source's bytecode, pasted into a row, is its word", right);
    static const char listed[] = "main:\nmov r1 0xffffffff00000000\ncall 0x5\nend\nret";
    meters("0x: the printing source's listing after main has its words", 0, listed, "", (ola_assembly){ .labels = 1, .words = 6 }, PRINTED, 6);
}

/* ---- document 02, Point 6 */

/* Rows after `main:`. A refusal above 7 leaves main's entry in the table. */
static void brackets(void)
{
    static const struct { const char *what, *rows; uint64_t refusal, detail; } cases[] = {
        { "brackets: 25 for mov r1 [r2]", "mov r1 [r2]", 25, 0 },
        { "brackets: 25 for [r2,r3] in op1", "not r1 [r2,r3]", 25, 0 },
        { "brackets: 25 for [r2,r3,5] in op0", "cjmp [r2,r3,5] r1", 25, 0 },
        { "brackets: 25 in dst too", "mov [r1] r2", 25, 0 },
        { "brackets: 25 for jmp [r2,5]", "jmp [r2,5]", 25, 0 },
        { "brackets: 25 with a hexadecimal number", "jmp [r2,0x5]", 25, 0 },
        { "brackets: 25 before an unknown name in op0 of the same row", "add r1 g [r2]", 25, 0 },
        { "brackets: 10 for an unknown name in a row before", "jmp g\nmov r1 [r2]", 10, 0 },
        { "brackets: 25 before an unknown name in a later row", "mov r1 [r2]\njmp g", 25, 0 },
        { "brackets: 11 for mload from a register in a row before", "mload r1 r2\nmov r1 [r2]", 11, 0 },
        { "brackets: 25 before mload from a register in a later row", "mov r1 [r2]\nmload r1 r2", 25, 0 },
        { "brackets: 11 for mstore of what stands in brackets", "mstore [r1] [r2]", 11, 0 },
        { "brackets: 11 for mload into what stands in brackets", "mload [r1] [r2]", 11, 0 },
        { "brackets: 25 before 12 in a row before", "mov 5 r1\nmov r1 [r2]", 25, 1 },
        { "brackets: 25 before 12 in the same row", "add [r1] 5 6", 25, 0 },
        { "brackets: 3 for one bracket without the other", "mov r1 [r2", 3, 1 },
        { "brackets: 3 for no digit in them", "jmp [r2,0x]", 3, 1 },
    };
    for (size_t i = 0; i < sizeof cases / sizeof cases[0]; i++)
        say(cases[i].what, turned_away(after_main(cases[i].rows), "", ENTRIES, WORDS, cases[i].refusal, cases[i].detail, &MAIN_ROW, cases[i].refusal > 7));

    const char *source = "main:\nmov r1 [r2]";
    say("brackets: 25 with no word entry, not 13", turned_away(source, "", ENTRIES, 0, 25, 0, &MAIN_ROW, 1));
    say("brackets: 7 with no table entry", turned_away(source, "", 0, WORDS, 7, 0, NULL, 0));
    say("brackets: 8 for another first line", turned_away(source, "x", ENTRIES, WORDS, 8, 0, &MAIN_ROW, 1));
    say("brackets: 9 for an unknown prophet", turned_away(source, "label\n.PROPHET0_0", ENTRIES, WORDS, 9, 0, &MAIN_ROW, 1));

    /* Sorted, main's instruction goes first; f's row, which stands first in the source, marks the one at 1. */
    static const ola_label sorted[2] = {
        { .kind = 0, .mapped = true, .start = 15, .length = 4, .address = 0 },
        { .kind = 0, .mapped = true, .start = 0, .length = 1, .address = 1 },
    };
    say("brackets: 25 with the index in sorted order", turned_away("f:\nmov r1 [r2]\nmain:\nend", "", ENTRIES, WORDS, 25, 1, sorted, 2));
}

/* Document 01's case of a label behind mov r1 [r2], and the same behind rows that are accepted: the jump's number, and the address in the table, are the
   position of the jump's first word. */
static void positions(void)
{
    static const char refused[] = "main:\nmov r1 [r2]\n.LBL1_1:\njmp .LBL1_1";
    static const ola_label counted[2] = {
        { .kind = 0, .mapped = true, .start = 0, .length = 4, .address = 0 },
        { .kind = 1, .mapped = true, .start = 18, .length = 7, .address = 2 },
    };
    say("brackets: document 01's case is 25, its table filled by counted lengths", turned_away(refused, "", ENTRIES, WORDS, 25, 0, counted, 2));
    takes("room_of: its figures, counted length 4 and 3 words", refused, 2, 2, 4, 3);
    takes("room_of: two brackets count two and take no word", "main:\nadd r1 [r2] [r3]", 1, 1, 3, 1);
    takes("room_of: brackets in dst count nothing", "main:\nmov [r1] r2", 1, 1, 1, 1);

    static const struct { const char *what, *source; uint64_t words[4], count, position, start; } accepted[] = {
        { "positions: a label behind mload r1 [r2] is 2", "main:\nmload r1 [r2]\n.LBL1_1:\njmp .LBL1_1",
          { UINT64_C(0x4040000200400000), 0, UINT64_C(0x4000000004000000), 2 }, 4, 2, 20 },
        { "positions: a label behind mov r1 psp is 1", "main:\nmov r1 psp\n.LBL1_1:\njmp .LBL1_1",
          { UINT64_C(0x0000000208000000), UINT64_C(0x4000000004000000), 1 }, 3, 1, 17 },
    };
    for (size_t i = 0; i < sizeof accepted / sizeof accepted[0]; i++) {
        const char *source = accepted[i].source;
        const ola_assembly told = { .labels = 2, .words = accepted[i].count };
        const ola_label label = { .kind = 1, .mapped = true, .start = accepted[i].start, .length = 7, .address = accepted[i].position };
        clear();
        say(accepted[i].what, builds(0, source, "", ENTRIES, WORDS, HOSTS, told, accepted[i].words, told.words)
                              && same_entry(entry_at(0), MAIN_ROW) && same_entry(entry_at(1), label)
                              && words[accepted[i].position] == UINT64_C(0x4000000004000000) && words[accepted[i].position + 1] == accepted[i].position);
        takes("room_of: its counted length and its words are one number", source, 2, 2, told.words, told.words);
    }
}

static void naming(void)
{
    int right = 1;
    for (size_t i = 0; i < 3; i++) {
        ola_name name = ola_label_name(bytes(SOURCE), strlen(SOURCE), TABLE[i]);
        right = right && name.length == strlen(NAMES[i]) && memcmp(SOURCE + name.start, NAMES[i], name.length) == 0;
    }
    say("label_name: main, .PROPHET0_0, f", right);
    ola_label at_end = { .kind = 0, .mapped = false, .start = strlen(SOURCE) - 3, .length = 3, .address = 0 };
    ola_name name = ola_label_name(bytes(SOURCE), strlen(SOURCE), at_end);
    say("label_name: a name may reach the source's end", name.start == strlen(SOURCE) - 3 && name.length == 3);
    at_end.length = 4;
    name = ola_label_name(bytes(SOURCE), strlen(SOURCE), at_end);
    say("label_name: empty where the entry reaches past it", name.start == 0 && name.length == 0);
    at_end.start = SIZE_MAX;
    at_end.length = SIZE_MAX;
    name = ola_label_name(bytes(SOURCE), strlen(SOURCE), at_end);
    say("label_name: empty where start and length are the greatest", name.start == 0 && name.length == 0);
}

/* ---- instructions */

static ola_place place(uint8_t content, uint8_t reg, uint64_t number)
{
    ola_place p = { .content = content, .reg = reg, .number = number };
    return p;
}

static ola_instruction instruction(uint8_t opcode, ola_place op0, ola_place op1, ola_place dst)
{
    ola_instruction i = { .opcode = opcode, .op0 = op0, .op1 = op1, .dst = dst };
    return i;
}

static int same_place(ola_place a, ola_place b)
{
    return a.content == b.content && a.reg == b.reg && a.number == b.number;
}

static int same_instruction(ola_instruction a, ola_instruction b)
{
    return a.opcode == b.opcode && same_place(a.op0, b.op0) && same_place(a.op1, b.op1) && same_place(a.dst, b.dst);
}

/* Places in OlaOpcode's order, from 0. */
enum { ADD = 0, MOV = 4, JMP = 5, CALL = 7, RET = 8, MLOAD = 9, END = 11 };

#define NONE place(0, 0, 0)
#define NUMBER(n) place(1, 0, n)
#define REGISTER(r) place(2, r, 0)
#define FACTOR(r, n) place(4, r, n)
#define PSP place(5, 1, 0)

/* The printing source's instructions, and the line and the offset after each in its bytecode. */
static void canonical(ola_instruction program[4], uint64_t lines[4], uint64_t offsets[4])
{
    program[0] = instruction(MOV, NONE, NUMBER(ORDER - 1), REGISTER(1));
    program[1] = instruction(CALL, NONE, NUMBER(5), NONE);
    program[2] = instruction(END, NONE, NONE, NONE);
    program[3] = instruction(RET, NONE, NONE, NONE);
    const uint64_t line[4] = { 2, 4, 5, 6 };
    const uint64_t offset[4] = { 38, 61, 80, 98 };
    memcpy(lines, line, sizeof line);
    memcpy(offsets, offset, sizeof offset);
}

static int step_is(ola_step s, uint64_t refusal, uint64_t detail, uint64_t line, ola_instruction i)
{
    return s.refusal == refusal && s.detail == detail && s.line == line && same_instruction(s.instruction, i);
}

static ola_opened opens(const char *text)
{
    return ola_open(bytes(text), strlen(text));
}

static int opened_is(ola_opened o, uint64_t refusal, uint64_t detail)
{
    return o.refusal == refusal && o.detail == detail;
}

static void writing_and_opening(void)
{
    uint8_t text[120];
    size_t length = strlen(BYTECODE);
    memset(text, MARK, sizeof text);
    ola_written w = ola_write_bytecode(PRINTED, 6, text, sizeof text);
    say("write_bytecode: the printing source's bytecode, 98 bytes",
        w.refusal == 0 && w.detail == 0 && w.written == 98 && length == 98 && memcmp(text, BYTECODE, 98) == 0
        && untouched(text + 98, sizeof text - 98));
    memset(text, MARK, sizeof text);
    w = ola_write_bytecode(PRINTED, 6, text, 97);
    say("write_bytecode: 23 for 97 bytes, the text untouched", w.refusal == 23 && w.detail == 0 && w.written == 0 && untouched(text, sizeof text));

    say("open: that bytecode is accepted", opened_is(opens(BYTECODE), 0, 0));
    say("open: a first word alone is accepted", opened_is(opens("0x4000000001000000"), 0, 0));
    say("open: 15 with the line", opened_is(opens("0x0000000000800000\n0x0000000000800000\nret"), 15, 2));
    say("open: 16 with the instruction's index", opened_is(opens("0x0000000000800000\n0x1"), 16, 1));
    say("open: 17 for add with bit 22 and a following line", opened_is(opens("0x0000000080400000\n0x5"), 17, 0));
    say("open: 18 for a second line that is no number", opened_is(opens("0x4000000001000000\nff"), 18, 0));
    say("open: 19 for mload without dst", opened_is(opens("0x4040000000400000\n0x0"), 19, 0));
    static uint8_t long_text[524289];
    memset(long_text, '0', sizeof long_text);
    say("open: 14 for 524,289 bytes", opened_is(ola_open(long_text, sizeof long_text), 14, 0));
}

/* What a source refuses and bytecode takes on a second line, and what neither takes. */
static void second_lines(void)
{
    static const struct { const char *text; uint64_t number; } lines[] = {
        { "0x4000000208000000\n0x00000000000000005", 5 },
        { "0x4000000208000000\n0x0x5", 5 },
        { "0x4000000208000000\n0x+5", 5 },
        { "0x4000000208000000\n16", 16 },
        { "0x4000000208000000\n-5", ORDER - 5 },
    };
    static const char *const none[] = {
        "0x4000000208000000\n-0x5", "0x4000000208000000\n+0x5", "0x4000000208000000\n0X5", "0x4000000208000000\n0x", "0x4000000208000000\n0xffffffff00000001",
    };
    int right = 1;
    for (size_t i = 0; i < sizeof lines / sizeof lines[0]; i++)
        right = right && opened_is(opens(lines[i].text), 0, 0)
                && step_is(ola_next_at(bytes(lines[i].text), strlen(lines[i].text), 0), 0, 0, strlen(lines[i].text),
                           instruction(MOV, NONE, NUMBER(lines[i].number), REGISTER(1)));
    say("next_at: on a second line seventeen digits, 0x0x5 and 0x+5 are 5, 16 is decimal, -5 is p - 5", right);
    right = 1;
    for (size_t i = 0; i < sizeof none / sizeof none[0]; i++)
        right = right && opened_is(opens(none[i]), 18, 0);
    say("open: 18 for a sign before 0x, 0X, no digit, and p on a second line", right);
}

static void reading(void)
{
    ola_instruction program[4], none = instruction(0, NONE, NONE, NONE);
    uint64_t lines[4], offsets[4];
    canonical(program, lines, offsets);
    const uint8_t *text = bytes(BYTECODE);
    size_t length = strlen(BYTECODE), line = 0, offset = 0;
    int right = 1;
    for (size_t i = 0; i < 4; i++) {
        ola_step s = ola_next(text, length, line);
        right = right && step_is(s, 0, 0, lines[i], program[i]);
        line = s.line;
    }
    say("next: mov, call, end, ret, each with the line after it", right);
    say("next: 20 after them, and the line stays", step_is(ola_next(text, length, line), 20, 0, 6, none));
    say("next: 20 past the end", step_is(ola_next(text, length, 1000), 20, 0, 1000, none));
    say("next: 15 with index 0 for the line read", step_is(ola_next(bytes("0x800000\nret"), 12, 1), 15, 0, 1, none));
    right = 1;
    for (size_t i = 0; i < 4; i++) {
        ola_step s = ola_next_at(text, length, offset);
        right = right && step_is(s, 0, 0, offsets[i], program[i]);
        offset = s.line;
    }
    say("next_at: the same by offsets", right);
    say("next_at: 20 after them, and the offset stays", step_is(ola_next_at(text, length, offset), 20, 0, 98, none));
    say("next_at: 20 past the end", step_is(ola_next_at(text, length, SIZE_MAX), 20, 0, UINT64_MAX, none));
    say("next: 0x4000000001000000 and 10 is call 10, not 16",
        step_is(ola_next(bytes("0x4000000001000000\n10"), 21, 0), 0, 0, 2, instruction(CALL, NONE, NUMBER(10), NONE)));
    second_lines();
    say("next: 0x0000000600800000 reads dst r1, not r2",
        step_is(ola_next(bytes("0x0000000600800000"), 18, 0), 0, 0, 1, instruction(RET, NONE, NONE, REGISTER(1))));
    say("next: 0x0000000208000000 is mov r1 psp",
        step_is(ola_next(bytes("0x0000000208000000"), 18, 0), 0, 0, 1, instruction(MOV, NONE, PSP, REGISTER(1))));
}

static int encoding_is(ola_encoding e, uint64_t refusal, uint64_t detail, uint64_t count, uint64_t first, uint64_t second)
{
    return e.refusal == refusal && e.detail == detail && e.count == count && e.first == first && e.second == second;
}

static void encoding(void)
{
    say("encode: mload r1 [r2]", encoding_is(ola_encode(instruction(MLOAD, REGISTER(2), NUMBER(0), REGISTER(1))), 0, 0, 2,
                                            UINT64_C(0x4040000200400000), 0));
    say("encode: mload r1 [r2,r3]", encoding_is(ola_encode(instruction(MLOAD, REGISTER(2), FACTOR(3, 1), REGISTER(1))), 0, 0, 2,
                                               UINT64_C(0x0040200200400000), 1));
    say("encode: mov r1 psp has one word", encoding_is(ola_encode(instruction(MOV, NONE, PSP, REGISTER(1))), 0, 0, 1,
                                                       UINT64_C(0x0000000208000000), 0));
    say("encode: 21 for a number of p", encoding_is(ola_encode(instruction(MOV, NONE, NUMBER(ORDER), REGISTER(1))), 21, 0, 0, 0, 0));
    say("encode: 22 with place 0 for a number in op0", encoding_is(ola_encode(instruction(ADD, NUMBER(5), REGISTER(2), REGISTER(1))), 22, 0, 0, 0, 0));
    say("encode: 22 with place 1 for psp outside mov", encoding_is(ola_encode(instruction(ADD, REGISTER(2), PSP, REGISTER(1))), 22, 1, 0, 0, 0));
    say("encode: 22 with place 2 for a number in dst", encoding_is(ola_encode(instruction(ADD, REGISTER(2), REGISTER(3), NUMBER(5))), 22, 2, 0, 0, 0));
    say("encode: 255 for operation 27", encoding_is(ola_encode(instruction(27, NONE, NONE, NONE)), 255, 0, 0, 0, 0));
    say("encode: 255 for content 6", encoding_is(ola_encode(instruction(RET, place(6, 0, 0), NONE, NONE)), 255, 0, 0, 0, 0));
    say("encode: 255 for register 10", encoding_is(ola_encode(instruction(RET, NONE, place(2, 10, 0), NONE)), 255, 0, 0, 0, 0));
    say("encode: 255 for special register 2", encoding_is(ola_encode(instruction(RET, NONE, NONE, place(5, 2, 0))), 255, 0, 0, 0, 0));
    ola_instruction program[4];
    uint64_t lines[4], offsets[4];
    canonical(program, lines, offsets);
    ola_encoding e = ola_encode(program[0]);
    say("encode: what next gave encodes to the words read", encoding_is(e, 0, 0, 2, PRINTED[0], PRINTED[1]));
}

/* A row, or its refusal, in a text of so many bytes; what is not written is untouched. */
static void lists(const char *what, ola_instruction i, size_t room, uint64_t refusal, const char *row)
{
    uint8_t text[64];
    memset(text, MARK, sizeof text);
    ola_written w = ola_listing_row(i, text, room);
    size_t n = strlen(row);
    say(what, w.refusal == refusal && w.detail == 0 && w.written == n && memcmp(text, row, n) == 0 && untouched(text + n, sizeof text - n));
}

static void listing(void)
{
    lists("listing_row: mload r1 [r2+0x0]", instruction(MLOAD, REGISTER(2), NUMBER(0), REGISTER(1)), 64, 0, "mload r1 [r2+0x0]");
    lists("listing_row: mload r1 [r2+0x1*r3]", instruction(MLOAD, REGISTER(2), FACTOR(3, 1), REGISTER(1)), 64, 0, "mload r1 [r2+0x1*r3]");
    lists("listing_row: mov r1 psp, in a text of its length", instruction(MOV, NONE, PSP, REGISTER(1)), 10, 0, "mov r1 psp");
    lists("listing_row: ret lists no place", instruction(RET, NONE, NUMBER(5), REGISTER(1)), 64, 0, "ret");
    lists("listing_row: 23 for a text one byte short", instruction(MOV, NONE, PSP, REGISTER(1)), 9, 23, "");
    lists("listing_row: 24 for a place that the row needs", instruction(MOV, NONE, NONE, REGISTER(1)), 64, 24, "");
    lists("listing_row: 21 before 24", instruction(MOV, NUMBER(ORDER), NONE, REGISTER(1)), 64, 21, "");
    lists("listing_row: 255 for operation 27", instruction(27, NONE, NONE, NONE), 64, 255, "");
}

/* ---- document 02, Point 7 */

/* The source of a bytecode, or its refusal, in a text of so many bytes; what is not written is untouched. */
static int sourced(const char *bytecode, size_t room, uint64_t refusal, uint64_t detail, const char *source)
{
    static uint8_t text[256];
    size_t n = strlen(source);
    memset(text, MARK, sizeof text);
    ola_written w = ola_write_source(bytes(bytecode), strlen(bytecode), text, room);
    return w.refusal == refusal && w.detail == detail && w.written == n && memcmp(text, source, n) == 0 && untouched(text + n, sizeof text - n);
}

/* Two bytecodes read as the same instructions. */
static int read_alike(const uint8_t *a, size_t a_len, const uint8_t *b, size_t b_len)
{
    ola_step s = { .refusal = 0, .line = 0 }, t = s;
    while (s.refusal == 0) {
        s = ola_next_at(a, a_len, s.line);
        t = ola_next_at(b, b_len, t.line);
        if (s.refusal != t.refusal || !same_instruction(s.instruction, t.instruction))
            return 0;
    }
    return s.refusal == 20;
}

/* A bytecode's source, written by hand: with room to spare, with just enough, and with a byte less and none at all, which is 23. Assembling it, in one entry
   and just so many words, gives these words, and they read as the bytecode does. */
static void gives(const char *what, const char *bytecode, const char *source, const uint64_t *emitted, size_t count)
{
    static uint8_t text[160];
    const ola_label main_row = { .kind = 0, .mapped = count > 0, .start = 0, .length = 4, .address = 0 };
    size_t n = strlen(source);
    int right = sourced(bytecode, n + 20, 0, 0, source) && sourced(bytecode, n, 0, 0, source) && sourced(bytecode, n - 1, 23, 0, "")
                && sourced(bytecode, 0, 23, 0, "");
    clear();
    right = right && assembly_is(parts(source, n, "", 1, count, 0), 0, 0, 1, count, 0, 0) && same_entry(entry_at(0), main_row)
            && memcmp(words, emitted, count * sizeof emitted[0]) == 0 && untouched(words + count, sizeof words - count * sizeof words[0]);
    ola_written w = ola_write_bytecode(emitted, count, text, sizeof text);
    say(what, right && w.refusal == 0 && read_alike(bytes(bytecode), strlen(bytecode), text, w.written));
}

/* A bytecode of which no source is written, whatever the room: every byte is untouched. */
static void gives_none(const char *what, const char *bytecode, uint64_t refusal, uint64_t detail)
{
    say(what, sourced(bytecode, 256, refusal, detail, "") && sourced(bytecode, 5, refusal, detail, "") && sourced(bytecode, 0, refusal, detail, ""));
}

static void source_from_bytecode(void)
{
    static const struct { const char *what, *bytecode, *source; size_t count; uint64_t words[6]; } texts[] = {
        { "write_source: of the empty text, main: alone", "", "main:", 0, { 0 } },
        { "write_source: of a last first word, which is dropped, main: alone", "0x4000000001000000", "main:", 0, { 0 } },
        { "write_source: the same behind a row", "800000\n0x4000000001000000", "main:\nret", 1, { UINT64_C(0x800000) } },
        { "write_source: psp for both places of mov", "0x0000000008000000", "main:\nmov psp psp", 1, { UINT64_C(0x0000000008000000) } },
        { "write_source: psp for three empty places", "0x0000000080000000", "main:\nadd psp psp psp", 1, { UINT64_C(0x0000000080000000) } },
        { "write_source: -1 in decimal", "0x4000000004000000\n-1", "main:\njmp 18446744069414584320", 2,
          { UINT64_C(0x4000000004000000), UINT64_C(0xffffffff00000000) } },
        { "write_source: a hexadecimal line in decimal", "0x4000000004000000\n0xff", "main:\njmp 255", 2, { UINT64_C(0x4000000004000000), 255 } },
        { "write_source: [r2,0], not [r2]", "0x4040000200400000\n0x0", "main:\nmload r1 [r2,0]", 2, { UINT64_C(0x4040000200400000), 0 } },
        { "write_source: [r2,r3,1], not [r2,r3]", "0x0040200200400000\n1", "main:\nmload r1 [r2,r3,1]", 2, { UINT64_C(0x0040200200400000), 1 } },
        { "write_source: a number beside a register of op1: the program comes back, not the words", "0x4040200200400000\n7", "main:\nmload r1 [r2,7]", 2,
          { UINT64_C(0x4040000200400000), 7 } },
        { "write_source: likewise of unused bits, a lower operation bit and a higher register", "0x8000180010008001", "main:\nassert r1", 1, { UINT64_C(0x0000080010000000) } },
        { "write_source: mstore has its memory operand first", "0x4040000200200000\n5", "main:\nmstore [r2,5] r1", 2, { UINT64_C(0x4040000200200000), 5 } },
        { "write_source: three places, two, one and none", "0x0040200280000000\n0x0000100208000000\n0x0020100002000000\n0x0000080004000000\n100000",
          "main:\nadd r1 r2 r3\nmov r1 r2\ncjmp r1 r2\njmp r1\nend", 5,
          { UINT64_C(0x0040200280000000), UINT64_C(0x0000100208000000), UINT64_C(0x0020100002000000), UINT64_C(0x0000080004000000), UINT64_C(0x100000) } },
        { "write_source: a long mnemonic and the greatest number", "0x6000020000001000\n18446744069414584320",
          "main:\nposeidon r9 r9 18446744069414584320", 2, { UINT64_C(0x6000020000001000), UINT64_C(0xffffffff00000000) } },
        { "write_source: lines as they are read", "0x0x800000\r\n+100000\n", "main:\nret\nend", 2, { UINT64_C(0x800000), UINT64_C(0x100000) } },
        { "write_source: the printing source's bytecode", BYTECODE, "main:\nmov r1 18446744069414584320\ncall 5\nend\nret", 6,
          { UINT64_C(0x4000000208000000), UINT64_C(0xffffffff00000000), UINT64_C(0x4000000001000000), 5, UINT64_C(0x100000), UINT64_C(0x800000) } },
    };
    for (size_t i = 0; i < sizeof texts / sizeof texts[0]; i++)
        gives(texts[i].what, texts[i].bytecode, texts[i].source, texts[i].words, texts[i].count);

    gives_none("write_source: 26 for ret with dst, with no room too", "0x0000000600800000", 26, 0);
    gives_none("write_source: 26 for ret with a number", "0x4000000000800000\n5", 26, 0);
    gives_none("write_source: 26 for ret with a register in op1", "0x0000080000800000", 26, 0);
    gives_none("write_source: 26 for end with op0", "0x0020000000100000", 26, 0);
    gives_none("write_source: 26 for mov with op0", "0x0010000008000000", 26, 0);
    gives_none("write_source: 26 for jmp with dst", "0x4000000204000000\n1", 26, 0);
    gives_none("write_source: 26 for jmp with op0", "0x4020000004000000\n1", 26, 0);
    gives_none("write_source: 26 for cjmp with dst", "0x0020100202000000", 26, 0);
    gives_none("write_source: 26 with the instruction's index", "800000\n0x0000000600800000", 26, 1);
    gives_none("write_source: 26 with the index of the first, by instructions, not by lines", "0x4000000004000000\n1\n0x0000000600800000\n0x0000000600800000",
               26, 1);
    gives_none("write_source: 15 behind an instruction off its row", "0x4000000204000000\n1\nzz", 15, 2);
    gives_none("write_source: 16 behind one", "0x0000000600800000\n0x0", 16, 1);
    gives_none("write_source: 17", "0x0000000080400000\n0x5", 17, 0);
    gives_none("write_source: 18 behind one", "0x0000000600800000\n0x4000000001000000\nff", 18, 1);
    gives_none("write_source: 19", "0x4040000000400000\n0x0", 19, 0);
    static uint8_t long_text[524289], text[256];
    memset(long_text, '0', sizeof long_text);
    memset(text, MARK, sizeof text);
    ola_written w = ola_write_source(long_text, sizeof long_text, text, sizeof text);
    say("write_source: 14 for 524,289 bytes", w.refusal == 14 && w.detail == 0 && w.written == 0 && untouched(text, sizeof text));
}

/* Lines `40`, parted by line feeds: sigcheck with two empty places each. */
#define MOST_LINES 174763
#define MOST_SOURCE 2970976

static void longest_source(void)
{
    static uint8_t bytecode[3 * MOST_LINES], source[MOST_SOURCE + PAST];
    static uint64_t many[3854];
    static ola_label table[1];
    for (size_t i = 0; i < MOST_LINES; i++)
        memcpy(bytecode + 3 * i, "40\n", 3);

    memset(source, MARK, sizeof source);
    ola_written w = ola_write_source(bytecode, 524288, source, MOST_SOURCE - 1);
    say("write_source: 23 for a byte less than 524,288 bytes of lines `40` take", w.refusal == 23 && w.detail == 0 && w.written == 0
                                                                                  && untouched(source, sizeof source));
    w = ola_write_source(bytecode, 524288, source, MOST_SOURCE);
    int right = w.refusal == 0 && w.detail == 0 && w.written == MOST_SOURCE && memcmp(source, "main:", 5) == 0;
    for (size_t i = 0; i < MOST_LINES; i++)
        right = right && memcmp(source + 5 + 17 * i, "\nsigcheck psp psp", 17) == 0;
    say("write_source: their 2,970,976 bytes, the most of any bytecode", right && untouched(source + MOST_SOURCE, PAST));

    memset(source, MARK, sizeof source);
    w = ola_write_source(bytecode, 3 * 3854 - 1, source, sizeof source);
    say("write_source: 65,523 bytes of 3,854 lines", w.refusal == 0 && w.written == 65523 && untouched(source + 65523, sizeof source - 65523));
    clear();
    ola_assembly a = ola_assemble_parts(source, w.written, bytes(""), 0, kinds, 1, mapped, 1, starts, 1, lengths, 1, addresses, 1, many, 3854, hosts, 0);
    right = assembly_is(a, 0, 0, 1, 3854, 0, 0);
    for (size_t i = 0; i < 3854; i++)
        right = right && many[i] == UINT64_C(0x40);
    say("assemble_parts: their words", right);
    memset(many, 0, sizeof many);
    a = ola_assemble(source, w.written, bytes(""), 0, table, 1, many, 3854, hosts, 0);
    right = assembly_is(a, 0, 0, 1, 3854, 0, 0);
    for (size_t i = 0; i < 3854; i++)
        right = right && many[i] == UINT64_C(0x40);
    say("assemble: their words, and main in the table",
        right && table[0].kind == 0 && table[0].mapped && table[0].start == 0 && table[0].length == 4 && table[0].address == 0);
    w = ola_write_source(bytecode, 3 * 3855 - 1, source, sizeof source);
    say("write_source: 65,540 bytes of 3,855 lines", w.refusal == 0 && w.written == 65540);
    a = ola_assemble_parts(source, w.written, bytes(""), 0, kinds, 1, mapped, 1, starts, 1, lengths, 1, addresses, 1, many, 3854, hosts, 0);
    say("assemble_parts: 1 for these", assembly_is(a, 1, 0, 0, 0, 0, 0));
    a = ola_assemble(source, w.written, bytes(""), 0, table, 1, many, 3854, hosts, 0);
    say("assemble: 1 for these", assembly_is(a, 1, 0, 0, 0, 0, 0));
}

/* ---- the longest source: main and as many rows `jmp 1` as 65,536 bytes hold */

#define JUMPS 10921

static void longest(void)
{
    static uint8_t source[65536], text[JUMPS * 23];
    static uint64_t many[2 * JUMPS];
    size_t length = 6;
    memcpy(source, "main:\n", 6);
    for (size_t i = 0; i < JUMPS; i++) {
        memcpy(source + length, "jmp 1\n", 6);
        length += 6;
    }
    say("room_of: 10,921 jumps in 65,532 bytes", room_is(ola_room_of(source, length), 0, 0, 1, JUMPS, 2 * JUMPS, 2 * JUMPS));
    ola_assembly a = ola_assemble_parts(source, length, bytes(""), 0, kinds, ENTRIES, mapped, ENTRIES, starts, ENTRIES, lengths, ENTRIES,
                                        addresses, ENTRIES, many, 2 * JUMPS, hosts, HOSTS);
    int right = assembly_is(a, 0, 0, 1, 2 * JUMPS, 0, 0);
    for (size_t i = 0; i < JUMPS; i++)
        right = right && many[2 * i] == UINT64_C(0x4000000004000000) && many[2 * i + 1] == 1;
    say("assemble_parts: 10,921 jumps in 65,532 bytes", right);
    static const uint64_t before[] = { 0, UINT64_MAX - 2 * JUMPS, UINT64_MAX - 2 * JUMPS + 1 }, after[] = { 2 * JUMPS, UINT64_MAX, UINT64_MAX };
    right = 1;
    for (size_t k = 0; k < 3; k++) {
        const ola_meter meter = { .total = before[k] };
        memset(many, MARK, sizeof many);
        ola_metered m = ola_meter_build(meter, source, length, bytes(""), 0, kinds, ENTRIES, mapped, ENTRIES, starts, ENTRIES, lengths, ENTRIES,
                                        addresses, ENTRIES, many, 2 * JUMPS, hosts, HOSTS);
        right = right && assembly_is(m.assembly, 0, 0, 1, 2 * JUMPS, 0, 0) && m.meter.total == after[k];
        for (size_t i = 0; i < JUMPS; i++)
            right = right && many[2 * i] == UINT64_C(0x4000000004000000) && many[2 * i + 1] == 1;
    }
    say("meter_build: 10,921 jumps are 21,842 words: from 0, just up to 2^64 - 1, and past it", right);
    ola_written w = ola_write_bytecode(many, 2 * JUMPS, text, sizeof text);
    say("write_bytecode: their text, 23 bytes a jump but for the last line feed", w.refusal == 0 && w.written == JUMPS * 23 - 1);
    say("open: that text", opened_is(ola_open(text, w.written), 0, 0));
    size_t offset = 0, read = 0;
    for (;;) {
        ola_step s = ola_next_at(text, w.written, offset);
        if (s.refusal != 0) {
            say("next_at: each of them, and then 20", s.refusal == 20 && read == JUMPS && s.line == w.written);
            break;
        }
        if (!same_instruction(s.instruction, instruction(JMP, NONE, NUMBER(1), NONE)))
            break;
        read += 1;
        offset = s.line;
    }
    say("next_at: no other instruction among them", read == JUMPS);
}

int main(void)
{
    say("version: the header's", ola_version() == OLA_VERSION);
    assembling();
    assembling_entries();
    telling_room();
    metering();
    metering_a_history();
    hexadecimal();
    pasting();
    brackets();
    positions();
    naming();
    writing_and_opening();
    reading();
    encoding();
    listing();
    source_from_bytecode();
    longest_source();
    longest();
    printf("%d differences\n", faults);
    return faults == 0 ? 0 : 1;
}
