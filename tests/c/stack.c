/* Measures the stack that a call of each function of include/ola.h takes, and compares it with the header's figure. Ends with 1 where it is not less.

   Each function is called in a process of its own, on a painted stack with a page below it that may not be touched; what is counted is from the stack's top
   down to the deepest byte that was changed, the frame of the function that calls with it. The calls are made twice: in the first round nothing is bound yet, so
   that the dynamic linker looks memcpy and memset up while they run, on their stack; in the second all is. A process begins as a copy of the first one,
   which must bind neither: it copies nothing and clears nothing. */
#define _GNU_SOURCE
#include <stdio.h>
#include <string.h>
#include <sys/mman.h>
#include <sys/wait.h>
#include <ucontext.h>
#include <unistd.h>

#include "ola.h"

/* ---- the longest inputs, made once, and what a process found: all processes see them */

#define SOURCE 65536
#define PROPHETS 16384
#define TEXT 524288
#define ENTRIES 21846
#define WORDS 21846
#define HOSTS 2048
#define ROW 64

static struct shared {
    uint8_t source[SOURCE], prophets[PROPHETS], text[TEXT];
    uint64_t words[WORDS];
    size_t word_count, text_length;
    size_t first, later;
} *shared;

/* What is lent to be written. */
static ola_label table[ENTRIES];
static uint8_t kinds[ENTRIES], text[TEXT], row[ROW];
static bool mapped[ENTRIES];
static size_t starts[ENTRIES], lengths[ENTRIES];
static uint64_t addresses[ENTRIES], words[WORDS], hosts[HOSTS];

/* ---- the calls of each function */

/* The greatest number of document 01, p - 1. */
#define GREATEST UINT64_C(0xFFFFFFFF00000000)

static void version(void)
{
    ola_version();
}

static void room_of(void)
{
    ola_room_of(shared->source, SOURCE);
}

static void assemble(void)
{
    ola_assemble(shared->source, SOURCE, shared->prophets, PROPHETS, table, ENTRIES, words, WORDS, hosts, HOSTS);
}

static ola_assembly parts(void)
{
    return ola_assemble_parts(shared->source, SOURCE, shared->prophets, PROPHETS, kinds, ENTRIES, mapped, ENTRIES, starts, ENTRIES,
                              lengths, ENTRIES, addresses, ENTRIES, words, WORDS, hosts, HOSTS);
}

static void assemble_parts(void)
{
    parts();
}

static void meter_open(void)
{
    ola_meter_open();
}

/* From 0, and from where the words pass the stop. */
static void meter_build(void)
{
    for (unsigned full = 0; full < 2; full++) {
        ola_meter meter = { .total = full ? UINT64_MAX : 0 };
        ola_meter_build(meter, shared->source, SOURCE, shared->prophets, PROPHETS, kinds, ENTRIES, mapped, ENTRIES, starts, ENTRIES,
                        lengths, ENTRIES, addresses, ENTRIES, words, WORDS, hosts, HOSTS);
    }
}

static void label_name(void)
{
    ola_label entry = { .kind = 0, .mapped = true, .start = 0, .length = SOURCE, .address = 0 };
    ola_label_name(shared->source, SOURCE, entry);
}

static void write_bytecode(void)
{
    ola_write_bytecode(shared->words, shared->word_count, text, TEXT);
}

static void open_text(void)
{
    ola_open(shared->text, shared->text_length);
}

/* A few lines of the text, and one past its end. */
static void next(void)
{
    for (size_t line = 0; line < shared->word_count + 1000; line += 1000)
        ola_next(shared->text, shared->text_length, line);
}

/* Every instruction of the text, and 20 after them. */
static void next_at(void)
{
    ola_step step = { .refusal = 0, .line = 0 };
    while (step.refusal == 0)
        step = ola_next_at(shared->text, shared->text_length, step.line);
}

/* The bytecode's source; then a text that is too short for it, and an instruction off its row. */
static void write_source(void)
{
    static const uint8_t off_row[] = "0x0000000600800000";
    ola_write_source(shared->text, shared->text_length, text, TEXT);
    ola_write_source(shared->text, shared->text_length, text, 1000);
    ola_write_source(off_row, sizeof off_row - 1, text, TEXT);
}

static ola_place place(uint8_t content)
{
    ola_place p = { .content = content, .reg = content == 5 ? 1 : 9, .number = GREATEST };
    return p;
}

/* Every operation with every content of its places, the numbers as long as they can be: the longest row is among them. */
static void instructions(void (*call)(ola_instruction))
{
    for (uint8_t opcode = 0; opcode < 27; opcode++)
        for (uint8_t op0 = 0; op0 < 6; op0++)
            for (uint8_t op1 = 0; op1 < 6; op1++)
                for (uint8_t dst = 0; dst < 6; dst++) {
                    ola_instruction i = { .opcode = opcode, .op0 = place(op0), .op1 = place(op1), .dst = place(dst) };
                    call(i);
                }
}

static void encode_one(ola_instruction i)
{
    ola_encode(i);
}

static void list_one(ola_instruction i)
{
    ola_listing_row(i, row, ROW);
}

static void encode(void)
{
    instructions(encode_one);
}

static void listing_row(void)
{
    instructions(list_one);
}

static const struct { const char *name; void (*calls)(void); size_t figure; } FUNCTIONS[] = {
    { "ola_version", version, OLA_STACK_OTHER },
    { "ola_room_of", room_of, OLA_STACK_OTHER },
    { "ola_assemble", assemble, OLA_STACK_ASSEMBLE },
    { "ola_assemble_parts", assemble_parts, OLA_STACK_ASSEMBLE_PARTS },
    { "ola_meter_open", meter_open, OLA_STACK_OTHER },
    { "ola_meter_build", meter_build, OLA_STACK_ASSEMBLE_PARTS },
    { "ola_label_name", label_name, OLA_STACK_OTHER },
    { "ola_write_bytecode", write_bytecode, OLA_STACK_OTHER },
    { "ola_open", open_text, OLA_STACK_OTHER },
    { "ola_next", next, OLA_STACK_OTHER },
    { "ola_next_at", next_at, OLA_STACK_OTHER },
    { "ola_write_source", write_source, OLA_STACK_OTHER },
    { "ola_encode", encode, OLA_STACK_OTHER },
    { "ola_listing_row", listing_row, OLA_STACK_OTHER },
};

/* ---- the painted stack */

#define STACK ((size_t)1 << 20)
#define PAINT 0xA5

static ucontext_t here, there;

/* How much of the stack the calls take; 0 where they did not run on it. */
static size_t taken(volatile uint8_t *stack, void (*calls)(void))
{
    for (size_t i = 0; i < STACK; i++)
        stack[i] = PAINT;
    if (getcontext(&there) != 0)
        return 0;
    there.uc_stack.ss_sp = (void *)stack;
    there.uc_stack.ss_size = STACK;
    there.uc_link = &here;
    makecontext(&there, calls, 0);
    if (swapcontext(&here, &there) != 0)
        return 0;
    size_t untouched = 0;
    while (untouched < STACK && stack[untouched] == PAINT)
        untouched++;
    return STACK - untouched;
}

/* A process that calls one function. */
static int measure(void (*calls)(void))
{
    size_t page = (size_t)sysconf(_SC_PAGESIZE);
    uint8_t *room = mmap(NULL, page + STACK, PROT_READ | PROT_WRITE, MAP_PRIVATE | MAP_ANONYMOUS, -1, 0);
    if (room == MAP_FAILED || mprotect(room, page, PROT_NONE) != 0)
        return 1;
    shared->first = taken(room + page, calls);
    shared->later = taken(room + page, calls);
    return shared->first == 0 || shared->later == 0;
}

/* ---- the inputs */

static size_t put(uint8_t *buffer, size_t at, size_t room, const char *piece)
{
    size_t length = strlen(piece);
    if (length > room - at)
        return room + 1;
    memcpy(buffer + at, piece, length);
    return at + length;
}

/* A source of every kind of row with labels of their own, filled up with line feeds; a list that names its first prophet again and again; the bytecode. */
static int prepare(void (*unused)(void))
{
    (void)unused;
    char block[512];
    size_t length = put(shared->source, 0, SOURCE, "main:\nmov r1 psp\n");
    for (unsigned n = 0; length <= SOURCE; n++) {
        snprintf(block, sizeof block,
                 "f%u:\n.LBL%u_0:\n.PROPHET%u_0:\nmov r1 -1\nadd r1 r2 %u\nmul r9 r8 r7\ncall f%u\ncjmp r1 .LBL%u_0\njmp .LBL%u_0\n"
                 "mload r1 [r2]\nmload r1 [r2,-%u]\nmload r1 [r2,r3]\nmstore [r2,r3] r1\nassert r1 ; a comment\nlog r1 r2\nret\n"
                 "mov r1 0x%016x\nmstore [r2,r3,0x%X] r1\n",
                 n, n, n, n, n, n, n, n, n, n);
        size_t after = put(shared->source, length, SOURCE, block);
        if (after > SOURCE)
            break;
        length = after;
    }
    memset(shared->source + length, '\n', SOURCE - length);
    length = put(shared->prophets, 0, PROPHETS, "label");
    while ((PROPHETS - length) % 12 != 0)
        length = put(shared->prophets, length, PROPHETS, "\n.PROPHET10_0");
    while (length < PROPHETS)
        length = put(shared->prophets, length, PROPHETS, "\n.PROPHET0_0");
    ola_assembly a = parts();
    if (a.refusal != 0)
        return 1;
    memcpy(shared->words, words, sizeof words);
    shared->word_count = a.words;
    ola_written w = ola_write_bytecode(words, a.words, shared->text, TEXT);
    shared->text_length = w.written;
    return w.refusal != 0 || ola_open(shared->text, w.written).refusal != 0;
}

/* Whether a process that does this ends as it should. */
static int apart(int (*what)(void (*)(void)), void (*calls)(void))
{
    fflush(stdout);
    pid_t child = fork();
    if (child == 0)
        _exit(what(calls));
    int status = 1;
    return child > 0 && waitpid(child, &status, 0) == child && status == 0;
}

int main(void)
{
    int faults = 0, bound = 0;
    shared = mmap(NULL, sizeof *shared, PROT_READ | PROT_WRITE, MAP_SHARED | MAP_ANONYMOUS, -1, 0);
    if (shared == MAP_FAILED || !apart(prepare, NULL)) {
        printf("WRONG stack: the inputs are not made\n");
        return 1;
    }
    printf("a source of %d bytes, %zu words, a bytecode of %zu bytes\n", SOURCE, shared->word_count, shared->text_length);
    for (size_t i = 0; i < sizeof FUNCTIONS / sizeof FUNCTIONS[0]; i++) {
        if (!apart(measure, FUNCTIONS[i].calls)) {
            printf("WRONG stack of %s: above %zu bytes, or the process failed\n", FUNCTIONS[i].name, STACK);
            faults++;
            continue;
        }
        int right = shared->first < FUNCTIONS[i].figure && shared->later < FUNCTIONS[i].figure;
        printf("%s stack of %s: at first %zu bytes, later %zu, of %zu\n", right ? "right" : "WRONG", FUNCTIONS[i].name, shared->first,
               shared->later, FUNCTIONS[i].figure);
        faults += !right;
        bound += shared->first > shared->later;
    }
    printf("%d functions take more stack than include/ola.h says; binding at the first call added to %d\n", faults, bound);
    if (bound == 0)
        printf("WRONG stack: nothing was bound at a first call, so that is not measured\n");
    return faults == 0 && bound > 0 ? 0 : 1;
}
