/* The Ola assembler and bytecode reader for C and other languages: target/staticlib/libola_c.a, which tests/library writes.
 *
 * Every function but ola_version, ola_label_name and ola_meter_open answers a struct whose first field is a refusal (of ola_meter_build the first field of
 * its assembly): 0 means accepted, 1 to 26 are the refusals of the scope document and of the requests after it, 255, which is this interface's own, an
 * instruction whose numbers name none. On refusal every other field but the detail is 0 (a step's line stays where it was, and a meter is the one that was
 * given, not zero), and what was lent is as it was, but that refusals above 7 of assembling, on a meter too, leave the label table filled.
 *
 * What a caller owes, and no function can test:
 *  - each pointer points to as many elements as the length after it says, aligned as their type is; all of them may be read, and written where
 *    the pointer is not const. Where the length is 0 nothing is read or written through the pointer, but it is not null then either;
 *  - each bool, given or lent, is the byte 0 or 1, those of `mapped` before the call too;
 *  - what is lent to be written overlaps nothing else that is lent to the same call, and nobody else writes or reads it until the call returns.
 *    Buffers that are only read may overlap each other, and nobody writes them meanwhile;
 *  - the thread has the stack that is said below.
 * Nothing else is owed: any bytes are a source, a prophet list or a bytecode, any numbers an instruction, an entry or a meter, and any length of
 * a buffer will do. Nothing is allocated, nothing is kept between calls, and calls from several threads do not disturb each other.
 *
 * The stack that a call takes, in bytes, is less than the figure for its function below: tests/c/stack.c compares the two, on x86-64, with a source of
 * 65,536 bytes, a prophet list of 16,384 and their bytecode. A first call counts too, in which the dynamic linker may look memcpy or memset up on the
 * same stack; a handler of signals does not.
 */
#ifndef OLA_H
#define OLA_H

#include <stdbool.h>
#include <stddef.h>
#include <stdint.h>

#ifdef __cplusplus
extern "C" {
#endif

/* The version of this header, and that of the library. A caller compares the two before any other call: structs come back by value, so a header of another
   version over the library could corrupt the caller's stack. It is raised whenever a function is added, or a struct, a signature or an answer changes. */
#define OLA_VERSION 7
uint64_t ola_version(void);

/* The stack of ola_assemble, which has a label table of its own there; of ola_assemble_parts and ola_meter_build, which chain the table's names there, to
   find them quickly; of every other function. */
#define OLA_STACK_ASSEMBLE 655360
#define OLA_STACK_ASSEMBLE_PARTS 65536
#define OLA_STACK_OTHER 8192

/* An entry of the label table. Kind: 0 call, 1 .LBL, 2 prophet. Start and length: the name's place in the source, without its colon. Address:
   what the row marks (a prophet label's host), in an accepted source the position of a first word; unmapped: address 0. */
typedef struct { uint8_t kind; bool mapped; size_t start, length; uint64_t address; } ola_label;

/* What assembling answers: how many table entries, words and hosts were written, and how many prophets are kept. */
typedef struct { uint64_t refusal, detail, labels, words, hosts, kept; } ola_assembly;

/* The build meter: the words of all accepted builds since it was opened; 2^64 - 1 where there were more. */
typedef struct { uint64_t total; } ola_meter;

/* What a build on a meter answers: what assembling answers, and the meter after it. */
typedef struct { ola_assembly assembly; ola_meter meter; } ola_metered;

/* What a source takes: its label rows, instructions, counted length and words. Of an accepted source the last two are one number. */
typedef struct { uint64_t refusal, detail, labels, instructions, counted, words; } ola_room;

/* What writing a text answers: how many bytes were written. */
typedef struct { uint64_t refusal, detail, written; } ola_written;

/* Whether a text opens as bytecode. */
typedef struct { uint64_t refusal, detail; } ola_opened;

/* The contents of a place. Content: 0 empty, 1 number, 2 register, 3 register with offset, 4 register with factor, 5 special register (reg 0 pc,
   1 psp). A number, offset or factor is in `number`. What a content does not have is 0 when given and not looked at when taken. */
typedef struct { uint8_t content, reg; uint64_t number; } ola_place;

/* An instruction. Opcode: its place in the order of OlaOpcode, from 0 for add to 26 for log. */
typedef struct { uint8_t opcode; ola_place op0, op1, dst; } ola_instruction;

/* What a call of next answers, and the line reached; of ola_next_at, the offset reached. */
typedef struct { uint64_t refusal, detail, line; ola_instruction instruction; } ola_step;

/* The words of one instruction: one or two of them. */
typedef struct { uint64_t refusal, detail, count, first, second; } ola_encoding;

/* A name as a part of the source. */
typedef struct { size_t start, length; } ola_name;

/* How much a source takes, without building it: an accepted one fills so many table entries and words. Refusals 1 to 6. Hosts, one for each listed
   prophet, are not the source's to tell. With `labels` table entries (of ola_assemble_parts, in each of its five arrays), `words` words and a host for each
   listed prophet, assembling answers neither 7 nor 13. A figure may be 0; what is lent for it is not null even then. The figures come of a source that a
   later refusal turns away, too. It takes less than OLA_STACK_OTHER of stack. */
ola_room ola_room_of(const uint8_t *source, size_t source_len);

/* Assembles a source with a prophet list into a table of entries, words and hosts. Refusals 1 to 13 and 25, which is asked with 10 and 11, before 12. Each
   `mapped` of the table is 0 or 1 before the call, a fresh table's too: a table that was never initialised is the caller's fault. */
ola_assembly ola_assemble(const uint8_t *source, size_t source_len, const uint8_t *prophets, size_t prophets_len,
                          ola_label *table, size_t table_len, uint64_t *words, size_t words_len, uint64_t *hosts, size_t hosts_len);

/* The same with the table as five arrays; 7 where the shortest of them is shorter than the label rows. Refusals 1 to 13 and 25. Each `mapped` of the table is
   0 or 1 before the call, a fresh table's too: a table that was never initialised is the caller's fault. */
ola_assembly ola_assemble_parts(const uint8_t *source, size_t source_len, const uint8_t *prophets, size_t prophets_len,
                          uint8_t *kinds, size_t kinds_len, bool *mapped, size_t mapped_len, size_t *starts, size_t starts_len,
                          size_t *lengths, size_t lengths_len, uint64_t *addresses, size_t addresses_len,
                          uint64_t *words, size_t words_len, uint64_t *hosts, size_t hosts_len);

/* A meter at its start. */
ola_meter ola_meter_open(void);

/* Assembles as ola_assemble_parts does, and counts the words of an accepted build. Refusals 1 to 13 and 25. Each build takes the meter that the last one
   answered: a meter is a number of the caller's, and the library keeps none. So two builds on one meter, from two threads too, count one, and what
   ola_assemble and ola_assemble_parts build no meter counts. At 2^64 - 1 a build is accepted as ever, and the meter stays there. Any meter may be given, one
   that ola_meter_open never answered too. */
ola_metered ola_meter_build(ola_meter meter, const uint8_t *source, size_t source_len, const uint8_t *prophets, size_t prophets_len,
                          uint8_t *kinds, size_t kinds_len, bool *mapped, size_t mapped_len, size_t *starts, size_t starts_len,
                          size_t *lengths, size_t lengths_len, uint64_t *addresses, size_t addresses_len,
                          uint64_t *words, size_t words_len, uint64_t *hosts, size_t hosts_len);

/* The part of the source that an entry's name is; start 0 and length 0 where the entry reaches past the source's end. Refuses nothing. */
ola_name ola_label_name(const uint8_t *source, size_t source_len, ola_label entry);

/* Writes the bytecode text of words, without a final line feed. Refusal 23. */
ola_written ola_write_bytecode(const uint64_t *words, size_t words_len, uint8_t *text, size_t text_len);

/* Whether a text opens as bytecode. Refusals 14 to 19. */
ola_opened ola_open(const uint8_t *text, size_t text_len);

/* The instruction from a line on, counted from 0, and the line after it. Refusals 14 to 20. Each call counts the lines from the text's start. */
ola_step ola_next(const uint8_t *text, size_t text_len, size_t line);

/* The same from the byte at an offset on, and the offset after it. A run from offset 0 gives the same instructions and reads the text once. */
ola_step ola_next_at(const uint8_t *text, size_t text_len, size_t offset);

/* Writes a source of a bytecode's instructions: `main:` and a row for each, without a final line feed. 5 + 21 bytes of text for each line of the bytecode
   are enough, 2,970,976 for any. Refusals 14 to 19, 26 and 23, asked in this order. Where the source has at most 65,536 bytes, assembling it without
   prophets, in one table entry and a word for each line of the bytecode, is accepted, and its words read as the same instructions. */
ola_written ola_write_source(const uint8_t *bytecode, size_t bytecode_len, uint8_t *text, size_t text_len);

/* The words of one instruction. Refusals 255, 21 and 22. */
ola_encoding ola_encode(ola_instruction instruction);

/* Writes the listing row of one instruction, without a line feed. Refusals 255, 21, 24 and 23. */
ola_written ola_listing_row(ola_instruction instruction, uint8_t *text, size_t text_len);

#ifdef __cplusplus
}
#endif

#endif
