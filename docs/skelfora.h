/* The functions of the library port (crates/port/src), for C and C++. docs/PORT-OTHER.md explains them.
 * No tool checks these declarations against the source: keep them in step by hand. compare/caller.c uses them in the gate. */
#ifndef SKELFORA_H
#define SKELFORA_H

#include <stddef.h>
#include <stdint.h>

#ifdef __cplusplus
extern "C" {
#endif

/* What the numbers say; docs/FORMATS.md has a sentence for each. */
enum {
    SKELFORA_DONE = 0,
    SKELFORA_TOO_SHORT = 1,
    SKELFORA_WRONG_LETTERS = 2,
    SKELFORA_ABOVE_LIMIT = 3,
    SKELFORA_WRONG_OFFSET = 4,
    SKELFORA_OUTSIDE = 5,
    SKELFORA_BAD_ROW = 6,
    SKELFORA_BUFFER_TOO_SMALL = 7,
    SKELFORA_NO_EVENT = 8,
    SKELFORA_NOT_INCLUDED = 9,
    SKELFORA_WAITING = 10,
    SKELFORA_NO_TRACE = 11,
    SKELFORA_WRONG_ARGUMENT = 12,
    SKELFORA_NO_PLACE_FREE = 13,
    SKELFORA_NOT_OPEN = 14,
    SKELFORA_NOT_ACCEPTING = 15,
    SKELFORA_FALSE_ENABLED = 16,
    SKELFORA_NO_WAY_OUT = 17,
    SKELFORA_LABELS_NOT_AS_MANY = 18,
    SKELFORA_LABEL_ABOVE_ONE = 19
};

/* The profiles; any other number is refused with 12, before the log is read. */
#define SKELFORA_FULL 0  /* all ten steps of mining */
#define SKELFORA_LIGHT 1 /* all but the sixth */

/* What skelfora_place gives where skelfora_desk_open is refused. */
#define SKELFORA_NO_PLACE 255

/* The bytes of a way out, and what stands in an unused one. */
#define SKELFORA_WAY_ROOM 4
#define SKELFORA_NO_STEP 255

/* The byte of a trace whose replay is done and accepting; of any other it is the replay's number. */
#define SKELFORA_YES 128

/* What skelfora_blocker gives beside every number but SKELFORA_WAITING. */
#define SKELFORA_NO_BLOCKER 255

/* Two sizes. A log or a graph file of edition 1 has up to 64 activities and sets of 8 bytes, one of edition 2 has 65 to 128 and sets of 16.
 * What is lent beside it goes by its edition (byte 2 of a log or a graph file), whatever else stands in it; beside a head by the head's A (byte 0).
 * So with up to 64 activities nothing is longer than the sizes without WIDE in their name. skelfora_is_wide tells which it is. */
#define SKELFORA_ACTIVITIES 64
#define SKELFORA_WIDE_ACTIVITIES 128
#define SKELFORA_WIDE_EDITION 2

/* Room that is always enough, in bytes, for either size. */
#define SKELFORA_LOG_ROOM 36871      /* a log read from a file: one byte more than the longest, so that a longer file is refused */
#define SKELFORA_MARKS_ROOM 98       /* the text of marks; the functions that write it ask for no less */
#define SKELFORA_TALLY_SIZE 36864    /* a tally of months: 4,608 sets of 8 bytes; more bytes are not looked at. Up to 64 activities only */
#define SKELFORA_KNOWN_SIZE 2057     /* what a tally gives: A, the events, 64 rows of 8 bytes for each of four relations */
#define SKELFORA_TRACES_ROOM 1024    /* a byte for each trace of any log: labels, guesses, replays */
#define SKELFORA_PLACES 32           /* the places of a desk, from 0 */
#define SKELFORA_HEAD_AT 3           /* where the first SKELFORA_HEAD_STORED bytes of a head stand in a graph's file */
#define SKELFORA_MOST_PAIRS 16384    /* a list of the plain engine with more pairs is refused, whatever A is */

/* With up to 64 activities. */
#define SKELFORA_GRAPH_ROOM 2356     /* a graph file: 52, and 9 for each of 4 x 64 rows */
#define SKELFORA_LISTING_ROOM 147506 /* a listing; skelfora_listing asks for no less */
#define SKELFORA_SUMMARY_SIZE 128    /* a summary: a byte for each of 64 activities, twice */
#define SKELFORA_MARKING_SIZE 32     /* a marking: executed, pending, included, enabled, 8 bytes each */
#define SKELFORA_HEAD_SIZE 41        /* a head: A, then events, then a marking */
#define SKELFORA_HEAD_STORED 33      /* a graph's file has all of it but the enabled set: skelfora_opening gives that */
#define SKELFORA_PLACE_SIZE 33       /* a place: one byte, 0 where it is free, then its marking */
#define SKELFORA_TABLE_ROOM 1056     /* a desk's table; all zeros is a fresh desk, and more bytes are not looked at */
#define SKELFORA_PAIRS_ROOM 4096     /* the pairs of a relation, as 16-bit numbers */

/* With 65 to 128; room for these is enough for either. */
#define SKELFORA_WIDE_GRAPH_ROOM 8788     /* 84, and 17 for each of 4 x 128 rows */
#define SKELFORA_WIDE_LISTING_ROOM 671799
#define SKELFORA_WIDE_SUMMARY_SIZE 256
#define SKELFORA_WIDE_MARKING_SIZE 64     /* four sets of 16 bytes */
#define SKELFORA_WIDE_HEAD_SIZE 81
#define SKELFORA_WIDE_HEAD_STORED 65
#define SKELFORA_WIDE_PLACE_SIZE 65
#define SKELFORA_WIDE_TABLE_ROOM 2080
#define SKELFORA_WIDE_PAIRS_ROOM 16384

/* Mines a log in a profile and writes its graph file into the first bytes of file.
 * Gives number + 256 * length of the file. */
uint64_t skelfora_mine(const uint8_t *log, size_t log_len, uint8_t profile, uint8_t *file, size_t room);

/* Mines a log in a profile, replays it, and writes its listing into the first bytes of out.
 * Gives number + 256 * length of the listing. */
uint64_t skelfora_listing(const uint8_t *log, size_t log_len, uint8_t profile, uint8_t *out, size_t room);

/* Mines a log in a profile and counts its pairs: byte a of out is how many other events a is a condition for, byte 64 + a how many
 * others it excludes; 0 and 0 for what is no event. Of a log of edition 2 that is byte 128 + a. Gives the number; the log is judged before the room. */
uint64_t skelfora_summary(const uint8_t *log, size_t log_len, uint8_t profile, uint8_t *out, size_t room);

/* Months put together. A tally holds A and all that steps 1 to 8 of mining need to know of some traces: docs/FORMATS.md has its layout. */

/* Fills the first SKELFORA_TALLY_SIZE bytes of tally with a log, whatever they held. Refusals: the log's, SKELFORA_BUFFER_TOO_SMALL,
 * SKELFORA_ABOVE_LIMIT for its A above 64. Gives the number; refused, tally stays as it was. */
uint64_t skelfora_tally(const uint8_t *log, size_t log_len, uint8_t *tally, size_t room);

/* Joins another tally to the first, which then is that of the traces of both. Refusals: SKELFORA_BUFFER_TOO_SMALL where either has too few
 * bytes, SKELFORA_ABOVE_LIMIT where either's A is above 64. Gives the number; refused, tally stays as it was. */
uint64_t skelfora_tally_join(uint8_t *tally, size_t room, const uint8_t *other, size_t other_len);

/* What a tally gives in a profile: into the first SKELFORA_KNOWN_SIZE bytes of out A, the events, and the rows of conditions, responses,
 * includes and excludes after step 8; a condition stands in the row of its target. Refusals: SKELFORA_WRONG_ARGUMENT, the tally's
 * SKELFORA_BUFFER_TOO_SMALL and SKELFORA_ABOVE_LIMIT, SKELFORA_BUFFER_TOO_SMALL for out. Gives the number; refused, out stays as it was. */
uint64_t skelfora_tally_relations(const uint8_t *tally, size_t tally_len, uint8_t profile, uint8_t *out, size_t room);

/* Reads a graph file and writes it again into the first bytes of out.
 * Gives number + 256 * length of the file. */
uint64_t skelfora_rewrite(const uint8_t *file, size_t file_len, uint8_t *out, size_t room);

/* Replays a trace, one byte an event, on the graph of a file.
 * Gives number + 256 * place, 2^32 more where it ends accepting, and 2^40 * blocker. */
uint64_t skelfora_replay(const uint8_t *file, size_t file_len, const uint8_t *trace, size_t trace_len);

/* A marking has the steps that are enabled as its fourth set. One that is handed over with another set than the true one for this graph is
 * refused with SKELFORA_FALSE_ENABLED, after SKELFORA_OUTSIDE, and stays as it was; so keep all bytes of a marking as they were given back. They are 32;
 * beside a file of edition 2, or a head with A above 64, they are 64, and a head of 41 bytes is one of 81. */

/* The opening marking of a graph file, with its enabled steps, into the first 32 (64) bytes of marking.
 * Gives the number; the file is judged before the room. Refused, marking stays as it was. */
uint64_t skelfora_opening(const uint8_t *file, size_t file_len, uint8_t *marking, size_t room);

/* One step of an activity on the graph of a file, at the marking in the first 32 (64) lent bytes.
 * Gives number + 2^40 * blocker; the file is judged before the room for the marking. */
uint64_t skelfora_step(const uint8_t *file, size_t file_len, uint8_t *marking, size_t marking_len, uint8_t activity);

/* The plain engine: a graph is its head in the first 41 (81) bytes, and four lists of pairs, source * 256 + target; lengths count pairs.
 * Fewer bytes give 7, before all else. A head whose own enabled set is false gives SKELFORA_FALSE_ENABLED. */

/* One step of an activity at the marking in the first 32 (64) lent bytes.
 * Gives number + 2^40 * blocker; the graph is judged before the room for the marking. */
uint64_t skelfora_plain_step(const uint8_t *head, size_t head_len, const uint16_t *conditions, size_t conditions_len,
                             const uint16_t *responses, size_t responses_len, const uint16_t *includes, size_t includes_len,
                             const uint16_t *excludes, size_t excludes_len, uint8_t *marking, size_t marking_len, uint8_t activity);

/* Whether the marking in the first 32 (64) bytes is accepting.
 * Gives the number, and 2^32 more where it is. */
uint64_t skelfora_plain_accepting(const uint8_t *head, size_t head_len, const uint16_t *conditions, size_t conditions_len,
                                  const uint16_t *responses, size_t responses_len, const uint16_t *includes, size_t includes_len,
                                  const uint16_t *excludes, size_t excludes_len, const uint8_t *marking, size_t marking_len);

/* Replays a trace, one byte an event, from the head's opening marking.
 * Gives number + 256 * place, 2^32 more where it ends accepting, and 2^40 * blocker. */
uint64_t skelfora_plain_replay(const uint8_t *head, size_t head_len, const uint16_t *conditions, size_t conditions_len,
                               const uint16_t *responses, size_t responses_len, const uint16_t *includes, size_t includes_len,
                               const uint16_t *excludes, size_t excludes_len, const uint8_t *trace, size_t trace_len);

/* How a half-done call can still finish: from a marking the shortest way to its end, at most SKELFORA_WAY_ROOM steps, and of these
 * the first by activity numbers, into the first bytes of way; SKELFORA_NO_STEP in those that are not used, in all where the call may end now.
 * Gives the number: the file's, SKELFORA_BUFFER_TOO_SMALL for fewer than 32 (64) bytes or fewer than four, SKELFORA_OUTSIDE,
 * SKELFORA_FALSE_ENABLED, SKELFORA_NO_WAY_OUT where no four steps end it. Refused, way stays as it was. */
uint64_t skelfora_finish(const uint8_t *file, size_t file_len, const uint8_t *marking, size_t marking_len, uint8_t *way, size_t room);

/* What shut an activity out last in a trace and was not followed by what lets it in: any trace, of any length. Gives number + 256 * that
 * activity; SKELFORA_NO_STEP where nothing did, and where the file is refused. */
uint64_t skelfora_shut_by(const uint8_t *file, size_t file_len, const uint8_t *trace, size_t trace_len, uint8_t activity);

/* Marks of a file's graph on a log, by labels: a byte for each trace, 1 in order and 0 not. Refusals: the log's, the file's,
 * SKELFORA_LABELS_NOT_AS_MANY, SKELFORA_LABEL_ABOVE_ONE. Gives the number, and above it the counts of the confusion table, 12 bits each: see
 * skelfora_true_positives and its likes below; all 0 where refused. */
uint64_t skelfora_marks(const uint8_t *file, size_t file_len, const uint8_t *log, size_t log_len, const uint8_t *labels, size_t labels_len);

/* The same as text, into the first bytes of out: seven lines, or the one line of a refusal. Fewer than SKELFORA_MARKS_ROOM bytes give 7, before all
 * else. Gives number + 256 * length of the text. */
uint64_t skelfora_marks_text(const uint8_t *file, size_t file_len, const uint8_t *log, size_t log_len, const uint8_t *labels,
                             size_t labels_len, uint8_t *out, size_t room);

/* The text of the marks of guesses, which stand in the place of a graph's verdicts. Refusals: SKELFORA_ABOVE_LIMIT for more than 1,024
 * labels, SKELFORA_LABELS_NOT_AS_MANY where the guesses are not as many as the labels, SKELFORA_LABEL_ABOVE_ONE for a label or a guess. */
uint64_t skelfora_guesses_text(const uint8_t *guesses, size_t guesses_len, const uint8_t *labels, size_t labels_len, uint8_t *out, size_t room);

/* Replays all traces of a log on the graph of a file, which is read once: byte k of out is SKELFORA_YES where trace k is done and accepting, else
 * the number of its replay. Refusals: the log's, the file's, 7 for fewer bytes than traces. Gives number + 256 * how many bytes. */
uint64_t skelfora_replays(const uint8_t *file, size_t file_len, const uint8_t *log, size_t log_len, uint8_t *out, size_t room);

/* Relation kind of a graph file (0 conditions, 1 responses, 2 includes, 3 excludes; any other has no pair) into the first numbers of memory.
 * Gives number + 256 * how many pairs. */
uint64_t skelfora_fill(const uint8_t *file, size_t file_len, uint8_t kind, uint16_t *memory, size_t room);

/* The call desk: the graph of a file, and a table of 32 places in the first 1,056 (2,080) lent bytes. Fewer bytes give 7, before all else. Of step,
 * close and finish 14 comes next (the place is above 31 or not open), then the file's refusals. A refusal leaves the whole table as it was. */

/* Gives the lowest free place a call at the graph's opening marking.
 * Gives number + 256 * place; the place is SKELFORA_NO_PLACE where refused. */
uint64_t skelfora_desk_open(const uint8_t *file, size_t file_len, uint8_t *table, size_t table_len);

/* One step of an activity at a place. Gives number + 2^40 * blocker. */
uint64_t skelfora_desk_step(const uint8_t *file, size_t file_len, uint8_t *table, size_t table_len, size_t place, uint8_t activity);

/* Frees a place whose call is accepting; it then holds zeros. Gives the number. */
uint64_t skelfora_desk_close(const uint8_t *file, size_t file_len, uint8_t *table, size_t table_len, size_t place);

/* How the call at a place can still finish: as skelfora_finish at the marking there. After the file's refusals SKELFORA_BUFFER_TOO_SMALL for
 * fewer than four bytes of way. The table is only looked at. Gives the number; refused, way stays as it was. */
uint64_t skelfora_desk_finish(const uint8_t *file, size_t file_len, const uint8_t *table, size_t table_len, size_t place, uint8_t *way,
                              size_t room);

/* Whether a log or a graph file is of edition 2, so that the sizes with WIDE in their name are to be lent beside it. */
static inline int skelfora_is_wide(const uint8_t *bytes, size_t len) { return len > 2 && bytes[2] == SKELFORA_WIDE_EDITION; }

/* The parts of what they give. Only a step and a replay have a blocker: beside SKELFORA_WAITING the smallest activity that the step
 * waits for, SKELFORA_NO_BLOCKER beside every other number, SKELFORA_DONE too. So ask for the number of a step that was done. */
static inline unsigned skelfora_number(uint64_t given) { return (unsigned)(given & 0xff); }
static inline size_t skelfora_length(uint64_t given) { return (size_t)((given >> 8) & 0xffffff); }
static inline size_t skelfora_place(uint64_t given) { return skelfora_length(given); }
static inline size_t skelfora_pairs(uint64_t given) { return skelfora_length(given); }
static inline unsigned skelfora_shutter(uint64_t given) { return (unsigned)skelfora_length(given); }
static inline unsigned skelfora_true_positives(uint64_t given) { return (unsigned)((given >> 8) & 0xfff); }
static inline unsigned skelfora_false_positives(uint64_t given) { return (unsigned)((given >> 20) & 0xfff); }
static inline unsigned skelfora_false_negatives(uint64_t given) { return (unsigned)((given >> 32) & 0xfff); }
static inline unsigned skelfora_true_negatives(uint64_t given) { return (unsigned)((given >> 44) & 0xfff); }
static inline unsigned skelfora_blocker(uint64_t given) { return (unsigned)((given >> 40) & 0xff); }
static inline int skelfora_accepting(uint64_t given) { return (int)((given >> 32) & 1); }

#ifdef __cplusplus
}
#endif

#endif
