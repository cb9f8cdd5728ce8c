/* A caller in C: it makes the calls of a record again (compare --record=FILE) and holds what
   comes back to the judge's results. It includes the header that users include, so that is
   tried too. compare/x86 runs it on the archive for x86-64. Reads the record from standard
   input; libc's three functions are declared here, so that no system header is needed. */
#include "../docs/skelfora.h"

int printf(const char *format, ...);
long read(int file, void *bytes, size_t count);
void *memset(void *bytes, int value, size_t count);

enum { MINE, LISTING, REWRITE, REPLAY, STEP, PLAIN_STEP, PLAIN_ACCEPTING, PLAIN_REPLAY, FILL, SUMMARY, DESK_OPEN, DESK_STEP, DESK_CLOSE };
enum { FINISH = DESK_CLOSE + 1, SHUT_BY, OPENING, MARKS, MARKS_TEXT, GUESSES_TEXT, REPLAYS, DESK_FINISH, TALLY, TALLY_JOIN, TALLY_RELATIONS, FUNCTIONS, END = 255 };
enum { ROOM = 1 << 20, PAST = 64, UNTOUCHED = 165 };

static const char *const names[FUNCTIONS] = {"mine",         "listing", "rewrite", "replay",    "step",      "plain step", "plain accepting",
                                             "plain replay", "fill",    "summary", "desk open", "desk step", "desk close", "finish",
                                             "shut by",      "opening", "marks", "marks text", "guesses text", "replays", "desk finish",
                                             "tally",        "tally join", "tally relations"};
static uint8_t input[ROOM], beside[ROOM];
static uint16_t memory[(ROOM + PAST) / 2], lists[4][ROOM / 2];
static uint8_t *const lent = (uint8_t *)memory;
static size_t pairs[4];

/* Whole parts only: 0 at the end of the record, and -1 where it ends within a part. */
static int take(void *to, size_t count) {
    static uint8_t kept[1 << 16];
    static size_t at, end;
    uint8_t *bytes = to;
    for (size_t i = 0; i < count; i++) {
        if (at == end) {
            long more = read(0, kept, sizeof kept);
            if (more <= 0) return i == 0 ? 0 : -1;
            at = 0;
            end = (size_t)more;
        }
        bytes[i] = kept[at++];
    }
    return 1;
}

static uint64_t number(size_t bytes) {
    uint64_t value = 0;
    uint8_t one;
    for (size_t i = 0; i < bytes; i++) {
        if (take(&one, 1) != 1) return ~(uint64_t)0;
        value |= (uint64_t)one << (8 * i);
    }
    return value;
}

static size_t part(uint8_t *to) {
    size_t length = number(4);
    if (length > ROOM || (length > 0 && take(to, length) != 1)) return ROOM + 1;
    return length;
}

static uint64_t hash(const uint8_t *bytes, size_t count) {
    uint64_t value = 0xCBF29CE484222325u;
    for (size_t i = 0; i < count; i++) value = (value ^ bytes[i]) * 0x100000001B3u;
    return value;
}

/* Whether a byte past the room was written. */
static int touched(const uint8_t *past) {
    for (size_t i = 0; i < PAST; i++)
        if (past[i] != UNTOUCHED) return 1;
    return 0;
}

/* The four lists of a plain graph, and how many pairs each has. */
static int take_lists(void) {
    for (int k = 0; k < 4; k++) {
        size_t bytes = part((uint8_t *)lists[k]);
        if (bytes > ROOM) return 0;
        pairs[k] = bytes / 2;
    }
    return 1;
}

/* What is lent has contents: a marking, a desk's table, or a tally that is joined with another. */
static int is_altered(int function) {
    return function == STEP || function == PLAIN_STEP || (function >= DESK_OPEN && function <= DESK_CLOSE) || function == TALLY_JOIN;
}

static int is_plain(int function) { return function >= PLAIN_STEP && function <= PLAIN_REPLAY; }

#define PLAIN input, n, lists[0], pairs[0], lists[1], pairs[1], lists[2], pairs[2], lists[3], pairs[3]

/* `activity` is that of a step, the relation to fill from, or the number of the profile. Of marks `place` is where the labels begin beside
   the input, after the log. */
static uint64_t call(int function, size_t n, size_t m, size_t room, uint8_t activity, size_t place) {
    switch (function) {
    case DESK_OPEN: return skelfora_desk_open(input, n, lent, room);
    case DESK_STEP: return skelfora_desk_step(input, n, lent, room, place, activity);
    case DESK_CLOSE: return skelfora_desk_close(input, n, lent, room, place);
    case PLAIN_STEP: return skelfora_plain_step(PLAIN, lent, room, activity);
    case PLAIN_ACCEPTING: return skelfora_plain_accepting(PLAIN, beside, m);
    case PLAIN_REPLAY: return skelfora_plain_replay(PLAIN, beside, m);
    case FILL: return skelfora_fill(input, n, activity, memory, room / 2);
    case MINE: return skelfora_mine(input, n, activity, lent, room);
    case LISTING: return skelfora_listing(input, n, activity, lent, room);
    case SUMMARY: return skelfora_summary(input, n, activity, lent, room);
    case REWRITE: return skelfora_rewrite(input, n, lent, room);
    case REPLAY: return skelfora_replay(input, n, beside, m);
    case FINISH: return skelfora_finish(input, n, beside, m, lent, room);
    case SHUT_BY: return skelfora_shut_by(input, n, beside, m, activity);
    case DESK_FINISH: return skelfora_desk_finish(input, n, beside, m, place, lent, room);
    case OPENING: return skelfora_opening(input, n, lent, room);
    case MARKS: return skelfora_marks(input, n, beside, place, beside + place, m - place);
    case MARKS_TEXT: return skelfora_marks_text(input, n, beside, place, beside + place, m - place, lent, room);
    case GUESSES_TEXT: return skelfora_guesses_text(input, n, beside, m, lent, room);
    case REPLAYS: return skelfora_replays(input, n, beside, m, lent, room);
    case TALLY: return skelfora_tally(input, n, lent, room);
    case TALLY_JOIN: return skelfora_tally_join(lent, room, input, n);
    case TALLY_RELATIONS: return skelfora_tally_relations(input, n, activity, lent, room);
    default: return skelfora_step(input, n, lent, room, activity);
    }
}

/* As the header reads it: a step and a replay name a blocker beside 10, and beside no other number; nothing else has those bits. */
static int blocker_in_place(int function, uint64_t given) {
    int waits = skelfora_number(given) == SKELFORA_WAITING;
    switch (function) {
    case REPLAY:
    case STEP:
    case PLAIN_STEP:
    case DESK_STEP:
    case PLAIN_REPLAY: return waits == (skelfora_blocker(given) != SKELFORA_NO_BLOCKER);
    case MARKS: return 1; /* those bits are counts */
    default: return skelfora_blocker(given) == 0;
    }
}

/* The header's sizes follow from one another, and a marking from four sets of 8 bytes. */
_Static_assert(SKELFORA_MARKING_SIZE == 4 * 8, "a marking has four sets");
_Static_assert(SKELFORA_HEAD_SIZE == 1 + 8 + SKELFORA_MARKING_SIZE, "a head has A, the events and a marking");
_Static_assert(SKELFORA_HEAD_STORED == SKELFORA_HEAD_SIZE - 8, "a file lacks one set of it");
_Static_assert(SKELFORA_PLACE_SIZE == 1 + SKELFORA_MARKING_SIZE, "a place has a byte and a marking");
_Static_assert(SKELFORA_TALLY_SIZE == 4608 * 8, "a tally has 4,608 sets");
_Static_assert(SKELFORA_KNOWN_SIZE == 1 + 8 + 4 * 64 * 8, "A, the events and four relations");
_Static_assert(SKELFORA_TABLE_ROOM == SKELFORA_PLACES * SKELFORA_PLACE_SIZE, "a table has 32 places");
_Static_assert(SKELFORA_GRAPH_ROOM == 4 + 4 * 8 + 16 + 4 * 64 * 9, "a graph file has a head and 64 rows of each relation");
_Static_assert(SKELFORA_SUMMARY_SIZE == 2 * SKELFORA_ACTIVITIES, "a summary has two bytes for each activity");
_Static_assert(SKELFORA_PAIRS_ROOM == SKELFORA_ACTIVITIES * SKELFORA_ACTIVITIES, "a relation has at most all pairs");

/* The same with sets of 16 bytes. */
_Static_assert(SKELFORA_WIDE_MARKING_SIZE == 4 * 16, "a marking has four sets");
_Static_assert(SKELFORA_WIDE_HEAD_SIZE == 1 + 16 + SKELFORA_WIDE_MARKING_SIZE, "a head has A, the events and a marking");
_Static_assert(SKELFORA_WIDE_HEAD_STORED == SKELFORA_WIDE_HEAD_SIZE - 16, "a file lacks one set of it");
_Static_assert(SKELFORA_WIDE_PLACE_SIZE == 1 + SKELFORA_WIDE_MARKING_SIZE, "a place has a byte and a marking");
_Static_assert(SKELFORA_WIDE_TABLE_ROOM == SKELFORA_PLACES * SKELFORA_WIDE_PLACE_SIZE, "a table has 32 places");
_Static_assert(SKELFORA_WIDE_GRAPH_ROOM == 4 + 4 * 16 + 16 + 4 * 128 * 17, "a graph file has a head and 128 rows of each relation");
_Static_assert(SKELFORA_WIDE_SUMMARY_SIZE == 2 * SKELFORA_WIDE_ACTIVITIES, "a summary has two bytes for each activity");
_Static_assert(SKELFORA_WIDE_PAIRS_ROOM == SKELFORA_WIDE_ACTIVITIES * SKELFORA_WIDE_ACTIVITIES, "a relation has at most all pairs");
_Static_assert(SKELFORA_WIDE_PAIRS_ROOM == SKELFORA_MOST_PAIRS, "and no list may be longer");

/* What the comparison with the judge does not try: a listing's buffer that is too short gets 7 and stays as it was. */
static int short_buffers(void) {
    memset(lent, UNTOUCHED, ROOM);
    uint64_t before = hash(lent, ROOM);
    int wrong = skelfora_listing(input, 0, SKELFORA_FULL, lent, SKELFORA_LISTING_ROOM - 1) != 7;
    const uint8_t wide[] = {66, 76, SKELFORA_WIDE_EDITION, 65, 0, 0};
    wrong += !skelfora_is_wide(wide, sizeof wide) || skelfora_is_wide(wide, 2);
    wrong += skelfora_listing(wide, sizeof wide, SKELFORA_FULL, lent, SKELFORA_WIDE_LISTING_ROOM - 1) != 7;
    wrong += skelfora_guesses_text(input, 0, input, 0, lent, SKELFORA_MARKS_ROOM - 1) != 7;
    return wrong + (hash(lent, ROOM) != before);
}

/* Each count has its own 12 bits. */
static int counts_read(void) {
    uint64_t given = 0 + ((uint64_t)1 << 8) + ((uint64_t)2 << 20) + ((uint64_t)3 << 32) + ((uint64_t)1024 << 44);
    return skelfora_true_positives(given) != 1 || skelfora_false_positives(given) != 2 || skelfora_false_negatives(given) != 3 ||
           skelfora_true_negatives(given) != 1024;
}

int main(void) {
    unsigned long calls[FUNCTIONS] = {0}, different = 0, all = 0;
    uint8_t function = 0;
    while (take(&function, 1) == 1 && function != END) {
        uint8_t activity = (uint8_t)number(1);
        size_t place = number(8), room = number(4), n = part(input), m = part(beside);
        int whole = function < FUNCTIONS && room <= ROOM && n <= ROOM && m <= ROOM && (!is_plain(function) || take_lists());
        uint64_t wanted = number(8), after = number(8);
        if (!whole) {
            printf("not a record\n");
            return 2;
        }
        memset(lent, UNTOUCHED, room + PAST);
        for (size_t i = 0; is_altered(function) && i < m; i++) lent[i] = beside[i];
        uint64_t looked_at = hash(beside, m);
        uint64_t given = call(function, n, m, room, activity, place);
        calls[function]++;
        all++;
        if (given != wanted || hash(lent, room) != after || touched(lent + room) || !blocker_in_place(function, given)) different++;
        else if (hash(beside, m) != looked_at) different++; /* what is lent to be read stays as it was */
    }
    if (function != END || number(8) != all) {
        printf("the record is not whole\n");
        return 2;
    }
    different += short_buffers() + counts_read();
    for (int i = 0; i < FUNCTIONS; i++) {
        different += calls[i] == 0;
        printf("%s %lu, ", names[i], calls[i]);
    }
    printf("in all %lu calls; %lu different\n", all, different);
    return different != 0;
}
