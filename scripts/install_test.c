/* Tries the installed library: NULL with length 0, buffers that are too short, answers of every kind, a rule that is
 * typed and written out, both layouts of a work area, both modes of reading a log, labels in letters of either case,
 * and the stack that a call takes, on a thread that has no more than the header promises. Prints the most stack taken.
 * Exits with 1 at the first fault. */
#define _GNU_SOURCE
#include <pthread.h>
#include <stdio.h>
#include <stdlib.h>
#include <string.h>
#include <sys/mman.h>
#include <scene_log.h>

#define EXPECT(fact) ((fact) ? (void)0 : (printf("line %d: not so: %s\n", __LINE__, #fact), exit(1)))
#define BYTES(text) (const uint8_t *)(text), sizeof(text) - 1
#define OF(buffer) buffer, sizeof buffer
#define OF_TALLY tally, SCENE_LOG_TALLY_COUNTS
#define SQUARE SCENE_LOG_SQUARE
#define HALF SCENE_LOG_HALF
#define FIRST SCENE_LOG_FIRST_FAILURE
#define FULL SCENE_LOG_FULL
#define GUARD_BYTES 65536
#define UNUSED 0xa5

static const uint8_t rule[] = {'R', 'U', 'L', 1, 0, 0, 3, 5, 0, 1, 3, 1, 0, 3, 0, 1};
static const uint8_t with_slips[] = {'R', 'U', 'L', 1, 0, 0, 3, 8, 0, 0, 3, 0, 0, 2, 1, 0};
static uint8_t work[SCENE_LOG_WORK_BYTES], verdicts[SCENE_LOG_VERDICT_BYTES], text[SCENE_LOG_TEXT_BYTES];
static uint8_t record[SCENE_LOG_RECORD_BYTES];
static uint32_t tally[SCENE_LOG_TALLY_COUNTS];
static uint8_t slip[SCENE_LOG_SLIP_BYTES];
static uint8_t made[SCENE_LOG_RULE_BYTES], written[SCENE_LOG_RULE_TEXT_BYTES];

/* A refused call leaves its buffer as it was; any other writes to its front, and leaves the rest. */
static void try_typed_rules(void) {
    static const char in_full[] = "(exist A.(exist B.A < B))";
    scene_log_answer answer;
    memset(made, UNUSED, sizeof made);
    memset(written, UNUSED, sizeof written);
    answer = scene_log_rule_from_text(NULL, 0, OF(made));
    EXPECT(SCENE_LOG_REFUSAL(answer) == SCENE_LOG_RULE_GRAMMAR && made[0] == UNUSED);
    answer = scene_log_rule_from_text(BYTES("exist A, B . A < B"), made, sizeof made - 1);
    EXPECT(SCENE_LOG_REFUSAL(answer) == SCENE_LOG_SHORT_BUFFER && made[0] == UNUSED);
    answer = scene_log_rule_from_text(BYTES("exist A . A < B"), OF(made));
    EXPECT(SCENE_LOG_REFUSAL(answer) == SCENE_LOG_RULE_UNBOUND && made[0] == UNUSED);
    answer = scene_log_rule_from_text(BYTES("exist A, B . A < B"), OF(made));
    EXPECT(!SCENE_LOG_REFUSED(answer) && SCENE_LOG_VALUE(answer) == sizeof rule);
    EXPECT(memcmp(made, rule, sizeof rule) == 0 && made[sizeof rule] == UNUSED);
    answer = scene_log_text_from_rule(NULL, 0, OF(written));
    EXPECT(SCENE_LOG_REFUSAL(answer) == SCENE_LOG_RULE_ENDS_EARLY && written[0] == UNUSED);
    answer = scene_log_text_from_rule(OF(rule), written, sizeof written - 1);
    EXPECT(SCENE_LOG_REFUSAL(answer) == SCENE_LOG_SHORT_BUFFER && written[0] == UNUSED);
    answer = scene_log_text_from_rule(OF(rule), OF(written));
    EXPECT(!SCENE_LOG_REFUSED(answer) && SCENE_LOG_VALUE(answer) == sizeof in_full - 1);
    EXPECT(memcmp(written, in_full, sizeof in_full - 1) == 0 && written[sizeof in_full - 1] == UNUSED);
}

static void try_answers(void) {
    scene_log_answer answer;
    scene_log_verdict verdict;
    uint32_t number;
    EXPECT(SCENE_LOG_VALUE(scene_log_report(SQUARE, FULL, OF(rule), NULL, 0, OF(work), OF(verdicts), OF(text))) == 12);
    EXPECT(memcmp(text, "T 0 0 0 0 0\n", 12) == 0);
    EXPECT(SCENE_LOG_VALUE(scene_log_report(SQUARE, FIRST, NULL, 0, NULL, 0, OF(work), OF(verdicts), OF(text))) == 5);
    EXPECT(memcmp(text, "0 R1\n", 5) == 0);
    answer = scene_log_report(SQUARE, FULL, OF(rule), NULL, 0, OF(work), OF(verdicts), text, 2047);
    EXPECT(SCENE_LOG_REFUSAL(answer) == SCENE_LOG_SHORT_BUFFER);
    EXPECT(scene_log_fnv1a(NULL, 0) == 2166136261u);
    EXPECT(SCENE_LOG_REFUSAL(scene_log_start(SQUARE, record, 2627, OF(work))) == SCENE_LOG_SHORT_BUFFER);
    EXPECT(!SCENE_LOG_REFUSED(scene_log_start(SQUARE, OF(record), OF(work))));
    verdict = scene_log_check_line(SQUARE, OF(rule), OF(record), OF(work), NULL, 0);
    EXPECT(SCENE_LOG_REFUSED(verdict) && SCENE_LOG_REFUSAL(verdict) == SCENE_LOG_LINE_FORM);
    EXPECT(!SCENE_LOG_HOLDS(verdict) && !SCENE_LOG_FAILS(verdict));
    verdict = scene_log_check_line(SQUARE, NULL, 0, OF(record), OF(work), NULL, 0);
    EXPECT(SCENE_LOG_REFUSAL(verdict) == SCENE_LOG_RULE_ENDS_EARLY);
    verdict = scene_log_check_line_tallied(SQUARE, OF(rule), OF(record), tally, 4, OF(work), BYTES("B 1\n"));
    EXPECT(SCENE_LOG_REFUSAL(verdict) == SCENE_LOG_SHORT_BUFFER);
    tally[SCENE_LOG_COUNT_LINES] = 1;
    verdict = scene_log_check_line_tallied(SQUARE, OF(rule), OF(record), tally, 5, OF(work), BYTES("B 1\n"));
    EXPECT(SCENE_LOG_REFUSAL(verdict) == SCENE_LOG_NO_TALLY && tally[SCENE_LOG_COUNT_LINES] == 1);
    tally[SCENE_LOG_COUNT_LINES] = 0;
    verdict = scene_log_check_line_tallied(SQUARE, OF(rule), OF(record), tally, 5, OF(work), BYTES("B 1\n"));
    EXPECT(SCENE_LOG_FAILS(verdict) && tally[SCENE_LOG_COUNT_OPEN] == 1 && tally[SCENE_LOG_COUNT_FAILING] == 1);
    answer = scene_log_check_log(SQUARE, FULL, OF(rule), BYTES("B 1\nE 1\nB 1\nB 1\n"), OF(work), OF(verdicts));
    EXPECT(SCENE_LOG_LINES(answer) == 3 && SCENE_LOG_REFUSED_LINE(answer) == 4);
    EXPECT(SCENE_LOG_REFUSAL(answer) == SCENE_LOG_STILL_OPEN);
    answer = scene_log_check_log(SQUARE, FULL, OF(rule), BYTES("B 1\nE 1\n"), OF(work), OF(verdicts));
    EXPECT(SCENE_LOG_LINES(answer) == 2 && SCENE_LOG_REFUSED_LINE(answer) == 0 && SCENE_LOG_REFUSAL(answer) == 0);
    answer = scene_log_check_log(SQUARE, FIRST, NULL, 0, BYTES("B 1\n"), OF(work), OF(verdicts));
    EXPECT(SCENE_LOG_LINES(answer) == 0 && SCENE_LOG_REFUSED_LINE(answer) == 0 && SCENE_LOG_REFUSED(answer));
    EXPECT(SCENE_LOG_VALUE(scene_log_compose(SCENE_LOG_OVERLAPS, SCENE_LOG_OVERLAPS)) == (SCENE_LOG_BEFORE | SCENE_LOG_OVERLAPS));
    EXPECT(SCENE_LOG_REFUSAL(scene_log_compose(64, 0)) == SCENE_LOG_NO_SET);
    EXPECT(SCENE_LOG_VALUE(scene_log_converse(SCENE_LOG_INCLUDES)) == SCENE_LOG_DURING);
    EXPECT(SCENE_LOG_REFUSAL(scene_log_converse(256)) == SCENE_LOG_NO_SET);
    memset(slip, UNUSED, sizeof slip);
    EXPECT(SCENE_LOG_REFUSAL(scene_log_first_slip(OF(rule), OF(record), slip, SCENE_LOG_SLIP_BYTES - 1)) == SCENE_LOG_SHORT_BUFFER);
    EXPECT(SCENE_LOG_REFUSAL(scene_log_first_slip(OF(rule), OF(record), OF(slip))) == SCENE_LOG_RULE_NO_SLIPS && slip[0] == UNUSED);
    EXPECT(SCENE_LOG_REFUSAL(scene_log_slip_passes(OF(rule), OF(record), NULL, 0)) == SCENE_LOG_RULE_NO_SLIPS);
    EXPECT(SCENE_LOG_REFUSAL(scene_log_slip_passes(OF(with_slips), OF(record), NULL, 0)) == SCENE_LOG_NO_FINISHED_RUN);
    EXPECT(SCENE_LOG_REFUSAL(scene_log_first_slip(NULL, 0, OF(record), OF(slip))) == SCENE_LOG_RULE_ENDS_EARLY);
    answer = scene_log_first_slip(OF(with_slips), OF(record), OF(slip));
    EXPECT(!SCENE_LOG_REFUSED(answer) && SCENE_LOG_VALUE(answer) == 0 && slip[0] == UNUSED);
    for (number = 1; number <= 27; number++)
        EXPECT(strcmp(scene_log_refusal_text(number), scene_log_refusal_text(0)) != 0);
    EXPECT(scene_log_refusal_text(28) == scene_log_refusal_text(0) && scene_log_refusal_text(65536) == scene_log_refusal_text(0));
}

/* ---- the label book */

/* The text for a piece of a log, with what start and size are then; both are 77 before. */
static scene_log_answer text_for(const char *book, const char *log, size_t place, size_t length, size_t *start, size_t *size) {
    *start = *size = 77;
    return scene_log_label_text((const uint8_t *)book, strlen(book), (const uint8_t *)log, strlen(log), place, length, start, size);
}

static void try_book(void) {
    static const char book[] = "EVENING=Evening, all\nevening_w=Evening, west hall\n";
    size_t start, size;
    scene_log_answer answer = text_for(book, "B 7 Evening_W\n", 4, 9, &start, &size);
    EXPECT(answer.number == SCENE_LOG_IN_BOOK && start == 31 && size == 18 && memcmp(book + start, "Evening, west hall", size) == 0);
    answer = text_for(book, "B 7 EVEN\n", 4, 4, &start, &size);
    EXPECT(answer.number == SCENE_LOG_IN_LOG && start == 4 && size == 4);
    answer = scene_log_label_text(NULL, 0, (const uint8_t *)"A", 1, 0, 1, &start, &size);
    EXPECT(answer.number == SCENE_LOG_IN_LOG && start == 0 && size == 1);
    answer = text_for("A=x=y\n", "B 7 A\n", 4, 0, &start, &size);
    EXPECT(SCENE_LOG_REFUSAL(answer) == SCENE_LOG_BOOK_FORM && SCENE_LOG_VALUE(answer) == 0 && start == 77 && size == 77);
    answer = text_for(book, "B 7 A\n", 4, 2, &start, &size);
    EXPECT(SCENE_LOG_REFUSAL(answer) == SCENE_LOG_LINE_LABEL && start == 77 && size == 77);
    answer = text_for(book, "B 7 A\n", SIZE_MAX, 2, &start, &size);
    EXPECT(SCENE_LOG_REFUSAL(answer) == SCENE_LOG_LINE_LABEL && start == 77 && size == 77);
    answer = scene_log_label_text(NULL, 0, NULL, 0, 0, 0, &start, &size);
    EXPECT(SCENE_LOG_REFUSAL(answer) == SCENE_LOG_LINE_LABEL);
}

/* ---- the layouts */

static const char three_runs[] = "B 1\nB 2\nE 1\nB 1\nE 2\n";

/* A work area of this length and no byte more, so that valgrind sees it where the bytes behind are read or written. */
static uint8_t *lend(size_t length) {
    uint8_t *area = malloc(length);
    EXPECT(area != NULL);
    memset(area, UNUSED, length);
    return area;
}

/* Whether all bytes are as they were lent. */
static int unused(const uint8_t *area, size_t length) {
    size_t i;
    for (i = 0; i < length; i++)
        if (area[i] != UNUSED)
            return 0;
    return 1;
}

/* Whether each pair has the same byte in both areas, and every other byte of the square one is 0. */
static int same_pairs(const uint8_t *square, const uint8_t *half) {
    unsigned x, y, found = 0;
    for (y = 0; y < 128; y++)
        for (x = 0; x < 128; x++)
            if (square[128 * x + y] != (x < y ? half[found++] : 0))
                return 0;
    return found == SCENE_LOG_HALF_WORK_BYTES;
}

/* Reads the three runs and one line more in an area of this length, which is at least the layout's. */
static scene_log_verdict read_in(uint32_t layout, uint8_t *area, size_t length) {
    scene_log_answer answer =
        scene_log_check_log_record(layout, FULL, OF(rule), BYTES(three_runs), OF(record), area, length, OF(verdicts));
    EXPECT(SCENE_LOG_LINES(answer) == 5 && !SCENE_LOG_REFUSED(answer));
    answer = scene_log_report(layout, FULL, OF(rule), BYTES(three_runs), area, length, OF(verdicts), OF(text));
    EXPECT(!SCENE_LOG_REFUSED(answer));
    return scene_log_check_line(layout, OF(rule), OF(record), area, length, BYTES("E 1\n"));
}

static void try_lengths(void) {
    uint8_t *square = lend(SCENE_LOG_WORK_BYTES), *half = lend(SCENE_LOG_HALF_WORK_BYTES), *more = lend(8131);
    EXPECT(SCENE_LOG_HOLDS(read_in(SQUARE, square, SCENE_LOG_WORK_BYTES)));
    EXPECT(SCENE_LOG_HOLDS(read_in(HALF, half, SCENE_LOG_HALF_WORK_BYTES)));
    EXPECT(same_pairs(square, half));
    /* Runs 0 and 1 overlap, run 0 is before run 2, run 1 overlaps it. */
    EXPECT(half[0] == 6 && half[1] == 5 && half[2] == 6 && half[3] == 0);
    EXPECT(SCENE_LOG_HOLDS(read_in(HALF, more, 8131)));
    EXPECT(memcmp(more, half, SCENE_LOG_HALF_WORK_BYTES) == 0 && unused(more + SCENE_LOG_HALF_WORK_BYTES, 3));
    /* One byte behind those of the three runs is another, and so is the last. */
    half[3] = 1;
    EXPECT(SCENE_LOG_REFUSAL(scene_log_check_line(HALF, OF(rule), OF(record), half, 8128, BYTES("B 3\n"))) == SCENE_LOG_NO_RECORD);
    half[3] = 0, half[8127] = 1;
    EXPECT(SCENE_LOG_REFUSAL(scene_log_check_line(HALF, OF(rule), OF(record), half, 8128, BYTES("B 3\n"))) == SCENE_LOG_NO_RECORD);
    memset(more, UNUSED, 8131);
    EXPECT(!SCENE_LOG_REFUSED(scene_log_start(HALF, OF(record), more, 8131)) && unused(more + 8128, 3) && more[8127] == 0);
    free(square), free(half), free(more);
}

/* An area that is too short, and any number that names no layout: 20, and nothing is written. */
static void refuse_area(uint32_t layout, size_t length) {
    uint8_t *area = lend(length);
    scene_log_verdict verdict;
    scene_log_answer answer = scene_log_check_log(layout, FULL, NULL, 0, BYTES("X"), area, length, OF(verdicts));
    EXPECT(SCENE_LOG_REFUSAL(answer) == SCENE_LOG_SHORT_BUFFER && SCENE_LOG_REFUSED_LINE(answer) == 0);
    answer = scene_log_check_log_record(layout, FIRST, NULL, 0, BYTES("X"), OF(record), area, length, OF(verdicts));
    EXPECT(SCENE_LOG_REFUSAL(answer) == SCENE_LOG_SHORT_BUFFER && SCENE_LOG_LINES(answer) == 0);
    answer = scene_log_report(layout, FULL, NULL, 0, BYTES("X"), area, length, OF(verdicts), OF(text));
    EXPECT(SCENE_LOG_REFUSAL(answer) == SCENE_LOG_SHORT_BUFFER);
    EXPECT(SCENE_LOG_REFUSAL(scene_log_start(layout, OF(record), area, length)) == SCENE_LOG_SHORT_BUFFER);
    verdict = scene_log_check_line(layout, NULL, 0, OF(record), area, length, BYTES("X"));
    EXPECT(SCENE_LOG_REFUSAL(verdict) == SCENE_LOG_SHORT_BUFFER);
    verdict = scene_log_check_line_tallied(layout, NULL, 0, OF(record), OF_TALLY, area, length, BYTES("X"));
    EXPECT(SCENE_LOG_REFUSAL(verdict) == SCENE_LOG_SHORT_BUFFER);
    EXPECT(unused(area, length));
    free(area);
}

static void try_layouts(void) {
    static const uint32_t unknown[] = {2, 3, 255, 256, 65536, 0x80000000u, 0xffffffffu};
    uint8_t before[SCENE_LOG_RECORD_BYTES];
    size_t i;
    try_lengths();
    memcpy(before, record, sizeof before);
    refuse_area(SQUARE, SCENE_LOG_WORK_BYTES - 1);
    refuse_area(SQUARE, SCENE_LOG_HALF_WORK_BYTES);
    refuse_area(HALF, SCENE_LOG_HALF_WORK_BYTES - 1);
    for (i = 0; i < sizeof unknown / sizeof *unknown; i++) {
        refuse_area(unknown[i], SCENE_LOG_WORK_BYTES);
        refuse_area(unknown[i], SCENE_LOG_HALF_WORK_BYTES);
    }
    EXPECT(memcmp(before, record, sizeof before) == 0);
    /* The area of three runs in the other layout. */
    EXPECT(SCENE_LOG_HOLDS(read_in(SQUARE, OF(work))));
    EXPECT(SCENE_LOG_REFUSAL(scene_log_check_line(HALF, OF(rule), OF(record), OF(work), BYTES("B 3\n"))) == SCENE_LOG_NO_RECORD);
    memset(work, 0, sizeof work);
    EXPECT(SCENE_LOG_HOLDS(read_in(HALF, OF(work))));
    EXPECT(SCENE_LOG_REFUSAL(scene_log_check_line(SQUARE, OF(rule), OF(record), OF(work), BYTES("B 3\n"))) == SCENE_LOG_NO_RECORD);
    EXPECT(SCENE_LOG_HOLDS(scene_log_check_line(HALF, OF(rule), OF(record), OF(work), BYTES("B 3\n"))));
}

/* ---- the modes */

/* No run is before another: line 4 is the first that fails, and line 6 is refused. */
static const char fails_at_4[] = "B 1\nE 1\nB 2\nE 2\nB 3\nE 9\nB 4";

/* Reads that log. All of what is left is that of so many lines, with this answer, verdicts and report. */
static void read_mode(uint32_t layout, uint32_t mode, const char *printed, scene_log_answer expected) {
    static uint8_t other_record[SCENE_LOG_RECORD_BYTES], other_work[SCENE_LOG_WORK_BYTES];
    static const uint8_t all[] = {1, 1, 1, 0, 0};
    static const uint8_t no_run_before[] = {'R', 'U', 'L', 1, 0, 0, 4, 5, 0, 1, 3, 1, 0, 3, 0, 1, 2, 2, 0};
    uint32_t lines = SCENE_LOG_LINES(expected);
    size_t length = layout == HALF ? SCENE_LOG_HALF_WORK_BYTES : SCENE_LOG_WORK_BYTES;
    scene_log_answer answer;
    memset(verdicts, UNUSED, sizeof verdicts);
    answer = scene_log_check_log(layout, mode, OF(no_run_before), BYTES(fails_at_4), work, length, OF(verdicts));
    EXPECT(answer.number == expected.number);
    EXPECT(memcmp(verdicts, all, lines) == 0 && unused(verdicts + lines, sizeof verdicts - lines));
    memset(verdicts, UNUSED, sizeof verdicts);
    answer = scene_log_check_log_record(layout, mode, OF(no_run_before), BYTES(fails_at_4), OF(record),
                                        work, length, OF(verdicts));
    EXPECT(answer.number == expected.number);
    EXPECT(memcmp(verdicts, all, lines) == 0 && unused(verdicts + lines, sizeof verdicts - lines));
    /* These lines have four bytes each. With another rule they leave the same record and the same work area. */
    answer = scene_log_check_log_record(layout, FULL, OF(with_slips), (const uint8_t *)fails_at_4, 4 * lines,
                                        OF(other_record), other_work, length, OF(verdicts));
    EXPECT(SCENE_LOG_LINES(answer) == lines && memcmp(record, other_record, sizeof record) == 0);
    EXPECT(memcmp(work, other_work, length) == 0);
    answer = scene_log_report(layout, mode, OF(no_run_before), BYTES(fails_at_4), work, length, OF(verdicts), OF(text));
    EXPECT(SCENE_LOG_VALUE(answer) == strlen(printed) && memcmp(text, printed, strlen(printed)) == 0);
}

static void try_modes(void) {
    static const uint32_t unknown[] = {2, 3, 255, 256, 257, 65537, 0x80000001u, 0xffffffffu};
    static const char first[] = "1 H\n2 H\n3 H\n4 F\nT 4 2 2 0 1\n";
    static const char full[] = "1 H\n2 H\n3 H\n4 F\n5 F\n6 R16\nT 5 3 2 1 2\n";
    static const uint32_t layouts[] = {SQUARE, HALF};
    static const scene_log_answer four = {4}, refused = {(SCENE_LOG_NEVER_BEGUN << 16) + 6};
    size_t i, k;
    for (i = 0; i < 2; i++) {
        read_mode(layouts[i], FIRST, first, four);
        read_mode(layouts[i], FULL, full, refused);
        for (k = 0; k < sizeof unknown / sizeof *unknown; k++)
            read_mode(layouts[i], unknown[k], first, four);
    }
}

/* ---- labels in letters of either case */

/* The rule, no run has the label TEST, and the log fails at its second line, in whatever letters both are written. */
static void read_letters(uint32_t layout, const char *typed, const char *log) {
    static const uint8_t in_capitals[] = {'R', 'U', 'L', 1, 0, 1, 4, 'T', 'E', 'S', 'T', 3, 4, 0, 0, 3, 0, 0, 2, 1, 0};
    static const char in_full[] = "!(exist A.A('TEST'))";
    uint8_t small[sizeof in_capitals];
    scene_log_verdict verdict;
    scene_log_answer answer = scene_log_rule_from_text((const uint8_t *)typed, strlen(typed), OF(made));
    EXPECT(SCENE_LOG_VALUE(answer) == sizeof in_capitals && memcmp(made, in_capitals, sizeof in_capitals) == 0);
    memcpy(small, in_capitals, sizeof small);
    small[7] = 't', small[10] = 't';
    answer = scene_log_text_from_rule(OF(small), OF(written));
    EXPECT(SCENE_LOG_VALUE(answer) == sizeof in_full - 1 && memcmp(written, in_full, sizeof in_full - 1) == 0);
    answer = scene_log_check_log_record(layout, FULL, OF(small), (const uint8_t *)log, strlen(log), OF(record),
                                        OF(work), OF(verdicts));
    EXPECT(SCENE_LOG_LINES(answer) == 3 && !SCENE_LOG_REFUSED(answer));
    EXPECT(verdicts[0] == 1 && verdicts[1] == 0 && verdicts[2] == 0);
    /* One label, in capitals, which both runs have. */
    EXPECT(record[2] == 2 && record[3] == 1 && record[10] == 1 && record[17] == 1);
    EXPECT(memcmp(record + 900, "\4TEST", 5) == 0);
    answer = scene_log_first_slip(OF(small), OF(record), OF(slip));
    EXPECT(SCENE_LOG_VALUE(answer) == 1 && slip[0] == 0);
    record[904] = 't';
    EXPECT(SCENE_LOG_REFUSAL(scene_log_relate(OF(record), 0, 0)) == SCENE_LOG_NO_RECORD);
    EXPECT(SCENE_LOG_REFUSAL(scene_log_first_slip(OF(small), OF(record), OF(slip))) == SCENE_LOG_NO_RECORD);
    verdict = scene_log_check_line(layout, OF(small), OF(record), OF(work), BYTES("E 2\n"));
    EXPECT(SCENE_LOG_REFUSAL(verdict) == SCENE_LOG_NO_RECORD);
    record[904] = 'T';
    verdict = scene_log_check_line(layout, OF(small), OF(record), OF(work), BYTES("E 2\n"));
    EXPECT(SCENE_LOG_FAILS(verdict));
}

static void try_letters(void) {
    static const uint8_t twice[] = {'R', 'U', 'L', 1, 0, 2, 1, 'A', 1, 'a', 2, 8, 0, 0, 3, 0, 0};
    scene_log_answer answer;
    read_letters(SQUARE, "!exist A . A('TEST')", "B 1 TEST\nE 1\nB 2 TEST\n");
    read_letters(SQUARE, "!exist A . A('test')", "B 1 test\nE 1\nB 2 test\n");
    read_letters(HALF, "!exist A . A('Test')", "B 1 tEST\nE 1\nB 2 Test\n");
    answer = scene_log_check_log(SQUARE, FULL, OF(twice), NULL, 0, OF(work), OF(verdicts));
    EXPECT(SCENE_LOG_REFUSAL(answer) == SCENE_LOG_RULE_LABEL);
    answer = scene_log_rule_from_text(BYTES("exist A . A('a-')"), OF(made));
    EXPECT(SCENE_LOG_REFUSAL(answer) == SCENE_LOG_RULE_LABEL);
    answer = scene_log_check_log(SQUARE, FULL, OF(rule), BYTES("B 1 x\nb 2 X\n"), OF(work), OF(verdicts));
    EXPECT(SCENE_LOG_REFUSAL(answer) == SCENE_LOG_LINE_FORM && SCENE_LOG_REFUSED_LINE(answer) == 2);
    EXPECT(scene_log_fnv1a(BYTES("a")) == 0xe40c292cu && scene_log_fnv1a(BYTES("A")) == 0xc40bf6ccu);
}

/* ---- the stack */

static uint8_t deep[599];
static size_t deep_length;
static unsigned nodes;

static unsigned node(unsigned kind, unsigned a, unsigned b) {
    uint8_t *at = deep + 7 + 3 * nodes;
    at[0] = (uint8_t)kind, at[1] = (uint8_t)a, at[2] = (uint8_t)b;
    return nodes++;
}

/* An atom of variables 0 and 1 inside "some" nodes, with "not"s, or "and"s with another atom, between them: so many inside the
 * innermost "some", so many in each gap, and the rest of the 64 nodes outside. */
static void make_rule(unsigned kind, unsigned somes, unsigned inside, unsigned between, int ands) {
    static const uint8_t head[] = {'R', 'U', 'L', 1, 0, 0};
    unsigned variable, i, child;
    nodes = 0;
    child = node(kind, 0, 1);
    for (variable = 0; variable <= somes; variable++) {
        unsigned left = 64 - nodes - (somes - variable), wanted = variable == 0 ? inside : variable < somes ? between : 64;
        for (i = 0; i < wanted && (ands && variable < 1 ? 2 : 1) <= left; i++) {
            if (ands && variable < 1) {
                unsigned atom = node(6, 0, 1);
                child = node(1, atom, child), left -= 2;
            } else {
                child = node(2, child, 0), left -= 1;
            }
        }
        if (variable < somes)
            child = node(3, somes - 1 - variable, child);
    }
    memcpy(deep, head, sizeof head);
    deep[6] = (uint8_t)nodes;
    deep_length = 7 + 3 * nodes;
}

static char logs[2][4096];

static void make_logs(unsigned runs) {
    unsigned i;
    char *apart = logs[0], *over = logs[1];
    for (i = 1; i <= runs; i++)
        apart += sprintf(apart, "B %u\nE %u\n", i, i);
    for (i = 1; i <= runs; i++)
        over += i % 3 == 0 ? sprintf(over, "B %u\nE %u\n", i, i - 2) : sprintf(over, "B %u\n", i);
    for (i = 1; i <= runs; i++)
        over += i % 3 == 1 && i + 2 <= runs ? 0 : sprintf(over, "E %u\n", i);
}

static void judge_logs(void) {
    unsigned i;
    for (i = 0; i < 4; i++) {
        const uint8_t *log = (const uint8_t *)logs[i / 2];
        size_t length = strlen(logs[i / 2]);
        uint32_t layout = i % 2 == 0 ? SQUARE : HALF;
        scene_log_answer answer = scene_log_check_log(layout, FIRST, deep, deep_length, log, length,
                                                      OF(work), OF(verdicts));
        EXPECT(!SCENE_LOG_REFUSED(answer) && SCENE_LOG_LINES(answer) > 0);
        answer = scene_log_check_log_record(layout, FULL, deep, deep_length, log, length - 5,
                                            OF(record), OF(work), OF(verdicts));
        EXPECT(SCENE_LOG_LINES(answer) > 20);
        answer = scene_log_first_slip(deep, deep_length, OF(record), OF(slip));
        EXPECT(!SCENE_LOG_REFUSED(answer) || SCENE_LOG_REFUSAL(answer) == SCENE_LOG_RULE_NO_SLIPS);
        answer = scene_log_report(layout, FULL, deep, deep_length, log, length, OF(work), OF(verdicts), OF(text));
        EXPECT(!SCENE_LOG_REFUSED(answer));
        answer = scene_log_report(layout, FIRST, deep, deep_length, log, length, OF(work), OF(verdicts), OF(text));
        EXPECT(!SCENE_LOG_REFUSED(answer));
    }
}

static void line_by_line(uint32_t layout) {
    const char *at = logs[1];
    EXPECT(!SCENE_LOG_REFUSED(scene_log_start(layout, OF(record), OF(work))));
    memset(tally, 0, sizeof tally);
    while (*at != 0) {
        size_t length = (size_t)(strchr(at, '\n') - at) + 1;
        scene_log_verdict answer =
            scene_log_check_line_tallied(layout, deep, deep_length, OF(record), OF_TALLY, OF(work), (const uint8_t *)at, length);
        EXPECT(!SCENE_LOG_REFUSED(answer));
        at += length;
    }
    EXPECT(!SCENE_LOG_REFUSED(scene_log_relate(OF(record), 0, 1)));
}

static void *judge_deep_rules(void *arguments) {
    static const unsigned counts[] = {0, 1, 2, 20, 61};
    unsigned somes, inside, between, kind, ands;
    make_logs(24);
    for (somes = 2; somes <= 4; somes++)
        for (inside = 0; inside < 5; inside++)
            for (between = 0; between < 5; between++)
                for (kind = 5; kind <= 7; kind++)
                    for (ands = 0; ands < 2; ands++) {
                        make_rule(kind, somes, counts[inside], counts[between], (int)ands);
                        judge_logs();
                    }
    /* The rule that takes most: 64 nodes, each inside the other, and a "some" that is the outermost but one. */
    make_logs(128);
    make_rule(6, 2, 61, 0, 0);
    judge_logs();
    line_by_line(SQUARE);
    line_by_line(HALF);
    return arguments;
}

/* How much of a stack has been written, from its end down. */
static size_t taken(const uint8_t *stack, size_t size) {
    size_t i = 0;
    while (i < size && stack[i] == UNUSED)
        i++;
    return size - i;
}

static void try_stack(void) {
    size_t size = SCENE_LOG_STACK_BYTES;
    pthread_attr_t attributes;
    pthread_t thread;
    uint8_t *stack = mmap(NULL, GUARD_BYTES + size, PROT_READ | PROT_WRITE, MAP_PRIVATE | MAP_ANONYMOUS, -1, 0);
    EXPECT(stack != MAP_FAILED && mprotect(stack, GUARD_BYTES, PROT_NONE) == 0);
    stack += GUARD_BYTES;
    memset(stack, UNUSED, size);
    EXPECT(pthread_attr_init(&attributes) == 0 && pthread_attr_setstack(&attributes, stack, size) == 0);
    EXPECT(pthread_create(&thread, &attributes, judge_deep_rules, NULL) == 0 && pthread_join(thread, NULL) == 0);
    printf("stack: %zu bytes of %zu\n", taken(stack, size), size);
}

/* With an argument no stack is measured: valgrind does not let the stack of a thread that has ended be read. */
int main(int count, char **arguments) {
    (void)arguments;
    try_answers();
    try_layouts();
    try_modes();
    try_letters();
    try_book();
    try_typed_rules();
    if (count == 1)
        try_stack();
    return 0;
}
