/* The proved scene-log check for C, on numbers and byte buffers. Link with -lscene_log; x86-64 Linux.
 *
 * Proved, for every input: each call answers the number that its definition gives, leaves every buffer as that says, stays
 * inside its buffers and ends; and a verdict is what the logic says of the lines read (crates/scene_log/specs).
 * Assumed: the prover and the compiler (LLVM), memcpy and memset of the C library, and that the caller passes what is asked
 * for here. This header itself is tested, not proved.
 *
 * A buffer is a pointer and a length: of bytes, for a tally of counts. A const buffer other than a record may be NULL with
 * length 0; the other buffers are never NULL. A buffer that is written overlaps no other buffer of the same call. Every call
 * takes any contents and any length. The calls keep nothing between them, so threads may use them at the same time, each with
 * buffers of its own. A call takes less than SCENE_LOG_STACK_BYTES of stack,
 * and scene_log_rule_from_text less than SCENE_LOG_TYPED_STACK_BYTES.
 *
 * An answer is read with the macros below and never used as a truth value. It is a struct so that the compiler refuses that. The
 * verdicts of a whole log are its verdict bytes, 1 or 0, of which SCENE_LOG_LINES(answer) are written.
 *
 *     scene_log_verdict answer = scene_log_check_line(SCENE_LOG_SQUARE, rule, rule_length, record, sizeof record,
 *                                                     work, sizeof work, line, length);
 *     if (SCENE_LOG_REFUSED(answer))
 *         printf("refused: %s\n", scene_log_refusal_text(SCENE_LOG_REFUSAL(answer)));
 *     else
 *         puts(SCENE_LOG_HOLDS(answer) ? "holds" : "fails");
 */
#ifndef SCENE_LOG_H
#define SCENE_LOG_H

#include <stddef.h>
#include <stdint.h>

#define SCENE_LOG_VERSION "0.9.0"

/* The length that each lent buffer has at least; a work area in the square layout, and in the half layout. */
#define SCENE_LOG_WORK_BYTES 16384
#define SCENE_LOG_HALF_WORK_BYTES 8128
#define SCENE_LOG_VERDICT_BYTES 256
#define SCENE_LOG_TEXT_BYTES 2048
#define SCENE_LOG_RECORD_BYTES 2628
#define SCENE_LOG_TALLY_COUNTS 5
#define SCENE_LOG_RULE_BYTES 599
#define SCENE_LOG_RULE_TEXT_BYTES 4096
#define SCENE_LOG_SLIP_BYTES 4

/* The stack that a thread has left where it makes a call; and where it reads a typed rule. */
#define SCENE_LOG_STACK_BYTES 262144
#define SCENE_LOG_TYPED_STACK_BYTES 1048576

/* An answer: 65,536 times a refusal, or a value below 65,536. */
typedef struct {
    uint32_t number;
} scene_log_answer;

/* Right for the answer of every call: whether it is refused, the number of the refusal (0 for none), and the value. */
#define SCENE_LOG_REFUSED(answer) ((answer).number > 0xffffu)
#define SCENE_LOG_REFUSAL(answer) ((answer).number >> 16)
#define SCENE_LOG_VALUE(answer) ((answer).number & 0xffffu)

/* The answer on one line. It has a type of its own, so that no other answer is taken for a verdict. */
typedef struct {
    uint32_t number;
} scene_log_verdict;

/* Whether the rule holds with the line, or fails. Neither is so for a refused line. */
#define SCENE_LOG_HOLDS(verdict) scene_log_holds(verdict)
#define SCENE_LOG_FAILS(verdict) scene_log_fails(verdict)

static inline int scene_log_holds(scene_log_verdict verdict) {
    return verdict.number == 1u;
}

static inline int scene_log_fails(scene_log_verdict verdict) {
    return verdict.number == 0u;
}

/* Of a whole log: the line that is refused (0 where none is to blame), and how many lines were taken. */
#define SCENE_LOG_REFUSED_LINE(answer) scene_log_refused_line(answer)
#define SCENE_LOG_LINES(answer) scene_log_lines(answer)

static inline uint32_t scene_log_refused_line(scene_log_answer answer) {
    return SCENE_LOG_REFUSED(answer) ? SCENE_LOG_VALUE(answer) : 0;
}

static inline uint32_t scene_log_lines(scene_log_answer answer) {
    uint32_t line = scene_log_refused_line(answer);
    return line != 0 ? line - 1 : SCENE_LOG_VALUE(answer);
}

/* The layout of a work area, which every call that is lent one is told first. A pair is two runs x < y, begun in that order
 * and numbered from 0. Its byte says in which order their lines have come: 1 XY, 2 XXY, 3 XYX, 4 XYY, 5 XXYY, 6 XYXY, 7 XYYX.
 *
 * - Square: 16,384 bytes; the byte of x and y stands at 128 * x + y, and every other byte is 0.
 * - Half: 8,128 bytes, one for each pair of runs below 128; the byte of x and y stands at y * (y - 1) / 2 + x, and it is 0
 *   where one of the two has not begun.
 *
 * Verdicts, refusals, relations and tallies are the same in either layout. A work area shorter than its layout is refused with
 * 20, before anything else is looked at; one that is longer is taken, and the bytes past the layout's own have no part in the
 * call and stay as they are. Any number but these two names no layout: it is refused with 20, whatever the length, and nothing
 * is written.
 *
 * An area is handed over in the layout in which it was written. A call on one line whose rule is taken refuses one of the other
 * layout with 21 once two runs have begun (with 20 if it is too short); the calls that start a record overwrite it. With fewer
 * runs all pair bytes are 0: the half layout then takes a square area, and the square layout takes a half area with nothing but
 * 0 behind it up to 16,384 bytes. */
enum scene_log_layout {
    SCENE_LOG_SQUARE = 0,
    SCENE_LOG_HALF = 1
};

/* How far a log is read, which the three calls on a whole log are told second.
 *
 * - First failure: through the first line with which the rule fails. That line is taken and counts. Nothing behind it
 *   is read: it meets no refusal, and record, work area, verdict bytes and report are those of the lines through that
 *   one.
 * - Full: to the end of the log.
 *
 * In either mode a refused line ends the log. So the two differ only where a line fails and something stands behind it.
 * Any other number counts as 0, the first failure.
 *
 * The mode is a change of these three calls that an old object file does not notice. One that was compiled with a
 * header without it is linked all the same, hands over an argument fewer, and so each buffer in the wrong place.
 * Compile it anew, and name SCENE_LOG_FULL where the verdicts of all lines are wanted. */
enum scene_log_mode {
    SCENE_LOG_FIRST_FAILURE = 0,
    SCENE_LOG_FULL = 1
};

/* A label has 1 to 24 bytes, each a letter, a digit or an underscore. In logs, rule files, typed rules and books a to z
 * count as A to Z: `test`, `Test` and `TEST` are one label, with one number in a record. Capitals come back: in the record,
 * in a rule file that is made from a typed rule, and in the text of a rule file. A rule file that is handed in stays as
 * it is. So a rule file whose list has one label in two cases is refused with 5, in a typed rule they are one label,
 * and a record with a small letter in a label is refused with 21. Nothing but labels is read in either case: not the B
 * and E of a line, nor the words and names of a typed rule. */

/* The refusals. */
enum scene_log_refusal {
    SCENE_LOG_RULE_ENDS_EARLY = 1,
    SCENE_LOG_RULE_MARK = 2,
    SCENE_LOG_RULE_VERSION = 3,
    SCENE_LOG_RULE_COUNT = 4,
    SCENE_LOG_RULE_LABEL = 5,
    SCENE_LOG_RULE_NODE = 6,
    SCENE_LOG_RULE_TOO_LONG = 7,
    SCENE_LOG_RULE_NOT_A_TREE = 8,
    SCENE_LOG_RULE_UNBOUND = 9,
    SCENE_LOG_RULE_TOO_DEEP = 10,
    SCENE_LOG_LINE_FORM = 11,
    SCENE_LOG_LINE_ID = 12,
    SCENE_LOG_LINE_LABEL = 13,
    SCENE_LOG_NO_SET = 14,
    SCENE_LOG_STILL_OPEN = 15,
    SCENE_LOG_NEVER_BEGUN = 16,
    SCENE_LOG_NONE_OPEN = 17,
    SCENE_LOG_TOO_MANY_RUNS = 18,
    SCENE_LOG_TOO_MANY_LABELS = 19,
    SCENE_LOG_SHORT_BUFFER = 20,
    SCENE_LOG_NO_RECORD = 21,
    SCENE_LOG_NO_FINISHED_RUN = 22,
    SCENE_LOG_SAME_RUN = 23,
    SCENE_LOG_NO_TALLY = 24,
    SCENE_LOG_RULE_GRAMMAR = 25,
    SCENE_LOG_RULE_NO_SLIPS = 26,
    SCENE_LOG_BOOK_FORM = 27
};

/* The relations between two different finished runs; a set is a sum of them, 0 to 63. */
enum scene_log_relation {
    SCENE_LOG_BEFORE = 1,
    SCENE_LOG_AFTER = 2,
    SCENE_LOG_OVERLAPS = 4,
    SCENE_LOG_OVERLAPPED_BY = 8,
    SCENE_LOG_INCLUDES = 16,
    SCENE_LOG_DURING = 32
};

/* Where the text of a label stands. */
enum scene_log_text {
    SCENE_LOG_IN_BOOK = 0,
    SCENE_LOG_IN_LOG = 1
};

/* The counts of a tally, by their places. */
enum scene_log_count {
    SCENE_LOG_COUNT_LINES = 0,
    SCENE_LOG_COUNT_BEGUN = 1,
    SCENE_LOG_COUNT_FINISHED = 2,
    SCENE_LOG_COUNT_OPEN = 3,
    SCENE_LOG_COUNT_FAILING = 4
};

/* What a refusal says, as docs/REFUSALS.md has it; "no refusal" for a number that is none. */
static inline const char *scene_log_refusal_text(uint32_t refusal) {
    static const char *const texts[] = {
        "no refusal",
        "the rule file ends before the next part is whole",
        "the rule file's mark is not RUL",
        "the rule file's version is not 1",
        "a count in the rule file is outside its range: 0 to 16 labels, 1 to 64 nodes",
        "a label in the rule file has a wrong length or a wrong byte, or is listed twice",
        "a node's kind or one of its fields is outside its range",
        "bytes follow the last node of the rule file",
        "a node other than the root is not named exactly once",
        "a variable is used outside every \"some\" that binds it",
        "five \"some\" nodes lie one inside another",
        "the line has neither of the two forms, or its LF is not among its first 40 bytes",
        "the id is not in 1 to 65535",
        "the label has a wrong byte or more than 24 bytes",
        "a relation set is above 63",
        "a begin line has an id whose run is still open",
        "an end line has an id that never began",
        "an end line has an id that has begun, and no run of it is open",
        "the line would begin a 129th run",
        "the line would bring a 65th label",
        "a lent buffer is shorter than stated",
        "no accepted lines leave this record, or the pair bytes are not that record's",
        "a run number has no finished run, or a slip has a wrong number of runs",
        "both numbers name the same finished run",
        "the tally's counts are not the record's, or its failing lines exceed its lines",
        "the typed rule is outside the grammar or longer than 4,096 bytes",
        "the rule is not a \"not\" over one to four \"some\" over a part without \"some\"",
        "the book is outside its form: a label, one = and 1 to 60 bytes of text a line, in order of capitals, no repeats",
    };
    return texts[refusal < sizeof texts / sizeof *texts ? refusal : 0];
}

/* An answer that is not read, or NULL where it is not taken, is a warning. */
#ifdef __GNUC__
#define SCENE_LOG_CALL __attribute__((warn_unused_result))
#define SCENE_LOG_NOT_NULL(...) __attribute__((nonnull(__VA_ARGS__)))
#else
#define SCENE_LOG_CALL
#define SCENE_LOG_NOT_NULL(...)
#endif

#ifdef __cplusplus
extern "C" {
#endif

/* Reads a typed rule, as "!exist A, B . A('EVENING') & B('TEST') & A i B", and writes its rule file to the start of
 * rule, which has at least SCENE_LOG_RULE_BYTES. Value: the file's length. It is a file that every call here takes as a
 * rule. It has the labels in capitals, and those that differ only in case are one. Refused, in this order and each over
 * the whole text, with 20; 25; 4 for more than 64 nodes or 16 different labels; 5 for a label; 9 for a name that no
 * "exist" around it binds; 10 for five names bound one inside another. Then nothing is written. */
SCENE_LOG_CALL SCENE_LOG_NOT_NULL(3)
scene_log_answer scene_log_rule_from_text(const uint8_t *text, size_t text_length, uint8_t *rule, size_t rule_length);

/* Writes a rule file out as a typed rule, to the start of text, which has at least SCENE_LOG_RULE_TEXT_BYTES. Value:
 * the text's length. It has no LF and no byte 0 at its end. Its names are A to D, and its labels are in capitals; read
 * again, it is a rule with the same verdicts on every log. Refused with 20, then with the rule's 1 to 10, and then
 * nothing is written. */
SCENE_LOG_CALL SCENE_LOG_NOT_NULL(3)
scene_log_answer scene_log_text_from_rule(const uint8_t *rule, size_t rule_length, uint8_t *text, size_t text_length);

/* The whole output of the check for a rule file and a log in this mode, written to the start of text. Value: its
 * length. It ends in LF and has no byte 0 at its end. Refused with 20 alone, and then nothing is written; what the rule
 * and the lines that are read meet is printed. With the first failure as the mode, the tally follows the first F line,
 * and is that of the lines through it. */
SCENE_LOG_CALL SCENE_LOG_NOT_NULL(7, 9, 11)
scene_log_answer scene_log_report(uint32_t layout, uint32_t mode, const uint8_t *rule, size_t rule_length,
                                  const uint8_t *log, size_t log_length, uint8_t *work, size_t work_length,
                                  uint8_t *verdicts, size_t verdicts_length, uint8_t *text, size_t text_length);

/* Reads a log with a rule file, in this mode. For each line that is taken a verdict byte is written, 1 holds, 0 fails;
 * the other verdict bytes stay as they are. Value: how many lines were taken, which is all of them, or with the first
 * failure as the mode those through that one; or, with a refusal, the number of the refused line, and the lines before
 * it were taken. With 20 or 1 to 10 no line was read, the value is 0 and no buffer was written. SCENE_LOG_LINES and
 * SCENE_LOG_REFUSED_LINE read it. */
SCENE_LOG_CALL SCENE_LOG_NOT_NULL(7, 9)
scene_log_answer scene_log_check_log(uint32_t layout, uint32_t mode, const uint8_t *rule, size_t rule_length,
                                     const uint8_t *log, size_t log_length, uint8_t *work, size_t work_length,
                                     uint8_t *verdicts, size_t verdicts_length);

/* The same, and the record of the lines that were taken is written to the front of record: with its work area it is
 * ready for the next line, in the same layout. */
SCENE_LOG_CALL SCENE_LOG_NOT_NULL(7, 9, 11)
scene_log_answer scene_log_check_log_record(uint32_t layout, uint32_t mode, const uint8_t *rule, size_t rule_length,
                                            const uint8_t *log, size_t log_length,
                                            uint8_t *record, size_t record_length, uint8_t *work, size_t work_length,
                                            uint8_t *verdicts, size_t verdicts_length);

/* Starts a record of no lines, for a log that is read line by line: its bytes are written to the front of record, and the
 * first bytes of work are cleared, 16,384 in the square layout and 8,128 in the half layout. Refused with 20, and then nothing
 * is written. A tally starts at zeros.
 *
 * The record's bytes: the number of lines, low byte first; the numbers of runs and of labels, a byte each; from byte 4
 * on, for each of 128 runs, 7 bytes: id, begin line and end line (0 while open), low byte first, and the label's number
 * (0 for none); from byte 900 on, for each of 64 labels, its length and its 24 bytes, in capitals; from byte 2,500 on
 * the 128 places, by the hash of the capitals. */
SCENE_LOG_CALL SCENE_LOG_NOT_NULL(2, 4)
scene_log_answer scene_log_start(uint32_t layout, uint8_t *record, size_t record_length, uint8_t *work, size_t work_length);

/* Takes one line, with its LF, on a record and its work area, as scene_log_start or the line before left them, in the same
 * layout: it holds, fails or is refused. A refused call leaves both buffers as they were; after any other they are ready for the
 * next line. 21 says that no lines leave this record and these pair bytes in this layout. */
SCENE_LOG_CALL SCENE_LOG_NOT_NULL(4, 6)
scene_log_verdict scene_log_check_line(uint32_t layout, const uint8_t *rule, size_t rule_length,
                                       uint8_t *record, size_t record_length, uint8_t *work, size_t work_length,
                                       const uint8_t *line, size_t line_length);

/* The same with a tally of five counts, in the order of enum scene_log_count, which are updated where they stand. 24 says that
 * the first four are not the record's, or that more lines fail than there are. A refused call leaves the tally as it was. */
SCENE_LOG_CALL SCENE_LOG_NOT_NULL(4, 6, 8)
scene_log_verdict scene_log_check_line_tallied(uint32_t layout, const uint8_t *rule, size_t rule_length,
                                               uint8_t *record, size_t record_length, uint32_t *tally, size_t tally_length,
                                               uint8_t *work, size_t work_length, const uint8_t *line, size_t line_length);

/* Value: the relation of run first to run second of a record, one of enum scene_log_relation. Refused with 20, 21, 22 or 23.
 * Runs are numbered from 0 in the order of their begin lines. */
SCENE_LOG_CALL SCENE_LOG_NOT_NULL(1)
scene_log_answer scene_log_relate(const uint8_t *record, size_t record_length, uint32_t first, uint32_t second);

/* A slip shows which runs break a rule. The rule is a "not" directly over a chain of one to four "some" over a part
 * without "some"; a slip has one run number, a byte, for each "some", the outermost first. It passes where all its
 * runs are finished and the part is true of them; where two "some" bind one variable, the inner one's run is meant.
 * The rule fails with the last line of the record exactly where some slip passes; of no lines none does.
 *
 * Writes the first slip that passes to the start of slip, which has at least SCENE_LOG_SLIP_BYTES: first by the number
 * of the outermost run, then by that of the next. Value: how many runs it has, 1 to 4, or 0 where none passes and
 * nothing is written; the bytes behind the slip stay as they are. Refused with 20, the rule's 1 to 10, 26 or 21, in
 * this order, and then nothing is written. */
SCENE_LOG_CALL SCENE_LOG_NOT_NULL(3, 5)
scene_log_answer scene_log_first_slip(const uint8_t *rule, size_t rule_length,
                                      const uint8_t *record, size_t record_length, uint8_t *slip, size_t slip_length);

/* Value: 1 where a slip passes, whoever wrote it, and 0 where it does not. Its length is its number of runs. Refused
 * with 20 (for the record alone), the rule's 1 to 10, 26, 21, or 22 for a wrong number of runs or a run that is not
 * finished, in this order. */
SCENE_LOG_CALL SCENE_LOG_NOT_NULL(3)
scene_log_answer scene_log_slip_passes(const uint8_t *rule, size_t rule_length,
                                       const uint8_t *record, size_t record_length,
                                       const uint8_t *slip, size_t slip_length);

/* The house label book says what a label is to be called: "Evening, west hall" for EVENING_W. It is for people's eyes,
 * and no verdict depends on it. A book has zero or more lines: a label in either case, one '=', 1 to 60 bytes of text
 * without LF or '=', and LF, in byte order of the labels' capitals, without repeats.
 *
 * Finds the text for the label that has length bytes of the log from place on. Value: SCENE_LOG_IN_BOOK if the book
 * lists the label; *start is then the place of its text in the book, and *size the number of its bytes. Otherwise
 * SCENE_LOG_IN_LOG, and they are place and length. The text has 1 byte at least, and no byte 0 behind it. Refused with
 * 27 for a book outside its form, wherever the fault stands, and then with 13 for a piece that is not wholly inside the
 * log, or is no label (the sentence of 13 speaks of a line); then *start and *size stay as they were. Any place and
 * length are taken. start and size are not NULL, and point to two different numbers outside the book and the log. */
SCENE_LOG_CALL SCENE_LOG_NOT_NULL(7, 8)
scene_log_answer scene_log_label_text(const uint8_t *book, size_t book_length, const uint8_t *log, size_t log_length,
                                      size_t place, size_t length, size_t *start, size_t *size);

/* Value: the composition of two sets of relations; the converses of a set's members. Refused with 14 where a set is above 63. */
SCENE_LOG_CALL scene_log_answer scene_log_compose(uint32_t first, uint32_t second);
SCENE_LOG_CALL scene_log_answer scene_log_converse(uint32_t set);

/* The 32-bit FNV-1a hash of the bytes as they are. In a record a label has the place that its capitals have. */
SCENE_LOG_CALL uint32_t scene_log_fnv1a(const uint8_t *bytes, size_t length);

#ifdef __cplusplus
}
#endif

#endif
