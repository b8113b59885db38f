/* Checks a log with the rule "some run is before another", which is typed: at once in the square layout of a work area,
 * up to the first line that fails and in full, and line by line in the half layout. Then shows the runs that break the
 * rule "no run is before another", and what a house's book calls two labels. */
#include <stdio.h>
#include <string.h>
#include "scene_log.h"

static const char typed[] = "exist A, B . A < B";
static const char *const lines[] = {"B 1 EVENING\n", "E 1\n", "B 2 TEST\n", "E 2\n", "E 2\n"};
static uint8_t work[SCENE_LOG_WORK_BYTES], verdicts[SCENE_LOG_VERDICT_BYTES], text[SCENE_LOG_TEXT_BYTES];
static uint8_t half_work[SCENE_LOG_HALF_WORK_BYTES];
static uint8_t record[SCENE_LOG_RECORD_BYTES];
static uint32_t tally[SCENE_LOG_TALLY_COUNTS];
static uint8_t rule[SCENE_LOG_RULE_BYTES], rule_text[SCENE_LOG_RULE_TEXT_BYTES];
static size_t rule_length;

/* Prints a refusal. */
static void say_refused(const char *what, uint32_t refusal) {
    printf("%s is refused with %u: %s\n", what, (unsigned)refusal, scene_log_refusal_text(refusal));
}

/* Makes the rule file of the typed rule, and prints the rule as it is written out. A rule that is not one is refused. */
static int read_rule(void) {
    scene_log_answer answer = scene_log_rule_from_text((const uint8_t *)"exist A, B", 10, rule, sizeof rule);
    say_refused("half a rule", SCENE_LOG_REFUSAL(answer));
    answer = scene_log_rule_from_text((const uint8_t *)typed, strlen(typed), rule, sizeof rule);
    rule_length = SCENE_LOG_VALUE(answer);
    if (SCENE_LOG_REFUSED(answer))
        return 0;
    answer = scene_log_text_from_rule(rule, rule_length, rule_text, sizeof rule_text);
    printf("%.*s\n", (int)SCENE_LOG_VALUE(answer), (const char *)rule_text);
    return !SCENE_LOG_REFUSED(answer);
}

/* Prints the report of the log in this mode. */
static int report_log(uint32_t mode) {
    static const char log[] = "B 1 EVENING\nE 1\nB 2 TEST\nE 2\n";
    scene_log_answer answer = scene_log_report(SCENE_LOG_SQUARE, mode, rule, rule_length,
                                               (const uint8_t *)log, strlen(log), work, sizeof work,
                                               verdicts, sizeof verdicts, text, sizeof text);
    size_t length = SCENE_LOG_VALUE(answer);
    return !SCENE_LOG_REFUSED(answer) && fwrite(text, 1, length, stdout) == length;
}

/* The rule fails with line 1, so what is printed up to the first failure has one line and the tally. */
static int both_reports(void) {
    return report_log(SCENE_LOG_FIRST_FAILURE) && report_log(SCENE_LOG_FULL);
}

/* Takes the lines one by one, as they come, with a tally; the last one is refused. The work area has the half layout. */
static int line_by_line(void) {
    size_t i;
    scene_log_answer answer = scene_log_start(SCENE_LOG_HALF, record, sizeof record, half_work, sizeof half_work);
    if (SCENE_LOG_REFUSED(answer))
        return 0;
    for (i = 0; i < sizeof lines / sizeof *lines; i++) {
        scene_log_verdict verdict =
            scene_log_check_line_tallied(SCENE_LOG_HALF, rule, rule_length, record, sizeof record,
                                         tally, SCENE_LOG_TALLY_COUNTS, half_work, sizeof half_work,
                                         (const uint8_t *)lines[i], strlen(lines[i]));
        if (SCENE_LOG_REFUSED(verdict))
            say_refused("the line", SCENE_LOG_REFUSAL(verdict));
        else
            puts(SCENE_LOG_HOLDS(verdict) ? "holds" : "fails");
    }
    printf("%u lines, %u of them fail\n", (unsigned)tally[SCENE_LOG_COUNT_LINES], (unsigned)tally[SCENE_LOG_COUNT_FAILING]);
    /* The pair of runs 0 and 1 comes first: 1 * (1 - 1) / 2 + 0. */
    printf("the pair byte of runs 0 and 1 is %u\n", (unsigned)half_work[0]);
    return 1;
}

/* Reads a log up to a refused line, says how its two runs relate, and goes on with another line. A work area of one
 * layout is not taken in a call that names the other. */
static int record_of_log(void) {
    scene_log_verdict verdict;
    static const char log[] = "B 1\nB 2\nE 1\nE 2\nE 3\n";
    scene_log_answer answer = scene_log_check_log_record(SCENE_LOG_SQUARE, SCENE_LOG_FULL, rule, rule_length,
                                                         (const uint8_t *)log, strlen(log), record, sizeof record,
                                                         work, sizeof work, verdicts, sizeof verdicts);
    if (SCENE_LOG_REFUSED(answer)) {
        printf("%u lines are taken; line %u: ", (unsigned)SCENE_LOG_LINES(answer), (unsigned)SCENE_LOG_REFUSED_LINE(answer));
        say_refused("it", SCENE_LOG_REFUSAL(answer));
    }
    answer = scene_log_relate(record, sizeof record, 0, 1);
    if (SCENE_LOG_REFUSED(answer))
        return 0;
    puts(SCENE_LOG_VALUE(answer) == SCENE_LOG_OVERLAPS ? "the first overlaps the second" : "they relate in another way");
    verdict = scene_log_check_line(SCENE_LOG_HALF, rule, rule_length, record, sizeof record, work, sizeof work,
                                   (const uint8_t *)"B 3\n", 4);
    say_refused("the square area as a half one", SCENE_LOG_REFUSAL(verdict));
    verdict = scene_log_check_line(SCENE_LOG_SQUARE, rule, rule_length, record, sizeof record, work, sizeof work,
                                   (const uint8_t *)"B 3\n", 4);
    puts(SCENE_LOG_FAILS(verdict) ? "fails" : "holds or is refused");
    return 1;
}

/* Prints the runs that break a rule which is "not" over "some". The rule up to here is another, and has no slips. */
static int show_slip(void) {
    static const char none_before[] = "!exist A, B . A < B";
    /* Id 1 is used again: runs 0 and 2 have it. */
    static const char log[] = "B 1\nB 2\nE 1\nB 1\nE 1\nE 2\n";
    uint8_t slip[SCENE_LOG_SLIP_BYTES];
    scene_log_answer answer = scene_log_first_slip(rule, rule_length, record, sizeof record, slip, sizeof slip);
    say_refused("a slip of this rule", SCENE_LOG_REFUSAL(answer));
    answer = scene_log_rule_from_text((const uint8_t *)none_before, strlen(none_before), rule, sizeof rule);
    rule_length = SCENE_LOG_VALUE(answer);
    if (SCENE_LOG_REFUSED(answer))
        return 0;
    answer = scene_log_check_log_record(SCENE_LOG_SQUARE, SCENE_LOG_FIRST_FAILURE, rule, rule_length,
                                        (const uint8_t *)log, strlen(log), record, sizeof record,
                                        work, sizeof work, verdicts, sizeof verdicts);
    if (SCENE_LOG_REFUSED(answer))
        return 0;
    printf("%u lines are taken up to the first failure\n", (unsigned)SCENE_LOG_LINES(answer));
    answer = scene_log_first_slip(rule, rule_length, record, sizeof record, slip, sizeof slip);
    if (SCENE_LOG_REFUSED(answer) || SCENE_LOG_VALUE(answer) != 2)
        return 0;
    printf("run %u is before run %u\n", (unsigned)slip[0], (unsigned)slip[1]);
    answer = scene_log_slip_passes(rule, rule_length, record, sizeof record, slip, 2);
    puts(SCENE_LOG_VALUE(answer) == 1 ? "the slip passes" : "the slip does not pass");
    return !SCENE_LOG_REFUSED(answer);
}

/* Prints what the house calls the label of a begin line, and a label that its book does not list. The text is a part of
 * the book or of the log, so nothing is copied. */
static int show_texts(void) {
    static const char book[] = "EVENING_W=Evening, west hall\nTEST=Emergency test\n";
    static const char log[] = "B 7 evening_w\nB 8 FADE\n";
    static const size_t places[] = {4, 18}, lengths[] = {9, 4};
    size_t start, size, i;
    for (i = 0; i < 2; i++) {
        scene_log_answer answer = scene_log_label_text((const uint8_t *)book, strlen(book), (const uint8_t *)log, strlen(log),
                                                       places[i], lengths[i], &start, &size);
        if (SCENE_LOG_REFUSED(answer))
            return 0;
        printf("%.*s\n", (int)size, (SCENE_LOG_VALUE(answer) == SCENE_LOG_IN_BOOK ? book : log) + start);
    }
    return 1;
}

int main(void) {
    return read_rule() && both_reports() && line_by_line() && record_of_log() && show_slip() && show_texts() ? 0 : 1;
}
