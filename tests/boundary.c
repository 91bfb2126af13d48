/* What only a caller in C can do or see: the parts of an answer, verdicts, empty slices at NULL, and the stack that each call takes; and numbers
 * with zeros before them, which number of a sheet was wrong, profiles, sheets with spare automata, sheets of up to 128 nodes, logs with counters,
 * steps and entries of counters, rules as text and from text, through the C calls.
 * Ends in 'N passed, M failed'. */
#include "rozsvelen.h"

#include <pthread.h>
#include <stdio.h>
#include <stdlib.h>
#include <string.h>

static int passed, failed;

static void check(const char *name, int holds) {
    if (holds) {
        passed++;
    } else {
        failed++;
        printf("boundary: %s\n", name);
    }
}

/* The sheet of the longest walk, with a line of every letter: ahead to the last entry in one state, back to the first in the next. */
enum { LAST = ROZSVELEN_ENTRIES - 1, SHOWN = 9, VERDICTS = ROZSVELEN_WORDS * ROZSVELEN_ENTRIES };
static char rules[4096], steps[4096], counted[8192];
static uint16_t table[ROZSVELEN_TABLE], only_ahead[ROZSVELEN_TABLE], only_back[ROZSVELEN_TABLE], made[ROZSVELEN_TABLE], deep[ROZSVELEN_TABLE];
static uint16_t row[ROZSVELEN_ROW], edges[ROZSVELEN_WALK], held[2];
static uint32_t words[ROZSVELEN_ENTRIES], words_again[ROZSVELEN_ENTRIES];
static uint64_t verdicts[VERDICTS];
static uint8_t page[ROZSVELEN_PAGE];
static uint64_t answer;

static void write_texts(void) {
    char *end = rules + sprintf(rules, "T\nP,0\nP,1\nP,2\nF\nN,0\nA,0,1\nO,0,1\nM,16,0\nG,15\n");
    for (int s = 0; s < 16; s++) {
        end += sprintf(end, "E,%d,%d,0,%d\n", s, 1 + s % 2, s);
        if (s < 15) end += sprintf(end, "E,%d,0,%d,%d\n", s, 1 + s % 2, s + 1);
    }
    sprintf(end, "B,0,3\nD,0,3\n");
    end = steps + sprintf(steps, "1,2\n");
    for (int i = 1; i < LAST; i++) end += sprintf(end, "-\n");
    sprintf(end, "0\n");
}

/* The same log, with counters from FIRST on, round the turn. */
enum { FIRST = 65300 };
static void write_counted(void) {
    char *end = counted;
    uint16_t counter = FIRST;
    for (const char *line = steps; *line != 0; line = strchr(line, '\n') + 1) {
        end += sprintf(end, "%d,%.*s\n", counter++, (int)strcspn(line, "\n"), line);
    }
}

/* The sheet whose rule lies deepest: each of its 127 lines behind T names the one before, by N, A, O, D and B in turn. */
static char deep_rules[4096];
static void write_deep(void) {
    static const char *const lines[] = { "N,%d\n", "A,%d,0\n", "O,0,%d\n", "D,0,%d\n", "B,0,%d\n" };
    char *end = deep_rules + sprintf(deep_rules, "T\nM,1,0\nG,0\nE,0,0,0,0\n");
    for (int k = 1; k < ROZSVELEN_NODES; k++) end += sprintf(end, lines[(k - 1) % 5], k - 1);
}

/* A formula that takes all 128 nodes: 14 path marks, one behind the other, of eight steps each, and each `true` in brackets 16 deep. */
static char formula[4097];
static void write_formula(void) {
    char *end = formula;
    for (int m = 0; m < 14; m++) {
        for (int step = 0; step < 8; step++) end += sprintf(end, "%c{((((((((((((((true))))))))))))))}-", step == 0 ? '<' : ';');
        end += sprintf(end, ">");
    }
    sprintf(end, "((((((((((((((((true))))))))))))))))");
}

/* A first piece, so many alike, and a last one. */
static const char *joined(const char *first, int count, const char *piece, const char *last) {
    static char pieces[8192];
    char *end = pieces + sprintf(pieces, "%s", first);
    for (int k = 0; k < count; k++) end += sprintf(end, "%s", piece);
    strcpy(end, last);
    return pieces;
}

static const uint8_t *text(const char *s) { return (const uint8_t *)s; }

static void read_sheet(void) { answer = rozsvelen_read_sheet(text(rules), strlen(rules), table, ROZSVELEN_TABLE); }
static void formula_into_made(const char *s) { answer = rozsvelen_read_formula(text(s), strlen(s), made, ROZSVELEN_TABLE); }
static void read_formula(void) { formula_into_made(formula); }
static void read_negations(void) { formula_into_made(joined("", 4096, "!", "")); }
static void profile(void) { answer = rozsvelen_profile(table, ROZSVELEN_TABLE, made, ROZSVELEN_TABLE); }
static void in_profile(void) { answer = rozsvelen_in_profile(made, ROZSVELEN_TABLE); }
static void rule_looks(void) { answer = rozsvelen_rule_looks(table, ROZSVELEN_TABLE); }
static void read_log(void) { answer = rozsvelen_read_log(text(steps), strlen(steps), words, ROZSVELEN_ENTRIES); }
static void read_counted(void) { answer = rozsvelen_read_counted(text(counted), strlen(counted), words_again, ROZSVELEN_ENTRIES); }
static void steps_between(void) { answer = rozsvelen_steps_between(FIRST, FIRST - 1); }
static void entry_bearing(void) { answer = rozsvelen_entry_bearing(FIRST, ROZSVELEN_ENTRIES, (uint16_t)(FIRST + LAST)); }
static void judge(void) { answer = rozsvelen_judge(table, ROZSVELEN_TABLE, words, ROZSVELEN_ENTRIES, verdicts, VERDICTS); }
static void judge_logs(void) {
    static const uint16_t halves[] = { ROZSVELEN_ENTRIES / 2, ROZSVELEN_ENTRIES / 2 };
    answer = rozsvelen_judge_logs(table, ROZSVELEN_TABLE, words, ROZSVELEN_ENTRIES, halves, 2, verdicts, VERDICTS, held, 2);
}
static void plain_row(void) { answer = rozsvelen_plain_row(table, ROZSVELEN_TABLE, row, ROZSVELEN_ROW); }
static void walk(void) { answer = rozsvelen_walk(table, ROZSVELEN_TABLE, words, ROZSVELEN_ENTRIES, SHOWN, 0, edges, ROZSVELEN_WALK); }
static void judge_part(const uint16_t *sheet, uint32_t way) {
    answer = rozsvelen_judge_part(sheet, ROZSVELEN_TABLE, way, row, ROZSVELEN_ROW, words, ROZSVELEN_ENTRIES, verdicts, VERDICTS);
}
static void part_ahead(void) { judge_part(only_ahead, ROZSVELEN_AHEAD); }
static void part_back(void) { judge_part(only_back, ROZSVELEN_BACK); }
static void print_rule(void) { answer = rozsvelen_print_rule(deep, ROZSVELEN_TABLE, page, ROZSVELEN_PAGE); }
static void page_of(size_t bytes) { answer = rozsvelen_page(text(rules), strlen(rules), text(steps), strlen(steps), page, bytes); }
static void whole_page(void) { page_of(ROZSVELEN_PAGE); }
static void page_less_one(void) { page_of(ROZSVELEN_PAGE - 1); }
static void short_page(void) { page_of(1023); }
static void nothing(void) {}

static void *on_thread(void *call) {
    (*(void (**)(void))call)();
    return NULL;
}

/* How many bytes of its stack a thread writes to that makes the call and nothing else. */
static size_t stack_of(void (*call)(void)) {
    enum { STACK = 1 << 20, PAINT = 0xa5 };
    pthread_attr_t attributes;
    pthread_t thread;
    uint8_t *stack = aligned_alloc(4096, STACK);
    memset(stack, PAINT, STACK);
    pthread_attr_init(&attributes);
    if (pthread_attr_setstack(&attributes, stack, STACK) != 0 || pthread_create(&thread, &attributes, on_thread, &call) != 0) exit(2);
    pthread_join(thread, NULL);
    size_t unused = 0;
    while (stack[unused] == PAINT) unused++;
    free(stack);
    return STACK - unused;
}

/* The call answers as wanted, in the stack that the header says. */
static void takes(const char *name, void (*call)(void), uint64_t wanted, size_t kilobytes) {
    size_t others = stack_of(nothing);
    size_t stack = stack_of(call) - others;
    printf("%-24s %6zu bytes of stack\n", name, stack);
    check(name, answer == wanted && stack <= kilobytes * 1024);
}

static uint64_t refused(uint64_t number) { return number << 16; }
static uint64_t refused_at(uint64_t number, uint64_t place) { return refused(number) + (place << 48); }

/* Each part of an answer is taken from its own bits, a list's log from the bits of two, and a text's length from those of three. */
static void answer_parts(void) {
    enum { LOGS = 65536 };
    static uint32_t entries[LOGS];
    static uint16_t lengths[LOGS];
    const uint64_t parts = 0xfff4fff3fff2fff1;
    check("count of an answer", rozsvelen_count(parts) == 0xfff1);
    check("number of an answer", rozsvelen_number(parts) == 0xfff2);
    check("line of an answer", rozsvelen_line(parts) == 0xfff3);
    check("extra of an answer", rozsvelen_extra(parts) == 0xfff4);
    check("field of an answer", rozsvelen_field(parts) == 0xfff4);
    check("log of an answer", rozsvelen_log(parts) == 0xfff4fff3);
    check("length of an answer", rozsvelen_length(parts) == 0xfff4fff3fff1);
    for (int i = 0; i < LOGS; i++) lengths[i] = 1;
    uint64_t last = rozsvelen_judge_logs(table, ROZSVELEN_TABLE, entries, LOGS, lengths, LOGS, NULL, 0, NULL, 0);
    check("log 65,536 of a list", rozsvelen_number(last) == 32 && rozsvelen_log(last) == LOGS && rozsvelen_count(last) == 0);
}

/* Every slice empty and at NULL, one at a time and all at once. */
static void empty_slices(void) {
    enum { T = ROZSVELEN_TABLE, R = ROZSVELEN_ROW, N = ROZSVELEN_ENTRIES, V = VERDICTS };
    const uint8_t *sheet = text("T\n"), *log = text("-\n");
    const uint16_t one = 1;
    const uint64_t first = (uint64_t)1 << 32;
    check("read_sheet of no text", rozsvelen_read_sheet(NULL, 0, only_ahead, T) == refused(2));
    check("read_sheet into no table", rozsvelen_read_sheet(sheet, 2, NULL, 0) == refused(35));
    check("read_formula of no text", rozsvelen_read_formula(NULL, 0, only_ahead, T) == refused_at(51, 0));
    check("read_formula into no table", rozsvelen_read_formula(text("f1"), 2, NULL, 0) == refused(35));
    check("read_formula of no text into no table", rozsvelen_read_formula(NULL, 0, NULL, 0) == refused(35));
    check("profile with no table", rozsvelen_profile(NULL, 0, made, T) == refused(31));
    check("profile into no table", rozsvelen_profile(table, T, NULL, 0) == refused(35));
    check("in_profile with no table", rozsvelen_in_profile(NULL, 0) == refused(31));
    check("rule_looks with no table", rozsvelen_rule_looks(NULL, 0) == refused(31));
    check("read_log of no text", rozsvelen_read_log(NULL, 0, words, N) == refused(22));
    check("read_log into no words", rozsvelen_read_log(log, 2, NULL, 0) == refused(27));
    check("read_counted of no text", rozsvelen_read_counted(NULL, 0, words, N) == refused(22));
    check("read_counted into no words", rozsvelen_read_counted(text("7,-\n"), 4, NULL, 0) == refused(27));
    check("judge with no table", rozsvelen_judge(NULL, 0, words, N, verdicts, V) == refused(31));
    check("judge of no entry", rozsvelen_judge(table, T, NULL, 0, verdicts, V) == refused(32));
    check("judge into no verdicts", rozsvelen_judge(table, T, words, N, NULL, 0) == refused(33));
    check("judge_logs with no table", rozsvelen_judge_logs(NULL, 0, NULL, 0, NULL, 0, NULL, 0, NULL, 0) == refused(31));
    check("judge_logs of no logs", rozsvelen_judge_logs(table, T, NULL, 0, NULL, 0, NULL, 0, NULL, 0) == 0);
    check("judge_logs of words and no logs", rozsvelen_judge_logs(table, T, words, 1, NULL, 0, verdicts, V, held, 1) == refused(32) + first);
    check("judge_logs into no verdicts", rozsvelen_judge_logs(table, T, words, 1, &one, 1, NULL, 0, held, 1) == refused(33) + first);
    check("judge_logs into no counts", rozsvelen_judge_logs(table, T, words, 1, &one, 1, verdicts, V, NULL, 0) == refused(33) + first);
    check("plain_row with no table", rozsvelen_plain_row(NULL, 0, row, R) == refused(31));
    check("plain_row into no row", rozsvelen_plain_row(table, T, NULL, 0) == refused(35));
    check("judge_part with no table", rozsvelen_judge_part(NULL, 0, 1, row, R, words, N, verdicts, V) == refused(31));
    check("judge_part with no row", rozsvelen_judge_part(only_ahead, T, 1, NULL, 0, words, N, verdicts, V) == refused(35));
    check("judge_part into no verdicts", rozsvelen_judge_part(only_ahead, T, 1, row, R, words, N, NULL, 0) == refused(33));
    check("judge_part of no entry", rozsvelen_judge_part(only_ahead, T, 1, row, R, NULL, 0, NULL, 0) == 0);
    check("walk with no table", rozsvelen_walk(NULL, 0, words, N, SHOWN, 0, edges, ROZSVELEN_WALK) == refused(31));
    check("walk of no entry", rozsvelen_walk(table, T, NULL, 0, SHOWN, 0, edges, ROZSVELEN_WALK) == refused(32));
    check("walk into no places", rozsvelen_walk(table, T, words, N, SHOWN, 0, NULL, 0) == refused(40));
    check("print_rule with no table", rozsvelen_print_rule(NULL, 0, page, sizeof page) == refused(31));
    check("print_rule into no bytes", rozsvelen_print_rule(table, T, NULL, 0) == refused(55));
    check("print_rule with no table into no bytes", rozsvelen_print_rule(NULL, 0, NULL, 0) == refused(31));
    check("page of no texts", rozsvelen_page(NULL, 0, NULL, 0, page, sizeof page) == 14 && memcmp(page, "refused,2,0,0\n", 14) == 0);
    check("page of no log", rozsvelen_page(sheet, 2, NULL, 0, page, sizeof page) == 13 && memcmp(page, "refused,22,0\n", 13) == 0);
    check("page into no bytes", rozsvelen_page(NULL, 0, NULL, 0, NULL, 0) == refused(44));
}

/* A text and it again with zeros before its numbers are read alike; four digits are no number, and a fact and it padded do not rise. */
static void padded_numbers(void) {
    enum { T = ROZSVELEN_TABLE };
    static const char sheet[] = "T\nP,7\nM,1,0\nG,0\nE,0,1,0,0\nD,0,1\n", padded[] = "T\nP,007\nM,01,000\nG,00\nE,00,001,0,000\nD,000,01\n";
    const uint64_t first = (uint64_t)1 << 32;
    uint16_t plain[T], again[T];
    uint32_t log[3] = { 9, 9, 9 };
    check("read_sheet of unpadded numbers", rozsvelen_read_sheet(text(sheet), sizeof sheet - 1, plain, T) == 0 && plain[4] == 7);
    check("read_sheet of padded numbers", rozsvelen_read_sheet(text(padded), sizeof padded - 1, again, T) == 0);
    check("read_sheet of padded numbers, the table", memcmp(plain, again, sizeof plain) == 0);
    check("read_sheet of P,0007", rozsvelen_read_sheet(text("P,0007\n"), 7, again, T) == refused(4) + first);
    check("read_log of padded facts", rozsvelen_read_log(text("07,008\n000\n"), 11, log, 3) == 2);
    check("read_log of padded facts, the words", log[0] == (1 << 7 | 1 << 8) && log[1] == 1 && log[2] == 9);
    check("read_log of 7,07", rozsvelen_read_log(text("7,07\n"), 5, log, 3) == refused(26) + first);
    check("read_log of 0007", rozsvelen_read_log(text("0007\n"), 5, log, 3) == refused(24) + first);
}

static void table_of(const char *sheet, uint16_t *into) {
    check(sheet, rozsvelen_read_sheet(text(sheet), strlen(sheet), into, ROZSVELEN_TABLE) == 0);
}

static void check_of(const char *what, const char *sheet, int holds) {
    char name[64];
    snprintf(name, sizeof name, "%s of %s", what, sheet);
    check(name, holds);
}

/* Which number of a sheet was wrong: 71 to 76 with their field, of several the leftmost; and field 0 beside every other number. */
static void wrong_numbers(void) {
    enum { T = ROZSVELEN_TABLE };
    static const struct { const char *sheet; uint32_t number, line, field; } cases[] = {
        { "P,32\n", 71, 1, 2 },
        { "T\nP,032\n", 71, 2, 2 },
        { "T\nN,1\n", 72, 2, 2 },
        { "T\nA,0,1\n", 72, 2, 3 },
        { "T\nA,5,7\n", 72, 2, 2 },
        { "T\nM,1,0\nE,0,0,0,0\nB,0,1\n", 72, 4, 3 },
        { "T\nM,1,0\nE,0,0,9,9\n", 72, 3, 4 },
        { "T\nD,0,0\n", 73, 2, 2 },
        { "T\nD,9,9\n", 73, 2, 2 },
        { "M,2,2\n", 74, 1, 3 },
        { "M,1,0\nG,1\n", 74, 2, 2 },
        { "T\nM,1,0\nE,1,3,9,1\n", 74, 3, 2 },
        { "T\nM,1,0\nE,0,0,0,9\n", 74, 3, 5 },
        { "T\nM,1,0\nE,0,3,9,9\n", 75, 3, 3 },
        { "M,0,0\n", 76, 1, 2 },
        { "M,17,99\n", 76, 1, 2 },
        { "", 2, 0, 0 },
        { "Q\n", 3, 1, 0 },
        { "P,x\n", 4, 1, 0 },
        { "P,0032\n", 4, 1, 0 },
        { "T\nG,9\n", 6, 2, 0 },
        { "T\nM,1,0\nG,0\nG,0\n", 8, 4, 0 },
        { "M,1,0\nT\n", 10, 1, 0 },
        { "T\nM,1,0\nE,0,0,0,0\n", 11, 3, 0 },
    };
    uint16_t out[T], before[T];
    memset(before, 0x5a, sizeof before);
    memcpy(out, before, sizeof out);
    for (size_t i = 0; i < sizeof cases / sizeof *cases; i++) {
        uint64_t no = rozsvelen_read_sheet(text(cases[i].sheet), strlen(cases[i].sheet), out, T);
        check_of("the number and line", cases[i].sheet, rozsvelen_number(no) == cases[i].number && rozsvelen_line(no) == cases[i].line);
        check_of("the field", cases[i].sheet, rozsvelen_field(no) == cases[i].field && rozsvelen_count(no) == 0);
    }
    check("read_sheet, refused, the table lent", memcmp(out, before, sizeof out) == 0);
    check("35 names no field", rozsvelen_field(rozsvelen_read_sheet(text("P,32\n"), 5, out, T - 1)) == 0);
    check("a sheet that is read has no field", rozsvelen_field(rozsvelen_read_sheet(text("P,31\n"), 5, out, T)) == 0);
    check("page of a wrong number", rozsvelen_page(text("T\nA,0,1\n"), 8, NULL, 0, page, sizeof page) == 15);
    check("its line", memcmp(page, "refused,72,2,3\n", 15) == 0);
}

/* By a sheet of at most 64 nodes: each entry's first word is as wanted, and the second is 0. */
static int few_nodes(const uint64_t *judged, const uint64_t *first, size_t entries) {
    int as_wanted = 1;
    for (size_t i = 0; i < entries; i++) as_wanted &= judged[ROZSVELEN_WORDS * i] == first[i] && judged[ROZSVELEN_WORDS * i + 1] == 0;
    return as_wanted;
}

/* Profiles, and verdicts by them, worked by hand: of W and X of document 01, of and/or, and of an N on a D whose edge tests an N line. */
static void profiles_made(void) {
    enum { T = ROZSVELEN_TABLE };
    static const struct { const char *name, *sheet, *profile; uint32_t log[3]; uint64_t verdicts[3], held; } cases[] = {
        { "W", "T\nP,1\nM,1,0\nG,0\nE,0,1,0,0\nD,0,1\n", "T\nF\nP,1\nN,2\nM,1,0\nG,0\nE,0,1,0,0\nD,0,2\nB,0,3\nD,0,2\n",
          { 1, 2, 4 }, { 89, 85, 41 }, 2 },
        { "X", "T\nF\nM,2,0\nG,1\nE,0,2,0,1\nB,0,1\n", "T\nF\nF\nT\nM,2,0\nG,1\nE,0,2,0,1\nB,0,2\nD,0,3\nB,0,2\n",
          { 0, 0, 0 }, { 89, 41, 41 }, 1 },
        { "an A on an O", "P,0\nP,1\nO,0,1\nA,2,0\n", "P,0\nN,0\nP,1\nN,2\nO,0,2\nA,1,3\nA,4,0\nO,5,1\nA,4,0\n",
          { 1, 2, 0 }, { 345, 150, 170 }, 1 },
        { "an N on a D", "P,0\nN,0\nM,1,0\nG,0\nE,0,1,1,0\nD,0,1\nN,2\n",
          "P,0\nN,0\nN,0\nP,0\nM,1,0\nG,0\nE,0,1,2,0\nD,0,2\nB,0,3\nB,0,3\nD,0,2\nB,0,3\n", { 1, 0, 1 }, { 361, 150, 361 }, 2 },
    };
    for (size_t i = 0; i < sizeof cases / sizeof *cases; i++) {
        uint16_t old[T], wanted[T], out[T];
        uint64_t judged[6] = { 7, 7, 7, 7, 7, 7 };
        table_of(cases[i].sheet, old);
        table_of(cases[i].profile, wanted);
        check_of("profile", cases[i].name, rozsvelen_profile(old, T, out, T) == 0);
        check_of("the profile's table", cases[i].name, memcmp(out, wanted, sizeof out) == 0);
        check_of("the count held by the profile", cases[i].name, rozsvelen_judge(out, T, cases[i].log, 3, judged, 6) == cases[i].held);
        check_of("the words by the profile", cases[i].name, few_nodes(judged, cases[i].verdicts, 3));
    }
}

/* By which question a profile is refused, and that nothing is altered beside it; 63 nodes are taken. */
static void profiles_refused(void) {
    enum { T = ROZSVELEN_TABLE };
    static const uint16_t zeros[T];
    uint16_t most[T], many[T], out[T + 1], before[T + 1];
    char sheet[2 * 64 + 1];
    for (int k = 0; k < 64; k++) strcpy(sheet + 2 * k, "T\n");
    table_of(sheet, many);
    table_of(sheet + 2, most);
    memset(before, 0x5a, sizeof before);
    memcpy(out, before, sizeof out);
    check("profile of the table of zeros", rozsvelen_profile(zeros, T, out, T) == refused(31));
    check("profile of 64 nodes", rozsvelen_profile(many, T, out, T) == refused(42));
    check("profile into a number less", rozsvelen_profile(most, T, out, T - 1) == refused(35));
    check("profile into a number more", rozsvelen_profile(most, T, out, T + 1) == refused(35));
    check("profile of zeros into a number less", rozsvelen_profile(zeros, T, out, T - 1) == refused(35));
    check("profile, refused, the table lent", memcmp(out, before, sizeof out) == 0);
    check("profile of 63 nodes", rozsvelen_profile(most, T, out, T) == 0 && out[T - 3] == 127 && out[T] == before[T]);
    check("in_profile of the table of zeros", rozsvelen_in_profile(zeros, T) == refused(31));
}

/* Which sheets are in the profile; the profile of the last is. */
static void profiles_told(void) {
    enum { T = ROZSVELEN_TABLE };
    static const struct { const char *name, *sheet; uint64_t yes; } cases[] = {
        { "W", "T\nP,1\nM,1,0\nG,0\nE,0,1,0,0\nD,0,1\n", 1 },
        { "an N on T", "T\nN,0\n", 0 },
        { "an N on F", "F\nN,0\n", 0 },
        { "an N on an N", "P,0\nN,0\nN,1\n", 0 },
    };
    uint16_t old[T], out[T];
    for (size_t i = 0; i < sizeof cases / sizeof *cases; i++) {
        table_of(cases[i].sheet, old);
        check_of("in_profile", cases[i].name, rozsvelen_in_profile(old, T) == cases[i].yes);
    }
    check("in_profile of a profile", rozsvelen_profile(old, T, out, T) == 0 && rozsvelen_in_profile(out, T) == 1);
}

/* What a part that is all of the log `0`, `1`, `2` gives beside the plain row, with every ignored bit of that row set. */
#define U "T\nP,1\nM,1,0\nG,0\nE,0,1,0,0\nM,1,0\nG,0\nE,0,2,0,0\nD,1,1\nD,0,1\n"
#define BACK_D "T\nP,1\nM,1,0\nG,0\nE,0,2,0,0\nD,0,1\n"
struct spare {
    const char *name, *sheet;
    uint64_t looks, verdicts[3]; /* each entry's first word, and so below */
    int counts; /* the one number of the row whose bits count, or ROW */
    uint16_t bits, before, after; /* those bits, in the plain row, and in the row that the part gives */
    uint64_t whole[3];
};
enum { ROW = ROZSVELEN_ROW };
static const struct spare spares[] = {
    { "U", U, 1, { 9, 11, 1 }, 3, 1, 0, 1, { 9, 15, 5 } },
    { "U with the automata exchanged", "T\nP,1\nM,1,0\nG,0\nE,0,2,0,0\nM,1,0\nG,0\nE,0,1,0,0\nD,1,1\nD,0,1\n", 2, { 1, 11, 9 }, 3, 1, 0, 1,
      { 5, 15, 9 } },
    { "a fact behind a D", "T\nP,1\nM,1,0\nG,0\nE,0,1,0,0\nE,0,2,0,0\nD,0,1\nP,1\n", 0, { 0, 8, 0 }, ROW, 0, 0, 0, { 5, 15, 5 } },
    { "two Ds of one automaton", "T\nP,1\nP,2\nM,1,0\nG,0\nE,0,1,0,0\nD,0,2\nD,0,1\n", 1, { 17, 19, 1 }, 4, 1, 0, 1, { 25, 27, 13 } },
    { "a spare B", "T\nF\nM,2,0\nG,1\nE,0,1,0,1\nB,0,1\nM,1,0\nG,0\nE,0,1,0,0\nB,1,0\n", 1, { 9, 9, 9 }, 3, 1, 1, 1, { 9, 9, 13 } },
    { "T under a spare automaton", "T\nP,1\nM,1,0\nG,0\nE,0,1,0,0\nD,0,1\nN,1\n", 0, { 8, 2, 8 }, ROW, 0, 0, 0, { 13, 7, 9 } },
    { "W", "T\nP,1\nM,1,0\nG,0\nE,0,1,0,0\nD,0,1\n", 1, { 5, 7, 1 }, 2, 1, 0, 1, { 5, 7, 1 } },
    { "X", "T\nF\nM,2,0\nG,1\nE,0,2,0,1\nB,0,1\n", 2, { 5, 1, 1 }, 2, 3, 3, 0, { 5, 1, 1 } },
    { "Y", "T\nM,2,0\nG,1\nE,0,1,0,1\nD,0,0\n", 1, { 3, 3, 1 }, 1, 3, 0, 3, { 3, 3, 1 } },
    { "an N on a D", BACK_D "N,2\n", 2, { 9, 7, 5 }, 2, 1, 0, 1, { 9, 7, 5 } },
    { "an A on a D", BACK_D "A,1,2\n", 2, { 1, 15, 5 }, 2, 1, 0, 1, { 1, 15, 5 } },
    { "an O on a D", BACK_D "O,2,1\n", 2, { 1, 15, 13 }, 2, 1, 0, 1, { 1, 15, 13 } },
};

/* A row with this at the number that counts, and else all bits set or none. */
static void row_with(const struct spare *s, uint16_t others, uint16_t bits, uint16_t *into) {
    for (int k = 0; k < ROW; k++) into[k] = others;
    if (s->counts < ROW) into[s->counts] = (uint16_t)((others & ~s->bits) | bits);
}

/* One way of judging it: a refusal, or its words and row; a part without entries gives the row it got, ignored bits 0. */
static void spare_part(const struct spare *s, const uint16_t *sheet, uint32_t way, int taken) {
    enum { T = ROZSVELEN_TABLE };
    static const uint32_t log[3] = { 1, 2, 4 };
    uint16_t given[ROW], plain[ROW], next[ROW], got[ROW];
    uint64_t judged[6] = { 7, 7, 7, 7, 7, 7 };
    row_with(s, 0xffff, s->before, given);
    row_with(s, 0, s->before, plain);
    row_with(s, 0, s->after, next);
    memcpy(got, given, sizeof got);
    check_of("a part without entries", s->name, rozsvelen_judge_part(sheet, T, way, got, ROW, NULL, 0, judged, 6) == (taken ? 0 : refused(34)));
    check_of("the row of a part without entries", s->name, memcmp(got, taken ? plain : given, sizeof got) == 0 && judged[0] == 7);
    memcpy(got, given, sizeof got);
    check_of("a part", s->name, rozsvelen_judge_part(sheet, T, way, got, ROW, log, 3, judged, 6) == (taken ? 0 : refused(34)));
    check_of("the row of a part", s->name, memcmp(got, taken ? next : given, sizeof got) == 0);
    check_of("the words of a part", s->name, taken ? few_nodes(judged, s->verdicts, 3) : judged[0] == 7 && judged[5] == 7);
}

/* Sheets with nodes that the rule does not stand on, and sheets without: which ways the rule looks, the plain row, parts both ways, and the log
 * judged whole. */
static void spare_nodes(void) {
    enum { T = ROZSVELEN_TABLE };
    static const uint32_t log[3] = { 1, 2, 4 };
    for (const struct spare *s = spares; s < spares + sizeof spares / sizeof *spares; s++) {
        uint16_t sheet[T], plain[ROW], got[ROW];
        uint64_t judged[6] = { 7, 7, 7, 7, 7, 7 };
        table_of(s->sheet, sheet);
        check_of("rule_looks", s->name, rozsvelen_rule_looks(sheet, T) == s->looks);
        row_with(s, 0, s->before, plain);
        check_of("plain_row", s->name, rozsvelen_plain_row(sheet, T, got, ROW) == 0 && memcmp(got, plain, sizeof got) == 0);
        spare_part(s, sheet, ROZSVELEN_AHEAD, s->looks == 0 || s->looks == ROZSVELEN_AHEAD);
        spare_part(s, sheet, ROZSVELEN_BACK, s->looks == 0 || s->looks == ROZSVELEN_BACK);
        rozsvelen_judge(sheet, T, log, 3, judged, 6);
        check_of("the words of the whole log", s->name, few_nodes(judged, s->whole, 3));
    }
}

/* Rules that look both ways: Z of document 01; by an edge that no walk comes to; by what an edge tests, that no walk comes to. */
static void rules_both_ways(void) {
    enum { T = ROZSVELEN_TABLE };
    static const char *const sheets[] = {
        "P,0\nP,1\nP,2\nN,0\nT\nM,1,0\nG,0\nE,0,2,3,0\nD,0,1\nN,2\nO,6,5\nM,1,0\nG,0\nE,0,1,4,0\nB,1,7\n",
        "T\nP,1\nM,2,0\nG,0\nE,0,1,0,0\nE,1,2,0,1\nD,0,1\n",
        BACK_D "M,2,0\nG,0\nE,0,1,0,0\nE,1,0,2,1\nD,1,1\n",
    };
    static const uint16_t zeros[T];
    for (size_t i = 0; i < sizeof sheets / sizeof *sheets; i++) {
        uint16_t sheet[T];
        table_of(sheets[i], sheet);
        check_of("rule_looks both ways", sheets[i], rozsvelen_rule_looks(sheet, T) == 3);
        check_of("a part ahead", sheets[i], rozsvelen_judge_part(sheet, T, ROZSVELEN_AHEAD, row, ROW, words, 1, verdicts, VERDICTS) == refused(34));
        check_of("a part back", sheets[i], rozsvelen_judge_part(sheet, T, ROZSVELEN_BACK, row, ROW, words, 1, verdicts, VERDICTS) == refused(34));
    }
    check("rule_looks of the table of zeros", rozsvelen_rule_looks(zeros, T) == refused(31));
    check("rule_looks of a number less", rozsvelen_rule_looks(table, T - 1) == refused(31));
}

/* A sheet of so many lines alike and then others. */
static const char *behind(int count, const char *line, const char *lines) {
    static char sheet[1024];
    char *end = sheet;
    for (int k = 0; k < count; k++) end += sprintf(end, "%s\n", line);
    strcpy(end, lines);
    return sheet;
}

/* Sheets of 64 nodes and more on logs of two entries, worked by hand: so many lines alike, then others. */
#define ALL UINT64_MAX
#define BIT(k) ((uint64_t)1 << (k))
#define TESTS_100(d) "P,0\nP,1\nM,1,0\nG,0\nE,0," d ",100,0\nD,0,101\n"
struct large {
    int count;
    const char *line, *lines;
    uint32_t log[2];
    uint64_t held, verdicts[4];
};
static const struct large larges[] = {
    { 63, "T", "P,0\n", { 1, 0 }, 1, { ALL, 0, ALL >> 1, 0 } },
    { 64, "T", "P,0\n", { 1, 0 }, 1, { ALL, 1, ALL, 0 } },
    { 127, "T", "P,0\n", { 1, 0 }, 1, { ALL, ALL, ALL, ALL >> 1 } },
    { 128, "T", "", { 1, 0 }, 2, { ALL, ALL, ALL, ALL } },
    { 64, "F", "P,0\nN,64\n", { 1, 0 }, 1, { 0, 1, 0, 2 } },
    { 63, "F", "P,0\nP,1\nA,63,64\n", { 3, 1 }, 1, { BIT(63), 3, BIT(63), 0 } },
    { 63, "F", "P,0\nP,1\nO,64,63\n", { 2, 1 }, 2, { 0, 3, BIT(63), 2 } },
    { 64, "F", "P,0\nP,1\nM,1,0\nG,0\nE,0,1,64,0\nD,0,65\n", { 1, 2 }, 2, { 0, 5, 0, 6 } },
    { 100, "F", TESTS_100("1"), { 1, 2 }, 2, { 0, BIT(36) | BIT(38), 0, BIT(37) | BIT(38) } },
    { 100, "F", TESTS_100("1"), { 4, 2 }, 1, { 0, 0, 0, BIT(37) | BIT(38) } },
    { 100, "F", TESTS_100("2"), { 2, 1 }, 2, { 0, BIT(37) | BIT(38), 0, BIT(36) | BIT(38) } },
    { 125, "F", "P,1\nP,0\nM,1,0\nG,0\nE,0,2,126,0\nB,0,125\n", { 2, 1 }, 1, { 0, BIT(61) | BIT(63), 0, BIT(62) } },
};

/* Their words; a buffer of a word less is refused and kept, and so is the word behind the verdicts. */
static void two_words(void) {
    enum { T = ROZSVELEN_TABLE };
    const uint64_t old = 0x5a5a5a5a5a5a5a5a;
    for (const struct large *x = larges; x < larges + sizeof larges / sizeof *larges; x++) {
        uint16_t sheet[T];
        uint64_t judged[5] = { old, old, old, old, old };
        table_of(behind(x->count, x->line, x->lines), sheet);
        check_of("a buffer of three words", x->lines, rozsvelen_judge(sheet, T, x->log, 2, judged, 3) == refused(33));
        check_of("its content", x->lines, judged[0] == old && judged[1] == old && judged[2] == old);
        check_of("the count held", x->lines, rozsvelen_judge(sheet, T, x->log, 2, judged, 5) == x->held);
        check_of("the words", x->lines, memcmp(judged, x->verdicts, sizeof x->verdicts) == 0 && judged[4] == old);
    }
    const char *more = behind(128, "T", "T\n");
    check("a sheet of 129 nodes", rozsvelen_read_sheet(text(more), strlen(more), made, T) == refused(5) + ((uint64_t)129 << 32));
    check("512 entries in 1023 words", rozsvelen_judge(table, T, words, ROZSVELEN_ENTRIES, verdicts, VERDICTS - 1) == refused(33));
}

/* rozsvelen_verdict reads each node's own bit of each entry's own words. */
static void verdicts_read(void) {
    int as_wanted = 1;
    for (uint32_t k = 0; k < ROZSVELEN_NODES; k++) {
        uint64_t judged[6] = { 0, 0, 0, 0, 0, 0 };
        judged[k < 64 ? 2 : 3] = BIT(k < 64 ? k : k - 64);
        for (size_t i = 0; i < 3; i++) {
            for (uint32_t node = 0; node < ROZSVELEN_NODES; node++) as_wanted &= rozsvelen_verdict(judged, i, node) == (i == 1 && node == k);
        }
    }
    check("rozsvelen_verdict of each node", as_wanted);
}

/* W of document 01 behind 125 T lines: its rule is node 127. The log `0`, `1`, `2` is judged as a list and in parts, and walks are shown. */
static void node_127(void) {
    enum { T = ROZSVELEN_TABLE, RULE = 127 };
    static const uint32_t log[3] = { 1, 2, 4 };
    static const uint16_t lengths[2] = { 1, 2 };
    uint16_t sheet[T], next[ROW] = { 0 }, shown[2] = { 9, 9 };
    uint64_t judged[7] = { 7, 7, 7, 7, 7, 7, 7 };
    table_of(behind(125, "T", "T\nP,1\nM,1,0\nG,0\nE,0,1,125,0\nD,0,126\n"), sheet);
    check("a list in five words", rozsvelen_judge_logs(sheet, T, log, 3, lengths, 2, judged, 5, held, 2) == refused(33) + ((uint64_t)2 << 32));
    check("a list, its words before", judged[0] == 7 && judged[4] == 7);
    check("a list", rozsvelen_judge_logs(sheet, T, log, 3, lengths, 2, judged, 7, held, 2) == 0 && held[0] == 0 && held[1] == 1);
    check("log 1 of a list", rozsvelen_verdict(judged, 0, RULE) == 0 && rozsvelen_verdict(judged, 0, 125) == 1);
    check("log 2 of a list", rozsvelen_verdict(judged + ROZSVELEN_WORDS, 0, RULE) == 1 && rozsvelen_verdict(judged + ROZSVELEN_WORDS, 1, RULE) == 0);
    check("a list, the word behind", judged[6] == 7);
    for (int i = 2; i >= 0; i--) {
        static const uint64_t second[3] = { BIT(61) | BIT(63), BIT(61) | BIT(62) | BIT(63), BIT(61) };
        next[63] = 0xffff;
        check("a part", rozsvelen_judge_part(sheet, T, ROZSVELEN_AHEAD, next, ROW, log + i, 1, judged, 2) == 0);
        check("the words of a part", judged[0] == 0 && judged[1] == second[i]);
        check("number 127 of the row", next[RULE] == (i < 2) && next[63] == 0);
    }
    check("walk of node 127", rozsvelen_walk(sheet, T, log, 3, RULE, 0, shown, 2) == 1 && shown[0] == 0 && shown[1] == 9);
    check("walk of node 127 at the last entry", rozsvelen_walk(sheet, T, log, 3, RULE, 2, shown, 2) == refused(39));
    check("walk of node 126", rozsvelen_walk(sheet, T, log, 3, RULE - 1, 0, shown, 2) == refused(38));
    check("walk of node 128", rozsvelen_walk(sheet, T, log, 3, RULE + 1, 0, shown, 2) == refused(36));
}

static int counted_is(const char *log, uint32_t *into, uint64_t wanted) {
    return rozsvelen_read_counted(text(log), strlen(log), into, 4) == wanted;
}

/* What logs with counters are read to. */
static void counters_read(void) {
    uint32_t log[4] = { 9, 9, 9, 9 };
    const char *round = "65534,0\n65535,-\n0,1,2\n";
    uint64_t read = rozsvelen_read_counted(text(round), strlen(round), log, 4);
    check("read_counted round the turn", rozsvelen_count(read) == 3 && rozsvelen_number(read) == 0 && rozsvelen_line(read) == 0);
    check("read_counted round the turn, the first counter", rozsvelen_extra(read) == 65534);
    check("read_counted round the turn, the words", log[0] == 1 && log[1] == 0 && log[2] == 6 && log[3] == 9);
    check("read_counted of a padded counter", counted_is("00007,31\n", log, 1 + ((uint64_t)7 << 48)) && log[0] == (uint32_t)1 << 31);
    check("read_counted of a padded fact", counted_is("5,07\n", log, 1 + ((uint64_t)5 << 48)) && log[0] == 1 << 7);
    check("read_counted, the places behind", log[1] == 0 && log[2] == 6 && log[3] == 9);
}

/* By which question logs with counters are refused, and that nothing is altered or given beside it. */
static void counters_refused(void) {
    static const struct { const char *log; uint64_t number, line; } cases[] = {
        { "7,-\n9,-\n", 29, 2 }, { "7,-\n7,-\n", 29, 2 },   { "65535,-\n65536,-\n", 28, 2 }, { "000007,-\n", 28, 1 },
        { ",1\n", 28, 1 },       { "-,1\n", 28, 1 },        { "70000,32\n", 28, 1 },         { "99999,x\n", 24, 1 },
        { "5\n", 24, 1 },        { "5,\n", 24, 1 },         { "5,-\n9,32\n", 29, 2 },        { "5,-\n6,32\n", 25, 2 },
        { "5,-", 22, 0 },        { "5,-\n6,2,1\n", 26, 2 }, { "1,-\n2,-\n3,-\n4,-\n5,-\n", 27, 0 },
    };
    uint32_t log[4] = { 9, 9, 9, 9 };
    for (size_t i = 0; i < sizeof cases / sizeof *cases; i++) {
        check(cases[i].log, counted_is(cases[i].log, log, refused(cases[i].number) + (cases[i].line << 32)));
    }
    check("read_counted, refused, the words", log[0] == 9 && log[1] == 9 && log[2] == 9 && log[3] == 9);
}

/* Steps round the circle of counters, and the one entry that bears a counter. */
static void steps_and_entries(void) {
    check("steps from 65535 to 0", rozsvelen_steps_between(65535, 0) == 1);
    check("steps from 0 to 65535", rozsvelen_steps_between(0, 65535) == 65535);
    check("steps from 5 to 5", rozsvelen_steps_between(5, 5) == 0);
    check("steps from 10 to 3", rozsvelen_steps_between(10, 3) == 65529);
    check("entry of 65534", rozsvelen_entry_bearing(65534, 3, 65534) == 0);
    check("entry of 65535", rozsvelen_entry_bearing(65534, 3, 65535) == 1);
    check("entry of 0", rozsvelen_entry_bearing(65534, 3, 0) == 2);
    check("entry of 1", rozsvelen_entry_bearing(65534, 3, 1) == refused(30));
    check("entry of 65533", rozsvelen_entry_bearing(65534, 3, 65533) == refused(30));
    check("entry in a log of none", rozsvelen_entry_bearing(65534, 0, 65534) == refused(32));
    check("entry in a log of 513", rozsvelen_entry_bearing(65534, 513, 65534) == refused(32));
    check("entry of 518", rozsvelen_entry_bearing(7, 512, 518) == 511);
    check("entry of 519", rozsvelen_entry_bearing(7, 512, 519) == refused(30));
}

static int all_are(const uint8_t *bytes, size_t count, uint8_t old) {
    int as_wanted = 1;
    for (size_t i = 0; i < count; i++) as_wanted &= bytes[i] == old;
    return as_wanted;
}

/* The rule is printed as wanted in so many bytes, or refused by 55 where the text is longer; all bytes but the text's keep their content, those
 * behind the slice among them. */
static int is_printed(const uint16_t *sheet, const char *wanted, size_t bytes, size_t room) {
    enum { OLD = 0x5a, MOST = 70000 };
    static uint8_t out[MOST];
    memset(out, OLD, MOST);
    uint64_t printed = rozsvelen_print_rule(sheet, ROZSVELEN_TABLE, out, room);
    if (bytes > room) return printed == refused(55) && all_are(out, MOST, OLD);
    return rozsvelen_number(printed) == 0 && rozsvelen_length(printed) == bytes && memcmp(out, wanted, bytes) == 0 &&
           all_are(out + bytes, MOST - bytes, OLD);
}

/* Rules as text, worked by hand: every letter, facts and automata of one digit and two, a node named twice, and nodes that the rule does not name.
 * Each in every buffer up to a byte more than its text. */
#define SPARE "F\nM,1,0\nE,0,0,0,0"
static void rules_printed(void) {
    static const struct { int count; const char *line, *lines, *text; } cases[] = {
        { 0, "", "T\n", "true" },
        { 0, "", "F\n", "false" },
        { 0, "", "P,3\n", "f3" },
        { 0, "", "P,31\n", "f31" },
        { 0, "", "P,3\nN,0\n", "(!f3)" },
        { 0, "", "P,1\nP,2\nA,0,1\n", "(f1&f2)" },
        { 0, "", "P,1\nP,2\nO,0,1\n", "(f1|f2)" },
        { 0, "", "P,1\nP,12\nO,1,0\n", "(f12|f1)" },
        { 1, SPARE, "P,1\nD,0,1\n", "(<m0>f1)" },
        { 1, SPARE, "P,1\nB,0,1\n", "([m0]f1)" },
        { 10, SPARE, "P,7\nB,9,10\n", "([m9]f7)" },
        { 16, SPARE, "P,7\nD,15,16\n", "(<m15>f7)" },
        { 16, SPARE, "P,7\nB,15,16\n", "([m15]f7)" },
        { 0, "", "P,1\nN,0\nA,1,1\nO,2,0\n", "(((!f1)&(!f1))|f1)" },
        { 126, "T", "P,30\nN,126\n", "(!f30)" },
        { 64, "T", "F\nP,5\n", "f5" },
    };
    for (size_t i = 0; i < sizeof cases / sizeof *cases; i++) {
        uint16_t sheet[ROZSVELEN_TABLE];
        size_t bytes = strlen(cases[i].text);
        table_of(behind(cases[i].count, cases[i].line, cases[i].lines), sheet);
        for (size_t room = 0; room <= bytes + 1; room++) check_of("print_rule", cases[i].text, is_printed(sheet, cases[i].text, bytes, room));
    }
}

/* Z of document 01: its text just fits, lacks a byte, and leaves one. */
static void rule_of_z(void) {
    enum { T = ROZSVELEN_TABLE, BYTES = 22 };
    static const char z[] = "P,0\nP,1\nP,2\nN,0\nT\nM,1,0\nG,0\nE,0,2,3,0\nD,0,1\nN,2\nO,6,5\nM,1,0\nG,0\nE,0,1,4,0\nB,1,7\n";
    static const char wanted[] = "([m1]((!f2)|(<m0>f1)))", before[] = "#######################";
    uint16_t sheet[T];
    char out[] = "#######################";
    table_of(z, sheet);
    check("the rule of Z in no bytes", rozsvelen_print_rule(sheet, T, (uint8_t *)out, 0) == refused(55));
    check("the rule of Z in 21 bytes", rozsvelen_print_rule(sheet, T, (uint8_t *)out, 21) == refused(55));
    check("the rule of Z, refused, the bytes lent", strcmp(out, before) == 0);
    check("the rule of Z in 22 bytes", rozsvelen_print_rule(sheet, T, (uint8_t *)out, 22) == BYTES);
    check("the rule of Z", memcmp(out, wanted, BYTES) == 0 && out[BYTES] == '#');
    memcpy(out, before, sizeof out);
    check("the rule of Z in 23 bytes", rozsvelen_print_rule(sheet, T, (uint8_t *)out, 23) == BYTES);
    check("the rule of Z, the byte behind", memcmp(out, wanted, BYTES) == 0 && out[BYTES] == '#');
}

/* 31 comes before 55, and alters nothing where there is room. */
static void no_rules(void) {
    enum { T = ROZSVELEN_TABLE, ROOM = 8 };
    static const uint16_t zeros[T];
    uint16_t sheet[T + 1] = { 0 }, large[T];
    uint8_t out[ROOM];
    memset(out, '#', ROOM);
    table_of("P,3\n", sheet);
    memcpy(large, sheet, sizeof large);
    large[1] += 256;
    for (size_t room = 0; room <= ROOM; room += ROOM) {
        check("print_rule of the table of zeros", rozsvelen_print_rule(zeros, T, out, room) == refused(31));
        check("print_rule of a number less", rozsvelen_print_rule(sheet, T - 1, out, room) == refused(31));
        check("print_rule of a number more", rozsvelen_print_rule(sheet, T + 1, out, room) == refused(31));
        check("print_rule of a number that no table has", rozsvelen_print_rule(large, T, out, room) == refused(31));
    }
    check("print_rule, refused, the bytes lent", all_are(out, ROOM, '#'));
    check("print_rule of the table itself", rozsvelen_print_rule(sheet, T, out, ROOM) == 2 && memcmp(out, "f3######", ROOM) == 0);
}

/* A line, so many A lines that each name the one before twice, and so many N lines. */
static const char *doubled(const char *line, int times, int under) {
    static char sheet[4096];
    char *end = sheet + sprintf(sheet, "%s\n", line);
    for (int k = 0; k < times; k++) end += sprintf(end, "A,%d,%d\n", k, k);
    for (int k = times; k < times + under; k++) end += sprintf(end, "N,%d\n", k);
    return sheet;
}

/* Texts of astronomical length are refused at once. Of `false`, doubled so often, the text has 2^(3 + times) - 3 bytes; two N lines make it 2^n + 3,
 * which cut to n bits would have room. */
static void endless_rules(void) {
    static const struct { const char *name, *line; int times, under; } cases[] = {
        { "7 * 2^40 - 3 bytes", "T", 40, 0 }, { "2^32 + 3 bytes", "F", 29, 2 },   { "2^48 + 3 bytes", "F", 45, 2 },
        { "2^64 + 3 bytes", "F", 61, 2 },     { "2^128 + 3 bytes", "F", 125, 2 },
    };
    for (size_t i = 0; i < sizeof cases / sizeof *cases; i++) {
        uint16_t sheet[ROZSVELEN_TABLE];
        table_of(doubled(cases[i].line, cases[i].times, cases[i].under), sheet);
        check_of("a text", cases[i].name, is_printed(sheet, NULL, SIZE_MAX, 4096));
    }
}

/* Makes a text that of an A line which names its node twice; of an N line. How many bytes it then has. */
static size_t twice(char *bytes, size_t count) {
    memmove(bytes + 1, bytes, count);
    memcpy(bytes + count + 2, bytes + 1, count);
    bytes[0] = '(';
    bytes[count + 1] = '&';
    bytes[2 * count + 2] = ')';
    return 2 * count + 3;
}
static size_t negated(char *bytes, size_t count) {
    memmove(bytes + 2, bytes, count);
    memcpy(bytes, "(!", 2);
    bytes[count + 2] = ')';
    return count + 3;
}

/* Texts about the largest length that 16 bits hold: all bits of the length are given. */
static void long_rules(void) {
    enum { TIMES = 13, MOST = 65536 + 3 };
    static const struct { const char *name; uint64_t answer; } cases[] = {
        { "65,533 bytes", 65533 }, { "65,536 bytes", (uint64_t)1 << 32 }, { "65,539 bytes", ((uint64_t)1 << 32) + 3 }
    };
    static char wanted[MOST];
    static uint8_t out[MOST];
    size_t bytes = (size_t)sprintf(wanted, "false");
    for (int k = 0; k < TIMES; k++) bytes = twice(wanted, bytes);
    for (int under = 0; under < 3; under++) {
        uint16_t sheet[ROZSVELEN_TABLE];
        if (under > 0) bytes = negated(wanted, bytes);
        table_of(doubled("F", TIMES, under), sheet);
        for (size_t room = bytes - 1; room <= bytes + 1; room++) check_of("a text", cases[under].name, is_printed(sheet, wanted, bytes, room));
        check_of("the answer", cases[under].name, rozsvelen_print_rule(sheet, ROZSVELEN_TABLE, out, MOST) == cases[under].answer);
    }
}

static uint64_t formula_into(const char *s, uint16_t *into) { return rozsvelen_read_formula(text(s), strlen(s), into, ROZSVELEN_TABLE); }

/* The sheets that docs/FORMULAS.md makes of formulas, worked by hand: letters, grouping, brackets, each kind of step and of path, two automata, and
 * one within a test of the other. The number behind the table keeps its content. */
#define STAR "M,4,2\nG,3\nE,0,1,1,1\nE,2,0,0,0\nE,1,0,0,0\nE,1,0,0,3\nE,2,0,0,3\n"
static void formulas_read(void) {
    enum { T = ROZSVELEN_TABLE, OLD = 0x5a };
    static const struct { const char *formula, *sheet; } cases[] = {
        { "true", "T\nT\n" },
        { "f0", "T\nP,0\n" },
        { "f31", "T\nP,31\n" },
        { "((f9))", "T\nP,9\n" },
        { "!!f1", "T\nP,1\nN,1\nN,2\n" },
        { "f1&f1", "T\nP,1\nP,1\nA,1,2\n" },
        { "f1|f2&f3", "T\nP,1\nP,2\nP,3\nA,2,3\nO,1,4\n" },
        { "f1&f2|f3", "T\nP,1\nP,2\nA,1,2\nP,3\nO,3,4\n" },
        { "(f1|f2)&f3", "T\nP,1\nP,2\nO,1,2\nP,3\nA,3,4\n" },
        { "f1&f2&f3", "T\nP,1\nP,2\nA,1,2\nP,3\nA,3,4\n" },
        { "f1|(f2|f3)", "T\nP,1\nP,2\nP,3\nO,2,3\nO,1,4\n" },
        { "!f1&f2", "T\nP,1\nN,1\nP,2\nA,2,3\n" },
        { "!(f1&f2)", "T\nP,1\nP,2\nA,1,2\nN,3\n" },
        { "<{f1}>f2", "T\nP,1\nM,2,0\nG,1\nE,0,1,1,1\nP,2\nD,0,2\n" },
        { "[{f1}-]f2", "T\nP,1\nM,2,0\nG,1\nE,0,2,1,1\nP,2\nB,0,2\n" },
        { "<{f1}?>f2", "T\nP,1\nM,2,0\nG,1\nE,0,0,1,1\nP,2\nD,0,2\n" },
        { "!<{f1}>f2", "T\nP,1\nM,2,0\nG,1\nE,0,1,1,1\nP,2\nD,0,2\nN,3\n" },
        { "<{f1}>f2&f3", "T\nP,1\nM,2,0\nG,1\nE,0,1,1,1\nP,2\nD,0,2\nP,3\nA,3,4\n" },
        { "<{f1}>(f2&f3)", "T\nP,1\nM,2,0\nG,1\nE,0,1,1,1\nP,2\nP,3\nA,2,3\nD,0,4\n" },
        { "<{f1|!f2}>f3", "T\nP,1\nP,2\nN,2\nO,1,3\nM,2,0\nG,1\nE,0,1,4,1\nP,3\nD,0,5\n" },
        { "<{f1};{f2}>f3", "T\nP,1\nP,2\nM,4,0\nG,3\nE,0,1,1,1\nE,2,1,2,3\nE,1,0,0,2\nP,3\nD,0,3\n" },
        { "<{f1}+{f2}->f3",
          "T\nP,1\nP,2\nM,6,4\nG,5\nE,0,1,1,1\nE,2,2,2,3\nE,4,0,0,0\nE,4,0,0,2\nE,1,0,0,5\nE,3,0,0,5\nP,3\nD,0,3\n" },
        { "<{true}*>f1", "T\nT\n" STAR "P,1\nD,0,2\n" },
        { "[({f7})*]f1", "T\nP,7\n" STAR "P,1\nB,0,2\n" },
        { "<{f1}**>f2",
          "T\nP,1\nM,6,4\nG,5\nE,0,1,1,1\nE,2,0,0,0\nE,1,0,0,0\nE,1,0,0,3\nE,2,0,0,3\nE,4,0,0,2\nE,3,0,0,2\nE,3,0,0,5\nE,4,0,0,5\n"
          "P,2\nD,0,2\n" },
        { "<({f1};{f2})*>f3",
          "T\nP,1\nP,2\nM,6,4\nG,5\nE,0,1,1,1\nE,2,1,2,3\nE,1,0,0,2\nE,4,0,0,0\nE,3,0,0,0\nE,3,0,0,5\nE,4,0,0,5\nP,3\nD,0,3\n" },
        { "<{f1}+{f2};{f3}*>f4",
          "T\nP,1\nP,2\nP,3\nM,10,8\nG,9\nE,0,1,1,1\nE,2,1,2,3\nE,4,1,3,5\nE,6,0,0,4\nE,5,0,0,4\nE,5,0,0,7\nE,6,0,0,7\nE,3,0,0,6\n"
          "E,8,0,0,0\nE,8,0,0,2\nE,1,0,0,9\nE,7,0,0,9\nP,4\nD,0,4\n" },
        { "<{f1}>f2&[{f3}-]f4",
          "T\nP,1\nM,2,0\nG,1\nE,0,1,1,1\nP,2\nD,0,2\nP,3\nM,2,0\nG,1\nE,0,2,4,1\nP,4\nB,1,5\nA,3,6\n" },
        { "<{<{f1}>f2}?>f3", "T\nP,1\nM,2,0\nG,1\nE,0,1,1,1\nP,2\nD,0,2\nM,2,0\nG,1\nE,0,0,3,1\nP,3\nD,1,4\n" },
    };
    for (size_t i = 0; i < sizeof cases / sizeof *cases; i++) {
        uint16_t wanted[T], out[T + 1];
        memset(out, OLD, sizeof out);
        table_of(cases[i].sheet, wanted);
        check_of("read_formula", cases[i].formula, formula_into(cases[i].formula, out) == 0);
        check_of("the table", cases[i].formula, memcmp(out, wanted, sizeof wanted) == 0);
        check_of("the number behind the table", cases[i].formula, out[T] == (OLD << 8 | OLD));
    }
}

/* Formulas judged on logs of three entries, by the meaning of docs/FORMULAS.md: where the rule holds. */
#define DESK "[{true}*](!f2|<{!f0}-*>f1)"
static void formulas_judged(void) {
    enum { T = ROZSVELEN_TABLE };
    static const struct { const char *formula; uint32_t log[3]; int holds[3]; } cases[] = {
        { "f1|f2&!f0", { 5, 4, 2 }, { 0, 1, 1 } },
        { "<{true}*>f1", { 1, 2, 4 }, { 1, 1, 0 } },
        { "[{true}*]f1", { 1, 2, 2 }, { 0, 1, 1 } },
        { "<{true}-*>f1", { 1, 2, 4 }, { 0, 1, 1 } },
        { "<{true}>f1", { 1, 2, 4 }, { 1, 0, 0 } },
        { "[{true}]!true", { 1, 2, 4 }, { 0, 0, 1 } },
        { "[{true}-]!true", { 1, 2, 4 }, { 1, 0, 0 } },
        { "<{f1}?;{true}>f2", { 2, 4, 4 }, { 1, 0, 0 } },
        { "<{true}+{true}->f1", { 0, 2, 0 }, { 1, 0, 1 } },
        { "<{f1}**>f2", { 2, 2, 4 }, { 1, 1, 1 } },
        { "<{f1}**>f2", { 2, 1, 4 }, { 0, 0, 1 } },
        { "<({f1};{f2})*>f3", { 2, 4, 8 }, { 1, 0, 1 } },
        { "<({<{true}*>f1}?;{true})*>f2", { 2, 0, 4 }, { 0, 0, 1 } },
        { "<({<{true}*>f1}?;{true})*>f2", { 0, 2, 4 }, { 1, 1, 1 } },
        { DESK, { 1, 2, 4 }, { 1, 1, 1 } },
        { DESK, { 2, 1, 4 }, { 0, 0, 0 } },
    };
    for (size_t i = 0; i < sizeof cases / sizeof *cases; i++) {
        const int *holds = cases[i].holds;
        uint16_t out[T] = { 0 };
        uint64_t judged[6] = { 0 };
        check_of("read_formula", cases[i].formula, formula_into(cases[i].formula, out) == 0);
        uint32_t rule = (uint32_t)(out[T - 3] - 1) % ROZSVELEN_NODES;
        uint64_t held_at = rozsvelen_judge(out, T, cases[i].log, 3, judged, 6);
        check_of("the count held", cases[i].formula, held_at == (uint64_t)(holds[0] + holds[1] + holds[2]));
        for (size_t entry = 0; entry < 3; entry++) check_of("a verdict", cases[i].formula, rozsvelen_verdict(judged, entry, rule) == holds[entry]);
    }
}

/* By which question texts are refused, at which place, and that nothing is altered beside it. */
static void formulas_refused(void) {
    enum { T = ROZSVELEN_TABLE };
    static const struct { const char *formula; uint64_t number, place; } cases[] = {
        { "", 51, 0 },
        { "x", 51, 0 },
        { " f1", 51, 0 },
        { "F1", 51, 0 },
        { "false", 51, 1 },
        { "tru", 51, 3 },
        { "truth", 51, 3 },
        { "true1", 51, 4 },
        { "f", 51, 1 },
        { "f01", 51, 2 },
        { "f32", 51, 2 },
        { "f40", 51, 2 },
        { "f310", 51, 3 },
        { "f1 ", 51, 2 },
        { "f1\n", 51, 2 },
        { "f1)", 51, 2 },
        { "f1f2", 51, 2 },
        { "f1-", 51, 2 },
        { "f1&", 51, 3 },
        { "f1&|f2", 51, 3 },
        { "!", 51, 1 },
        { "()", 51, 1 },
        { "(f1", 51, 3 },
        { "(f1]", 51, 3 },
        { "{f1}f2", 51, 0 },
        { "<>f1", 51, 1 },
        { "<f1>f2", 51, 1 },
        { "<{f1}f2", 51, 5 },
        { "<{f1}]f2", 51, 5 },
        { "[{f1}>f2", 51, 5 },
        { "<{f1)>f2", 51, 4 },
        { "<{f1}--", 51, 6 },
        { "<{f1}*->f2", 51, 6 },
        { "<({f1};{f2})->f3", 51, 12 },
        { "<{f1};>f2", 51, 6 },
        { "<{f1}>", 51, 6 },
        { "<*>f1", 51, 1 },
        { "<{<{f1}>f2}>f3)", 51, 14 },
        { "<{<{f1}>f2}>f3", 54, 0 },
        { "<{(!<{f1}>f2)}->f3", 54, 0 },
        { "[{f1}*]<{f2}+{f3&[{f4}]f5}>f6", 54, 0 },
        { "<{<{[{f1}]f2}>f3}?>f4", 54, 0 },
    };
    uint16_t out[T], before[T];
    memset(before, 0x5a, sizeof before);
    memcpy(out, before, sizeof out);
    for (size_t i = 0; i < sizeof cases / sizeof *cases; i++) {
        check_of("read_formula", cases[i].formula, formula_into(cases[i].formula, out) == refused_at(cases[i].number, cases[i].place));
    }
    check("read_formula of f1 and NUL", rozsvelen_read_formula(text("f1"), 3, out, T) == refused_at(51, 2));
    check("read_formula, refused, the table lent", memcmp(out, before, sizeof out) == 0);
}

/* What just fits, with the nodes and edges of its sheet, and what is one too many: bytes, marks open, nodes, automata, states, edges. */
struct limit {
    const char *name, *first;
    int count;
    const char *piece, *last;
    uint64_t number, place;
    uint16_t nodes, edges; /* of a sheet that was made */
};
static const struct limit limits[] = {
    { "4,096 bytes", "", 4094, "!", "f1", 53, 0, 0, 0 },
    { "4,097 bytes", "", 4095, "!", "f1", 50, 0, 0, 0 },
    { "4,096 bytes that stop short", "", 4096, "!", "", 51, 4096, 0, 0 },
    { "4,097 bytes that stop short", "", 4097, "!", "", 50, 0, 0, 0 },
    { "16 marks", "", 16, "(", "f1))))))))))))))))", 0, 0, 2, 0 },
    { "17 marks", "", 17, "(", "f1)))))))))))))))))", 52, 0, 0, 0 },
    { "17 marks and no more", "", 17, "(", "", 52, 0, 0, 0 },
    { "17 marks and what no formula has", "", 17, "(", "x", 52, 0, 0, 0 },
    { "17 marks behind what no formula has", ")", 17, "(", "", 51, 0, 0, 0 },
    { "16 marks and no more", "", 16, "(", "", 51, 16, 0, 0 },
    { "16 marks and one that no formula has", "", 16, "(", "{", 51, 16, 0, 0 },
    { "16 marks and <", "", 16, "(", "<{f1}>f2", 52, 0, 0, 0 },
    { "16 marks and [", "", 16, "(", "[{f1}]f2", 52, 0, 0, 0 },
    { "14 marks, < and {", "", 14, "(", "<{f1}>f2))))))))))))))", 0, 0, 4, 1 },
    { "15 marks, < and {", "", 15, "(", "<{f1}>f2)))))))))))))))", 52, 0, 0, 0 },
    { "marks that were closed", "(f1)", 16, "&(f1)", "", 0, 0, 34, 0 },
    { "128 nodes by &", "", 63, "f1&", "f1", 0, 0, 128, 0 },
    { "130 nodes by &", "", 64, "f1&", "f1", 53, 0, 0, 0 },
    { "128 nodes by !", "", 126, "!", "f1", 0, 0, 128, 0 },
    { "129 nodes by !", "", 127, "!", "f1", 53, 0, 0, 0 },
    { "16 automata", "", 16, "<{f1}>", "f1", 0, 0, 34, 16 },
    { "17 automata", "", 17, "<{f1}>", "f1", 53, 0, 0, 0 },
    { "16 states by ;", "<", 7, "{f1};", "{f1}>f2", 0, 0, 11, 15 },
    { "18 states by ;", "<", 8, "{f1};", "{f1}>f2", 53, 0, 0, 0 },
    { "14 states by +", "<", 3, "{f1}+", "{f1}>f2", 0, 0, 7, 16 },
    { "18 states by +", "<", 4, "{f1}+", "{f1}>f2", 53, 0, 0, 0 },
    { "16 states by *", "<{f1}", 7, "*", ">f2", 0, 0, 4, 29 },
    { "18 states by *", "<{f1}", 8, "*", ">f2", 53, 0, 0, 0 },
    { "256 edges", "", 8, "<{f1}*******>", "<({f1}+{f1};{f1})****>f1", 0, 0, 22, 256 },
    { "257 edges", "", 8, "<{f1}*******>", "<{f1}******>f1", 53, 0, 0, 0 },
    { "a stray path mark and 133 nodes", "<{<{f1}>f2}>", 127, "!", "f3", 54, 0, 0, 0 },
};
static void formulas_limited(void) {
    enum { T = ROZSVELEN_TABLE };
    for (const struct limit *x = limits; x < limits + sizeof limits / sizeof *limits; x++) {
        uint16_t out[T], before[T];
        memset(before, 0x5a, sizeof before);
        memcpy(out, before, sizeof out);
        check_of("read_formula", x->name, formula_into(joined(x->first, x->count, x->piece, x->last), out) == refused_at(x->number, x->place));
        if (x->number == 0) {
            check_of("nodes and edges", x->name, out[T - 3] == x->nodes && out[T - 1] == x->edges);
        } else {
            check_of("the table lent", x->name, memcmp(out, before, sizeof out) == 0);
        }
    }
}

/* 35 comes before what is asked of the text, and alters nothing. */
static void formulas_into_no_table(void) {
    enum { T = ROZSVELEN_TABLE };
    static const char *const formulas[] = { "f1", "f32", "" };
    uint16_t out[T + 1], before[T + 1];
    memset(before, 0x5a, sizeof before);
    memcpy(out, before, sizeof out);
    for (size_t i = 0; i < sizeof formulas / sizeof *formulas; i++) {
        size_t bytes = strlen(formulas[i]);
        check_of("a number less", formulas[i], rozsvelen_read_formula(text(formulas[i]), bytes, out, T - 1) == refused(35));
        check_of("a number more", formulas[i], rozsvelen_read_formula(text(formulas[i]), bytes, out, T + 1) == refused(35));
    }
    check("read_formula into no table's length, the numbers lent", memcmp(out, before, sizeof out) == 0);
}

int main(void) {
    enum { BYTES = 10 * 4 + 90 * 5 + 412 * 6 + 23 + 10 + 5 * 511 * 2 + 11 * 511 * 3 + 5 * 2 + 10 * 3 }; /* of the page: entries, rule, walk */
    enum { DEEP = 4 + 25 * (3 + 7 + 7 + 6 + 6) + 3 + 7 }; /* of the deepest rule: true, 25 times the five letters, N, A */
    static const char ahead[] = "T\nP,0\nM,1,0\nG,0\nE,0,1,0,0\nE,0,0,1,0\nD,0,1\nB,0,1\n";
    static const char back[] = "T\nP,0\nM,1,0\nG,0\nE,0,2,0,0\nE,0,0,1,0\nD,0,1\nB,0,1\n";
    write_texts();
    write_counted();
    write_deep();
    write_formula();
    takes("read_sheet", read_sheet, 0, 16);
    takes("read_formula", read_formula, 0, 100);
    check("read_formula, its nodes, automata and edges", made[1504] == 128 && made[1505] == 14 && made[1506] == 14 * 15);
    takes("read_formula of 4,096 !", read_negations, refused_at(51, 4096), 100);
    takes("profile", profile, 0, 8);
    takes("in_profile", in_profile, 1, 8);
    takes("rule_looks", rule_looks, ROZSVELEN_AHEAD + ROZSVELEN_BACK, 8);
    takes("read_log", read_log, ROZSVELEN_ENTRIES, 1);
    takes("read_counted", read_counted, ROZSVELEN_ENTRIES + ((uint64_t)FIRST << 48), 1);
    check("read_counted, the words of the log without counters", memcmp(words, words_again, sizeof words) == 0);
    takes("steps_between", steps_between, 65535, 1);
    takes("entry_bearing", entry_bearing, LAST, 1);
    takes("judge", judge, ROZSVELEN_ENTRIES, 72);
    takes("judge_logs", judge_logs, 0, 72);
    takes("plain_row", plain_row, 0, 8);
    rozsvelen_read_sheet(text(ahead), sizeof ahead - 1, only_ahead, ROZSVELEN_TABLE);
    rozsvelen_read_sheet(text(back), sizeof back - 1, only_back, ROZSVELEN_TABLE);
    takes("judge_part ahead", part_ahead, 0, 72);
    takes("judge_part back", part_back, 0, 72);
    takes("walk", walk, ROZSVELEN_WALK, 112);
    rozsvelen_read_sheet(text(deep_rules), strlen(deep_rules), deep, ROZSVELEN_TABLE);
    takes("print_rule", print_rule, DEEP, 24);
    takes("page", whole_page, BYTES, 176);
    takes("page, a byte less", page_less_one, BYTES, 176);
    takes("page in 1023 bytes", short_page, refused(44), 176);
    answer_parts();
    empty_slices();
    padded_numbers();
    wrong_numbers();
    profiles_made();
    profiles_refused();
    profiles_told();
    spare_nodes();
    rules_both_ways();
    two_words();
    verdicts_read();
    node_127();
    counters_read();
    counters_refused();
    steps_and_entries();
    rules_printed();
    rule_of_z();
    no_rules();
    endless_rules();
    long_rules();
    formulas_read();
    formulas_judged();
    formulas_refused();
    formulas_limited();
    formulas_into_no_table();
    printf("%d passed, %d failed\n", passed, failed);
    return failed != 0;
}
