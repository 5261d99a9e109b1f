/* Calls tracks_plan from C, and compares each answer with what it must be: the text, the result, and every byte
   that must stay as it was. Prints `N passed, M failed`; the exit status is 1 where one failed. */
#include <stddef.h>
#include <stdint.h>
#include <stdio.h>
#include <string.h>

/* The length of the text written, or -4 where the text memory is below nine bytes for each line, and nine at least. */
int64_t tracks_plan(const uint8_t *plan, size_t plan_len, uint8_t *text, size_t text_len);

enum { LONGEST_PLAN = 4096, LONGEST_LINE = 9, TEXT = LONGEST_PLAN * LONGEST_LINE, GUARD = 64, FILL = 0xA5 };

static int passed, failed;

/* One call with `room` bytes of text memory: it must return `result` and write `text`, and change nothing else. */
static void expect(const char *name, const char *plan, size_t plan_len, size_t room, int64_t result, const char *text) {
    static uint8_t memory[TEXT + GUARD], expected[TEXT + GUARD];
    memset(memory, FILL, sizeof memory);
    memset(expected, FILL, sizeof expected);
    if (result > 0)
        memcpy(expected, text, (size_t)result);
    int64_t found = tracks_plan((const uint8_t *)plan, plan_len, memory, room);
    if (found == result && memcmp(memory, expected, sizeof memory) == 0) {
        passed++;
        return;
    }
    failed++;
    printf("%s: returned %lld, not %lld\n", name, (long long)found, (long long)result);
    if (found > 0 && found <= TEXT)
        printf("%.*s", (int)found, (const char *)memory);
}

/* A plan and its text, with all the memory that a text can need. */
static void answers(const char *name, const char *plan, const char *text) {
    expect(name, plan, strlen(plan), TEXT, (int64_t)strlen(text), text);
}

/* A single line that is malformed, without its end and with it. */
static void malformed(const char *line) {
    char ended[64];
    snprintf(ended, sizeof ended, "%s\n", line);
    if (line[0] != '\0')
        answers(line, line, "no 9\n");
    answers(line, ended, "no 9\n");
}

static void repeat(char *into, const char *part, int times) {
    size_t length = strlen(part);
    for (int k = 0; k < times; k++)
        memcpy(into + (size_t)k * length, part, length);
    into[(size_t)times * length] = '\0';
}

static const char four[] = "B\nB\nB\nB\nC 0 1\nC 0 2\nC 0 3\nC 1 2\nC 1 3\nC 2 3\nR\n";
static const char four_text[] = "batch 0\nbatch 1\nbatch 2\nbatch 3\nok\nok\nok\nok\nok\nok\nfew 1\n";

static void whole_plans(void) {
    answers("four vertices", four, four_text);
    expect("no last line's end", four, sizeof four - 2, TEXT, sizeof four_text - 1, four_text);
    answers("no line", "", "");
    answers("a new solver", "R", "open 1\n");
    answers("three vertices", "B\nB\nB\nC 0 1\nC 0 2\nC 1 2\nR\n", "batch 0\nbatch 1\nbatch 2\nok\nok\nok\nopen 1\n");
    answers("an edge removed", "B\nB\nC 0 1\nW 1 0\nC 0 1\n", "batch 0\nbatch 1\nok\nok\nok\n");
}

static void refusals(void) {
    static char plan[LONGEST_PLAN + 1], text[TEXT + 1];
    answers("out of range", "C 24 1\nW 1 24\nC 999 1\n", "no 1\nno 1\nno 1\n");
    answers("one vertex twice", "B\nB\nC 1 1\n", "batch 0\nbatch 1\nno 2\n");
    answers("not open", "C 0 1\n", "no 12\n");
    answers("joined already", "B\nB\nC 0 1\nC 1 0\n", "batch 0\nbatch 1\nok\nno 13\n");
    answers("not joined", "B\nB\nW 0 1\n", "batch 0\nbatch 1\nno 14\n");
    strcpy(plan, four);
    strcat(plan, "R\n");
    strcpy(text, four_text);
    strcat(text, "no 15\n");
    answers("infeasible already", plan, text);
    repeat(plan, "B\n", 25);
    text[0] = '\0';
    for (int k = 0; k < 24; k++)
        sprintf(text + strlen(text), "batch %d\n", k);
    strcat(text, "no 11\n");
    answers("no vertex left", plan, text);
    repeat(plan, "B\n", 24);
    strcat(plan, "R\n");
    text[strlen(text) - strlen("no 11\n")] = '\0';
    strcat(text, "no 3\n");
    answers("the table too small", plan, text);
    repeat(plan, "R\n", 49);
    text[0] = '\0';
    for (int k = 1; k <= 48; k++)
        sprintf(text + strlen(text), "open %d\n", k);
    strcat(text, "no 16\n");
    answers("the last degree", plan, text);
}

static void numbers(void) {
    static char plan[LONGEST_PLAN + 1], text[TEXT + 1];
    answers("zeros in front, not open", "C 010 2\n", "no 12\n");
    repeat(plan, "B\n", 11);
    strcat(plan, "C 010 2\nC 10 002\nW 2 010\n");
    text[0] = '\0';
    for (int k = 0; k < 11; k++)
        sprintf(text + strlen(text), "batch %d\n", k);
    strcat(text, "ok\nno 13\nok\n");
    answers("zeros in front", plan, text);
}

static void malformed_lines(void) {
    static const char *const lines[] = {
        "", " ", "b", "B ", " B", "BB", "B 1", "R ", "RR", "C", "C ", "C 1", "C 1 ", "C  1", "C 1  2", "C  1 2", " C 1 2",
        "C 1 2 ", "C 1 2 3", "C 1000 2", "C 1 0002", "C a 2", "C 1 2a", "C -1 2", "C +1 2", "C 1,2", "C1 2", "W", "W 1", "W 1 2 ",
        "X 1 2", "c 1 2", "B\r", "C\t1 2", "C 1\t2", "C / 1", "C 1 :",
    };
    for (size_t k = 0; k < sizeof lines / sizeof lines[0]; k++)
        malformed(lines[k]);
    answers("an empty line between", "B\n\nB\n", "batch 0\nno 9\nbatch 1\n");
    expect("a zero byte", "B\0\nB", 4, TEXT, 13, "no 9\nbatch 0\n");
}

static void memory_for_the_text(void) {
    static char plan[LONGEST_PLAN + 2], text[TEXT + 1];
    expect("no line, too little", "", 0, 8, -4, NULL);
    expect("no line, enough", "", 0, 9, 0, NULL);
    expect("two lines, too little", "B\nB\n", 4, 17, -4, NULL);
    expect("two lines, enough", "B\nB\n", 4, 18, 16, "batch 0\nbatch 1\n");
    expect("the last without its end, too little", "B\nB", 3, 17, -4, NULL);
    expect("none at all", "B\n", 2, 0, -4, NULL);
    repeat(plan, "\n", LONGEST_PLAN);
    repeat(text, "no 9\n", LONGEST_PLAN);
    expect("the most lines", plan, LONGEST_PLAN, TEXT, 5 * LONGEST_PLAN, text);
    expect("the most lines, too little", plan, LONGEST_PLAN, TEXT - 1, -4, NULL);
    repeat(plan, "\n", LONGEST_PLAN + 1);
    expect("too long", plan, LONGEST_PLAN + 1, 9, 6, "no 10\n");
    expect("too long, too little", plan, LONGEST_PLAN + 1, 8, -4, NULL);
}

int main(void) {
    whole_plans();
    refusals();
    numbers();
    malformed_lines();
    memory_for_the_text();
    printf("%d passed, %d failed\n", passed, failed);
    return failed > 0;
}
