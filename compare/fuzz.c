/* Fuzzes tracks_plan: fuzz SECONDS SEED. Plans are well formed, damaged, noise, numbers of all sorts, and around the
   longest length; text memories are enough, one short, or any. Each call gets memory of exactly the length it is told.
   Whatever the plan, the result must be a length within the memory, or -4 just where the memory is too short; no byte
   past the text may change, nor any byte of the plan; and each line must have an answer that its call can have.
   The exit status is 1 where something else was found. */
#include <stddef.h>
#include <stdint.h>
#include <stdio.h>
#include <stdlib.h>
#include <string.h>
#include <sys/mman.h>
#include <time.h>
#include <unistd.h>
#ifdef __SANITIZE_ADDRESS__
#include <sanitizer/asan_interface.h>
#endif

int64_t tracks_plan(const uint8_t *plan, size_t plan_len, uint8_t *text, size_t text_len);

enum { LONGEST_PLAN = 4096, LONGEST_LINE = 9, MOST_PLAN = 3 * LONGEST_PLAN, MOST_TEXT = LONGEST_LINE * LONGEST_PLAN + 100 };
enum { MOST_VERTICES = 24, LAST_DEGREE = 48, FILL = 0xA5 };

static uint64_t state;

/* splitmix64 */
static uint64_t next(void) {
    uint64_t z = state += 0x9E3779B97F4A7C15u;
    z = (z ^ (z >> 30)) * 0xBF58476D1CE4E5B9u;
    z = (z ^ (z >> 27)) * 0x94D049BB133111EBu;
    return z ^ (z >> 31);
}

static size_t below(size_t bound) {
    return bound == 0 ? 0 : (size_t)(next() % bound);
}

static size_t least(size_t a, size_t b) {
    return a < b ? a : b;
}

/* The plan of this call, and how many calls there were. */
static uint8_t plan[MOST_PLAN];
static size_t plan_len;
static unsigned long calls, too_short, too_long, lines_answered;

static void put(const char *part) {
    size_t length = strlen(part);
    if (plan_len + length > MOST_PLAN)
        return;
    memcpy(plan + plan_len, part, length);
    plan_len += length;
}

/* A number as a plan may have it, mostly a vertex. */
static void put_number(size_t vertices) {
    static const char *const form[] = {" %zu", " %zu", " %zu", " %zu", " %02zu", " %03zu"};
    char number[24];
    snprintf(number, sizeof number, form[below(6)], below(30) == 0 ? below(1000) : below(vertices + (below(20) == 0)));
    put(number);
}

/* Well-formed lines. Raises are few, and only on small graphs, as a raise takes longer than any other line. */
static void put_lines(size_t lines) {
    size_t vertices = 1 + below(below(4) == 0 ? MOST_VERTICES + 1 : 6), raises = 12;
    for (size_t k = 0; k < vertices; k++)
        put("B\n");
    for (size_t k = 0; k < lines; k++) {
        size_t call = below(20);
        if (call < 12) {
            put(call < 9 ? "C" : "W");
            put_number(vertices);
            put_number(vertices);
            put("\n");
        } else if (call < 18 && raises > 0) {
            put("R\n");
            raises--;
        } else if (call == 18) {
            put("B\n");
        }
    }
}

/* Four vertices all joined, which a raise finds infeasible. */
static void put_four(void) {
    put("B\nB\nB\nB\nC 0 1\nC 0 2\nC 0 3\nC 1 2\nC 1 3\nC 2 3\nR\n");
    put_lines(below(8));
}

static void damage(void) {
    static const char bytes[] = "BCWRTK 0123456789\n\r\t";
    for (size_t times = 1 + below(8); times > 0 && plan_len > 0; times--) {
        size_t place = below(plan_len);
        uint8_t byte = below(3) == 0 ? (uint8_t)next() : (uint8_t)bytes[below(sizeof bytes)];
        switch (below(4)) {
        case 0:
            memmove(plan + place, plan + place + 1, plan_len - place - 1);
            plan_len--;
            break;
        case 1:
            if (plan_len < MOST_PLAN) {
                memmove(plan + place + 1, plan + place, plan_len - place);
                plan[place] = byte;
                plan_len++;
            }
            break;
        case 2:
            if (below(10) == 0)
                plan_len = place;
            break;
        default:
            plan[place] = byte;
        }
    }
}

static void put_noise(size_t length, const char *alphabet) {
    size_t letters = strlen(alphabet);
    for (length = least(length, MOST_PLAN); plan_len < length; plan_len++)
        plan[plan_len] = letters > 0 ? (uint8_t)alphabet[below(letters)] : (uint8_t)next();
}

/* Calls with digits of all lengths. */
static void put_digits(size_t lines) {
    for (size_t k = 0; k < lines; k++) {
        put(below(2) ? "C" : "W");
        for (size_t numbers = below(4); numbers > 0; numbers--) {
            put(below(15) ? " " : "  ");
            for (size_t digits = below(6); digits > 0; digits--)
                put((const char[]){(char)('0' + below(below(2) ? 3 : 10)), '\0'});
        }
        put("\n");
    }
}

/* Short lines up to a length around the longest. */
static void put_long(void) {
    static const char *const line[] = {"\n", "B\n", "C 0 1\n", "W 1 0\nC 0 1\n", "C 23 22\n", "W 0 0\n", "X\n", "C 999 999\n"};
    size_t length = below(8) == 0 ? below(MOST_PLAN) : LONGEST_PLAN - 6 + below(12);
    const char *repeated = line[below(8)];
    put("B\nB\nR\n");
    while (plan_len < length)
        put(below(50) ? repeated : line[below(8)]);
    plan_len = least(plan_len, length);
}

static void make_plan(void) {
    plan_len = 0;
    switch (below(10)) {
    case 0:
        put_noise(below(300), "");
        break;
    case 1:
        put_noise(below(600), below(2) ? "BCW 0123456789\n" : "BCRW 01\n");
        break;
    case 2:
        put_digits(below(60));
        break;
    case 3:
        put_long();
        break;
    case 4:
        put_four();
        break;
    default:
        put_lines(below(60));
    }
    if (below(2))
        damage();
    if (below(5) == 0 && plan_len > 0 && plan[plan_len - 1] == '\n')
        plan_len--;
}

/* Memory of exactly that length. The sanitizer knows the ends of heap memory, but sees only what is compiled with it;
   so there are also pages between two that nothing may touch, with the memory against the one or the other. */
struct memory {
    uint8_t *bytes, *from_heap;
};

struct pages {
    uint8_t *start, *end;
};

static struct pages reserve(size_t length) {
    size_t page = (size_t)sysconf(_SC_PAGESIZE), inside = (length + page - 1) / page * page;
    uint8_t *start = mmap(NULL, inside + 2 * page, PROT_NONE, MAP_PRIVATE | MAP_ANONYMOUS, -1, 0);
    if (start == MAP_FAILED || mprotect(start + page, inside, PROT_READ | PROT_WRITE) != 0) {
        perror("pages");
        exit(2);
    }
    return (struct pages){start + page, start + page + inside};
}

static struct memory borrow(struct pages pages, size_t length) {
    switch (below(3)) {
    case 0:
        return (struct memory){pages.start, NULL};
    case 1:
        return (struct memory){pages.end - length, NULL};
    default: {
        uint8_t *bytes = malloc(length);
        if (bytes == NULL && length > 0)
            exit(2);
        return (struct memory){bytes, bytes};
    }
    }
}

static size_t count_lines(const uint8_t *text, size_t length) {
    size_t lines = 0;
    for (size_t k = 0; k < length; k++)
        lines += text[k] == '\n';
    return lines + (length > 0 && text[length - 1] != '\n');
}

/* A space and one to three digits at *place; moves past them. */
static int number_at(const uint8_t *line, size_t length, size_t *place) {
    size_t digits = 0;
    if (*place >= length || line[*place] != ' ')
        return 0;
    for (++*place; *place < length && line[*place] >= '0' && line[*place] <= '9'; ++*place)
        digits++;
    return digits >= 1 && digits <= 3;
}

/* The call that a line of a plan asks for, or 0 where it is malformed. */
static char call_of(const uint8_t *line, size_t length) {
    size_t place = 1;
    if (length == 0)
        return 0;
    switch (line[0]) {
    case 'B':
    case 'R':
        return length == 1 ? (char)line[0] : 0;
    case 'C':
    case 'W':
        return number_at(line, length, &place) && number_at(line, length, &place) && place == length ? (char)line[0] : 0;
    default:
        return 0;
    }
}

/* Whether the answer is `name N` with N from `from` to `to`. */
static int numbered(const char *answer, const char *name, int from, int to) {
    char expected[24];
    for (int number = from; number <= to; number++) {
        snprintf(expected, sizeof expected, "%s %d", name, number);
        if (strcmp(answer, expected) == 0)
            return 1;
    }
    return 0;
}

static int refused(const char *answer, const int *numbers, size_t count) {
    for (size_t k = 0; k < count; k++)
        if (numbered(answer, "no", numbers[k], numbers[k]))
            return 1;
    return 0;
}

#define REFUSED(answer, ...) \
    refused(answer, (const int[]){__VA_ARGS__}, sizeof((const int[]){__VA_ARGS__}) / sizeof(int))

/* Whether a call can have the answer. *vertices is the number of vertices opened before it. */
static int can_have(char call, const char *answer, int *vertices) {
    switch (call) {
    case 'B':
        if (*vertices == MOST_VERTICES)
            return REFUSED(answer, 11);
        ++*vertices;
        return numbered(answer, "batch", *vertices - 1, *vertices - 1);
    case 'C':
        return strcmp(answer, "ok") == 0 || REFUSED(answer, 1, 2, 12, 13);
    case 'W':
        return strcmp(answer, "ok") == 0 || REFUSED(answer, 1, 2, 12, 14);
    case 'R':
        return numbered(answer, "few", 1, LAST_DEGREE) || numbered(answer, "open", 1, LAST_DEGREE) ||
               REFUSED(answer, 3, 4, 15, 16, 17);
    default:
        return REFUSED(answer, 9);
    }
}

/* What is wrong with the text of a plan, line by line; NULL where nothing is. */
static const char *wrong_text(const uint8_t *text, size_t length) {
    int vertices = 0;
    size_t read = 0, written = 0;
    if (plan_len > LONGEST_PLAN)
        return length == 6 && memcmp(text, "no 10\n", 6) == 0 ? NULL : "another text for a plan that is too long";
    while (read < plan_len) {
        char answer[LONGEST_LINE + 1];
        size_t line_len = 0, answer_len = 0;
        while (read + line_len < plan_len && plan[read + line_len] != '\n')
            line_len++;
        while (written + answer_len < length && text[written + answer_len] != '\n')
            answer_len++;
        if (written + answer_len == length || answer_len >= LONGEST_LINE)
            return "a line of the text without its end, or too long";
        memcpy(answer, text + written, answer_len);
        answer[answer_len] = '\0';
        if (!can_have(call_of(plan + read, line_len), answer, &vertices))
            return "an answer that its line cannot have";
        read += line_len + 1;
        written += answer_len + 1;
        lines_answered++;
    }
    return written == length ? NULL : "more lines than the plan has";
}

static void print_escaped(const uint8_t *bytes, size_t length) {
    for (size_t k = 0; k < length; k++)
        if (bytes[k] == '\n' || (bytes[k] >= ' ' && bytes[k] < 0x7F && bytes[k] != '\\'))
            putchar(bytes[k]);
        else
            printf("\\x%02x", bytes[k]);
    printf("\n");
}

static void print_plan(void) {
    printf("call %lu, a plan of %zu bytes:\n", calls, plan_len);
    print_escaped(plan, plan_len);
    fflush(stdout);
}

/* One call on the plan. */
static const char *call(struct pages plan_pages, struct pages text_pages) {
    size_t lines = plan_len > LONGEST_PLAN ? 1 : count_lines(plan, plan_len);
    size_t enough = LONGEST_LINE * (lines > 0 ? lines : 1), text_len = enough;
    const char *wrong = NULL;
    switch (below(8)) {
    case 0:
        text_len = enough - 1;
        break;
    case 1:
        text_len = below(enough);
        break;
    case 2:
        text_len = below(2 * LONGEST_LINE);
        break;
    case 3:
        text_len = enough + below(100);
        break;
    }
    struct memory read = borrow(plan_pages, plan_len), text = borrow(text_pages, text_len);
    if (plan_len > 0)
        memcpy(read.bytes, plan, plan_len);
    if (text_len > 0)
        memset(text.bytes, FILL, text_len);
    int64_t result = tracks_plan(read.bytes, plan_len, text.bytes, text_len);
    size_t written = result > 0 ? (size_t)result : 0;
    if (plan_len > 0 && memcmp(read.bytes, plan, plan_len) != 0)
        wrong = "the plan was changed";
    else if ((result == -4) != (text_len < enough))
        wrong = text_len < enough ? "not -4 with too little memory" : "-4 with enough memory";
    else if (result != -4 && (result < 0 || written > text_len))
        wrong = "a result that is no length within the memory";
    for (size_t k = written; k < text_len && wrong == NULL; k++)
        if (text.bytes[k] != FILL)
            wrong = "a byte past the text was changed";
    if (wrong == NULL && result != -4)
        wrong = wrong_text(text.bytes, written);
    if (wrong != NULL) {
        printf("returned %lld with a text memory of %zu bytes:\n", (long long)result, text_len);
        print_escaped(text.bytes, least(written, text_len));
    }
    too_short += result == -4;
    too_long += result != -4 && plan_len > LONGEST_PLAN;
    free(read.from_heap);
    free(text.from_heap);
    return wrong;
}

static double now(void) {
    struct timespec time;
    clock_gettime(CLOCK_MONOTONIC, &time);
    return (double)time.tv_sec + (double)time.tv_nsec / 1e9;
}

int main(int argc, char **argv) {
    double seconds = argc > 1 ? strtod(argv[1], NULL) : 30, start = now();
    uint64_t seed = argc > 2 ? strtoull(argv[2], NULL, 10) : 1;
    struct pages plan_pages = reserve(MOST_PLAN), text_pages = reserve(MOST_TEXT);
#ifdef __SANITIZE_ADDRESS__
    __asan_set_death_callback(print_plan);
#endif
    printf("fuzzing with seed %llu\n", (unsigned long long)seed);
    fflush(stdout);
    for (state = seed; now() - start < seconds; calls++) {
        make_plan();
        const char *wrong = call(plan_pages, text_pages);
        if (wrong != NULL) {
            printf("%s\n", wrong);
            print_plan();
            return 1;
        }
    }
    printf("%lu calls, %lu lines answered, %lu plans too long, %lu text memories too short, nothing wrong\n", calls,
           lines_answered, too_long, too_short);
    return 0;
}
