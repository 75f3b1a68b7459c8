/* The soak of day 143: months of mixed block lengths through one lent memory.
 *
 *    day143 SEED BLOCKS [report]
 *
 * On that day a decoder that fetched memory for every block was refused it, since blocks of all lengths had broken up
 * the heap. Here every length and rate goes through one static work memory and one output, in drawn order: each block is
 * encoded, disturbed, decoded in drawn grants with reads in between, and read. Each EVERY-th block is decoded once more by
 * the one call, in a second memory, and must give the same word, answer and numbers.
 *
 * Memory is printed at the start and at each tenth. The soak fails where any comparison does, where resident memory has
 * grown after the first tenth, or where anything was taken from the heap at all: this program takes nothing from it
 * either, as files are read by `read` and stdout has a static buffer. With `report` memory is only printed, for runs
 * under a tool that has memory of its own in this process. */
#define _DEFAULT_SOURCE
#include <fcntl.h>
#include <malloc.h>
#include <math.h>
#include <stdio.h>
#include <stdlib.h>
#include <string.h>
#include <unistd.h>

#include "fuyegbo.h"

enum {
    LONGEST = 19440,
    MOST_WORK = 150336, /* what the longest block at rate 0 needs; no code needs more */
    EVERY = 2,          /* compared with the one call */
    MOST_SUM = 40       /* iterations granted to a block */
};

enum { ITERATIONS, CONVERGED, CLEAN };                            /* places in a read's answer */

/* The one memory. A number more than is lent, as a guard. */
static float work[MOST_WORK + 1];
static uint8_t word[LONGEST + 1];

static uint8_t info[LONGEST];
static uint8_t sent[LONGEST];
static float heard[LONGEST];

/* The second memory, for the one call. */
static float other_work[MOST_WORK];
static uint8_t other_word[LONGEST];

static const float GUARD = 7.5f;
static const uint8_t GUARD_BIT = 0xA5;

/* The block under way, for the message where something fails. */
static size_t block, rate, n_tx;
static size_t answer[FUYEGBO_ANSWER];

static struct {
    size_t refused, grants, reads, iterations, converged, clean, right, noiseless, compared, longest;
    uint64_t sum;
} counts;

static void must(int holds, const char *what) {
    if (!holds) {
        printf("FAILED at block %zu (rate %zu, n_tx %zu): %s; answer %zu %zu %zu\n", block, rate, n_tx, what, answer[0],
               answer[1], answer[2]);
        exit(1);
    }
}

/* The generator: splitmix64. */
static uint64_t state;

static uint64_t draw(void) {
    state += 0x9E3779B97F4A7C15u;
    uint64_t x = state;
    x = (x ^ (x >> 30)) * 0xBF58476D1CE4E5B9u;
    x = (x ^ (x >> 27)) * 0x94D049BB133111EBu;
    return x ^ (x >> 31);
}

static size_t below(size_t n) {
    return (size_t)(draw() % n);
}

static size_t between(size_t low, size_t high) {
    return low + below(high - low + 1);
}

/* Short blocks more often, and now and then the longest. Lengths that no family serves are among them. */
static size_t drawn_length(void) {
    size_t kind = below(1000);
    if (kind < 400) {
        return between(1, 80);
    }
    if (kind < 700) {
        return between(81, 600);
    }
    if (kind < 900) {
        return between(601, 2000);
    }
    if (kind < 980) {
        return between(2001, 6000);
    }
    if (kind < 996) {
        return between(6001, LONGEST);
    }
    return LONGEST;
}

/* A deviation of about 1: the sum of the four even numbers of a draw. */
static float noise(void) {
    uint64_t x = draw();
    int32_t sum =
        (int32_t)(x & 0xFFFF) + (int32_t)(x >> 16 & 0xFFFF) + (int32_t)(x >> 32 & 0xFFFF) + (int32_t)(x >> 48);
    return (float)(sum - 131070) / 37837.0f;
}

/* Readings of what was sent, of this size, disturbed so much; 0 is none. */
static void hear(float size, float much) {
    for (size_t i = 0; i < n_tx; i++) {
        heard[i] = size * ((sent[i] ? -1.0f : 1.0f) + (much > 0.0f ? much * noise() : 0.0f));
    }
}

/* One reading in twenty is no ordinary number. */
static void hear_oddly(void) {
    static const float odd[] = {0.0f, -0.0f, NAN, INFINITY, -INFINITY, 1e-45f, -1e-45f, 3e38f, -3e38f};
    for (size_t i = below(20); i < n_tx; i += 1 + below(39)) {
        heard[i] = odd[below(sizeof odd / sizeof odd[0])];
    }
}

/* The same number by its bits; NaNs are one. */
static int same_numbers(const float *a, const float *b, size_t n) {
    if (memcmp(a, b, n * sizeof *a) == 0) {
        return 1;
    }
    for (size_t i = 0; i < n; i++) {
        if (memcmp(a + i, b + i, sizeof *a) != 0 && !(isnan(a[i]) && isnan(b[i]))) {
            return 0;
        }
    }
    return 1;
}

static void read_word(const size_t *decode) {
    size_t number = fuyegbo_read(decode, FUYEGBO_DECODE, work, MOST_WORK, word, n_tx, answer, FUYEGBO_ANSWER);
    must(number == 0, "read refused");
    must(answer[ITERATIONS] == decode[FUYEGBO_ITERATIONS] && answer[CONVERGED] == decode[FUYEGBO_CONVERGED],
         "a read tells something else than the record");
    counts.reads++;
}

/* Grants of 0 to 6 until the block converges or `limit` is spent, and sometimes one more. Returns their sum. */
static size_t grant_all(size_t *decode, size_t limit) {
    size_t sum = 0;
    int more = 1;
    while (more) {
        size_t g = below(7);
        if (limit - sum < g) {
            g = limit - sum;
        }
        must(fuyegbo_grant(decode, FUYEGBO_DECODE, (uint16_t)g, work, MOST_WORK, answer, FUYEGBO_ANSWER) == 0,
             "grant refused");
        counts.grants++;
        sum += g;
        if (below(4) == 0) {
            read_word(decode);
        }
        more = sum < limit && (decode[FUYEGBO_CONVERGED] == 0 || below(3) == 0);
    }
    return sum;
}

/* The same block by the one call, which must tell and leave the same. `answer` is that of the last read. */
static void compare(size_t sum, size_t needed) {
    size_t told[FUYEGBO_ANSWER];
    memcpy(told, answer, sizeof told);
    size_t number = fuyegbo_decode(rate, n_tx, heard, n_tx, (uint16_t)sum, other_work, MOST_WORK, other_word, n_tx,
                                   answer, FUYEGBO_ANSWER);
    must(number == 0, "the one call refused");
    must(memcmp(told, answer, sizeof told) == 0, "another answer than the one call's");
    must(memcmp(word, other_word, n_tx) == 0, "another word than the one call's");
    must(same_numbers(work, other_work, needed), "other numbers than the one call's");
    counts.compared++;
}

/* A code of drawn rate and length; those that are refused are counted and drawn again. */
static void drawn_code(size_t *code) {
    for (;;) {
        rate = below(6);
        n_tx = drawn_length();
        size_t number = fuyegbo_code(rate, n_tx, code, FUYEGBO_CODE, answer, FUYEGBO_ANSWER);
        if (number == 0) {
            return;
        }
        must(number == 1 && answer[0] == 1 && answer[1] == n_tx && n_tx < 22, "a code refused");
        counts.refused++;
    }
}

static void one_block(void) {
    size_t code[FUYEGBO_CODE];
    size_t decode[FUYEGBO_DECODE];
    drawn_code(code);
    size_t k = code[FUYEGBO_K];
    must(fuyegbo_work_needed(code, FUYEGBO_CODE, answer, FUYEGBO_ANSWER) == 0, "work_needed refused");
    size_t needed = answer[0];
    must(needed <= MOST_WORK, "more work memory needed than there is");

    for (size_t i = 0; i < k; i++) {
        info[i] = (uint8_t)(draw() >> 63);
    }
    must(fuyegbo_encode(code, FUYEGBO_CODE, info, k, sent, n_tx, answer, FUYEGBO_ANSWER) == 0, "encode refused");

    /* From none to heavy: one block in eight has none, one in sixteen odd readings besides. One in eight is so loud that it
     * outweighs what the decoder holds for certain: of these some converge and are not clean. */
    size_t level = below(8) == 0 ? 0 : between(1, 30);
    int odd = below(16) == 0;
    hear(below(8) == 0 ? 1e8f : 1.0f, 0.04f * (float)level);
    if (odd) {
        hear_oddly();
    }

    float past = work[needed];
    word[n_tx] = GUARD_BIT;
    size_t number =
        fuyegbo_start(code, FUYEGBO_CODE, heard, n_tx, work, MOST_WORK, decode, FUYEGBO_DECODE, answer, FUYEGBO_ANSWER);
    must(number == 0, "start refused");
    size_t sum = grant_all(decode, between(1, MOST_SUM));
    read_word(decode);
    size_t iterations = answer[ITERATIONS], converged = answer[CONVERGED], clean = answer[CLEAN];
    must(memcmp(&past, &work[needed], sizeof past) == 0, "work memory past what is needed was touched");
    must(word[n_tx] == GUARD_BIT, "the output was overrun");

    int right = memcmp(word, sent, n_tx) == 0;
    if (level == 0 && !odd) {
        must(right && iterations == 1 && clean, "a codeword with no noise did not come back at once");
        counts.noiseless++;
    }
    if (block % EVERY == 0) {
        compare(sum, needed);
    }
    must(fuyegbo_unsatisfied(code, FUYEGBO_CODE, word, n_tx, answer, FUYEGBO_ANSWER) == 0, "unsatisfied refused");
    must(clean == (converged && answer[0] == 0), "clean is not converged with no check failed");
    counts.iterations += iterations;
    counts.converged += converged;
    counts.clean += clean;
    counts.right += (size_t)right;
    counts.longest += n_tx == LONGEST;
    for (size_t i = 0; i < n_tx; i++) {
        counts.sum = counts.sum * 31 + word[i];
    }
}

/* The process's memory: resident now and at most, in kB; the heap in use; the break. */
struct memory {
    long rss, hwm;
    size_t heap;
    char *brk;
};

static long status_line(const char *text, const char *name) {
    const char *line = strstr(text, name);
    return line == NULL ? -1 : strtol(line + strlen(name), NULL, 10);
}

static struct memory memory_now(void) {
    static char text[8192];
    struct memory m = {-1, -1, 0, sbrk(0)};
    int file = open("/proc/self/status", O_RDONLY);
    if (file >= 0) {
        ssize_t n = read(file, text, sizeof text - 1);
        text[n > 0 ? n : 0] = '\0';
        close(file);
        m.rss = status_line(text, "VmRSS:");
        m.hwm = status_line(text, "VmHWM:");
    }
    struct mallinfo2 heap = mallinfo2();
    m.heap = heap.uordblks + heap.hblkhd;
    return m;
}

static void print_memory(const char *when, size_t number, struct memory m, char *first_brk) {
    printf("%s %2zu: %8zu blocks, VmRSS %ld kB, VmHWM %ld kB, heap in use %zu bytes, break moved by %td bytes\n", when,
           number, block, m.rss, m.hwm, m.heap, m.brk - first_brk);
}

/* Resident memory is held to the first tenth, by which all code has run once; the heap to the start. */
static void judge(struct memory start, struct memory first, struct memory now) {
    must(now.rss > 0 && now.hwm > 0, "resident memory is not told");
    must(now.rss <= first.rss && now.hwm <= first.hwm, "resident memory has grown after the first tenth");
    must(now.heap == start.heap && now.brk == start.brk, "the heap was used");
}

static size_t number_of(const char *text) {
    char *end;
    unsigned long long n = strtoull(text, &end, 10);
    if (end == text || *end != '\0') {
        fprintf(stderr, "day143: %s is no number\n", text);
        exit(2);
    }
    return (size_t)n;
}

/* Every page is touched before the first measurement, so that only growth can show later. */
static void touch_all(void) {
    for (size_t i = 0; i <= MOST_WORK; i++) {
        work[i] = GUARD;
    }
    for (size_t i = 0; i < MOST_WORK; i++) {
        other_work[i] = GUARD;
    }
    for (size_t i = 0; i < LONGEST; i++) {
        heard[i] = GUARD;
    }
    memset(word, GUARD_BIT, sizeof word);
    memset(info, GUARD_BIT, sizeof info);
    memset(sent, GUARD_BIT, sizeof sent);
    memset(other_word, GUARD_BIT, sizeof other_word);
}

int main(int argc, char **argv) {
    static char line[4096];
    setvbuf(stdout, line, _IOLBF, sizeof line);
    int report = argc == 4 && strcmp(argv[3], "report") == 0;
    if (argc != 3 && !report) {
        fprintf(stderr, "usage: day143 SEED BLOCKS [report]\n");
        return 2;
    }
    state = number_of(argv[1]);
    size_t blocks = number_of(argv[2]);
    if (blocks < 10) {
        fprintf(stderr, "day143: at least 10 blocks\n");
        return 2;
    }
    touch_all();
    struct memory start = memory_now();
    struct memory first = start;
    print_memory("start", 0, start, start.brk);
    for (size_t tenth = 1; tenth <= 10; tenth++) {
        for (; block < blocks / 10 * tenth + (tenth == 10 ? blocks % 10 : 0); block++) {
            one_block();
        }
        struct memory now = memory_now();
        print_memory("tenth", tenth, now, start.brk);
        if (tenth == 1) {
            first = now;
        }
        if (!report) {
            judge(start, first, now);
        }
    }
    printf("blocks %zu, of %d bits %zu; lengths refused %zu; grants %zu, reads %zu, iterations %zu\n", blocks, LONGEST,
           counts.longest, counts.refused, counts.grants, counts.reads, counts.iterations);
    printf("converged %zu, clean %zu, as sent %zu; without noise %zu, all clean; compared with the one call %zu, all "
           "equal\n",
           counts.converged, counts.clean, counts.right, counts.noiseless, counts.compared);
    printf("sum of the words %016llx\n", (unsigned long long)counts.sum);
    return 0;
}
