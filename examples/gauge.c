/* A block's way from the gauge to the surface: encode, disturb, decode between motor scans, read.
 *
 *    ./archive && cc -std=c99 -Wall -Wextra -Iinclude examples/gauge.c target/staticlib/libfuyegbo.a -o target/gauge && target/gauge
 *
 * All memory is static and of fixed size; nothing is allocated here or in the library. */
#include <stdio.h>
#include <stdlib.h>

#include "fuyegbo.h"

enum {
    RATE = 2,    /* nominally 0.65 */
    N_TX = 1000, /* bits on the cable */
    WORK = 7480, /* what fuyegbo_work_needed answers for this code; more would do */
    GRANT = 2,   /* iterations that one gap between scans has time for */
    SCANS = 25   /* scans that a block may take */
};

static uint8_t info[N_TX]; /* the first k places are used */
static uint8_t sent[N_TX];
static float heard[N_TX];
static float work[WORK];
static uint8_t word[N_TX];

static size_t code[FUYEGBO_CODE];
static size_t decode[FUYEGBO_DECODE];
static size_t answer[FUYEGBO_ANSWER];

/* Ends the example where a call was refused. A drive would report the number and the pair, and go on with the next block:
 * the refused call has changed nothing. */
static void must(size_t number, const char *call) {
    if (number != 0) {
        fprintf(stderr, "%s: refusal %zu (%zu, %zu)\n", call, number, answer[0], answer[1]);
        exit(1);
    }
}

/* A small generator, so that every run shows the same block: 16 bits a draw. */
static uint32_t state = 143;

static uint32_t draw(void) {
    state = state * 1664525u + 1013904223u;
    return state >> 16;
}

/* Cable noise of about 0.7 of the signal: the sum of four even draws. */
static float noise(void) {
    float sum = 0.0f;
    for (int i = 0; i < 4; i++) {
        sum += (float)draw() / 32768.0f - 1.0f;
    }
    return 0.62f * sum;
}

static size_t wrong_bits(const uint8_t *bits) {
    size_t wrong = 0;
    for (size_t i = 0; i < N_TX; i++) {
        wrong += bits[i] != sent[i];
    }
    return wrong;
}

int main(void) {
    /* The code, and whether its work memory fits into what we have. */
    must(fuyegbo_code(RATE, N_TX, code, FUYEGBO_CODE, answer, FUYEGBO_ANSWER), "code");
    size_t k = code[FUYEGBO_K];
    must(fuyegbo_work_needed(code, FUYEGBO_CODE, answer, FUYEGBO_ANSWER), "work_needed");
    printf("code: %zu information bits in %d, work memory %zu of %d floats\n", k, N_TX, answer[0], WORK);

    /* At the gauge: k bits become N_TX. */
    for (size_t i = 0; i < k; i++) {
        info[i] = (uint8_t)(draw() & 1);
    }
    must(fuyegbo_encode(code, FUYEGBO_CODE, info, k, sent, N_TX, answer, FUYEGBO_ANSWER), "encode");

    /* On the cable: 0 is sent as +1 and 1 as -1. */
    for (size_t i = 0; i < N_TX; i++) {
        heard[i] = (sent[i] ? -1.0f : 1.0f) + noise();
    }

    /* At the surface: start, then a grant in each gap. A read may come at any time and changes nothing. */
    must(fuyegbo_start(code, FUYEGBO_CODE, heard, N_TX, work, WORK, decode, FUYEGBO_DECODE, answer, FUYEGBO_ANSWER),
         "start");
    must(fuyegbo_read(decode, FUYEGBO_DECODE, work, WORK, word, N_TX, answer, FUYEGBO_ANSWER), "read");
    size_t before = wrong_bits(word);
    printf("as heard: %zu of %d bits wrong\n", before, N_TX);

    for (int scan = 1; scan <= SCANS && decode[FUYEGBO_CONVERGED] == 0; scan++) {
        must(fuyegbo_grant(decode, FUYEGBO_DECODE, GRANT, work, WORK, answer, FUYEGBO_ANSWER), "grant");
        must(fuyegbo_read(decode, FUYEGBO_DECODE, work, WORK, word, N_TX, answer, FUYEGBO_ANSWER), "read");
        size_t iterations = answer[0];
        must(fuyegbo_unsatisfied(code, FUYEGBO_CODE, word, N_TX, answer, FUYEGBO_ANSWER), "unsatisfied");
        printf("grant %d: %zu iterations, %zu checks failed, %zu bits wrong\n", scan, iterations, answer[0],
               wrong_bits(word));
    }

    /* Only a clean word is a codeword: converged alone does not say so. */
    must(fuyegbo_read(decode, FUYEGBO_DECODE, work, WORK, word, N_TX, answer, FUYEGBO_ANSWER), "read");
    size_t after = wrong_bits(word);
    printf("bits wrong: %zu before, %zu after; %s, %s\n", before, after, answer[1] ? "converged" : "not converged",
           answer[2] ? "clean" : "not clean");
    return answer[2] == 1 && after == 0 ? EXIT_SUCCESS : EXIT_FAILURE;
}
