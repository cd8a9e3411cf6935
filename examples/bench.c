/* One second of sound from one hit of every voice: the peak of each receive word, one step's words as the firmware copies them,
   what each voice adds to the mix in that step, or why it adds nothing, with three faults made, and the time it took. */
#include <stdio.h>
#include <stdlib.h>
#include <string.h>
#include <time.h>

#include "rytm.h"

enum { STEPS = 48000, COMMANDS = 64, BURST = 20, COPIED = 480 };

static uint8_t frame[664];
static uint8_t fx[24];
static int32_t dac[16];

static void word(int o, uint16_t w) {
    frame[o] = (uint8_t)(w >> 8);
    frame[o + 1] = (uint8_t)w;
}

static void on(int sw) { frame[160 + sw / 8] |= (uint8_t)(1 << sw % 8); }

/* An envelope record: first word, start, target, mode, exponent of the rate. */
static void record(int o, uint16_t first, int start, int target, int mode, int exponent) {
    word(o, first);
    frame[o + 2] = (uint8_t)start;
    frame[o + 3] = (uint8_t)target;
    frame[o + 4] = (uint8_t)(mode << 4);
    frame[o + 5] = (uint8_t)exponent;
    word(o + 6, 0);
}

/* The frame of a hit while its commands last (two blocks), or after. */
static void hit(bool commands) {
    static const int trig[3] = {12, 0, 28}, ring[3] = {45, 33, 5};
    static const uint16_t metal[6] = {8955, 13278, 16122, 22800, 23555, 34896};
    static const int cymbal[4] = {2, 3, 4, 7}, starts[4] = {66, -93, 115, 127};
    uint16_t first = commands ? 0x4000 : 0;
    int mode = commands ? 0xF : 0;
    memset(frame, 0, sizeof frame);
    for (int i = 0; i < 3; i++) {
        int cv = 90 + 8 * i, env = 360 + 32 * i, tom = 118 + 4 * i;
        word(cv, (uint16_t)(678 * (i + 1)));
        word(cv + 2, (uint16_t)(1017 * (i + 1)));
        word(cv + 4, 32767);
        word(cv + 6, 8000);
        on(ring[i]);
        if (commands)
            on(trig[i]);
        record(env, first, 15, 0, mode, 13);
        record(env + 16, first, 127, -128, mode, 14);
        record(env + 24, first, 127, 0, mode, 14);
        word(tom, (uint16_t)(488 * (i + 1)));
        word(tom + 2, 0x3000);
    }
    for (int k = 0; k < 6; k++) {
        word(618 + 4 * k, metal[k]);
        word(642 + 4 * k, metal[k]);
    }
    record(488, 0x4000, 127, -128, mode, 14);
    word(140, 32767);
    for (int i = 0; i < 4; i++)
        record(496 + 8 * cymbal[i], 0x4000, starts[i], -128, mode, 14);
    word(158, 32767);
    for (int v = 0; v < 8; v++) {
        word(10 + 2 * v, 16384);
        word(26 + 2 * v, 16384);
        word(58 + 2 * v, 0x2000);
        word(74 + 2 * v, 0x2000);
        for (int side = 168; side <= 232; side += 64)
            record(side + 8 * v, first, 0, 127, commands ? 0xB : 3, 0);
    }
}

/* BD off the main bus, SD's right VCA word 0, MT's left amp let down. */
static void faults(void) {
    frame[166] |= 8;
    word(30, 0);
    record(208, 0, 0, -128, 0xB, 0);
}

static void tell(uint32_t voice, bool right, Why w) {
    printf("voice %u %-5s ", (unsigned)voice, right ? "right" : "left");
    switch (w.reason) {
    case RYTM_ROUTED_OFF: printf("routed off\n"); break;
    case RYTM_AMP_DOWN: printf("amp level %.6f\n", w.value); break;
    case RYTM_VCA_ZERO: printf("VCA word 0\n"); break;
    case RYTM_FILTERED_ZERO: printf("filtered sample zero, cutoff %.6f Hz\n", w.value); break;
    case RYTM_LOST_TO_ROUNDING: printf("lost to rounding\n"); break;
    case RYTM_HEARD: printf("heard, %.6f\n", w.value); break;
    default: printf("refused by %u\n", (unsigned)w.number);
    }
}

int main(void) {
    static const uint8_t compressor[8] = {80, 3, 3, 2, 0, 47, 64, 100};
    static const uint8_t slots[8] = {0, 2, 4, 1, 3, 5, 6, 7};
    int32_t peak[12] = {0}, copy[12] = {0};
    struct timespec from, to;
    for (int i = 0; i < 8; i++)
        fx[6 + 2 * i] = compressor[i];
    clock_gettime(CLOCK_MONOTONIC, &from);
    Analog board = rytm_fresh(RYTM_DEFAULT_SEED, false), asked = board;
    for (int n = 0; n < STEPS; n++) {
        if (n == 0 || n == COMMANDS)
            hit(n == 0);
        for (int i = 8; i < 11; i++)
            dac[i] = n < BURST ? 4000000 : 0;
        if (n == COPIED) { /* its board is let go; the first goes on by the step below */
            Received r = rytm_receive(board, frame, sizeof frame, dac, 16, fx, sizeof fx, 0.25f, -0.25f, 0.0f, 0.0f, slots, sizeof slots, copy, 12);
            if (r.number != 0) {
                printf("the copy is refused by %u\n", (unsigned)r.number);
                return 1;
            }
            asked = board;
        }
        Answer a = rytm_step(board, frame, sizeof frame, dac, 16, fx, sizeof fx, 0.25f, -0.25f, 0.0f, 0.0f);
        if (a.number != 0) {
            printf("step %d refused by %u\n", n, (unsigned)a.number);
            return 1;
        }
        board = a.board;
        for (int i = 0; i < 12; i++)
            if (abs(a.rx[i]) > peak[i])
                peak[i] = abs(a.rx[i]);
    }
    clock_gettime(CLOCK_MONOTONIC, &to);
    for (int i = 0; i < 12; i++)
        printf("word %2d peak %7d\n", i, (int)peak[i]);
    for (int i = 0; i < 12; i++)
        printf("step %d copied %2d %8d\n", COPIED, i, (int)copy[i]);
    faults();
    for (uint32_t v = 0; v < 8; v++)
        for (int right = 0; right < 2; right++)
            tell(v, right, rytm_why(asked, frame, sizeof frame, dac, 16, fx, sizeof fx, 0.25f, -0.25f, 0.0f, 0.0f, v, right));
    double took = (double)(to.tv_sec - from.tv_sec) + (double)(to.tv_nsec - from.tv_nsec) / 1e9;
    printf("a second of sound in %.3f s\n", took);
    return 0;
}
