/* The Analog Rytm's voice board. Link libboard_c.a, for rytm_why libwhy_c.a too, then libcurves_c.a. */
#ifndef RYTM_H
#define RYTM_H

#include <stdbool.h>
#include <stddef.h>
#include <stdint.h>

#ifdef __cplusplus
extern "C" {
#endif

/* The random sequence; depth 0 with ideal components. */
typedef struct { uint32_t s; float depth; } Wobble;

/* An oscillator's slow wander. */
typedef struct { float cents, ratio; uint32_t n; } Drift;

/* An envelope's level. */
typedef struct { float level; } Env;

/* The two integrators of a filter. */
typedef struct { float low, band; } Svf;

/* A voice of two oscillators: BD, SD, RS. */
typedef struct {
    uint8_t last_p[8], last_a[8];
    float ph1, ph2;
    Env pitch, amp;
    uint8_t last_m[8];
    Env amp2;
    bool trig;
    float det[2];
    Drift drift[2];
} DualOsc;

typedef struct {
    float ph[6], det[6];
    Env env;
    uint8_t mode;
    Svf hp;
} Hat;

typedef struct {
    float ph[6], det[6];
    Env env[8];
    uint8_t mode[8];
    Svf svf[5];
} Cym;

typedef struct { float y1, y2, det; uint32_t quiet; } Tom;

/* The parts of a chain's record that it watches. */
typedef struct { uint8_t start, target; uint32_t rate; } Key;

/* A chain's envelope. */
typedef struct { Key key; float level; bool hold, cmd; } SegEnv;

/* A filter's coefficients, with the cutoff in Hz and the resonance that they came from. A step works them out anew where either of
   these differs in its bits, and else goes by the stored ones: a board is opaque to its caller, and copied whole. */
typedef struct { float fc, res, g, k, a1, a2, a3, a; } Coefs;

/* A voice's overdrive, filter and amp: amp the left side's, amp_r the right one's. */
typedef struct { SegEnv amp, flt; float low, band, lp1; SegEnv amp_r; Coefs coefs; } Chain;

/* The compressor's sidechain filters, and the compressor. */
typedef struct { float lo, hi; } Sc;
typedef struct { float env; Sc sc; } Comp;

typedef struct { float l, r; } Mix;

/* The whole board: 1236 bytes, 980 before its chains kept their filter coefficients. */
typedef struct {
    DualOsc duals[3];
    Hat hat;
    Tom toms[3];
    Cym cym;
    Chain chains[8];
    Comp comp;
    Wobble wobble;
} Analog;

/* Refused where a compiler gives the board another size than the library does. */
typedef char rytm_board_size[sizeof(Analog) == 1236 ? 1 : -1];

/* What a step gives. number: 0 done; refused by 1 a frame under 664 bytes, 2 under 24 FX bytes, 3 not 16 DAC words,
   4 a DAC word outside -8388608 to 8388607, 5 an input below -1, above 1 or not a number. rx: voices 0 to 7, audio in
   left and right, main left and right. */
typedef struct {
    uint32_t number;
    int32_t rx[12];
    Mix mix;
    Analog board;
} Answer;

/* What a step gives whose words are copied. number as above, and after 5: 9 a slot table that is not eight bytes naming each
   of 0 to 7 once, 10 a destination that is not twelve words. */
typedef struct {
    uint32_t number;
    Mix mix;
    Analog board;
} Received;

/* Why a voice adds nothing to a side of the mix: the first of these that is true, or heard where none is. */
enum {
    RYTM_ROUTED_OFF = 1,
    RYTM_AMP_DOWN,         /* the side's amp level, after its tick, is at or below 0 */
    RYTM_VCA_ZERO,         /* the side's VCA word is 0 */
    RYTM_FILTERED_ZERO,    /* the filtered sample is 0 */
    RYTM_LOST_TO_ROUNDING, /* what it adds is 0 all the same */
    RYTM_HEARD
};

/* The answer. number as a step's, and after 5: 11 a voice above 7; a refusal has reason 0 and value 0. value: the amp level
   with RYTM_AMP_DOWN, the cutoff in Hz that the filter's tangent takes with RYTM_FILTERED_ZERO, what the voice adds to the
   side's mix with RYTM_HEARD, which can be infinite, else 0. */
typedef struct { uint32_t number; uint32_t reason; float value; } Why;

/* A board's seed where none is given. */
#define RYTM_DEFAULT_SEED UINT32_C(0x2545F491)

/* A fresh board; seed 0 counts as 1. */
Analog rytm_fresh(uint32_t seed, bool ideal);

/* One sample. A refusal gives zeros and the same board; nothing lent is written. */
Answer rytm_step(Analog board, const uint8_t *frame, size_t frame_len, const int32_t *dac, size_t dac_len,
                 const uint8_t *fx, size_t fx_len, float audio_l, float audio_r, float ext_l, float ext_r);

/* One sample whose words go to dest as the firmware's audio interrupt copies them, every one negated: main left and right,
   the voices that the eight slots name, audio in left and right. A refusal gives mix 0 and the same board, and dest keeps
   its words. dest overlaps nothing else that is lent; nothing else is written. */
Received rytm_receive(Analog board, const uint8_t *frame, size_t frame_len, const int32_t *dac, size_t dac_len,
                      const uint8_t *fx, size_t fx_len, float audio_l, float audio_r, float ext_l, float ext_r,
                      const uint8_t *slots, size_t slots_len, int32_t *dest, size_t dest_len);

/* Why this voice, 0 to 7, adds nothing to a side of the mix in a step of these arguments: to the left side, or with right true
   to the right one; any value but 0 that is passed for a bool is true. No step is made; nothing lent is written. */
Why rytm_why(Analog board, const uint8_t *frame, size_t frame_len, const int32_t *dac, size_t dac_len,
             const uint8_t *fx, size_t fx_len, float audio_l, float audio_r, float ext_l, float ext_r,
             uint32_t voice, bool right);

/* 2 to the power x. */
float rytm_exp2(float x);
/* e to the power x. */
float rytm_exp(float x);
/* 10 to the power x. */
float rytm_pow10(float x);
/* The sine of x. */
float rytm_sin(float x);
/* The cosine of x. */
float rytm_cos(float x);
/* The tangent of x. */
float rytm_tan(float x);
/* The hyperbolic tangent of x. */
float rytm_tanh(float x);
/* The decimal logarithm of x. */
float rytm_log10(float x);
/* The square root of x, correctly rounded. */
float rytm_sqrt(float x);

#ifdef __cplusplus
}
#endif

#endif
