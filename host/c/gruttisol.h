/* Gruttisol: seven proved oscillators, their tally and the reader and writer of scores, for C and C++.
 *
 * Every function takes any numbers and any memory of the lengths that it is told: it ends, reads and writes inside the lent
 * memory alone and keeps none of it. A lent array is two arguments, its first cell and its length; arrays lent to one
 * call must not overlap. The calling thread rounds to nearest and flushes no subnormal number to zero, as a program starts:
 * in another mode of the processor other numbers come out, and nothing is promised of them.
 *
 * An oscillator's state is two arrays, `floats` and `wholes`, of the lengths given below. Make it by `.._new`; then lend it to
 * each call as the last call left it. A state of your own making is taken or refused.
 *
 * A call answers a number:
 *   0         done, and so is a block
 *   11 to 15  an accepted tick, a gruttisol_mark: cleared, notfinite, lost, clean, steered; only 14, clean, is finished
 *   1 to 7    refused, and so is a score by 20 to 24; see gruttisol_refusal below
 *   50 to 55  an array of another length: floats, wholes, samples, counts, microvolts, written
 * A refused call leaves every array as it stood.
 *
 * Arrays come in one order: floats, wholes, what an oscillator is lent beside its state (bank; line, draws; draws), then of a
 * tick samples, of a block counts, samples, marks.
 *
 * A block, `.._block`, is as many ticks with one set of controls as there are `marks`, and their tally: the same as so many calls of
 * `.._tick` and of gruttisol_tally_take, in less time. `samples` takes a tick's samples for each mark, one tick after another,
 * and each mark becomes what the tick would answer, a gruttisol_mark. A block is done or refused as a whole: where the tally hasn't
 * room for all of its ticks it is refused by 7, though so many single ticks would go on until the tally is full.
 *
 * What a host must change that was written for an earlier header:
 *   - FOUR STATES HAVE ONE FLOAT MORE, the threshold that a gate must rise above, right after what the gate was before: floats[3] of a
 *     Vco, Lfo and Wavetable, floats[5] of a string. gruttisol_vco_new, gruttisol_lfo_new, gruttisol_wavetable_new and
 *     gruttisol_karplus_strong_new TAKE IT AFTER THE RATE: GRUTTISOL_GATE_ISSUE_1, by which every sample, mark and other cell is what it
 *     was, or GRUTTISOL_GATE_ISSUE_2. Floats of the old lengths are refused by 50, so a host that lends 4, or of a string 6, notices; A
 *     HOST THAT TAKES ITS LENGTHS FROM THE NAMES BELOW ISN'T REFUSED, and must look for cells that it addresses by number: the memo's
 *     frequency is one further, floats[4], of a string floats[6]. A STORED STATE OF THE OLD LENGTH MUST BE GIVEN THE THRESHOLD IN
 *     BETWEEN, 2.5. Refusal 2 is also that of a threshold which is neither of the two;
 *   - A SCORE HAS FOUR WHOLES: the last is the issue that its line of gate says, 0 where there is no such line. Three are refused by 51,
 *     by gruttisol_score_read, gruttisol_score_values and gruttisol_score_write alike. A HOST THAT PLAYS SCORES MUST MAKE VCO AND LFO
 *     WITH THE ISSUE'S THRESHOLD, for 0 that of issue 1: nothing else tells it that a score is for another issue. A score's text may
 *     have GRUTTISOL_SCORE_LONGEST bytes, now 117;
 *   - scores can be written, for which no older call changed. Three numbers are new, 24, 54 and 55, by which gruttisol_score_values and
 *     gruttisol_score_write alone answer. A HOST THAT SAVED SCORES BY VOLTS AND A TEXT OF ITS OWN MUST GO BY MICROVOLTS, by these two
 *     calls: not every score comes back from volts that are multiplied and cut to whole numbers;
 *   - AN LFO HAS SIX SAMPLES: eoc, a pulse at the end of each turn, is the last. A tick is lent six, and a block six for each mark, where
 *     an Lfo's tick stands every six samples and no longer every five. Five are refused by 52, so a host that lends five notices; A HOST
 *     THAT TAKES ITS LENGTHS FROM GRUTTISOL_LFO_SAMPLES ISN'T REFUSED, and must look for strides of 5 of its own. BIT 5 OF AN LFO'S
 *     `wanted` ASKS FOR IT, and did nothing before: a host that passes 63, or all bits, gets pulses in the sixth sample. One that wants
 *     none clears the bit, and reads 0.0 there. Bits from 6 on do nothing, and of a Vco bit 5 still doesn't. The five other samples,
 *     marks and states are what they were. In render's text an Lfo's frame has a line more, eoc=, after sin_uni=;
 *   - A TICK MAY NOW ANSWER 15, STEERED, and so may the marks of a block: a control that was given to it is NaN. It is no refusal: the
 *     state has moved on. And it is NOT FINISHED, though its samples are finite. NOTHING IN THE LENGTHS OF A TICK'S ARRAYS TELLS A HOST
 *     OF THIS. The other numbers mean what they meant, clean is 14. A host that takes 14 alone for finished, and 1 to 7 and 50 to 53 for
 *     refused, is right already. ONE THAT TAKES 11, 12 AND 13 FOR DIRTY AND THE REST FOR CLEAN MUST CHANGE, or it counts steered ticks as
 *     finished; and so must one that takes all but 11 to 14 for refused;
 *   - a tally has six counts, of which steered is the last, and begun is the sum of the five others. Five counts are refused by 53, so a
 *     host with blocks or tallies notices;
 *   - a block's marks are 11 to 15, as a tick answers, and no longer 1 to 4;
 *   - samples are the last array of gruttisol_wavetable_tick and gruttisol_karplus_strong_tick, after bank, or line and draws;
 *   - the cells of a string's line are asked of gruttisol_karplus_strong_cells.
 */
#ifndef GRUTTISOL_H
#define GRUTTISOL_H

#include <stdbool.h>
#include <stddef.h>
#include <stdint.h>

#ifdef __cplusplus
extern "C" {
#endif

/* How an accepted tick went: the first that applies of cleared, notfinite, lost, steered, clean. */
enum gruttisol_mark {
    GRUTTISOL_CLEARED = 11,   /* the string zeroed its line */
    GRUTTISOL_NOTFINITE = 12, /* a wanted output isn't finite, or what stands before its clamp */
    GRUTTISOL_LOST = 13,      /* a phase plus its increment isn't finite */
    GRUTTISOL_CLEAN = 14,     /* nothing of all this: the only ticks that are finished */
    GRUTTISOL_STEERED = 15    /* a control that was given is NaN, a gate or one of an unwanted output too; an infinity never counts */
};

enum gruttisol_refusal {
    GRUTTISOL_BAD_RATE = 1,      /* a rate not from 1,000 to 192,000 */
    GRUTTISOL_BAD_STATE = 2,     /* a state that is no oscillator's, or a threshold that is no issue's */
    GRUTTISOL_SHORT_LINE = 3,    /* a line too short for its rate */
    GRUTTISOL_BAD_BANK = 4,      /* a bank, part or table of another size or number */
    GRUTTISOL_FEW_DRAWS = 5,     /* too few draws for a trigger or for noise */
    GRUTTISOL_BAD_DRAW = 6,      /* a draw of 2^53 or more among those that a trigger or noise needs */
    GRUTTISOL_BAD_TALLY = 7,     /* counts that don't add up, or a full tally */
    GRUTTISOL_LONG_SCORE = 20,   /* a score of more than 1,024 bytes */
    GRUTTISOL_BAD_LINE = 21,     /* a wrong, missing or extra line, or an oscillator that isn't known */
    GRUTTISOL_BAD_NUMBER = 22,   /* no number as a score writes it */
    GRUTTISOL_OUT_OF_RANGE = 23, /* a number out of its range, or values that no score has */
    GRUTTISOL_SHORT_TEXT = 24    /* a buffer too short for the score's text */
};

/* ---- the tally: counts are begun, finished, cleared, notfinite, lost, steered; a new one is six zeros */
#define GRUTTISOL_COUNTS 6

/* Takes the number that a tick answered; one that is no gruttisol_mark is a refused tick, which counts nowhere. */
uint32_t gruttisol_tally_take(uint32_t code, uint32_t *counts, size_t counts_len);

/* ---- gates: volts that one must rise above to be taken, by the issue of the bank of presets that is played. A Vco, Lfo, Wavetable or
 *      string is made with one of the two and keeps it, through reset and rate change too; any other number is refused by 2 */
#define GRUTTISOL_GATE_ISSUE_1 2.5
#define GRUTTISOL_GATE_ISSUE_2 1.0

/* ---- Vco: samples sin, tri, saw, sqr; bit i of `wanted` asks for the i-th, and one that isn't wanted reads 0.0 */
#define GRUTTISOL_VCO_FLOATS 5
#define GRUTTISOL_VCO_WHOLES 4
#define GRUTTISOL_VCO_SAMPLES 4

uint32_t gruttisol_vco_new(double sample_rate, double threshold, double *floats, size_t floats_len,
                           uint64_t *wholes, size_t wholes_len);
uint32_t gruttisol_vco_tick(double voct, double fm, double pw, double sync, double fm_lin, uint32_t wanted,
                            double *floats, size_t floats_len, uint64_t *wholes, size_t wholes_len,
                            double *samples, size_t samples_len);
uint32_t gruttisol_vco_block(double voct, double fm, double pw, double sync, double fm_lin, uint32_t wanted,
                             double *floats, size_t floats_len, uint64_t *wholes, size_t wholes_len,
                             uint32_t *counts, size_t counts_len, double *samples, size_t samples_len,
                             uint32_t *marks, size_t marks_len);
uint32_t gruttisol_vco_reset(double *floats, size_t floats_len, uint64_t *wholes, size_t wholes_len);
uint32_t gruttisol_vco_set_sample_rate(double sample_rate, double *floats, size_t floats_len,
                                       uint64_t *wholes, size_t wholes_len);

/* ---- Lfo: samples sin, tri, saw, sqr, sin_uni, eoc; `wanted` as above. eoc, the end of the cycle, is 5.0 in the last tick of a turn and
 *      0.0 in all others, whatever depth is: whether phase plus increment passed a whole turn, as gruttisol_wrap_turned has it. A tick that
 *      takes its reset begins at phase 0, so a turn that is cut off has no pulse; nor has a lost tick. */
#define GRUTTISOL_LFO_FLOATS 5
#define GRUTTISOL_LFO_WHOLES 2
#define GRUTTISOL_LFO_SAMPLES 6

uint32_t gruttisol_lfo_new(double sample_rate, double threshold, double *floats, size_t floats_len,
                           uint64_t *wholes, size_t wholes_len);
uint32_t gruttisol_lfo_tick(double rate, double depth, double reset, uint32_t wanted,
                            double *floats, size_t floats_len, uint64_t *wholes, size_t wholes_len,
                            double *samples, size_t samples_len);
uint32_t gruttisol_lfo_block(double rate, double depth, double reset, uint32_t wanted,
                             double *floats, size_t floats_len, uint64_t *wholes, size_t wholes_len,
                             uint32_t *counts, size_t counts_len, double *samples, size_t samples_len,
                             uint32_t *marks, size_t marks_len);
uint32_t gruttisol_lfo_reset(double *floats, size_t floats_len, uint64_t *wholes, size_t wholes_len);
uint32_t gruttisol_lfo_set_sample_rate(double sample_rate, double *floats, size_t floats_len,
                                       uint64_t *wholes, size_t wholes_len);

/* ---- Supersaw: samples out, sub */
#define GRUTTISOL_SUPERSAW_FLOATS 10
#define GRUTTISOL_SUPERSAW_WHOLES 2
#define GRUTTISOL_SUPERSAW_SAMPLES 2

uint32_t gruttisol_supersaw_new(double sample_rate, double *floats, size_t floats_len,
                                uint64_t *wholes, size_t wholes_len);
uint32_t gruttisol_supersaw_tick(double voct, double detune, double mix,
                                 double *floats, size_t floats_len, uint64_t *wholes, size_t wholes_len,
                                 double *samples, size_t samples_len);
uint32_t gruttisol_supersaw_block(double voct, double detune, double mix,
                                  double *floats, size_t floats_len, uint64_t *wholes, size_t wholes_len,
                                  uint32_t *counts, size_t counts_len, double *samples, size_t samples_len,
                                  uint32_t *marks, size_t marks_len);
uint32_t gruttisol_supersaw_reset(double *floats, size_t floats_len, uint64_t *wholes, size_t wholes_len);
uint32_t gruttisol_supersaw_set_sample_rate(double sample_rate, double *floats, size_t floats_len,
                                            uint64_t *wholes, size_t wholes_len);

/* ---- Wavetable: a sample out, of a bank that is lent to each tick: 8 tables, of each 8 levels, of each 256 numbers */
#define GRUTTISOL_WAVETABLE_FLOATS 5
#define GRUTTISOL_WAVETABLE_WHOLES 2
#define GRUTTISOL_WAVETABLE_SAMPLES 1
#define GRUTTISOL_BANK 16384
#define GRUTTISOL_TABLE 2048

/* Fills a bank, or a part of GRUTTISOL_TABLE numbers with one table, from 0 to 7. */
uint32_t gruttisol_wavetable_fill_bank(double *bank, size_t bank_len);
uint32_t gruttisol_wavetable_fill_table(uint64_t table, double *part, size_t part_len);

uint32_t gruttisol_wavetable_new(double sample_rate, double threshold, double *floats, size_t floats_len,
                                 uint64_t *wholes, size_t wholes_len);
uint32_t gruttisol_wavetable_tick(double v_oct, double table, double morph, double sync,
                                  double *floats, size_t floats_len, uint64_t *wholes, size_t wholes_len,
                                  const double *bank, size_t bank_len, double *samples, size_t samples_len);
uint32_t gruttisol_wavetable_block(double v_oct, double table, double morph, double sync,
                                   double *floats, size_t floats_len, uint64_t *wholes, size_t wholes_len,
                                   const double *bank, size_t bank_len,
                                   uint32_t *counts, size_t counts_len, double *samples, size_t samples_len,
                                   uint32_t *marks, size_t marks_len);
uint32_t gruttisol_wavetable_reset(double *floats, size_t floats_len, uint64_t *wholes, size_t wholes_len);
uint32_t gruttisol_wavetable_set_sample_rate(double sample_rate, double *floats, size_t floats_len,
                                             uint64_t *wholes, size_t wholes_len);

/* ---- FormantOsc: a sample out */
#define GRUTTISOL_FORMANT_OSC_FLOATS 29
#define GRUTTISOL_FORMANT_OSC_WHOLES 6
#define GRUTTISOL_FORMANT_OSC_SAMPLES 1

uint32_t gruttisol_formant_osc_new(double sample_rate, double *floats, size_t floats_len,
                                   uint64_t *wholes, size_t wholes_len);
uint32_t gruttisol_formant_osc_tick(double v_oct, double vowel, double formant_shift, double vibrato,
                                    double *floats, size_t floats_len, uint64_t *wholes, size_t wholes_len,
                                    double *samples, size_t samples_len);
uint32_t gruttisol_formant_osc_block(double v_oct, double vowel, double formant_shift, double vibrato,
                                     double *floats, size_t floats_len, uint64_t *wholes, size_t wholes_len,
                                     uint32_t *counts, size_t counts_len, double *samples, size_t samples_len,
                                     uint32_t *marks, size_t marks_len);
uint32_t gruttisol_formant_osc_reset(double *floats, size_t floats_len, uint64_t *wholes, size_t wholes_len);
uint32_t gruttisol_formant_osc_set_sample_rate(double sample_rate, double *floats, size_t floats_len,
                                               uint64_t *wholes, size_t wholes_len);

/* ---- KarplusStrong: a sample out. Each call is lent the line as the last call left it, of gruttisol_karplus_strong_cells(sample_rate)
 *      cells at least; a rate change one that is enough for the new rate. Another line will do if the string's cells, the first
 *      wholes[0] of them, are copied to it. A tick that takes its trigger reads as many draws as the string gets cells, each below
 *      2^53, which are fewer than the line has. */
#define GRUTTISOL_KARPLUS_STRONG_FLOATS 7
#define GRUTTISOL_KARPLUS_STRONG_WHOLES 4
#define GRUTTISOL_KARPLUS_STRONG_SAMPLES 1
#define GRUTTISOL_KARPLUS_STRONG_LINE 9612  /* cells that are enough at every rate */
#define GRUTTISOL_KARPLUS_STRONG_DRAWS 9611 /* draws that are enough at every rate */

/* The cells that a line needs at a sample rate: sample_rate / 20 truncated, and 12. Of a rate that is refused by 1 it is 0. */
uint64_t gruttisol_karplus_strong_cells(double sample_rate);

uint32_t gruttisol_karplus_strong_new(double sample_rate, double threshold, double *floats, size_t floats_len,
                                      uint64_t *wholes, size_t wholes_len, double *line, size_t line_len);
uint32_t gruttisol_karplus_strong_tick(double voct, double trigger, double damping, double brightness, double stretch,
                                       double *floats, size_t floats_len, uint64_t *wholes, size_t wholes_len,
                                       double *line, size_t line_len, const uint64_t *draws, size_t draws_len,
                                       double *samples, size_t samples_len);
uint32_t gruttisol_karplus_strong_block(double voct, double trigger, double damping, double brightness, double stretch,
                                        double *floats, size_t floats_len, uint64_t *wholes, size_t wholes_len,
                                        double *line, size_t line_len, const uint64_t *draws, size_t draws_len,
                                        uint32_t *counts, size_t counts_len, double *samples, size_t samples_len,
                                        uint32_t *marks, size_t marks_len);
uint32_t gruttisol_karplus_strong_reset(double *floats, size_t floats_len, uint64_t *wholes, size_t wholes_len,
                                        double *line, size_t line_len);
uint32_t gruttisol_karplus_strong_set_sample_rate(double sample_rate, double *floats, size_t floats_len,
                                                  uint64_t *wholes, size_t wholes_len, double *line, size_t line_len);

/* ---- NoiseGenerator: samples white, pink, white2, pink2; `wanted` as above. A correlation, clamped to 0 to 1, says how far the second
 *      ones are the first. With `given` 0 a call takes the state's own, whatever `correlation` is; else it takes `correlation`, which the
 *      state doesn't keep. There is no sample rate, and no state is refused: of `wholes` the low 32 bits count.
 *
 *      A tick reads the first so many of its draws as gruttisol_noise_generator_needed says, each below 2^53, whatever is wanted: for
 *      white, for white2, for the rows of pink that change, then for those of pink2. For these alone it is refused by 5 or 6. The ticks
 *      of a block take theirs one after another, and are refused together. */
#define GRUTTISOL_NOISE_GENERATOR_FLOATS 36
#define GRUTTISOL_NOISE_GENERATOR_WHOLES 2
#define GRUTTISOL_NOISE_GENERATOR_SAMPLES 4
#define GRUTTISOL_NOISE_GENERATOR_DRAWS 34 /* draws that are enough for any tick */

/* How many draws the next tick needs, from 4 to 34, and the next so many ticks together. Of wholes of another length it is 0. */
uint64_t gruttisol_noise_generator_needed(const uint64_t *wholes, size_t wholes_len);
uint64_t gruttisol_noise_generator_needed_by(uint32_t ticks, const uint64_t *wholes, size_t wholes_len);

/* A new one has a correlation of 0.3, or the one that is asked for, clamped; a NaN is kept. */
uint32_t gruttisol_noise_generator_new(double *floats, size_t floats_len, uint64_t *wholes, size_t wholes_len);
uint32_t gruttisol_noise_generator_with_correlation(double correlation, double *floats, size_t floats_len,
                                                    uint64_t *wholes, size_t wholes_len);
uint32_t gruttisol_noise_generator_tick(uint32_t given, double correlation, uint32_t wanted,
                                        double *floats, size_t floats_len, uint64_t *wholes, size_t wholes_len,
                                        const uint64_t *draws, size_t draws_len, double *samples, size_t samples_len);
uint32_t gruttisol_noise_generator_block(uint32_t given, double correlation, uint32_t wanted,
                                         double *floats, size_t floats_len, uint64_t *wholes, size_t wholes_len,
                                         const uint64_t *draws, size_t draws_len,
                                         uint32_t *counts, size_t counts_len, double *samples, size_t samples_len,
                                         uint32_t *marks, size_t marks_len);
/* A reset keeps the correlation; a rate change, to any number, leaves all that counts: it stores of the counters the low 32 bits. */
uint32_t gruttisol_noise_generator_reset(double *floats, size_t floats_len, uint64_t *wholes, size_t wholes_len);
uint32_t gruttisol_noise_generator_set_sample_rate(double sample_rate, double *floats, size_t floats_len,
                                                   uint64_t *wholes, size_t wholes_len);

/* ---- scores: what a text of at most GRUTTISOL_SCORE_TEXT bytes says. floats are the volts of the oscillator's inputs in port order, 0.0 past its
 *      last one; wholes are a gruttisol_osc, samples a second, frames and the issue that the line of gate says, 0 where there is none: then it
 *      plays as issue 1. */
#define GRUTTISOL_SCORE_FLOATS 5
#define GRUTTISOL_SCORE_WHOLES 4
#define GRUTTISOL_SCORE_TEXT 1024

enum gruttisol_osc {
    GRUTTISOL_OSC_VCO = 0,
    GRUTTISOL_OSC_LFO = 1,
    GRUTTISOL_OSC_SUPERSAW = 2,
    GRUTTISOL_OSC_FORMANT = 3
};

uint32_t gruttisol_score_read(const uint8_t *text, size_t text_len, double *floats, size_t floats_len,
                              uint64_t *wholes, size_t wholes_len);

/* The same in whole numbers, to change and save a score: microvolts are those of the inputs in port order, GRUTTISOL_SCORE_NAN where one is
 * `nan` and 0 past the last one; wholes are as above. */
#define GRUTTISOL_SCORE_MICROVOLTS 5
#define GRUTTISOL_SCORE_NAN INT32_MIN /* no score's microvolts */

uint32_t gruttisol_score_values(const uint8_t *text, size_t text_len, int32_t *microvolts, size_t microvolts_len,
                                uint64_t *wholes, size_t wholes_len);

/* Writes the one text that is read as these values, and its length to written, which is one cell; bytes past it stay. Values that no text
 * is read as are refused by 23: another osc or issue, a number out of its range, a cell past the last input that isn't 0. Last comes 24, which a
 * text of GRUTTISOL_SCORE_LONGEST bytes never gets. */
#define GRUTTISOL_SCORE_LONGEST 117

uint32_t gruttisol_score_write(const int32_t *microvolts, size_t microvolts_len, const uint64_t *wholes, size_t wholes_len,
                               uint8_t *text, size_t text_len, uint64_t *written, size_t written_len);

/* ---- functions of numbers alone: sine and cosine of radians, 2^x and 3000^r; the small functions as Rust has them, any NaN being
 *      7FF8000000000000; k * 2^-53 and twice it less 1; the oscillators' pitch, phase and residuals, in volts, hertz and turns. wrap_turned
 *      is whether wrap_phase passes a whole turn: x is finite and its floor isn't 0 */
double gruttisol_sin(double x);
double gruttisol_cos(double x);
double gruttisol_exp2(double x);
double gruttisol_pow3000(double r);
double gruttisol_floor(double x);
double gruttisol_fabs(double x);
bool gruttisol_is_finite(double x);
double gruttisol_clamp(double x, double lo, double hi);
double gruttisol_min(double a, double b);
double gruttisol_max(double a, double b);
uint64_t gruttisol_to_u64(double x);
double gruttisol_of_u64(uint64_t n);
uint64_t gruttisol_bits(double x);
double gruttisol_of_bits(uint64_t b);
double gruttisol_draw(uint64_t k);
double gruttisol_bipolar(uint64_t k);
double gruttisol_voct_to_hz(double voct);
double gruttisol_wrap_phase(double x);
bool gruttisol_wrap_turned(double x);
double gruttisol_polyblep(double t, double dt);
double gruttisol_polyblamp(double t, double dt);

#ifdef __cplusplus
}
#endif

#endif
