/* Renders a vowel of 480 samples twice, once with a broken control value, and shows what is finished; plucks strings; renders noise; counts
 * the turns of an Lfo, and gives another a gate; then reads a score, changes it and writes it back:
 *
 *     tools/library ../target/gruttisol
 *     cc -I c c/example.c ../target/gruttisol/libgruttisol.a -o ../target/example && ../target/example
 */
#include "gruttisol.h"
#include <math.h>
#include <stdio.h>

#define SAMPLES 480

static int render(double vowel)
{
    double floats[GRUTTISOL_FORMANT_OSC_FLOATS], out[SAMPLES];
    uint64_t wholes[GRUTTISOL_FORMANT_OSC_WHOLES];
    uint32_t counts[GRUTTISOL_COUNTS] = {0}, marks[SAMPLES];

    uint32_t refused = gruttisol_formant_osc_new(48000.0, floats, GRUTTISOL_FORMANT_OSC_FLOATS,
                                                 wholes, GRUTTISOL_FORMANT_OSC_WHOLES);
    if (refused)
        return printf("refused=%u\n", refused);

    refused = gruttisol_formant_osc_block(-1.0, vowel, 0.0, 0.0, floats, GRUTTISOL_FORMANT_OSC_FLOATS,
                                          wholes, GRUTTISOL_FORMANT_OSC_WHOLES, counts, GRUTTISOL_COUNTS,
                                          out, SAMPLES, marks, SAMPLES);
    if (refused)
        return printf("refused=%u\n", refused);
    int first = 0; /* samples before the first that isn't clean */
    while (first < SAMPLES && marks[first] == GRUTTISOL_CLEAN)
        first++;
    return printf("begun=%u finished=%u cleared=%u notfinite=%u lost=%u steered=%u claimed=%s, clean up to sample %d\n",
                  counts[0], counts[1], counts[2], counts[3], counts[4], counts[5],
                  counts[0] == SAMPLES && counts[1] == SAMPLES ? "yes" : "no", first);
}

/* What a tick answered. Of all numbers clean alone is finished. */
static const char *word(uint32_t answer)
{
    switch (answer) {
    case GRUTTISOL_CLEARED: return "cleared";
    case GRUTTISOL_NOTFINITE: return "notfinite";
    case GRUTTISOL_LOST: return "lost";
    case GRUTTISOL_CLEAN: return "clean";
    case GRUTTISOL_STEERED: return "steered";
    default: return "refused";
    }
}

/* Line and draws are the caller's; these are long enough at every rate and pitch. */
static void pluck(double sample_rate, double brightness)
{
    static double line[GRUTTISOL_KARPLUS_STRONG_LINE];
    static uint64_t draws[GRUTTISOL_KARPLUS_STRONG_DRAWS];
    double floats[GRUTTISOL_KARPLUS_STRONG_FLOATS], out[GRUTTISOL_KARPLUS_STRONG_SAMPLES];
    uint64_t wholes[GRUTTISOL_KARPLUS_STRONG_WHOLES];

    uint32_t answer = gruttisol_karplus_strong_new(sample_rate, GRUTTISOL_GATE_ISSUE_1, floats, GRUTTISOL_KARPLUS_STRONG_FLOATS,
                                                   wholes, GRUTTISOL_KARPLUS_STRONG_WHOLES,
                                                   line, GRUTTISOL_KARPLUS_STRONG_LINE);
    if (answer == 0)
        answer = gruttisol_karplus_strong_tick(-32.0, 5.0, 0.5, brightness, 0.0, floats, GRUTTISOL_KARPLUS_STRONG_FLOATS,
                                               wholes, GRUTTISOL_KARPLUS_STRONG_WHOLES,
                                               line, GRUTTISOL_KARPLUS_STRONG_LINE,
                                               draws, GRUTTISOL_KARPLUS_STRONG_DRAWS,
                                               out, GRUTTISOL_KARPLUS_STRONG_SAMPLES);
    printf("a string at %g Hz, of a line of %u cells, as bright as %g: %s\n", sample_rate,
           (unsigned)gruttisol_karplus_strong_cells(sample_rate), brightness, word(answer));
}

/* A block of noise is lent the draws that its ticks need together, here less so many. */
static int blow(uint64_t missing)
{
    static uint64_t draws[GRUTTISOL_NOISE_GENERATOR_DRAWS * SAMPLES];
    static double out[GRUTTISOL_NOISE_GENERATOR_SAMPLES * SAMPLES];
    double floats[GRUTTISOL_NOISE_GENERATOR_FLOATS];
    uint64_t wholes[GRUTTISOL_NOISE_GENERATOR_WHOLES], seed = 1;
    uint32_t counts[GRUTTISOL_COUNTS] = {0}, marks[SAMPLES];

    uint32_t refused = gruttisol_noise_generator_new(floats, GRUTTISOL_NOISE_GENERATOR_FLOATS,
                                                     wholes, GRUTTISOL_NOISE_GENERATOR_WHOLES);
    if (refused)
        return printf("refused=%u\n", refused);

    uint64_t lent = gruttisol_noise_generator_needed_by(SAMPLES, wholes, GRUTTISOL_NOISE_GENERATOR_WHOLES) - missing;
    for (uint64_t i = 0; i < lent; i++) {
        seed = seed * UINT64_C(6364136223846793005) + 1;
        draws[i] = seed >> 11;
    }
    refused = gruttisol_noise_generator_block(0, 0.0, 15, floats, GRUTTISOL_NOISE_GENERATOR_FLOATS,
                                              wholes, GRUTTISOL_NOISE_GENERATOR_WHOLES, draws, lent, counts, GRUTTISOL_COUNTS,
                                              out, GRUTTISOL_NOISE_GENERATOR_SAMPLES * SAMPLES, marks, SAMPLES);
    return printf("noise of %d samples and %u draws: refused=%u begun=%u finished=%u\n", SAMPLES, (unsigned)lent, refused,
                  counts[0], counts[1]);
}

/* Bit 5 of the mask wants the pulses alone: one stands in the last tick of each turn, where a sequencer takes its next step. */
static int step_on(double depth)
{
    static double out[GRUTTISOL_LFO_SAMPLES * SAMPLES];
    double floats[GRUTTISOL_LFO_FLOATS];
    uint64_t wholes[GRUTTISOL_LFO_WHOLES];
    uint32_t counts[GRUTTISOL_COUNTS] = {0}, marks[SAMPLES];

    uint32_t refused = gruttisol_lfo_new(1000.0, GRUTTISOL_GATE_ISSUE_1, floats, GRUTTISOL_LFO_FLOATS,
                                         wholes, GRUTTISOL_LFO_WHOLES);
    if (refused == 0)
        refused = gruttisol_lfo_block(1.0, depth, 0.0, 1 << 5, floats, GRUTTISOL_LFO_FLOATS, wholes, GRUTTISOL_LFO_WHOLES,
                                      counts, GRUTTISOL_COUNTS, out, GRUTTISOL_LFO_SAMPLES * SAMPLES, marks, SAMPLES);
    if (refused)
        return printf("refused=%u\n", refused);
    int turns = 0, last = 0;
    for (int i = 0; i < SAMPLES; i++) {
        if (out[GRUTTISOL_LFO_SAMPLES * i + 5] == 5.0) {
            turns++;
            last = i;
        }
    }
    return printf("an lfo of %d samples, %g V deep: %d turns, the last ends with sample %d, finished=%u\n", SAMPLES, depth, turns, last,
                  counts[1]);
}

/* A gate of a three-volt controller, in the tenth tick: an Lfo that was made for issue 2 starts its turn anew, one for issue 1 doesn't. */
static int reset_by(double gate, double threshold)
{
    double floats[GRUTTISOL_LFO_FLOATS], out[GRUTTISOL_LFO_SAMPLES] = {0};
    uint64_t wholes[GRUTTISOL_LFO_WHOLES];

    uint32_t answer = gruttisol_lfo_new(1000.0, threshold, floats, GRUTTISOL_LFO_FLOATS, wholes, GRUTTISOL_LFO_WHOLES);
    if (answer)
        return printf("a threshold of %g V: refused=%u\n", threshold, answer);
    for (int i = 0; i < 10; i++)
        answer = gruttisol_lfo_tick(1.0, 10.0, i < 9 ? 0.0 : gate, 1 << 2, floats, GRUTTISOL_LFO_FLOATS,
                                    wholes, GRUTTISOL_LFO_WHOLES, out, GRUTTISOL_LFO_SAMPLES);
    return printf("a gate of %g V over a threshold of %g V: %s, and the turn %s\n", gate, threshold, word(answer),
                  out[2] == -5.0 ? "starts anew" : "goes on");
}

static void read_score(const char *score, size_t length)
{
    double volts[GRUTTISOL_SCORE_FLOATS];
    uint64_t said[GRUTTISOL_SCORE_WHOLES];
    uint32_t refused = gruttisol_score_read((const uint8_t *)score, length, volts, GRUTTISOL_SCORE_FLOATS,
                                            said, GRUTTISOL_SCORE_WHOLES);
    if (refused)
        printf("a score: refused=%u\n", refused);
    else
        printf("a score: %s, %u Hz, frames=%u, gate=%u, first input %g V\n", said[0] == GRUTTISOL_OSC_LFO ? "lfo" : "another",
               (unsigned)said[1], (unsigned)said[2], (unsigned)said[3], volts[0]);
}

/* A score with another second input, an Lfo's depth, and of another issue: 1, 2, or 0 for a text that doesn't say one. A text of
 * GRUTTISOL_SCORE_LONGEST bytes has room for every score. */
static int change(const char *score, size_t length, int32_t depth, uint64_t issue)
{
    int32_t microvolts[GRUTTISOL_SCORE_MICROVOLTS];
    uint64_t said[GRUTTISOL_SCORE_WHOLES], written;
    uint8_t text[GRUTTISOL_SCORE_LONGEST];

    uint32_t refused = gruttisol_score_values((const uint8_t *)score, length, microvolts, GRUTTISOL_SCORE_MICROVOLTS,
                                              said, GRUTTISOL_SCORE_WHOLES);
    if (refused == 0) {
        microvolts[1] = depth;
        said[3] = issue;
        refused = gruttisol_score_write(microvolts, GRUTTISOL_SCORE_MICROVOLTS, said, GRUTTISOL_SCORE_WHOLES,
                                        text, GRUTTISOL_SCORE_LONGEST, &written, 1);
    }
    if (refused)
        return printf("another score: refused=%u\n", refused);
    return printf("another score, of %u bytes:\n%.*s", (unsigned)written, (int)written, (const char *)text);
}

int main(void)
{
    static const char score[] = "osc=lfo\nhz=48000\nframes=480\nrate=500000\ndepth=5000000\nreset=0\n";
    double floats[GRUTTISOL_VCO_FLOATS] = {0};
    uint64_t wholes[GRUTTISOL_VCO_WHOLES] = {0};

    render(0.25);
    render(NAN);
    pluck(192000.0, 0.5);
    pluck(192000.0, NAN);
    pluck(INFINITY, 0.5);
    blow(0);
    blow(1);
    step_on(10.0);
    step_on(0.0);
    reset_by(1.5, GRUTTISOL_GATE_ISSUE_1);
    reset_by(1.5, GRUTTISOL_GATE_ISSUE_2);
    reset_by(1.5, 2.0);
    printf("a rate of 999.5 Hz: refused=%u\n", gruttisol_vco_new(999.5, GRUTTISOL_GATE_ISSUE_1, floats, GRUTTISOL_VCO_FLOATS,
                                                                 wholes, GRUTTISOL_VCO_WHOLES));
    read_score(score, sizeof score - 1);
    read_score(score, sizeof score - 2); /* without its last line feed */
    change(score, sizeof score - 1, -2500000, 0);
    change(score, sizeof score - 1, GRUTTISOL_SCORE_NAN, 2);
    change(score, sizeof score - 1, 10000001, 1);
    change(score, sizeof score - 1, 0, 3);
    return 0;
}
