/* The receiving core of the ion HF modem, the sending halves of its interleavers, its burst slips, the segment board and local noise
 * factors, proved: the functions of the static library libion.a (`tools/build.sh ion`).
 *
 * Every function takes any numbers and any buffers of the lengths that are told, and ends. It returns 0, or the number of the
 * refusal (ion_refusal has a text for each); of several causes the one that comes first in the order 1, 12, 2, 3, 4, 16, 5, 11, 6, 15, 7,
 * 8, 9, 10, 13, 14. Results and lent buffers are written only where 0 is returned.
 *
 * Buffers: a pointer must be valid for its length and aligned as its type asks; with length 0 it may be NULL. Lent buffers must
 * overlap neither each other nor an input. Nothing is kept between calls, so any threads may call at once over buffers of their own.
 * No function recurses or allocates; ion_local_noise takes 12 KiB of stack, ion_read_header and ion_read_header_with 9 to 10, ion_track_timing
 * and ion_fit_drift 3, the others below 2 (measured: docs/MEASUREMENTS.md).
 *
 * Terms: per symbol five rows of 52 floats, row 0 first, place 0 first in each: 260. Each is a natural logarithm: row j, place e has
 * ln(p(energy at place e | a tone j-2 places below it) / p(energy | noise alone)). Bin b of the mode's grid is place b+2. A value's
 * metric is the sum of five terms, one of each row, around its bin's place; a header's score is the sum of its symbols' metrics.
 *
 * Layouts: a set runs layout k, 1 (the full band) to 8 (the narrowest): every duration is k times as long, every tone's distance from
 * the centre a k-th. Samples of the baseband, windows among them, are the receiver's own, one of 6k audio samples, so that a burst looks
 * alike in every layout. Two things depend on k: the start of a header's CRC, and how many audio samples lie behind a symbol. ion_crc and
 * ion_soft_values take it. A header's symbol values and a header read are the same in every layout: ion_header_values, ion_read_header
 * and ion_read_header_with take none, and whoever sends or accepts a header works out its CRC in the layout in use.
 */
#ifndef ION_H
#define ION_H

#include <stddef.h>
#include <stdint.h>

#ifdef __cplusplus
extern "C" {
#endif

/* The number of the last change request that is in; 0 is the base. Answer, outcome and tracker will grow. The library has the number
 * in a symbol's name, which every file that includes this header asks for: a library of another version does not link. */
#define ION_VERSION 111
uint32_t ion_version_111(void);
#if defined(__GNUC__)
__attribute__((used)) static uint32_t (*const ion_version)(void) = ion_version_111;
#endif

/* modes, kinds, the form of data, the first and the last layout, what was heard of a symbol, outcomes of a header read (from the best reading to
 * none: Sure, Likely, Kept, Open; Likely came last and has the last number) */
enum { ION_R0 = 0, ION_R1 = 1 };
enum { ION_HEADER_ONLY = 0, ION_DATA = 1, ION_CUE = 2 };
enum { ION_BIT_FORM = 0, ION_SYMBOL_FORM = 1 };
enum { ION_FULL_BAND = 1, ION_NARROWEST = 8 };
enum { ION_MISSED = 0, ION_HEARD = 1 };
enum { ION_SURE = 0, ION_KEPT = 1, ION_OPEN = 2, ION_LIKELY = 3 };

/* sizes: header symbols (n below, and as many header bits) by kind, data symbols of so many bits and their slots, terms and values of a
 * symbol, places of a score area, words of decisions for each header symbol, entries of a table of labels, bytes of a slip, places and bytes
 * of a board, places of a row of energies, the most data bits, data symbols, CRC bits, calls of a tracker (and shifts), blocks, rows of
 * energies */
#define ION_HEADER_SYMBOLS(kind) ((kind) == ION_DATA ? 64 : 48)
#define ION_DATA_SYMBOLS(bits) (((size_t)(bits) + 4) / 5)
#define ION_SLOTS(bits) (5 * ION_DATA_SYMBOLS(bits))
enum { ION_TERMS = 260, ION_VALUES = 32, ION_STATES = 16384, ION_DECISIONS = 256, ION_LABELS = 32768, ION_SLIP = 44 };
enum { ION_BOARD_PLACES = 512, ION_BOARD_BYTES = 22528, ION_PLACES = 52 };
enum { ION_MOST_BITS = 10240, ION_MOST_SYMBOLS = 2048, ION_MOST_CRC_BITS = 1024, ION_MOST_CALLS = 2048, ION_MOST_BLOCKS = 64,
       ION_MOST_ROWS = 2048 };

/* What a number says; of 0 that it is no refusal. */
static inline const char *ion_refusal(uint32_t number) {
    static const char *const text[] = {
        "done",
        "mode or kind not named",
        "more than 10,240 bits or 2,048 symbols, or a multiplier's length above 10,240",
        "a window that the mode does not have",
        "a buffer has another length than stated, or a CRC has over 1,024 bits",
        "a bit byte above 1",
        "a term is not finite or beyond +-1,000,000",
        "a blanked count above 255 times the window",
        "early, late or noise not in 0 to 10^9",
        "2,048 symbols were tracked already, or the tracker's rule is broken",
        "over 64 blocks, or a block out of range or falling",
        "a symbol value above 31",
        "a layout not from 1 to 8",
        "bytes that are no slip, values that no slip holds, or a board that is broken",
        "a slip for an unlisted segment where 512 are listed",
        "over 2,048 rows, or eps, r, a noise or an energy out of range",
        "a table of labels with an entry off the parity rule",
    };
    return number < sizeof text / sizeof *text ? text[number] : "no number of this library";
}

/* The multiplier of the interleaver p -> (a*p) mod n.
 * Refused: 2 (n above 10,240). */
uint32_t ion_interleave_mult(uint64_t n, uint64_t *mult);

/* The CRC of 0 to 1,024 bits, a byte each, in a layout. In a header it stands in the last 16 bits, the first one highest, over the bits
 * before.
 * Proved: layout 1 gives what a receiver without layouts gave. The same bits have the same CRC under no two of the 48 modes, kinds and
 * layouts: under one mode and kind a word whose CRC is good in one layout has a bad one in every other.
 * Refused: 1 (mode or kind not named), 12 (layout not from 1 to 8), 4 (over 1,024 bits), 5 (a byte above 1). */
uint32_t ion_crc(uint8_t mode, uint8_t kind, uint8_t layout, const uint8_t *bits, size_t bits_len, uint16_t *crc);

/* The symbol values of a header, slot by slot: n bits in, n values out; the same in every layout.
 * Refused: 1, 4 (a length is not n), 5 (a byte above 1). */
uint32_t ion_header_values(uint8_t mode, uint8_t kind, const uint8_t *bits, size_t bits_len, uint8_t *values, size_t values_len);

/* Sends data bits, a byte each: n = ION_SLOTS(bits_len) slots out, of which slot (a*p) mod n holds bit p with its scramble bit added
 * modulo 2, a being the multiplier for n. Slots that no bit reaches (n - bits_len of them, at most 4) hold 0, whatever was lent. Five
 * slots are a tone: slot 5*i + k is bit k, from the lowest, of the Gray code of the value of data symbol i.
 * Proved of every call that is answered, of any length to 10,240: slots read as soft bits of +1 for 0 and -1 for 1, put back in order
 * and unscrambled (what the bit form of ion_soft_values does with its own soft bits), give +1 for every bit 0 and -1 for every bit 1.
 * Refused: 2 (over 10,240 bits), 4 (slots_len is not n), 5 (a byte above 1). */
uint32_t ion_interleave(const uint8_t *bits, size_t bits_len, uint8_t *slots, size_t slots_len);

/* Sends code symbols, a byte of 0 to 31 each: as many values out, of which slot (a*p) mod n holds symbol p, changed by its five-bit
 * scramble. A slot's value is the value of its data symbol's tone.
 * Proved of every call that is answered, of any length to 2,048: whatever the slots' metrics are, put back in order and unscrambled (as
 * the symbol form of ion_soft_values does) a slot's metric for its sent value is its symbol's metric for the symbol's own value.
 * Refused: 2 (over 2,048 symbols), 4 (values_len is not symbols_len), 11 (a value above 31). */
uint32_t ion_interleave_sym(const uint8_t *symbols, size_t symbols_len, uint8_t *values, size_t values_len);

/* Reads a header. terms: n*260 floats. Work areas, zeros after an answer: scores, next and start of 16,384 floats, decisions of n*256
 * words. word: header bit j at place j from the lowest, zeros above the last. outcome: ION_SURE, ION_LIKELY, ION_KEPT or ION_OPEN. pass: 1
 * to 3 for Sure, 2 or 3 for Likely, else 0. score: what the search gives the word. ceiling: how good any word could have been. The layout
 * has no part in it; under this mode and kind the word's CRC is good in one layout at most.
 *
 * The ceiling: for each pass that the search ran (at most three; one that closes ends it) take from each of the 16,384 states its score
 * at the end less the same state's score at the start of the pass, both f32 and so subtracted, and of these the greatest; the ceiling is
 * the least of them over the passes.
 *
 * The outcome: a word that is out by closing in some pass, or else the best candidate after three, is Sure where its score is at or above
 * the ceiling, both f32 and so compared, with the last pass run as its pass. Below the ceiling a word out by closing is Likely, with its
 * pass, and a candidate Kept. Where there is neither, the last unclosed word is Open, wherever its score lies. A word that is out by
 * closing in the first pass is always Sure, with pass 1, and no other has that pass.
 *
 * What is proved of an answer, and under which condition:
 * - Sure, whole terms from -800 to 800: no closed word of n bits scores more, whichever pass gave it.
 * - Sure, terms within +-2^a (a from 0 to 20): no closed word's exact score is above the word's by more than 2^(a-8), whichever pass gave
 *   it: with terms within +-64 no closed word beats it by more than a quarter of a point.
 * - Sure in pass 1, besides: both hold against every other word, closed or not. And for any accepted terms the score is the word's own,
 *   added in f32 as the receiver adds it, it is the ceiling, bit for bit, and no other word, closed or not, has a greater one.
 * - Sure, Likely and Kept: a closed word. For whole terms from -800 to 800 its score is exactly what its sent symbols earn, for terms within
 *   +-2^a off from that by at most 2^(a-9).
 * - Likely and Kept: nothing more. Another closed word may have a greater score, but none need.
 * - Open: no closed word was found; the word is no header's.
 * - The ceiling, whole terms from -800 to 800: no closed word of n bits scores above it, whether one pass was run, two or three.
 * - The ceiling, terms within +-2^a (a from 0 to 20): no closed word's exact score is above it by more than 2^(a-9), however many passes
 *   were run.
 * The ceiling is a bound and no more. It need not be reached by any word, so a score below it does not say that there is a better word.
 * For terms that are not whole a word may lie below it, or above it, by rounding alone: docs/MEASUREMENTS.md says how often that makes it
 * Likely or Kept, or Sure, on bursts made by a channel.
 * Refused: 1, 4 (one of the five lengths), 6 (a term not finite or beyond +-1,000,000). */
uint32_t ion_read_header(uint8_t mode, uint8_t kind, const float *terms, size_t terms_len, float *scores, size_t scores_len,
                         float *next, size_t next_len, float *start, size_t start_len, uint64_t *decisions, size_t decisions_len,
                         uint64_t *word, uint8_t *outcome, uint8_t *pass, float *score, float *ceiling);

/* Fills a table of 32,768 labels, whatever was in it: entry r is the label of register r, of which bit i, from the lowest, is the parity of
 * the ones in generator i AND r (octal 42101, 77127, 60225, 42073, 64667; a register's newest bit is the lowest). The table serves every
 * ion_read_header_with of every mode, kind and layout, in any number of threads at once, and is never written by them.
 * Refused: 4 (labels_len is not 32,768). */
uint32_t ion_fill_labels(uint16_t *labels, size_t labels_len);

/* Reads a header with labels filled in advance: as ion_read_header does, in less time (docs/MEASUREMENTS.md). Every call whose mode, kind and
 * lengths are right tests the whole table, so one that was made elsewhere is as good as a filled one.
 * Proved: with a table of 32,768 entries that are all labels the number, the answer and the areas are those of ion_read_header for the same
 * mode, kind, terms and areas, and all that is proved of its answers holds of these, under the same conditions. 16 is returned exactly where
 * mode, kind and lengths are right and an entry is off.
 * Refused: 1, 4 (one of the six lengths), 16 (an entry of the table is not the label of its register), 6 (a term not finite or beyond
 * +-1,000,000). */
uint32_t ion_read_header_with(uint8_t mode, uint8_t kind, const float *terms, size_t terms_len, const uint16_t *labels, size_t labels_len,
                              float *scores, size_t scores_len, float *next, size_t next_len, float *start, size_t start_len,
                              uint64_t *decisions, size_t decisions_len, uint64_t *word, uint8_t *outcome, uint8_t *pass, float *score,
                              float *ceiling);

/* Writes a slip of 44 bytes: a header as read, with mode and kind, the sample at which its burst starts and its segment's number. Six fields,
 * each a tag of one byte, a length of two and the value, every number with its highest byte first:
 *   tag 1 mode, 1 byte; 2 kind, 1; 3 word, 8; 4 outcome, 6: the outcome, the pass, the score's four bytes; 5 start sample, 8; 6 segment, 2.
 * A slip holds: a mode and a kind that are named; a word with zeros above its 48 bits (64 for ION_DATA); ION_SURE with a pass of 1 to 3,
 * ION_LIKELY with 2 or 3, ION_KEPT or ION_OPEN with 0; a finite score (-0.0 is one, and has its own bytes); any start and segment. It has
 * neither the layout nor the ceiling, nor a verdict on the word's CRC, which ion_crc tells in the layout in use.
 * Proved: every answer of ion_read_header, and so of ion_read_header_with, is such, with any start and segment. ion_read_slip gives back
 * what was written, bit for bit. A slip from before version 107 is written and read as it was; but there Sure says only that the word was
 * out by closing: with pass 2 or 3 another one may beat it.
 * Refused: 4 (slip_len is not 44), 13 (values that no slip holds, an outcome above 3 or a pass that does not go with it among them). */
uint32_t ion_write_slip(uint8_t mode, uint8_t kind, uint64_t word, uint8_t outcome, uint8_t pass, float score, uint64_t start,
                        uint16_t segment, uint8_t *slip, size_t slip_len);

/* Reads a slip from a string of bytes of any length.
 * Proved: 0 is returned exactly where some slip is written as this string, and the values are that slip's. No two strings are one slip.
 * Refused: 13 (any other string, a wrong mode, kind or length among them). */
uint32_t ion_read_slip(const uint8_t *slip, size_t slip_len, uint8_t *mode, uint8_t *kind, uint64_t *word, uint8_t *outcome, uint8_t *pass,
                       float *score, uint64_t *start, uint16_t *segment);

/* A slip's values. */
typedef struct {
    uint8_t mode, kind, outcome, pass;
    uint16_t segment;
    float score;
    uint64_t word, start;
} ion_slip;

/* The same over these. */
static inline uint32_t ion_slip_to_bytes(const ion_slip *s, uint8_t *slip, size_t slip_len) {
    return ion_write_slip(s->mode, s->kind, s->word, s->outcome, s->pass, s->score, s->start, s->segment, slip, slip_len);
}
static inline uint32_t ion_slip_from_bytes(ion_slip *s, const uint8_t *slip, size_t slip_len) {
    return ion_read_slip(slip, slip_len, &s->mode, &s->kind, &s->word, &s->outcome, &s->pass, &s->score, &s->start, &s->segment);
}

/* Puts a slip on the segment board, which shows one slip a segment, segments rising, at most 512. board: ION_BOARD_BYTES bytes, lent, 512
 * places of 44; place i begins at board + 44*i, and ion_slip_from_bytes reads it. *count: how many of them are listed, from the first on;
 * an empty board is a count of 0 over any bytes. Places past the count are not read, and of them only the one that a new segment fills is
 * written. slip: a slip's bytes, outside the board.
 * - Its segment is listed: it takes the listed slip's place where its reading is better, whichever start is the later, or where both readings
 *   are equal and its start sample is later. Sure is better than Likely, Likely than Kept, and Kept than Open; pass, score, word, mode and
 *   kind have no part in it. Else the listed slip remains, and nothing is written: so it is with a later slip that reads worse, and with one
 *   put a second time.
 * - Its segment is not listed: it is put where segments go on rising, those behind it move up by one place, and *count grows by one.
 * 0 is returned in each of these cases.
 * Proved: after any series of strings from an empty board, those refused set aside, the board shows for each listed segment what the two
 * rules leave of the segment's own slips in order of arrival: of those that read best the one that starts latest, and of several such the one
 * that came first. A segment once listed stays listed: so of one segment's slips all are accepted or none, and listed are the first 512
 * different segments that came. No put of such a series is refused for its board.
 * Before version 110 the start was tried first and the reading only between equal starts. A board from then is taken as it is: what it
 * shows is judged against further slips by the order above, and what it passed over is not on it.
 * Refused, the board and *count as they were: 4 (board_len is not ION_BOARD_BYTES), 13 (*count above 512, a listed place that is no slip,
 * segments of listed places that do not rise, one standing twice among them, or slip is no slip, whatever its length), 14 (the segment is
 * not listed, and 512 are). */
uint32_t ion_put_slip(uint8_t *board, size_t board_len, uint32_t *count, const uint8_t *slip, size_t slip_len);

/* Metrics and soft bits of a burst of S = ceil(bits/5) data symbols in layout k. symbols: ION_BIT_FORM, anything else symbol form. window:
 * one of the mode's three, in samples of the baseband. terms: S*260. blanked: S counts of blanked audio samples, each over the
 * (6k+1)*window samples behind a symbol's window; more than half of them erase the symbol. work: S*32, zeros after an answer. metrics:
 * S*32, each from -40 to 0, relative to the symbol's greatest. soft: one float a bit, from -12 to 12, ln(p(bit is 0) / p(bit is 1)): above
 * 0 the bit is rather 0. Proved: layout 1 gives what a receiver without layouts gave.
 * Refused: 1, 12 (layout not from 1 to 8), 2 (over 10,240 bits), 3 (window not of the mode), 4 (a length), 6 (a term), 7 (a count above
 * 255*window, in every layout). */
uint32_t ion_soft_values(uint8_t mode, uint8_t kind, uint8_t layout, uint8_t symbols, uint32_t window, uint32_t bits, const float *terms,
                         size_t terms_len, const uint32_t *blanked, size_t blanked_len, float *work, size_t work_len,
                         float *metrics, size_t metrics_len, float *soft, size_t soft_len);

/* Local noise factors: how many times as loud as its burst's noise each place is about each data symbol, at least 1. A generator that
 * raises some places for part of a burst is seen in their factors there, a crash over one symbol in all of its row. energies: rows*52
 * floats, a row for each data symbol from the first one behind the header on, place 0 first in each. noise: 52, of each place for the
 * whole burst, in the same unit. eps, r: which part of the empty places is disturbed, and how many times the noise it has. factors:
 * rows*52, places as in energies. Bin b of the mode's grid is place b+2; a mode has its bins and four places more, 52 in R0 and 36 in R1.
 *
 * A factor is the greatest of 1, its row's level and its place's level, all in f32, each operation rounded. Let z be an energy over its
 * place's noise. In each row the strongest tone is the greatest z among the places of the symbol's 32 values, of equal ones that of the
 * least value; the five places about it are missing, and the others of the mode, 47 or 31, are there.
 * - The row's level: of the m values of z that are there the one in the middle, over ln 2, less 3/sqrt(m).
 * - The place's level: the mean of its z over this row, the twelve before and the twelve behind, as far as there are such rows and it is
 *   there in them, over 1 + eps*(r-1), less 2/sqrt(their number). Where it is there in fewer than six of them there is none.
 * Places from the mode's on (36 to 51 in R1) have 1; what is given for them is not used, but is refused out of range as any other.
 * Proved: every factor is finite and at least 1. Five places are missing in every row. Each square root is the float nearest to the true one.
 * The roots are a table of 52, which the program `roots` works out anew and prints.
 * Refused: 1, 4 (energies_len or factors_len is not rows*52, or noise_len not 52), 15 (over 2,048 rows; eps not in 0..0.5; r not in
 * 1..1,000; one of the 52 noises not in 2^-20..10^9; one of the 52 energies of a row not in 0..10^9). */
uint32_t ion_local_noise(uint8_t mode, uint8_t kind, uint32_t rows, const float *energies, size_t energies_len, const float *noise,
                         size_t noise_len, float eps, float r, float *factors, size_t factors_len);

/* The drift, in samples a symbol, by up to 64 blocks, whose fields come in two lists of one length: twice the place, counted in symbols,
 * 0 to 4,096 and never falling, and the timing in samples, within +-4,096. Below six blocks 0.
 * Refused: 1, 4 (two lengths), 10 (over 64 blocks, a block out of range or falling). */
uint32_t ion_fit_drift(uint8_t mode, const uint32_t *places, size_t places_len, const double *timings, size_t timings_len,
                       double *drift);

/* What is kept of a burst between its symbols; all zeros is a fresh one. n: the calls made. shift: by how many samples the next symbol's
 * window is moved. tnum, tden: the present block's sums. drift: samples a symbol. blocks: how many are listed. */
typedef struct {
    size_t n;
    int32_t shift;
    double tnum, tden, drift;
    size_t blocks;
} ion_tracker;

/* One symbol of a burst, over the tracker's fields, its 2,048 shifts and the fields of its 64 blocks in two lists. heard: ION_MISSED
 * (the three doubles are not looked at), anything else Heard. early, late: the tone's energy in a window some samples before and after
 * the symbol's, noise: what of it is expected to be noise, all in one unit.
 * Refused: 1, 4 (a length, or two lengths), 8 (early, late or noise not in 0..10^9), 9 (2,048 calls made, or the tracker's rule is
 * broken), 10 (a listed block out of range or falling). */
uint32_t ion_track_timing(uint8_t mode, size_t *n, int32_t *shift, double *tnum, double *tden, double *drift, size_t *blocks,
                          int32_t *shifts, size_t shifts_len, uint32_t *places, size_t places_len, double *timings,
                          size_t timings_len, uint8_t heard, double early, double late, double noise);

/* The same over a tracker. */
static inline uint32_t ion_track(uint8_t mode, ion_tracker *t, int32_t *shifts, size_t shifts_len, uint32_t *places,
                                 size_t places_len, double *timings, size_t timings_len, uint8_t heard, double early, double late,
                                 double noise) {
    return ion_track_timing(mode, &t->n, &t->shift, &t->tnum, &t->tden, &t->drift, &t->blocks, shifts, shifts_len, places, places_len,
                            timings, timings_len, heard, early, late, noise);
}

#ifdef __cplusplus
}
#endif

#endif
