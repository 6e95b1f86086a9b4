/*
 * Random calls of all entries, to be run under valgrind: every slice and every state is allocated by itself and
 * exactly as long as it is lent, so that an access outside shows; slices to be written are often left as malloc
 * gives them, so that a decision on their old content shows, too. Levels, characters, codes, tones, lengths and
 * states are now and then out of range. Also checks that a refusal leaves what was lent as it was, that a result
 * keeps within its range, that a preview leaves the station and answers as the offer does, that a run with a report
 * does what one without does, and that every answer and every cause of a fault comes.
 *
 *     memory [ROUNDS]
 */
#include "cuyrapaq.h"

#include <stdio.h>
#include <stdlib.h>
#include <string.h>

#define STATIONS 6
#define ROUNDS 15000
#define ANSWERS 19 /* 0 to 12, and 18 */
#define CAUSES 6 /* 1 to 5 */
#define LONGEST (480 + 256 * 480) /* ms of a preview: a DTMF code of four keys on the line, and 256 that wait */
#define PATTERN 0xA5

static unsigned long failures, answers[ANSWERS], previews[ANSWERS], drifts[ANSWERS], edges, causes[CAUSES];

static void check(int holds, const char *what)
{
    if (!holds) {
        failures++;
        printf("memory: %s\n", what);
    }
}

/* Counts an answer; gives back whether it is a success. */
static int succeeds(uint8_t answer)
{
    check(answer < ANSWERS, "answer");
    answers[answer % ANSWERS]++;
    return answer == CQ_OK;
}

/* A small random source (xorshift). */
static uint32_t random_state = 45;

static unsigned below(unsigned limit)
{
    random_state ^= random_state << 13;
    random_state ^= random_state >> 17;
    random_state ^= random_state << 5;
    return (random_state >> 8) % limit;
}

static int one_in(unsigned times)
{
    return below(times) == 0;
}

static size_t any_length(void)
{
    return one_in(4) ? below(5) : one_in(3) ? below(900) : below(80);
}

/* The ms of a run: few, many, the most, or too many. */
static size_t any_ms(void)
{
    return one_in(8) ? below(4000) : one_in(40) ? 4096u + below(3) : below(200);
}

/* The length of a slice to be written, `wanted` or more, or too short. */
static size_t room_for(size_t wanted)
{
    if (wanted > 0 && one_in(10)) {
        return below((unsigned)wanted);
    }
    return one_in(3) ? wanted + below(4) : wanted;
}

/* Memory of so many bytes and not one more. */
static void *lend(size_t bytes)
{
    void *memory = malloc(bytes);
    if (memory == NULL) {
        fputs("memory: malloc gave none\n", stderr);
        exit(2);
    }
    return memory;
}

/* A slice of values below `limit`; now and then one of them is any byte. */
static uint8_t *lend_values(size_t length, unsigned limit)
{
    uint8_t *values = lend(length);
    size_t i;
    for (i = 0; i < length; i++) {
        values[i] = (uint8_t)below(limit);
    }
    if (length > 0 && one_in(10)) {
        values[below((unsigned)length)] = (uint8_t)below(256);
    }
    return values;
}

/* A slice to be written: left as it came, or filled so that a refusal can be checked. */
struct slice {
    void *memory;
    size_t bytes;
    int filled;
};

static struct slice lend_slice(size_t bytes)
{
    struct slice slice;
    slice.memory = lend(bytes);
    slice.bytes = bytes;
    slice.filled = one_in(2);
    if (slice.filled) {
        memset(slice.memory, PATTERN, bytes);
    }
    return slice;
}

/* Whether the bytes from `from` on are as they were lent; yes if they were not filled. */
static int stays(const struct slice *slice, size_t from)
{
    const uint8_t *bytes = slice->memory;
    size_t i;
    for (i = from; slice->filled && i < slice->bytes; i++) {
        if (bytes[i] != PATTERN) {
            return 0;
        }
    }
    return 1;
}

static int all_below(const uint8_t *values, size_t length, unsigned limit)
{
    size_t i;
    for (i = 0; i < length; i++) {
        if (values[i] >= limit) {
            return 0;
        }
    }
    return 1;
}

/* Changes some bytes of a state. */
static void damage(void *state, size_t bytes)
{
    uint8_t *at = state;
    unsigned times = 1 + below(3);
    for (; times > 0; times--) {
        at[below((unsigned)bytes)] = (uint8_t)(one_in(2) ? below(256) : below(4));
    }
}

static void baudot_send(void)
{
    size_t length = any_length();
    uint8_t *text = lend_values(length, 128);
    uint8_t shift = (uint8_t)(one_in(20) ? below(256) : below(3)), count = (uint8_t)(one_in(20) ? below(256) : below(73));
    struct slice codes = lend_slice(room_for(CQ_BAUDOT_CODES_MAX(length)));
    cq_baudot_sent r = cq_baudot_send(text, length, shift, count, codes.memory, codes.bytes);
    check(stays(&codes, r.length), "codes behind the result");
    if (succeeds(r.answer)) {
        check(r.length <= codes.bytes && all_below(codes.memory, r.length, 32), "codes");
        check(r.shift <= 2 && r.count <= 72, "shift and count");
    } else {
        check(r.length == 0 && r.shift == shift && r.count == count, "refusal of cq_baudot_send");
    }
    free(text);
    free(codes.memory);
}

static void baudot_read(void)
{
    size_t length = any_length();
    uint8_t *codes = lend_values(length, 32);
    uint8_t shift = (uint8_t)(one_in(20) ? below(256) : 1 + below(2));
    struct slice text = lend_slice(room_for(CQ_BAUDOT_TEXT_MAX(length)));
    cq_baudot_text r = cq_baudot_read(codes, length, shift, text.memory, text.bytes);
    check(stays(&text, r.length), "text behind the result");
    if (succeeds(r.answer)) {
        check(r.length <= text.bytes && all_below(text.memory, r.length, 128), "text");
        check(r.shift == 1 || r.shift == 2, "shift");
    } else {
        check(r.length == 0 && r.shift == shift, "refusal of cq_baudot_read");
    }
    free(codes);
    free(text.memory);
}

/* A set runs several times; a tone lasts for some calls. */
static void calling(void)
{
    cq_calling *state = lend(sizeof *state), before;
    unsigned times = 1 + below(6);
    *state = cq_calling_fresh();
    for (; times > 0; times--) {
        size_t ms = any_ms();
        uint8_t *tones = lend_values(ms, one_in(2) ? 12 : 1), answer;
        struct slice sent = lend_slice(room_for(ms));
        cq_calling_chosen chosen;
        if (one_in(10)) {
            damage(state, sizeof *state);
        }
        before = *state;
        answer = cq_calling_run(state, tones, ms, sent.memory, sent.bytes);
        check(stays(&sent, answer == CQ_OK ? ms : 0), "sent ms behind the result");
        if (succeeds(answer)) {
            check(ms <= sent.bytes && all_below(sent.memory, ms, 3), "sent ms of the calling set");
        } else {
            check(memcmp(state, &before, sizeof before) == 0, "refusal of cq_calling_run");
        }
        before = *state;
        chosen = cq_calling_choice(state);
        check(memcmp(state, &before, sizeof before) == 0, "the state behind cq_calling_choice");
        check((chosen.answer == CQ_REFUSED_CALLING_STATE) == (answer == CQ_REFUSED_CALLING_STATE), "answer of a choice");
        check(succeeds(chosen.answer) ? chosen.choice == state->choice : chosen.choice == CQ_TONE_NONE, "choice");
        free(tones);
        free(sent.memory);
    }
    free(state);
}

static cq_station *stations[STATIONS];

/* By fields: the three bytes behind `level` have no meaning. */
static int same_station(const cq_station *a, const cq_station *b)
{
    return memcmp(&a->core, &b->core, sizeof a->core) == 0 && memcmp(a->chars, b->chars, sizeof a->chars) == 0 &&
           memcmp(&a->edges.seen, &b->edges.seen, sizeof a->edges.seen) == 0 && a->edges.level == b->edges.level;
}

static void open_station(cq_station *station)
{
    uint8_t mode = (uint8_t)(one_in(10) ? below(256) : 1 + below(4));
    uint8_t answer = cq_station_open(station, mode);
    check(succeeds(answer) == (mode >= 1 && mode <= 4), "answer of an opening");
}

static void offer(cq_station *station)
{
    size_t length = any_length();
    uint8_t *text = lend_values(length, 128);
    cq_station before = *station;
    if (succeeds(cq_station_offer(station, text, length))) {
        check(station->core.waiting <= CQ_STATION_WAITING_MAX, "how many wait");
    } else {
        check(same_station(station, &before), "refusal of cq_station_offer");
    }
    free(text);
}

static int is_idle(const cq_station *station)
{
    return station->core.waiting == 0 && station->core.line.part == 0;
}

/* A preview, of no text or of any, and the offer of the same text to a copy. */
static void preview(const cq_station *station)
{
    size_t length = one_in(3) ? 0 : any_length();
    uint8_t *text = lend_values(length, 128), *text_before = lend(length);
    cq_station *copy = lend(sizeof *copy), before = *station;
    cq_station_previewed r;
    memcpy(text_before, text, length);
    *copy = *station;
    r = cq_station_preview(station, text, length);
    check(same_station(station, &before), "the station behind cq_station_preview");
    check(memcmp(text, text_before, length) == 0, "the text behind cq_station_preview");
    check(r.answer == cq_station_offer(copy, text, length), "answer of a preview");
    previews[r.answer % ANSWERS]++;
    if (succeeds(r.answer)) {
        check(r.ms <= LONGEST && (r.ms == 0) == is_idle(copy), "ms of a preview");
    } else {
        check(r.ms == 0, "refusal of cq_station_preview");
    }
    free(text);
    free(text_before);
    free(copy);
}

/* Whether a frame of the mode can break at this ms for this cause: quiet (1) at the middle of any element behind the
 * start, a stop that is not mark (2) at that of a stop, odd parity (3) at that of the parity. */
static int breaks(uint8_t mode, uint32_t ms, uint32_t cause)
{
    int edt = mode == CQ_MODE_EDT;
    uint32_t e = mode == CQ_MODE_BAUDOT_45 ? 22 : 20, elements = edt ? 11 : 7, digits = edt ? 7 : 5, element;
    for (element = 1; element < elements; element++) {
        if (ms == (edt ? (100 * element + 50) / 11 : e * element + e / 2)) {
            int parity = edt && element == digits + 1;
            return cause == 1 || (cause == 2 && element > digits && !parity) || (cause == 3 && parity);
        }
    }
    return 0;
}

/* Whether each of the words is a character, or a fault that a reader of the mode can give: kind 1, the ms from bit 8
 * on, the cause in the lowest four. Counts the causes. */
static int are_words(uint8_t mode, const uint32_t *words, size_t count)
{
    size_t i;
    for (i = 0; i < count; i++) {
        uint32_t ms = words[i] >> 8 & 0xFFFFF, cause = words[i] & 0xF;
        if (words[i] <= 0x7F) {
            continue;
        }
        if (words[i] != (0x10000000 | ms << 8 | cause) ||
            !(mode == CQ_MODE_DTMF ? ms == 0 && (cause == 4 || cause == 5) : breaks(mode, ms, cause))) {
            return 0;
        }
        causes[cause]++;
    }
    return 1;
}

/* Baudot codes, one behind the other, with edges that come late and are not clean. */
static void codes(uint8_t *heard, size_t ms, size_t e)
{
    size_t i;
    unsigned code = 0;
    for (i = 0; i < ms; i++) {
        size_t at = i % (6 * e + 3 * e / 2), element = at / e;
        code = at == 0 ? below(32) : code;
        heard[i] = element == 0 || (element < 6 && (code >> (element - 1)) % 2 == 0) ? CQ_LEVEL_SPACE : CQ_LEVEL_MARK;
        heard[i] = i > 0 && at % e < below(5) ? heard[i - 1] : heard[i];
    }
}

/* Heard ms: all quiet, runs of one level, or any level in each ms; in Baudot also codes; in DTMF also keys that count,
 * many of them * and #, with quiet between them. */
static uint8_t *lend_heard(size_t ms, uint8_t mode)
{
    unsigned levels = one_in(3) ? 1u : CQ_LEVEL_MAX(mode) + 1u;
    uint8_t *heard = lend_values(ms, levels);
    size_t i;
    if ((mode == CQ_MODE_BAUDOT_45 || mode == CQ_MODE_BAUDOT_50) && one_in(3)) {
        codes(heard, ms, mode == CQ_MODE_BAUDOT_45 ? 22 : 20);
    } else if (mode == CQ_MODE_DTMF && one_in(3)) {
        for (i = 0; i < ms; i++) {
            uint8_t next = (uint8_t)(one_in(2) ? CQ_KEY_STAR + below(2) : 1 + below(CQ_KEY_D));
            heard[i] = i / 45 % 2 == 1 ? CQ_LEVEL_QUIET : i % 45 == 0 ? next : heard[i - 1];
        }
    } else if (one_in(2)) {
        for (i = 1; i < ms; i++) {
            heard[i] = one_in(25) ? heard[i] : heard[i - 1];
        }
    }
    return heard;
}

static void run(cq_station *station)
{
    size_t ms = any_ms();
    uint8_t *heard = lend_heard(ms, station->core.mode);
    struct slice sent = lend_slice(room_for(ms)), words = lend_slice(room_for(ms) * sizeof(uint32_t));
    cq_station before = *station;
    cq_station_ran r = cq_station_run(station, heard, ms, sent.memory, sent.bytes, words.memory,
                                      words.bytes / sizeof(uint32_t));
    check(stays(&sent, r.answer == CQ_OK ? ms : 0), "sent ms behind the result");
    check(stays(&words, r.words * sizeof(uint32_t)), "words behind the result");
    if (succeeds(r.answer)) {
        check(ms <= sent.bytes && all_below(sent.memory, ms, CQ_LEVEL_MAX(station->core.mode) + 1u), "sent ms");
        check(r.words <= ms && are_words(station->core.mode, words.memory, r.words), "words");
    } else {
        check(r.words == 0 && same_station(station, &before), "refusal of cq_station_run");
    }
    free(heard);
    free(sent.memory);
    free(words.memory);
}

/* A report: fresh, of some edges, or almost full; now and then damaged. */
static cq_drift_report *lend_report(void)
{
    cq_drift_report *report = lend(sizeof *report);
    memset(report, 0, sizeof *report);
    if (one_in(2)) {
        report->edges = one_in(2) ? 1 + below(1000) : CQ_DRIFT_EDGES_MAX - below(4);
        report->smallest = -(int32_t)below(12);
        report->largest = (int32_t)below(12);
        report->sum = (int32_t)below(22 * report->edges + 1) - 11 * (int32_t)report->edges;
    }
    if (one_in(20)) {
        damage(report, sizeof *report);
    }
    return report;
}

/* A run with a report, and one without on a copy: the same, unless the report is refused. */
static void run_drift(cq_station *station)
{
    size_t ms = any_ms(), words_length;
    uint8_t *heard = lend_heard(ms, station->core.mode);
    struct slice sent = lend_slice(room_for(ms)), words = lend_slice(room_for(ms) * sizeof(uint32_t));
    uint8_t *sent_too = lend(sent.bytes);
    uint32_t *words_too = lend(words.bytes);
    cq_station *copy = lend(sizeof *copy), before = *station;
    cq_drift_report *report = lend_report(), report_before = *report;
    cq_station_ran r, plain;
    *copy = *station;
    words_length = words.bytes / sizeof(uint32_t);
    r = cq_station_run_drift(station, heard, ms, sent.memory, sent.bytes, words.memory, words_length, report);
    plain = cq_station_run(copy, heard, ms, sent_too, sent.bytes, words_too, words_length);
    check(stays(&sent, r.answer == CQ_OK ? ms : 0), "sent ms behind the result");
    check(stays(&words, r.words * sizeof(uint32_t)), "words behind the result");
    drifts[r.answer % ANSWERS]++;
    if (succeeds(r.answer)) {
        check(plain.answer == CQ_OK && plain.words == r.words && same_station(station, copy) &&
                  memcmp(sent.memory, sent_too, ms) == 0 &&
                  memcmp(words.memory, words_too, r.words * sizeof(uint32_t)) == 0,
              "what cq_station_run does");
        check(report->edges >= report_before.edges && report->edges <= CQ_DRIFT_EDGES_MAX &&
                  report->sum <= 11 * (int32_t)report->edges && -report->sum <= 11 * (int32_t)report->edges &&
                  report->smallest >= -11 && report->largest <= 11,
              "the report");
        check(report->edges > report_before.edges ||
                  memcmp(report, &report_before, sizeof report_before) == 0, "a report without another edge");
        edges += report->edges - report_before.edges;
    } else {
        check(r.words == 0 && same_station(station, &before) &&
                  memcmp(report, &report_before, sizeof report_before) == 0,
              "refusal of cq_station_run_drift");
        check(r.answer == plain.answer || r.answer == CQ_REFUSED_STATE ||
                  (r.answer == CQ_REFUSED_REPORT_FULL && plain.answer == CQ_OK),
              "answer of cq_station_run_drift");
    }
    free(heard);
    free(sent.memory);
    free(words.memory);
    free(sent_too);
    free(words_too);
    free(copy);
    free(report);
}

/* One call of a station. A damaged one that is refused is opened anew after a while. */
static void station_call(void)
{
    cq_station *station = stations[below(STATIONS)];
    unsigned which = below(40);
    if (which == 0) {
        open_station(station);
    } else if (which == 1) {
        damage(station, one_in(2) ? sizeof(cq_core) : sizeof *station);
    } else if (which < 10) {
        offer(station);
    } else if (which < 14) {
        preview(station);
    } else if (which < 24) {
        run_drift(station);
    } else {
        run(station);
    }
}

int main(int argc, char **argv)
{
    long rounds = argc > 1 ? strtol(argv[1], NULL, 10) : ROUNDS, i;
    if (argc > 2 || rounds <= 0) {
        fputs("usage: memory [ROUNDS]\n", stderr);
        return 2;
    }
    for (i = 0; i < STATIONS; i++) {
        stations[i] = lend(sizeof *stations[i]);
        open_station(stations[i]);
    }
    for (i = 0; i < rounds; i++) {
        switch (below(8)) {
        case 0: baudot_send(); break;
        case 1: baudot_read(); break;
        case 2: calling(); break;
        default: station_call(); break;
        }
    }
    for (i = 0; i < STATIONS; i++) {
        free(stations[i]);
    }
    for (i = 0; i < ANSWERS && rounds >= ROUNDS; i++) {
        int run = i == CQ_OK || i == CQ_REFUSED_STATE || (i >= CQ_REFUSED_DURATION && i <= CQ_REFUSED_WORD_SLICE);
        check((answers[i] > 0) == (i <= CQ_REFUSED_CALLING_STATE || i == CQ_REFUSED_REPORT_FULL),
              "an answer that never comes, or is none");
        check((drifts[i] > 0) == (run || i == CQ_REFUSED_REPORT_FULL),
              "an answer of runs with a report that never comes, or is none of theirs");
    }
    check(edges > 0 || rounds < ROUNDS, "an edge that never comes");
    for (i = 0; i < ANSWERS && rounds >= ROUNDS; i++) {
        int given = i == CQ_OK || i == CQ_REFUSED_STATE || i == CQ_REFUSED_CHARACTER || i == CQ_REFUSED_FULL;
        check((previews[i] > 0) == given, "an answer of previews that never comes, or is none of theirs");
    }
    for (i = 1; i < CAUSES && rounds >= ROUNDS; i++) {
        check(causes[i] > 0, "a cause that never comes");
    }
    if (failures != 0) {
        printf("memory: %lu checks failed\n", failures);
        return 1;
    }
    printf("memory: %ld rounds passed; times that each answer came, from 0 on:", rounds);
    for (i = 0; i < ANSWERS; i++) {
        printf(" %lu", answers[i]);
    }
    fputs("; of previews:", stdout);
    for (i = 0; i <= CQ_REFUSED_FULL; i++) {
        printf(" %lu", previews[i]);
    }
    fputs("; of runs with a report:", stdout);
    for (i = 0; i < ANSWERS; i++) {
        printf(" %lu", drifts[i]);
    }
    printf("; edges: %lu", edges);
    fputs("; each cause, from 1 on:", stdout);
    for (i = 1; i < CAUSES; i++) {
        printf(" %lu", causes[i]);
    }
    putchar('\n');
    return 0;
}
