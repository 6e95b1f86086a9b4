/*
 * Goes through test vectors (vectors/README.md) by the entries: what a station sends for each text, what a
 * station reads from each line and in which ms, in runs of several lengths; in Baudot the bare conversions too;
 * what a preview tells, and that it comes true.
 *
 *     vectors FILE...
 */
#include "cuyrapaq.h"

#include <stdio.h>
#include <stdlib.h>
#include <string.h>

#define MOST_MS 40000
#define MOST_ITEMS 1000 /* codes, words, characters or offers of a case */

struct offer {
    unsigned long ms;
    uint8_t character;
};

struct word {
    unsigned long ms;
    uint32_t word;
};

/* One case as it stands in the file. */
struct vector {
    int sends, previews; /* `send`, `preview`, or neither: `hear` */
    char name[120];
    size_t offers, codes, ms, words, with;
    unsigned long told; /* the ms that a preview tells */
    int tells;          /* whether they have been given */
    struct offer offer[MOST_ITEMS];
    char code[MOST_ITEMS][8];
    uint8_t level[MOST_MS];
    struct word word[MOST_ITEMS];
    uint8_t text[MOST_ITEMS]; /* of a preview */
};

static const char *file;
static unsigned long line_number, cases, previews, failures;
static uint8_t mode;
static struct vector vector;

static void bad_line(const char *why)
{
    fprintf(stderr, "vectors: %s, line %lu: %s\n", file, line_number, why);
    exit(2);
}

static void check(int holds, const char *what, unsigned long number)
{
    if (!holds) {
        failures++;
        printf("vectors: %s, %s: %s (%lu)\n", file, vector.name, what, number);
    }
}

/* Sending. */

/* The ms of the next offer behind `ms`, or the end of the line. */
static size_t next_offer(size_t ms)
{
    size_t i;
    for (i = 0; i < vector.offers; i++) {
        if (vector.offer[i].ms > ms) {
            return vector.offer[i].ms;
        }
    }
    return vector.ms;
}

static void offer_all(cq_station *station, size_t ms)
{
    size_t i;
    for (i = 0; i < vector.offers; i++) {
        if (vector.offer[i].ms == ms) {
            check(cq_station_offer(station, &vector.offer[i].character, 1) == CQ_OK, "an offer", i);
        }
    }
}

static size_t least(size_t one, size_t other)
{
    return one < other ? one : other;
}

/* A fresh station sends the line, in runs of at most `cut` ms. */
static void sends(size_t cut)
{
    static const uint8_t quiet[CQ_STATION_MS_MAX];
    static uint8_t sent[CQ_STATION_MS_MAX];
    static uint32_t words[CQ_STATION_MS_MAX];
    cq_station station;
    size_t ms, length;
    cq_station_open(&station, mode);
    for (ms = 0; ms < vector.ms; ms += length) {
        cq_station_ran ran;
        offer_all(&station, ms);
        length = least(least(cut, next_offer(ms) - ms), vector.ms - ms);
        ran = cq_station_run(&station, quiet, length, sent, length, words, length);
        check(ran.answer == CQ_OK && ran.words == 0, "a run that sends", ms);
        check(memcmp(sent, vector.level + ms, length) == 0, "sent ms", ms);
    }
    check(station.core.waiting == 0, "all is sent", cut);
}

/* Reading. */

/* A fresh station reads the words from the line, in runs of at most `cut` ms, each word in the run of its ms. */
static void reads(size_t cut)
{
    static uint8_t sent[CQ_STATION_MS_MAX];
    static uint32_t words[CQ_STATION_MS_MAX];
    cq_station station;
    size_t i, ms, length, at = 0;
    cq_station_open(&station, mode);
    for (ms = 0; ms < vector.ms; ms += length) {
        cq_station_ran ran;
        length = least(cut, vector.ms - ms);
        ran = cq_station_run(&station, vector.level + ms, length, sent, length, words, length);
        check(ran.answer == CQ_OK, "a run that reads", ms);
        for (i = 0; i < ran.words; i++, at++) {
            const struct word *word = &vector.word[at];
            check(at < vector.words && word->word == words[i], "word", at);
            check(at < vector.words && word->ms >= ms && word->ms < ms + length, "ms of a word", at);
        }
    }
    check(at == vector.words, "number of words", at);
}

/* Previews. */

static void run_quiet(cq_station *station, size_t ms, size_t cut)
{
    static const uint8_t quiet[CQ_STATION_MS_MAX];
    static uint8_t sent[CQ_STATION_MS_MAX];
    static uint32_t words[CQ_STATION_MS_MAX];
    size_t length;
    for (; ms > 0; ms -= length) {
        length = least(cut, ms);
        check(cq_station_run(station, quiet, length, sent, length, words, length).answer == CQ_OK, "a quiet run", ms);
    }
}

static int is_idle(const cq_station *station)
{
    return station->core.waiting == 0 && station->core.line.part == 0;
}

/* A fresh station hears the line, in runs of at most `cut` ms. Behind it the preview tells the ms; offered the text,
 * the station is idle after so many ms of quiet, and not before. */
static void tells(size_t cut)
{
    static uint8_t sent[CQ_STATION_MS_MAX];
    static uint32_t words[CQ_STATION_MS_MAX];
    cq_station station, before;
    cq_station_previewed previewed;
    size_t ms = 0, length;
    cq_station_open(&station, mode);
    offer_all(&station, 0);
    for (; ms < vector.ms; offer_all(&station, ms)) {
        cq_station_ran ran;
        length = least(least(cut, next_offer(ms) - ms), vector.ms - ms);
        ran = cq_station_run(&station, vector.level + ms, length, sent, length, words, length);
        check(ran.answer == CQ_OK, "a run ahead of a preview", ms);
        ms += length;
    }
    before = station;
    previewed = cq_station_preview(&station, vector.text, vector.with);
    check(previewed.answer == CQ_OK && previewed.ms == vector.told, "ms of a preview", previewed.ms);
    check(memcmp(&station.core, &before.core, sizeof station.core) == 0 &&
              memcmp(&station.edges.seen, &before.edges.seen, sizeof station.edges.seen) == 0 &&
              station.edges.level == before.edges.level &&
              memcmp(station.chars, before.chars, sizeof station.chars) == 0,
          "a preview leaves the station", cut);
    check(cq_station_offer(&station, vector.text, vector.with) == CQ_OK, "the offer of the text", cut);
    if (vector.told > 0) {
        run_quiet(&station, vector.told - 1, cut);
        check(!is_idle(&station), "not idle before the last ms", cut);
        run_quiet(&station, 1, cut);
    }
    check(is_idle(&station), "idle behind the last ms", cut);
}

/* Codes. */

static uint8_t five_bits(const char *code)
{
    return (uint8_t)strtoul(code, NULL, 2);
}

#define PREAMBLE 150 /* ms in Baudot */

/* The code of a frame that begins at a ms, in elements of `e` ms. */
static uint8_t frame_at(size_t ms, size_t e)
{
    uint8_t code = 0;
    size_t digit;
    for (digit = 0; digit < 5; digit++) {
        size_t sample = ms + e * (digit + 1) + e / 2;
        code |= (uint8_t)((sample < vector.ms && vector.level[sample] == CQ_LEVEL_MARK) << digit);
    }
    return code;
}

/* In Baudot the codes are the frames of the line. Notes which of them stand behind a preamble. */
static void has_frames(char opens[MOST_ITEMS])
{
    size_t e = mode == CQ_MODE_BAUDOT_45 ? 22 : 20, at = 0, ms = 0;
    memset(opens, 0, MOST_ITEMS);
    while (ms < vector.ms) {
        if (vector.level[ms] == CQ_LEVEL_QUIET) {
            ms++;
        } else if (vector.level[ms] == CQ_LEVEL_MARK) {
            ms += PREAMBLE;
            check(at < vector.codes, "a preamble without a code", ms);
            opens[at % MOST_ITEMS] = 1;
        } else {
            check(at < vector.codes && five_bits(vector.code[at]) == frame_at(ms, e), "code in the line", ms);
            ms += 6 * e + 3 * e / 2;
            at++;
        }
    }
    check(at == vector.codes, "number of codes in the line", at);
}

/* A burst opens with the shift in force, or with letters if the sender is fresh. The other codes are those of the
 * bare conversion, character by character; it reads the words from all of them. */
static void converts(void)
{
    static char opens[MOST_ITEMS];
    uint8_t shift = CQ_SHIFT_FRESH, count = 0, codes[CQ_BAUDOT_CODES_MAX(1)], text;
    size_t i, j, at = 0;
    if (vector.sends || vector.codes > 0) {
        has_frames(opens);
    }
    for (i = 0; i < vector.offers; i++) {
        cq_baudot_sent sent;
        if (at < vector.codes && opens[at]) {
            shift = shift == CQ_SHIFT_FIGURES ? CQ_SHIFT_FIGURES : CQ_SHIFT_LETTERS;
            check(five_bits(vector.code[at++]) == (shift == CQ_SHIFT_LETTERS ? 31 : 27), "first code of a burst", i);
            count = 0;
        }
        sent = cq_baudot_send(&vector.offer[i].character, 1, shift, count, codes, sizeof codes);
        check(sent.answer == CQ_OK, "cq_baudot_send", i);
        for (j = 0; j < sent.length; j++, at++) {
            check(at < vector.codes && five_bits(vector.code[at]) == codes[j], "code", at);
        }
        shift = sent.shift;
        count = sent.count;
    }
    check(!vector.sends || at == vector.codes, "number of codes", at);
    shift = CQ_SHIFT_LETTERS;
    for (i = at = 0; i < vector.codes; i++) {
        uint8_t code = five_bits(vector.code[i]);
        cq_baudot_text read = cq_baudot_read(&code, 1, shift, &text, 1);
        check(read.answer == CQ_OK, "cq_baudot_read", i);
        check(read.length == 0 || (at < vector.words && vector.word[at].word == text), "character of a code", i);
        at += read.length;
        shift = read.shift;
    }
    check(vector.codes == 0 || at == vector.words, "number of characters", at);
}

/* In DTMF the codes, end to end, are the keys of the line. */
static void has_keys(void)
{
    size_t ms = 0, i;
    const char *key;
    for (i = 0; i < vector.codes; i++) {
        for (key = vector.code[i]; *key != '\0'; key++) {
            while (ms < vector.ms && vector.level[ms] == CQ_LEVEL_QUIET) {
                ms++;
            }
            check(ms < vector.ms && *key == "1234567890*#ABCD"[vector.level[ms] - 1], "key", ms);
            while (ms < vector.ms && vector.level[ms] != CQ_LEVEL_QUIET) {
                ms++;
            }
        }
    }
}

/* In EDT the codes are the characters. */
static void has_characters(void)
{
    size_t i;
    check(!vector.sends || vector.codes == vector.offers, "number of codes", vector.codes);
    for (i = 0; i < vector.codes && i < vector.offers; i++) {
        check(strtoul(vector.code[i], NULL, 16) == vector.offer[i].character, "code", i);
    }
}

static void try_case(void)
{
    static const size_t cuts[] = {1, 20, 333, CQ_STATION_MS_MAX};
    size_t i;
    for (i = 0; i < sizeof cuts / sizeof cuts[0]; i++) {
        if (vector.previews) {
            tells(cuts[i]);
            continue;
        }
        if (vector.sends) {
            sends(cuts[i]);
        }
        reads(cuts[i]);
    }
    if (vector.previews) {
        previews++;
    } else if (mode == CQ_MODE_DTMF) {
        has_keys();
    } else if (mode == CQ_MODE_EDT) {
        has_characters();
    } else {
        converts();
    }
    cases++;
}

/* The file. */

/* A number; `*at` moves behind it and behind the sign that must follow it, if it is not the end. */
static unsigned long number(char **at, int base, char follows)
{
    char *end;
    unsigned long value = strtoul(*at, &end, base);
    if (end == *at || **at == '-' || (*end != '\0' && *end != follows)) {
        bad_line("a number, or the sign behind it, is missing");
    }
    *at = *end == '\0' ? end : end + 1;
    return value;
}

static void full(size_t count)
{
    if (count == MOST_ITEMS) {
        bad_line("more items than the test takes");
    }
}

static void text_field(char *at)
{
    unsigned long ms = number(&at, 10, ' ');
    while (*at != '\0') {
        full(vector.offers);
        vector.offer[vector.offers].ms = ms;
        vector.offer[vector.offers++].character = (uint8_t)number(&at, 16, ' ');
    }
}

static void codes_field(char *at)
{
    char *code;
    for (code = strtok(at, " "); code != NULL; code = strtok(NULL, " ")) {
        full(vector.codes);
        if (strlen(code) >= sizeof vector.code[0]) {
            bad_line("a code is too long");
        }
        strcpy(vector.code[vector.codes++], code);
    }
}

static void line_field(char *at)
{
    while (*at != '\0') {
        unsigned long level = number(&at, 10, ':'), ms = number(&at, 10, ' ');
        if (level > (unsigned long)CQ_LEVEL_MAX(mode) || ms > MOST_MS - vector.ms) {
            bad_line("no level of the mode, or more ms than the test takes");
        }
        memset(vector.level + vector.ms, (int)level, ms);
        vector.ms += ms;
    }
}

static void words_field(char *at)
{
    while (*at != '\0') {
        struct word *word = &vector.word[vector.words];
        full(vector.words++);
        word->ms = number(&at, 10, ':');
        word->word = (uint32_t)number(&at, 16, ' ');
    }
}

static void with_field(char *at)
{
    while (*at != '\0') {
        full(vector.with);
        vector.text[vector.with++] = (uint8_t)number(&at, 16, ' ');
    }
}

static void ms_field(char *at)
{
    vector.told = number(&at, 10, ' ');
    vector.tells = 1;
}

static void end_case(void)
{
    if (vector.name[0] != '\0') {
        if (vector.previews ? !vector.tells : vector.ms == 0) {
            bad_line("the case above has no line, or is a preview without its ms");
        }
        try_case();
    }
}

static void begin_case(const char *kind, const char *name)
{
    end_case();
    memset(&vector, 0, sizeof vector);
    vector.sends = strcmp(kind, "send") == 0;
    vector.previews = strcmp(kind, "preview") == 0;
    strncpy(vector.name, name, sizeof vector.name - 1);
}

static void mode_field(char *at)
{
    cq_station station;
    mode = (uint8_t)number(&at, 10, ' ');
    if (cq_station_open(&station, mode) != CQ_OK) {
        bad_line("unknown mode");
    }
}

static void take_line(char *line)
{
    char *rest = strchr(line, ' ');
    if (line[0] == '\0') {
        return;
    }
    if (rest == NULL) {
        bad_line("a name and a space are missing");
    }
    *rest++ = '\0';
    if (strcmp(line, "mode") == 0) {
        mode_field(rest);
    } else if (strcmp(line, "send") == 0 || strcmp(line, "hear") == 0 || strcmp(line, "preview") == 0) {
        begin_case(line, rest);
    } else if (strcmp(line, "text") == 0) {
        text_field(rest);
    } else if (strcmp(line, "codes") == 0) {
        codes_field(rest);
    } else if (strcmp(line, "line") == 0) {
        line_field(rest);
    } else if (strcmp(line, "words") == 0) {
        words_field(rest);
    } else if (strcmp(line, "with") == 0) {
        with_field(rest);
    } else if (strcmp(line, "ms") == 0) {
        ms_field(rest);
    } else {
        bad_line("unknown name");
    }
}

static void take_file(const char *path)
{
    char line[200];
    FILE *stream = fopen(path, "r");
    file = path;
    line_number = cases = previews = 0;
    mode = 0;
    memset(&vector, 0, sizeof vector);
    if (stream == NULL) {
        bad_line("cannot be opened");
    }
    while (fgets(line, sizeof line, stream) != NULL) {
        line_number++;
        line[strcspn(line, "\n")] = '\0';
        take_line(line);
    }
    fclose(stream);
    end_case();
    if (cases == 0 || previews == 0) {
        bad_line("there is no case, or none is a preview");
    }
    printf("%s: %lu cases, %lu of them previews\n", path, cases, previews);
}

int main(int argc, char **argv)
{
    int i;
    if (argc < 2) {
        fputs("usage: vectors FILE...\n", stderr);
        return 2;
    }
    for (i = 1; i < argc; i++) {
        take_file(argv[i]);
    }
    if (failures != 0) {
        printf("vectors: %lu checks failed\n", failures);
        return 1;
    }
    puts("vectors: all passed");
    return 0;
}
