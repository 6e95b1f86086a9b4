/*
 * Calls all entries through the header: the worked examples, the calling set's timetable, pause and
 * choice, a station that sends to another, several bursts, previews and the most ms of sending, every fault word,
 * reports of drift, every refusal and what it leaves, empty slices, slices that fit exactly, and the bytes around the
 * result. Prints what failed.
 */
#include "cuyrapaq.h"

#include <stdio.h>
#include <string.h>

#define ROOM 12000  /* elements of the largest slice here */
#define GUARD 16    /* bytes of the pattern ahead of a slice and behind it */
#define PATTERN(i) ((uint8_t)(0xA5u ^ (unsigned)(i) * 37u))

static unsigned long checks, failures;

static void check(int holds, const char *what, const char *which)
{
    checks++;
    if (!holds) {
        failures++;
        printf("header: %s: %s\n", which, what);
    }
}

/* The slice that is written to stands in the middle of a pattern. */
static uint8_t area[GUARD + ROOM + GUARD];
static uint8_t *const slice = area + GUARD;

static void fill(void)
{
    size_t i;
    for (i = 0; i < sizeof area; i++) {
        area[i] = PATTERN(i);
    }
}

/* Whether only the first `length` elements of the slice can have been written. */
static int stays(size_t length)
{
    size_t i;
    for (i = 0; i < sizeof area; i++) {
        if ((i < GUARD || i >= GUARD + length) && area[i] != PATTERN(i)) {
            return 0;
        }
    }
    return 1;
}

/* Sends, expects success, these codes, and this shift and count; nothing else is written. */
static void sends(const char *which, const uint8_t *text, size_t length, uint8_t shift, uint8_t count, size_t room,
                  const uint8_t *codes, size_t codes_length, uint8_t shift_reached, uint8_t count_reached)
{
    static uint8_t before[ROOM];
    cq_baudot_sent r;
    fill();
    memcpy(before, text, length);
    r = cq_baudot_send(text, length, shift, count, slice, room);
    check(r.answer == CQ_OK, "sending is not refused", which);
    check(r.length == codes_length, "number of codes", which);
    check(memcmp(slice, codes, codes_length) == 0, "codes", which);
    check(stays(codes_length), "bytes around the codes stay", which);
    check(r.shift == shift_reached, "shift reached by sending", which);
    check(r.count == count_reached, "count reached", which);
    check(memcmp(before, text, length) == 0, "the text stays", which);
}

static void send_refused(const char *which, const uint8_t *text, size_t length, uint8_t shift, uint8_t count,
                         size_t room, uint8_t answer)
{
    cq_baudot_sent r;
    fill();
    r = cq_baudot_send(text, length, shift, count, slice, room);
    check(r.answer == answer, "refusal of sending", which);
    check(stays(0), "a refusal leaves the codes", which);
    check(r.shift == shift && r.count == count, "a refusal gives back shift and count", which);
    check(r.length == 0, "a refusal has length 0", which);
}

static void reads(const char *which, const uint8_t *codes, size_t length, uint8_t shift, size_t room,
                  const uint8_t *text, size_t text_length, uint8_t shift_reached)
{
    static uint8_t before[ROOM];
    cq_baudot_text r;
    fill();
    memcpy(before, codes, length);
    r = cq_baudot_read(codes, length, shift, slice, room);
    check(r.answer == CQ_OK, "reading is not refused", which);
    check(r.length == text_length, "number of characters", which);
    check(memcmp(slice, text, text_length) == 0, "characters", which);
    check(stays(text_length), "bytes around the text stay", which);
    check(r.shift == shift_reached, "shift reached by reading", which);
    check(memcmp(before, codes, length) == 0, "the codes stay", which);
}

static void read_refused(const char *which, const uint8_t *codes, size_t length, uint8_t shift, size_t room,
                         uint8_t answer)
{
    cq_baudot_text r;
    fill();
    r = cq_baudot_read(codes, length, shift, slice, room);
    check(r.answer == answer, "refusal of reading", which);
    check(stays(0), "a refusal leaves the text", which);
    check(r.shift == shift, "a refusal gives back the shift", which);
    check(r.length == 0, "a refusal has length 0", which);
}

/* The most ms of sending are constant where the mode and the number are. */
typedef char constant_size[CQ_SENDING_MS_MAX(CQ_MODE_BAUDOT_50, 1) == 600 ? 1 : -1];
enum { CONSTANT = CQ_SENDING_MS_MAX(CQ_MODE_DTMF, CQ_STATION_WAITING_MAX) };

static void layout(void)
{
    check(sizeof(cq_baudot_sent) == 16, "size", "cq_baudot_sent");
    check(offsetof(cq_baudot_sent, answer) == 0, "answer", "cq_baudot_sent");
    check(offsetof(cq_baudot_sent, shift) == 1, "shift", "cq_baudot_sent");
    check(offsetof(cq_baudot_sent, count) == 2, "count", "cq_baudot_sent");
    check(offsetof(cq_baudot_sent, length) == 8, "length", "cq_baudot_sent");
    check(sizeof(cq_baudot_text) == 16, "size", "cq_baudot_text");
    check(offsetof(cq_baudot_text, answer) == 0, "answer", "cq_baudot_text");
    check(offsetof(cq_baudot_text, shift) == 1, "shift", "cq_baudot_text");
    check(offsetof(cq_baudot_text, length) == 8, "length", "cq_baudot_text");
    check(CQ_BAUDOT_CODES_MAX(0) == 1 && CQ_BAUDOT_CODES_MAX(1) == 3 && CQ_BAUDOT_CODES_MAX(80 + 1) == 163,
          "CQ_BAUDOT_CODES_MAX", "macros");
    check(CQ_BAUDOT_TEXT_MAX(0) == 0 && CQ_BAUDOT_TEXT_MAX(80 + 1) == 81, "CQ_BAUDOT_TEXT_MAX", "macros");
    check(sizeof(cq_calling) == 6, "size", "cq_calling");
    check(offsetof(cq_calling, ms) == 0, "ms", "cq_calling");
    check(offsetof(cq_calling, place) == 2, "place", "cq_calling");
    check(offsetof(cq_calling, tone) == 4, "tone", "cq_calling");
    check(offsetof(cq_calling, choice) == 5, "choice", "cq_calling");
    check(sizeof(cq_calling_chosen) == 2, "size", "cq_calling_chosen");
    check(offsetof(cq_calling_chosen, answer) == 0, "answer", "cq_calling_chosen");
    check(offsetof(cq_calling_chosen, choice) == 1, "choice", "cq_calling_chosen");
    check(sizeof(cq_on_line) == 4 && sizeof(cq_sender) == 2 && sizeof(cq_frame) == 2 && sizeof(cq_keys) == 3 &&
              sizeof(cq_reader) == 7,
          "sizes", "parts of cq_core");
    check(sizeof(cq_core) == 20, "size", "cq_core");
    check(offsetof(cq_core, waiting) == 0, "waiting", "cq_core");
    check(offsetof(cq_core, silence) == 2, "silence", "cq_core");
    check(offsetof(cq_core, inhibited) == 4, "inhibited", "cq_core");
    check(offsetof(cq_core, line) == 6, "line", "cq_core");
    check(offsetof(cq_on_line, at) == 0 && offsetof(cq_on_line, part) == 2 && offsetof(cq_on_line, code) == 3,
          "fields", "cq_on_line");
    check(offsetof(cq_core, sender) == 10, "sender", "cq_core");
    check(offsetof(cq_sender, shift) == 0 && offsetof(cq_sender, count) == 1, "fields", "cq_sender");
    check(offsetof(cq_core, reader) == 12, "reader", "cq_core");
    check(offsetof(cq_reader, frame) == 0 && offsetof(cq_reader, keys) == 2 && offsetof(cq_reader, shift) == 5 &&
              offsetof(cq_reader, prefix) == 6,
          "fields", "cq_reader");
    check(offsetof(cq_frame, place) == 0 && offsetof(cq_frame, digits) == 1, "fields", "cq_frame");
    check(offsetof(cq_keys, key) == 0 && offsetof(cq_keys, ms) == 1 && offsetof(cq_keys, needed) == 2, "fields",
          "cq_keys");
    check(offsetof(cq_core, mode) == 19, "mode", "cq_core");
    check(sizeof(cq_drift_report) == 16, "size", "cq_drift_report");
    check(offsetof(cq_drift_report, edges) == 0 && offsetof(cq_drift_report, sum) == 4 &&
              offsetof(cq_drift_report, smallest) == 8 && offsetof(cq_drift_report, largest) == 12,
          "fields", "cq_drift_report");
    check(sizeof(cq_edges) == 20, "size", "cq_edges");
    check(offsetof(cq_edges, seen) == 0 && offsetof(cq_edges, level) == 16, "fields", "cq_edges");
    check(sizeof(cq_station) == 296, "size", "cq_station");
    check(offsetof(cq_station, core) == 0 && offsetof(cq_station, edges) == 20 && offsetof(cq_station, chars) == 40,
          "fields", "cq_station");
    check(sizeof(cq_station_ran) == 16, "size", "cq_station_ran");
    check(offsetof(cq_station_ran, answer) == 0 && offsetof(cq_station_ran, words) == 8, "fields", "cq_station_ran");
    check(sizeof(cq_station_previewed) == 8, "size", "cq_station_previewed");
    check(offsetof(cq_station_previewed, answer) == 0 && offsetof(cq_station_previewed, ms) == 4, "fields",
          "cq_station_previewed");
    check(CQ_MODE_BAUDOT_45 == 1 && CQ_MODE_BAUDOT_50 == 2 && CQ_MODE_DTMF == 3 && CQ_MODE_EDT == 4,
          "numbers of the modes", "macros");
    check(CQ_LEVEL_QUIET == 0 && CQ_LEVEL_MARK == 1 && CQ_LEVEL_SPACE == 2 && CQ_KEY_0 == 10 && CQ_KEY_STAR == 11 &&
              CQ_KEY_HASH == 12 && CQ_KEY_A == 13 && CQ_KEY_B == 14 && CQ_KEY_C == 15 && CQ_KEY_D == 16,
          "numbers of the levels", "macros");
    check(CQ_LEVEL_MAX(CQ_MODE_DTMF) == 16 && CQ_LEVEL_MAX(CQ_MODE_EDT) == 2, "CQ_LEVEL_MAX", "macros");
    check(CQ_STATION_MS_MAX == 4096 && CQ_STATION_WAITING_MAX == 256, "most ms, most waiting", "macros");
    check(CQ_DRIFT_EDGES_MAX == 65536, "most edges of a report", "macros");
    check(CQ_VERSION_MAJOR == 6 && CQ_VERSION == 60001, "version", "macros");
    check(sizeof(constant_size) == 1 && CONSTANT == 122880 && sizeof(CQ_SENDING_MS_MAX(1, 1)) == sizeof(uint32_t) &&
              1000 - CQ_SENDING_MS_MAX(CQ_MODE_DTMF | 0, 1 + 1) / 2 == 520 && CQ_SENDING_MS_MAX(0, 1) == 0 &&
              CQ_SENDING_MS_MAX(5, 1) == 0,
          "CQ_SENDING_MS_MAX", "macros");
    check(CQ_WORD_CHARACTER == 0 && CQ_WORD_FAULT == 1 && CQ_CAUSE_QUIET == 1 && CQ_CAUSE_STOP_NOT_MARK == 2 &&
              CQ_CAUSE_ODD_PARITY == 3 && CQ_CAUSE_NO_ROW == 4 && CQ_CAUSE_LETTER_KEY == 5,
          "numbers of the kinds and causes", "macros");
    check(CQ_OK == 0 && CQ_REFUSED_STATE == 1 && CQ_REFUSED_MODE == 2 && CQ_REFUSED_CHARACTER == 3 &&
              CQ_REFUSED_FULL == 4 && CQ_REFUSED_DURATION == 5 && CQ_REFUSED_HEARD == 6 &&
              CQ_REFUSED_SENT_SLICE == 7 && CQ_REFUSED_WORD_SLICE == 8 && CQ_REFUSED_RESULT_SLICE == 9 &&
              CQ_REFUSED_CODE == 10 && CQ_REFUSED_TONE == 11 && CQ_REFUSED_CALLING_STATE == 12 &&
              CQ_REFUSED_REPORT_FULL == 18,
          "numbers of the answers", "macros");
}

/* Whether the macros take these numbers from a word. */
static int parts(uint32_t word, unsigned kind, unsigned ms, unsigned cause, unsigned character)
{
    return CQ_WORD_KIND(word) == kind && CQ_WORD_MS(word) == ms && CQ_WORD_CAUSE(word) == cause &&
           CQ_WORD_CHAR(word) == character;
}

static void words_taken_apart(void)
{
    unsigned bit, kind;
    check(parts(0, CQ_WORD_CHARACTER, 0, 0, 0), "NULL", "macros of words");
    check(parts(0x41, CQ_WORD_CHARACTER, 0, 1, 'A'), "A", "macros of words");
    check(parts(0x7F, CQ_WORD_CHARACTER, 0, 15, 0x7F), "DEL", "macros of words");
    check(parts(0x10002101, CQ_WORD_FAULT, 33, CQ_CAUSE_QUIET, 1), "quiet", "macros of words");
    check(parts(0x10008F02, CQ_WORD_FAULT, 143, CQ_CAUSE_STOP_NOT_MARK, 2), "stop", "macros of words");
    check(parts(0x10004D03, CQ_WORD_FAULT, 77, CQ_CAUSE_ODD_PARITY, 3), "parity", "macros of words");
    check(parts(0x10000004, CQ_WORD_FAULT, 0, CQ_CAUSE_NO_ROW, 4), "no row", "macros of words");
    check(parts(0x10000005, CQ_WORD_FAULT, 0, CQ_CAUSE_LETTER_KEY, 5), "letter key", "macros of words");
    check(parts(0x1FFFFF0F, CQ_WORD_FAULT, 0xFFFFF, 15, 0x0F), "highest cause and ms", "macros of words");
    check(parts(0xFFFFFFFF, 15, 0xFFFFF, 15, 0x7F), "all ones", "macros of words");
    for (kind = 0; kind < 16; kind++) {
        check(parts(kind << 28, kind, 0, 0, 0), "a kind alone", "macros of words");
        check(parts(kind << 28 | 0x0FFFFFFF, kind, 0xFFFFF, 15, 0x7F), "a kind and ones", "macros of words");
    }
    for (bit = 0; bit < 32; bit++) {
        uint32_t word = (uint32_t)1 << bit;
        unsigned in_kind = bit >= 28 ? 1u << (bit - 28) : 0, in_ms = bit >= 8 && bit < 28 ? 1u << (bit - 8) : 0;
        unsigned in_cause = bit < 4 ? 1u << bit : 0, in_character = bit < 7 ? 1u << bit : 0;
        check(parts(word, in_kind, in_ms, in_cause, in_character), "one bit alone", "macros of words");
        check(parts(~word, 15 - in_kind, 0xFFFFF - in_ms, 15 - in_cause, 0x7F - in_character), "all bits but one",
              "macros of words");
    }
    /* An argument of several terms; a signed one. */
    check(CQ_WORD_KIND(1u << 28 | 2) == 1 && CQ_WORD_MS(5u << 28 | 143 << 8 | 2) == 143 && CQ_WORD_CAUSE(16 | 2) == 2 &&
              CQ_WORD_CHAR(128 | 65) == 'A',
          "several terms", "macros of words");
    check(CQ_WORD_KIND(-1) == 15 && CQ_WORD_MS(-1) == 0xFFFFF && CQ_WORD_CAUSE(-1) == 15 && CQ_WORD_CHAR(-1) == 0x7F,
          "a signed argument", "macros of words");
}

/* A text, its codes as binary digits with a space between two, and what is read from them. */
struct example {
    const char *name;
    const char *text;
    size_t length;
    const char *codes;
    const char *read;
    uint8_t shift;
    uint8_t count;
};

/* Document 01, worked examples, first group: fresh, Baudot. The 73 times E follow below. */
static const struct example worked[] = {
    {"a", "a", 1, "11111 00011", "A", CQ_SHIFT_LETTERS, 1},
    {"A1", "A1", 2, "11111 00011 11011 10111", "A1", CQ_SHIFT_FIGURES, 1},
    {"1", "1", 1, "11111 11011 10111", "1", CQ_SHIFT_FIGURES, 1},
    {"1 A", "1 A", 3, "11111 11011 10111 00100 11111 00011", "1 A", CQ_SHIFT_LETTERS, 1},
    {"star", "*", 1, "11111 11011 11100", ".", CQ_SHIFT_FIGURES, 1},
    {"@", "@", 1, "11111 11101", "X", CQ_SHIFT_LETTERS, 1},
    {"60", "\x60", 1, "11111 11011 01011", "'", CQ_SHIFT_FIGURES, 1},
    {"NULL", "\0", 1, "", "", CQ_SHIFT_FRESH, 0},
    {"HT", "\t", 1, "11111 00100", " ", CQ_SHIFT_LETTERS, 1},
};

static size_t codes_of(const char *digits, uint8_t *codes)
{
    size_t n = 0;
    while (*digits != '\0') {
        int bit;
        codes[n] = 0;
        for (bit = 0; bit < 5; bit++) {
            codes[n] = (uint8_t)(codes[n] * 2 + (*digits++ - '0'));
        }
        n++;
        if (*digits == ' ') {
            digits++;
        }
    }
    return n;
}

static void examples(void)
{
    static uint8_t text[80], codes[200];
    size_t i, n;
    for (i = 0; i < sizeof worked / sizeof worked[0]; i++) {
        const struct example *e = &worked[i];
        uint8_t reader = e->shift == CQ_SHIFT_FRESH ? CQ_SHIFT_LETTERS : e->shift;
        size_t read_length = strlen(e->read);
        n = codes_of(e->codes, codes);
        memcpy(text, e->text, e->length);
        sends(e->name, text, e->length, CQ_SHIFT_FRESH, 0, ROOM, codes, n, e->shift, e->count);
        sends(e->name, text, e->length, CQ_SHIFT_FRESH, 0, n, codes, n, e->shift, e->count);
        reads(e->name, codes, n, CQ_SHIFT_LETTERS, ROOM, (const uint8_t *)e->read, read_length, reader);
        reads(e->name, codes, n, CQ_SHIFT_LETTERS, read_length, (const uint8_t *)e->read, read_length, reader);
    }
    memset(text, 'E', 73);
    memset(codes, 1, 75);
    codes[0] = 31;
    codes[73] = 31;
    sends("73 times E", text, 73, CQ_SHIFT_FRESH, 0, 75, codes, 75, CQ_SHIFT_LETTERS, 1);
    sends("72 times E", text, 72, CQ_SHIFT_FRESH, 0, 73, codes, 73, CQ_SHIFT_LETTERS, 72);
    reads("73 times E", codes, 75, CQ_SHIFT_LETTERS, 73, text, 73, CQ_SHIFT_LETTERS);
}

/* The shift and the count that a call starts from. */
static void continued(void)
{
    static const uint8_t e[] = {'E'}, space[] = {' '}, three[] = {'3'}, text_too[] = {'T', 'O', 'O'};
    static const uint8_t code_e[] = {1}, letters_e[] = {31, 1}, letters_space[] = {31, 4}, figures_space[] = {27, 4};
    static const uint8_t just_space[] = {4}, figures_3[] = {27, 1}, too[] = {16, 24, 24};
    sends("E in letters", e, 1, CQ_SHIFT_LETTERS, 0, ROOM, code_e, 1, CQ_SHIFT_LETTERS, 1);
    sends("E as the 72nd", e, 1, CQ_SHIFT_LETTERS, 71, ROOM, code_e, 1, CQ_SHIFT_LETTERS, 72);
    sends("E after 72", e, 1, CQ_SHIFT_LETTERS, 72, ROOM, letters_e, 2, CQ_SHIFT_LETTERS, 1);
    sends("E in figures", e, 1, CQ_SHIFT_FIGURES, 5, ROOM, letters_e, 2, CQ_SHIFT_LETTERS, 1);
    sends("E in figures after 72", e, 1, CQ_SHIFT_FIGURES, 72, ROOM, letters_e, 2, CQ_SHIFT_LETTERS, 1);
    sends("3 in letters after 72", three, 1, CQ_SHIFT_LETTERS, 72, ROOM, figures_3, 2, CQ_SHIFT_FIGURES, 1);
    sends("SPACE in letters", space, 1, CQ_SHIFT_LETTERS, 7, ROOM, just_space, 1, CQ_SHIFT_LETTERS, 8);
    sends("SPACE in figures", space, 1, CQ_SHIFT_FIGURES, 7, ROOM, just_space, 1, CQ_SHIFT_FIGURES, 8);
    sends("SPACE in figures after 72", space, 1, CQ_SHIFT_FIGURES, 72, ROOM, figures_space, 2, CQ_SHIFT_FIGURES, 1);
    sends("SPACE, fresh", space, 1, CQ_SHIFT_FRESH, 0, ROOM, letters_space, 2, CQ_SHIFT_LETTERS, 1);
    sends("E, fresh, count 72", e, 1, CQ_SHIFT_FRESH, 72, ROOM, letters_e, 2, CQ_SHIFT_LETTERS, 1);
    reads("TOO in letters", too, 3, CQ_SHIFT_LETTERS, ROOM, text_too, 3, CQ_SHIFT_LETTERS);
    reads("TOO in figures", too, 3, CQ_SHIFT_FIGURES, ROOM, (const uint8_t *)"599", 3, CQ_SHIFT_FIGURES);
    reads("NULL in figures", (const uint8_t *)"\5", 1, CQ_SHIFT_FIGURES, ROOM, (const uint8_t *)"\0", 1,
          CQ_SHIFT_FIGURES);
}

/* Characters 00 to 07, 0E to 19, 1B and 7F send nothing, all others something. */
static void silent(void)
{
    uint8_t text[128];
    char which[20];
    unsigned c;
    size_t n = 0;
    for (c = 0; c < 128; c++) {
        int none = c <= 0x07 || (c >= 0x0E && c <= 0x19) || c == 0x1B || c == 0x7F;
        uint8_t one = (uint8_t)c;
        cq_baudot_sent r = cq_baudot_send(&one, 1, CQ_SHIFT_FRESH, 3, slice, ROOM);
        sprintf(which, "character %02X", c);
        check(r.answer == CQ_OK && (r.length == 0) == none, "what sends nothing", which);
        if (none) {
            text[n++] = one;
        }
    }
    sends("all that send nothing, fresh", text, n, CQ_SHIFT_FRESH, 5, 0, text, 0, CQ_SHIFT_FRESH, 5);
    sends("all that send nothing, letters", text, n, CQ_SHIFT_LETTERS, 72, 0, text, 0, CQ_SHIFT_LETTERS, 72);
    sends("all that send nothing, figures", text, n, CQ_SHIFT_FIGURES, 0, ROOM, text, 0, CQ_SHIFT_FIGURES, 0);
}

/* a to z send what A to Z send; what stands around the letters in T.50 has codes of its own. */
static void letters(void)
{
    static const uint8_t capitals[] = "@ABCDEFGHIJKLMNOPQRSTUVWXYZ", small[] = "@abcdefghijklmnopqrstuvwxyz";
    static const uint8_t codes[] = {29, 3,  25, 14, 9,  1,  13, 26, 20, 6,  11, 15, 18, 28,
                                    12, 24, 22, 23, 10, 5,  16, 7,  30, 19, 29, 21, 17};
    static const uint8_t around[] = {0x5B, 0x5C, 0x5D, 0x5E, 0x5F, 0x60, 0x7B, 0x7C, 0x7D, 0x7E, 0x7F};
    static const uint8_t around_codes[] = {15, 29, 18, 11, 4, 11, 15, 13, 18, 4};
    size_t n = sizeof codes, m = sizeof around_codes;
    sends("@ and A to Z", capitals, n, CQ_SHIFT_LETTERS, 0, n, codes, n, CQ_SHIFT_LETTERS, (uint8_t)n);
    sends("@ and a to z", small, n, CQ_SHIFT_LETTERS, 0, n, codes, n, CQ_SHIFT_LETTERS, (uint8_t)n);
    sends("around them", around, sizeof around, CQ_SHIFT_FIGURES, 0, m, around_codes, m, CQ_SHIFT_FIGURES, (uint8_t)m);
}

static void empty(void)
{
    static const uint8_t none[1] = {0xFF};
    static const uint8_t shifts[] = {31, 27, 31, 27};
    sends("no text, fresh", none, 0, CQ_SHIFT_FRESH, 0, ROOM, none, 0, CQ_SHIFT_FRESH, 0);
    sends("no text, letters", none, 0, CQ_SHIFT_LETTERS, 72, ROOM, none, 0, CQ_SHIFT_LETTERS, 72);
    sends("no text, no room", none, 0, CQ_SHIFT_FIGURES, 9, 0, none, 0, CQ_SHIFT_FIGURES, 9);
    reads("no codes, letters", none, 0, CQ_SHIFT_LETTERS, ROOM, none, 0, CQ_SHIFT_LETTERS);
    reads("no codes, no room", none, 0, CQ_SHIFT_FIGURES, 0, none, 0, CQ_SHIFT_FIGURES);
    reads("shift codes alone, no room", shifts, 4, CQ_SHIFT_LETTERS, 0, none, 0, CQ_SHIFT_FIGURES);
    reads("shift codes alone", shifts, 3, CQ_SHIFT_FIGURES, ROOM, none, 0, CQ_SHIFT_LETTERS);
    send_refused("no text, shift 3", none, 0, 3, 0, 0, CQ_REFUSED_STATE);
    read_refused("no codes, fresh", none, 0, CQ_SHIFT_FRESH, 0, CQ_REFUSED_STATE);
}

static void refusals(void)
{
    static const uint8_t text[] = "A1 is 1A", late[] = {'A', '1', 128}, high[] = {255, 'A'};
    static const uint8_t codes[] = {31, 3, 27, 23, 4}, over[] = {31, 3, 32}, most[] = {255, 3};
    static const uint8_t back[] = {'A', '1', ' '};
    uint8_t sent[16];
    size_t room, length = sizeof text - 1;
    size_t n = codes_of("11111 00011 11011 10111 00100 11111 00110 00101 00100 11011 10111 11111 00011", sent);

    send_refused("shift 3", text, length, 3, 0, ROOM, CQ_REFUSED_STATE);
    send_refused("shift 255", text, length, 255, 72, ROOM, CQ_REFUSED_STATE);
    send_refused("count 73", text, length, CQ_SHIFT_LETTERS, 73, ROOM, CQ_REFUSED_STATE);
    send_refused("count 73, fresh", text, length, CQ_SHIFT_FRESH, 73, ROOM, CQ_REFUSED_STATE);
    send_refused("count 255", text, length, CQ_SHIFT_FIGURES, 255, ROOM, CQ_REFUSED_STATE);
    send_refused("shift 3 ahead of byte 128 and no room", late, 3, 3, 0, 0, CQ_REFUSED_STATE);
    send_refused("byte 128", late, 3, CQ_SHIFT_LETTERS, 4, ROOM, CQ_REFUSED_CHARACTER);
    send_refused("byte 255", high, 2, CQ_SHIFT_FRESH, 0, ROOM, CQ_REFUSED_CHARACTER);
    send_refused("byte 128 ahead of no room", late, 3, CQ_SHIFT_FIGURES, 72, 0, CQ_REFUSED_CHARACTER);
    for (room = 0; room < n; room++) {
        send_refused("codes too short", text, length, CQ_SHIFT_FRESH, 2, room, CQ_REFUSED_RESULT_SLICE);
    }
    sends("codes fit exactly", text, length, CQ_SHIFT_FRESH, 2, n, sent, n, CQ_SHIFT_LETTERS, 1);
    sends("codes fit, one over", text, length, CQ_SHIFT_FRESH, 2, n + 1, sent, n, CQ_SHIFT_LETTERS, 1);

    read_refused("shift 0", codes, 5, CQ_SHIFT_FRESH, ROOM, CQ_REFUSED_STATE);
    read_refused("shift 3", codes, 5, 3, ROOM, CQ_REFUSED_STATE);
    read_refused("shift 255", codes, 5, 255, ROOM, CQ_REFUSED_STATE);
    read_refused("shift 3 ahead of code 32 and no room", over, 3, 3, 0, CQ_REFUSED_STATE);
    read_refused("code 32", over, 3, CQ_SHIFT_LETTERS, ROOM, CQ_REFUSED_CODE);
    read_refused("code 255", most, 2, CQ_SHIFT_FIGURES, ROOM, CQ_REFUSED_CODE);
    read_refused("code 32 ahead of no room", over, 3, CQ_SHIFT_FIGURES, 0, CQ_REFUSED_CODE);
    for (room = 0; room < 3; room++) {
        read_refused("text too short", codes, 5, CQ_SHIFT_LETTERS, room, CQ_REFUSED_RESULT_SLICE);
    }
    reads("text fits exactly", codes, 5, CQ_SHIFT_LETTERS, 3, back, 3, CQ_SHIFT_FIGURES);
    reads("text fits, one over", codes, 5, CQ_SHIFT_LETTERS, 4, back, 3, CQ_SHIFT_FIGURES);
}

/* The longest result, and a text in two calls at every place. */
static void whole_and_cut(void)
{
    static uint8_t text[5000], codes[ROOM], back[ROOM], part[ROOM];
    static const uint8_t mixed[] = "The number is 5550199, or (02) 73-41; call before 6.\r\n";
    size_t i, n = sizeof mixed - 1;
    cq_baudot_sent whole, first, second;
    cq_baudot_text read, head, tail;

    for (i = 0; i < sizeof text; i++) {
        text[i] = i % 2 == 0 ? '1' : 'A';
    }
    whole = cq_baudot_send(text, sizeof text, CQ_SHIFT_FRESH, 0, codes, CQ_BAUDOT_CODES_MAX(sizeof text));
    check(whole.answer == CQ_OK && whole.length == CQ_BAUDOT_CODES_MAX(sizeof text), "longest result", "1A over and over");
    read = cq_baudot_read(codes, whole.length, CQ_SHIFT_LETTERS, back, CQ_BAUDOT_TEXT_MAX(whole.length));
    check(read.answer == CQ_OK && read.length == sizeof text, "length read back", "1A over and over");
    check(memcmp(back, text, sizeof text) == 0, "text read back", "1A over and over");

    whole = cq_baudot_send(mixed, n, CQ_SHIFT_FRESH, 0, codes, ROOM);
    for (i = 0; i <= n; i++) {
        first = cq_baudot_send(mixed, i, CQ_SHIFT_FRESH, 0, part, ROOM);
        second = cq_baudot_send(mixed + i, n - i, first.shift, first.count, part + first.length, ROOM - first.length);
        check(second.answer == CQ_OK && first.length + second.length == whole.length &&
                  second.shift == whole.shift && second.count == whole.count && memcmp(part, codes, whole.length) == 0,
              "a text in two calls", "sending");
    }
    read = cq_baudot_read(codes, whole.length, CQ_SHIFT_LETTERS, back, ROOM);
    for (i = 0; i <= whole.length; i++) {
        head = cq_baudot_read(codes, i, CQ_SHIFT_LETTERS, part, ROOM);
        tail = cq_baudot_read(codes + i, whole.length - i, head.shift, part + head.length, ROOM - head.length);
        check(tail.answer == CQ_OK && head.length + tail.length == read.length && tail.shift == read.shift &&
                  memcmp(part, back, read.length) == 0,
              "codes in two calls", "reading");
    }
}

static int same_state(const cq_calling *a, const cq_calling *b)
{
    return a->ms == b->ms && a->place == b->place && a->tone == b->tone && a->choice == b->choice;
}

/* A set hears a tone for some ms, in calls of at most `cut`; whether it sends `value` in all of them. */
static int hears(cq_calling *set, uint8_t tone, size_t ms, size_t cut, uint8_t value)
{
    static uint8_t tones[CQ_CALLING_MS_MAX];
    int all = 1;
    memset(tones, tone, sizeof tones);
    while (ms > 0) {
        size_t i, n = ms < cut ? ms : cut;
        fill();
        check(cq_calling_run(set, tones, n, slice, n) == CQ_OK, "a run is not refused", "calling set");
        check(stays(n), "bytes around the sent ms stay", "calling set");
        for (i = 0; i < n; i++) {
            all = all && slice[i] == value;
        }
        ms -= n;
    }
    return all;
}

/* One period of the timetable, from its first ms on. */
static void period(cq_calling *set, size_t cut)
{
    int i;
    check(hears(set, CQ_TONE_NONE, 1000, cut, CQ_SENT_NOTHING), "nothing first", "timetable");
    for (i = 0; i < 3; i++) {
        check(hears(set, CQ_TONE_NONE, 400, cut, CQ_SENT_CI), "CI", "timetable");
        check(hears(set, CQ_TONE_NONE, 2000, cut, CQ_SENT_NOTHING), "nothing between", "timetable");
    }
    check(hears(set, CQ_TONE_NONE, 3000, cut, CQ_SENT_XCI), "XCI", "timetable");
}

/* Whether a set is asked for its choice with success, and has this one. */
static int chose(const cq_calling *set, uint8_t choice)
{
    cq_calling before = *set;
    cq_calling_chosen r = cq_calling_choice(set);
    return r.answer == CQ_OK && r.choice == choice && same_state(set, &before);
}

static void run_refused(const char *which, cq_calling set, const uint8_t *tones, size_t length, size_t room,
                        uint8_t answer)
{
    cq_calling before = set;
    fill();
    check(cq_calling_run(&set, tones, length, slice, room) == answer, "refusal of a run", which);
    check(stays(0), "a refusal leaves the sent ms", which);
    check(same_state(&set, &before), "a refusal leaves the state", which);
}

/* A state out of range: no run, and no choice. */
static void state_refused(const char *which, cq_calling set)
{
    static const uint8_t none[1] = {CQ_TONE_NONE};
    cq_calling before = set;
    cq_calling_chosen r = cq_calling_choice(&set);
    check(r.answer == CQ_REFUSED_CALLING_STATE && r.choice == CQ_TONE_NONE, "refusal of a choice", which);
    check(same_state(&set, &before), "asking leaves the state", which);
    run_refused(which, set, none, 1, 1, CQ_REFUSED_CALLING_STATE);
}

static void calling(void)
{
    static const size_t lengths[12] = {0, 1, 1, 500, 500, 1700, 700, 1500, 1, 1, 1, 1};
    static uint8_t tones[CQ_CALLING_MS_MAX + 1];
    cq_calling set = cq_calling_fresh(), fresh = cq_calling_fresh(), bad;
    uint8_t tone;

    check(chose(&set, CQ_TONE_NONE), "a fresh set has no choice", "calling set");
    period(&set, CQ_CALLING_MS_MAX);
    period(&set, 7);
    check(hears(&set, CQ_TONE_1650, 499, 100, CQ_SENT_NOTHING), "a tone silences", "calling set");
    check(hears(&set, CQ_TONE_NONE, 399, 4000, CQ_SENT_NOTHING), "399 ms of none", "calling set");
    check(hears(&set, CQ_TONE_2225, 1, 1, CQ_SENT_NOTHING), "another tone", "calling set");
    check(hears(&set, CQ_TONE_NONE, 400, 4000, CQ_SENT_NOTHING), "400 ms of none", "calling set");
    check(chose(&set, CQ_TONE_NONE), "no choice yet", "calling set");
    period(&set, 4000);

    for (tone = CQ_TONE_ANSAM; tone <= CQ_TONE_EDT; tone++) {
        set = cq_calling_fresh();
        check(hears(&set, tone, lengths[tone] - 1, 1000, CQ_SENT_NOTHING), "one ms short", "tones");
        check(chose(&set, CQ_TONE_NONE), "one ms short is no choice", "tones");
        check(hears(&set, tone, 1, 1, CQ_SENT_NOTHING), "the ms of the choice", "tones");
        check(chose(&set, tone), "the choice", "tones");
        check(hears(&set, CQ_TONE_NONE, 12000, 4096, CQ_SENT_NOTHING), "nothing after the choice", "tones");
        check(hears(&set, (uint8_t)(12 - tone), 2000, 4096, CQ_SENT_NOTHING), "tones after the choice", "tones");
        check(chose(&set, tone), "the choice is for good", "tones");
    }

    memset(tones, CQ_TONE_NONE, sizeof tones);
    run_refused("5", fresh, tones, CQ_CALLING_MS_MAX + 1, CQ_CALLING_MS_MAX + 1, CQ_REFUSED_DURATION);
    run_refused("7", fresh, tones, 10, 9, CQ_REFUSED_SENT_SLICE);
    tones[9] = 12;
    run_refused("11", fresh, tones, 10, 10, CQ_REFUSED_TONE);
    run_refused("11 ahead of 7", fresh, tones, 10, 0, CQ_REFUSED_TONE);
    run_refused("5 ahead of 11", fresh, tones, CQ_CALLING_MS_MAX + 1, 0, CQ_REFUSED_DURATION);
    bad = fresh;
    bad.choice = 12;
    run_refused("12, choice", bad, tones, CQ_CALLING_MS_MAX + 1, 0, CQ_REFUSED_CALLING_STATE);
    state_refused("12, choice", bad);
    bad = fresh;
    bad.place = 11200;
    state_refused("12, place", bad);
    bad = fresh;
    bad.tone = 12;
    state_refused("12, tone", bad);
    bad = fresh;
    bad.ms = 1701;
    state_refused("12, ms", bad);
    memset(&bad, 0, sizeof bad);
    state_refused("12, zeros", bad);
}

/* A slice for words with the pattern around it. */
static uint32_t word_area[GUARD + CQ_STATION_MS_MAX + 1 + GUARD];
static uint32_t *const word_slice = word_area + GUARD;
#define WORD_PATTERN(i) (0xF0000000u | (uint32_t)(i))

static void fill_words(void)
{
    size_t i;
    for (i = 0; i < sizeof word_area / sizeof word_area[0]; i++) {
        word_area[i] = WORD_PATTERN(i);
    }
}

static int words_stay(size_t length)
{
    size_t i;
    for (i = 0; i < sizeof word_area / sizeof word_area[0]; i++) {
        if ((i < GUARD || i >= GUARD + length) && word_area[i] != WORD_PATTERN(i)) {
            return 0;
        }
    }
    return 1;
}

/* By fields, since three bytes behind `level` have no meaning; nothing else in a station is padding. */
static int same_station(const cq_station *a, const cq_station *b)
{
    return memcmp(&a->core, &b->core, sizeof a->core) == 0 && memcmp(a->chars, b->chars, sizeof a->chars) == 0 &&
           memcmp(&a->edges.seen, &b->edges.seen, sizeof a->edges.seen) == 0 && a->edges.level == b->edges.level;
}

/* Whether a report has these numbers. */
static int is_report(const cq_drift_report *report, uint32_t edges, int32_t sum, int32_t smallest, int32_t largest)
{
    return report->edges == edges && report->sum == sum && report->smallest == smallest && report->largest == largest;
}

/* Whether no edges wait. */
static int none_wait(const cq_station *station)
{
    return is_report(&station->edges.seen, 0, 0, 0, 0) && station->edges.level == CQ_LEVEL_QUIET;
}

static cq_station opened(uint8_t mode)
{
    cq_station station;
    memset(&station, 0xA5, sizeof station);
    check(cq_station_open(&station, mode) == CQ_OK, "an opening is not refused", "open");
    check(station.core.mode == mode && station.core.waiting == 0 && none_wait(&station), "a fresh station", "open");
    return station;
}

/* Offers a text that is taken; `waiting` wait then. */
static void offers(const char *which, cq_station *station, const char *text, size_t length, uint16_t waiting)
{
    check(cq_station_offer(station, (const uint8_t *)text, length) == CQ_OK, "an offer is not refused", which);
    check(station->core.waiting == waiting, "how many wait", which);
}

/* Hears some ms in one call; what is sent stands in `slice`, the words in `word_slice`. Gives back their count. */
static size_t runs(const char *which, cq_station *station, const uint8_t *heard, size_t ms)
{
    cq_station_ran r;
    fill();
    fill_words();
    r = cq_station_run(station, heard, ms, slice, ms, word_slice, ms);
    check(r.answer == CQ_OK && r.words <= ms, "a run is not refused", which);
    check(stays(ms), "bytes around the sent ms stay", which);
    check(words_stay(r.words), "words around the result stay", which);
    return r.words;
}

/* Whether the ms of `slice` from `*at` on have a level; moves behind them. */
static int level_for(size_t *at, uint8_t level, size_t ms)
{
    int all = 1;
    for (; ms > 0; ms--) {
        all = all && slice[(*at)++] == level;
    }
    return all;
}

static void offer_refused(const char *which, cq_station station, const uint8_t *text, size_t length, uint8_t answer)
{
    cq_station before = station;
    check(cq_station_offer(&station, text, length) == answer, "refusal of an offer", which);
    check(same_station(&station, &before), "a refusal leaves the station", which);
}

static void station_refused(const char *which, cq_station station, const uint8_t *heard, size_t ms, size_t room,
                            size_t word_room, uint8_t answer)
{
    cq_station before = station;
    cq_station_ran r;
    fill();
    fill_words();
    r = cq_station_run(&station, heard, ms, slice, room, word_slice, word_room);
    check(r.answer == answer && r.words == 0, "refusal of a run", which);
    check(stays(0) && words_stay(0), "a refusal leaves the slices", which);
    check(same_station(&station, &before), "a refusal leaves the station", which);
}

/* The worked examples of document 01's second group. */
static void station_examples(void)
{
    static uint8_t heard[CQ_STATION_MS_MAX];
    static char text[CQ_STATION_WAITING_MAX + 1];
    cq_station station;
    size_t at = 0;

    memset(text, 'e', sizeof text);
    station = opened(CQ_MODE_BAUDOT_45);
    offer_refused("257 characters", station, (const uint8_t *)text, 257, CQ_REFUSED_FULL);
    offers("256 characters", &station, text, 256, 256);
    offer_refused("one more than 256", station, (const uint8_t *)text, 1, CQ_REFUSED_FULL);

    /* E: the preamble, 11111 and 00001 (space 22, mark 22, space 88, mark 33). */
    station = opened(CQ_MODE_BAUDOT_45);
    offers("E", &station, "E", 1, 1);
    memset(heard, CQ_LEVEL_QUIET, sizeof heard);
    check(runs("E", &station, heard, 1000) == 0, "nothing is read", "E");
    check(level_for(&at, CQ_LEVEL_MARK, 150), "preamble", "E");
    check(level_for(&at, CQ_LEVEL_SPACE, 22) && level_for(&at, CQ_LEVEL_MARK, 143), "11111", "E");
    check(level_for(&at, CQ_LEVEL_SPACE, 22) && level_for(&at, CQ_LEVEL_MARK, 22) &&
              level_for(&at, CQ_LEVEL_SPACE, 88) && level_for(&at, CQ_LEVEL_MARK, 33),
          "00001", "E");
    check(level_for(&at, CQ_LEVEL_QUIET, 1000 - at), "quiet behind it", "E");
    check(station.core.waiting == 0, "none waits", "E");

    /* b is key 1, the colon **4. */
    station = opened(CQ_MODE_DTMF);
    offers("b:", &station, "b:", 2, 2);
    runs("b:", &station, heard, 600);
    at = 0;
    check(level_for(&at, 1, 70) && level_for(&at, CQ_LEVEL_QUIET, 50), "b", "b:");
    check(level_for(&at, CQ_KEY_STAR, 70) && level_for(&at, CQ_LEVEL_QUIET, 50) && level_for(&at, CQ_KEY_STAR, 70) &&
              level_for(&at, CQ_LEVEL_QUIET, 50) && level_for(&at, 4, 70) && level_for(&at, CQ_LEVEL_QUIET, 170),
          "colon", "b:");

    /* A key of 39 ms is not heard, one of 40 is. */
    station = opened(CQ_MODE_DTMF);
    memset(heard, 1, 39);
    check(runs("39 ms", &station, heard, 100) == 0, "a key of 39 ms", "DTMF");
    memset(heard, 1, 40);
    check(runs("40 ms", &station, heard, 100) == 1 && word_slice[0] == 'b', "a key of 40 ms", "DTMF");
    memset(heard, CQ_KEY_A, 40);
    check(runs("key A", &station, heard, 100) == 1 && word_slice[0] == 0x10000005, "a fault", "DTMF");
}

/* The samples of document 01's frames, and a clean code: E, and in EDT DEL, whose parity is mark. */
struct frame {
    const char *name;
    uint8_t mode, start; /* the ms of the start's sample */
    size_t later, stops; /* how many samples come behind it, and how many of these are of stops */
    uint8_t ms[10];      /* their ms */
    uint8_t clean[10];   /* the levels of the clean code there */
    uint32_t word;       /* its word */
};

static const struct frame frames[] = {
    {"Baudot 45.45", CQ_MODE_BAUDOT_45, 11, 6, 1, {33, 55, 77, 99, 121, 143}, {1, 2, 2, 2, 2, 1}, 'E'},
    {"Baudot 50", CQ_MODE_BAUDOT_50, 10, 6, 1, {30, 50, 70, 90, 110, 130}, {1, 2, 2, 2, 2, 1}, 'E'},
    {"EDT", CQ_MODE_EDT, 4, 10, 2, {13, 22, 31, 40, 50, 59, 68, 77, 86, 95}, {1, 1, 1, 1, 1, 1, 1, 1, 1, 1}, 0x7F},
};
#define EDT_PARITY 7 /* the place of EDT's parity among these samples */

static uint32_t fault_word(unsigned ms, unsigned cause)
{
    return 0x10000000u | (uint32_t)ms << 8 | cause;
}

/* The ms of a frame with these levels at its samples, and another one in between; gives back how many they are. */
static size_t frame_ms(const struct frame *f, const uint8_t *levels, uint8_t between, uint8_t *heard)
{
    size_t i, all = f->ms[f->later - 1] + 1u;
    memset(heard, between, all);
    heard[0] = heard[f->start] = CQ_LEVEL_SPACE;
    for (i = 0; i < f->later; i++) {
        heard[f->ms[i]] = levels[i];
    }
    return all;
}

/* A frame gives one word, in the ms of sample `at`. Behind it and a ms of mark, a clean code is read. */
static void frame_gives(const struct frame *f, const uint8_t *levels, uint8_t between, size_t at, uint32_t word)
{
    static const uint8_t mark[1] = {CQ_LEVEL_MARK};
    uint8_t heard[144];
    cq_station station = opened(f->mode);
    size_t all = frame_ms(f, levels, between, heard);
    check(runs(f->name, &station, heard, f->ms[at]) == 0, "no word ahead of the sample", f->name);
    check(runs(f->name, &station, heard + f->ms[at], 1) == 1 && word_slice[0] == word, "word of a sample", f->name);
    check(runs(f->name, &station, mark, 1) == 0, "no word behind the sample", f->name);
    frame_ms(f, f->clean, CQ_LEVEL_QUIET, heard);
    check(runs(f->name, &station, heard, all) == 1 && word_slice[0] == f->word, "the next code", f->name);
}

/* Quiet at each sample behind the start's, and space at each stop: whatever is heard between the samples. */
static void frames_break(const struct frame *f, uint8_t between)
{
    uint8_t levels[10];
    size_t i;
    for (i = 0; i < f->later; i++) {
        memcpy(levels, f->clean, sizeof levels);
        levels[i] = CQ_LEVEL_QUIET;
        frame_gives(f, levels, between, i, fault_word(f->ms[i], CQ_CAUSE_QUIET));
        memset(levels + i, CQ_LEVEL_QUIET, f->later - i);
        frame_gives(f, levels, between, i, fault_word(f->ms[i], CQ_CAUSE_QUIET));
        if (i >= f->later - f->stops) {
            memset(levels + i, CQ_LEVEL_SPACE, f->later - i);
            frame_gives(f, levels, between, i, fault_word(f->ms[i], CQ_CAUSE_STOP_NOT_MARK));
        }
    }
    frame_gives(f, f->clean, between, f->later - 1, f->word);
}

/* Each code of EDT: with its even parity, the other one, and quiet there. */
static void parity(const struct frame *f)
{
    uint8_t levels[10];
    unsigned code, bit;
    memset(levels, CQ_LEVEL_MARK, sizeof levels);
    for (code = 0; code < 128; code++) {
        int odd = 0;
        for (bit = 0; bit < 7; bit++) {
            levels[bit] = code >> bit & 1 ? CQ_LEVEL_MARK : CQ_LEVEL_SPACE;
            odd ^= code >> bit & 1;
        }
        levels[EDT_PARITY] = odd ? CQ_LEVEL_MARK : CQ_LEVEL_SPACE;
        frame_gives(f, levels, CQ_LEVEL_QUIET, f->later - 1, code);
        levels[EDT_PARITY] = odd ? CQ_LEVEL_SPACE : CQ_LEVEL_MARK;
        frame_gives(f, levels, CQ_LEVEL_MARK, EDT_PARITY, 0x10004D03);
        levels[EDT_PARITY] = CQ_LEVEL_QUIET;
        frame_gives(f, levels, CQ_LEVEL_MARK, EDT_PARITY, 0x10004D01);
    }
}

/* A fresh DTMF station hears these keys, and then a 1. It gives one word, and then b: no * or # is left. */
static void keys_give(const char *prefix, char last, uint32_t word)
{
    static const char signs[] = "1234567890*#ABCD";
    static uint8_t heard[10 * 80];
    char keys[10];
    cq_station station = opened(CQ_MODE_DTMF);
    size_t i, n;
    sprintf(keys, "%s%c1", prefix, last);
    n = strlen(keys);
    memset(heard, CQ_LEVEL_QUIET, sizeof heard);
    for (i = 0; i < n; i++) {
        memset(heard + i * 80, (int)(strchr(signs, keys[i]) - signs) + 1, 40);
    }
    check(runs(keys, &station, heard, n * 80) == 2, "two words", keys);
    check(word_slice[0] == word && word_slice[1] == 'b', "words of keys", keys);
}

/* Digits behind a prefix that no row of Table B.1 has, and keys A to D behind any prefix. */
static void keys_break(void)
{
    static const char *const no_row[] = {"#*",   "***",  "**#",  "*#*",  "*##",  "#**",   "#*#",
                                         "****", "*##*", "###*", "####", "##**", "*****", "######"};
    static const char *const any[] = {"", "*", "#", "**", "*#", "#*", "##", "***", "###", "****", "###*", "*****"};
    size_t i, j;
    for (i = 0; i < sizeof no_row / sizeof no_row[0]; i++) {
        for (j = 0; j < 10; j++) {
            keys_give(no_row[i], (char)('0' + j), 0x10000004);
        }
    }
    for (i = 0; i < sizeof any / sizeof any[0]; i++) {
        for (j = 0; j < 4; j++) {
            keys_give(any[i], (char)('A' + j), 0x10000005);
        }
    }
}

/* All fault words of each mode (docs/MAKERS.md, section 5), ended by 0. */
static const uint32_t fault_words[4][14] = {
    {0x10002101, 0x10003701, 0x10004D01, 0x10006301, 0x10007901, 0x10008F01, 0x10008F02},
    {0x10001E01, 0x10003201, 0x10004601, 0x10005A01, 0x10006E01, 0x10008201, 0x10008202},
    {0x10000004, 0x10000005},
    {0x10000D01, 0x10001601, 0x10001F01, 0x10002801, 0x10003201, 0x10003B01, 0x10004401, 0x10004D01, 0x10004D03,
     0x10005601, 0x10005602, 0x10005F01, 0x10005F02},
};

/* Whether a ms of each level gives no word but a character or a fault of this list; notes the faults that came. */
static int words_of_list(const cq_station *station, const uint32_t *list, int *came)
{
    uint8_t level, sent;
    int all = 1;
    for (level = 0; level <= CQ_LEVEL_MAX(station->core.mode); level++) {
        cq_station copy = *station;
        uint32_t word = 0;
        cq_station_ran r = cq_station_run(&copy, &level, 1, &sent, 1, &word, 1);
        size_t i = 0;
        while (list[i] != 0 && list[i] != word) {
            i++;
        }
        came[i] = 1;
        all = all && r.answer == CQ_OK && (list[i] != 0 || word <= 0x7F);
    }
    return all;
}

/* Readers in range, also those that no list of calls gives: their faults are the words of the list, and each comes. */
static void all_fault_words(uint8_t mode)
{
    static const unsigned places[] = {144, 131, 1, 96}, digits[] = {31, 31, 0, 127};
    const uint32_t *list = fault_words[mode - 1];
    cq_station station = opened(mode);
    cq_reader *reader = &station.core.reader;
    unsigned place, digit, key, prefix, ms;
    int came[14] = {0}, all = 1;
    size_t i;
    for (place = 0; place <= places[mode - 1]; place++) {
        for (digit = 0; digit <= digits[mode - 1]; digit++) {
            reader->frame.place = (uint8_t)place;
            reader->frame.digits = (uint8_t)digit;
            all = words_of_list(&station, list, came) && all;
        }
    }
    for (key = 0; key <= CQ_KEY_D; key++) {
        for (prefix = 0; prefix <= 15; prefix++) {
            for (ms = 0; ms <= 39; ms++) {
                reader->keys.key = (uint8_t)key;
                reader->keys.ms = (uint8_t)ms;
                reader->prefix = (uint8_t)prefix;
                all = words_of_list(&station, list, came) && all;
            }
        }
    }
    check(all, "no other fault word", "every reader");
    for (i = 0; list[i] != 0; i++) {
        check(came[i], "each fault word", "every reader");
    }
}

static void faults(void)
{
    uint8_t mode, between;
    size_t i;
    for (i = 0; i < sizeof frames / sizeof frames[0]; i++) {
        for (between = CQ_LEVEL_QUIET; between <= CQ_LEVEL_SPACE; between++) {
            frames_break(&frames[i], between);
        }
    }
    parity(&frames[2]);
    keys_break();
    for (mode = CQ_MODE_BAUDOT_45; mode <= CQ_MODE_EDT; mode++) {
        all_fault_words(mode);
    }
}

/* Whether the ms of `slice` from `*at` on are a Baudot code, in elements of `e` ms; moves behind them. */
static int code_for(size_t *at, uint8_t code, size_t e)
{
    int bit, all = level_for(at, CQ_LEVEL_SPACE, e);
    for (bit = 0; bit < 5; bit++) {
        all = level_for(at, code >> bit & 1 ? CQ_LEVEL_MARK : CQ_LEVEL_SPACE, e) && all;
    }
    return level_for(at, CQ_LEVEL_MARK, 3 * e / 2) && all;
}

/* Bursts of one character, one after the other, and the codes of each in Baudot. */
static const struct {
    const char *text, *codes;
} bursts_sent[] = {
    {"1", "11111 11011 10111"}, /* fresh */
    {"1", "11011 10111"},       /* the shift in force */
    {" ", "11011 00100"},
    {"A", "11011 11111 00011"}, /* and then the other one */
    {"A", "11111 00011"},
    {"1", "11111 11011 10111"},
};

/* Each Baudot burst opens with the shift in force, so that a station opened between two bursts reads the next one. */
static void bursts(uint8_t mode, size_t e)
{
    static uint8_t quiet[1000], line[1000];
    cq_station sender = opened(mode);
    size_t i;
    for (i = 0; i < sizeof bursts_sent / sizeof bursts_sent[0]; i++) {
        const char *text = bursts_sent[i].text;
        uint8_t codes[4];
        size_t at = 0, n, count = codes_of(bursts_sent[i].codes, codes);
        size_t ms = 150 + count * (6 * e + 3 * e / 2);
        cq_station reader = opened(mode);
        offers("bursts", &sender, text, 1, 1);
        check(runs("bursts", &sender, quiet, ms) == 0 && sender.core.waiting == 0, "a burst", text);
        check(level_for(&at, CQ_LEVEL_MARK, 150), "preamble", text);
        for (n = 0; n < count; n++) {
            check(code_for(&at, codes[n], e), "code of a burst", text);
        }
        memcpy(line, slice, ms);
        check(runs("bursts", &reader, line, ms) == 1 && word_slice[0] == (uint8_t)text[0], "what is read", text);
        check(runs("bursts", &sender, quiet, 1) == 0 && slice[0] == CQ_LEVEL_QUIET, "the burst ends", text);
    }
}

/* A text goes from one station to another, in calls of `cut` ms, while each hears what the other sends. */
static void conversation(uint8_t mode, size_t cut)
{
    static const char text[] = "TOO 599 EE";
    static uint8_t line[CQ_STATION_MS_MAX];
    char read[16];
    cq_station a = opened(mode), b = opened(mode);
    size_t i, n, count = 0, ms;

    memset(line, CQ_LEVEL_QUIET, sizeof line);
    offers("conversation", &a, text, 10, 10);
    for (ms = 0; ms < 8000; ms += cut) {
        check(runs("conversation", &a, line, cut) == 0, "the sender reads nothing", "conversation");
        memcpy(line, slice, cut);
        n = runs("conversation", &b, line, cut);
        for (i = 0; i < n && count < sizeof read; i++) {
            check(CQ_WORD_KIND(word_slice[i]) == CQ_WORD_CHARACTER, "no fault", "conversation");
            read[count++] = (char)CQ_WORD_CHAR(word_slice[i]);
        }
        memcpy(line, slice, cut);
    }
    check(count == 10 && memcmp(read, text, 10) == 0, "characters read", "conversation");
    check(a.core.waiting == 0 && b.core.waiting == 0, "none waits", "conversation");
}

/* Previews a text; the station stays as it is, byte for byte. */
static cq_station_previewed preview(const char *which, cq_station station, const uint8_t *text, size_t length)
{
    cq_station before = station;
    cq_station_previewed r = cq_station_preview(&station, text, length);
    check(same_station(&station, &before), "a preview leaves the station", which);
    return r;
}

static void previews(const char *which, const cq_station *station, const char *text, size_t length, uint32_t ms)
{
    cq_station_previewed r = preview(which, *station, (const uint8_t *)text, length);
    check(r.answer == CQ_OK && r.ms == ms, "ms of a preview", which);
}

static void preview_refused(const char *which, const cq_station *station, const uint8_t *text, size_t length,
                            uint8_t answer)
{
    cq_station_previewed r = preview(which, *station, text, length);
    check(r.answer == answer && r.ms == 0, "refusal of a preview", which);
}

/* Texts on a fresh station, and the ms of each. */
static const struct {
    uint8_t mode;
    const char *text;
    uint32_t ms;
} previewed[] = {
    /* Baudot: the preamble 150, the opening shift code, and the codes, 165 each, or 150 in mode 2. */
    {CQ_MODE_BAUDOT_45, "hi", 645},    /* 150 + 165 + 2 * 165 */
    {CQ_MODE_BAUDOT_45, "1", 645},     /* 150 + 165 + 11011 and 1: 2 * 165 */
    {CQ_MODE_BAUDOT_45, "A1 B", 1305}, /* 150 + 165 + A, 11011, 1, SPACE, 11111, B: 6 * 165 */
    {CQ_MODE_BAUDOT_50, "hi", 600},    /* 150 + 150 + 2 * 150 */
    {CQ_MODE_BAUDOT_50, "A1 B", 1200}, /* 150 + 150 + 6 * 150 */
    /* DTMF: 120 for each key. b is key 1, the colon **4, the exclamation mark ###0. */
    {CQ_MODE_DTMF, "b", 120},
    {CQ_MODE_DTMF, "b:", 480},  /* 120 + 3 * 120 */
    {CQ_MODE_DTMF, "b!:", 960}, /* 120 + 4 * 120 + 3 * 120 */
    /* EDT: the preamble 300 and 100 for each character. */
    {CQ_MODE_EDT, "hi", 500},   /* 300 + 2 * 100 */
};

/* Through a burst and behind it the preview of no text counts down to 0, and the burst ends with its last ms. */
static void counts_down(const char *which, cq_station station, uint32_t ms)
{
    static const uint8_t quiet[1] = {CQ_LEVEL_QUIET};
    for (; ms > 0; ms--) {
        previews(which, &station, "", 0, ms);
        check(station.core.waiting > 0 || station.core.line.part != 0, "not idle before the last ms", which);
        runs(which, &station, quiet, 1);
    }
    check(station.core.waiting == 0 && station.core.line.part == 0, "idle behind the last ms", which);
    previews(which, &station, "", 0, 0);
}

/* Two characters by turns, as many as can wait. */
static const char *by_turns(const char *two)
{
    static char text[CQ_STATION_WAITING_MAX];
    size_t i;
    for (i = 0; i < sizeof text; i++) {
        text[i] = two[i % 2];
    }
    return text;
}

/* A shift code ahead of every character, or four keys, take the most ms, from a fresh sender and from figures. */
static const struct {
    const char *two, *from_figures;
    uint32_t ms[5]; /* of as many characters as `lengths` says */
} longest[] = {
    {"1A", "A1", {0, 645, 975, 24405, 84795}},  /* 150 + 165 * (2n + 1) */
    {"1A", "A1", {0, 600, 900, 22200, 77100}},  /* 150 + 150 * (2n + 1) */
    {"!!", "AA", {0, 480, 960, 35040, 122880}}, /* n * 4 * 120 */
    {"!!", "e1", {0, 400, 500, 7600, 25900}},   /* 300 + n * 100 */
};
static const uint16_t lengths[5] = {0, 1, 2, 73, CQ_STATION_WAITING_MAX};

/* The longest texts take what CQ_SENDING_MS_MAX says, for every number of characters; on a busy line 300 ms more. */
static void longest_previews(uint8_t mode)
{
    static const uint8_t quiet[1000] = {CQ_LEVEL_QUIET}, busy[1] = {1};
    cq_station fresh = opened(mode), behind_signal = opened(mode), figures = opened(mode);
    const char *text;
    size_t i, n;
    for (i = 0; i < sizeof lengths / sizeof lengths[0]; i++) {
        check(CQ_SENDING_MS_MAX(mode, lengths[i]) == longest[mode - 1].ms[i], "most ms", "CQ_SENDING_MS_MAX");
    }
    runs("busy", &behind_signal, busy, 1);
    offers("a figure", &figures, "1", 1, 1);
    runs("a figure", &figures, quiet, sizeof quiet);
    for (n = 0; n <= CQ_STATION_WAITING_MAX; n++) {
        uint32_t ms = CQ_SENDING_MS_MAX(mode, n);
        text = by_turns(longest[mode - 1].two);
        previews("longest text", &fresh, text, n, ms);
        previews("longest text, busy", &behind_signal, text, n, n == 0 ? 0 : 300 + ms);
        previews("longest text, figures", &figures, by_turns(longest[mode - 1].from_figures), n, ms);
    }
    text = by_turns(longest[mode - 1].two);
    offers("256 waiting", &fresh, text, 200, 200);
    previews("200 waiting, 56 offered", &fresh, text + 200, 56, longest[mode - 1].ms[4]);
    offers("256 waiting", &fresh, text + 200, 56, 256);
    previews("256 waiting", &fresh, "", 0, longest[mode - 1].ms[4]);
}

/* A shift code behind 72 characters; and the most ms of all previews. */
static void long_previews(void)
{
    /* 150 + 165 * 75: 11111, 72 times E, 11111 again, E. */
    cq_station station = opened(CQ_MODE_BAUDOT_45);
    previews("73 times E", &station, by_turns("EE"), 73, 12525);
    /* 257 * 480: a code of four keys, ***1, of which no ms is sent, and 256 of four keys behind it. */
    station = opened(CQ_MODE_DTMF);
    station.core.line.part = 2;
    station.core.line.code = 16 * 7 + 1;
    previews("256 behind a code", &station, by_turns("!!"), CQ_STATION_WAITING_MAX, 123360);
}

/* Behind signal 300 ms of silence come first, less those that have been. A text goes on behind a burst that is on. */
static void previews_on_the_way(void)
{
    static const uint8_t quiet[1000] = {CQ_LEVEL_QUIET}, busy[1] = {1};
    /* b by itself: 150 + 165 + 165, 150 + 150 + 150, 120, 300 + 100; and one more b in the same burst. */
    static const uint32_t one[4] = {480, 450, 120, 400}, more[4] = {165, 150, 120, 100};
    uint8_t mode;
    for (mode = CQ_MODE_BAUDOT_45; mode <= CQ_MODE_EDT; mode++) {
        cq_station station = opened(mode);
        uint32_t ms = one[mode - 1];
        runs("busy", &station, busy, 1);
        previews("busy", &station, "b", 1, 300 + ms);
        previews("busy, no text", &station, "", 0, 0);
        runs("busy", &station, quiet, 100);
        previews("100 ms of silence", &station, "b", 1, 200 + ms);
        offers("100 ms of silence", &station, "b", 1, 1);
        previews("and one waiting", &station, "", 0, 200 + ms);
        previews("and one more", &station, "b", 1, 200 + ms + more[mode - 1]);
        runs("silence", &station, quiet, 200);
        previews("line free", &station, "", 0, ms);
        runs("in the burst", &station, quiet, ms - 1);
        previews("ahead of its last ms", &station, "", 0, 1);
        previews("ahead of its last ms", &station, "b", 1, 1 + more[mode - 1]);
        runs("the last ms", &station, quiet, 1);
        previews("behind its last ms", &station, "", 0, 0);
        previews("behind its last ms", &station, "b", 1, ms);
        /* The 300 inhibited ms count as silence, also with signal on the line; the ms behind them do not. */
        runs("inhibited", &station, quiet, 299);
        runs("inhibited", &station, busy, 1);
        previews("inhibited", &station, "b", 1, ms);
        runs("no longer inhibited", &station, busy, 1);
        previews("no longer inhibited", &station, "b", 1, 300 + ms);
    }
}

/* DEL in Baudot sends nothing, and a preview of it leaves a reader in figures; an offer does not. */
static void preview_of_del(uint8_t mode, size_t e)
{
    static uint8_t heard[165];
    cq_station station = opened(mode);
    memset(heard, CQ_LEVEL_MARK, sizeof heard); /* 11011: start space, the third digit space */
    memset(heard, CQ_LEVEL_SPACE, e);
    memset(heard + 3 * e, CQ_LEVEL_SPACE, e);
    check(runs("11011", &station, heard, 6 * e + 3 * e / 2) == 0, "no word", "11011");
    check(station.core.reader.shift == CQ_SHIFT_FIGURES, "the reader is in figures", "11011");
    previews("DEL", &station, "\x7F", 1, 0);
    check(station.core.reader.shift == CQ_SHIFT_FIGURES, "the reader stays in figures", "DEL");
    offers("DEL", &station, "\x7F", 1, 0);
    check(station.core.reader.shift == CQ_SHIFT_LETTERS, "the reader goes to letters", "DEL");
}

static void station_previews(void)
{
    static const uint8_t above[] = {'e', 128};
    static uint8_t many[300];
    cq_station station;
    uint8_t mode;
    size_t i;
    for (i = 0; i < sizeof previewed / sizeof previewed[0]; i++) {
        const char *text = previewed[i].text;
        station = opened(previewed[i].mode);
        previews("no text", &station, text, 0, 0);
        previews(text, &station, text, strlen(text), previewed[i].ms);
        offers(text, &station, text, strlen(text), (uint16_t)strlen(text));
        counts_down(text, station, previewed[i].ms);
    }
    for (mode = CQ_MODE_BAUDOT_45; mode <= CQ_MODE_EDT; mode++) {
        longest_previews(mode);
    }
    long_previews();
    previews_on_the_way();
    preview_of_del(CQ_MODE_BAUDOT_45, 22);
    preview_of_del(CQ_MODE_BAUDOT_50, 20);
    /* DEL is sent in DTMF as *0 and in EDT as itself; NULL sends nothing but in EDT. */
    station = opened(CQ_MODE_DTMF);
    previews("DEL", &station, "\x7F", 1, 240);
    previews("NULL", &station, "\0", 1, 0);
    station = opened(CQ_MODE_EDT);
    previews("DEL", &station, "\x7F", 1, 400);
    previews("NULL", &station, "\0", 1, 400);
    station = opened(CQ_MODE_BAUDOT_45);
    previews("NULL", &station, "\0", 1, 0);
    previews("300 times NULL", &station, (const char *)many, 300, 0);
    memset(many, 'e', sizeof many);
    for (mode = CQ_MODE_BAUDOT_45; mode <= CQ_MODE_EDT; mode++) {
        cq_station bad;
        station = opened(mode);
        offers("waiting", &station, "e", 1, 1);
        preview_refused("3", &station, above, 2, CQ_REFUSED_CHARACTER);
        preview_refused("4", &station, many, 256, CQ_REFUSED_FULL);
        check(preview("255", station, many, 255).answer == CQ_OK, "as many as there is space for", "previews");
        many[299] = 255;
        preview_refused("3 ahead of 4", &station, many, 300, CQ_REFUSED_CHARACTER);
        bad = station;
        bad.core.silence = 301;
        preview_refused("1", &bad, many, 0, CQ_REFUSED_STATE);
        preview_refused("1 ahead of 3 and 4", &bad, many, 300, CQ_REFUSED_STATE);
        preview_refused("1 ahead of 4", &bad, many, 299, CQ_REFUSED_STATE);
        many[299] = 'e';
        bad = station;
        bad.core.waiting = 257;
        preview_refused("1, waiting", &bad, many, 0, CQ_REFUSED_STATE);
        bad = station;
        bad.chars[0] = 128;
        preview_refused("1, characters", &bad, many, 1, CQ_REFUSED_STATE);
        memset(&bad, 0, sizeof bad);
        preview_refused("1, zeros", &bad, many, 0, CQ_REFUSED_STATE);
    }
}

static void station_refusals(void)
{
    static uint8_t heard[CQ_STATION_MS_MAX + 1];
    static const uint8_t above[] = {'E', 128};
    uint8_t mode, numbers[] = {0, 5, 255};
    size_t i;
    for (i = 0; i < sizeof numbers; i++) {
        cq_station station = opened(CQ_MODE_EDT), first = opened(CQ_MODE_BAUDOT_45);
        check(cq_station_open(&station, numbers[i]) == CQ_REFUSED_MODE, "a mode that is none", "open");
        check(same_station(&station, &first), "a fresh station of mode 1", "open");
    }
    for (mode = CQ_MODE_BAUDOT_45; mode <= CQ_MODE_EDT; mode++) {
        cq_station station = opened(mode), bad;
        offers("waiting", &station, "e", 1, 1);
        memset(heard, CQ_LEVEL_QUIET, sizeof heard);
        offer_refused("3", station, above, 2, CQ_REFUSED_CHARACTER);
        station_refused("5", station, heard, CQ_STATION_MS_MAX + 1, ROOM, CQ_STATION_MS_MAX + 1, CQ_REFUSED_DURATION);
        station_refused("7", station, heard, 10, 9, 10, CQ_REFUSED_SENT_SLICE);
        station_refused("7 ahead of 8", station, heard, 10, 9, 0, CQ_REFUSED_SENT_SLICE);
        station_refused("8", station, heard, 10, 10, 9, CQ_REFUSED_WORD_SLICE);
        heard[9] = (uint8_t)(CQ_LEVEL_MAX(mode) + 1);
        station_refused("6", station, heard, 10, 10, 10, CQ_REFUSED_HEARD);
        station_refused("6 ahead of 7", station, heard, 10, 0, 0, CQ_REFUSED_HEARD);
        station_refused("5 ahead of 6", station, heard, CQ_STATION_MS_MAX + 1, 0, 0, CQ_REFUSED_DURATION);
        bad = station;
        bad.core.silence = 301;
        offer_refused("1, silence", bad, above, 2, CQ_REFUSED_STATE);
        station_refused("1, silence", bad, heard, CQ_STATION_MS_MAX + 1, 0, 0, CQ_REFUSED_STATE);
        bad = station;
        bad.core.waiting = 257;
        offer_refused("1, waiting", bad, above, 0, CQ_REFUSED_STATE);
        bad = station;
        bad.chars[0] = 128;
        station_refused("1, characters", bad, heard, 1, 1, 1, CQ_REFUSED_STATE);
        bad = station;
        bad.core.reader.shift = 0;
        station_refused("1, shift", bad, heard, 0, 0, 0, CQ_REFUSED_STATE);
        memset(&bad, 0, sizeof bad);
        offer_refused("1, zeros", bad, above, 0, CQ_REFUSED_STATE);
        station_refused("1, zeros", bad, heard, 0, 0, 0, CQ_REFUSED_STATE);
        /* No ms and no text are taken. */
        offers("no text", &station, "", 0, 1);
        check(runs("no ms", &station, heard, 0) == 0, "no words", "no ms");
        heard[9] = CQ_LEVEL_QUIET;
        check(runs("most ms", &station, heard, CQ_STATION_MS_MAX) == 0, "no words", "most ms");
    }
}

/* A report that is lent stands between two others, which stay. */
static cq_drift_report lent[3];

static void lend_report(const cq_drift_report *report)
{
    memset(lent, 0x5A, sizeof lent);
    lent[1] = *report;
}

static int reports_stay(void)
{
    return is_report(&lent[0], 0x5A5A5A5A, 0x5A5A5A5A, 0x5A5A5A5A, 0x5A5A5A5A) &&
           memcmp(&lent[0], &lent[2], sizeof lent[0]) == 0;
}

/* Hears some ms in one call with a report. A copy of the station does the same in a run without one. */
static size_t drifts(const char *which, cq_station *station, const uint8_t *heard, size_t ms, cq_drift_report *report)
{
    static uint8_t sent[CQ_STATION_MS_MAX];
    static uint32_t words[CQ_STATION_MS_MAX];
    cq_station copy = *station;
    size_t n = runs(which, &copy, heard, ms);
    cq_station_ran r;
    memcpy(sent, slice, ms);
    memcpy(words, word_slice, n * sizeof words[0]);
    fill();
    fill_words();
    lend_report(report);
    r = cq_station_run_drift(station, heard, ms, slice, ms, word_slice, ms, &lent[1]);
    check(r.answer == CQ_OK && r.words == n, "the same answer and number of words as without a report", which);
    check(memcmp(slice, sent, ms) == 0 && stays(ms), "the same sent ms", which);
    check(memcmp(word_slice, words, n * sizeof words[0]) == 0 && words_stay(n), "the same words", which);
    check(same_station(station, &copy), "the same station", which);
    check(reports_stay(), "what stands around the report stays", which);
    *report = lent[1];
    return n;
}

/* Heard ms, written as runs of q, m and s with their ms: "s22 m143". Gives back how many. */
static size_t levels_of(const char *written, uint8_t *heard)
{
    size_t n = 0, ms;
    while (*written != '\0') {
        uint8_t level = *written == 'm' ? CQ_LEVEL_MARK : *written == 's' ? CQ_LEVEL_SPACE : CQ_LEVEL_QUIET;
        for (ms = 0, written++; *written >= '0' && *written <= '9'; written++) {
            ms = 10 * ms + (size_t)(*written - '0');
        }
        memset(heard + n, level, ms);
        n += ms;
        written += *written == ' ';
    }
    return n;
}

#define NO_WORD 0xFFFFFFFFu

/* Lines that a fresh station hears, the word they give, and the report by hand. */
static const struct {
    uint8_t mode;
    const char *heard;
    uint32_t word;
    cq_drift_report report;
} lines[] = {
    /* E at 22 ms: edges at 22, 44 and 132. On time; -3, 3 and 5; all early; all late. */
    {CQ_MODE_BAUDOT_45, "m150 s22 m22 s88 m33", 'E', {3, 0, 0, 0}},
    {CQ_MODE_BAUDOT_45, "m150 s19 m28 s90 m28", 'E', {3, 5, -3, 5}},
    {CQ_MODE_BAUDOT_45, "s20 m21 s88 m36", 'E', {3, -8, -3, -2}},
    {CQ_MODE_BAUDOT_45, "s25 m24 s90 m26", 'E', {3, 15, 3, 7}},
    /* At 20 ms: 20, 40 and 120. */
    {CQ_MODE_BAUDOT_50, "m150 s20 m20 s80 m30", 'E', {3, 0, 0, 0}},
    {CQ_MODE_BAUDOT_50, "s17 m28 s84 m21", 'E', {3, 11, -3, 9}},
    /* A shift code has edges too: 11111. */
    {CQ_MODE_BAUDOT_45, "s22 m143", NO_WORD, {1, 0, 0, 0}},
    /* A tie is of the earlier multiple: 33 is 11 late, 34 is 10 early; 30 is 10 late, 31 is 9 early. */
    {CQ_MODE_BAUDOT_45, "s33 m111", NO_WORD, {1, 11, 11, 11}},
    {CQ_MODE_BAUDOT_45, "s34 m110", 'V', {1, -10, -10, -10}},
    {CQ_MODE_BAUDOT_45, "s22 m33 s77 m33", 'E', {3, 11, 0, 11}},
    {CQ_MODE_BAUDOT_50, "s30 m101", NO_WORD, {1, 10, 10, 10}},
    {CQ_MODE_BAUDOT_50, "s31 m100", 'V', {1, -9, -9, -9}},
    /* At the stop's sample, the last ms heard; a ms ahead of it; one behind it the frame has broken. */
    {CQ_MODE_BAUDOT_45, "s143 m1", 0x08, {1, 11, 11, 11}},
    {CQ_MODE_BAUDOT_45, "s142 m2", 0x08, {1, 10, 10, 10}},
    {CQ_MODE_BAUDOT_45, "s144 m1", 0x10008F02, {0, 0, 0, 0}},
    {CQ_MODE_BAUDOT_50, "s130 m1", 0x08, {1, 10, 10, 10}},
    {CQ_MODE_BAUDOT_50, "s131 m1", 0x10008202, {0, 0, 0, 0}},
    /* A frame whose stop's sample is not heard yet; a start that follows the sample at once is no edge. */
    {CQ_MODE_BAUDOT_45, "s22 m22 s88 m11", NO_WORD, {0, 0, 0, 0}},
    {CQ_MODE_BAUDOT_45, "s22 m22 s88 m12 s1", 'E', {3, 0, 0, 0}},
    /* Behind ms 0: edges at 1 and 2, which are nearest to the start. */
    {CQ_MODE_BAUDOT_45, "s1 m1 s20 m22 s88 m12", 'E', {5, 3, 0, 2}},
    /* Faults: stop not mark; quiet at a sample; no space at the start's. What comes behind a fault counts. */
    {CQ_MODE_BAUDOT_45, "s20 m24 s105 m1", 0x10008F02, {0, 0, 0, 0}},
    {CQ_MODE_BAUDOT_45, "s20 m30 q6 s88", 0x10003701, {0, 0, 0, 0}},
    {CQ_MODE_BAUDOT_45, "s22 m22 s88 m11 q1", 0x10008F01, {0, 0, 0, 0}},
    {CQ_MODE_BAUDOT_45, "s5 m20", NO_WORD, {0, 0, 0, 0}},
    {CQ_MODE_BAUDOT_45, "s5 m20 s22 m21 s89 m12", 'E', {3, -1, -1, 0}},
    {CQ_MODE_BAUDOT_45, "s20 m24 s105 m1 s23 m121", 0x10008F02, {1, 1, 1, 1}},
    /* Changes through quiet are no edges: one of three, another, all; and quiet between two ms of mark. */
    {CQ_MODE_BAUDOT_45, "s20 q2 m22 s88 m33", 'E', {2, 0, 0, 0}},
    {CQ_MODE_BAUDOT_45, "s21 m23 q1 s86 m34", 'E', {2, -2, -1, -1}},
    {CQ_MODE_BAUDOT_45, "s21 q1 m21 q1 s87 q1 m33", 'E', {0, 0, 0, 0}},
    {CQ_MODE_BAUDOT_45, "s21 m10 q2 m12 s88 m33", 'E', {3, 1, -1, 1}},
    /* Two frames; quiet between them. */
    {CQ_MODE_BAUDOT_45, "s22 m143 s19 m28 s90 m28", 'E', {4, 5, -3, 5}},
    {CQ_MODE_BAUDOT_50, "s18 m132 q500 s20 m20 s83 m27", 'E', {4, 1, -2, 3}},
    /* DTMF: key 1, and 2 right behind it; EDT: A. Nothing is measured. */
    {CQ_MODE_DTMF, "m40 s40 q40", 'b', {0, 0, 0, 0}},
    {CQ_MODE_EDT, "m300 s10 m9 s45 m9 s9 m18", 'A', {0, 0, 0, 0}},
};

/* Each line in one call, with a fresh report and with one that has edges; and in two calls, cut at every ms. */
static void drift_lines(void)
{
    static uint8_t heard[CQ_STATION_MS_MAX];
    size_t i, at, ms, n;
    for (i = 0; i < sizeof lines / sizeof lines[0]; i++) {
        const char *which = lines[i].heard;
        const cq_drift_report *r = &lines[i].report;
        uint32_t words = lines[i].word == NO_WORD ? 0 : 1;
        cq_station station = opened(lines[i].mode), whole;
        cq_drift_report report = CQ_DRIFT_FRESH, more = {7, -7, -2, 1};
        ms = levels_of(which, heard);
        n = drifts(which, &station, heard, ms, &report);
        check(n == words && (n == 0 || word_slice[0] == lines[i].word), "the word of a line", which);
        check(is_report(&report, r->edges, r->sum, r->smallest, r->largest), "the report of a line", which);
        whole = station;
        station = opened(lines[i].mode);
        drifts(which, &station, heard, ms, &more);
        check(is_report(&more, 7 + r->edges, r->sum - 7, r->smallest < -2 ? r->smallest : -2,
                        r->largest > 1 ? r->largest : 1),
              "edges added to a report", which);
        for (at = 0; at <= ms; at++) {
            cq_drift_report cut = CQ_DRIFT_FRESH;
            station = opened(lines[i].mode);
            n = drifts(which, &station, heard, at, &cut);
            n += drifts(which, &station, heard + at, ms - at, &cut);
            check(n == words && same_station(&station, &whole), "in two calls", which);
            check(is_report(&cut, r->edges, r->sum, r->smallest, r->largest), "the report of two calls", which);
        }
    }
}

/* The edges of a frame wait, and count at its stop, by whichever of the two runs they came. */
static void drift_waits(void)
{
    static const int32_t at[3] = {19, 47, 137}, moved[3] = {-3, 3, 5};
    static uint8_t heard[165];
    cq_station station = opened(CQ_MODE_BAUDOT_45), copy;
    cq_drift_report report = CQ_DRIFT_FRESH, fresh = CQ_DRIFT_FRESH, none = CQ_DRIFT_FRESH;
    size_t ms, i;
    levels_of("s19 m28 s90 m28", heard);
    for (ms = 0; ms < 143; ms++) {
        int32_t edges = 0, sum = 0, smallest = 0, largest = 0;
        drifts("waits", &station, heard + ms, 1, &report);
        for (i = 0; i < 3 && at[i] <= (int32_t)ms; i++) {
            edges++;
            sum += moved[i];
            smallest = i == 0 || moved[i] < smallest ? moved[i] : smallest;
            largest = i == 0 || moved[i] > largest ? moved[i] : largest;
        }
        check(is_report(&station.edges.seen, (uint32_t)edges, sum, smallest, largest), "edges that wait", "waits");
        check(station.edges.level == heard[ms], "the level of the latest ms", "waits");
        check(is_report(&report, 0, 0, 0, 0), "none counts ahead of the stop's sample", "waits");
    }
    copy = station;
    drifts("waits", &station, heard + ms, 1, &report);
    check(is_report(&report, 3, 5, -3, 5) && none_wait(&station), "all count at the stop's sample", "waits");
    /* The stop's sample in a run without a report: the edges are gone. */
    runs("waits", &copy, heard + ms, 165 - ms);
    check(none_wait(&copy), "none waits behind the stop's sample", "waits");
    drifts("waits", &copy, heard, 10, &none);
    check(is_report(&none, 0, 0, 0, 0), "what counted in a run without a report", "waits");
    /* All but the stop's sample without a report. */
    station = opened(CQ_MODE_BAUDOT_45);
    runs("waits", &station, heard, 143);
    check(drifts("waits", &station, heard + 143, 1, &fresh) == 1, "a word", "waits");
    check(is_report(&fresh, 3, 5, -3, 5), "edges of runs without a report count at the stop", "waits");
}

/* A ms in which the receiver is off drops the frame and its edges. No list of calls leads to it within a frame. */
static void drift_dropped(uint8_t mode)
{
    static uint8_t heard[165];
    cq_station half = opened(mode), station;
    cq_drift_report report = CQ_DRIFT_FRESH;
    levels_of("s19 m28 s90 m28", heard);
    runs("dropped", &half, heard, 60);
    check(half.edges.seen.edges == 2 && half.edges.level == CQ_LEVEL_SPACE, "two edges wait", "dropped");
    station = half;
    station.core.silence = 300;
    offers("dropped", &station, "E", 1, 1);
    check(station.edges.seen.edges == 2, "an offer leaves them", "dropped");
    drifts("own burst", &station, heard + 60, 1, &report);
    check(slice[0] == CQ_LEVEL_MARK && none_wait(&station), "dropped in the first ms of a burst", "own burst");
    drifts("own burst", &station, heard + 61, 104, &report);
    check(none_wait(&station) && is_report(&report, 0, 0, 0, 0), "none of them counts", "own burst");
    station = half;
    station.core.inhibited = 1;
    drifts("inhibited", &station, heard + 60, 1, &report);
    check(none_wait(&station) && station.core.reader.frame.place == 0, "dropped in an inhibited ms", "inhibited");
    drifts("inhibited", &station, heard + 140, 25, &report);
    check(none_wait(&station) && is_report(&report, 0, 0, 0, 0), "none of them counts", "inhibited");
}

/* The report of one frame: each change, less the multiple of e to which it is nearest, searched from 0 on. */
static cq_drift_report searched(const uint8_t *heard, size_t e)
{
    cq_drift_report r = CQ_DRIFT_FRESH;
    size_t m;
    int32_t multiple;
    for (m = 1; m <= 6 * e + e / 2; m++) {
        int32_t nearest = (int32_t)m;
        if (heard[m] == heard[m - 1] || heard[m] == CQ_LEVEL_QUIET || heard[m - 1] == CQ_LEVEL_QUIET) {
            continue;
        }
        for (multiple = (int32_t)e; multiple <= 7 * (int32_t)e; multiple += (int32_t)e) {
            int32_t from = (int32_t)m - multiple;
            if ((from < 0 ? -from : from) < (nearest < 0 ? -nearest : nearest)) {
                nearest = from;
            }
        }
        r.smallest = r.edges == 0 || nearest < r.smallest ? nearest : r.smallest;
        r.largest = r.edges == 0 || nearest > r.largest ? nearest : r.largest;
        r.sum += nearest;
        r.edges++;
    }
    return r;
}

/* A frame that is read without fault gives the report that is searched for. */
static void frame_drifts(const char *which, uint8_t mode, size_t e, const uint8_t *heard)
{
    cq_station station = opened(mode);
    cq_drift_report report = CQ_DRIFT_FRESH, r = searched(heard, e);
    size_t n = drifts(which, &station, heard, 6 * e + e / 2 + 1, &report);
    check((n == 0 || word_slice[0] <= 0x7F) && station.core.reader.frame.place == 0, "a frame without fault", which);
    check(is_report(&report, r.edges, r.sum, r.smallest, r.largest), "the report of a frame", which);
}

/* An edge at every ms where one can be, a short one ahead of the start's sample, as many as there can be, and any. */
static void drift_frames(uint8_t mode, size_t e)
{
    static uint8_t heard[144];
    size_t stop = 6 * e + e / 2, m, i;
    uint32_t random = 111;
    for (m = e / 2 + 1; m <= stop; m++) {
        int32_t d = (int32_t)((m - e / 2 - 1) % e) - (int32_t)(e / 2) + 1; /* from -10 or -9 up to 11 or 10 */
        cq_drift_report r;
        memset(heard, CQ_LEVEL_SPACE, m);
        memset(heard + m, CQ_LEVEL_MARK, stop + 1 - m);
        r = searched(heard, e);
        check(is_report(&r, 1, d, d, d), "the search", "one edge");
        frame_drifts("one edge", mode, e, heard);
    }
    for (m = 1; m < e / 2; m++) {
        memset(heard, CQ_LEVEL_SPACE, stop);
        heard[m] = heard[stop] = CQ_LEVEL_MARK;
        frame_drifts("a short mark", mode, e, heard);
        heard[m] = CQ_LEVEL_QUIET;
        frame_drifts("a short quiet", mode, e, heard);
    }
    for (m = 0; m <= stop; m++) {
        heard[m] = m % 2 == 0 ? CQ_LEVEL_SPACE : CQ_LEVEL_MARK;
    }
    heard[e / 2] = CQ_LEVEL_SPACE; /* ms 11, or 10; then mark at the stop's sample, ms 143, or 130 */
    heard[stop] = CQ_LEVEL_MARK;
    frame_drifts("changes in every ms", mode, e, heard);
    check(searched(heard, e).edges == (mode == CQ_MODE_BAUDOT_45 ? 141u : 129u), "how many", "changes in every ms");
    for (i = 0; i < 300; i++) {
        for (m = 0; m <= stop; m++) {
            random = random * 1664525u + 1013904223u;
            heard[m] = m == 0 || m == e / 2                ? CQ_LEVEL_SPACE
                       : m == stop                         ? CQ_LEVEL_MARK
                       : m % e == e / 2                    ? (uint8_t)(1 + (random >> 24) % 2)
                       : (random >> 8) % (i % 30 + 1) == 0 ? (uint8_t)((random >> 24) % 3)
                                                           : heard[m - 1];
        }
        frame_drifts("any changes", mode, e, heard);
    }
}

/* A run with a report is refused, and leaves the station, the report and the slices. */
static void drift_refused(const char *which, cq_station station, const uint8_t *heard, size_t ms, size_t room,
                          size_t word_room, cq_drift_report report, uint8_t answer)
{
    cq_station before = station;
    cq_station_ran r;
    fill();
    fill_words();
    lend_report(&report);
    r = cq_station_run_drift(&station, heard, ms, slice, room, word_slice, word_room, &lent[1]);
    check(r.answer == answer && r.words == 0, "refusal of a run with a report", which);
    check(stays(0) && words_stay(0), "a refusal leaves the slices", which);
    check(same_station(&station, &before), "a refusal leaves the station", which);
    check(memcmp(&lent[1], &report, sizeof report) == 0 && reports_stay(), "a refusal leaves the report", which);
}

/* The questions in order, in each mode. */
static void drift_questions(void)
{
    static uint8_t heard[CQ_STATION_MS_MAX + 1];
    static const cq_drift_report fresh = CQ_DRIFT_FRESH, bad_report = {0, 0, 0, 1};
    uint8_t mode;
    for (mode = CQ_MODE_BAUDOT_45; mode <= CQ_MODE_EDT; mode++) {
        cq_station station = opened(mode), bad;
        size_t most = CQ_STATION_MS_MAX + 1;
        cq_drift_report report = {CQ_DRIFT_EDGES_MAX, 1, -1, 2};
        offers("waiting", &station, "e", 1, 1);
        memset(heard, CQ_LEVEL_QUIET, sizeof heard);
        drift_refused("5", station, heard, most, most, most, fresh, CQ_REFUSED_DURATION);
        drift_refused("7", station, heard, 10, 9, 10, fresh, CQ_REFUSED_SENT_SLICE);
        drift_refused("7 ahead of 8", station, heard, 10, 9, 9, fresh, CQ_REFUSED_SENT_SLICE);
        drift_refused("8", station, heard, 10, 10, 9, fresh, CQ_REFUSED_WORD_SLICE);
        heard[9] = (uint8_t)(CQ_LEVEL_MAX(mode) + 1);
        drift_refused("6", station, heard, 10, 10, 10, fresh, CQ_REFUSED_HEARD);
        drift_refused("6 ahead of 7", station, heard, 10, 0, 0, fresh, CQ_REFUSED_HEARD);
        drift_refused("5 ahead of 6", station, heard, most, 0, 0, fresh, CQ_REFUSED_DURATION);
        drift_refused("1, report", station, heard, 0, 0, 0, bad_report, CQ_REFUSED_STATE);
        drift_refused("1, report, ahead of 5", station, heard, most, 0, 0, bad_report, CQ_REFUSED_STATE);
        bad = station;
        bad.core.silence = 301;
        drift_refused("1, silence", bad, heard, most, 0, 0, fresh, CQ_REFUSED_STATE);
        memset(&bad, 0, sizeof bad);
        drift_refused("1, zeros", bad, heard, 0, 0, 0, fresh, CQ_REFUSED_STATE);
        /* A full report takes ms without an edge that counts; no ms are taken. */
        drifts("no ms", &station, heard, 0, &report);
        heard[9] = CQ_LEVEL_QUIET;
        drifts("most ms", &station, heard, CQ_STATION_MS_MAX, &report);
        check(is_report(&report, CQ_DRIFT_EDGES_MAX, 1, -1, 2), "a report to which nothing is added", "most ms");
    }
}

/* 18 is the last question: a report takes 65,536 edges and not one more. */
static void drift_full(uint8_t mode, const char *code, const char *two)
{
    static uint8_t heard[CQ_STATION_MS_MAX];
    size_t ms = levels_of(code, heard), at;
    cq_station station = opened(mode);
    cq_drift_report report = {CQ_DRIFT_EDGES_MAX - 3, -11 * (CQ_DRIFT_EDGES_MAX - 3), -11, -11}, fresh = CQ_DRIFT_FRESH;
    cq_drift_report full;
    cq_station_ran r;
    offers("full", &station, "E", 1, 1);
    station.core.silence = 0; /* so that the character waits, and the station reads */
    check(drifts("three more", &station, heard, ms, &report) == 1, "a word", "full");
    check(is_report(&report, CQ_DRIFT_EDGES_MAX, -11 * (CQ_DRIFT_EDGES_MAX - 3), -11, 0), "65,536 edges", "full");
    full = report;
    drift_refused("18", station, heard, ms, ms, ms, full, CQ_REFUSED_REPORT_FULL);
    full.edges -= 2;
    full.sum = 0;
    drift_refused("18, one too many", station, heard, ms, ms, ms, full, CQ_REFUSED_REPORT_FULL);
    drift_refused("18, room to spare", station, heard, ms, ms + 1, ms + 1, full, CQ_REFUSED_REPORT_FULL);
    drift_refused("8 ahead of 18", station, heard, ms, ms, ms - 1, full, CQ_REFUSED_WORD_SLICE);
    drift_refused("7 ahead of 18", station, heard, ms, ms - 1, ms, full, CQ_REFUSED_SENT_SLICE);
    heard[ms] = 3;
    drift_refused("6 ahead of 18", station, heard, ms + 1, ms + 1, ms + 1, full, CQ_REFUSED_HEARD);
    full.sum = 11 * CQ_DRIFT_EDGES_MAX;
    drift_refused("1 ahead of 18", station, heard, ms, ms, ms, full, CQ_REFUSED_STATE);
    full = report;
    /* The edges of two frames, one of which would still fit. */
    ms = levels_of(two, heard);
    full.edges -= 3;
    full.sum = 0;
    drift_refused("18, two frames", station, heard, ms, ms, ms, full, CQ_REFUSED_REPORT_FULL);
    full.edges -= 3;
    drifts("two frames that fit", &station, heard, ms, &full);
    check(full.edges == CQ_DRIFT_EDGES_MAX, "65,536 edges", "two frames that fit");
    /* A full report takes a frame up to its stop's sample; there a fresh one goes on. A run never answers 18. */
    ms = levels_of(code, heard);
    for (at = 0; at + 1 < ms; at++) {
        drifts("up to the stop", &station, heard + at, 1, &report);
    }
    check(station.edges.seen.edges == 3, "three edges wait", "full");
    drift_refused("18 at the stop", station, heard + at, 1, 1, 1, report, CQ_REFUSED_REPORT_FULL);
    r = cq_station_run_drift(&station, heard + at, 1, slice, 1, word_slice, 1, &fresh);
    check(r.answer == CQ_OK && r.words == 1 && is_report(&fresh, 3, 0, 0, 0), "a fresh report goes on", "full");
}

/* A number of a report, or of the edges that wait, at its bound and past it. */
struct bound {
    const char *name;
    cq_drift_report report;
    int in;
};

/* A station in a Baudot frame may have 7 edges waiting at place 9, and a report may have as many at any time. */
static const struct bound bounds[] = {
    {"no edge", {0, 0, 0, 0}, 1},
    {"no edge, sum 1", {0, 1, 0, 0}, 0},
    {"no edge, sum -1", {0, -1, 0, 0}, 0},
    {"no edge, smallest 1", {0, 0, 1, 0}, 0},
    {"no edge, smallest -1", {0, 0, -1, 0}, 0},
    {"no edge, largest 1", {0, 0, 0, 1}, 0},
    {"no edge, largest -1", {0, 0, 0, -1}, 0},
    {"one edge, all 0", {1, 0, 0, 0}, 1},
    {"sum 11", {1, 11, 0, 0}, 1},
    {"sum 12", {1, 12, 0, 0}, 0},
    {"sum -11", {1, -11, 0, 0}, 1},
    {"sum -12", {1, -12, 0, 0}, 0},
    {"sum 77", {7, 77, 11, 11}, 1},
    {"sum 78", {7, 78, 11, 11}, 0},
    {"sum -77", {7, -77, -11, -11}, 1},
    {"sum -78", {7, -78, -11, -11}, 0},
    {"highest sum", {7, INT32_MAX, 0, 0}, 0},
    {"lowest sum", {7, INT32_MIN, 0, 0}, 0},
    {"smallest -11", {7, 0, -11, 0}, 1},
    {"smallest -12", {7, 0, -12, 0}, 0},
    {"smallest 11", {7, 0, 11, 0}, 1},
    {"smallest 12", {7, 0, 12, 0}, 0},
    {"lowest smallest", {7, 0, INT32_MIN, 0}, 0},
    {"highest smallest", {7, 0, INT32_MAX, 0}, 0},
    {"largest 11", {7, 0, 0, 11}, 1},
    {"largest 12", {7, 0, 0, 12}, 0},
    {"largest -11", {7, 0, 0, -11}, 1},
    {"largest -12", {7, 0, 0, -12}, 0},
    {"lowest largest", {7, 0, 0, INT32_MIN}, 0},
    {"highest largest", {7, 0, 0, INT32_MAX}, 0},
    {"smallest above largest", {7, 0, 11, -11}, 1}, /* is not asked */
    {"most edges there can be", {UINT32_MAX, 0, 0, 0}, 0},
};
#define FRAME_PLACE 9 /* 8 ms so far */

/* Whether all entries take a station with these edges, or all refuse it with 1. */
static void edges_asked(const char *which, cq_station station, int in)
{
    static const uint8_t heard[1] = {CQ_LEVEL_QUIET}, text[1] = {'e'};
    static const cq_drift_report fresh = CQ_DRIFT_FRESH;
    cq_station copy = station;
    if (in) {
        cq_drift_report report = CQ_DRIFT_FRESH;
        check(preview(which, station, text, 1).answer == CQ_OK, "a preview is not refused", which);
        offers(which, &copy, "e", 1, 1);
        check(memcmp(&copy.edges.seen, &station.edges.seen, sizeof copy.edges.seen) == 0 &&
                  copy.edges.level == station.edges.level,
              "an offer leaves the edges", which);
        drifts(which, &station, heard, 0, &report);
        drifts(which, &station, heard, 1, &report);
        return;
    }
    preview_refused(which, &station, text, 1, CQ_REFUSED_STATE);
    offer_refused(which, station, text, 1, CQ_REFUSED_STATE);
    station_refused(which, station, heard, 1, 1, 1, CQ_REFUSED_STATE);
    drift_refused(which, station, heard, 1, 1, 1, fresh, CQ_REFUSED_STATE);
    check(cq_station_open(&copy, copy.core.mode) == CQ_OK && none_wait(&copy), "an opening drops them", which);
}

/* The edges that wait, in a frame of a mode and outside one. */
static void edges_bounds(uint8_t mode)
{
    static const uint8_t most[4] = {144, 131, 1, 96};
    int baudot = mode == CQ_MODE_BAUDOT_45 || mode == CQ_MODE_BAUDOT_50;
    cq_station fresh = opened(mode), station;
    unsigned place, level;
    size_t i;
    for (place = 0; place <= most[mode - 1]; place++) {
        int frame = baudot && place >= 2;
        fresh.core.reader.frame.place = (uint8_t)place;
        for (level = 0; level <= 4; level++) {
            station = fresh;
            station.edges.level = (uint8_t)level;
            edges_asked("level", station, level == 0 || (frame && level <= 2));
        }
        /* As many as there can be, and one more. */
        station = fresh;
        station.edges.seen.edges = frame ? place - 2 : 0;
        edges_asked("edges", station, 1);
        station.edges.seen.edges++;
        edges_asked("edges, one more", station, 0);
    }
    for (i = 0; i < sizeof bounds / sizeof bounds[0]; i++) {
        station = fresh;
        station.edges.seen = bounds[i].report;
        station.core.reader.frame.place = mode == CQ_MODE_DTMF ? 1 : FRAME_PLACE;
        edges_asked(bounds[i].name, station, i == 0 || (baudot && bounds[i].in));
        station.core.reader.frame.place = 0;
        edges_asked(bounds[i].name, station, i == 0);
    }
    station = fresh;
    station.edges.level = 255;
    edges_asked("level 255", station, 0);
}

/* All edges that wait ahead of the stop's sample count there; space ahead of it brings one more, 11 or 10 late. */
static void edges_count(uint8_t mode, uint8_t stop, int32_t late)
{
    static const uint8_t mark[1] = {CQ_LEVEL_MARK};
    cq_station fresh = opened(mode), station;
    size_t i;
    fresh.core.reader.frame.place = (uint8_t)(stop + 1);
    for (i = 0; i < sizeof bounds / sizeof bounds[0]; i++) {
        cq_drift_report report = CQ_DRIFT_FRESH, b = bounds[i].report;
        if (!bounds[i].in) {
            continue;
        }
        station = fresh;
        station.edges.seen = b;
        station.edges.level = CQ_LEVEL_MARK;
        drifts(bounds[i].name, &station, mark, 1, &report);
        check(is_report(&report, b.edges, b.sum, b.smallest, b.largest), "edges that waited", bounds[i].name);
        station = fresh;
        station.edges.seen = b;
        station.edges.level = CQ_LEVEL_SPACE;
        memset(&report, 0, sizeof report);
        drifts(bounds[i].name, &station, mark, 1, &report);
        check(is_report(&report, b.edges + 1, b.sum + late, b.edges > 0 && b.smallest < late ? b.smallest : late,
                        b.edges > 0 && b.largest > late ? b.largest : late),
              "edges that waited, and one more", bounds[i].name);
    }
    /* As many as can wait there. */
    station = fresh;
    station.edges.seen.edges = stop - 1u;
    station.edges.seen.sum = -11 * (stop - 1);
    station.edges.seen.smallest = station.edges.seen.largest = -11;
    for (i = 0; i < 2; i++) {
        cq_station copy = station;
        cq_drift_report report = {CQ_DRIFT_EDGES_MAX, 0, 0, 0};
        report.edges -= stop - 1u - (uint32_t)i;
        if (i == 0) {
            drifts("a full report", &copy, mark, 1, &report);
            check(is_report(&report, CQ_DRIFT_EDGES_MAX, -11 * (stop - 1), -11, 0), "as many as can wait", "full");
        } else {
            drift_refused("one more than full", copy, mark, 1, 1, 1, report, CQ_REFUSED_REPORT_FULL);
        }
    }
}

/* A report, in each mode. */
static void report_bounds(uint8_t mode)
{
    static const uint8_t quiet[1] = {CQ_LEVEL_QUIET};
    static const struct bound large[] = {
        {"65,536 edges", {CQ_DRIFT_EDGES_MAX, 0, 0, 0}, 1},
        {"65,537 edges", {CQ_DRIFT_EDGES_MAX + 1, 0, 0, 0}, 0},
        {"largest sum", {CQ_DRIFT_EDGES_MAX, 11 * CQ_DRIFT_EDGES_MAX, 11, 11}, 1},
        {"largest sum and 1", {CQ_DRIFT_EDGES_MAX, 11 * CQ_DRIFT_EDGES_MAX + 1, 11, 11}, 0},
        {"smallest sum", {CQ_DRIFT_EDGES_MAX, -11 * CQ_DRIFT_EDGES_MAX, -11, -11}, 1},
        {"smallest sum less 1", {CQ_DRIFT_EDGES_MAX, -11 * CQ_DRIFT_EDGES_MAX - 1, -11, -11}, 0},
    };
    cq_station station = opened(mode);
    size_t i, n = sizeof bounds / sizeof bounds[0];
    for (i = 0; i < n + sizeof large / sizeof large[0]; i++) {
        const struct bound *b = i < n ? &bounds[i] : &large[i - n];
        cq_drift_report report = b->report;
        if (b->in) {
            drifts(b->name, &station, quiet, 1, &report);
            check(memcmp(&report, &b->report, sizeof report) == 0, "a report stays without an edge", b->name);
        } else {
            drift_refused(b->name, station, quiet, 1, 1, 1, report, CQ_REFUSED_STATE);
        }
    }
}

static void drift(void)
{
    uint8_t mode;
    drift_lines();
    drift_waits();
    drift_dropped(CQ_MODE_BAUDOT_45);
    drift_dropped(CQ_MODE_BAUDOT_50);
    drift_frames(CQ_MODE_BAUDOT_45, 22);
    drift_frames(CQ_MODE_BAUDOT_50, 20);
    drift_questions();
    drift_full(CQ_MODE_BAUDOT_45, "s22 m22 s88 m12", "s22 m22 s88 m33 s22 m22 s88 m12");
    drift_full(CQ_MODE_BAUDOT_50, "s20 m20 s80 m11", "s20 m20 s80 m30 s20 m20 s80 m11");
    edges_count(CQ_MODE_BAUDOT_45, 143, 11);
    edges_count(CQ_MODE_BAUDOT_50, 130, 10);
    for (mode = CQ_MODE_BAUDOT_45; mode <= CQ_MODE_EDT; mode++) {
        edges_bounds(mode);
        report_bounds(mode);
    }
}

int main(void)
{
    uint8_t mode;
    layout();
    words_taken_apart();
    examples();
    continued();
    silent();
    letters();
    empty();
    refusals();
    whole_and_cut();
    calling();
    station_examples();
    faults();
    bursts(CQ_MODE_BAUDOT_45, 22);
    bursts(CQ_MODE_BAUDOT_50, 20);
    for (mode = CQ_MODE_BAUDOT_45; mode <= CQ_MODE_EDT; mode++) {
        conversation(mode, 1);
        conversation(mode, 20);
        conversation(mode, 1000);
    }
    station_previews();
    station_refusals();
    drift();
    if (failures != 0) {
        printf("header: %lu of %lu checks failed\n", failures, checks);
        return 1;
    }
    printf("header: %lu checks passed\n", checks);
    return 0;
}
