/*
 * A call from C: two stations on one line, the caller's set and the relay operator's. First the line is spoiled
 * in both directions, while the caller types already; the caller's station keeps that text until the line has
 * been free for 300 ms. From then on each side reads what the other types, in turns. In DTMF the first character
 * may still be another one, since a * or # that was heard in the noise stands ahead of the first digit. Ahead of the
 * third turn both sides hear a number from another line. In Baudot both are then in figures; the next burst opens
 * with its shift code, so that it is read right all the same. A fault is shown with its cause and the ms of the frame
 * at which it broke, as <stop 143>; the last lines count the causes. examples/call.out is what it prints for all modes.
 *
 * At the first key of a turn the host asks for a preview of the whole turn ("needs"), and shows later what it took from
 * that key until all was sent. The preview is of a text that is offered at once on a line that is quiet from then on.
 * Here each key is offered by itself, KEY ms behind the last one. That takes as long while the keys come at least as
 * fast as they are sent; it would take longer if the station ran out of text in between and began another burst. The
 * first turn takes longer, since the line is still spoiled at its first key.
 *
 *     make lib
 *     gcc -std=c99 -Iinclude examples/call.c target/staticlib/libcuyrapaq.a -o target/call
 *     target/call                              all modes
 *     target/call dtmf 'hello ga' 'hi ga'      one mode; the caller's text, the relay's, and so on
 */
#include "cuyrapaq.h"

#include <stdio.h>
#include <stdlib.h>
#include <string.h>

#define RUN 20           /* ms of one run; what is sent arrives one run later */
#define SPOILED 3000     /* ms for which the line is spoiled */
#define FIRST_KEY 500    /* the ms at which the caller begins to type */
#define KEY 100          /* ms from one typed character to the next: as fast as the fastest mode sends */
#define PAUSE 1000       /* ms of quiet after which the other side answers, and after which a text is shown */
#define STRANGER "73"    /* what both sides hear from another line */
#define STRANGER_TURN 2  /* the turn that it comes ahead of, from 0 on */
#define CROSSTALK 1000   /* ms for which the other line is heard: enough for this text in every mode */
#define KEY_GAP 50       /* quiet ms between two keys of a burst in DTMF */
#define LONGEST 1000     /* characters of one turn */
#define SHOWN 60         /* signs that fill a line of output */
#define SIGN 24          /* the most bytes of what stands for a character or a fault */

struct mode {
    const char *word; /* the argument */
    uint8_t number;
    const char *name;
    const char *settles;
};

static const struct mode modes[] = {
    {"baudot45", CQ_MODE_BAUDOT_45, "Baudot at 45.45 bit/s", "from the first code of a burst on"},
    {"baudot50", CQ_MODE_BAUDOT_50, "Baudot at 50 bit/s", "from the first code of a burst on"},
    {"dtmf", CQ_MODE_DTMF, "DTMF", "after the first digit: a * or # that noise left belongs to it"},
    {"edt", CQ_MODE_EDT, "EDT", "from the first character on"},
};
#define MODES (sizeof modes / sizeof modes[0])

static const char *const dialogue[] = {
    "hello, too bad a line. pse call 599 0142 ga",
    "calling 599 0142 now... no answer. try 555? ga",
    "yes try 555 0142, room 12 ga",
    "ok, ringing: (555 0142) sk",
};

/* The causes of a fault: the sign in a text, and the words in the count. */
static const struct {
    const char *sign, *words;
} causes[] = {
    [0] = {"fault", "of a cause that this host does not know"},
    [CQ_CAUSE_QUIET] = {"quiet", "quiet inside a frame"},
    [CQ_CAUSE_STOP_NOT_MARK] = {"stop", "stop not mark"},
    [CQ_CAUSE_ODD_PARITY] = {"parity", "odd parity"},
    [CQ_CAUSE_NO_ROW] = {"no row", "code without a row"},
    [CQ_CAUSE_LETTER_KEY] = {"key A-D", "key A to D"},
};
#define CAUSES (sizeof causes / sizeof causes[0])

/* A small random source (xorshift): the same numbers in every run. */
struct random {
    uint32_t state; /* never 0 */
};

static unsigned below(struct random *random, unsigned limit)
{
    uint32_t x = random->state;
    x ^= x << 13;
    x ^= x >> 17;
    x ^= x << 5;
    random->state = x;
    return (unsigned)(x >> 8) % limit;
}

/* One direction of a spoiled line: stretches of noise, of a stranger's codes and of a held level or key. */
enum stretch { NOISE, CODES, HELD, STRETCHES };

#define STRANGER_MS 400 /* the most ms of a stranger's burst that are not heard */

struct spoiler {
    struct random random;
    uint8_t mode;
    long until; /* the ms up to which the line is spoiled */
    enum stretch stretch;
    unsigned left; /* ms of it */
    uint8_t level;
    cq_station stranger;
};

static uint8_t any_level(struct spoiler *s)
{
    return (uint8_t)below(&s->random, CQ_LEVEL_MAX(s->mode) + 1u);
}

/* Runs the stranger, who hears nothing, for some ms; gives back the last level it sends. */
static uint8_t stranger_runs(struct spoiler *s, size_t ms)
{
    static const uint8_t quiet[STRANGER_MS];
    static uint8_t sent[STRANGER_MS];
    static uint32_t words[STRANGER_MS];
    cq_station_ran ran = cq_station_run(&s->stranger, quiet, ms, sent, ms, words, ms);
    return ran.answer == CQ_OK && ms > 0 ? sent[ms - 1] : CQ_LEVEL_QUIET;
}

static void stranger_types(struct spoiler *s, const char *text, size_t length)
{
    cq_station_open(&s->stranger, s->mode);
    cq_station_offer(&s->stranger, (const uint8_t *)text, length);
}

static void next_stretch(struct spoiler *s)
{
    s->stretch = (enum stretch)below(&s->random, STRETCHES);
    s->left = 40 + below(&s->random, 250);
    s->level = any_level(s);
    if (s->stretch == CODES) {
        char text[3];
        size_t i;
        for (i = 0; i < sizeof text; i++) {
            text[i] = (char)(' ' + below(&s->random, 95));
        }
        stranger_types(s, text, sizeof text);
        stranger_runs(s, 1 + below(&s->random, STRANGER_MS)); /* its burst is heard from somewhere on */
    }
}

/* A stranger's burst is heard, and the whole of it, from a ms on. */
static void cross(struct spoiler *s, long ms)
{
    s->stretch = CODES;
    s->left = CROSSTALK;
    s->until = ms + CROSSTALK;
    stranger_types(s, STRANGER, strlen(STRANGER));
}

static uint8_t spoiled_ms(struct spoiler *s)
{
    if (s->left == 0) {
        next_stretch(s);
    }
    s->left--;
    if (s->stretch == CODES) {
        return stranger_runs(s, 1);
    }
    if (s->stretch == NOISE && below(&s->random, 12) == 0) {
        s->level = any_level(s);
    }
    return s->level;
}

/* Some text with the ms of its first and its last character, to be shown in one line. */
struct text {
    const char *verb;
    long first, last;
    size_t length;
    char signs[SHOWN + SIGN];
};

/* One end of the line: a person at a station. */
struct side {
    const char *name;
    cq_station station;
    uint8_t heard[RUN], sent[RUN];
    uint32_t words[RUN];
    struct spoiler spoiler; /* of what this side hears */
    struct text typed, read;
    long burst;     /* the ms at which its burst began, -1 outside a burst */
    long last_sent; /* the last ms in which it sent signal, -1 before the first */
    unsigned faults, faults_before; /* read in all, and before the first burst */
    unsigned by_cause[CAUSES];      /* those of each cause */
};

static void show_text(const struct side *side, struct text *text)
{
    if (text->length > 0) {
        text->signs[text->length] = '\0';
        printf("%7ld %7ld  %-6s %-6s %s\n", text->first, text->last, side->name, text->verb, text->signs);
        text->length = 0;
    }
}

/* Puts signs behind a text; shows it when a line is full. */
static void add_signs(const struct side *side, struct text *text, long ms, const char *signs)
{
    if (text->length == 0) {
        text->first = ms;
    }
    text->last = ms;
    memcpy(text->signs + text->length, signs, strlen(signs));
    text->length += strlen(signs);
    if (text->length >= SHOWN) {
        show_text(side, text);
    }
}

static void add_character(const struct side *side, struct text *text, long ms, uint8_t character)
{
    char signs[SIGN];
    if (character >= 0x20 && character < 0x7F) {
        sprintf(signs, "%c", character);
    } else {
        sprintf(signs, "<%02X>", (unsigned)character);
    }
    add_signs(side, text, ms, signs);
}

static void add_fault(struct side *side, long ms, uint32_t word)
{
    size_t cause = CQ_WORD_CAUSE(word) < CAUSES ? CQ_WORD_CAUSE(word) : 0;
    char signs[SIGN];
    if (CQ_WORD_MS(word) > 0) {
        sprintf(signs, "<%s %u>", causes[cause].sign, CQ_WORD_MS(word));
    } else {
        sprintf(signs, "<%s>", causes[cause].sign); /* in DTMF there is no frame */
    }
    add_signs(side, &side->read, ms, signs);
    side->faults++;
    side->by_cause[cause]++;
}

static void add_word(struct side *side, long ms, uint32_t word)
{
    if (CQ_WORD_KIND(word) == CQ_WORD_CHARACTER) {
        add_character(side, &side->read, ms, CQ_WORD_CHAR(word));
    } else {
        add_fault(side, ms, word);
    }
}

/* The quiet ms that a burst may have in it. */
static long burst_gap(const struct side *side)
{
    return side->spoiler.mode == CQ_MODE_DTMF ? KEY_GAP : 0;
}

/* Follows the bursts of a side, and shows each when quiet has ended it. */
static void follow_burst(struct side *side, long ms)
{
    long gap = burst_gap(side);
    int i;
    for (i = 0; i < RUN; i++) {
        if (side->sent[i] != CQ_LEVEL_QUIET) {
            if (side->burst < 0) {
                side->burst = ms + i;
            }
            side->last_sent = ms + i;
        } else if (side->burst >= 0 && ms + i - side->last_sent > gap) {
            printf("%7ld %7ld  %-6s sends\n", side->burst, side->last_sent, side->name);
            side->burst = -1;
        }
    }
}

static int refused(const char *entry, uint8_t answer)
{
    fprintf(stderr, "call: %s refused with %u: see the refusals in cuyrapaq.h\n", entry, (unsigned)answer);
    return 1;
}

/* Runs one side for RUN ms from `ms` on. */
static int run(struct side *side, long ms)
{
    cq_station_ran ran;
    size_t i;
    if (ms < side->spoiler.until) {
        for (i = 0; i < RUN; i++) {
            side->heard[i] = spoiled_ms(&side->spoiler);
        }
    }
    ran = cq_station_run(&side->station, side->heard, RUN, side->sent, RUN, side->words, RUN);
    if (ran.answer != CQ_OK) {
        return refused("cq_station_run", ran.answer);
    }
    follow_burst(side, ms);
    for (i = 0; i < ran.words; i++) {
        add_word(side, ms + RUN, side->words[i]);
    }
    if (side->read.length > 0 && ms - side->read.last >= PAUSE) {
        show_text(side, &side->read);
    }
    return 0;
}

/* The turns that are typed, one after the other, by the two sides. */
struct turns {
    const char *const *texts;
    size_t count;
    size_t turn; /* whose text is typed now */
    size_t at;   /* the next character of it */
    long next;   /* the ms at which it is typed */
    long first;  /* the ms of its first key, -1 before that and when it is shown what the turn took */
};

/* Shows a number of ms that begin at a ms. */
static void show_ms(const struct side *side, const char *verb, long from, long ms, const char *what)
{
    long to = ms > 0 ? from + ms - 1 : from;
    printf("%7ld %7ld  %-6s %-6s %ld ms %s\n", from, to, side->name, verb, ms, what);
}

/* Ahead of the first key of a turn: shows the preview of the whole turn. */
static int show_preview(const struct side *side, const char *text, long ms)
{
    cq_station_previewed r = cq_station_preview(&side->station, (const uint8_t *)text, strlen(text));
    if (r.answer == CQ_REFUSED_FULL) {
        printf("%7ld %7s  %-6s has more text than a preview takes\n", ms, "", side->name);
        return 0;
    }
    if (r.answer != CQ_OK) {
        return refused("cq_station_preview", r.answer);
    }
    show_ms(side, "needs", ms, (long)r.ms, "by the preview of this turn, on a line that is quiet from now on");
    return 0;
}

/* When all of a turn is typed and the station is idle again: shows the ms from the first key until then. */
static void show_took(struct turns *turns, const struct side *side)
{
    int typed = turns->texts[turns->turn][turns->at] == '\0';
    int idle = side->station.core.waiting == 0 && side->station.core.line.part == 0 && side->burst < 0;
    long end = turns->first; /* if nothing was sent */
    if (turns->first < 0 || !typed || !idle) {
        return;
    }
    if (side->last_sent >= turns->first) {
        end = side->last_sent + burst_gap(side) + 1; /* the quiet behind a key belongs to its code */
    }
    show_ms(side, "took", turns->first, end - turns->first, "from its first key until all was sent");
    turns->first = -1;
}

/* Types the next character, if it is time and the station has space; else it is tried in the next run. */
static int type(struct turns *turns, struct side *side, long ms)
{
    const char *text = turns->texts[turns->turn];
    uint8_t character = (uint8_t)text[turns->at];
    uint8_t answer;
    if (ms < turns->next || character == '\0') {
        return 0;
    }
    if (turns->at == 0) {
        turns->first = ms;
        if (show_preview(side, text, ms) != 0) {
            return 1;
        }
    }
    answer = cq_station_offer(&side->station, &character, 1);
    if (answer == CQ_REFUSED_FULL) {
        return 0;
    }
    if (answer != CQ_OK) {
        return refused("cq_station_offer", answer);
    }
    add_character(side, &side->typed, ms, character);
    turns->at++;
    turns->next = ms + KEY;
    if (text[turns->at] == '\0') {
        show_text(side, &side->typed);
    }
    return 0;
}

/* The turn goes to the other side when all is typed and sent and the line has been quiet for PAUSE. Gives back whether
 * it does. */
static int pass_turn(struct turns *turns, const struct side *side, long ms)
{
    int typed = turns->texts[turns->turn][turns->at] == '\0';
    int sent = side->station.core.waiting == 0 && ms - side->last_sent >= PAUSE;
    if (!typed || !sent || ms < turns->next + PAUSE) {
        return 0;
    }
    turns->turn++;
    turns->at = 0;
    turns->next = ms;
    return 1;
}

/* Both sides hear another line from a ms on. The next turn waits until they have shown what they read. */
static void hear_stranger(struct turns *turns, struct side sides[2], long ms)
{
    int i;
    for (i = 0; i < 2; i++) {
        show_text(&sides[i], &sides[i].read);
        cross(&sides[i].spoiler, ms);
    }
    printf("%7ld %7ld  both hear %s from another line\n", ms, ms + CROSSTALK, STRANGER);
    turns->next = ms + CROSSTALK + PAUSE;
}

static void sit_down(struct side *side, const char *name, uint8_t mode, uint32_t seed)
{
    memset(side, 0, sizeof *side);
    side->name = name;
    cq_station_open(&side->station, mode);
    side->spoiler.random.state = seed;
    side->spoiler.mode = mode;
    side->spoiler.until = SPOILED;
    side->typed.verb = "types";
    side->read.verb = "reads";
    side->burst = -1;
    side->last_sent = -1;
}

/* When the first burst begins, what both sides have read from the spoiled line is shown by itself. */
static void first_burst(struct side sides[2])
{
    int i;
    for (i = 0; i < 2; i++) {
        show_text(&sides[i], &sides[i].read);
        sides[i].faults_before = sides[i].faults;
    }
}

/* How many faults a side has read, and why. */
static void show_faults(const struct side *side)
{
    const char *ahead = ": ";
    size_t i;
    printf("%-6s read %u faults before the first burst, %u from it on", side->name, side->faults_before,
           side->faults - side->faults_before);
    for (i = 0; i < CAUSES; i++) {
        if (side->by_cause[i] > 0) {
            printf("%s%u %s", ahead, side->by_cause[i], causes[i].words);
            ahead = ", ";
        }
    }
    putchar('\n');
}

/* A whole call. Each side hears in a run what the other sent in the run before. */
static int call(const struct mode *mode, const char *const *texts, size_t count)
{
    static struct side sides[2];
    struct turns turns = {texts, count, 0, 0, FIRST_KEY, -1};
    long ms;
    int i;
    sit_down(&sides[0], "Caller", mode->number, 18);
    sit_down(&sides[1], "Relay", mode->number, 2000);
    printf("%s: reads right %s\n", mode->name, mode->settles);
    printf("from ms   to ms\n%7d %7d  the line is spoiled in both directions\n", 0, SPOILED);
    for (ms = 0; turns.turn < turns.count; ms += RUN) {
        struct side *speaker = &sides[turns.turn % 2];
        int none_sent = sides[0].last_sent < 0 && sides[1].last_sent < 0;
        if (type(&turns, speaker, ms) != 0 || run(&sides[0], ms) != 0 || run(&sides[1], ms) != 0) {
            return 1;
        }
        if (none_sent && (sides[0].last_sent >= 0 || sides[1].last_sent >= 0)) {
            first_burst(sides);
        }
        show_took(&turns, speaker);
        memcpy(sides[0].heard, sides[1].sent, RUN);
        memcpy(sides[1].heard, sides[0].sent, RUN);
        if (pass_turn(&turns, speaker, ms) && turns.turn == STRANGER_TURN && turns.turn < turns.count) {
            hear_stranger(&turns, sides, ms + RUN);
        }
    }
    for (i = 0; i < 2; i++) {
        show_text(&sides[i], &sides[i].read);
    }
    for (i = 0; i < 2; i++) {
        show_faults(&sides[i]);
    }
    return 0;
}

static int usage(const char *what, const char *which)
{
    size_t i;
    fprintf(stderr, "call: %s%s\nusage: call [MODE [TEXT...]]\nMODE: all", what, which);
    for (i = 0; i < MODES; i++) {
        fprintf(stderr, ", %s", modes[i].word);
    }
    fprintf(stderr, "\nTEXT: the turns, the caller's first; up to %d characters of seven bits each\n", LONGEST);
    return 2;
}

/* Whether every character of a turn is one of seven bits, and the turn not too long. */
static int sendable(const char *text)
{
    size_t i;
    for (i = 0; text[i] != '\0'; i++) {
        if ((unsigned char)text[i] > 127 || i == LONGEST) {
            return 0;
        }
    }
    return i > 0;
}

int main(int argc, char **argv)
{
    const char *word = argc > 1 ? argv[1] : "all";
    const char *const *texts = dialogue;
    size_t i, count = sizeof dialogue / sizeof dialogue[0];
    int known = 0;
    if (argc > 2) {
        texts = (const char *const *)(argv + 2);
        count = (size_t)argc - 2;
    }
    for (i = 0; i < count; i++) {
        if (!sendable(texts[i])) {
            return usage("a text is empty, too long or has a byte above 127: ", texts[i]);
        }
    }
    for (i = 0; i < MODES; i++) {
        if (strcmp(word, "all") == 0 || strcmp(word, modes[i].word) == 0) {
            if (known++ > 0) {
                putchar('\n');
            }
            if (call(&modes[i], texts, count) != 0) {
                return 1;
            }
        }
    }
    return known > 0 ? 0 : usage("unknown mode: ", word);
}
