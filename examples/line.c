/*
 * A bench tool: what a station sends for a text, how long that takes and can take at most, what it reads from a line,
 * how early or late the edges of a line come, and pictures.
 *
 *     make lib
 *     gcc -std=c99 -Iinclude examples/line.c target/staticlib/libcuyrapaq.a -o target/line
 *     printf 'HELLO 73' | target/line send baudot45            the sent ms as run lengths, LEVEL MS in each line
 *     target/line send baudot45 'GA' 'OK 73' 'SK'              the same of several turns, a burst for each
 *     target/line time baudot45 'please call back' 'pls cb'    the ms of each text by itself, by a preview
 *     target/line most dtmf 1 80 256                           the most ms that so many characters take
 *     printf '11 70\n0 50\n2 70\n' | target/line read dtmf     the words, each with its ms, faults with cause; the text
 *     target/line drift baudot45 <runs                         the edges of each frame, early or late; the report
 *     target/line drift baudot45 svg <runs >drift.svg          the edges as a histogram
 *     printf 'E' | target/line svg baudot45 >e.svg             the burst as a picture
 *     target/line svg edt 41 >code.svg                         one code as a picture
 */
#include "cuyrapaq.h"

#include <ctype.h>
#include <errno.h>
#include <stdarg.h>
#include <stdio.h>
#include <stdlib.h>
#include <string.h>

#define LONGEST 1000         /* characters of a text, or of all turns */
#define MOST_TURNS 16        /* each with a preamble and, in Baudot, a shift code behind it */
#define GAP 300              /* quiet ms between two turns */
#define MOST_SENT 500000     /* ms: above 1,000 characters of 480 in DTMF, of 330 in Baudot, and what the turns bring */
#define MOST_PIECES (2 * LONGEST + 2 * MOST_TURNS) /* two codes for each character, and the heads of the turns */
#define MOST_RUN 1000000     /* ms of one line of input */
#define MOST_HEARD 10000000  /* ms of the whole input */
#define MOST_DRAWN 20000     /* ms of a picture */

struct mode {
    const char *word; /* the argument */
    uint8_t number;
    const char *name;
    const char *levels;
    int scale; /* units of a picture for each ms of a burst */
};

static const struct mode modes[] = {
    {"baudot45", CQ_MODE_BAUDOT_45, "Baudot at 45.45 bit/s", "0 quiet, 1 mark, 2 space", 2},
    {"baudot50", CQ_MODE_BAUDOT_50, "Baudot at 50 bit/s", "0 quiet, 1 mark, 2 space", 2},
    {"dtmf", CQ_MODE_DTMF, "DTMF", "0 quiet, 1 to 9 these keys, 10 key 0, 11 *, 12 #, 13 to 16 A to D", 1},
    {"edt", CQ_MODE_EDT, "EDT", "0 quiet, 1 mark, 2 space", 3},
};
#define MODES (sizeof modes / sizeof modes[0])

static const char usage[] = "usage: line send MODE <text         the ms that a station sends, LEVEL MS in each line\n"
                            "       line send MODE TEXT..        the same of several turns, a burst for each\n"
                            "       line time MODE <text         how long that takes on a free and quiet line\n"
                            "       line time MODE TEXT..        the same of several texts, each by itself\n"
                            "       line most MODE N..           the most ms that N characters can take there\n"
                            "       line read MODE <runs         the words read from such lines, faults with cause\n"
                            "       line drift MODE <runs        the edges of such lines, early or late; Baudot alone\n"
                            "       line drift MODE svg <runs    a histogram of them\n"
                            "       line svg MODE <text          a picture of the burst\n"
                            "       line svg MODE CODE           a picture of one code: 00001, **4 or 41 (EDT: hex)\n"
                            "MODE is baudot45, baudot50, dtmf or edt\n";

/* Says what is wrong and ends. */
static void stop(const char *format, ...)
{
    va_list arguments;
    fputs("line: ", stderr);
    va_start(arguments, format);
    vfprintf(stderr, format, arguments);
    va_end(arguments);
    fputc('\n', stderr);
    exit(2);
}

static void ran_well(uint8_t answer)
{
    if (answer != CQ_OK) {
        stop("the station refused with %u: see the refusals in cuyrapaq.h", (unsigned)answer);
    }
}

/* Runs a station for one ms; gives back the level sent, and the number of words (0 or 1). */
static uint8_t run_ms(cq_station *station, uint8_t heard, uint32_t *word, size_t *words)
{
    uint8_t sent;
    cq_station_ran ran = cq_station_run(station, &heard, 1, &sent, 1, word, 1);
    ran_well(ran.answer);
    *words = ran.words;
    return sent;
}

/* The preamble or a code: its ms in the burst, and the character that was taken with it, -1 if none. */
struct piece {
    size_t from, to;
    uint8_t part; /* as in cq_on_line */
    uint8_t code;
    int character;
};

struct burst {
    size_t ms, pieces;
    uint8_t levels[MOST_SENT];
    struct piece piece[MOST_PIECES];
};

/* Sends one ms and notes it. The station's `line` says which part of the burst it belongs to. */
static void send_ms(cq_station *station, struct burst *burst)
{
    size_t words;
    uint32_t word;
    uint16_t waiting = station->core.waiting;
    uint8_t front = station->chars[0];
    uint8_t level = run_ms(station, CQ_LEVEL_QUIET, &word, &words);
    if (station->core.line.at == 1 && station->core.line.part != 0) {
        struct piece *piece = &burst->piece[burst->pieces++];
        piece->from = burst->ms;
        piece->part = station->core.line.part;
        piece->code = station->core.line.code;
        piece->character = station->core.waiting < waiting ? front : -1;
    }
    burst->levels[burst->ms++] = level;
    burst->piece[burst->pieces - 1].to = burst->ms;
}

/* The burst of a turn. Characters are offered as soon as there is space for them, so there is one burst. */
static void send_turn(cq_station *station, const uint8_t *text, size_t length, struct burst *burst)
{
    size_t offered = 0;
    do {
        while (offered < length && cq_station_offer(station, text + offered, 1) == CQ_OK) {
            offered++;
        }
        if (station->core.waiting > 0 || station->core.line.part != 0) {
            send_ms(station, burst);
        }
    } while (station->core.waiting > 0 || station->core.line.part != 0);
}

/* The burst of a text, from a fresh station. */
static void send_text(const struct mode *mode, const uint8_t *text, size_t length, struct burst *burst)
{
    cq_station station;
    ran_well(cq_station_open(&station, mode->number));
    burst->ms = burst->pieces = 0;
    send_turn(&station, text, length, burst);
}

/* Ends with what is wrong with a text, if something is. */
static void check_text(const uint8_t *text, size_t length)
{
    size_t i;
    if (length > LONGEST) {
        stop("the text is longer than %d characters", LONGEST);
    }
    for (i = 0; i < length; i++) {
        if (text[i] > 127) {
            stop("byte %lu of the text is %02X; only characters of seven bits (00 to 7F) can be sent",
                 (unsigned long)i + 1, (unsigned)text[i]);
        }
    }
}

/* Standard input as text; gives back its length. */
static size_t read_text(uint8_t text[LONGEST + 1])
{
    size_t length = fread(text, 1, LONGEST + 1, stdin);
    check_text(text, length);
    return length;
}

/* The bursts of several turns of one station, with quiet between them. */
static void send_turns(const struct mode *mode, char *const *turns, int count, struct burst *burst)
{
    cq_station station;
    uint32_t word;
    size_t words, ms, all = 0;
    int i;
    if (count > MOST_TURNS) {
        stop("there are more than %d turns", MOST_TURNS);
    }
    ran_well(cq_station_open(&station, mode->number));
    burst->ms = burst->pieces = 0;
    for (i = 0; i < count; i++) {
        const uint8_t *text = (const uint8_t *)turns[i];
        size_t length = strlen(turns[i]);
        check_text(text, length);
        all += length;
        if (all > LONGEST) {
            stop("the turns have more than %d characters", LONGEST);
        }
        for (ms = 0; i > 0 && ms < GAP; ms++) {
            burst->levels[burst->ms++] = run_ms(&station, CQ_LEVEL_QUIET, &word, &words);
        }
        send_turn(&station, text, length, burst);
    }
}

/* The end of the run of equal levels that begins at a ms. */
static size_t run_end(const uint8_t *levels, size_t from, size_t end)
{
    size_t to = from;
    while (to < end && levels[to] == levels[from]) {
        to++;
    }
    return to;
}

static void do_send(const struct burst *burst)
{
    size_t from, to;
    for (from = 0; from < burst->ms; from = to) {
        to = run_end(burst->levels, from, burst->ms);
        printf("%u %lu\n", (unsigned)burst->levels[from], (unsigned long)(to - from));
    }
}

/* How long a text takes, in ms: the preview of a fresh station, whose line is free. */
static unsigned long time_of(const struct mode *mode, const uint8_t *text, size_t length)
{
    cq_station station;
    cq_station_previewed previewed;
    check_text(text, length);
    ran_well(cq_station_open(&station, mode->number));
    previewed = cq_station_preview(&station, text, length);
    if (previewed.answer == CQ_REFUSED_FULL) {
        stop("more than %d characters of the text send something; no more are previewed", CQ_STATION_WAITING_MAX);
    }
    ran_well(previewed.answer);
    return previewed.ms;
}

static void print_time(unsigned long ms)
{
    printf("%lu ms, %lu.%03lu s\n", ms, ms / 1000, ms % 1000);
}

/* The same for each of several texts, if none of them is refused. */
static void time_texts(const struct mode *mode, char *const *texts, int count)
{
    int i;
    for (i = 0; i < count; i++) {
        time_of(mode, (const uint8_t *)texts[i], strlen(texts[i]));
    }
    for (i = 0; i < count; i++) {
        print_time(time_of(mode, (const uint8_t *)texts[i], strlen(texts[i])));
    }
}

/* A number of digits alone at `*at`; moves behind it. */
static int number(const char **at, unsigned long *value)
{
    char *end;
    while (**at == ' ' || **at == '\t') {
        (*at)++;
    }
    if (!isdigit((unsigned char)**at)) {
        return 0;
    }
    errno = 0;
    *value = strtoul(*at, &end, 10);
    *at = end;
    return errno == 0;
}

/* The most ms that some number of characters take. */
static unsigned long most_of(const struct mode *mode, const char *argument)
{
    const char *rest = argument;
    unsigned long n;
    if (!number(&rest, &n) || *rest != '\0' || n == 0 || n > CQ_STATION_WAITING_MAX) {
        stop("\"%s\" is not a number of characters that can wait, 1 to %d", argument, CQ_STATION_WAITING_MAX);
    }
    return CQ_SENDING_MS_MAX(mode->number, n);
}

/* The same for each of several numbers, if none of them is refused. */
static void do_most(const struct mode *mode, char *const *numbers, int count)
{
    int i;
    for (i = 0; i < count; i++) {
        most_of(mode, numbers[i]);
    }
    for (i = 0; i < count; i++) {
        print_time(most_of(mode, numbers[i]));
    }
}

/* Takes LEVEL and MS from a line; 0 if it is empty or a comment. */
static int run_length(const struct mode *mode, char *line, unsigned long at, unsigned long *level, unsigned long *ms)
{
    const char *rest = line;
    line[strcspn(line, "\r\n")] = '\0';
    rest += strspn(rest, " \t");
    if (*rest == '\0' || *rest == '#') {
        return 0;
    }
    if (!number(&rest, level) || !number(&rest, ms) || rest[strspn(rest, " \t")] != '\0') {
        stop("line %lu: \"%s\" is not LEVEL MS, two numbers such as 1 150", at, line);
    }
    if (*level > (unsigned long)CQ_LEVEL_MAX(mode->number)) {
        stop("line %lu: level %lu is none of %s: %s", at, *level, mode->word, mode->levels);
    }
    if (*ms == 0 || *ms > MOST_RUN) {
        stop("line %lu: %lu ms: a run has 1 to %d ms", at, *ms, MOST_RUN);
    }
    return 1;
}

/* How far the input is read. */
struct input {
    unsigned long line, ms;
};

/* The next run of the input; 0 if there is none. */
static int next_run(const struct mode *mode, struct input *input, uint8_t *level, unsigned long *ms)
{
    char line[200];
    unsigned long number;
    while (fgets(line, sizeof line, stdin) != NULL) {
        input->line++;
        if (strlen(line) == sizeof line - 1 && line[sizeof line - 2] != '\n') {
            stop("line %lu is longer than %d characters", input->line, (int)sizeof line - 2);
        }
        if (run_length(mode, line, input->line, &number, ms)) {
            if (*ms > MOST_HEARD - input->ms) {
                stop("the input is longer than %d ms", MOST_HEARD);
            }
            input->ms += *ms;
            *level = (uint8_t)number;
            return 1;
        }
    }
    return 0;
}

/* The sign of a character, or its number if it has none. */
static const char *sign(uint8_t character)
{
    static char signs[8];
    sprintf(signs, character >= 0x20 && character < 0x7F ? "%c" : "<%02X>", (unsigned)character);
    return signs;
}

/* What was read, for the last lines of output. */
struct read {
    unsigned long ms, faults;
    size_t length;
    char *text;
};

/* Why a code could not be read. */
static const char *cause(uint32_t fault)
{
    switch (CQ_WORD_CAUSE(fault)) {
    case CQ_CAUSE_QUIET: return "quiet";
    case CQ_CAUSE_STOP_NOT_MARK: return "stop not mark";
    case CQ_CAUSE_ODD_PARITY: return "odd parity";
    case CQ_CAUSE_NO_ROW: return "code without a row";
    case CQ_CAUSE_LETTER_KEY: return "key A to D";
    default: return "unknown cause";
    }
}

static void keep_word(struct read *read, uint32_t word)
{
    if (CQ_WORD_KIND(word) != CQ_WORD_CHARACTER) {
        printf("%lu fault: %s", read->ms, cause(word));
        if (CQ_WORD_MS(word) > 0) { /* in DTMF there is no frame */
            printf(" at ms %u of the frame", CQ_WORD_MS(word));
        }
        putchar('\n');
        read->faults++;
        return;
    }
    printf("%lu %02X %s\n", read->ms, (unsigned)CQ_WORD_CHAR(word), sign(CQ_WORD_CHAR(word)));
    read->text = realloc(read->text, read->length + 1);
    if (read->text == NULL) {
        stop("there is no memory for the text");
    }
    read->text[read->length++] = (char)CQ_WORD_CHAR(word);
}

static void hear_run(cq_station *station, uint8_t level, unsigned long ms, struct read *read)
{
    size_t words;
    uint32_t word;
    for (; ms > 0; ms--) {
        run_ms(station, level, &word, &words);
        if (words > 0) {
            keep_word(read, word);
        }
        read->ms++;
    }
}

static void do_read(const struct mode *mode)
{
    unsigned long ms;
    uint8_t level;
    size_t i;
    struct input input = {0, 0};
    struct read read = {0, 0, 0, NULL};
    cq_station station;
    ran_well(cq_station_open(&station, mode->number));
    while (next_run(mode, &input, &level, &ms)) {
        hear_run(&station, level, ms, &read);
    }
    printf("faults: %lu\ntext: ", read.faults);
    for (i = 0; i < read.length; i++) {
        fputs(sign((uint8_t)read.text[i]), stdout);
    }
    putchar('\n');
    free(read.text);
}

/* The first ms of an element of a frame, and how many elements it has. */
static size_t element_start(uint8_t mode, size_t element)
{
    return mode == CQ_MODE_BAUDOT_45 ? 22 * element : mode == CQ_MODE_BAUDOT_50 ? 20 * element : (100 * element + 10) / 11;
}

static size_t elements(uint8_t mode)
{
    return mode == CQ_MODE_EDT ? 11 : 7;
}

/*
 * Drift. The station is run ms by ms with one report. Its `edges` say when the frame that it reads has one more, and
 * the report grows when the frame's stop is read.
 */
#define MOST_EDGES 144 /* of a frame: at most one in each ms */
#define MOST_MOVED 11  /* ms, early or late */
#define PLACES 7       /* where edges belong: to the start of an element */

struct edge {
    unsigned ms;   /* of the frame */
    int moved;     /* its displacement */
    uint8_t level; /* which it brings */
};

struct tally {
    unsigned long edges;
    long sum;
};

struct drift {
    cq_drift_report report;
    size_t waiting; /* edges of the frame that is being read */
    struct edge edge[MOST_EDGES];
    unsigned long frames, early, late;
    unsigned long moved[2 * MOST_MOVED + 1]; /* how many edges of each displacement */
    struct tally place[PLACES], to[CQ_LEVEL_SPACE + 1];
};

static void add_edge(struct tally *tally, int moved)
{
    tally->edges++;
    tally->sum += moved;
}

/* The mean of some edges, with its sign. */
static const char *mean(const struct tally *tally)
{
    static char text[40];
    long edges = (long)tally->edges, hundredths;
    if (edges == 0) {
        return "none";
    }
    hundredths = ((tally->sum < 0 ? -tally->sum : tally->sum) * 200 + edges) / (2 * edges);
    sprintf(text, "%s%ld.%02ld ms", hundredths == 0 ? "" : tally->sum < 0 ? "-" : "+", hundredths / 100,
            hundredths % 100);
    return text;
}

/* The edges of a frame that was read: one line of output, and into the sums. */
static void keep_frame(const struct mode *mode, unsigned long start, struct drift *drift, int lines)
{
    size_t i;
    drift->frames++;
    for (i = 0; i < drift->waiting; i++) {
        const struct edge *edge = &drift->edge[i];
        size_t place = ((size_t)((int)edge->ms - edge->moved)) / element_start(mode->number, 1);
        drift->early += edge->moved < 0;
        drift->late += edge->moved > 0;
        drift->moved[edge->moved + MOST_MOVED]++;
        add_edge(&drift->place[place], edge->moved);
        add_edge(&drift->to[edge->level], edge->moved);
        if (lines && i == 0) {
            printf("frame at %lu:", start);
        }
        if (lines) {
            printf("%s %u ", i == 0 ? "" : ",", edge->ms);
            printf(edge->moved == 0 ? "on time" : edge->moved < 0 ? "early by %d" : "late by %d", abs(edge->moved));
        }
    }
    if (lines) {
        putchar('\n');
    }
}

/* One ms of the line. */
static void drift_ms(const struct mode *mode, cq_station *station, uint8_t level, unsigned long ms, struct drift *drift,
                     int lines)
{
    cq_drift_report waited = station->edges.seen, all = drift->report;
    unsigned frame_ms = station->core.reader.frame.place - 1u; /* in a frame */
    long edges, sum;
    uint8_t sent;
    uint32_t word;
    cq_station_ran ran = cq_station_run_drift(station, &level, 1, &sent, 1, &word, 1, &drift->report);
    if (ran.answer == CQ_REFUSED_REPORT_FULL) {
        stop("at ms %lu there are more than %d edges, and a report takes no more", ms, CQ_DRIFT_EDGES_MAX);
    }
    ran_well(ran.answer);
    /* With this ms, the frame's edges have counted or still wait; there are none if it has broken. */
    edges = (long)(drift->report.edges - all.edges) + (long)station->edges.seen.edges;
    sum = (long)drift->report.sum - all.sum + station->edges.seen.sum;
    if (edges == 0) {
        drift->waiting = 0;
    } else if (edges > (long)waited.edges) {
        struct edge *edge = &drift->edge[drift->waiting++];
        edge->ms = frame_ms;
        edge->moved = (int)(sum - waited.sum);
        edge->level = level;
    }
    if (drift->report.edges > all.edges) {
        keep_frame(mode, ms - frame_ms, drift, lines);
        drift->waiting = 0;
    }
}

/* The edges of the input. */
static void hear_drift(const struct mode *mode, struct drift *drift, int lines)
{
    static const cq_drift_report fresh = CQ_DRIFT_FRESH;
    struct input input = {0, 0};
    unsigned long ms, at = 0;
    uint8_t level;
    cq_station station;
    if (mode->number != CQ_MODE_BAUDOT_45 && mode->number != CQ_MODE_BAUDOT_50) {
        stop("the edges of %s are not measured: it is baudot45 or baudot50", mode->word);
    }
    memset(drift, 0, sizeof *drift);
    drift->report = fresh;
    ran_well(cq_station_open(&station, mode->number));
    while (next_run(mode, &input, &level, &ms)) {
        for (; ms > 0; ms--) {
            drift_ms(mode, &station, level, at++, drift, lines);
        }
    }
}

static void print_tally(const char *name, const struct tally *tally)
{
    if (tally->edges > 0) {
        printf("%s: %lu edge%s, mean %s\n", name, tally->edges, tally->edges == 1 ? "" : "s", mean(tally));
    }
}

static void do_drift(const struct mode *mode, struct drift *drift)
{
    struct tally all;
    char name[32];
    size_t i;
    hear_drift(mode, drift, 1);
    all.edges = drift->report.edges;
    all.sum = drift->report.sum;
    printf("frames: %lu\nedges: %lu, %lu early, %lu on time, %lu late\n", drift->frames, all.edges, drift->early,
           all.edges - drift->early - drift->late, drift->late);
    printf("sum: %ld ms\nmean: %s\nsmallest: %ld ms\nlargest: %ld ms\n", all.sum, mean(&all),
           (long)drift->report.smallest, (long)drift->report.largest);
    for (i = 0; i < PLACES; i++) {
        sprintf(name, "near %lu", (unsigned long)element_start(mode->number, i));
        print_tally(name, &drift->place[i]);
    }
    print_tally("to mark", &drift->to[CQ_LEVEL_MARK]);
    print_tally("to space", &drift->to[CQ_LEVEL_SPACE]);
}

/*
 * The picture. Left of it the names of the levels; above it each code, and the character it stands for; below it
 * the elements; then the axis.
 */
#define LEFT 70
#define RIGHT 30
#define CODE_Y 52
#define CHARACTER_Y 68
#define HIGH_Y 90    /* mark, or a key */
#define MIDDLE_Y 120 /* quiet, between mark and space */
#define LOW_Y 150    /* space; in DTMF quiet */
#define ELEMENT_Y 168
#define AXIS_Y 180
#define HEIGHT 230

struct picture {
    const struct mode *mode;
    const struct burst *burst;
    int scale;
};

static long x_of(const struct picture *p, size_t ms)
{
    return LEFT + (long)ms * p->scale;
}

static int y_of(const struct picture *p, uint8_t level)
{
    if (p->mode->number == CQ_MODE_DTMF) {
        return level == CQ_LEVEL_QUIET ? LOW_Y : HIGH_Y;
    }
    return level == CQ_LEVEL_MARK ? HIGH_Y : level == CQ_LEVEL_SPACE ? LOW_Y : MIDDLE_Y;
}

/* Text with its middle at x; `class` chooses size and colour. */
static void draw_text(long x, int y, const char *class, const char *text)
{
    printf("<text x=\"%ld\" y=\"%d\" class=\"%s\">", x, y, class);
    for (; *text != '\0'; text++) {
        if (*text == '&' || *text == '<' || *text == '>') {
            printf("&#%d;", *text);
        } else {
            putchar(*text);
        }
    }
    puts("</text>");
}

static void draw_upright(long x, int from, int to, const char *class)
{
    printf("<path d=\"M%ld %dV%d\" class=\"%s\"/>\n", x, from, to, class);
}

/* A name left of the picture. */
static void draw_name(int y, const char *name)
{
    printf("<text x=\"%d\" y=\"%d\" class=\"level\">%s</text>\n", LEFT - 8, y, name);
}

static void draw_level(const struct picture *p, int y, const char *name)
{
    printf("<path d=\"M%d %dH%ld\" class=\"guide\"/>\n", LEFT, y, x_of(p, p->burst->ms));
    draw_name(y + 4, name);
}

static void draw_levels(const struct picture *p)
{
    if (p->mode->number == CQ_MODE_DTMF) {
        draw_level(p, HIGH_Y, "key");
        draw_level(p, LOW_Y, "quiet");
    } else {
        draw_level(p, HIGH_Y, "1 mark");
        draw_level(p, MIDDLE_Y, "0 quiet");
        draw_level(p, LOW_Y, "2 space");
    }
}

/* Ticks every 10 ms, the longer ones with their ms, and the length of the burst at its end. */
static void draw_axis(const struct picture *p)
{
    size_t ms, end = p->burst->ms, step = p->scale > 3 ? 10 : p->scale > 1 ? 50 : 100;
    char text[32];
    printf("<path d=\"M%d %dH%ld\" class=\"axis\"/>\n", LEFT, AXIS_Y, x_of(p, end));
    draw_name(AXIS_Y + 20, "ms");
    for (ms = 0; ms <= end; ms += 10) {
        draw_upright(x_of(p, ms), AXIS_Y, AXIS_Y + (ms % step == 0 ? 8 : 4), "axis");
        if (ms % step == 0) {
            sprintf(text, "%lu", (unsigned long)ms);
            draw_text(x_of(p, ms), AXIS_Y + 20, "small", text);
        }
    }
    draw_upright(x_of(p, end), AXIS_Y, AXIS_Y + 8, "axis");
    sprintf(text, "%lu ms", (unsigned long)end);
    draw_text(x_of(p, end), AXIS_Y + 38, "small", text);
}

/* The signal itself, as steps. */
static void draw_signal(const struct picture *p)
{
    const struct burst *burst = p->burst;
    size_t from, to;
    printf("<path d=\"M%d %d", LEFT, y_of(p, burst->levels[0]));
    for (from = 0; from < burst->ms; from = to) {
        to = run_end(burst->levels, from, burst->ms);
        printf("V%dH%ld", y_of(p, burst->levels[from]), x_of(p, to));
    }
    puts("\" class=\"signal\"/>");
}

static char key_sign(uint8_t level)
{
    return "1234567890*#ABCD"[level - 1];
}

/* A code as it is written: five digits, keys, or two hexadecimal digits. */
static void write_code(const struct picture *p, const struct piece *piece, char text[8])
{
    size_t from, to;
    int bit, n = 0;
    if (p->mode->number == CQ_MODE_EDT) {
        sprintf(text, "%02X", (unsigned)piece->code);
        return;
    }
    if (p->mode->number == CQ_MODE_DTMF) {
        for (from = piece->from; from < piece->to; from = to) {
            to = run_end(p->burst->levels, from, piece->to);
            if (p->burst->levels[from] != CQ_LEVEL_QUIET) {
                text[n++] = key_sign(p->burst->levels[from]);
            }
        }
    } else {
        for (bit = 4; bit >= 0; bit--) {
            text[n++] = piece->code >> bit & 1 ? '1' : '0';
        }
    }
    text[n] = '\0';
}

/* What stands under a code: its character, with a name for SPACE, or the shift that it selects. */
static const char *meaning(const struct piece *piece)
{
    if (piece->character >= 0) {
        return piece->character == ' ' ? "SPACE" : sign((uint8_t)piece->character);
    }
    return piece->code == 31 ? "letters" : "figures";
}

static const char *element_name(uint8_t mode, size_t element, uint8_t level)
{
    if (element == 0) {
        return "start";
    }
    if (element >= (mode == CQ_MODE_EDT ? 9u : 6u)) {
        return "stop";
    }
    if (mode == CQ_MODE_EDT && element == 8) {
        return level == CQ_LEVEL_MARK ? "p 1" : "p 0";
    }
    return level == CQ_LEVEL_MARK ? "1" : "0";
}

static void draw_elements(const struct picture *p, const struct piece *piece)
{
    uint8_t mode = p->mode->number;
    size_t j, count = elements(mode);
    for (j = 0; j < count; j++) {
        size_t from = piece->from + element_start(mode, j);
        size_t to = j + 1 < count ? piece->from + element_start(mode, j + 1) : piece->to;
        if (j > 0) {
            draw_upright(x_of(p, from), HIGH_Y - 6, AXIS_Y, "element");
        }
        draw_text((x_of(p, from) + x_of(p, to)) / 2, ELEMENT_Y, "small", element_name(mode, j, p->burst->levels[from]));
    }
}

static void draw_keys(const struct picture *p, const struct piece *piece)
{
    size_t from, to;
    char text[2] = "";
    for (from = piece->from; from < piece->to; from = to) {
        to = run_end(p->burst->levels, from, piece->to);
        if (p->burst->levels[from] != CQ_LEVEL_QUIET) {
            text[0] = key_sign(p->burst->levels[from]);
            draw_upright(x_of(p, from), HIGH_Y, AXIS_Y, "element");
            draw_upright(x_of(p, to), HIGH_Y, AXIS_Y, "element");
            draw_text((x_of(p, from) + x_of(p, to)) / 2, MIDDLE_Y + 5, "code", text);
        }
    }
}

static void draw_piece(const struct picture *p, const struct piece *piece)
{
    long middle = (x_of(p, piece->from) + x_of(p, piece->to)) / 2;
    char code[8];
    draw_upright(x_of(p, piece->from), CODE_Y - 10, AXIS_Y, "piece");
    draw_upright(x_of(p, piece->to), CODE_Y - 10, AXIS_Y, "piece");
    if (piece->part == 1) {
        draw_text(middle, CODE_Y, "code", "preamble");
        return;
    }
    write_code(p, piece, code);
    draw_text(middle, CODE_Y, "code", code);
    draw_text(middle, CHARACTER_Y, "character", meaning(piece));
    if (p->mode->number == CQ_MODE_DTMF) {
        draw_keys(p, piece);
    } else {
        draw_elements(p, piece);
    }
}

static void draw_head(long width, int height, const char *title)
{
    printf("<svg xmlns=\"http://www.w3.org/2000/svg\" width=\"%ld\" height=\"%d\" viewBox=\"0 0 %ld %d\">\n", width,
           height, width, height);
    puts("<style>\n"
         "text{font-family:sans-serif;font-size:12px;text-anchor:middle;fill:#222}\n"
         "text.title{text-anchor:start;font-size:14px}text.level{text-anchor:end}\n"
         "text.code{font-family:monospace;font-weight:bold}text.character{fill:#06c}text.small{font-size:9px}\n"
         "path{fill:none;stroke:#222;stroke-width:1}path.guide{stroke:#ddd}path.signal{stroke-width:2}\n"
         "path.piece{stroke:#06c}path.element{stroke:#aaa;stroke-dasharray:2 2}\n"
         "</style>");
    printf("<rect width=\"%ld\" height=\"%d\" fill=\"#fff\"/>\n", width, height);
    printf("<text x=\"%d\" y=\"24\" class=\"title\">%s</text>\n", LEFT, title);
}

static void draw(const struct mode *mode, const struct burst *burst, int scale)
{
    struct picture p;
    size_t i;
    p.mode = mode;
    p.burst = burst;
    p.scale = scale;
    if (burst->ms == 0) {
        stop("nothing is sent for this text, so there is nothing to draw");
    }
    if (burst->ms > MOST_DRAWN) {
        stop("the burst has %lu ms; at most %d are drawn", (unsigned long)burst->ms, MOST_DRAWN);
    }
    draw_head(x_of(&p, burst->ms) + RIGHT, HEIGHT, mode->name);
    draw_levels(&p);
    for (i = 0; i < burst->pieces; i++) {
        draw_piece(&p, &burst->piece[i]);
    }
    draw_signal(&p);
    draw_axis(&p);
    puts("</svg>");
}

/*
 * The histogram: a bar for each displacement, early ones left, and a line at the mean. Below it the mean of the edges
 * near each start of an element, late ones above the line.
 */
#define BAR 28        /* units from one displacement to the next */
#define BARS_TOP 70
#define BARS_FOOT 230
#define NEAR_Y 345    /* on time */
#define NEAR_SCALE 4  /* units for each ms */
#define NEAR_STEP 100 /* from one element to the next */
#define NEAR_FOOT 410
#define DRIFT_WIDTH (LEFT + 2 * MOST_MOVED * BAR + LEFT)
#define DRIFT_HEIGHT 440

static long bar_x(int moved)
{
    return LEFT + (long)(moved + MOST_MOVED) * BAR;
}

static void draw_bars(const struct drift *drift)
{
    unsigned long most = 0, count;
    long mean_x = bar_x(0) + (long)drift->report.sum * BAR / (long)drift->report.edges;
    int moved, y;
    char text[32];
    for (moved = -MOST_MOVED; moved <= MOST_MOVED; moved++) {
        count = drift->moved[moved + MOST_MOVED];
        most = count > most ? count : most;
    }
    for (moved = -MOST_MOVED; moved <= MOST_MOVED; moved++) {
        count = drift->moved[moved + MOST_MOVED];
        y = BARS_FOOT - (int)(count * (BARS_FOOT - BARS_TOP) / most);
        if (count > 0) {
            printf("<rect x=\"%ld\" y=\"%d\" width=\"%d\" height=\"%d\" fill=\"#06c\"/>\n", bar_x(moved) - BAR / 2 + 2,
                   y == BARS_FOOT ? y - 1 : y, BAR - 4, y == BARS_FOOT ? 1 : BARS_FOOT - y);
            sprintf(text, "%lu", count);
            draw_text(bar_x(moved), y - 4, "small", text);
        }
        sprintf(text, moved > 0 ? "+%d" : "%d", moved);
        draw_text(bar_x(moved), BARS_FOOT + 16, "small", text);
    }
    printf("<path d=\"M%ld %dH%ld\" class=\"axis\"/>\n", bar_x(-MOST_MOVED) - BAR / 2, BARS_FOOT,
           bar_x(MOST_MOVED) + BAR / 2);
    draw_upright(mean_x, BARS_TOP - 18, BARS_FOOT, "element");
    draw_text(mean_x, BARS_TOP - 22, "small", "mean");
    draw_text(bar_x(-MOST_MOVED / 2), BARS_FOOT + 34, "character", "early");
    draw_text(bar_x(0), BARS_FOOT + 34, "character", "on time");
    draw_text(bar_x(MOST_MOVED / 2), BARS_FOOT + 34, "character", "late");
}

static void draw_near(const struct mode *mode, const struct drift *drift)
{
    char text[32];
    size_t i;
    printf("<path d=\"M%d %dH%d\" class=\"guide\"/>\n", LEFT, NEAR_Y, LEFT + (PLACES - 1) * NEAR_STEP);
    draw_name(NEAR_Y + 4 - 30, "late");
    draw_name(NEAR_Y + 4, "on time");
    draw_name(NEAR_Y + 4 + 30, "early");
    draw_name(NEAR_FOOT, "near ms");
    for (i = 0; i < PLACES; i++) {
        const struct tally *tally = &drift->place[i];
        long x = LEFT + (long)i * NEAR_STEP, y;
        sprintf(text, "%lu", (unsigned long)element_start(mode->number, i));
        draw_text(x, NEAR_FOOT, "small", text);
        if (tally->edges > 0) {
            y = NEAR_Y - tally->sum * NEAR_SCALE / (long)tally->edges;
            printf("<circle cx=\"%ld\" cy=\"%ld\" r=\"4\" fill=\"#06c\"/>\n", x, y);
            draw_text(x, (int)y - 8, "small", mean(tally));
        }
    }
}

static void draw_drift(const struct mode *mode, struct drift *drift)
{
    struct tally all;
    char title[100];
    hear_drift(mode, drift, 0);
    all.edges = drift->report.edges;
    all.sum = drift->report.sum;
    if (all.edges == 0) {
        stop("no frame with edges was read, so there is nothing to draw");
    }
    sprintf(title, "%s: %lu edges, mean %s", mode->name, all.edges, mean(&all));
    draw_head(DRIFT_WIDTH, DRIFT_HEIGHT, title);
    draw_bars(drift);
    draw_near(mode, drift);
    puts("</svg>");
}

static int same_code(const char *one, const char *other)
{
    while (*one != '\0' && toupper((unsigned char)*one) == *other) {
        one++;
        other++;
    }
    return *one == '\0' && *other == '\0';
}

/* Leaves of a burst the piece alone. */
static void cut_out(struct burst *burst, size_t which)
{
    struct piece piece = burst->piece[which];
    burst->ms = piece.to - piece.from;
    memmove(burst->levels, burst->levels + piece.from, burst->ms);
    piece.from = 0;
    piece.to = burst->ms;
    burst->piece[0] = piece;
    burst->pieces = 1;
}

/* Looks for a code among those that a station sends for each character by itself. */
static void send_code(const struct mode *mode, const char *code, struct burst *burst)
{
    struct picture p;
    unsigned c;
    size_t i;
    p.mode = mode;
    p.burst = burst;
    for (c = 0; c < 128; c++) {
        uint8_t character = (uint8_t)c;
        char written[8];
        send_text(mode, &character, 1, burst);
        for (i = 0; i < burst->pieces; i++) {
            write_code(&p, &burst->piece[i], written);
            if (burst->piece[i].part == 2 && same_code(code, written)) {
                cut_out(burst, i);
                return;
            }
        }
    }
    stop("no character is sent as the code \"%s\" in %s; write 00001 in Baudot, **4 in DTMF, 41 in EDT", code,
         mode->word);
}

static const struct mode *mode_of(const char *word)
{
    size_t i;
    for (i = 0; i < MODES; i++) {
        if (strcmp(word, modes[i].word) == 0) {
            return &modes[i];
        }
    }
    stop("unknown mode \"%s\": it is baudot45, baudot50, dtmf or edt", word);
    return NULL;
}

int main(int argc, char **argv)
{
    static struct burst burst;
    static uint8_t text[LONGEST + 1];
    static struct drift edges;
    const char *verb = argc > 1 ? argv[1] : "";
    int svg = strcmp(verb, "svg") == 0, send = strcmp(verb, "send") == 0, read = strcmp(verb, "read") == 0;
    int time = strcmp(verb, "time") == 0, most = strcmp(verb, "most") == 0, drift = strcmp(verb, "drift") == 0;
    const struct mode *mode;
    if (!(svg || send || read || time || most || drift) || argc < (most ? 4 : 3) || (svg && argc > 4) ||
        (read && argc > 3) || (drift && argc > 3 && (argc > 4 || strcmp(argv[3], "svg") != 0))) {
        fputs(usage, stderr);
        return 2;
    }
    mode = mode_of(argv[2]);
    if (drift) {
        (argc > 3 ? draw_drift : do_drift)(mode, &edges);
        return 0;
    }
    if (read) {
        do_read(mode);
        return 0;
    }
    if (send && argc > 3) {
        send_turns(mode, argv + 3, argc - 3, &burst);
        do_send(&burst);
        return 0;
    }
    if (time && argc > 3) {
        time_texts(mode, argv + 3, argc - 3);
        return 0;
    }
    if (time) {
        print_time(time_of(mode, text, read_text(text)));
        return 0;
    }
    if (most) {
        do_most(mode, argv + 3, argc - 3);
        return 0;
    }
    if (argc == 4) {
        send_code(mode, argv[3], &burst);
        draw(mode, &burst, 3 * mode->scale);
        return 0;
    }
    send_text(mode, text, read_text(text), &burst);
    if (send) {
        do_send(&burst);
    } else {
        draw(mode, &burst, mode->scale);
    }
    return 0;
}
