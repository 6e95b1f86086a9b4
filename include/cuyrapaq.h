/*
 * cuyrapaq.h: the C interface of the Cuyrapaq textphone line engine.
 *
 * Five entries are a station: it sends typed characters over the line and reads those of the other end,
 * in Baudot, DTMF or EDT (ITU-T V.18, Annexes A to C), tells beforehand how long sending will take, and how early
 * or late the line changes in Baudot. Two convert text to five-bit Baudot codes and back. Three more are a calling
 * set (clause 5.1): what it sends while it calls, and the tone that it chooses among those it hears. Each works on
 * slices that the host lends for the call: a pointer and a number of elements. The engine uses no heap, keeps
 * nothing between calls and calls nothing back. Several threads may call it at the same time, each with its own
 * slice to be written and its own state.
 *
 * Link libcuyrapaq.a (x86-64, System V calling convention). It calls nothing of the C library.
 */
#ifndef CUYRAPAQ_H
#define CUYRAPAQ_H

#include <stddef.h>
#include <stdint.h>

#ifdef __cplusplus
extern "C" {
#endif

/*
 * The version of the interface. MAJOR: a struct, an entry's contract or a refusal's meaning changed;
 * MINOR: entries or macros were added; PATCH: the contracts are the same.
 */
#define CQ_VERSION_MAJOR 6
#define CQ_VERSION_MINOR 0
#define CQ_VERSION_PATCH 1
#define CQ_VERSION (CQ_VERSION_MAJOR * 10000L + CQ_VERSION_MINOR * 100L + CQ_VERSION_PATCH)

/*
 * The shift: which half of the code table is in force. The line carries codes alone, and the same code
 * is another character in the other shift, so a host keeps the shift from call to call.
 */
#define CQ_SHIFT_FRESH   0 /* a sender that has sent nothing yet; for sending alone */
#define CQ_SHIFT_LETTERS 1 /* letters (LTRS); a reader starts here */
#define CQ_SHIFT_FIGURES 2 /* figures (FIGS) */

/* After this many characters without a shift code the sender repeats the shift in force. */
#define CQ_CHARACTERS_PER_SHIFT 72

/*
 * Answers. 0 is success, any other number is the reason of a refusal. The numbers are the same for all
 * entries of the engine. The comment of each entry lists those that it gives, in the order in which it asks.
 */
#define CQ_OK                       0
#define CQ_REFUSED_STATE            1 /* a number of the station or report, or the shift or count, is out of range */
#define CQ_REFUSED_MODE             2 /* the mode is not 1 to 4 */
#define CQ_REFUSED_CHARACTER        3 /* a byte of the text is above 127 */
#define CQ_REFUSED_FULL             4 /* no space for all characters that send something */
#define CQ_REFUSED_DURATION         5 /* more than 4,096 ms in one call */
#define CQ_REFUSED_HEARD            6 /* a heard ms is no value of the mode */
#define CQ_REFUSED_SENT_SLICE       7 /* the slice for sent ms is shorter than the heard one */
#define CQ_REFUSED_WORD_SLICE       8 /* the slice for output words is shorter than the heard one */
#define CQ_REFUSED_RESULT_SLICE     9 /* the slice for the result is shorter than this result */
#define CQ_REFUSED_CODE            10 /* a code is above 31 */
#define CQ_REFUSED_TONE            11 /* a heard tone is above 11 */
#define CQ_REFUSED_CALLING_STATE   12 /* a number of the calling set's state is out of range */
#define CQ_REFUSED_REPORT_FULL     18 /* the report would have more than 65,536 edges */

/* What cq_baudot_send gives back. */
typedef struct cq_baudot_sent {
    uint8_t answer; /* CQ_OK or a refusal */
    uint8_t shift;  /* the shift reached; after a refusal the shift given */
    uint8_t count;  /* characters since the last shift code, 0 to 72; after a refusal the count given */
    size_t length;  /* codes written; after a refusal 0 */
} cq_baudot_sent;

/* What cq_baudot_read gives back. */
typedef struct cq_baudot_text {
    uint8_t answer; /* CQ_OK or a refusal */
    uint8_t shift;  /* the shift reached; after a refusal the shift given */
    size_t length;  /* characters written; after a refusal 0 */
} cq_baudot_text;

/*
 * The longest possible result of sending n characters: one shift code ahead of each, and one more
 * from a fresh sender. The longest possible result of reading n codes: none is a shift code.
 */
#define CQ_BAUDOT_CODES_MAX(n) (2 * (size_t)(n) + 1)
#define CQ_BAUDOT_TEXT_MAX(n)  ((size_t)(n))

/*
 * Both conversions:
 * - Each pointer leads to as many bytes as the length beside it says, or more.
 * - The two slices must not overlap.
 * - A slice of length 0 may have any pointer that is not a null pointer.
 * - The slice read from is never written. Of the slice written to, the first `length` elements are the
 *   result; everything behind them stays as it was.
 * - Nothing is written unless the answer is CQ_OK.
 */

/*
 * Converts text to codes.
 *
 * text, text_length    the characters, one T.50 character of seven bits (00 to 7F) in each byte
 * shift                CQ_SHIFT_FRESH, or the shift that the last call gave back
 * count                the count that the last call gave back, 0 to 72; with CQ_SHIFT_FRESH any number from
 *                      0 to 72 will do, and it changes no code
 * codes, codes_length  where the codes go, one five-bit code in each byte, 0 to 31; the rightmost digit of
 *                      a code as V.18 prints it is bit 0
 *
 * A fresh sender sends 11111 (letters) ahead of the first character. Before each character the sender
 * puts the shift code of that character if its shift differs from the one in force, or the shift code
 * in force if 72 characters have gone since the last shift code. Shift codes are not counted.
 * BACKSPACE, LF, SPACE and CR have one code in both shifts and never change it. Characters 00 to 07,
 * 0E to 19, 1B and 7F send nothing. Capital and lower-case letters are sent alike, and some signs are
 * sent as a similar one: see docs/ANNEXES.md.
 *
 * CQ_OK: `codes` begins with `length` codes; `shift` and `count` are those reached. Handing them to the
 * next call continues the text, and the codes are the same as from one call on the whole text. A text
 * that sends nothing gives back the shift and the count it came with, also CQ_SHIFT_FRESH.
 *
 * Refusals, asked in this order; the first that applies is the answer:
 *   CQ_REFUSED_STATE         (1)  shift is above 2, or count is above 72
 *   CQ_REFUSED_CHARACTER     (3)  a byte of text is above 127
 *   CQ_REFUSED_RESULT_SLICE  (9)  codes_length is less than the number of codes of this very text;
 *                                 CQ_BAUDOT_CODES_MAX(text_length) is always enough
 * Each leaves `codes` as it was and gives back the shift and the count given, and length 0.
 */
cq_baudot_sent cq_baudot_send(const uint8_t *text, size_t text_length, uint8_t shift, uint8_t count,
                              uint8_t *codes, size_t codes_length);

/*
 * Converts codes to text.
 *
 * codes, codes_length  the codes as heard, one five-bit code in each byte, 0 to 31
 * shift                CQ_SHIFT_LETTERS at the start, then the shift that the last call gave back
 * text, text_length    where the characters go, one T.50 character of seven bits in each byte
 *
 * The codes 11111 and 11011 select letters and figures and give no character; every other code gives
 * one. In figures the code 00101 gives the character NULL (00), so the text is counted by `length` and
 * not ended by a zero byte.
 *
 * CQ_OK: `text` begins with `length` characters; `shift` is the one reached. Handing it to the next
 * call continues, and the text is the same as from one call on all codes.
 *
 * Refusals, asked in this order; the first that applies is the answer:
 *   CQ_REFUSED_STATE         (1)  shift is neither 1 nor 2
 *   CQ_REFUSED_CODE         (10)  a code is above 31
 *   CQ_REFUSED_RESULT_SLICE  (9)  text_length is less than the number of characters of these very codes;
 *                                 CQ_BAUDOT_TEXT_MAX(codes_length) is always enough
 * Each leaves `text` as it was and gives back the shift given, and length 0.
 */
cq_baudot_text cq_baudot_read(const uint8_t *codes, size_t codes_length, uint8_t shift, uint8_t *text,
                              size_t text_length);

/*
 * The calling set works in milliseconds (ms). For each ms the host says what it hears, and is told what
 * to send in that ms.
 */

/* What is sent in a ms. */
#define CQ_SENT_NOTHING 0
#define CQ_SENT_CI      1
#define CQ_SENT_XCI     2

/* What is heard in a ms: none, or a tone. Beside each tone: the ms that it must last in a row. */
#define CQ_TONE_NONE       0
#define CQ_TONE_ANSAM      1 /*     1 */
#define CQ_TONE_ANS        2 /*     1 */
#define CQ_TONE_2225       3 /*   500 */
#define CQ_TONE_1650       4 /*   500 */
#define CQ_TONE_1300       5 /* 1,700 */
#define CQ_TONE_1270       6 /*   700 */
#define CQ_TONE_980        7 /* 1,500 */
#define CQ_TONE_BAUDOT_45  8 /*     1 */
#define CQ_TONE_BAUDOT_50  9 /*     1 */
#define CQ_TONE_DTMF      10 /*     1 */
#define CQ_TONE_EDT       11 /*     1 */

/* The most ms of one call. */
#define CQ_CALLING_MS_MAX 4096

/* The state of a calling set, which the host keeps. Make it with cq_calling_fresh; zeros are refused. */
typedef struct cq_calling {
    uint16_t ms;    /* for how many ms in a row `tone` was heard, 1 to 1,700; the count stays where it is enough */
    uint16_t place; /* the next ms of the timetable, 0 to 11,199 */
    uint8_t tone;   /* what was heard last, 0 to 11 */
    uint8_t choice; /* the tone that was chosen, 0 until one is; 0 to 11 */
} cq_calling;

/* A set that starts: the timetable stands at its first ms, and no choice is made. */
cq_calling cq_calling_fresh(void);

/* What cq_calling_choice gives back. */
typedef struct cq_calling_chosen {
    uint8_t answer; /* CQ_OK or a refusal */
    uint8_t choice; /* the tone that was chosen; CQ_TONE_NONE until one is, and after a refusal */
} cq_calling_chosen;

/*
 * The tone that was chosen. May be asked at any time; the state is not written.
 *
 * CQ_OK: `choice` is the tone that was chosen, CQ_TONE_NONE until one is.
 *
 * CQ_REFUSED_CALLING_STATE (12): a number of the state is out of range. `choice` is then CQ_TONE_NONE.
 */
cq_calling_chosen cq_calling_choice(const cq_calling *state);

/*
 * Runs a calling set for some ms.
 *
 * state                the set's state, which the call changes
 * tones, tones_length  what is heard, one ms in each byte, at most CQ_CALLING_MS_MAX of them
 * sent, sent_length    where the sent ms go, one in each byte; at least as many as tones
 *
 * While nothing is heard the set sends its timetable, over and over: nothing for 1,000 ms; CI 400; nothing
 * 2,000; CI 400; nothing 2,000; CI 400; nothing 2,000; XCI 3,000. From the ms of a tone on it sends nothing.
 * After 400 ms of none in a row the next ms is the timetable's first. A tone that lasts its length in a row
 * is the choice, from that ms on and for good; another tone, or none, ends its count. Once the choice is
 * made nothing is sent any more, and the state stays as it is.
 *
 * CQ_OK: the first tones_length elements of `sent` are what to send in these ms; everything behind them
 * stays as it was. A list of ms may be cut into calls in any way, with the same result.
 *
 * Refusals, asked in this order; the first that applies is the answer:
 *   CQ_REFUSED_CALLING_STATE (12)  a number of the state is out of range
 *   CQ_REFUSED_DURATION       (5)  tones_length is above CQ_CALLING_MS_MAX
 *   CQ_REFUSED_TONE          (11)  an element of tones is above 11
 *   CQ_REFUSED_SENT_SLICE     (7)  sent_length is less than tones_length
 * Each leaves the state and `sent` as they were.
 *
 * Pointers and slices are as for the conversions: `sent` overlaps neither `tones` nor `state`.
 */
uint8_t cq_calling_run(cq_calling *state, const uint8_t *tones, size_t tones_length, uint8_t *sent,
                       size_t sent_length);

/*
 * The station works in milliseconds (ms). For each ms the host says what is heard on the line, and is told
 * what to send in that ms. What it reads comes out as words.
 */

/* The modes. */
#define CQ_MODE_BAUDOT_45 1 /* Baudot at 45.45 bit/s */
#define CQ_MODE_BAUDOT_50 2 /* Baudot at 50 bit/s */
#define CQ_MODE_DTMF      3
#define CQ_MODE_EDT       4

/* What is heard or sent in a ms: quiet; in Baudot and EDT mark or space; in DTMF a key. */
#define CQ_LEVEL_QUIET 0
#define CQ_LEVEL_MARK  1
#define CQ_LEVEL_SPACE 2

/* The keys of DTMF: 1 to 9 are the digits' own numbers. */
#define CQ_KEY_0    10
#define CQ_KEY_STAR 11
#define CQ_KEY_HASH 12
#define CQ_KEY_A    13
#define CQ_KEY_B    14
#define CQ_KEY_C    15
#define CQ_KEY_D    16

/* The highest level of a mode. */
#define CQ_LEVEL_MAX(mode) ((mode) == CQ_MODE_DTMF ? CQ_KEY_D : CQ_LEVEL_SPACE)

/* The most ms of one call, and the most characters that wait. */
#define CQ_STATION_MS_MAX      4096
#define CQ_STATION_WAITING_MAX 256

/*
 * Words: what a station has read, a character or a fault. A fault is a code that was heard and could not be
 * read. The bits of a word:
 *
 *    31   28 27                              8 7 6    4 3     0
 *   +-------+---------------------------------+-+------+-------+
 *   |   0   |                0                |0|  character   |   CQ_WORD_CHARACTER
 *   +-------+---------------------------------+-+------+-------+
 *   |   1   |       ms within the frame       |   0    | cause |   CQ_WORD_FAULT
 *   +-------+---------------------------------+--------+-------+
 *
 * A character is one of T.50, of seven bits; NULL (00) is a word like others, 0. The frame is a code of Baudot
 * or EDT as the reader counts it: its first space ms is ms 0. The ms in the word is that of the sample at which
 * it broke, and the word comes in that ms. In DTMF there is no frame, and the ms is 0. A station gives no word
 * of another kind and no other cause, whatever it hears; docs/MAKERS.md, section 5, lists all fault words.
 */
#define CQ_WORD_CHARACTER 0
#define CQ_WORD_FAULT     1

/* The causes of a fault. */
#define CQ_CAUSE_QUIET         1 /* Baudot, EDT: quiet at a sample behind the start's, also at parity or stop */
#define CQ_CAUSE_STOP_NOT_MARK 2 /* Baudot, EDT: space at the sample of a stop element */
#define CQ_CAUSE_ODD_PARITY    3 /* EDT: no quiet up to the parity's sample, and the parity is odd */
#define CQ_CAUSE_NO_ROW        4 /* DTMF: a digit that ends a code without a row, or one behind four or more * and # */
#define CQ_CAUSE_LETTER_KEY    5 /* DTMF: a key A to D, whatever stood ahead of it */

/* Of any word its kind; of a character the character; of a fault its cause and its ms. */
#define CQ_WORD_KIND(word)  ((unsigned)((uint32_t)(word) >> 28))
#define CQ_WORD_CHAR(word)  ((uint8_t)((uint32_t)(word) & 0x7F))
#define CQ_WORD_CAUSE(word) ((unsigned)((uint32_t)(word) & 0xF))
#define CQ_WORD_MS(word)    ((unsigned)((uint32_t)(word) >> 8 & 0xFFFFF))

/*
 * Drift: how early or late the edges of a line come. An edge is a change between mark and space from one ms to the
 * next, in a Baudot frame that is read without fault, that of a shift code too: behind the frame's ms 0, and no later
 * than the sample of its stop (ms 143 in mode 1, 130 in mode 2). A change through quiet is none. The ms of an edge is
 * the first of the new level. Its displacement is that ms of the frame less the nearest multiple of the element
 * (22 or 20 ms), the earlier one of two that are as near: negative if the edge is early, 0 if it is on time; -10 to 11
 * in mode 1, -9 to 10 in mode 2. In DTMF and EDT no edge is measured.
 *
 * A report sums up some edges, and the host keeps it. Begin with CQ_DRIFT_FRESH. In range are: no edge, and all four
 * numbers 0; or the ranges below.
 */
#define CQ_DRIFT_EDGES_MAX 65536 /* the most edges of a report */

typedef struct cq_drift_report {
    uint32_t edges;   /* how many, 1 to CQ_DRIFT_EDGES_MAX */
    int32_t sum;      /* that of their displacements, at most 11 times the edges either way */
    int32_t smallest; /* the smallest displacement, -11 to 11 */
    int32_t largest;  /* the largest, -11 to 11 */
} cq_drift_report;

/* A report of no edge, for its definition: cq_drift_report report = CQ_DRIFT_FRESH; */
#define CQ_DRIFT_FRESH {0, 0, 0, 0}

/*
 * A station, which the host keeps: make it with cq_station_open, and let nothing but cq_station_offer,
 * cq_station_run and cq_station_run_drift change it. It holds no pointer, so it may be copied, moved and stored. The
 * fields are listed with their ranges, since each entry asks for them first; only `waiting` is of use to a host, and
 * `edges` to a bench tool. Where four numbers are given, they are those of modes 1 to 4.
 *
 * The ms of a part, which bound `at`:
 *   0, in no burst   0
 *   1, the preamble  150, 150, 0, 300
 *   2, a code        165, 150, 120 for each key of the code, 100
 *
 * A DTMF code is 16 times its prefix, 0 to 14, plus the key of its digit, 1 to 10: 150 codes. The prefix is 0
 * where there is none; a * behind prefix p makes it 2p + 1, a # 2p + 2. So a code has one key with prefix 0,
 * two with 1 and 2, three with 3 to 6 and four with 7 to 14; and `at` is at most 120, 240, 360 or 480.
 */
typedef struct cq_on_line {
    uint16_t at;  /* ms of the part that are sent, 0 to those that the part has */
    uint8_t part; /* 0 in no burst, 1 the preamble, 2 a code */
    uint8_t code; /* 0 to 31 in Baudot; 0 to 127 in EDT; in DTMF one of the 150, and with part 0 or 1 also 0 */
} cq_on_line;

typedef struct cq_sender {
    uint8_t shift; /* CQ_SHIFT_FRESH, CQ_SHIFT_LETTERS or CQ_SHIFT_FIGURES: 0 to 2 */
    uint8_t count; /* characters since the last shift code, 0 to 72 */
} cq_sender;

typedef struct cq_frame {
    uint8_t place;  /* 0 hunting, 1 waiting after a fault, m + 1 before ms m of a frame; at most 144, 131, 1, 96 */
    uint8_t digits; /* those sampled so far; at most 31, 31, 0, 127 */
} cq_frame;

typedef struct cq_keys {
    uint8_t key;    /* the key that is heard, 0 to 16 */
    uint8_t ms;     /* its ms in a row, 0 to 39 */
    uint8_t needed; /* quiet ms that are needed before the next, 0 to 40 */
} cq_keys;

typedef struct cq_reader {
    cq_frame frame; /* in Baudot and EDT */
    cq_keys keys;   /* in DTMF */
    uint8_t shift;  /* CQ_SHIFT_LETTERS or CQ_SHIFT_FIGURES: 1 or 2 */
    uint8_t prefix; /* the * and # ahead of a digit, 0 to 14; 15 for more than three */
} cq_reader;

typedef struct cq_core {
    uint16_t waiting;   /* how many characters wait, 0 to 256 */
    uint16_t silence;   /* ms in a row without signal, 0 to 300; the count stays where it is enough */
    uint16_t inhibited; /* ms for which the receiver stays inhibited after the burst, 0 to 300 */
    cq_on_line line;
    cq_sender sender;
    cq_reader reader;
    uint8_t mode; /* 1 to 4 */
} cq_core;

/* The edges of the Baudot frame that is being read (`place` 2 or more); outside one all numbers are 0. They count
 * once its stop is read. Behind `level` stand three bytes that have no meaning: compare stations by their fields. */
typedef struct cq_edges {
    cq_drift_report seen; /* in a report's range, and fewer edges than the frame has had ms: at most place - 2 */
    uint8_t level;        /* that of the frame's latest ms, 0 to 2 */
} cq_edges;

typedef struct cq_station {
    cq_core core;
    cq_edges edges;
    /* Those waiting, the front one first: each 00 to 7F, and sends something in the mode (docs/ANNEXES.md lists
     * those that do not). Behind them anything may stand. */
    uint8_t chars[CQ_STATION_WAITING_MAX];
} cq_station;

/* What cq_station_run and cq_station_run_drift give back. */
typedef struct cq_station_ran {
    uint8_t answer; /* CQ_OK or a refusal */
    size_t words;   /* words written; after a refusal 0 */
} cq_station_ran;

/* What cq_station_preview gives back. */
typedef struct cq_station_previewed {
    uint8_t answer; /* CQ_OK or a refusal */
    uint32_t ms;    /* ms until the station would be idle; after a refusal 0 */
} cq_station_previewed;

/*
 * Opens a station of a mode: nothing waits, no edge either, the line is free, the sender is fresh and the reader
 * hunts in letters.
 *
 * station  where the station goes; what stood there does not matter
 * mode     1 to 4
 *
 * CQ_OK: the station is a fresh one of the mode.
 *
 * CQ_REFUSED_MODE (2): the mode is not 1 to 4. The station is then a fresh one of mode 1.
 */
uint8_t cq_station_open(cq_station *station, uint8_t mode);

/*
 * Offers a text to be sent.
 *
 * station            the station, which the call changes
 * text, text_length  the characters, one T.50 character of seven bits (00 to 7F) in each byte, any number
 *
 * CQ_OK: the characters that send something wait behind those that waited already, in the order offered.
 * Those that send nothing in the mode never wait (docs/ANNEXES.md lists them). In Baudot the character 7F
 * (DEL) puts the station's own reader in letters. A waiting character gives its space back in the first ms
 * of its own code.
 *
 * Refusals, asked in this order; the first that applies is the answer:
 *   CQ_REFUSED_STATE      (1)  a number of the station is out of range
 *   CQ_REFUSED_CHARACTER  (3)  a byte of text is above 127
 *   CQ_REFUSED_FULL       (4)  no space for all characters of the text that send something
 * Each leaves the station as it was.
 */
uint8_t cq_station_offer(cq_station *station, const uint8_t *text, size_t text_length);

/*
 * Runs a station for some ms.
 *
 * station              the station, which the call changes
 * heard, heard_length  what is heard, one level in each byte, at most CQ_STATION_MS_MAX of them
 * sent, sent_length    where the sent ms go, one level in each byte; at least as many as heard
 * words, words_length  where the words go; at least as many as heard
 *
 * A burst begins when characters wait and the line is free: no signal for 300 ms in a row. (A fresh line is
 * free, and ms in which the station reads nothing count as without signal.) A burst is its preamble, then codes
 * without gap, up to the end of a code behind which none waits. In Baudot the first of them is the shift code of
 * the shift in force, or 11111 (letters) from a station that has sent none yet: it takes no character, and the
 * count of 72 starts again at it. So a reader is in the right shift from the first code of each burst on. Ahead
 * of each character the rule of cq_baudot_send follows; a first character of the other shift brings a second
 * shift code. Outside a burst quiet is sent. In a burst and for 300 ms after it the station reads nothing, so
 * its own echo does no harm.
 *
 * CQ_OK: the first heard_length elements of `sent` are what to send in these ms, and `words` begins with as
 * many words as the result says, at most one for each ms; everything behind them stays as it was. A list of
 * ms may be cut into calls in any way, with the same result.
 *
 * Refusals, asked in this order; the first that applies is the answer:
 *   CQ_REFUSED_STATE       (1)  a number of the station is out of range
 *   CQ_REFUSED_DURATION    (5)  heard_length is above CQ_STATION_MS_MAX
 *   CQ_REFUSED_HEARD       (6)  an element of heard is above CQ_LEVEL_MAX of the mode
 *   CQ_REFUSED_SENT_SLICE  (7)  sent_length is less than heard_length
 *   CQ_REFUSED_WORD_SLICE  (8)  words_length is less than heard_length
 * Each leaves the station, `sent` and `words` as they were, and has 0 words.
 *
 * Pointers and slices are as for the conversions: `sent` and `words` overlap neither each other nor `heard`
 * nor `station`.
 */
cq_station_ran cq_station_run(cq_station *station, const uint8_t *heard, size_t heard_length, uint8_t *sent,
                              size_t sent_length, uint32_t *words, size_t words_length);

/*
 * Runs a station for some ms and measures the line: does what cq_station_run does, and adds the edges that count to
 * a report.
 *
 * station              the station, which the call changes
 * heard, heard_length  what is heard, as for cq_station_run
 * sent, sent_length    where the sent ms go, as there
 * words, words_length  where the words go, as there
 * report               the report, which the call changes: a fresh one, or as the last call left it
 *
 * The edges of a frame wait in the station, and count all at once in the call that holds the sample of its stop, also
 * if calls of cq_station_run went before. Those of a frame that breaks never count, nor those of one that the
 * station's own burst cuts off.
 *
 * CQ_OK: the station, `sent`, `words` and the result are those of cq_station_run. The report is that of the edges it
 * had and those that count in these ms. A list of ms may be cut into calls in any way, with the same result.
 *
 * Refusals, asked in this order; the first that applies is the answer:
 *   CQ_REFUSED_STATE        (1)  a number of the station or of the report is out of range
 *   CQ_REFUSED_DURATION     (5)  heard_length is above CQ_STATION_MS_MAX
 *   CQ_REFUSED_HEARD        (6)  an element of heard is above CQ_LEVEL_MAX of the mode
 *   CQ_REFUSED_SENT_SLICE   (7)  sent_length is less than heard_length
 *   CQ_REFUSED_WORD_SLICE   (8)  words_length is less than heard_length
 *   CQ_REFUSED_REPORT_FULL (18)  the report would have more than CQ_DRIFT_EDGES_MAX edges; with a fresh one never
 * Each leaves the station, the report, `sent` and `words` as they were, and has 0 words. After the last, put the report
 * by and run the same ms with a fresh one.
 *
 * Pointers and slices are as for cq_station_run, and `report` overlaps none of them. cq_station_run is this run with a
 * fresh report that is dropped.
 */
cq_station_ran cq_station_run_drift(cq_station *station, const uint8_t *heard, size_t heard_length, uint8_t *sent,
                                    size_t sent_length, uint32_t *words, size_t words_length,
                                    cq_drift_report *report);

/*
 * Tells how long it would take to send a text, and what waits already, on a quiet line.
 *
 * station            the station, which is only read
 * text, text_length  the characters, as for cq_station_offer; with none it is told of what waits alone
 *
 * CQ_OK: `ms` is the number of ms after which a copy of the station would have nothing waiting and be in no
 * burst, if it was offered the text now and then heard CQ_LEVEL_QUIET in every ms; 0 if that is so at once. The
 * ms until the line has been without signal for 300 are in it, and a line that is busy now counts as quiet from
 * now on. So text that is offered later than now, or signal on the line, can make it longer. CQ_STATION_MS_MAX
 * is no limit here: CQ_SENDING_MS_MAX, below, says how far `ms` goes.
 *
 * Refusals, asked in this order; the first that applies is the answer:
 *   CQ_REFUSED_STATE      (1)  a number of the station is out of range
 *   CQ_REFUSED_CHARACTER  (3)  a byte of text is above 127
 *   CQ_REFUSED_FULL       (4)  no space for all characters of the text that send something
 * Each has 0 ms. The station is as it was after every call; a 7F (DEL) in the text puts no reader in letters.
 *
 * Pointers and slices are as for the conversions.
 */
cq_station_previewed cq_station_preview(const cq_station *station, const uint8_t *text, size_t text_length);

/*
 * The most ms that n characters take to send, as a uint32_t: for the size of a battery, or a watchdog.
 *
 * mode  1 to 4; for any other number it is 0
 * n     how many wait, those of the text included that send something: 0 to CQ_STATION_WAITING_MAX
 *
 * It is a constant expression if both are, though not for #if. Each may be evaluated more than once.
 *
 * From a station that is in no burst and whose line is free, the `ms` of a preview are at most this: on a quiet line
 * the ms from the offer to the end of the burst, if nothing more is offered. Some text reaches it, for every n: in
 * Baudot figures and letters by turns, the first not of the shift in force; in DTMF characters of four keys, such as
 * A; in EDT every text. With n = 0 it is 0.
 *
 * On a line that is not free yet, add what is missing of the 300 ms without signal, if n is not 0.
 *
 * In a burst, the `ms` are at most what is left of the preamble or code on the line, and the longest code (165, 150,
 * 480 or 100 ms in modes 1 to 4) for each code to come. At most 2n are to come in Baudot, 2n + 1 while the preamble is
 * on the line; n in DTMF and EDT. In a station that no list of calls gives, the sender may be CQ_SHIFT_FRESH in a
 * burst, with 2n + 1 to come in Baudot; or nothing may be left and nothing wait, and the burst ends with 1 ms.
 *
 * So no preview tells more than 123,360 ms: in DTMF, 480 for a code on the line and for each of 256 waiting.
 */
#define CQ_SENDING_MS_MAX(mode, n)                                                   \
    ((uint32_t)((n) == 0                      ? 0                                    \
                : (mode) == CQ_MODE_BAUDOT_45 ? 150 + 165 * (2 * (uint32_t)(n) + 1)  \
                : (mode) == CQ_MODE_BAUDOT_50 ? 150 + 150 * (2 * (uint32_t)(n) + 1)  \
                : (mode) == CQ_MODE_DTMF      ? 480 * (uint32_t)(n)                  \
                : (mode) == CQ_MODE_EDT       ? 300 + 100 * (uint32_t)(n)            \
                                              : 0))

/* Checked when the host is compiled: the structs are laid out as in the library. */
#if defined(__cplusplus) && __cplusplus >= 201103L
static_assert(sizeof(size_t) == 8, "size_t has 8 bytes");
static_assert(sizeof(cq_baudot_sent) == 16, "cq_baudot_sent has 16 bytes");
static_assert(offsetof(cq_baudot_sent, length) == 8, "length stands at byte 8");
static_assert(sizeof(cq_baudot_text) == 16, "cq_baudot_text has 16 bytes");
static_assert(offsetof(cq_baudot_text, length) == 8, "length stands at byte 8");
static_assert(sizeof(cq_calling) == 6, "cq_calling has 6 bytes");
static_assert(offsetof(cq_calling, choice) == 5, "choice stands at byte 5");
static_assert(sizeof(cq_calling_chosen) == 2, "cq_calling_chosen has 2 bytes");
static_assert(offsetof(cq_calling_chosen, choice) == 1, "choice stands at byte 1");
static_assert(sizeof(cq_core) == 20, "cq_core has 20 bytes");
static_assert(offsetof(cq_core, mode) == 19, "mode stands at byte 19");
static_assert(sizeof(cq_drift_report) == 16, "cq_drift_report has 16 bytes");
static_assert(offsetof(cq_drift_report, largest) == 12, "largest stands at byte 12");
static_assert(sizeof(cq_edges) == 20, "cq_edges has 20 bytes");
static_assert(offsetof(cq_edges, level) == 16, "level stands at byte 16");
static_assert(sizeof(cq_station) == 296, "cq_station has 296 bytes");
static_assert(offsetof(cq_station, edges) == 20, "edges stand from byte 20 on");
static_assert(offsetof(cq_station, chars) == 40, "chars stand from byte 40 on");
static_assert(sizeof(cq_station_ran) == 16, "cq_station_ran has 16 bytes");
static_assert(offsetof(cq_station_ran, words) == 8, "words stands at byte 8");
static_assert(sizeof(cq_station_previewed) == 8, "cq_station_previewed has 8 bytes");
static_assert(offsetof(cq_station_previewed, ms) == 4, "ms stands at byte 4");
#else
typedef char cq_check_size_t[sizeof(size_t) == 8 ? 1 : -1];
typedef char cq_check_baudot_sent[sizeof(cq_baudot_sent) == 16 ? 1 : -1];
typedef char cq_check_baudot_sent_length[offsetof(cq_baudot_sent, length) == 8 ? 1 : -1];
typedef char cq_check_baudot_text[sizeof(cq_baudot_text) == 16 ? 1 : -1];
typedef char cq_check_baudot_text_length[offsetof(cq_baudot_text, length) == 8 ? 1 : -1];
typedef char cq_check_calling[sizeof(cq_calling) == 6 ? 1 : -1];
typedef char cq_check_calling_choice[offsetof(cq_calling, choice) == 5 ? 1 : -1];
typedef char cq_check_calling_chosen[sizeof(cq_calling_chosen) == 2 ? 1 : -1];
typedef char cq_check_calling_chosen_choice[offsetof(cq_calling_chosen, choice) == 1 ? 1 : -1];
typedef char cq_check_core[sizeof(cq_core) == 20 ? 1 : -1];
typedef char cq_check_core_mode[offsetof(cq_core, mode) == 19 ? 1 : -1];
typedef char cq_check_drift_report[sizeof(cq_drift_report) == 16 ? 1 : -1];
typedef char cq_check_drift_report_largest[offsetof(cq_drift_report, largest) == 12 ? 1 : -1];
typedef char cq_check_edges[sizeof(cq_edges) == 20 ? 1 : -1];
typedef char cq_check_edges_level[offsetof(cq_edges, level) == 16 ? 1 : -1];
typedef char cq_check_station[sizeof(cq_station) == 296 ? 1 : -1];
typedef char cq_check_station_edges[offsetof(cq_station, edges) == 20 ? 1 : -1];
typedef char cq_check_station_chars[offsetof(cq_station, chars) == 40 ? 1 : -1];
typedef char cq_check_station_ran[sizeof(cq_station_ran) == 16 ? 1 : -1];
typedef char cq_check_station_ran_words[offsetof(cq_station_ran, words) == 8 ? 1 : -1];
typedef char cq_check_station_previewed[sizeof(cq_station_previewed) == 8 ? 1 : -1];
typedef char cq_check_station_previewed_ms[offsetof(cq_station_previewed, ms) == 4 ? 1 : -1];
#endif

#ifdef __cplusplus
}
#endif

#endif
