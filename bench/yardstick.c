/*
 * The yardstick: one pass over an FPL, written by hand for few instructions, to see how near the two readers come to it. It reads no other type.
 *
 * Each byte is looked at once, save a few of fixed length, and nothing is written until the message is accepted; only where white space drops out is
 * the spelling put together in a scratch first. Numbers 1 to 6 are worked out for a message that does not pass, and for no other. It gives the
 * answers of both readers, but for one thing: the place of a 7 is 0.
 *
 * A byte's sort is looked up in a table of 256 entries. The proved reader has none, for the room that it takes, and works sorts out by comparisons. So
 * does the yardstick where it is compiled with BY_COMPARISONS, then under a name of its own.
 */
#include <stdbool.h>
#include <stddef.h>
#include <stdint.h>
#include <string.h>

#define MOST 1800

typedef uint8_t byte;

/* Sorts of bytes. A sign is at most DIGIT, a byte of a text word at most MARK. */
enum { LETTER, DIGIT, MARK, WHITE, CLOSING, OTHER, STRANGE };

#ifdef BY_COMPARISONS
#define yardstick_read yardstick_read_by_comparisons

static inline byte sort_of(byte b)
{
    if ((byte)(b - 'A') < 26) return LETTER;
    if ((byte)(b - '0') < 10) return DIGIT;
    if (b == '?' || b == ':' || b == '.' || b == ',' || b == '\'' || b == '=' || b == '+') return MARK;
    if (b == ' ' || b == '\r' || b == '\n') return WHITE;
    if (b == '-' || b == ')') return CLOSING;
    return b == '(' || b == '/' ? OTHER : STRANGE;
}
#else
static const byte sorts[256] = {
    [0 ... 255] = STRANGE,
    ['A' ... 'Z'] = LETTER,
    ['0' ... '9'] = DIGIT,
    ['?'] = MARK, [':'] = MARK, ['.'] = MARK, [','] = MARK, ['\''] = MARK, ['='] = MARK, ['+'] = MARK,
    [' '] = WHITE, ['\r'] = WHITE, ['\n'] = WHITE,
    ['-'] = CLOSING, [')'] = CLOSING,
    ['('] = OTHER, ['/'] = OTHER,
};

static inline byte sort_of(byte b) { return sorts[b]; }
#endif

/* The keys of field 18 in their order. */
enum { STS = 1, PBN, NAV, COM, DAT, SUR, DEP, DEST, DOF, REG, EET, SEL, TYP, CODE, DLE, OPR, ORGN, PER, ALTN, RALT, TALT, RIF, RMK };

/* A pass over a message: what is spelled so far, and the keys of field 18 that are due and that are there, a bit for each. */
struct pass {
    const byte *end;
    const byte *copied; /* what lies before this is spelled in the scratch, and what lies behind it is spelled as sent */
    byte *spelled;
    uint32_t due;
    uint32_t told;
    byte scratch[MOST];
};

/* What is behind a loop is told nothing of the pointer, so that the loop keeps nothing for it. */
#define FORGET(p) __asm__("" : "+r"(p))

/* ---- white space */

/* Goes over a run of white space that is not spelled as sent. */
static __attribute__((noinline)) const byte *reduced(struct pass *s, const byte *p)
{
    size_t n = (size_t)(p - s->copied);
    memcpy(s->spelled, s->copied, n);
    s->spelled += n;
    while (sort_of(*p) == WHITE) p++;
    if (sort_of(*p) != CLOSING) *s->spelled++ = ' ';
    s->copied = p;
    return p;
}

/* From the end of a word to the next one, or to the `-` or `)` behind it. */
static inline const byte *gap(struct pass *s, const byte *p)
{
    if (*p == ' ' && sort_of(p[1]) <= MARK) return p + 1;
    return sort_of(*p) == WHITE ? reduced(s, p) : p;
}

/* From the end of a field's last word over the `-` behind it. */
static inline const byte *closed(struct pass *s, const byte *p)
{
    if (*p != '-') p = gap(s, p);
    return *p == '-' ? p + 1 : NULL;
}

/* ---- four bytes at once */

#define EACH(b) (0x01010101u * (uint32_t)(b))
#define FOUR(a, b, c, d) ((uint32_t)(a) | (uint32_t)(b) << 8 | (uint32_t)(c) << 16 | (uint32_t)(d) << 24)
#define ZZZZ EACH('Z')

static inline uint32_t four(const byte *p)
{
    uint32_t x;
    memcpy(&x, p, 4);
    return x;
}

/* Whether each of four bytes is from low to high. */
static inline bool within(uint32_t x, byte low, byte high)
{
    return (((x + EACH(0x80 - low)) & ~(x + EACH(0x7f - high)) & ~x) & EACH(0x80)) == EACH(0x80);
}

static inline bool four_within(const struct pass *s, const byte *p, byte low, byte high)
{
    return s->end - p > 4 && within(four(p), low, high);
}

static inline bool four_letters(const struct pass *s, const byte *p) { return four_within(s, p, 'A', 'Z'); }

static inline bool four_digits(const struct pass *s, const byte *p) { return four_within(s, p, '0', '9'); }

static inline bool three_digits(const struct pass *s, const byte *p)
{
    return s->end - p > 3 && within((four(p) & 0xffffff) | FOUR(0, 0, 0, '0'), '0', '9');
}

static inline bool is_elapsed(const struct pass *s, const byte *p) { return four_digits(s, p) && p[2] <= '5'; }

static inline bool is_time(const struct pass *s, const byte *p) { return is_elapsed(s, p) && (p[0] < '2' || (p[0] == '2' && p[1] <= '3')); }

/* ---- fields of one word */

/* Whether a byte is one of some letters, a bit for each. */
static inline bool is_of(byte b, uint32_t letters) { return (byte)(b - 'A') < 26 && letters >> (b - 'A') & 1; }

#define BIT(letter) (1u << ((letter) - 'A'))

static const byte *letters(const byte *p)
{
    const byte *from = p;
    while (sort_of(*p) == LETTER) p++;
    return p > from && p - from <= 4 ? p : NULL;
}

/* A number of field 3. */
static const byte *number(const struct pass *s, const byte *p)
{
    if (!(p = letters(p)) || *p != '/' || !(p = letters(p + 1))) return NULL;
    return three_digits(s, p) ? p + 3 : NULL;
}

static inline const byte *field3(struct pass *s, const byte *p)
{
    for (int k = 0; k < 2 && sort_of(*p) == LETTER; k++)
        if (!(p = number(s, p))) return NULL;
    return closed(s, p);
}

static inline const byte *signs(const byte *p)
{
    while (sort_of(*p) <= DIGIT) p++;
    FORGET(p);
    return p;
}

static inline const byte *field7(struct pass *s, const byte *from)
{
    const byte *p = signs(from);
    if (p - from < 2 || p - from > 7) return NULL;
    if (*p == '/') {
        if (p[1] != 'A' || !four_within(s, p + 2, '0', '7')) return NULL;
        p += 6;
    }
    return closed(s, p);
}

static inline const byte *field8(struct pass *s, const byte *p)
{
    if (!is_of(*p++, BIT('I') | BIT('V') | BIT('Y') | BIT('Z'))) return NULL;
    if (is_of(*p, BIT('S') | BIT('N') | BIT('G') | BIT('M') | BIT('X'))) p++;
    return closed(s, p);
}

/* A number 2 to 99, if there is one. */
static inline const byte *how_many(const byte *p)
{
    if (sort_of(*p) != DIGIT) return p;
    if (sort_of(p[1]) == DIGIT) return *p != '0' ? p + 2 : NULL;
    return *p >= '2' ? p + 1 : NULL;
}

static inline const byte *field9(struct pass *s, const byte *p)
{
    const byte *from = how_many(p);
    if (!from || sort_of(*from) != LETTER) return NULL;
    p = signs(from);
    if (p - from < 2 || p - from > 4 || *p != '/' || !is_of(p[1], BIT('H') | BIT('M') | BIT('L'))) return NULL;
    if (p - from == 4 && four(from) == ZZZZ) s->due |= 1u << TYP;
    return closed(s, p + 2);
}

/* ---- codes */

/* A letter of a code: the first bit that its codes have in a set, from 1 on, and how many digits it may have, 0 if none. */
struct code {
    byte bit, digits;
};

static const struct code lefts[256] = {
    ['A'] = { 1, 0 }, ['B'] = { 2, 0 }, ['C'] = { 3, 0 }, ['D'] = { 4, 0 }, ['F'] = { 5, 0 }, ['G'] = { 6, 0 }, ['H'] = { 7, 0 }, ['I'] = { 8, 0 },
    ['K'] = { 9, 0 }, ['L'] = { 10, 0 }, ['O'] = { 11, 0 }, ['R'] = { 12, 0 }, ['S'] = { 13, 0 }, ['T'] = { 14, 0 }, ['U'] = { 15, 0 },
    ['V'] = { 16, 0 }, ['W'] = { 17, 0 }, ['X'] = { 18, 0 }, ['Y'] = { 19, 0 }, ['Z'] = { 20, 0 },
    ['E'] = { 21, 3 }, ['M'] = { 24, 3 }, ['J'] = { 27, 7 }, ['P'] = { 34, 9 },
};

static const struct code rights[256] = {
    ['A'] = { 1, 0 }, ['C'] = { 2, 0 }, ['E'] = { 3, 0 }, ['H'] = { 4, 0 }, ['I'] = { 5, 0 }, ['L'] = { 6, 0 }, ['P'] = { 7, 0 }, ['S'] = { 8, 0 },
    ['X'] = { 9, 0 }, ['B'] = { 10, 2 }, ['U'] = { 12, 2 }, ['V'] = { 14, 2 }, ['D'] = { 16, 1 }, ['G'] = { 17, 1 },
};

static const struct code navigations[256] = {
    ['A'] = { 1, 1 }, ['B'] = { 2, 6 }, ['C'] = { 8, 4 }, ['D'] = { 12, 4 }, ['L'] = { 16, 1 }, ['O'] = { 17, 4 }, ['S'] = { 21, 2 }, ['T'] = { 23, 2 },
};

/* One code or more, none twice, `most` bytes at most. */
static inline const byte *codes(const struct code *known, const byte *from, ptrdiff_t most)
{
    const byte *p = from;
    uint64_t seen = 0;
    for (struct code c; (c = known[*p]).bit; p++) {
        if (c.digits) {
            byte digit = (byte)(*++p - '1');
            if (digit >= c.digits) return NULL;
            c.bit += digit;
        }
        uint64_t bit = (uint64_t)1 << c.bit;
        if (seen & bit) return NULL;
        seen |= bit;
    }
    return p > from && p - from <= most ? p : NULL;
}

static inline const byte *field10(struct pass *s, const byte *p)
{
    p = *p == 'N' ? p + 1 : codes(lefts, p, 64);
    if (!p || *p != '/') return NULL;
    p = p[1] == 'N' ? p + 2 : codes(rights, p + 1, 20);
    return p ? closed(s, p) : NULL;
}

/* ---- aerodromes */

static inline const byte *field13(struct pass *s, const byte *p)
{
    if (!four_letters(s, p) || !is_time(s, p + 4)) return NULL;
    if (four(p) == ZZZZ || four(p) == FOUR('A', 'F', 'I', 'L')) s->due |= 1u << DEP;
    return closed(s, p + 8);
}

static inline const byte *field16(struct pass *s, const byte *p)
{
    if (!four_letters(s, p) || !is_elapsed(s, p + 4)) return NULL;
    if (four(p) == ZZZZ) s->due |= 1u << DEST;
    p += 8;
    for (int k = 0; k < 2 && sort_of(*p) == WHITE; k++) {
        p = gap(s, p);
        if (*p == '-') return p + 1;
        if (!four_letters(s, p)) return NULL;
        if (four(p) == ZZZZ) s->due |= 1u << ALTN;
        p += 4;
    }
    return closed(s, p);
}

/* ---- the route */

static inline const byte *speed(const struct pass *s, const byte *p)
{
    if (*p == 'K' || *p == 'N') return four_digits(s, p + 1) ? p + 5 : NULL;
    return *p == 'M' && three_digits(s, p + 1) ? p + 4 : NULL;
}

static inline const byte *level(const struct pass *s, const byte *p)
{
    if (*p == 'F' || *p == 'A') return three_digits(s, p + 1) ? p + 4 : NULL;
    return (*p == 'S' || *p == 'M') && four_digits(s, p + 1) ? p + 5 : NULL;
}

static inline unsigned two(const byte *p) { return (unsigned)(p[0] - '0') * 10 + (unsigned)(p[1] - '0'); }

static inline unsigned three(const byte *p) { return two(p) * 10 + (unsigned)(p[2] - '0'); }

/* Degrees to so many; at the most of them no minutes are left. */
static inline bool in_range(unsigned degrees, unsigned minutes, unsigned most)
{
    return minutes <= 59 && (degrees < most || (degrees == most && minutes == 0));
}

static inline bool is_north_or_south(byte b) { return b == 'N' || b == 'S'; }

static inline bool is_east_or_west(byte b) { return b == 'E' || b == 'W'; }

/* What some signs are, a bit of `digits` for each, the last one's lowest: a name, which is no point; a point; or neither. */
enum what { NEITHER, NAME, POINT };

static inline enum what point_if(bool fits) { return fits ? POINT : NEITHER; }

static inline enum what of_seven(const byte *p, uint32_t digits)
{
    bool shaped = digits == 0x6e && is_north_or_south(p[2]) && is_east_or_west(p[6]);
    return shaped ? point_if(in_range(two(p), 0, 90) && in_range(three(p + 3), 0, 180)) : NAME;
}

static inline enum what of_eight_to_eleven(const byte *p, size_t n, uint32_t digits)
{
    if ((digits & 63) == 63) return point_if(three(p + n - 6) <= 360);
    bool shaped = n == 11 && digits == 0x7be && is_north_or_south(p[4]) && is_east_or_west(p[10]);
    return point_if(shaped && in_range(two(p), two(p + 2), 90) && in_range(three(p + 5), two(p + 8), 180));
}

static inline enum what signs_are(const byte *p, size_t n, uint32_t digits)
{
    if (n - 2 <= 3) return POINT;
    if (n == 6) return NAME;
    if (n == 7) return of_seven(p, digits);
    return n - 8 <= 3 ? of_eight_to_eleven(p, n, digits) : NEITHER;
}

static inline bool is_indicator(const byte *p, size_t n)
{
    uint32_t x = four(p) & 0xffffff;
    return n == 3 && (x == FOUR('D', 'C', 'T', 0) || x == FOUR('V', 'F', 'R', 0) || x == FOUR('I', 'F', 'R', 0));
}

/* Over signs; which of them are digits. */
static inline const byte *signs_marked(const byte *p, uint32_t *digits)
{
    uint32_t marked = 0;
    for (byte sort; (sort = sort_of(*p)) <= DIGIT; p++) marked = marked * 2 + sort;
    FORGET(p);
    *digits = marked;
    return p;
}

/* Over a point and the oblique behind it, of which the signs are gone over already. */
static inline const byte *point(const byte *from, const byte *p, uint32_t digits)
{
    size_t n = (size_t)(p - from);
    return *p == '/' && signs_are(from, n, digits) == POINT && !is_indicator(from, n) ? p + 1 : NULL;
}

static const byte *climb(struct pass *s, const byte *from)
{
    uint32_t digits;
    const byte *p = signs_marked(from, &digits);
    if (!(p = point(from, p, digits)) || !(p = speed(s, p)) || !(p = level(s, p))) return NULL;
    return s->end - p > 4 && four(p) == FOUR('P', 'L', 'U', 'S') ? p + 4 : level(s, p);
}

/* Over a word with an oblique. */
static const byte *changing(struct pass *s, const byte *from, const byte *p, uint32_t digits)
{
    if (p - from == 1 && *from == 'C') return climb(s, p + 1);
    if (!(p = point(from, p, digits)) || !(p = speed(s, p))) return NULL;
    return level(s, p);
}

static inline const byte *route_words(struct pass *s, const byte *from)
{
    for (;;) {
        uint32_t digits;
        const byte *p = signs_marked(from, &digits);
        size_t n = (size_t)(p - from);
        if (*p == '/') {
            if (!(p = changing(s, from, p, digits))) return NULL;
        } else if (signs_are(from, n, digits) == NEITHER) {
            return n == 1 && *from == 'T' ? closed(s, p) : NULL;
        }
        if (sort_of(*p) == WHITE) {
            from = gap(s, p);
            if (sort_of(*from) <= DIGIT) continue;
            p = from;
        }
        return *p == '-' ? p + 1 : NULL;
    }
}

static inline const byte *field15(struct pass *s, const byte *p)
{
    if (!(p = speed(s, p))) return NULL;
    bool visual = s->end - p > 3 && (four(p) & 0xffffff) == FOUR('V', 'F', 'R', 0);
    if (!(p = visual ? p + 3 : level(s, p)) || sort_of(*p) != WHITE) return NULL;
    return route_words(s, gap(s, p));
}

/* ---- other information */

/* The rank of the key whose first four bytes these are, a key of three with its oblique; 0 if there is none. */
static inline unsigned rank_of(uint32_t x)
{
    switch (x) {
    case FOUR('S', 'T', 'S', '/'): return STS;
    case FOUR('P', 'B', 'N', '/'): return PBN;
    case FOUR('N', 'A', 'V', '/'): return NAV;
    case FOUR('C', 'O', 'M', '/'): return COM;
    case FOUR('D', 'A', 'T', '/'): return DAT;
    case FOUR('S', 'U', 'R', '/'): return SUR;
    case FOUR('D', 'E', 'P', '/'): return DEP;
    case FOUR('D', 'E', 'S', 'T'): return DEST;
    case FOUR('D', 'O', 'F', '/'): return DOF;
    case FOUR('R', 'E', 'G', '/'): return REG;
    case FOUR('E', 'E', 'T', '/'): return EET;
    case FOUR('S', 'E', 'L', '/'): return SEL;
    case FOUR('T', 'Y', 'P', '/'): return TYP;
    case FOUR('C', 'O', 'D', 'E'): return CODE;
    case FOUR('D', 'L', 'E', '/'): return DLE;
    case FOUR('O', 'P', 'R', '/'): return OPR;
    case FOUR('O', 'R', 'G', 'N'): return ORGN;
    case FOUR('P', 'E', 'R', '/'): return PER;
    case FOUR('A', 'L', 'T', 'N'): return ALTN;
    case FOUR('R', 'A', 'L', 'T'): return RALT;
    case FOUR('T', 'A', 'L', 'T'): return TALT;
    case FOUR('R', 'I', 'F', '/'): return RIF;
    case FOUR('R', 'M', 'K', '/'): return RMK;
    default: return 0;
    }
}

/* The rank of the key that a word begins with, and the place behind its oblique; 0 if it is none. */
static inline unsigned key(const struct pass *s, const byte **p)
{
    if (s->end - *p < 5) return 0;
    uint32_t x = four(*p);
    *p += x >> 24 == '/' ? 4 : 5;
    return (*p)[-1] == '/' ? rank_of(x) : 0;
}

static const char statuses[13][8] = {
    "ALTRV", "ATFMX", "FFR", "FLTCK", "HAZMAT", "HEAD", "HOSP", "HUM", "MARSA", "MEDEVAC", "NONRVSM", "SAR", "STATE",
};

static bool is_status(const byte *p, size_t n)
{
    char word[8] = "";
    if (n > 7) return false;
    memcpy(word, p, n);
    for (int k = 0; k < 13; k++)
        if (memcmp(word, statuses[k], 8) == 0) return true;
    return false;
}

/* Each of these goes over one word, and gives its end; at an oblique the word is the next key. */
static const byte *status(const byte *from, bool *fits)
{
    const byte *p = from;
    while (sort_of(*p) == LETTER) p++;
    *fits = is_status(from, (size_t)(p - from));
    return p;
}

static inline const byte *elapsed_at(const byte *p, bool *fits)
{
    uint32_t digits;
    const byte *from = p;
    p = signs_marked(p, &digits);
    *fits = p - from >= 6 && p - from <= 15 && (digits & 15) == 15 && p[-2] <= '5';
    return p;
}

static const byte *statuses_or_times(struct pass *s, const byte *from, bool times)
{
    bool first = true, fits;
    for (;; first = false) {
        const byte *p = times ? elapsed_at(from, &fits) : status(from, &fits);
        if (*p == '/' && !first) return from;
        if (!fits) return NULL;
        if (sort_of(*p) != WHITE) return p;
        from = gap(s, p);
        if (sort_of(*from) == CLOSING) return from;
    }
}

static inline const byte *texts(struct pass *s, const byte *first)
{
    const byte *from = first, *p = first;
    if (sort_of(*p) > MARK) return NULL;
    for (;;) {
        do p++;
        while (sort_of(*p) <= MARK);
        FORGET(p);
        if (*p == ' ' && sort_of(p[1]) <= MARK) {
            from = ++p;
            continue;
        }
        if (sort_of(*p) != WHITE) break;
        p = from = reduced(s, p);
        if (sort_of(*p) > MARK) return p;
    }
    if (*p != '/') return p;
    return from != first ? from : NULL;
}

static inline unsigned days_of(unsigned year, unsigned month)
{
    if (month == 2) return year % 4 == 0 ? 29 : 28;
    if (month - 1 > 11) return 0;
    return month == 4 || month == 6 || month == 9 || month == 11 ? 30 : 31;
}

static const byte *date(const struct pass *s, const byte *p)
{
    if (!four_digits(s, p) || !four_digits(s, p + 2)) return NULL;
    return two(p + 4) - 1 < days_of(two(p), two(p + 2)) ? p + 6 : NULL;
}

static const byte *transponder(const byte *p)
{
    const byte *from = p;
    while (sort_of(*p) == DIGIT || is_of(*p, BIT('G') - 1)) p++;
    return p - from == 6 ? p : NULL;
}

/* Behind the only word of an item. */
static inline const byte *alone(struct pass *s, const byte *p)
{
    if (!p) return NULL;
    if (sort_of(*p) == WHITE) return gap(s, p);
    return sort_of(*p) == CLOSING ? p : NULL;
}

/* Over the words of an item, to the next key or to the end. */
static inline const byte *item(struct pass *s, unsigned rank, const byte *p)
{
    switch (rank) {
    case STS: return statuses_or_times(s, p, false);
    case EET:
    case DLE: return statuses_or_times(s, p, true);
    case PBN: return alone(s, codes(navigations, p, 16));
    case DOF: return alone(s, date(s, p));
    case SEL: return alone(s, four_letters(s, p) ? p + 4 : NULL);
    case CODE: return alone(s, transponder(p));
    default: return texts(s, p);
    }
}

/* To the `)` behind the field. */
static inline const byte *field18(struct pass *s, const byte *p)
{
    unsigned rank = 0;
    if (*p == '0') return gap(s, p + 1);
    do {
        unsigned next = key(s, &p);
        if (next <= rank) return NULL;
        rank = next;
        s->told |= 1u << rank;
        if (!(p = item(s, rank, p))) return NULL;
    } while (*p != ')');
    return p;
}

/* ---- the message */

/* An answer: number, field, place, and the spelling's length. */
typedef uint64_t answer[4];

static int refusal(answer a, unsigned number, unsigned field, size_t place)
{
    a[0] = number;
    a[1] = field;
    a[2] = place;
    a[3] = 0;
    return (int)number;
}

static bool is_type(const byte *m, size_t n, const char *types)
{
    for (; *types; types += 3)
        if (n >= 5 && memcmp(m + 1, types, 3) == 0) return true;
    return false;
}

/* The place of the hyphen with this number, counted from 1, and how many there are. */
static size_t hyphen(const byte *m, size_t n, size_t number, size_t *count)
{
    size_t place = 0;
    *count = 0;
    for (size_t i = 0; i < n; i++)
        if (m[i] == '-' && ++*count == number) place = i;
    return place;
}

/* Number 2 or 3, or 0. */
static int badly_framed(const byte *m, size_t n, answer a)
{
    size_t i = 1, strange = 0;
    if (n == 0 || m[0] != '(') return refusal(a, 2, 0, 0);
    for (; i < n && m[i] != '(' && m[i] != ')'; i++)
        if (!strange && sort_of(m[i]) == STRANGE) strange = i;
    if (i + 1 != n || m[i] != ')') return refusal(a, 2, 0, i);
    return strange ? refusal(a, 3, 0, strange) : 0;
}

/* The answer to a message that does not pass: 1 to 6, or 7 with the field at which the pass stopped. */
static __attribute__((noinline)) int refused(const byte *m, size_t n, unsigned field, answer a)
{
    size_t hyphens, surplus;
    int number;
    if (n > MOST) return refusal(a, 1, 0, MOST);
    if ((number = badly_framed(m, n, a))) return number;
    if (is_type(m, n, "ALRRCFCPLESTCDNACPLAM")) return refusal(a, 5, 3, 0);
    if (!is_type(m, n, "FPL")) return refusal(a, 4, 3, 0);
    surplus = hyphen(m, n, 9, &hyphens);
    if (hyphens < 8) return refusal(a, 6, 0, n - 1);
    if (hyphens > 8) return refusal(a, 6, 0, surplus);
    return refusal(a, 7, field, 0);
}

/* Number 10. */
static int unexplained(const byte *m, size_t n, uint32_t missing, answer a)
{
    size_t hyphens;
    if (missing >> TYP & 1) return refusal(a, 10, 9, hyphen(m, n, 3, &hyphens));
    if (missing >> DEP & 1) return refusal(a, 10, 13, hyphen(m, n, 5, &hyphens));
    return refusal(a, 10, 16, hyphen(m, n, 7, &hyphens));
}

/* Writes the spelling, if there is room. */
static inline int written(struct pass *s, const byte *m, size_t n, byte *out, size_t room, answer a)
{
    size_t before = (size_t)(s->spelled - s->scratch), rest = (size_t)(s->end - s->copied);
    if (before + rest > room) return refusal(a, 11, 0, 0);
    if (before == 0) {
        memcpy(out, m, n);
    } else {
        memcpy(out, s->scratch, before);
        memcpy(out + before, s->copied, rest);
    }
    a[0] = a[1] = a[2] = 0;
    a[3] = before + rest;
    return 0;
}

/* Reads an FPL; 0 if it is accepted, else the number. */
int yardstick_read(const byte *m, size_t n, byte *out, size_t room, answer a)
{
    struct pass s;
    const byte *p;
    if (n < 5 || n > MOST || four(m) != FOUR('(', 'F', 'P', 'L') || m[n - 1] != ')') return refused(m, n, 3, a);
    s.end = m + n;
    s.copied = m;
    s.spelled = s.scratch;
    s.due = s.told = 0;
    if (!(p = field3(&s, m + 4))) return refused(m, n, 3, a);
    if (!(p = field7(&s, p))) return refused(m, n, 7, a);
    if (!(p = field8(&s, p))) return refused(m, n, 8, a);
    if (!(p = field9(&s, p))) return refused(m, n, 9, a);
    if (!(p = field10(&s, p))) return refused(m, n, 10, a);
    if (!(p = field13(&s, p))) return refused(m, n, 13, a);
    if (!(p = field15(&s, p))) return refused(m, n, 15, a);
    if (!(p = field16(&s, p))) return refused(m, n, 16, a);
    if (!(p = field18(&s, p)) || p + 1 != s.end) return refused(m, n, 18, a);
    if (s.due & ~s.told) return unexplained(m, n, s.due & ~s.told, a);
    return written(&s, m, n, out, room, a);
}
