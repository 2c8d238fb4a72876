/*
 * Beechdoublet: reads air traffic messages, keeps a strip up to date and says why it is not, says where a field in force stands, tells the parts of a
 * message, and keeps one board of strips for two handlers.
 *
 * Link with crates/beechdoublet/out/libbeechdoublet.a (x86-64 Linux; gcc or clang, C99 or C++11 and later). Each function of the library is proved to
 * give the answer that its contract names; docs/GUIDE.md says what is proved and what the caller has to see to. In short:
 *
 * - A pointer that comes before a length points to that many bytes, and every other pointer to a whole structure of the type named. No pointer is
 *   null; one that comes before the length 0 is never followed, and may be any other address.
 * - What a function writes to (no const) overlaps nothing else that is lent to the same call, and nobody else touches any of it meanwhile.
 *
 * A null pointer and an overlap are seen here, before the library is called, and given back as BEECHDOUBLET_NOT_A_CALL; whether memory is there at
 * all, only the caller knows. Nothing else is asked: any bytes, any numbers and any lengths have an answer. Nothing is kept between calls and
 * nothing is allocated, so calls in several threads do not disturb one another.
 *
 * Leave 32 KB of stack to a call. The most that was measured is 17 KB, for an update on a board, of a strip by a CHG, both with all keys of field 18. That
 * is a measurement and not proved. A board itself has 37,600 bytes: keep it elsewhere.
 */
#ifndef BEECHDOUBLET_H
#define BEECHDOUBLET_H

#include <stdbool.h>
#include <stddef.h>
#include <stdint.h>

#ifdef __cplusplus
extern "C" {
#endif

/* The most bytes of a message and of a strip: an output of this size always has room. Each call says below how much is enough otherwise. */
#define BEECHDOUBLET_MOST 1800

/* The places of a board, and a firm's slots: slot s of firm 1 is place s, of firm 2 place 10 + s. */
#define BEECHDOUBLET_PLACES 20
#define BEECHDOUBLET_SLOTS 10

/* The types of messages. */
#define BEECHDOUBLET_FPL 1
#define BEECHDOUBLET_CHG 2
#define BEECHDOUBLET_CNL 3
#define BEECHDOUBLET_DLA 4
#define BEECHDOUBLET_DEP 5
#define BEECHDOUBLET_ARR 6
#define BEECHDOUBLET_RQP 7
#define BEECHDOUBLET_RQS 8
#define BEECHDOUBLET_SPL 9

/* The kinds of a state. */
#define BEECHDOUBLET_FILED 0
#define BEECHDOUBLET_DEPARTED 1
#define BEECHDOUBLET_ARRIVED 2
#define BEECHDOUBLET_CANCELLED 3

/* Where a field in force stands; a field of one message stands in that message. */
#define BEECHDOUBLET_IN_STRIP 1
#define BEECHDOUBLET_IN_CHANGE 2
#define BEECHDOUBLET_IN_MESSAGE 1

/* What may differ where an update gives 12: places in what a cause shows. */
#define BEECHDOUBLET_IDENTIFICATION 0
#define BEECHDOUBLET_AERODROME 1
#define BEECHDOUBLET_TIME 2
#define BEECHDOUBLET_DESTINATION 3
#define BEECHDOUBLET_DATE 4

/* The keys of field 18 that may be missing where an update gives 10. */
#define BEECHDOUBLET_KEY_TYP 1
#define BEECHDOUBLET_KEY_DEP 2
#define BEECHDOUBLET_KEY_DEST 3
#define BEECHDOUBLET_KEY_ALTN 4

/*
 * The number of what is not a call: a pointer is null, or what is to be written overlaps something else that is lent. Nothing is written but the
 * answer, which is this number and zeros; where the answer itself is null or overlaps something, not even that. It is no number of document 01.
 */
#define BEECHDOUBLET_NOT_A_CALL 255

/*
 * Every answer begins with number, field and place. The number is 0 where the message was accepted (or the field was found), and then field and
 * place are 0 too; otherwise it says why not (1 to 17, document 01's numbers, 18 to 20 of a board, or 255), and what follows the place is 0. The place
 * of a 7 is that of the first byte, counted from 0, at which no field that fits could go on, or of the one just behind a field that stops too soon.
 */

/* The answer to reading. */
typedef struct {
    uint64_t number;
    uint64_t field;
    uint64_t place;
    uint64_t type;   /* BEECHDOUBLET_FPL to BEECHDOUBLET_SPL */
    uint64_t length; /* the bytes of the spelling, at the front of the output */
} beechdoublet_reading;

/* The answer to an update. */
typedef struct {
    uint64_t number;
    uint64_t field;
    uint64_t place;
    uint64_t length; /* the bytes of the new strip, at the front of the output */
} beechdoublet_updating;

/* Where a field in force, or a field of a message, stands. */
typedef struct {
    uint64_t number;
    uint64_t field;
    uint64_t place;
    uint64_t source; /* BEECHDOUBLET_IN_STRIP or BEECHDOUBLET_IN_CHANGE; BEECHDOUBLET_IN_MESSAGE */
    uint64_t from;   /* the content's first byte, counted from 0 */
    uint64_t to;     /* behind its last byte */
} beechdoublet_part;

/*
 * The parts of a plan. A place is that of a first byte, counted from 0, in the strip; where two are given, the second is behind the last byte. An
 * aerodrome is four letters.
 */
typedef struct {
    uint64_t number;
    uint64_t field;
    uint64_t place;
    uint64_t identification_from; /* field 7, without the code */
    uint64_t identification_to;
    uint64_t aircraft;  /* field 9: how many, 1 to 99 */
    uint64_t type_from; /* the type, without the number before it; behind it stand the oblique and the wake category */
    uint64_t type_to;
    uint64_t departure;    /* field 13: the place of the aerodrome */
    uint64_t off_block;    /* the minute of the day, 0 to 1439 */
    uint64_t destination;  /* field 16: the place of the aerodrome */
    uint64_t elapsed;      /* the total estimated elapsed time, in minutes, 0 to 5999 */
    uint64_t alternates;   /* how many, 0 to 2 */
    uint64_t alternate[2]; /* the place of each aerodrome; 0 where there is none */
    uint64_t date_known;   /* DOF of field 18: 1, or 0 and no date */
    uint64_t year;         /* 2000 to 2099 */
    uint64_t month;
    uint64_t day;
} beechdoublet_plan_parts;

/*
 * A strip's state. What a state does not have is 0, so a filed strip's is all zeros. Times are minutes of the day, 0 to 1439. Numbers that are no
 * state's (a kind 4, a minute 1440, an aerodrome AB1D, a filed flight with a departure) are refused with 15.
 */
typedef struct {
    uint64_t kind;
    uint64_t departure_known; /* 1 when departed; 1 or 0 when arrived */
    uint64_t departure;       /* when departed, or arrived with the departure known */
    uint64_t aerodrome[4];    /* when arrived: the four letters, one in each */
    uint64_t arrival;         /* when arrived */
} beechdoublet_state;

/* Why an update is refused. */
typedef struct {
    uint64_t number; /* 10, 12 or 13; 0 where nothing more is shown */
    /*
     * 12: shown[BEECHDOUBLET_IDENTIFICATION], .. are 1 where the message's differs from the strip's, 0 where it is equal or not compared
     * 10: shown[0] is the missing key, BEECHDOUBLET_KEY_TYP to BEECHDOUBLET_KEY_ALTN
     * 13: shown has the eight numbers of the state found, in the order of beechdoublet_state
     * What is not used is 0.
     */
    uint64_t shown[8];
} beechdoublet_shown;

/*
 * A board of strips for two handlers, which is the caller's: it is kept nowhere else, and a call that is accepted changes it. Begin with
 * beechdoublet_board_empty. What stands on it is told by the places; the bytes of a strip stand in strips, from 1,800 times its place on, and what else
 * lies there means nothing. Numbers that are no board's (1,801 for a length, anything but 0 where no strip stands, a state's that are no state's) are
 * refused with 15.
 */
typedef struct {
    uint64_t stands; /* 1 where a strip stands; 0 where none does, and then state and length are all 0 */
    beechdoublet_state state;
    uint64_t length; /* the bytes of the strip, at most BEECHDOUBLET_MOST */
} beechdoublet_place;

typedef struct {
    beechdoublet_place places[BEECHDOUBLET_PLACES];
    uint8_t strips[BEECHDOUBLET_PLACES * BEECHDOUBLET_MOST];
} beechdoublet_board;

/* The answer to a call on a board. */
typedef struct {
    uint64_t number;
    uint64_t field;
    uint64_t place;
    uint64_t slot; /* the slot that a filing got; of other calls 0 */
} beechdoublet_turn;

/* What a look at a slot shows. */
typedef struct {
    uint64_t number;
    uint64_t field;
    uint64_t place;
    beechdoublet_state state;
    uint64_t from;   /* the strip's first byte in strips */
    uint64_t length; /* the bytes of the strip */
} beechdoublet_look;

/*
 * Reads a message. As many bytes of out as the message has are always enough. Accepted: its spelling stands at the front of out, and the bytes behind
 * it are as they were. Refused (1 to 11): every byte of out is as it was. Gives the number back; 255, not a call, where a pointer is null or out or answer
 * overlaps something else.
 */
static inline uint8_t beechdoublet_read(const uint8_t *message, size_t message_length, uint8_t *out, size_t out_length,
                                        beechdoublet_reading *answer) __asm__("beechdoublet_seen_read");

/*
 * Offers a message to a strip, which is an accepted FPL's spelling with its state. As many bytes of out as strip and message have together are always
 * enough. Accepted: the new strip stands at the front of out, the bytes
 * behind it are as they were, and state is the new state. Refused (1 to 16; 12 also where strip and message carry unequal dates): every byte of out
 * and the state are as they were. Gives the number back; 255, not a call, where a pointer is null or state, out or answer overlaps something else. So
 * out is never the strip itself. The strip's date is told by beechdoublet_plan.
 */
static inline uint8_t beechdoublet_update(const uint8_t *strip, size_t strip_length, beechdoublet_state *state, const uint8_t *message,
                                          size_t message_length, uint8_t *out, size_t out_length,
                                          beechdoublet_updating *answer) __asm__("beechdoublet_seen_update");

/*
 * Says why an update of a strip by a message is refused, however much room is lent to it: for 12 what differs, for 10 the missing key of the field
 * named, for 13 the state found. The number is the update's if that is 10, 12 or 13, and otherwise 0: nothing more is shown of any other number, nor
 * of an accepted update. Nothing else is written. Gives the number back; 255, not a call, where a pointer is null or cause overlaps something else.
 */
static inline uint8_t beechdoublet_cause(const uint8_t *strip, size_t strip_length, const beechdoublet_state *state, const uint8_t *message,
                                         size_t message_length, beechdoublet_shown *cause) __asm__("beechdoublet_seen_cause");

/*
 * Says where the content of a field in force stands: in the CHG if one of its entries names the field, otherwise in the strip. The field is one of
 * 7 8 9 10 13 15 16 18. Refused: 15, 1 to 9, 14, 17 for a CHG that is not its own spelling, 12, 17 for field 16 where the CHG has a new destination
 * alone for it (16/EDDN), 8; an 8 for the field asked for has that number as its field, however large it is. Gives the number back; 255, not a call,
 * where a pointer is null or answer overlaps something else.
 */
static inline uint8_t beechdoublet_in_force(const uint8_t *strip, size_t strip_length, const beechdoublet_state *state, const uint8_t *change,
                                            size_t change_length, uint64_t field,
                                            beechdoublet_part *answer) __asm__("beechdoublet_seen_in_force");

/*
 * Whether a strip may be handed in with this state: its numbers are a state's, each time is one of the day and the aerodrome is four letters.
 * With none, a null pointer, it may not.
 */
static inline bool beechdoublet_sound(const beechdoublet_state *state) __asm__("beechdoublet_seen_sound");

/*
 * Says where the content of a message's field stands, by the field's number: 3 7 8 .., 22 for an entry; of several entries the first, with its
 * number and oblique. The message is its own spelling, as reading writes it. Refused: 1 to 10 as it is read, 17 where it is not its own spelling, 8
 * where it has no field of that number, with that number as its field, however large it is. Gives the number back; 255, not a call, where a pointer is
 * null or answer overlaps the message.
 */
static inline uint8_t beechdoublet_field(const uint8_t *message, size_t message_length, uint64_t field,
                                         beechdoublet_part *answer) __asm__("beechdoublet_seen_field");

/*
 * Tells the parts of a plan: of a strip, or of any accepted FPL's spelling. Refused: 1 to 10 as it is read, 14 where it is of another type, 17 where
 * it is not its own spelling. Gives the number back; 255, not a call, where a pointer is null or answer overlaps the strip.
 */
static inline uint8_t beechdoublet_plan(const uint8_t *strip, size_t strip_length,
                                        beechdoublet_plan_parts *answer) __asm__("beechdoublet_seen_plan");

/* Makes a board on which nothing stands; the strips are left as they are. Gives 0 back; 255, not a call, with none, a null pointer. */
static inline uint8_t beechdoublet_board_empty(beechdoublet_board *board) __asm__("beechdoublet_seen_board_empty");

/*
 * A firm, 1 or 2, files a message on a board. Accepted: its spelling stands in the firm's lowest empty slot, which the answer tells, as a filed strip.
 * Refused: 18 where the firm is not 1 or 2, 15 where the numbers are no board's, 20 where the firm holds 6 strips or more and none of the 4 is free, 1 to
 * 9, 14 where it is no FPL, 10; the board is as it was. Gives the number back; 255, not a call, where a pointer is null or board or answer overlaps
 * something else.
 */
static inline uint8_t beechdoublet_board_file(beechdoublet_board *board, uint64_t firm, const uint8_t *message, size_t message_length,
                                              beechdoublet_turn *answer) __asm__("beechdoublet_seen_board_file");

/*
 * A firm offers a message to the strip in one of its slots, 0 to 9. Accepted: strip and state are the new ones. Refused: 18, 15 where the numbers are no
 * board's, 19 where nothing stands in the slot or it is none, and then as beechdoublet_update, 11 excepted; the board is as it was. Why: ask
 * beechdoublet_cause with the strip and the state that a look shows. Gives the number back; 255, not a call, where a pointer is null or board or answer
 * overlaps something else.
 */
static inline uint8_t beechdoublet_board_update(beechdoublet_board *board, uint64_t firm, uint64_t slot, const uint8_t *message,
                                                size_t message_length, beechdoublet_turn *answer) __asm__("beechdoublet_seen_board_update");

/*
 * A firm clears one of its slots, whose strip has arrived or was cancelled. Accepted: nothing stands there any more; no byte of strips is changed.
 * Refused: 18, 15 where the numbers are no board's, 19, 13 where the strip is filed or departed; the board is as it was. Gives the number back; 255, not
 * a call, where a pointer is null or answer overlaps the board.
 */
static inline uint8_t beechdoublet_board_clear(beechdoublet_board *board, uint64_t firm, uint64_t slot,
                                               beechdoublet_turn *answer) __asm__("beechdoublet_seen_board_clear");

/*
 * A firm looks at one of its slots: the state of the strip there, and where its bytes stand in strips. Refused: 18, 15 where the numbers are no board's,
 * 19. Nothing but the answer is written. Gives the number back; 255, not a call, where a pointer is null or answer overlaps the board.
 */
static inline uint8_t beechdoublet_board_look(const beechdoublet_board *board, uint64_t firm, uint64_t slot,
                                              beechdoublet_look *answer) __asm__("beechdoublet_seen_board_look");

/*
 * The library's functions, which are what is proved. They look at no pointer: call those above. Since those have the library's names here, these
 * have others, and the linker knows those above by others too.
 */
uint8_t beechdoublet_proved_read(const uint8_t *message, size_t message_length, uint8_t *out, size_t out_length,
                                 beechdoublet_reading *answer) __asm__("beechdoublet_read");
uint8_t beechdoublet_proved_update(const uint8_t *strip, size_t strip_length, beechdoublet_state *state, const uint8_t *message,
                                   size_t message_length, uint8_t *out, size_t out_length,
                                   beechdoublet_updating *answer) __asm__("beechdoublet_update");
uint8_t beechdoublet_proved_cause(const uint8_t *strip, size_t strip_length, const beechdoublet_state *state, const uint8_t *message,
                                  size_t message_length, beechdoublet_shown *cause) __asm__("beechdoublet_cause");
uint8_t beechdoublet_proved_in_force(const uint8_t *strip, size_t strip_length, const beechdoublet_state *state, const uint8_t *change,
                                     size_t change_length, uint64_t field, beechdoublet_part *answer) __asm__("beechdoublet_in_force");
bool beechdoublet_proved_sound(const beechdoublet_state *state) __asm__("beechdoublet_sound");
uint8_t beechdoublet_proved_field(const uint8_t *message, size_t message_length, uint64_t field,
                                  beechdoublet_part *answer) __asm__("beechdoublet_field");
uint8_t beechdoublet_proved_plan(const uint8_t *strip, size_t strip_length, beechdoublet_plan_parts *answer) __asm__("beechdoublet_plan");
uint8_t beechdoublet_proved_board_empty(beechdoublet_place *places) __asm__("beechdoublet_board_empty");
uint8_t beechdoublet_proved_board_file(beechdoublet_place *places, uint8_t *strips, uint64_t firm, const uint8_t *message, size_t message_length,
                                       beechdoublet_turn *answer) __asm__("beechdoublet_board_file");
uint8_t beechdoublet_proved_board_update(beechdoublet_place *places, uint8_t *strips, uint64_t firm, uint64_t slot, const uint8_t *message,
                                         size_t message_length, beechdoublet_turn *answer) __asm__("beechdoublet_board_update");
uint8_t beechdoublet_proved_board_clear(beechdoublet_place *places, uint64_t firm, uint64_t slot,
                                        beechdoublet_turn *answer) __asm__("beechdoublet_board_clear");
uint8_t beechdoublet_proved_board_look(const beechdoublet_place *places, const uint8_t *strips, uint64_t firm, uint64_t slot,
                                       beechdoublet_look *answer) __asm__("beechdoublet_board_look");

/* Whether two parts of memory have a byte in common. */
static inline bool beechdoublet_meet(const void *a, size_t a_length, const void *b, size_t b_length)
{
    const uintptr_t at_a = (uintptr_t)a;
    const uintptr_t at_b = (uintptr_t)b;
    if (a_length == 0 || b_length == 0) {
        return false;
    }
    return at_a < at_b ? at_b - at_a < a_length : at_a - at_b < b_length;
}

static inline uint8_t beechdoublet_read(const uint8_t *message, size_t message_length, uint8_t *out, size_t out_length,
                                        beechdoublet_reading *answer)
{
    const beechdoublet_reading not_a_call = {BEECHDOUBLET_NOT_A_CALL, 0, 0, 0, 0};
    if (answer == NULL || beechdoublet_meet(answer, sizeof *answer, message, message_length) ||
        beechdoublet_meet(answer, sizeof *answer, out, out_length)) {
        return BEECHDOUBLET_NOT_A_CALL;
    }
    if (message == NULL || out == NULL || beechdoublet_meet(out, out_length, message, message_length)) {
        *answer = not_a_call;
        return BEECHDOUBLET_NOT_A_CALL;
    }
    return beechdoublet_proved_read(message, message_length, out, out_length, answer);
}

static inline uint8_t beechdoublet_update(const uint8_t *strip, size_t strip_length, beechdoublet_state *state, const uint8_t *message,
                                          size_t message_length, uint8_t *out, size_t out_length, beechdoublet_updating *answer)
{
    const beechdoublet_updating not_a_call = {BEECHDOUBLET_NOT_A_CALL, 0, 0, 0};
    if (answer == NULL || beechdoublet_meet(answer, sizeof *answer, strip, strip_length) ||
        beechdoublet_meet(answer, sizeof *answer, state, sizeof *state) ||
        beechdoublet_meet(answer, sizeof *answer, message, message_length) || beechdoublet_meet(answer, sizeof *answer, out, out_length)) {
        return BEECHDOUBLET_NOT_A_CALL;
    }
    if (strip == NULL || state == NULL || message == NULL || out == NULL || beechdoublet_meet(out, out_length, strip, strip_length) ||
        beechdoublet_meet(out, out_length, state, sizeof *state) || beechdoublet_meet(out, out_length, message, message_length) ||
        beechdoublet_meet(state, sizeof *state, strip, strip_length) || beechdoublet_meet(state, sizeof *state, message, message_length)) {
        *answer = not_a_call;
        return BEECHDOUBLET_NOT_A_CALL;
    }
    return beechdoublet_proved_update(strip, strip_length, state, message, message_length, out, out_length, answer);
}

static inline uint8_t beechdoublet_cause(const uint8_t *strip, size_t strip_length, const beechdoublet_state *state, const uint8_t *message,
                                         size_t message_length, beechdoublet_shown *cause)
{
    const beechdoublet_shown not_a_call = {BEECHDOUBLET_NOT_A_CALL, {0, 0, 0, 0, 0, 0, 0, 0}};
    if (cause == NULL || beechdoublet_meet(cause, sizeof *cause, strip, strip_length) ||
        beechdoublet_meet(cause, sizeof *cause, state, sizeof *state) || beechdoublet_meet(cause, sizeof *cause, message, message_length)) {
        return BEECHDOUBLET_NOT_A_CALL;
    }
    if (strip == NULL || state == NULL || message == NULL) {
        *cause = not_a_call;
        return BEECHDOUBLET_NOT_A_CALL;
    }
    return beechdoublet_proved_cause(strip, strip_length, state, message, message_length, cause);
}

static inline uint8_t beechdoublet_in_force(const uint8_t *strip, size_t strip_length, const beechdoublet_state *state, const uint8_t *change,
                                            size_t change_length, uint64_t field, beechdoublet_part *answer)
{
    const beechdoublet_part not_a_call = {BEECHDOUBLET_NOT_A_CALL, 0, 0, 0, 0, 0};
    if (answer == NULL || beechdoublet_meet(answer, sizeof *answer, strip, strip_length) ||
        beechdoublet_meet(answer, sizeof *answer, state, sizeof *state) || beechdoublet_meet(answer, sizeof *answer, change, change_length)) {
        return BEECHDOUBLET_NOT_A_CALL;
    }
    if (strip == NULL || state == NULL || change == NULL) {
        *answer = not_a_call;
        return BEECHDOUBLET_NOT_A_CALL;
    }
    return beechdoublet_proved_in_force(strip, strip_length, state, change, change_length, field, answer);
}

static inline bool beechdoublet_sound(const beechdoublet_state *state)
{
    return state != NULL && beechdoublet_proved_sound(state);
}

static inline uint8_t beechdoublet_field(const uint8_t *message, size_t message_length, uint64_t field, beechdoublet_part *answer)
{
    const beechdoublet_part not_a_call = {BEECHDOUBLET_NOT_A_CALL, 0, 0, 0, 0, 0};
    if (answer == NULL || beechdoublet_meet(answer, sizeof *answer, message, message_length)) {
        return BEECHDOUBLET_NOT_A_CALL;
    }
    if (message == NULL) {
        *answer = not_a_call;
        return BEECHDOUBLET_NOT_A_CALL;
    }
    return beechdoublet_proved_field(message, message_length, field, answer);
}

static inline uint8_t beechdoublet_plan(const uint8_t *strip, size_t strip_length, beechdoublet_plan_parts *answer)
{
    const beechdoublet_plan_parts not_a_call = {BEECHDOUBLET_NOT_A_CALL, 0, 0, 0, 0, 0, 0, 0, 0, 0, 0, 0, 0, {0, 0}, 0, 0, 0, 0};
    if (answer == NULL || beechdoublet_meet(answer, sizeof *answer, strip, strip_length)) {
        return BEECHDOUBLET_NOT_A_CALL;
    }
    if (strip == NULL) {
        *answer = not_a_call;
        return BEECHDOUBLET_NOT_A_CALL;
    }
    return beechdoublet_proved_plan(strip, strip_length, answer);
}

static inline uint8_t beechdoublet_board_empty(beechdoublet_board *board)
{
    if (board == NULL) {
        return BEECHDOUBLET_NOT_A_CALL;
    }
    return beechdoublet_proved_board_empty(board->places);
}

static inline uint8_t beechdoublet_board_file(beechdoublet_board *board, uint64_t firm, const uint8_t *message, size_t message_length,
                                              beechdoublet_turn *answer)
{
    const beechdoublet_turn not_a_call = {BEECHDOUBLET_NOT_A_CALL, 0, 0, 0};
    if (answer == NULL || beechdoublet_meet(answer, sizeof *answer, board, sizeof *board) ||
        beechdoublet_meet(answer, sizeof *answer, message, message_length)) {
        return BEECHDOUBLET_NOT_A_CALL;
    }
    if (board == NULL || message == NULL || beechdoublet_meet(board, sizeof *board, message, message_length)) {
        *answer = not_a_call;
        return BEECHDOUBLET_NOT_A_CALL;
    }
    return beechdoublet_proved_board_file(board->places, board->strips, firm, message, message_length, answer);
}

static inline uint8_t beechdoublet_board_update(beechdoublet_board *board, uint64_t firm, uint64_t slot, const uint8_t *message,
                                                size_t message_length, beechdoublet_turn *answer)
{
    const beechdoublet_turn not_a_call = {BEECHDOUBLET_NOT_A_CALL, 0, 0, 0};
    if (answer == NULL || beechdoublet_meet(answer, sizeof *answer, board, sizeof *board) ||
        beechdoublet_meet(answer, sizeof *answer, message, message_length)) {
        return BEECHDOUBLET_NOT_A_CALL;
    }
    if (board == NULL || message == NULL || beechdoublet_meet(board, sizeof *board, message, message_length)) {
        *answer = not_a_call;
        return BEECHDOUBLET_NOT_A_CALL;
    }
    return beechdoublet_proved_board_update(board->places, board->strips, firm, slot, message, message_length, answer);
}

static inline uint8_t beechdoublet_board_clear(beechdoublet_board *board, uint64_t firm, uint64_t slot, beechdoublet_turn *answer)
{
    const beechdoublet_turn not_a_call = {BEECHDOUBLET_NOT_A_CALL, 0, 0, 0};
    if (answer == NULL || beechdoublet_meet(answer, sizeof *answer, board, sizeof *board)) {
        return BEECHDOUBLET_NOT_A_CALL;
    }
    if (board == NULL) {
        *answer = not_a_call;
        return BEECHDOUBLET_NOT_A_CALL;
    }
    return beechdoublet_proved_board_clear(board->places, firm, slot, answer);
}

static inline uint8_t beechdoublet_board_look(const beechdoublet_board *board, uint64_t firm, uint64_t slot, beechdoublet_look *answer)
{
    const beechdoublet_look not_a_call = {BEECHDOUBLET_NOT_A_CALL, 0, 0, {0, 0, 0, {0, 0, 0, 0}, 0}, 0, 0};
    if (answer == NULL || beechdoublet_meet(answer, sizeof *answer, board, sizeof *board)) {
        return BEECHDOUBLET_NOT_A_CALL;
    }
    if (board == NULL) {
        *answer = not_a_call;
        return BEECHDOUBLET_NOT_A_CALL;
    }
    return beechdoublet_proved_board_look(board->places, board->strips, firm, slot, answer);
}

#ifdef __cplusplus
}
#endif

/* The functions see each structure as so many numbers in a row; where one were not, its array here would have a negative size. */
#define BEECHDOUBLET_IN_A_ROW(type, count) typedef char type##_in_a_row[sizeof(type) == (count) * sizeof(uint64_t) ? 1 : -1]
BEECHDOUBLET_IN_A_ROW(beechdoublet_reading, 5);
BEECHDOUBLET_IN_A_ROW(beechdoublet_updating, 4);
BEECHDOUBLET_IN_A_ROW(beechdoublet_part, 6);
BEECHDOUBLET_IN_A_ROW(beechdoublet_state, 8);
BEECHDOUBLET_IN_A_ROW(beechdoublet_shown, 9);
BEECHDOUBLET_IN_A_ROW(beechdoublet_plan_parts, 19);
BEECHDOUBLET_IN_A_ROW(beechdoublet_place, 10);
BEECHDOUBLET_IN_A_ROW(beechdoublet_turn, 4);
BEECHDOUBLET_IN_A_ROW(beechdoublet_look, 13);

#endif
