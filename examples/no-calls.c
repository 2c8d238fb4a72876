/*
 * What is not a call, from C: every null pointer and every overlap is refused with 255, and nothing is written but the answer; not even that, where the
 * answer is null or overlaps something. What only touches, has no byte, or is only read is a call. Tells each row below that is not so, and
 * ends with status 1 then.
 */
#include <stdio.h>
#include <string.h>

#include "beechdoublet.h"

/* All that is lent is a part of this memory, named by its first byte; before each call every byte is BEFORE. */
enum { SIZE = 40960, BEFORE = 165, NONE = SIZE };

static union {
    uint8_t bytes[SIZE];
    uint64_t numbers[SIZE / 8]; /* so that structures can stand at multiples of 8 */
} memory;

/* What is expected of a row: a call; no call, with its answer; no call, and not an answer either. */
enum expected { CALL, ANSWERED, SILENT };

typedef struct {
    size_t first, first_length; /* the strip; in reading, for a field and at a board, the message */
    size_t state;               /* at a board, the board */
    size_t second, second_length; /* the message or the CHG */
    size_t out, out_length;
    size_t answer;
    enum expected expected;
} row;

static uint8_t *at(size_t place)
{
    return place == NONE ? NULL : memory.bytes + place;
}

static uint8_t read_row(const row *r)
{
    return beechdoublet_read(at(r->first), r->first_length, at(r->out), r->out_length, (beechdoublet_reading *)(void *)at(r->answer));
}

static uint8_t update_row(const row *r)
{
    return beechdoublet_update(at(r->first), r->first_length, (beechdoublet_state *)(void *)at(r->state), at(r->second), r->second_length,
                               at(r->out), r->out_length, (beechdoublet_updating *)(void *)at(r->answer));
}

static uint8_t cause_row(const row *r)
{
    return beechdoublet_cause(at(r->first), r->first_length, (const beechdoublet_state *)(void *)at(r->state), at(r->second), r->second_length,
                              (beechdoublet_shown *)(void *)at(r->answer));
}

static uint8_t in_force_row(const row *r)
{
    return beechdoublet_in_force(at(r->first), r->first_length, (const beechdoublet_state *)(void *)at(r->state), at(r->second), r->second_length, 9,
                                 (beechdoublet_part *)(void *)at(r->answer));
}

static uint8_t field_row(const row *r)
{
    return beechdoublet_field(at(r->first), r->first_length, 9, (beechdoublet_part *)(void *)at(r->answer));
}

static uint8_t plan_row(const row *r)
{
    return beechdoublet_plan(at(r->first), r->first_length, (beechdoublet_plan_parts *)(void *)at(r->answer));
}

static uint8_t file_row(const row *r)
{
    return beechdoublet_board_file((beechdoublet_board *)(void *)at(r->state), 1, at(r->first), r->first_length,
                                   (beechdoublet_turn *)(void *)at(r->answer));
}

static uint8_t board_update_row(const row *r)
{
    return beechdoublet_board_update((beechdoublet_board *)(void *)at(r->state), 1, 0, at(r->first), r->first_length,
                                     (beechdoublet_turn *)(void *)at(r->answer));
}

static uint8_t clear_row(const row *r)
{
    return beechdoublet_board_clear((beechdoublet_board *)(void *)at(r->state), 1, 0, (beechdoublet_turn *)(void *)at(r->answer));
}

static uint8_t look_row(const row *r)
{
    return beechdoublet_board_look((const beechdoublet_board *)(void *)at(r->state), 1, 0, (beechdoublet_look *)(void *)at(r->answer));
}

/* Whether memory is as it was but for an answer of so many numbers, which is 255 and zeros; with 0 numbers, whether it is all as it was. */
static bool only_answered(size_t answer, size_t numbers)
{
    size_t i;
    for (i = 0; i < SIZE; i++) {
        const bool in_answer = numbers != 0 && i >= answer && i < answer + 8 * numbers;
        const uint8_t answered = i == answer ? BEECHDOUBLET_NOT_A_CALL : 0; /* numbers have their lowest byte first */
        if (memory.bytes[i] != (in_answer ? answered : BEFORE)) {
            return false;
        }
    }
    return true;
}

static bool as_expected(uint8_t (*call)(const row *), const row *r, size_t numbers)
{
    uint8_t number;
    memset(memory.bytes, BEFORE, SIZE);
    number = call(r);
    if (r->expected == CALL) {
        return number != BEECHDOUBLET_NOT_A_CALL;
    }
    return number == BEECHDOUBLET_NOT_A_CALL && only_answered(r->answer, r->expected == ANSWERED ? numbers : 0);
}

static int told(const char *name, uint8_t (*call)(const row *), const row *rows, size_t count, size_t numbers)
{
    int wrong = 0;
    size_t i;
    for (i = 0; i < count; i++) {
        if (!as_expected(call, &rows[i], numbers)) {
            printf("%s: row %d is not as expected\n", name, (int)i);
            wrong = 1;
        }
    }
    return wrong;
}

/* A reading's answer has 40 bytes. */
static const row READ[] = {
    {0, 100, 0, 0, 0, 104, 100, 800, CALL},
    {0, 104, 0, 0, 0, 104, 100, 800, CALL}, /* out just behind the message, and the other way round */
    {104, 100, 0, 0, 0, 0, 104, 800, CALL},
    {0, 104, 0, 0, 0, 50, 0, 800, CALL}, /* no byte of out, of the message */
    {50, 0, 0, 0, 0, 0, 104, 800, CALL},
    {0, 100, 0, 0, 0, 200, 100, 160, CALL}, /* the answer just before out, just behind it, just behind the message */
    {0, 100, 0, 0, 0, 200, 120, 320, CALL},
    {0, 120, 0, 0, 0, 200, 100, 120, CALL},
    {0, 105, 0, 0, 0, 104, 100, 800, ANSWERED},
    {104, 100, 0, 0, 0, 0, 105, 800, ANSWERED},
    {0, 100, 0, 0, 0, 0, 100, 800, ANSWERED},
    {0, 100, 0, 0, 0, 40, 10, 800, ANSWERED},
    {40, 10, 0, 0, 0, 0, 100, 800, ANSWERED},
    {NONE, 0, 0, 0, 0, 104, 100, 800, ANSWERED},
    {0, 100, 0, 0, 0, NONE, 0, 800, ANSWERED},
    {0, 100, 0, 0, 0, 104, SIZE_MAX, 800, SILENT}, /* longer than memory is */
    {0, 100, 0, 0, 0, 104, 100, NONE, SILENT},
    {0, 100, 0, 0, 0, 200, 100, 168, SILENT},
    {0, 100, 0, 0, 0, 200, 121, 320, SILENT},
    {0, 121, 0, 0, 0, 200, 100, 120, SILENT},
};

/* An update's answer has 32 bytes, and a state 64. */
static const row UPDATE[] = {
    {0, 100, 400, 104, 100, 208, 100, 800, CALL},
    {0, 100, 400, 0, 100, 208, 100, 800, CALL}, /* strip and message are only read */
    {0, 104, 104, 168, 40, 208, 100, 312, CALL}, /* each just behind the one before */
    {0, 0, 400, 0, 0, 0, 0, 800, CALL},
    {NONE, 0, 400, 104, 100, 208, 100, 800, ANSWERED},
    {0, 100, NONE, 104, 100, 208, 100, 800, ANSWERED},
    {0, 100, 400, NONE, 0, 208, 100, 800, ANSWERED},
    {0, 100, 400, 104, 100, NONE, 0, 800, ANSWERED},
    {0, 100, 400, 104, 100, 0, 100, 800, ANSWERED}, /* out is the strip, ends in it, begins in it */
    {50, 100, 400, 200, 100, 0, 51, 800, ANSWERED},
    {0, 100, 400, 104, 100, 99, 1, 800, ANSWERED},
    {0, 100, 400, 104, 100, 203, 100, 800, ANSWERED}, /* out begins in the message, in the state */
    {0, 100, 400, 104, 100, 463, 100, 800, ANSWERED},
    {0, 401, 400, 500, 100, 600, 100, 800, ANSWERED}, /* the state begins in the strip, in the message */
    {0, 100, 400, 300, 101, 600, 100, 800, ANSWERED},
    {0, 100, 400, 104, 100, 208, 100, NONE, SILENT},
    {500, 100, 400, 104, 100, 208, 100, 592, SILENT}, /* the answer begins in the strip, the message, out, the state */
    {0, 100, 400, 500, 100, 208, 100, 592, SILENT},
    {0, 100, 400, 104, 100, 208, 100, 304, SILENT},
    {0, 100, 400, 104, 100, 208, 100, 456, SILENT},
    {0, 100, 400, 104, 100, 208, 100, 376, SILENT}, /* and ends in the state */
};

/* A cause has 72 bytes. */
static const row CAUSE[] = {
    {0, 100, 400, 104, 100, 0, 0, 800, CALL},
    {0, 100, 0, 0, 100, 0, 0, 800, CALL}, /* all of these are only read */
    {0, 104, 400, 176, 100, 0, 0, 104, CALL},
    {NONE, 0, 400, 104, 100, 0, 0, 800, ANSWERED},
    {0, 100, NONE, 104, 100, 0, 0, 800, ANSWERED},
    {0, 100, 400, NONE, 0, 0, 0, 800, ANSWERED},
    {0, 100, 400, 104, 100, 0, 0, NONE, SILENT},
    {0, 105, 400, 176, 100, 0, 0, 104, SILENT}, /* the cause begins in the strip, ends in the message, begins in the state */
    {0, 104, 400, 175, 100, 0, 0, 104, SILENT},
    {0, 100, 400, 104, 100, 0, 0, 456, SILENT},
};

/* The answer has 48 bytes. */
static const row IN_FORCE[] = {
    {0, 100, 400, 104, 100, 0, 0, 800, CALL},
    {0, 100, 0, 0, 100, 0, 0, 800, CALL}, /* all of these are only read */
    {0, 104, 400, 152, 100, 0, 0, 104, CALL},
    {NONE, 0, 400, 104, 100, 0, 0, 800, ANSWERED},
    {0, 100, NONE, 104, 100, 0, 0, 800, ANSWERED},
    {0, 100, 400, NONE, 0, 0, 0, 800, ANSWERED},
    {0, 100, 400, 104, 100, 0, 0, NONE, SILENT},
    {0, 105, 400, 152, 100, 0, 0, 104, SILENT}, /* the answer begins in the strip, ends in the CHG, begins in the state */
    {0, 104, 400, 151, 100, 0, 0, 104, SILENT},
    {0, 100, 400, 104, 100, 0, 0, 456, SILENT},
};

/* The answer has 48 bytes. */
static const row FIELD[] = {
    {0, 100, 0, 0, 0, 0, 0, 800, CALL},
    {0, 104, 0, 0, 0, 0, 0, 104, CALL}, /* the answer just behind the message, just before it; no byte of the message */
    {848, 100, 0, 0, 0, 0, 0, 800, CALL},
    {820, 0, 0, 0, 0, 0, 0, 800, CALL},
    {NONE, 0, 0, 0, 0, 0, 0, 800, ANSWERED},
    {0, 100, 0, 0, 0, 0, 0, NONE, SILENT},
    {0, 105, 0, 0, 0, 0, 0, 104, SILENT}, /* the answer begins in the message, ends in it */
    {847, 100, 0, 0, 0, 0, 0, 800, SILENT},
};

/* The answer has 152 bytes. */
static const row PLAN[] = {
    {0, 100, 0, 0, 0, 0, 0, 800, CALL},
    {0, 104, 0, 0, 0, 0, 0, 104, CALL}, /* the answer just behind the strip, just before it; no byte of the strip */
    {552, 100, 0, 0, 0, 0, 0, 400, CALL},
    {420, 0, 0, 0, 0, 0, 0, 400, CALL},
    {NONE, 0, 0, 0, 0, 0, 0, 800, ANSWERED},
    {0, 100, 0, 0, 0, 0, 0, NONE, SILENT},
    {0, 105, 0, 0, 0, 0, 0, 104, SILENT}, /* the answer begins in the strip, ends in it */
    {551, 100, 0, 0, 0, 0, 0, 400, SILENT},
};

/* A board has 37,600 bytes, and the answer 32; filing and updating lend the same. */
static const row ON_BOARD[] = {
    {0, 100, 1024, 0, 0, 0, 0, 800, CALL},
    {0, 1024, 1024, 0, 0, 0, 0, 38624, CALL}, /* the message just before the board, just behind it; the answer just behind it, just before it */
    {38624, 100, 1024, 0, 0, 0, 0, 992, CALL},
    {1100, 0, 1024, 0, 0, 0, 0, 800, CALL}, /* no byte of the message */
    {NONE, 0, 1024, 0, 0, 0, 0, 800, ANSWERED},
    {0, 100, NONE, 0, 0, 0, 0, 800, ANSWERED},
    {0, 1025, 1024, 0, 0, 0, 0, 38624, ANSWERED}, /* the message ends in the board, lies in it, begins in it */
    {20000, 100, 1024, 0, 0, 0, 0, 800, ANSWERED},
    {38623, 100, 1024, 0, 0, 0, 0, 800, ANSWERED},
    {0, 100, 1024, 0, 0, 0, 0, NONE, SILENT},
    {0, 105, 1024, 0, 0, 0, 0, 104, SILENT}, /* the answer begins in the message, ends in the board, lies in it, begins in it */
    {0, 100, 1024, 0, 0, 0, 0, 1000, SILENT},
    {0, 100, 1024, 0, 0, 0, 0, 20000, SILENT},
    {0, 100, 1024, 0, 0, 0, 0, 38616, SILENT},
};

/* The answer has 32 bytes. */
static const row CLEAR[] = {
    {0, 0, 1024, 0, 0, 0, 0, 800, CALL},
    {0, 0, 1024, 0, 0, 0, 0, 992, CALL}, /* the answer just before the board, just behind it */
    {0, 0, 1024, 0, 0, 0, 0, 38624, CALL},
    {0, 0, NONE, 0, 0, 0, 0, 800, ANSWERED},
    {0, 0, 1024, 0, 0, 0, 0, NONE, SILENT},
    {0, 0, 1024, 0, 0, 0, 0, 1000, SILENT}, /* the answer ends in the board, begins in it */
    {0, 0, 1024, 0, 0, 0, 0, 38616, SILENT},
};

/* The answer has 104 bytes. */
static const row LOOK[] = {
    {0, 0, 1024, 0, 0, 0, 0, 800, CALL},
    {0, 0, 1024, 0, 0, 0, 0, 920, CALL}, /* the answer just before the board, just behind it */
    {0, 0, 1024, 0, 0, 0, 0, 38624, CALL},
    {0, 0, NONE, 0, 0, 0, 0, 800, ANSWERED},
    {0, 0, 1024, 0, 0, 0, 0, NONE, SILENT},
    {0, 0, 1024, 0, 0, 0, 0, 928, SILENT}, /* the answer ends in the board, begins in it */
    {0, 0, 1024, 0, 0, 0, 0, 38616, SILENT},
};

#define COUNT(rows) (sizeof(rows) / sizeof(rows)[0])

int main(void)
{
    int wrong = told("read", read_row, READ, COUNT(READ), 5);
    wrong |= told("update", update_row, UPDATE, COUNT(UPDATE), 4);
    wrong |= told("cause", cause_row, CAUSE, COUNT(CAUSE), 9);
    wrong |= told("in force", in_force_row, IN_FORCE, COUNT(IN_FORCE), 6);
    wrong |= told("field", field_row, FIELD, COUNT(FIELD), 6);
    wrong |= told("plan", plan_row, PLAN, COUNT(PLAN), 19);
    wrong |= told("board file", file_row, ON_BOARD, COUNT(ON_BOARD), 4);
    wrong |= told("board update", board_update_row, ON_BOARD, COUNT(ON_BOARD), 4);
    wrong |= told("board clear", clear_row, CLEAR, COUNT(CLEAR), 4);
    wrong |= told("board look", look_row, LOOK, COUNT(LOOK), 13);
    if (beechdoublet_board_empty(NULL) != BEECHDOUBLET_NOT_A_CALL) {
        printf("board empty: a null pointer is a board\n");
        wrong = 1;
    }
    if (beechdoublet_sound(NULL)) {
        printf("sound: a null pointer is a state\n");
        wrong = 1;
    }
    return wrong;
}
