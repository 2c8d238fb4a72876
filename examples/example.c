/*
 * Beechdoublet from C: reads messages, files a strip, keeps it up to date, says why it is not, asks for a field in force, shows fields and the parts of
 * plans, keeps a board for two firms, and shows what is not a call. Every line that it writes stands in examples/expected.txt, and of the last in
 * examples/expected-c.txt.
 */
#include <inttypes.h>
#include <stdio.h>
#include <string.h>

#include "beechdoublet.h"

static const char *const TYPES[] = {"", "FPL", "CHG", "CNL", "DLA", "DEP", "ARR", "RQP", "RQS", "SPL"};

/* A strip: an accepted FPL's spelling, and its state. */
typedef struct {
    uint8_t bytes[BEECHDOUBLET_MOST];
    size_t length;
    beechdoublet_state state;
} strip;

static const uint8_t *bytes_of(const char *text)
{
    return (const uint8_t *)text;
}

static void tell_refusal(uint64_t number, uint64_t field, uint64_t place)
{
    printf("NO %" PRIu64 " %" PRIu64 " %" PRIu64 "\n", number, field, place);
}

/* Reads a message into an output of so many bytes. */
static void show_reading_in(const char *message, size_t room)
{
    uint8_t out[BEECHDOUBLET_MOST];
    beechdoublet_reading answer;
    if (beechdoublet_read(bytes_of(message), strlen(message), out, room, &answer) != 0) {
        tell_refusal(answer.number, answer.field, answer.place);
        return;
    }
    printf("OK %s %.*s\n", TYPES[answer.type], (int)answer.length, (const char *)out);
}

/* As many bytes as the message has are always enough. */
static void show_reading(const char *message)
{
    show_reading_in(message, strlen(message));
}

static void print_time(uint64_t minute)
{
    printf(" %02" PRIu64 "%02" PRIu64, minute / 60, minute % 60);
}

static void print_state(const beechdoublet_state *state)
{
    static const char *const kinds[] = {"FILED", "DEPARTED", "ARRIVED", "CANCELLED"};
    printf("%s", kinds[state->kind]);
    if (state->departure_known != 0) {
        print_time(state->departure);
    }
    if (state->kind == BEECHDOUBLET_ARRIVED) {
        const uint64_t *a = state->aerodrome;
        printf(" %c%c%c%c", (int)a[0], (int)a[1], (int)a[2], (int)a[3]);
        print_time(state->arrival);
    }
}

/* A filed strip: the spelling of an FPL, and all of its state 0. */
static strip filed(const char *plan)
{
    strip held = {{0}, 0, {0, 0, 0, {0, 0, 0, 0}, 0}};
    beechdoublet_reading answer;
    if (beechdoublet_read(bytes_of(plan), strlen(plan), held.bytes, sizeof held.bytes, &answer) == 0 && answer.type == BEECHDOUBLET_FPL) {
        held.length = (size_t)answer.length;
    }
    return held;
}

/* Shows why a message is refused, behind its number: what differs, the missing key, or the state found. */
static void print_cause(const strip *held, const char *message)
{
    static const char *const values[] = {"IDENTIFICATION", "AERODROME", "TIME", "DESTINATION", "DATE"};
    static const char *const keys[] = {"", "TYP", "DEP", "DEST", "ALTN"};
    beechdoublet_shown cause;
    beechdoublet_state found;
    size_t i;
    switch (beechdoublet_cause(held->bytes, held->length, &held->state, bytes_of(message), strlen(message), &cause)) {
    case 12:
        for (i = 0; i < sizeof values / sizeof values[0]; i++) {
            if (cause.shown[i] != 0) {
                printf(" %s", values[i]);
            }
        }
        break;
    case 10:
        printf(" %s", keys[cause.shown[0]]);
        break;
    case 13:
        memcpy(&found, cause.shown, sizeof found);
        printf(" ");
        print_state(&found);
        break;
    default: /* nothing more is shown */
        break;
    }
}

static void tell_why(const strip *held, const char *message, const beechdoublet_updating *answer)
{
    printf("NO %" PRIu64 " %" PRIu64 " %" PRIu64, answer->number, answer->field, answer->place);
    print_cause(held, message);
    printf("\n");
}

/* Offers a message to a strip. The new strip comes in another buffer, from which it is copied back. */
static void offer_in(strip *held, const char *message, size_t room)
{
    uint8_t out[BEECHDOUBLET_MOST];
    beechdoublet_updating answer;
    if (beechdoublet_update(held->bytes, held->length, &held->state, bytes_of(message), strlen(message), out, room, &answer) != 0) {
        tell_why(held, message, &answer);
        return;
    }
    held->length = (size_t)answer.length;
    memcpy(held->bytes, out, held->length);
    printf("OK ");
    print_state(&held->state);
    printf(" %.*s\n", (int)held->length, (const char *)held->bytes);
}

/* As many bytes as strip and message have together are always enough. */
static void offer(strip *held, const char *message)
{
    offer_in(held, message, held->length + strlen(message));
}

/* Offers a message to the strip with another state, of which nothing is kept. */
static void offer_with(const strip *held, beechdoublet_state state, const char *message)
{
    strip other = *held;
    printf("%s ", beechdoublet_sound(&state) ? "SOUND" : "NO STATE");
    other.state = state;
    offer(&other, message);
}

static void show_in_force(const strip *held, const char *change, uint64_t field)
{
    beechdoublet_part part;
    const char *in = "CHG";
    const uint8_t *from = bytes_of(change);
    if (beechdoublet_in_force(held->bytes, held->length, &held->state, bytes_of(change), strlen(change), field, &part) != 0) {
        tell_refusal(part.number, part.field, part.place);
        return;
    }
    if (part.source == BEECHDOUBLET_IN_STRIP) {
        in = "STRIP";
        from = held->bytes;
    }
    printf("%s %" PRIu64 " %" PRIu64 " %.*s\n", in, part.from, part.to, (int)(part.to - part.from), (const char *)(from + part.from));
}

/* Shows the content of a message's field, by the field's number, and where it stands. */
static void show_field(const char *message, uint64_t field)
{
    beechdoublet_part part;
    if (beechdoublet_field(bytes_of(message), strlen(message), field, &part) != 0) {
        tell_refusal(part.number, part.field, part.place);
        return;
    }
    printf("FIELD %" PRIu64 " %" PRIu64 " %.*s\n", part.from, part.to, (int)(part.to - part.from), message + part.from);
}

/* Shows the parts of a plan: identification, how many of which type, aerodrome and off-block time, destination and elapsed minutes, alternates, date. */
static void show_plan(const uint8_t *plan, size_t length)
{
    const char *text = (const char *)plan;
    beechdoublet_plan_parts parts;
    uint64_t i;
    if (beechdoublet_plan(plan, length, &parts) != 0) {
        tell_refusal(parts.number, parts.field, parts.place);
        return;
    }
    printf("PLAN %.*s", (int)(parts.identification_to - parts.identification_from), text + parts.identification_from);
    printf(" %" PRIu64 " %.*s", parts.aircraft, (int)(parts.type_to - parts.type_from), text + parts.type_from);
    printf(" %.4s", text + parts.departure);
    print_time(parts.off_block);
    printf(" %.4s %" PRIu64, text + parts.destination, parts.elapsed);
    for (i = 0; i < parts.alternates; i++) {
        printf(" %.4s", text + parts.alternate[i]);
    }
    if (parts.date_known != 0) {
        printf(" %" PRIu64 "-%02" PRIu64 "-%02" PRIu64, parts.year, parts.month, parts.day);
    }
    printf("\n");
}

static void show_plan_of(const char *message)
{
    show_plan(bytes_of(message), strlen(message));
}

static const char *const PLAN = "(FPL-ABC12-IS-B738/M-SDFG/S-EHAM0930-N0440F310 DCT PAM DCT-EDDF0100 EDDK-0)";
static const char *const CHANGE = "(CHG-ABC12-EHAM0930-EDDF-0-9/B39M/M-8/IN)";
static const char *const DEPARTURE = "(DEP-ABC12-EHAM0941-EDDF-0)";

static void show_readings(void)
{
    show_reading("(CNL-ABC12-EHAM0930-EDDF-0)");
    show_reading("(DLA-ABC12-EHAM2460-EDDF-0)");
    show_reading("(ACP-ABC12)");
    show_reading("(CNL-ABC12 -EHAM0930\r\n-EDDF\r\n-0 )");
    show_reading("(SPL-ABC12-EHAM0930-EDDF0100-0-E/0745 P/006 R/EV J/L)");
    show_reading("");
    show_reading_in("(CNL-ABC12-EHAM0930-EDDF-0)", 27);
    show_reading_in("(CNL-ABC12-EHAM0930-EDDF-0)", 26);
    show_reading_in("(CNL-ABC12-EHAM0930-EDDF-0)", 0);
}

static void show_parts(const strip *held)
{
    show_in_force(held, CHANGE, 9);
    show_in_force(held, CHANGE, 10);
    show_in_force(held, CHANGE, 22);
    show_in_force(held, CHANGE, 263);
    show_in_force(held, "(CHG-ABC12-EHAM0930-EDDF-0 -9/B39M/M-8/IN)", 9);
    show_in_force(held, "(CHG-ABC13-EHAM0930-EDDF-0-9/B39M/M)", 9);
    show_in_force(held, DEPARTURE, 9);
}

static void show_fields(void)
{
    show_field(PLAN, 9);
    show_field(PLAN, 3);
    show_field(PLAN, 18);
    show_field(PLAN, 22);
    show_field(PLAN, 263);
    show_field(CHANGE, 22);
    show_field(CHANGE, 9);
    show_field("(CNL-ABC12 -EHAM0930-EDDF-0)", 13);
    show_field("(DLA-ABC12-EHAM2460-EDDF-0)", 13);
}

static void show_plans(void)
{
    show_plan_of(PLAN);
    show_plan_of("(FPL-ABC12/A7777-IS-2FK27/M-SDFG/S-EHAM2359-N0440F310 DCT-EDDF0100 EDDK EDDL-DOF/240229)");
    show_plan_of(CHANGE);
    show_plan_of("(FPL-ABC12 -IS-B738/M-SDFG/S-EHAM0930-N0440F310 DCT PAM DCT-EDDF0100 EDDK-0)");
    show_plan_of("(ACP-ABC12)");
    show_plan_of("(FPL-ABC12-IS-ZZZZ/M-SDFG/S-EHAM0930-N0440F310 DCT-EDDF0100-0)");
}

static void show_states(const strip *held)
{
    const beechdoublet_state kind_4 = {4, 0, 0, {0, 0, 0, 0}, 0};
    const beechdoublet_state minute_1439 = {1, 1, 1439, {0, 0, 0, 0}, 0};
    const beechdoublet_state minute_1440 = {1, 1, 1440, {0, 0, 0, 0}, 0};
    const beechdoublet_state minute_70000 = {1, 1, 70000, {0, 0, 0, 0}, 0};
    const beechdoublet_state off_and_filed = {0, 1, 575, {0, 0, 0, 0}, 0};
    const beechdoublet_state at_ab1d = {2, 0, 0, {'A', 'B', '1', 'D'}, 642};
    const beechdoublet_state cancelled = {3, 0, 0, {0, 0, 0, 0}, 0};
    offer_with(held, kind_4, CHANGE);
    offer_with(held, minute_1439, CHANGE);
    offer_with(held, minute_1440, CHANGE);
    offer_with(held, minute_70000, CHANGE);
    offer_with(held, off_and_filed, CHANGE);
    offer_with(held, at_ab1d, CHANGE);
    offer_with(held, cancelled, CHANGE);
}

static void show_flight(strip *held)
{
    offer(held, CHANGE);
    offer(held, "(CHG-ABC13-EHAM0930-EDDF-0-8/IS)");
    offer_in(held, "(DLA-ABC12-EHAM0935-EDDF-0)", 0);
    offer(held, "(DLA-ABC12-EHAM0935-EDDF-0)");
    offer(held, "(CHG-ABC12-EHAM0930-EDDK-0-8/IS)");
    offer(held, "(RQP-ABC12-EHAM0935-EDDF-0)");
    offer(held, "(CHG-ABC12-EHAM0935-EDDF-0-16/ZZZZ0100)");
    offer(held, DEPARTURE);
    offer(held, "(CNL-ABC12-EHAM0935-EDDF-0)");
    offer(held, "(ARR-ABC12-EHAM0935-EDDF-EDDK1042)");
    offer(held, CHANGE);
    show_plan(held->bytes, held->length);
}

/* A departure on another day than the strip's. */
static void show_another_day(void)
{
    strip held = filed("(FPL-ABC12-IS-B738/M-SDFG/S-EHAM0930-N0440F310 DCT PAM DCT-EDDF0100 EDDK-DOF/240229)");
    offer(&held, "(DEP-ABC12-EHAM0941-EDDF-DOF/240301)");
}

/* The strip in a firm's slot, copied out of the board; of no strip an empty one. */
static strip looked_at(const beechdoublet_board *board, uint64_t firm, uint64_t slot)
{
    strip held = {{0}, 0, {0, 0, 0, {0, 0, 0, 0}, 0}};
    beechdoublet_look look;
    if (beechdoublet_board_look(board, firm, slot, &look) == 0) {
        held.length = (size_t)look.length;
        held.state = look.state;
        memcpy(held.bytes, board->strips + look.from, held.length);
    }
    return held;
}

static void print_slot(const beechdoublet_board *board, uint64_t firm, uint64_t slot)
{
    const strip held = looked_at(board, firm, slot);
    print_state(&held.state);
    printf(" %.*s\n", (int)held.length, (const char *)held.bytes);
}

static void file_at(beechdoublet_board *board, uint64_t firm, const char *message)
{
    beechdoublet_turn turn;
    if (beechdoublet_board_file(board, firm, bytes_of(message), strlen(message), &turn) != 0) {
        tell_refusal(turn.number, turn.field, turn.place);
        return;
    }
    printf("OK %" PRIu64 " ", turn.slot);
    print_slot(board, firm, turn.slot);
}

static void update_at(beechdoublet_board *board, uint64_t firm, uint64_t slot, const char *message)
{
    const strip held = looked_at(board, firm, slot);
    beechdoublet_turn turn;
    if (beechdoublet_board_update(board, firm, slot, bytes_of(message), strlen(message), &turn) != 0) {
        printf("NO %" PRIu64 " %" PRIu64 " %" PRIu64, turn.number, turn.field, turn.place);
        print_cause(&held, message);
        printf("\n");
        return;
    }
    printf("OK ");
    print_slot(board, firm, slot);
}

static void clear_at(beechdoublet_board *board, uint64_t firm, uint64_t slot)
{
    beechdoublet_turn turn;
    if (beechdoublet_board_clear(board, firm, slot, &turn) != 0) {
        tell_refusal(turn.number, turn.field, turn.place);
        return;
    }
    printf("OK CLEARED\n");
}

static void look_at(const beechdoublet_board *board, uint64_t firm, uint64_t slot)
{
    beechdoublet_look look;
    if (beechdoublet_board_look(board, firm, slot, &look) != 0) {
        tell_refusal(look.number, look.field, look.place);
        return;
    }
    printf("OK ");
    print_slot(board, firm, slot);
}

/* Files a plan as often as there is room, and tells how often that was. */
static void fill_up(beechdoublet_board *board, uint64_t firm)
{
    beechdoublet_turn turn;
    int filed_now = 0;
    while (beechdoublet_board_file(board, firm, bytes_of(PLAN), strlen(PLAN), &turn) == 0) {
        filed_now++;
    }
    printf("FILED %d\n", filed_now);
    tell_refusal(turn.number, turn.field, turn.place);
}

/* Two firms: what each may do with its own strips, and whom a number or a slot does not name. */
static void show_two_firms(beechdoublet_board *board)
{
    file_at(board, 1, PLAN);
    file_at(board, 2, "(FPL-KLM7-IS-B738/M-SDFG/S-EHAM0940-N0440F310 DCT PAM DCT-EDDF0100 EDDK-0)");
    update_at(board, 1, 0, "(DLA-ABC12-EHAM1015-EDDF-0)");
    update_at(board, 1, 0, CHANGE);
    clear_at(board, 1, 0);
    update_at(board, 1, 0, "(CNL-ABC12-EHAM1015-EDDF-0)");
    clear_at(board, 1, 0);
    look_at(board, 1, 0);
    look_at(board, 2, 0);
    update_at(board, 1, 10, CHANGE);
    file_at(board, 3, PLAN);
    file_at(board, 257, PLAN);
    file_at(board, 1, CHANGE);
}

/* All sixteen rooms: the first firm takes its 6 and the 4; of the 4 one is free once it has cleared a strip. */
static void show_full(beechdoublet_board *board)
{
    fill_up(board, 1);
    fill_up(board, 2);
    update_at(board, 1, 3, "(CNL-ABC12-EHAM0930-EDDF-0)");
    clear_at(board, 1, 3);
    file_at(board, 2, PLAN);
    file_at(board, 1, PLAN);
}

/* Numbers that are no board's: a strip too long, a length where no strip stands. Of a firm that is none 18 comes first. */
static void show_no_board(beechdoublet_board *board)
{
    const uint64_t length = board->places[5].length;
    board->places[5].length = BEECHDOUBLET_MOST + 1;
    file_at(board, 2, PLAN);
    clear_at(board, 3, 0);
    look_at(board, 2, 0);
    board->places[5].length = length;
    board->places[19].length = 1;
    update_at(board, 2, 0, CHANGE);
    board->places[19].length = 0;
    look_at(board, 2, 0);
}

static void show_board(void)
{
    static beechdoublet_board board;
    beechdoublet_board_empty(&board);
    show_two_firms(&board);
    show_full(&board);
    show_no_board(&board);
}

/* Offers a message to a strip and lends the strip's own bytes as the output. That is not a call, and the strip stays as it was. */
static void offer_in_place(strip *held, const char *message)
{
    beechdoublet_updating answer;
    beechdoublet_update(held->bytes, held->length, &held->state, bytes_of(message), strlen(message), held->bytes, sizeof held->bytes, &answer);
    tell_refusal(answer.number, answer.field, answer.place);
}

/* Reads a message into its own bytes: not a call either, and the message stays as it was. */
static void read_in_place(void)
{
    uint8_t message[] = "(CNL-ABC12 -EHAM0930-EDDF-0)";
    beechdoublet_reading answer;
    beechdoublet_read(message, sizeof message - 1, message, sizeof message - 1, &answer);
    tell_refusal(answer.number, answer.field, answer.place);
    printf("%s\n", (const char *)message);
}

/* Asks without a state, and then for no answer: the number is given back all the same. */
static void ask_with_null(const strip *held)
{
    beechdoublet_part part;
    beechdoublet_in_force(held->bytes, held->length, NULL, bytes_of(CHANGE), strlen(CHANGE), 9, &part);
    tell_refusal(part.number, part.field, part.place);
    printf("%d\n", beechdoublet_in_force(held->bytes, held->length, &held->state, bytes_of(CHANGE), strlen(CHANGE), 9, NULL));
    printf("%s\n", beechdoublet_sound(NULL) ? "SOUND" : "NO STATE");
}

static void show_no_calls(void)
{
    strip held = filed(PLAN);
    offer_in_place(&held, CHANGE);
    offer(&held, CHANGE);
    read_in_place();
    ask_with_null(&held);
}

int main(void)
{
    strip held = filed(PLAN);
    show_readings();
    show_parts(&held);
    show_fields();
    show_plans();
    show_states(&held);
    show_flight(&held);
    show_another_day();
    show_board();
    show_no_calls();
    return 0;
}
