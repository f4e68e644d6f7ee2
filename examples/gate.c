/*
 * A gate board, but for how octets come and go: shows the pages that it reads, and each message when its last page is there.
 *
 * Without a schedule it reads everything; with one it decides for each slot and sleeps through what it skips. After a complete
 * page or schedule it sleeps to the end of the slot.
 *
 * What is simplified: a real board knows by the channel's timing where a slot begins. Here every four pieces are a slot, from the
 * first piece on. The slot after a schedule is its Begin, and after its End there is no schedule. One with Begin 1, or where
 * there was none, begins a period, in which nothing is held yet. All pages go to one collector, so a page of another message
 * drops those before it; a board on which messages come interleaved has a collector for each identifier.
 *
 * It needs no C library, and what lasts is static, so that a linker tells how much memory it takes.
 */
#include "gate.h"

#include "csobvarit.h"

enum { SLOT_PIECES = 4 };

static const uint16_t *wanted;
static size_t wanted_count;
static uint8_t state[CB_STATE], output[CB_OUTPUT]; /* of the channel: the message that goes on, and the last that was whole */
static uint32_t pieces;                 /* heard so far */
static bool awake;
static bool known;                      /* whether there is a schedule */
static uint8_t schedule[CB_OUTPUT];     /* it, and how much of it was received */
static uint32_t schedule_received;
static uint32_t slot, end;              /* the slot that goes on, and the last that the schedule tells of */
static uint64_t held;                   /* the slots whose pages are held */
static uint8_t collector[CB_COLLECTOR]; /* the pages of a message that is not whole yet */
static uint8_t message[CB_COLLECTOR];   /* the last message that was whole */

static void show(const char *text)
{
    while (*text != '\0')
        line_put(*text++);
}

static void show_hex(uint32_t number, unsigned digits)
{
    while (digits-- > 0)
        line_put("0123456789ABCDEF"[number >> 4 * digits & 0xF]);
}

/* Shows a text, and a number in decimal behind it. */
static void show_number(const char *text, uint32_t number)
{
    char digits[11], *first = digits + sizeof digits - 1;

    *first = '\0';
    do
        *--first = (char)('0' + number % 10);
    while ((number /= 10) > 0);
    show(text);
    show(first);
}

static void show_slot(uint32_t number)
{
    uint32_t code = CB_SLOT_CODE(number);

    show(CB_SLOT_NEW(number) ? " new " : " ");
    if (code >= CB_FIRST)
        show_hex(code - CB_FIRST, 4);
    else if (code == CB_ADVISED || code == CB_OPTIONAL)
        show(code == CB_ADVISED ? "advised" : "optional");
    else
        show_number("again ", code);
}

/* Keeps a schedule that can be read, and shows what it tells; another is ignored. */
static void take_schedule(uint32_t received)
{
    uint32_t slots[CB_SLOTS], read = cb_slots(output, sizeof output, received, slots, CB_SLOTS);

    if (CB_NUMBER(read) != 0) {
        show_number("schedule refused by ", CB_NUMBER(read));
        show("\n");
        return;
    }
    if (!known || CB_BEGIN(read) == 1)
        held = 0;
    known = true;
    for (size_t i = 0; i < sizeof schedule; i++)
        schedule[i] = output[i];
    schedule_received = received;
    slot = CB_BEGIN(read) - 1;
    end = CB_END(read);
    show_number("schedule from ", CB_BEGIN(read));
    show_number(" to ", end);
    show(":");
    for (uint32_t i = 0; i < end; i++)
        show_slot(slots[i]);
    show("\n");
}

/* Goes on to the next slot, and decides whether to wake for it. */
static bool wakes(void)
{
    known = known && ++slot <= end;
    if (!known)
        return true;
    uint32_t decided = cb_decide(known, schedule, sizeof schedule, schedule_received, slot, wanted, wanted_count, held);
    bool reads = CB_NUMBER(decided) != 0 || CB_COUNT(decided) == CB_READ; /* awake where in doubt */
    show_number("slot ", slot);
    show(reads ? ": read\n" : ": skip\n");
    return reads;
}

static void show_code_point(uint16_t code_point)
{
    if (code_point >= 0x20 && code_point < 0x7F) {
        line_put((char)code_point);
        return;
    }
    show("<");
    show_hex(code_point, 4);
    show(">");
}

/* Shows what was received of a page: its text or, in another alphabet, its octets. */
static void show_content(const uint8_t *page, uint32_t received)
{
    uint16_t text[CB_TEXT];
    uint32_t read = cb_read_text(page, CB_OUTPUT, received, text, CB_TEXT);

    /* The count alone tells where the text ends: spaces stand past it, and a text can have spaces at its end. */
    for (uint32_t i = 0; i < CB_COUNT(read); i++)
        show_code_point(text[i]);
    if (CB_NUMBER(read) == CB_SCHEME && CB_NUMBER(cb_content(page, CB_OUTPUT, received)) == 0)
        for (uint32_t i = CB_HEADER; i < received; i++)
            show_hex(page[i], 2);
}

static void show_page(uint32_t received)
{
    uint64_t header = cb_read_header(output, sizeof output);
    uint8_t parameter = CB_HEADER_PARAMETER(header);

    show("page ");
    show_hex(CB_HEADER_SERIAL(header), 4);
    show(" ");
    show_hex(CB_HEADER_IDENTIFIER(header), 4);
    show_number(" ", CB_PAGE_OF(parameter));
    show_number("/", CB_TOTAL_OF(parameter));
    show(" ");
    show_content(output, received);
    show("\n");
}

static void show_message(uint32_t pages)
{
    show("message ");
    show_hex((uint32_t)message[1] << 8 | message[2], 4);
    show(" ");
    show_hex((uint32_t)message[3] << 8 | message[4], 4);
    show_number(", ", pages);
    show(pages == 1 ? " page: " : " pages: ");
    for (uint32_t i = 1; i <= pages; i++) {
        const uint8_t *place = message + CB_PAGE_PLACE(i);
        show_content(place + 1, place[0]);
    }
    show("\n");
}

/* Collects a page, and shows the message that it makes whole. */
static void collect(uint32_t received)
{
    uint32_t taken = cb_collect(collector, sizeof collector, output, sizeof output, received, message, sizeof message);

    if (CB_NUMBER(taken) == CB_DONE) {
        show_message(CB_COUNT(taken));
    } else if (CB_NUMBER(taken) != CB_KEPT) {
        show_number("page refused by ", CB_NUMBER(taken));
        show("\n");
    }
}

/* Shows a page, collects it, and enters it among those held. */
static void take_page(uint32_t received)
{
    show_page(received);
    collect(received);
    if (!known)
        return;
    held = cb_enter(known, schedule, sizeof schedule, schedule_received, slot, held);
    show("held:");
    for (uint32_t i = 1; i <= CB_SLOTS; i++)
        if (held >> (i - 1) & 1)
            show_number(" ", i);
    show("\n");
}

void gate_start(const uint16_t *identifiers, size_t count)
{
    wanted = identifiers;
    wanted_count = count;
    pieces = 0;
    known = false;
    cb_start_collector(collector, sizeof collector); /* once, since the pages of a message come in many slots */
}

void gate_take(const uint8_t *piece, size_t length)
{
    if (pieces++ % SLOT_PIECES == 0) {
        /* No page goes across slots; without this a block after a sleep could go on with what an earlier slot began. */
        cb_start(state, sizeof state);
        awake = wakes();
    }
    if (!awake)
        return;
    uint32_t returned = cb_intake(state, sizeof state, piece, length, output, sizeof output);
    if (CB_ANSWER(returned) == CB_PAGE) {
        take_page(CB_RECEIVED(returned));
    } else if (CB_ANSWER(returned) == CB_SCHEDULE) {
        take_schedule(CB_RECEIVED(returned));
    } else if (CB_ANSWER(returned) != CB_TAKEN) {
        show_number("piece ", pieces);
        show_number(" refused by ", CB_ANSWER(returned));
        show("\n");
    }
    awake = CB_RECEIVED(returned) == 0;
}
