/*
 * Holds include/csobvarit.h to the archive it is linked with, by files of stored results.
 *
 * First every number of the header to the paper's. Then each line of the files, which tells a call and what it gives
 * (tests/second/README.md, "Stored results"): the call is made by its prototype, on blocks of memory of exactly the
 * lengths told, and what it returns, taken apart by the header's macros, and all memory that it may write must be as the
 * rest of the line has it, and the octets around each block as they were. Lines of a kind that no call makes are passed
 * over. Last, that calls look at all bits of a length (lengths.c).
 *
 * It runs with the C library and on boards without one, so it needs nothing but host.h.
 */
#include "csobvarit.h"
#include "host.h"
#include "bare.h"

typedef char length_has_64_bits[sizeof(cb_length) == 8 ? 1 : -1];

/* Each number of the header beside that of documents 01 and 02. */
#define NUMBER(name, paper) {#name, name, paper}
static const struct {
    const char *name;
    uint32_t header, paper;
} numbers[] = {
    NUMBER(CB_STATE, 90),
    NUMBER(CB_PIECE, 23),
    NUMBER(CB_OUTPUT, 88),
    NUMBER(CB_HEADER, 6),
    NUMBER(CB_TEXT, 93),
    NUMBER(CB_BLOCKS, 92),
    NUMBER(CB_SLOTS, 48),
    NUMBER(CB_PLAN, 294),
    NUMBER(CB_MOST_WANTED, 64),
    NUMBER(CB_COLLECTOR, 1340),
    NUMBER(CB_MOST_PAGES, 15),
    NUMBER(CB_DONE, 0),
    NUMBER(CB_PAGE, 0),
    NUMBER(CB_TAKEN, 1),
    NUMBER(CB_PIECE_LENGTH, 2),
    NUMBER(CB_DISCRIMINATOR, 3),
    NUMBER(CB_RESERVED_CODE, 4),
    NUMBER(CB_NULL_CODE, 5),
    NUMBER(CB_NOT_NEXT, 6),
    NUMBER(CB_SCHEDULE, 7),
    NUMBER(CB_STATE_IMPROPER, 8),
    NUMBER(CB_TEXT_LENGTH, 10),
    NUMBER(CB_NOT_IN_ALPHABET, 11),
    NUMBER(CB_ENDS_IN_CR, 12),
    NUMBER(CB_SCHEME, 13),
    NUMBER(CB_PAGE_PARAMETER, 14),
    NUMBER(CB_OUTPUT_LENGTH, 15),
    NUMBER(CB_MESSAGE_LENGTH, 16),
    NUMBER(CB_USED_OCTETS, 17),
    NUMBER(CB_RECEIVED_OCTETS, 18),
    NUMBER(CB_SCHEDULE_TYPE, 20),
    NUMBER(CB_BEGIN_OR_END, 21),
    NUMBER(CB_NEW_PAST_END, 22),
    NUMBER(CB_DESCRIPTION_PAST, 23),
    NUMBER(CB_REPEAT_OF_NO_FIRST, 24),
    NUMBER(CB_PLAN_MARK, 30),
    NUMBER(CB_PLAN_VERSION, 31),
    NUMBER(CB_PLAN_LENGTH, 32),
    NUMBER(CB_DESCRIPTIONS_TOO_LONG, 34),
    NUMBER(CB_PLAN_EMPTY, 35),
    NUMBER(CB_PLAN_KIND, 36),
    NUMBER(CB_PLAN_STRAY, 37),
    NUMBER(CB_UNTRUE, 40),
    NUMBER(CB_RULE_LOWEST, 1),
    NUMBER(CB_RULE_LATER, 2),
    NUMBER(CB_RULE_OPTIONAL, 3),
    NUMBER(CB_RULE_ADVISED, 4),
    NUMBER(CB_RULE_NEW, 5),
    NUMBER(CB_SLOT_NUMBER, 41),
    NUMBER(CB_WANTED_COUNT, 42),
    NUMBER(CB_PAGE_OVER_TOTAL, 50),
    NUMBER(CB_KEPT, 1),
    NUMBER(CB_READ, 1),
    NUMBER(CB_FIRST, 0x8000),
    NUMBER(CB_OPTIONAL, 0x40),
    NUMBER(CB_ADVISED, 0x41),
};

/* Writes a line of some texts. */
static void write_line(void (*host)(const char *), const char *const *texts)
{
    for (; *texts != NULL; texts++)
        host(*texts);
}
#define SAY(...) write_line(host_say, (const char *const[]){host_test, ": ", __VA_ARGS__, "\n", NULL})
#define TELL(...) write_line(host_tell, (const char *const[]){host_test, ": ", __VA_ARGS__, "\n", NULL})

static int numbers_wrong(void)
{
    int wrong = 0;

    for (size_t i = 0; i < sizeof numbers / sizeof numbers[0]; i++)
        if (numbers[i].header != numbers[i].paper) {
            SAY(numbers[i].name, " is ", DECIMAL(numbers[i].header), " in the header and ", DECIMAL(numbers[i].paper),
                " in the documents");
            wrong = 1;
        }
    return wrong;
}

/* The line that is being run. */
static const char *file;
static uint32_t line_number;
static char line[1 << 16];
static char *rest; /* what of the line isn't taken yet; NULL at its end */
static bool differs;

enum { SHOWN = 5 }; /* differences that are printed */
static uint32_t results, calls, passed_over, different;

static void stop(const char *what) __attribute__((noreturn));
static void stop(const char *what)
{
    SAY(file, ":", DECIMAL(line_number), ": ", what);
    host_end(1);
}

static char *take(void)
{
    char *field = rest;

    if (field == NULL)
        stop("the line ends early");
    rest = find(field, ' ');
    if (rest != NULL)
        *rest++ = '\0';
    return field;
}

static uint64_t take_number(void)
{
    const char *field = take();
    uint64_t number = 0;

    if (*field == '\0' || length(field) > 16)
        stop("no number");
    for (; *field != '\0'; field++) {
        if (digit(*field) > 15)
            stop("no number");
        number = number << 4 | digit(*field);
    }
    return number;
}

/*
 * Blocks of memory, of one length each and no more, for the time of a line. Each begins where numbers of its kind may and
 * wider ones may not, octets at odd places; and between blocks are octets that no call may change.
 */
struct octets { uint8_t *at; size_t len; };
struct points { uint16_t *at; size_t len; };
struct longs { uint32_t *at; size_t len; };

enum { FILLING = 0xA5, GUARD = 32, ROOM = 1 << 20 };
static uint8_t room[ROOM];
static size_t room_used;
static struct octets blocks[1024];
static size_t blocks_held;

/* What stands at a place of the room that isn't lent. */
static uint8_t guard(const uint8_t *at)
{
    return (uint8_t)((at - room) * 37 + 11);
}

static void *block(uint64_t count, size_t size)
{
    uint8_t *at = room + room_used + GUARD;
    size_t len;

    while ((uintptr_t)at % (2 * size) != size)
        at++;
    if (count > ROOM || (size_t)count * size + GUARD > (size_t)(room + ROOM - at) ||
        blocks_held == sizeof blocks / sizeof blocks[0])
        stop("no memory");
    len = (size_t)count * size;
    for (uint8_t *before = room + room_used; before < at; before++)
        *before = guard(before);
    for (size_t i = 0; i < len; i++)
        at[i] = FILLING;
    for (uint8_t *behind = at + len; behind < at + len + GUARD; behind++)
        *behind = guard(behind);
    room_used = (size_t)(at + len - room);
    blocks[blocks_held++] = (struct octets){at, len};
    return at;
}

/* Holds what stands around the blocks to what stood there, and takes the blocks back. */
static void end_blocks(void)
{
    const uint8_t *at = room;

    for (size_t i = 0; i < blocks_held; i++) {
        for (; at < blocks[i].at; at++)
            if (*at != guard(at))
                stop("memory is changed that wasn't lent");
        at += blocks[i].len;
    }
    for (size_t i = 0; blocks_held > 0 && i < GUARD; i++)
        if (at[i] != guard(at + i))
            stop("memory is changed that wasn't lent");
    blocks_held = room_used = 0;
}

static struct octets lent(uint64_t len) { return (struct octets){block(len, sizeof(uint8_t)), (size_t)len}; }
static struct points lent_points(uint64_t len) { return (struct points){block(len, sizeof(uint16_t)), (size_t)len}; }
static struct longs lent_longs(uint64_t len) { return (struct longs){block(len, sizeof(uint32_t)), (size_t)len}; }

/* The number in some digits of a list. */
static unsigned digits(const char *at, size_t count)
{
    unsigned number = 0;

    for (size_t i = 0; i < count; i++) {
        if (digit(at[i]) > 15)
            stop("no list");
        number = number << 4 | digit(at[i]);
    }
    return number;
}

/* How many elements of so many digits a list has. */
static size_t elements(const char *list, size_t wide)
{
    size_t count = 0;

    if (equal(list, "-"))
        return 0;
    for (size_t len = length(list); len > 0; len -= wide, count++)
        if (len < wide)
            stop("no list");
    return count;
}

static struct octets take_octets(void)
{
    const char *list = take();
    struct octets taken = lent(elements(list, 2));

    for (size_t i = 0; i < taken.len; i++)
        taken.at[i] = (uint8_t)digits(list + 2 * i, 2);
    return taken;
}

/* The next run of a list: how many equal octets it has, and where the digits of the octet are. */
static size_t run_of(const char **list)
{
    const char *at = *list + 1;
    size_t count = 0;

    if (**list != '(')
        return 1;
    for (; digit(*at) < 16; at++)
        count = count << 4 | digit(*at);
    if (at == *list + 1 || *at != ')' || count > ROOM)
        stop("no run");
    *list = at + 1;
    return count;
}

/* Octets of which equal ones are written as runs: their count in parentheses, and the octet. */
static struct octets take_runs(void)
{
    const char *list = take();
    struct octets taken;
    size_t len = 0;

    if (equal(list, "-"))
        return lent(0);
    for (const char *at = list; *at != '\0'; at += 2) {
        len += run_of(&at);
        if (length(at) < 2)
            stop("no list");
    }
    taken = lent(len);
    len = 0;
    for (const char *at = list; *at != '\0'; at += 2) {
        size_t count = run_of(&at);
        while (count-- > 0)
            taken.at[len++] = (uint8_t)digits(at, 2);
    }
    return taken;
}

static struct points take_points(void)
{
    const char *list = take();
    struct points taken = lent_points(elements(list, 4));

    for (size_t i = 0; i < taken.len; i++)
        taken.at[i] = (uint16_t)digits(list + 4 * i, 4);
    return taken;
}

/* Holds what came of a call to the next field. */
static void hold(const char *got)
{
    const char *stored = take();

    if (equal(got, stored) || differs)
        return;
    differs = true;
    if (different < SHOWN)
        SAY(file, ":", DECIMAL(line_number), ": ", (const char[]){line[0], '\0'}, ": ", got, ", stored ", stored);
}

static void hold_number(uint64_t got)
{
    char text[17];

    put_hex(text, got, 1);
    hold(text);
}

/* Holds a list, of elements of 1, 2 or 4 octets, to the next field. */
static void hold_list(const void *list, size_t len, size_t size)
{
    static char shown[1 << 12];
    char *to = shown;

    if (len * 2 * size >= sizeof shown)
        stop("too long a list");
    for (size_t i = 0; i < len; i++) {
        uint32_t element = size == 1   ? ((const uint8_t *)list)[i]
                           : size == 2 ? ((const uint16_t *)list)[i]
                                       : ((const uint32_t *)list)[i];
        to = put_hex(to, element, (unsigned)(2 * size));
    }
    hold(len > 0 ? shown : "-");
}

/* Memory after a call: = where it is as it was. */
static void hold_after(const uint8_t *before, struct octets after)
{
    if (same(before, after.at, after.len))
        hold("=");
    else
        hold_list(after.at, after.len, 1);
}

/* The same of memory that was lent as FILLING. */
static void hold_left(const void *memory, size_t len, size_t size)
{
    const uint8_t *octets = memory;
    size_t left = 0;

    while (left < len * size && octets[left] == FILLING)
        left++;
    if (left == len * size)
        hold("=");
    else
        hold_list(memory, len, size);
}
#define HOLD_LEFT(memory) hold_left((memory).at, (memory).len, sizeof *(memory).at)

enum { RUN = 4 }; /* so many equal octets in a row are written as a run, and no fewer */

/* Holds octets, with their runs, to the next field. */
static void hold_runs(struct octets list)
{
    static char shown[2 * CB_COLLECTOR + 1]; /* a run is never longer than its octets */
    char *to = shown;
    size_t count;

    if (list.len > CB_COLLECTOR)
        stop("too long a list");
    for (size_t i = 0; i < list.len; i += count) {
        count = 1;
        while (i + count < list.len && list.at[i + count] == list.at[i])
            count++;
        if (count < RUN)
            count = 1;
        else {
            *to++ = '(';
            to = put_hex(to, count, 1);
            *to++ = ')';
        }
        to = put_hex(to, list.at[i], 2);
    }
    hold(list.len > 0 ? shown : "-");
}

/* Memory after a call, with its runs: = where it is as it was. */
static void hold_runs_after(const uint8_t *before, struct octets after)
{
    if (same(before, after.at, after.len))
        hold("=");
    else
        hold_runs(after);
}

/* Makes a call, counts it, and gives what it returned. */
static uint64_t last_returned;
#define CALL(call, ...) (calls++, host_before(), last_returned = call(__VA_ARGS__), host_after(#call), last_returned)

static void start(void)
{
    struct octets state = take_octets(), before = lent(state.len);

    copy(before.at, state.at, state.len);
    hold_number(CB_ANSWER(CALL(cb_start, state.at, state.len)));
    hold_after(before.at, state);
}

static void intake(void)
{
    struct octets state = take_octets(), piece = take_octets(), output = lent(take_number()), before = lent(state.len);

    copy(before.at, state.at, state.len);
    uint64_t returned = CALL(cb_intake, state.at, state.len, piece.at, piece.len, output.at, output.len);
    hold_number(CB_ANSWER(returned));
    hold_number(CB_RECEIVED(returned));
    hold_after(before.at, state);
    HOLD_LEFT(output);
}

static struct octets started(void)
{
    struct octets state = lent(CB_STATE);

    if (CALL(cb_start, state.at, state.len) != CB_DONE)
        stop("cb_start refuses a state of CB_STATE octets");
    return state;
}

static void sequence(void)
{
    struct octets state = started();

    while (rest != NULL && find(rest, ' ') != NULL) {
        struct octets piece = take_octets(), output = lent(CB_OUTPUT);
        uint64_t returned = CALL(cb_intake, state.at, state.len, piece.at, piece.len, output.at, output.len);
        hold_number(CB_ANSWER(returned));
        hold_number(CB_RECEIVED(returned));
        HOLD_LEFT(output);
    }
    hold_list(state.at, state.len, 1);
}

/* The same with the text of each page. */
static void texts(void)
{
    struct octets state = started();

    while (rest != NULL) {
        struct octets piece = take_octets(), output = lent(CB_OUTPUT);
        struct points text = lent_points(CB_TEXT);
        uint64_t returned = CALL(cb_intake, state.at, state.len, piece.at, piece.len, output.at, output.len);
        hold_number(CB_ANSWER(returned));
        hold_number(CB_RECEIVED(returned));
        if (CB_ANSWER(returned) != CB_PAGE) {
            hold("-");
            continue;
        }
        uint64_t read = CALL(cb_read_text, output.at, output.len, CB_RECEIVED(returned), text.at, text.len);
        hold_list(text.at, CB_COUNT(read), sizeof *text.at);
    }
}

static void write_blocks(void)
{
    bool schedule = take_number() != 0;
    cb_length used = take_number();
    struct octets message = take_octets(), out = lent(take_number());

    hold_number(CB_NUMBER(CALL(cb_write_blocks, message.at, message.len, schedule, used, out.at, out.len)));
    HOLD_LEFT(out);
}

/* A page parameter is page and total, 4 bits each. */
static void try_halves(uint8_t parameter)
{
    if (CB_PAGE_OF(parameter) != parameter / 16u || CB_TOTAL_OF(parameter) != parameter % 16u)
        stop("the halves of a page parameter are others");
}

static void write_text(void)
{
    uint16_t serial = (uint16_t)take_number(), identifier = (uint16_t)take_number();
    uint8_t scheme = (uint8_t)take_number(), parameter = (uint8_t)take_number();
    struct points text = take_points();
    struct octets page = lent(take_number());
    uint64_t returned =
        CALL(cb_write_text, serial, identifier, scheme, parameter, text.at, text.len, page.at, page.len);

    hold_number(CB_NUMBER(returned));
    hold_number(CB_COUNT(returned));
    HOLD_LEFT(page);
    if (CB_NUMBER(returned) != 0)
        return;
    uint64_t header = CALL(cb_read_header, page.at, page.len);
    if (CB_NUMBER(header) != 0 || CB_HEADER_SERIAL(header) != serial || CB_HEADER_IDENTIFIER(header) != identifier ||
        CB_HEADER_SCHEME(header) != scheme || CB_HEADER_PARAMETER(header) != parameter)
        stop("the page's header isn't what was written");
    try_halves(CB_HEADER_PARAMETER(header));
}

static void read_text(void)
{
    struct octets page = take_octets();
    cb_length received = take_number();
    struct points text = lent_points(take_number());
    uint64_t returned = CALL(cb_read_text, page.at, page.len, received, text.at, text.len);

    hold_number(CB_NUMBER(returned));
    hold_number(CB_COUNT(returned));
    HOLD_LEFT(text);
}

static void content(void)
{
    struct octets page = take_octets();
    cb_length received = take_number();
    uint64_t returned = CALL(cb_content, page.at, page.len, received);

    hold_number(CB_NUMBER(returned));
    if (CB_NUMBER(returned) == 0)
        hold_list(page.at + CB_HEADER, (size_t)(received - CB_HEADER), 1);
    else
        hold("-");
}

static void read_header(void)
{
    struct octets page = take_octets();
    uint64_t returned = CALL(cb_read_header, page.at, page.len);

    hold_number(CB_NUMBER(returned));
    hold_number(CB_HEADER_SCHEME(returned));
    hold_number(CB_HEADER_SERIAL(returned));
    hold_number(CB_HEADER_IDENTIFIER(returned));
    hold_number(CB_HEADER_PARAMETER(returned));
    try_halves(CB_HEADER_PARAMETER(returned));
}

static void start_collector(void)
{
    struct octets collector = take_runs(), before = lent(collector.len);

    copy(before.at, collector.at, collector.len);
    hold_number(CB_ANSWER(CALL(cb_start_collector, collector.at, collector.len)));
    hold_runs_after(before.at, collector);
}

/* The number of a page and its total, where neither half of the parameter is 0; otherwise both are 1. */
static void number_and_total(struct octets page, uint32_t *number, uint32_t *total)
{
    uint8_t parameter = CB_HEADER_PARAMETER(CALL(cb_read_header, page.at, page.len));

    try_halves(parameter);
    *number = CB_PAGE_OF(parameter);
    *total = CB_TOTAL_OF(parameter);
    if (*number == 0 || *total == 0)
        *number = *total = 1;
}

/* Where a page stands in a message handed out: its octets received, and behind them the page. */
static uint8_t *place(struct octets message, uint32_t number)
{
    if (CB_PAGE_PLACE(number) > message.len - 1 - CB_OUTPUT)
        stop("a page's place is past the message");
    return message.at + CB_PAGE_PLACE(number);
}

/* The page that completed a message stands in its place, and every page of it has octets received. What else a lent
 * collector held goes out as it stood, so the headers of the other pages can be any. */
static void try_place(struct octets message, uint32_t count, struct octets page, cb_length received)
{
    uint32_t number, total;

    for (uint32_t k = 1; k <= count; k++) {
        uint8_t octets = *place(message, k);
        if (octets != 22 && octets != 44 && octets != 66 && octets != 88)
            stop("a page handed out has no octets received");
    }
    number_and_total(page, &number, &total);
    if (total != count || *place(message, number) != received ||
        !same(place(message, number) + 1, page.at, page.len))
        stop("the page that came last isn't in its place");
}

/* Of a message collected from a start, every page stands in the place of its number. */
static void try_places(struct octets message, uint32_t count)
{
    for (uint32_t k = 1; k <= count; k++) {
        struct octets page = {place(message, k) + 1, CB_OUTPUT};
        uint32_t number, total;
        number_and_total(page, &number, &total);
        if (number != k || total != count)
            stop("a page handed out isn't in its place");
    }
}

/* Takes a page, and holds what came of it, but for the collector. */
static uint64_t collect_page(struct octets collector, struct octets page, cb_length received, struct octets output)
{
    uint64_t returned = CALL(cb_collect, collector.at, collector.len, page.at, page.len, received,
                                          output.at, output.len);

    hold_number(CB_NUMBER(returned));
    hold_number(CB_COUNT(returned));
    if (CB_NUMBER(returned) == CB_DONE && !differs)
        try_place(output, CB_COUNT(returned), page, received);
    return returned;
}

static void collect(void)
{
    struct octets collector = take_runs(), page = take_octets();
    cb_length received = take_number();
    struct octets output = lent(take_number()), before = lent(collector.len), as_lent = lent(output.len);

    copy(before.at, collector.at, collector.len);
    collect_page(collector, page, received, output);
    hold_runs_after(before.at, collector);
    hold_runs_after(as_lent.at, output);
}

static void pages_in_a_row(void)
{
    struct octets collector = lent(CB_COLLECTOR), as_lent = lent(CB_COLLECTOR);

    if (CALL(cb_start_collector, collector.at, collector.len) != CB_DONE)
        stop("cb_start_collector refuses a collector of CB_COLLECTOR octets");
    while (rest != NULL && find(rest, ' ') != NULL) {
        struct octets page = take_octets(), output = lent(CB_COLLECTOR);
        cb_length received = take_number();
        uint64_t returned = collect_page(collector, page, received, output);
        hold_runs_after(as_lent.at, output);
        if (CB_NUMBER(returned) == CB_DONE && !differs)
            try_places(output, CB_COUNT(returned));
    }
    hold_runs(collector);
}

/* A schedule with its descriptions in the message's order, which cb_slots must tell by their slots. */
static void read_schedule(void)
{
    struct octets message = take_octets();
    cb_length received = take_number();
    struct longs slots = lent_longs(CB_SLOTS);
    uint64_t returned = CALL(cb_read_schedule, message.at, message.len, received);

    if (CALL(cb_slots, message.at, message.len, received, slots.at, slots.len) != returned)
        stop("cb_slots returns something else than cb_read_schedule");
    hold_number(CB_NUMBER(returned));
    hold_number(CB_BEGIN(returned));
    hold_number(CB_END(returned));
    for (cb_length place = 0;; place++) {
        uint64_t given = CALL(cb_description, message.at, message.len, received, place);
        if (CB_NUMBER(given) != CB_NUMBER(returned))
            stop("cb_description gives another number than cb_read_schedule");
        if (CB_SLOT(given) == 0)
            break;
        hold_number(CB_SLOT(given));
        hold_number(CB_NEW(given));
        hold_number(CB_CODE(given));
        uint32_t told = slots.at[CB_SLOT(given) - 1];
        if (CB_SLOT_NEW(told) != CB_NEW(given) || CB_SLOT_CODE(told) != CB_CODE(given))
            stop("cb_slots tells a slot in another way than cb_description");
    }
}

static void description(void)
{
    struct octets message = take_octets();
    cb_length received = take_number(), place = take_number();
    uint64_t returned = CALL(cb_description, message.at, message.len, received, place);

    hold_number(CB_NUMBER(returned));
    hold_number(CB_SLOT(returned));
    hold_number(CB_NEW(returned));
    hold_number(CB_CODE(returned));
}

static void all_slots(void)
{
    struct octets message = take_octets();
    cb_length received = take_number();
    struct longs slots = lent_longs(take_number());
    uint64_t returned = CALL(cb_slots, message.at, message.len, received, slots.at, slots.len);

    hold_number(CB_NUMBER(returned));
    hold_number(CB_BEGIN(returned));
    hold_number(CB_END(returned));
    HOLD_LEFT(slots);
}

static void read_plan(void)
{
    struct octets plan = take_octets();
    uint64_t returned = CALL(cb_read_plan, plan.at, plan.len);

    hold_number(CB_NUMBER(returned));
    hold_number(CB_COUNT(returned));
}

static void write_schedule(void)
{
    struct octets current = take_octets(), previous = take_octets();
    cb_length begin = take_number();
    struct octets out = lent(take_number());
    uint64_t returned =
        CALL(cb_write_schedule, current.at, current.len, previous.at, previous.len, begin, out.at, out.len);

    hold_number(CB_NUMBER(returned));
    hold_number(CB_COUNT(returned));
    HOLD_LEFT(out);
}

static void check_schedule(void)
{
    struct octets current = take_octets(), previous = take_octets(), message = take_octets();
    cb_length received = take_number();
    uint64_t returned = CALL(cb_check_schedule, current.at, current.len, previous.at, previous.len,
                                                 message.at, message.len, received);

    hold_number(CB_NUMBER(returned));
    hold_number(CB_COUNT(returned));
}

static void check_slots(void)
{
    struct octets current = take_octets(), previous = take_octets(), message = take_octets();
    cb_length received = take_number();
    struct octets verdicts = lent(take_number());
    uint64_t returned = CALL(cb_check_slots, current.at, current.len, previous.at, previous.len,
                                              message.at, message.len, received, verdicts.at, verdicts.len);

    hold_number(CB_NUMBER(returned));
    hold_number(CB_COUNT(returned));
    HOLD_LEFT(verdicts);
}

static void decide(void)
{
    bool known = take_number() != 0;
    struct octets message = take_octets();
    cb_length received = take_number(), slot = take_number();
    struct points wanted = take_points();
    uint64_t held = take_number();
    uint64_t returned =
        CALL(cb_decide, known, message.at, message.len, received, slot, wanted.at, wanted.len, held);

    hold_number(CB_NUMBER(returned));
    hold_number(CB_COUNT(returned));
}

static void enter(void)
{
    bool known = take_number() != 0;
    struct octets message = take_octets();
    cb_length received = take_number(), slot = take_number();
    uint64_t held = take_number();

    hold_number(CALL(cb_enter, known, message.at, message.len, received, slot, held));
}

static const struct {
    char letter;
    void (*run)(void);
} kinds[] = {
    {'N', start}, {'I', intake}, {'Q', sequence}, {'V', texts}, {'B', write_blocks}, {'T', write_text},
    {'R', read_text}, {'C', content}, {'H', read_header}, {'S', read_schedule}, {'G', description}, {'L', all_slots},
    {'P', read_plan}, {'W', write_schedule}, {'K', check_schedule}, {'U', check_slots}, {'D', decide}, {'E', enter},
    {'J', start_collector}, {'M', collect}, {'O', pages_in_a_row},
};

static void run_line(void)
{
    size_t kind = 0;

    if (line[0] == '#')
        return;
    if (line[0] == 'X' || line[0] == 'A') { /* packing and the alphabet alone, which no call gives */
        passed_over++;
        return;
    }
    while (kind < sizeof kinds / sizeof kinds[0] && kinds[kind].letter != line[0])
        kind++;
    if (kind == sizeof kinds / sizeof kinds[0] || line[1] != ' ')
        stop("a line of no kind");
    rest = line + 2;
    differs = false;
    kinds[kind].run();
    if (rest != NULL)
        stop("the line goes on");
    results++;
    different += differs;
    end_blocks();
}

/* The next octet of the file, or -1 at its end. */
static int next_octet(void)
{
    static char read[1 << 12];
    static long at, count;

    if (at == count) {
        at = 0;
        count = host_read(read, sizeof read);
        if (count < 0)
            stop("can't be read");
        if (count == 0)
            return -1;
    }
    return (unsigned char)read[at++];
}

/* Reads the next line, without its line feed: whether there is one. */
static bool next_line(void)
{
    size_t len = 0;
    int octet;

    line_number++;
    while ((octet = next_octet()) >= 0 && octet != '\n') {
        if (len == sizeof line - 1)
            stop("too long a line");
        line[len++] = (char)octet;
    }
    line[len] = '\0';
    return octet >= 0 || len > 0;
}

int run_results(void)
{
    if (numbers_wrong())
        return 1;
    while ((file = host_open()) != NULL) {
        line_number = 0;
        while (next_line())
            run_line();
    }
    if (lengths_wrong())
        return 1;
    TELL(DECIMAL(results), " results by ", DECIMAL(calls), " calls, ", DECIMAL(different), " differ; ", DECIMAL(passed_over),
         " of what is no call passed over");
    return different != 0 || results == 0;
}
