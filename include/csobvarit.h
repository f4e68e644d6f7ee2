/*
 * The calls of Csobvarit for C: cell broadcast blocks, text, messages of several pages, schedules and plans, on memory that
 * the caller lends.
 *
 * Every call takes every input of every length and ends; what it doesn't take it refuses by a number.
 *
 * Memory. No pointer may be null: not at length 0, and not where a call doesn't look at what it points to, as cb_decide
 * and cb_enter with known false. Memory that a call is lent to write may not overlap anything else that it is given. A
 * length counts elements: octets, or numbers where these have 16 or 32 bits (text, wanted, slots); such numbers are
 * aligned, to 2 or 4 octets. Memory to write has exactly the length that its call tells: a longer one is refused too.
 * Lengths have 64 bits on every target, because that is what was proved; a caller on 32 bits widens what it has.
 *
 * Archives. ./build writes them for x86-64 (ELF, System V calling convention, with SSE2 registers used):
 * target/libcsobvarit.a has every call, target/libfirmware.a cb_start and cb_intake alone. Of the C library the first
 * needs memcpy and memset, the second nothing, and neither needs anything else. ./build TARGET writes the same two for a
 * board, to target/boards/TARGET/; docs/BOARDS.md has the targets, and what each needs there. No call keeps, allocates or
 * prints anything: what lasts is in the memory lent, so calls on different memory may run at once.
 *
 * Stack. No call takes more octets than told here, on x86-64, as built by ./build. Return addresses are counted, what
 * memcpy and memset take is not; tests/stack/run has the figures from the archive, docs/BOARDS.md those of the boards.
 *
 *   cb_start             100    cb_intake            100    cb_write_text      1,100
 *   cb_read_text         600    cb_content           100    cb_read_header       100
 *   cb_write_blocks      100    cb_read_schedule     300    cb_slots             200
 *   cb_description       400    cb_read_plan       1,300    cb_write_schedule  4,500
 *   cb_check_schedule  3,600    cb_decide            300    cb_enter             300
 *   cb_start_collector   100    cb_collect           300    cb_check_slots     3,500
 */
#ifndef CSOBVARIT_H
#define CSOBVARIT_H

#include <stdbool.h>
#include <stdint.h>

#ifdef __cplusplus
extern "C" {
#endif

typedef uint64_t cb_length; /* lengths, and the numbers of octets and slots that calls are given */

/* Sizes, in octets. */
#define CB_STATE  90 /* kind (0 none, 1 page, 2 schedule), blocks taken (0 to 3), the 88 octets of a message */
#define CB_PIECE  23 /* GSM 04.12, 3.1: a block, which is its type and 22 octets */
#define CB_OUTPUT 88 /* GSM 04.12, 3.1: a message, which is a page or a schedule message */

/* Answers. */
#define CB_DONE            0 /* cb_start, cb_start_collector: the memory is ready; cb_collect: a message is handed out */
#define CB_PAGE            0 /* a page is complete */
#define CB_TAKEN           1 /* the block is taken, and its message goes on */
#define CB_PIECE_LENGTH    2 /* refused: the piece isn't 23 octets long; GSM 04.12, 3.1 */
#define CB_DISCRIMINATOR   3 /* refused: the link discriminator isn't 01; GSM 04.12, 3.3.1 */
#define CB_RESERVED_CODE   4 /* refused: sequence code 4 to 7 or 9 to 14; GSM 04.12, Table 1 */
#define CB_NULL_CODE       5 /* refused: sequence code 15, a null block, whatever its content; GSM 04.12, 3.4 */
#define CB_NOT_NEXT        6 /* refused: a second to fourth block that isn't the next one of the message held */
#define CB_SCHEDULE        7 /* a schedule message is complete; GSM 04.12, 3.5 */
#define CB_STATE_IMPROPER  8 /* refused: the state isn't 90 octets long, or neither call can have left it so; for
                                cb_start_collector and cb_collect: the collector isn't 1,340 octets long; for
                                cb_collect also: it isn't proper */
#define CB_OUTPUT_LENGTH  15 /* refused: the memory to write isn't exactly as long as it must be: 88 octets for output,
                                page or schedule, 92 octets for blocks, 48 for verdicts, 1,340 for a message of
                                several pages, 93 code points for text, 48 numbers for slots */

/* What cb_intake returns is answer + 256 * octets received; what cb_start returns is an answer. */
#define CB_ANSWER(returned)   ((uint32_t)(returned) & 0xFFu)
#define CB_RECEIVED(returned) ((uint32_t)(returned) >> 8) /* 22, 44, 66 or 88 if a message is complete, otherwise 0 */

/*
 * Makes a state ready for its first piece. Call it once before the first cb_intake, at every power-up:
 * what memory happens to hold can look like a message half taken, and cb_intake can't tell.
 *
 * Call it too whenever pieces of the channel were not handed over, because the board slept through them or lost them:
 * cb_intake can't tell that either, and a block after the gap could go on with a message begun before it.
 *
 *   CB_DONE             state: no message, 88 octets of 2B
 *   CB_STATE_IMPROPER   state_len isn't 90; state: untouched
 */
uint32_t cb_start(uint8_t *state, cb_length state_len);

/*
 * Takes in one piece, of any length. A refused piece drops the message held, save where the state is
 * untouched; no later block can finish it.
 *
 *   answer                     state                          output
 *   CB_PAGE, CB_SCHEDULE       as after cb_start              the message: octets received, then 2B up to 88
 *   CB_TAKEN                   holds the block                untouched
 *   CB_PIECE_LENGTH (2) to
 *     CB_NOT_NEXT (6)          as after cb_start              untouched
 *   CB_STATE_IMPROPER
 *     if state_len is 90       as after cb_start              untouched (the piece is lost)
 *     if it isn't              untouched                      untouched
 *   CB_OUTPUT_LENGTH           untouched                      untouched
 *
 * Where several refusals apply, the answer is the first of 15 (an output_len that isn't 88), 8, 2, 3, and then 4, 5 or 6
 * by the code. A first block begins a message anew, whatever is held; a message is complete at the last-block mark or at
 * its fourth block (GSM 04.12, 3.3.1).
 *
 * Give each call the state as the call before left it, if its piece is the channel's next; otherwise as cb_start leaves
 * it. Nothing is kept elsewhere, so two channels take two states.
 */
uint32_t cb_intake(uint8_t *state, cb_length state_len, const uint8_t *piece, cb_length piece_len,
                   uint8_t *output, cb_length output_len);

/*
 * Pages (GSM 03.41, 9.3.2): six octets of header, then 82 of content.
 *
 *   octets 1-2   serial number, high octet first
 *   octets 3-4   message identifier, high octet first
 *   octet 5      coding scheme; 00 to 0F hex are the default alphabet's
 *   octet 6      page parameter: the page's number in the high half, the total of pages in the low half
 *
 * Two pages are the same page if serial number, message identifier and page parameter are equal, where a parameter with
 * 0 in either half counts as 11 hex, page 1 of 1. Wherever a parameter is handed on, it is the octet that was sent.
 *
 * The default alphabet and its extension table are GSM 03.38's, and a code point is 16 bits. A character of the alphabet
 * takes one septet. One of the extension table takes two, 1B hex and its own: these are ^ { } \ [ ~ ] and |, form feed
 * (U+000C) and the euro sign (U+20AC).
 */
#define CB_HEADER  6 /* octets of a page's header; the content starts after it */
#define CB_TEXT   93 /* septets of a page, and code points that cb_read_text writes */

#define CB_TEXT_LENGTH      10 /* refused: over 93 septets */
#define CB_NOT_IN_ALPHABET  11 /* refused: a character that neither the default alphabet nor its extension table has */
#define CB_ENDS_IN_CR       12 /* refused: the text ends in CR */
#define CB_SCHEME           13 /* refused: coding scheme above 0F */
#define CB_PAGE_PARAMETER   14 /* refused: a zero half, or a page over the total; GSM 03.41, 9.3.2 */
#define CB_MESSAGE_LENGTH   16 /* refused: the page or message isn't 88 octets long */
#define CB_USED_OCTETS      17 /* refused: the used octets aren't 1 to 88 */
#define CB_RECEIVED_OCTETS  18 /* refused: the received octets aren't 22, 44, 66 or 88 */

/*
 * What most calls return is number + 256 * count. What is counted is told with each: used octets, characters, slots, the
 * pages of a message, the slot that 40 names, the entry that 36 and 37 name, or CB_READ.
 */
#define CB_NUMBER(returned) ((uint32_t)(returned) & 0xFFu)
#define CB_COUNT(returned)  ((uint32_t)(returned) >> 8) /* 0 with a refusal other than 36, 37 and 40, and with CB_KEPT */

/*
 * Writes a page of 88 octets: header, and the text's septets packed, with CR after them up to 93.
 *
 *   0                           page: the page; the count is its used octets, 6 to 88, which follow from the septets
 *   15, 13, 14, 11, 10, 12      page: untouched; the first of these that applies, in this order. 15 is a page_len that
 *                               isn't 88; 11 looks at every character, however many there are, so text_len has to be
 *                               true
 */
uint32_t cb_write_text(uint16_t serial, uint16_t identifier, uint8_t scheme, uint8_t parameter,
                       const uint16_t *text, cb_length text_len, uint8_t *page, cb_length page_len);

/*
 * Reads the text of what was received of a page. Septet 1B hex, the escape of GSM 03.38, and the septet after it are one
 * character: that of the extension table or, where the table doesn't list the septet, the septet's own in the default
 * alphabet. 1B twice is one space, and the second of them doesn't escape; 1B as the last whole septet received is a space
 * too. Then the CRs at the end are dropped, save one that was escaped and those before it. So a text that another sender
 * wrote may end in CR, and may take other septets when cb_write_text writes it again.
 *
 *   0                           text: the count's characters, then U+0020, the space, in all the rest of the 93 places
 *   15, 16, 18, 13              text: untouched; the first of these that applies, in this order. 15 is a text_len that
 *                               isn't 93
 *
 * The count alone tells where a text ends. A panel driver that looks for the first 0 has to take the count instead: where
 * text is read, none of the 93 places is 0 any more, so it would look past them. Looking for the last character that isn't
 * a space won't do either: spaces at a text's end belong to it and are counted.
 */
uint32_t cb_read_text(const uint8_t *page, cb_length page_len, cb_length received, uint16_t *text, cb_length text_len);

/*
 * Whether a page in another alphabet can be handed on: its content received is at page + CB_HEADER, received - CB_HEADER
 * octets long. Nothing is written.
 *
 *   0                           it can
 *   16, 18                      it can't; the first of these that applies
 */
uint32_t cb_content(const uint8_t *page, cb_length page_len, cb_length received);

/*
 * What cb_read_header returns is number + 2^8 * scheme + 2^16 * serial number + 2^32 * message identifier
 * + 2^48 * page parameter; take its number by CB_NUMBER.
 */
#define CB_HEADER_SCHEME(returned)     ((uint8_t)((uint64_t)(returned) >> 8 & 0xFFu))
#define CB_HEADER_SERIAL(returned)     ((uint16_t)((uint64_t)(returned) >> 16 & 0xFFFFu))
#define CB_HEADER_IDENTIFIER(returned) ((uint16_t)((uint64_t)(returned) >> 32 & 0xFFFFu))
#define CB_HEADER_PARAMETER(returned)  ((uint8_t)((uint64_t)(returned) >> 48 & 0xFFu))

/* The halves of a page parameter: page so many of a total. If either is 0, a receiver takes the page for page 1 of 1. */
#define CB_PAGE_OF(parameter)  ((uint32_t)(parameter) >> 4 & 0xFu)
#define CB_TOTAL_OF(parameter) ((uint32_t)(parameter) & 0xFu)

/*
 * Reads the header of a page, whatever else was received of it: the first block has all of the header. Nothing is
 * written.
 *
 *   0                           scheme, serial number, identifier and parameter
 *   16                          the page isn't 88 octets long; the others are 0
 */
uint64_t cb_read_header(const uint8_t *page, cb_length page_len);

/*
 * Messages of several pages (GSM 03.41, 9.3.2): up to 15 pages that have serial number, message identifier and total in
 * common. A collector keeps pages, in whatever order they come, until all of a message are there. It lies in the caller's
 * memory, and what is handed out has the same layout.
 *
 *   octet 1      the total of pages, 0 where none is held
 *   octets 2-3   serial number, high octet first
 *   octets 4-5   message identifier, high octet first
 *   and for each of the pages 1 to 15, at CB_PAGE_PLACE:
 *   octet 1      the octets received of it, 0 where it isn't held
 *   octets 2-89  the page as it came, its header included; 2B where it isn't held
 *
 * Number and total of a page are the halves of its parameter; where either is 0, it is page 1 of 1. The coding scheme has
 * no say in which message a page is of.
 */
#define CB_COLLECTOR  1340 /* octets of a collector, and of a message handed out */
#define CB_MOST_PAGES   15 /* pages of a message at most */

/* Where page 1 to 15 begins in a collector or a message handed out: collector[CB_PAGE_PLACE(number)] is the octets received
   of it, and the page is behind that. */
#define CB_PAGE_PLACE(number) (5u + 89u * ((uint32_t)(number) - 1u))

#define CB_KEPT             1 /* the page is kept, or passed over because an earlier copy is */
#define CB_PAGE_OVER_TOTAL 50 /* refused: the page's number is over its total */

/*
 * Makes a collector ready for its first page. Call it once before the first cb_collect, at every power-up: what memory
 * happens to hold can look like pages kept, and cb_collect can't tell.
 *
 *   CB_DONE             collector: total, serial number and identifier 0, and no page held
 *   CB_STATE_IMPROPER   collector_len isn't 1,340; collector: untouched
 */
uint32_t cb_start_collector(uint8_t *collector, cb_length collector_len);

/*
 * Takes a page with the octets received of it, as cb_intake gives them: number + 256 * pages handed out. A page that is
 * held already is passed over, whatever its octets. A page of another serial number, identifier or total than those held
 * drops them and begins with itself.
 *
 *   CB_DONE (0)        every page of the message is there, this one the last that was missing; the count is its total.
 *                      collector: as after cb_start_collector
 *                      output: the message; the pages past its total as after cb_start_collector
 *   CB_KEPT (1)        the count is 0; output: untouched
 *                      collector: holds the page besides what it held, changed nowhere else; a page that is passed over
 *                      changes nothing; one that begins a message leaves all else as after cb_start_collector
 *   8, 15, 16, 18, 50  the count is 0; the first of these that applies, in this order; output: untouched
 *                      collector: untouched, save that one that isn't proper becomes as after cb_start_collector, and the
 *                      page is lost. 8 is a collector_len that isn't 1,340, or a collector that isn't proper; 15 is an
 *                      output_len that isn't 1,340
 *
 * A collector is proper if its total is 0 and no page is held, or its total is 1 to 15, some but not all of the pages up to
 * the total are held, none past it, and each with 22, 44, 66 or 88 octets received. Nothing else in it is looked at.
 *
 * Give each call the collector as the call before left it, and only pages that cb_intake answered by CB_PAGE: a schedule
 * message would be taken for a page. Which pages go to which collector is the caller's choice; with several channels or
 * messages at a time, a collector for each loses none to the others.
 */
uint32_t cb_collect(uint8_t *collector, cb_length collector_len, const uint8_t *page, cb_length page_len,
                    cb_length received, uint8_t *output, cb_length output_len);

#define CB_BLOCKS 92 /* octets of four blocks */

/*
 * Writes 88 octets of message, a page or a schedule, as four blocks: type octets, and the octets as they stand. The
 * last-block mark is set from the block of the last used octet on.
 *
 *   0                           out: the four blocks
 *   15, 16, 17                  out: untouched; the first of these that applies, in this order. 15 is an out_len that
 *                               isn't 92
 */
uint32_t cb_write_blocks(const uint8_t *message, cb_length message_len, bool schedule, cb_length used,
                         uint8_t *out, cb_length out_len);

/*
 * Schedule messages (GSM 04.12, 3.5): the octets of a complete one and the octets received, as cb_intake gives them.
 * Nothing is written to the message, whatever the answer.
 */
#define CB_SLOTS 48 /* the most slots of a period, and numbers that cb_slots writes */

#define CB_SCHEDULE_TYPE       20 /* refused: the type isn't 00; GSM 04.12, 3.5.1 */
#define CB_BEGIN_OR_END        21 /* refused: not 1 <= Begin <= End <= 48; GSM 04.12, 3.5.1 */
#define CB_NEW_PAST_END        22 /* refused: a new bit is set past End */
#define CB_DESCRIPTION_PAST    23 /* refused: a description passes the received octets */
#define CB_REPEAT_OF_NO_FIRST  24 /* refused: a repeat of 0, of no slot below its own, or of no first transmission */

/* What cb_read_schedule and cb_slots return is number + 2^8 * Begin + 2^16 * End. */
#define CB_BEGIN(returned) ((uint32_t)(returned) >> 8 & 0xFFu)
#define CB_END(returned)   ((uint32_t)(returned) >> 16 & 0xFFu)

/*
 * Reads a whole message.
 *
 *   0                           Begin and End, 1 to 48
 *   16, 18, 20, 21, 22, 23, 24  the first of these that applies, in this order; Begin and End are 0
 */
uint32_t cb_read_schedule(const uint8_t *message, cb_length message_len, cb_length received);

/* Codes: 8000 hex + the identifier's low 15 bits for a first transmission, 1 to 47 for a repeat of that slot, or: */
#define CB_FIRST    0x8000u /* from this code on */
#define CB_OPTIONAL 0x40u   /* reading optional; what the message has as 42 to 7F hex too */
#define CB_ADVISED  0x41u   /* reading advised */

/* A number that cb_slots writes is code + 2^16 * new bit. */
#define CB_SLOT_CODE(number) ((uint32_t)(number) & 0xFFFFu)
#define CB_SLOT_NEW(number)  ((uint32_t)(number) >> 16 & 0xFFu)

/*
 * Tells all slots of a message in one reading: slot n in slots[n - 1].
 *
 *   0                           slots: a number for each slot up to End, then 0 up to 48; Begin and End, 1 to 48
 *   15, 16, 18, 20, 21, 22, 23, 24
 *                               slots: untouched; the first of these that applies, in this order; Begin and End are 0.
 *                               15 is a slots_len, in numbers, that isn't 48
 */
uint32_t cb_slots(const uint8_t *message, cb_length message_len, cb_length received,
                  uint32_t *slots, cb_length slots_len);

/* What cb_description returns is number + 2^8 * slot + 2^16 * new bit + 2^32 * code. */
#define CB_SLOT(returned) ((uint32_t)((uint64_t)(returned) >> 8) & 0xFFu)
#define CB_NEW(returned)  ((uint32_t)((uint64_t)(returned) >> 16) & 0xFFu)
#define CB_CODE(returned) ((uint32_t)((uint64_t)(returned) >> 32))

/*
 * Gives the description that stands in the message after so many others: those of slots with new bit 1 come first,
 * then the rest, each group in slot order. Call it with place 0, 1 and so on, up to no more. Each call reads the message
 * anew; where the order doesn't matter, cb_slots tells the same at once.
 *
 *   0, slot 1 to 48             the slot's number, its new bit and its description
 *   0, slot 0                   no more: place is End or above; new bit and code are 0
 *   16, 18, 20, 21, 22, 23, 24  as cb_read_schedule, at every place; slot, new bit and code are 0
 */
uint64_t cb_description(const uint8_t *message, cb_length message_len, cb_length received, cb_length place);

/*
 * Plan files: six octets, then six for each slot. Numbers of two octets have the high octet first.
 *
 *   octets 1-3   CBP in ASCII
 *   octets 4-5   the version, 1
 *   octet 6      the count of slots, 0 to 48
 *
 *   and of a slot:
 *   octet 1      its kind: 0 optional, 1 advised, 2 page; the others are 0 in kinds 0 and 1
 *   octets 2-3   serial number
 *   octets 4-5   message identifier
 *   octet 6      page parameter
 */
#define CB_PLAN 294 /* octets of the longest plan file: 6 + 6 * 48 */

#define CB_PLAN_MARK    30 /* refused: the file doesn't begin with CBP */
#define CB_PLAN_VERSION 31 /* refused: its version isn't 1 */
#define CB_PLAN_LENGTH  32 /* refused: under 6 octets, a count over 48, or a length that isn't 6 + 6 * count */
#define CB_PLAN_KIND    36 /* refused: an entry of a kind over 2, whatever its other octets */
#define CB_PLAN_STRAY   37 /* refused: an entry of kind 0 or 1 with another octet that isn't 0 */

/*
 * Reads a plan file, of any length: number + 256 * count, or the entry with 36 and 37. Nothing is written.
 *
 *   0                           the file is good; the count is its slots, 0 to 48
 *   32 if short, 30, 31, 32     the first of these that applies, in this order; the count is 0
 *   36, 37                      none of those applies, and an entry is bad; the count is the number of the lowest bad
 *                               entry, 1 to 48, and 36 or 37 what is wrong with that one. Its six octets begin at
 *                               file[6 * count], the kind first
 */
uint32_t cb_read_plan(const uint8_t *file, cb_length file_len);

/*
 * Schedules beside plans. A plan goes in as its file, the current one and the one before it; where there is none before,
 * give a file of count 0. Which slots have the same page goes by what is said of pages above: with parameter 00 in one and
 * 11 in another, otherwise equal, they have one page.
 */
#define CB_DESCRIPTIONS_TOO_LONG 34 /* refused: the descriptions need over 80 octets */
#define CB_PLAN_EMPTY            35 /* refused: the current plan's count is 0 */
#define CB_UNTRUE                40 /* the message isn't true to the plans */

/*
 * Writes the schedule message of the current plan, 88 octets: number + 256 * used octets, or the entry with 36 and 37. It
 * is accepted by cb_check_schedule beside the same files, and goes to cb_write_blocks with its used octets.
 *
 *   0                           out: the message, then 2B; the count is its used octets, 9 to 88
 *   15, the current file's, the previous file's, 35, 21, 34
 *                               out: untouched; the first of these that applies, in this order. 15 is an out_len that
 *                               isn't 88; a file's refusals are those of cb_read_plan, with 36 and 37 the count is the
 *                               entry, and with the others it is 0; 21 is a Begin that isn't 1 to the current plan's
 *                               count. Which of the files is refused isn't told: cb_read_plan of each tells it
 */
uint32_t cb_write_schedule(const uint8_t *current, cb_length current_len, const uint8_t *previous, cb_length previous_len,
                           cb_length begin, uint8_t *out, cb_length out_len);

/*
 * Checks a schedule message beside the plans: number + 256 * slot, or the entry with 36 and 37. Nothing is written.
 *
 *   0                           the message is true to the plans at every slot
 *   the current file's, the previous file's, 35, 16, 18, 20, 21, 22, 23, 24
 *                               the first of these that applies, in this order; with a file's 36 and 37 the count is
 *                               the entry, and with the others it is 0
 *   40                          it reads well but isn't true; the count is the lowest slot that is untrue, 1 to 48, or
 *                               0 where End differs from the current plan's count
 */
uint32_t cb_check_schedule(const uint8_t *current, cb_length current_len, const uint8_t *previous, cb_length previous_len,
                           const uint8_t *message, cb_length message_len, cb_length received);

/* Rules of truth at a slot, by their place in document 01's list. Where several fail at a slot, the first is told. */
#define CB_RULE_LOWEST   1 /* the lowest slot with its page: a first transmission with its low 15 bits, or advised */
#define CB_RULE_LATER    2 /* a later slot with its page: a repeat naming the lowest, or advised, optional or reserved */
#define CB_RULE_OPTIONAL 3 /* planned optional: optional or reserved */
#define CB_RULE_ADVISED  4 /* planned advised: advised */
#define CB_RULE_NEW      5 /* the new bit: 1 for advised, 0 for optional and reserved, and for first and repeat 1 exactly if
                              the previous plan lacks the page */

/*
 * Checks a schedule message beside the plans, slot by slot: slot n in verdicts[n - 1]. It returns what cb_check_schedule
 * returns, but where the memory for verdicts isn't 48 octets.
 *
 *   0, and 40 with a slot       verdicts: of each slot up to End, which is the current plan's count, 0 where it is told
 *                               truly or else the first rule that fails, CB_RULE_LOWEST to CB_RULE_NEW; then 0 up to 48
 *   15                          verdicts: untouched; verdicts_len isn't 48, which comes before all other refusals
 *   all others, and 40 with 0   verdicts: untouched
 */
uint32_t cb_check_slots(const uint8_t *current, cb_length current_len, const uint8_t *previous, cb_length previous_len,
                        const uint8_t *message, cb_length message_len, cb_length received,
                        uint8_t *verdicts, cb_length verdicts_len);

/*
 * The board's decision. With known false there is no schedule, and the message isn't looked at, but its pointer may not
 * be null. In held, bit n - 1 is set where the page of slot n is held: begin a period with 0, and let cb_enter set the
 * bits. Bits from 48 on mean nothing.
 */
#define CB_MOST_WANTED 64 /* identifiers that can be wanted at a time */

#define CB_SLOT_NUMBER  41 /* refused: the slot isn't 1 to 48 */
#define CB_WANTED_COUNT 42 /* refused: over 64 wanted identifiers */

#define CB_READ 1 /* the count that says read; 0 says skip */

/*
 * Decides for a slot: number + 256 * (1 read, 0 skip). Nothing is written.
 *
 *   0, count 1                  read: there is no schedule, it is refused, it doesn't reach the slot, or it tells the slot
 *                               as advised, as a first transmission that matches a wanted identifier in 15 bits, or as
 *                               a repeat of one that matches and isn't held
 *   0, count 0                  skip
 *   41, 42                      the first of these that applies; the count is 0
 */
uint32_t cb_decide(bool known, const uint8_t *message, cb_length message_len, cb_length received, cb_length slot,
                   const uint16_t *wanted, cb_length wanted_len, uint64_t held);

/*
 * Gives the held set with the page got in a slot entered: where the schedule tells the slot as a repeat, under the slot
 * that the repeat names; otherwise under its own, also where there is no schedule, it is refused or it doesn't reach the
 * slot. A slot that isn't 1 to 48 enters nothing. Bits that were set stay set. Nothing is refused, and nothing written.
 */
uint64_t cb_enter(bool known, const uint8_t *message, cb_length message_len, cb_length received, cb_length slot,
                  uint64_t held);

#ifdef __cplusplus
}
#endif

#endif
