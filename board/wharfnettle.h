/*
 * Wharfnettle for the board's C program: one call restores a panel from its image, runs it for n machine cycles, and saves it.
 *
 * A board keeps three things of a panel: its ROM, its line schedule and its image. The image is the panel itself, 82 bytes. Between two
 * calls it may stand in a file, and the building may be switched off: slices end as one unbroken run ends, whichever cycles they are cut
 * at and whichever runner each of them has. example.c makes the calls, keeper.c keeps a panel in files, bank.c runs sixteen landings.
 *
 *     uint8_t image[WHARFNETTLE_IMAGE], log[WHARFNETTLE_LOG(1000)], report[WHARFNETTLE_REPORT];
 *     wharfnettle_fresh(image, sizeof image);
 *     uint8_t number = wharfnettle_call(image, sizeof image, rom, WHARFNETTLE_ROM, schedule, schedule_length,
 *                                       log, sizeof log, 1000, 1, report, sizeof report, WHARFNETTLE_UPD546);
 *
 * The last three arguments are the sheet, which says how much of the machine the panel's chip has; WHARFNETTLE_UPD546 stands for those
 * of the uPD546 itself.
 *
 * Link with libwharfnettle.a, which board/build makes (x86-64 Linux). It needs no other library, not even the C library.
 */
#ifndef WHARFNETTLE_H
#define WHARFNETTLE_H

#include <stddef.h>
#include <stdint.h>

#ifdef __cplusplus
extern "C" {
#endif

/* Lengths in bytes. */
#define WHARFNETTLE_IMAGE 82          /* exactly, else 31 */
#define WHARFNETTLE_OLD_IMAGE 81      /* an image of version 1, which boards have that know no reset; wharfnettle_convert takes it on */
#define WHARFNETTLE_ROM 2000          /* of the uPD546; exactly as many as the sheet says, else 21 */
#define WHARFNETTLE_SCHEDULE 40960    /* at most, 4,096 records of 10 bytes, else 12; none is fine */
#define WHARFNETTLE_REPORT 32         /* at least, else 1 */
#define WHARFNETTLE_NAME 8            /* exactly, else 51 */
#define WHARFNETTLE_ENTRY 90          /* an entry of a store, a name and an image; a store has some of them, else 51 */
#define WHARFNETTLE_PANEL 147         /* an entry of a bank, a panel with what it needs and what it did; a bank has some of them, else 63 */
#define WHARFNETTLE_PANELS 16         /* at most, else 61 */
#define WHARFNETTLE_FOUND 8           /* at least, else 1 */

/*
 * The sheet of a chip, three numbers that are given last. It isn't kept in the image: the board knows its chip, and gives the same sheet
 * with every call for a panel.
 *
 *   rom_bytes   1 to 2,000; the last address is one less, and a PC beyond it stops with 22
 *   rows        which of RAM rows 0 to 4 there are, bit i for row i, so 0 to 31. Row 7 is always there, 5 and 6 never. A row that isn't
 *               there reads 0 and loses what is written to it
 *   levels      of the stack, 1 to 3; one call more than that loses the oldest return
 *
 * A sheet outside these limits is refused with 71. A panel holds zeros in the rows and levels that its chip hasn't: another image is
 * refused with 34. So a panel of a smaller chip may go on under a larger one's sheet, but for its ROM, and not always the other way round.
 *
 * A chip of 1,000 bytes with rows 0 and 1 and two levels is 1000, 3, 2. The uPD546 itself:
 */
#define WHARFNETTLE_UPD546 2000, 31, 3

/* A log of so many bytes is never too short for n cycles, so 3 isn't answered. */
#define WHARFNETTLE_LOG(n) (16 * (size_t)(n))

/*
 * What the calls answer.
 *
 *   number   whose hand                  what it says
 *   0                                    all n cycles are done
 *   1        the caller                  the report of the board's call has under 32 bytes; a buffer is shorter than its image, or than the 8 bytes of k
 *   2        the caller                  the panel's cycle number and n together pass 2^48 - 1
 *   3        the caller                  a stop: the log lacks the 8 or 16 bytes of the next instruction, or the 8 of a reset
 *   11       whoever wrote the schedule  the schedule's length is no multiple of 10
 *   12       whoever wrote the schedule  the schedule has over 40,960 bytes
 *   13       whoever wrote the schedule  a record's INT level or its RES isn't 0 or 1
 *   14       whoever wrote the schedule  a record's cycle isn't above the last one's
 *   21       whoever read the ROM        the ROM hasn't 2,000 bytes, or as many as its sheet says
 *   22       whoever read the ROM        a stop: a byte above address 7CF is needed, or above the sheet's last one
 *   23       whoever read the ROM        a stop: code 1C or 45 is due, which is no instruction
 *   31       whoever kept the image      the image hasn't 82 bytes
 *   32       whoever kept the image      the image doesn't begin with U43
 *   33       whoever kept the image      the image's version doesn't go with its length
 *   34       whoever kept the image      a field of the image is above its width or against its rule, or holds something that this chip doesn't have
 *   51       the caller                  the store or an image is malformed, or the name isn't eight bytes or is zero
 *   52       the caller                  the store has no such name
 *   53       the caller                  the store has no unused entry for a new name
 *   54       the caller                  an image of version 1 is wanted while the count of cycles with RES high isn't 0
 *   61       the caller                  the bank has more than sixteen panels
 *   62       the caller                  the lengths of a bank's ROMs, schedules or logs together exceed their buffer
 *   63       the caller                  the bank's length is no multiple of 147
 *   71       whoever wrote the sheet     the sheet is outside its limits: ROM bytes 1 to 2,000, rows 0 to 31, levels 1 to 3
 *   81       the caller                  the log for the trials has under 16 bytes for each machine cycle
 *   82       the caller                  the panel doesn't stop: with the whole schedule it finishes its n cycles
 *
 * A stop (3, 22, 23) leaves the panel before the instruction that wasn't begun. Image, log and report are those of the cycles up to
 * there, and a call may go on: after 3 with a new log, after 22 and 23 it stops at once again.
 *
 * The others above 0 are refusals. Image and log stay as they were, and the report has 32 zeros; with 1 it stays as it was. With several
 * faults the first of this order is answered: 1, 71, 31, 32, 33, 34, 21, 12, 11, then by record 13 and 14, then 2.
 */
static inline int wharfnettle_is_stop(int number)
{
    return number == 3 || number == 22 || number == 23;
}

static inline int wharfnettle_is_refusal(int number)
{
    return number != 0 && !wharfnettle_is_stop(number);
}

/*
 * image      read, and written unless the call is refused
 * rom        read
 * schedule   read; records of 10 bytes, the last of which is RES, the reset line
 * log        written from its first byte on, records of 8 bytes; that of a reset has port 0 and value 0; bytes past them stay
 * n          how many machine cycles; 0 is allowed, and leaves image and log as they were
 * runner     0 the plain one; any other number the timer-skipping one, which jumps over timer waits and does the same
 * report     written: cycles, instructions, log bytes and steps of this call, 8 bytes each, big-endian; bytes past the 32 stay.
 *            Steps tell how much work it was; the other three don't depend on the runner.
 * rom_bytes, rows, levels   the sheet
 *
 * Whatever the bytes and the numbers are, the call returns and does what is written here: that is proved. What it can't see is the
 * caller's to see to:
 *
 *   - each pointer leads to as many bytes as its length says; where the length is 0 it isn't used, and may be NULL;
 *   - image, log and report overlap neither each other nor rom or schedule;
 *   - while the call runs nobody else writes any of them, or reads image, log or report;
 *   - there are 3 KiB of stack, and 4 for wharfnettle_shortest.
 *
 * The call allocates nothing, calls nothing and keeps nothing, so calls with different buffers may run at the same time. The time that
 * it takes grows with n and with the schedule, which is checked whole at each call.
 */
uint8_t wharfnettle_call(uint8_t *image, size_t image_length,
                         const uint8_t *rom, size_t rom_length,
                         const uint8_t *schedule, size_t schedule_length,
                         uint8_t *log, size_t log_length,
                         uint64_t n, uint64_t runner,
                         uint8_t *report, size_t report_length,
                         uint64_t rom_bytes, uint64_t rows, uint64_t levels);

/*
 * Writes the image of a panel that was never run: cycle 0, all zero, INT high. It is one of every chip. Answers 0; or 1 where the buffer has under 82 bytes, which
 * then stay as they were. Bytes past the 82 stay.
 */
uint8_t wharfnettle_fresh(uint8_t *image, size_t image_length);

/*
 * Writes the image of the same panel in the version wanted, 1 or 2, of 81 or 82 bytes: so a board takes an image on that was kept before
 * there was a reset, or hands one back to a board that knows none. Forward and back it is the same bytes.
 *
 * from       read; an image of 81 bytes, version 1, or of 82, version 2
 * to         written: 80 + version bytes; bytes past them stay
 * version    1 or 2
 * rom_bytes, rows, levels   the sheet
 *
 * Answers 0; or, in this order, 71; 31 where `from` has neither length, 32, 33 where its version doesn't go with its length, 34; 33 where the
 * version wanted is neither 1 nor 2; 54 where version 1 is wanted and the last byte of `from`, its count of cycles with RES high, isn't 0:
 * that panel is about to be reset, or is, and version 1 can't say so; 1 where `to` is shorter than the image wanted. Then `to` stays as it
 * was. The parts must not overlap, and what holds of wharfnettle_call's pointers holds of these.
 */
uint8_t wharfnettle_convert(const uint8_t *from, size_t from_length, uint8_t *to, size_t to_length, uint64_t version,
                            uint64_t rom_bytes, uint64_t rows, uint64_t levels);

/*
 * States to come back to: a store keeps images under names. It is a buffer of the board's, WHARFNETTLE_ENTRY bytes for each image that it
 * has room for. At first it is all zero; then these two calls alone write it, and it may stand in a file. A name is any eight bytes but
 * eight zeros. Entries stand in the order in which their names were first stored, each a name and then its image; behind them all is zero.
 *
 *     static uint8_t store[16 * WHARFNETTLE_ENTRY];
 *     wharfnettle_store(store, sizeof store, name, WHARFNETTLE_NAME, image, sizeof image, WHARFNETTLE_UPD546);
 *     wharfnettle_recall(store, sizeof store, name, WHARFNETTLE_NAME, image, sizeof image, WHARFNETTLE_UPD546);
 *
 * A run from what is recalled is a run from what was stored last under that name.
 *
 * wharfnettle_store keeps the image under the name: in the place of the one that has this name, or in the first unused entry.
 *
 * store      read, and written where 0 is answered: one entry, the others stay
 * name       read
 * image      read; version 2, of 82 bytes
 * rom_bytes, rows, levels   the sheet
 *
 * wharfnettle_recall writes the image that is kept under the name to a buffer. So a call that then runs on that buffer leaves the store.
 *
 * store      read
 * name       read
 * image      written where 0 is answered: its first 82 bytes; bytes past them stay
 * rom_bytes, rows, levels   the sheet
 *
 * They answer 0; or, in this order, 71; 51 where the store isn't as above, has a name twice or an image that a call would refuse under
 * this sheet (31 to 34), where the name hasn't eight bytes or is eight zeros, or where the image given to a store is no such image; then a
 * store 53 where the name is new and no entry is unused, and a recall 52 where no entry has the name, and after that 1 where the buffer has
 * under 82 bytes. Then nothing is written. The parts must not overlap, and what holds of wharfnettle_call's pointers holds of these.
 *
 * Each call judges the whole store: docs/MEASUREMENTS.md has what that costs.
 */
uint8_t wharfnettle_store(uint8_t *store, size_t store_length,
                          const uint8_t *name, size_t name_length,
                          const uint8_t *image, size_t image_length,
                          uint64_t rom_bytes, uint64_t rows, uint64_t levels);

uint8_t wharfnettle_recall(const uint8_t *store, size_t store_length,
                           const uint8_t *name, size_t name_length,
                           uint8_t *image, size_t image_length,
                           uint64_t rom_bytes, uint64_t rows, uint64_t levels);

/*
 * Sixteen landings: a bank is a row of up to sixteen panels, and one call runs them all. It is a buffer of the board's, WHARFNETTLE_PANEL
 * bytes for each panel, in row order:
 *
 *     0    the image, 82 bytes
 *     82   the wish, the machine cycles that the panel would like of a round, 8 bytes, big-endian, as are all numbers here
 *     90   how many bytes its ROM, its schedule and its log have, 8 bytes each
 *     114  what the last round did: a report as wharfnettle_call writes it, 32 bytes
 *     146  the panel's number of the last round, as wharfnettle_call answers it
 *
 * Three buffers hold the ROMs, the schedules and the logs of all panels, end to end in row order: a panel's part begins where the part of
 * the one before it ends. wharfnettle_set writes an entry of a panel that was never run; the functions below it read one.
 *
 *     static uint8_t bank[16 * WHARFNETTLE_PANEL];
 *     for (int k = 0; k < 16; k++)
 *         wharfnettle_set(bank + k * WHARFNETTLE_PANEL, 1000, WHARFNETTLE_ROM, schedule_length[k], WHARFNETTLE_LOG(1000));
 *     number = wharfnettle_round(bank, sizeof bank, roms, sizeof roms, schedules, sizeof schedules, logs, sizeof logs,
 *                                16000, WHARFNETTLE_UPD546);
 *
 * bank       read, and written where 0 is answered: of each panel the image, unless it is refused, the report and the number. Wish and
 *            lengths stay
 * roms       read
 * schedules  read
 * logs       written where 0 is answered: each panel's records from the first byte of its part on; all other bytes stay
 * t          how many machine cycles the round has for all panels together; 0 is allowed
 * rom_bytes, rows, levels   the sheet, one for all panels
 *
 * Of m panels each is first granted the smaller of its wish and t / m, rounded down. What is left goes to wishes that aren't met, in row
 * order. So no panel gets more than it wishes, none less than its share of t unless it wishes less, and t is used up or every wish is met.
 * Each panel is then run for its grant as by wharfnettle_call with runner 1. A panel that stops or is refused holds nobody up; what it
 * doesn't use of its grant nobody gets. A log of WHARFNETTLE_LOG(wish) bytes is never too short.
 *
 * Answers 0, whatever the panels' own numbers are; or, in this order, 71; 61 where there are more than sixteen panels; 62 where the lengths
 * of the ROMs, of the schedules or of the logs together exceed their buffer; 63 where the bank's length is no multiple of
 * WHARFNETTLE_PANEL. Then nothing is written. bank and logs overlap neither each other nor the other parts, and what holds of
 * wharfnettle_call's pointers holds of these. A bank may stand in a file between two rounds, as an image may between two calls.
 */
uint8_t wharfnettle_round(uint8_t *bank, size_t bank_length,
                          const uint8_t *roms, size_t roms_length,
                          const uint8_t *schedules, size_t schedules_length,
                          uint8_t *logs, size_t logs_length,
                          uint64_t t,
                          uint64_t rom_bytes, uint64_t rows, uint64_t levels);

/*
 * The shortest schedule that still stops. Of a panel that stops with 22 or 23 it finds the beginning of the schedule that matters: the
 * smallest k such that the run with only the first k records stops with the same number as with all of them. With every smaller k the run
 * finishes or stops otherwise. A k above it may finish too.
 *
 *     uint8_t found[WHARFNETTLE_FOUND];
 *     uint8_t number = wharfnettle_shortest(image, sizeof image, rom, WHARFNETTLE_ROM, schedule, schedule_length, 1000,
 *                                           log, sizeof log, found, sizeof found, WHARFNETTLE_UPD546);
 *     uint64_t k = wharfnettle_records(found);
 *
 * image      read: the panel from which each run goes
 * rom        read
 * schedule   read
 * n          the machine cycles of each run
 * log        lent to each run, with its first WHARFNETTLE_LOG(n) bytes, which hold nothing of use afterwards; bytes past them stay
 * found      written: k, 8 bytes, big-endian; zeros where the number is neither 22 nor 23; bytes past the 8 stay
 * rom_bytes, rows, levels   the sheet
 *
 * Answers 22 or 23, the number of the stop; or, in this order, 1 where `found` has under 8 bytes, which is then not written; 71; 31, 32, 33
 * and 34 of the image; 21, 12, 11, 13 and 14, 2; 81 where the log is shorter than WHARFNETTLE_LOG(n) bytes; 82 where the run with the whole
 * schedule finishes, so that there is nothing to find. Up to 81 the log stays as it was. The parts that are written must not overlap the
 * others, and what holds of wharfnettle_call's pointers holds of these.
 *
 * It makes a run of up to n cycles for each number of records up to k: docs/MEASUREMENTS.md has what that costs.
 */
uint8_t wharfnettle_shortest(const uint8_t *image, size_t image_length,
                             const uint8_t *rom, size_t rom_length,
                             const uint8_t *schedule, size_t schedule_length,
                             uint64_t n,
                             uint8_t *log, size_t log_length,
                             uint8_t *found, size_t found_length,
                             uint64_t rom_bytes, uint64_t rows, uint64_t levels);

/* The counts of a report. */
enum wharfnettle_count {
    WHARFNETTLE_CYCLES,
    WHARFNETTLE_INSTRUCTIONS,
    WHARFNETTLE_LOG_BYTES,
    WHARFNETTLE_STEPS
};

static inline uint64_t wharfnettle_count(const uint8_t *report, enum wharfnettle_count which)
{
    uint64_t count = 0;
    for (int k = 0; k < 8; k++)
        count = count << 8 | report[8 * (int)which + k];
    return count;
}

/* A panel's report and number of the last round. */
static inline const uint8_t *wharfnettle_report(const uint8_t *panel)
{
    return panel + 114;
}

static inline uint8_t wharfnettle_number(const uint8_t *panel)
{
    return panel[146];
}

/* A new wish; the rest of the entry stays. */
static inline void wharfnettle_wish(uint8_t *panel, uint64_t wish)
{
    for (int k = 0; k < 8; k++)
        panel[82 + k] = (uint8_t)(wish >> (56 - 8 * k));
}

/* The entry of a panel that was never run, with its wish and the bytes of its ROM, its schedule and its log. */
static inline void wharfnettle_set(uint8_t *panel, uint64_t wish, uint64_t rom, uint64_t schedule, uint64_t log)
{
    const uint64_t numbers[] = {wish, rom, schedule, log, 0, 0, 0, 0};
    wharfnettle_fresh(panel, WHARFNETTLE_IMAGE);
    for (int k = 0; k < 64; k++)
        panel[82 + k] = (uint8_t)(numbers[k / 8] >> (56 - 8 * (k % 8)));
    panel[146] = 0;
}

/* k of wharfnettle_shortest. */
static inline uint64_t wharfnettle_records(const uint8_t *found)
{
    return wharfnettle_count(found, WHARFNETTLE_CYCLES);
}

#ifdef __cplusplus
}
#endif
#endif
