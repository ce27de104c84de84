/* A board's program in small: the call lamp of samples/lamp.panel in slices of 50 machine cycles, with the building switched off after each
   of them; the same lamp, reset from the machine room; a panel that stops; what a damaged image answers; and an image from before there was
   a reset, taken forward and back; a panel with a smaller chip; states to come back to; and the line changes that matter to a panel that halts. example.out has what it prints. */
#include <inttypes.h>
#include <stdio.h>
#include <string.h>
#include "wharfnettle.h"

enum { CYCLES = 200, SLICE = 50 };

/* samples/lamp.asm tells this ROM, samples/make its schedule: bit 0 of port A is the button, bit 1 says that the car is here, bit 0 of port E is the
   lamp. The rest of the ROM is NOPs. */
static const uint8_t lamp_rom[WHARFNETTLE_ROM] = {0x54, 0xC3, 0x74, 0x55, 0xC0, 0x64, 0xC0};

/* The button is pressed at cycle 20 and let go at 26; the car comes at 100 and leaves at 106. INT is high throughout. */
static const uint8_t lamp_schedule[] = {
    0, 0, 0, 0, 0, 20,  0x10, 0, 1, 0,
    0, 0, 0, 0, 0, 26,  0x00, 0, 1, 0,
    0, 0, 0, 0, 0, 100, 0x20, 0, 1, 0,
    0, 0, 0, 0, 0, 106, 0x00, 0, 1, 0,
};

/* The button is pressed at cycle 20 and let go at 26. RES is high from 50 on for six cycles. */
static const uint8_t reset_schedule[] = {
    0, 0, 0, 0, 0, 20, 0x10, 0, 1, 0,
    0, 0, 0, 0, 0, 26, 0x00, 0, 1, 0,
    0, 0, 0, 0, 0, 50, 0x00, 0, 1, 1,
    0, 0, 0, 0, 0, 56, 0x00, 0, 1, 0,
};

/* OCD A5, LI 3, OE, and code 1C, which is no instruction. */
static const uint8_t stopping_rom[WHARFNETTLE_ROM] = {0x1E, 0xA5, 0x93, 0x44, 0x1C};

/* The records of a call, and its counts. */
static void print_call(const uint8_t *log, const uint8_t *report, uint8_t number)
{
    uint64_t bytes = wharfnettle_count(report, WHARFNETTLE_LOG_BYTES);
    for (const uint8_t *record = log; record < log + bytes; record += 8) {
        uint64_t cycle = 0;
        for (int k = 0; k < 6; k++)
            cycle = cycle << 8 | record[k];
        if (record[6])
            printf("  cycle %" PRIu64 ": port %c = %X\n", cycle, 'A' + record[6], record[7]);
        else
            printf("  cycle %" PRIu64 ": reset\n", cycle);
    }
    printf("  number %d: cycles %" PRIu64 ", instructions %" PRIu64 ", log bytes %" PRIu64 ", steps %" PRIu64 "\n", number,
           wharfnettle_count(report, WHARFNETTLE_CYCLES), wharfnettle_count(report, WHARFNETTLE_INSTRUCTIONS), bytes,
           wharfnettle_count(report, WHARFNETTLE_STEPS));
}

/* The panel in slices. Only `kept` outlasts a switch-off. */
static void slices(void)
{
    uint8_t kept[WHARFNETTLE_IMAGE];
    uint64_t instructions = 0;
    wharfnettle_fresh(kept, sizeof kept);
    for (unsigned done = 0; done < CYCLES; done += SLICE) {
        uint8_t image[WHARFNETTLE_IMAGE], log[WHARFNETTLE_LOG(SLICE)], report[WHARFNETTLE_REPORT];
        memcpy(image, kept, sizeof image);
        /* the plain runner and the timer-skipping one in turn: it makes no difference */
        uint8_t number = wharfnettle_call(image, sizeof image, lamp_rom, sizeof lamp_rom, lamp_schedule, sizeof lamp_schedule,
                                          log, sizeof log, SLICE, done / SLICE % 2, report, sizeof report, WHARFNETTLE_UPD546);
        printf("slice from cycle %u\n", done);
        print_call(log, report, number);
        instructions += wharfnettle_count(report, WHARFNETTLE_INSTRUCTIONS);
        memcpy(kept, image, sizeof kept);
    }
    printf("instructions of all slices: %" PRIu64 "\n", instructions);

    /* One unbroken call ends with the same image. */
    uint8_t image[WHARFNETTLE_IMAGE], log[WHARFNETTLE_LOG(CYCLES)], report[WHARFNETTLE_REPORT];
    wharfnettle_fresh(image, sizeof image);
    uint8_t number = wharfnettle_call(image, sizeof image, lamp_rom, sizeof lamp_rom, lamp_schedule, sizeof lamp_schedule,
                                      log, sizeof log, CYCLES, 0, report, sizeof report, WHARFNETTLE_UPD546);
    printf("unbroken\n");
    print_call(log, report, number);
    printf("the images are %s\n", memcmp(image, kept, sizeof image) ? "NOT the same" : "the same");
}

/* A switch-off after two cycles with RES high: the image has their count, and the reset comes in the fourth. */
static void resets(void)
{
    uint8_t image[WHARFNETTLE_IMAGE], log[WHARFNETTLE_LOG(52)], report[WHARFNETTLE_REPORT];
    wharfnettle_fresh(image, sizeof image);
    for (int k = 0; k < 2; k++) {
        uint8_t number = wharfnettle_call(image, sizeof image, lamp_rom, sizeof lamp_rom, reset_schedule, sizeof reset_schedule,
                                          log, sizeof log, 52, 1, report, sizeof report, WHARFNETTLE_UPD546);
        printf("52 cycles\n");
        print_call(log, report, number);
        printf("  RES was high for %d cycles on end\n", image[WHARFNETTLE_IMAGE - 1]);
    }
}

/* A panel that stops for want of log, goes on with a new one, and stops at a code that is no instruction. */
static void stops(void)
{
    uint8_t image[WHARFNETTLE_IMAGE], log[20], report[WHARFNETTLE_REPORT];
    wharfnettle_fresh(image, sizeof image);
    for (int k = 0; k < 3; k++) {
        uint8_t number = wharfnettle_call(image, sizeof image, stopping_rom, sizeof stopping_rom, NULL, 0, log, sizeof log, 10, 0,
                                          report, sizeof report, WHARFNETTLE_UPD546);
        printf("a log of 20 bytes\n");
        print_call(log, report, number);
    }
}

/* What a call answers with an image of this length in which a byte was changed, and whether it left the image alone. */
static void damaged(const char *what, size_t length, size_t at, uint8_t byte)
{
    uint8_t image[WHARFNETTLE_IMAGE + 1] = {0}, before[WHARFNETTLE_IMAGE + 1], report[WHARFNETTLE_REPORT];
    wharfnettle_fresh(image, sizeof image);
    image[at] = byte;
    memcpy(before, image, sizeof image);
    uint8_t number = wharfnettle_call(image, length, lamp_rom, sizeof lamp_rom, NULL, 0, NULL, 0, 10, 0, report, sizeof report,
                                      WHARFNETTLE_UPD546);
    printf("%s: %s %d, image %s, cycles %" PRIu64 "\n", what, wharfnettle_is_refusal(number) ? "refused" : "taken", number,
           memcmp(before, image, sizeof image) ? "changed" : "as it was", wharfnettle_count(report, WHARFNETTLE_CYCLES));
}

static uint8_t convert(const uint8_t *from, size_t from_length, uint8_t *to, size_t to_length, uint64_t version)
{
    return wharfnettle_convert(from, from_length, to, to_length, version, WHARFNETTLE_UPD546);
}

/* A board from before there was a reset has images of version 1. One is taken forward, runs, and goes back. */
static void converted(void)
{
    uint8_t old[WHARFNETTLE_OLD_IMAGE], back[WHARFNETTLE_OLD_IMAGE], image[WHARFNETTLE_IMAGE], log[WHARFNETTLE_LOG(10)];
    uint8_t report[WHARFNETTLE_REPORT];
    wharfnettle_fresh(image, sizeof image);
    printf("back to version 1: %d\n", convert(image, sizeof image, old, sizeof old, 1));
    uint8_t number = wharfnettle_call(old, sizeof old, lamp_rom, sizeof lamp_rom, NULL, 0, log, sizeof log, 10, 0, report, sizeof report,
                                      WHARFNETTLE_UPD546);
    printf("a call on version 1: %d\n", number);
    printf("forward to version 2: %d\n", convert(old, sizeof old, image, sizeof image, 2));
    number = convert(image, sizeof image, back, sizeof back, 1);
    printf("and back: %d, the images are %s\n", number, memcmp(old, back, sizeof old) ? "NOT the same" : "the same");
    image[WHARFNETTLE_IMAGE - 1] = 2;
    printf("back with a count of 2: %d\n", convert(image, sizeof image, back, sizeof back, 1));
    printf("forward to 81 bytes: %d\n", convert(old, sizeof old, image, sizeof image - 1, 2));
    printf("to version 3: %d\n", convert(old, sizeof old, image, sizeof image, 3));
}

/* A chip of 1,000 bytes with rows 0 and 1 and two levels. Its panel goes two calls deep and writes 7 to port E there; it counts in row 1
   and in row 2, which isn't there, and shows both counts; then it jumps behind its last address, 3E7. */
enum { SMALL_ROM = 1000, SMALL_ROWS = 1 << 0 | 1 << 1, SMALL_LEVELS = 2 };
static const uint8_t start[] = {
    0xA9, 0x00,                         /* CAL 100 */
    0x15, 0x10, 0x1D, 0x00, 0x38, 0x44, /* LDI 10, INM, NOP, LM, OE */
    0x15, 0x20, 0x1D, 0x00, 0x38, 0x44, /* LDI 20, INM, NOP, LM, OE */
    0xA3, 0xE8,                         /* JMP 3E8 */
};
static const uint8_t at_100[] = {0xAB, 0xE0, 0x48}; /* CAL 3E0, RT */
static const uint8_t at_3E0[] = {0x97, 0x44, 0x48}; /* LI 7, OE, RT */

static void smaller(void)
{
    uint8_t rom[SMALL_ROM] = {0}, image[WHARFNETTLE_IMAGE], log[WHARFNETTLE_LOG(40)], report[WHARFNETTLE_REPORT];
    memcpy(rom, start, sizeof start);
    memcpy(rom + 0x100, at_100, sizeof at_100);
    memcpy(rom + 0x3E0, at_3E0, sizeof at_3E0);
    wharfnettle_fresh(image, sizeof image);
    uint8_t number = wharfnettle_call(image, sizeof image, rom, sizeof rom, NULL, 0, log, sizeof log, 40, 0, report, sizeof report,
                                      SMALL_ROM, SMALL_ROWS, SMALL_LEVELS);
    printf("a chip of 1,000 bytes, two rows and two levels\n");
    print_call(log, report, number);
    number = wharfnettle_call(image, sizeof image, rom, sizeof rom, NULL, 0, NULL, 0, 1, 0, report, sizeof report, WHARFNETTLE_UPD546);
    printf("the uPD546 with this ROM: %d\n", number);
    number = wharfnettle_convert(image, sizeof image, NULL, 0, 1, SMALL_ROM, 32, SMALL_LEVELS);
    printf("a sheet with 32 for the rows: %d\n", number);
    image[27 + 2 * 8] = 0x10; /* word 0 of row 2 */
    number = wharfnettle_call(image, sizeof image, rom, sizeof rom, NULL, 0, NULL, 0, 1, 0, report, sizeof report, SMALL_ROM, SMALL_ROWS,
                              SMALL_LEVELS);
    printf("an image with a word in row 2: %d\n", number);
}

/* A store for two images. */
static uint8_t store[2 * WHARFNETTLE_ENTRY];

static uint8_t keep(const char *name, const uint8_t *image)
{
    return wharfnettle_store(store, sizeof store, (const uint8_t *)name, WHARFNETTLE_NAME, image, WHARFNETTLE_IMAGE, WHARFNETTLE_UPD546);
}

static uint8_t recall(const char *name, uint8_t *image)
{
    return wharfnettle_recall(store, sizeof store, (const uint8_t *)name, WHARFNETTLE_NAME, image, WHARFNETTLE_IMAGE, WHARFNETTLE_UPD546);
}

/* So many cycles of the lamp. */
static void run_lamp(uint8_t *image, uint64_t n)
{
    uint8_t log[WHARFNETTLE_LOG(CYCLES)], report[WHARFNETTLE_REPORT];
    uint8_t number = wharfnettle_call(image, WHARFNETTLE_IMAGE, lamp_rom, sizeof lamp_rom, lamp_schedule, sizeof lamp_schedule, log,
                                      sizeof log, n, 1, report, sizeof report, WHARFNETTLE_UPD546);
    print_call(log, report, number);
}

/* The lamp is run up to where it is lit, which is stored; it is run on, recalled, and run on again: with the same records. */
static void returns(void)
{
    uint8_t image[WHARFNETTLE_IMAGE], twice[WHARFNETTLE_IMAGE];
    wharfnettle_fresh(image, sizeof image);
    printf("stored as fresh: %d\n", keep("fresh   ", image));
    run_lamp(image, 60);
    printf("stored as lit: %d\n", keep("lit     ", image));
    run_lamp(image, CYCLES - 60);
    memcpy(twice, image, sizeof twice);
    printf("recalled lit: %d\n", recall("lit     ", image));
    run_lamp(image, CYCLES - 60);
    printf("the images are %s\n", memcmp(image, twice, sizeof image) ? "NOT the same" : "the same");
    printf("a third name: %d\n", keep("dark    ", image));
    printf("stored as lit again: %d\n", keep("lit     ", image));
    printf("recalled dark: %d\n", recall("dark    ", image));
    printf("a name of eight zeros: %d\n", recall("\0\0\0\0\0\0\0", image));
    image[0] = 'u';
    printf("a damaged image: %d\n", keep("dark    ", image));
    memcpy(store + WHARFNETTLE_ENTRY, store, WHARFNETTLE_NAME);
    printf("a store with a name twice: %d\n", recall("fresh   ", image));
}

/* TPA 0, JCP 000, TPA 1, JCP 002, and code 1C: the panel waits for the button, then for the car, and halts. */
static const uint8_t halting_rom[WHARFNETTLE_ROM] = {0x54, 0xC0, 0x55, 0xC2, 0x1C};

/* How many of the first records of the lamp's schedule halt it. */
static void find(const char *words, const uint8_t *image, uint64_t n, size_t log_length)
{
    uint8_t log[WHARFNETTLE_LOG(CYCLES)], found[WHARFNETTLE_FOUND];
    uint8_t number = wharfnettle_shortest(image, WHARFNETTLE_IMAGE, halting_rom, sizeof halting_rom, lamp_schedule, sizeof lamp_schedule, n,
                                          log, log_length, found, sizeof found, WHARFNETTLE_UPD546);
    printf("%s: number %d, records %" PRIu64 "\n", words, number, wharfnettle_records(found));
}

/* The car leaves at cycle 106: that line change doesn't matter. The three before it do. */
static void matters(void)
{
    uint8_t image[WHARFNETTLE_IMAGE], kept[WHARFNETTLE_IMAGE], found[WHARFNETTLE_FOUND - 1];
    wharfnettle_fresh(image, sizeof image);
    memcpy(kept, image, sizeof kept);
    find("a panel that halts", image, CYCLES, WHARFNETTLE_LOG(CYCLES));
    find("up to the car", image, 100, WHARFNETTLE_LOG(CYCLES));
    find("with a log a byte short", image, CYCLES, WHARFNETTLE_LOG(CYCLES) - 1);
    printf("the image is %s\n", memcmp(image, kept, sizeof image) ? "NOT the same" : "the same");
    image[0] = 'u';
    find("an image that begins with u43", image, CYCLES, WHARFNETTLE_LOG(CYCLES));
    printf("seven bytes for the records: %d\n",
           wharfnettle_shortest(kept, sizeof kept, halting_rom, sizeof halting_rom, lamp_schedule, sizeof lamp_schedule, 0, NULL, 0, found,
                                sizeof found, WHARFNETTLE_UPD546));
}

int main(void)
{
    slices();
    resets();
    stops();
    damaged("a sound image", 82, 14, 15);
    damaged("an image of 81 bytes", 81, 14, 15);
    damaged("an image of 83 bytes", 83, 14, 15);
    damaged("an image that begins with u43", 82, 0, 'u');
    damaged("an image of version 1 with 82 bytes", 82, 4, 1);
    damaged("an image with an Acc of 16", 82, 14, 16);
    damaged("an image with mark 4, that of LI", 82, 16, 4);
    damaged("an image with a mark of 5", 82, 16, 5);
    damaged("an image with a count of 4", 82, 81, 4);
    damaged("an image with a count of 5", 82, 81, 5);
    converted();
    smaller();
    returns();
    matters();
    return 0;
}
