/* What a call costs.

       cost          prints the time of a call, in nanoseconds
       cost stack    prints the stack that a call takes, and a search, and fails above the 3 and 4 KiB that the header names
       cost calls COUNT RECORDS N
                     makes so many calls of n cycles with so many records ahead, and prints nothing: for counting instructions
       cost store    prints the time of storing and recalling, in nanoseconds
       cost stores COUNT ENTRIES USED WHAT
                     makes so many calls on a store of so many entries, of which the first are used, and prints nothing: WHAT is recall, of
                     the last used name, or keep, under that name
       cost rounds COUNT T HOW
                     makes so many rounds of T cycles on a bank of sixteen, and prints what it comes to; HOW is bank, by wharfnettle_round, or
                     calls, by wharfnettle_call on each panel for its sixteenth. Even panels are loads of request R-4 with all their records,
                     odd ones wait on their timer. tests/reference/examples/bank.rs does the same
       cost bank     prints the time of a round, in nanoseconds
       cost shortest COUNT RECORDS N HOW
                     makes so many searches with so many records, all of which matter, and trials of n cycles, and prints nothing; it ends
                     with 0 where each finds them all. HOW is round, of a panel that comes back to its state after a few cycles, or count,
                     of one that counts through five words of its RAM, and doesn't come back for 6,000,000 cycles
       cost searches FILE
                     makes the search of a panel's file as program `trace` reads it, and prints number and k

   board/build DIR && gcc -std=c11 -O2 board/cost.c -I DIR -L DIR -lwharfnettle -o DIR/cost && DIR/cost */
#define _DEFAULT_SOURCE
#include <inttypes.h>
#include <stdio.h>
#include <stdlib.h>
#include <string.h>
#include <time.h>
#include <ucontext.h>
#include "wharfnettle.h"

enum { RECORDS = 4096, SLICE = 100, STACK = 64 * 1024, ALLOWED = 3072, ALLOWED_SEARCH = 4096, UNUSED = 0xA5, ENTRIES = 200, LARGEST = 1600000 };

/* The first two landings of samples/lobby.panel, in a loop. And a timer of STM 63 that turns port F over when it has run out. */
static const uint8_t lobby[] = {0x54, 0xC4, 0x85, 0x70, 0x81, 0x50, 0xC9, 0x85, 0x60, 0x55, 0xCD, 0x85, 0x71, 0x81, 0x51, 0xD2, 0x85, 0x61, 0xC0};
static const uint8_t blink[] = {0x85, 0x14, 0xBF, 0x05, 0xC3, 0x10, 0x0E, 0xC1};

static uint8_t image[WHARFNETTLE_IMAGE], rom[WHARFNETTLE_ROM], schedule[10 * RECORDS], log_bytes[WHARFNETTLE_LOG(SLICE)];
static uint8_t report[WHARFNETTLE_REPORT];
static size_t schedule_length;
static uint64_t n, runner, rom_bytes, rows, levels;
static uint8_t number;

static void call(void)
{
    number = wharfnettle_call(image, sizeof image, rom, rom_bytes, schedule, schedule_length, log_bytes, sizeof log_bytes, n, runner,
                              report, sizeof report, rom_bytes, rows, levels);
}

/* The sheet of what follows. */
static void use_sheet(uint64_t its_rom, uint64_t its_rows, uint64_t its_levels)
{
    rom_bytes = its_rom;
    rows = its_rows;
    levels = its_levels;
}

/* A fresh panel with this ROM, and so many records from a cycle on, each a cycle after the last. */
static void begin(const uint8_t *code, size_t length, size_t records, uint64_t first)
{
    wharfnettle_fresh(image, sizeof image);
    memset(rom, 0, sizeof rom);
    memcpy(rom, code, length);
    schedule_length = 10 * records;
    for (size_t k = 0; k < records; k++) {
        uint8_t *record = schedule + 10 * k;
        for (int i = 0; i < 6; i++)
            record[i] = (uint8_t)((first + k) >> (40 - 8 * i));
        record[6] = (uint8_t)(k * 37);
        record[7] = 0;
        record[8] = 1;
        record[9] = 0;
    }
}

static uint64_t now(void)
{
    struct timespec time;
    clock_gettime(CLOCK_MONOTONIC, &time);
    return (uint64_t)time.tv_sec * 1000000000 + (uint64_t)time.tv_nsec;
}

static uint8_t store[ENTRIES * WHARFNETTLE_ENTRY], kept[WHARFNETTLE_IMAGE], name[WHARFNETTLE_NAME];
static size_t store_length;

static void keep(void)
{
    number = wharfnettle_store(store, store_length, name, sizeof name, kept, sizeof kept, rom_bytes, rows, levels);
}

static void recall(void)
{
    number = wharfnettle_recall(store, store_length, name, sizeof name, kept, sizeof kept, rom_bytes, rows, levels);
}

/* A store with room for so many entries, of which the first are used; the last of their names is asked for. */
static void begin_store(size_t entries, size_t used)
{
    memset(store, 0, sizeof store);
    store_length = WHARFNETTLE_ENTRY * entries;
    wharfnettle_fresh(kept, sizeof kept);
    memcpy(name, "entry   ", sizeof name);
    for (size_t k = 0; k < used; k++) {
        name[6] = (uint8_t)(k / 16);
        name[7] = (uint8_t)(k % 16);
        kept[14] = (uint8_t)(k % 16); /* Acc */
        keep();
    }
}

/* The bank: sixteen panels, and their parts end to end. */
static uint8_t bank[WHARFNETTLE_PANELS * WHARFNETTLE_PANEL], roms[WHARFNETTLE_PANELS * WHARFNETTLE_ROM];
static uint8_t schedules[WHARFNETTLE_PANELS * WHARFNETTLE_SCHEDULE], logs[WHARFNETTLE_LOG(LARGEST)];
static uint64_t t;

/* Seeds of R-4 whose loads run ten million cycles. */
static const uint32_t seeds[] = {0, 1, 2, 3, 4, 5, 6, 7};

/* Request R-4: each byte is the top eight bits of the new s. */
static uint8_t draw_byte(uint32_t *s)
{
    *s = 1664525 * *s + 1013904223;
    return (uint8_t)(*s >> 24);
}

static void load(uint32_t seed, uint8_t *to_rom, uint8_t *to_schedule)
{
    uint32_t s = seed;
    uint64_t cycle = 0;
    for (int k = 0; k < WHARFNETTLE_ROM; k++)
        to_rom[k] = draw_byte(&s);
    s = seed;
    for (int k = 0; k < RECORDS; k++, to_schedule += 10) {
        cycle += (uint64_t)draw_byte(&s) + 1;
        for (int b = 0; b < 6; b++)
            to_schedule[b] = (uint8_t)(cycle >> (40 - 8 * b));
        to_schedule[6] = draw_byte(&s);
        to_schedule[7] = draw_byte(&s);
        to_schedule[8] = draw_byte(&s) & 1;
        to_schedule[9] = 0;
    }
}

static size_t records_of(int panel)
{
    return panel % 2 ? 0 : WHARFNETTLE_SCHEDULE;
}

/* Each panel wishes a sixteenth of T. */
static void begin_bank(uint64_t cycles)
{
    uint8_t *to_schedule = schedules;
    t = cycles;
    memset(roms, 0, sizeof roms);
    for (int k = 0; k < WHARFNETTLE_PANELS; k++) {
        uint8_t *to_rom = roms + k * WHARFNETTLE_ROM;
        if (k % 2)
            memcpy(to_rom, blink, sizeof blink);
        else
            load(seeds[k / 2], to_rom, to_schedule);
        wharfnettle_set(bank + k * WHARFNETTLE_PANEL, t / WHARFNETTLE_PANELS, WHARFNETTLE_ROM, records_of(k),
                        WHARFNETTLE_LOG(t / WHARFNETTLE_PANELS));
        to_schedule += records_of(k);
    }
}

static void run_round(void)
{
    number = wharfnettle_round(bank, sizeof bank, roms, sizeof roms, schedules, sizeof schedules, logs, sizeof logs, t, rom_bytes, rows,
                               levels);
}

/* The same by sixteen calls, one after the other. */
static void run_calls(void)
{
    const uint8_t *from_schedule = schedules;
    size_t room = WHARFNETTLE_LOG(t / WHARFNETTLE_PANELS);
    for (int k = 0; k < WHARFNETTLE_PANELS; k++) {
        uint8_t *panel = bank + k * WHARFNETTLE_PANEL;
        panel[WHARFNETTLE_PANEL - 1] = wharfnettle_call(panel, WHARFNETTLE_IMAGE, roms + k * WHARFNETTLE_ROM, WHARFNETTLE_ROM, from_schedule,
                                                        records_of(k), logs + k * room, room, t / WHARFNETTLE_PANELS, 1, panel + 114,
                                                        WHARFNETTLE_REPORT, rom_bytes, rows, levels);
        from_schedule += records_of(k);
    }
    number = 0;
}

/* The digest of tests/reference. */
static uint64_t digest(uint64_t h, const uint8_t *bytes, size_t length)
{
    while (length--)
        h = (257 * h + *bytes++ + 1) % 1000000007;
    return h;
}

/* So many rounds, and what they come to: the bank, and the log bytes of the last round. */
static int make_rounds(unsigned long count, uint64_t cycles, void (*function)(void))
{
    uint64_t written = 0;
    if (cycles > LARGEST)
        return 1;
    begin_bank(cycles);
    number = 0;
    while (count--)
        function();
    for (int k = 0; k < WHARFNETTLE_PANELS; k++)
        written += wharfnettle_count(wharfnettle_report(bank + k * WHARFNETTLE_PANEL), WHARFNETTLE_LOG_BYTES);
    printf("%d %llu %llu\n", number, (unsigned long long)digest(0, bank, sizeof bank), (unsigned long long)written);
    return number;
}

/* The log of a search, for n cycles. */
static uint8_t *search_log;
static uint8_t found[WHARFNETTLE_FOUND];

static void search(void)
{
    number = wharfnettle_shortest(image, sizeof image, rom, rom_bytes, schedule, schedule_length, n, search_log, WHARFNETTLE_LOG(n), found,
                                  sizeof found, rom_bytes, rows, levels);
}

/* Panels that go on as long as bit 0 of port A is 0, and then stop: so many records in the first cycles, the last of which sets the bit.
   Each trial with fewer goes on to its end. The first one looks at the bit and nothing else. The other one counts up in RAM in between:
   LDZ, INM, and JCP to the look unless the word became 0, for each of five words. */
static const uint8_t rounds[] = {0x54, 0xC0, 0x45};
static const uint8_t counter[] = {0x80, 0x1D, 0xCF, 0x81, 0x1D, 0xCF, 0x82, 0x1D, 0xCF, 0x83, 0x1D, 0xCF, 0x84, 0x1D, 0xCF, 0x54, 0xC0, 0x45};

static void begin_search(const uint8_t *code, size_t length, size_t records, uint64_t cycles)
{
    begin(code, length, records, 0);
    for (size_t k = 0; k < records; k++)
        schedule[10 * k + 6] = k + 1 == records ? 0x10 : 0;
    n = cycles;
    free(search_log);
    search_log = malloc(WHARFNETTLE_LOG(n) + 1);
    if (!search_log) {
        perror("cost");
        exit(1);
    }
}

/* The least time of a call over many rounds of about a millisecond, so that other work on the machine counts little. */
static double nanoseconds(void (*function)(void))
{
    double least = 1e18;
    for (int round = 0; round < 150; round++) {
        uint64_t calls = 0, start = now(), taken;
        do {
            for (int k = 0; k < 16; k++)
                function();
            calls += 16;
            taken = now() - start;
        } while (taken < 1000000);
        if ((double)taken / (double)calls < least)
            least = (double)taken / (double)calls;
    }
    return least;
}

/* No records; 4,096 that lie ahead of the panel; 4,096 that lie behind it. */
static void line(const char *name, const uint8_t *code, size_t length)
{
    for (runner = 0; runner < 2; runner++)
        for (n = 0; n <= SLICE; n += SLICE) {
            printf("%-6s %-8s %3" PRIu64, name, runner ? "skipping" : "plain", n);
            for (int records = 0; records < 3; records++) {
                begin(code, length, records ? RECORDS : 0, records == 1 ? (uint64_t)1 << 47 : 0);
                if (records == 2) {
                    uint64_t wanted = n;
                    n = SLICE;
                    for (int k = 0; k <= RECORDS / SLICE; k++)
                        call();
                    n = wanted;
                }
                printf(" %12.0f", nanoseconds(call));
                if (number)
                    printf(" (number %d)", number);
            }
            printf("\n");
        }
}

static ucontext_t caller, callee;
static uint8_t stack[STACK];

static void nothing(void) {}

static void convert(void)
{
    static uint8_t old[WHARFNETTLE_OLD_IMAGE], again[WHARFNETTLE_IMAGE];
    wharfnettle_convert(image, sizeof image, old, sizeof old, 1, rom_bytes, rows, levels);
    wharfnettle_convert(old, sizeof old, again, sizeof again, 2, rom_bytes, rows, levels);
}

/* The bytes of a stack of its own that a function touches. */
static size_t depth_of(void (*function)(void))
{
    memset(stack, UNUSED, sizeof stack);
    getcontext(&callee);
    callee.uc_stack.ss_sp = stack;
    callee.uc_stack.ss_size = sizeof stack;
    callee.uc_link = &caller;
    makecontext(&callee, function, 0);
    swapcontext(&caller, &callee);
    size_t unused = 0;
    while (unused < sizeof stack && stack[unused] == UNUSED)
        unused++;
    return sizeof stack - unused;
}

static int print_stack(void)
{
    size_t base = depth_of(nothing), deepest = 0;
    uint64_t drawn = 1;
    for (int round = 0; round < 2000; round++) {
        begin(blink, sizeof blink, (size_t)(round % 50), (uint64_t)round);
        if (round % 5)
            use_sheet(WHARFNETTLE_UPD546);
        else
            use_sheet(1 + (uint64_t)round, (uint64_t)round % 32, 1 + (uint64_t)round % 3);
        for (size_t k = 9; round % 4 == 1 && k < schedule_length; k += 10)
            schedule[k] = k % 60 < 50; /* RES is high for five cycles of six */
        if (round % 3)
            for (size_t k = 0; k < sizeof rom; k++)
                rom[k] = (uint8_t)((drawn = drawn * 6364136223846793005 + 1442695040888963407) >> 56);
        for (runner = 0; runner < 2; runner++)
            for (n = 0; n <= SLICE; n += SLICE) {
                size_t depth = depth_of(call), other = depth_of(convert);
                deepest = depth > deepest ? depth : deepest;
                deepest = other > deepest ? other : deepest;
            }
    }
    use_sheet(WHARFNETTLE_UPD546);
    for (size_t entries = 0; entries <= ENTRIES; entries += 1 + entries / 4) {
        begin_store(entries, entries);
        size_t depth = depth_of(keep), other = depth_of(recall);
        deepest = depth > deepest ? depth : deepest;
        deepest = other > deepest ? other : deepest;
    }
    begin_bank(16000);
    for (int k = 0; k < 4; k++) {
        size_t depth = depth_of(run_round);
        deepest = depth > deepest ? depth : deepest;
    }
    size_t searched = 0;
    for (size_t records = 0; records <= 40; records++)
        for (int counting = 0; counting < 2; counting++) {
            begin_search(counting ? counter : rounds, counting ? sizeof counter : sizeof rounds, records, 30 * SLICE);
            size_t depth = depth_of(search);
            searched = depth > searched ? depth : searched;
        }
    size_t taken = deepest > base ? deepest - base : 0, taken_searching = searched > base ? searched - base : 0;
    printf("stack: a call takes %zu bytes and a search %zu, %d and %d are allowed\n", taken, taken_searching, ALLOWED, ALLOWED_SEARCH);
    return taken > ALLOWED || taken_searching > ALLOWED_SEARCH;
}

/* So many calls of the first panel on the plain runner. */
static int make_calls(unsigned long count, size_t records, uint64_t cycles)
{
    begin(lobby, sizeof lobby, records < RECORDS ? records : RECORDS, (uint64_t)1 << 47);
    n = cycles < SLICE ? cycles : SLICE;
    while (count--)
        call();
    return number;
}

/* So many calls on a store. */
static int make_stores(unsigned long count, size_t entries, size_t used, void (*function)(void))
{
    begin_store(entries < ENTRIES ? entries : ENTRIES, used < entries ? used : entries);
    number = 0;
    while (count--)
        function();
    return number;
}

static void print_bank(void)
{
    static const uint64_t sizes[] = {16000, LARGEST};
    printf("nanoseconds of a round; and of sixteen calls one after the other\n");
    printf("cycles for all        round        calls\n");
    for (size_t k = 0; k < sizeof sizes / sizeof *sizes; k++) {
        begin_bank(sizes[k]);
        double of_round = nanoseconds(run_round);
        begin_bank(sizes[k]);
        printf("%14llu %12.0f %12.0f\n", (unsigned long long)sizes[k], of_round, nanoseconds(run_calls));
    }
}

/* So many searches for the last of so many records. */
static int make_searches(unsigned long count, size_t records, uint64_t cycles, int counting)
{
    begin_search(counting ? counter : rounds, counting ? sizeof counter : sizeof rounds, records < RECORDS ? records : RECORDS, cycles);
    int wrong = 0;
    while (count--) {
        search();
        wrong |= number != 23 || wharfnettle_records(found) != schedule_length / 10;
    }
    return wrong;
}

/* The search of a panel's file: n in 4 bytes, 2,000 bytes of ROM, and the schedule. */
static int search_file(const char *path)
{
    uint8_t head[4];
    FILE *file = fopen(path, "rb");
    begin_search(rounds, sizeof rounds, 0, 0);
    if (!file || fread(head, 1, sizeof head, file) != sizeof head || fread(rom, 1, sizeof rom, file) != sizeof rom) {
        fprintf(stderr, "cost: %s is no panel\n", path);
        return 1;
    }
    schedule_length = fread(schedule, 1, sizeof schedule, file);
    fclose(file);
    n = (uint64_t)head[0] << 24 | (uint64_t)head[1] << 16 | (uint64_t)head[2] << 8 | head[3];
    free(search_log);
    search_log = malloc(WHARFNETTLE_LOG(n) + 1);
    if (!search_log) {
        perror("cost");
        return 1;
    }
    search();
    printf("%d %llu\n", number, (unsigned long long)wharfnettle_records(found));
    return 0;
}

static void print_stores(void)
{
    static const size_t sizes[] = {1, 16, ENTRIES};
    printf("nanoseconds of storing and recalling; a store of so many entries, all used\n");
    printf("entries       recall        store\n");
    for (size_t k = 0; k < sizeof sizes / sizeof *sizes; k++) {
        begin_store(sizes[k], sizes[k]);
        printf("%7zu %12.0f %12.0f\n", sizes[k], nanoseconds(recall), nanoseconds(keep));
    }
}

int main(int count, char **words)
{
    use_sheet(WHARFNETTLE_UPD546);
    if (count == 6 && !strcmp(words[1], "stores"))
        return make_stores(strtoul(words[2], NULL, 10), strtoul(words[3], NULL, 10), strtoul(words[4], NULL, 10),
                           strcmp(words[5], "recall") ? keep : recall);
    if (count == 5 && !strcmp(words[1], "rounds"))
        return make_rounds(strtoul(words[2], NULL, 10), strtoull(words[3], NULL, 10), strcmp(words[4], "bank") ? run_calls : run_round);
    if (count == 2 && !strcmp(words[1], "bank")) {
        print_bank();
        return 0;
    }
    if (count == 6 && !strcmp(words[1], "shortest"))
        return make_searches(strtoul(words[2], NULL, 10), strtoul(words[3], NULL, 10), strtoull(words[4], NULL, 10),
                             !strcmp(words[5], "count"));
    if (count == 3 && !strcmp(words[1], "searches"))
        return search_file(words[2]);
    if (count == 2 && !strcmp(words[1], "store")) {
        print_stores();
        return 0;
    }
    if (count == 5 && !strcmp(words[1], "calls"))
        return make_calls(strtoul(words[2], NULL, 10), strtoul(words[3], NULL, 10), strtoull(words[4], NULL, 10));
    if (count == 2 && !strcmp(words[1], "stack"))
        return print_stack();
    printf("nanoseconds of a call; records: none, 4096 ahead of the panel, 4096 behind it\n");
    printf("panel  runner     n         none        ahead       behind\n");
    line("lobby", lobby, sizeof lobby);
    line("blink", blink, sizeof blink);
    return 0;
}
