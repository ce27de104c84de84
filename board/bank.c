/* A board with sixteen landings, through an evening: twenty rounds of 3,200 machine cycles for all panels together, and the building switched
   off after every fourth. Only the bank is kept then, and the port logs so far. Twelve landings have a call lamp, three a display that waits
   on its timer, and the ROM of the last one is worn: that panel stops, and the others don't notice. At the end the evening is run once more
   without a switch-off, each landing with all its cycles in one round: images and logs are the same. bank.out has what it prints. */
#include <inttypes.h>
#include <stdio.h>
#include <string.h>
#include "wharfnettle.h"

enum { LANDINGS = 16, LAMPS = 12, WORN = 15, ROUNDS = 20, T = 3200, SWITCHED_OFF = 4 };
enum { RECORD = 10, TRIP = 4 * RECORD, LONGEST = 20000 };

/* samples/lamp.asm tells this ROM: bit 0 of port A is the button, bit 1 says that the car is here, bit 0 of port E is the lamp. */
static const uint8_t lamp[] = {0x54, 0xC3, 0x74, 0x55, 0xC0, 0x64, 0xC0};
/* LDZ 5; STM 9; TTM, and JCP back to it while the timer runs; CMA; OP: port F turns over; JCP 001. */
static const uint8_t display[] = {0x85, 0x14, 0x89, 0x05, 0xC3, 0x10, 0x0E, 0xC1};

/* The panels, and what the board keeps of them. */
static uint8_t bank[LANDINGS * WHARFNETTLE_PANEL];
/* The parts of the panels, end to end in row order. Only landings with a lamp have a schedule. */
static uint8_t roms[LANDINGS * WHARFNETTLE_ROM], schedules[LAMPS * TRIP], logs[WHARFNETTLE_LOG(LANDINGS * LONGEST)];

/* The port log of a landing, all evening. */
struct evening {
    uint8_t log[WHARFNETTLE_LOG(LONGEST)];
    size_t bytes;
    uint64_t cycles, steps;
};
static struct evening sliced[LANDINGS], unbroken[LANDINGS];

static uint8_t *panel(int landing)
{
    return bank + landing * WHARFNETTLE_PANEL;
}

static uint64_t wish_of(int landing)
{
    return landing < LAMPS || landing == WORN ? 100 : 1000;
}

static uint64_t schedule_of(int landing)
{
    return landing < LAMPS ? TRIP : 0;
}

/* Lines of port A from a cycle on. INT is high and RES low. */
static uint8_t *put_record(uint8_t *at, unsigned cycle, uint8_t lines)
{
    const uint8_t record[RECORD] = {0, 0, 0, 0, (uint8_t)(cycle >> 8), (uint8_t)cycle, (uint8_t)(lines << 4), 0, 1, 0};
    memcpy(at, record, RECORD);
    return at + RECORD;
}

/* What was read from the panels' chips, and what happens on the landings: a button is pressed, and later the car comes. */
static void build(void)
{
    uint8_t *at = schedules;
    for (int k = 0; k < LANDINGS; k++) {
        if (k < LAMPS || k == WORN)
            memcpy(roms + k * WHARFNETTLE_ROM, lamp, sizeof lamp);
        else
            memcpy(roms + k * WHARFNETTLE_ROM, display, sizeof display);
    }
    for (unsigned k = 0; k < LAMPS; k++) {
        at = put_record(at, 20 + 110 * k, 1);
        at = put_record(at, 26 + 110 * k, 0);
        at = put_record(at, 300 + 130 * k, 2);
        at = put_record(at, 306 + 130 * k, 0);
    }
    roms[WORN * WHARFNETTLE_ROM + 4] = 0x1C; /* which is no instruction */
}

/* Panels that were never run. Each has room in the logs for all that it may write in a round. */
static void begin(const uint64_t *wishes)
{
    for (int k = 0; k < LANDINGS; k++)
        wharfnettle_set(panel(k), wishes[k], WHARFNETTLE_ROM, schedule_of(k), WHARFNETTLE_LOG(wishes[k]));
}

/* A round, and what each panel wrote in it is added to its evening. */
static uint8_t run_round(uint64_t t, const uint64_t *wishes, struct evening *evenings)
{
    uint8_t number = wharfnettle_round(bank, sizeof bank, roms, sizeof roms, schedules, sizeof schedules, logs, sizeof logs, t,
                                       WHARFNETTLE_UPD546);
    const uint8_t *part = logs;
    if (number)
        return number; /* nothing was run, and nothing written */
    for (int k = 0; k < LANDINGS; k++) {
        const uint8_t *report = wharfnettle_report(panel(k));
        size_t bytes = (size_t)wharfnettle_count(report, WHARFNETTLE_LOG_BYTES);
        memcpy(evenings[k].log + evenings[k].bytes, part, bytes);
        evenings[k].bytes += bytes;
        evenings[k].cycles += wharfnettle_count(report, WHARFNETTLE_CYCLES);
        evenings[k].steps += wharfnettle_count(report, WHARFNETTLE_STEPS);
        part += WHARFNETTLE_LOG(wishes[k]);
    }
    return 0;
}

/* The building is switched off and on again: what isn't in `kept` is lost. */
static void switch_off(void)
{
    static uint8_t kept[sizeof bank];
    memcpy(kept, bank, sizeof kept); /* to a file, by way of another one that is renamed: keeper.c does it */
    memset(bank, 0xA5, sizeof bank);
    memset(logs, 0xA5, sizeof logs);
    memcpy(bank, kept, sizeof bank);
}

static void print_landing(int landing)
{
    const struct evening *evening = &sliced[landing];
    printf("landing %d: number %d, cycles %" PRIu64 ", steps %" PRIu64 ", records %zu", landing, wharfnettle_number(panel(landing)),
           evening->cycles, evening->steps, evening->bytes / 8);
    for (size_t at = 0; landing < LAMPS && at < evening->bytes; at += 8) {
        unsigned cycle = (unsigned)evening->log[at + 4] << 8 | evening->log[at + 5];
        printf(", lamp %s at %u", evening->log[at + 7] & 1 ? "lit" : "dark", cycle);
    }
    printf("\n");
}

/* What refuses a round. Nothing is written then. */
static void refusals(void)
{
    static uint8_t more[(LANDINGS + 1) * WHARFNETTLE_PANEL];
    memcpy(more, bank, sizeof bank);
    memcpy(more + sizeof bank, bank, WHARFNETTLE_PANEL);
    printf("a seventeenth panel: %d\n", wharfnettle_round(more, sizeof more, roms, sizeof roms, schedules, sizeof schedules, logs,
                                                          sizeof logs, T, WHARFNETTLE_UPD546));
    printf("a ROM too few: %d\n", wharfnettle_round(bank, sizeof bank, roms, sizeof roms - WHARFNETTLE_ROM, schedules, sizeof schedules,
                                                    logs, sizeof logs, T, WHARFNETTLE_UPD546));
    printf("a torn bank: %d\n", wharfnettle_round(bank, sizeof bank - 1, roms, sizeof roms, schedules, sizeof schedules, logs, sizeof logs,
                                                  T, WHARFNETTLE_UPD546));
    printf("a sheet with 4 levels: %d\n", wharfnettle_round(bank, sizeof bank, roms, sizeof roms, schedules, sizeof schedules, logs,
                                                            sizeof logs, T, WHARFNETTLE_ROM, 31, 4));
}

/* One image was damaged while the building was off: that panel is refused, and its neighbours are run. */
static void damaged(const uint64_t *wishes)
{
    begin(wishes);
    panel(3)[0] = 'u';
    printf("a round with a damaged image: %d; landings 2, 3 and 4:", run_round(T, wishes, unbroken));
    for (int k = 2; k <= 4; k++)
        printf(" number %d, cycles %" PRIu64 "%s", wharfnettle_number(panel(k)),
               wharfnettle_count(wharfnettle_report(panel(k)), WHARFNETTLE_CYCLES), k < 4 ? ";" : "\n");
}

int main(void)
{
    static uint8_t ended[sizeof bank];
    uint64_t wishes[LANDINGS];
    int same = 1;
    build();
    for (int k = 0; k < LANDINGS; k++)
        wishes[k] = wish_of(k);
    begin(wishes);
    for (int round = 0; round < ROUNDS; round++) {
        uint8_t number = run_round(T, wishes, sliced);
        if (round == 0)
            for (int k = LAMPS - 1; k < LANDINGS; k++)
                printf("round 0, landing %d: wish %" PRIu64 ", cycles %" PRIu64 "\n", k, wishes[k],
                       wharfnettle_count(wharfnettle_report(panel(k)), WHARFNETTLE_CYCLES));
        if (number)
            printf("round %d is refused: %d\n", round, number);
        if ((round + 1) % SWITCHED_OFF == 0) {
            switch_off();
            printf("switched off after round %d\n", round);
        }
    }
    for (int k = 0; k < LANDINGS; k++)
        print_landing(k);
    memcpy(ended, bank, sizeof ended);

    /* The evening in one round: each landing wishes all the cycles that it was run for, and there are enough for all. */
    for (int k = 0; k < LANDINGS; k++)
        wishes[k] = k == WORN ? wish_of(k) * ROUNDS : sliced[k].cycles;
    begin(wishes);
    uint8_t number = run_round(LANDINGS * (uint64_t)LONGEST, wishes, unbroken);
    for (int k = 0; k < LANDINGS; k++)
        same &= !memcmp(panel(k), ended + k * WHARFNETTLE_PANEL, WHARFNETTLE_IMAGE) && unbroken[k].bytes == sliced[k].bytes
                && !memcmp(unbroken[k].log, sliced[k].log, sliced[k].bytes);
    printf("unbroken: %d, images and logs are %s\n", number, same ? "the same" : "NOT the same");

    for (int k = 0; k < LANDINGS; k++)
        wishes[k] = wish_of(k);
    begin(wishes);
    refusals();
    damaged(wishes);
    return !same;
}
