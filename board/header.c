/* Holds wharfnettle.h to what it says, in C99 and later and in C++11 and later: what has to be a constant is one, what tells the numbers
   apart is a function, and nothing uses its argument twice, so that each may be given a call. Prints nothing when all is well. */
#include "wharfnettle.h"
#include <stdio.h>
#include <string.h>

#if defined __cplusplus
#define MUST(fact) static_assert(fact, #fact)
#elif __STDC_VERSION__ >= 201112L
#define MUST(fact) _Static_assert(fact, #fact)
#else
#define MUST(fact) extern char must[(fact) ? 1 : -1]
#endif

static uint8_t image[WHARFNETTLE_IMAGE], again[WHARFNETTLE_IMAGE], old[WHARFNETTLE_OLD_IMAGE];
static uint8_t records[WHARFNETTLE_LOG(1000)], report[WHARFNETTLE_REPORT], store[2 * WHARFNETTLE_ENTRY];
static uint8_t bank[2 * WHARFNETTLE_PANEL], roms[2 * WHARFNETTLE_ROM];
static uint8_t found[WHARFNETTLE_FOUND];
MUST(sizeof records == 16000);
MUST(WHARFNETTLE_LOG(0) == 0);
MUST(2 * WHARFNETTLE_LOG(1 + 2) == 96);
MUST(WHARFNETTLE_IMAGE == WHARFNETTLE_OLD_IMAGE + 1);
MUST(WHARFNETTLE_ENTRY == WHARFNETTLE_NAME + WHARFNETTLE_IMAGE);
MUST(WHARFNETTLE_PANEL == WHARFNETTLE_IMAGE + 4 * 8 + WHARFNETTLE_REPORT + 1);
MUST(WHARFNETTLE_PANELS == 16);
MUST(sizeof WHARFNETTLE_LOG(1) == sizeof(size_t));
MUST(WHARFNETTLE_SCHEDULE % 10 == 0);
static const uint64_t upd546[] = {WHARFNETTLE_UPD546};
MUST(sizeof upd546 == 3 * sizeof(uint64_t));
MUST(WHARFNETTLE_STEPS == 3 && WHARFNETTLE_REPORT == 8 * (WHARFNETTLE_STEPS + 1));

/* Functions, and no macros: they have addresses. */
static int (*const tells[])(int) = {wharfnettle_is_stop, wharfnettle_is_refusal};

/* OCD A5, LI 3, OE, and code 1C, which is no instruction. */
static const uint8_t rom[WHARFNETTLE_ROM] = {0x1E, 0xA5, 0x93, 0x44, 0x1C};

static int used;

static uint8_t counted(int number)
{
    used++;
    return (uint8_t)number;
}

static uint8_t call(uint64_t n)
{
    return wharfnettle_call(image, sizeof image, rom, sizeof rom, NULL, 0, records, sizeof records, n, 0, report, sizeof report,
                            WHARFNETTLE_UPD546);
}

/* The cycle number of the image, which tells how many calls were made. */
static uint64_t cycle(void)
{
    uint64_t number = 0;
    for (int k = 75; k < 81; k++)
        number = number << 8 | image[k];
    return number;
}

static int wrong;

static void hold(int fact, const char *words)
{
    if (!fact) {
        printf("wharfnettle.h: not so: %s\n", words);
        wrong = 1;
    }
}

int main(void)
{
    for (int number = 0; number < 256; number++) {
        int stop = number == 3 || number == 22 || number == 23;
        used = 0;
        hold(wharfnettle_is_stop(counted(number)) == stop && used == 1, "3, 22 and 23 are the stops, and the number is looked at once");
        hold(wharfnettle_is_refusal(counted(number)) == (number != 0 && !stop) && used == 2,
             "all but 0 and the stops are refusals, and the number is looked at once");
        hold(tells[0](number) == stop && tells[1](number + 256), "a number above 255 is no stop");
    }
    size_t n = 1;
    hold(WHARFNETTLE_LOG(n++) == 16 && n == 2, "a log's length uses n once");

    wharfnettle_fresh(image, sizeof image);
    hold(!wharfnettle_is_stop(call(2)) && cycle() == 2, "a call of 2 cycles that is asked whether it stopped");
    hold(!wharfnettle_is_refusal(call(1)) && cycle() == 3, "a call of 1 cycle that is asked whether it is refused");
    hold(wharfnettle_is_stop(call(10)) && cycle() == 5 && wharfnettle_count(report, WHARFNETTLE_CYCLES) == 2, "a call that stops");
    image[0] = 'u';
    hold(wharfnettle_is_refusal(call(10)) && cycle() == 5, "a call that is refused");
    image[0] = 'U';
    hold(wharfnettle_convert(image, sizeof image, old, sizeof old, 1, WHARFNETTLE_UPD546) == 0 && old[4] == 1,
         "an image goes back to version 1");
    hold(wharfnettle_convert(old, sizeof old, again, sizeof again, 2, WHARFNETTLE_UPD546) == 0 && !memcmp(again, image, sizeof image),
         "and forward again");
    hold(upd546[0] == WHARFNETTLE_ROM && upd546[1] == 31 && upd546[2] == 3, "the uPD546 has 2,000 bytes, rows 0 to 4 and three levels");
    hold(wharfnettle_convert(image, sizeof image, again, sizeof again, 2, upd546[0], upd546[1], upd546[2]) == 0, "a sheet as three numbers");
    hold(wharfnettle_convert(image, sizeof image, again, sizeof again, 2, WHARFNETTLE_ROM, 31, 4) == 71, "a sheet outside its limits");
    static const uint8_t name[WHARFNETTLE_NAME + 1] = "lobby   ";
    hold(wharfnettle_store(store, sizeof store, name, WHARFNETTLE_NAME, image, sizeof image, WHARFNETTLE_UPD546) == 0, "an image is stored");
    hold(!memcmp(store, name, WHARFNETTLE_NAME) && !memcmp(store + WHARFNETTLE_NAME, image, sizeof image), "an entry is a name and an image");
    again[0] = 0;
    hold(wharfnettle_recall(store, sizeof store, name, WHARFNETTLE_NAME, again, sizeof again, WHARFNETTLE_UPD546) == 0
             && !memcmp(again, image, sizeof image), "and recalled");
    hold(wharfnettle_recall(store, sizeof store, name, WHARFNETTLE_NAME - 1, again, sizeof again, WHARFNETTLE_UPD546) == 51,
         "a name has eight bytes");
    uint8_t *second = bank + WHARFNETTLE_PANEL;
    memset(bank, 0xA5, sizeof bank);
    wharfnettle_set(bank, 0x0102030405060708, WHARFNETTLE_ROM, 0, WHARFNETTLE_LOG(1000));
    wharfnettle_set(second, 7, WHARFNETTLE_ROM, 0, 0);
    for (int k = 0; k < 8; k++)
        hold(bank[82 + k] == k + 1, "a wish is big-endian");
    hold(bank[96] == 7 && bank[97] == 0xD0 && bank[111] == 0 && bank[112] == 0x3E && bank[113] == 0x80, "lengths stand behind the wish");
    hold(!wharfnettle_count(wharfnettle_report(bank), WHARFNETTLE_STEPS) && !wharfnettle_number(bank), "no round was run");
    hold(wharfnettle_round(bank, sizeof bank, roms, sizeof roms, NULL, 0, records, sizeof records, 20, WHARFNETTLE_UPD546) == 0, "a round");
    hold(wharfnettle_count(wharfnettle_report(bank), WHARFNETTLE_CYCLES) == 13
             && wharfnettle_count(wharfnettle_report(second), WHARFNETTLE_CYCLES) == 7, "has twenty cycles for both panels");
    wharfnettle_wish(bank, 5);
    hold(wharfnettle_round(bank, sizeof bank, roms, sizeof roms, NULL, 0, records, sizeof records, 20, WHARFNETTLE_UPD546) == 0
             && wharfnettle_count(wharfnettle_report(bank), WHARFNETTLE_CYCLES) == 5, "a new wish");
    second[0] = 'u';
    hold(wharfnettle_round(bank, sizeof bank, roms, sizeof roms, NULL, 0, records, sizeof records, 20, WHARFNETTLE_UPD546) == 0
             && wharfnettle_number(bank) == 0 && wharfnettle_number(second) == 32, "each panel has its number");
    hold(wharfnettle_round(bank, sizeof bank, roms, sizeof roms - 1, NULL, 0, records, sizeof records, 20, WHARFNETTLE_UPD546) == 62,
         "ROMs that aren't all there");
    hold(wharfnettle_round(bank, sizeof bank - 1, roms, sizeof roms, NULL, 0, records, sizeof records, 20, WHARFNETTLE_UPD546) == 63,
         "a torn bank");
    wharfnettle_fresh(image, sizeof image);
    hold(wharfnettle_shortest(image, sizeof image, rom, sizeof rom, NULL, 0, 10, records, sizeof records, found, sizeof found,
                              WHARFNETTLE_UPD546) == 23 && wharfnettle_records(found) == 0 && cycle() == 0,
         "a panel that stops without a record is found, and left");
    hold(wharfnettle_shortest(image, sizeof image, rom, sizeof rom, NULL, 0, 10, records, WHARFNETTLE_LOG(10) - 1, found, sizeof found,
                              WHARFNETTLE_UPD546) == 81, "a search is lent a log of 16n bytes");
    return wrong;
}
