/* Makes the calls that the other interpreter drew, and holds every answer to the one due: the number, and all bytes of all buffers.
   tests/reference/src/bin/board/main.rs tells the stream that is read from standard input; the script beside this file joins the two.

   A buffer begins or ends, in turn, where a page begins that nobody may touch, so that a byte read or written past it ends the program; on
   its other side are guard bytes. A part of length 0 has a null pointer, or one to such a page. */
#define _DEFAULT_SOURCE
#include <inttypes.h>
#include <stdio.h>
#include <stdlib.h>
#include <string.h>
#include <sys/mman.h>
#include "wharfnettle.h"

enum { PAGE = 4096, GUARD = 64, GUARDS = 0xA5, LONGEST = 1 << 16 };
enum { FRESH = 1, NEW_ROM = 2, NEW_SCHEDULE = 4, NULLS = 8, CONVERT = 16, KEEP = 32, RECALL = 64, ROUND = 128, SHORTEST = 256 };
enum { IMAGE, ROM, SCHEDULE, LOG, REPORT, STORE, NAME, BANK, PARTS };

static const char *const names[PARTS] = {"image", "ROM", "schedule", "log", "report", "store", "name", "bank"};
static const uint8_t numbers[] = {0, 1, 2, 3, 11, 12, 13, 14, 21, 22, 23, 31, 32, 33, 34, 51, 52, 53, 54, 61, 62, 63, 71, 81, 82};

/* A part of a call. */
struct part {
    uint8_t *pages;         /* LONGEST bytes between two pages without access */
    uint8_t *bytes;         /* what the call is given */
    uint8_t *guards;
    size_t length;
    uint8_t before[LONGEST];
    uint8_t due[LONGEST];
};

static struct part parts[PARTS];
static uint64_t seed, calls, place;

static void fail(const char *format, const char *what, size_t at, unsigned is, unsigned due)
{
    printf("call %" PRIu64 " of seed %" PRIu64 ": ", place, seed);
    printf(format, what, at, is, due);
    printf("\n  to see it: cargo run --release --manifest-path tests/reference/Cargo.toml --bin board -- show %" PRIu64 " %" PRIu64 "\n",
           seed, place);
    fflush(stdout);
    _Exit(1);
}

#ifdef __SANITIZE_ADDRESS__
#include <sanitizer/common_interface_defs.h>
/* A sanitizer or a byte past a buffer ended the program. */
static void died(void)
{
    fail("%s", "the program was ended in it", 0, 0, 0);
}
#endif

static void get(uint8_t *bytes, size_t length)
{
    if (length > LONGEST || fread(bytes, 1, length, stdin) != length) {
        printf("the stream ends, or is none, at call %" PRIu64 "\n", place);
        exit(1);
    }
}

static uint64_t get_number(void)
{
    uint8_t bytes[8];
    uint64_t number = 0;
    get(bytes, sizeof bytes);
    for (int k = 0; k < 8; k++)
        number = number << 8 | bytes[k];
    return number;
}

/* Puts the bytes before the call in their place: at the end of the pages, or at their start. */
static void put(struct part *part, int at_end, int nulls)
{
    if (part->length == 0) {
        part->bytes = nulls ? NULL : part->pages + LONGEST;
        part->guards = part->pages;
    } else {
        part->bytes = at_end ? part->pages + LONGEST - part->length : part->pages;
        part->guards = at_end ? part->bytes - GUARD : part->bytes + part->length;
        memcpy(part->bytes, part->before, part->length);
    }
    memset(part->guards, GUARDS, GUARD);
}

static void hold(const struct part *part, const char *name)
{
    for (size_t i = 0; i < GUARD; i++)
        if (part->guards[i] != GUARDS)
            fail("guard byte of the %s %zu is %u, due %u", name, i, part->guards[i], GUARDS);
    if (part->length == 0 || !memcmp(part->bytes, part->due, part->length))
        return;
    for (size_t i = 0; i < part->length; i++)
        if (part->bytes[i] != part->due[i])
            fail("%s byte %zu is %u, due %u", name, i, part->bytes[i], part->due[i]);
}

/* Reads a call, makes it, and answers its number. */
static unsigned one_call(void)
{
    struct part *image = &parts[IMAGE], *rom = &parts[ROM], *schedule = &parts[SCHEDULE], *log = &parts[LOG], *report = &parts[REPORT];
    struct part *store = &parts[STORE], *key = &parts[NAME], *bank = &parts[BANK];
    uint64_t flags = get_number();
    for (int k = 0; k < PARTS; k++) {
        parts[k].length = get_number();
        if (parts[k].length > LONGEST - GUARD)
            get(NULL, SIZE_MAX);
    }
    uint64_t n = get_number(), runner = get_number(), fill = get_number(), due = get_number(), written = get_number();
    uint64_t rom_bytes = get_number(), rows = get_number(), levels = get_number();
    get(image->before, image->length);
    if (flags & NEW_ROM)
        get(rom->before, rom->length);
    if (flags & NEW_SCHEDULE)
        get(schedule->before, schedule->length);
    get(store->before, store->length);
    get(key->before, key->length);
    get(bank->before, bank->length);
    get(image->due, image->length);
    get(report->due, report->length);
    for (size_t i = 0; i < report->length; i++)
        report->before[i] = (uint8_t)(7 * i + fill);
    for (size_t i = 0; i < log->length; i++)
        log->before[i] = (uint8_t)(7 * i + fill);
    memcpy(log->due, log->before, log->length);
    /* The bytes that trials were lent are free afterwards. */
    if (!(flags & SHORTEST))
        get(log->due, written);
    get(store->due, store->length);
    get(bank->due, bank->length);
    memcpy(key->due, key->before, key->length);
    memcpy(rom->due, rom->before, rom->length);
    memcpy(schedule->due, schedule->before, schedule->length);
    for (int k = 0; k < PARTS; k++)
        put(&parts[k], (place >> k) % 2 == 0, (flags & NULLS) != 0);

    const char *name = "wharfnettle_call";
    uint8_t number;
    if (flags & FRESH) {
        name = "wharfnettle_fresh";
        number = wharfnettle_fresh(image->bytes, image->length);
    } else if (flags & CONVERT) {
        name = "wharfnettle_convert";
        number = wharfnettle_convert(image->bytes, image->length, report->bytes, report->length, n, rom_bytes, rows, levels);
    } else if (flags & KEEP) {
        name = "wharfnettle_store";
        number = wharfnettle_store(store->bytes, store->length, key->bytes, key->length, image->bytes, image->length, rom_bytes, rows, levels);
    } else if (flags & RECALL) {
        name = "wharfnettle_recall";
        number = wharfnettle_recall(store->bytes, store->length, key->bytes, key->length, image->bytes, image->length, rom_bytes, rows, levels);
    } else if (flags & ROUND) {
        name = "wharfnettle_round";
        number = wharfnettle_round(bank->bytes, bank->length, rom->bytes, rom->length, schedule->bytes, schedule->length, log->bytes,
                                   log->length, n, rom_bytes, rows, levels);
    } else if (flags & SHORTEST) {
        name = "wharfnettle_shortest";
        number = wharfnettle_shortest(image->bytes, image->length, rom->bytes, rom->length, schedule->bytes, schedule->length, n,
                                      log->bytes, log->length, report->bytes, report->length, rom_bytes, rows, levels);
        if (written)
            memcpy(log->due, log->bytes, written);
    } else {
        number = wharfnettle_call(image->bytes, image->length, rom->bytes, rom->length, schedule->bytes, schedule->length, log->bytes,
                                  log->length, n, runner, report->bytes, report->length, rom_bytes, rows, levels);
    }
    if (number != due)
        fail("%s, an image of %zu bytes: the number is %u, due %u", name, image->length, number, (unsigned)due);
    for (int k = 0; k < PARTS; k++)
        hold(&parts[k], names[k]);
    return number;
}

int main(void)
{
    static uint64_t answered[256];
    int wanting = 0;
    for (int k = 0; k < PARTS; k++) {
        uint8_t *all = mmap(NULL, LONGEST + 2 * PAGE, PROT_NONE, MAP_PRIVATE | MAP_ANONYMOUS, -1, 0);
        if (all == MAP_FAILED || mprotect(all + PAGE, LONGEST, PROT_READ | PROT_WRITE)) {
            perror("mmap");
            return 1;
        }
        parts[k].pages = all + PAGE;
    }
#ifdef __SANITIZE_ADDRESS__
    __sanitizer_set_death_callback(died);
#endif
    seed = get_number();
    calls = get_number();
    for (place = 0; place < calls; place++)
        answered[one_call()]++;
    printf("%" PRIu64 " calls of seed %" PRIu64 " are as due; by number:", calls, seed);
    for (size_t k = 0; k < sizeof numbers; k++) {
        printf(" %u:%" PRIu64, numbers[k], answered[numbers[k]]);
        wanting |= !answered[numbers[k]];
    }
    printf("\n");
    if (wanting)
        printf("a number was never answered: too few calls\n");
    return wanting;
}
