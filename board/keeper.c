/* Runs a panel from files in slices, and may be killed at any moment: started again, it goes on with nothing lost and nothing twice.

       keeper [--sheet ROM,ROWS,LEVELS] PANEL DIR CYCLES SLICE

   PANEL is what `trace` reads: n (4 bytes, not looked at here), ROM and line schedule. Without --sheet the chip is the uPD546; a smaller
   one is told by three decimal numbers with commas between: its ROM bytes, which of RAM rows 0 to 4 it has (1 for row 0, 2 for row 1, 4 for
   row 2, 8 for row 3, 16 for row 4, added up) and its stack levels. The ROM of PANEL then has that many bytes. It is the same with every
   start. DIR/log has the port log. DIR/state has 130 bytes, with numbers big-endian:

       0    KEEPER, and the version of this layout, 2 (2 bytes)
       8    the log bytes of all slices so far
       16   the instructions of all slices so far
       24   the digest of those log bytes
       32   the digest of ROM and schedule; of another chip than the uPD546 the three numbers come before them, 8 bytes each
       40   the image; its cycle number is the cycles of all slices so far
       122  the digest of the 122 bytes before it

   Version 1 of the layout, from before there was a reset, has an image of version 1, which is a byte shorter. A start takes such a state
   forward: once all is held, the same numbers and the converted image become DIR/state (steps 3 and 4 below), and it goes on.

   A slice goes so:

       1. call: the image in memory goes SLICE cycles further;
       2. its records are appended to DIR/log, and the log is on the disk (fsync);
       3. DIR/state.new is written and on the disk;
       4. DIR/state.new becomes DIR/state (rename), and that is on the disk.

   So DIR/state is always a whole one, and DIR/log always has the bytes that it speaks of. What a killed slice appended beyond them is cut
   off at the next start. All is done when DIR/state has CYCLES cycles, or when the panel stops; then the totals are printed.

   A start changes nothing before it has held all that it finds to what it must be. It says what is wrong and ends with status 1 where a
   bit of DIR/state is flipped, or of the log bytes that it speaks of; where one of the two files was lost; and where DIR/state is of
   another ROM, another schedule or another chip. A state file from before this layout doesn't begin with KEEPER, and is refused for it. */
#define _POSIX_C_SOURCE 200809L
#include <errno.h>
#include <fcntl.h>
#include <inttypes.h>
#include <signal.h>
#include <stdarg.h>
#include <stdio.h>
#include <stdlib.h>
#include <string.h>
#include <sys/stat.h>
#include <unistd.h>
#include "wharfnettle.h"

enum {
    COUNT = 4,              /* the bytes of n in a panel */
    RECORD = 8,             /* the bytes of a log record; its cycle is the first six */
    CYCLE = 75,             /* where an image has its cycle number, six bytes too */
    LONGEST_SLICE = 10000000
};

/* The parts of a state file, by the bytes before them. */
enum { VERSION = 6, NUMBERS = 8, IMAGE = 40, DIGEST = IMAGE + WHARFNETTLE_IMAGE, STATE = DIGEST + 8 };
static const uint8_t head[NUMBERS] = {'K', 'E', 'E', 'P', 'E', 'R', 0, 2};
/* The layout from before there was a reset. */
enum { OLD_DIGEST = IMAGE + WHARFNETTLE_OLD_IMAGE, OLD_STATE = OLD_DIGEST + 8 };
/* What a folder has of a state. */
enum kept { NONE, OLD, WHOLE };

struct sheet {
    uint64_t rom_bytes, rows, levels;
};
static const struct sheet upd546 = {WHARFNETTLE_UPD546};

struct panel {
    const char *name;
    struct sheet sheet;
    uint8_t bytes[COUNT + WHARFNETTLE_ROM + WHARFNETTLE_SCHEDULE + 1];
    size_t rom_length, schedule_length;
    uint64_t digest;
};

struct folder {
    const char *name;
    int dir, log;
};

struct state {
    uint64_t log_bytes, instructions, log_digest, panel_digest;
    uint8_t image[WHARFNETTLE_IMAGE];
};

static _Noreturn void say_and_end(const char *format, va_list words, const char *last)
{
    fputs("keeper: ", stderr);
    vfprintf(stderr, format, words);
    fputs(last, stderr);
    exit(1);
}

static _Noreturn void die(const char *format, ...)
{
    va_list words;
    va_start(words, format);
    say_and_end(format, words, "\n");
}

static _Noreturn void die_of(const char *what)
{
    die("%s: %s", what, strerror(errno));
}

/* Only before the first change of a file. */
static _Noreturn void refuse(const char *format, ...)
{
    va_list words;
    va_start(words, format);
    say_and_end(format, words, "; nothing was changed\n");
}

static uint64_t number_at(const uint8_t *bytes, int length)
{
    uint64_t number = 0;
    while (length--)
        number = number << 8 | *bytes++;
    return number;
}

static void put_number(uint8_t *bytes, uint64_t number)
{
    for (int k = 0; k < 8; k++)
        bytes[k] = (uint8_t)(number >> (56 - 8 * k));
}

/* The digest is the CRC-64 of ECMA-182: the remainder of the bytes, as a polynomial over bits, by one of degree 64. It is another one for
   certain where the damage lies within 64 bits side by side, so whatever becomes of one record, and where an odd number of bits is flipped;
   of all other damage one in 2^64 would go unseen. It is no guard against people. It begins with 0, and may go on from what was before. */
#define POLYNOMIAL UINT64_C(0x42F0E1EBA9EA3693) /* without its first term */
static uint64_t digest_of_byte[256];

static void make_digests(void)
{
    for (int byte = 0; byte < 256; byte++) {
        uint64_t rest = (uint64_t)byte << 56;
        for (int k = 0; k < 8; k++)
            rest = rest << 1 ^ (rest >> 63 ? POLYNOMIAL : 0);
        digest_of_byte[byte] = rest;
    }
}

static uint64_t digest(uint64_t before, const uint8_t *bytes, size_t length)
{
    while (length--)
        before = before << 8 ^ digest_of_byte[before >> 56 ^ *bytes++];
    return before;
}

static uint64_t size_of(int file, const char *name)
{
    struct stat found;
    if (fstat(file, &found))
        die_of(name);
    return (uint64_t)found.st_size;
}

/* Stands between any two system calls that change a file. Compiled with -DKEEPER_KILL_AT it kills the program at the step that the
   environment's KEEPER_KILL_AT names. With KEEPER_POWER set as well, bytes and names that weren't on the disk yet are lost first, as they
   may be when the power fails. board/test_keeper uses both. */
#ifdef KEEPER_KILL_AT
enum { PIECE = 7 }; /* writes go in small pieces, with a step after each */
static int log_file = -1, new_file = -1, new_in = -1;
static uint64_t log_on_disk;
static void step(void)
{
    static long done;
    const char *at = getenv("KEEPER_KILL_AT");
    if (!at || ++done != atol(at))
        return;
    if (getenv("KEEPER_POWER")) {
        if (log_file >= 0 && size_of(log_file, "log") > log_on_disk && ftruncate(log_file, (off_t)log_on_disk))
            die_of("log");
        if (new_file >= 0 && ftruncate(new_file, 0))
            die_of("state.new");
        if (new_in >= 0 && unlinkat(new_in, "log", 0))
            die_of("log");
    }
    raise(SIGKILL);
}
/* A log that was made in the folder, whose name isn't on the disk yet; one whose bytes are on the disk as it is now; a state whose bytes
   aren't yet, and may be lost under any name. */
static void made_log(int dir)
{
    new_in = dir;
}
static void opened_log(int file)
{
    log_file = file;
    log_on_disk = size_of(file, "log");
}
static void opened_new(int file)
{
    new_file = dup(file);
}
static void synced(int file)
{
    struct stat one, other;
    if (file == new_in)
        new_in = -1;
    if (file == log_file)
        log_on_disk = size_of(file, "log");
    if (new_file >= 0 && !fstat(file, &one) && !fstat(new_file, &other) && one.st_ino == other.st_ino) {
        close(new_file);
        new_file = -1;
    }
}
#else
enum { PIECE = 1 << 30 };
static void step(void) {}
static void made_log(int dir) { (void)dir; }
static void opened_log(int file) { (void)file; }
static void opened_new(int file) { (void)file; }
static void synced(int file) { (void)file; }
#endif

static void write_at(int file, const char *name, const uint8_t *bytes, size_t length, uint64_t at)
{
    while (length) {
        ssize_t written = pwrite(file, bytes, length < PIECE ? length : PIECE, (off_t)at);
        if (written < 0 && errno != EINTR)
            die_of(name);
        if (written > 0) {
            bytes += written;
            length -= (size_t)written;
            at += (uint64_t)written;
        }
        step();
    }
}

static void sync_file(int file, const char *name)
{
    if (fsync(file))
        die_of(name);
    synced(file);
    step();
}

/* As many bytes of a file as there are, but at most `length`. */
static size_t read_all(int file, const char *name, uint8_t *bytes, size_t length)
{
    size_t got = 0;
    while (got < length) {
        ssize_t more = read(file, bytes + got, length - got);
        if (more < 0 && errno != EINTR)
            die_of(name);
        if (more == 0)
            break;
        if (more > 0)
            got += (size_t)more;
    }
    return got;
}

/* The digest of the sheet, ROM and schedule; for the uPD546 as it was before there were sheets. */
static uint64_t panel_digest(const struct panel *panel)
{
    const struct sheet *sheet = &panel->sheet;
    const uint64_t numbers[] = {sheet->rom_bytes, sheet->rows, sheet->levels};
    uint8_t bytes[sizeof numbers];
    uint64_t before = 0;
    for (int k = 0; k < 3; k++)
        put_number(bytes + 8 * k, numbers[k]);
    if (memcmp(sheet, &upd546, sizeof upd546))
        before = digest(0, bytes, sizeof bytes);
    return digest(before, panel->bytes + COUNT, panel->rom_length + panel->schedule_length);
}

static void read_panel(const char *name, struct sheet sheet, struct panel *panel)
{
    int file = open(name, O_RDONLY);
    if (file < 0)
        refuse("%s: %s", name, strerror(errno));
    size_t length = read_all(file, name, panel->bytes, sizeof panel->bytes);
    close(file);
    length = length < COUNT ? 0 : length - COUNT;
    panel->name = name;
    panel->sheet = sheet;
    panel->rom_length = length < sheet.rom_bytes ? length : (size_t)sheet.rom_bytes;
    panel->schedule_length = length - panel->rom_length;
    panel->digest = panel_digest(panel);
}

static const char *meaning(uint8_t number);

/* Whether there is a state file, which then has the bytes that a keeper wrote; an old one's image is taken forward. */
static enum kept read_state(int dir, struct sheet sheet, struct state *state)
{
    uint8_t bytes[STATE + 1] = {0}; /* a byte more, so that a long one shows */
    int file = openat(dir, "state", O_RDONLY);
    if (file < 0 && errno == ENOENT)
        return NONE;
    if (file < 0)
        die_of("state");
    size_t length = read_all(file, "state", bytes, sizeof bytes);
    close(file);
    if (memcmp(bytes, head, VERSION))
        refuse("the state file doesn't begin with KEEPER, so it is damaged or none of this program's");
    uint64_t version = number_at(bytes + VERSION, 2);
    if (length >= sizeof head && version != 1 && version != 2)
        refuse("the state file's version is %" PRIu64 ", and this program's are 1 and 2", version);
    enum kept kept = version == 1 ? OLD : WHOLE;
    size_t whole = kept == OLD ? OLD_STATE : STATE, to_digest = whole - 8;
    if (length != whole)
        refuse("the state file hasn't %zu bytes, so it is damaged", whole);
    if (number_at(bytes + to_digest, 8) != digest(0, bytes, to_digest))
        refuse("the state file is damaged: its digest isn't that of its bytes");
    uint64_t *numbers[] = {&state->log_bytes, &state->instructions, &state->log_digest, &state->panel_digest};
    for (int k = 0; k < 4; k++)
        *numbers[k] = number_at(bytes + NUMBERS + 8 * k, 8);
    uint8_t number = wharfnettle_convert(bytes + IMAGE, to_digest - IMAGE, state->image, sizeof state->image, 2, sheet.rom_bytes, sheet.rows,
                                         sheet.levels);
    if (number)
        refuse("the state file is refused with %d: %s", number, meaning(number));
    return kept;
}

/* Replaces the state as a whole. */
static void write_state(int dir, const struct state *state)
{
    uint8_t bytes[STATE];
    const uint64_t numbers[] = {state->log_bytes, state->instructions, state->log_digest, state->panel_digest};
    memcpy(bytes, head, sizeof head);
    for (int k = 0; k < 4; k++)
        put_number(bytes + NUMBERS + 8 * k, numbers[k]);
    memcpy(bytes + IMAGE, state->image, sizeof state->image);
    put_number(bytes + DIGEST, digest(0, bytes, DIGEST));
    int file = openat(dir, "state.new", O_WRONLY | O_CREAT | O_TRUNC, 0666);
    if (file < 0)
        die_of("state.new");
    opened_new(file);
    step();
    write_at(file, "state.new", bytes, sizeof bytes, 0);
    sync_file(file, "state.new");
    if (close(file))
        die_of("state.new");
    if (renameat(dir, "state.new", dir, "state"))
        die_of("state");
    step();
    sync_file(dir, "the folder");
}

static const char *meaning(uint8_t number)
{
    switch (number) {
    case 2: return "the panel's cycle number and n together pass 2^48 - 1";
    case 11: return "the schedule's length is no multiple of 10";
    case 12: return "the schedule has over 40,960 bytes";
    case 13: return "a record's INT level or its RES isn't 0 or 1";
    case 14: return "a record's cycle isn't above the last one's";
    case 21: return "the panel's file has under 2,004 bytes, or under 4 more than its sheet says";
    case 32: return "the image doesn't begin with U43";
    case 33: return "the image's version doesn't go with its length";
    case 34: return "a field of the image is above its width or against its rule, or holds something that this chip doesn't have";
    case 71: return "the sheet is outside its limits: ROM bytes 1 to 2,000, rows 0 to 31, levels 1 to 3";
    default: return "no number of this call";
    }
}

/* A call on the timer-skipping runner. For no cycles there needs to be no log. */
static uint8_t run(const struct panel *panel, uint8_t *image, uint8_t *log, uint64_t n, uint8_t *report)
{
    const uint8_t *rom = panel->bytes + COUNT, *schedule = rom + panel->rom_length;
    const struct sheet *sheet = &panel->sheet;
    return wharfnettle_call(image, WHARFNETTLE_IMAGE, rom, panel->rom_length, schedule, panel->schedule_length, log, WHARFNETTLE_LOG(n), n,
                            1, report, WHARFNETTLE_REPORT, sheet->rom_bytes, sheet->rows, sheet->levels);
}

/* Refuses what a call for no cycles refuses. */
static void check_call(const struct panel *panel, uint8_t *image)
{
    uint8_t report[WHARFNETTLE_REPORT], number = run(panel, image, NULL, 0, report);
    const char *what = number > 70 ? "--sheet" : number > 30 ? "the state file" : panel->name;
    if (wharfnettle_is_refusal(number))
        refuse("%s is refused with %d: %s", what, number, meaning(number));
}

/* Refuses a log whose first bytes, as many as the state has, aren't those that its slices wrote. */
static void check_log(int log, const struct state *state, uint64_t cycles)
{
    static uint8_t bytes[1 << 16];
    uint64_t there = size_of(log, "log"), left = state->log_bytes, found = 0, last = 0;
    if (left > there)
        refuse("the state file has %" PRIu64 " log bytes, and the log has %" PRIu64, left, there);
    while (left) {
        size_t part = left < sizeof bytes ? (size_t)left : sizeof bytes;
        if (read_all(log, "log", bytes, part) != part)
            refuse("the log became shorter while it was read");
        found = digest(found, bytes, part);
        last = number_at(bytes + part - RECORD, 6);
        left -= part;
    }
    if (found != state->log_digest)
        refuse("the log is damaged: the digest of its first %" PRIu64 " bytes isn't that of the state file", state->log_bytes);
    if (state->log_bytes && last >= cycles)
        refuse("the log's record before byte %" PRIu64 " is of cycle %" PRIu64 ", and the state file of cycle %" PRIu64, state->log_bytes,
               last, cycles);
}

static uint64_t cycles_of(const struct state *state)
{
    return number_at(state->image + CYCLE, 6);
}

/* Refuses a state that isn't this panel's, and one with numbers that no panel comes to. */
static void check_state(const struct panel *panel, struct state *state, int log)
{
    check_call(panel, state->image);
    uint64_t cycles = cycles_of(state);
    if (state->panel_digest != panel->digest)
        refuse("the state file is of another panel: the ROM or the schedule of %s, or the sheet, isn't that of its slices", panel->name);
    if (state->instructions > cycles || state->log_bytes % RECORD || state->log_bytes > WHARFNETTLE_LOG(cycles))
        refuse("the state file has %" PRIu64 " instructions and %" PRIu64 " log bytes, which no panel has after %" PRIu64 " cycles",
               state->instructions, state->log_bytes, cycles);
    check_log(log, state, cycles);
}

/* Where there is a state there has to be a log. A log that is made has its name on the disk before there is a state. */
static void open_log(struct folder *folder)
{
    struct flock whole = {.l_type = F_WRLCK, .l_whence = SEEK_SET};
    int kept = !faccessat(folder->dir, "state", F_OK, 0);
    folder->log = openat(folder->dir, "log", kept ? O_RDWR : O_RDWR | O_CREAT, 0666);
    if (folder->log < 0 && kept && errno == ENOENT)
        refuse("%s has a state file and no log", folder->name);
    if (folder->log < 0)
        die_of("log");
    if (fcntl(folder->log, F_SETLK, &whole))
        refuse("another keeper runs the panel in %s", folder->name);
    if (!kept) {
        made_log(folder->dir);
        step();
        sync_file(folder->dir, "the folder");
    }
}

/* The state to go on from, with the log cut to its bytes. Where there is none the panel is new; but a log without a state is of a panel
   whose state was lost, and stays. */
static void begin(const struct panel *panel, const struct folder *folder, struct state *state)
{
    enum kept kept = read_state(folder->dir, panel->sheet, state);
    if (kept != NONE) {
        check_state(panel, state, folder->log);
        if (kept == OLD)
            write_state(folder->dir, state);
    } else {
        if (size_of(folder->log, "log"))
            refuse("%s has a log and no state file", folder->name);
        *state = (struct state){.panel_digest = panel->digest};
        wharfnettle_fresh(state->image, sizeof state->image);
        write_state(folder->dir, state);
    }
    if (ftruncate(folder->log, (off_t)state->log_bytes))
        die_of("log");
    opened_log(folder->log);
    step();
}

/* A slice, and its number. */
static uint8_t go_on(const struct panel *panel, const struct folder *folder, struct state *state, uint8_t *records, uint64_t n)
{
    uint8_t report[WHARFNETTLE_REPORT], number = run(panel, state->image, records, n, report);
    if (wharfnettle_is_refusal(number))
        die("a slice is refused with %d: %s", number, meaning(number));
    uint64_t bytes = wharfnettle_count(report, WHARFNETTLE_LOG_BYTES);
    if (bytes) {
        write_at(folder->log, "log", records, bytes, state->log_bytes);
        sync_file(folder->log, "log");
    }
    state->log_bytes += bytes;
    state->log_digest = digest(state->log_digest, records, bytes);
    state->instructions += wharfnettle_count(report, WHARFNETTLE_INSTRUCTIONS);
    write_state(folder->dir, state);
    return number;
}

/* A decimal number from 1 to `most`. */
static uint64_t number_of(const char *word, uint64_t most)
{
    char *end;
    errno = 0;
    unsigned long long number = strtoull(word, &end, 10);
    if (*word < '0' || *word > '9' || *end || errno || number < 1 || number > most)
        die("%s is no number from 1 to %" PRIu64, word, most);
    return number;
}

/* Three decimal numbers, of any value that 64 bits hold: what is wrong with them the call says. */
static struct sheet sheet_of(const char *word)
{
    uint64_t numbers[3];
    const char *at = word;
    for (int k = 0; k < 3; k++) {
        char *end;
        errno = 0;
        numbers[k] = strtoull(at, &end, 10);
        if (*at < '0' || *at > '9' || errno || *end != (k < 2 ? ',' : 0))
            refuse("%s is no sheet: ROM bytes, rows and levels are wanted with commas between, as 2000,31,3 for the uPD546", word);
        at = end + 1;
    }
    return (struct sheet){numbers[0], numbers[1], numbers[2]};
}

int main(int count, char **words)
{
    static struct panel panel;
    struct state state;
    struct sheet sheet = upd546;
    uint8_t image[WHARFNETTLE_IMAGE], number = 0;
    if (count > 2 && !strcmp(words[1], "--sheet")) {
        sheet = sheet_of(words[2]);
        count -= 2;
        words += 2;
    }
    if (count != 5) {
        fputs("usage: keeper [--sheet ROM,ROWS,LEVELS] PANEL DIR CYCLES SLICE\n", stderr);
        return 2;
    }
    uint64_t cycles = number_of(words[3], ((uint64_t)1 << 48) - 1);
    uint64_t slice = number_of(words[4], LONGEST_SLICE);
    uint8_t *records = malloc(WHARFNETTLE_LOG(slice));
    if (!records)
        die("no memory for a slice of %" PRIu64 " cycles", slice);
    make_digests();
    read_panel(words[1], sheet, &panel);
    wharfnettle_fresh(image, sizeof image);
    check_call(&panel, image); /* so that no log is made for a panel that is refused */

    struct folder folder = {.name = words[2], .dir = open(words[2], O_RDONLY | O_DIRECTORY)};
    if (folder.dir < 0)
        refuse("%s: %s", folder.name, strerror(errno));
    open_log(&folder);
    begin(&panel, &folder, &state);
    while (number == 0 && cycles_of(&state) < cycles) {
        uint64_t left = cycles - cycles_of(&state);
        number = go_on(&panel, &folder, &state, records, left < slice ? left : slice);
    }
    printf("cycles %" PRIu64 " instructions %" PRIu64 " log %" PRIu64 " number %d\n", cycles_of(&state), state.instructions,
           state.log_bytes, number);
    free(records);
    return fflush(stdout) ? 1 : 0;
}
