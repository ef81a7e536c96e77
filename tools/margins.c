// Runs scripts one after the other on one blank part, fresh from status 00h, and prints the margin
// report over all of them as a table. Its words are the five allowances, and then for each script
// the name to call it by and the file of its bytes; tools/margins gives them and sees that they are
// good. A refused script gets a line on standard error and makes the exit status 1.
// There are no C headers, so all is declared here.

typedef unsigned char u8;
typedef unsigned int u32;
typedef unsigned long u64;

int open(const char *path, int flags, ...);
long read(int file, void *to, u64 length);
int close(int file);
void *memset(void *to, int byte, u64 length);
u64 strtoul(const char *digits, char **end, int base);
int printf(const char *form, ...);
int dprintf(int file, const char *form, ...);
int snprintf(char *to, u64 room, const char *form, ...);
int fflush(void *stream);

enum { KINDS = 5, LARGEST_ALLOWANCE = 1000000, OVER_ALLOWANCE = 18 };
// The real part's bytes; more script bytes than the text form makes; output for the longest script
// that is run, where the most that two bytes ask for is the three of a deselect.
enum { MEMORY = 32 * 65536, SCRIPT = (1 << 20) + 1, OUTPUT = 65536 / 2 * 3 };
enum { STANDARD_ERROR = 2 };

// The chip as the library exports it: only the library looks inside.
struct chip {
    u8 tb, srwp, wen, suspended, waiting, wp, deep, armed, selected;
    u8 level, kind, value;
    u8 opcode, slot, count, judgement;
    u32 start, done, address;
    u64 place;
    u8 load[256];
    u8 held[256];
};
struct run_answer { struct chip chip; u8 refusal; u64 offset, written, ticks; };
// The library has a field for each kind of job; they lie side by side in the order of `names`.
struct line { u32 count; int smallest, largest; };
struct report { struct line of[KINDS]; };
struct allowances { u32 of[KINDS]; };
struct reported { struct run_answer run; struct report report; };

struct chip chip_fresh(u8 status);
struct reported chip_run_report(struct chip c, u8 *mem, u64 mem_len, const u8 *area, u64 area_len,
                                const u8 *script, u64 script_len, u8 *out, u64 out_len,
                                struct allowances allowances, struct report report);

static const char *const names[KINDS] = {
    "write status", "program", "small sector erase", "sector erase", "chip erase",
};
static u8 memory[MEMORY], script[SCRIPT], output[OUTPUT];
// The empty SFDP area: it has an address and no bytes.
static const u8 area[1];
static struct chip chip;
static struct allowances allowances;
static struct report report;

// Reads a file of script bytes and gives their number, or -1 where it cannot be read.
static long load(const char *path) {
    int file = open(path, 0);
    long length = 0, more = file < 0 ? -1 : 1;
    while (more > 0 && length < SCRIPT) {
        more = read(file, script + length, SCRIPT - length);
        if (more > 0) length += more;
    }
    close(file);
    return more < 0 ? -1 : length;
}

// Says which script was refused, why and where, and of 18 which allowances were too large.
static void tell_refusal(const char *name, struct run_answer run) {
    const char *before = ": allowance over 1,000,000: ";
    dprintf(STANDARD_ERROR, "%s: refused: answer %u at %lu", name, run.refusal, run.offset);
    for (int i = 0; i < KINDS; i++) {
        if (run.refusal != OVER_ALLOWANCE || allowances.of[i] <= LARGEST_ALLOWANCE) continue;
        dprintf(STANDARD_ERROR, "%s%s", before, names[i]);
        before = ", ";
    }
    dprintf(STANDARD_ERROR, "\n");
}

// Runs the script of a file on the chip, the memory and the report as they stand, and carries them
// on. Gives 1 where that was not done, and 0 where it was.
static int run(const char *name, const char *path) {
    long length = load(path);
    if (length < 0) {
        dprintf(STANDARD_ERROR, "%s: its bytes cannot be read\n", name);
        return 1;
    }
    struct reported a = chip_run_report(chip, memory, MEMORY, area, 0, script, (u64)length, output,
                                        OUTPUT, allowances, report);
    chip = a.run.chip;
    report = a.report;
    if (a.run.refusal == 0) return 0;
    tell_refusal(name, a.run);
    return 1;
}

// Prints one line of the table. A kind without jobs has no margins.
static void print_line(const char *name, u32 allowance, struct line line) {
    char smallest[12] = "-", largest[12] = "-";
    int late = line.count > 0 && line.smallest < 0;
    if (line.count > 0) {
        snprintf(smallest, sizeof smallest, "%d", line.smallest);
        snprintf(largest, sizeof largest, "%d", line.largest);
    }
    printf("%-18s  %10u  %10u  %11s  %11s%s\n", name, line.count, allowance, smallest, largest,
           late ? "  LATE" : "");
}

// Runs every script, and then prints the table.
int main(int count, char **words) {
    int status = 0, at = 1;
    if (count < 1 + KINDS || (count - 1 - KINDS) % 2 != 0) return 2;
    for (int i = 0; i < KINDS; i++) allowances.of[i] = (u32)strtoul(words[at++], 0, 10);
    chip = chip_fresh(0x00);
    memset(memory, 0xFF, MEMORY);
    for (; at < count; at += 2) status |= run(words[at], words[at + 1]);
    printf("%-18s  %10s  %10s  %11s  %11s\n", "job", "jobs", "allowance", "smallest", "largest");
    for (int i = 0; i < KINDS; i++) print_line(names[i], allowances.of[i], report.of[i]);
    return fflush(0) == 0 ? status : 2;
}
