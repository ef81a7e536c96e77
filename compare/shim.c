// The library process: one chip of the library, served over two pipes and one shared file.
// A request is one byte on standard input, its answer the same byte on standard output; all that
// goes with them stands in the shared file. There are no C headers, so all is declared here.

typedef unsigned char u8;
typedef unsigned int u32;
typedef unsigned long u64;

int open(const char *path, int flags, ...);
void *mmap(void *at, u64 length, int protection, int flags, int file, long offset);
long read(int file, void *to, u64 length);
long write(int file, const void *from, u64 length);
u32 alarm(u32 seconds);

// The chip as the library exports it. The flags are bytes, so that any number can be tried.
struct chip {
    u8 tb, srwp, wen, suspended, waiting, wp, deep, armed, selected;
    u8 level, kind, value;
    u8 opcode, slot, count, judgement;
    u32 start, done, address;
    u64 place;
    u8 load[256];
    u8 held[256];
};
struct event_answer { struct chip chip; u8 refusal, size; u8 bytes[3]; u32 ticks; };
struct run_answer { struct chip chip; u8 refusal; u64 offset, written, ticks; };
// A report has a line, and the allowances have a number, for each kind of job.
struct line { u32 count; int smallest, largest; };
struct report { struct line status, program, small, sector, chip; };
struct allowances { u32 status, program, small, sector, chip; };
struct reported { struct run_answer run; struct report report; };
struct found { u8 refusal; u64 place, length; };
struct own_area { u8 bytes[208]; };
struct written { u8 refusal; u64 written; };

struct chip chip_fresh(u8 status);
_Bool chip_legal(struct chip c, u64 memory_length);
struct event_answer chip_event(struct chip c, u8 *mem, u64 mem_len, const u8 *area, u64 area_len,
                               u64 kind, u64 body);
struct event_answer chip_event_lent(struct chip c, u8 *mem, u64 mem_len, const u8 *area,
                                    u64 area_len, u64 kind, u64 body);
struct run_answer chip_run(struct chip c, u8 *mem, u64 mem_len, const u8 *area, u64 area_len,
                           const u8 *script, u64 script_len, u8 *out, u64 out_len);
struct reported chip_run_report(struct chip c, u8 *mem, u64 mem_len, const u8 *area, u64 area_len,
                                const u8 *script, u64 script_len, u8 *out, u64 out_len,
                                struct allowances allowances, struct report report);
struct found sfdp_find(const u8 *area, u64 area_len, u8 identity);
struct own_area sfdp_own_area(void);
struct written write_program(u64 mem_len, u64 address, const u8 *data, u64 data_len, u8 *out,
                             u64 out_len);

// The areas of the shared file; the harness has the same numbers.
enum { SECTOR = 65536, MEMORY = 0, SCRIPT = 65 * SECTOR, OUTPUT = 68 * SECTOR, DESK = 75 * SECTOR };
enum { SFDP = 76 * SECTOR, FILE_LENGTH = 77 * SECTOR };
// The chip and the part's own SFDP area on the desk, and the bytes before the SFDP area that is lent.
enum { IMAGE = 128, OWN_AREA = 1024, GUARD = 64 };
// The allowances of a run on the desk, and behind them its report.
enum { ALLOWANCES = 2048, REPORT = ALLOWANCES + sizeof(struct allowances) };

// Seconds after which a request without an answer ends the process.
enum { PATIENCE = 20 };

static u8 *shared;
static struct chip chip;

// Copies bytes from one place to another and gives the place after the last one written or read.
static u8 *copy(u8 *to, const u8 *from, u64 length, u8 *next) {
    for (u64 i = 0; i < length; i++) to[i] = from[i];
    return next + length;
}

// Moves one field between the chip and its image.
#define FIELD(f) at = out ? copy(at, (u8 *)&chip.f, sizeof chip.f, at) : copy((u8 *)&chip.f, at, sizeof chip.f, at)

// Writes the chip to the desk as a list of fields, or takes it from there.
static void cross(int out) {
    u8 *at = shared + DESK + IMAGE;
    FIELD(tb); FIELD(srwp); FIELD(wen); FIELD(suspended); FIELD(waiting);
    FIELD(wp); FIELD(deep); FIELD(armed); FIELD(selected);
    FIELD(level); FIELD(kind); FIELD(value);
    FIELD(opcode); FIELD(slot); FIELD(count); FIELD(judgement);
    FIELD(start); FIELD(done); FIELD(address); FIELD(place);
    FIELD(load); FIELD(held);
}

// Keeps the chip of an event's answer and puts the rest of it on the desk.
static void event_done(struct event_answer a, u64 *desk) {
    chip = a.chip;
    desk[0] = a.refusal; desk[1] = a.size; desk[2] = a.ticks;
    desk[3] = a.bytes[0]; desk[4] = a.bytes[1]; desk[5] = a.bytes[2];
}

// Keeps the chip of a run's answer and puts the rest of it on the desk.
static void run_done(struct run_answer a, u64 *desk) {
    chip = a.chip;
    desk[0] = a.refusal; desk[1] = a.offset; desk[2] = a.written; desk[3] = a.ticks;
}

// Runs a script with the allowances and the report that stand on the desk, where the report after it
// goes.
static void run_report(u64 *desk, u8 *mem, const u8 *area) {
    u8 *report_at = shared + DESK + REPORT;
    struct allowances allowances;
    struct report report;
    copy((u8 *)&allowances, shared + DESK + ALLOWANCES, sizeof allowances, shared);
    copy((u8 *)&report, report_at, sizeof report, shared);
    struct reported a = chip_run_report(chip, mem, desk[0], area, desk[1], shared + SCRIPT, desk[2],
                                        shared + OUTPUT, desk[3], allowances, report);
    run_done(a.run, desk);
    copy(report_at, (u8 *)&a.report, sizeof a.report, shared);
}

// Puts the reader's answer on the desk.
static void find_done(struct found a, u64 *desk) {
    desk[0] = a.refusal; desk[1] = a.place; desk[2] = a.length;
}

// Puts the part's own SFDP area on the desk.
static void own_area_done(struct own_area a) {
    u8 *to = shared + DESK + OWN_AREA;
    copy(to, a.bytes, sizeof a.bytes, to);
}

// Puts the script writer's answer on the desk.
static void write_done(struct written a, u64 *desk) {
    desk[0] = a.refusal; desk[1] = a.written;
}

// Serves one request, whose numbers stand on the desk.
static void serve(u8 request) {
    u64 *desk = (u64 *)(shared + DESK);
    u8 *mem = shared + MEMORY, *area = shared + SFDP + GUARD;
    switch (request) {
    case 'f': chip = chip_fresh((u8)desk[0]); break;
    case 'p': cross(0); break;
    case 'l': desk[0] = chip_legal(chip, desk[0]); break;
    case 'e':
        event_done(chip_event(chip, mem, desk[0], area, desk[1], desk[2], desk[3]), desk);
        break;
    case 'b':
        event_done(chip_event_lent(chip, mem, desk[0], area, desk[1], desk[2], desk[3]), desk);
        break;
    case 'r':
        run_done(chip_run(chip, mem, desk[0], area, desk[1], shared + SCRIPT, desk[2],
                          shared + OUTPUT, desk[3]), desk);
        break;
    case 'm': run_report(desk, mem, area); break;
    case 't': find_done(sfdp_find(area, desk[0], (u8)desk[1]), desk); break;
    case 'o': own_area_done(sfdp_own_area()); break;
    case 'w':
        write_done(write_program(desk[0], desk[1], shared + SCRIPT, desk[2], shared + OUTPUT,
                                 desk[3]), desk);
        break;
    }
    cross(1);
}

// Maps the shared file and serves requests until there are no more.
int main(int count, char **words) {
    u8 request;
    int file = count == 2 ? open(words[1], 2) : -1;
    if (file < 0) return 2;
    shared = mmap(0, FILE_LENGTH, 3, 1, file, 0);
    if (shared == (u8 *)-1) return 2;
    while (read(0, &request, 1) == 1) {
        alarm(PATIENCE);
        serve(request);
        alarm(0);
        if (write(1, &request, 1) != 1) return 2;
    }
    return 0;
}
