/* A plain interpreter of the row table: the processor of docs/CORE.md on the memory of jobs (docs/BUS.md). It reads
 * the row of each cycle from the table, and asks each of its fields.
 *
 * With BY_ROW defined the same functions are compiled once for each listed row, with the row as a constant.
 *
 * It reads a job from standard input and answers it as docs/JOBS.md says. It knows no denials: at a line that
 * would be denied it says so on standard error, and ends with status 2.
 *
 * bench/run.py writes the table, rows.h, and the cases of the listed rows, arms.h, from tools/model/rows.txt. */

#include <inttypes.h>
#include <stdbool.h>
#include <stdint.h>
#include <stdio.h>
#include <string.h>

/* A function that is called does not know the row: so by row, all are taken in. */
#ifdef BY_ROW
#define INLINE static inline __attribute__((always_inline))
#else
#define INLINE static inline
#endif

/* ---- rows ---- */

enum opx {
    OPX_RS, OPX_RT, OPX_PC, OPX_AD, OPX_HI, OPX_LO, OPX_EPC, OPX_BAR, OPX_SR, OPX_CR, OPX_DT,
    OPX_PC4, OPX_C0, OPX_CZ, OPX_CH
};

enum opy {
    OPY_I16, OPY_I18, OPY_IU28, OPY_ISH, OPY_DT, OPY_AD, OPY_C0, OPY_C4, OPY_C8, OPY_C16, OPY_C24, OPY_CX
};

enum alu {
    ALU_SUM, ALU_DIF, ALU_AND, ALU_OR, ALU_XOR, ALU_NOR, ALU_SLL, ALU_SRL, ALU_SRA, ALU_SLTU, ALU_SLT,
    ALU_MUL, ALU_MUH, ALU_MSL, ALU_MSH, ALU_DUQ, ALU_DUR, ALU_DSQ, ALU_DSR
};

enum res {
    RES_NONE, RES_PC, RES_AD, RES_BAR, RES_LO, RES_HI, RES_EPC, RES_CR, RES_SR, RES_RT, RES_RD, RES_R31,
    RES_ERQ, RES_RFE
};

enum adrw { ADRW_NONE, ADRW_IF, ADRW_LW, ADRW_WW, ADRW_WH, ADRW_WB };

enum excp {
    EXCP_NONE, EXCP_IF, EXCP_LW, EXCP_LH, EXCP_LB, EXCP_WW, EXCP_WH, EXCP_WB, EXCP_IBE, EXCP_DBE,
    EXCP_SYS, EXCP_BRK, EXCP_RI, EXCP_CPU, EXCP_OVF, EXCP_CLR
};

enum seq {
    SEQ_NEXT, SEQ_DECOD, SEQ_SPEC, SEQ_MOVC0, SEQ_COPRO, SEQ_BCOND, SEQ_AD10, SEQ_AD1, SEQ_UNSI, SEQ_NUL,
    SEQ_SINUL, SEQ_RIE
};

struct row {
    enum opx opx;
    enum opy opy;
    enum alu alu;
    enum res res;
    enum adrw adrw;
    enum excp excp;
    enum seq seq;
    uint32_t amic;
};

static const struct row rows[1024] = {
#include "rows.h"
};

/* ---- words ---- */

INLINE uint32_t bits(uint32_t word, int high, int low)
{
    return word >> low & ((UINT32_C(1) << (high - low + 1)) - 1);
}

INLINE uint32_t bit(uint32_t word, int number)
{
    return word >> number & 1;
}

/* ---- the memory of jobs ---- */

enum kind { NO_REQUEST, READ_WORD, WRITE_WORD, WRITE_HALF, WRITE_BYTE };

enum answer { NOT_ASKED, WAIT, BUS_ERROR, DONE };

enum { DELAY = 1 };

#define MARK UINT32_C(0xA0000000)
#define LOW_BASE UINT32_C(0x80000000)
#define HIGH_BASE UINT32_C(0xBFC00000)

/* The delay counts for one request, of this kind and address, or for none. */
struct memory {
    enum kind counted_kind;
    uint32_t counted_address;
    uint32_t count;
    uint8_t low[16384];
    uint8_t high[4096];
};

/* The lowest byte of the word at an address, or NULL where it is refused. */
INLINE uint8_t *word_at(struct memory *memory, uint32_t address)
{
    uint32_t word = address & ~UINT32_C(3);
    if (address < MARK) {
        uint32_t place = word - LOW_BASE;
        return place < sizeof memory->low ? &memory->low[place] : NULL;
    }
    uint32_t place = word - HIGH_BASE;
    return place < sizeof memory->high ? &memory->high[place] : NULL;
}

INLINE uint32_t read_word(const uint8_t *bytes)
{
    return (uint32_t)bytes[0] | (uint32_t)bytes[1] << 8 | (uint32_t)bytes[2] << 16 | (uint32_t)bytes[3] << 24;
}

INLINE void write_half(uint8_t *bytes, uint32_t data)
{
    bytes[0] = (uint8_t)data;
    bytes[1] = (uint8_t)(data >> 8);
}

INLINE void write_word(uint8_t *bytes, uint32_t data)
{
    bytes[0] = (uint8_t)data;
    bytes[1] = (uint8_t)(data >> 8);
    bytes[2] = (uint8_t)(data >> 16);
    bytes[3] = (uint8_t)(data >> 24);
}

/* What the memory below the delay does. Data is what is written, or takes what is read. */
INLINE enum answer carry_out(struct memory *memory, enum kind kind, uint32_t address, uint32_t *data)
{
    uint8_t *bytes = word_at(memory, address);
    if (!bytes)
        return BUS_ERROR;
    switch (kind) {
    case NO_REQUEST: break;
    case READ_WORD: *data = read_word(bytes); break;
    case WRITE_WORD: write_word(bytes, *data); break;
    case WRITE_HALF: write_half(bytes + (address & 2), *data); break;
    case WRITE_BYTE: bytes[address & 3] = (uint8_t)*data; break;
    }
    return DONE;
}

INLINE enum answer request(struct memory *memory, enum kind kind, uint32_t address, uint32_t *data)
{
    if (memory->counted_kind != kind || memory->counted_address != address) {
        memory->counted_kind = kind;
        memory->counted_address = address;
        memory->count = DELAY;
    }
    if (memory->count > 0) {
        memory->count--;
        return WAIT;
    }
    memory->counted_kind = NO_REQUEST;
    return carry_out(memory, kind, address, data);
}

/* ---- the core ---- */

/* Each fault has its code; an entry without a fault has the code 0. */
enum fault {
    NO_FAULT = 0, ADEL = 4, ADES = 5, IBE = 6, DBE = 7, SYS = 8, BRK = 9, RI = 10, CPU = 11, OVF = 12
};

struct entry {
    uint64_t count;
    uint32_t epc;
};

struct core {
    uint32_t general[32];
    uint32_t pc, hi, lo, sr, cr, epc, bar, ad, ir, dt;
    enum fault flag;
    uint32_t row;
    uint32_t lines, sampled;
    struct entry ledger[16];
    uint64_t cycles, frozen, boundaries, place;
};

/* CR as it is read: with the lines of the last boundary. */
INLINE uint32_t read_cr(const struct core *core)
{
    return (core->cr & ~UINT32_C(0xFC00)) | bits(core->sampled, 5, 0) << 10;
}

INLINE bool user_mode(const struct core *core)
{
    return bit(core->sr, 1);
}

INLINE uint32_t immediate(const struct core *core)
{
    return (uint32_t)(int16_t)core->ir;
}

INLINE uint32_t operand_x(const struct core *core, enum opx opx)
{
    switch (opx) {
    case OPX_RS: return core->general[bits(core->ir, 25, 21)];
    case OPX_RT: return core->general[bits(core->ir, 20, 16)];
    case OPX_PC: return core->pc;
    case OPX_AD: return core->ad;
    case OPX_HI: return core->hi;
    case OPX_LO: return core->lo;
    case OPX_EPC: return core->epc;
    case OPX_BAR: return core->bar;
    case OPX_SR: return core->sr;
    case OPX_CR: return read_cr(core);
    case OPX_DT: return core->dt;
    case OPX_PC4: return core->pc & UINT32_C(0xF0000000);
    case OPX_C0: return 0;
    case OPX_CZ: return UINT32_C(0xBFC00000);
    case OPX_CH: return 0xFFFF;
    }
    return 0;
}

INLINE uint32_t operand_y(const struct core *core, enum opy opy)
{
    switch (opy) {
    case OPY_I16: return immediate(core);
    case OPY_I18: return immediate(core) << 2;
    case OPY_IU28: return bits(core->ir, 25, 0) << 2;
    case OPY_ISH: return bits(core->ir, 10, 6);
    case OPY_DT: return core->dt;
    case OPY_AD: return core->ad;
    case OPY_C0: return 0;
    case OPY_C4: return 4;
    case OPY_C8: return 8;
    case OPY_C16: return 16;
    case OPY_C24: return 24;
    case OPY_CX: return UINT32_C(0x80000080);
    }
    return 0;
}

INLINE uint64_t unsigned_product(uint32_t x, uint32_t y)
{
    return (uint64_t)x * y;
}

INLINE uint64_t signed_product(uint32_t x, uint32_t y)
{
    return (uint64_t)((int64_t)(int32_t)x * (int32_t)y);
}

INLINE uint32_t unsigned_quotient(uint32_t x, uint32_t y)
{
    return y == 0 ? UINT32_MAX : x / y;
}

/* With 64 bits, since the quotient of 80000000 and FFFFFFFF is no signed number of 32. */
INLINE uint32_t signed_quotient(uint32_t x, uint32_t y)
{
    return y == 0 ? UINT32_MAX : (uint32_t)((int64_t)(int32_t)x / (int32_t)y);
}

INLINE uint32_t operate(enum alu alu, uint32_t x, uint32_t y)
{
    switch (alu) {
    case ALU_SUM: return x + y;
    case ALU_DIF: return x - y;
    case ALU_AND: return x & y;
    case ALU_OR: return x | y;
    case ALU_XOR: return x ^ y;
    case ALU_NOR: return ~(x | y);
    case ALU_SLL: return x << (y & 31);
    case ALU_SRL: return x >> (y & 31);
    case ALU_SRA: return (uint32_t)((int32_t)x >> (y & 31));
    case ALU_SLTU: return x < y;
    case ALU_SLT: return (int32_t)x < (int32_t)y;
    case ALU_MUL: return (uint32_t)unsigned_product(x, y);
    case ALU_MUH: return (uint32_t)(unsigned_product(x, y) >> 32);
    case ALU_MSL: return (uint32_t)signed_product(x, y);
    case ALU_MSH: return (uint32_t)(signed_product(x, y) >> 32);
    case ALU_DUQ: return unsigned_quotient(x, y);
    case ALU_DUR: return x - unsigned_quotient(x, y) * y;
    case ALU_DSQ: return signed_quotient(x, y);
    case ALU_DSR: return x - signed_quotient(x, y) * y;
    }
    return 0;
}

/* Whether a sum or a difference is one that no word stands for. */
INLINE bool overflows(enum alu alu, uint32_t x, uint32_t y, uint32_t result)
{
    switch (alu) {
    case ALU_SUM: return bit((x ^ result) & (y ^ result), 31);
    case ALU_DIF: return bit((x ^ y) & (x ^ result), 31);
    default: return false;
    }
}

/* The answer to the row's request. Data is what is written, or takes what is read. */
INLINE enum answer make_request(const struct core *core, struct memory *memory, enum adrw adrw, uint32_t *data)
{
    switch (adrw) {
    case ADRW_NONE: break;
    case ADRW_IF: return request(memory, READ_WORD, core->pc, data);
    case ADRW_LW: return request(memory, READ_WORD, core->ad, data);
    case ADRW_WW: return request(memory, WRITE_WORD, core->ad, data);
    case ADRW_WH: return request(memory, WRITE_HALF, core->ad, data);
    case ADRW_WB: return request(memory, WRITE_BYTE, core->ad, data);
    }
    return NOT_ASKED;
}

INLINE bool bad_address(const struct core *core, uint32_t address, uint32_t multiple)
{
    return (address & (multiple - 1)) != 0 || (user_mode(core) && bit(address, 31));
}

INLINE enum fault fault_found(const struct core *core, const struct row *row, uint32_t x, uint32_t y,
                                     uint32_t result, enum answer answer)
{
    switch (row->excp) {
    case EXCP_NONE: return NO_FAULT;
    case EXCP_IF: return bad_address(core, result, 4) ? ADEL : NO_FAULT;
    case EXCP_LW: return bad_address(core, result, 4) ? ADEL : NO_FAULT;
    case EXCP_LH: return bad_address(core, result, 2) ? ADEL : NO_FAULT;
    case EXCP_LB: return bad_address(core, result, 1) ? ADEL : NO_FAULT;
    case EXCP_WW: return bad_address(core, result, 4) ? ADES : NO_FAULT;
    case EXCP_WH: return bad_address(core, result, 2) ? ADES : NO_FAULT;
    case EXCP_WB: return bad_address(core, result, 1) ? ADES : NO_FAULT;
    case EXCP_IBE: return answer == BUS_ERROR ? IBE : NO_FAULT;
    case EXCP_DBE: return answer == BUS_ERROR ? DBE : NO_FAULT;
    case EXCP_SYS: return SYS;
    case EXCP_BRK: return BRK;
    case EXCP_RI: return RI;
    case EXCP_CPU: return user_mode(core) ? CPU : NO_FAULT;
    case EXCP_OVF: return overflows(row->alu, x, y, result) ? OVF : NO_FAULT;
    case EXCP_CLR: return NO_FAULT;
    }
    return NO_FAULT;
}

/* Whether the result is not written. Of the destinations, software sees all but AD. */
INLINE bool is_stopped(const struct core *core, const struct row *row, enum fault found)
{
    if (row->excp == EXCP_CLR)
        return false;
    if (core->flag != NO_FAULT)
        return true;
    return found != NO_FAULT && found != IBE && found != DBE && row->res != RES_AD;
}

INLINE void write_general(struct core *core, uint32_t number, uint32_t word)
{
    if (number != 0)
        core->general[number] = word;
}

INLINE void enter(struct core *core)
{
    core->sr = (core->sr & ~UINT32_C(0x3F)) | (core->sr << 2 & 0x3F);
    core->cr = (core->cr & ~UINT32_C(0x3F)) | (uint32_t)core->flag << 2;
}

/* The rows that save PC to EPC are those of an entry, which the ledger notes. */
INLINE void write_epc(struct core *core, const struct row *row, uint32_t word)
{
    core->epc = word;
    if (row->opx == OPX_PC) {
        struct entry *entry = &core->ledger[bits(core->cr, 5, 2)];
        entry->count++;
        entry->epc = word;
    }
}

INLINE void write_result(struct core *core, const struct row *row, uint32_t result)
{
    switch (row->res) {
    case RES_NONE: break;
    case RES_PC: core->pc = result; break;
    case RES_AD: core->ad = result; break;
    case RES_BAR: core->bar = result; break;
    case RES_LO: core->lo = result; break;
    case RES_HI: core->hi = result; break;
    case RES_EPC: write_epc(core, row, result); break;
    case RES_CR: core->cr = result; break;
    case RES_SR: core->sr = result; break;
    case RES_RT: write_general(core, bits(core->ir, 20, 16), result); break;
    case RES_RD: write_general(core, bits(core->ir, 15, 11), result); break;
    case RES_R31: write_general(core, 31, result); break;
    case RES_ERQ: enter(core); break;
    case RES_RFE: core->sr = (core->sr & ~UINT32_C(0xF)) | bits(core->sr, 5, 2); break;
    }
}

/* Reset, interrupt and fault as three bits. */
INLINE uint32_t boundary(struct core *core, enum fault flag)
{
    bool interrupt = bit(core->sr, 0) && (bits(core->sr, 15, 10) & core->lines) != 0;
    core->boundaries++;
    core->place = 0;
    core->sampled = core->lines;
    return bit(core->lines, 6) << 2 | (uint32_t)interrupt << 1 | (uint32_t)(flag != NO_FAULT);
}

/* The next row, by the registers as they were before the cycle and the flag as it is after it. */
INLINE uint32_t next_row(struct core *core, const struct row *row, uint32_t result, enum fault flag)
{
    uint32_t amic = row->amic, ir = core->ir;
    switch (row->seq) {
    case SEQ_NEXT: return amic;
    case SEQ_DECOD: return 256 + 4 * bits(ir, 31, 26);
    case SEQ_SPEC: return 512 + 4 * bits(ir, 5, 0);
    case SEQ_MOVC0: return (amic & ~UINT32_C(15)) | bits(ir, 14, 11);
    case SEQ_COPRO: return (amic & ~UINT32_C(3)) | bit(ir, 25) << 1 | bit(ir, 23);
    case SEQ_BCOND: return (amic & ~UINT32_C(3)) | bit(ir, 20) << 1 | bit(ir, 16);
    case SEQ_AD10: return (amic & ~UINT32_C(3)) | bits(core->ad, 1, 0);
    case SEQ_AD1: return (amic & ~UINT32_C(1)) | bit(core->ad, 1);
    case SEQ_UNSI: return (amic & ~UINT32_C(1)) | bit(ir, 28);
    case SEQ_NUL: return (amic & ~UINT32_C(1)) | (uint32_t)(result == 0);
    case SEQ_SINUL: return (amic & ~UINT32_C(3)) | bit(result, 31) << 1 | (uint32_t)(result == 0);
    case SEQ_RIE: return (amic & ~UINT32_C(7)) | boundary(core, flag);
    }
    return 0;
}

/* The flag after a cycle. */
INLINE enum fault next_flag(const struct core *core, const struct row *row, enum fault found)
{
    if (row->excp == EXCP_CLR)
        return NO_FAULT;
    return core->flag != NO_FAULT ? core->flag : found;
}

INLINE void cycle_in(struct core *core, struct memory *memory, const struct row *row)
{
    uint32_t x = operand_x(core, row->opx);
    uint32_t y = operand_y(core, row->opy);
    uint32_t result = operate(row->alu, x, y);
    uint32_t data = result;
    enum answer answer = NOT_ASKED;

    core->cycles++;
    if (row->adrw != ADRW_NONE && core->flag == NO_FAULT) {
        answer = make_request(core, memory, row->adrw, &data);
        if (answer == WAIT) {
            core->frozen++;
            return;
        }
    }
    core->place++;
    enum fault found = fault_found(core, row, x, y, result, answer);
    enum fault flag = next_flag(core, row, found);
    core->row = next_row(core, row, result, flag);
    if (!is_stopped(core, row, found))
        write_result(core, row, result);
    if (answer == DONE && row->adrw == ADRW_IF)
        core->ir = data;
    if (answer == DONE && row->adrw == ADRW_LW)
        core->dt = data;
    core->flag = flag;
}

#ifdef BY_ROW

/* Where a flag is up, and in the rows that are not listed: both are seldom. */
__attribute__((cold, noinline)) static void cycle_by_table(struct core *core, struct memory *memory)
{
    cycle_in(core, memory, &rows[core->row]);
}

INLINE void cycle(struct core *core, struct memory *memory)
{
    if (core->flag != NO_FAULT) {
        cycle_by_table(core, memory);
        return;
    }
    switch (core->row) {
#include "arms.h"
    default: cycle_by_table(core, memory);
    }
}

#else

INLINE void cycle(struct core *core, struct memory *memory)
{
    cycle_in(core, memory, &rows[core->row]);
}

#endif

static void run(struct core *core, struct memory *memory, uint32_t count)
{
    for (uint32_t done = 0; done < count; done++)
        cycle(core, memory);
}

static uint32_t shown(const struct core *core, uint32_t number)
{
    const uint32_t special[] = {
        core->pc, core->hi, core->lo, core->sr, read_cr(core), core->epc, core->bar, core->ad, core->ir, core->dt
    };
    return number < 32 ? core->general[number] : special[number - 32];
}

/* ---- jobs ---- */

enum { LONGEST = 65536 };

struct job {
    struct memory memory;
    struct core core;
    bool started;
};

struct order {
    uint32_t kind;
    uint32_t fields[2];
};

/* The kinds of lines, and how many digits the fields behind each have. */
static const struct form {
    uint32_t kind;
    int count;
    int digits[2];
} forms[] = {{0x10, 2, {8, 8}}, {0x20, 0, {0, 0}}, {0x30, 1, {2, 0}}, {0x40, 1, {4, 0}}, {0x50, 1, {2, 0}}};

/* Reads a number of so many digits, and moves on behind it. */
static bool read_number(const char **at, const char *end, int digits, uint32_t *number)
{
    *number = 0;
    if (end - *at < digits)
        return false;
    for (int read = 0; read < digits; read++) {
        char byte = *(*at)++;
        if (byte >= '0' && byte <= '9')
            *number = *number << 4 | (uint32_t)(byte - '0');
        else if (byte >= 'A' && byte <= 'F')
            *number = *number << 4 | (uint32_t)(byte - 'A' + 10);
        else
            return false;
    }
    return true;
}

static bool read_order(const char *at, const char *end, struct order *order)
{
    if (!read_number(&at, end, 2, &order->kind))
        return false;
    for (size_t which = 0; which < sizeof forms / sizeof *forms; which++) {
        const struct form *form = &forms[which];
        if (form->kind != order->kind)
            continue;
        for (int field = 0; field < form->count; field++)
            if (at == end || *at++ != ' ' || !read_number(&at, end, form->digits[field], &order->fields[field]))
                return false;
        return at == end;
    }
    return false;
}

static bool load(struct job *job, uint32_t address, uint32_t word)
{
    enum answer answer;
    do
        answer = request(&job->memory, WRITE_WORD, address, &word);
    while (answer == WAIT);
    return answer == DONE;
}

static void reply_to_run(const struct core *core)
{
    printf("40 %016" PRIX64 " %016" PRIX64 " %016" PRIX64 "\n", core->cycles, core->frozen, core->boundaries);
}

/* Does a line and replies; false where it would be denied. */
static bool answer_order(struct job *job, const struct order *order)
{
    uint32_t value = order->fields[0];
    bool before = order->kind == 0x10 || order->kind == 0x20;
    if (before == job->started)
        return false;
    switch (order->kind) {
    case 0x10:
        if (!load(job, value, order->fields[1]))
            return false;
        puts("10");
        return true;
    case 0x20:
        job->started = true;
        puts("20");
        return true;
    case 0x30:
        if (value > 127)
            return false;
        job->core.lines = value;
        puts("30");
        return true;
    case 0x40:
        if (value == 0)
            return false;
        run(&job->core, &job->memory, value);
        reply_to_run(&job->core);
        return true;
    default:
        if (value > 41)
            return false;
        printf("50 %02" PRIX32 " %08" PRIX32 "\n", value, shown(&job->core, value));
        return true;
    }
}

/* Answers a whole job; the number of the line that would be denied, or 0. */
static unsigned answer_job(struct job *job, const char *at, const char *end)
{
    for (unsigned number = 1; at < end; number++) {
        const char *newline = memchr(at, '\n', (size_t)(end - at));
        const char *line_end = newline ? newline : end;
        struct order order = {0, {0, 0}};
        if (!read_order(at, line_end, &order) || !answer_order(job, &order))
            return number;
        at = newline ? newline + 1 : end;
    }
    return 0;
}

int main(void)
{
    static struct job job;
    static char text[LONGEST + 1];
    size_t length = fread(text, 1, sizeof text, stdin);
    if (ferror(stdin)) {
        fputs("interpreter: cannot read the job\n", stderr);
        return 1;
    }
    if (length > LONGEST) {
        fputs("interpreter: the job has more than 65536 bytes\n", stderr);
        return 2;
    }
    unsigned denied = answer_job(&job, text, text + length);
    if (denied) {
        fprintf(stderr, "interpreter: line %u would be denied\n", denied);
        return 2;
    }
    if (fflush(stdout)) {
        fputs("interpreter: cannot write the replies\n", stderr);
        return 1;
    }
    return 0;
}
