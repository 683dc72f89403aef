/* The machine of docs/MACHINE.md turn by turn, in plain C: the yardstick of turns.sh and run.sh. It reads words of user code in
 * hexadecimal and runs them for so many cycles, with so many requests at even distances:
 *     turn_machine CYCLES [REQUESTS] < WORDS
 * After a - come data words, from address 256 on. It prints what it counted, the registers and the number of bytes sent. Nothing of it
 * is proved. */
#include <stdbool.h>
#include <stdint.h>
#include <stdio.h>
#include <stdlib.h>

enum { CODE_BASE = 4096, MAX_WORDS = 60000, DATA_WORDS = 65536, CONSOLE = 255, SETS = 4, WAYS = 8, NO_SLOT = 32 };
enum kind { BRANCH, COMPUTE, SHIFT, FROM, TO, LOAD, STORE, ADDI, JUMP, POP, POP_RESTORE, HALT, NOTHING };

struct word { uint8_t kind, a, b, dest, op, squash; int32_t number; };
/* a stage: the address of its fetch with bit 31 set where it is squashed, or EMPTY */
typedef uint64_t stage;
struct set { uint32_t tag[WAYS]; uint16_t valid[WAYS]; uint8_t next; };
struct counts { uint64_t cycles, fetches, misses, squashes, interrupts; };

static const stage EMPTY = (stage)1 << 32, SQUASHED = (stage)1 << 31;

static const uint32_t handler[] = {
    0x88020001, 0x88040002, 0x50001001, 0x50002002, 0x88020003, 0x88040004, 0x50001003, 0x88020005,
    0x80040000, 0x80020003, 0xc0840001, 0x88040000, 0x58400001, 0x80040004, 0x80020005, 0x58800002,
    0x58400003, 0x80040002, 0x80020001, 0x40000000, 0xd0000000, 0xd0000000, 0xd8000000,
};

static struct word code[CODE_BASE + MAX_WORDS];
static uint32_t code_end = CODE_BASE;
static const struct word idle = { .kind = NOTHING };

static uint32_t regs[32], md, data[DATA_WORDS], chain[3];
static uint32_t slot_value;
static uint8_t slot = NO_SLOT;
static stage next, in_if, in_rf, in_alu, in_mem, in_wb;
static struct set sets[SETS];
static struct counts counts;
static bool user = true, interrupts = true, old_user = false, old_interrupts = false, latch, halted, missed;
static unsigned stall;
static uint64_t sent;

static int32_t signed_of(uint32_t bits, unsigned width) { return (int32_t)(bits << (32 - width)) >> (32 - width); }

static struct word decode(uint32_t w)
{
    uint32_t a = w >> 22 & 31, b = w >> 17 & 31, rest = w & 0x1ffff, function = rest & 0xfff, dest = rest >> 12;
    struct word d = { .kind = NOTHING, .a = a, .b = b, .dest = dest, .op = function };
    switch (w >> 27) {
    case 0: case 1: case 2: case 3: case 4: case 5:
        d.kind = BRANCH, d.op = w >> 27, d.squash = rest >> 16, d.number = signed_of(rest & 0xffff, 16);
        break;
    case 8: if (function <= 11 && (function != 7 || !b) && (function != 9 || !a)) d.kind = COMPUTE; break;
    case 9:
        if (function < 32 && !b) d.kind = SHIFT, d.op = 0, d.number = function;
        else if (function >= 256 && function < 288) d.kind = SHIFT, d.op = 1, d.number = function - 256;
        break;
    case 10: if (!a && !b && function < 4) d.kind = FROM; break;
    case 11: if (!b && rest < 4) d.kind = TO, d.op = rest; break;
    case 16: d.kind = LOAD, d.dest = b, d.b = 0, d.number = signed_of(rest, 17); break;
    case 17: d.kind = STORE, d.dest = 0, d.number = signed_of(rest, 17); break;
    case 24: d.kind = ADDI, d.dest = b, d.b = 0, d.number = signed_of(rest, 17); break;
    case 25: d.kind = JUMP, d.dest = b, d.b = 0, d.number = signed_of(rest, 17); break;
    case 26: if (!(w & 0x7ffffff)) d.kind = POP; break;
    case 27: if (!(w & 0x7ffffff)) d.kind = POP_RESTORE; break;
    case 28: if (!(w & 0x7ffffff)) d.kind = HALT; break;
    }
    return d;
}

static inline uint32_t sees(uint8_t r) { return r == slot ? slot_value : regs[r]; }

static inline void put(uint8_t r, uint32_t value) { if (r) regs[r] = value; }

/* A squashed or empty stage is beyond all code. */
static inline const struct word *live(stage s) { return s < code_end ? &code[s] : &idle; }

static inline uint32_t address_of(stage s) { return s & 0x7fffffff; }

static inline uint32_t computed(const struct word *w, uint32_t a, uint32_t b)
{
    switch (w->op) {
    case 0: return a + b;
    case 1: return a - b;
    case 2: return a - b - 1;
    case 3: return a & b;
    case 4: return a | b;
    case 5: return a ^ b;
    case 6: return a & ~b;
    case 7: return ~a;
    case 8: { unsigned n = 8 * (b & 3); return n ? a << n | a >> (32 - n) : a; }
    case 9: { uint32_t r = md >> 31 ? 0 - b : 0; md *= 2; return r; }
    case 10: { uint32_t r = md >> 31 ? 2 * a + b : 2 * a; md *= 2; return r; }
    default: {
        uint64_t t = 2 * (uint64_t)a + (md >> 31);
        md = 2 * md + (t >= b);
        return (uint32_t)(t >= b ? t - b : t);
    }
    }
}

static inline uint32_t loaded(uint32_t address)
{
    if (address == CONSOLE || address >= DATA_WORDS) return 0;
    return user && address < CONSOLE ? 0 : data[address];
}

static inline void store(uint32_t address, uint32_t value)
{
    if (address == CONSOLE) sent++;
    else if (address < DATA_WORDS && (!user || address > CONSOLE)) data[address] = value;
}

static inline void load(uint8_t dest, uint32_t value)
{
    uint32_t old = regs[dest];
    put(dest, value);
    slot = dest, slot_value = old;
}

static inline void commit(const struct word *w, uint32_t at)
{
    uint32_t value;
    switch (w->kind) {
    case COMPUTE: value = computed(w, sees(w->a), sees(w->b)); break;
    case SHIFT:
        value = sees(w->a);
        if (!w->op) value = (uint32_t)((int32_t)value >> w->number);
        else if (w->number) value = sees(w->b) << (32 - w->number) | value >> w->number;
        break;
    case ADDI: value = sees(w->a) + (uint32_t)w->number; break;
    case LOAD: load(w->dest, loaded(sees(w->a) + (uint32_t)w->number)); return;
    case STORE: store(sees(w->a) + (uint32_t)w->number, sees(w->b)); slot = NO_SLOT; return;
    case FROM: value = !w->op ? md : user ? regs[w->dest] : chain[w->op - 1]; break;
    case TO:
        if (!w->op) md = sees(w->a);
        else if (!user) chain[w->op - 1] = sees(w->a);
        slot = NO_SLOT;
        return;
    case JUMP: value = at + 3; break;
    case HALT: halted = true; slot = NO_SLOT; return;
    default: slot = NO_SLOT; return;
    }
    put(w->dest, value);
    slot = NO_SLOT;
}

static inline bool holds(uint8_t condition, uint32_t a, uint32_t b)
{
    switch (condition) {
    case 0: return a == b;
    case 1: return a != b;
    case 2: return (int32_t)a < (int32_t)b;
    case 3: return (int32_t)a >= (int32_t)b;
    case 4: return a < b;
    default: return a >= b;
    }
}

static void pop(bool restores)
{
    if (user) return;
    next = chain[0];
    chain[0] = chain[1], chain[1] = chain[2];
    if (restores) user = old_user, interrupts = old_interrupts;
}

static inline stage squashed(stage s) { return s == EMPTY ? s : s | SQUASHED; }

/* The word in ALU decides where the next fetch goes, and whether the two words behind it are cancelled. */
static inline void decide(const struct word *w, uint32_t at)
{
    switch (w->kind) {
    case BRANCH:
        if (holds(w->op, sees(w->a), sees(w->b))) next = address_of(at + (uint32_t)w->number);
        else if (w->squash) in_if = squashed(in_if), in_rf = squashed(in_rf), counts.squashes++;
        return;
    case JUMP: next = address_of(sees(w->a) + (uint32_t)w->number); return;
    case POP: pop(false); return;
    case POP_RESTORE: pop(true); return;
    default: return;
    }
}

static uint32_t kept(stage s) { return s == EMPTY ? 0 : (uint32_t)s; }

static void enter(void)
{
    chain[0] = kept(in_alu), chain[1] = kept(in_rf), chain[2] = kept(in_if);
    old_user = user, old_interrupts = interrupts, user = interrupts = latch = false;
    next = 0, in_if = in_rf = in_alu = EMPTY;
    counts.interrupts++;
}

/* Makes a word that is not resident so. */
static bool fill(struct set *s, uint32_t line, uint32_t word)
{
    uint16_t pair = 3u << (word & ~1u);
    for (int way = 0; way < WAYS; way++)
        if (s->valid[way] && s->tag[way] == line) {
            s->valid[way] |= pair;
            return false;
        }
    s->tag[s->next] = line, s->valid[s->next] = pair, s->next = (s->next + 1) % WAYS;
    return false;
}

static inline bool cached(uint32_t address)
{
    uint32_t line = address / 16, word = address % 16;
    struct set *s = &sets[line % SETS];
    for (int way = 0; way < WAYS; way++)
        if (s->tag[way] == line && s->valid[way] >> word & 1) return true;
    return fill(s, line, word);
}

/* A cycle in which no fetch waits. */
static inline void turn(void)
{
    in_wb = in_mem, in_mem = in_alu, in_alu = in_rf, in_rf = in_if, in_if = next;
    commit(live(in_mem), address_of(in_mem));
    counts.fetches++;
    if (missed) counts.misses++;
    if (halted) return;
    if (latch && interrupts && in_alu != EMPTY) enter();
    else {
        next = address_of(next + 1);
        decide(live(in_alu), address_of(in_alu));
    }
    missed = !cached(address_of(next));
    if (missed) stall = 2;
}

int main(int count, char **words)
{
    uint64_t cycles = count > 1 ? strtoull(words[1], NULL, 10) : 1000;
    uint64_t requests = count > 2 ? strtoull(words[2], NULL, 10) : 0, came = 0;
    uint32_t word;
    for (uint32_t i = 0; i < sizeof handler / sizeof *handler; i++) code[i] = decode(handler[i]);
    for (uint32_t i = sizeof handler / sizeof *handler; i < CODE_BASE; i++) code[i] = idle;
    while (code_end < CODE_BASE + MAX_WORDS && scanf("%x", &word) == 1) code[code_end++] = decode(word);
    if (scanf(" -") != EOF)
        for (uint32_t at = CONSOLE + 1; at < DATA_WORDS && scanf("%x", &word) == 1; at++) data[at] = word;
    next = CODE_BASE, in_if = in_rf = in_alu = in_mem = in_wb = EMPTY;
    missed = !cached(CODE_BASE), stall = 2;
    /* Each round goes from one request to the next, or to the end. */
    while (counts.cycles < cycles && !halted) {
        latch |= came < requests;
        came++;
        uint64_t end = came < requests ? came * (cycles / requests) : cycles;
        for (; counts.cycles < end && !halted; counts.cycles++) {
            if (stall) stall--;
            else turn();
        }
    }
    printf("cycles %llu\nfetches %llu\nmisses %llu\nsquashes %llu\ninterrupts %llu\n", (unsigned long long)counts.cycles,
        (unsigned long long)counts.fetches, (unsigned long long)counts.misses, (unsigned long long)counts.squashes,
        (unsigned long long)counts.interrupts);
    for (int r = 1; r < 32; r++) if (regs[r]) printf("r%d %08x\n", r, regs[r]);
    printf("sent %llu\n", (unsigned long long)sent);
    return 0;
}
