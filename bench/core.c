/* A TCG plugin for qemu-user: runs an x86-64 program through a model of an out-of-order core and writes `cycles C instructions I branches B missed M` to
 * standard error at the end, for bench/core.sh. For comparing two programs where no x86-64 machine is at hand; docs/SPEED.md says how far it was right.
 * The model: four operations enter a cycle (a compare and the jump behind it are one), in order, and leave in order; 224 are inside at most; each starts when
 * what it reads is there, a load five cycles after its address and after the store that wrote its bytes; behind a branch that was predicted wrong
 * nothing enters until sixteen cycles after it is decided. Branches are predicted by a table by address and six by address and history (TAGE).
 * Not in it: caches, ports, the front end. Declarations are those of QEMU's plugin API version 1. */
#include <capstone/capstone.h>
#include <stddef.h>
#include <stdint.h>
#include <stdio.h>
#include <stdlib.h>
#include <string.h>
typedef uint64_t qemu_plugin_id_t;
typedef struct qemu_info_t qemu_info_t;
typedef uint32_t qemu_plugin_meminfo_t;
struct qemu_plugin_tb;
struct qemu_plugin_insn;
enum { NO_REGS = 0, READ_OR_WRITE = 3 };
extern void qemu_plugin_register_vcpu_tb_trans_cb(qemu_plugin_id_t, void (*)(qemu_plugin_id_t, struct qemu_plugin_tb *));
extern size_t qemu_plugin_tb_n_insns(const struct qemu_plugin_tb *);
extern struct qemu_plugin_insn *qemu_plugin_tb_get_insn(const struct qemu_plugin_tb *, size_t);
extern const void *qemu_plugin_insn_data(const struct qemu_plugin_insn *);
extern size_t qemu_plugin_insn_size(const struct qemu_plugin_insn *);
extern uint64_t qemu_plugin_insn_vaddr(const struct qemu_plugin_insn *);
extern void qemu_plugin_register_vcpu_insn_exec_cb(struct qemu_plugin_insn *, void (*)(unsigned, void *), int, void *);
extern void qemu_plugin_register_vcpu_mem_cb(struct qemu_plugin_insn *, void (*)(unsigned, qemu_plugin_meminfo_t, uint64_t, void *), int, int, void *);
extern _Bool qemu_plugin_mem_is_store(qemu_plugin_meminfo_t);
extern void qemu_plugin_register_atexit_cb(qemu_plugin_id_t, void (*)(qemu_plugin_id_t, void *), void *);
__attribute__((visibility("default"))) int qemu_plugin_version = 1;

enum { WIDTH = 4, INSIDE = 224, REFILL = 16, LOAD = 5, FLAGS = 32, REGISTERS = 33 };

/* What the model knows of an instruction: its registers (0..15 general, 16..31 vectors, FLAGS), how long it takes, what it does. */
struct op {
    uint64_t at, next;
    uint8_t reads[16], writes[8], n_reads, n_writes, latency;
    _Bool load, store, conditional, indirect, call, back, fused;
};
static csh decoder;
static uint64_t cycle, entered, ready[REGISTERS], left[INSIDE], n_left, instructions, branches, missed;
static struct op *last;
static struct { uint64_t at[8]; int n; } loaded, stored;

/* ---- which way a branch goes */
enum { TABLES = 6, ENTRIES = 4096 };
static int8_t plain[32768];
static struct { int8_t way; uint8_t useful; uint16_t tag; } tables[TABLES][ENTRIES];
static const int lengths[TABLES] = {4, 9, 18, 36, 72, 144};
static uint8_t history[256];
static unsigned n_history, chance = 1;

static uint32_t folded(int length, int bits) {
    uint32_t f = 0;
    for (int i = length; i-- > 0;) f = (((f << 1) | (f >> (bits - 1))) & ((1u << bits) - 1)) ^ history[(n_history - 1 - (unsigned)i) & 255];
    return f;
}
static void toward(int8_t *count, int most, int taken) {
    if (taken && *count < most) ++*count;
    if (!taken && *count > -most - 1) --*count;
}
static int predicted_wrong(uint64_t at, int taken) {
    uint32_t place[TABLES], tag[TABLES];
    int found = -1, other = -1;
    for (int t = 0; t < TABLES; t++) {
        uint32_t f = folded(lengths[t], 12);
        place[t] = (at ^ (at >> 12) ^ f ^ (uint32_t)t * 37) % ENTRIES;
        tag[t] = ((at ^ (at >> 7) ^ (folded(lengths[t], 9) << 1) ^ f) & 1023) + 1;
    }
    for (int t = TABLES; t-- > 0 && other < 0;)
        if (tables[t][place[t]].tag == tag[t]) *(found < 0 ? &found : &other) = t;
    int8_t *base = &plain[(at ^ (at >> 15)) % 32768];
    int second = (other < 0 ? *base : tables[other][place[other]].way) >= 0, way = second;
    if (found >= 0) {
        int8_t *own = &tables[found][place[found]].way;
        uint8_t *useful = &tables[found][place[found]].useful;
        if (*useful || (*own != 0 && *own != -1)) way = *own >= 0;
        if ((*own >= 0) != second) {
            if ((*own >= 0) == taken) *useful += *useful < 3;
            else *useful -= *useful > 0;
        }
        toward(own, 3, taken);
    }
    if (other < 0) toward(base, 1, taken);
    if (way != taken && found < TABLES - 1) {
        int t = found + 1 + (int)((chance = chance * 1103515245 + 12345) >> 16 & 1), from = t;
        while (t < TABLES && tables[t][place[t]].useful) t++;
        if (t < TABLES) tables[t][place[t]].tag = (uint16_t)tag[t], tables[t][place[t]].way = taken ? 0 : -1;
        else
            for (t = from; t < TABLES; t++) tables[t][place[t]].useful--;
    }
    history[n_history++ & 255] = (uint8_t)taken;
    return way != taken;
}
static int jumped_wrong(const struct op *o, uint64_t to) {
    static uint64_t targets[4096], returns[16];
    static unsigned n_returns;
    int wrong = 0;
    if (o->conditional) branches++, wrong = predicted_wrong(o->at, to != o->next);
    else if (o->back) wrong = returns[--n_returns & 15] != to;
    else if (o->indirect) {
        uint64_t *target = &targets[(o->at ^ folded(9, 12)) % 4096];
        wrong = *target != to;
        *target = to;
    }
    if (o->call) returns[n_returns++ & 15] = o->next;
    return wrong;
}

/* ---- one instruction, known once the next is reached */
static struct { uint64_t at, when; } words[1 << 14];

static void step(const struct op *o, uint64_t to) {
    instructions++;
    if (!o->fused) {
        if (++entered == WIDTH) entered = 0, cycle++;
        if (left[n_left % INSIDE] > cycle) cycle = left[n_left % INSIDE], entered = 0;
    }
    uint64_t t = cycle;
    for (int i = 0; i < o->n_reads; i++)
        if (ready[o->reads[i]] > t) t = ready[o->reads[i]];
    for (int i = 0; o->load && i < loaded.n; i++) {
        uint64_t word = loaded.at[i] / 8;
        if (words[word % (1 << 14)].at == word && words[word % (1 << 14)].when > t) t = words[word % (1 << 14)].when;
    }
    t += o->latency + (o->load ? LOAD : 0);
    for (int i = 0; o->store && i < stored.n; i++) {
        uint64_t word = stored.at[i] / 8;
        words[word % (1 << 14)].at = word, words[word % (1 << 14)].when = t;
    }
    for (int i = 0; i < o->n_writes; i++) ready[o->writes[i]] = t;
    if (!o->fused) {
        uint64_t before = left[(n_left + INSIDE - 1) % INSIDE];
        left[n_left++ % INSIDE] = t > before ? t : before;
    }
    if (jumped_wrong(o, to)) {
        missed++;
        if (t + REFILL > cycle) cycle = t + REFILL, entered = 0;
    }
}
static void reached(unsigned cpu, void *p) {
    (void)cpu;
    struct op *o = p;
    if (last) step(last, o->at);
    loaded.n = stored.n = 0;
    last = o;
}
static void touched(unsigned cpu, qemu_plugin_meminfo_t info, uint64_t at, void *p) {
    (void)cpu, (void)p;
    if (qemu_plugin_mem_is_store(info)) stored.n < 8 ? stored.at[stored.n++] = at : 0;
    else loaded.n < 8 ? loaded.at[loaded.n++] = at : 0;
}

/* ---- what an instruction is */
static int among(const char *name, const char *names) {
    size_t n = strlen(name);
    for (const char *p = names; (p = strstr(p, name)); p += n)
        if ((p == names || p[-1] == ' ') && (p[n] == ' ' || !p[n])) return 1;
    return 0;
}
/* The register's number, -1 for one that is not followed; *part where writing it leaves the rest of it as it was. */
static int number(unsigned reg, _Bool *part) {
    static const char *const names[16] = {"rax eax ax al ah", "rbx ebx bx bl bh", "rcx ecx cx cl ch", "rdx edx dx dl dh", "rsi esi si sil", "rdi edi di dil",
        "rbp ebp bp bpl", "rsp esp sp spl", "r8 r8d r8w r8b", "r9 r9d r9w r9b", "r10 r10d r10w r10b", "r11 r11d r11w r11b", "r12 r12d r12w r12b",
        "r13 r13d r13w r13b", "r14 r14d r14w r14b", "r15 r15d r15w r15b"};
    const char *name = cs_reg_name(decoder, reg);
    *part = 0;
    if (!name) return -1;
    for (int i = 0; i < 16; i++)
        if (among(name, names[i])) {
            *part = name[0] != 'e' && name[strlen(name) - 1] != 'd' && strncmp(names[i], name, strlen(names[i]) < 3 ? 2 : strcspn(names[i], " ")) != 0;
            return i;
        }
    if (!strncmp(name, "xmm", 3)) return 16 + atoi(name + 3);
    return strstr(name, "flags") ? FLAGS : -1;
}
static void describe(struct op *o, const cs_insn *c, const struct op *before) {
    cs_regs read, written;
    uint8_t n_read = 0, n_written = 0;
    const cs_x86 *x = &c->detail->x86;
    const char *name = c->mnemonic;
    _Bool registers = x->op_count == 2 && x->operands[0].type == X86_OP_REG && x->operands[1].type == X86_OP_REG, part, moves = !strncmp(name, "mov", 3);
    _Bool zeroes = registers && x->operands[0].reg == x->operands[1].reg && among(name, "xor sub pxor xorps");
    _Bool stack = !strncmp(name, "push", 4) || !strncmp(name, "pop", 3);
    o->call = cs_insn_group(decoder, c, CS_GRP_CALL);
    o->back = cs_insn_group(decoder, c, CS_GRP_RET);
    cs_regs_access(decoder, c, read, &n_read, written, &n_written);
    for (int i = 0; i < n_read && o->n_reads < 16; i++) {
        int r = number(read[i], &part);
        if (r >= 0 && (r == FLAGS || !zeroes)) o->reads[o->n_reads++] = (uint8_t)r;
    }
    for (int i = 0; i < n_written && o->n_writes < 8; i++) {
        int r = number(written[i], &part);
        if (r < 0 || (r == 7 && (stack || o->call || o->back))) continue; /* the stack's place is known early */
        o->writes[o->n_writes++] = (uint8_t)r;
        if (part && o->n_reads < 16) o->reads[o->n_reads++] = (uint8_t)r;
    }
    for (int i = 0; i < x->op_count; i++)
        if (x->operands[i].type == X86_OP_MEM && strncmp(name, "lea", 3) && strncmp(name, "nop", 3)) {
            if (x->operands[i].access & CS_AC_READ) o->load = 1;
            if (x->operands[i].access & CS_AC_WRITE) o->store = 1;
        }
    if (!strncmp(name, "push", 4) || o->call) o->store = 1;
    if (!strncmp(name, "pop", 3) || o->back) o->load = 1;
    o->latency = 1;
    if (moves && o->load) o->latency = 0;
    if (registers && among(name, "mov movzx movaps movups movdqa movdqu")) o->latency = 0;
    if (!o->load && !o->store && (among(name, "movd movq pmovmskb") || !strncmp(name, "pextr", 5) || !strncmp(name, "pinsr", 5))) o->latency = 2;
    if (among(name, "imul mul bsr bsf lzcnt tzcnt popcnt")) o->latency = 3;
    if (among(name, "div idiv")) o->latency = 26;
    if (!strncmp(name, "pmul", 4) || !strncmp(name, "pmadd", 5)) o->latency = 5;
    if (registers && among(name, "shl shr sar sal rol ror")) o->latency = 2; /* by cl */
    if (cs_insn_group(decoder, c, CS_GRP_JUMP) || o->call) {
        if (x->operands[0].type != X86_OP_IMM) o->indirect = 1;
        else o->conditional = !o->call && strcmp(name, "jmp") != 0;
    }
    o->fused = o->conditional && before;
}
static void translated(qemu_plugin_id_t id, struct qemu_plugin_tb *tb) {
    (void)id;
    struct op *compare = NULL;
    for (size_t i = 0, n = qemu_plugin_tb_n_insns(tb); i < n; i++) {
        struct qemu_plugin_insn *insn = qemu_plugin_tb_get_insn(tb, i);
        struct op *o = calloc(1, sizeof *o);
        cs_insn *c;
        if (!o) abort();
        o->at = qemu_plugin_insn_vaddr(insn);
        o->next = o->at + qemu_plugin_insn_size(insn);
        if (cs_disasm(decoder, qemu_plugin_insn_data(insn), qemu_plugin_insn_size(insn), o->at, 1, &c) == 1) {
            describe(o, c, compare);
            compare = among(c->mnemonic, "cmp test add sub and inc dec") && !o->store ? o : NULL;
            cs_free(c, 1);
        }
        qemu_plugin_register_vcpu_insn_exec_cb(insn, reached, NO_REGS, o);
        if (o->load || o->store) qemu_plugin_register_vcpu_mem_cb(insn, touched, NO_REGS, READ_OR_WRITE, NULL);
    }
}
static void done(qemu_plugin_id_t id, void *p) {
    (void)id, (void)p;
    fprintf(stderr, "cycles %llu instructions %llu branches %llu missed %llu\n", (unsigned long long)cycle, (unsigned long long)instructions,
            (unsigned long long)branches, (unsigned long long)missed);
}
__attribute__((visibility("default")))
int qemu_plugin_install(qemu_plugin_id_t id, const qemu_info_t *info, int argc, char **argv) {
    (void)info, (void)argc, (void)argv;
    if (cs_open(CS_ARCH_X86, CS_MODE_64, &decoder) != CS_ERR_OK || cs_option(decoder, CS_OPT_DETAIL, CS_OPT_ON) != CS_ERR_OK) return 1;
    qemu_plugin_register_vcpu_tb_trans_cb(id, translated);
    qemu_plugin_register_atexit_cb(id, done, NULL);
    return 0;
}
