/* A TCG plugin for qemu-user: counts the guest instructions executed in each translation block and writes `address instructions
 * executions` lines to standard error at the end, for bench/profile.py. Declarations are those of QEMU's plugin API version 1. */
#include <stdint.h>
#include <stdio.h>
#include <stdlib.h>
#include <stddef.h>
typedef uint64_t qemu_plugin_id_t;
struct qemu_plugin_tb; typedef struct qemu_info_t qemu_info_t;
enum qemu_plugin_op { QEMU_PLUGIN_INLINE_ADD_U64 };
extern void qemu_plugin_register_vcpu_tb_trans_cb(qemu_plugin_id_t, void (*)(qemu_plugin_id_t, struct qemu_plugin_tb *));
extern size_t qemu_plugin_tb_n_insns(const struct qemu_plugin_tb *);
extern uint64_t qemu_plugin_tb_vaddr(const struct qemu_plugin_tb *);
extern void qemu_plugin_register_vcpu_tb_exec_inline(struct qemu_plugin_tb *, enum qemu_plugin_op, void *, uint64_t);
extern void qemu_plugin_register_atexit_cb(qemu_plugin_id_t, void (*)(qemu_plugin_id_t, void *), void *);
__attribute__((visibility("default"))) int qemu_plugin_version = 1;
enum { MOST = 1 << 16 };
static struct { uint64_t at, size, times; } blocks[MOST];
static size_t used;
static void trans(qemu_plugin_id_t id, struct qemu_plugin_tb *tb) {
    (void)id;
    if (used == MOST) abort();
    blocks[used].at = qemu_plugin_tb_vaddr(tb);
    blocks[used].size = qemu_plugin_tb_n_insns(tb);
    qemu_plugin_register_vcpu_tb_exec_inline(tb, QEMU_PLUGIN_INLINE_ADD_U64, &blocks[used++].times, 1);
}
static void done(qemu_plugin_id_t id, void *p) {
    (void)id; (void)p;
    for (size_t i = 0; i < used; i++)
        if (blocks[i].times)
            fprintf(stderr, "%llx %llu %llu\n", (unsigned long long)blocks[i].at, (unsigned long long)blocks[i].size, (unsigned long long)blocks[i].times);
}
__attribute__((visibility("default")))
int qemu_plugin_install(qemu_plugin_id_t id, const qemu_info_t *info, int argc, char **argv) {
    (void)info; (void)argc; (void)argv;
    qemu_plugin_register_vcpu_tb_trans_cb(id, trans);
    qemu_plugin_register_atexit_cb(id, done, NULL);
    return 0;
}
