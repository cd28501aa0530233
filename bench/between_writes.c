/* A plugin for QEMU that counts the instructions of a program from each of its writes to the next. At the end it prints how many
 * counts there were, the least and the greatest. (Debian has no header for plugins, so what is used of it is declared here, as in
 * version 1 of that interface.) */
#include <inttypes.h>
#include <stdbool.h>
#include <stddef.h>
#include <stdio.h>
#include <sys/syscall.h>

typedef uint64_t qemu_plugin_id_t;
struct qemu_plugin_tb;
struct qemu_info_t;
enum qemu_plugin_op { QEMU_PLUGIN_INLINE_ADD_U64 };

void qemu_plugin_register_vcpu_tb_trans_cb(qemu_plugin_id_t id,
                                           void (*call)(qemu_plugin_id_t id, struct qemu_plugin_tb *block));
void qemu_plugin_register_vcpu_tb_exec_inline(struct qemu_plugin_tb *block, enum qemu_plugin_op op, void *number,
                                              uint64_t more);
size_t qemu_plugin_tb_n_insns(const struct qemu_plugin_tb *block);
void qemu_plugin_register_vcpu_syscall_cb(qemu_plugin_id_t id,
                                          void (*call)(qemu_plugin_id_t id, unsigned cpu, int64_t number, uint64_t,
                                                       uint64_t, uint64_t, uint64_t, uint64_t, uint64_t, uint64_t,
                                                       uint64_t));
void qemu_plugin_register_atexit_cb(qemu_plugin_id_t id, void (*call)(qemu_plugin_id_t id, void *given), void *given);

__attribute__((visibility("default"))) int qemu_plugin_version = 1;

static uint64_t counted, before, writes, least = UINT64_MAX, most;
static bool is_first = true;

static void block_made(qemu_plugin_id_t id, struct qemu_plugin_tb *block)
{
    (void)id;
    qemu_plugin_register_vcpu_tb_exec_inline(block, QEMU_PLUGIN_INLINE_ADD_U64, &counted,
                                             qemu_plugin_tb_n_insns(block));
}

static void system_call(qemu_plugin_id_t id, unsigned cpu, int64_t number, uint64_t a, uint64_t b, uint64_t c,
                        uint64_t d, uint64_t e, uint64_t f, uint64_t g, uint64_t h)
{
    uint64_t took = counted - before;

    (void)id, (void)cpu, (void)a, (void)b, (void)c, (void)d, (void)e, (void)f, (void)g, (void)h;
    if (number != SYS_write)
        return;
    before = counted;
    if (is_first) {
        is_first = false;
        return;
    }
    writes++;
    if (took < least)
        least = took;
    if (took > most)
        most = took;
}

static void ended(qemu_plugin_id_t id, void *given)
{
    (void)id, (void)given;
    fprintf(stderr, "%" PRIu64 " %" PRIu64 " %" PRIu64 "\n", writes, least, most);
}

__attribute__((visibility("default"))) int qemu_plugin_install(qemu_plugin_id_t id, const struct qemu_info_t *info,
                                                               int count, char **words)
{
    (void)info, (void)count, (void)words;
    qemu_plugin_register_vcpu_tb_trans_cb(id, block_made);
    qemu_plugin_register_vcpu_syscall_cb(id, system_call);
    qemu_plugin_register_atexit_cb(id, ended, NULL);
    return 0;
}
