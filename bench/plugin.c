/* A plugin for qemu-user that counts the instructions of a call: qemu-x86_64 -plugin FILE.so,entry=A,from=B,to=C PROGRAM ..
 * Counting begins at address A, the function's first instruction, and ends before the next one from B up to C, the code of its caller; so what the function
 * calls is counted too. At the end it prints how many instructions that were, and in how many calls. */
#include <stdint.h>
#include <stdio.h>
#include <stdlib.h>
#include <string.h>

/* What is used of qemu's plugin interface, as version 1 has it (qemu 7.2); Debian has no qemu-plugin.h. */
typedef uint64_t qemu_plugin_id_t;
struct qemu_plugin_tb;
struct qemu_plugin_insn;
enum { NO_REGISTERS = 0 };
void qemu_plugin_register_vcpu_tb_trans_cb(qemu_plugin_id_t, void (*)(qemu_plugin_id_t, struct qemu_plugin_tb *));
size_t qemu_plugin_tb_n_insns(const struct qemu_plugin_tb *);
struct qemu_plugin_insn *qemu_plugin_tb_get_insn(const struct qemu_plugin_tb *, size_t);
uint64_t qemu_plugin_insn_vaddr(const struct qemu_plugin_insn *);
void qemu_plugin_register_vcpu_insn_exec_cb(struct qemu_plugin_insn *, void (*)(unsigned, void *), int flags, void *);
void qemu_plugin_register_atexit_cb(qemu_plugin_id_t, void (*)(qemu_plugin_id_t, void *), void *);

/* bench/run.sh tries which version qemu takes. */
int qemu_plugin_version = API;

static uint64_t entry, from, to, count, calls;
static int inside;

static void enter(unsigned cpu, void *data)
{
    (void)cpu, (void)data;
    calls += !inside;
    inside = 1;
    count++;
}

static void leave(unsigned cpu, void *data)
{
    (void)cpu, (void)data;
    inside = 0;
}

static void step(unsigned cpu, void *data)
{
    (void)cpu, (void)data;
    count += inside;
}

static void translated(qemu_plugin_id_t id, struct qemu_plugin_tb *tb)
{
    size_t i, n = qemu_plugin_tb_n_insns(tb);
    (void)id;
    for (i = 0; i < n; i++) {
        struct qemu_plugin_insn *insn = qemu_plugin_tb_get_insn(tb, i);
        uint64_t at = qemu_plugin_insn_vaddr(insn);
        qemu_plugin_register_vcpu_insn_exec_cb(insn, at == entry ? enter : at >= from && at < to ? leave : step, NO_REGISTERS, NULL);
    }
}

static void at_exit(qemu_plugin_id_t id, void *data)
{
    (void)id, (void)data;
    fprintf(stderr, "counted %llu in %llu\n", (unsigned long long)count, (unsigned long long)calls);
}

int qemu_plugin_install(qemu_plugin_id_t id, const void *info, int argc, char **argv)
{
    static const struct { const char *word; uint64_t *value; } words[] = {{"entry=", &entry}, {"from=", &from}, {"to=", &to}};
    int i, w;
    (void)info;
    for (i = 0; i < argc; i++)
        for (w = 0; w < 3; w++)
            if (strncmp(argv[i], words[w].word, strlen(words[w].word)) == 0)
                *words[w].value = strtoull(argv[i] + strlen(words[w].word), NULL, 0);
    qemu_plugin_register_vcpu_tb_trans_cb(id, translated);
    qemu_plugin_register_atexit_cb(id, at_exit, NULL);
    return 0;
}
