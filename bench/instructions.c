/* A plugin for Debian's qemu-user (qemu-x86_64 -plugin): counts the guest instructions that were executed.
 *
 *   cc -O2 -shared -fPIC -o count.so instructions.c
 *   qemu-x86_64 -plugin ./count.so[,out=FILE] PROGRAM ARGUMENTS
 *
 * At the end it writes "instructions N" to FILE, or to standard error. Debian ships no header for
 * plugins, so the part of the interface that is used (version 1, as of QEMU 7.2) is declared here.
 * For a program with one thread the count is exact.
 */
#include <stdint.h>
#include <stddef.h>
#include <stdio.h>
#include <string.h>

#define EXPORT __attribute__((visibility("default")))

typedef uint64_t qemu_plugin_id_t;
struct qemu_plugin_tb;
struct qemu_plugin_insn;
struct qemu_info;
extern void qemu_plugin_register_vcpu_tb_trans_cb(qemu_plugin_id_t, void (*)(qemu_plugin_id_t, struct qemu_plugin_tb *));
extern void qemu_plugin_register_vcpu_insn_exec_inline(struct qemu_plugin_insn *, int op, void * ptr, uint64_t imm);
extern void qemu_plugin_register_atexit_cb(qemu_plugin_id_t, void (*)(qemu_plugin_id_t, void *), void *);
extern size_t qemu_plugin_tb_n_insns(const struct qemu_plugin_tb *);
extern struct qemu_plugin_insn * qemu_plugin_tb_get_insn(const struct qemu_plugin_tb *, size_t);

EXPORT int qemu_plugin_version = 1;

static uint64_t count;
static char out[4096];

static void translated(qemu_plugin_id_t id, struct qemu_plugin_tb * tb)
{
	size_t i, n = qemu_plugin_tb_n_insns(tb);
	(void)id;
	for (i = 0; i < n; i++)
		qemu_plugin_register_vcpu_insn_exec_inline(qemu_plugin_tb_get_insn(tb, i), 0 /* add */, &count, 1);
}

static void at_exit(qemu_plugin_id_t id, void * data)
{
	FILE * f = out[0] ? fopen(out, "w") : stderr;
	(void)id; (void)data;
	if (!f) return;
	fprintf(f, "instructions %llu\n", (unsigned long long)count);
	if (f != stderr) fclose(f);
}

EXPORT int qemu_plugin_install(qemu_plugin_id_t id, const struct qemu_info * info, int argc, char ** argv)
{
	int i;
	(void)info;
	for (i = 0; i < argc; i++)
		if (!strncmp(argv[i], "out=", 4)) snprintf(out, sizeof out, "%s", argv[i] + 4);
	qemu_plugin_register_vcpu_tb_trans_cb(id, translated);
	qemu_plugin_register_atexit_cb(id, at_exit, NULL);
	return 0;
}
