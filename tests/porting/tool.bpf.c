/* Programs of sections that libbpf knows and a plan doesn't; with PORTED, of those that it does. */
#include "../objects/helpers.h"

#ifdef PORTED
#define CLASSIFIER "classifier"
#define OPTIONAL "kprobe/do_unlinkat"
#else
#define CLASSIFIER "tc"
#define OPTIONAL "?kprobe/do_unlinkat"
#endif

struct task_struct {
    s32 pid;
    s32 tgid;
} __attribute__((preserve_access_index));

u64 seen;

SEC(CLASSIFIER)
int on_packet(void *context)
{
    seen++;
    return 0;
}

SEC(OPTIONAL)
int on_unlink(struct task_struct *task)
{
    return task->tgid;
}

#ifndef PORTED
SEC("kprobe.multi/tcp_*")
int on_any(struct task_struct *task)
{
    return task->pid;
}
#endif

SEC("kprobe/do_exit")
int on_exit(struct task_struct *task)
{
    return task->pid;
}

char license_text[] SEC("license") = "GPL";
