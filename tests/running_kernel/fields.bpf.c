/* Members of the running kernel's own types: loaded in place, read by a helper, asked about, and missing. */
#include "../objects/helpers.h"
#include "../objects/kernel_fields.h"

static struct task_struct *(*const get_current_task_btf)(void) = (void *)158;

TYPES_OF_KERNEL
struct task_struct {
    u64 no_kernel_has_this;
    struct task_struct *real_parent;
    u32 flags;
    int tgid;
    int pid;
};
END_OF_TYPES

u64 seen;

SEC("tp_btf/task_newtask")
int on_task(void *context)
{
    struct task_struct *task = get_current_task_btf();

    if (FIELD_EXISTS(task->no_kernel_has_this))
        seen += task->no_kernel_has_this;
    seen += task->pid + task->flags + task->real_parent->tgid;
    return 0;
}

SEC("kprobe/do_unlinkat")
int on_probe(void *context)
{
    struct task_struct *task = (struct task_struct *)get_current_task(), *parent = 0;
    int tgid = 0;

    READ(parent, task->real_parent);
    READ(tgid, parent->tgid);
    seen += tgid + FIELD_SIZE(task->pid);
    return 0;
}

SEC("tp_btf/sched_switch")
int on_switch(void *context)
{
    struct task_struct *task = get_current_task_btf();

    return task->no_kernel_has_this != 0;
}

char _license[] SEC("license") = "GPL";
