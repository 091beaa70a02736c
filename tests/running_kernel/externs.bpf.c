/* Functions and an address of the running kernel, and a function that it is without. */
#include "../objects/helpers.h"

struct task_struct {
    int pid;
};

extern struct task_struct *bpf_task_from_pid(s32 pid) EXTERN_OF_KERNEL;
extern void bpf_task_release(struct task_struct *task) EXTERN_OF_KERNEL;
extern const void _stext EXTERN_OF_KERNEL;
extern void no_kernel_has_this(struct task_struct *task) EXTERN_OF_KERNEL WEAK;

u64 seen;

SEC("tp_btf/sched_process_fork")
int on_fork(void *context)
{
    struct task_struct *task = bpf_task_from_pid(1);

    seen += (u64)&_stext;
    if (!task)
        return 0;
    if (no_kernel_has_this)
        no_kernel_has_this(task);
    bpf_task_release(task);
    return 0;
}

char _license[] SEC("license") = "GPL";
