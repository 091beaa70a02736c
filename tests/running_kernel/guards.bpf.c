/* Guards around a member that the running kernel's types lack, in the forms that programs have. The kernel takes a program whose
 * verifier finds that no run gets behind the guard. */
#include "absent_field.h"

extern void no_kernel_has_this_either(struct task_struct *task) EXTERN_OF_KERNEL WEAK;

const volatile u8 wants_it = 0;
const volatile u8 wants_pid = 1;

SEC("kprobe/do_unlinkat")
int on_unguarded(void *context)
{
    use((void *)get_current_task());
    return 0;
}

SEC("kprobe/do_unlinkat")
int on_kept(void *context)
{
    u8 is_there = IS_THERE;
    struct task_struct *task = (void *)get_current_task();

    if (is_there)
        use(task);
    return 0;
}

SEC("kprobe/do_unlinkat")
int on_both(void *context)
{
    struct task_struct *task = (void *)get_current_task();
    u32 is_there = IS_THERE, has_pid = FIELD_EXISTS(task->pid);

    if (is_there & has_pid)
        use(task);
    return 0;
}

SEC("kprobe/do_unlinkat")
int on_either(void *context)
{
    struct task_struct *task = (void *)get_current_task();
    u32 is_there = IS_THERE, is_wide = FIELD_SIZE(task->pid) >> 3;

    if (is_there | is_wide)
        use(task);
    return 0;
}

SEC("kprobe/do_unlinkat")
int on_size(void *context)
{
    struct task_struct *task = (void *)get_current_task();
    u32 size = FIELD_SIZE(task->pid);

    if (size == 8)
        use(task);
    return 0;
}

SEC("kprobe/do_unlinkat")
int on_constant(void *context)
{
    if (wants_it)
        use((void *)get_current_task());
    return 0;
}

SEC("kprobe/do_unlinkat")
int on_set_constant(void *context)
{
    if (wants_pid)
        use((void *)get_current_task());
    return 0;
}

static NOINLINE void use_if(struct task_struct *task, u32 is_there)
{
    if (is_there)
        use(task);
}

SEC("kprobe/do_unlinkat")
int on_argument(void *context)
{
    use_if((void *)get_current_task(), IS_THERE);
    return 0;
}

static NOINLINE u32 is_there(void)
{
    ktime_get_ns();
    return IS_THERE;
}

SEC("kprobe/do_unlinkat")
int on_result(void *context)
{
    if (is_there())
        use((void *)get_current_task());
    return 0;
}

SEC("kprobe/do_unlinkat")
int on_stored(void *context)
{
    volatile u64 is_there = IS_THERE;
    struct task_struct *task = (void *)get_current_task();

    if (is_there)
        use(task);
    return 0;
}

SEC("kprobe/do_unlinkat")
int on_stored_byte(void *context)
{
    volatile u8 is_there = IS_THERE;
    struct task_struct *task = (void *)get_current_task();

    if (is_there)
        use(task);
    return 0;
}

SEC("kprobe/do_unlinkat")
int on_loop(void *context)
{
    struct task_struct *task = (void *)get_current_task();

    for (int i = 0; i < 3; i++) {
        if (IS_THERE)
            use(task);
        seen += ktime_get_ns();
    }
    return 0;
}

SEC("tp_btf/sched_process_fork")
int on_function(void *context)
{
    if (no_kernel_has_this_either)
        no_kernel_has_this_either(*(struct task_struct **)context);
    return 0;
}

char _license[] SEC("license") = "GPL";
