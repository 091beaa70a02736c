/* Guards that the kernel's verifier decides and a check doesn't: what is behind them counts as reached. */
#include "absent_field.h"

/* The compiler takes the value as changed here. */
#define FORGET(value) asm volatile("" : "+r"(value))
/* A program that reads the member where these instructions don't leave 0 in a register that has whether the member is there. */
#define GUARDED_BY(name, code)                                 \
    SEC("kprobe/do_unlinkat")                                  \
    int name(void *context)                                    \
    {                                                          \
        struct task_struct *task = (void *)get_current_task(); \
        u64 number = IS_THERE;                                 \
                                                               \
        asm volatile(code : "+r"(number));                     \
        if (number)                                            \
            use(task);                                         \
        return 0;                                              \
    }

extern struct task_struct *bpf_task_acquire(struct task_struct *task) EXTERN_OF_KERNEL WEAK;

const volatile char negative = -1;

/* The range of a value that isn't a constant. */
SEC("kprobe/do_unlinkat")
int on_range(void *context)
{
    struct task_struct *task = (void *)get_current_task();
    u64 number = ktime_get_ns() & 7;

    FORGET(number);
    if (number > 7)
        use(task);
    return 0;
}

/* An earlier comparison of the same value. */
SEC("kprobe/do_unlinkat")
int on_earlier(void *context)
{
    struct task_struct *task = (void *)get_current_task();
    u64 number = ktime_get_ns();

    asm volatile goto("if %0 == 5 goto %l[five]" : : "r"(number) : : five);
    return 0;
five:
    if (number != 5)
        use(task);
    return 0;
}

static NOINLINE int use_above(struct task_struct *task, u64 number)
{
    if (number > 2)
        use(task);
    return 0;
}

/* Arguments that differ between calls. */
SEC("kprobe/do_unlinkat")
int on_arguments(void *context)
{
    struct task_struct *task = (void *)get_current_task();
    u64 one = 1, two = 2;

    FORGET(one);
    FORGET(two);
    return use_above(task, one) + use_above(task, two);
}

/* The counter of a loop. */
SEC("kprobe/do_unlinkat")
int on_counter(void *context)
{
    struct task_struct *task = (void *)get_current_task();

    for (u64 i = 0; i < 3; i++) {
        FORGET(i);
        if (i == 7)
            use(task);
    }
    return 0;
}

/* A number in the frame below its last 128 bytes. */
GUARDED_BY(on_far_frame, "*(u64 *)(r10 - 200) = %0\n\t%0 = *(u64 *)(r10 - 200)")

/* Two numbers in the same eight bytes of the frame. */
GUARDED_BY(on_two_writes, "*(u32 *)(r10 - 28) = %0\n\t*(u32 *)(r10 - 32) = %0\n\t%0 = *(u32 *)(r10 - 28)")

/* A negation. */
GUARDED_BY(on_negation, "%0 = -%0")

/* A byte swap. */
GUARDED_BY(on_swap, "%0 = be64 %0")

/* A load with its sign: r3 = *(s8 *)(r3 + 0). */
SEC("kprobe/do_unlinkat")
int on_sign(void *context)
{
    struct task_struct *task = (void *)get_current_task();
    register u64 number asm("r3") = (u64)&negative;

    asm volatile(".byte 0x91, 0x33, 0, 0, 0, 0, 0, 0" : "+r"(number));
    if (number == 255)
        use(task);
    return 0;
}

/* An address as the second operand. */
SEC("kprobe/do_unlinkat")
int on_second(void *context)
{
    struct task_struct *task = (void *)get_current_task();
    u64 zero = 0;

    FORGET(zero);
    asm volatile goto("if %0 == %1 goto %l[equal]" : : "r"(zero), "r"(&seen) : : equal);
    return 0;
equal:
    use(task);
    return 0;
}

/* The address of a function of the kernel. */
SEC("tp_btf/task_newtask")
int on_function(u64 *context)
{
    if (!bpf_task_acquire)
        use((void *)context[0]);
    return 0;
}

char _license[] SEC("license") = "GPL";
