/* Functions and variables that the kernel of kernel_types.c has, and some that it is without. */
#include "helpers.h"

struct run_queue {
    u32 length;
    u64 switches;
};

extern int count_tasks(struct run_queue *queue, u32 state) EXTERN_OF_KERNEL;
extern void forget_tasks(struct run_queue *queue) EXTERN_OF_KERNEL WEAK;
extern const struct run_queue run_queues EXTERN_OF_KERNEL;
extern const int boost_limit EXTERN_OF_KERNEL WEAK;
extern const void vector_table EXTERN_OF_KERNEL;

static void *(*const per_cpu_ptr)(const void *variable, u32 cpu) = (void *)153;

u64 seen;

SEC("raw_tp/sched_switch")
int on_switch(void *context)
{
    struct run_queue *queue = per_cpu_ptr(&run_queues, 0);

    if (!queue)
        return 0;
    if (forget_tasks)
        forget_tasks(queue);
    if (&boost_limit)
        seen += boost_limit;
    seen += (u64)&vector_table;
    return count_tasks(queue, 1);
}

char _license[] SEC("license") = "GPL";
