/* Functions and variables of the kernel, with and without a type, some of which it may be without. */
#include "helpers.h"

struct request_queue {
    u32 depth;
    u64 tags;
};

extern int bpf_test_sum(u32 first, u64 second) EXTERN_OF_KERNEL;
extern void bpf_test_release(struct request_queue *queue) EXTERN_OF_KERNEL WEAK;
extern const int bpf_prog_active EXTERN_OF_KERNEL;
extern const struct request_queue runqueues___renamed EXTERN_OF_KERNEL WEAK;
extern const void bpf_link_fops EXTERN_OF_KERNEL;
extern const void no_such_symbol EXTERN_OF_KERNEL WEAK;

u64 seen;

SEC("raw_tp/sys_enter")
int on_enter(void *context)
{
    if (&runqueues___renamed)
        seen += (u64)&runqueues___renamed;
    if (&no_such_symbol)
        seen += (u64)&no_such_symbol;
    seen += (u64)&bpf_link_fops + (u64)&bpf_prog_active;
    return bpf_test_sum(1, seen);
}

SEC("fentry.s/do_unlinkat")
int on_unlink(struct request_queue *queue)
{
    if (bpf_test_release)
        bpf_test_release(queue);
    return 0;
}

char _license[] SEC("license") = "GPL";
