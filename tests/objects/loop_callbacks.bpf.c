/* Functions that a helper calls: a load names each. One is named twice, and calls another. The
 * kernel takes static functions alone for this. */
#include "helpers.h"

static NOINLINE u64 doubled(u64 number)
{
    return number + ktime_get_ns();
}

static int add_index(u32 index, void *context)
{
    *(u64 *)context += doubled(index);
    return 0;
}

static int stop_at_once(u32 index, void *context)
{
    return 1;
}

SEC("tracepoint/syscalls/sys_enter_openat")
int on_open(void *context)
{
    u64 sum = 0;

    loop(10, add_index, &sum, 0);
    loop(20, stop_at_once, &sum, 0);
    loop(30, add_index, &sum, 0);
    return sum > 100;
}

char _license[] SEC("license") = "GPL";
