/* Programs of two sections that call functions of .text, of which one is static and one is global. */
#include "helpers.h"

static NOINLINE u64 halved(u64 number)
{
    return ktime_get_ns() - number / 2;
}

NOINLINE int is_late(u64 number)
{
    return halved(number) > 1000;
}

SEC("kprobe/do_unlinkat")
int on_unlink(void *context)
{
    return is_late(7);
}

SEC("kprobe/do_unlinkat")
int on_unlink_again(void *context)
{
    return is_late(ktime_get_ns()) + 1;
}

SEC("tracepoint/syscalls/sys_enter_openat")
int on_open(void *context)
{
    return (int)halved(3);
}

char _license[] SEC("license") = "GPL";
