/* A function that calls itself, two that call each other, and one that calls the program. */
#include "helpers.h"

static NOINLINE u64 countdown(u64 number)
{
    if (number < 2)
        return ktime_get_ns();
    return ktime_get_ns() - countdown(number - 1);
}

static NOINLINE int is_odd(u64 number);

static NOINLINE int is_even(u64 number)
{
    if (!number)
        return ktime_get_ns() & 1;
    return 2 - is_odd(number - 1);
}

static NOINLINE int is_odd(u64 number)
{
    if (!number)
        return ktime_get_ns() & 2;
    return 3 - is_even(number - 1);
}

int on_unlink(void *context);

static NOINLINE int again(void *context)
{
    return ktime_get_ns() ? on_unlink(context) - 1 : 0;
}

SEC("kprobe/do_unlinkat")
int on_unlink(void *context)
{
    return is_even(countdown(7)) - again(context);
}

SEC("kprobe/do_mkdirat")
int on_mkdir(void *context)
{
    return is_odd(5);
}

char _license[] SEC("license") = "GPL";
