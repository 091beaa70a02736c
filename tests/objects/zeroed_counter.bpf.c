/* Variables that begin as zero, and one that doesn't. */
#include "helpers.h"

u64 calls;
u32 spare[3];
u32 limit = 0x01020304;

SEC("tp/sched/sched_switch")
int on_switch(void *context)
{
    if (calls < limit)
        __sync_fetch_and_add(&calls, 1);
    spare[calls & 1] = limit;
    return 0;
}

char _license[] SEC("license") = "GPL";
