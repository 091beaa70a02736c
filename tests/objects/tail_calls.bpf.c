/* A table of programs, one of which calls the others by their index. */
#include "helpers.h"

struct {
    WORD(type, PROG_ARRAY);
    WORD(key_size, 4);
    WORD(value_size, 4);
    WORD(max_entries, 2);
} programs SEC(".maps");

SEC("xdp.frags/devmap")
int first(void *context)
{
    tail_call(context, &programs, 0);
    tail_call(context, &programs, 1);
    return 0;
}

SEC("xdp.frags/devmap")
int second(void *context)
{
    return 1;
}

SEC("xdp")
int third(void *context)
{
    return 2;
}

char _license[] SEC("license") = "GPL";
