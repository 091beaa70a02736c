/* An XDP program that counts packets by their length in a hash map, up to a limit that is a constant. */
#include "helpers.h"

struct context {
    u32 data;
    u32 data_end;
};

struct {
    WORD(type, HASH);
    WORD(max_entries, 1024);
    WORD(map_flags, 1);
    WORD(pinning, 1);
    TYPE(key, u32);
    TYPE(value, u64);
} packets SEC(".maps");

const volatile u32 longest = 1500;
const volatile u64 step = 2;

SEC("xdp")
int count_packets(struct context *context)
{
    u32 length = context->data_end - context->data;
    u64 first = step, *count;

    if (length > longest)
        return 1;
    count = map_lookup_elem(&packets, &length);
    if (count)
        __sync_fetch_and_add(count, step);
    else
        map_update_elem(&packets, &length, &first, 0);
    return 2;
}

char _license[] SEC("license") = "Dual MIT/GPL";
u32 _version SEC("version") = 0x50a00;
