/* Members of a context that the running kernel's types have elsewhere and narrower: stored, loaded, and one that is read-only. */
#include "../objects/helpers.h"
#include "../objects/kernel_fields.h"

TYPES_OF_KERNEL
struct __sk_buff {
    u64 tc_index;
    u64 priority;
    u64 mark;
    u32 ifindex;
};
END_OF_TYPES

SEC("classifier")
int on_packet(struct __sk_buff *packet)
{
    packet->mark = packet->priority + 1;
    packet->tc_index = packet->ifindex;
    return 0;
}

SEC("classifier")
int on_device(struct __sk_buff *packet)
{
    packet->ifindex = 1;
    return 0;
}

char _license[] SEC("license") = "GPL";
