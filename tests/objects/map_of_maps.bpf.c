/* A map that holds maps, which it says by the member 'values'. */
#include "helpers.h"

struct inner {
    WORD(type, ARRAY);
    WORD(max_entries, 5);
    TYPE(key, u32);
    TYPE(value, u64);
};

struct {
    WORD(type, HASH_OF_MAPS);
    WORD(max_entries, 32);
    WORD(key_size, 4);
    HELD(values, struct inner);
} outer SEC(".maps");

SEC("cgroup_skb/ingress")
int on_packet(void *context)
{
    u32 key = 1;
    void *map = map_lookup_elem(&outer, &key);

    if (!map)
        return 1;
    return map_lookup_elem(map, &key) != 0;
}

char _license[] SEC("license") = "GPL";
