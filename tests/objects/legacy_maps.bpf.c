/* Two maps that are defined by their words, as it was done before types, one of them with the words for an id and pinning. */
#include "helpers.h"

struct words {
    u32 type;
    u32 key_size;
    u32 value_size;
    u32 max_entries;
    u32 flags;
};

struct words_with_pinning {
    struct words words;
    u32 id;
    u32 pinning;
};

struct words counts SEC("maps") = {
    .type = ARRAY,
    .key_size = 4,
    .value_size = 8,
    .max_entries = 16,
};

struct words_with_pinning kept SEC("maps") = {
    .words = { .type = HASH, .key_size = 8, .value_size = 24, .max_entries = 300, .flags = 1 },
    .id = 9,
    .pinning = 1,
};

SEC("classifier")
int count(void *context)
{
    u64 key = 3;
    u64 *value = map_lookup_elem(&counts, &key);

    if (value)
        *value += 1;
    return map_lookup_elem(&kept, &key) != 0;
}

char _license[] SEC("license") = "GPL";
u32 _version SEC("version") = 0xfffffffe;
