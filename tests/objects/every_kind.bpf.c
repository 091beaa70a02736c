/* Sections of all kinds: license, version, maps by words and by types, variables, constants, functions that are called, a
 * program, and functions and variables of the kernel. */
#include "helpers.h"

struct words {
    u32 type;
    u32 key_size;
    u32 value_size;
    u32 max_entries;
    u32 flags;
};

struct words by_words SEC("maps") = { HASH, 4, 4, 2, 0 };

struct {
    WORD(type, ARRAY);
    WORD(max_entries, 3);
    TYPE(key, u32);
    TYPE(value, u32);
} by_types SEC(".maps");

struct request {
    u32 number;
    u32 length;
} __attribute__((preserve_access_index));

u32 zeroed;
u32 begun = 7;
const volatile u32 constant = 9;

extern int kernel_sum(u32 number) EXTERN_OF_KERNEL;
extern const void kernel_table EXTERN_OF_KERNEL WEAK;

NOINLINE int added(u32 number)
{
    return kernel_sum(number) + begun;
}

SEC("kprobe")
int on_request(struct request *request)
{
    u32 key = request->length + constant;

    zeroed++;
    if (&kernel_table && map_lookup_elem(&by_words, &key))
        return map_lookup_elem(&by_types, &key) != 0;
    return added(key);
}

char _license[] SEC("license") = "GPL";
u32 _version SEC("version") = 1;
