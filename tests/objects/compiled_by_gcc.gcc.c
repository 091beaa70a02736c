/* Maps, variables and called functions as GCC writes them. GCC gives a `char` an encoding that no kernel takes, so the
 * license consists of unsigned ones. */
typedef unsigned int u32;
typedef unsigned long long u64;

#define SEC(name) __attribute__((section(name), used))
#define HELPER(number) __attribute__((kernel_helper(number)))
#define NOINLINE __attribute__((noinline))

enum { HASH = 1, ARRAY = 2 };

void *map_lookup_elem(void *map, const void *key) HELPER(1);
u64 ktime_get_ns(void) HELPER(5);

struct words {
    u32 type;
    u32 key_size;
    u32 value_size;
    u32 max_entries;
    u32 flags;
};

struct {
    int (*type)[ARRAY];
    u32 *key;
    u64 *value;
    int (*max_entries)[4];
} times SEC(".maps");

struct words counts SEC("maps") = { .type = HASH, .key_size = 4, .value_size = 8, .max_entries = 16 };

u64 calls;
u64 limit_of_open = 2000;
u64 limit = 1000;
const u64 steps[2] = { 1, 2 };

static NOINLINE u64 now(u64 offset)
{
    return ktime_get_ns() + offset;
}

static NOINLINE u64 elapsed(u64 *since)
{
    u64 time = now(1);
    u64 passed = time - *since;

    *since = time;
    return passed;
}

NOINLINE u64 step(u64 number)
{
    return steps[number & 1];
}

SEC("kprobe/do_unlinkat")
int on_unlink(void *context)
{
    u32 key = 0;
    u64 *since = map_lookup_elem(&times, &key);
    u64 *count = map_lookup_elem(&counts, &key);

    calls += step(calls);
    if (count)
        *count += now(0);
    return since && elapsed(since) > limit;
}

/* The symbol of limit_of_open has the value 8, and so has the immediate of the load. */
SEC("tracepoint/syscalls/sys_enter_openat")
int on_open(void *context)
{
    return now(0) > limit_of_open;
}

unsigned char _license[] SEC("license") = "GPL";
