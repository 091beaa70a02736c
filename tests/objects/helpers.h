/* What the sources of these objects need of the kernel's headers: names of sections, the members that define
 * maps by types, and some helpers by their numbers (include/uapi/linux/bpf.h). */
typedef unsigned char u8;
typedef unsigned short u16;
typedef unsigned int u32;
typedef int s32;
typedef unsigned long long u64;

#define SEC(name) __attribute__((section(name), used))
#define EXTERN_OF_KERNEL __attribute__((section(".ksyms")))
#define WEAK __attribute__((weak))
#define NOINLINE __attribute__((noinline))

/* A word is the length of an array, a type the target of a pointer. */
#define WORD(name, value) int (*name)[value]
#define TYPE(name, type) typeof(type) *name
#define HELD(name, type) typeof(type) *name[]

enum { HASH = 1, ARRAY = 2, PROG_ARRAY = 3, HASH_OF_MAPS = 13 };

static void *(*const map_lookup_elem)(void *map, const void *key) = (void *)1;
static long (*const map_update_elem)(void *map, const void *key, const void *value, u64 flags) = (void *)2;
static u64 (*const ktime_get_ns)(void) = (void *)5;
static long (*const tail_call)(void *context, void *table, u32 index) = (void *)12;
static u64 (*const get_current_task)(void) = (void *)35;
static long (*const probe_read_kernel)(void *to, u32 size, const void *from) = (void *)113;
static long (*const loop)(u32 count, void *callback, void *context, u64 flags) = (void *)181;
