/* Whether the kernel of kernel_structs.c has types, under names with and without flavours, how large they are, and what stands
 * behind such questions. */
#include "helpers.h"
#include "kernel_fields.h"

TYPES_OF_KERNEL
struct owner {
    u32 user;
};

struct task {
    u32 processor;
    u64 state;
};

struct task___older {
    u64 state_of_task;
};

struct task___newer {
    u64 state;
    char name[8];
};

struct removed {
    u64 first;
    u32 second;
    s32 bits : 5;
};
END_OF_TYPES

union address {
    u32 words[4];
};

enum limits { FEWEST = 1 };
enum removed_state { IS_REMOVED = 7 };

typedef u64 (*clock_function)(u32 which, const struct owner *owner);
typedef struct task *owner_handle;
typedef struct task *other_handle;
typedef u32 removed_handle;

u64 seen;

SEC("kprobe/task_start")
int on_start(struct task *task)
{
    seen += TYPE_EXISTS(struct task) + TYPE_EXISTS(struct task___older) + TYPE_EXISTS(union address);
    seen += TYPE_EXISTS(clock_function) + TYPE_EXISTS(owner_handle) + TYPE_EXISTS(enum limits);
    seen += TYPE_EXISTS(other_handle) + TYPE_EXISTS(removed_handle) + TYPE_EXISTS(struct removed);
    seen += TYPE_SIZE(struct task) + TYPE_SIZE(union address) + TYPE_SIZE(enum limits) + TYPE_SIZE(owner_handle);
    return LOCAL_ID(struct removed) + KERNEL_ID(struct task);
}

SEC("kprobe/task_flavours")
int on_flavours(struct task *task)
{
    struct task___older *older = (void *)task;
    struct task___newer *newer = (void *)task;

    if (FIELD_EXISTS(older->state_of_task))
        seen += older->state_of_task;
    else if (FIELD_EXISTS(newer->state))
        seen += newer->state + newer->name[5];
    return task->processor;
}

/* The kernel has nothing of what is asked for here. */
SEC("kprobe/task_removed")
int on_removed(struct removed *removed)
{
    if (FIELD_EXISTS(removed->first)) {
        seen += removed->first + FIELD_OFFSET(removed->second) + FIELD_SIZE(removed->second);
        removed->first = 3;
        seen += FIELD_SIGNED(removed->bits) + LEFT_SHIFT(removed->bits) + RIGHT_SHIFT(removed->bits);
    }
    if (TYPE_EXISTS(enum removed_state))
        seen += VALUE(enum removed_state, IS_REMOVED);
    return 0;
}

char _license[] SEC("license") = "GPL";
