/* Values of enums of the kernel of kernel_structs.c and its module, under names with and without flavours, and ids of types. */
#include "helpers.h"
#include "kernel_fields.h"

enum task_state { TASK_RUNNING, TASK_STOPPED };
enum task_state___newer { TASK_ASLEEP = -9, TASK_STOPPED___newer = 1, TASK_FROZEN = 5 };
enum limits { MOST = 0x7fffffff00ULL, FEWEST = 1 };
enum device_kind { BLOCK_DEVICE = 1, TAPE_DEVICE = 2 };
enum removed_state { IS_REMOVED = 0x500000007LL, WAS_REMOVED = -2 };

struct queue {
    u32 depth;
};

long long value;

SEC("kprobe/task_states")
int on_states(void *context)
{
    value += VALUE(enum task_state, TASK_RUNNING);
    value += VALUE(enum task_state, TASK_STOPPED);
    value += VALUE(enum task_state___newer, TASK_STOPPED___newer);
    if (VALUE_EXISTS(enum task_state___newer, TASK_ASLEEP))
        value += VALUE(enum task_state___newer, TASK_ASLEEP);
    if (VALUE_EXISTS(enum task_state___newer, TASK_FROZEN))
        value += VALUE(enum task_state___newer, TASK_FROZEN);
    value += VALUE(enum limits, MOST) + VALUE(enum limits, FEWEST) + VALUE_EXISTS(enum limits, MOST);
    return 0;
}

SEC("kprobe/device_states")
int on_devices(void *context)
{
    value += VALUE(enum device_kind, BLOCK_DEVICE) + VALUE_EXISTS(enum device_kind, TAPE_DEVICE);
    return LOCAL_ID(enum device_kind) + LOCAL_ID(struct queue) + KERNEL_ID(struct queue) + KERNEL_ID(enum task_state);
}

/* Neither the kernel nor its module has the enum. */
SEC("kprobe/task_removed")
int on_removed(void *context)
{
    if (VALUE_EXISTS(enum removed_state, IS_REMOVED))
        value += VALUE(enum removed_state, IS_REMOVED) + VALUE(enum removed_state, WAS_REMOVED);
    return LOCAL_ID(enum removed_state);
}

char _license[] SEC("license") = "GPL";
