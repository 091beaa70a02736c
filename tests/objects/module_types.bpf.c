/* Types of the module of kernel_module.c, some of which the kernel of kernel_structs.c has too. */
#include "helpers.h"
#include "kernel_fields.h"

TYPES_OF_KERNEL
struct device {
    u32 number;
    u64 speed;
    u32 removed;
};

struct queue {
    u32 depth;
};

struct owner {
    u64 group;
};
END_OF_TYPES

enum device_kind { BLOCK_DEVICE = 1, TAPE_DEVICE = 2 };

u64 seen;

SEC("fentry.s/device_open")
int on_device(struct device *device)
{
    seen += device->speed;
    if (FIELD_EXISTS(device->removed))
        seen += device->removed;
    seen += TYPE_EXISTS(struct device) + TYPE_SIZE(struct device) + VALUE(enum device_kind, BLOCK_DEVICE);
    seen += VALUE_EXISTS(enum device_kind, TAPE_DEVICE);
    return device->number;
}

SEC("fentry.s/queue_run")
int on_queue(struct queue *queue)
{
    seen += TYPE_SIZE(struct queue) + KERNEL_ID(struct queue);
    return queue->depth;
}

SEC("fentry.s/owner_set")
int on_owner(struct owner *owner)
{
    return owner->group;
}

char _license[] SEC("license") = "GPL";
