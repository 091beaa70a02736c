/* A member that the running kernel's types lack, and what reads it. */
#include "../objects/helpers.h"
#include "../objects/kernel_fields.h"

TYPES_OF_KERNEL
struct task_struct {
    u64 no_kernel_has_this;
    int pid;
};
END_OF_TYPES

#define IS_THERE FIELD_EXISTS(((struct task_struct *)0)->no_kernel_has_this)

u64 seen;

/* Reads the member: poison. */
static __attribute__((always_inline)) void use(struct task_struct *task)
{
    u64 value = 0;

    READ(value, task->no_kernel_has_this);
    seen += value;
}
