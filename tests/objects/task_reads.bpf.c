/* Reads of members of a kernel's structs, whose offsets a loader finds, and questions about types. */
#include "helpers.h"

#pragma clang attribute push(__attribute__((preserve_access_index)), apply_to = record)
struct mm_struct {
    u64 start_code;
    u64 end_code;
};

struct task_struct {
    u32 flags;
    s32 pid;
    s32 tgid;
    struct task_struct *real_parent;
    struct mm_struct *mm;
    char comm[16];
    u32 in_execve : 1;
    u32 in_iowait : 1;
};

struct task_struct___older {
    u64 state;
};
#pragma clang attribute pop

enum { FIELD_EXISTS = 2, TYPE_EXISTS = 0, TYPE_SIZE = 1 };

struct event {
    s32 pid;
    s32 parent;
    u64 code;
    u32 length;
    u32 is_there;
    char third;
};

struct event last;

#define READ(to, from) probe_read_kernel(&(to), sizeof(to), &(from))

SEC("kprobe/wake_up_new_task")
int on_wake(void *context)
{
    struct task_struct *task = (void *)get_current_task(), *parent;
    struct task_struct___older *older = (void *)task;
    struct mm_struct *mm;

    READ(last.pid, task->pid);
    READ(parent, task->real_parent);
    READ(last.parent, parent->tgid);
    READ(mm, task->mm);
    READ(last.code, mm->end_code);
    READ(last.third, task->comm[2]);
    last.length = __builtin_preserve_type_info(*(struct mm_struct *)0, TYPE_SIZE);
    last.is_there = __builtin_preserve_field_info(older->state, FIELD_EXISTS);
    last.is_there += __builtin_preserve_type_info(*(struct task_struct *)0, TYPE_EXISTS);
    return 0;
}

SEC("kprobe/wake_up_process")
int on_process(struct task_struct *task)
{
    return task->flags;
}

char _license[] SEC("license") = "GPL";
