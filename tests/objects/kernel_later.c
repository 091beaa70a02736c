/* A later version of the small kernel of kernel_structs.c: members that moved, shrank or went, enums with other values, types
 * that are gone, and the functions and variables that resolved_externs takes. */
#include "helpers.h"

/* Of task_reads. */
struct mm_struct {
    u64 start_code;
    u64 end_code;
};

struct task_struct {
    u32 flags;
    u32 processor;
    struct mm_struct *mm;
    s32 pid;
    s32 tgid;
    char comm[24];
};

struct task_struct task_struct;
struct mm_struct mm_struct;

/* Of enum_values. */
enum task_state { TASK_RUNNING = 1, TASK_ASLEEP = 2, TASK_STOPPED = 4, TASK_FROZEN = 7 };

enum task_state task_state;

/* Of resolved_externs. */
struct run_queue {
    u64 switches;
    u32 length;
};

struct run_queue run_queues;
int *boost_limit;

int count_tasks(struct run_queue *queue, u32 state)
{
    return queue->length + run_queues.length + state;
}
