/* A small kernel's functions and variables, as far as their types go. */
#include "helpers.h"

typedef u32 task_state;

struct run_queue {
    u32 length;
    u32 idle;
    u64 switches;
    struct run_queue *next;
};

u64 load_average;
struct run_queue run_queues;

int count_vectors(u32 first)
{
    return first + load_average;
}

int count_tasks(struct run_queue *queue, task_state state)
{
    return queue->length + run_queues.length + state;
}
