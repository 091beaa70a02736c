/* A program for each kind whose attach target is known when it is loaded, and one for a function that no kernel has. */
#include "../objects/helpers.h"

u64 seen;

SEC("fentry/vfs_read")
int on_read(void *context)
{
    seen += 1;
    return 0;
}

SEC("fexit/vfs_read")
int on_read_done(void *context)
{
    seen += 2;
    return 0;
}

SEC("tp_btf/task_newtask")
int on_task(void *context)
{
    seen += 3;
    return 0;
}

SEC("lsm/file_open")
int on_open(void *context)
{
    return 0;
}

SEC("iter/task")
int on_each_task(void *context)
{
    return 0;
}

SEC("fentry/no_kernel_has_this")
int on_nothing(void *context)
{
    return 0;
}

char _license[] SEC("license") = "GPL";
