/* Programs that read arguments of what they are attached to: the last one, and one behind it. vfs_read has four, the tracepoint
 * task_newtask two, and the hook file_open one. Programs at the end of a function, and those at hooks, get the result behind them. */
#include "../objects/helpers.h"

u64 seen;

#define READS(name, section, argument) \
    SEC(section)                       \
    int name(u64 *context)             \
    {                                  \
        seen += context[argument];     \
        return 0;                      \
    }

READS(on_last, "fentry/vfs_read", 3)
READS(on_next, "fentry/vfs_read", 4)
READS(on_result, "fexit/vfs_read", 4)
READS(on_past, "fexit/vfs_read", 5)
READS(on_flags, "tp_btf/task_newtask", 1)
READS(on_third, "tp_btf/task_newtask", 2)
READS(on_hook, "lsm/file_open", 1)
READS(on_hook_past, "lsm/file_open", 2)

SEC("fentry/vfs_read")
int on_half(u64 *context)
{
    seen += *((unsigned int *)context + 1);
    return 0;
}

char _license[] SEC("license") = "GPL";
