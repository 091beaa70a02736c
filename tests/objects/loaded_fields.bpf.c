/* Members that instructions load and store: elsewhere in the kernel of kernel_structs.c, wider, narrower, or missing. */
#include "helpers.h"
#include "kernel_fields.h"
#include "open_file.h"

enum file_feature { HAS_RETIRED = 1 };

u64 seen;

static NOINLINE u64 owners(struct open_file *file)
{
    return file->shared->user + file->shared->group;
}

SEC("fentry.s/file_open")
int on_open(struct open_file *file)
{
    seen += file->mode + file->flags + file->holders + file->position;
    seen += file->balance;
    file->flags = 6;
    file->holders = 1;
    file->next->shared = file->shared;
    return owners(file->next);
}

SEC("kprobe/file_close")
int on_close(struct open_file *file)
{
    if (VALUE_EXISTS(enum file_feature, HAS_RETIRED))
        file->retired = file->retired + 1;
    return file->owner.group + file->waiters + file->samples[7];
}

/* Behind on_close in one section. */
SEC("kprobe/file_close")
int on_last_close(struct open_file *file)
{
    seen = file->position;
    return file[1].readers + file->tail[3] + file->next->writers;
}

char _license[] SEC("license") = "GPL";
