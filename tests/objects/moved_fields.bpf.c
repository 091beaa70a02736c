/* Members of the kernel of kernel_structs.c that are read through their addresses: where they lie, how large they are, and
 * whether they are there. */
#include "helpers.h"
#include "kernel_fields.h"
#include "open_file.h"

u64 seen;
u32 word;
struct owner owner;

SEC("kprobe/file_close")
int on_close(struct open_file *file)
{
    READ(word, file->owner.group);
    seen += word;
    READ(word, file->waiters);
    seen += word;
    READ(word, file->samples[7]);
    seen += word;
    READ(seen, file->ends[1][2]);
    return word;
}

/* Behind on_close in one section. */
SEC("kprobe/file_close")
int on_last_close(struct open_file *file)
{
    seen = FIELD_OFFSET(file->owner) + FIELD_SIZE(file->samples) + FIELD_SIZE(file->owner) + FIELD_SIZE(file->flags);
    READ(word, file[1].readers);
    READ(owner, file->owner);
    return word + file->tail[3];
}

SEC("kprobe/file_move")
int on_move(struct open_file *file)
{
    if (FIELD_EXISTS(file->retired)) {
        seen += file->retired;
        READ(word, file->retired);
    }
    if (FIELD_EXISTS(file->samples[7]))
        seen += FIELD_EXISTS(file->owner.user);
    seen += FIELD_EXISTS(file->ends[1]) + FIELD_EXISTS(file->waiters);
    return 0;
}

char _license[] SEC("license") = "GPL";
