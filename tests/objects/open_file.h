/* An open file, as loaded_fields and moved_fields know it. */
TYPES_OF_KERNEL
struct owner {
    u32 user;
    u32 group;
};

struct open_file {
    u32 mode;
    u32 flags;
    u16 holders;
    u64 position;
    s32 balance;
    struct owner owner;
    union {
        u32 writers;
        u32 readers;
        u32 waiters;
    };
    u32 samples[8];
    u32 retired;
    struct open_file *next;
    u64 ends[2][3];
    struct owner *shared;
    u32 tail[];
};
END_OF_TYPES
