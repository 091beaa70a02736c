/* A small kernel's structs and enums, with members at other places and of other widths than the objects declare them. */
#include "helpers.h"

/* Of loaded_fields and moved_fields. */
struct owner {
    u64 session;
    u32 group;
    u32 user;
};

typedef const u16 file_mode;

struct open_file {
    struct open_file *next;
    u64 flags;
    u32 position;
    file_mode mode;
    u8 holders;
    s32 balance;
    struct {
        u32 readers;
        union {
            struct {
                u32 lockers;
                u32 waiters;
            };
            u64 both;
        };
        volatile u32 writers;
    };
    struct owner owner;
    u32 samples[12];
    u64 ends[3][4];
    struct owner *shared;
    u32 tail[];
};

struct open_file open_file;

/* Of bit_fields. */
enum direction { INBOUND, OUTBOUND, BOTH_WAYS };

struct packet_state {
    u8 version;
    u32 level : 20;
    u32 kind : 7;
    s32 offset : 13;
    u64 wide : 44;
    enum direction direction : 2;
    _Bool closed : 1;
    u32 became_field : 24;
    u64 became_whole;
};

struct tight_state {
    u32 first : 30;
    u32 across : 5;
    u64 filler : 25;
    u64 past : 10;
} __attribute__((packed));

struct packet_state packet_state;
struct tight_state tight_state;

/* Of guarded_types and enum_values. */
typedef u64 (*clock_function)(u32 which, const struct owner *owner);
typedef struct owner *owner_handle;
typedef u64 other_handle;

struct task {
    u64 started;
    char name[16];
    u32 processor;
    u64 state;
};

union address {
    u32 words[4];
    u64 halves[2];
    u8 bytes[16];
};

enum task_state { TASK_STOPPED = 4, TASK_RUNNING = 9, TASK_ASLEEP___renamed = -3 };
enum limits { FEWEST = 2, MOST = 0x123456789aULL };

struct task task;
union address address;
clock_function clock_function_now;
owner_handle owner_of_task;
other_handle other_of_task;
enum task_state task_state;
enum limits limits;

/* Of module_types and enum_values. */
struct queue {
    u64 length;
    u32 depth;
};

struct queue queue;

/* Of task_reads. */
struct mm_struct {
    u64 map_count;
    u64 start_code;
    u64 end_code;
    u64 start_data;
};

struct task_struct {
    u64 state;
    u64 flags;
    s32 prio;
    s32 pid;
    s32 tgid;
    struct mm_struct *mm;
    struct task_struct *real_parent;
    char comm[16];
};

struct task_struct task_struct;
struct mm_struct mm_struct;
