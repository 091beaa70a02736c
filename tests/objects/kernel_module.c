/* Types of a module of the small kernel: some of its own, and some that the kernel has too. */
#include "helpers.h"

struct device {
    u64 registers;
    u16 number;
    struct {
        u64 speed;
    };
};

struct queue {
    u64 length;
    u32 depth;
};

enum device_kind { CHARACTER_DEVICE = 3, BLOCK_DEVICE = 6 };

struct device device;
struct queue queue;
enum device_kind device_kind;
