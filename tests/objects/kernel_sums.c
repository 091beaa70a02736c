/* What every_kind.bpf.c takes of a kernel: a function, and a struct with its fields at other offsets. */
#include "helpers.h"

struct request {
    u64 begun;
    u32 length;
    u32 number;
};

struct request request;

int kernel_sum(u32 number)
{
    return number + request.number;
}
