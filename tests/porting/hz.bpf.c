/* A program that reads a number of the kernel's configuration; with PORTED, a constant that a loader sets. */
#include "../objects/helpers.h"

#ifdef PORTED
const volatile s32 CONFIG_HZ = 250;
#else
extern s32 CONFIG_HZ __attribute__((section(".kconfig")));
#endif

u64 ticks;

SEC("kprobe/do_exit")
int on_exit(void *context)
{
    ticks += CONFIG_HZ;
    return 0;
}

char license_text[] SEC("license") = "GPL";
