/* What programs share that ask libbpf.so.1 as it is installed, without its headers, and let no call of bpf(2) reach the kernel. */
#include <dlfcn.h>
#include <errno.h>
#include <fcntl.h>
#include <stdarg.h>
#include <stdbool.h>
#include <stdint.h>
#include <stdio.h>
#include <sys/syscall.h>

/* struct bpf_object_open_opts of libbpf 1.1 (tools/lib/bpf/libbpf.h). */
struct open_opts {
    size_t sz;
    const char *object_name;
    bool relaxed_maps;
    const char *pin_root_path;
    uint32_t unused;
    const char *kconfig;
    const char *btf_custom_path;
    char *kernel_log_buf;
    size_t kernel_log_size;
    uint32_t kernel_log_level;
};

enum { MAP_CREATE = 0, PROG_LOAD = 5, BTF_LOAD = 18, BTF_GET_NEXT_ID = 23 };

/* The error of a call of bpf(2), or 0 where it succeeds; each program has its own. */
static int error_of(long command, const char *attributes);

/* Stands in the place of libc's, for libbpf too: answers as a kernel that has all. */
long syscall(long number, ...)
{
    va_list arguments;
    va_start(arguments, number);
    long command = va_arg(arguments, long);
    const char *attributes = va_arg(arguments, const char *);
    va_end(arguments);
    errno = number == SYS_bpf ? error_of(command, attributes) : ENOSYS;
    if (errno)
        return -1;
    if (command == MAP_CREATE || command == PROG_LOAD || command == BTF_LOAD)
        return open("/dev/null", O_RDONLY | O_CLOEXEC);
    return 0;
}

/* libbpf.so.1; NULL where it isn't there, which is said. */
static void *libbpf(void)
{
    void *library = dlopen("libbpf.so.1", RTLD_NOW);
    if (!library)
        fprintf(stderr, "%s\n", dlerror());
    return library;
}
