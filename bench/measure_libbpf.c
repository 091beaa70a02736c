/* Measures libbpf on an object: measure_libbpf RUNS OBJECT [TYPES]; "-" names no file. Prints the
   least and the middle time in microseconds of bpf_object__open_mem, bpf_object__load up to the
   first program that is loaded, and bpf_object__close (libbpf.h). */
#define _GNU_SOURCE
#include <string.h>

#include "libbpf.h"
#include "times.h"

/* Probes before the programs of the object have no name of theirs. */
static bool is_of_object(const char *attributes)
{
    return strncmp(attributes + 48, "libbpf_nametest", 15) != 0 && attributes[48] != 0;
}

static int error_of(long command, const char *attributes)
{
    return command == PROG_LOAD && is_of_object(attributes) ? EPERM : 0;
}

static int silent(int level, const char *format, va_list arguments)
{
    (void)level, (void)format, (void)arguments;
    return 0;
}

int main(int argc, char **argv)
{
    if (argc < 3 || argc > 4)
        return 2;
    void *library = libbpf();
    if (!library)
        return 1;
    void *(*open_mem)(const void *, size_t, const struct open_opts *) = dlsym(library, "bpf_object__open_mem");
    int (*load)(void *) = dlsym(library, "bpf_object__load");
    void (*close_object)(void *) = dlsym(library, "bpf_object__close");
    void *(*set_print)(int (*)(int, const char *, va_list)) = dlsym(library, "libbpf_set_print");
    static char object[1 << 24];
    FILE *file = fopen(argv[2], "rb");
    size_t runs = strtoul(argv[1], NULL, 10), len = file ? fread(object, 1, sizeof(object), file) : 0;
    double *times = calloc(runs ? runs : 1, sizeof(double));
    if (!runs || !len || !times)
        return 2;
    struct open_opts opts = { .sz = sizeof(opts), .object_name = "object" };
    if (argc == 4 && strcmp(argv[3], "-"))
        opts.btf_custom_path = argv[3];
    set_print(silent);
    for (size_t run = 0; run < runs; run++) {
        double begin = now();
        void *opened = open_mem(object, len, &opts);
        if (!opened) {
            perror("libbpf opens nothing");
            return 1;
        }
        int error = load(opened);
        close_object(opened);
        times[run] = now() - begin;
        if (error != -EPERM) {
            fprintf(stderr, "libbpf ends before the first program: %s\n", strerror(error < 0 ? -error : 0));
            return 1;
        }
    }
    print_times("libbpf", times, runs);
    return 0;
}
