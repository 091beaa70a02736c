/* Prints the instructions that libbpf makes of an object for a kernel: libbpf_relocations OBJECT TYPES. Each program is a line: its
   name, a space, and its slots in hexadecimal. */
#define _GNU_SOURCE
#include "../bench/libbpf.h"

/* There are no types of modules. */
static int error_of(long command, const char *attributes)
{
    (void)attributes;
    return command == BTF_GET_NEXT_ID ? ENOENT : 0;
}

static int of_errors(int level, const char *format, va_list arguments)
{
    return level == 0 ? vfprintf(stderr, format, arguments) : 0;
}

int main(int argc, char **argv)
{
    if (argc != 3)
        return 2;
    void *library = libbpf();
    if (!library)
        return 2;
    void *(*open_file)(const char *, const struct open_opts *) = dlsym(library, "bpf_object__open_file");
    int (*load)(void *) = dlsym(library, "bpf_object__load");
    void *(*next_program)(void *, void *) = dlsym(library, "bpf_object__next_program");
    const char *(*name_of)(void *) = dlsym(library, "bpf_program__name");
    const uint8_t *(*slots_of)(void *) = dlsym(library, "bpf_program__insns");
    size_t (*count_of)(void *) = dlsym(library, "bpf_program__insn_cnt");
    void *(*set_print)(int (*)(int, const char *, va_list)) = dlsym(library, "libbpf_set_print");
    struct open_opts opts = { .sz = sizeof(opts), .object_name = "object", .btf_custom_path = argv[2] };
    set_print(of_errors);
    void *object = open_file(argv[1], &opts);
    if (!object || load(object) < 0)
        return 1;
    for (void *program = next_program(object, NULL); program; program = next_program(object, program)) {
        printf("%s ", name_of(program));
        for (size_t at = 0; at < 8 * count_of(program); at++)
            printf("%02x", slots_of(program)[at]);
        printf("\n");
    }
    return 0;
}
