/* Answers the call bpf in the place of a kernel, as tests/loader_cases.py does: linked to examples/c/loader.c with
   -Wl,--wrap=syscall,--wrap=setrlimit,--wrap=uname. Each call is a line on standard output.

   STUB_VERSION      the kernel's version, as 6.18
   STUB_REFUSES      lines: an error's number, a space, and how the calls begin that have it
   STUB_LOG_LINES    how long the log of a program is
   STUB_NO_LIMIT     where it is set, no limit can be raised */
#include <errno.h>
#include <linux/bpf.h>
#include <stdarg.h>
#include <stdbool.h>
#include <stdint.h>
#include <stdio.h>
#include <stdlib.h>
#include <string.h>
#include <sys/resource.h>
#include <sys/utsname.h>

enum { FIRST_FD = 1000, MOST_CALLS = 100, LONG_LOG = 100 };

static char names[MOST_CALLS][BPF_OBJ_NAME_LEN + 1];
static int calls;

static bool is_before(unsigned major, unsigned minor)
{
    unsigned version[2] = {0, 0};
    sscanf(getenv("STUB_VERSION"), "%u.%u", &version[0], &version[1]);
    return version[0] < major || (version[0] == major && version[1] < minor);
}

static const char *truth(bool is_true)
{
    return is_true ? "True" : "False";
}

static const char *named(char *to, const char *name)
{
    snprintf(to, BPF_OBJ_NAME_LEN + 1, "%.*s", BPF_OBJ_NAME_LEN, *name ? name : "-");
    return to;
}

/* A kernel takes longer attributes only if it knows the rest, or the rest is 0. */
static bool has_more(const union bpf_attr *attributes, size_t len)
{
    for (size_t i = len; i < sizeof *attributes; i++)
        if (((const char *)attributes)[i])
            return true;
    return false;
}

static int create_map(const union bpf_attr *it, char *line, size_t room)
{
    bool is_ring = it->map_type == 27 || it->map_type == 31;
    snprintf(line, room, "MAP_CREATE %s type %u entries %u types %s %u %u", named(names[calls], it->map_name), it->map_type,
             it->max_entries, truth(it->btf_fd), it->btf_key_type_id, it->btf_value_type_id);
    if ((is_before(4, 15) && has_more(it, 28)) || (is_before(4, 18) && has_more(it, 48)))
        return E2BIG;
    return is_ring && (it->max_entries < 4096 || (it->max_entries & (it->max_entries - 1))) ? EINVAL : 0;
}

static int load_program(const union bpf_attr *it, char *line, size_t room)
{
    const struct bpf_insn *first = (const struct bpf_insn *)(uintptr_t)it->insns;
    char name[BPF_OBJ_NAME_LEN + 1];
    int log_lines = atoi(getenv("STUB_LOG_LINES"));
    snprintf(line, room, "PROG_LOAD %s type %u target %u records %s %u %s %u %u %s %u", named(name, it->prog_name), it->prog_type,
             it->attach_btf_id, truth(it->prog_btf_fd), it->func_info_rec_size, truth(it->func_info), it->func_info_cnt,
             it->line_info_rec_size, truth(it->line_info), it->line_info_cnt);
    if (it->log_level) {
        char *log = (char *)(uintptr_t)it->log_buf;
        log += sprintf(log, "%s\n", log_lines == 1 ? "processed 2 insns" : "first");
        for (int i = 1; i < log_lines; i++)
            log += sprintf(log, "long\n");
        if (log_lines > LONG_LOG)
            return ENOSPC;
    }
    if ((is_before(4, 15) && has_more(it, 48)) || (is_before(5, 0) && has_more(it, 72)))
        return E2BIG;
    return first->code == 0x85 && is_before(5, 11) ? EINVAL : 0;
}

static int answer(int command, const union bpf_attr *it, char *line, size_t room)
{
    switch (command) {
    case BPF_MAP_CREATE:
        return create_map(it, line, room);
    case BPF_PROG_LOAD:
        return load_program(it, line, room);
    case BPF_BTF_LOAD:
        snprintf(line, room, "BTF_LOAD %u bytes", it->btf_size);
        return is_before(4, 18) ? EINVAL : 0;
    default:
        snprintf(line, room, "%s %s", command == BPF_MAP_FREEZE ? "MAP_FREEZE" : "MAP_UPDATE_ELEM", names[it->map_fd - FIRST_FD]);
        return 0;
    }
}

long __wrap_syscall(long number, int command, const union bpf_attr *attributes, unsigned size)
{
    char line[200], *refuses = strdup(getenv("STUB_REFUSES"));
    (void)number;
    (void)size;
    int error = answer(command, attributes, line, sizeof line);
    puts(line);
    for (char *it = strtok(refuses, "\n"); it; it = strtok(NULL, "\n")) {
        const char *begin = strchr(it, ' ') + 1;
        if (strncmp(line, begin, strlen(begin)) == 0)
            error = atoi(it);
    }
    free(refuses);
    if (error == 0)
        return FIRST_FD + calls++;
    errno = error;
    return -1;
}

int __wrap_setrlimit(int limit, const struct rlimit *wanted)
{
    printf("setrlimit %s (%ld, %ld)\n", truth(limit == RLIMIT_MEMLOCK), (long)wanted->rlim_cur, (long)wanted->rlim_max);
    return getenv("STUB_NO_LIMIT") ? -1 : 0;
}

int __wrap_uname(struct utsname *name)
{
    memset(name, 0, sizeof *name);
    strcpy(name->sysname, "Linux");
    snprintf(name->release, sizeof name->release, "%s.0", getenv("STUB_VERSION"));
    return 0;
}
