/* Loads a plan into the running kernel, attaches its programs and shows a map's values: an example of a loader in C.

       loader [--dry-run] [-v] [--object OBJECT] [--watch MAP] .. PLAN [PROGRAM=SECTION]..
       loader .. --object OBJECT [--types FILE].. [--symbols FILE] [--settings FILE]

   The first form needs nothing but libc and plan.h: cc loader.c. The second one makes the plan, and stands only in a program that
   is built with the library: cc -DWITH_MORVEZIN loader.c libmorvezin.a .. (docs/C_LIBRARY.md). Without --types the kernel's own
   types and symbols count.

   Each program is loaded by itself. One that the kernel refuses is named with the end of the verifier's log (-v: the whole log),
   and the next one follows. What a program is attached to is said by the section of its function in OBJECT, or by hand, as in
   `trace_unlink=kprobe/do_unlinkat`. Nothing is pinned, and all is gone when the process ends. Not served are programs of the
   kind Extension and targets in modules. It is compiled with the kernel's headers of 5.16 or later.

   --watch MAP         attaches the programs (kprobes from 4.17 on), waits until the map's values change, and prints them
   --seconds N         how long it waits, 10 without it
   --interface NAME    what XDP programs are attached to (from 5.9 on)
   --cgroup FOLDER     what the programs of control groups are attached to (from 5.7 on)
   --dry-run           prints the calls, and makes none

   The status is 0 where all is loaded and what is watched has changed, 1 where something isn't so, and 2 where the command line
   or a file is wrong. */
#define _GNU_SOURCE
#include <ctype.h>
#include <elf.h>
#include <errno.h>
#include <fcntl.h>
#include <linux/bpf.h>
#include <linux/btf.h>
#include <linux/perf_event.h>
#include <net/if.h>
#include <stdarg.h>
#include <stdio.h>
#include <stdlib.h>
#include <sys/ioctl.h>
#include <sys/resource.h>
#include <sys/syscall.h>
#include <sys/utsname.h>
#include <time.h>
#include <unistd.h>

#include "plan.h"
#ifdef WITH_MORVEZIN
#include "morvezin.h"
#endif

#if __BYTE_ORDER__ != __ORDER_LITTLE_ENDIAN__
#error "slots of plans are little-endian"
#endif

#ifndef KERNEL_TYPES
#define KERNEL_TYPES "/sys/kernel/btf/vmlinux"
#endif
#ifndef KERNEL_SYMBOLS
#define KERNEL_SYMBOLS "/proc/kallsyms"
#endif
#ifndef POSSIBLE_PROCESSORS
#define POSSIBLE_PROCESSORS "/sys/devices/system/cpu/possible"
#endif

enum {
    LOG_LINES = 6,            /* of a log that are shown without -v */
    LOG_SIZE = (1 << 24) - 1, /* what every kernel takes */
    MOST_FILES = 16,          /* of --types */
    READ_ONLY = 1 << 7,       /* BPF_F_RDONLY_PROG */
    PIN_BY_NAME = 1,
    LOAD_64 = 0x18, /* the code of a 16-byte load; its source registers for maps and functions follow */
    OF_MAP = 1,
    OF_MAP_VALUE = 2,
    OF_FUNCTION = 4,
};

/* Kinds of programs (docs/FORMATS.md, "What a kind is for the kernel"). */
enum {
    KRETPROBE = 0, KPROBE = 1, TRACEPOINT = 4, XDP = 6, SOCK_OPS = 9, CGROUP_SKB = 11, CGROUP_SOCK_ADDR = 12, CGROUP_SYSCTL = 13,
    CGROUP_SOCKOPT = 14, RAW_TRACEPOINT = 17, LSM = 18, LSM_CGROUP = 19, BTF_TRACEPOINT = 20, FENTRY = 21, FEXIT = 22,
    EXTENSION = 24, CGROUP_SOCK = 27, CGROUP_DEVICE = 28, ITER = 29,
};

struct bytes {
    char *at;
    size_t len;
};

struct made_map {
    struct plan_map map;
    int fd; /* -1 where the kernel refuses it */
};

/* All that a map holds: a key, then its value, then the next key. */
struct values {
    char *at;
    size_t count, key_len, value_len;
};

struct loader {
    bool is_dry, is_verbose;
    const char *object, *watched, *interface, *cgroup, *symbols, *settings, *plan_file;
    const char *types[MOST_FILES];
    int type_count;
    unsigned seconds;
    char **sections; /* PROGRAM=SECTION */
    int section_count;

    struct plan plan;
    struct bytes elf, kernel_types, license;
    int btf_fd;
    bool takes_types, takes_names, is_whole, is_attached;
    struct made_map *maps, *watched_map;
    size_t map_count;
    struct values first; /* what the watched map holds before a program is attached */
    char said[512]; /* the last call, for a message */
};

static void note(const char *format, ...)
{
    va_list words;
    va_start(words, format);
    fputs("loader: ", stderr);
    vfprintf(stderr, format, words);
    fputc('\n', stderr);
    va_end(words);
}

/* Ends with a fault of the command line or of a file. */
#define fail(...) (note(__VA_ARGS__), exit(2))

static void *take(size_t len)
{
    void *at = calloc(1, len + 1);
    if (!at)
        fail("out of memory");
    return at;
}

static struct bytes read_file(const char *path)
{
    struct bytes file = {NULL, 0};
    size_t room = 1 << 16;
    ssize_t len = 0;
    int fd = open(path, O_RDONLY | O_CLOEXEC);
    file.at = take(room);
    while (fd >= 0 && (len = read(fd, file.at + file.len, room - file.len)) > 0) {
        file.len += (size_t)len;
        if (file.len == room && !(file.at = realloc(file.at, room *= 2)))
            fail("out of memory");
    }
    if (fd < 0 || len < 0)
        fail("%s: %s", path, strerror(errno));
    close(fd);
    return file;
}

/* Bytes of a plan, with a NUL after them. */
static char *copy(struct plan_bytes bytes)
{
    char *at = take(bytes.len);
    plan_copy(bytes, at);
    return at;
}

static bool is_name(struct plan_bytes name, const char *text, size_t len)
{
    bool is_same = name.len == len;
    for (size_t i = 0; is_same && i < len; i++)
        is_same = plan_byte(name, i) == (unsigned char)text[i];
    return is_same;
}

/* A name as the kernel takes it: at most 15 letters, digits, '_' and '.'. */
static void label(struct plan_bytes name, char to[BPF_OBJ_NAME_LEN])
{
    size_t len = 0;
    for (size_t i = 0; i < name.len && len < BPF_OBJ_NAME_LEN - 1; i++) {
        unsigned char byte = plan_byte(name, i);
        if (byte < 128 && (isalnum(byte) || byte == '_' || byte == '.'))
            to[len++] = (char)byte;
    }
    memset(to + len, 0, BPF_OBJ_NAME_LEN - len);
}

static void kernel_name(const struct loader *loader, struct plan_bytes name, char to[BPF_OBJ_NAME_LEN])
{
    label(name, to);
    if (!loader->takes_names)
        memset(to, 0, BPF_OBJ_NAME_LEN);
}

static uint64_t address(const void *at)
{
    return (uint64_t)(uintptr_t)at;
}

/* Calls. */

static void say(struct loader *loader, const char *format, ...)
{
    va_list words;
    va_start(words, format);
    vsnprintf(loader->said, sizeof loader->said, format, words);
    va_end(words);
    if (loader->is_dry)
        puts(loader->said);
}

/* Makes a call that was said, and gives the file descriptor that it answers, or -1. */
static int call_bpf(const struct loader *loader, int command, union bpf_attr *attributes)
{
    return loader->is_dry ? 0 : (int)syscall(SYS_bpf, command, attributes, sizeof *attributes);
}

static void show_log(const struct loader *loader, char *log)
{
    size_t count = 0, number = 0;
    for (const char *at = log; *at; at++)
        count += *at != '\n' && (at[1] == '\n' || at[1] == 0);
    for (const char *line = strtok(log, "\n"); line; line = strtok(NULL, "\n"), number++)
        if (loader->is_verbose || number + LOG_LINES >= count)
            fprintf(stderr, "  %s\n", line);
}

/* Where a call's attributes have the log. */
struct log_fields {
    __u32 *level, *size;
    __aligned_u64 *buffer;
};

/* Makes a call, again with a log where it is refused, and with one at once where the log of success is wanted. */
static int call_with_log(const struct loader *loader, int command, union bpf_attr *attributes, struct log_fields fields, char **log)
{
    bool wants_log = loader->is_verbose && command == BPF_PROG_LOAD;
    int fd = wants_log && !loader->is_dry ? -1 : call_bpf(loader, command, attributes);
    *log = NULL;
    if (fd >= 0)
        return fd;
    *log = take(LOG_SIZE);
    *fields.level = 1;
    *fields.size = LOG_SIZE;
    *fields.buffer = address(*log);
    fd = call_bpf(loader, command, attributes);
    if (fd < 0 && errno == ENOSPC) { /* the log is longer, as kernels before 6.4 say */
        *fields.level = *fields.size = 0;
        *fields.buffer = 0;
        fd = call_bpf(loader, command, attributes);
    }
    return fd;
}

/* What depends on the kernel. */

static bool loads_probe(const struct loader *loader, const struct bpf_insn *slots, const char *name)
{
    union bpf_attr attributes;
    memset(&attributes, 0, sizeof attributes);
    attributes.prog_type = BPF_PROG_TYPE_SOCKET_FILTER;
    attributes.insn_cnt = 2;
    attributes.insns = address(slots);
    attributes.license = address("GPL");
    strncpy(attributes.prog_name, name, BPF_OBJ_NAME_LEN - 1);
    int fd = call_bpf(loader, BPF_PROG_LOAD, &attributes);
    if (fd >= 0)
        close(fd);
    return fd >= 0;
}

/* Asks what libbpf asks first. Before 5.11 maps and programs count as locked memory; before 4.15 they have no names. */
static void ask_kernel(struct loader *loader)
{
    const struct bpf_insn exit_slot = {.code = BPF_JMP | BPF_EXIT};
    const struct bpf_insn zero[] = {{.code = BPF_ALU64 | BPF_MOV | BPF_K}, exit_slot};
    const struct bpf_insn coarse_time[] = {{.code = BPF_JMP | BPF_CALL, .imm = BPF_FUNC_ktime_get_coarse_ns}, exit_slot};
    const struct rlimit all = {RLIM_INFINITY, RLIM_INFINITY};
    if (!loads_probe(loader, coarse_time, ""))
        setrlimit(RLIMIT_MEMLOCK, &all); /* where it can't be raised, it may be high enough */
    loader->takes_names = loads_probe(loader, zero, "loader");
}

/* The running kernel's number, as kernels before 5.0 compare it with that of a program (libbpf's get_kernel_version). */
static uint32_t running_version(void)
{
    struct utsname name;
    unsigned major = 0, minor = 0, patch = 0;
    FILE *ubuntu = fopen("/proc/version_signature", "r");
    uname(&name);
    const char *debian = strstr(name.version, "Debian ");
    if (!ubuntu || fscanf(ubuntu, "%*s %*s %u.%u.%u", &major, &minor, &patch) != 3)
        sscanf(debian ? debian + strlen("Debian ") : name.release, "%u.%u.%u", &major, &minor, &patch);
    if (ubuntu)
        fclose(ubuntu);
    return (major << 16) + (minor << 8) + (patch < 255 ? patch : 255);
}

/* How many processors there may ever be. The kernel lists their numbers, such as 0-3,8. */
static uint32_t possible_processors(void)
{
    struct bytes list = read_file(POSSIBLE_PROCESSORS);
    uint32_t count = 0;
    char *end = list.at;
    do {
        unsigned long first = strtoul(end, &end, 10), last = *end == '-' ? strtoul(end + 1, &end, 10) : first;
        count += (uint32_t)(last - first + 1);
    } while (*end++ == ',');
    free(list.at);
    return count;
}

/* The least power of two of pages that holds a ring buffer, where 32 bits have it (libbpf's adjust_ringbuf_sz). */
static uint32_t ring_size(uint32_t wanted)
{
    uint64_t size = (uint64_t)sysconf(_SC_PAGESIZE);
    while (size < wanted)
        size *= 2;
    return wanted && size <= UINT32_MAX ? (uint32_t)size : wanted;
}

static bool is_among(uint32_t number, const uint8_t *numbers, size_t count)
{
    return number < 256 && memchr(numbers, (int)number, count);
}

/* The types of maps that the kernel makes without types of keys and values (bpf_object__create_map, tools/lib/bpf/libbpf.c). */
static bool is_untyped(uint32_t type)
{
    static const uint8_t types[] = {4, 7, 8, 12, 13, 14, 15, 16, 17, 18, 22, 23, 25, 33};
    return is_among(type, types, sizeof types);
}

/* The types of maps that it makes only with them: storage of sockets, inodes, tasks and control groups, and STRUCT_OPS. */
static bool is_typed(uint32_t type)
{
    static const uint8_t types[] = {24, 26, 28, 29, 32};
    return is_among(type, types, sizeof types);
}

/* The source register of a slot's 16-byte load, or -1 where it begins none. */
static int load_source(const uint8_t *slot)
{
    return slot[0] == LOAD_64 ? slot[1] >> 4 : -1;
}

/* Types. */

/* A structure or tag that types name and the kernel looks for in the values of maps (btf_get_field_type, kernel/bpf/btf.c). */
static const char *field_in(const char *types, size_t len)
{
    static const char *const fields[] = {
        "bpf_spin_lock", "bpf_res_spin_lock", "bpf_timer", "bpf_wq", "bpf_task_work", "bpf_list_head", "bpf_rb_root",
        "bpf_refcount", "kptr", "kptr_untrusted", "percpu_kptr", "uptr",
    };
    char name[32] = {0}; /* with a NUL before and after it */
    for (size_t i = 0; i < sizeof fields / sizeof *fields; i++) {
        size_t field_len = strlen(fields[i]);
        memcpy(name + 1, fields[i], field_len + 1);
        if (memmem(types, len, name, field_len + 2))
            return fields[i];
    }
    return NULL;
}

static bool takes_function_address(const struct plan_program *program)
{
    char *slots = copy(program->slots);
    bool takes = false;
    for (size_t at = 0; at < program->slots.len; at += 8)
        takes |= load_source((const uint8_t *)slots + at) == OF_FUNCTION;
    free(slots);
    return takes;
}

/* Says what no kernel takes without the object's types, if there is such a thing. */
static bool needs_types(struct loader *loader, const char *types, const char *why)
{
    struct plan_cursor maps = loader->plan.maps, programs = loader->plan.programs;
    struct plan_map map;
    struct plan_program program;
    const char *field = field_in(types, loader->plan.type_bytes.len);
    while (plan_next_map(&maps, &map)) {
        if (is_typed(map.words.map_type))
            return note("types aren't loaded: %s: map %s needs them", why, copy(map.name)), true;
        if (field && map.words.btf_value_type_id)
            return note("types aren't loaded: %s: a value with %s needs them", why, field), true;
    }
    while (plan_next_program(&programs, &program))
        if (program.kind == EXTENSION || takes_function_address(&program))
            return note("types aren't loaded: %s: program %s needs them", why, copy(program.name)), true;
    return false;
}

static void tell_features(const struct plan *plan)
{
    char text[256] = "";
    size_t len = 0;
    for (size_t i = 0; i < plan->feature_count; i++) {
        struct plan_text name = plan->features[i].name;
        len += (size_t)snprintf(text + len, sizeof text - len, "%s%.*s %s", i ? ", " : "", (int)(name.end - name.at), name.at,
                                plan->features[i].answer ? "yes" : "no");
    }
    if (plan->feature_count)
        note("the types are for a kernel with %s", text);
}

/* Loads the types. Where the kernel refuses them, and nothing needs them, all goes on without types and records. */
static bool load_types(struct loader *loader)
{
    char *types = copy(loader->plan.type_bytes), *log, why[640];
    union bpf_attr attributes;
    memset(&attributes, 0, sizeof attributes);
    attributes.btf = address(types);
    attributes.btf_size = (uint32_t)loader->plan.type_bytes.len;
    say(loader, "BPF_BTF_LOAD %zu bytes", loader->plan.type_bytes.len);
    struct log_fields fields = {&attributes.btf_log_level, &attributes.btf_log_size, &attributes.btf_log_buf};
    loader->btf_fd = call_with_log(loader, BPF_BTF_LOAD, &attributes, fields, &log);
    int error = errno;
    snprintf(why, sizeof why, "%s: %s", strerror(error), loader->said);
    if (loader->btf_fd >= 0) {
        if (loader->is_verbose)
            tell_features(&loader->plan);
        return true;
    }
    loader->btf_fd = 0;
    loader->takes_types = false;
    if (error == EPERM)
        return note("types aren't loaded: %s", why), false;
    bool is_needed = needs_types(loader, types, why);
    if (!is_needed)
        note("goes on without types and records: %s", why);
    tell_features(&loader->plan);
    show_log(loader, log);
    return !is_needed;
}

/* Maps. */

static int make_map(struct loader *loader, struct plan_bytes name, const struct plan_words *words, int inner)
{
    union bpf_attr attributes;
    char shown[BPF_OBJ_NAME_LEN];
    bool is_ring = words->map_type == BPF_MAP_TYPE_RINGBUF || words->map_type == 31;
    memset(&attributes, 0, sizeof attributes);
    attributes.map_type = words->map_type;
    attributes.key_size = words->key_size;
    attributes.value_size = words->value_size;
    attributes.max_entries = is_ring ? ring_size(words->max_entries) : words->max_entries;
    if (words->map_type == BPF_MAP_TYPE_PERF_EVENT_ARRAY && words->max_entries == 0)
        attributes.max_entries = possible_processors();
    attributes.map_flags = words->map_flags;
    attributes.map_extra = words->map_extra;
    attributes.inner_map_fd = (uint32_t)inner;
    if (loader->takes_types && !is_untyped(words->map_type)) {
        attributes.btf_key_type_id = words->btf_key_type_id;
        attributes.btf_value_type_id = words->btf_value_type_id;
    }
    if (attributes.btf_key_type_id || attributes.btf_value_type_id)
        attributes.btf_fd = (uint32_t)loader->btf_fd;
    kernel_name(loader, name, attributes.map_name);
    label(name, shown);
    say(loader, "BPF_MAP_CREATE %s type %u key %u value %u entries %u flags %u inner %d", shown, attributes.map_type,
        attributes.key_size, attributes.value_size, attributes.max_entries, attributes.map_flags, inner);
    return call_bpf(loader, BPF_MAP_CREATE, &attributes);
}

/* Writes a map's only value, whose key is zeros. The kernel reads as many bytes as the map's words say. */
static bool write_contents(struct loader *loader, const struct plan_map *map, int fd)
{
    const struct plan_words *words = &map->words;
    union bpf_attr attributes;
    char shown[BPF_OBJ_NAME_LEN], *key = take(words->key_size);
    char *value = take(map->contents.len > words->value_size ? map->contents.len : words->value_size);
    plan_copy(map->contents, value);
    label(map->name, shown);
    memset(&attributes, 0, sizeof attributes);
    attributes.map_fd = (uint32_t)fd;
    attributes.key = address(key);
    attributes.value = address(value);
    say(loader, "BPF_MAP_UPDATE_ELEM %s %zu bytes", shown, map->contents.len);
    bool is_written = call_bpf(loader, BPF_MAP_UPDATE_ELEM, &attributes) >= 0;
    int error = errno;
    free(key);
    free(value);
    errno = error;
    return is_written;
}

/* Makes a map with its first value. One that programs only read is frozen then, so that the verifier knows its bytes. */
static int fill_map(struct loader *loader, const struct plan_map *map)
{
    const struct plan_bytes no_name = {"-", 0};
    union bpf_attr attributes;
    char shown[BPF_OBJ_NAME_LEN];
    int inner = map->has_inner ? make_map(loader, no_name, &map->inner, 0) : 0;
    int fd = inner < 0 ? -1 : make_map(loader, map->name, &map->words, inner);
    if (fd < 0 || map->contents.len == 0)
        return fd;
    if (!write_contents(loader, map, fd))
        return -1;
    if (!(map->words.map_flags & READ_ONLY))
        return fd;
    label(map->name, shown);
    memset(&attributes, 0, sizeof attributes);
    attributes.map_fd = (uint32_t)fd;
    say(loader, "BPF_MAP_FREEZE %s", shown);
    return call_bpf(loader, BPF_MAP_FREEZE, &attributes) < 0 ? -1 : fd;
}

static void add_map(struct loader *loader, const struct plan_map *map)
{
    struct made_map *made = &loader->maps[loader->map_count++];
    char *name = copy(map->name);
    made->map = *map;
    made->fd = fill_map(loader, map);
    if (made->fd < 0) {
        loader->is_whole = false;
        note("map %s isn't made: %s: %s", name, strerror(errno), loader->said);
    } else if (map->words.pinning == PIN_BY_NAME)
        note("map %s is to be pinned under its name, and isn't", name);
    if (made->fd >= 0 && loader->watched && is_name(map->name, loader->watched, strlen(loader->watched)))
        loader->watched_map = made;
    free(name);
}

/* Attach targets. */

/* A section's name, or that of a symbol: the text at an offset of a table of strings. */
static const char *elf_string(const struct loader *loader, const Elf64_Shdr *strings, uint32_t offset)
{
    if (strings->sh_type == SHT_NOBITS || offset >= strings->sh_size
        || !memchr(loader->elf.at + strings->sh_offset + offset, 0, strings->sh_size - offset))
        fail("%s is a broken ELF file", loader->object);
    return loader->elf.at + strings->sh_offset + offset;
}

/* The section header of a number. The section's bytes are in the file, if it has any there. */
static Elf64_Shdr elf_section(const struct loader *loader, const Elf64_Ehdr *header, uint32_t index)
{
    Elf64_Shdr section;
    if (index >= header->e_shnum || header->e_shentsize != sizeof section || header->e_shoff > loader->elf.len
        || (loader->elf.len - header->e_shoff) / sizeof section < header->e_shnum)
        fail("%s is a broken ELF file", loader->object);
    memcpy(&section, loader->elf.at + header->e_shoff + index * sizeof section, sizeof section);
    if (section.sh_type != SHT_NOBITS
        && (section.sh_offset > loader->elf.len || section.sh_size > loader->elf.len - section.sh_offset))
        fail("%s is a broken ELF file", loader->object);
    return section;
}

/* The header of a little-endian object. */
static Elf64_Ehdr elf_header(const struct loader *loader)
{
    Elf64_Ehdr header;
    if (loader->elf.len < sizeof header || memcmp(loader->elf.at, ELFMAG, SELFMAG) != 0)
        fail("%s is no ELF file", loader->object);
    memcpy(&header, loader->elf.at, sizeof header);
    if (header.e_ident[EI_CLASS] != ELFCLASS64 || header.e_ident[EI_DATA] != ELFDATA2LSB)
        fail("%s isn't a little-endian ELF file of 64 bits, and others can't be loaded", loader->object);
    if (header.e_machine != EM_NONE && header.e_machine != EM_BPF) /* older versions of LLVM wrote no machine */
        fail("%s is for machine %u, eBPF is %u", loader->object, header.e_machine, EM_BPF);
    return header;
}

/* The name of the section in which the object has a function. */
static const char *section_in_object(const struct loader *loader, const char *function)
{
    Elf64_Ehdr header = elf_header(loader);
    Elf64_Shdr names = elf_section(loader, &header, header.e_shstrndx);
    const char *found = NULL;
    for (uint32_t i = 0; i < header.e_shnum; i++) {
        Elf64_Shdr table = elf_section(loader, &header, i);
        for (uint64_t at = 0; table.sh_type == SHT_SYMTAB && at + sizeof(Elf64_Sym) <= table.sh_size; at += sizeof(Elf64_Sym)) {
            Elf64_Sym symbol;
            memcpy(&symbol, loader->elf.at + table.sh_offset + at, sizeof symbol);
            if (ELF64_ST_TYPE(symbol.st_info) != STT_FUNC || symbol.st_shndx >= header.e_shnum)
                continue;
            Elf64_Shdr strings = elf_section(loader, &header, table.sh_link);
            Elf64_Shdr section = elf_section(loader, &header, symbol.st_shndx);
            if (strcmp(elf_string(loader, &strings, symbol.st_name), function) == 0)
                found = elf_string(loader, &names, section.sh_name);
        }
    }
    return found;
}

/* The section of a program, as a word says it, or as the object has it. */
static const char *section_of(const struct loader *loader, const char *name)
{
    size_t len = strlen(name);
    for (int i = 0; i < loader->section_count; i++)
        if (strncmp(loader->sections[i], name, len) == 0 && loader->sections[i][len] == '=')
            return loader->sections[i] + len + 1;
    return loader->object ? section_in_object(loader, name) : NULL;
}

/* What stands after the first slash of a section's name; nothing where there is none. */
static const char *target_in(const char *section)
{
    const char *slash = section ? strchr(section, '/') : NULL;
    return slash ? slash + 1 : "";
}

/* The bytes of a record after its first twelve (Documentation/bpf/btf.rst). */
static size_t record_size(uint32_t info)
{
    size_t count = BTF_INFO_VLEN(info);
    switch (BTF_INFO_KIND(info)) {
    case BTF_KIND_INT: case BTF_KIND_VAR: case BTF_KIND_DECL_TAG:
        return 4;
    case BTF_KIND_ARRAY:
        return 12;
    case BTF_KIND_STRUCT: case BTF_KIND_UNION: case BTF_KIND_DATASEC: case 19: /* ENUM64 */
        return 12 * count;
    case BTF_KIND_ENUM: case BTF_KIND_FUNC_PROTO:
        return 8 * count;
    default:
        return 0;
    }
}

/* The id of the kernel's type of a kind and a name; 0 for none. */
static uint32_t kernel_type(struct loader *loader, uint32_t kind, const char *prefix, const char *name)
{
    struct btf_header header;
    char wanted[256];
    if (!loader->kernel_types.at)
        loader->kernel_types = read_file(KERNEL_TYPES);
    size_t len = loader->kernel_types.len, name_len = (size_t)snprintf(wanted, sizeof wanted, "%s%s", prefix, name);
    memset(&header, 0xff, sizeof header);
    if (len >= sizeof header)
        memcpy(&header, loader->kernel_types.at, sizeof header);
    if (header.hdr_len > len || header.type_off > len - header.hdr_len || header.type_len > len - header.hdr_len - header.type_off
        || header.str_off > len - header.hdr_len || header.str_len > len - header.hdr_len - header.str_off
        || name_len >= sizeof wanted)
        fail("%s can't be read as types", KERNEL_TYPES);
    const char *strings = loader->kernel_types.at + header.hdr_len + header.str_off;
    const char *types = loader->kernel_types.at + header.hdr_len + header.type_off;
    struct btf_type record;
    uint32_t id = 1;
    for (size_t at = 0; at + sizeof record <= header.type_len; at += sizeof record + record_size(record.info), id++) {
        memcpy(&record, types + at, sizeof record);
        if (BTF_INFO_KIND(record.info) == kind && record.name_off < header.str_len
            && strncmp(strings + record.name_off, wanted, header.str_len - record.name_off) == 0)
            return id;
    }
    return 0;
}

/* How the name of a target that is needed at load begins; NULL where the kind needs none. */
static const char *target_prefix(uint32_t kind)
{
    switch (kind) {
    case LSM: case LSM_CGROUP:
        return "bpf_lsm_";
    case BTF_TRACEPOINT:
        return "btf_trace_";
    case FENTRY: case FEXIT:
        return "";
    case ITER:
        return "bpf_iter_";
    default:
        return NULL;
    }
}

/* The id of what a program is attached to, in the kernel's types; 0 where it isn't known. */
static uint32_t target_id(struct loader *loader, const struct plan_program *program, const char *name)
{
    const char *section = section_of(loader, name), *target = target_in(section), *colon = strchr(target, ':');
    const char *prefix = target_prefix(program->kind);
    if (!section && !loader->object)
        return 0;
    if (!*target)
        return note("program %s has no attach target in %s", name, loader->object ? loader->object : section), 0;
    if (colon && strncmp(target, "vmlinux:", strlen("vmlinux:")) != 0)
        return note("program %s is for %s of the module %.*s, and types of modules aren't read", name, colon + 1,
                    (int)(colon - target), target), 0;
    uint32_t kind = program->kind == BTF_TRACEPOINT ? BTF_KIND_TYPEDEF : BTF_KIND_FUNC;
    target = colon ? colon + 1 : target;
    uint32_t id = kernel_type(loader, kind, prefix, target);
    if (!id)
        note("program %s is for %s%s, which the kernel's types haven't got", name, prefix, target);
    return id;
}

/* Programs. */

/* Puts file descriptors where slots name maps, and lists the slots' places in `places`; says why it can't. */
static bool put_maps(const struct loader *loader, const char *name, uint8_t *slots, size_t len, FILE *places)
{
    const char *comma = "";
    for (size_t at = 0; at < len; at += 8) {
        int source = load_source(slots + at);
        if (source != OF_MAP && source != OF_MAP_VALUE)
            continue;
        uint32_t number;
        memcpy(&number, slots + at + 4, sizeof number);
        const struct made_map *made = NULL;
        for (size_t i = 0; i < loader->map_count; i++)
            if (loader->maps[i].map.number == number)
                made = &loader->maps[i];
        if (!made)
            return note("program %s isn't loaded: slot %zu names the map %d, which the plan hasn't got", name, at / 8,
                        (int)number), false;
        if (made->fd < 0)
            return note("program %s isn't loaded: its map %s isn't made", name, copy(made->map.name)), false;
        memcpy(slots + at + 4, &made->fd, 4);
        fprintf(places, "%s%zu", comma, at / 8);
        comma = ", ";
    }
    return true;
}

static void *func_records(const struct plan_program *program)
{
    struct bpf_func_info *records = take(program->func_count * sizeof *records);
    struct plan_cursor cursor = program->func_records;
    struct plan_func func;
    for (size_t i = 0; plan_next_func(&cursor, &func); i++)
        records[i] = (struct bpf_func_info){func.insn_off, func.type_id};
    return records;
}

static void *line_records(const struct plan_program *program)
{
    struct bpf_line_info *records = take(program->line_count * sizeof *records);
    struct plan_cursor cursor = program->line_records;
    struct plan_line line;
    for (size_t i = 0; plan_next_line(&cursor, &line); i++)
        records[i] = (struct bpf_line_info){line.insn_off, line.file_name_off, line.line_off, line.line_col};
    return records;
}

/* What is about records. Kernels before 5.0 know nothing of them: all is 0 where there are none. */
static void add_records(const struct loader *loader, const struct plan_program *program, union bpf_attr *attributes)
{
    if (!loader->takes_types)
        return;
    if (program->func_count) {
        attributes->func_info = address(func_records(program));
        attributes->func_info_cnt = (uint32_t)program->func_count;
        attributes->func_info_rec_size = sizeof(struct bpf_func_info);
    }
    if (program->line_count) {
        attributes->line_info = address(line_records(program));
        attributes->line_info_cnt = (uint32_t)program->line_count;
        attributes->line_info_rec_size = sizeof(struct bpf_line_info);
    }
    if (program->func_count || program->line_count)
        attributes->prog_btf_fd = (uint32_t)loader->btf_fd;
}

/* Names the tables that a program was made for, but for the kernel's own, which is the first one. */
static void tell_tables(const struct plan_program *program, const char *name)
{
    struct plan_text tables = program->tables;
    uint32_t place;
    char text[256] = "";
    size_t len = 0;
    if (!program->has_tables)
        note("program %s is for tables of the kernel that aren't known", name);
    while (plan_next_table(&tables, &place) && len + 16 < sizeof text)
        if (place)
            len += (size_t)snprintf(text + len, sizeof text - len, "%s%u", len ? ", " : "", place);
    if (len)
        note("program %s is for a kernel with the types in place %s of the plan's tables: where they are a module's, it must be "
             "loaded", name, text);
}

/* The call that loads a program. The slots and the places of maps in them are given. */
static int load_slots(struct loader *loader, const struct plan_program *program, const char *slots, const char *places,
                      uint32_t target, char **log)
{
    struct plan_attributes kind = plan_attributes(program);
    union bpf_attr attributes;
    char shown[BPF_OBJ_NAME_LEN];
    memset(&attributes, 0, sizeof attributes);
    attributes.prog_type = kind.program_type;
    attributes.expected_attach_type = kind.expected_attach_type;
    attributes.prog_flags = kind.flags;
    attributes.insns = address(slots);
    attributes.insn_cnt = (uint32_t)(program->slots.len / 8);
    attributes.license = address(loader->license.at);
    attributes.kern_version = loader->plan.has_version ? loader->plan.version : running_version();
    attributes.attach_btf_id = target;
    kernel_name(loader, program->name, attributes.prog_name);
    add_records(loader, program, &attributes);
    label(program->name, shown);
    say(loader, "BPF_PROG_LOAD %s type %u attach-type %u flags %u target %u slots %u maps [%s] functions %u lines %u", shown,
        kind.program_type, kind.expected_attach_type, kind.flags, target, attributes.insn_cnt, places, attributes.func_info_cnt,
        attributes.line_info_cnt);
    struct log_fields fields = {&attributes.log_level, &attributes.log_size, &attributes.log_buf};
    int fd = call_with_log(loader, BPF_PROG_LOAD, &attributes, fields, log), error = errno;
    free((void *)(uintptr_t)attributes.func_info);
    free((void *)(uintptr_t)attributes.line_info);
    errno = error;
    return fd;
}

/* Loads a program, or says why it isn't loaded. Gives its file descriptor, or -1. */
static int load_program(struct loader *loader, const struct plan_program *program, const char *name)
{
    char *slots = copy(program->slots), *places = NULL, *log = NULL, shown[BPF_OBJ_NAME_LEN];
    size_t places_len;
    tell_tables(program, name);
    uint32_t target = target_prefix(program->kind) ? target_id(loader, program, name) : 0;
    FILE *list = open_memstream(&places, &places_len);
    bool has_maps = list && put_maps(loader, name, (uint8_t *)slots, program->slots.len, list);
    if (list)
        fclose(list);
    if (!has_maps)
        return -1;
    if (target_prefix(program->kind) && !target && !loader->is_dry)
        return note("program %s isn't loaded: its attach target isn't known", name), -1;
    int fd = load_slots(loader, program, slots, places, target, &log);
    if (fd < 0)
        note("program %s isn't loaded: %s", name, strerror(errno));
    else if (!loader->is_dry) {
        label(program->name, shown);
        printf("loaded %s\n", shown);
    }
    if (log)
        show_log(loader, log);
    free(log);
    free(places);
    free(slots);
    return fd;
}

/* Attaching. */

static bool read_number(const char *path, const char *before, uint64_t *number)
{
    char text[64] = "";
    FILE *file = fopen(path, "r");
    if (!file)
        return false;
    size_t len = strlen(before);
    bool is_read = fgets(text, sizeof text, file) && strncmp(text, before, len) == 0;
    fclose(file);
    *number = is_read ? strtoull(text + len, NULL, 10) : 0;
    return is_read;
}

/* The number of a tracepoint, by its category and name. */
static bool tracepoint_number(const char *target, uint64_t *number)
{
    static const char *const folders[] = {"/sys/kernel/tracing", "/sys/kernel/debug/tracing"};
    char path[512];
    for (size_t i = 0; i < sizeof folders / sizeof *folders; i++) {
        snprintf(path, sizeof path, "%s/events/%s/id", folders[i], target);
        if (read_number(path, "", number))
            return true;
    }
    return false;
}

/* The event of a function's entry or return, which kernels have from 4.17 on. */
static bool probe_event(bool is_return, const char *function, struct perf_event_attr *event)
{
    uint64_t type, bit = 0;
    if (!read_number("/sys/bus/event_source/devices/kprobe/type", "", &type)
        || (is_return && !read_number("/sys/bus/event_source/devices/kprobe/format/retprobe", "config:", &bit)))
        return false;
    event->type = (uint32_t)type;
    event->config = is_return ? 1ull << bit : 0;
    event->config1 = address(function);
    return true;
}

/* Attaches a program to an event of perf. */
static int attach_event(struct loader *loader, int program, const char *name, uint32_t kind, const char *target)
{
    struct perf_event_attr event;
    bool is_tracepoint = kind == TRACEPOINT;
    const char *what = is_tracepoint ? "tracepoint" : kind == KPROBE ? "kprobe" : "kretprobe";
    memset(&event, 0, sizeof event);
    event.size = sizeof event;
    event.type = PERF_TYPE_TRACEPOINT;
    say(loader, "perf_event_open %s %s %s", name, what, target);
    if (loader->is_dry)
        return 0;
    uint64_t number = 0;
    if (is_tracepoint ? !tracepoint_number(target, &number) : !probe_event(kind == KRETPROBE, target, &event))
        return -1;
    if (is_tracepoint)
        event.config = number;
    int fd = (int)syscall(SYS_perf_event_open, &event, -1, 0, -1, PERF_FLAG_FD_CLOEXEC);
    if (fd < 0 || ioctl(fd, PERF_EVENT_IOC_SET_BPF, program) < 0 || ioctl(fd, PERF_EVENT_IOC_ENABLE, 0) < 0)
        return -1;
    return fd;
}

/* Attaches a program to a raw tracepoint, or, without a name, to what it was loaded for. */
static int attach_raw(struct loader *loader, int program, const char *name, const char *point)
{
    union bpf_attr attributes;
    memset(&attributes, 0, sizeof attributes);
    attributes.raw_tracepoint.name = point ? address(point) : 0;
    attributes.raw_tracepoint.prog_fd = (uint32_t)program;
    say(loader, "BPF_RAW_TRACEPOINT_OPEN %s %s", name, point ? point : "-");
    return call_bpf(loader, BPF_RAW_TRACEPOINT_OPEN, &attributes);
}

/* Attaches a program to an interface or a control group. */
static int attach_link(struct loader *loader, int program, const char *name, uint32_t type, bool is_interface)
{
    union bpf_attr attributes;
    const char *what = is_interface ? loader->interface : loader->cgroup;
    if (!what)
        return note("program %s isn't attached: --%s says to what", name, is_interface ? "interface" : "cgroup"), -2;
    say(loader, "BPF_LINK_CREATE %s attach-type %u %s %s", name, type, is_interface ? "interface" : "cgroup", what);
    if (loader->is_dry)
        return 0;
    memset(&attributes, 0, sizeof attributes);
    attributes.link_create.prog_fd = (uint32_t)program;
    attributes.link_create.attach_type = type;
    int to = is_interface ? (int)if_nametoindex(what) : open(what, O_RDONLY | O_DIRECTORY | O_CLOEXEC);
    attributes.link_create.target_fd = (uint32_t)to;
    if (to < 0 || (is_interface && to == 0))
        return -1;
    return call_bpf(loader, BPF_LINK_CREATE, &attributes);
}

/* Attaches a loaded program. Gives a file descriptor, -1 with an error, or -2 where it was said why it isn't attached. */
static int attach(struct loader *loader, const struct plan_program *program, int fd, const char *name)
{
    const char *target = target_in(section_of(loader, name));
    uint32_t attach_type = plan_attributes(program).expected_attach_type;
    switch (program->kind) {
    case KPROBE: case KRETPROBE: case TRACEPOINT: case RAW_TRACEPOINT:
        if (!*target)
            return note("program %s isn't attached: its section isn't known", name), -2;
        return program->kind == RAW_TRACEPOINT ? attach_raw(loader, fd, name, target)
                                               : attach_event(loader, fd, name, program->kind, target);
    case LSM: case BTF_TRACEPOINT: case FENTRY: case FEXIT:
        return attach_raw(loader, fd, name, NULL);
    case XDP:
        if (attach_type != BPF_XDP)
            return note("program %s isn't attached: it is for a map", name), -2;
        return attach_link(loader, fd, name, attach_type, true);
    case CGROUP_SKB: case SOCK_OPS: case CGROUP_SOCK_ADDR: case CGROUP_SYSCTL: case CGROUP_SOCKOPT: case CGROUP_SOCK:
    case CGROUP_DEVICE: case LSM_CGROUP:
        return attach_link(loader, fd, name, attach_type, false);
    default:
        return note("program %s isn't attached: programs of its kind aren't", name), -2;
    }
}

/* Values of a map. */

static bool is_of_processors(uint32_t type)
{
    return type == BPF_MAP_TYPE_PERCPU_HASH || type == BPF_MAP_TYPE_PERCPU_ARRAY || type == BPF_MAP_TYPE_LRU_PERCPU_HASH;
}

/* Reads all values of a map; ends the program where they can't be read. */
static struct values read_values(const struct loader *loader, const struct made_map *made)
{
    const struct plan_words *words = &made->map.words;
    struct values values = {NULL, 0, words->key_size, words->value_size};
    union bpf_attr attributes;
    if (is_of_processors(words->map_type))
        values.value_len = (values.value_len + 7) / 8 * 8 * possible_processors();
    size_t each = values.key_len + values.value_len;
    memset(&attributes, 0, sizeof attributes);
    attributes.map_fd = (uint32_t)made->fd;
    while (values.count < words->max_entries) {
        if (!(values.at = realloc(values.at, (values.count + 1) * each)))
            fail("out of memory");
        char *key = values.at + values.count * each;
        attributes.key = values.count ? address(key - each) : 0;
        attributes.next_key = address(key);
        if (call_bpf(loader, BPF_MAP_GET_NEXT_KEY, &attributes) < 0)
            break;
        attributes.key = address(key);
        attributes.value = address(key + values.key_len);
        attributes.flags = 0;
        if (call_bpf(loader, BPF_MAP_LOOKUP_ELEM, &attributes) == 0)
            values.count++;
        else if (errno != ENOENT) /* else it was deleted meanwhile */
            fail("the values of map %s can't be read: %s", copy(made->map.name), strerror(errno));
        else
            break;
    }
    return values;
}

static void print_bytes(const char *bytes, size_t len)
{
    uint64_t number = 0;
    if (len == 1 || len == 2 || len == 4 || len == 8) {
        memcpy(&number, bytes, len);
        printf(" %llu", (unsigned long long)number);
        return;
    }
    putchar(' ');
    for (size_t i = 0; i < len; i++)
        printf("%02x", (unsigned char)bytes[i]);
}

static void print_values(const struct made_map *made, const struct values *values)
{
    const char *at = values->at;
    char *name = copy(made->map.name);
    size_t value_len = is_of_processors(made->map.words.map_type) ? (made->map.words.value_size + 7u) / 8 * 8 : values->value_len;
    for (size_t i = 0; i < values->count; i++, at += values->key_len + values->value_len) {
        printf("%s", name);
        print_bytes(at, values->key_len);
        for (size_t from = 0; value_len && from < values->value_len; from += value_len)
            print_bytes(at + values->key_len + from, value_len);
        putchar('\n');
    }
    free(name);
}

/* Waits until the values of the watched map change, and prints them; false where they stay. */
static bool watch(const struct loader *loader)
{
    const struct timespec tenth = {0, 100000000};
    const struct values *first = &loader->first;
    size_t len = first->count * (first->key_len + first->value_len);
    printf("watching %s\n", loader->watched);
    fflush(stdout);
    for (unsigned i = 0; i < 10 * loader->seconds; i++) {
        struct values now = read_values(loader, loader->watched_map);
        bool is_changed = now.count != first->count || (len && memcmp(now.at, first->at, len) != 0);
        if (is_changed)
            print_values(loader->watched_map, &now);
        free(now.at);
        if (is_changed)
            return true;
        nanosleep(&tenth, NULL);
    }
    note("no value of map %s has changed in %u seconds", loader->watched, loader->seconds);
    return false;
}

/* The whole. */

static void add_program(struct loader *loader, const struct plan_program *program)
{
    char *name = copy(program->name);
    int fd = load_program(loader, program, name);
    if (fd < 0)
        loader->is_whole = false;
    int link = fd >= 0 && loader->watched ? attach(loader, program, fd, name) : 0;
    if (link < 0)
        loader->is_whole = false;
    else if (fd >= 0)
        loader->is_attached = true;
    if (link == -1)
        note("program %s isn't attached: %s: %s", name, strerror(errno), loader->said);
    free(name);
}

/* Loads all that the kernel takes, and says whether this is all. */
static bool load(struct loader *loader)
{
    struct plan_cursor maps = loader->plan.maps, programs = loader->plan.programs;
    struct plan_map map;
    struct plan_program program;
    loader->takes_types = loader->takes_names = loader->is_whole = true;
    loader->license.at = copy(loader->plan.license);
    loader->maps = take(loader->plan.map_count * sizeof *loader->maps);
    if (!loader->is_dry)
        ask_kernel(loader);
    if (loader->plan.type_bytes.len && !load_types(loader))
        return false;
    while (plan_next_map(&maps, &map))
        add_map(loader, &map);
    if (loader->watched_map && !loader->is_dry)
        loader->first = read_values(loader, loader->watched_map);
    while (plan_next_program(&programs, &program))
        add_program(loader, &program);
    return loader->is_whole;
}

#ifdef WITH_MORVEZIN
static struct morvezin_bytes bytes_in(const char *path)
{
    struct bytes file = path ? read_file(path) : (struct bytes){NULL, 0};
    return morvezin_bytes(file.at, file.len);
}

/* Makes the plan of the object. */
static struct bytes make_plan(struct loader *loader)
{
    struct morvezin_types tables[MOST_FILES];
    struct morvezin_inputs inputs = morvezin_inputs();
    struct morvezin_answer answer = MORVEZIN_NO_ANSWER;
    bool is_of_this_kernel = loader->type_count == 0 && access(KERNEL_TYPES, R_OK) == 0;
    if (is_of_this_kernel)
        loader->types[loader->type_count++] = KERNEL_TYPES;
    for (int i = 0; i < loader->type_count; i++) {
        tables[i].table = bytes_in(loader->types[i]);
        tables[i].is_big_endian = tables[i].table.len > 1 && tables[i].table.data[0] == 0xeb;
    }
    inputs.object = morvezin_bytes(loader->elf.at, loader->elf.len);
    inputs.types = tables;
    inputs.types_len = (size_t)loader->type_count;
    inputs.symbols = bytes_in(loader->symbols ? loader->symbols : is_of_this_kernel ? KERNEL_SYMBOLS : NULL);
    inputs.settings = bytes_in(loader->settings);
    inputs.number_maps = true;
    morvezin_prepare(&inputs, &answer);
    if (answer.status == MORVEZIN_OUT_OF_MEMORY)
        fail("out of memory");
    if (answer.status != MORVEZIN_OK)
        fail("%s: %.*s", loader->object, (int)answer.text.len, (const char *)answer.text.data);
    return (struct bytes){(char *)answer.text.data, answer.text.len};
}
#endif

static struct bytes plan_text(struct loader *loader)
{
    if (loader->plan_file)
        return read_file(loader->plan_file);
#ifdef WITH_MORVEZIN
    if (loader->object)
        return make_plan(loader);
#endif
    fail("no plan is named (--help shows the usage)");
    return (struct bytes){NULL, 0};
}

static void read_plan(struct loader *loader)
{
    const char *path = loader->plan_file ? loader->plan_file : loader->object;
    struct bytes text = plan_text(loader);
    size_t line = plan_read(&loader->plan, text.at, text.len);
    if (line)
        fail("%s is no plan: line %zu can't be right", path, line);
    if (loader->plan.type_bytes.len > 1 && plan_byte(loader->plan.type_bytes, 0) == 0xeb)
        fail("%s is the plan of a big-endian object, which can't be loaded", path);
}

/* Has the object's faults told before anything is loaded. */
static void check_object(const struct loader *loader)
{
    struct plan_cursor programs = loader->plan.programs;
    struct plan_program program;
    while (loader->object && plan_next_program(&programs, &program)) {
        char *name = copy(program.name);
        section_in_object(loader, name);
        free(name);
    }
}

/* Whether the plan has a program, or a map, whose name is a text of some length. */
static bool has_program(struct plan_cursor programs, const char *text, size_t len)
{
    struct plan_program program;
    bool is_there = false;
    while (!is_there && plan_next_program(&programs, &program))
        is_there = is_name(program.name, text, len);
    return is_there;
}

static bool has_map(struct plan_cursor maps, const char *text)
{
    struct plan_map map;
    bool is_there = false;
    while (!is_there && plan_next_map(&maps, &map))
        is_there = is_name(map.name, text, strlen(text));
    return is_there;
}

static void check_words(const struct loader *loader)
{
    for (int i = 0; i < loader->section_count; i++) {
        size_t len = (size_t)(strchr(loader->sections[i], '=') - loader->sections[i]);
        if (!has_program(loader->plan.programs, loader->sections[i], len))
            fail("the plan has no program %.*s", (int)len, loader->sections[i]);
    }
    if (loader->watched && !has_map(loader->plan.maps, loader->watched))
        fail("the plan has no map %s", loader->watched);
}

/* The option's value, which is the next word. */
static const char *value_of(char **words, int *at)
{
    if (!words[*at + 1])
        fail("argument %s: a value is missing", words[*at]);
    return words[++*at];
}

/* Takes an option, if the word is one. */
static bool take_option(struct loader *loader, char **words, int *at)
{
    const struct {
        const char *name, **value;
    } options[] = {
        {"--object", &loader->object}, {"--watch", &loader->watched},
        {"--interface", &loader->interface}, {"--cgroup", &loader->cgroup},
#ifdef WITH_MORVEZIN
        {"--symbols", &loader->symbols}, {"--settings", &loader->settings},
#endif
    };
    const char *word = words[*at];
    for (size_t i = 0; i < sizeof options / sizeof *options; i++)
        if (strcmp(word, options[i].name) == 0)
            return *options[i].value = value_of(words, at), true;
    if (strcmp(word, "--dry-run") == 0)
        return loader->is_dry = true;
    if (strcmp(word, "-v") == 0)
        return loader->is_verbose = true;
    if (strcmp(word, "--seconds") == 0)
        return loader->seconds = (unsigned)strtoul(value_of(words, at), NULL, 10), true;
#ifdef WITH_MORVEZIN
    if (strcmp(word, "--types") == 0 && loader->type_count == MOST_FILES - 1)
        fail("there are too many files of types");
    if (strcmp(word, "--types") == 0)
        return loader->types[loader->type_count++] = value_of(words, at), true;
#endif
    return false;
}

static void take_words(struct loader *loader, int count, char **words)
{
    loader->sections = take((size_t)count * sizeof *loader->sections);
    loader->seconds = 10;
    for (int at = 1; at < count; at++) {
        if (strcmp(words[at], "--help") == 0 || strcmp(words[at], "-h") == 0) {
            puts("usage: loader [--dry-run] [-v] [--object OBJECT] [--watch MAP] [--seconds N] [--interface NAME]\n"
                 "              [--cgroup FOLDER] PLAN [PROGRAM=SECTION]..\n"
                 "       with the library, in the place of PLAN: [--types FILE].. [--symbols FILE] [--settings FILE]");
            exit(0);
        }
        if (take_option(loader, words, &at))
            continue;
        if (words[at][0] == '-')
            fail("there is no option %s (--help shows the usage)", words[at]);
        if (strchr(words[at], '=') && (loader->plan_file || loader->object))
            loader->sections[loader->section_count++] = words[at];
        else if (loader->plan_file)
            fail("%s isn't PROGRAM=SECTION", words[at]);
        else
            loader->plan_file = words[at];
    }
}

int main(int argc, char **argv)
{
    static struct loader loader;
    take_words(&loader, argc, argv);
    if (loader.object) {
        loader.elf = read_file(loader.object);
        elf_header(&loader);
    }
    read_plan(&loader);
    check_words(&loader);
    check_object(&loader);
    bool is_whole = load(&loader);
    if (loader.watched && !loader.is_dry)
        is_whole &= loader.watched_map && loader.is_attached && watch(&loader);
    return is_whole ? 0 : 1;
}
