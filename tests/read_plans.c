/* Reads texts by examples/c/plan.h. A text that is read must be the same once it is written again of what was read.

       read_plans changed PLAN    for each byte, the lines at which the text is refused with each other value of it, as
                                  `exercises changed-lines` prints them
       read_plans texts FILE      the same line of each text in FILE, 0 for a plan's; a text stands after its length in bytes,
                                  which is 32 bits long and little-endian */
#define _POSIX_C_SOURCE 200809L
#include <inttypes.h>
#include <stdio.h>
#include <stdlib.h>

#include "plan.h"

static void write_hex(FILE *out, struct plan_bytes bytes)
{
    unsigned char *copy = malloc(bytes.len);
    plan_copy(bytes, copy);
    for (size_t i = 0; i < bytes.len; i++)
        fprintf(out, "%02x", copy[i]);
    if (bytes.len == 0)
        fputc('-', out);
    free(copy);
}

static void write_words(FILE *out, const struct plan_words *words)
{
    fprintf(out, " %" PRIu32 " %" PRIu32 " %" PRIu32 " %" PRIu32 " %" PRIu32 " %" PRIu64, words->map_type, words->key_size,
            words->value_size, words->max_entries, words->map_flags, words->map_extra);
    fprintf(out, " %" PRIu32 " %" PRIu32 " %" PRIu32 " %" PRIu32, words->pinning, words->id, words->btf_key_type_id,
            words->btf_value_type_id);
}

static void write_map(FILE *out, const struct plan_map *map)
{
    fputs("map ", out);
    write_hex(out, map->name);
    fprintf(out, " %" PRIu32 " %s", map->number, map->is_btf ? "btf" : "legacy");
    write_words(out, &map->words);
    fputc(' ', out);
    write_hex(out, map->contents);
    fputc('\n', out);
    if (map->has_inner) {
        fputs("inner", out);
        write_words(out, &map->inner);
        fputc('\n', out);
    }
}

static void write_tables(FILE *out, const struct plan_program *program)
{
    struct plan_text tables = program->tables;
    uint32_t place;
    fputs(!program->has_tables ? "tables ?" : tables.at ? "tables" : "tables -", out);
    while (plan_next_table(&tables, &place))
        fprintf(out, " %" PRIu32, place);
    fputc('\n', out);
}

static void write_program(FILE *out, const struct plan_program *program, bool has_tables)
{
    struct plan_cursor funcs = program->func_records, lines = program->line_records;
    struct plan_func func;
    struct plan_line line;
    fputs("program ", out);
    write_hex(out, program->name);
    fprintf(out, " %" PRIu32 " %" PRIu32 " %" PRIu32 "\nslots ", program->kind, program->first, program->second);
    write_hex(out, program->slots);
    fputc('\n', out);
    if (has_tables)
        write_tables(out, program);
    for (size_t i = 0; i < program->func_count && plan_next_func(&funcs, &func); i++)
        fprintf(out, "func %" PRIu32 " %" PRIu32 "\n", func.insn_off, func.type_id);
    for (size_t i = 0; i < program->line_count && plan_next_line(&lines, &line); i++)
        fprintf(out, "line %" PRIu32 " %" PRIu32 " %" PRIu32 " %" PRIu32 "\n", line.insn_off, line.file_name_off, line.line_off,
                line.line_col);
}

static void write_plan(FILE *out, struct plan plan)
{
    struct plan_map map;
    struct plan_program program;
    fprintf(out, "bpf-plan %" PRIu32 "\nlicense ", plan.text_version);
    write_hex(out, plan.license);
    if (plan.has_version)
        fprintf(out, "\nversion %" PRIu32 "\n", plan.version);
    else
        fputs("\nversion any\n", out);
    for (size_t i = 0; i < plan.feature_count; i++) {
        struct plan_text name = plan.features[i].name;
        fprintf(out, "feature %.*s %s\n", (int)(name.end - name.at), name.at, plan.features[i].answer ? "yes" : "no");
    }
    fputs("types ", out);
    if (plan.type_bytes.len)
        write_hex(out, plan.type_bytes);
    else
        fputs("none", out);
    fputc('\n', out);
    for (size_t i = 0; i < plan.map_count && plan_next_map(&plan.maps, &map); i++)
        write_map(out, &map);
    for (size_t i = 0; i < plan.program_count && plan_next_program(&plan.programs, &program); i++)
        write_program(out, &program, plan.text_version == 2);
    fputs("end\n", out);
}

/* The line at which a text is refused. What is read of a text must be the text. */
static size_t refused_line(const char *text, size_t len)
{
    struct plan plan;
    char *written = NULL;
    size_t written_len, line = plan_read(&plan, text, len);
    if (line)
        return line;
    FILE *out = open_memstream(&written, &written_len);
    write_plan(out, plan);
    fclose(out);
    if (written_len != len || memcmp(written, text, len) != 0) {
        fprintf(stderr, "read_plans: another text was read:\n%s", written);
        exit(1);
    }
    free(written);
    return 0;
}

/* A file's bytes, at the end of what is allocated, so that a sanitizer sees what is read after them. */
static char *bytes_of(const char *path, size_t *len)
{
    FILE *file = fopen(path, "rb");
    if (!file || fseek(file, 0, SEEK_END) != 0) {
        perror(path);
        exit(2);
    }
    *len = (size_t)ftell(file);
    rewind(file);
    char *bytes = malloc(*len);
    if (fread(bytes, 1, *len, file) != *len)
        exit(2);
    fclose(file);
    return bytes;
}

static void print_changed(char *text, size_t len)
{
    for (size_t at = 0; at < len; at++) {
        unsigned char old = (unsigned char)text[at];
        size_t last = 0, count = 0;
        printf("%zu:", at);
        for (int value = 0; value < 256; value++) {
            if (value == old)
                continue;
            text[at] = (char)value;
            size_t line = refused_line(text, len);
            if (count && line != last) {
                printf(" %zu*%zu", last, count);
                count = 0;
            }
            last = line;
            count++;
        }
        printf(" %zu*%zu\n", last, count);
        text[at] = (char)old;
    }
}

static void print_texts(const char *texts, size_t len)
{
    for (size_t at = 0; at + 4 <= len;) {
        uint32_t size = 0;
        for (int i = 3; i >= 0; i--)
            size = size << 8 | (unsigned char)texts[at + (size_t)i];
        char *text = malloc(size);
        memcpy(text, texts + at + 4, size);
        printf("%zu\n", refused_line(text, size));
        free(text);
        at += 4 + size;
    }
}

int main(int argc, char **argv)
{
    size_t len;
    if (argc != 3)
        return 2;
    char *bytes = bytes_of(argv[2], &len);
    if (strcmp(argv[1], "changed") == 0)
        print_changed(bytes, len);
    else
        print_texts(bytes, len);
    free(bytes);
    return 0;
}
