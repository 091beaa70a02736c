/* Reads the text of a load plan (docs/FORMATS.md, "The text of a plan") in C99 or C++, without memory of its own.

   plan_read takes exactly the texts that plans have. What it gives points into the text:

       struct plan plan;
       struct plan_map map;
       struct plan_program program;
       size_t bad_line = plan_read(&plan, text, len);
       if (bad_line)
           return refuse(bad_line);
       while (plan_next_map(&plan.maps, &map))
           make(&map);
       while (plan_next_program(&plan.programs, &program))
           load(&program); */
#ifndef PLAN_H
#define PLAN_H

#include <stdbool.h>
#include <stddef.h>
#include <stdint.h>
#include <string.h>

/* A part of a text. A line of which all words are taken begins at NULL. */
struct plan_text {
    const char *at, *end;
};

/* Bytes as two lower-case hexadecimal digits each; `len` counts bytes. */
struct plan_bytes {
    const char *digits;
    size_t len;
};

/* Where a list of a plan goes on. */
struct plan_cursor {
    struct plan_text rest;
    size_t lines; /* before `rest` */
    uint32_t text_version;
    struct plan_bytes last; /* the name of the last map or program, NULL before the first one */
};

/* The words that define a map, sizes in bytes. */
struct plan_words {
    uint32_t map_type, key_size, value_size, max_entries, map_flags;
    uint64_t map_extra;
    uint32_t pinning; /* 1: by its name, 0: not at all */
    uint32_t id, btf_key_type_id, btf_value_type_id;
};

struct plan_map {
    struct plan_bytes name; /* UTF-8 */
    uint32_t number;        /* what stands for the map in slots, below 2^31 */
    bool is_btf;            /* whether types define it */
    struct plan_words words;
    struct plan_bytes contents; /* the bytes of a section's variables */
    bool has_inner;
    struct plan_words inner; /* the words of the maps that it holds */
};

/* The bytes of `struct bpf_func_info` and `struct bpf_line_info`, in the machine's order. */
struct plan_func {
    uint32_t insn_off, type_id;
};

struct plan_line {
    uint32_t insn_off, file_name_off, line_off, line_col;
};

struct plan_program {
    struct plan_bytes name;      /* UTF-8 */
    uint32_t kind, first, second; /* KIND, A and B of the text */
    struct plan_bytes slots;
    bool has_tables;         /* whether the kernel tables that it depends on are known */
    struct plan_text tables; /* their places, for plan_next_table */
    struct plan_cursor func_records, line_records;
    size_t func_count, line_count;
};

/* A question about the kernel's features of BTF, and the answer. */
struct plan_feature {
    struct plan_text name;
    bool answer;
};

enum { PLAN_FEATURES = 8 };

struct plan {
    uint32_t text_version; /* 1 or 2 */
    struct plan_bytes license; /* without its NUL */
    bool has_version;          /* else the plan is for any kernel version */
    uint32_t version;
    size_t feature_count;
    struct plan_feature features[PLAN_FEATURES];
    struct plan_bytes type_bytes; /* none where there are no types */
    size_t map_count, program_count;
    struct plan_cursor maps, programs;
};

/* What the kernel calls a kind of program. */
struct plan_attributes {
    uint32_t program_type, expected_attach_type, flags;
};

/* A text's part up to a byte; the rest goes on after it. */
static inline bool plan_cut(struct plan_text *rest, char byte, struct plan_text *part)
{
    const char *found = rest->at == rest->end ? NULL : (const char *)memchr(rest->at, byte, (size_t)(rest->end - rest->at));
    if (!found)
        return false;
    part->at = rest->at;
    part->end = found;
    rest->at = found + 1;
    return true;
}

static inline bool plan_word(struct plan_text *line, struct plan_text *word)
{
    if (!line->at)
        return false;
    if (!plan_cut(line, ' ', word)) {
        *word = *line;
        line->at = NULL;
    }
    return true;
}

static inline bool plan_is(struct plan_text word, const char *text)
{
    size_t len = (size_t)(word.end - word.at);
    return len == strlen(text) && memcmp(word.at, text, len) == 0;
}

/* A number in decimal digits without leading zeros. */
static inline bool plan_number(struct plan_text *line, uint64_t most, uint64_t *number)
{
    struct plan_text word;
    if (!plan_word(line, &word) || word.at == word.end || (*word.at == '0' && word.end - word.at > 1))
        return false;
    *number = 0;
    for (; word.at < word.end; word.at++) {
        if (*word.at < '0' || *word.at > '9')
            return false;
        uint64_t digit = (uint64_t)(*word.at - '0');
        if (digit > most || *number > (most - digit) / 10)
            return false;
        *number = *number * 10 + digit;
    }
    return true;
}

static inline bool plan_number_32(struct plan_text *line, uint32_t *number)
{
    uint64_t wide;
    if (!plan_number(line, UINT32_MAX, &wide))
        return false;
    *number = (uint32_t)wide;
    return true;
}

static inline int plan_digit(char digit)
{
    if (digit >= '0' && digit <= '9')
        return digit - '0';
    return digit >= 'a' && digit <= 'f' ? digit - 'a' + 10 : -1;
}

static inline unsigned char plan_byte(struct plan_bytes bytes, size_t index)
{
    return (unsigned char)(plan_digit(bytes.digits[2 * index]) << 4 | plan_digit(bytes.digits[2 * index + 1]));
}

/* Writes bytes where there is room for `len` of them. */
static inline void plan_copy(struct plan_bytes bytes, void *to)
{
    for (size_t i = 0; i < bytes.len; i++)
        ((unsigned char *)to)[i] = plan_byte(bytes, i);
}

static inline bool plan_hex(struct plan_text *line, struct plan_bytes *bytes)
{
    struct plan_text word;
    if (!plan_word(line, &word))
        return false;
    bytes->digits = word.at;
    bytes->len = plan_is(word, "-") ? 0 : (size_t)(word.end - word.at) / 2;
    if (bytes->len == 0)
        return plan_is(word, "-");
    for (; word.at + 1 < word.end; word.at += 2)
        if (plan_digit(word.at[0]) < 0 || plan_digit(word.at[1]) < 0)
            return false;
    return word.at == word.end;
}

/* Whether bytes are UTF-8 (Unicode, table 3-7: well-formed byte sequences). */
static inline bool plan_is_utf8(struct plan_bytes bytes)
{
    for (size_t i = 0; i < bytes.len;) {
        unsigned char lead = plan_byte(bytes, i++), least = 0x80, most = 0xbf;
        int more = lead < 0x80 ? 0 : lead < 0xe0 ? 1 : lead < 0xf0 ? 2 : 3;
        if ((lead >= 0x80 && lead < 0xc2) || lead > 0xf4)
            return false;
        if (lead == 0xe0)
            least = 0xa0; /* no longer form than needed */
        if (lead == 0xed)
            most = 0x9f; /* no surrogates */
        if (lead == 0xf0)
            least = 0x90;
        if (lead == 0xf4)
            most = 0x8f; /* nothing above U+10FFFF */
        for (; more > 0; more--, least = 0x80, most = 0xbf) {
            if (i == bytes.len || plan_byte(bytes, i) < least || plan_byte(bytes, i) > most)
                return false;
            i++;
        }
    }
    return true;
}

/* The line that comes next, if it begins with a word: what stands after it. */
static inline bool plan_begin(const struct plan_cursor *cursor, const char *keyword, struct plan_text *line)
{
    struct plan_text rest = cursor->rest, word;
    return plan_cut(&rest, '\n', line) && plan_word(line, &word) && plan_is(word, keyword);
}

/* Goes on after a line whose words are all taken. */
static inline bool plan_end(struct plan_cursor *cursor, const struct plan_text *line)
{
    struct plan_text taken;
    if (line->at)
        return false;
    cursor->lines++;
    return plan_cut(&cursor->rest, '\n', &taken);
}

/* A name that is after the one before by its bytes, which the digits order alike. */
static inline bool plan_name(const struct plan_cursor *cursor, struct plan_text *line, struct plan_bytes *name)
{
    if (!plan_hex(line, name) || !plan_is_utf8(*name))
        return false;
    const struct plan_bytes *last = &cursor->last;
    if (!last->digits)
        return true;
    int order = memcmp(last->digits, name->digits, 2 * (last->len < name->len ? last->len : name->len));
    return order < 0 || (order == 0 && last->len < name->len);
}

static inline bool plan_map_words(struct plan_text *line, bool is_btf, struct plan_words *words)
{
    uint64_t pinning;
    if (!plan_number_32(line, &words->map_type) || !plan_number_32(line, &words->key_size)
        || !plan_number_32(line, &words->value_size) || !plan_number_32(line, &words->max_entries)
        || !plan_number_32(line, &words->map_flags) || !plan_number(line, UINT64_MAX, &words->map_extra)
        || !plan_number(line, 1, &pinning) || !plan_number_32(line, &words->id)
        || !plan_number_32(line, &words->btf_key_type_id) || !plan_number_32(line, &words->btf_value_type_id))
        return false;
    words->pinning = (uint32_t)pinning;
    return is_btf ? words->id == 0 : !words->map_extra && !words->btf_key_type_id && !words->btf_value_type_id;
}

static inline bool plan_map_lines(struct plan_cursor *cursor, struct plan_map *map)
{
    struct plan_text line, form;
    uint64_t number;
    if (!plan_begin(cursor, "map", &line) || !plan_name(cursor, &line, &map->name)
        || !plan_number(&line, INT32_MAX, &number) || !plan_word(&line, &form))
        return false;
    map->number = (uint32_t)number;
    map->is_btf = plan_is(form, "btf");
    if (!(map->is_btf || plan_is(form, "legacy")) || !plan_map_words(&line, map->is_btf, &map->words)
        || !plan_hex(&line, &map->contents) || !plan_end(cursor, &line))
        return false;
    cursor->last = map->name;
    map->has_inner = plan_begin(cursor, "inner", &line);
    memset(&map->inner, 0, sizeof map->inner);
    return !map->has_inner || (plan_map_words(&line, map->is_btf, &map->inner) && plan_end(cursor, &line));
}

/* What the kernel calls a kind (docs/FORMATS.md, "What a kind is for the kernel"); false where there is no such kind. */
static inline bool plan_attributes_of(uint32_t kind, uint32_t first, uint32_t second, struct plan_attributes *attributes)
{
    /* The program type, the flag that the first field sets, and the attach types by the next field. */
    static const struct {
        uint8_t type, flag, count, attach_types[12];
    } kinds[] = {
        {2, 0, 1, {0}}, {2, 0, 1, {0}}, {2, 16, 2, {0, 48}}, {2, 16, 2, {0, 48}}, {5, 0, 1, {0}}, {1, 0, 1, {0}},
        {6, 32, 3, {37, 35, 33}}, {16, 0, 1, {7}}, {14, 0, 2, {4, 5}}, {13, 0, 1, {3}}, {3, 0, 1, {0}}, {8, 0, 3, {0, 0, 1}},
        {18, 0, 12, {8, 9, 10, 11, 29, 30, 31, 32, 14, 15, 19, 20}}, {23, 0, 1, {18}}, {25, 0, 2, {21, 22}}, {20, 0, 1, {16}},
        {7, 0, 1, {0}}, {17, 0, 1, {0}}, {29, 16, 1, {27}}, {29, 0, 1, {43}}, {26, 0, 1, {23}}, {26, 16, 1, {24}},
        {26, 16, 1, {25}}, {22, 0, 1, {17}}, {28, 0, 1, {0}}, {30, 0, 1, {36}}, {21, 0, 2, {39, 40}}, {9, 0, 4, {12, 13, 2, 34}},
        {15, 0, 1, {6}}, {26, 16, 1, {28}},
    };
    if (kind >= sizeof kinds / sizeof *kinds)
        return false;
    uint32_t flag = kinds[kind].flag, place = flag ? second : first, other = flag ? first : second;
    if (place >= kinds[kind].count || other > (flag ? 1u : 0u))
        return false;
    attributes->program_type = kinds[kind].type;
    attributes->expected_attach_type = kinds[kind].attach_types[place];
    attributes->flags = flag * other;
    return true;
}

static inline struct plan_attributes plan_attributes(const struct plan_program *program)
{
    struct plan_attributes attributes = {0, 0, 0};
    plan_attributes_of(program->kind, program->first, program->second, &attributes);
    return attributes;
}

/* The next place of a program's kernel tables. */
static inline bool plan_next_table(struct plan_text *tables, uint32_t *place)
{
    return plan_number_32(tables, place);
}

/* The words of a `tables` line: a dash, a question mark, or rising numbers. */
static inline bool plan_tables(struct plan_text *line, struct plan_program *program)
{
    struct plan_text word = *line;
    uint32_t place, last;
    bool is_none = line->at && plan_is(*line, "-"), is_unknown = line->at && plan_is(*line, "?");
    program->has_tables = !is_unknown;
    if (is_none || is_unknown)
        return plan_word(line, &word);
    program->tables = *line;
    if (!plan_next_table(line, &last))
        return false;
    for (; line->at; last = place)
        if (!plan_next_table(line, &place) || place <= last)
            return false;
    return true;
}

/* The next record of a list; false after the last one. */
static inline bool plan_next_func(struct plan_cursor *records, struct plan_func *func)
{
    struct plan_text line;
    return plan_begin(records, "func", &line) && plan_number_32(&line, &func->insn_off)
        && plan_number_32(&line, &func->type_id) && plan_end(records, &line);
}

static inline bool plan_next_line(struct plan_cursor *records, struct plan_line *source)
{
    struct plan_text line;
    return plan_begin(records, "line", &line) && plan_number_32(&line, &source->insn_off)
        && plan_number_32(&line, &source->file_name_off) && plan_number_32(&line, &source->line_off)
        && plan_number_32(&line, &source->line_col) && plan_end(records, &line);
}

static inline bool plan_program_lines(struct plan_cursor *cursor, struct plan_program *program)
{
    struct plan_text line;
    struct plan_attributes attributes;
    struct plan_func func;
    struct plan_line source;
    if (!plan_begin(cursor, "program", &line) || !plan_name(cursor, &line, &program->name)
        || !plan_number_32(&line, &program->kind) || !plan_number_32(&line, &program->first)
        || !plan_number_32(&line, &program->second)
        || !plan_attributes_of(program->kind, program->first, program->second, &attributes) || !plan_end(cursor, &line))
        return false;
    cursor->last = program->name;
    if (!plan_begin(cursor, "slots", &line) || !plan_hex(&line, &program->slots) || program->slots.len % 8
        || !plan_end(cursor, &line))
        return false;
    program->has_tables = false;
    program->tables.at = program->tables.end = NULL;
    if (cursor->text_version == 2
        && !(plan_begin(cursor, "tables", &line) && plan_tables(&line, program) && plan_end(cursor, &line)))
        return false;
    program->func_records = *cursor;
    for (program->func_count = 0; plan_next_func(cursor, &func); program->func_count++)
        continue;
    program->line_records = *cursor;
    for (program->line_count = 0; plan_next_line(cursor, &source); program->line_count++)
        continue;
    return true;
}

/* The next map, and the next program; false after the last one. */
static inline bool plan_next_map(struct plan_cursor *maps, struct plan_map *map)
{
    struct plan_text line;
    return plan_begin(maps, "map", &line) && plan_map_lines(maps, map);
}

static inline bool plan_next_program(struct plan_cursor *programs, struct plan_program *program)
{
    struct plan_text line;
    return plan_begin(programs, "program", &line) && plan_program_lines(programs, program);
}

static inline bool plan_has_no_nul(struct plan_bytes bytes)
{
    for (size_t i = 0; i < bytes.len; i++)
        if (plan_byte(bytes, i) == 0)
            return false;
    return true;
}

static inline bool plan_first_lines(struct plan_cursor *cursor, struct plan *plan)
{
    struct plan_text line, word;
    uint64_t version = 0;
    if (!plan_begin(cursor, "bpf-plan", &line) || !plan_number(&line, 2, &version) || version == 0 || !plan_end(cursor, &line))
        return false;
    plan->text_version = cursor->text_version = (uint32_t)version;
    if (!plan_begin(cursor, "license", &line) || !plan_hex(&line, &plan->license) || !plan_has_no_nul(plan->license)
        || !plan_end(cursor, &line))
        return false;
    if (!plan_begin(cursor, "version", &line))
        return false;
    plan->has_version = !(line.at && plan_is(line, "any"));
    if (plan->has_version ? !plan_number_32(&line, &plan->version) : !plan_word(&line, &word))
        return false;
    /* This number stands for any version, and the text has a word for that. */
    return !(plan->has_version && plan->version == 0xfffffffe) && plan_end(cursor, &line);
}

static inline bool plan_feature_line(struct plan_cursor *cursor, struct plan *plan)
{
    static const char *const names[PLAN_FEATURES]
        = {"Func", "FuncGlobal", "DataSec", "DataSecZero", "Float", "DeclTag", "TypeTag", "Enum64"};
    struct plan_text line, answer;
    struct plan_feature feature;
    size_t i = 0;
    if (!plan_begin(cursor, "feature", &line) || !plan_word(&line, &feature.name) || !plan_word(&line, &answer))
        return false;
    feature.answer = plan_is(answer, "yes");
    if (!feature.answer && !plan_is(answer, "no"))
        return false;
    while (i < PLAN_FEATURES && !plan_is(feature.name, names[i]))
        i++;
    if (i == PLAN_FEATURES)
        return false;
    for (size_t asked = 0; asked < plan->feature_count; asked++)
        if (plan_is(plan->features[asked].name, names[i]))
            return false;
    plan->features[plan->feature_count++] = feature;
    return plan_end(cursor, &line);
}

static inline bool plan_types_line(struct plan_cursor *cursor, struct plan *plan)
{
    struct plan_text line, word;
    if (!plan_begin(cursor, "types", &line))
        return false;
    if (line.at && plan_is(line, "none"))
        return plan_word(&line, &word) && plan_end(cursor, &line);
    return plan_hex(&line, &plan->type_bytes) && plan->type_bytes.len > 0 && plan_end(cursor, &line);
}

/* Reads the lines of a plan, up to the first with which no plan's text goes on. */
static inline bool plan_lines(struct plan_cursor *cursor, struct plan *plan)
{
    struct plan_text line;
    struct plan_map map;
    struct plan_program program;
    if (!plan_first_lines(cursor, plan))
        return false;
    while (plan_begin(cursor, "feature", &line))
        if (!plan_feature_line(cursor, plan))
            return false;
    if (!plan_types_line(cursor, plan))
        return false;
    plan->maps = *cursor;
    for (; plan_begin(cursor, "map", &line); plan->map_count++)
        if (!plan_map_lines(cursor, &map))
            return false;
    cursor->last.digits = NULL;
    plan->programs = *cursor;
    for (; plan_begin(cursor, "program", &line); plan->program_count++)
        if (!plan_program_lines(cursor, &program))
            return false;
    return plan_begin(cursor, "end", &line) && plan_end(cursor, &line) && cursor->rest.at == cursor->rest.end;
}

/* Reads a plan's text. Returns 0, or the number, from 1, of the first line with which no plan's text goes on; where the text only
   ends too early, that of the line after the last whole one. */
static inline size_t plan_read(struct plan *plan, const void *text, size_t len)
{
    struct plan_cursor cursor;
    memset(plan, 0, sizeof *plan);
    memset(&cursor, 0, sizeof cursor);
    cursor.rest.at = (const char *)text;
    cursor.rest.end = len ? cursor.rest.at + len : cursor.rest.at;
    return plan_lines(&cursor, plan) ? 0 : cursor.lines + 1;
}

#endif
