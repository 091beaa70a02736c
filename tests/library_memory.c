/* Has the nth allocation of a call fail, alone or with all after it, for n = 1, 2, .. until a call
   needs fewer: library_memory OBJECT [TYPES [SETTINGS]]; "-" names no file. Each such call must give
   back what it took, and say that memory ran out with no text and the buffer as before, or answer
   with the status that it has with memory: what makes messages can do without some allocations.
   The last line is 'N calls agree, M differ'. It is linked with --wrap of malloc, realloc and free. */
#include <stdbool.h>
#include <stdio.h>
#include <stdlib.h>
#include <string.h>

#include "morvezin.h"

void *__real_malloc(size_t len);
void *__real_realloc(void *at, size_t len);
void __real_free(void *at);
void *__wrap_malloc(size_t len);
void *__wrap_realloc(void *old, size_t len);
void __wrap_free(void *at);

static long left, live;
static bool failed, all_after;

static bool fails(void)
{
    bool now = left > 0 && --left == 0;
    failed |= now;
    return now || (failed && all_after);
}

void *__wrap_malloc(size_t len)
{
    void *at = fails() ? NULL : __real_malloc(len);
    live += at != NULL;
    return at;
}

void *__wrap_realloc(void *old, size_t len)
{
    void *at = fails() ? NULL : __real_realloc(old, len);
    live += at != NULL && old == NULL;
    return at;
}

void __wrap_free(void *at)
{
    live -= at != NULL;
    __real_free(at);
}

enum { ROOM = 1 << 20, OUT_ROOM = 1 << 17 };

static uint8_t given[3][ROOM], out[OUT_ROOM];
static size_t lens[3];

typedef void call_of(const struct morvezin_inputs *inputs, struct morvezin_answer *answer);

static void prepare_into(const struct morvezin_inputs *inputs, struct morvezin_answer *answer)
{
    struct morvezin_put put = morvezin_prepare_into(inputs, out, OUT_ROOM);
    answer->status = put.status;
    answer->kind = put.kind;
    /* The text stays in the buffer. */
    answer->text.len = 0;
}

static bool is_untouched(void)
{
    for (size_t i = 0; i < OUT_ROOM; i++)
        if (out[i] != 0xaa)
            return false;
    return true;
}

/* What became of a call: whether it gave no text, whether an allocation failed, and how many blocks are left. */
struct outcome {
    int status;
    bool is_silent, is_refused;
    long blocks;
};

/* A call with the nth allocation failing, or none for 0. */
static struct outcome outcome_of(call_of *call, long n)
{
    struct morvezin_types types = { morvezin_bytes(given[1], lens[1]), false };
    struct morvezin_inputs inputs = morvezin_inputs();
    struct morvezin_answer answer = MORVEZIN_NO_ANSWER;
    struct outcome outcome;
    inputs.object = morvezin_bytes(given[0], lens[0]);
    inputs.types = &types;
    inputs.types_len = lens[1] > 0;
    inputs.settings = morvezin_bytes(given[2], lens[2]);
    inputs.number_maps = true;
    memset(out, 0xaa, sizeof out);
    live = 0;
    failed = false;
    left = n;
    call(&inputs, &answer);
    left = 0;
    outcome.is_refused = failed;
    failed = false;
    outcome.is_silent = answer.text.len == 0 && is_untouched();
    outcome.status = answer.status;
    morvezin_free(&answer);
    outcome.blocks = live;
    return outcome;
}

static long agree, differ;

static void note(bool is_as_wanted, const char *name, long n, struct outcome outcome)
{
    agree += is_as_wanted;
    differ += !is_as_wanted;
    if (!is_as_wanted)
        printf("%s, allocation %ld: status %d, %ld blocks left\n", name, n, outcome.status, outcome.blocks);
}

/* A call with each allocation failing in turn. */
static void try_each(const char *name, call_of *call, bool with_all_after)
{
    long said = 0, borne = 0;
    struct outcome whole = outcome_of(call, 0), outcome;
    all_after = with_all_after;
    note(whole.status != MORVEZIN_OUT_OF_MEMORY && !whole.is_silent && whole.blocks == 0, name, 0, whole);
    for (long n = 1; outcome = outcome_of(call, n), outcome.is_refused; n++) {
        bool ran_out = outcome.status == MORVEZIN_OUT_OF_MEMORY && outcome.is_silent;
        said += ran_out;
        borne += !ran_out;
        note((ran_out || outcome.status == whole.status) && outcome.blocks == 0, name, n, outcome);
    }
    printf("%s%s: status %d; %ld calls say that memory ran out, %ld answer\n", name,
           with_all_after ? ", and all after" : "", whole.status, said, borne);
}

int main(int argc, char **argv)
{
    static const struct { const char *name; call_of *call; } calls[] = {
        { "prepare", morvezin_prepare },
        { "prepare into a buffer", prepare_into },
        { "check", morvezin_check },
        { "code", morvezin_code },
    };
    for (int i = 1; i < argc && i <= 3; i++) {
        FILE *file = strcmp(argv[i], "-") ? fopen(argv[i], "rb") : NULL;
        if (file) {
            lens[i - 1] = fread(given[i - 1], 1, ROOM, file);
            fclose(file);
        }
    }
    for (size_t i = 0; i < sizeof calls / sizeof calls[0]; i++) {
        try_each(calls[i].name, calls[i].call, false);
        try_each(calls[i].name, calls[i].call, true);
    }
    printf("%ld calls agree, %ld differ\n", agree, differ);
    return differ != 0;
}
