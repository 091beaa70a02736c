/* Has threads make the plans, checks and listings of different objects at once, and compares their
   texts with those of one thread: library_threads COUNT OBJECT.., with a thread for each object,
   which makes each text so often. The last line is 'N texts agree, M differ'. */
#include <pthread.h>
#include <stdbool.h>
#include <stdio.h>
#include <stdlib.h>
#include <string.h>

#include "morvezin.h"

enum { ROOM = 1 << 20, THREADS = 16, CALLS = 3 };

typedef void call_of(const struct morvezin_inputs *inputs, struct morvezin_answer *answer);

static call_of *const calls[CALLS] = { morvezin_prepare, morvezin_check, morvezin_code };

/* What a thread has: its object, the texts of one thread, and how many agree with them. */
struct work {
    uint8_t object[ROOM];
    size_t len;
    struct morvezin_answer wanted[CALLS];
    long agree, differ;
    pthread_t thread;
};

static struct work works[THREADS];
static long count;

static struct morvezin_answer answer_of(const struct work *work, int number)
{
    struct morvezin_inputs inputs = morvezin_inputs();
    struct morvezin_answer answer = MORVEZIN_NO_ANSWER;
    inputs.object = morvezin_bytes(work->object, work->len);
    inputs.number_maps = true;
    calls[number](&inputs, &answer);
    return answer;
}

static bool are_alike(const struct morvezin_answer *one, const struct morvezin_answer *other)
{
    return one->status == other->status && one->kind == other->kind && one->text.len == other->text.len
        && memcmp(one->text.data, other->text.data, one->text.len) == 0;
}

static void *run(void *given)
{
    struct work *work = given;
    for (long n = 0; n < count; n++)
        for (int number = 0; number < CALLS; number++) {
            struct morvezin_answer answer = answer_of(work, number);
            bool is_as_wanted = are_alike(&answer, &work->wanted[number]);
            work->agree += is_as_wanted;
            work->differ += !is_as_wanted;
            morvezin_free(&answer);
        }
    return NULL;
}

int main(int argc, char **argv)
{
    long agree = 0, differ = 0;
    int threads = argc - 2 < THREADS ? argc - 2 : THREADS;
    if (argc < 3)
        return 2;
    count = atol(argv[1]);
    for (int i = 0; i < threads; i++) {
        FILE *file = fopen(argv[i + 2], "rb");
        if (!file)
            return 2;
        works[i].len = fread(works[i].object, 1, ROOM, file);
        fclose(file);
        for (int number = 0; number < CALLS; number++)
            works[i].wanted[number] = answer_of(&works[i], number);
    }
    for (int i = 0; i < threads; i++)
        if (pthread_create(&works[i].thread, NULL, run, &works[i]) != 0)
            return 2;
    for (int i = 0; i < threads; i++) {
        pthread_join(works[i].thread, NULL);
        agree += works[i].agree;
        differ += works[i].differ;
        for (int number = 0; number < CALLS; number++)
            morvezin_free(&works[i].wanted[number]);
    }
    printf("%ld texts agree, %ld differ\n", agree, differ);
    return differ != 0;
}
