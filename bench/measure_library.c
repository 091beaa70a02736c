/* Measures calls of the library: measure_library RUNS OBJECT [TYPES [SETTINGS]]; "-" names no file.
   Prints the least and the middle time of a call of each form in microseconds, files aside: into an
   answer, and into a buffer that is long enough. */
#define _POSIX_C_SOURCE 199309L
#include <string.h>

#include "morvezin.h"
#include "times.h"

static struct morvezin_bytes file_of(const char *name)
{
    FILE *file = strcmp(name, "-") ? fopen(name, "rb") : NULL;
    size_t room = 1 << 26, len = 0;
    char *bytes = malloc(room);
    if (file && bytes) {
        len = fread(bytes, 1, room, file);
        fclose(file);
    }
    return morvezin_bytes(bytes, len);
}

int main(int argc, char **argv)
{
    if (argc < 3)
        return 2;
    int runs = atoi(argv[1]);
    double *times = calloc((size_t)runs, sizeof *times);
    struct morvezin_inputs inputs = morvezin_inputs();
    struct morvezin_types types;
    struct morvezin_answer answer = MORVEZIN_NO_ANSWER;
    inputs.object = file_of(argv[2]);
    types.table = file_of(argc > 3 ? argv[3] : "-");
    types.is_big_endian = false;
    inputs.types = &types;
    inputs.types_len = types.table.len > 0;
    inputs.settings = file_of(argc > 4 ? argv[4] : "-");
    inputs.number_maps = true;
    morvezin_prepare(&inputs, &answer);
    size_t room = answer.text.len;
    uint8_t *out = malloc(room + 1);
    printf("status %d, %zu bytes\n", answer.status, room);
    morvezin_free(&answer);
    for (int form = 0; form < 2; form++) {
        for (int run = 0; run < runs; run++) {
            double began = now();
            if (form == 0)
                morvezin_prepare(&inputs, &answer);
            else
                morvezin_prepare_into(&inputs, out, room);
            times[run] = now() - began;
            if (form == 0)
                morvezin_free(&answer);
        }
        print_times(form ? "into a buffer" : "into an answer", times, (size_t)runs);
    }
    return 0;
}
