/* Load plans of eBPF objects, for C99 and C++.

   A call takes bytes and gives a text. It opens no file, prints nothing, and keeps no state: calls on
   different threads share nothing but the memory that they are given, which no call changes, apart
   from what it writes its answer to. No call may be made from a signal handler, or from the child of
   a fork of a process with threads.

   Memory is taken by malloc and realloc, and given back by free. Each call gives back all that it
   took, apart from the text of an answer.

   No pointer that is passed may be null, also where its length is 0: morvezin_bytes() and
   morvezin_inputs() make pointers that aren't. What a call writes to overlaps nothing else that it
   is given. The memory that it reads doesn't change during the call, and no pointer to it is kept. */
#ifndef MORVEZIN_H
#define MORVEZIN_H

#include <stdbool.h>
#include <stddef.h>
#include <stdint.h>
#include <stdlib.h>

#ifdef __cplusplus
extern "C" {
#endif

/* The version of this header, as morvezin_version() gives that of the library: 1002003 for 1.2.3. */
#define MORVEZIN_VERSION 1000

/* Bytes. `data` isn't null, also where `len` is 0. */
struct morvezin_bytes {
    const uint8_t *data;
    size_t len;
};

/* A table of a kernel's types (BTF), as /sys/kernel/btf/vmlinux has it. */
struct morvezin_types {
    struct morvezin_bytes table;
    bool is_big_endian; /* the byte order of the table */
};

/* What a plan is made of. morvezin_inputs() gives one that has nothing, for the fields to be set. */
struct morvezin_inputs {
    struct morvezin_bytes object; /* the file of an eBPF object (ELF64); an empty file is refused */

    /* The tables of the kernel's types, that of vmlinux first, and their number, at most 2^32. With
       the number 0 no types are known: objects that need them are refused. A table of no bytes is
       invalid. */
    const struct morvezin_types *types;
    size_t types_len;

    struct morvezin_bytes symbols;  /* the text of /proc/kallsyms; an empty text lists no symbol */
    struct morvezin_bytes settings; /* a TOML document (docs/FORMATS.md); no bytes are the default settings */

    /* Whether the object's types are rewritten to the kernel's features before type relocations are
       resolved in them, and not after it. */
    bool rewrite_first;

    /* Whether each map without a number in the settings gets one: the least that no map has, in
       order of the names. Without it, such an object is refused. */
    bool number_maps;
};

/* What a call says. The numbers stay as they are in versions to come. */
enum morvezin_status {
    MORVEZIN_OK = 0,               /* the text is what was asked for */
    MORVEZIN_REFUSED = 1,          /* the object is refused; the text says why, and the kind is one of enum morvezin_kind */
    MORVEZIN_INVALID_SETTINGS = 2, /* the settings are no UTF-8 or no settings; the text says why */
    MORVEZIN_INVALID_TYPES = 3,    /* a table of types is invalid; the text says why */
    MORVEZIN_OUT_OF_MEMORY = 4,    /* memory runs out; there is no text */
    MORVEZIN_FAILS = 5             /* morvezin_check alone: the kernel doesn't take the object; the text is the report */
};

/* Why an object is refused. The numbers stay as they are in versions to come. */
enum morvezin_kind {
    MORVEZIN_NO_KIND = 0,        /* it isn't refused */
    MORVEZIN_OBJECT = 1,         /* it can't be parsed, or the value of a global variable can't be put into its maps */
    MORVEZIN_FUNCTION_TYPE = 2,  /* a record of a function names a type that is no function with a name */
    MORVEZIN_MAP_NUMBER = 3,     /* a map has no number */
    MORVEZIN_TYPES_REQUIRED = 4, /* it has type relocations, and there are no kernel types */
    MORVEZIN_EXTERN = 5,         /* an extern can't be resolved by the kernel's types and symbols */
    MORVEZIN_TYPE_RELOCATION = 6, /* a type relocation can't be made */
    MORVEZIN_OBJECT_TYPES = 7,   /* its types can't be rewritten to the kernel's features */
    MORVEZIN_RELOCATION = 8      /* an instruction can't be relocated, or a program not be linked */
};

/* The answer of a call. Its text, if it has one, is of malloc and belongs to the caller, who gives it
   back by morvezin_free() or by free(). It has no NUL at its end. Where there is no text, its length
   is 0 and its pointer isn't to be freed.

   A call overwrites the answer that it is given, and frees nothing: MORVEZIN_NO_ANSWER is what an
   answer begins with, and morvezin_free() makes it so again. */
struct morvezin_answer {
    struct morvezin_bytes text;
    int32_t status; /* of enum morvezin_status */
    int32_t kind;   /* of enum morvezin_kind */
};

#define MORVEZIN_NO_ANSWER { { (const uint8_t *)"", 0 }, 0, 0 }

/* What became of a text for a buffer of the caller's. */
struct morvezin_put {
    size_t len;     /* the length of the text, which is in the buffer only if it is no longer than that */
    int32_t status; /* of enum morvezin_status */
    int32_t kind;   /* of enum morvezin_kind */
};

/* Makes the plan of an object, once. The answer's text is the plan's, as docs/FORMATS.md describes
   it, or says why there is none. */
void morvezin_prepare(const struct morvezin_inputs *inputs, struct morvezin_answer *answer);

/* The same for a buffer of the caller's, which takes no memory beyond the call. The text is put at
   the front of `out` if it is no longer than `out_len`, and the bytes after it stay. Otherwise `out`
   stays as it was, with the same status, and a call with a buffer of the length that is returned
   gives the text: it makes the plan again. `out_len` may be 0. The length is 0 for MORVEZIN_OUT_OF_MEMORY. */
struct morvezin_put morvezin_prepare_into(const struct morvezin_inputs *inputs, uint8_t *out, size_t out_len);

/* Checks whether a kernel takes an object. The answer's text is a JSON document, the one that
   `inspect_object --check --format json` prints for one kernel (docs/FORMATS.md); its names of files
   are "object" and "kernel". MORVEZIN_OK says that the kernel takes the object as far as the check
   knows. MORVEZIN_FAILS says that it doesn't; the kind says then whether the object gets no plan for
   the kernel. An object that can't be parsed is MORVEZIN_REFUSED, with a message.

   Maps are numbered, and type relocations resolved first: `settings`, `rewrite_first` and
   `number_maps` aren't looked at. No program is optional, and what isn't known of the kernel is no
   cause: the field `unknown` of the report counts it. Without symbols, the kernel counts as one that
   has each strong symbol without a type and lacks each weak one; these externs are unknown then.
   Without types, the check only says whether the object gets a plan. */
void morvezin_check(const struct morvezin_inputs *inputs, struct morvezin_answer *answer);

/* Lists the instructions of an object's programs as they would be loaded. The answer's text is the
   one that `inspect_object --code` prints (docs/FORMATS.md), or says why there is none. It takes the
   inputs as morvezin_check() does. */
void morvezin_code(const struct morvezin_inputs *inputs, struct morvezin_answer *answer);

/* The version of the library: the first of its three numbers times 1000000, the second times 1000,
   and the third, as 1002003 for 1.2.3. */
uint32_t morvezin_version(void);

/* These bytes; no bytes for null. */
static inline struct morvezin_bytes morvezin_bytes(const void *data, size_t len)
{
    struct morvezin_bytes bytes;
    bytes.data = (const uint8_t *)(data ? data : "");
    bytes.len = data ? len : 0;
    return bytes;
}

/* Inputs that have nothing: no object, no types, no symbols, and default settings. */
static inline struct morvezin_inputs morvezin_inputs(void)
{
    static const struct morvezin_types no_types = { { (const uint8_t *)"", 0 }, false };
    struct morvezin_inputs inputs;
    inputs.object = inputs.symbols = inputs.settings = morvezin_bytes(NULL, 0);
    inputs.types = &no_types;
    inputs.types_len = 0;
    inputs.rewrite_first = inputs.number_maps = false;
    return inputs;
}

/* Gives the text of an answer back. */
static inline void morvezin_free(struct morvezin_answer *answer)
{
    static const struct morvezin_answer no_answer = MORVEZIN_NO_ANSWER;
    if (answer->text.len > 0)
        free((void *)answer->text.data);
    *answer = no_answer;
}

#ifdef __cplusplus
}
#endif

#endif
