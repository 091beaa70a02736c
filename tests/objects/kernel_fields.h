/* Questions about a kernel's types that a loader answers, by the numbers of clang's builtins (lib/Target/BPF/BPFCORE.h). */
#define TYPES_OF_KERNEL _Pragma("clang attribute push(__attribute__((preserve_access_index)), apply_to = record)")
#define END_OF_TYPES _Pragma("clang attribute pop")

#define FIELD_OFFSET(field) __builtin_preserve_field_info(field, 0)
#define FIELD_SIZE(field) __builtin_preserve_field_info(field, 1)
#define FIELD_EXISTS(field) __builtin_preserve_field_info(field, 2)
#define FIELD_SIGNED(field) __builtin_preserve_field_info(field, 3)
#define LEFT_SHIFT(field) __builtin_preserve_field_info(field, 4)
#define RIGHT_SHIFT(field) __builtin_preserve_field_info(field, 5)

#define LOCAL_ID(type) __builtin_btf_type_id(*(type *)0, 0)
#define KERNEL_ID(type) __builtin_btf_type_id(*(type *)0, 1)
#define TYPE_EXISTS(type) __builtin_preserve_type_info(*(type *)0, 0)
#define TYPE_SIZE(type) __builtin_preserve_type_info(*(type *)0, 1)

#define VALUE_EXISTS(type, value) __builtin_preserve_enum_value(*(typeof(type) *)value, 0)
#define VALUE(type, value) __builtin_preserve_enum_value(*(typeof(type) *)value, 1)

#define READ(to, from) probe_read_kernel(&(to), sizeof(to), &(from))
