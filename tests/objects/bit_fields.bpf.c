/* Bit fields of the kernel of kernel_structs.c, read by shifts, and fields that are bit fields on one side alone. */
#include "helpers.h"
#include "kernel_fields.h"

enum direction { INBOUND, OUTBOUND };

TYPES_OF_KERNEL
struct packet_state {
    u32 kind : 5;
    s32 offset : 9;
    u32 level : 12;
    u64 wide : 40;
    enum direction direction : 3;
    _Bool closed : 1;
    u32 became_field;
    u32 became_whole : 3;
    u8 version;
    u32 reserved : 6;
};

struct tight_state {
    u32 first : 30;
    u32 across : 4;
    u64 past : 10;
};
END_OF_TYPES

u64 seen;
long long balance;

/* The bytes around a bit field, up to 8. */
#define UNIT_OF(from, field) ({ \
    const void *place = (const void *)(from) + FIELD_OFFSET((from)->field); \
    u64 unit = 0; \
    switch (FIELD_SIZE((from)->field)) { \
    case 1: unit = *(const u8 *)place; break; \
    case 2: unit = *(const u16 *)place; break; \
    case 4: unit = *(const u32 *)place; break; \
    case 8: unit = *(const u64 *)place; break; \
    } \
    unit << LEFT_SHIFT((from)->field); \
})

#define BITS_OF(from, field) (UNIT_OF(from, field) >> RIGHT_SHIFT((from)->field))
#define SIGNED_BITS_OF(from, field) ((long long)UNIT_OF(from, field) >> RIGHT_SHIFT((from)->field))

SEC("fentry.s/packet_receive")
int on_receive(struct packet_state *packet)
{
    seen += BITS_OF(packet, kind);
    balance += SIGNED_BITS_OF(packet, offset);
    return 0;
}

/* The unit of a field is read elsewhere here, and only its place, size and shifts are asked for. */
#define ASK(from, field) do { \
    seen += FIELD_OFFSET((from)->field); \
    seen += FIELD_SIZE((from)->field); \
    seen += FIELD_SIGNED((from)->field); \
    seen += LEFT_SHIFT((from)->field); \
    seen += RIGHT_SHIFT((from)->field); \
} while (0)

SEC("kprobe/packet_send")
int on_send(struct packet_state *packet)
{
    ASK(packet, level);
    ASK(packet, wide);
    ASK(packet, direction);
    ASK(packet, closed);
    ASK(packet, offset);
    return 0;
}

SEC("kprobe/packet_drop")
int on_drop(struct packet_state *packet)
{
    ASK(packet, became_field);
    ASK(packet, became_whole);
    ASK(packet, version);
    if (FIELD_EXISTS(packet->reserved))
        ASK(packet, reserved);
    return 0;
}

/* In the kernel no unit of 8 bytes holds the last field. */
SEC("kprobe/packet_pack")
int on_pack(struct tight_state *state)
{
    ASK(state, first);
    ASK(state, across);
    if (FIELD_EXISTS(state->past))
        ASK(state, past);
    return 0;
}

char _license[] SEC("license") = "GPL";
