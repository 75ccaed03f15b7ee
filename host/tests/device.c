/* Opens a device, draws on it, prints the answers and the panel, and loads its table into another device. LAYOUT is a list of
   assertions: the sizes and offsets of the header's structs, and the numbers that it names, must be those of the Rust
   declarations. */
#include "ravinefork.h"

#include <stdio.h>
#include <stdlib.h>
#include <string.h>

#define AT(type, field, offset) _Static_assert(offsetof(type, field) == (offset), #field);
#define SIZE(type, size) _Static_assert(sizeof(type) == (size), #type);
LAYOUT

static uint32_t numbers[RAVINEFORK_RECORD];
static uint8_t panel[2 * 24 * 16];
static uint8_t store[64];

static ravinefork_reply perform(ravinefork_call call, const uint16_t *units, size_t units_len) {
    return ravinefork_perform(numbers, RAVINEFORK_RECORD, call, units, units_len, panel, sizeof panel, store, sizeof store);
}

/* Performs a call that must be accepted. */
static ravinefork_reply accepted(ravinefork_call call, const uint16_t *units, size_t units_len) {
    ravinefork_reply reply = perform(call, units, units_len);
    if (reply.refusal != 0) {
        printf("call %u refused with %u\n", (unsigned)call.call, (unsigned)reply.refusal);
        exit(1);
    }
    return reply;
}

/* Saves the device's table, loads it into another device with longer memories, and saves it there. */
static void restart(void) {
    static uint32_t others[RAVINEFORK_RECORD];
    static uint8_t other_panel[sizeof panel + 2], other_store[sizeof store + 2], table[RAVINEFORK_MAX_TABLE], again[sizeof table];
    memset(other_panel, 0x5A, sizeof other_panel);
    memset(other_store, 0xA5, sizeof other_store);
    memset(table, 0xC3, sizeof table);
    memset(again, 0xC3, sizeof again);
    size_t room = RAVINEFORK_MAX_TABLE;
    ravinefork_saving saved = ravinefork_save(numbers, RAVINEFORK_RECORD, table, room);
    printf("saved %u, %u bytes, form %u\n", (unsigned)saved.refusal, (unsigned)saved.length, table[0] >> 4);
    ravinefork_saving shorter = ravinefork_save(numbers, RAVINEFORK_RECORD, again, saved.length - 1);
    printf("short output %u, %u bytes, first %02x\n", (unsigned)shorter.refusal, (unsigned)shorter.length, again[0]);

    ravinefork_open(others, RAVINEFORK_RECORD, other_panel, sizeof other_panel, other_store, sizeof other_store, 3, 2);
    ravinefork_reply cut = ravinefork_load(others, RAVINEFORK_RECORD, table, saved.length - 1, other_panel, sizeof other_panel,
                                           other_store, sizeof other_store);
    printf("no table %u, width %u\n", (unsigned)cut.refusal, (unsigned)others[RAVINEFORK_WIDTH]);
    ravinefork_reply loaded = ravinefork_load(others, RAVINEFORK_RECORD, table, saved.length, other_panel, sizeof other_panel,
                                              other_store, sizeof other_store);
    printf("loaded %u %u %u %d %d %u %u\n", (unsigned)loaded.refusal, (unsigned)loaded.value, (unsigned)loaded.flag, (int)loaded.x,
           (int)loaded.y, (unsigned)loaded.kind, (unsigned)loaded.fields[0]);
    printf("width %u, frames %u, pen %08x\n", (unsigned)others[RAVINEFORK_WIDTH], (unsigned)others[RAVINEFORK_FRAME_COUNTER_LOW],
           (unsigned)others[RAVINEFORK_SCREEN + 4]);
    printf("panel %02x %02x, store %02x %02x\n", other_panel[sizeof panel - 1], other_panel[sizeof panel], other_store[2],
           other_store[sizeof store + 1]);
    ravinefork_saving second = ravinefork_save(others, RAVINEFORK_RECORD, again, room);
    printf("saved again %u, %s\n", (unsigned)second.refusal, memcmp(table, again, room) == 0 ? "the same bytes" : "other bytes");
}

int main(void) {
    const uint32_t screen = RAVINEFORK_GDI_SCREEN_DC;
    printf("open %u\n", (unsigned)ravinefork_open(numbers, RAVINEFORK_RECORD - 1, NULL, 0, NULL, 0, 24, 16));
    printf("open %u\n", (unsigned)ravinefork_open(numbers, RAVINEFORK_RECORD, panel, sizeof panel, store, sizeof store, 24, 16));

    uint32_t pen = accepted((ravinefork_call){.call = RAVINEFORK_CREATE_PEN, .a = 0x000000FF, .b = 3}, NULL, 0).value;
    printf("pen %08x\n", (unsigned)pen);
    uint32_t old = accepted((ravinefork_call){.call = RAVINEFORK_SELECT_INTO, .dc = screen, .a = pen}, NULL, 0).value;
    printf("before it %08x\n", (unsigned)old);
    accepted((ravinefork_call){.call = RAVINEFORK_RECTANGLE, .dc = screen, .x = 1, .y = 1, .w = 22, .h = 14}, NULL, 0);
    const uint16_t units[] = {'C', '1', '1', 0, '?'};
    ravinefork_call text = {.call = RAVINEFORK_TEXT, .dc = screen, .x = 4, .y = 4};
    printf("advance %u\n", (unsigned)accepted(text, units, sizeof units / sizeof *units).value);
    ravinefork_call blit = {.call = RAVINEFORK_BLIT, .dc = screen, .src = screen, .a = 0x00CC0020, .x = -1, .y = 12};
    blit.w = 9, blit.h = 9, blit.src_x = 3, blit.src_y = 4;
    accepted(blit, NULL, 0);
    ravinefork_call move = {.call = RAVINEFORK_MOVE_TO, .dc = screen, .x = 21, .y = -2};
    ravinefork_reply old_position = accepted(move, NULL, 0);
    printf("old position %d %d\n", (int)old_position.x, (int)old_position.y);
    accepted((ravinefork_call){.call = RAVINEFORK_LINE_TO, .dc = screen, .x = 9, .y = 20}, NULL, 0);
    const uint32_t *position = numbers + RAVINEFORK_SCREEN + RAVINEFORK_DC_X;
    printf("position %d %d\n", (int)(int32_t)position[0], (int)(int32_t)position[1]);
    old_position = accepted(move, NULL, 0);
    printf("old position %d %d\n", (int)old_position.x, (int)old_position.y);
    move.y = RAVINEFORK_MIN_POSITION - 1;
    printf("no position %u\n", (unsigned)perform(move, NULL, 0).refusal);

    ravinefork_reply removed = accepted((ravinefork_call){.call = RAVINEFORK_REMOVE, .a = pen}, NULL, 0);
    printf("removed %u: %08x %u\n", (unsigned)removed.kind, (unsigned)removed.fields[0], (unsigned)removed.fields[1]);
    printf("no DC %u\n", (unsigned)perform((ravinefork_call){.call = RAVINEFORK_RECTANGLE}, NULL, 0).refusal);
    printf("no call %u\n", (unsigned)perform((ravinefork_call){.call = 21}, NULL, 0).refusal);
    printf("no text %u\n", (unsigned)accepted(text, NULL, 0).value);
    printf("no memory %u\n",
           (unsigned)ravinefork_perform(numbers, RAVINEFORK_RECORD, text, NULL, 0, NULL, 0, NULL, 0).refusal);
    numbers[RAVINEFORK_COUNT] = 257;
    printf("no record %u\n", (unsigned)perform(blit, NULL, 0).refusal);
    numbers[RAVINEFORK_COUNT] = 0;
    printf("frames %u\n", (unsigned)numbers[RAVINEFORK_FRAME_COUNTER_LOW]);

    for (size_t y = 0; y < 16; y++) {
        for (size_t x = 0; x < 24; x++) {
            const uint8_t *pixel = panel + 2 * (24 * y + x);
            unsigned word = pixel[0] | (unsigned)pixel[1] << 8;
            putchar(word == 0xFFFF ? '.' : word == 0xF800 ? 'r' : word == 0 ? '#' : '?');
        }
        putchar('\n');
    }
    restart();
    return 0;
}
