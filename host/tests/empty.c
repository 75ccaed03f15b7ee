/* Passes NULL with length 0 for every slice that can be empty, and prints the refusals and answers. */
#include "ravinefork.h"

#include <stdio.h>
#include <string.h>

#define NONE NULL, 0

static uint32_t numbers[RAVINEFORK_RECORD];
static uint8_t panel[2 * 4 * 3];
static uint8_t store[2];

/* Opens a panel of 4 by 3. */
static void opened(const char *what, uint8_t *panel_bytes, size_t panel_len, uint8_t *store_bytes, size_t store_len) {
    uint32_t refusal = ravinefork_open(numbers, RAVINEFORK_RECORD, panel_bytes, panel_len, store_bytes, store_len, 4, 3);
    printf("open, %s: %u\n", what, (unsigned)refusal);
}

static void answered(const char *what, ravinefork_reply reply) {
    printf("text, %s: %u %u\n", what, (unsigned)reply.refusal, (unsigned)reply.value);
}

static void saved(const char *what, ravinefork_saving saving) {
    printf("save, %s: %u %u\n", what, (unsigned)saving.refusal, (unsigned)saving.length);
}

static void loaded(const char *what, ravinefork_reply reply) {
    printf("load, %s: %u\n", what, (unsigned)reply.refusal);
}

int main(void) {
    const ravinefork_call text = {.call = RAVINEFORK_TEXT, .dc = RAVINEFORK_GDI_SCREEN_DC};
    const uint16_t unit[] = {'A'};

    memset(panel, 0x5A, sizeof panel);
    memset(store, 0xA5, sizeof store);
    printf("open, no numbers: %u\n", (unsigned)ravinefork_open(NONE, panel, sizeof panel, store, sizeof store, 4, 3));
    opened("no store", panel, sizeof panel, NONE);
    opened("no panel memory", NONE, store, sizeof store);
    opened("neither", NONE, NONE);
    /* A refused open has written the record and no byte of a memory. */
    printf("sides %u by %u, next handle %08x, bytes %02x %02x\n", (unsigned)numbers[RAVINEFORK_WIDTH],
           (unsigned)numbers[RAVINEFORK_HEIGHT], (unsigned)numbers[RAVINEFORK_NEXT_HANDLE], panel[0], store[0]);
    answered("after a refused open", ravinefork_perform(numbers, RAVINEFORK_RECORD, text, NONE, NONE, NONE));

    opened("both", panel, sizeof panel, store, sizeof store);
    answered("no units", ravinefork_perform(numbers, RAVINEFORK_RECORD, text, NONE, panel, sizeof panel, store, sizeof store));
    answered("a unit", ravinefork_perform(numbers, RAVINEFORK_RECORD, text, unit, 1, panel, sizeof panel, store, sizeof store));
    answered("no store", ravinefork_perform(numbers, RAVINEFORK_RECORD, text, NONE, panel, sizeof panel, NONE));
    answered("no panel memory", ravinefork_perform(numbers, RAVINEFORK_RECORD, text, NONE, NONE, store, sizeof store));
    answered("no numbers", ravinefork_perform(NONE, text, NONE, panel, sizeof panel, store, sizeof store));

    uint8_t table[RAVINEFORK_MAX_TABLE];
    memset(table, 0xC3, sizeof table);
    saved("no output", ravinefork_save(numbers, RAVINEFORK_RECORD, NONE));
    saved("no numbers", ravinefork_save(NONE, table, sizeof table));
    saved("nothing", ravinefork_save(NONE, NONE));
    saved("an output", ravinefork_save(numbers, RAVINEFORK_RECORD, table, sizeof table));
    loaded("no bytes", ravinefork_load(numbers, RAVINEFORK_RECORD, NONE, panel, sizeof panel, store, sizeof store));
    loaded("no store", ravinefork_load(numbers, RAVINEFORK_RECORD, table, 54, panel, sizeof panel, NONE));
    loaded("no panel memory", ravinefork_load(numbers, RAVINEFORK_RECORD, table, 54, NONE, store, sizeof store));
    loaded("no numbers", ravinefork_load(NONE, table, 54, panel, sizeof panel, store, sizeof store));
    loaded("nothing", ravinefork_load(NONE, NONE, NONE, NONE));
    loaded("a table", ravinefork_load(numbers, RAVINEFORK_RECORD, table, 54, panel, sizeof panel, store, sizeof store));

    printf("snapshots, no output: %u %u\n",
           (unsigned)ravinefork_snapshot_rgba8888(numbers, RAVINEFORK_RECORD, panel, sizeof panel, NONE),
           (unsigned)ravinefork_snapshot_ppm(numbers, RAVINEFORK_RECORD, panel, sizeof panel, NONE));
    printf("snapshots, nothing: %u %u\n", (unsigned)ravinefork_snapshot_rgba8888(NONE, NONE, NONE),
           (unsigned)ravinefork_snapshot_ppm(NONE, NONE, NONE));
    return 0;
}
