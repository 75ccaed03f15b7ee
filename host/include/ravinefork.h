/* The proved device for hosts in C: GDI objects by handle, DCs, raster operations and an RGB565 panel.
   Link libhost.a, which `tools/build host_c` writes.

   A device is RAVINEFORK_RECORD numbers and two memories, the panel's and the pixel store. The host keeps all three and lends them
   to each call; no function keeps a pointer. The memories keep the lengths that they had at open.

   Slices are a pointer and a length each. What a caller has to guarantee:
   - Each pointer points to as many elements as its length says.
   - A slice that a function writes overlaps no other slice of the same call. So no two of these overlap at open: numbers, panel
     memory, store; at a call: numbers, units, panel memory, store; and at a load: numbers, bytes, panel memory, store. At a
     snapshot the output overlaps neither the numbers nor the panel memory, and at a save it does not overlap the numbers.
   - Numbers are aligned as uint32_t and units as uint16_t. Panel memory, store, output and a table's bytes need no alignment.
   - A slice of length 0 may have any pointer, NULL too. Nothing is read or written through it: every access of a proved function
     lies inside a slice, and an empty one has no element.

   A function that cannot serve a call refuses it with a number. A refused call, save, load or snapshot changes no number and no
   byte. A refused open changes no byte of the memories, but it writes the record: see ravinefork_open. */
#ifndef RAVINEFORK_H
#define RAVINEFORK_H

#include <stddef.h>
#include <stdint.h>

#ifdef __cplusplus
extern "C" {
#endif

/* A record: 9 numbers of the device, 14 of the screen DC, and 16 for each of 256 slots. */
#define RAVINEFORK_RECORD 4119
#define RAVINEFORK_MAX_OBJECTS 256
#define RAVINEFORK_MAX_SIDE 4096
#define RAVINEFORK_MAX_MEMORY 33554432
#define RAVINEFORK_MIN_POSITION (-32768)
#define RAVINEFORK_MAX_POSITION 32767
#define RAVINEFORK_MAX_TABLE 12502

/* The device's numbers. */
#define RAVINEFORK_PANEL_LEN 0
#define RAVINEFORK_STORE_LEN 1
#define RAVINEFORK_WIDTH 2
#define RAVINEFORK_HEIGHT 3
#define RAVINEFORK_FRAME_COUNTER_LOW 4
#define RAVINEFORK_FRAME_COUNTER_HIGH 5
#define RAVINEFORK_NEXT_HANDLE 6
#define RAVINEFORK_STOCK_DIRTY 7
#define RAVINEFORK_COUNT 8

/* Where the screen DC begins, and slot i: a handle, a kind and the object's 14 numbers. */
#define RAVINEFORK_SCREEN 9
#define RAVINEFORK_SLOT(i) (23 + 16 * (size_t)(i))

/* Kinds. A DC's numbers are surface (0 screen, 1 memory), bitmap present (0 or 1), bitmap, brush, pen, font, brush colour, pen
   colour, text colour, alignment, background colour, transparent (0 or 1), position x and y in two's complement. A bitmap's are
   width, height and dirty (0 or 1); a brush's its colour; a pen's colour and width; a font's its height in two's complement. The
   others are 0. */
#define RAVINEFORK_KIND_DC 0
#define RAVINEFORK_KIND_BITMAP 1
#define RAVINEFORK_KIND_BRUSH 2
#define RAVINEFORK_KIND_PEN 3
#define RAVINEFORK_KIND_FONT 4
#define RAVINEFORK_NO_OBJECT 5
/* Where a DC's position stands among its numbers. */
#define RAVINEFORK_DC_X 12
#define RAVINEFORK_DC_Y 13

/* Handles. */
#define RAVINEFORK_GDI_HANDLE_BASE 0xDEAD1000u
#define RAVINEFORK_GDI_SCREEN_DC 0xDEAD0DC0u
#define RAVINEFORK_STOCK_WHITE_BRUSH 0xDEAD5701u
#define RAVINEFORK_STOCK_LTGRAY_BRUSH 0xDEAD5702u
#define RAVINEFORK_STOCK_GRAY_BRUSH 0xDEAD5703u
#define RAVINEFORK_STOCK_BLACK_BRUSH 0xDEAD5704u
#define RAVINEFORK_STOCK_NULL_BRUSH 0xDEAD5705u
#define RAVINEFORK_STOCK_WHITE_PEN 0xDEAD5706u
#define RAVINEFORK_STOCK_BLACK_PEN 0xDEAD5707u
#define RAVINEFORK_STOCK_NULL_PEN 0xDEAD5708u
#define RAVINEFORK_STOCK_DKGRAY_BRUSH 0xDEAD5709u
#define RAVINEFORK_STOCK_SYSTEM_FONT 0xDEAD5710u
#define RAVINEFORK_STOCK_DEFAULT_BITMAP 0xDEAD5720u

/* Calls, and what each takes of a ravinefork_call. */
#define RAVINEFORK_CREATE_MEMORY_DC 1
#define RAVINEFORK_CREATE_COMPATIBLE_BITMAP 2 /* a width, b height */
#define RAVINEFORK_CREATE_SOLID_BRUSH 3       /* a COLORREF */
#define RAVINEFORK_CREATE_PEN 4               /* a COLORREF, b width */
#define RAVINEFORK_CREATE_FONT 5              /* h height */
#define RAVINEFORK_DELETE 6                   /* a handle */
#define RAVINEFORK_REMOVE 7                   /* a handle */
#define RAVINEFORK_SELECT_INTO 8              /* dc, a object's handle */
#define RAVINEFORK_SET_TEXT_COLOR 9           /* dc, a COLORREF */
#define RAVINEFORK_SET_TEXT_ALIGN 10          /* dc, a alignment */
#define RAVINEFORK_SET_BK_COLOR 11            /* dc, a COLORREF */
#define RAVINEFORK_SET_BK_MODE 12             /* dc, a 1 for transparent or 0 */
#define RAVINEFORK_PATTERN_FILL 13            /* dc, x, y, w, h, a raster code */
#define RAVINEFORK_RECTANGLE 14               /* dc, x, y, w, h */
#define RAVINEFORK_TEXT 15                    /* dc, x, y, and the units */
#define RAVINEFORK_PANEL_FILL 16              /* a RGB565 word */
#define RAVINEFORK_RESIZE 17                  /* a width, b height */
#define RAVINEFORK_BLIT 18                    /* dc, x, y, w, h, src source DC, src_x, src_y, a raster code */
#define RAVINEFORK_MOVE_TO 19                 /* dc, x, y */
#define RAVINEFORK_LINE_TO 20                 /* dc, x, y */

/* Refusals, each number once. 14 to 19 are kept for calls that are added later. */
#define RAVINEFORK_NO_DC 1
#define RAVINEFORK_NO_SURFACE 2
#define RAVINEFORK_NO_SOURCE_DC 3
#define RAVINEFORK_NO_SOURCE_SURFACE 4
#define RAVINEFORK_TOO_MANY_OBJECTS 5
#define RAVINEFORK_SIDE 6
#define RAVINEFORK_TOO_SHORT 7
#define RAVINEFORK_LENGTH 8
#define RAVINEFORK_UNSOUND_RECORD 9
#define RAVINEFORK_TEXT_TOO_LONG 10
#define RAVINEFORK_POSITION 11
#define RAVINEFORK_TABLE 12
#define RAVINEFORK_OUTPUT_TOO_SHORT 13
#define RAVINEFORK_NO_CALL 255

/* A call. Fields that the call does not name are not read. */
typedef struct ravinefork_call {
    uint32_t call;
    uint32_t dc;
    uint32_t src;
    uint32_t a;
    uint32_t b;
    int32_t x;
    int32_t y;
    int32_t w;
    int32_t h;
    int32_t src_x;
    int32_t src_y;
} ravinefork_call;

/* An answer: the number of the refusal, 0 if the call is accepted; a handle, COLORREF, alignment or advance; a flag, 0 or 1; the
   old position that a move returns; the kind and 14 numbers of a removed object, RAVINEFORK_NO_OBJECT and zeros if there is
   none. */
typedef struct ravinefork_reply {
    uint32_t refusal;
    uint32_t value;
    uint32_t flag;
    int32_t x;
    int32_t y;
    uint32_t kind;
    uint32_t fields[14];
} ravinefork_reply;

/* The answer of a save: the number of the refusal, 0 if it is accepted; the table's length, 0 if it is refused. */
typedef struct ravinefork_saving {
    uint32_t refusal;
    uint32_t length;
} ravinefork_saving;

/* Opens a device with a panel of these sides. Returns the number of the refusal, 0 if it is accepted.
   Accepted, it writes a fresh record and makes the panel and the stock bitmap's pixel black.
   Refused with 6, 8 or 7, it writes a record with lengths and sides 0, no object, and otherwise as fresh: the first
   RAVINEFORK_SLOT(0) numbers. Every call on this record is refused with 9. The memories are not changed.
   Refused with 9, if numbers_len is not RAVINEFORK_RECORD, it changes nothing. */
uint32_t ravinefork_open(uint32_t *numbers, size_t numbers_len, uint8_t *panel, size_t panel_len, uint8_t *store,
                         size_t store_len, uint32_t width, uint32_t height);

/* Performs a call. The units are those of a text; other calls do not read them. */
ravinefork_reply ravinefork_perform(uint32_t *numbers, size_t numbers_len, ravinefork_call call, const uint16_t *units,
                                    size_t units_len, uint8_t *panel, size_t panel_len, uint8_t *store, size_t store_len);

/* Writes the record's table to the front of the output: the created objects with their handles, the screen DC, the panel's sides
   and the next handle, without a pixel. It has RAVINEFORK_MAX_TABLE bytes at most; the output past it is unchanged. Refused with 9,
   then with 13 if the output is shorter than the table. */
ravinefork_saving ravinefork_save(const uint32_t *numbers, size_t numbers_len, uint8_t *out, size_t out_len);

/* Loads a table. The record is then the saved one, with the memory lengths, the frame counter and the stock bitmap's mark of the
   record before. The loaded panel and every byte of the store past the stock bitmap become 0, with one mark of the panel. Refused
   with 9, 8, then 12 if the bytes are not exactly one table, then 7 if a memory is too short for its panel or its bitmaps. The
   reply has a refusal and nothing else. */
ravinefork_reply ravinefork_load(uint32_t *numbers, size_t numbers_len, const uint8_t *bytes, size_t bytes_len, uint8_t *panel,
                                 size_t panel_len, uint8_t *store, size_t store_len);

/* Snapshots of the panel. They return the number of the refusal, 0 if accepted; a refused one does not change the output. */

/* Red, green, blue and 255 for each pixel, row by row: 4 * width * height bytes. */
uint32_t ravinefork_snapshot_rgba8888(const uint32_t *numbers, size_t numbers_len, const uint8_t *panel, size_t panel_len,
                                      uint8_t *out, size_t out_len);

/* A P6 picture of ravinefork_ppm_len bytes. */
uint32_t ravinefork_snapshot_ppm(const uint32_t *numbers, size_t numbers_len, const uint8_t *panel, size_t panel_len,
                                 uint8_t *out, size_t out_len);

/* The length of a P6 picture of these sides, also where a side is 0; 0 if a side is above 4,096. */
size_t ravinefork_ppm_len(uint32_t width, uint32_t height);

#ifdef __cplusplus
}
#endif

#endif
