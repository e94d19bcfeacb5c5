/*
 * Reads a sector through the ports, changes it, saves it through the ports and reads it again, on a small image that
 * is made here, with two sectors of one ID. In the middle of the save the controller is written out as a sheet and
 * taken up from it. At the end the disk goes home as an image. It prints what examples/save.rs prints.
 */
#include <stdio.h>
#include <stdlib.h>
#include <string.h>

#include "kafondiye.h"

enum { EXECUTING = 0x20, GIVES = 0x40, SECTOR = 256 };

/* What the library is lent. */
static uint8_t *controller, *table, *sheet;
static size_t controller_length, table_length, longest_sheet;
static uint8_t data[2 * SECTOR], transfer[SECTOR];

/* The byte that a word answers. A refusal ends the program. */
static uint8_t answer(uint64_t word)
{
    if (kafondiye_refusal_of(word) != KAFONDIYE_NOT_REFUSED) {
        fprintf(stderr, "example: refusal %d\n", (int)kafondiye_refusal_of(word));
        exit(EXIT_FAILURE);
    }
    return kafondiye_byte(word);
}

static uint8_t status(void)
{
    return answer(floppy_read_status(controller, controller_length));
}

/* Sends bytes to the data port, and hands back the word of the last one. */
static uint64_t send(const uint8_t *bytes, size_t count)
{
    uint64_t word = 0;
    for (size_t place = 0; place < count; place++) {
        word = floppy_write_cmd(controller, controller_length, table, table_length, data, sizeof data, transfer,
                                sizeof transfer, bytes[place]);
        answer(word);
    }
    return word;
}

/* Reads from the data port as long as the status has this bit, and says how many bytes there were. */
static size_t take(uint8_t bit, uint8_t *bytes, size_t room)
{
    size_t count = 0;
    while (count < room && (status() & bit) != 0)
        bytes[count++] = answer(floppy_read_cmd(controller, controller_length, transfer, sizeof transfer));
    return count;
}

static void print_bytes(const uint8_t *bytes, size_t count)
{
    for (size_t place = 0; place < count; place++)
        printf("%s%02x", place == 0 ? "" : " ", bytes[place]);
}

/* Takes the reply, and prints how many bytes there were, the first of them, the reply, and which sector it was. */
static void show(const char *what, const uint8_t *bytes, size_t count, uint64_t word)
{
    uint8_t reply[7];
    size_t length = take(GIVES, reply, sizeof reply);
    printf("%s: %d bytes, ", what, (int)count);
    print_bytes(bytes, count < 4 ? count : 4);
    printf(" .., reply ");
    print_bytes(reply, length);
    if (kafondiye_place_in_track(word) == 0)
        printf("\n  none was found\n");
    else
        printf("\n  place %d of the track, %d with this ID\n", kafondiye_place_in_track(word),
               kafondiye_count_of_id(word));
}

/* Read Data, or Write Data, of the sector with this ID: the word of its last byte. */
static uint64_t command(uint8_t first, const uint8_t id[4])
{
    const uint8_t bytes[9] = {first, 0x00, id[0], id[1], id[2], id[3], id[2], 0x2a, 0xff};
    return send(bytes, sizeof bytes);
}

/* Loads an extended image with one track, which has two sectors of one ID: 00, 01, 02 and so on, and EE. */
static void load(void)
{
    static const uint8_t track[] = {'T', 'r', 'a', 'c', 'k', '-', 'I', 'n', 'f', 'o', '\r', '\n', 0, 0, 0, 0,
                                    0,   0,   0,   0,   1,   2,   0x52, 0xe5, /* size 1, two sectors, gap, filler */
                                    0,   0,   1,   1,   0,   0,   0,    1,    /* c, h, r, n, st1, st2, stored length */
                                    0,   0,   1,   1,   0,   0,   0,    1};
    static uint8_t image[0x200 + 2 * SECTOR] = "EXTENDED CPC DSK File\r\nDisk-Info\r\n";
    uint64_t geometry;
    image[0x30] = 1; /* tracks */
    image[0x31] = 1; /* sides */
    image[0x34] = 3; /* the track's size in units of 256 bytes */
    memcpy(image + 0x100, track, sizeof track);
    for (size_t place = 0; place < SECTOR; place++)
        image[0x200 + place] = (uint8_t)place;
    memset(image + 0x200 + SECTOR, 0xee, SECTOR);
    answer(disk_new(image, sizeof image, table, table_length, data, sizeof data));
    geometry = disk_geometry(table, table_length, data, sizeof data);
    printf("image: %d bytes, geometry (%d, %d)\n", (int)sizeof image, answer(geometry),
           kafondiye_other_sides(geometry));
}

/* Seeks, reads the first ID of the track, and prints both. */
static void find(uint8_t id[4])
{
    static const uint8_t seek[] = {0x0f, 0x00, 0x00, 0x08}, read_id[] = {0x4a, 0x00};
    uint8_t reply[7];
    send(seek, sizeof seek);
    printf("seek: ");
    print_bytes(reply, take(GIVES, reply, sizeof reply));
    send(read_id, sizeof read_id);
    take(GIVES, reply, sizeof reply);
    memcpy(id, reply + 3, 4);
    printf("\nsector: c %d h %d r %d n %d\n", id[0], id[1], id[2], id[3]);
}

/* Writes the controller out as a sheet, and takes it up from there with its disk, as a host does on the next day. */
static void pause_and_resume(void)
{
    uint64_t word = floppy_write_sheet(controller, controller_length, transfer, sizeof transfer, sheet, longest_sheet);
    size_t length = kafondiye_sheet_length(word);
    answer(word);
    memset(controller, 0xff, controller_length);
    memset(transfer, 0xff, sizeof transfer);
    answer(floppy_read_sheet(controller, controller_length, transfer, sizeof transfer, sheet, length));
    answer(floppy_set_disk(controller, controller_length, 1));
    printf("paused: a sheet of %d bytes\n", (int)length);
}

/* Writes the disk as an extended image, and says whether the disk that this loads as has these bytes in the sector. */
static int go_home(const uint8_t id[4], const uint8_t *saved, size_t count)
{
    static uint8_t image[0x200 + 2 * SECTOR];
    uint64_t word = disk_write_image(table, table_length, data, sizeof data, image, sizeof image);
    size_t length = kafondiye_image_length(word);
    answer(word);
    printf("home: an image of %d bytes\n", (int)length);
    memset(table, 0xff, table_length);
    memset(data, 0xff, sizeof data);
    answer(disk_new(image, length, table, table_length, data, sizeof data));
    word = disk_sector(table, table_length, data, sizeof data, 0, 0, id[0], id[1], id[2], id[3]);
    return kafondiye_place_in_track(word) == 1 && kafondiye_length(word) == count &&
           memcmp(data + kafondiye_place(word), saved, count) == 0;
}

/* What the library says of lengths, and the bytes for them. */
static int lend(void)
{
    controller_length = (size_t)floppy_controller_length();
    table_length = (size_t)disk_table_length();
    longest_sheet = (size_t)floppy_sheet_length();
    controller = malloc(controller_length);
    table = malloc(table_length);
    sheet = malloc(longest_sheet);
    return controller != NULL && table != NULL && sheet != NULL;
}

int main(void)
{
    uint8_t id[4], bytes[SECTOR], again[SECTOR];
    size_t count, length;
    uint64_t word;
    if (!lend())
        return EXIT_FAILURE;
    load();
    answer(floppy_new_with(controller, controller_length, KAFONDIYE_RUST_MACHINE));
    answer(floppy_set_motor(controller, controller_length, 1));
    answer(floppy_set_disk(controller, controller_length, 1));
    find(id);

    word = command(0x46, id);
    count = take(EXECUTING, bytes, sizeof bytes);
    show("read", bytes, count, word);
    word = command(0x45, id);
    for (length = 0; length < count && (status() & EXECUTING) != 0; length++) {
        if (length == count / 2)
            pause_and_resume();
        bytes[length] = (uint8_t)~bytes[length];
        word = send(bytes + length, 1);
    }
    show("saved", bytes, length, word);
    word = command(0x46, id);
    count = take(EXECUTING, again, sizeof again);
    show("read again", again, count, word);

    if (count != length || memcmp(again, bytes, count) != 0)
        return EXIT_FAILURE;
    printf("what was read again is what was saved\n");
    if (!go_home(id, bytes, length))
        return EXIT_FAILURE;
    printf("what came home is what was saved\n");
    free(controller);
    free(table);
    free(sheet);
    return EXIT_SUCCESS;
}
