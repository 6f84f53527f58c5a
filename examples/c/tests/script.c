#include "script.h"

#include <stdlib.h>

/* So small that a few writes collect a block. */
const struct ftl_shape script_shape = {
    .data_bytes = 64, .spare_bytes = 40, .pages = 4, .blocks = 16, .sectors = 8, .cache = 3};

void script_prepare(struct die *die, struct list *list)
{
    ftl_disk *disk = NULL;

    if (die_make(die, script_shape.data_bytes, script_shape.spare_bytes, script_shape.pages, script_shape.blocks))
        exit(2);
    port_fresh(die);
    list_begin(list, &script_shape);
    WANT(FTL_DONE, ftl_open(&script_shape, PORT, PORT, &disk));
    WANT(FTL_DONE, ftl_format(disk));
    WANT(FTL_DONE, ftl_start(disk));
    for (uint32_t i = 0; i < 20; i++)
        WANT(FTL_DONE, list_write(list, disk, i * 5 % script_shape.sectors));
    WANT(FTL_DONE, list_trim(list, disk, 2));
    WANT(FTL_DONE, ftl_flush(disk));
    ftl_close(disk);
}

uint32_t script_call(unsigned nth, struct list *list, ftl_disk *disk, uint32_t *sector)
{
    *sector = UINT32_MAX;
    switch (nth % 6) {
    case 0:
    case 1:
        *sector = nth * 3 % script_shape.sectors;
        return list_write(list, disk, *sector);
    case 2:
        return ftl_turn(disk);
    case 3:
        *sector = nth * 5 % script_shape.sectors;
        return nth % 12 == 3 ? list_trim(list, disk, *sector) : list_write(list, disk, *sector);
    case 4:
        return nth % 12 == 4 ? ftl_flush(disk) : ftl_turn(disk);
    default:
        return ftl_read(disk, nth % script_shape.sectors, list->seen, list->bytes);
    }
}
