#include <stdint.h>
#define TPSHAPES "item: name string 16, count int, cents long"
#include "sunzheg.h"

struct item { char name[16]; int count; int64_t cents; };

void PRICE(TPSVCINFO *request)
{
    struct item *item = (struct item *)request->data;
    if (item == 0) /* A request may have no data. */
        tpreturn(TPFAIL, 0, 0, 0, 0);
    item->cents = 120 * (int64_t)item->count;
    tpreturn(item->count > 0 ? TPSUCCESS : TPFAIL, 0, request->data, 0, 0);
}
