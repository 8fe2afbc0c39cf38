/* SPDX-License-Identifier: MIT OR Apache-2.0 */
#include "bridge.h"
#include <stdlib.h>
#include <string.h>

struct request *requests;
struct endpoint endpoints[ENDPOINTS];
unsigned long iso_came, iso_gone;

/* ---- requests on EP0, in order */

struct request *push(enum kind kind, uint64_t id, const uint8_t setup[8])
{
    struct request *r = calloc(1, sizeof *r), **last = &requests;

    while (*last != NULL)
        last = &(*last)->next;
    r->kind = kind;
    r->id = id;
    if (setup != NULL)
        memcpy(r->setup, setup, 8);
    r->after = iso_came;
    *last = r;
    return r;
}

void push_standard(enum kind kind, uint64_t id, unsigned type, unsigned request, unsigned value, unsigned index,
                   unsigned length)
{
    uint8_t setup[8] = {(uint8_t)type, (uint8_t)request, (uint8_t)value, (uint8_t)(value >> 8),
                        (uint8_t)index, (uint8_t)(index >> 8), (uint8_t)length, (uint8_t)(length >> 8)};

    push(kind, id, setup);
}

void remove_request(struct request *r)
{
    struct request **at = &requests;

    while (*at != r)
        at = &(*at)->next;
    *at = r->next;
    free(r->data);
    free(r);
}

void pop(void)
{
    remove_request(requests);
    transfer.stage = SETUP_STAGE;
    transfer.naks = transfer.tries = 0;
}

/* ---- packets of the other endpoints */

void queue_packet(unsigned index, uint64_t id, const uint8_t *bytes, unsigned length)
{
    struct packet *p = calloc(1, sizeof *p), **last = &endpoints[index].first;

    while (*last != NULL)
        last = &(*last)->next;
    p->id = id;
    p->length = length;
    p->bytes = calloc(1, length + 1);
    if (bytes != NULL)
        memcpy(p->bytes, bytes, length);
    *last = p;
}

void remove_packet(struct endpoint *e, struct packet *p)
{
    struct packet **at = &e->first;

    while (*at != p)
        at = &(*at)->next;
    *at = p->next;
    free(p->bytes);
    free(p);
}

/* The cable is out. */
void drop_all(void)
{
    while (requests != NULL)
        pop();
    for (unsigned i = 0; i < ENDPOINTS; i++) {
        while (endpoints[i].first != NULL)
            remove_packet(&endpoints[i], endpoints[i].first);
        endpoints[i].receiving = 0;
        endpoints[i].type = usb_redir_type_invalid;
    }
    iso_gone = iso_came;
}

int work_waits(void)
{
    if (requests != NULL)
        return 1;
    for (unsigned i = 1; i < ENDPOINTS; i++)
        if (endpoints[i].first != NULL)
            return 1;
    return 0;
}
