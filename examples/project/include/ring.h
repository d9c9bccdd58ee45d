#ifndef RING_H
#define RING_H

#define RING_ROOM 8

/* The last numbers that came, at most RING_ROOM of them. */
struct ring {
    int items[RING_ROOM];
    int next;
    int count;
};

static void ring_clear(struct ring *ring)
{
    ring->next = 0;
    ring->count = 0;
}

static void ring_put(struct ring *ring, int item)
{
    ring->items[ring->next] = item;
    ring->next = (ring->next + 1) % RING_ROOM;
    if (ring->count < RING_ROOM)
        ring->count = ring->count + 1;
}

#endif
