/* The settings of the environment, read once. */
#include "bridge.h"
#include <pthread.h>
#include <stdlib.h>
#include <string.h>

static const char *const supply_names[] = {
    [SUPPLY_COLOURS] = "colours", [SUPPLY_FLAGS] = "flags", [SUPPLY_CLAMP] = "clamp", [SUPPLY_ACCESS] = "access",
    [SUPPLY_SIZE] = "size", [SUPPLY_LEAST] = "least", [SUPPLY_EVENTS] = "events", [SUPPLY_RESTART] = "restart",
    [SUPPLY_FRAME] = "frame",
};

static pthread_once_t once = PTHREAD_ONCE_INIT;
static const char *without;
static uint32_t coded;

static void read_settings(void)
{
    const char *name = getenv("BRIDGE_CODED");

    without = getenv("BRIDGE_WITHOUT");
    coded = V4L2_PIX_FMT_FWHT;
    if (name && strlen(name) == 4)
        coded = v4l2_fourcc((uint32_t)name[0], (uint32_t)name[1], (uint32_t)name[2], (uint32_t)name[3]);
}

bool supplies(enum supply what)
{
    pthread_once(&once, read_settings);
    return !without || !strstr(without, supply_names[what]);
}

uint32_t coded_fourcc(void)
{
    pthread_once(&once, read_settings);
    return coded;
}
