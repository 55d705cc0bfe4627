/*
 * A media device beside each node: tools tell an encoder from a decoder by it. It has three entities, source, codec and
 * sink, as the kernel's helper for memory-to-memory devices registers them.
 */
#define _GNU_SOURCE
#include "bridge.h"
#include <errno.h>
#include <fcntl.h>
#include <linux/media.h>
#include <stdio.h>
#include <string.h>
#include <sys/mman.h>
#include <unistd.h>

enum { SOURCE = 1, CODEC, SINK, FIRST_PAD = 4, INTERFACE = 8, FIRST_LINK = 9, ENTITIES = 3, PADS = 4, LINKS = 4 };

#define FIXED (MEDIA_LNK_FL_ENABLED | MEDIA_LNK_FL_IMMUTABLE)

static const char *const names[] = {"", "sirgumba-source", "sirgumba-proc", "sirgumba-sink"};

static const struct {
    uint32_t entity, flags, index;
} pads[PADS] = {
    {SOURCE, MEDIA_PAD_FL_SOURCE, 0},
    {CODEC, MEDIA_PAD_FL_SINK, 0},
    {CODEC, MEDIA_PAD_FL_SOURCE, 1},
    {SINK, MEDIA_PAD_FL_SINK, 0},
};

/* The first two are between pads, the others from the node to an entity. */
static const struct {
    uint32_t from, to, flags;
} links[LINKS] = {
    {FIRST_PAD, FIRST_PAD + 1, FIXED},
    {FIRST_PAD + 2, FIRST_PAD + 3, FIXED},
    {INTERFACE, SOURCE, MEDIA_LNK_FL_INTERFACE_LINK | FIXED},
    {INTERFACE, SINK, MEDIA_LNK_FL_INTERFACE_LINK | FIXED},
};

static int minor_of(int fd)
{
    char path[32], name[64] = "";
    int minor = 0;

    snprintf(path, sizeof(path), "/proc/self/fd/%d", fd);
    if (readlink(path, name, sizeof(name) - 1) < 0 || sscanf(name, "/memfd:sirgumba media %d", &minor) != 1)
        return -1;
    return minor;
}

/* -1 with errno ENOENT where the path is none of ours. */
int media_open(const char *path)
{
    char name[32];
    int minor;

    if (!path || sscanf(path, "/dev/media%d", &minor) != 1 || (minor != 40 && minor != 41))
        return refuse(ENOENT);
    snprintf(name, sizeof(name), "sirgumba media %d", minor);
    return memfd_create(name, MFD_CLOEXEC);
}

static int tell_device(struct media_device_info *info)
{
    memset(info, 0, sizeof(*info));
    strcpy(info->driver, "sirgumba");
    strcpy(info->model, "Sirgumba codec");
    strcpy(info->bus_info, "platform:sirgumba");
    info->media_version = info->driver_version = 0x060100;
    return 0;
}

static uint32_t function_of(int minor, uint32_t id)
{
    if (id != CODEC)
        return MEDIA_ENT_F_IO_V4L;
    return minor == 40 ? MEDIA_ENT_F_PROC_VIDEO_ENCODER : MEDIA_ENT_F_PROC_VIDEO_DECODER;
}

static void tell_entities(int minor, struct media_v2_entity *list)
{
    for (uint32_t i = 0; list && i < ENTITIES; i++) {
        list[i] = (struct media_v2_entity){.id = SOURCE + i, .function = function_of(minor, SOURCE + i)};
        strcpy(list[i].name, names[SOURCE + i]);
    }
}

static void tell_pads(struct media_v2_pad *list)
{
    for (uint32_t i = 0; list && i < PADS; i++)
        list[i] = (struct media_v2_pad){
            .id = FIRST_PAD + i, .entity_id = pads[i].entity, .flags = pads[i].flags, .index = pads[i].index};
}

static void tell_links(struct media_v2_link *list)
{
    for (uint32_t i = 0; list && i < LINKS; i++)
        list[i] = (struct media_v2_link){
            .id = FIRST_LINK + i, .source_id = links[i].from, .sink_id = links[i].to, .flags = links[i].flags};
}

#define LIST(number, type) ((struct type *)(uintptr_t)(number))

static int tell_topology(int minor, struct media_v2_topology *topology)
{
    struct media_v2_interface *interface = LIST(topology->ptr_interfaces, media_v2_interface);

    tell_entities(minor, LIST(topology->ptr_entities, media_v2_entity));
    tell_pads(LIST(topology->ptr_pads, media_v2_pad));
    tell_links(LIST(topology->ptr_links, media_v2_link));
    if (interface)
        *interface = (struct media_v2_interface){
            .id = INTERFACE, .intf_type = MEDIA_INTF_T_V4L_VIDEO, .devnode = {81, (uint32_t)minor}};
    topology->topology_version = 1;
    topology->num_entities = ENTITIES;
    topology->num_interfaces = 1;
    topology->num_pads = PADS;
    topology->num_links = LINKS;
    topology->reserved1 = topology->reserved2 = topology->reserved3 = topology->reserved4 = 0;
    return 0;
}

static int tell_entity(int minor, struct media_entity_desc *entity)
{
    uint32_t id = entity->id & ~MEDIA_ENT_ID_FLAG_NEXT;

    if (entity->id & MEDIA_ENT_ID_FLAG_NEXT)
        id++;
    if (id < SOURCE || id > SINK)
        return refuse(EINVAL);
    memset(entity, 0, sizeof(*entity));
    entity->id = id;
    strcpy(entity->name, names[id]);
    entity->type = function_of(minor, id);
    entity->pads = id == CODEC ? 2 : 1;
    entity->links = id == SINK ? 0 : 1;
    if (id != CODEC) {
        entity->dev.major = 81;
        entity->dev.minor = (uint32_t)minor;
    }
    return 0;
}

static struct media_pad_desc describe_pad(uint32_t pad)
{
    return (struct media_pad_desc){
        .entity = pads[pad].entity, .index = (uint16_t)pads[pad].index, .flags = pads[pad].flags};
}

static void tell_pads_of(const struct media_links_enum *asked)
{
    uint32_t count = 0;

    for (uint32_t i = 0; i < PADS; i++)
        if (asked->pads && pads[i].entity == asked->entity)
            asked->pads[count++] = describe_pad(i);
}

static int tell_links_of(struct media_links_enum *asked)
{
    uint32_t count = 0;

    if (asked->entity < SOURCE || asked->entity > SINK)
        return refuse(EINVAL);
    tell_pads_of(asked);
    for (uint32_t i = 0; i < 2; i++)
        if (asked->links && pads[links[i].from - FIRST_PAD].entity == asked->entity)
            asked->links[count++] = (struct media_link_desc){
                .source = describe_pad(links[i].from - FIRST_PAD),
                .sink = describe_pad(links[i].to - FIRST_PAD),
                .flags = links[i].flags,
            };
    memset(asked->reserved, 0, sizeof(asked->reserved));
    return 0;
}

int media_call(int fd, unsigned long request, void *argument)
{
    int minor = minor_of(fd);

    if (minor < 0)
        return 1;
    if (!argument)
        return refuse(request == MEDIA_IOC_DEVICE_INFO ? EFAULT : ENOTTY);
    switch (request) {
    case MEDIA_IOC_DEVICE_INFO: return tell_device(argument);
    case MEDIA_IOC_G_TOPOLOGY: return tell_topology(minor, argument);
    case MEDIA_IOC_ENUM_ENTITIES: return tell_entity(minor, argument);
    case MEDIA_IOC_ENUM_LINKS: return tell_links_of(argument);
    case MEDIA_IOC_SETUP_LINK: return refuse(EINVAL);
    default: return refuse(ENOTTY);
    }
}
