/* Buffers are made and looked at. */
#include "bridge.h"
#include "message.h"
#include <errno.h>
#include <string.h>

#define CAPABILITIES (V4L2_BUF_CAP_SUPPORTS_MMAP | V4L2_BUF_CAP_SUPPORTS_ORPHANED_BUFS)

static void init_buffers(struct queue *queue, int side, uint32_t first, uint32_t count, uint32_t length)
{
    for (uint32_t i = first; i < first + count; i++)
        queue->buffer[i] = (struct v4l2_buffer){
            .index = i,
            .type = side == OUT ? V4L2_BUF_TYPE_VIDEO_OUTPUT : V4L2_BUF_TYPE_VIDEO_CAPTURE,
            .memory = V4L2_MEMORY_MMAP,
            .field = V4L2_FIELD_NONE,
            .length = length,
            .flags = V4L2_BUF_FLAG_TIMESTAMP_COPY,
            .m.offset = (uint32_t)side << QUEUE_BITS | i << PLACE_BITS,
        };
}

/* The device has buffers that are longer than its format's size by CreateBufs alone. */
static int remake(struct node *node, int side, uint32_t *count, uint32_t size, uint32_t length)
{
    struct reply reply;

    if (ASK(&reply, OP_REQ_BUFS, node->slot, (uint32_t)side, length > size ? 0 : *count) != 0)
        return -1;
    if (length > size && *count) {
        if (ASK(&reply, OP_CREATE_BUFS, node->slot, (uint32_t)side, *count, length) != 0)
            return -1;
        *count = word(&reply, 1);
    } else {
        *count = word(&reply, 0);
    }
    return 0;
}

int request_buffers(struct node *node, int fd, struct v4l2_requestbuffers *request)
{
    int side = side_of(request->type);
    uint32_t length, count = request->count;
    struct format present;

    if (side < 0 || request->memory != V4L2_MEMORY_MMAP)
        return refuse(EINVAL);
    request->capabilities = CAPABILITIES;
    request->flags = 0;
    memset(request->reserved, 0, sizeof(request->reserved));
    if (device_format(node, side, &present) != 0)
        return -1;
    length = least_length(node, side, &present);
    if (remake(node, side, &count, present.size, length) != 0)
        return -1;
    if (!memory_renew(node, side) || !memory_grow(node, side, count))
        return refuse(ENOMEM);
    init_buffers(&node->queue[side], side, 0, count, length);
    request->count = count;
    show_ready(node, fd);
    return 0;
}

int create_buffers(struct node *node, struct v4l2_create_buffers *create)
{
    int side = side_of(create->format.type);
    uint32_t length = create->format.fmt.pix.sizeimage;
    struct queue *queue = &node->queue[side == CAP ? CAP : OUT];
    struct format present;
    struct reply reply;

    if (side < 0 || create->memory != V4L2_MEMORY_MMAP)
        return refuse(EINVAL);
    create->capabilities = CAPABILITIES;
    create->flags = 0;
    memset(create->reserved, 0, sizeof(create->reserved));
    create->index = queue->count;
    if (create->count == 0)
        return 0;
    if (device_format(node, side, &present) != 0)
        return -1;
    if (supplies(SUPPLY_LEAST) && length < least_length(node, side, &present))
        return refuse(EINVAL);
    if (ASK(&reply, OP_CREATE_BUFS, node->slot, (uint32_t)side, create->count, length) != 0)
        return -1;
    create->index = word(&reply, 0);
    create->count = word(&reply, 1);
    if ((queue->count == 0 && !memory_renew(node, side)) || !memory_grow(node, side, create->count))
        return refuse(ENOMEM);
    init_buffers(queue, side, create->index, create->count, length);
    return 0;
}

int query_buffer(struct node *node, struct v4l2_buffer *buffer)
{
    int side = side_of(buffer->type);
    struct reply reply;

    if (side < 0)
        return refuse(EINVAL);
    if (ASK(&reply, OP_QUERY_BUF, node->slot, (uint32_t)side, buffer->index) != 0)
        return -1;
    *buffer = node->queue[side].buffer[buffer->index];
    buffer->flags = (buffer->flags & ~(uint32_t)(V4L2_BUF_FLAG_QUEUED | V4L2_BUF_FLAG_DONE)) | word(&reply, 2);
    return 0;
}
