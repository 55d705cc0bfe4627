/* Events of the device, and beside them those of controls. */
#include "bridge.h"
#include "message.h"
#include <errno.h>
#include <fcntl.h>
#include <string.h>
#include <time.h>

static int unsubscribe_all(struct node *node)
{
    struct reply reply;

    ASK(&reply, OP_UNSUBSCRIBE, node->slot, V4L2_EVENT_EOS);
    ASK(&reply, OP_UNSUBSCRIBE, node->slot, V4L2_EVENT_SOURCE_CHANGE);
    node->watched = node->pending_count = 0;
    return 0;
}

int subscribe(struct node *node, int fd, struct v4l2_event_subscription *subscription, bool is_on)
{
    struct reply reply;
    int result;

    if (subscription->type == V4L2_EVENT_CTRL && supplies(SUPPLY_EVENTS))
        result = control_watch(node, subscription, is_on);
    else if (subscription->type == V4L2_EVENT_ALL && !is_on)
        result = unsubscribe_all(node);
    else
        result = ASK(&reply, is_on ? OP_SUBSCRIBE : OP_UNSUBSCRIBE, node->slot, subscription->type);
    show_ready(node, fd);
    return result;
}

static int take_device_event(struct node *node, struct v4l2_event *event)
{
    struct reply reply;

    if (ASK_PLAIN(&reply, OP_DQEVENT, node->slot) != 0)
        return -1;
    memset(event, 0, sizeof(*event));
    event->type = word(&reply, 0);
    if (event->type == V4L2_EVENT_SOURCE_CHANGE)
        event->u.src_change.changes = word(&reply, 3);
    event->pending = word(&reply, 4);
    return 0;
}

static int take_event(struct node *node, struct v4l2_event *event)
{
    if (node->pending_count == 0)
        return take_device_event(node, event);
    *event = node->pending[0];
    node->pending_count--;
    memmove(node->pending, node->pending + 1, node->pending_count * sizeof(node->pending[0]));
    event->pending = node->pending_count + (node->is_urgent && node->pending_count == 0);
    return 0;
}

int dequeue_event(struct node *node, int fd, struct v4l2_event *event)
{
    while (take_event(node, event) != 0)
        if (errno != ENOENT || fcntl(fd, F_GETFL) & O_NONBLOCK || !wait_for_ring())
            return -1;
    event->sequence = node->event_sequence++;
    clock_gettime(CLOCK_MONOTONIC, &event->timestamp);
    show_ready(node, fd);
    return 0;
}
