/* Events of controls, which the device has not. */
#include "controls.h"
#include <errno.h>
#include <string.h>

static void raise_event(struct node *node, const struct control *control, uint32_t changes)
{
    struct v4l2_event *event;
    int32_t value = 0;

    if (node->pending_count == CONTROL_EVENTS)
        return;
    event = &node->pending[node->pending_count++];
    control_get(node, control, &value);
    memset(event, 0, sizeof(*event));
    event->type = V4L2_EVENT_CTRL;
    event->id = control->id;
    event->u.ctrl.changes = changes;
    event->u.ctrl.type = control_type(control);
    event->u.ctrl.value = value;
    event->u.ctrl.flags = control->flags;
    event->u.ctrl.minimum = control->least;
    event->u.ctrl.maximum = control->most;
    event->u.ctrl.step = control->device ? 1 : 0;
    event->u.ctrl.default_value = control->standard;
}

static void drop_pending(struct node *node, uint32_t id)
{
    uint32_t kept = 0;

    for (uint32_t i = 0; i < node->pending_count; i++)
        if (node->pending[i].id != id)
            node->pending[kept++] = node->pending[i];
    node->pending_count = kept;
}

int control_watch(struct node *node, struct v4l2_event_subscription *subscription, bool is_on)
{
    const struct control *control = control_find(node, subscription->id & V4L2_CTRL_ID_MASK);
    unsigned bit;

    if (!control)
        return refuse(EINVAL);
    bit = control_bit(control);
    if (!is_on) {
        node->watched &= ~(1u << bit);
        drop_pending(node, control->id);
        return 0;
    }
    node->watched |= 1u << bit;
    node->watch_flags[bit] = subscription->flags;
    if (control->device && subscription->flags & V4L2_EVENT_SUB_FL_SEND_INITIAL)
        raise_event(node, control, V4L2_EVENT_CTRL_CH_FLAGS | V4L2_EVENT_CTRL_CH_VALUE);
    return 0;
}

/* A change is told to the descriptor that made it only where it asked for that; others have nodes of their own. */
void control_changed(struct node *node, const struct control *control)
{
    unsigned bit = control_bit(control);

    if (node->watched >> bit & 1 && node->watch_flags[bit] & V4L2_EVENT_SUB_FL_ALLOW_FEEDBACK)
        raise_event(node, control, V4L2_EVENT_CTRL_CH_VALUE);
}
