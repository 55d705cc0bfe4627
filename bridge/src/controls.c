/* The controls of the device, and what V4L2 tells of them beside their values. */
#include "bridge.h"
#include "controls.h"
#include "message.h"
#include <errno.h>
#include <string.h>

#define IN_ENCODER (1u << ENCODER)
#define IN_DECODER (1u << DECODER)
#define HEAD (V4L2_CTRL_FLAG_READ_ONLY | V4L2_CTRL_FLAG_WRITE_ONLY)
#define FIXED V4L2_CTRL_FLAG_READ_ONLY

static const struct control controls[] = {  /* ascending */
    {V4L2_CID_USER_CLASS, 0, IN_ENCODER | IN_DECODER, 0, 0, 0, HEAD, "User Controls"},
    {V4L2_CID_MIN_BUFFERS_FOR_CAPTURE, 4, IN_DECODER, 1, 1, 1, FIXED, "Min Number of Capture Buffers"},
    {V4L2_CID_MIN_BUFFERS_FOR_OUTPUT, 5, IN_ENCODER, 1, 1, 1, FIXED, "Min Number of Output Buffers"},
    {V4L2_CID_CODEC_CLASS, 0, IN_ENCODER, 0, 0, 0, HEAD, "Codec Controls"},
    {V4L2_CID_MPEG_VIDEO_GOP_SIZE, 1, IN_ENCODER, 1, 16, 10, 0, "Video GOP Size"},
    {V4L2_CID_FWHT_I_FRAME_QP, 2, IN_ENCODER, 1, 31, 20, 0, "FWHT I-Frame QP Value"},
    {V4L2_CID_FWHT_P_FRAME_QP, 3, IN_ENCODER, 1, 31, 20, 0, "FWHT P-Frame QP Value"},
};
#define CONTROLS (sizeof(controls) / sizeof(controls[0]))

_Static_assert(CONTROLS <= WATCHED, "a node has a bit for each");

const struct control *control_find(const struct node *node, uint32_t id)
{
    bool is_next = id & V4L2_CTRL_FLAG_NEXT_CTRL;
    uint32_t number = id & V4L2_CTRL_ID_MASK;

    if (id & V4L2_CTRL_FLAG_NEXT_COMPOUND && !is_next)
        return NULL;
    for (unsigned i = 0; i < CONTROLS; i++)
        if (controls[i].kinds >> node->kind & 1 &&
            (is_next ? controls[i].id > number : controls[i].id == number))
            return &controls[i];
    return NULL;
}

bool control_has_class(const struct node *node, uint32_t class)
{
    for (unsigned i = 0; i < CONTROLS; i++)
        if (controls[i].kinds >> node->kind & 1 && V4L2_CTRL_ID2WHICH(controls[i].id) == class)
            return true;
    return false;
}

unsigned control_bit(const struct control *control)
{
    return (unsigned)(control - controls);
}

uint32_t control_type(const struct control *control)
{
    return control->device ? V4L2_CTRL_TYPE_INTEGER : V4L2_CTRL_TYPE_CTRL_CLASS;
}

static int query(const struct node *node, struct v4l2_queryctrl *query)
{
    const struct control *control = control_find(node, query->id);

    if (!control)
        return refuse(EINVAL);
    memset(query, 0, sizeof(*query));
    query->id = control->id;
    query->type = control_type(control);
    strcpy((char *)query->name, control->name);
    query->minimum = control->least;
    query->maximum = control->most;
    query->step = control->device ? 1 : 0;
    query->default_value = control->standard;
    query->flags = control->flags;
    return 0;
}

static int query_extended(const struct node *node, struct v4l2_query_ext_ctrl *query)
{
    const struct control *control = control_find(node, query->id);

    if (!control)
        return refuse(EINVAL);
    memset(query, 0, sizeof(*query));
    query->id = control->id;
    query->type = control_type(control);
    strcpy(query->name, control->name);
    query->minimum = control->least;
    query->maximum = control->most;
    query->step = control->device ? 1 : 0;
    query->default_value = control->standard;
    query->flags = control->flags;
    query->elem_size = control->device ? 4 : 0;
    query->elems = 1;
    return 0;
}

int control_get(struct node *node, const struct control *control, int32_t *value)
{
    struct reply reply;

    if (control->flags & V4L2_CTRL_FLAG_WRITE_ONLY)
        return refuse(EACCES);
    if (ASK(&reply, OP_GET_CTRL, node->slot, control->device) != 0)
        return -1;
    *value = (int32_t)word(&reply, 0);
    return 0;
}

/* V4L2 clamps where the device refuses. */
int control_set(struct node *node, const struct control *control, int32_t *value, bool is_try)
{
    struct reply reply;
    int32_t before = 0;

    if (control->flags & V4L2_CTRL_FLAG_READ_ONLY && supplies(SUPPLY_ACCESS))
        return refuse(EACCES);
    if (supplies(SUPPLY_CLAMP))
        *value = *value < control->least ? control->least : *value > control->most ? control->most : *value;
    if (is_try)
        return 0;
    control_get(node, control, &before);
    if (ASK(&reply, OP_SET_CTRL, node->slot, control->device, (uint32_t)*value) != 0)
        return -1;
    if (before != *value)
        control_changed(node, control);
    return 0;
}

static int control_by_id(struct node *node, struct v4l2_control *asked, bool is_set)
{
    const struct control *control = control_find(node, asked->id & V4L2_CTRL_ID_MASK);

    if (!control)
        return refuse(EINVAL);
    return is_set ? control_set(node, control, &asked->value, false) : control_get(node, control, &asked->value);
}

int control_call(struct node *node, unsigned long request, void *argument)
{
    switch (request) {
    case VIDIOC_QUERYCTRL: return query(node, argument);
    case VIDIOC_QUERY_EXT_CTRL: return query_extended(node, argument);
    case VIDIOC_G_CTRL: return control_by_id(node, argument, false);
    case VIDIOC_S_CTRL: return control_by_id(node, argument, true);
    case VIDIOC_G_EXT_CTRLS: return control_list(node, argument, LIST_GET);
    case VIDIOC_S_EXT_CTRLS: return control_list(node, argument, LIST_SET);
    case VIDIOC_TRY_EXT_CTRLS: return control_list(node, argument, LIST_TRY);
    case VIDIOC_QUERYMENU: return refuse(EINVAL);
    default: return refuse(ENOTTY);
    }
}
