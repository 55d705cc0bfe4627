/* Extended controls: many in one call, of which none is done where one is wrong. */
#include "controls.h"
#include <errno.h>

static bool is_any_class(const struct v4l2_ext_controls *list)
{
    return list->which == V4L2_CTRL_WHICH_DEF_VAL || list->which == V4L2_CTRL_WHICH_CUR_VAL;
}

/* The errno of one entry, 0: it is right. */
static int fault_of(const struct node *node, const struct v4l2_ext_controls *list, uint32_t index, enum list_call what)
{
    uint32_t id = list->controls[index].id;
    const struct control *control = control_find(node, id & V4L2_CTRL_ID_MASK);

    if (!control || (!is_any_class(list) && V4L2_CTRL_ID2WHICH(id) != list->which))
        return EINVAL;
    if (what == LIST_GET)
        return control->flags & V4L2_CTRL_FLAG_WRITE_ONLY ? EACCES : 0;
    return control->flags & V4L2_CTRL_FLAG_READ_ONLY && supplies(SUPPLY_ACCESS) ? EACCES : 0;
}

static int do_entry(struct node *node, const struct v4l2_ext_controls *list, uint32_t index, enum list_call what)
{
    struct v4l2_ext_control *entry = &list->controls[index];
    const struct control *control = control_find(node, entry->id & V4L2_CTRL_ID_MASK);
    int32_t value = entry->value;
    int result = 0;

    if (list->which == V4L2_CTRL_WHICH_DEF_VAL)
        value = control->standard;
    else if (what == LIST_GET)
        result = control_get(node, control, &value);
    else
        result = control_set(node, control, &value, what == LIST_TRY);
    entry->value = value;
    entry->size = 0;
    return result;
}

static int check_list(const struct node *node, struct v4l2_ext_controls *list, enum list_call what)
{
    list->error_idx = list->count;
    list->reserved[0] = 0;
    if (list->which == V4L2_CTRL_WHICH_REQUEST_VAL || (list->which == V4L2_CTRL_WHICH_DEF_VAL && what != LIST_GET))
        return refuse(EINVAL);
    if (list->count == 0 && !is_any_class(list) && !control_has_class(node, list->which))
        return refuse(EINVAL);
    for (uint32_t i = 0; i < list->count; i++) {
        int fault = fault_of(node, list, i, what);

        if (what == LIST_TRY)
            list->error_idx = i;
        if (fault)
            return refuse(fault);
    }
    return 0;
}

int control_list(struct node *node, struct v4l2_ext_controls *list, enum list_call what)
{
    if (check_list(node, list, what) != 0)
        return -1;
    for (uint32_t i = 0; i < list->count; i++) {
        list->error_idx = i;
        if (do_entry(node, list, i, what) != 0)
            return -1;
    }
    list->error_idx = list->count;
    return 0;
}
