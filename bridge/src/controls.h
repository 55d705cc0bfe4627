/* What the three files on controls have in common. */
#ifndef CONTROLS_H
#define CONTROLS_H

#include "bridge.h"

struct control {
    uint32_t id, device;    /* device 0: the head of a class, which only V4L2 has */
    unsigned kinds;         /* a bit for each kind of node that has it */
    int32_t least, most, standard;
    uint32_t flags;
    const char *name;
};

/* controls.c: the control of that number, or with V4L2_CTRL_FLAG_NEXT_CTRL the first one behind it. */
const struct control *control_find(const struct node *node, uint32_t id);
bool control_has_class(const struct node *node, uint32_t class);
unsigned control_bit(const struct control *control);
uint32_t control_type(const struct control *control);
int control_get(struct node *node, const struct control *control, int32_t *value);
int control_set(struct node *node, const struct control *control, int32_t *value, bool is_try);

/* control_list.c: the extended controls. */
enum list_call { LIST_GET, LIST_SET, LIST_TRY };
int control_list(struct node *node, struct v4l2_ext_controls *list, enum list_call what);

/* control_events.c */
void control_changed(struct node *node, const struct control *control);

#endif
