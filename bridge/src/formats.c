/* Formats, colour data, frame sizes, selections. */
#include "bridge.h"
#include "message.h"
#include <errno.h>
#include <string.h>

#define LONGEST_CODED 17694764u

static const struct v4l2_fmtdesc descriptions[] = {
    {.pixelformat = V4L2_PIX_FMT_GREY, .description = "8-bit Greyscale"},
    {.pixelformat = V4L2_PIX_FMT_YUV420, .description = "Planar YUV 4:2:0"},
    {.pixelformat = V4L2_PIX_FMT_NV12, .description = "Y/CbCr 4:2:0"},
    {.pixelformat = V4L2_PIX_FMT_YUYV, .description = "YUYV 4:2:2"},
    {.pixelformat = V4L2_PIX_FMT_FWHT, .description = "FWHT", .flags = V4L2_FMT_FLAG_COMPRESSED},
};

int side_of(uint32_t type)
{
    return type == V4L2_BUF_TYPE_VIDEO_OUTPUT ? OUT : type == V4L2_BUF_TYPE_VIDEO_CAPTURE ? CAP : -1;
}

/* The wire has its names with the first byte high, and the coded format under its own name. */
static uint32_t name_from_wire(uint32_t name)
{
    uint32_t fourcc = __builtin_bswap32(name);

    return fourcc == V4L2_PIX_FMT_FWHT ? coded_fourcc() : fourcc;
}

/* A name with bytes that the wire has not stands for one that the device does not know. */
static uint32_t name_to_wire(uint32_t fourcc)
{
    uint32_t name = __builtin_bswap32(fourcc == coded_fourcc() ? V4L2_PIX_FMT_FWHT : fourcc);

    for (int i = 0; i < 4; i++) {
        uint8_t byte = (uint8_t)(name >> (8 * i));

        if (byte < 0x21 || byte > 0x7e)
            return 0x3f3f3f3f;
    }
    return name;
}

static const struct v4l2_fmtdesc *description_of(uint32_t fourcc)
{
    if (fourcc == coded_fourcc())
        fourcc = V4L2_PIX_FMT_FWHT;
    for (unsigned i = 0; i < sizeof(descriptions) / sizeof(descriptions[0]); i++)
        if (descriptions[i].pixelformat == fourcc)
            return &descriptions[i];
    return NULL;
}

int enum_formats(struct node *node, struct v4l2_fmtdesc *description)
{
    int side = side_of(description->type);
    uint32_t index = description->index, type = description->type, fourcc;
    const struct v4l2_fmtdesc *known;
    struct reply reply;

    if (side < 0)
        return refuse(EINVAL);
    if (ASK(&reply, OP_ENUM_FMT, node->slot, (uint32_t)side, index) != 0)
        return -1;
    fourcc = name_from_wire(word(&reply, 0));
    known = description_of(fourcc);
    if (!known)
        return refuse(EINVAL);
    *description = *known;
    description->index = index;
    description->pixelformat = fourcc;
    description->type = type;
    if (node->kind == DECODER && side == OUT)
        description->flags |= V4L2_FMT_FLAG_DYN_RESOLUTION | V4L2_FMT_FLAG_CONTINUOUS_BYTESTREAM;
    return 0;
}

static struct format format_of(const struct reply *reply)
{
    return (struct format){name_from_wire(word(reply, 0)), word(reply, 1), word(reply, 2), word(reply, 3)};
}

int device_format(struct node *node, enum side side, struct format *format)
{
    struct reply reply;

    if (ASK(&reply, OP_GET_FMT, node->slot, side) != 0)
        return -1;
    *format = format_of(&reply);
    return 0;
}

/* The sizeimage that clients see: on an encoder's CAPTURE, where the device takes none, the one that was asked for. */
uint32_t least_length(const struct node *node, enum side side, const struct format *format)
{
    uint32_t asked = node->kind == ENCODER && side == CAP ? node->coded_size : 0;

    return format->size > asked ? format->size : asked;
}

static void put_format(const struct format *format, uint32_t size, const struct colours *colours, struct v4l2_format *put)
{
    struct v4l2_pix_format *pix = &put->fmt.pix;

    memset(&put->fmt, 0, sizeof(put->fmt));
    pix->pixelformat = format->fourcc;
    pix->width = format->width;
    pix->height = format->height;
    pix->sizeimage = size;
    pix->bytesperline = format->fourcc == coded_fourcc() ? 0 :
                        format->fourcc == V4L2_PIX_FMT_YUYV ? 2 * format->width : format->width;
    pix->field = V4L2_FIELD_NONE;
    pix->colorspace = colours->colorspace;
    pix->ycbcr_enc = colours->ycbcr_enc;
    pix->quantization = colours->quantization;
    pix->xfer_func = colours->xfer_func;
    pix->priv = V4L2_PIX_FMT_PRIV_MAGIC;
}

/* Colour data are the bridge's alone: the wire has no place for them. */
static struct colours colours_of(const struct v4l2_pix_format *pix)
{
    struct colours colours = {.colorspace = pix->colorspace};

    if (!supplies(SUPPLY_COLOURS) || colours.colorspace == 0 || colours.colorspace > V4L2_COLORSPACE_DCI_P3)
        colours.colorspace = V4L2_COLORSPACE_REC709;
    if (supplies(SUPPLY_COLOURS) && pix->priv == V4L2_PIX_FMT_PRIV_MAGIC) {
        colours.ycbcr_enc = pix->ycbcr_enc <= V4L2_YCBCR_ENC_SMPTE240M ? pix->ycbcr_enc : 0;
        colours.quantization = pix->quantization <= V4L2_QUANTIZATION_LIM_RANGE ? pix->quantization : 0;
        colours.xfer_func = pix->xfer_func <= V4L2_XFER_FUNC_SMPTE2084 ? pix->xfer_func : 0;
    }
    return colours;
}

int get_format(struct node *node, struct v4l2_format *format)
{
    int side = side_of(format->type);
    struct format present;

    if (side < 0)
        return refuse(EINVAL);
    if (device_format(node, side, &present) != 0)
        return -1;
    put_format(&present, least_length(node, side, &present), &node->colours, format);
    return 0;
}

static uint32_t asked_size(const struct node *node, int side, const struct v4l2_pix_format *pix)
{
    if (node->kind != ENCODER || side != CAP || !supplies(SUPPLY_SIZE))
        return 0;
    return pix->sizeimage < LONGEST_CODED ? pix->sizeimage : LONGEST_CODED;
}

/*
 * The size to ask the device for. On a decoder's OUTPUT it is never less than the device's own: some clients ask for half a
 * picture and then cut longer frames off, and drivers that know how long a frame can be don't let them.
 */
static uint32_t size_for_device(struct node *node, int side, const struct v4l2_pix_format *pix)
{
    struct reply reply;

    if (node->kind != DECODER || side != OUT)
        return 0;
    if (supplies(SUPPLY_FRAME) && ASK(&reply, OP_TRY_FMT, node->slot, (uint32_t)side, name_to_wire(pix->pixelformat),
                                      pix->width, pix->height, 0) == 0) {
        uint32_t least = format_of(&reply).size;

        return pix->sizeimage > least ? pix->sizeimage : least;
    }
    return pix->sizeimage;
}

static int adjust(struct node *node, struct v4l2_format *format, bool is_set)
{
    int side = side_of(format->type);
    struct v4l2_pix_format *pix = &format->fmt.pix;
    struct colours colours = side == OUT ? colours_of(pix) : node->colours;
    uint32_t asked = asked_size(node, side, pix);
    struct format present;
    struct reply reply;

    if (side < 0)
        return refuse(EINVAL);
    if (ASK(&reply, is_set ? OP_SET_FMT : OP_TRY_FMT, node->slot, (uint32_t)side, name_to_wire(pix->pixelformat),
            pix->width, pix->height, size_for_device(node, side, pix)) != 0)
        return -1;
    present = format_of(&reply);
    put_format(&present, present.size > asked ? present.size : asked, &colours, format);
    if (!is_set)
        return 0;
    node->colours = colours;
    if (side == CAP)
        node->coded_size = asked;
    return device_format(node, CAP, &node->capture);
}

int try_format(struct node *node, struct v4l2_format *format)
{
    return adjust(node, format, false);
}

int set_format(struct node *node, struct v4l2_format *format)
{
    return adjust(node, format, true);
}

int enum_sizes(struct v4l2_frmsizeenum *sizes)
{
    uint32_t fourcc = sizes->pixel_format;
    bool is_whole = fourcc == V4L2_PIX_FMT_GREY || fourcc == coded_fourcc();

    if (sizes->index > 0 || !description_of(fourcc))
        return refuse(EINVAL);
    sizes->type = V4L2_FRMSIZE_TYPE_STEPWISE;
    sizes->stepwise.min_width = sizes->stepwise.min_height = 16;
    sizes->stepwise.max_width = 4096;
    sizes->stepwise.max_height = 2160;
    sizes->stepwise.step_width = is_whole ? 1 : 2;
    sizes->stepwise.step_height = is_whole || fourcc == V4L2_PIX_FMT_YUYV ? 1 : 2;
    memset(sizes->reserved, 0, sizeof(sizes->reserved));
    return 0;
}

/* The whole picture is visible: an encoder crops its OUTPUT to it, a decoder composes it into its CAPTURE. */
int select_part(struct node *node, struct v4l2_selection *selection, bool is_set)
{
    enum side side = node->kind == ENCODER ? OUT : CAP;
    uint32_t first = node->kind == ENCODER ? V4L2_SEL_TGT_CROP : V4L2_SEL_TGT_COMPOSE;
    struct format present;

    /* V4L2 takes the multiplanar names for the same here. */
    if (selection->type == V4L2_BUF_TYPE_VIDEO_CAPTURE_MPLANE)
        selection->type = V4L2_BUF_TYPE_VIDEO_CAPTURE;
    if (selection->type == V4L2_BUF_TYPE_VIDEO_OUTPUT_MPLANE)
        selection->type = V4L2_BUF_TYPE_VIDEO_OUTPUT;
    if (side_of(selection->type) != (int)side || selection->target < first ||
        selection->target > first + (is_set ? 0 : 2))
        return refuse(EINVAL);
    if (device_format(node, side, &present) != 0)
        return -1;
    selection->r = (struct v4l2_rect){0, 0, present.width, present.height};
    selection->flags = 0;
    memset(selection->reserved, 0, sizeof(selection->reserved));
    return 0;
}
