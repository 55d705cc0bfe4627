/* The kernel's codec of this family, codec-fwht.c of drivers/media/test-drivers/vicodec, from standard input to standard
 * output. Nothing is proved.
 *
 *     fwht encode | decode
 *
 * Pictures are planar 4:2:0 of 352 by 288; an I frame in ten, and quantisers of 20, as its driver has where nothing is
 * asked for. Frames have the kernel's headers. Before codec-fwht.c stands what it takes from the kernel's own headers. */
#include <arpa/inet.h>
#include <stdbool.h>
#include <stdint.h>
#include <stdio.h>
#include <stdlib.h>
#include <string.h>

typedef uint8_t u8;
typedef uint16_t u16;
typedef int16_t s16;
typedef uint32_t u32;
typedef int32_t s32;

#define BIT(n) (1u << (n))
#define noinline_for_stack __attribute__((noinline))
#define round_up(number, step) (((number) + (step) - 1) / (step) * (step))

#include "codec-fwht.c"

enum { WIDTH = 352, HEIGHT = 288, LUMA = WIDTH * HEIGHT, CHROMA = LUMA / 4, PICTURE = LUMA + 2 * CHROMA, GOP = 10, QP = 20 };

static __be16 words[PICTURE];
static u8 one[PICTURE], other[PICTURE];

static struct fwht_raw_frame frame_in(u8 *picture)
{
    return (struct fwht_raw_frame){ .width_div = 2, .height_div = 2, .luma_alpha_step = 1, .chroma_step = 1,
                                    .components_num = 3, .buf = picture, .luma = picture, .cb = picture + LUMA,
                                    .cr = picture + LUMA + CHROMA };
}

static void put(const void *bytes, size_t count)
{
    if (fwrite(bytes, 1, count, stdout) != count)
        exit(4);
}

static u32 flags_of(u32 encoding)
{
    u32 flags = 2 << V4L2_FWHT_FL_COMPONENTS_NUM_OFFSET | V4L2_FWHT_FL_PIXENC_YUV;
    flags |= encoding & FWHT_LUMA_UNENCODED ? V4L2_FWHT_FL_LUMA_IS_UNCOMPRESSED : 0;
    flags |= encoding & FWHT_CB_UNENCODED ? V4L2_FWHT_FL_CB_IS_UNCOMPRESSED : 0;
    flags |= encoding & FWHT_CR_UNENCODED ? V4L2_FWHT_FL_CR_IS_UNCOMPRESSED : 0;
    return flags | (encoding & FWHT_FRAME_PCODED ? 0 : V4L2_FWHT_FL_I_FRAME);
}

static int encode(void)
{
    struct fwht_cframe coded = { .i_frame_qp = QP, .p_frame_qp = QP, .rlc_data = words };
    struct fwht_raw_frame picture = frame_in(one), reference = frame_in(other);
    u32 since = 0;
    while (fread(one, 1, PICTURE, stdin) == PICTURE) {
        u32 encoding = fwht_encode_frame(&picture, &reference, &coded, since == 0, since == GOP - 1, WIDTH, HEIGHT, WIDTH,
                                         WIDTH / 2);
        since = encoding & FWHT_FRAME_PCODED ? since : 0;
        since = since + 1 < GOP ? since + 1 : 0;
        struct fwht_cframe_hdr header = { .magic1 = FWHT_MAGIC1, .magic2 = FWHT_MAGIC2, .version = htonl(V4L2_FWHT_VERSION),
                                          .width = htonl(WIDTH), .height = htonl(HEIGHT), .flags = htonl(flags_of(encoding)),
                                          .size = htonl(coded.size) };
        put(&header, sizeof header);
        put(words, coded.size);
    }
    return 0;
}

static int decode(void)
{
    struct fwht_cframe coded = { .rlc_data = words };
    struct fwht_cframe_hdr header;
    u8 *shown = one, *before = other;
    while (fread(&header, 1, sizeof header, stdin) == sizeof header) {
        struct fwht_raw_frame picture = frame_in(shown), reference = frame_in(before);
        coded.size = ntohl(header.size);
        if (coded.size > sizeof words || fread(words, 1, coded.size, stdin) != coded.size)
            return 3;
        if (!fwht_decode_frame(&coded, ntohl(header.flags), 3, WIDTH, HEIGHT, &reference, WIDTH, WIDTH / 2, &picture, WIDTH,
                               WIDTH / 2))
            return 6;
        put(shown, PICTURE);
        u8 *next = before;
        before = shown;
        shown = next;
    }
    return 0;
}

int main(int count, char **arguments)
{
    if (count != 2)
        return 2;
    setvbuf(stdin, NULL, _IOFBF, 65536);
    setvbuf(stdout, NULL, _IOFBF, 65536);
    int status = strcmp(arguments[1], "encode") == 0 ? encode() : strcmp(arguments[1], "decode") == 0 ? decode() : 2;
    return status == 0 && fflush(stdout) != 0 ? 4 : status;
}
