/*
 * Encodes a picture and decodes the frame: `picture WIDTH HEIGHT <picture.yu12 >decoded.yu12`, the size of the frame on the
 * standard error. A second thread runs the jobs, and takes the lock but for that.
 */
#include <pthread.h>
#include <stdio.h>
#include <stdlib.h>

#include "sirgumba.h"
#include "wire.h"

static pthread_mutex_t lock = PTHREAD_MUTEX_INITIALIZER;
static pthread_cond_t changed = PTHREAD_COND_INITIALIZER;
static sirgumba_device device = SIRGUMBA_NONE;
static bool is_over;

/* Only the main thread makes calls, so there is one of each: a body, one with bytes to be queued, and a room for replies. */
static uint8_t body[64];
static uint8_t queued[SIRGUMBA_LONGEST_MESSAGE];
static uint8_t room[SIRGUMBA_ROOM];

static void fail(const char *what, uint32_t number)
{
    fprintf(stderr, "%s: %u\n", what, number);
    exit(1);
}

/* Claims jobs, runs each and brings it back, until all is over. */
static void *work(void *none)
{
    sirgumba_job job = SIRGUMBA_NONE;
    uint32_t slot;
    uint8_t end;
    pthread_mutex_lock(&lock);
    while (!is_over) {
        if (sirgumba_claim(&device, 0, &job, &slot) == SIRGUMBA_OK) {
            pthread_mutex_unlock(&lock);
            sirgumba_run(&job);
            pthread_mutex_lock(&lock);
            sirgumba_finish(&device, &job, &end);
            pthread_cond_broadcast(&changed);
        } else {
            pthread_cond_wait(&changed, &lock);
        }
    }
    pthread_mutex_unlock(&lock);
    return none;
}

/* Sends a message, again after each change where it blocks. Gives the size of the reply. */
static size_t call(const uint8_t *message, const uint8_t *end)
{
    size_t size;
    uint32_t status;
    pthread_mutex_lock(&lock);
    for (;;) {
        status = sirgumba_answer(&device, message, (size_t)(end - message), room, sizeof room, &size);
        pthread_cond_broadcast(&changed);
        if (status != SIRGUMBA_OK || room[0] != BLOCKED)
            break;
        pthread_cond_wait(&changed, &lock);
    }
    pthread_mutex_unlock(&lock);
    if (status != SIRGUMBA_OK)
        fail("a message was not answered, status", status);
    if (room[0] == REFUSED)
        fail("a call was refused, errno", number_at(room + 1));
    return size;
}

static void call_with(uint32_t slot, enum operation operation, uint32_t number)
{
    call(body, put_number(begin(body, operation, slot), number));
}

static void set_format(uint32_t slot, const char *name, uint32_t width, uint32_t height)
{
    call(body, put_format(begin(body, SET_FORMAT, slot), OUTPUT, name, width, height));
}

/* Asks for one buffer on a side. */
static void request(uint32_t slot, enum side side)
{
    call(body, put_number(put_number(begin(body, REQUEST_BUFFERS, slot), (uint32_t)side), 1));
}

/* Queues the bytes that stand behind the fields in `queued`. */
static void queue(uint32_t slot, size_t size)
{
    call(queued, put_queue(begin(queued, QUEUE_OUTPUT, slot), 0, 0) + size);
}

/* Waits for a buffer of CAPTURE: its bytes stand behind the fields in `room`. */
static size_t take(uint32_t slot)
{
    return call(body, put_number(begin(body, TAKE_WAITING, slot), CAPTURE)) - TAKEN_FIELDS;
}

/* The picture behind the fields in `queued` becomes a frame behind those in `room`. */
static size_t encode(uint32_t slot, size_t size, uint32_t width, uint32_t height)
{
    call_with(slot, OPEN, ENCODER);
    set_format(slot, "YU12", width, height);
    request(slot, OUTPUT);
    request(slot, CAPTURE);
    queue(slot, size);
    call_with(slot, QUEUE_CAPTURE, 0);
    call_with(slot, STREAM_ON, OUTPUT);
    call_with(slot, STREAM_ON, CAPTURE);
    return take(slot);
}

/* The frame behind the fields in `queued` becomes a picture behind those in `room`. */
static size_t decode(uint32_t slot, size_t size, uint32_t width, uint32_t height)
{
    const uint32_t source_change = 5;
    call_with(slot, OPEN, DECODER);
    call_with(slot, SUBSCRIBE, source_change);
    set_format(slot, "FWHT", width, height);
    request(slot, OUTPUT);
    queue(slot, size);
    call_with(slot, STREAM_ON, OUTPUT);
    call(body, begin(body, EVENT_WAITING, slot));
    request(slot, CAPTURE);
    call_with(slot, QUEUE_CAPTURE, 0);
    call_with(slot, STREAM_ON, CAPTURE);
    return take(slot);
}

int main(int count, char **words)
{
    pthread_t worker;
    if (count != 3)
        fail("words wanted: WIDTH HEIGHT, and not so many", (uint32_t)count - 1);
    uint32_t width = (uint32_t)atoi(words[1]), height = (uint32_t)atoi(words[2]);
    size_t size = fread(queued + QUEUE_FIELDS, 1, sizeof queued - QUEUE_FIELDS, stdin);
    uint32_t status = sirgumba_make(&device, 2);
    if (status != SIRGUMBA_OK)
        fail("no device, status", status);
    pthread_create(&worker, NULL, work, NULL);

    size_t frame_size = encode(0, size, width, height);
    fprintf(stderr, "a frame of %zu bytes\n", frame_size);
    memcpy(queued + QUEUE_FIELDS, room + TAKEN_FIELDS, frame_size);
    size_t picture_size = decode(1, frame_size, width, height);
    fwrite(room + TAKEN_FIELDS, 1, picture_size, stdout);

    pthread_mutex_lock(&lock);
    is_over = true;
    pthread_cond_broadcast(&changed);
    pthread_mutex_unlock(&lock);
    pthread_join(worker, NULL);
    sirgumba_free(&device);
    return 0;
}
