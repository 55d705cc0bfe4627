/*
 * What the library refuses, and bytes of all kinds: each wrong use has its status and changes nothing, and no message stops
 * the program. It exits with the number of the line whose test fails, or 0.
 */
#include <stdlib.h>
#include <string.h>

#include "sirgumba.h"
#include "wire.h"

#define MUST(condition) do { if (!(condition)) return __LINE__; } while (0)

static uint8_t room[SIRGUMBA_ROOM];

static int devices(void)
{
    sirgumba_device device = SIRGUMBA_NONE;
    MUST(sirgumba_free(&device) == SIRGUMBA_NOT_MADE);
    MUST(sirgumba_make(&device, 0) == SIRGUMBA_BAD_NUMBER);
    MUST(sirgumba_make(&device, SIRGUMBA_MOST_SLOTS + 1) == SIRGUMBA_BAD_NUMBER);
    MUST(sirgumba_make(&device, UINT32_MAX) == SIRGUMBA_BAD_NUMBER);
    MUST(!device.is_made);
    MUST(sirgumba_make(&device, SIRGUMBA_MOST_SLOTS) == SIRGUMBA_OK);
    MUST(sirgumba_make(&device, 1) == SIRGUMBA_IN_USE);
    MUST(sirgumba_free(&device) == SIRGUMBA_OK);
    MUST(sirgumba_free(&device) == SIRGUMBA_NOT_MADE);
    MUST(sirgumba_make(&device, 1) == SIRGUMBA_OK);
    MUST(sirgumba_free(&device) == SIRGUMBA_OK);
    return 0;
}

static int messages(void)
{
    sirgumba_device device = SIRGUMBA_NONE;
    uint8_t body[32], *end = put_number(begin(body, OPEN, 0), COPIER);
    size_t size = 99, body_size = (size_t)(end - body);
    MUST(sirgumba_answer(&device, body, body_size, room, sizeof room, &size) == SIRGUMBA_NOT_MADE && size == 0);
    MUST(sirgumba_make(&device, 1) == SIRGUMBA_OK);
    MUST(sirgumba_answer(&device, body, 0, room, sizeof room, &size) == SIRGUMBA_BAD_LENGTH && size == 0);
    memset(room, 0xaa, sizeof room);
    MUST(sirgumba_answer(&device, body, body_size, room, SIRGUMBA_SHORT_ROOM - 1, &size) == SIRGUMBA_WANTS_ROOM);
    MUST(size == SIRGUMBA_SHORT_ROOM && room[0] == 0xaa);
    /* It was not opened by the call before, so it is opened by this one, and is busy for the next. */
    MUST(sirgumba_answer(&device, body, body_size, room, SIRGUMBA_SHORT_ROOM, &size) == SIRGUMBA_OK);
    MUST(size == 1 && room[0] == DONE && room[1] == 0xaa);
    MUST(sirgumba_answer(&device, body, body_size, room, SIRGUMBA_SHORT_ROOM, &size) == SIRGUMBA_OK);
    MUST(size == 5 && room[0] == REFUSED && number_at(room + 1) == 16);
    end = put_number(begin(body, TAKE, 0), CAPTURE);
    MUST(sirgumba_answer(&device, body, (size_t)(end - body), room, sizeof room - 1, &size) == SIRGUMBA_WANTS_ROOM);
    MUST(size == SIRGUMBA_ROOM);
    MUST(sirgumba_answer(&device, body, (size_t)(end - body), room, sizeof room, &size) == SIRGUMBA_OK && size == 5);
    MUST(sirgumba_free(&device) == SIRGUMBA_OK);
    return 0;
}

static int long_messages(void)
{
    sirgumba_device device = SIRGUMBA_NONE;
    size_t size;
    uint8_t *body = calloc(1, SIRGUMBA_LONGEST_MESSAGE + 1);
    MUST(body != NULL && sirgumba_make(&device, 1) == SIRGUMBA_OK);
    MUST(sirgumba_answer(&device, body, SIRGUMBA_LONGEST_MESSAGE + 1, room, sizeof room, &size) == SIRGUMBA_BAD_LENGTH);
    MUST(sirgumba_answer(&device, body, SIRGUMBA_LONGEST_MESSAGE, room, sizeof room, &size) == SIRGUMBA_OK);
    MUST(size == 1 && room[0] == 0x7f);
    begin(body, QUEUE_OUTPUT, 0);
    MUST(sirgumba_answer(&device, body, SIRGUMBA_LONGEST_MESSAGE, room, sizeof room, &size) == SIRGUMBA_OK);
    MUST(size == 5 && room[0] == REFUSED);
    MUST(sirgumba_free(&device) == SIRGUMBA_OK);
    free(body);
    return 0;
}

static int jobs(void)
{
    sirgumba_device device = SIRGUMBA_NONE;
    sirgumba_job job = SIRGUMBA_NONE;
    uint32_t slot;
    uint8_t end;
    MUST(sirgumba_run(&job) == SIRGUMBA_NOT_MADE);
    MUST(sirgumba_claim(&device, 0, &job, &slot) == SIRGUMBA_NOT_MADE);
    MUST(sirgumba_finish(&device, &job, &end) == SIRGUMBA_NOT_MADE);
    MUST(sirgumba_make(&device, 1) == SIRGUMBA_OK);
    MUST(sirgumba_claim(&device, SIRGUMBA_WORKERS, &job, &slot) == SIRGUMBA_BAD_NUMBER);
    MUST(sirgumba_claim(&device, 0, &job, &slot) == SIRGUMBA_NO_JOB && !job.is_made);
    MUST(sirgumba_finish(&device, &job, &end) == SIRGUMBA_NOT_MADE);
    MUST(sirgumba_free(&device) == SIRGUMBA_OK);
    return 0;
}

/* Bodies of random bytes, most of them with an operation and a slot in range and a fitting length. */
static int random_bodies(void)
{
    static const uint8_t sizes[] = {5, 9, 13, 17, 18, 25};
    sirgumba_device device = SIRGUMBA_NONE;
    MUST(sirgumba_make(&device, 2) == SIRGUMBA_OK);
    srand(1);
    for (int round = 0; round < 200000; round++) {
        uint8_t body[25];
        size_t size, body_size = sizes[rand() % 6];
        for (size_t i = 0; i < sizeof body; i++)
            body[i] = (uint8_t)(rand() % 8 ? i % 4 ? 0 : rand() % 3 : rand());
        body[0] = (uint8_t)(rand() % 0x23);
        MUST(sirgumba_answer(&device, body, body_size, room, sizeof room, &size) == SIRGUMBA_OK);
        MUST(size > 0 && size <= sizeof room);
    }
    MUST(sirgumba_free(&device) == SIRGUMBA_OK);
    return 0;
}

int main(void)
{
    int (*const tests[])(void) = {devices, messages, long_messages, jobs, random_bodies};
    for (size_t i = 0; i < sizeof tests / sizeof *tests; i++) {
        int line = tests[i]();
        if (line)
            return line;
    }
    return 0;
}
