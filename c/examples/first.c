/*
 * One copying context: the bytes 00ff go in on OUTPUT and come out on CAPTURE with their stamp 7. It prints the lines of
 * examples/first.out. The job is claimed, run and finished by the one thread that there is.
 */
#include <stdio.h>
#include <stdlib.h>

#include "sirgumba.h"
#include "wire.h"

static const char *const ends[] = {"copied", "encoded", "picture", "damaged", "changed", "spent", "fault"};
static sirgumba_device device = SIRGUMBA_NONE;
static uint8_t room[SIRGUMBA_ROOM];

static void must(uint32_t status, const char *what)
{
    if (status != SIRGUMBA_OK) {
        fprintf(stderr, "%s: status %u\n", what, status);
        exit(1);
    }
}

/* Sends the message that ends at `end`, and prints the reply as a script does. */
static void call(const char *verb, const uint8_t *body, const uint8_t *end, enum side side)
{
    size_t size;
    must(sirgumba_answer(&device, body, (size_t)(end - body), room, sizeof room, &size), verb);
    printf("%u %s", number_at(body + 1), verb);
    if (room[0] == DONE) {
        printf(" ok");
    } else if (room[0] == COUNT) {
        printf(" ok %u", number_at(room + 1));
    } else if (room[0] == TAKEN) {
        printf(" ok %u %u %x %u %u ", number_at(room + 1), number_at(room + 5), number_at(room + 9), number_at(room + 17),
               number_at(room + 25));
        for (size_t i = TAKEN_FIELDS; i < size; i++)
            printf("%02x", room[i]);
        if (side == OUTPUT || size == TAKEN_FIELDS)
            printf("-");
    } else {
        printf(" reply %02x", room[0]);
    }
    printf("\n");
}

/* A call with one number. */
static void call_with(const char *verb, enum operation operation, uint32_t number)
{
    uint8_t body[64];
    call(verb, body, put_number(begin(body, operation, 0), number), (enum side)number);
}

/* Asks for one buffer on a side. */
static void request(enum side side)
{
    uint8_t body[64];
    call("req", body, put_number(put_number(begin(body, REQUEST_BUFFERS, 0), (uint32_t)side), 1), side);
}

static void run_job(void)
{
    sirgumba_job job = SIRGUMBA_NONE;
    uint32_t slot;
    uint8_t end;
    must(sirgumba_claim(&device, 0, &job, &slot), "claim");
    printf("%u claim\n", slot);
    must(sirgumba_run(&job), "run");
    must(sirgumba_finish(&device, &job, &end), "finish");
    printf("%u finish %s\n", slot, ends[end]);
}

int main(void)
{
    uint8_t body[64], *at;
    must(sirgumba_make(&device, 16), "make");
    call_with("open", OPEN, COPIER);
    request(OUTPUT);
    request(CAPTURE);
    at = put_queue(begin(body, QUEUE_OUTPUT, 0), 0, 7);
    *at++ = 0x00;
    *at++ = 0xff;
    call("q", body, at, OUTPUT);
    call_with("q", QUEUE_CAPTURE, 0);
    call_with("on", STREAM_ON, OUTPUT);
    call_with("on", STREAM_ON, CAPTURE);
    run_job();
    call_with("dq", TAKE, CAPTURE);
    call_with("dq", TAKE, OUTPUT);
    must(sirgumba_free(&device), "free");
    return 0;
}
