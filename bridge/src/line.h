/* A line to a device in another process: messages out and replies in, each behind its length. */
#ifndef LINE_H
#define LINE_H

#include "device.h"

/* Takes the line for this process, away from the numbers of descriptors that its program uses. */
bool line_take(int fd);

/*
 * One message and its reply, whose body has so many bytes at most. Jobs that the other side tells of before the reply are
 * kept. False: the other side is gone, or was left in the middle of an exchange.
 */
bool line_exchange(const uint8_t *body, size_t size, uint8_t *room, size_t most, size_t *reply_size);

/* The next of the jobs that were told. False: none is left. */
bool line_told(struct ended_job *job);

/* Claims a job and lets the other side run it. False: none was ready. */
bool line_run_job(struct ended_job *job);

#endif
