/*
 * Claim, run and finish, by the messages claim and finish. It isn't proved: the calls that it makes are. A job stays in its
 * device, and is run where it is finished.
 */
#include "sirgumba.h"

enum { CLAIM = 0x20, FINISH = 0x21, CLAIMED = 0x50, NONE_WAITS = 0x51, ENDED = 0x53 };

/* Sends a message of a worker. The reply is in `reply`, and its size is what is returned, 0 where there is none. */
static size_t send(sirgumba_device *device, uint8_t operation, uint32_t worker, uint8_t *reply, uint32_t *status)
{
    const uint8_t body[5] = {operation, 0, 0, 0, (uint8_t)worker};
    size_t size;
    *status = sirgumba_answer(device, body, sizeof body, reply, SIRGUMBA_SHORT_ROOM, &size);
    return *status == SIRGUMBA_OK ? size : 0;
}

uint32_t sirgumba_claim(sirgumba_device *device, uint32_t worker, sirgumba_job *job, uint32_t *slot)
{
    uint8_t reply[SIRGUMBA_SHORT_ROOM];
    uint32_t status;
    if (!device->is_made)
        return SIRGUMBA_NOT_MADE;
    if (job->is_made)
        return SIRGUMBA_IN_USE;
    if (worker >= SIRGUMBA_WORKERS)
        return SIRGUMBA_BAD_NUMBER;
    if (send(device, CLAIM, worker, reply, &status) == 0)
        return status;
    if (reply[0] != CLAIMED)
        return reply[0] == NONE_WAITS ? SIRGUMBA_NO_JOB : SIRGUMBA_BUSY;
    *slot = (uint32_t)reply[1] << 24 | (uint32_t)reply[2] << 16 | (uint32_t)reply[3] << 8 | reply[4];
    job->at = (void *)(uintptr_t)worker;
    job->is_made = true;
    return SIRGUMBA_OK;
}

uint32_t sirgumba_run(sirgumba_job *job)
{
    return job->is_made ? SIRGUMBA_OK : SIRGUMBA_NOT_MADE;
}

uint32_t sirgumba_finish(sirgumba_device *device, sirgumba_job *job, uint8_t *end)
{
    uint8_t reply[SIRGUMBA_SHORT_ROOM];
    uint32_t status;
    if (!device->is_made || !job->is_made)
        return SIRGUMBA_NOT_MADE;
    if (send(device, FINISH, (uint32_t)(uintptr_t)job->at, reply, &status) == 0)
        return status;
    *end = reply[5];
    job->is_made = false;
    return SIRGUMBA_OK;
}
