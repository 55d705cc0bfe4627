/*
 * Sirgumba for C: a memory-to-memory video codec device in this process.
 *
 * A device has slots. A slot is what an open file is in a V4L2 driver: it is opened as a copier, an encoder or a decoder,
 * and is then called. A call is a message of the wire (docs/FORMAT.md, "The wire"): sirgumba_answer takes the body of a
 * message and gives the body of its reply, both without the four bytes of a length. docs/DEVICE.md says what each call does.
 *
 * sirgumba_claim takes the job of the slot that waits longest, sirgumba_run runs it, and sirgumba_finish brings it back. As
 * yet the three send the messages claim and finish (jobs.c): the job stays in its device, sirgumba_run does nothing, and the
 * job runs inside of sirgumba_finish, under the caller's lock. A program that makes the three calls, each job run once and
 * outside of the lock, can stay as it is when jobs run outside of their devices.
 *
 * What a caller has to uphold:
 *
 * - A device or a job begins as SIRGUMBA_NONE. Its fields are the library's: they are neither read, nor changed, nor copied
 *   to be used twice. To hand one on, hand on its address.
 * - One call at a time on a device. Threads that share one take a lock round each call but sirgumba_run.
 * - One call at a time on a job. A job may be run by another thread than the one that claimed it, and is run before it is
 *   finished.
 * - A job goes back to the device that it was claimed from. Before a device is freed, all its jobs are finished.
 * - Pointers are not null, and what they point to is there for the call and does not overlap; a body of no bytes and a room
 *   of no bytes need an address too.
 * - malloc, realloc and free are those of one allocator. No call comes from a signal handler, or from the forked child of a
 *   process with threads.
 *
 * Nothing else is asked of a caller. Whatever bytes a message has and whatever numbers are given, a call returns, and what
 * it refuses it tells by its status.
 *
 *     static void *worker(void *shared)                // uses: pthread_mutex_t lock; sirgumba_device device; ..
 *     {
 *         sirgumba_job job = SIRGUMBA_NONE;
 *         uint32_t slot;
 *         uint8_t end;
 *         pthread_mutex_lock(&lock);
 *         while (is_wanted) {
 *             if (sirgumba_claim(&device, 0, &job, &slot) == SIRGUMBA_OK) {
 *                 pthread_mutex_unlock(&lock);
 *                 sirgumba_run(&job);
 *                 pthread_mutex_lock(&lock);
 *                 sirgumba_finish(&device, &job, &end);
 *                 pthread_cond_broadcast(&job_ended);
 *             } else {
 *                 pthread_cond_wait(&call_made, &lock);
 *             }
 *         }
 *         pthread_mutex_unlock(&lock);
 *         return shared;
 *     }
 */
#ifndef SIRGUMBA_H
#define SIRGUMBA_H

#include <stdbool.h>
#include <stddef.h>
#include <stdint.h>

#ifdef __cplusplus
extern "C" {
#endif

/* The most slots of a device, and the number of its workers, which are 0 to 15. */
#define SIRGUMBA_MOST_SLOTS 1024
#define SIRGUMBA_WORKERS 16

/* The longest body of a message: a QBuf on OUTPUT with 17,694,764 bytes. */
#define SIRGUMBA_LONGEST_MESSAGE 17694781

/* Room for any reply. All replies but that to a DqBuf on CAPTURE fit into the short room. */
#define SIRGUMBA_ROOM 17694793
#define SIRGUMBA_SHORT_ROOM 29

/* What a call came to. Where it is not SIRGUMBA_OK nothing was done, except as SIRGUMBA_NO_MEMORY says. */
typedef enum sirgumba_status {
    SIRGUMBA_OK = 0,
    SIRGUMBA_NOT_MADE = 1,       /* the device was not made, or was freed; or there is no job */
    SIRGUMBA_IN_USE = 2,         /* the device is made already; or there is a job already */
    SIRGUMBA_BAD_NUMBER = 3,     /* slots out of 1 to 1,024, or a worker out of 0 to 15 */
    SIRGUMBA_BAD_LENGTH = 4,     /* a body of no bytes, or of more than SIRGUMBA_LONGEST_MESSAGE */
    SIRGUMBA_WANTS_ROOM = 5,     /* the reply may need more room */
    SIRGUMBA_NO_MEMORY = 6,      /* memory was refused; in sirgumba_answer: for the reply, which is lost. What the message
                                    asks for was done there (to a call whose own memory is refused the reply is ENOMEM) */
    SIRGUMBA_NO_JOB = 7,         /* no slot waits for a worker */
    SIRGUMBA_BUSY = 8,           /* the worker has a job already */
    SIRGUMBA_LENT = 9,           /* not told as yet */
    SIRGUMBA_TOO_MANY_STEPS = 10 /* the device made 2^62 steps; it can only be freed */
} sirgumba_status;

/* How a job ended, as in the wire's reply to a finish. */
typedef enum sirgumba_end {
    SIRGUMBA_COPIED = 0,
    SIRGUMBA_ENCODED = 1,
    SIRGUMBA_PICTURE = 2,
    SIRGUMBA_DAMAGED = 3,
    SIRGUMBA_CHANGED = 4,
    SIRGUMBA_SPENT = 5,
    SIRGUMBA_FAULT = 6
} sirgumba_end;

/* A device. */
typedef struct sirgumba_device {
    void *at;
    bool is_made;
} sirgumba_device;

/* A job that was claimed. */
typedef struct sirgumba_job {
    void *at;
    bool is_made;
} sirgumba_job;

/* A device that is not made; a job that is none. */
#define SIRGUMBA_NONE {0, false}

/*
 * Makes a device of so many closed slots, 1 to 1,024.
 *
 * SIRGUMBA_OK, IN_USE, BAD_NUMBER, NO_MEMORY.
 */
uint32_t sirgumba_make(sirgumba_device *device, uint32_t slots);

/*
 * Frees a device with all that it has. It is SIRGUMBA_NONE afterwards.
 *
 * SIRGUMBA_OK, NOT_MADE.
 */
uint32_t sirgumba_free(sirgumba_device *device);

/*
 * Answers one message: does what its body asks for, writes the body of the reply to the front of the room, and sets
 * *reply_size to its size. A body that the wire's table does not have is answered too, by the one byte 7f.
 *
 * With SIRGUMBA_WANTS_ROOM nothing was done, and *reply_size is the room that the message wants: SIRGUMBA_ROOM for a DqBuf on
 * CAPTURE, else SIRGUMBA_SHORT_ROOM. With any other status but SIRGUMBA_OK it is 0. The bytes of the room behind the reply
 * stay as they are.
 *
 * SIRGUMBA_OK, NOT_MADE, BAD_LENGTH, WANTS_ROOM, NO_MEMORY, TOO_MANY_STEPS.
 */
uint32_t sirgumba_answer(sirgumba_device *device, const uint8_t *body, size_t body_size, uint8_t *room, size_t room_size,
                         size_t *reply_size);

/*
 * Lets a worker, 0 to 15, claim the job of the slot that waits longest, and sets *slot to that slot. The worker has the job
 * until it is finished.
 *
 * SIRGUMBA_OK, NOT_MADE, IN_USE (the job is one already), BAD_NUMBER, NO_MEMORY, NO_JOB, BUSY, TOO_MANY_STEPS.
 */
uint32_t sirgumba_claim(sirgumba_device *device, uint32_t worker, sirgumba_job *job, uint32_t *slot);

/*
 * Runs a job. A job that was run stays as it is.
 *
 * SIRGUMBA_OK, NOT_MADE.
 */
uint32_t sirgumba_run(sirgumba_job *job);

/*
 * Brings a job back to its device, and sets *end to how it ended, one of sirgumba_end. The job is SIRGUMBA_NONE afterwards.
 *
 * SIRGUMBA_OK, NOT_MADE, NO_MEMORY, TOO_MANY_STEPS.
 */
uint32_t sirgumba_finish(sirgumba_device *device, sirgumba_job *job, uint8_t *end);

#ifdef __cplusplus
}
#endif

#endif
