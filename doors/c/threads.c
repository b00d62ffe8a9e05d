/* The calls of the C door on several threads at once: each records batches of its own, checks and reads the traces, and
   records what was read once more. */
#include "gotymbe.h"
#include <pthread.h>
#include <stdio.h>
#include <stdlib.h>

enum { THREADS = 4, TURNS = 300, ROOM = 20000 };

/* Whether a batch of events comes back. */
static bool comes_back(uint64_t thread, int turn, uint8_t *room, uint8_t *trace, uint8_t *read, uint8_t *again) {
    trace_report report;
    trace_batch batch = {room, ROOM, 0};
    trace_schema(&batch, 1, "Poll", 1);
    trace_field(&batch, "worker", TRACE_VARINT);
    trace_annotations(&batch, 0);
    uint64_t count = 50 + (thread + (uint64_t)turn) % 50;
    for (uint64_t i = 0; i < count; i++) {
        trace_event(&batch, 1, 1000 + i, 1);
        trace_number(&batch, i * thread);
    }
    if (trace_record(batch.bytes, batch.length, trace, ROOM, &report) != TRACE_DONE)
        return false;
    size_t length = report.length;
    if (trace_check(trace, length, &report) != TRACE_DONE || report.events != count)
        return false;
    if (trace_read(read, 0, trace, length, UINT64_MAX, read, ROOM, &report) != TRACE_DONE || report.events != count)
        return false;
    return trace_record(read, report.length, again, ROOM, &report) == TRACE_DONE && report.length == length
        && !memcmp(again, trace, length);
}

static void *work(void *thread) {
    uint8_t *rooms = malloc(4 * ROOM);
    uintptr_t failures = !rooms;
    for (int turn = 0; rooms && turn < TURNS; turn++)
        failures += !comes_back((uintptr_t)thread, turn, rooms, rooms + ROOM, rooms + 2 * ROOM, rooms + 3 * ROOM);
    free(rooms);
    return (void *)failures;
}

int main(void) {
    pthread_t threads[THREADS];
    uintptr_t failures = 0;
    for (uintptr_t i = 0; i < THREADS; i++)
        if (pthread_create(&threads[i], NULL, work, (void *)i))
            return 2;
    for (int i = 0; i < THREADS; i++) {
        void *found = NULL;
        failures += pthread_join(threads[i], &found) ? 1 : (uintptr_t)found;
    }
    printf("C: %d threads, %d batches each, %d fail\n", THREADS, TURNS, (int)failures);
    return failures != 0;
}
