/*
 * The shortest session: an IDR picture with its parameter sets is inserted, decoded and shown.
 */
#include "cupdaisy.h"

#include <stdio.h>

static const uint8_t text[] = {0, 0, 1, 0x67, 0x42, 0x00, 0x0A, 0xDA, 0x79, 0, 0, 1, 0x68, 0xCE, 0x38, 0x80,
                               0, 0, 1, 0x65, 0x88, 0x84, 0x80};

/* The host's decoder: it decodes the job by its requests into a surface, and answers that. Here the surface is a number alone. */
static uint64_t decoded(cupdaisy_session *session, uint64_t job)
{
    cupdaisy_job_input input = {0, 0, 0};
    cupdaisy_job_input_of(session, job, &input);
    return 100 + input.unit;
}

int main(void)
{
    cupdaisy_session session = CUPDAISY_NONE;
    cupdaisy_receipt receipt;
    cupdaisy_job job;
    uint64_t surface = 0;
    cupdaisy_open(&session, 16);
    cupdaisy_insert_last(&session, text, sizeof text, &receipt);
    while (cupdaisy_take(&session, &job) == CUPDAISY_DONE)
        cupdaisy_land(&session, job.number, decoded(&session, job.number));
    uint32_t status = cupdaisy_show(&session, receipt.id, &surface);
    cupdaisy_close(&session);
    printf("unit %lu, status %lu, surface %lu\n", (unsigned long)receipt.id, (unsigned long)status, (unsigned long)surface);
    return status != CUPDAISY_DONE;
}
