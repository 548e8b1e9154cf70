/* The requests of a stateless decoder's driver: each is queued with its OUTPUT buffer, and waited for in turn. */
#ifndef V4L2_REQUESTS_H
#define V4L2_REQUESTS_H

#include "v4l2_driver.h"

/* Queues a surface to be decoded into. */
static bool queue_capture(const struct driver *driver, uint32_t index)
{
    struct v4l2_buffer buffer;
    struct v4l2_plane planes[VIDEO_MAX_PLANES];
    prepare(&driver->capture, &buffer, planes);
    buffer.index = index;
    tell(driver, "VIDIOC_QBUF CAPTURE index %u\n", (unsigned)index);
    return is_made(driver, driver->video, VIDIOC_QBUF, &buffer, "VIDIOC_QBUF CAPTURE");
}

/* Takes the buffer back that comes first, which has to be free of errors; which one it is, where there is a device. */
static bool dequeue(const struct driver *driver, const struct queue *queue, uint32_t *index)
{
    struct v4l2_buffer buffer;
    struct v4l2_plane planes[VIDEO_MAX_PLANES];
    prepare(queue, &buffer, planes);
    tell(driver, "VIDIOC_DQBUF %s\n", queue->name);
    if (!is_made(driver, driver->video, VIDIOC_DQBUF, &buffer, "VIDIOC_DQBUF"))
        return false;
    if (driver->video >= 0)
        *index = buffer.index;
    return is_able((buffer.flags & V4L2_BUF_FLAG_ERROR) == 0, "the device could not decode");
}

/* Waits for the end of the request that was queued first, and makes it ready to be used again. */
static bool finish_request(struct driver *driver)
{
    const struct slot *slot = &driver->slots[driver->finished % driver->output.buffers];
    struct pollfd waited = {slot->request, POLLPRI, 0};
    uint32_t index = slot->index;
    int answer = 1;
    tell(driver, "poll\n");
    do
        answer = driver->video < 0 ? 1 : poll(&waited, 1, MILLISECONDS);
    while (answer < 0 && errno == EINTR);
    if (answer == 0)
        errno = ETIMEDOUT;
    if (answer <= 0)
        return failed("poll");
    driver->finished++;
    if (!dequeue(driver, &driver->output, &index)
        || !is_able(index == slot->index, "the device gives OUTPUT buffers back in another order"))
        return false;
    tell(driver, "MEDIA_REQUEST_IOC_REINIT\n");
    return is_made(driver, slot->request, MEDIA_REQUEST_IOC_REINIT, NULL, "MEDIA_REQUEST_IOC_REINIT");
}

/* The slot for the next request, which is waited for where it is in flight; NULL where that fails. */
static struct slot *next_slot(struct driver *driver)
{
    if (driver->queued - driver->finished == driver->output.buffers && !finish_request(driver))
        return NULL;
    return &driver->slots[driver->queued % driver->output.buffers];
}

/* Queues the OUTPUT buffer of a slot, with so many bytes, and sends its request off. */
static bool queue_request(struct driver *driver, const struct slot *slot, size_t bytes, uint64_t timestamp, bool hold)
{
    struct v4l2_buffer buffer;
    struct v4l2_plane planes[VIDEO_MAX_PLANES];
    prepare(&driver->output, &buffer, planes);
    buffer.index = slot->index;
    buffer.flags = V4L2_BUF_FLAG_REQUEST_FD | (hold ? V4L2_BUF_FLAG_M2M_HOLD_CAPTURE_BUF : 0u);
    buffer.request_fd = slot->request;
    buffer.timestamp.tv_sec = (time_t)(timestamp / 1000000000u);
    buffer.timestamp.tv_usec = (suseconds_t)(timestamp % 1000000000u / 1000u);
    planes[0].bytesused = (uint32_t)bytes;
    if (driver->output.planes == 0)
        buffer.bytesused = (uint32_t)bytes;
    tell(driver, "VIDIOC_QBUF OUTPUT index %u bytes %lu timestamp %llu hold %d\nMEDIA_REQUEST_IOC_QUEUE\n", (unsigned)slot->index,
         (unsigned long)bytes, (unsigned long long)timestamp, (int)hold);
    driver->queued++;
    return is_made(driver, driver->video, VIDIOC_QBUF, &buffer, "VIDIOC_QBUF OUTPUT")
           && is_made(driver, slot->request, MEDIA_REQUEST_IOC_QUEUE, NULL, "MEDIA_REQUEST_IOC_QUEUE");
}

#endif
