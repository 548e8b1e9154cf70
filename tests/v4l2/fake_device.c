/*
 * A stateless decoder that isn't there: a library to be loaded before the C library (LD_PRELOAD), which answers the calls of
 * examples/v4l2_driver.h and examples/v4l2_requests.h for the devices named fake-video and fake-media, and stops the program where a
 * call isn't allowed. It decodes no request before the program waits for one, and then all that are queued up to that one. For
 * each request it writes a line to the file that FAKE_LOG names, which tests/python/device.py reads:
 *     request TIMESTAMP CAPTURE HOLD WAITING BYTES CONTROL=VALUE ..
 * TIMESTAMP is that of the OUTPUT buffer, CAPTURE the place of the buffer that is decoded into, WAITING how many requests were
 * queued behind it, BYTES and each VALUE are hexadecimal digits, CONTROL is the number of a control after the first one of its
 * class. A line `format WIDTH HEIGHT` is written for each format that is set. In the environment:
 *     FAKE_PLANES=0        it is a device without planes
 *     FAKE_SMALL=1         its formats are of 32 x 32 samples, whatever is asked
 *     FAKE_FORMAT=1        its coded format is another one
 *     FAKE_SURFACES=N      it gives N CAPTURE buffers at most
 *     FAKE_MATRICES=0      it has no control for scaling matrices
 *     FAKE_LEAST=N         its formats are of N x N samples at least
 */
#define _GNU_SOURCE
#include <errno.h>
#include <fcntl.h>
#include <linux/media.h>
#include <linux/videodev2.h>
#include <poll.h>
#include <stdarg.h>
#include <stdbool.h>
#include <stdint.h>
#include <stdio.h>
#include <stdlib.h>
#include <string.h>
#include <sys/mman.h>
#include <sys/syscall.h>
#include <unistd.h>

enum { MOST_CONTROLS = 16, ROOM = 4194304, MOST_BUFFERS = 32, MOST_REQUESTS = 16 };

/* A request, with its controls and its OUTPUT buffer. */
struct request {
    int file;
    struct {
        uint32_t id;
        uint32_t size;
        uint8_t bytes[2048];
    } controls[MOST_CONTROLS];
    size_t control_count;
    struct v4l2_buffer output;
    uint32_t bytes;
    bool has_output;
    bool is_queued;
    bool is_done;
};

static int video = -1;
static int media = -1;
static FILE *record;
static struct request requests[MOST_REQUESTS];
static size_t request_count;
static struct request *queued[MOST_REQUESTS]; /* in order */
static size_t queued_count;
static struct request *done[MOST_REQUESTS]; /* whose OUTPUT buffers weren't taken back yet, in order */
static size_t done_count;
static uint8_t *outputs[MOST_REQUESTS];
static uint32_t captures[MOST_BUFFERS]; /* queued, in order */
static size_t capture_count;
static size_t captures_done; /* of these */
static uint32_t output_buffers;
static uint32_t capture_buffers;
static bool is_streaming[2];
static uint32_t width; /* of the format that was set */
static uint32_t height;

static void refuse(const char *what)
{
    fprintf(stderr, "fake_device: %s\n", what);
    abort();
}

/* The number that a variable of the environment has. */
static uint32_t number_of(const char *name, uint32_t usual)
{
    const char *word = getenv(name);
    return word == NULL ? usual : (uint32_t)strtoul(word, NULL, 10);
}

static bool has_planes(void)
{
    return number_of("FAKE_PLANES", 1) != 0;
}

static void open_record(void)
{
    if (record == NULL)
        record = fopen(getenv("FAKE_LOG") != NULL ? getenv("FAKE_LOG") : "/dev/null", "w");
    if (record == NULL)
        refuse("FAKE_LOG can't be written");
}

static bool is_output(uint32_t type)
{
    bool is = type == (has_planes() ? V4L2_BUF_TYPE_VIDEO_OUTPUT_MPLANE : V4L2_BUF_TYPE_VIDEO_OUTPUT);
    if (!is && type != (has_planes() ? V4L2_BUF_TYPE_VIDEO_CAPTURE_MPLANE : V4L2_BUF_TYPE_VIDEO_CAPTURE))
        refuse("a queue of another type");
    return is;
}

int open(const char *path, int flags, ...)
{
    mode_t mode = 0;
    if ((flags & O_CREAT) != 0) {
        va_list words;
        va_start(words, flags);
        mode = va_arg(words, mode_t);
        va_end(words);
    }
    bool is_video = strcmp(path, "fake-video") == 0;
    bool is_media = strcmp(path, "fake-media") == 0;
    int file = (int)syscall(SYS_openat, AT_FDCWD, is_video || is_media ? "/dev/null" : path, flags, mode);
    if (is_video)
        video = file;
    if (is_media)
        media = file;
    return file;
}

void *mmap(void *at, size_t length, int able, int flags, int file, off_t offset)
{
    if (file < 0 || file != video)
        return (void *)syscall(SYS_mmap, at, length, able, flags, file, offset);
    if (offset / ROOM >= output_buffers || outputs[offset / ROOM] != NULL)
        refuse("an OUTPUT buffer that isn't there, or is mapped");
    uint8_t *output = (uint8_t *)syscall(SYS_mmap, NULL, length, PROT_READ | PROT_WRITE, MAP_PRIVATE | MAP_ANONYMOUS, -1, 0);
    outputs[offset / ROOM] = output;
    return output;
}

int munmap(void *at, size_t length)
{
    for (size_t i = 0; i < MOST_REQUESTS; i++)
        if (outputs[i] == at)
            outputs[i] = NULL;
    return (int)syscall(SYS_munmap, at, length);
}

static struct request *request_of(int file)
{
    for (size_t i = 0; i < request_count; i++)
        if (requests[i].file == file)
            return &requests[i];
    return NULL;
}

static void put_digits(const uint8_t *bytes, size_t count)
{
    for (size_t i = 0; i < count; i++)
        fprintf(record, "%02x", (unsigned)bytes[i]);
}

static void set_controls(const struct v4l2_ext_controls *all)
{
    if (all->which != V4L2_CTRL_WHICH_REQUEST_VAL)
        return;
    struct request *request = request_of(all->request_fd);
    if (request == NULL || request->is_queued || request->is_done)
        refuse("controls of no request, or of one that is queued");
    for (uint32_t i = 0; i < all->count; i++) {
        const struct v4l2_ext_control *control = &all->controls[i];
        if (request->control_count >= MOST_CONTROLS || control->size > sizeof request->controls[0].bytes || control->size == 0
            || (control->id == V4L2_CID_STATELESS_H264_SCALING_MATRIX && number_of("FAKE_MATRICES", 1) == 0))
            refuse("a control that it doesn't know");
        request->controls[request->control_count].id = control->id - V4L2_CID_CODEC_STATELESS_BASE;
        request->controls[request->control_count].size = control->size;
        memcpy(request->controls[request->control_count].bytes, control->ptr, control->size);
        request->control_count++;
    }
}

static void queue(const struct v4l2_buffer *buffer)
{
    if (!is_output(buffer->type)) {
        if (buffer->index >= capture_buffers || capture_count >= MOST_BUFFERS)
            refuse("a CAPTURE buffer that isn't there");
        for (size_t i = 0; i < capture_count; i++)
            if (captures[i] == buffer->index)
                refuse("a CAPTURE buffer that is queued already");
        captures[capture_count++] = buffer->index;
        return;
    }
    struct request *request = (buffer->flags & V4L2_BUF_FLAG_REQUEST_FD) != 0 ? request_of(buffer->request_fd) : NULL;
    if (request == NULL || request->is_queued || request->is_done || request->has_output)
        refuse("an OUTPUT buffer of no request, or of one that has one");
    if (buffer->index >= output_buffers || outputs[buffer->index] == NULL)
        refuse("an OUTPUT buffer that isn't there");
    for (size_t i = 0; i < request_count; i++)
        if (requests[i].has_output && requests[i].output.index == buffer->index)
            refuse("an OUTPUT buffer that is queued already");
    request->output = *buffer;
    request->bytes = has_planes() ? buffer->m.planes[0].bytesused : buffer->bytesused;
    request->has_output = true;
}

static void dequeue(struct v4l2_buffer *buffer)
{
    if (is_output(buffer->type)) {
        if (done_count == 0)
            refuse("no OUTPUT buffer is done");
        buffer->index = done[0]->output.index;
        done[0]->has_output = false;
        done_count--;
        memmove(done, done + 1, done_count * sizeof done[0]);
        return;
    }
    if (captures_done == 0)
        refuse("no CAPTURE buffer is done");
    buffer->index = captures[0];
    captures_done--;
    capture_count--;
    memmove(captures, captures + 1, capture_count * sizeof captures[0]);
}

static void send_off(struct request *request)
{
    if (request->is_queued || request->is_done || !request->has_output || request->control_count == 0 || !is_streaming[0]
        || !is_streaming[1])
        refuse("a request that isn't whole");
    request->is_queued = true;
    queued[queued_count++] = request;
}

/* Decodes the request that was queued first: what would be decoded is written down. */
static void run(void)
{
    struct request *request = queued[0];
    const struct timeval *at = &request->output.timestamp;
    unsigned long long timestamp = (unsigned long long)at->tv_sec * 1000000000u + (unsigned long long)at->tv_usec * 1000u;
    bool is_held = (request->output.flags & V4L2_BUF_FLAG_M2M_HOLD_CAPTURE_BUF) != 0;
    if (capture_count == captures_done)
        refuse("a request without a CAPTURE buffer");
    queued_count--;
    memmove(queued, queued + 1, queued_count * sizeof queued[0]);
    open_record();
    fprintf(record, "request %llu %u %d %u ", timestamp, (unsigned)captures[captures_done], (int)is_held, (unsigned)queued_count);
    put_digits(outputs[request->output.index], request->bytes);
    for (size_t i = 0; i < request->control_count; i++) {
        fprintf(record, " %u=", (unsigned)request->controls[i].id);
        put_digits(request->controls[i].bytes, request->controls[i].size);
    }
    fprintf(record, "\n");
    fflush(record);
    request->is_queued = false;
    request->is_done = true;
    done[done_count++] = request;
    captures_done += !is_held;
}

static int new_request(void)
{
    if (request_count == MOST_REQUESTS)
        refuse("a request more");
    requests[request_count].file = (int)syscall(SYS_openat, AT_FDCWD, "/dev/null", O_RDWR, 0);
    return requests[request_count++].file;
}

/* A width or a height, as the device makes it. */
static uint32_t fitted(uint32_t asked)
{
    uint32_t least = number_of("FAKE_LEAST", 0);
    return number_of("FAKE_SMALL", 0) != 0 ? 32 : asked < least ? least : asked;
}

static void set_format(struct v4l2_format *format)
{
    if (!is_output(format->type))
        refuse("the format of CAPTURE is the device's");
    if (output_buffers != 0 || capture_buffers != 0)
        refuse("a format is set while there are buffers");
    uint32_t coded = number_of("FAKE_FORMAT", 0) != 0 ? V4L2_PIX_FMT_HEVC_SLICE : V4L2_PIX_FMT_H264_SLICE;
    width = fitted(has_planes() ? format->fmt.pix_mp.width : format->fmt.pix.width);
    height = fitted(has_planes() ? format->fmt.pix_mp.height : format->fmt.pix.height);
    if (has_planes()) {
        format->fmt.pix_mp.pixelformat = coded;
        format->fmt.pix_mp.width = width;
        format->fmt.pix_mp.height = height;
    } else {
        format->fmt.pix.pixelformat = coded;
        format->fmt.pix.width = width;
        format->fmt.pix.height = height;
    }
    open_record();
    fprintf(record, "format %u %u\n", (unsigned)width, (unsigned)height);
}

static void get_format(struct v4l2_format *format)
{
    if (has_planes()) {
        format->fmt.pix_mp.num_planes = 2;
        format->fmt.pix_mp.width = width;
        format->fmt.pix_mp.height = height;
    } else {
        format->fmt.pix.width = width;
        format->fmt.pix.height = height;
    }
}

static void give_buffers(struct v4l2_requestbuffers *asked)
{
    bool is = is_output(asked->type);
    uint32_t most = is ? MOST_REQUESTS : number_of("FAKE_SURFACES", MOST_BUFFERS);
    if (is_streaming[is])
        refuse("buffers are asked for while the queue streams");
    for (size_t i = 0; is && i < MOST_REQUESTS; i++)
        if (outputs[i] != NULL)
            refuse("OUTPUT buffers are freed that are mapped");
    asked->count = asked->count < most ? asked->count : most;
    asked->capabilities = V4L2_BUF_CAP_SUPPORTS_MMAP | V4L2_BUF_CAP_SUPPORTS_REQUESTS | V4L2_BUF_CAP_SUPPORTS_M2M_HOLD_CAPTURE_BUF;
    *(is ? &output_buffers : &capture_buffers) = asked->count;
}

static void stop_stream(bool is)
{
    if (queued_count != 0 || done_count != 0 || capture_count != 0)
        refuse("a queue is stopped while buffers are out");
    is_streaming[is] = false;
}

static int of_video(unsigned long call, void *argument)
{
    struct v4l2_buffer *buffer = (struct v4l2_buffer *)argument;
    switch (call) {
    case VIDIOC_QUERYCAP:
        ((struct v4l2_capability *)argument)->capabilities = has_planes() ? V4L2_CAP_VIDEO_M2M_MPLANE : V4L2_CAP_VIDEO_M2M;
        return 0;
    case VIDIOC_S_FMT:
        set_format((struct v4l2_format *)argument);
        return 0;
    case VIDIOC_G_FMT:
        get_format((struct v4l2_format *)argument);
        return 0;
    case VIDIOC_QUERY_EXT_CTRL:
        errno = EINVAL;
        return number_of("FAKE_MATRICES", 1) != 0 ? 0 : -1;
    case VIDIOC_S_EXT_CTRLS:
        set_controls((const struct v4l2_ext_controls *)argument);
        return 0;
    case VIDIOC_REQBUFS:
        give_buffers((struct v4l2_requestbuffers *)argument);
        return 0;
    case VIDIOC_QUERYBUF:
        *(has_planes() ? &buffer->m.planes[0].length : &buffer->length) = ROOM;
        *(has_planes() ? &buffer->m.planes[0].m.mem_offset : &buffer->m.offset) = buffer->index * ROOM;
        return 0;
    case VIDIOC_QBUF:
        queue(buffer);
        return 0;
    case VIDIOC_DQBUF:
        dequeue(buffer);
        return 0;
    case VIDIOC_STREAMON:
        is_streaming[is_output(*(const uint32_t *)argument)] = true;
        return 0;
    case VIDIOC_STREAMOFF:
        stop_stream(is_output(*(const uint32_t *)argument));
        return 0;
    default:
        errno = ENOTTY;
        return -1;
    }
}

int ioctl(int file, unsigned long call, ...)
{
    va_list words;
    va_start(words, call);
    void *argument = va_arg(words, void *);
    va_end(words);
    struct request *request = file >= 0 ? request_of(file) : NULL;
    if (file >= 0 && file == video)
        return of_video(call, argument);
    if (file >= 0 && file == media && call == MEDIA_IOC_REQUEST_ALLOC) {
        *(int *)argument = new_request();
        return 0;
    }
    if (request != NULL && call == MEDIA_REQUEST_IOC_QUEUE) {
        send_off(request);
        return 0;
    }
    if (request != NULL && call == MEDIA_REQUEST_IOC_REINIT) {
        if (request->is_queued || !request->is_done || request->has_output)
            refuse("a request that isn't finished");
        request->is_done = false;
        request->control_count = 0;
        return 0;
    }
    return (int)syscall(SYS_ioctl, file, call, argument);
}

int poll(struct pollfd *files, nfds_t count, int milliseconds)
{
    struct request *request = count == 1 ? request_of(files[0].fd) : NULL;
    if (request == NULL)
        return (int)syscall(SYS_poll, files, count, milliseconds);
    while (request->is_queued)
        run();
    files[0].revents = request->is_done ? POLLPRI : 0;
    return request->is_done;
}
