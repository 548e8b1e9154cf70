/*
 * Tells each ioctl and poll of a program that is linked with -Wl,--wrap=ioctl,--wrap=poll, a line each in the file that TOLD_CALLS
 * names: its name, what it was given and what came back, and FAILED where it failed. In the file that TOLD_BYTES names are the bytes of
 * the OUTPUT buffers as the driver visl kept them (debugfs, a file a buffer), each after a line with its number and its size: it
 * clears them when its queues stop and when its device is closed, so they are kept before that.
 *
 *     TOLD_SLOW=1                      CAPTURE buffers are queued no sooner than the program waits for a request: until then the
 *                                      driver has nothing to decode into, and the requests wait in the kernel
 *     TOLD_SPOIL=CONTROL:PLACE:BITS    turns bits of a byte of a control of each request before the driver sees it; CONTROL is the
 *                                      control's number after the first one of its class
 */
#define _GNU_SOURCE
#include <errno.h>
#include <linux/media.h>
#include <linux/videodev2.h>
#include <poll.h>
#include <stdarg.h>
#include <stdio.h>
#include <stdlib.h>
#include <string.h>
#include <sys/ioctl.h>

int __real_ioctl(int file, unsigned long call, void *argument);
int __wrap_ioctl(int file, unsigned long call, void *argument);
int __real_poll(struct pollfd *files, nfds_t count, int milliseconds);
int __wrap_poll(struct pollfd *files, nfds_t count, int milliseconds);

static FILE *told;

static const struct {
    unsigned long call;
    const char *name;
} names[] = {
    {VIDIOC_QUERYCAP, "QUERYCAP"}, {VIDIOC_QUERY_EXT_CTRL, "QUERY_EXT_CTRL"}, {VIDIOC_S_FMT, "S_FMT"}, {VIDIOC_G_FMT, "G_FMT"},
    {VIDIOC_S_EXT_CTRLS, "S_EXT_CTRLS"}, {VIDIOC_REQBUFS, "REQBUFS"}, {VIDIOC_QUERYBUF, "QUERYBUF"}, {VIDIOC_QBUF, "QBUF"},
    {VIDIOC_DQBUF, "DQBUF"}, {VIDIOC_STREAMON, "STREAMON"}, {VIDIOC_STREAMOFF, "STREAMOFF"},
    {MEDIA_IOC_REQUEST_ALLOC, "REQUEST_ALLOC"}, {MEDIA_REQUEST_IOC_QUEUE, "REQUEST_QUEUE"},
    {MEDIA_REQUEST_IOC_REINIT, "REQUEST_REINIT"},
};

/* CAPTURE buffers that the program queued and that the driver doesn't have yet. */
enum { MOST_WAITING = 64 };
static struct {
    int file;
    struct v4l2_buffer buffer;
    struct v4l2_plane planes[VIDEO_MAX_PLANES];
} waiting[MOST_WAITING];
static unsigned waiting_count;

static void keep_bytes(void)
{
    const char *path = getenv("TOLD_BYTES");
    FILE *to = path == NULL ? NULL : fopen(path, "ab");
    for (int number = 0; to != NULL; number++) {
        static char bytes[4194304];
        char from[80];
        snprintf(from, sizeof from, "/sys/kernel/debug/visl/bitstream/bitstream%d", number);
        FILE *kept = fopen(from, "rb");
        if (kept == NULL)
            break;
        size_t count = fread(bytes, 1, sizeof bytes, kept);
        fprintf(to, "%d %lu\n", number, (unsigned long)count);
        fwrite(bytes, 1, count, to);
        fclose(kept);
    }
    if (to != NULL)
        fclose(to);
}

static void tell(const char *form, ...)
{
    if (told == NULL) {
        const char *path = getenv("TOLD_CALLS");
        told = path == NULL ? stderr : fopen(path, "w");
        if (told == NULL)
            told = stderr;
        atexit(keep_bytes);
    }
    va_list words;
    va_start(words, form);
    vfprintf(told, form, words);
    va_end(words);
}

static const char *queue_of(unsigned type)
{
    return V4L2_TYPE_IS_OUTPUT(type) ? "OUTPUT" : "CAPTURE";
}

static unsigned long long nanoseconds(const struct v4l2_buffer *buffer)
{
    return 1000000000ull * (unsigned long long)buffer->timestamp.tv_sec + 1000ull * (unsigned long long)buffer->timestamp.tv_usec;
}

static void tell_argument(unsigned long call, const void *argument)
{
    if (call == VIDIOC_S_FMT || call == VIDIOC_G_FMT) {
        const struct v4l2_format *is = argument;
        const struct v4l2_pix_format_mplane *pix = &is->fmt.pix_mp;
        tell(" %s %ux%u %.4s planes %u sizeimage %u", queue_of(is->type), pix->width, pix->height, (const char *)&pix->pixelformat,
             pix->num_planes, pix->plane_fmt[0].sizeimage);
    } else if (call == VIDIOC_S_EXT_CTRLS) {
        const struct v4l2_ext_controls *are = argument;
        tell(" which %x error_idx %u ids", are->which, are->error_idx);
        for (unsigned i = 0; i < are->count; i++)
            tell(" %x(%u)", are->controls[i].id, are->controls[i].size);
    } else if (call == VIDIOC_REQBUFS) {
        const struct v4l2_requestbuffers *are = argument;
        tell(" %s count %u capabilities %x", queue_of(are->type), are->count, are->capabilities);
    } else if (call == VIDIOC_QBUF || call == VIDIOC_DQBUF || call == VIDIOC_QUERYBUF) {
        const struct v4l2_buffer *is = argument;
        tell(" %s index %u flags %x ts %llu bytes %u", queue_of(is->type), is->index, is->flags, nanoseconds(is),
             is->length != 0 && is->m.planes != NULL ? is->m.planes[0].bytesused : 0);
    } else if (call == VIDIOC_STREAMON || call == VIDIOC_STREAMOFF) {
        tell(" %s", queue_of(*(const unsigned *)argument));
    }
}

static void spoil(const struct v4l2_ext_controls *controls)
{
    unsigned control = 0;
    unsigned place = 0;
    unsigned bits = 0;
    const char *words = getenv("TOLD_SPOIL");
    if (words == NULL || controls->which != V4L2_CTRL_WHICH_REQUEST_VAL || sscanf(words, "%u:%u:%u", &control, &place, &bits) != 3)
        return;
    for (unsigned i = 0; i < controls->count; i++)
        if (controls->controls[i].id == V4L2_CID_CODEC_STATELESS_BASE + control && place < controls->controls[i].size)
            ((unsigned char *)controls->controls[i].ptr)[place] ^= (unsigned char)bits;
}

static int call_and_tell(int file, unsigned long call, void *argument)
{
    int answer = __real_ioctl(file, call, argument);
    int number = errno;
    const char *name = "OTHER";
    for (size_t i = 0; i < sizeof names / sizeof *names; i++)
        if (names[i].call == call)
            name = names[i].name;
    tell("%s", name);
    tell_argument(call, argument);
    if (answer < 0)
        tell(" FAILED %d %s\n", number, strerror(number));
    else
        tell("\n");
    errno = number;
    return answer;
}

/* Keeps a CAPTURE buffer back; whether it does. */
static int holds_back(int file, const struct v4l2_buffer *buffer)
{
    if (getenv("TOLD_SLOW") == NULL || V4L2_TYPE_IS_OUTPUT(buffer->type) || waiting_count == MOST_WAITING
        || buffer->length > VIDEO_MAX_PLANES)
        return 0;
    waiting[waiting_count].file = file;
    waiting[waiting_count].buffer = *buffer;
    if (V4L2_TYPE_IS_MULTIPLANAR(buffer->type))
        memcpy(waiting[waiting_count].planes, buffer->m.planes, buffer->length * sizeof *buffer->m.planes);
    waiting_count++;
    return 1;
}

static void queue_waiting(void)
{
    for (unsigned i = 0; i < waiting_count; i++) {
        if (V4L2_TYPE_IS_MULTIPLANAR(waiting[i].buffer.type))
            waiting[i].buffer.m.planes = waiting[i].planes;
        call_and_tell(waiting[i].file, VIDIOC_QBUF, &waiting[i].buffer);
    }
    waiting_count = 0;
}

int __wrap_ioctl(int file, unsigned long call, void *argument)
{
    if (call == VIDIOC_S_EXT_CTRLS)
        spoil(argument);
    if (call == VIDIOC_QBUF && holds_back(file, argument))
        return 0;
    if (call == VIDIOC_STREAMOFF && V4L2_TYPE_IS_OUTPUT(*(const unsigned *)argument))
        keep_bytes();
    return call_and_tell(file, call, argument);
}

int __wrap_poll(struct pollfd *files, nfds_t count, int milliseconds)
{
    queue_waiting();
    int answer = __real_poll(files, count, milliseconds);
    int number = errno;
    tell("poll revents %x = %d%s\n", (unsigned)files->revents, answer, answer == 0 ? " FAILED timeout" : answer < 0 ? " FAILED" : "");
    errno = number;
    return answer;
}
