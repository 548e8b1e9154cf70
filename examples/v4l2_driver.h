/*
 * The calls of a stateless H.264 decoder's driver (Linux media documentation, "Memory-to-memory Stateless Video Decoder
 * Interface" and "Request API"): made on a device, or printed where there is none. Each function answers whether its calls
 * were made; where one fails, it has said so on standard error.
 *
 * Each OUTPUT buffer has a request of its own, and both are used again, in turn; each CAPTURE buffer is a surface. With one
 * OUTPUT buffer the host waits for each request, with several it queues the next ones while the hardware is busy.
 */
#ifndef V4L2_DRIVER_H
#define V4L2_DRIVER_H

#include "cupdaisy.h"

#include <errno.h>
#include <fcntl.h>
#include <linux/media.h>
#include <linux/videodev2.h>
#include <poll.h>
#include <stdarg.h>
#include <stdio.h>
#include <string.h>
#include <sys/ioctl.h>
#include <sys/mman.h>

/* The most bytes that the slices of a picture have, how long a decode may take, and the most requests that are in flight. */
enum { MOST_BYTES = 4194304, MILLISECONDS = 5000, MOST_REQUESTS = 16 };

struct queue {
    const char *name;
    uint32_t type;
    uint32_t buffers;
    uint32_t planes; /* 0 where the device has the calls without planes */
};

/* An OUTPUT buffer with its request. */
struct slot {
    uint32_t index;
    int request;
    uint8_t *bytes;
    size_t capacity;
};

struct driver {
    int video; /* -1 without a device */
    int media;
    bool is_frame_based;
    bool has_start_codes;
    bool holds;            /* whether the CAPTURE buffer can be held over several slices */
    bool has_matrices;     /* whether it has the control of scaling matrices; tegra-vde has none */
    uint32_t requests;     /* how many are wanted in flight */
    uint32_t has_requests; /* how many were allocated */
    struct queue output;
    struct queue capture;
    struct slot slots[MOST_REQUESTS];
    uint64_t queued;   /* how many requests were queued */
    uint64_t finished; /* how many of these came back */
};

/* Prints a call where there is no device to make it on. */
static void tell(const struct driver *driver, const char *form, ...)
{
    va_list words;
    va_start(words, form);
    if (driver->video < 0)
        vprintf(form, words);
    va_end(words);
}

static bool failed(const char *what)
{
    fprintf(stderr, "v4l2_request: %s: %s\n", what, strerror(errno));
    return false;
}

/* Says what the device can't do where it has to. */
static bool is_able(bool able, const char *otherwise)
{
    if (!able)
        fprintf(stderr, "v4l2_request: %s\n", otherwise);
    return able;
}

static bool is_made(const struct driver *driver, int file, unsigned long call, void *argument, const char *name)
{
    int answer = 0;
    do
        answer = driver->video < 0 ? 0 : ioctl(file, call, argument);
    while (answer < 0 && errno == EINTR);
    return answer >= 0 || failed(name);
}

/* Opens both devices; with one name missing there is none, and each call is printed. */
static bool open_driver(struct driver *driver, const char *video, const char *media)
{
    driver->video = driver->media = -1;
    if (video == NULL || media == NULL)
        return true;
    driver->media = open(media, O_RDWR | O_CLOEXEC);
    if (driver->media < 0)
        return failed(media);
    driver->video = open(video, O_RDWR | O_CLOEXEC);
    return driver->video >= 0 || failed(video);
}

/* Asks what the device is, and by which types its queues go. */
static bool query(struct driver *driver)
{
    struct v4l2_capability capability;
    memset(&capability, 0, sizeof capability);
    tell(driver, "VIDIOC_QUERYCAP\n");
    if (!is_made(driver, driver->video, VIDIOC_QUERYCAP, &capability, "VIDIOC_QUERYCAP"))
        return false;
    uint32_t able = capability.capabilities & V4L2_CAP_DEVICE_CAPS ? capability.device_caps : capability.capabilities;
    bool has_planes = driver->video < 0 || (able & V4L2_CAP_VIDEO_M2M_MPLANE) != 0;
    if (!is_able(has_planes || (able & V4L2_CAP_VIDEO_M2M) != 0, "the device is no decoder"))
        return false;
    driver->output.name = "OUTPUT";
    driver->output.type = has_planes ? V4L2_BUF_TYPE_VIDEO_OUTPUT_MPLANE : V4L2_BUF_TYPE_VIDEO_OUTPUT;
    driver->output.planes = has_planes ? 1 : 0;
    driver->capture.name = "CAPTURE";
    driver->capture.type = has_planes ? V4L2_BUF_TYPE_VIDEO_CAPTURE_MPLANE : V4L2_BUF_TYPE_VIDEO_CAPTURE;
    driver->capture.planes = has_planes ? 1 : 0;
    return true;
}

/* Whether the pictures of a format, which the device may change, are of a size at least. Some make them larger: visl 64x64. */
static bool has_room(const struct queue *queue, const struct v4l2_format *format, const struct v4l2_ctrl_h264_sps *sps)
{
    uint32_t width = queue->planes != 0 ? format->fmt.pix_mp.width : format->fmt.pix.width;
    uint32_t height = queue->planes != 0 ? format->fmt.pix_mp.height : format->fmt.pix.height;
    return is_able(width >= 16u * (sps->pic_width_in_mbs_minus1 + 1u) && height >= 16u * (sps->pic_height_in_map_units_minus1 + 1u),
                   "the device has no pictures as large as the stream's");
}

/* Sets the coded format, and looks at what the device made of it. */
static bool set_format(const struct driver *driver, const struct v4l2_ctrl_h264_sps *sps)
{
    struct v4l2_format format;
    uint32_t width = 16u * (sps->pic_width_in_mbs_minus1 + 1u);
    uint32_t height = 16u * (sps->pic_height_in_map_units_minus1 + 1u);
    memset(&format, 0, sizeof format);
    format.type = driver->output.type;
    if (driver->output.planes != 0) {
        format.fmt.pix_mp.width = width;
        format.fmt.pix_mp.height = height;
        format.fmt.pix_mp.pixelformat = V4L2_PIX_FMT_H264_SLICE;
        format.fmt.pix_mp.num_planes = 1;
        format.fmt.pix_mp.plane_fmt[0].sizeimage = MOST_BYTES;
    } else {
        format.fmt.pix.width = width;
        format.fmt.pix.height = height;
        format.fmt.pix.pixelformat = V4L2_PIX_FMT_H264_SLICE;
        format.fmt.pix.sizeimage = MOST_BYTES;
    }
    tell(driver, "VIDIOC_S_FMT OUTPUT S264 %ux%u sizeimage %u\n", (unsigned)width, (unsigned)height, (unsigned)MOST_BYTES);
    if (!is_made(driver, driver->video, VIDIOC_S_FMT, &format, "VIDIOC_S_FMT OUTPUT"))
        return false;
    uint32_t coded = driver->output.planes != 0 ? format.fmt.pix_mp.pixelformat : format.fmt.pix.pixelformat;
    return is_able(coded == V4L2_PIX_FMT_H264_SLICE, "the device doesn't decode slices of H.264")
           && has_room(&driver->output, &format, sps);
}

/* Asks whether the device has the control of scaling matrices. */
static void ask_matrices(struct driver *driver)
{
    struct v4l2_query_ext_ctrl asked;
    memset(&asked, 0, sizeof asked);
    asked.id = V4L2_CID_STATELESS_H264_SCALING_MATRIX;
    tell(driver, "VIDIOC_QUERY_EXT_CTRL scaling_matrix\n");
    driver->has_matrices = driver->video < 0 || ioctl(driver->video, VIDIOC_QUERY_EXT_CTRL, &asked) == 0;
}

/* Adds a control to those of a call. */
static void add(struct v4l2_ext_control *controls, uint32_t *count, uint32_t id, void *value, size_t size)
{
    memset(&controls[*count], 0, sizeof controls[*count]);
    controls[*count].id = id;
    controls[*count].size = (uint32_t)size;
    controls[*count].ptr = value;
    (*count)++;
}

static void add_number(struct v4l2_ext_control *controls, uint32_t *count, uint32_t id, int32_t value)
{
    add(controls, count, id, NULL, 0);
    controls[*count - 1].value = value;
}

/* Sets controls of the request of a slot, or without one of the device. */
static bool set_controls(const struct driver *driver, struct v4l2_ext_control *controls, uint32_t count, const struct slot *slot)
{
    struct v4l2_ext_controls all;
    memset(&all, 0, sizeof all);
    all.which = slot != NULL ? V4L2_CTRL_WHICH_REQUEST_VAL : V4L2_CTRL_WHICH_CUR_VAL;
    all.request_fd = slot != NULL ? slot->request : 0;
    all.count = count;
    all.controls = controls;
    return is_made(driver, driver->video, VIDIOC_S_EXT_CTRLS, &all, "VIDIOC_S_EXT_CTRLS");
}

/* Sets how slices come, and the sequence parameter set, by which the driver chooses the format of its surfaces. */
static bool set_modes(const struct driver *driver, struct v4l2_ctrl_h264_sps *sps)
{
    struct v4l2_ext_control controls[3];
    uint32_t count = 0;
    add_number(controls, &count, V4L2_CID_STATELESS_H264_DECODE_MODE,
               driver->is_frame_based ? V4L2_STATELESS_H264_DECODE_MODE_FRAME_BASED
                                      : V4L2_STATELESS_H264_DECODE_MODE_SLICE_BASED);
    add_number(controls, &count, V4L2_CID_STATELESS_H264_START_CODE,
               driver->has_start_codes ? V4L2_STATELESS_H264_START_CODE_ANNEX_B : V4L2_STATELESS_H264_START_CODE_NONE);
    add(controls, &count, V4L2_CID_STATELESS_H264_SPS, sps, sizeof *sps);
    tell(driver, "VIDIOC_S_EXT_CTRLS decode_mode %s start_code %s sps\n", driver->is_frame_based ? "frame_based" : "slice_based",
         driver->has_start_codes ? "annex_b" : "none");
    return set_controls(driver, controls, count, NULL);
}

/* Asks how many planes a surface has, and how large it is, in the format that the driver chose. */
static bool get_format(struct driver *driver, const struct v4l2_ctrl_h264_sps *sps)
{
    struct v4l2_format format;
    memset(&format, 0, sizeof format);
    format.type = driver->capture.type;
    tell(driver, "VIDIOC_G_FMT CAPTURE\n");
    if (driver->video < 0)
        return true;
    if (!is_made(driver, driver->video, VIDIOC_G_FMT, &format, "VIDIOC_G_FMT CAPTURE"))
        return false;
    if (driver->capture.planes != 0)
        driver->capture.planes = format.fmt.pix_mp.num_planes;
    return has_room(&driver->capture, &format, sps);
}

/* Asks for buffers, of which the device may give fewer or more, or with 0 has those that there are freed; what it is able to. */
static bool ask_buffers(const struct driver *driver, struct queue *queue, uint32_t count, uint32_t *able)
{
    struct v4l2_requestbuffers asked;
    memset(&asked, 0, sizeof asked);
    asked.count = count;
    asked.type = queue->type;
    asked.memory = V4L2_MEMORY_MMAP;
    tell(driver, "VIDIOC_REQBUFS %s %u\n", queue->name, (unsigned)count);
    if (!is_made(driver, driver->video, VIDIOC_REQBUFS, &asked, "VIDIOC_REQBUFS"))
        return false;
    queue->buffers = asked.count < count ? asked.count : count;
    *able = driver->video < 0 ? V4L2_BUF_CAP_SUPPORTS_REQUESTS | V4L2_BUF_CAP_SUPPORTS_M2M_HOLD_CAPTURE_BUF : asked.capabilities;
    return true;
}

static void prepare(const struct queue *queue, struct v4l2_buffer *buffer, struct v4l2_plane *planes)
{
    memset(buffer, 0, sizeof *buffer);
    memset(planes, 0, VIDEO_MAX_PLANES * sizeof *planes);
    buffer->type = queue->type;
    buffer->memory = V4L2_MEMORY_MMAP;
    if (queue->planes != 0) {
        buffer->m.planes = planes;
        buffer->length = queue->planes;
    }
}

/* Maps an OUTPUT buffer; without a device it has memory of the caller's. */
static bool map_output(const struct driver *driver, struct slot *slot, uint8_t *memory)
{
    struct v4l2_buffer buffer;
    struct v4l2_plane planes[VIDEO_MAX_PLANES];
    prepare(&driver->output, &buffer, planes);
    buffer.index = slot->index;
    tell(driver, "VIDIOC_QUERYBUF OUTPUT index %u\nmmap\n", (unsigned)slot->index);
    slot->bytes = memory;
    slot->capacity = MOST_BYTES;
    if (driver->video < 0)
        return true;
    if (!is_made(driver, driver->video, VIDIOC_QUERYBUF, &buffer, "VIDIOC_QUERYBUF"))
        return false;
    slot->capacity = driver->output.planes != 0 ? planes[0].length : buffer.length;
    off_t offset = (off_t)(driver->output.planes != 0 ? planes[0].m.mem_offset : buffer.m.offset);
    void *mapped = mmap(NULL, slot->capacity, PROT_READ | PROT_WRITE, MAP_SHARED, driver->video, offset);
    if (mapped == MAP_FAILED)
        return failed("mmap");
    slot->bytes = (uint8_t *)mapped;
    return true;
}

/* Maps each OUTPUT buffer, and allocates the requests that are missing. */
static bool make_slots(struct driver *driver, uint8_t *memory)
{
    for (uint32_t i = 0; i < driver->output.buffers; i++) {
        struct slot *slot = &driver->slots[i];
        slot->index = i;
        if (!map_output(driver, slot, memory + (size_t)i * MOST_BYTES))
            return false;
        if (i < driver->has_requests)
            continue;
        tell(driver, "MEDIA_IOC_REQUEST_ALLOC\n");
        if (!is_made(driver, driver->media, MEDIA_IOC_REQUEST_ALLOC, &slot->request, "MEDIA_IOC_REQUEST_ALLOC"))
            return false;
        driver->has_requests = i + 1;
    }
    driver->queued = driver->finished = 0;
    return true;
}

static bool start(const struct driver *driver, const struct queue *queue)
{
    int type = (int)queue->type;
    tell(driver, "VIDIOC_STREAMON %s\n", queue->name);
    return is_made(driver, driver->video, VIDIOC_STREAMON, &type, "VIDIOC_STREAMON");
}

/* Prepares everything for pictures of a sequence parameter set, with so many surfaces if the driver gives as many. */
static bool set_up(struct driver *driver, struct v4l2_ctrl_h264_sps *sps, uint32_t surfaces, uint8_t *memory)
{
    uint32_t able = 0;
    uint32_t able_to_capture = 0;
    if (!query(driver) || !set_format(driver, sps) || !set_modes(driver, sps) || !get_format(driver, sps)
        || !ask_buffers(driver, &driver->output, driver->requests, &able)
        || !ask_buffers(driver, &driver->capture, surfaces, &able_to_capture))
        return false;
    ask_matrices(driver);
    driver->holds = (able & V4L2_BUF_CAP_SUPPORTS_M2M_HOLD_CAPTURE_BUF) != 0;
    return is_able((able & V4L2_BUF_CAP_SUPPORTS_REQUESTS) != 0, "the device has no requests")
           && is_able(driver->output.buffers > 0, "the device gives no OUTPUT buffer")
           && is_able(driver->capture.buffers > sps->max_num_ref_frames, "the device gives fewer surfaces than a picture needs")
           && make_slots(driver, memory) && start(driver, &driver->output) && start(driver, &driver->capture);
}

/* Stops a queue. Its buffers are the host's again, whatever the hardware was about. */
static bool stop_queue(const struct driver *driver, const struct queue *queue)
{
    int type = (int)queue->type;
    tell(driver, "VIDIOC_STREAMOFF %s\n", queue->name);
    return is_made(driver, driver->video, VIDIOC_STREAMOFF, &type, "VIDIOC_STREAMOFF");
}

/* Stops both queues and frees their buffers, so that another format can be set. No request is in flight. */
static bool take_down(struct driver *driver)
{
    uint32_t able = 0;
    if (!stop_queue(driver, &driver->output) || !stop_queue(driver, &driver->capture))
        return false;
    tell(driver, "munmap\n");
    for (uint32_t i = 0; driver->video >= 0 && i < driver->output.buffers; i++)
        if (munmap(driver->slots[i].bytes, driver->slots[i].capacity) != 0)
            return failed("munmap");
    return ask_buffers(driver, &driver->output, 0, &able) && ask_buffers(driver, &driver->capture, 0, &able);
}

#endif
