/* Copies what the kernel's trace has now, page by page, to standard output; `cat` would wait for more. */
#include <errno.h>
#include <fcntl.h>
#include <stdio.h>
#include <unistd.h>

int main(void)
{
    static char page[65536];
    int file = open("/sys/kernel/tracing/per_cpu/cpu0/trace_pipe_raw", O_RDONLY | O_NONBLOCK);
    if (file < 0)
        return perror("trace_pipe_raw"), 1;
    for (;;) {
        ssize_t count = read(file, page, sizeof page);
        if (count == 0 || (count < 0 && errno == EAGAIN))
            return 0;
        if (count < 0)
            return perror("read"), 1;
        for (ssize_t done = 0; done < count;) {
            ssize_t put = write(1, page + done, (size_t)(count - done));
            if (put < 0)
                return perror("write"), 1;
            done += put;
        }
    }
}
