// A library for LD_PRELOAD: a kernel that has no ring for packet sockets.
#include <errno.h>
#include <linux/if_packet.h>
#include <sys/socket.h>
#include <sys/syscall.h>
#include <unistd.h>

int setsockopt(int s, int level, int name, const void *value, socklen_t length)
{
    if (level == SOL_PACKET && name == PACKET_RX_RING) {
        errno = EINVAL;
        return -1;
    }
    return (int)syscall(SYS_setsockopt, s, level, name, value, length);
}
