/* The first program of the Linux that .ci/usbfs starts: loads its modules, goes into the folder / of the machine that started it, which
 * it may only read, and runs the words of the kernel's command line there. Then it switches off. */
#define _GNU_SOURCE
#include <fcntl.h>
#include <net/if.h>
#include <stdio.h>
#include <string.h>
#include <sys/ioctl.h>
#include <sys/mount.h>
#include <sys/reboot.h>
#include <sys/socket.h>
#include <sys/stat.h>
#include <sys/syscall.h>
#include <sys/wait.h>
#include <unistd.h>

static void load_modules(void) {
    char path[32];
    for (int number = 0;; number++) {
        snprintf(path, sizeof path, "/modules/%d", number);
        int file = open(path, O_RDONLY);
        if (file < 0) return;
        if (syscall(SYS_finit_module, file, "", 0)) perror(path);
        close(file);
    }
}

static void go_there(void) {
    struct ifreq loopback = {.ifr_name = "lo", .ifr_flags = IFF_UP};
    mkdir("/host", 0755);
    if (mount("host", "/host", "9p", MS_RDONLY, "trans=virtio,version=9p2000.L,msize=262144")) perror("/");
    mount("dev", "/host/dev", "devtmpfs", 0, ""), mount("proc", "/host/proc", "proc", 0, ""), mount("sys", "/host/sys", "sysfs", 0, ""), mount("run", "/host/run", "tmpfs", 0, "");
    if (chroot("/host") || chdir("/run")) perror("chroot");
    ioctl(socket(AF_INET, SOCK_DGRAM, 0), SIOCSIFFLAGS, &loopback);
}

int main(int count, char **words) {
    (void)count;
    load_modules();
    go_there();
    pid_t child = fork();
    if (!child) {
        setsid();
        execv(words[1], words + 1);
        perror(words[1]);
        _exit(1);
    }
    while (wait(NULL) != child) continue;
    reboot(RB_POWER_OFF);
}
