// What an append costs at least: two writes and two syncs of one file, 200 times.
#include <fcntl.h>
#include <string.h>
#include <sys/stat.h>
#include <unistd.h>

int main(void) {
    mkdir("bench-log", 0755);
    int file = open("bench-log/plain", O_RDWR | O_CREAT | O_TRUNC, 0644);
    unsigned char body[64];
    memset(body, 7, sizeof body);
    unsigned char gate = 0xa5;
    off_t at = 0;
    for (int i = 0; i < 200; i++) {
        if (pwrite(file, body, sizeof body, at + 1) != sizeof body || fsync(file) != 0) return 1;
        if (pwrite(file, &gate, 1, at) != 1 || fsync(file) != 0) return 1;
        at += 1 + sizeof body;
    }
    return 0;
}
