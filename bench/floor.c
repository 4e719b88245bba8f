/* What the disk lets a commit cost: just the writes and syncs of one, on a file that was filled and
 * synced beforehand. floor FILE COMMITS: a record of 47 bytes behind another, each made by the head
 * of 12 bytes, the payload of 34, a sync, the gate and a sync, and a reply said.
 */
#include <fcntl.h>
#include <stdio.h>
#include <stdlib.h>
#include <string.h>
#include <unistd.h>

static void put(int file, const void *bytes, size_t count, off_t at)
{
    if (pwrite(file, bytes, count, at) != (ssize_t)count) {
        perror("pwrite");
        exit(1);
    }
}

static void sync_data(int file)
{
    if (fdatasync(file) != 0) {
        perror("fdatasync");
        exit(1);
    }
}

int main(int words, char **word)
{
    char head[12], payload[34], gate = (char)0xA5, reply[32];
    if (words != 3)
        return 2;
    int file = open(word[1], O_RDWR);
    if (file < 0) {
        perror(word[1]);
        return 1;
    }
    long commits = atol(word[2]);
    memset(head, 1, sizeof head);
    memset(payload, 2, sizeof payload);
    for (long commit = 0; commit < commits; commit++) {
        off_t at = 1024 + 47 * (off_t)commit;
        put(file, head, sizeof head, at + 1);
        put(file, payload, sizeof payload, at + 13);
        sync_data(file);
        put(file, &gate, 1, at);
        sync_data(file);
        int length = snprintf(reply, sizeof reply, "1 COMMITTED %ld\n", commit + 1);
        if (write(1, reply, (size_t)length) != length)
            return 1;
    }
    return 0;
}
