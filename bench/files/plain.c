/* Copies so many blocks of a file behind one another into another file, each by a read and a write, and syncs at the end. */
#define _GNU_SOURCE
#include <fcntl.h>
#include <stdlib.h>
#include <unistd.h>

int main(int argc, char **argv)
{
    char block[512];
    if (argc != 4)
        return 2;
    int from = open(argv[1], O_RDONLY), to = open(argv[2], O_RDWR | O_CREAT | O_TRUNC, 0600);
    for (long k = 0; k < atol(argv[3]); k++)
        if (pread(from, block, 512, 512 * k) != 512 || pwrite(to, block, 512, 512 * k) != 512)
            return 1;
    return fdatasync(to) != 0;
}
