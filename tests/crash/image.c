/* The image: a file of shared memory, which outlives the process that writes it. */
#define _GNU_SOURCE
#include <stdio.h>
#include <stdlib.h>
#include <sys/mman.h>
#include <unistd.h>

#include "crash.h"

static int file;

/* In the system's shared memory; where there is none, an ordinary temporary file. */
void image_make(void)
{
    char shared[] = "/dev/shm/crash-XXXXXX", ordinary[] = "/tmp/crash-XXXXXX";
    if ((file = mkstemp(shared)) >= 0)
        unlink(shared);
    else if ((file = mkstemp(ordinary)) >= 0)
        unlink(ordinary);
    must(file >= 0, "a file for the image");
}

uint64_t *image_map(uint32_t blocks, int writable)
{
    void *image = mmap(NULL, (size_t)BLOCK * blocks, writable ? PROT_READ | PROT_WRITE : PROT_READ, MAP_SHARED, file, 0);
    must(image != MAP_FAILED, "mapping the image");
    return image;
}

void image_unmap(uint64_t *image, uint32_t blocks)
{
    munmap(image, (size_t)BLOCK * blocks);
}

void image_lay_out(uint32_t blocks, uint64_t *dice)
{
    size_t words = (size_t)STORE_BLOCK_WORDS * blocks;
    must(ftruncate(file, (off_t)(8 * words)) == 0, "the image's size");
    uint64_t *image = image_map(blocks, 1);
    if (below(dice, 2) == 0)
        for (size_t w = 0; w < words; w++)
            image[w] = draw(dice);
    must(store_lay_out(image, words) == STORE_DONE, "laying out");
    image_unmap(image, blocks);
}

void image_save(const uint64_t *image, uint32_t blocks, const char *path)
{
    FILE *copy = fopen(path, "wb");
    must(copy != NULL && fwrite(image, BLOCK, blocks, copy) == blocks && fclose(copy) == 0, path);
    printf("its image is in %s\n", path);
}
