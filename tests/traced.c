/*
 * Linked into examples/mapped.c by the linker's --wrap: says each msync and each call of zib_resume on standard error, in the order in which they come,
 * so that tests/powercut can compare the program with the recipe of its model.
 */
#include <stdio.h>
#include <sys/mman.h>

#include "zibsnarda.h"

int __real_msync(void *at, size_t bytes, int how);
int __wrap_msync(void *at, size_t bytes, int how);
uint32_t __real_zib_resume(uint32_t *buffer, size_t buffer_words, uint32_t *scratch, size_t scratch_words, uint32_t *progress, size_t m, size_t n,
                           size_t budget);
uint32_t __wrap_zib_resume(uint32_t *buffer, size_t buffer_words, uint32_t *scratch, size_t scratch_words, uint32_t *progress, size_t m, size_t n,
                           size_t budget);

int __wrap_msync(void *at, size_t bytes, int how) {
    fprintf(stderr, "%s %zu\n", how == MS_SYNC ? "msync" : "msync that does not wait", bytes);
    return __real_msync(at, bytes, how);
}

uint32_t __wrap_zib_resume(uint32_t *buffer, size_t buffer_words, uint32_t *scratch, size_t scratch_words, uint32_t *progress, size_t m, size_t n,
                           size_t budget) {
    fprintf(stderr, "zib_resume %zu\n", budget);
    return __real_zib_resume(buffer, buffer_words, scratch, scratch_words, progress, m, n, budget);
}
