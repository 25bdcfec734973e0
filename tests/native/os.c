/* The kit's C functions behind `os`, built again for a machine that is not x86-64 (tests/native/build.sh). */
#include <errno.h>
#include <fcntl.h>
#include <stddef.h>
#include <string.h>

static int argument_count;
static char **argument_list;

__attribute__((constructor)) static void keep_arguments(int argc, char **argv) {
    argument_count = argc;
    argument_list = argv;
}

int rattle_open_to_read(const char *path) { return open(path, O_RDONLY | O_CLOEXEC); }
int rattle_errno(void) { return errno; }
void rattle_set_errno(int error) { errno = error; }
size_t rattle_arg_count(void) { return (size_t)argument_count; }

/* argument i at the start of buf and its length, -1 where there is none, -2 where it does not fit and buf is full */
ptrdiff_t rattle_arg(size_t i, unsigned char *buf, size_t size) {
    if (i >= (size_t)argument_count) return -1;
    size_t n = strlen(argument_list[i]);
    memcpy(buf, argument_list[i], n < size ? n : size);
    return n <= size ? (ptrdiff_t)n : -2;
}
