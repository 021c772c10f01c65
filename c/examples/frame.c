// [docs: frame_c]
#include <iobufs.h>
#include <stdio.h>

int main(void) {
    struct iobuf_at input = IOBUF_INIT, body = IOBUF_INIT;
    iobuf_from_static((const uint8_t *)"\5world", 6, &input);
    iobufs_status status = iobuf_read_view(&input, 0, 1024, &body);
    if (status != IOBUFS_OK) return fprintf(stderr, "%s\n", iobufs_strerror(status)), 1;
    const uint8_t *at;
    size_t n = iobuf_chunk(&body, &at);
    printf("%.*s\n", (int)n, (const char *)at);
    iobuf_drop(&input), iobuf_drop(&body);
}
// [docs end]
