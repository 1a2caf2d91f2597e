#include "pcap.h"

enum { SECOND = 1000000 };

struct file_head {
    uint32_t magic;
    uint16_t major, minor;
    uint32_t zone, accuracy, most, link;
};

struct record_head {
    uint32_t seconds, micros, kept, length;
};

FILE *pcap_begin(const char *path)
{
    const struct file_head head = {0xa1b2c3d4u, 2, 4, 0, 0, 65535, 1};
    FILE *file = fopen(path, "wb");
    if (file != NULL && (fwrite(&head, sizeof head, 1, file) != 1 || fflush(file) != 0)) {
        fclose(file);
        return NULL;
    }
    return file;
}

void pcap_add(FILE *capture, uint64_t moment, const uint8_t *frame, size_t len)
{
    const struct record_head head = {(uint32_t)(moment / SECOND), (uint32_t)(moment % SECOND), (uint32_t)len, (uint32_t)len};
    fwrite(&head, sizeof head, 1, capture);
    fwrite(frame, 1, len, capture);
}
