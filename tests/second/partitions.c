/* partitions IN.ppm OUT.webp QUALITY METHOD SEGMENTS SHARPNESS PARTITIONS: encodes a picture as cwebp does, with 2^PARTITIONS token
 * partitions, for which cwebp has no option. */
#include <stdio.h>
#include <stdlib.h>
#include <webp/encode.h>

int main(int argc, char **argv) {
    WebPConfig config;
    WebPPicture picture;
    WebPMemoryWriter writer;
    FILE *in = argc == 8 ? fopen(argv[1], "rb") : NULL, *out;
    int width, height;
    if (!in || fscanf(in, "P6 %d %d 255", &width, &height) != 2 || fgetc(in) != '\n') return 2;
    size_t size = (size_t)width * (size_t)height * 3;
    uint8_t *samples = malloc(size);
    if (!samples || fread(samples, 1, size, in) != size) return 2;
    if (!WebPConfigInit(&config) || !WebPPictureInit(&picture)) return 2;
    config.quality = (float)atof(argv[3]);
    config.method = atoi(argv[4]);
    config.segments = atoi(argv[5]);
    config.filter_sharpness = atoi(argv[6]);
    config.partitions = atoi(argv[7]);
    config.low_memory = 1; /* else methods from 3 on write one partition */
    picture.width = width;
    picture.height = height;
    WebPMemoryWriterInit(&writer);
    picture.writer = WebPMemoryWrite;
    picture.custom_ptr = &writer;
    if (!WebPPictureImportRGB(&picture, samples, 3 * width) || !WebPEncode(&config, &picture)) return 1;
    out = fopen(argv[2], "wb");
    if (!out || fwrite(writer.mem, 1, writer.size, out) != writer.size || fclose(out)) return 2;
    return 0;
}
